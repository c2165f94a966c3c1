#!/usr/bin/env python3
# The expected lines of the written-down cases of the rates, worked out from the rules (R68 to R85) by exact whole numbers:
#   cases/rate_cases.py < crates/rate_cases/stdin > crates/rate_cases/stdout
# F is not searched for by halving, as the code does.
import sys


def obeys(count, classes):
    if count != len(classes) or not 1 <= count <= 63:
        return False
    for number, (leaf, parent, weight) in enumerate(classes, 1):
        if parent >= number or parent > 0 and classes[parent - 1][0]:
            return False
        if not 1 <= weight <= 1000000:
            return False
        children = [c for c in classes if c[1] == number]
        if not leaf and (not children or sum(c[2] for c in children) > weight):
            return False
    return True


def largest(has, children):
    # each child is met from some F on; between two such numbers what the children get is a fixed sum and so much for each unit of F
    steps = sorted({0} | {-(-request // weight) for weight, request in children})
    found = 0
    for start, following in zip(steps, steps[1:]):
        met = sum(request for weight, request in children if request <= weight * start)
        unmet = sum(weight for weight, request in children if request > weight * start)
        f = min((has - met) // unmet, following - 1)
        if f >= start:
            found = f

    def total(f):
        return sum(min(request, weight * f) for weight, request in children)

    assert total(found) <= has < total(found + 1)
    return found


def rates(count, classes, capacity, table):
    if not obeys(count, classes):
        return ["stop 11 0"]
    if not 1 <= capacity <= 1000000000:
        return ["stop 20 0"]
    for number, (leaf, _, _) in enumerate(classes, 1):
        if leaf and table[number] > 1000000000:
            return ["stop 21 %d" % number]
    below = {n: [i for i, c in enumerate(classes, 1) if c[1] == n] for n in range(count + 1)}

    def request(n):
        return table[n] if n > 0 and classes[n - 1][0] else sum(request(i) for i in below[n])

    gets = {0: min(capacity, request(0))}
    left = {}
    for n in range(count + 1):
        left[n] = 0
        if not below[n]:
            continue
        if gets[n] == request(n):
            for i in below[n]:
                gets[i] = request(i)
        else:
            f = largest(gets[n], [(classes[i - 1][2], request(i)) for i in below[n]])
            for i in below[n]:
                gets[i] = min(request(i), classes[i - 1][2] * f)
            left[n] = gets[n] - sum(gets[i] for i in below[n])
    return ["rate %d %d %d %d" % (n, request(n), gets[n], left[n]) for n in range(count + 1)]


print("Rates: rate CLASS REQUEST GETS UNALLOTTED for each class, or stop NUMBER PLACE")
for line in sys.stdin.read().split("\n"):
    word = line.split(" ")
    if line.startswith("#"):
        print(line)
        classes, count, capacity, table = [], 0, 0, [0] * 64
    elif word[0] in ("inner", "leaf"):
        classes.append((word[0] == "leaf", int(word[1]), int(word[2])))
        count += 1
    elif word[0] == "wild":
        count = int(word[1])
    elif word[0] == "capacity":
        capacity = int(word[1])
    elif word[0] == "every":
        table = [int(word[1])] * 64
    elif word[0] == "request":
        table[int(word[1])] = int(word[2])
    elif word[0] == "answer":
        print("\n".join(rates(count, classes, capacity, table)))
