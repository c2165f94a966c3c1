#!/usr/bin/env python3
# The written-down cases of the calls, cases/link_cases.txt: a text of named cases, each command with the lines that it is to print.
# It is packed into the input and the expected lines of the program link_cases, crates/link_cases/stdin and stdout.
#   cases/link_cases.py            checks that both files are what the text packs to, and each line of the text what the model says
#   cases/link_cases.py --write    puts the model's lines into the text and packs it anew
# It says what differs, by the names of the cases. Its status is 1 where something differs, 2 where the text cannot be read.
# The model works the rules (R86 to R164, R276, R277, R308 to R311, and of the second engine R315 to R334) in plain whole numbers, and judges
# nothing by what the crates answer. It was written beside our definitions and the program's source: a second computation, and not the
# independent reading, which is second/second.rs.
import difflib
import os
import sys

ROOT = os.path.dirname(os.path.dirname(os.path.realpath(__file__)))
TEXT = "cases/link_cases.txt"
STDIN = "crates/link_cases/stdin"
STDOUT = "crates/link_cases/stdout"
MOST_BYTES = 131072

# Class numbers are 0 to 63, the root is 0; a class has 32 waiting places.
NUMBERS = 64
PLACES = 32
WRAP = 1 << 64
NOT_SOUND, NO_LEAF, BAD_LENGTH, FULL, NONE_WAITS = 11, 12, 13, 14, 15


# ---- The model: the record of a link ----


class Link:
    # The link without classes: every number is 0.
    def __init__(self):
        self.count = 0
        self.leaves = set()
        self.parent = [0] * NUMBERS
        self.weight = [0] * NUMBERS
        self.longest = [0] * NUMBERS
        self.rule = 1
        self.size = 0
        self.active = set()
        self.place = 0
        self.balance = [0] * NUMBERS
        self.residual = [0] * NUMBERS
        self.start = [0] * NUMBERS
        self.held = [0] * NUMBERS
        self.length = [0] * (NUMBERS * PLACES)
        self.tag = [0] * (NUMBERS * PLACES)
        self.packets = [0] * NUMBERS
        self.bytes = [0] * NUMBERS
        self.mark = [0] * (NUMBERS * PLACES)
        self.charged = 0
        # of the second engine: the classes that have their quota in this round, and the quotas
        self.asked = set()
        self.quota = [0] * NUMBERS

    def copy(self):
        other = Link.__new__(Link)
        for name, value in vars(self).items():
            setattr(other, name, value if isinstance(value, int) else value.copy())
        return other

    def __eq__(self, other):
        return vars(self) == vars(other)

    def classes(self):
        return range(1, self.count + 1)

    def is_leaf(self, i):
        return 1 <= i <= self.count and i in self.leaves

    def children(self, i):
        return [k for k in self.classes() if self.parent[k] == i]

    # Where packet n of a class waits: its queue goes round its 32 places.
    def waiting_place(self, i, n):
        return i * PLACES + (self.start[i] + n) % PLACES

    def queued_lengths(self, i):
        return [self.length[self.waiting_place(i, n)] for n in range(self.held[i])]

    # A class and the classes above it, as far as each has a lower parent.
    def way_up(self, i):
        way = [i]
        while self.parent[way[-1]] < way[-1]:
            way.append(self.parent[way[-1]])
        return way

    # The totals on the way up from a class change by so many packets and bytes.
    def count_up(self, i, packets, charges):
        for k in self.way_up(i):
            self.packets[k] += packets
            self.bytes[k] += charges

    # A packet joins the queue of a class, and its totals; its mark is the running total.
    def put_last(self, i, length, tag):
        at = self.waiting_place(i, self.held[i])
        self.length[at], self.tag[at], self.mark[at] = length, tag, self.charged
        self.held[i] += 1
        self.count_up(i, 1, charge(length))

    # The first packet of a class leaves its queue, and its totals: its length, its tag and its mark.
    def take_first(self, i):
        at = self.waiting_place(i, 0)
        self.start[i] = (self.start[i] + 1) % PLACES
        self.held[i] -= 1
        self.count_up(i, -1, -charge(self.length[at]))
        return self.length[at], self.tag[at], self.mark[at]

    # The running total has 64 bits, and wraps.
    def charge_more(self, charges):
        self.charged = (self.charged + charges) % WRAP


# What a packet takes of the wire (R15 to R17): balances, Q and every comparison count charges, all else is bare lengths.
def charge(length):
    return max(length + 4, 64) + 20


# ---- The model: the plan rules, Q and soundness ----


# A number that is no class has nothing, the root neither.
def unused(link, i):
    return not (link.parent[i] or link.weight[i] or link.longest[i] or i in link.leaves)


def class_obeys(link, i):
    parent = link.parent[i]
    if parent >= i or parent in link.leaves:
        return False
    if not 1 <= link.weight[i] <= 1000000:
        return False
    if link.is_leaf(i):
        return 1 <= link.longest[i] <= 9216
    children = link.children(i)
    return link.longest[i] == 0 and len(children) > 0 and sum(link.weight[k] for k in children) <= link.weight[i]


def tree_obeys(link):
    if not 1 <= link.count <= 63:
        return False
    return all(class_obeys(link, i) if 1 <= i <= link.count else unused(link, i) for i in range(NUMBERS))


# All weights of these classes, and the charge of the longest packet of each leaf among them.
def size_of(link, classes):
    return sum(link.weight[i] for i in classes) + sum(charge(link.longest[i]) for i in classes if link.is_leaf(i))


# Q, the whole tree's round size.
def round_size(link):
    return size_of(link, link.classes())


# The size in force (R232): under rule 1 Q, under rule 2 never above it.
def size_right(link):
    return link.size <= round_size(link) if link.rule == 2 else link.size == round_size(link)


def queue_sound(link, i):
    if link.start[i] >= PLACES:
        return False
    if not link.is_leaf(i):
        return link.held[i] == 0
    if link.held[i] > PLACES or i in link.active and link.held[i] == 0:
        return False
    return all(1 <= length <= link.longest[i] for length in link.queued_lengths(i))


# An inactive class has nothing, but for the root; a leaf has no residual.
def account_sound(link, i):
    if link.is_leaf(i) and link.residual[i]:
        return False
    return i == 0 or i in link.active or link.balance[i] == link.residual[i] == 0


# The classes above these leaves, with the root.
def above(link, leaves):
    found = set()
    for i in leaves:
        while i > 0:
            i = link.parent[i]
            found.add(i)
    return found


# Active: leaves, and exactly the classes above them.
def active_sound(link):
    leaves = {i for i in link.active if link.is_leaf(i)}
    return link.active == leaves | above(link, leaves)


# The packets and the bytes, in charges, that wait at the leaves at or below each class number (R276): every leaf is added to each class
# that it is below.
def sums(link):
    packets, charges = [0] * NUMBERS, [0] * NUMBERS
    for leaf in link.leaves - {0}:
        waiting = link.queued_lengths(leaf)
        for i in link.way_up(leaf):
            packets[i] += len(waiting)
            charges[i] += sum(map(charge, waiting))
    return packets, charges


def totals_right(link):
    return (link.packets, link.bytes) == sums(link)


def can_send(link, i):
    return link.is_leaf(i) and i in link.active and link.balance[i] >= charge(link.queued_lengths(i)[0])


def is_sound(link):
    if not tree_obeys(link) or not size_right(link):
        return False
    if not all(queue_sound(link, i) and account_sound(link, i) for i in range(NUMBERS)):
        return False
    if not active_sound(link) or sum(link.balance) + sum(link.residual) != link.size or not totals_right(link):
        return False
    return 1 <= link.place <= 64 and not any(can_send(link, i) for i in link.classes() if i < link.place)


# ---- The model: a plan, a fresh link, an arrival ----


# The tree of a plan's bytes, or none where a rule of the reader or of the plan is broken.
def read_plan(plan):
    tree = Link()
    at = 0
    if plan[:1] == b"\3":
        if plan[1:2] not in (b"\1", b"\2"):
            return None
        tree.rule = plan[1]
        at = 2
    while plan[at : at + 1] in (b"\1", b"\2"):
        leaf = plan[at] == 2
        body = plan[at + 1 : at + (8 if leaf else 6)]
        if len(body) < (7 if leaf else 5) or tree.count == 63:
            return None
        tree.count += 1
        i = tree.count
        tree.parent[i] = body[0]
        tree.weight[i] = int.from_bytes(body[1:5], "big")
        if leaf:
            tree.leaves.add(i)
            tree.longest[i] = int.from_bytes(body[5:7], "big")
        at += 1 + len(body)
    if plan[at : at + 1] != b"\0" or not tree_obeys(tree):
        return None
    return tree


# A fresh link of a tree: the root has all Q. A tree that breaks a rule gives the link without classes.
def fresh(tree):
    link = Link()
    if not tree_obeys(tree):
        return link, "fresh %d 0 size 0" % NOT_SOUND
    link.count = tree.count
    link.leaves = tree.leaves.copy()
    link.rule = tree.rule
    link.parent, link.weight, link.longest = tree.parent[:], tree.weight[:], tree.longest[:]
    link.size = link.balance[0] = round_size(tree)
    link.place = 64
    return link, "fresh 0 0 size %d" % link.size


# The number and the place of an arrival's refusal, 0 and 0 where it is taken.
def arrival_refusal(link, i, length):
    if not is_sound(link):
        return NOT_SOUND, 0
    if not link.is_leaf(i):
        return NO_LEAF, i
    if not 1 <= length <= link.longest[i]:
        return BAD_LENGTH, i
    if link.held[i] == PLACES:
        return FULL, i
    return 0, 0


# An arrival puts its packet at the end of its leaf's queue, and counts it on the way up. It moves no account, and makes no class active.
def arrive(before, i, length, tag):
    link = before.copy()
    number, place = arrival_refusal(before, i, length)
    if number == 0:
        link.put_last(i, length, tag)
    held = link.held[i] if i < NUMBERS else 0
    waiting = 0 if number else sum(charge(length) for length in link.queued_lengths(i))
    return link, "in %d %d bytes %d held %d %s" % (number, place, waiting, held, same(before, link))


def same(before, after):
    return "same" if before == after else "changed"


# ---- The model: rounds and sends ----


# The weight sum of a class: its active children.
def weight_sum(link, i):
    return sum(link.weight[k] for k in link.children(i) if k in link.active)


# A round is a surplus round where an active inner class has its weight sum or more, and else a main round.
def has_surplus(link):
    inner = [i for i in link.classes() if i in link.active and not link.is_leaf(i)]
    return any(link.balance[i] + link.residual[i] >= weight_sum(link, i) for i in inner)


# A class hands down its balance by whole quotas, and keeps what its weight sum does not divide.
def hand_down(link, i):
    quota, link.balance[i] = divmod(link.balance[i], weight_sum(link, i))
    return quota


# A round begins at place 1: the leaves that hold a packet take part. Whether it is a surplus round.
# In a surplus round the root keeps its account as it is, and so does the size in force. In a main round under rule 2 the size becomes
# that of the active classes, and the root takes the difference once its residual has joined its balance (R230).
def begin_round(link):
    leaves = {i for i in link.classes() if link.is_leaf(i) and link.held[i] > 0}
    link.active = leaves | above(link, leaves)
    link.place = 1
    if has_surplus(link):
        return True
    link.balance[0] += link.residual[0]
    link.residual[0] = 0
    if link.rule == 2:
        old, link.size = link.size, size_of(link, [i for i in link.classes() if i in link.active])
        link.balance[0] += link.size - old
        # B + R + new is never below old: the model holds itself to it.
        assert link.balance[0] >= 0, "the root cannot take the difference of the sizes"
    return False


# A round opens: every active class gets its share, from the top down; in a surplus round the root hands down nothing.
def open_round(link):
    quota = [0] * NUMBERS
    if not begin_round(link):
        quota[0] = hand_down(link, 0)
    for i in link.classes():
        if i in link.active:
            link.balance[i] += link.residual[i] + link.weight[i] * quota[link.parent[i]]
            link.residual[i] = 0
            if not link.is_leaf(i):
                quota[i] = hand_down(link, i)


# A class turns inactive: its balance and residual go to its parent's residual, and so on up while no child is active.
# The root turns inactive with its last child, and keeps its account.
def turn_inactive(link, i):
    link.active.discard(i)
    while i > 0:
        parent = link.parent[i]
        link.residual[parent] += link.balance[i] + link.residual[i]
        link.balance[i] = link.residual[i] = 0
        if any(k in link.active for k in link.children(parent)):
            return
        i = parent
        link.active.discard(i)


# The first leaf from the place on that can send; rounds open until there is one. How many opened, too.
def next_leaf(link):
    rounds = 0
    while True:
        able = [i for i in link.classes() if i >= link.place and can_send(link, i)]
        if able:
            return able[0], rounds
        open_round(link)
        rounds += 1
        # A surplus round may send nothing, the main round after it sends: the model holds itself to it.
        assert rounds <= 2, "the model opens a third round in one send"


# A send by one engine: its own soundness, and how it finds the next leaf.
def send_by(before, sound, next_one):
    refused = "out %d 0 class 0 length 0 tag 0 rounds 0 waited 0 same"
    if not sound(before):
        return before, refused % NOT_SOUND
    if not any(before.held):
        return before, refused % NONE_WAITS
    link = before.copy()
    i, rounds = next_one(link)
    link.place = i
    length, tag, mark = link.take_first(i)
    link.balance[i] -= charge(length)
    link.balance[0] += charge(length)
    link.charge_more(charge(length))
    if link.held[i] == 0:
        turn_inactive(link, i)
    # A state stays sound: the model holds itself to it.
    assert sound(link), "the model's record is not sound after a send"
    waited = (link.charged - mark) % WRAP
    went = "out 0 0 class %d length %d tag %d rounds %d waited %d" % (i, length, tag, rounds, waited)
    return link, "%s %s" % (went, same(before, link))


def send(before):
    return send_by(before, is_sound, next_leaf)


# ---- The model: the second engine ----


# A class that has no quota yet asks its parent, which asks its own, up to the root (R317). It takes its residual and its due, which its
# parent pays, and works out its quota; a leaf has no child to hand down to.
def ask(link, i):
    if i in link.asked:
        return
    due = 0
    if i > 0:
        ask(link, link.parent[i])
        due = link.weight[i] * link.quota[link.parent[i]]
        link.balance[link.parent[i]] -= due
    link.balance[i] += link.residual[i] + due
    link.residual[i] = 0
    link.quota[i] = 0 if link.is_leaf(i) else link.balance[i] // weight_sum(link, i)
    link.asked.add(i)


# The three clauses on who has asked, of every class number (R327 to R329).
def asked_right(link):
    for i in range(NUMBERS):
        yet = [k for k in link.children(i) if k in link.active and k not in link.asked]
        if i in link.asked and link.balance[i] < link.quota[i] * sum(link.weight[k] for k in yet):
            return False
        if i in link.classes() and i in link.active and i in link.asked and link.parent[i] not in link.asked:
            return False
        if link.is_leaf(i) and i in link.active and i < link.place and i not in link.asked:
            return False
    return True


def second_sound(link):
    return is_sound(link) and asked_right(link)


# An arrival is the first engine's, on a record that is sound by the second's list.
def second_arrive(before, i, length, tag):
    if not second_sound(before):
        return before, "in %d 0 bytes 0 same" % NOT_SOUND
    link, line = arrive(before, i, length, tag)
    words = line.split()
    return link, " ".join(words[:5] + words[7:])


# Leaf by leaf from the place on, each visit asks first (R320); rounds open, with nothing shared out, until a leaf can send (R322, R323).
def next_visited(link):
    rounds = 0
    while True:
        for i in link.classes():
            if i >= link.place and i in link.active and link.is_leaf(i):
                ask(link, i)
                if can_send(link, i):
                    return i, rounds
        surplus = begin_round(link)
        link.asked = {0} if surplus else set()
        link.quota[0] = 0
        rounds += 1
        assert rounds <= 2, "the model opens a third round in one send"


def second_send(before):
    return send_by(before, second_sound, next_visited)


# Who has asked, as a number, and the quota of each class from the root on.
def quotas(link):
    each = (str(link.quota[i]) for i in range(min(link.count, 63) + 1))
    return "asked %d quotas %s" % (bits(link.asked), " ".join(each))


# ---- The model: the commands that the cases have beside the calls ----


# The first packet of a class leaves, with no account moved, and the totals are made to fit.
def take(before, i):
    if i >= NUMBERS or before.held[i] == 0 or before.start[i] >= PLACES:
        return before, "took nothing"
    link = before.copy()
    took = "took %d %d mark %d" % link.take_first(i)
    return fit(link), took


# The totals are made to fit the queues, on any record: a class that has no lower parent is below no other.
def fit(before):
    link = before.copy()
    link.packets, link.bytes = sums(link)
    return link


# The fields of the record in the order of their numbers: what picks one of their numbers, and how many bits each has.
FIELDS = (
    ("count", "", 64),
    ("leaves", "set", 64),
    ("parent", "class", 8),
    ("weight", "class", 32),
    ("longest", "class", 16),
    ("size", "", 64),
    ("active", "set", 64),
    ("place", "", 64),
    ("balance", "class", 64),
    ("residual", "class", 64),
    ("start", "class", 8),
    ("held", "class", 8),
    ("length", "waiting", 16),
    ("tag", "waiting", 32),
    ("rule", "rule", 64),
    ("packets", "class", 64),
    ("bytes", "class", 64),
    ("mark", "waiting", 64),
    ("charged", "", 64),
    ("asked", "set", 64),
    ("quota", "class", 64),
)
FIELD_NUMBER = {name: number for number, (name, _, _) in enumerate(FIELDS)}


# A set of classes and its number: class i is 2 to the i.
def members(value):
    return {i for i in range(NUMBERS) if value >> i & 1}


def bits(classes):
    return sum(1 << i for i in classes)


# A value stored into one number of the record, cut to its width, whatever that does to the link's soundness. There is no number at an
# index past the end: nothing is stored.
def store(before, field, index, value):
    name, kind, width = FIELDS[field]
    link = before.copy()
    value %= 1 << width
    if kind == "":
        setattr(link, name, value)
    elif kind == "rule":
        link.rule = 2 if value == 2 else 1
    elif kind == "set":
        setattr(link, name, members(value))
    elif index < len(getattr(link, name)):
        getattr(link, name)[index] = value
    return link


# The books: place, active set as a number, the size in force, the running total, and balance and residual of each class from the root on.
def books(link):
    accounts = ["%d+%d" % (link.balance[i], link.residual[i]) for i in range(min(link.count, 63) + 1)]
    numbers = (link.place, bits(link.active), link.size, link.charged)
    return "books place %d active %d size %d charged %d accounts %s" % (*numbers, " ".join(accounts))


# The totals of each class from the root on, packets/bytes.
def totals(link):
    return "totals " + " ".join("%d/%d" % (link.packets[i], link.bytes[i]) for i in range(min(link.count, 63) + 1))


# The record and the kept one, both links without classes at first, and the line of each command.
class Model:
    def __init__(self):
        self.link = Link()
        self.kept = Link()

    # Does a command; what it prints, or none.
    def line(self, word, arguments):
        line = None
        if word == "case":
            line = "# " + arguments[0]
        elif word == "plan":
            self.link, line = fresh(read_plan(arguments[0]) or Link())
        elif word in ("fresh", "second fresh"):
            self.link, line = fresh(self.link)
        elif word == "arrive":
            self.link, line = arrive(self.link, *arguments)
        elif word == "take":
            self.link, line = take(self.link, *arguments)
        elif word == "store":
            self.link = store(self.link, *arguments)
        elif word == "keep":
            self.kept = self.link
        elif word == "back":
            self.link = self.kept
        elif word == "sound":
            line = "sound yes" if is_sound(self.link) else "sound no"
        elif word == "compare":
            line = "kept " + same(self.kept, self.link)
        elif word == "send":
            self.link, line = send(self.link)
        elif word == "books":
            line = books(self.link)
        elif word == "totals":
            line = totals(self.link)
        elif word == "fit":
            self.link = fit(self.link)
        elif word == "second arrive":
            self.link, line = second_arrive(self.link, *arguments)
        elif word == "second send":
            self.link, line = second_send(self.link)
        elif word == "second sound":
            line = "sound yes" if second_sound(self.link) else "sound no"
        elif word == "quotas":
            line = quotas(self.link)
        return line


# ---- The text ----

# The commands by their numbers, which are their first bytes.
WORDS = (None, "case", "plan", "fresh", "arrive", "take", "store", "keep", "back", "sound", "compare", "send", "books", "totals", "fit")
WORDS += ("second fresh", "second arrive", "second send", "second sound", "quotas")


class Unreadable(Exception):
    pass


# A command of the text: the case that it is of, its last line in the text and the lines that it is to print, with their places there.
class Command:
    def __init__(self, case, word, arguments, at):
        self.case = case
        self.word = word
        self.arguments = arguments
        self.at = at
        self.expected = []

    # A case prints its name: the text does not say that line twice.
    def lines(self):
        return ["# " + self.case] if self.word == "case" else self.expected


def number(word, name, width):
    if not (word.isascii() and word.isdigit()) or int(word) >= 1 << width:
        raise Unreadable('%s is "%s"; expected a number from 0 to %d' % (name, word, (1 << width) - 1))
    return int(word)


def numbers(words, expected):
    names = [name for name, _ in expected]
    if len(words) != len(expected):
        raise Unreadable("expected %s" % (" ".join(names) if names else "nothing more on this line"))
    return [number(word, name, width) for word, (name, width) in zip(words, expected)]


# A set of class numbers: `none`, or numbers and spans such as `0 2-4`.
def class_set(words):
    found = set()
    for word in words if words != ["none"] else []:
        first, _, last = word.partition("-")
        span = range(number(first, "a class", 6), number(last or first, "a class", 6) + 1)
        found.update(span)
    if not words or not found and words != ["none"]:
        raise Unreadable("expected the numbers of classes, or none")
    return bits(found)


# What follows `store`: the field's number, the index and the value.
def stored(words):
    if not words or words[0] not in FIELD_NUMBER:
        raise Unreadable("expected one of the fields %s" % ", ".join(FIELD_NUMBER))
    field = FIELD_NUMBER[words[0]]
    kind = FIELDS[field][1]
    if kind == "set":
        return field, 0, class_set(words[1:])
    if kind in ("", "rule"):
        return field, 0, numbers(words[1:], [("VALUE", 64)])[0]
    if kind == "class":
        index, value = numbers(words[1:], [("CLASS", 16), ("VALUE", 64)])
        return field, index, value
    i, waiting, value = numbers(words[1:], [("CLASS", 11), ("WAITING_PLACE", 5), ("VALUE", 64)])
    return field, i * PLACES + waiting, value


# The bytes of a line of a plan.
def plan_line(words):
    if len(words) > 2 and words[1] == "times":
        return number(words[0], "how many times", 16) * plan_line(words[2:])
    if words[0] == "rule":
        return b"\3" + numbers(words[1:], [("RULE", 8)])[0].to_bytes(1, "big")
    if words[0] == "inner":
        parent, weight = numbers(words[1:], [("PARENT", 8), ("WEIGHT", 32)])
        return b"\1" + parent.to_bytes(1, "big") + weight.to_bytes(4, "big")
    if words[0] == "leaf":
        parent, weight, longest = numbers(words[1:], [("PARENT", 8), ("WEIGHT", 32), ("LONGEST", 16)])
        return b"\2" + parent.to_bytes(1, "big") + weight.to_bytes(4, "big") + longest.to_bytes(2, "big")
    if words[0] == "end":
        numbers(words[1:], [])
        return b"\0"
    try:
        return bytes.fromhex(" ".join(words[1:]))
    except ValueError:
        raise Unreadable("expected bytes of two hexadecimal digits each") from None


def is_plan_line(words):
    return words[0] in ("rule", "inner", "leaf", "end", "bytes") or len(words) > 2 and words[1] == "times"


# Reads the text line by line: the trees that have names, and the commands.
class Reader:
    def __init__(self):
        self.trees = {}
        self.commands = []
        self.case = None
        # The plan or tree that lines of a plan now add to: a command's, or a tree's by its name.
        self.open = None

    def read(self, at, line):
        words = line.split()
        if not words or words[0].startswith("#"):
            return
        if is_plan_line(words):
            self.add_to_plan(at, plan_line(words))
        elif words[0] == ">":
            self.add_expected(line.strip())
        elif words[0] == "tree":
            self.open = " ".join(words[1:])
            if self.open in self.trees or not self.open:
                raise Unreadable("expected the name of a tree that has none above")
            self.trees[self.open] = b""
        else:
            self.add_command(at, words, line)

    def add_to_plan(self, at, record):
        if isinstance(self.open, Command):
            self.open.arguments[0] += record
            self.open.at = at
        elif self.open is not None:
            self.trees[self.open] += record
        else:
            raise Unreadable("a line of a plan, and no plan and no tree before it")

    def add_expected(self, line):
        if not self.commands or self.commands[-1].word == "case":
            raise Unreadable("a line to print, and no command before it")
        self.open = None
        self.commands[-1].expected.append(line[2:])

    def add_command(self, at, words, line):
        word, rest = words[0], words[1:]
        if word == "second" and rest:
            word, rest = " ".join(words[:2]), words[2:]
        if word not in WORDS:
            raise Unreadable('"%s" is no command' % word)
        if word == "case":
            self.case = line.strip()[5:].strip()
            if not 1 <= len(self.case.encode()) <= 255 or not self.case.isprintable():
                raise Unreadable("expected the name of a case, of at most 255 bytes")
        if self.case is None:
            raise Unreadable("a command before the first case")
        command = Command(self.case, word, self.arguments(word, rest), at)
        self.commands.append(command)
        self.open = command if word == "plan" and not rest else None

    def arguments(self, word, rest):
        if word == "case":
            return [self.case]
        if word == "plan" and rest:
            if " ".join(rest) not in self.trees:
                raise Unreadable('there is no tree "%s" above' % " ".join(rest))
            return [self.trees[" ".join(rest)]]
        if word == "plan":
            return [b""]
        if word in ("arrive", "second arrive"):
            return numbers(rest, [("CLASS", 64), ("LENGTH", 16), ("TAG", 32)])
        if word == "take":
            return numbers(rest, [("CLASS", 64)])
        if word == "store":
            return list(stored(rest))
        return numbers(rest, [])


def read_text(text):
    reader = Reader()
    for at, line in enumerate(text.split("\n"), 1):
        try:
            reader.read(at, line)
        except Unreadable as why:
            raise Unreadable("%s:%d: %s" % (TEXT, at, why)) from None
    return reader.commands


# The text with other lines to print: its commands, remarks and empty lines stay as they are.
def with_lines(text, commands, lines):
    put = {command.at: printed for command, printed in zip(commands, lines) if command.word != "case"}
    out = []
    for at, line in enumerate(text.split("\n"), 1):
        if line.split()[:1] != [">"]:
            out.append(line)
        out.extend("> " + printed for printed in put.get(at, []))
    return "\n".join(out)


# ---- Packing: the bytes of the commands, and the lines, by cases ----


def packed(command):
    first = bytes([WORDS.index(command.word)])
    arguments = command.arguments
    if command.word == "case":
        name = arguments[0].encode()
        return first + len(name).to_bytes(1, "big") + name
    if command.word == "plan":
        if len(arguments[0]) > 65535:
            raise Unreadable("%s:%d: a plan of more than 65535 bytes" % (TEXT, command.at))
        return first + len(arguments[0]).to_bytes(2, "big") + arguments[0]
    widths = {"arrive": (8, 2, 4), "second arrive": (8, 2, 4), "take": (8,), "store": (1, 2, 8)}.get(command.word, ())
    return first + b"".join(value.to_bytes(width, "big") for value, width in zip(arguments, widths))


# How long a packed command is that starts here.
def packed_size(packed_bytes, at):
    word = WORDS[packed_bytes[at]] if packed_bytes[at] < len(WORDS) else None
    if word == "case":
        return 2 + int.from_bytes(packed_bytes[at + 1 : at + 2], "big")
    if word == "plan":
        return 3 + int.from_bytes(packed_bytes[at + 1 : at + 3], "big")
    return {"arrive": 15, "second arrive": 15, "take": 9, "store": 12}.get(word, 1)


# Packed commands, cut where a case begins: the name and the bytes of each.
def input_cases(packed_bytes):
    cases = []
    at = 0
    while at < len(packed_bytes):
        end = at + packed_size(packed_bytes, at)
        if packed_bytes[at] == WORDS.index("case") or not cases:
            cases.append((packed_bytes[at + 2 : end].decode(errors="replace"), b""))
        cases[-1] = (cases[-1][0], cases[-1][1] + packed_bytes[at:end])
        at = end
    return cases


# Printed lines, cut where a case begins: the name and the lines of each.
def line_cases(content):
    cases = []
    for line in content.decode(errors="replace").removesuffix("\n").split("\n"):
        if line.startswith("# ") or not cases:
            cases.append((line[2:], []))
        cases[-1][1].append(line)
    return cases


# ---- What differs ----


def quoted(line):
    return "nothing" if line is None else '"%s"' % line


# The first pair of lines that differ, the shorter list filled with none.
def first_difference(ours, theirs):
    for n in range(max(len(ours), len(theirs))):
        pair = (ours[n] if n < len(ours) else None, theirs[n] if n < len(theirs) else None)
        if pair[0] != pair[1]:
            return pair


# Where the text's lines are not the model's, one for each command.
def model_differences(commands, lines):
    said = []
    for command, modelled in zip(commands, lines):
        if command.lines() != modelled:
            in_text, in_model = first_difference(command.lines(), modelled)
            said.append(
                '%s:%d: case "%s": %s is to print %s, and the model says %s'
                % (TEXT, command.at, command.case, command.word, quoted(in_text), quoted(in_model))
            )
    return said


# The cases of a file that are not those that the text packs to.
def file_differences(name, ours, theirs):
    said = []
    matcher = difflib.SequenceMatcher(None, [repr(case) for case in ours], [repr(case) for case in theirs], autojunk=False)
    for kind, a, a_end, z, z_end in matcher.get_opcodes():
        if kind == "equal":
            continue
        text_cases, file_cases = ours[a:a_end], theirs[z:z_end]
        while text_cases and file_cases and text_cases[0][0] == file_cases[0][0]:
            said.append(case_difference(name, text_cases.pop(0), file_cases.pop(0)))
        said += ['%s: case "%s": stands in the text alone' % (name, case[0]) for case in text_cases]
        said += ['%s: case "%s": stands in the file alone' % (name, case[0]) for case in file_cases]
    return said or ["%s: every case is as in the text, and the bytes differ at the end" % name]


def case_difference(name, ours, theirs):
    if isinstance(ours[1], bytes):
        return '%s: case "%s": other commands than in the text' % (name, ours[0])
    in_text, in_file = first_difference(ours[1], theirs[1])
    return '%s: case "%s": the text has %s, the file %s' % (name, ours[0], quoted(in_text), quoted(in_file))


# ---- The command ----


def read_file(name):
    try:
        with open(os.path.join(ROOT, name), "rb") as file:
            return file.read()
    except FileNotFoundError:
        return b""


# Writes a file where it is not so already; whether it did.
def write_file(name, content):
    if read_file(name) == content:
        return False
    with open(os.path.join(ROOT, name), "wb") as file:
        file.write(content)
    return True


def modelled_lines(commands):
    model = Model()
    lines = []
    for command in commands:
        try:
            line = model.line(command.word, command.arguments)
        except AssertionError as why:
            raise Unreadable('%s:%d: case "%s": %s' % (TEXT, command.at, command.case, why)) from None
        lines.append([] if line is None else [line])
    return lines


def joined(lines):
    return "".join(line + "\n" for printed in lines for line in printed).encode()


def main(words):
    if words not in ([], ["--write"]):
        raise Unreadable("expected no word, or --write")
    try:
        text = read_file(TEXT).decode()
    except UnicodeDecodeError:
        raise Unreadable("%s: not a text in UTF-8" % TEXT) from None
    commands = read_text(text)
    if not commands:
        raise Unreadable("%s: no case" % TEXT)
    modelled = modelled_lines(commands)
    stdin = b"".join(packed(command) for command in commands)
    if len(stdin) > MOST_BYTES:
        raise Unreadable("%s: packs to %d bytes, and link_cases reads at most %d" % (TEXT, len(stdin), MOST_BYTES))
    said = model_differences(commands, modelled)
    cases = sum(command.word == "case" for command in commands)
    counts = "cases %d, commands %d, lines %d" % (cases, len(commands) - cases, sum(map(len, modelled)))
    if words:
        write_file(TEXT, with_lines(text, commands, modelled).encode())
        packed_anew = [name for name, content in ((STDIN, stdin), (STDOUT, joined(modelled))) if write_file(name, content)]
        print("\n".join(said + ["%s: %s, lines put in for commands: %d" % (TEXT, counts, len(said))]))
        print("packed anew: %s" % (", ".join(packed_anew) or "nothing, both files were so already"))
        return 0
    stdout = joined(command.lines() for command in commands)
    now_in, now_out = read_file(STDIN), read_file(STDOUT)
    if now_in != stdin:
        said += file_differences(STDIN, input_cases(stdin), input_cases(now_in))
    if now_out != stdout:
        said += file_differences(STDOUT, line_cases(stdout), line_cases(now_out))
    if said:
        print("\n".join(said))
        print("differences: %d; bin/cases --write puts the model's lines into the text and packs it anew" % len(said))
        return 1
    print("%s: %s, each line as the model says; %s and %s are packed from it" % (TEXT, counts, STDIN, STDOUT))
    return 0


if __name__ == "__main__":
    try:
        sys.exit(main(sys.argv[1:]))
    except Unreadable as why:
        print(why, file=sys.stderr)
        sys.exit(2)
