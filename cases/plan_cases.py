#!/usr/bin/env python3
# The written-down cases of the readers and of the plan rules, cases/plan_cases.txt: a text of named cases, each command with the lines
# that it is to print. It is packed into the input and the expected lines of the program plan_cases, crates/plan_cases/stdin and stdout.
#   cases/plan_cases.py            checks that both files are what the text packs to, and each line what the second program says
#   cases/plan_cases.py --write    puts the second program's lines into the text and packs it anew
# The second program is target/second/plan_cases (second/plan_cases.rs over second/plan.rs, an independent reading); bin/cases builds it.
# Where it is not there the lines stand as they are, and this is said. Status 1: something differs; 2: the text cannot be read.
import os
import subprocess
import sys

from link_cases import ROOT, Unreadable, class_set, file_differences, first_difference
from link_cases import number, numbers, plan_line, quoted, read_file, write_file

TEXT = "cases/plan_cases.txt"
STDIN = "crates/plan_cases/stdin"
STDOUT = "crates/plan_cases/stdout"
SECOND = "target/second/plan_cases"
MOST_BYTES = 131072

# The packed commands by their numbers, which are their first bytes.
REMARK, PLAN, CLASSES, EVENT, EVENTS, TREE, STORE, RULES, PLAN_KIND, EVENT_KIND, COUNT, WRITE = range(1, 13)
FIELDS = ("count", "leaves", "parent", "weight", "longest")
RECORDS = ("rule", "inner", "leaf", "end", "arrival", "send", "bytes", "chain", "with", "cut")


# A command of the text: the case that it is of, its words, the bytes of its records, its last line there and what it is to print.
class Command:
    def __init__(self, case, words, at):
        self.case = case
        self.words = words
        self.at = at
        self.input = b""
        self.expected = []


# One packed command: a name and a body, each after its length.
def packed(word, name, body):
    text = name.encode()
    return bytes([word, len(text)]) + text + len(body).to_bytes(2, "big") + body


def with_place(place, record_bytes):
    return place.to_bytes(2, "big") + record_bytes


# The packed commands of `store FIELD ..`: `all` stands for every index.
def stores(words):
    if not words or words[0] not in FIELDS:
        raise Unreadable("expected one of the fields %s" % ", ".join(FIELDS))
    field = FIELDS.index(words[0])
    if words[0] == "leaves":
        indexes, value = [0], class_set(words[1:])
    elif words[0] == "count":
        indexes, value = [0], numbers(words[1:], [("VALUE", 64)])[0]
    else:
        indexes = range(64) if words[1:2] == ["all"] else [number(words[1], "CLASS", 16)] if len(words) > 1 else []
        value = numbers(words[2:], [("VALUE", 64)])[0]
    return [packed(STORE, "", bytes([field]) + i.to_bytes(2, "big") + value.to_bytes(8, "big")) for i in indexes]


# The packed commands of every kind byte of a span put at a place, and of the line of how many were unknown.
def kinds(command, word, words):
    if len(words) != 5 or (words[1], words[3]) != ("to", "at"):
        raise Unreadable("expected FIRST to LAST at PLACE")
    first, last, place = number(words[0], "FIRST", 8), number(words[2], "LAST", 8), number(words[4], "PLACE", 16)
    if place >= len(command.input):
        raise Unreadable("there is no byte %d" % place)
    put = [command.input[:place] + bytes([kind]) + command.input[place + 1 :] for kind in range(first, last + 1)]
    return [packed(word, "", with_place(place, each)) for each in put] + [packed(COUNT, command.case, with_place(place, b""))]


# The packed commands of a command of the text.
def pieces(command):
    word, rest, name = command.words[0], command.words[1:], command.case
    every_byte = range(len(command.input))
    if word == "remark":
        return [packed(REMARK, " ".join(rest), b"")]
    if word == "plan" and rest == ["cut", "at", "every", "byte"]:
        return [packed(PLAN, "%s cut at byte %d" % (name, n), command.input[:n]) for n in every_byte]
    if word in ("plan", "event") and rest[:1] == ["kinds"]:
        return kinds(command, PLAN_KIND if word == "plan" else EVENT_KIND, rest[1:])
    if word == "event" and rest[1:] == ["cut", "at", "every", "byte"]:
        place = number(rest[0], "PLACE", 16)
        return [packed(EVENT, "%s cut at byte %d" % (name, n), with_place(place, command.input[:n])) for n in every_byte]
    if word == "event":
        return [packed(EVENT, name, with_place(numbers(rest, [("PLACE", 16)])[0], command.input))]
    if word == "write":
        return [packed(WRITE, name, numbers(rest, [("BYTES", 16)])[0].to_bytes(2, "big"))]
    if word == "store":
        return stores(rest)
    numbers(rest, [])
    plain = {"plan": PLAN, "classes": CLASSES, "events": EVENTS, "tree": TREE, "rules": RULES}
    return [packed(plain[word], name if word in ("plan", "events", "rules") else "", command.input)]


# The bytes after a line of records.
def with_record(before, words, known):
    if words[0] == "with":
        if " ".join(words[1:]) not in known:
            raise Unreadable('there are no records "%s" above' % " ".join(words[1:]))
        return before + known[" ".join(words[1:])]
    if words[0] == "cut":
        return before[: numbers(words[1:], [("BYTES", 16)])[0]]
    if words[0] == "chain":
        many = numbers(words[1:], [("CLASSES", 7)])[0]
        return before + b"".join(plan_line(["inner", str(parent), "1"]) for parent in range(many))
    if words[0] == "rule":
        return before + b"\3" + numbers(words[1:], [("RULE", 8)])[0].to_bytes(1, "big")
    if words[0] == "arrival":
        class_, length, tag = numbers(words[1:], [("CLASS", 8), ("LENGTH", 16), ("TAG", 32)])
        return before + bytes([16, class_]) + length.to_bytes(2, "big") + tag.to_bytes(4, "big")
    if words[0] == "send":
        numbers(words[1:], [])
        return before + b"\x11"
    if len(words) > 2 and words[1] == "times":
        return before + number(words[0], "how many times", 16) * with_record(b"", words[2:], known)
    return before + plan_line(words)


def read_text(text):
    known, commands, case, name = {}, [], None, None
    for at, line in enumerate(text.split("\n"), 1):
        words = line.split()
        if not words or words[0].startswith("#"):
            continue
        try:
            if words[0] == "records":
                name = " ".join(words[1:])
                if name in known or not name:
                    raise Unreadable("expected a name that no records above have")
                known[name] = b""
            elif words[0] in RECORDS or words[1:2] == ["times"]:
                if name is not None:
                    known[name] = with_record(known[name], words, known)
                elif commands and not commands[-1].expected:
                    commands[-1].input = with_record(commands[-1].input, words, known)
                    commands[-1].at = at
                else:
                    raise Unreadable("a line of a record, and no command and no named records before it")
            elif words[0] == ">":
                if not commands:
                    raise Unreadable("a line to print, and no command before it")
                commands[-1].expected.append(line.strip()[2:])
            elif words[0] == "case":
                case, name = " ".join(words[1:]), None
                if not 1 <= len(case.encode()) <= 200 or not case.isprintable():
                    raise Unreadable("expected the name of a case, of at most 200 bytes")
            elif words[0] in ("remark", "plan", "classes", "event", "events", "tree", "store", "rules", "write"):
                if case is None and words[0] != "remark":
                    raise Unreadable("a command before the first case")
                name = None
                commands.append(Command(case, words, at))
            else:
                raise Unreadable('"%s" is no command' % words[0])
        except Unreadable as why:
            raise Unreadable("%s:%d: %s" % (TEXT, at, why)) from None
    return commands


def all_pieces(commands):
    found = []
    for command in commands:
        try:
            found.append(pieces(command))
        except Unreadable as why:
            raise Unreadable("%s:%d: %s" % (TEXT, command.at, why)) from None
    return found


# What the second program says, lines for each command; none where it is not there.
def second_lines(packed_commands):
    program = os.path.join(ROOT, SECOND)
    if not os.access(program, os.X_OK):
        return None
    stdin = b"".join(piece for each in packed_commands for piece in each)
    said = subprocess.run([program, "marks"], input=stdin, stdout=subprocess.PIPE, check=True).stdout.decode()
    by_piece = [[]]
    for line in said.split("\n")[:-1]:
        if line:
            by_piece[-1].append(line)
        else:
            by_piece.append([])
    lines, at = [], 0
    for each in packed_commands:
        lines.append([line for printed in by_piece[at : at + len(each)] for line in printed])
        at += len(each)
    return lines


# Where the text's lines are not the second program's, one for each command.
def differences(commands, lines):
    said = []
    for command, second in zip(commands, lines):
        if command.expected != second:
            in_text, in_second = first_difference(command.expected, second)
            said.append(
                '%s:%d: case "%s": %s is to print %s, and the second program says %s'
                % (TEXT, command.at, command.case, command.words[0], quoted(in_text), quoted(in_second))
            )
    return said


# The text with other lines to print.
def with_lines(text, commands, lines):
    put = {command.at: printed for command, printed in zip(commands, lines)}
    out = []
    for at, line in enumerate(text.split("\n"), 1):
        if line.split()[:1] != [">"]:
            out.append(line)
        out.extend("> " + printed for printed in put.get(at, []))
    return "\n".join(out)


# Packed commands and printed lines as named cases, to say what differs.
def input_cases(stdin):
    cases, at = [], 0
    while at + 1 < len(stdin):
        name_end = at + 2 + stdin[at + 1]
        end = name_end + 2 + int.from_bytes(stdin[name_end : name_end + 2], "big")
        cases.append((stdin[at + 2 : name_end].decode(errors="replace"), stdin[at:end]))
        at = end
    return cases


def line_cases(stdout):
    return [(line.split(":")[0], [line]) for line in stdout.decode(errors="replace").split("\n")]


def main(words):
    if words not in ([], ["--write"]):
        raise Unreadable("expected no word, or --write")
    text = read_file(TEXT).decode()
    commands = read_text(text)
    packed_commands = all_pieces(commands)
    stdin = b"".join(piece for each in packed_commands for piece in each)
    if len(stdin) > MOST_BYTES:
        raise Unreadable("%s: packs to %d bytes, and plan_cases reads at most %d" % (TEXT, len(stdin), MOST_BYTES))
    second = second_lines(packed_commands)
    by = "each line as the second program says" if second else "no second program here, the lines stand as they are"
    said = differences(commands, second) if second else []
    lines = second if words and second else [command.expected for command in commands]
    stdout = "".join(line + "\n" for printed in lines for line in printed).encode()
    cases = len({command.case for command in commands if command.case})
    counts = "cases %d, packed commands %d, lines %d" % (cases, sum(map(len, packed_commands)), sum(map(len, lines)))
    if words:
        write_file(TEXT, with_lines(text, commands, lines).encode())
        packed_anew = [name for name, content in ((STDIN, stdin), (STDOUT, stdout)) if write_file(name, content)]
        print("\n".join(said + ["%s: %s, lines put in for commands: %d" % (TEXT, counts, len(said))]))
        print("packed anew: %s" % (", ".join(packed_anew) or "nothing, both files were so already"))
        return 0
    for name, ours, read in ((STDIN, stdin, input_cases), (STDOUT, stdout, line_cases)):
        if read_file(name) != ours:
            said += file_differences(name, read(ours), read(read_file(name)))
    if said:
        print("\n".join(said))
        print("differences: %d; bin/cases --write puts the second program's lines into the text and packs it anew" % len(said))
        return 1
    print("%s: %s, %s; %s and %s are packed from it" % (TEXT, counts, by, STDIN, STDOUT))
    return 0


if __name__ == "__main__":
    try:
        sys.exit(main(sys.argv[1:]))
    except Unreadable as why:
        print(why, file=sys.stderr)
        sys.exit(2)
