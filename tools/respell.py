#!/usr/bin/env python3
"""Respells the repository's own definitions and lemmas as the kit of 2026-11 spells them: words in snake case, facts in upper camel case.

usage: python3 tools/respell.py        at the top of the repository, once, right after the kit's port.py

tools/respell.tsv has a row for each name: old, a tab, new; tools/respell_pages.tsv the names that port.py itself turns. Turned are whole words: in .antt files (code, and code spans and camel-case words
of comments), in .rt files outside strings (in comments as above), in the old and new texts of must-fail edits, and in the code spans of pages.
A word that a file imports from the kit's libraries stays as it is in that file, and so does what stands behind `tie.`.
"""

import os
import re
import sys

HERE = os.path.dirname(os.path.realpath(__file__))
WORD = re.compile(r"[^\s(){}.;,@\"«»\[\]|:]+")
CAMEL = re.compile(r"[a-z0-9][A-Z]")
TABLE = {}
for row in open(os.path.join(HERE, "respell.tsv"), encoding="utf-8"):
    old, new = row.rstrip("\n").split("\t")
    TABLE[old] = new
PAGES = dict(TABLE)  # for pages, comments and edits, which port.py leaves: what it turned, too
for row in open(os.path.join(HERE, "respell_pages.tsv"), encoding="utf-8"):
    old, new = row.rstrip("\n").split("\t")
    PAGES[old] = new
PLAIN = {w for w in TABLE if "-" not in w and not CAMEL.search(w) and w[0].islower()}  # old words that Rust code may have as well


def imported(text):
    """The words that a file takes from the kit's libraries."""
    words = set()
    for m in re.finditer(r"^(?:ghost )?use ([^\s{;]+)\.\{([^}]*)\}", text, re.M):
        if not m[1].startswith("Rattle.") or m[1].startswith("Rattle.std"):
            for item in m[2].split(","):
                words.update(item.split(" as ")[0].split())
    return words


def turned(text, keep, plain, table=TABLE):
    def one(m):
        word = m[0]
        if word not in table or word in keep:
            return word
        before = text[: m.start()]
        behind = before.endswith(".") and not before.endswith("..")
        if word in PLAIN and (not plain or behind):
            return word
        if before.endswith("tie."):
            return word
        return table[word]

    return WORD.sub(one, text)


def spans(text, keep):
    """A comment or a page: code spans; and words in camel case, which no prose has."""
    text = re.sub(r"`[^`\n]*`", lambda m: "`" + turned(m[0][1:-1], keep, False, PAGES) + "`", text)
    return re.sub(r"(?<![\w`'-])[a-z]+[A-Z]\w*", lambda m: PAGES.get(m[0], m[0]) if m[0] not in keep else m[0], text)


def antt(text, keep, plain=True, table=TABLE):
    out = []
    for line in text.split("\n"):
        m = re.search(r"(?<!\S)--(?!\S)", line)
        code, comment = (line[: m.start()], line[m.start() :]) if m else (line, "")
        parts = re.split(r'("[^"]*")', code)
        out.append("".join(p if i % 2 else turned(p, keep, plain, table) for i, p in enumerate(parts)) + spans(comment, keep))
    return "\n".join(out)


def rust(text, keep, table=TABLE):
    out = []
    for line in text.split("\n"):
        code, comment, quoted, i = line, "", False, 0
        while i < len(line):
            if line[i] == "\\" and quoted:
                i += 1
            elif line[i] == '"' and not (i and line[i - 1] == "'" and line[i + 1 : i + 2] == "'"):
                quoted = not quoted
            elif line.startswith("//", i) and not quoted:
                code, comment = line[:i], line[i:]
                break
            i += 1
        parts = re.split(r'("(?:\\.|[^"\\])*")', code)
        out.append("".join(p if i % 2 else turned(p, keep, False, table) for i, p in enumerate(parts)) + spans(comment, keep))
    return "\n".join(out)


def edit(path, text):
    crate, keep, kind, out = path.split(os.sep)[1], set(), None, []
    for line in text.split("\n"):
        if line.startswith("file: "):
            kind = line[6:].strip()
            with open(os.path.join("crates", crate, kind), encoding="utf-8") as f:
                keep = imported(f.read())
        elif line.startswith(("old: ", "new: ")):
            line = line[:5] + (antt(line[5:], keep, "/proofs/" in "/" + kind, PAGES) if kind.endswith(".antt") else rust(line[5:], keep, PAGES))
        else:
            line = spans(line, keep)
        out.append(line)
    return "\n".join(out)


def main():
    if not os.path.exists("crates.txt"):
        sys.exit("respell: run it at the top of the repository")
    count = 0
    files = []
    for top in ("crates", "docs", "README.md"):
        for folder, dirs, names in os.walk(top) if os.path.isdir(top) else [("", [], [top])]:
            dirs[:] = sorted(d for d in dirs if d != "out")
            files += [os.path.join(folder, n) for n in sorted(names) if n.endswith((".edit", ".md", ".antt", ".rt"))]
    for path in sorted(files, key=lambda p: not p.endswith(".edit")):  # the edits first: they read what their files import
        with open(path, encoding="utf-8") as f:
            text = f.read()
        if path.endswith(".antt"):
            new = antt(text, imported(text), "/proofs/" in path)
        elif path.endswith(".rt"):
            new = rust(text, imported(text))
        elif path.endswith(".edit"):
            new = edit(path, text)
        else:
            new = spans(text, set())
        if new != text:
            with open(path, "w", encoding="utf-8") as f:
                f.write(new)
            count += 1
    print(f"respell: {len(TABLE)} names, {count} files")


main()
