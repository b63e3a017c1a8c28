#!/usr/bin/env python3
"""Brings the repository's own names of specs/ and proofs/ to one spelling.

    snake_names.py [--list] [REPO]

A type (a record, a data type, a function into Type) is written in upper camel case, and everything else in snake case:
`Step-says` is StepSays, `node-cell` is node_cell, `answerLine` is answer_line. Only names that a file of specs/ or
proofs/ declares are turned, wherever they stand: in .antt files, in clauses and ghost uses of .rt files, in the old: and
new: lines of edits and planted faults, and between backquotes in comments and pages. Names of the library, names that
the toolchain makes, functions of src/, strings, inputs and outputs keep theirs. It stops before any change where two
names would fall together. --list prints the names a crate, and changes nothing.
"""

import re
import sys
from pathlib import Path

NAME = r"[A-Za-z_][A-Za-z0-9_'-]*"
TOKEN = re.compile(r"(?<![\w'\u00b7-])" + NAME + r"(?![\w'-])")
TOP = re.compile(r"(?m)^((?:pattern |unfoldable |abbrev |pub |data |record )*)(" + NAME + r")(.*)$")
PART = re.compile(r"(?m)^[ \t]+(?:pub )?((?:" + NAME + r" )+):\s")
WORDS = {"use", "mod", "unfolding", "open", "where", "data", "record", "pub", "let"}


def files(repo, *endings):
    for path in sorted(repo.rglob("*")):
        if path.is_file() and path.name.endswith(endings) and not {"out", "target", ".git"} & set(path.parts):
            yield path


def without_comments(text):
    return re.sub(r"(?m)(^|\s)--(\s.*)?$", "", text)


def declared(text):
    """The names that an .antt file declares: top-level ones but for answers, fields and constructors."""
    text = without_comments(text)
    names = set()
    for it in TOP.finditer(text):
        marks, name, rest = it.groups()
        if name in WORDS:
            continue
        is_type = "data " in marks or "record " in marks
        if is_type or (re.match(r"\s*:(?!=)", rest) and not re.match(r"\s*:\s*goal\.", rest)):
            names.add(name)
    for it in PART.finditer(text):
        names |= set(it[1].split()) - WORDS
    return names


def spelled(name):
    if name[0].isupper():
        return "".join(part[:1].upper() + part[1:] for part in name.split("-"))
    return re.sub(r"([a-z0-9])([A-Z])", lambda it: it[1] + "_" + it[2].lower(), name.replace("-", "_"))


def turned(text, new):
    return TOKEN.sub(lambda it: new.get(it[0], it[0]), text)


def in_backquotes(text, new):
    return re.sub(r"`[^`\n]*`", lambda it: turned(it[0], new), text)


def in_antt(text, new):
    """Code whole, and of a comment what stands between backquotes."""
    out = []
    for line in text.split("\n"):
        it = re.search(r"(^|\s)--(\s|$)", line)
        at = it.start() if it else len(line)
        out.append(turned(line[:at], new) + in_backquotes(line[at:], new))
    return "\n".join(out)


def in_rt(text, new):
    """Code whole but for strings, and of a comment what stands between backquotes."""
    piece = re.compile(r'(//[^\n]*)|("(?:[^"\\]|\\.)*")|([^"/]+|/)')

    def put(it):
        return in_backquotes(it[1], new) if it[1] else it[2] if it[2] else turned(it[3], new)

    return piece.sub(put, text)


def in_edit(text, new):
    return re.sub(r"(?m)^((?:old|new): )(.*)$", lambda it: it[1] + turned(it[2], new), text)


def main(args):
    rest = [a for a in args if a != "--list"]
    repo = Path(rest[0] if rest else ".").resolve()
    by_crate = {}
    for path in files(repo / "crates", ".antt"):
        by_crate.setdefault(path.relative_to(repo / "crates").parts[0], set()).update(declared(path.read_text()))
    names = set().union(*by_crate.values())
    new = {name: spelled(name) for name in names if spelled(name) != name}
    if "--list" in args:
        for crate, own in sorted(by_crate.items()):
            print(crate + ": " + ", ".join(f"{n} {new[n]}" for n in sorted(own) if n in new))
        return 0
    together = [(n, new[n]) for n in sorted(new) if new[n] in names]
    together += [(n, m) for n in sorted(new) for m in new if n < m and new[n] == new[m]]
    if together:
        print("snake_names: these would fall together: " + "; ".join(" ".join(pair) for pair in together))
        return 1
    changed = 0
    kinds = [(".antt", in_antt), (".rt", in_rt), (".edit", in_edit), ("faults.txt", in_edit), (".md", in_backquotes)]
    for ending, turn in kinds:
        for path in files(repo, ending):
            old = path.read_text()
            text = turn(old, new)
            if text != old:
                path.write_text(text)
                changed += 1
    print(f"snake_names: {len(new)} names, {changed} files")
    return 0


if __name__ == "__main__":
    sys.exit(main(sys.argv[1:]))
