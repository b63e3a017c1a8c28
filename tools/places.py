#!/usr/bin/env python3
"""Lists the places in src/ where an older form may stand in place of one that today's Rattle has.

usage: tools/places.py [FOLDER]        FOLDER is a checkout; the one that this file is in, if left out

A place to look, no verdict: docs/DESIGN-PASS.md says of each what became of it.
"""
import collections
import glob
import os
import re
import sys

ROOT = sys.argv[1] if len(sys.argv) > 1 else os.path.join(os.path.dirname(__file__), "..")
FUNCTION = re.compile(r"^( *)(?:pub(?:\([a-z]+\))? )?(?:extern \"C\" )?fn (\w+)", re.M)


def sources():
    for path in sorted(glob.glob(os.path.join(ROOT, "crates/*/src/*.rt"))):
        text = open(path, encoding="utf-8").read()
        yield os.path.relpath(path, os.path.join(ROOT, "crates")), text.split("#[cfg(test)]")[0]


def lines(pattern, keep=lambda line: True):
    wanted = re.compile(pattern)
    for path, text in sources():
        for number, line in enumerate(text.split("\n"), 1):
            if wanted.search(line) and not line.lstrip().startswith(("//", "ghost use")) and keep(line):
                yield f"{path}:{number}: {line.strip()}"


def functions():
    """Each function with its parameters, its clauses and its body."""
    for path, text in sources():
        for m in FUNCTION.finditer(text):
            end = text.find(f"\n{m.group(1)}}}", m.end())
            stop = text.find(";", m.end())
            opening = re.compile(rf"(^{m.group(1)}\{{|\{{$)", re.M).search(text, m.end())
            if opening is None or (stop != -1 and stop < opening.start() and "{" not in text[m.end():stop]):
                continue
            head, body = text[m.end():opening.start()], text[opening.end():end]
            depth, parameters, at = 0, [""], head.find("(")
            for c in head[at + 1:]:
                depth += (c in "([<{") - (c in ")]>}")
                if depth < 0:
                    break
                if c == "," and depth == 0:
                    parameters.append("")
                else:
                    parameters[-1] += c
            parameters = [re.sub(r"\s+", " ", p).strip() for p in parameters]
            clauses = re.findall(r"(requires|ensures)\*?(?: \w+)? \{(.*?)\}\s*(?=requires|ensures|$)", head, re.S)
            clauses = [(kind, re.sub(r"\s+", " ", clause).strip()) for kind, clause in clauses]
            yield f"{path.split('/')[0]}::{m.group(2)}", parameters, clauses, body


def shape(body):
    words = re.findall(r"\"[^\"]*\"|\w+|\S", re.sub(r"//.*", "", body))
    return " ".join(re.sub(r"\b[A-Za-z_]\w*\b|\b\d+\b|\"[^\"]*\"", "x", word) for word in words)


def groups(pairs, least):
    found = collections.defaultdict(list)
    for key, value in pairs:
        found[key].append(value)
    return [(k, v) for k, v in found.items() if len(v) >= least]


def shown(title, rows):
    rows = list(rows)
    print(f"\n## {title}: {len(rows)}")
    for row in rows:
        print("   " + row)


def main():
    every = list(functions())
    shown("1 a bool for success", lines(r"fn .*&mut self.*-> bool"))
    shown("1 numbers by name", lines(r"^(pub )?const [A-Z_]+: u(8|16|32) = \d"))
    shown("1 zero for none", lines(r"=> (Ok\()?0\)?,$|Err\(_\) => 0|^ +(Ok\()?0\)?$|: 0 \}"))
    shown("1 enums", lines(r"^(pub(\(crate\))? )?enum "))
    shown("1 errors made anew", lines(r"Err\(AllocError\)"))
    twins = groups(((shape(b), n) for n, _, _, b in every if len(shape(b).split()) > 8), 2)
    shown("2 functions of one shape", (", ".join(v) for _, v in twins))
    types = (line for line in lines(r"^(pub(\(crate\))? )?(enum|struct) "))
    kinds = groups(((re.search(r"(?:enum|struct) (\w+)", line).group(1), line) for line in types), 2)
    shown("2 types of one name", (f"{k}: {len(v)}" for k, v in kinds))
    shown("3 loops", lines(r"\bwhile \b|\bloop \{|\bfor .* in .*\{$"))
    impls = r"impl.* (From<|TryFrom<|FromStr|fmt::Display|PartialEq|Ord)"
    shown("4 impls of a conversion or of printing", lines(impls))
    shown("4 casts", lines(r" as (u8|u16|u32|u64|usize)\b"))
    shown("4 numbers of refusals and kinds", lines(r"fn (number|code|decode|named)\b"))
    clauses = groups(((c, n) for n, _, cs, _ in every for c in cs), 3)
    shown("5 a clause of three or more", (f"{len(v)} {k[0]} {k[1]}: {', '.join(v)}" for k, v in clauses))
    pairs = groups((((p, q), n) for n, ps, _, _ in every for i, p in enumerate(ps) for q in ps[i + 1:]
                    if "self" not in p and ":" in p and ":" in q), 3)
    shown("5 parameters of three or more", (f"{len(v)} {k[0]}, {k[1]}: {', '.join(sorted(set(v)))}" for k, v in pairs))
    shown("6 arrays", lines(r"\w+: (&mut )?\[\w+; ?\w+\]"))
    switches = r"match \(?(call|choice|what|event|stage|request|card\.stage)\b"
    shown("7 a switch on a step, a call or a choice", lines(switches))
    shown("8 lines of proof by function", (
        f"{crate}: {sum(len(open(f, encoding='utf-8').read().splitlines()) for f in files)}"
        for crate in sorted(os.listdir(os.path.join(ROOT, "crates")))
        for files in [[f for f in glob.glob(os.path.join(ROOT, "crates", crate, "proofs/**/*.antt"), recursive=True)
                       if os.path.dirname(f) != os.path.join(ROOT, "crates", crate, "proofs")]] if files))


main()
