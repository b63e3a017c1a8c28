#!/usr/bin/env python3
"""Makes a copy of some crates that has types, definitions and laws, and no function.

    definitions.py LIST DIR [--repo DIR] [--last CRATE]

A fault that is planted in the code and in its definition alike is refused by a law over every run, and the law speaks
of definitions only. So the crates up to CRATE (board, unless another is named) are copied without their functions and
the proofs of them; what is left is proved in seconds. DIR/faults.txt has the faults of LIST that change a definition,
with these edits alone, and without those of the runs that the door states. Then

    plant.py DIR/faults.txt --repo DIR --above board

says which faults the laws refuse.
"""

import argparse
import re
import shutil
import subprocess
import sys
from pathlib import Path

from plant import read_crates, read_faults

# A Clone that is written out stays, since a type that is Copy has to have one.
FUNCTION = re.compile(r"(pub(\(crate\))? )?(fn|impl(?!.* Clone for))\b")
TYPE = re.compile(r"^(?:pub(?:\(crate\))? )?(?:enum|struct|trait) (\w+)|^pub const (\w+)", re.MULTILINE)
# What the door states of the runs to hold a board against is left out, as by the faults themselves.
RUNS = "crates/door/specs/Runs.antt"


def without_functions(text):
    """The lines of a source file without its functions and impl blocks, which end at the left margin."""
    kept, inside = [], False
    for line in text.split("\n"):
        if not inside and line.startswith("#[tactic("):
            continue
        if not inside and FUNCTION.match(line):
            inside = not line.endswith("}")
        elif inside:
            inside = line not in ("}", "{}")
        else:
            kept.append(line)
    return "\n".join(kept)


def is_used(name, types, body):
    return name in types and re.search(rf"\b{name}\b", body)


def with_used_imports(text, types):
    """Leaves out the imports of what is no type, or is not used any more."""
    body = "\n".join(line for line in text.split("\n") if not re.match(r"(ghost )?use ", line))
    kept = []
    for line in text.split("\n"):
        code = re.match(r"use (.*)::(?:(\w+)|\{(.*)\});", line)
        ghost = re.match(r"ghost use (.*)\.\{(.*)\};", line)
        if code:
            names = [name for name in (code[2] or code[3]).split(", ") if is_used(name, types, body)]
            if not names:
                continue
            line = f"use {code[1]}::{names[0]};" if len(names) == 1 else f"use {code[1]}::{{{', '.join(names)}}};"
        if ghost:
            names = [name for name in ghost[2].split(", ") if name.strip("◌") in body]
            line = f"ghost use {ghost[1]}.{{{', '.join(names)}}};"
            if not names:
                continue
        kept.append(line)
    return "\n".join(kept)


def copy_crate(source, goal):
    """Copies definitions, the proofs of laws, and those source files that have a type."""
    for part, pattern in (("specs", "*.antt"), ("proofs", "*.antt"), ("src", "*.rt")):
        for path in (source / part).glob(pattern):
            (goal / part).mkdir(parents=True, exist_ok=True)
            shutil.copy2(path, goal / part / path.name)
    for path in (goal / "src").glob("*.rt"):
        path.write_text(without_functions(path.read_text()))
        if path.stem != "lib" and not TYPE.search(path.read_text()):
            path.unlink()
    lib = goal / "src" / "lib.rt"
    modules = [line for line in lib.read_text().split("\n") if line.startswith(("mod ", "pub mod "))]
    kept = [line for line in modules if (goal / "src" / f"{line.split()[-1][:-1]}.rt").exists()]
    lib.write_text("#![tactic(auto)]\n\n" + "\n".join(kept) + "\n")


def make_copy(repo, goal, last):
    crates = read_crates(repo)
    below = {last}
    for name in reversed(crates):
        if name in below:
            below.update(crates[name])
    names = [name for name in crates if name in below]
    shutil.rmtree(goal / "crates", ignore_errors=True)
    for name in names:
        copy_crate(repo / "crates" / name, goal / "crates" / name)
    sources = list(goal.glob("crates/*/src/*.rt"))
    types = {name for path in sources for found in TYPE.findall(path.read_text()) for name in found}
    types.add("AllocError")
    for path in sources:
        path.write_text(with_used_imports(path.read_text(), types))
    (goal / "crates.txt").write_text("".join(f"{name}: {' '.join(crates[name])}\n" for name in names))
    (goal / ".gitignore").write_text("out\ntarget\nfaults.txt\n")
    subprocess.run(["git", "init", "--quiet", str(goal)], check=True)


def write_list(faults, goal):
    blocks = []
    for fault in faults:
        edits = [edit for edit in fault.edits if "/specs/" in edit.file and edit.file != RUNS]
        lines = [f"label: {fault.label}", f"what: {fault.what}"]
        for edit in edits:
            lines += [f"file: {edit.file}", f"old: {edit.old}", f"new: {edit.new}"]
        if edits:
            blocks.append("\n".join(lines))
    (goal / "faults.txt").write_text("\n\n".join(blocks) + "\n")


def main():
    parser = argparse.ArgumentParser(description=__doc__, formatter_class=argparse.RawDescriptionHelpFormatter)
    parser.add_argument("list", type=Path)
    parser.add_argument("goal", type=Path)
    parser.add_argument("--repo", type=Path, default=Path(__file__).resolve().parents[2])
    parser.add_argument("--last", default="board")
    options = parser.parse_args()
    options.goal.mkdir(parents=True, exist_ok=True)
    make_copy(options.repo.resolve(), options.goal.resolve(), options.last)
    write_list(read_faults(options.list), options.goal)
    return 0


if __name__ == "__main__":
    sys.exit(main())
