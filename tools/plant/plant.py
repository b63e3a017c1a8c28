#!/usr/bin/env python3
"""Plants faults in a copy of the repository, one at a time, and reports which the prover refuses.

    plant.py LIST [--repo DIR] [--copy DIR] [--only LABEL].. [--above [LAST]] [--fresh] [--command TEXT]
                  [--seconds N] [--logs DIR] [--record FILE] [--table FILE] [--dry-run]

LIST is a text of blocks, one a planted fault, with an empty line between blocks; a line that begins with '#' is a
comment. A block is

    label: reader-doom-missed
    what: a read dooms those who marked the cell, and not those who wrote it
    file: crates/memory/src/logging.rt
    old: (Transaction::Open(log), Access::Reads) => log.wrote(cell),
    new: (Transaction::Open(log), Access::Reads) => log.marks.has(cell),

'what' may be left out. 'file' is a path from the repository's root, and holds for the pairs of 'old' and 'new' that
follow it; a block may have several files and several pairs, which are planted together. The text after 'old: ' must
stand exactly once in its file, within a line; the text after 'new: ' takes its place (an empty one deletes it). A label
names one block only.

A fault is judged by the crates whose files it changes, in the order of crates.txt, until one is refused. With --above,
the crates that stand on them are checked too, in that order, up to LAST if one is named: a fault that is planted in the
code and in its definition alike is accepted by its own crate, and has to be refused further up. Every fault ends as
one of

    refused      the prover says no; the crate and the place of the first error are printed. A first error in a proof
                 file is marked: it may only mean that the proof no longer fits the text, so read the log
    ran wrong    everything is proved, and a test or a program's stored output tells the fault: a contract is too weak
                 (only where --command runs them, as 'rt verdict' runs a crate's tests)
    no end       the check took longer than --seconds: nothing is known
    not built    the compiler says no before the prover is asked, or a definition that was changed is none any more: the
                 fault shows nothing, write another
    SURVIVED     everything checked is still proved: a contract is too weak
    not planted  an old text is missing or stands more than once

--copy names the folder of the copy, which is kept for the next run; without it the copy is thrown away. --record keeps
every verdict in a file; a fault that has one there, other than "no end", and was not changed since is not tried again.
--table writes the verdicts as a table; with --record, all that are recorded for the list.

The status is 0 if every fault was refused, 1 if not, 2 if the script could not do its work. It is no part of the gate.
"""

import argparse
import hashlib
import json
import os
import re
import shlex
import shutil
import signal
import subprocess
import sys
import tempfile
import time
from dataclasses import asdict, dataclass, field
from pathlib import Path

KEYS = ("label", "what", "file", "old", "new")
RESULTS = ("refused", "ran wrong", "no end", "not built", "SURVIVED", "not planted")


class Unusable(Exception):
    """The script cannot do its work; the text says why."""


@dataclass
class Edit:
    file: str
    old: str
    new: str

    @property
    def crate(self):
        parts = Path(self.file).parts
        if len(parts) < 3 or parts[0] != "crates":
            raise Unusable(f"{self.file} is in no crate")
        return parts[1]


@dataclass
class Fault:
    label: str
    what: str
    edits: list[Edit]

    @property
    def crates(self):
        return list(dict.fromkeys(edit.crate for edit in self.edits))

    @property
    def in_definition(self):
        return any("/specs/" in edit.file for edit in self.edits)

    @property
    def digest(self):
        return hashlib.sha256(repr(self.edits).encode()).hexdigest()[:16]


@dataclass
class Run:
    """One check: its status (None: no end in time), what it said, how long it took, its first error."""

    status: int | None
    text: str
    seconds: float
    where: str
    error: str


@dataclass
class Verdict:
    label: str
    digest: str
    result: str
    crate: str = ""
    where: str = ""
    error: str = ""
    passed: list[str] = field(default_factory=list)
    seconds: float = 0.0

    def line(self):
        place = f" in {self.crate}: {self.where}" if self.crate else f": {self.where}" if self.where else ""
        behind = f" (proved before it: {', '.join(self.passed)})" if self.passed else ""
        return f"{self.label}: {self.result}{place}{behind}, {self.seconds:.0f} s"


# The list


def read_faults(path):
    faults, block = [], []
    for number, line in enumerate(path.read_text().split("\n") + [""], 1):
        if line.startswith("#"):
            continue
        if line.strip():
            key, colon, text = line.partition(":")
            if not colon or key not in KEYS:
                raise Unusable(f"{path}:{number}: expected one of {', '.join(KEYS)}")
            text = text[1:] if text.startswith(" ") else text
            block.append((key, text if key in ("old", "new") else text.strip()))
        elif block:
            faults.append(read_block(block, f"{path}:{number}"))
            block = []
    labels = [fault.label for fault in faults]
    twice = {label for label in labels if labels.count(label) > 1}
    if twice:
        raise Unusable(f"{path}: a label stands twice: {', '.join(sorted(twice))}")
    return faults


def read_block(block, place):
    """A fault from the keys and texts of its lines."""
    head = {"label": "", "what": ""}
    edits, file, old = [], "", ""
    for key, text in block:
        if key in head:
            head[key] = text
        elif key == "file":
            file = text
        elif key == "old":
            old = text
        elif not file or not old.strip():
            raise Unusable(f"{place}: the block has a new: without a file: and an old: before it")
        else:
            edits.append(Edit(file, old, text))
            old = ""
    if not head["label"] or not edits or old:
        raise Unusable(f"{place}: the block has no label:, no edit, or an old: without its new:")
    return Fault(head["label"], head["what"], edits)


def read_crates(repo):
    """crates.txt: a line NAME: the crates it stands on, in the order of the file; NAME may have words behind it."""
    crates = {}
    for line in (repo / "crates.txt").read_text().split("\n"):
        line = line.split("#")[0].strip()
        if line:
            name, _, needs = line.partition(":")
            crates[name.split()[0]] = needs.replace(",", " ").split()
    return crates


def to_check(crates, fault, above):
    """The crates that a fault changes and, where wanted, those that stand on them, in the order of crates.txt."""
    wanted = set(fault.crates)
    unknown = wanted - set(crates)
    if unknown:
        raise Unusable(f"{fault.label}: crates.txt has no {', '.join(sorted(unknown))}")
    order = list(crates)
    if above and above not in crates:
        raise Unusable(f"crates.txt has no {above}")
    reach = [] if above is None else order[: order.index(above) + 1] if above else order
    for crate in reach:
        if wanted.intersection(crates[crate]):
            wanted.add(crate)
    return [crate for crate in order if crate in wanted]


def why_not_plantable(root, fault):
    """The first edit that cannot be made, or nothing."""
    texts = {}
    for edit in fault.edits:
        path = root / edit.file
        if not path.is_file():
            return f"there is no {edit.file}"
        before = texts.setdefault(edit.file, path.read_text())
        if before.count(edit.old) != 1:
            return f"an old text stands {before.count(edit.old)} times in {edit.file}: {edit.old.strip()}"
        texts[edit.file] = before.replace(edit.old, edit.new)
    return ""


def planted(root, fault):
    """Plants the fault, and gives the texts that stood before, by path."""
    before = {}
    for edit in fault.edits:
        path = root / edit.file
        text = path.read_text()
        before.setdefault(path, text)
        path.write_text(text.replace(edit.old, edit.new))
    return before


# The copy


def copy_sources(repo, copy):
    """Copies what git has under version control or would add, and takes away what is no longer there."""
    command = ["git", "-C", str(repo), "ls-files", "-z", "--cached", "--others", "--exclude-standard"]
    listed = subprocess.run(command, capture_output=True, check=True).stdout.decode().split("\0")
    for old in (copy / "crates").rglob("*"):
        if old.is_file() and "out" not in old.relative_to(copy).parts:
            old.unlink()
    for name in filter(None, listed):
        source, goal = repo / name, copy / name
        if source.is_file():
            goal.parent.mkdir(parents=True, exist_ok=True)
            shutil.copy2(source, goal)


def make_copy(repo, copy, fresh):
    """A copy of the sources, with what earlier checks left in it, unless fresh is wanted."""
    copy.mkdir(parents=True, exist_ok=True)
    if fresh:
        for out in copy.glob("crates/*/out"):
            shutil.rmtree(out)
    copy_sources(repo, copy)


# One check


def check(copy, command, crate, seconds):
    words = [word.replace("{crate}", crate) for word in shlex.split(command)]
    began = time.monotonic()
    try:
        # A session of its own, so that what the check started can be ended with it.
        process = subprocess.Popen(
            words,
            cwd=copy / "crates" / crate,
            env=dict(os.environ, RT_CUT="0"),
            stdout=subprocess.PIPE,
            stderr=subprocess.STDOUT,
            start_new_session=True,
        )
    except OSError as error:
        raise Unusable(f"cannot run {words[0]}: {error}") from error
    try:
        output, _ = process.communicate(timeout=seconds)
        status = process.returncode
    except subprocess.TimeoutExpired:
        os.killpg(process.pid, signal.SIGKILL)
        output, _ = process.communicate()
        status = None
    text = output.decode(errors="replace")
    return Run(status, text, time.monotonic() - began, *first_error(copy, text))


def first_error(copy, text):
    """The place of the first error, as a path within the repository, and what it says."""
    text = text.replace(str(copy.resolve()) + "/", "").replace(str(copy) + "/", "")
    patterns = (
        r"^(\S+:\d+:\d+): error: (.*)$",
        r"^(\S+): error:? ?(.*)$",
        r"^note: (\S*:\d+:\d+): (.*)$",
        r"^(?:rt: )?()(.*(?:error|FAILED|NOT PROVED|refused).*)$",
    )
    for pattern in patterns:
        found = re.search(pattern, text, re.MULTILINE)
        if found:
            return found.group(1).strip(), found.group(2).strip()[:400]
    return "", ""


def result_of(run):
    """What a check that did not pass says of the fault."""
    if run.status is None:
        return "no end"
    if "logic=not-proved" in run.text:
        # A definition that does not check is no fault of the code.
        return "not built" if "/specs/" in run.where else "refused"
    if "its run FAILED" in run.text or "its tests FAILED" in run.text:
        return "ran wrong"
    return "not built"


def judge(copy, options, crates, fault):
    """Plants one fault, checks crate after crate, and takes the fault out again."""
    verdict = Verdict(fault.label, fault.digest, "SURVIVED")
    trouble = why_not_plantable(copy, fault)
    if trouble:
        verdict.result, verdict.where = "not planted", trouble
        return verdict
    before = planted(copy, fault)
    try:
        for crate in to_check(crates, fault, options.above):
            run = check(copy, options.command, crate, options.seconds)
            verdict.seconds += run.seconds
            (options.logs / f"{fault.label}.{crate}.log").write_text(run.text)
            if run.status == 0:
                verdict.passed.append(crate)
                continue
            verdict.result, verdict.crate = result_of(run), crate
            verdict.where, verdict.error = run.where, run.error
            break
    finally:
        for path, text in before.items():
            path.write_text(text)
    return verdict


def check_unedited(copy, options, crates, faults):
    """A refusal says nothing if the unedited crate is refused too."""
    wanted = set()
    for fault in faults:
        wanted.update(to_check(crates, fault, options.above))
    for crate in (crate for crate in crates if crate in wanted):
        run = check(copy, options.command, crate, None)
        if run.status != 0:
            raise Unusable(f"{crate} is not proved without any fault: {run.where} {run.error}")


# The verdicts


def read_record(path):
    verdicts = {}
    if path and path.is_file():
        for line in path.read_text().splitlines():
            verdict = Verdict(**json.loads(line))
            verdicts[verdict.label] = verdict
    return verdicts


def write_table(path, faults, verdicts):
    lines = ["| fault | planted in | what | result | first error |", "|---|---|---|---|---|"]
    for fault in faults:
        verdict = verdicts.get(fault.label)
        if verdict is None:
            continue
        place = ", ".join(fault.crates) + (", code and definition" if fault.in_definition else "")
        result = verdict.result + (f" by {verdict.crate}" if verdict.crate else "")
        where = re.sub(r":\d+$", "", verdict.where).replace(f"crates/{verdict.crate}/", "")
        cells = (f"`{fault.label}`", place, fault.what, result, f"`{where}`" if where else "")
        lines.append("| " + " | ".join(cell.replace("|", "\\|") for cell in cells) + " |")
    path.write_text("\n".join(lines) + "\n")


def summary(results):
    return f"{len(results)} faults: " + ", ".join(f"{results.count(result)} {result}" for result in RESULTS)


# The run


def parse_options(words):
    parser = argparse.ArgumentParser(
        description=__doc__, formatter_class=argparse.RawDescriptionHelpFormatter, usage="plant.py LIST [options]"
    )
    parser.add_argument("list", type=Path)
    parser.add_argument("--repo", type=Path, default=Path(__file__).resolve().parents[2])
    parser.add_argument("--copy", type=Path, help="the folder of the copy, kept for the next run")
    parser.add_argument("--only", action="append", metavar="LABEL", help="only this fault; may be repeated")
    parser.add_argument(
        "--above", nargs="?", const="", metavar="LAST", help="check the crates above too, while the fault survives"
    )
    parser.add_argument("--fresh", action="store_true", help="start without what earlier checks left in the copy")
    parser.add_argument("--command", default="rt check", help="the check, in the crate's folder; {crate} is its name")
    parser.add_argument("--seconds", type=float, default=1800, help="longest time for one check")
    parser.add_argument("--logs", type=Path, default=Path("target/plant"), help="where each check's words are kept")
    parser.add_argument("--record", type=Path, help="keep the verdicts here, and try no fault that has one")
    parser.add_argument("--table", type=Path, help="write the results as a table")
    parser.add_argument("--dry-run", action="store_true", help="only see that every fault can be planted")
    return parser.parse_args(words)


def see_plantable(repo, faults):
    crates = read_crates(repo)
    troubles = []
    for fault in faults:
        to_check(crates, fault, None)
        trouble = why_not_plantable(repo, fault)
        if trouble:
            troubles.append(trouble)
            print(f"{fault.label}: {trouble}")
    print(f"{len(faults)} faults, {len(troubles)} cannot be planted")
    return 1 if troubles else 0


def try_all(copy, options, faults, verdicts):
    """Judges the faults in turn, in a copy that is proved without any."""
    crates = read_crates(copy)
    check_unedited(copy, options, crates, faults)
    for number, fault in enumerate(faults, 1):
        verdict = judge(copy, options, crates, fault)
        verdicts[fault.label] = verdict
        print(f"{number}/{len(faults)} {verdict.line()}", flush=True)
        if options.record:
            with options.record.open("a") as record:
                record.write(json.dumps(asdict(verdict)) + "\n")


def plant(options):
    repo = options.repo.resolve()
    listed = read_faults(options.list)
    faults = [fault for fault in listed if not options.only or fault.label in options.only]
    if not faults:
        raise Unusable("no fault to plant")
    if options.dry_run:
        return see_plantable(repo, faults)
    verdicts = read_record(options.record)
    known = {verdict.label: verdict.digest for verdict in verdicts.values() if verdict.result != "no end"}
    left = [fault for fault in faults if known.get(fault.label) != fault.digest]
    options.logs.mkdir(parents=True, exist_ok=True)
    with tempfile.TemporaryDirectory(prefix="plant-") as folder:
        copy = (options.copy or Path(folder) / "repository").resolve()
        if left:
            make_copy(repo, copy, options.fresh)
            try_all(copy, options, left, verdicts)
    if options.table:
        write_table(options.table, listed, verdicts)
    results = [verdicts[fault.label].result for fault in faults]
    print(summary(results))
    return 0 if all(result == "refused" for result in results) else 1


def main():
    try:
        return plant(parse_options(sys.argv[1:]))
    except (Unusable, OSError, subprocess.CalledProcessError) as trouble:
        print(f"plant: {trouble}", file=sys.stderr)
        return 2


if __name__ == "__main__":
    sys.exit(main())
