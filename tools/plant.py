#!/usr/bin/env python3
"""Plants bugs in the code, one at a time, and tells which promise or run catches each.

usage: tools/plant.py [WORD...]    only bugs of these crates, or with these words in their names

The bugs stand in tools/planted-bugs.txt. Each becomes a must-fail edit in a copy of the crates below target/planted, where 'rt must-fail'
tries it alone. Whatever the prover lets through is put into the copy's code, and the copy's programs and tests are built and run and then
compared with the reference on random scripts. The table goes to standard output, a row for each bug, and the prover's words to
target/planted/messages. Exit status 1 if a bug survives, or is refused only because a proof names what the edited code has not.
"""
import pathlib
import re
import shutil
import subprocess
import sys
from contextlib import contextmanager
from dataclasses import dataclass

ROOT = pathlib.Path(__file__).resolve().parent.parent
COPY = ROOT / "target" / "planted"
# The programs and tests that may catch what the prover lets through.
RUNS = ("lint", "explain", "play", "cases", "limits")


@dataclass
class Bug:
    crate: str
    name: str
    file: str
    old: str
    new: str

    @property
    def label(self):
        return re.sub(r"\W+", "_", self.name)

    @property
    def edit(self):
        return COPY / "crates" / self.crate / "must-fail" / f"{self.label}.edit"


def read_bugs(path):
    """Stanzas of four lines: '[crate] name', 'file: ..', 'old: ..', 'new: ..'; '#' starts a comment line."""
    lines = [l for l in path.read_text().splitlines() if l.strip() and not l.startswith("#")]
    if len(lines) % 4:
        sys.exit("planted-bugs.txt: a stanza has not four lines")
    bugs = []
    for head, file, old, new in zip(*[iter(lines)] * 4):
        match = re.fullmatch(r"\[(\w+)\] (.+)", head)
        if not (match and file.startswith("file: ") and old.startswith("old: ") and new.startswith("new: ")):
            sys.exit(f"planted-bugs.txt: bad stanza at '{head}'")
        bugs.append(Bug(match[1], match[2], file[6:], old[5:], new[5:]))
    return bugs


def check_places(bugs):
    for bug in bugs:
        count = (ROOT / "crates" / bug.crate / bug.file).read_text().count(bug.old)
        if count != 1:
            sys.exit(f"[{bug.crate}] {bug.name}: the old text stands {count} times in {bug.file}")


def copy_tree(bugs):
    """A copy of the crates with the bugs in the place of their must-fail edits."""
    shutil.rmtree(COPY, ignore_errors=True)
    COPY.mkdir(parents=True)
    shutil.copytree(ROOT / "crates", COPY / "crates", ignore=shutil.ignore_patterns("must-fail", "out"))
    shutil.copy(ROOT / "crates.txt", COPY)
    for bug in bugs:
        bug.edit.parent.mkdir(exist_ok=True)
        bug.edit.write_text(f"file: {bug.file}\nold: {bug.old}\nnew: {bug.new}\n")


def rt(folder, *words):
    return subprocess.run(["rt", *words], cwd=folder, stdin=subprocess.DEVNULL, capture_output=True, text=True, errors="replace")


def prover_verdicts(bugs):
    """What 'rt must-fail' says of each bug, by crate and label."""
    said = {}
    for crate in dict.fromkeys(bug.crate for bug in bugs):
        output = rt(COPY, "must-fail", crate)
        for line in (output.stdout + output.stderr).splitlines():
            found = re.match(r"rt: must-fail (\w+)/(\S+)\.edit: (.*)", line)
            if found:
                said[found[1], found[2]] = found[3]
        for bug in (b for b in bugs if b.crate == crate):
            bug.edit.unlink()
    return said


def is_unfit(message):
    """An answer that names a step which the edited code has not says nothing about a promise, and rt says so."""
    return "only because a proof file names" in message or not message.startswith("refused")


@contextmanager
def planted(bug):
    path = COPY / "crates" / bug.crate / bug.file
    whole = path.read_text()
    path.write_text(whole.replace(bug.old, bug.new))
    try:
        yield
    finally:
        path.write_text(whole)


def run_verdict(bug):
    with planted(bug):
        ran = rt(COPY, "ci", *dict.fromkeys((bug.crate, *RUNS)))
        if ran.returncode:
            failed = re.search(r"rt: FAILED: (.*)", ran.stdout + ran.stderr)
            return "run", failed[1] if failed else ""
        rt(COPY / "crates" / "play", "run")
        program = COPY / "crates" / "play" / "out" / "play"
        compared = subprocess.run([ROOT / "reference" / "compare.sh", program, "2000"], capture_output=True)
        if compared.returncode:
            return "run", "reference/compare.sh"
    return "SURVIVES", ""


def judge(bug, said):
    if not said.startswith("NOT REFUSED"):
        place = re.search(r"((?:src|proofs)/[^:\s]+:\d+)", said)
        return ("unfit" if is_unfit(said) else "proof"), place[1] if place else ""
    return run_verdict(bug)


def main():
    bugs = read_bugs(ROOT / "tools" / "planted-bugs.txt")
    if sys.argv[1:]:
        bugs = [bug for bug in bugs if any(word == bug.crate or word in bug.name for word in sys.argv[1:])]
    check_places(bugs)
    copy_tree(bugs)
    said = prover_verdicts(bugs)
    counts = {"proof": 0, "unfit": 0, "run": 0, "SURVIVES": 0}
    print("| crate | bug | caught by | first at |\n| --- | --- | --- | --- |")
    with open(COPY / "messages", "w") as messages:
        for bug in bugs:
            words = said.get((bug.crate, bug.label), "BAD EDIT: rt said nothing of it")
            how, where = judge(bug, words)
            counts[how] += 1
            print(f"| {bug.crate} | {bug.name} | {how} | {where} |", flush=True)
            print(f"[{bug.crate}] {bug.name}: {how} at {where}: {words[:1000]}", file=messages, flush=True)
    print(f"\n{len(bugs)} bugs planted: {counts['proof']} refused by the prover because a fact no longer holds, {counts['unfit']} refused because a proof no longer fits the code, {counts['run']} caught by a run, {counts['SURVIVES']} survive")
    sys.exit(1 if counts["SURVIVES"] or counts["unfit"] else 0)


if __name__ == "__main__":
    main()
