#!/usr/bin/env python3
"""Proves what `make` builds, side by side:   programs/prove.py [--folder FOLDER] NAME..

FOLDER, by default build/proved, gets a copy of these crates and of those below them, by crates.txt, without their must-fail edits. `rt ci` proves them
there, as many at a time as the machine has processors and memory for, and builds the libraries and the programs. What passes is kept by rt, so a later run
proves only what changed. A program NAME goes to crates/NAME/out/NAME of the checkout. FOLDER/log has all that rt says.

A line for each crate says how far the run is, and about how long the rest takes: by the minutes of the table in docs/develop/GATE.md, and by the pace so far.
The status is that of `rt ci`. Variables are those of rt, as RT_JOBS, the number of crates at a time.
"""
import argparse
import pathlib
import re
import shutil
import subprocess
import sys
import time

TOP = pathlib.Path(__file__).resolve().parents[1]
LEFT_OUT = shutil.ignore_patterns("out", "must-fail", "edits", "__pycache__")
ENDED = re.compile(r"^rt: (\w+) (proved|NOT PROVED|is kept)\b")
USUAL = 2.0  # minutes of a crate that the table lacks


def uses_of(text):
    """The lines of crates.txt by crate, each with the crates of the repository that it uses."""
    lines = {found[1]: (found[0], found[2].split()) for found in re.finditer(r"^(\w+)[^:\n]*:(.*)$", text, re.M)}
    return {name: (line, [word for word in words if word in lines]) for name, (line, words) in lines.items()}


def with_all_below(uses, names):
    """These crates and those below them, in the order of crates.txt."""
    needed, left = set(), list(names)
    while left:
        name = left.pop()
        if name not in needed:
            needed.add(name)
            left += uses[name][1]
    return [name for name in uses if name in needed]


def minutes_of(text):
    """The minutes of proofs of each crate, by the table of the gate."""
    rows = (re.findall(r"[^|]+", line) for line in text.splitlines() if line.startswith("| `"))
    return {cells[0].strip(" `"): float(cells[1]) for cells in rows if len(cells) == 7 and re.fullmatch(r" [0-9.]+ ", cells[1])}


def copied(top, folder, uses, crates):
    """Makes the folder a repository of these crates alone."""
    shutil.rmtree(folder, ignore_errors=True)
    (folder / ".git").mkdir(parents=True)  # so rt takes the folder for a top
    (folder / "crates.txt").write_text("".join(f"{uses[name][0]}\n" for name in crates), encoding="utf-8")
    if (top / "HANDLES").exists():
        shutil.copy(top / "HANDLES", folder)
    for name in crates:
        shutil.copytree(top / "crates" / name, folder / "crates" / name, ignore=LEFT_OUT)


class Progress:
    """What has ended, and how long the rest takes."""

    def __init__(self, crates, minutes, clock=time.monotonic):
        self.left = {name: minutes.get(name, USUAL) for name in crates}
        self.number, self.clock, self.begin = len(crates), clock, clock()
        self.worked = 0.0  # minutes of the table that were proved here

    def line(self, name, what):
        """The line for a crate that has ended."""
        took = self.left.pop(name, 0.0)
        self.worked += took if what == "proved" else 0.0
        said = f"{self.number - len(self.left)} of {self.number}: {name} {what}"
        rest = sum(self.left.values())
        if not self.left or not self.worked:
            return said
        minutes = rest * (self.clock() - self.begin) / 60 / self.worked
        return f"{said}; about {max(1, round(minutes))} minutes left"


def proved(folder, progress):
    """Runs `rt ci` in the folder, and prints the progress. Returns its status."""
    with open(folder / "log", "w", encoding="utf-8") as log, subprocess.Popen(["rt", "ci"], cwd=folder, stdout=subprocess.PIPE, stderr=subprocess.STDOUT,
                                                                               text=True, errors="replace") as run:
        for line in run.stdout:
            log.write(line)
            log.flush()
            if (found := ENDED.match(line)) and found[1] in progress.left:
                print(progress.line(found[1], found[2]), flush=True)
    return run.returncode


def main():
    asked = argparse.ArgumentParser(description=__doc__.splitlines()[0])
    asked.add_argument("--folder", type=pathlib.Path, default=TOP / "build/proved")
    asked.add_argument("names", nargs="+", metavar="NAME")
    asked = asked.parse_args()
    uses = uses_of((TOP / "crates.txt").read_text(encoding="utf-8"))
    if lacking := [name for name in asked.names if name not in uses]:
        print(f"programs/prove.py: crates.txt has no {lacking[0]}", file=sys.stderr)
        return 2
    if not shutil.which("rt"):
        print("programs/prove.py: no rt: install the toolchain that README.md names, and put its folder bin on PATH", file=sys.stderr)
        return 2
    crates = with_all_below(uses, asked.names)
    copied(TOP, asked.folder, uses, crates)
    print(f"{len(crates)} crates are proved side by side; {asked.folder / 'log'} has all that rt says", flush=True)
    status = proved(asked.folder, Progress(crates, minutes_of((TOP / "docs/develop/GATE.md").read_text(encoding="utf-8"))))
    if status:
        print("".join((asked.folder / "log").read_text(encoding="utf-8").splitlines(True)[-20:]), end="", file=sys.stderr)
        return status
    for name in asked.names:
        program = asked.folder / "crates" / name / "out" / name
        if program.is_file():
            (TOP / "crates" / name / "out").mkdir(exist_ok=True)
            shutil.copy(program, TOP / "crates" / name / "out" / name)
    return 0


if __name__ == "__main__":
    sys.exit(main())
