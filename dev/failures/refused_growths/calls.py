#!/usr/bin/env python3
"""Runs programs of cases with each growth of memory refused in turn:   calls.py CRATES SHIM

CRATES is the folder of the crates: the program NAME_cases is NAME_cases/out/NAME_cases in it. SHIM is `refuse.c` as a shared object. The cases are those
of `calls.txt`. They make the public calls of the crates.

If a growth was refused, the program must report the row as one that differs: what it has is a beginning of the answer and then out of memory, with nothing
after that. Or its exit status says that it had no memory for its own work, and what it has, if it reports the row, is a beginning of the answer. After a
refused shrink, the answer is allowed too. The same holds for a few other growths (SPARED).
A program that is not built is reported. If the variable RNCV_AFTER_CI is set, that is a failure. test.sh builds the shim and calls this.
"""
import os
import pathlib
import re
import shutil
import signal
import sys
import tempfile
from urllib.parse import unquote_to_bytes

from rows import HERE, SECONDS, Count, Row, Runner, refuse_each, too_long

OUT_OF_MEMORY = b"out of memory\n"
# What may be before it in its line: what the program `rncv` says ahead of it, and what a program writes that had no memory for the tables of a row.
BEFORE = b"rncv: ", b"no grammar, or "
# The line that may follow it: the exit status of the program `rncv`.
AFTER = b"ExitCode(unix_exit_status(4))\n"
# The end of a program that had no memory for its own work: exit status and standard error.
NO_MEMORY = 1, b"Error: Kind(OutOfMemory)\n"
# A row that differs, as the programs report it.
DIFFERENCE = re.compile(rb"(\S+:\d+): wanted = .*\n\1: got(?P<unended>, without its last line feed)? = (?P<got>.*)\n")
# How many refused growths of a case, other than shrinks, may leave the answer as it is: buffers of the reader of documents, room that the standard library
# reserves ahead, what a validator keeps for a document that does not come, and, for a simple grammar, what is read of its row and not used. They are by
# programs, or by a file of one.
SPARED = {"parts_cases": 1, "pyx_cases": 4, "rncv_events_cases": 3, "rng_deriv_cases": 4, "rncv_run_cases": 1, "schema_cases rules.txt": 10}


class Case(Row):
    """A row of a program, in one of its files, and the answer in it. With no growth refused, the program prints how many rows each file has."""

    def __init__(self, program, name, row, counts):
        super().__init__([], [], b"", (0, counts, b""))
        self.program, self.name, self.row = program, name, row
        self.spared = SPARED.get(f"{program} {name}", SPARED.get(program, 0))
        self.answer = unquote_to_bytes(row.rpartition("\t= ")[2]) + b"\n"

    def __str__(self):
        return f"{self.program}: {self.row.strip()[:80]}"

    def reports(self, answer):
        """Whether a run reports of the row a beginning of the answer, and that it ran out of memory, in the row or by its status."""
        status, out, errors = answer
        difference, counts = DIFFERENCE.search(out), DIFFERENCE.sub(b"", out, count=1)
        got = unquote_to_bytes(difference["got"]) + (b"" if difference["unended"] else b"\n") if difference else b""
        if (status, errors) == NO_MEMORY:
            return self.wanted[1].startswith(counts) and self.answer.startswith(got)
        reported = got.removesuffix(AFTER)
        front = reported.removesuffix(OUT_OF_MEMORY)
        is_reported = (status, counts, errors) == self.wanted and front != reported
        for before in BEFORE:
            front = front.removesuffix(before)
        return is_reported and self.answer.startswith(front)


def counts_of(stdout, name):
    """What a program prints that compares one row, of the file with this name. `stdout` is what it prints for its own rows."""
    counts = re.findall(r"(\S+): \d+ rows\n", stdout)
    return "".join(f"{it}: {int(it == name)} rows\n" for it in counts).encode()


def cases_of(path, crates):
    """The cases of a file."""
    cases = []
    for line in pathlib.Path(path).read_text(encoding="utf-8").splitlines():
        if line and not line.startswith("#"):
            program, name, row = line.split("\t", 2)
            stdout = (crates / program / "stdout").read_text(encoding="utf-8")
            cases.append(Case(program, name, row, counts_of(stdout, name)))
    return cases


def lay_out(case, data):
    """Makes the current folder that of a case: the files of the program's data, with the row of the case in place of all rows."""
    for path in pathlib.Path(data).iterdir():
        if path.suffix == ".txt":
            pathlib.Path(path.name).write_text(f"{case.row}\n" if path.name == case.name else "", encoding="utf-8")
        else:
            shutil.copy(path, path.name)


def try_case(case, program, shim, count):
    """Runs a program for a case, in a folder of its own."""
    with tempfile.TemporaryDirectory() as folder, tempfile.TemporaryDirectory() as room:
        os.chdir(folder)
        lay_out(case, program.parents[1] / "data")
        refuse_each(Runner(program, shim, room), case, count)
        os.chdir("/")


def main(crates, shim):
    """Tries all cases, and returns the exit status."""
    signal.signal(signal.SIGALRM, too_long)
    signal.alarm(SECONDS)
    crates, shim, count, done, missing = pathlib.Path(crates).resolve(), os.path.abspath(shim), Count(), 0, set()
    for case in cases_of(HERE / "calls.txt", crates):
        program = crates / case.program / "out" / case.program
        if os.access(program, os.X_OK):
            try_case(case, program, shim, count)
            done += 1
        else:
            missing.add(case.program)
    if missing:
        print(f"dev/failures/refused_growths: not built: {', '.join(sorted(missing))}")
    print(f"programs of cases: {done} cases, {count.refused} growths refused, {count.left} of them left the answer, {count.wrong} wrong")
    return 1 if count.wrong or (missing and os.environ.get("RNCV_AFTER_CI")) else 0


if __name__ == "__main__":
    sys.exit(main(*sys.argv[1:]))
