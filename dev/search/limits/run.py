#!/usr/bin/env python3
"""Runs the program on large and hostile inputs, and prints a table. It is not part of the gate.

    dev/search/limits/run.py [--only WORD] [--quick] [--seconds N] [--megabytes N] [PROGRAM]

The default PROGRAM is `crates/rncv/out/rncv`. `inputs.py` has the rows. A run may use 120 seconds of a processor and 4,096 MiB of addresses. If a row
has a stack size, the run gets that stack. `--only` picks the rows that have WORD in their name. `--quick` makes their sizes a tenth. The least reported
memory is that of this process, 13 to 16 MiB.
"""
import argparse
import os
import pathlib
import signal
import subprocess
import sys
import tempfile

from inputs import ROWS

HERE = pathlib.Path(__file__).resolve().parent
LIMITS = 'ulimit -c 0; ulimit -t "$1"; ulimit -v "$2"; [ "$3" = 0 ] || ulimit -s "$3"; shift 3; exec "$@"'


def write_input(make, factor, folder):
    """Writes the files and the document in another process. Memory of this process would count as the program's memory."""
    writer = os.fork()
    if writer == 0:
        files, document = make(factor)
        for at, text in enumerate(files):
            (folder / f"f{at}.rnc").write_text(text, encoding="utf-8")
        (folder / "document.pyx").write_text(document, encoding="utf-8")
        os._exit(0)
    if os.waitpid(writer, 0)[1]:
        sys.exit("an input could not be made")
    return [f"f{at}.rnc" for at in range(len(list(folder.glob("f*.rnc"))))]


def judged(given, command, stack, folder, names):
    """The answer, the seconds of a processor and the greatest memory in MiB."""
    words = ["sh", "-c", LIMITS, "sh", str(given.seconds), str(given.megabytes * 1024), str(stack or 0), str(given.program), command, *names]
    with open(folder / "document.pyx", "rb") as document, open(folder / "answer", "wb") as answer:
        child = subprocess.Popen(words, cwd=folder, stdin=document, stdout=answer, stderr=answer)
        _, status, used = os.wait4(child.pid, 0)
    child.returncode = os.waitstatus_to_exitcode(status)
    seconds = used.ru_utime + used.ru_stime
    said = (folder / "answer").read_text(encoding="utf-8", errors="replace").strip()
    said = f"`{said.splitlines()[0][:80] if said else ''}`"
    if child.returncode < 0:
        ended = signal.Signals(-child.returncode)
        is_slow = ended in (signal.SIGKILL, signal.SIGXCPU) and seconds > given.seconds - 1
        said = f"stopped after {given.seconds} seconds" if is_slow else f"ended by {ended.name}"
    return said, seconds, used.ru_maxrss / 1024


def cell(text):
    """A text in a table."""
    return text.replace("|", "\\|")


def parsed(words):
    """The options, with the program as a whole path. Ends this process if there is no such program."""
    words.add_argument("program", nargs="?", type=pathlib.Path, default=HERE.parents[2] / "crates/rncv/out/rncv")
    given = words.parse_args()
    given.program = given.program.resolve()
    if not given.program.is_file() or not os.access(given.program, os.X_OK):
        sys.exit(f"{given.program} is not there, or is no program")
    return given


def main():
    words = argparse.ArgumentParser(description=__doc__.splitlines()[0])
    words.add_argument("--only", default="")
    words.add_argument("--quick", action="store_true")
    words.add_argument("--seconds", type=int, default=120)
    words.add_argument("--megabytes", type=int, default=4_096)
    given = parsed(words)
    print("| Input | Command | Seconds of a processor | Greatest memory, MiB | Answer |\n|---|---|---|---|---|", flush=True)
    for name, command, stack, make in ROWS:
        if given.only not in name:
            continue
        with tempfile.TemporaryDirectory(prefix="limits-") as room:
            folder = pathlib.Path(room)
            names = write_input(make, 0.1 if given.quick else 1, folder)
            said, seconds, memory = judged(given, command, stack, folder, names)
        took = ("over " if said.startswith("stopped") else "") + f"{seconds:.2f}"
        print(f"| {cell(name)} | `{command}` | {took} | {memory:,.0f} | {cell(said)} |", flush=True)


if __name__ == "__main__":
    main()
