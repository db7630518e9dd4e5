#!/usr/bin/env python3
"""Times `overlap` on large classes. It is not part of the gate.

    dev/bench/overlap_time/run.py [PROGRAM]

The default PROGRAM is `crates/parts_cases/out/parts_cases`. It compares the answers to rows. This script writes one row with two classes in its notation
(`crates/parts_cases/src/name_classes.rt`) and the answer for both orders of the classes. It shows that answer and the seconds of a processor for the two
calls. The time of a row with the same classes and a quick call is subtracted: it is the time to read the row and to make the classes.
"""
import pathlib
import sys
import tempfile

sys.path.insert(0, str(pathlib.Path(__file__).resolve().parents[1]))
from measuring import TOP, Table, took, wanted  # noqa: E402


def choice(words):
    """The choice of the classes, as a tree of pairs with a small depth."""
    words = list(words)
    while len(words) > 1:
        pairs = [f"{a} {b} |" for a, b in zip(words[::2], words[1::2])]
        words = pairs + (words[-1:] if len(words) % 2 else [])
    return words[0]


def names(ns, count, front="n"):
    return [f"{ns}:{front}{i}" for i in range(count)]


def namespaces(front, count):
    return [f"{front}{i}:*" for i in range(count)]


COUNT = 20000
ROWS = [
    ("20,000 names, and 20,000 others", "false false", choice(names("p", COUNT)), choice(names("p", COUNT, "m"))),
    ("20,000 names, and 19,999 others and the last of them", "true true", choice(names("p", COUNT)), choice(names("p", COUNT - 1, "m") + [f"p:n{COUNT - 1}"])),
    ("20,000 namespaces, and 20,000 others", "false false", choice(namespaces("p", COUNT)), choice(namespaces("q", COUNT))),
    ("20,000 namespaces, and 20,000 names of others", "false false", choice(namespaces("p", COUNT)), choice(names("q", COUNT))),
    ("20,000 names and one of 500,000 letters, and 20,000 others", "false false", choice(names("p", COUNT) + ["p:" + "x" * 500000]), choice(names("q", COUNT))),
    ("`*` but 2,000 names, and those names", "false false", choice(names("p", 2000)) + " -", choice(names("p", 2000))),
    ("`*` but 20,000 names, and those names", "false false", choice(names("p", COUNT)) + " -", choice(names("p", COUNT))),
]


def row_run(program, row):
    """A run of the program over this row alone."""
    with tempfile.TemporaryDirectory(prefix="overlap-time-") as folder:
        for name in ("texts", "types", "model"):
            pathlib.Path(folder, f"{name}.txt").touch()
        pathlib.Path(folder, "names.txt").write_text(row + "\n")
        return wanted(took([program], cwd=folder), row[:80])


def main():
    program = pathlib.Path(sys.argv[1] if len(sys.argv) > 1 else TOP / "crates/parts_cases/out/parts_cases").resolve()
    table = Table("Classes", "Answers", "Seconds of a processor")
    for what, answer, first, second in ROWS:
        run = row_run(program, f"overlap\t{first}\t{second}\t= {answer}")
        if not run.printed.startswith("texts.txt: 0 rows\nnames.txt: 1 rows\n"):
            sys.exit(f"overlap_time: {what}: the answer is not {answer}: {run.printed[-200:]}")
        reading = row_run(program, f"overlap\tp:a\t{first} {second} |").processor
        table.row(what, f"`{answer}`", f"{max(run.processor - reading, 0) / 1000:.3f}")


if __name__ == "__main__":
    main()
