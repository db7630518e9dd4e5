#!/usr/bin/env python3
"""Times `check` of the built program over schema files of 1 MiB, each of one kind of text. It is not part of the gate.

    dev/bench/check_time/run.py [PROGRAM]

The default PROGRAM is `crates/rncv/out/rncv`. Each row has the answer, the seconds of a processor and on the clock, and the greatest memory.
"""
import pathlib
import sys
import tempfile

sys.path.insert(0, str(pathlib.Path(__file__).resolve().parents[1]))
from measuring import PROGRAM, Table, answer, took  # noqa: E402

MEBIBYTE = 1048576
# what a file is of, its front, a piece that is repeated, and its end
KINDS = [
    ("blanks", "element a { empty }", " ", ""),
    ("a comment", "element a { empty } #", "comment ", ""),
    ("a literal", 'element a { "', "text ", '" }'),
    ("a literal of many segments", 'element a { "x"', ' ~ "x"', " }"),
    ("escapes", "element a { empty }", r" | element \x{61} { empty }", ""),
    ("a choice of texts", "text", " | text", ""),
    ("a choice of elements", "text", " | element a { attribute x { text }, text }", ""),
    ("a grammar", "start = a", " a |= element a { (a | text)* }", ""),
    ("annotated patterns", "text", ' | [ a:documentation [ "x" ] ] text', ""),
    ("annotations in an annotation", "[", ' a:x [ "y" ]', " ] text"),
    ("annotations that are not closed", "", "[", ""),
    ("no sentence", "a", " a", ""),
]


def main():
    program = pathlib.Path(sys.argv[1] if len(sys.argv) > 1 else PROGRAM).resolve()
    table = Table("Kind", "Answer", "Seconds of a processor", "on the clock", "MiB")
    with tempfile.TemporaryDirectory(prefix="check-time-") as folder:
        for what, front, piece, end in KINDS:
            text = front + piece * ((MEBIBYTE - len(front) - len(end)) // len(piece)) + end
            pathlib.Path(folder, "s.rnc").write_text(text.ljust(MEBIBYTE), encoding="ascii")
            run = took([program, "check", "s.rnc"], cwd=folder)
            table.row(what, f"`{answer(run)}`", f"{run.processor / 1000:.2f}", f"{run.clock / 1000:.2f}", f"{run.memory:.0f}")


if __name__ == "__main__":
    main()
