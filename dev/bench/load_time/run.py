#!/usr/bin/env python3
"""Times `check` of the built program on schemas of several files. It is not part of the gate.

    dev/bench/load_time/run.py [PROGRAM]

The default PROGRAM is `crates/rncv/out/rncv`. Each row has the answer, the seconds of a processor and on the clock, and the greatest memory. The whole schema
is loaded before the clauses from S11 on are judged.
"""
import pathlib
import sys
import tempfile

sys.path.insert(0, str(pathlib.Path(__file__).resolve().parents[1]))
from measuring import PROGRAM, Table, answer, took  # noqa: E402

MEBIBYTE = 1048576
# how deep brackets may nest
LEVELS = 126


def defines(number, room=MEBIBYTE - 100):
    """Components with different names, nearly as many as fit into a file."""
    text = "".join(f"x{number}_{j} = element e{j} {{ attribute a {{ text }}, empty }}\n" for j in range(room // 60))
    return text[: text.rfind("\n", 0, room) + 1]


def chain(front, back, last):
    """64 files, each nested as deeply as allowed. The innermost pattern mentions the next file."""
    return [front * LEVELS + (f'external "f{i + 1}.rnc"' if i < 63 else last) + back * LEVELS for i in range(64)]


def schemas():
    one = defines(1)
    yield "one file of 1 MiB", [one]
    yield "64 files of 1 MiB, 63 included by the first", [
        "start = empty\n" + "".join(f'include "f{i}.rnc"\n' for i in range(1, 64))
    ] + [defines(i) for i in range(1, 64)]
    over = "".join(f"x1_{j} = text\n" for j in range(one.count("\n")))
    yield "1 MiB of components, each overridden", [f'include "f1.rnc" {{ {over} }}', one]
    many = "".join(f"x1_{j} = element e{j} {{ empty }}\n" for j in range(100))
    yield "100 components, included 4,000 times", ["".join('include "f1.rnc" { x1_1 = text }\n' for _ in range(4000)), many]
    yield "12 files, each but the last including the next twice", [
        f'include "f{i + 1}.rnc" include "f{i + 1}.rnc"' for i in range(11)
    ] + ["start |= text"]
    yield "30 files, each but the last including the next twice", [
        f'include "f{i + 1}.rnc" include "f{i + 1}.rnc"' for i in range(29)
    ] + ["start |= text"]
    yield "20,000 nested grammars side by side", [" | ".join(["grammar { start = text }"] * 20000)]
    yield "64 files, 126 elements in one another, then the next file", chain("element a { ", " }", "text")
    yield "64 files, 126 grammars in one another, then the next file", chain("grammar { start = ", " }", "text")


def main():
    program = pathlib.Path(sys.argv[1] if len(sys.argv) > 1 else PROGRAM).resolve()
    table = Table("Files", "Answer", "Seconds of a processor", "on the clock", "MiB")
    for what, texts in schemas():
        with tempfile.TemporaryDirectory(prefix="load-time-") as folder:
            names = [f"f{number}.rnc" for number in range(len(texts))]
            for name, text in zip(names, texts):
                pathlib.Path(folder, name).write_text(text)
            run = took([program, "check", *names], cwd=folder)
        table.row(what, f"`{answer(run)}`", f"{run.processor / 1000:.2f}", f"{run.clock / 1000:.2f}", f"{run.memory:.0f}")


if __name__ == "__main__":
    main()
