#!/usr/bin/env python3
"""Runs each example of docs/use/CLAUSES.md: a broken example breaks its clause, a repair breaks none.

    dev/check/clauses/clauses_test.py [PROGRAM]      (PROGRAM: the built rncv, else crates/rncv/out/rncv)
"""
import os
import pathlib
import re
import subprocess
import sys
import tempfile

TOP = pathlib.Path(__file__).resolve().parents[3]
PARTS = re.compile(r"^### ([SP]\d+):.*?^```broken\n(.*?)^```$.*?^```repair\n(.*?)^```$", re.M | re.S)
MARK = re.compile(rb"\{\{(?:(\d+) x (.+?)|byte ([0-9A-F]{2})|(no line feed))\}\}(\n?)")
CLAUSES = [f"S{number}" for number in range(1, 28)] + [f"P{number}" for number in range(1, 14)]


def spelled(mark):
    """The bytes that a mark of the page means."""
    times, text, byte, _, end = mark.groups()
    if times:
        return text * int(times) + end
    return bytes.fromhex(byte.decode()) + end if byte else b""


def data(example):
    """The bytes of an example."""
    return MARK.sub(spelled, example.encode("utf-8"))


def files(example):
    """The names and the bytes of the files of a schema's example."""
    parts = re.split(r"^## file (\S+)\n", example, flags=re.M)
    return list(zip(["s.rnc", *parts[1::2]], map(data, parts[::2])))


def answer(program, clause, example):
    """What the program prints for an example."""
    with tempfile.TemporaryDirectory() as folder:
        is_schema = clause[0] == "S"
        given = files(example) if is_schema else [("s.rnc", b"element a { empty }")]
        for name, content in given:
            pathlib.Path(folder, name).write_bytes(content)
        words = [program, "check" if is_schema else "valid", *(name for name, _ in given)]
        run = subprocess.run(words, cwd=folder, input=b"" if is_schema else data(example), capture_output=True, timeout=60, check=False)
        return (run.stdout + run.stderr).decode("utf-8", "replace").strip()


def faults(program, page):
    """A line for each example with a wrong answer, and one if the page does not have exactly the clauses in order."""
    met = []
    for clause, broken, repair in PARTS.findall(page):
        met.append(clause)
        for example, kind in ((broken, "broken"), (repair, "repair")):
            said = answer(program, clause, example)
            reported = re.match(r"(?:refused|malformed) ([SP]\d+)", said)
            good = reported and reported[1] == clause if kind == "broken" else said in ("schema ok", "valid") or said.startswith("invalid line ")
            if not good:
                yield f"{clause} {kind}: {said}"
    if met != CLAUSES:
        yield f"clauses of the page: {' '.join(met)}"


def main():
    program = pathlib.Path(sys.argv[1] if len(sys.argv) > 1 else TOP / "crates/rncv/out/rncv").resolve()
    if not program.exists():
        print(f"clauses: skipped, no program at {program}")
        return 1 if os.environ.get("RNCV_REQUIRED") else 0
    found = list(faults(str(program), (TOP / "docs/use/CLAUSES.md").read_text(encoding="utf-8")))
    print("\n".join(found) or f"clauses: {2 * len(CLAUSES)} examples: ok")
    return 1 if found else 0


if __name__ == "__main__":
    sys.exit(main())
