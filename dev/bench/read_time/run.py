#!/usr/bin/env python3
"""Times the reader of documents alone, and compares it with a program that only cuts the lines (the floor). It is not part of the gate.

    dev/bench/read_time/run.py [--only WORD] [--times N] [--built PROGRAM]

It builds `program.txt` beside a copy of the crates that it uses. `--built` names a PROGRAM that was built in the same
way. It compiles `floor.c`, makes the documents, and feeds each document to both programs on standard input, N times (default: 3). The quickest run counts.

Each row has the milliseconds of a processor, the megabytes a second and the greatest memory. Then it has the floor's milliseconds, and how many times as
long the reader takes. A document repeats one block as often as its size needs.
"""
import argparse
import pathlib
import subprocess
import sys
import tempfile

HERE = pathlib.Path(__file__).resolve().parent
sys.path.insert(0, str(HERE.parent))
from measuring import Table, built, took, wanted  # noqa: E402

USES = "pyx rng_model"
MEGABYTE = 1_000_000


def numbers(seed):
    """Pseudo-random numbers, the same each time: `draw(n)` is below n."""
    state = seed

    def draw(below):
        nonlocal state
        state = (state * 6364136223846793005 + 1442695040888963407) % (1 << 64)
        return (state >> 33) % below

    return draw


def element(name, text):
    return f"({name}\n-{text}\n){name}\n"


def records():
    draw = numbers(7)
    for i in range(500):
        yield f"(record\nAid {i * 7919}\nAkind {('new', 'open', 'held', 'closed')[draw(4)]}\n"
        if draw(3) == 0:
            yield f"Aurgent {('true', '0')[draw(2)]}\n"
        yield element("name", f"Part number {draw(100000)}")
        yield element("quantity", draw(2001) - 1000)
        yield element("tags", " ".join(f"t{draw(50)}" for _ in range(draw(5))))
        yield element("place", f"{draw(900)} {draw(900)} {('m', 'ft')[draw(2)]}")
        yield element("status", "abc"[draw(3)]) if draw(2) else element("reason", "so it was said " * draw(4))
        for _ in range(draw(3)):
            yield element("note", f"A note of some words, as notes are; n\u00b0 {draw(1000)}.")
        yield ")record\n"


def blank_texts():
    """The records, with a blank text before each start tag and before the end tag of each record."""
    for part in records():
        if part[0] != "A":
            yield "-\\n  \n" if part[1:].startswith("record\n") else "-\\n    \n"
        yield part


def namespaced_records():
    """The records in an element that declares a default namespace."""
    yield "(records\nAxmlns urn:x:records\n"
    yield from records()
    yield ")records\n"


def prefixed_records():
    """The records, with a prefix in the name of each element."""
    yield "(r:records\nAxmlns:r urn:x:records\n"
    for part in records():
        yield "".join(f"{line[0]}r:{line[1:]}" if line[0] in "()" else line for line in part.splitlines(keepends=True))
    yield ")r:records\n"


def deep():
    yield from (f"(node\nAd {i}\n" for i in range(510))
    yield element("leaf", "x")
    yield ")node\n" * 510


def long_texts():
    line = "All work and no play, as they say. " * 1785
    yield "(p\n" + f"-{line}\n" * 16 + ")p\n"


def other_texts():
    line = "\u03b1\u03b2\u03b3 \u65e5\u672c\u8a9e \u0440\u0443\u0441 \U0001f600 \u00e9t\u00e9. " * 1500
    yield "(p\n" + f"-{line}\n" * 15 + ")p\n"


def escapes():
    yield element("p", "a line\\n\\tand a path C:\\\\x " * 40)


def many_attributes():
    yield "(row\n" + "".join(f"Aname{i:03} value {i}\n" for i in range(256)) + ")row\n"


def namespaces():
    for i in range(100):
        yield f"(p{i}:a\n" + "".join(f"Axmlns:p{j} urn:x:{j}\n" for j in range(i, i + 8)) + f"Ap{i}:x 1\n(p{i}:b\nAp{i + 1}:y 2\n)p{i}:b\n)p{i}:a\n"


def many_prefixes():
    yield "(a\n" + "".join(f"Axmlns:p{i} urn:x:{i}\n" for i in range(250))
    yield from (element(f"p{i}:b", "x") for i in range(250))
    yield ")a\n"


def long_namespaces():
    """Two namespaces of 65,000 bytes, whose prefixes the attributes of 100 elements have in turn."""
    yield "(a\n" + "".join(f"Axmlns:{prefix} urn:{prefix * 64_996}\n" for prefix in "pq")
    yield ("(row\n" + "".join(f"A{'pq'[i % 2]}:x{i} {i}\n" for i in range(254)) + ")row\n") * 100
    yield ")a\n"


SHAPES = [
    ("records", 10, records),
    ("records", 100, records),
    ("records with blank texts between elements", 10, blank_texts),
    ("records with blank texts between elements", 100, blank_texts),
    ("records in a default namespace", 10, namespaced_records),
    ("records whose elements have a prefix", 10, prefixed_records),
    ("511 elements in one another", 10, deep),
    ("texts of a megabyte", 100, long_texts),
    ("the same of other letters than Latin ones", 100, other_texts),
    ("texts of many escapes", 10, escapes),
    ("256 attributes an element", 10, many_attributes),
    ("8 declarations every other element", 10, namespaces),
    ("250 declarations, each prefix in use", 10, many_prefixes),
    ("attributes of two long namespaces in turn", 10, long_namespaces),
]


def write_document(path, size, shape):
    """Writes a document of about `size` megabytes: the shape's block, repeated in the root after the root's whole tag."""
    block = "".join(shape()).encode()
    count = max(1, size * MEGABYTE // len(block))
    with open(path, "wb") as file:
        file.write(b"(root\n-\n")
        for _ in range(count):
            file.write(block)
        file.write(b")root\n")


def least(program, document, times):
    """The least milliseconds of a processor of several runs, the most memory, and what the last one printed."""
    runs = [wanted(took([program], document), program.name) for _ in range(times)]
    return min(run.processor for run in runs), max(run.memory for run in runs), runs[-1].printed


def main():
    asked = argparse.ArgumentParser()
    asked.add_argument("--only", default="")
    asked.add_argument("--times", type=int, default=3)
    asked.add_argument("--built", type=pathlib.Path)
    asked = asked.parse_args()
    with tempfile.TemporaryDirectory(prefix="read-time-") as name:
        folder = pathlib.Path(name)
        reader = asked.built.resolve() if asked.built else built(folder, "read_time", HERE / "program.txt", USES)
        floor, document = folder / "floor", folder / "document"
        subprocess.run(["cc", "-O2", "-o", floor, HERE / "floor.c"], check=True)
        table = Table("Document", "MB", "Milliseconds of a processor", "MB/s", "MiB", "The floor's milliseconds", "Times", "Answer")
        for what, size, shape in SHAPES:
            if asked.only not in what:
                continue
            write_document(document, size, shape)
            size = document.stat().st_size / MEGABYTE
            own, memory, printed = least(reader, document, asked.times)
            bare, _, _ = least(floor, document, asked.times)
            table.row(what, f"{size:.0f}", f"{own:.0f}", f"{1000 * size / own:.0f}", f"{memory:.1f}", f"{bare:.0f}", f"{own / bare:.1f}",
                      printed.split("\n")[0])


if __name__ == "__main__":
    main()
