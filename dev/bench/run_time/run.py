#!/usr/bin/env python3
"""Measures the time and the memory of the whole program. It is not part of the gate.

    dev/bench/run_time/run.py PROGRAM [--starts N] [--megabytes N]

First it starts PROGRAM (`rncv`) N times (default: 200) on a small schema and a small document. If `xmllint` is installed, it runs in turn with PROGRAM,
with the same schema in XML syntax. The medians are printed. Then PROGRAM judges long valid documents of N megabytes (default: 2, 20 and 200), and the time
and the greatest memory are printed. They show that the memory for a document does not grow with the document.
"""
import argparse
import pathlib
import shutil
import statistics
import sys
import tempfile

sys.path.insert(0, str(pathlib.Path(__file__).resolve().parents[1]))
from measuring import Table, took, wanted  # noqa: E402

SMALL = "element a { attribute x { text }?, element b { text }* }\n"
SMALL_XML = ("<element name='a' xmlns='http://relaxng.org/ns/structure/1.0'><optional><attribute name='x'/></optional>"
             "<zeroOrMore><element name='b'><text/></element></zeroOrMore></element>\n")
RECORDS = ("element records { element record { attribute id { xsd:integer }, (element name { text } & element tags { list { token* } }),"
           " element note { text }* }* }\n")


def record(i):
    return f"(record\nAid {i}\n- \n(name\n-Part number {i}\n)name\n- \n(tags\n-t{i} t\n)tags\n(note\n-Some words.\n)note\n)record\n"


def starts(program, room, count):
    (room / "s.rnc").write_text(SMALL)
    (room / "s.rng").write_text(SMALL_XML)
    (room / "d.pyx").write_text("(a\nAx 1\n(b\n-hi\n)b\n)a\n")
    (room / "d.xml").write_text("<a x='1'><b>hi</b></a>\n")
    runs = {"rncv valid": [program, "valid", str(room / "s.rnc")]}
    if shutil.which("xmllint"):
        runs["xmllint --relaxng"] = ["xmllint", "--noout", "--relaxng", str(room / "s.rng"), str(room / "d.xml")]
    times = {name: [] for name in runs}
    for _ in range(count):
        for name, words in runs.items():
            times[name].append(wanted(took(words, room / "d.pyx", has_memory=False), name))
    table = Table("One small document", "Milliseconds on the clock", "of a processor", "MiB")
    for name, all_times in times.items():
        clock, processor = (statistics.median(getattr(run, figure) for run in all_times) for figure in ("clock", "processor"))
        table.row(f"`{name}`", f"{clock:.1f}", f"{processor:.1f}", f"{took(runs[name], room / 'd.pyx').memory:.1f}")


def documents(program, room, sizes):
    (room / "records.rnc").write_text(RECORDS)
    piece = "".join(map(record, range(2_000))).encode()
    print()
    table = Table("Records, megabytes", "Seconds of a processor", "MiB")
    for size in sizes:
        pieces = [b"(records\n", *[piece] * (size * 1_000_000 // len(piece)), b")records\n"]
        run = wanted(took([program, "valid", room / "records.rnc"], pieces=pieces), "records")
        table.row(size, f"{run.processor / 1000:.1f}", f"{run.memory:.1f}")


def main():
    words = argparse.ArgumentParser(description=__doc__, formatter_class=argparse.RawDescriptionHelpFormatter)
    words.add_argument("program", type=pathlib.Path)
    words.add_argument("--starts", type=int, default=200)
    words.add_argument("--megabytes", type=int, nargs="*", default=[2, 20, 200])
    asked = words.parse_args()
    with tempfile.TemporaryDirectory(prefix="run-time-") as room:
        starts(str(asked.program.resolve()), pathlib.Path(room), asked.starts)
        documents(str(asked.program.resolve()), pathlib.Path(room), asked.megabytes)


if __name__ == "__main__":
    main()
