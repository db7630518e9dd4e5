#!/usr/bin/env python3
"""Measures rncv-xml beside jing and xmllint, on the same documents in the same run.

    dev/bench/xml/bench.py [--programs FOLDER] [--work FOLDER] [--repeat N] [--core N] [--megabytes N] [--documents N] [--only TEXT] [--of SCHEMA FOLDER]

FOLDER has rncv-xml; by default it is build/xml. Each program runs on one processor, or on two if the row says so. The times are the least of N runs: on
the clock, and in seconds of a processor. The memory is the most of all runs. jing is measured cold: its Java machine starts, and judges all the
documents that are named. If a Java compiler is installed, it is also measured in a running machine (`warm`): the schema is loaded once, and the time is
the least of a validation. xmllint gets the schema as trang writes it. What is not installed is left out: apt-get install jing trang libxml2-utils
default-jdk-headless.

`--of` adds a row: the files `*.xml` and `*.docbook` of a folder, and of those in it, that `rncv-xml` finds valid by the schema. They are copied without the
name of an external DTD, which jing would fetch. DocBook comes in packages: apt-get install emacs-common mate-user-guide mate-utils-common
mate-control-center-common, and then `--of /usr/share/emacs/*/etc/schema/docbook.rnc /usr/share/help`.
"""
import argparse
import json
import os
import pathlib
import random
import re
import shutil
import subprocess
import sys
import tempfile

sys.path.insert(0, str(pathlib.Path(__file__).resolve().parents[1]))
from measuring import TOP, Jing, Table, took  # noqa: E402
from workloads import SCHEMA, records  # noqa: E402


EXTERNAL = re.compile(rb"""(<!DOCTYPE\s+[^\s\[>]+)\s+(?:PUBLIC\s*(?:"[^"]*"|'[^']*')|SYSTEM)\s*(?:"[^"]*"|'[^']*')""")


def write_records(path, size):
    with open(path, "w", encoding="ascii") as file:
        file.writelines(records(random.Random(1), size))


def write_workloads(folder, size, count):
    """The documents of each row of the table."""
    (folder / "s.rnc").write_text(SCHEMA)
    (folder / "comment.rnc").write_text("element a { empty }\n")
    write_records(folder / "small.xml", 2_000)
    write_records(folder / "large.xml", size)
    (folder / "comment.xml").write_text("<a><!--" + "x" * size + "--></a>")
    many = [folder / f"many/{number:05}.xml" for number in range(count)]
    (folder / "many").mkdir(exist_ok=True)
    for path in many:
        write_records(path, 1_000)
    large = f"{size // 1_000_000} MB"
    schema = folder / "s.rnc"
    return [("one small document", 1, schema, [folder / "small.xml"]), (f"{count:,} small documents", 1, schema, many),
            (f"{count:,} small documents, two processors", 2, schema, many),
            (f"{large} of records", 1, schema, [folder / "large.xml"]), (f"{large} of records, two processors", 2, schema, [folder / "large.xml"]),
            (f"a comment of {large}", 1, folder / "comment.rnc", [folder / "comment.xml"])]


def workload_of(program, schema, given, folder):
    """The row of the documents in a folder that are valid by a schema."""
    copies = folder / f"of-{given.name}"
    copies.mkdir(exist_ok=True)
    names = []
    for path in sorted(path for path in given.rglob("*") if path.suffix in (".xml", ".docbook") and path.is_file()):
        names.append(copies / f"{len(names):05}.xml")
        names[-1].write_bytes(EXTERNAL.sub(rb"\1", path.read_bytes(), count=1))
    printed = subprocess.run([program, "--format", "json", "--files-from", "-", "--null", schema], input=b"".join(os.fsencode(name) + b"\0" for name in names),
                             capture_output=True, check=False).stdout
    documents = [name for name, line in zip(names, printed.splitlines()) if json.loads(line)["verdict"] == "valid"]
    if not documents:
        sys.exit(f"bench.py: no document in {given} is valid by {schema}")
    return f"{len(documents):,} documents by {schema.name}, {sum(name.stat().st_size for name in documents):,} bytes", 1, schema, documents


class Bench:
    """Runs programs on one processor, or on two."""

    def __init__(self, given, folder):
        self.given, self.folder = given, folder
        self.core = max(os.sched_getaffinity(0)) if given.core is None else given.core
        self.processors = {self.core}
        self.start = min(took(["true"], processors=self.processors).clock for _ in range(20))
        self.jing = Jing(folder)
        self.table = None

    def run(self, words):
        """The least times of several runs, the most memory, and whether each run said that all is valid. The time to start `time` is subtracted."""
        runs = [took(words, processors=self.processors) for _ in range(self.given.repeat)]
        return (max(min(run.clock for run in runs) - self.start, 0), min(run.processor for run in runs), max(run.memory for run in runs),
                all(run.status == 0 for run in runs))

    def relax_ng(self, schema):
        """The schema in the XML syntax, for xmllint."""
        target = self.folder / f"{schema.stem}.rng"
        if shutil.which("trang") and not target.exists():
            subprocess.run(["trang", schema, target], check=True, stderr=subprocess.DEVNULL)
        return target if target.exists() else None

    def peers(self, schema, documents):
        """The words that call each program."""
        yield "rncv-xml", [self.given.programs / "rncv-xml", "-j", str(len(self.processors)), schema, *documents]
        if shutil.which("jing"):
            yield "jing cold", ["jing", "-c", schema, *documents]
        if shutil.which("xmllint") and self.relax_ng(schema):
            yield "xmllint", ["xmllint", "--noout", "--huge", "--relaxng", self.relax_ng(schema), *documents]

    def row(self, title, processors, schema, documents):
        """Prints a row: of each program the milliseconds on the clock, the seconds of a processor, the memory, and the time of rncv-xml as a multiple."""
        self.processors = {max(self.core - number, 0) for number in range(processors)}
        found = {peer: self.run(words) for peer, words in self.peers(schema, documents)}
        if self.jing.classes:
            loop = self.jing.loop(schema, documents, rounds=9 if len(documents) == 1 else 2, processors=self.processors)
            found["jing warm"] = (min(*loop.firsts, *loop.laters), 0, 0, loop.is_valid)
        self.table = self.table or Table("Documents", *found)
        own = found["rncv-xml"][0]
        self.table.row(title, *(f"{clock:,.1f} ms{f', {processor / 1000:.2f} s, {memory:,.1f} MiB' if memory else ''}{'' if good else ' (not valid)'}"
                                + ("" if peer == "rncv-xml" else f" ({own / clock:.2f} ×)") for peer, (clock, processor, memory, good) in found.items()))


def main():
    parser = argparse.ArgumentParser(prog="bench.py", description=__doc__.splitlines()[0])
    parser.add_argument("--programs", type=pathlib.Path, default=TOP / "build/xml")
    parser.add_argument("--work", type=pathlib.Path)
    parser.add_argument("--repeat", type=int, default=5)
    parser.add_argument("--core", type=int)
    parser.add_argument("--megabytes", type=int, default=51)
    parser.add_argument("--documents", type=int, default=2_000)
    parser.add_argument("--only", default="", metavar="TEXT", help="the rows with this text")
    parser.add_argument("--of", nargs=2, action="append", default=[], type=pathlib.Path, metavar=("SCHEMA", "FOLDER"), help="a row over a folder")
    given = parser.parse_args()
    if not os.access(given.programs / "rncv-xml", os.X_OK):
        print(f"bench.py: no rncv-xml in {given.programs}: programs/xml/build.sh builds it", file=sys.stderr)
        return 2
    with tempfile.TemporaryDirectory(prefix="rncv-xml-bench-") as room:
        folder = given.work or pathlib.Path(room)
        folder.mkdir(parents=True, exist_ok=True)
        bench = Bench(given, folder)
        real = [workload_of(given.programs / "rncv-xml", schema, place, folder) for schema, place in given.of]
        for workload in [*write_workloads(folder, given.megabytes * 1_000_000, given.documents), *real]:
            if given.only in workload[0]:
                bench.row(*workload)
        print("In brackets: the time of rncv-xml as a multiple of this one's.")
    return 0


if __name__ == "__main__":
    sys.exit(main())
