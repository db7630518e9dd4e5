#!/usr/bin/env python3
"""Measures what `Validator.validate_xml` takes for many short documents, beside lxml in the same run. It is no test, and no part of the gate.

    dev/bench/python/bench.py [--library FOLDER] [--documents N] [--rounds N] [--threads N]      (FOLDER: the built library, else build/library)

The documents are records of about a kilobyte. Both judge them from memory, and from files. The rounds of the two alternate, so that a busy machine slows
both, and the least time of each is printed: with one thread on the clock and of a processor, with several on the clock. Without lxml (Debian:
apt-get install python3-lxml, for /usr/bin/python3) only the own times are printed.
"""
import argparse
import os
import pathlib
import random
import sys
import tempfile
import threading

sys.path.insert(0, str(pathlib.Path(__file__).resolve().parents[1]))
from measuring import TOP, spent  # noqa: E402
from workloads import SCHEMA, records  # noqa: E402

RELAX_NG = """<element name="records" xmlns="http://relaxng.org/ns/structure/1.0" datatypeLibrary="http://www.w3.org/2001/XMLSchema-datatypes">
<zeroOrMore><element name="record">
  <attribute name="id"><data type="NCName"/></attribute>
  <attribute name="kind"><choice><value>a</value><value>b</value><value>c</value></choice></attribute>
  <element name="name"><text/></element>
  <element name="count"><data type="integer"><param name="minInclusive">0</param></data></element>
  <zeroOrMore><choice>
    <element name="note"><text/></element>
    <element name="link"><attribute name="to"><data type="NCName"/></attribute></element>
  </choice></zeroOrMore>
</element></zeroOrMore></element>
"""


def document(chance):
    """A valid document of about a kilobyte."""
    return "".join(records(chance, 1_000)).encode("ascii")


class Own:
    """Judges with the package."""

    def __init__(self, folder):
        import rncv

        self.validator = rncv.compile(folder / "s.rnc")

    def share(self):
        other = object.__new__(Own)
        other.validator = self.validator.share()
        return other

    def judge(self, documents):
        for one in documents:
            if not self.validator.validate_xml(one):
                sys.exit(f"bench.py: a document is {self.validator.validate_xml(one)}")


class Lxml:
    """Judges with lxml."""

    def __init__(self, folder):
        from lxml import etree

        self.etree, self.folder = etree, folder
        self.schema = etree.RelaxNG(etree.parse(str(folder / "s.rng")))

    def share(self):
        return Lxml(self.folder)

    def judge(self, documents):
        for one in documents:
            tree = self.etree.fromstring(one) if isinstance(one, bytes) else self.etree.parse(one)
            if not self.schema.validate(tree):
                sys.exit("bench.py: lxml refuses a document")


def judge_all(judges, documents):
    """Judges all documents, by as many threads as there are judges."""
    if len(judges) == 1:
        judges[0].judge(documents)
        return
    threads = [threading.Thread(target=judge.judge, args=(documents[at::len(judges)],)) for at, judge in enumerate(judges)]
    for thread in threads:
        thread.start()
    for thread in threads:
        thread.join()


def row(title, sides, documents, rounds):
    """Prints documents a second for each side, and how much slower the own side is."""
    found = {name: [] for name in sides}
    for _ in range(rounds):
        for name, judges in sides.items():
            found[name].append(spent(lambda: judge_all(judges, documents))[1:])  # pylint: disable=cell-var-from-loop
    for column, kind in ((0, "the clock"), (1, "a processor")):
        least = {name: min(times[column] for times in runs) for name, runs in found.items()}
        rates = ", ".join(f"{name} {1000 * len(documents) / milliseconds:,.0f}" for name, milliseconds in least.items())
        ratio = f", {least['rncv'] / least['lxml']:.2f} times lxml's time" if "lxml" in least else ""
        print(f"{title}, documents a second by {kind}: {rates}{ratio}", flush=True)


def main():
    words = argparse.ArgumentParser(description=__doc__, formatter_class=argparse.RawDescriptionHelpFormatter)
    words.add_argument("--library", type=pathlib.Path, default=TOP / "build/library")
    words.add_argument("--documents", type=int, default=2_000)
    words.add_argument("--rounds", type=int, default=15)
    words.add_argument("--threads", type=int, default=4)
    asked = words.parse_args()
    os.environ["RNCV_LIBRARY"] = str(asked.library.resolve())
    sys.path.insert(0, str(TOP / "programs/python"))
    with tempfile.TemporaryDirectory(prefix="rncv-bench-") as room:
        folder = pathlib.Path(room)
        (folder / "s.rnc").write_text(SCHEMA)
        (folder / "s.rng").write_text(RELAX_NG)
        chance = random.Random(1)
        documents = [document(chance) for _ in range(asked.documents)]
        names = [str(folder / f"{at:05}.xml") for at in range(len(documents))]
        for name, data in zip(names, documents):
            pathlib.Path(name).write_bytes(data)
        sides = {"rncv": [Own(folder)]}
        try:
            sides["lxml"] = [Lxml(folder)]
        except ImportError:
            print("no lxml: only rncv is measured")
        many = {name: [judges[0].share() for _ in range(asked.threads)] for name, judges in sides.items()}
        for title, given in ((f"{len(documents):,} from memory", documents), (f"{len(documents):,} files", names)):
            row(f"{title}, one thread", sides, given, asked.rounds)
            row(f"{title}, {asked.threads} threads", many, given, asked.rounds)


if __name__ == "__main__":
    main()
