#!/usr/bin/env python3
"""Judges random XML documents with internal DTDs, and mutants of them, by rncv-xml and by jing. It is not part of the gate.

    dev/search/fuzz/xml_run.py [--count N] [--mutants N] [--minutes N] [--seed S] [--from N] [--program FILE] [--found FOLDER] [--most N]
                          [--no-jing] [--no-reducing] [--xmllint] [--changed] [FILE..]

A document is judged by the schemas of `xml_schemas.py`. The answers of rncv-xml and of jing have to be the same. jing loads no external entity for that.
Where it would load one, its answer has to be the same too, unless rncv-xml notes what it did not load. If xml2pyx is beside the program, its PYX has to
have what the parser of jing reports, and to be the same for small pieces of a document. `--xmllint` compares xmllint too. Without jing only the runs of
the program are looked at: each has to answer each document, without a message of a sanitizer.

A difference that a row of `xml_differences.py` explains is counted; `programs/xml/tests/reasons.tsv` has its key. Any other one is made smaller and written to
a file of `dev/search/fuzz/found`. The status is 0 if there is none, else 1. FILEs are judged instead of random documents, with `--changed` mutants of them.
The default program is `build/xml/rncv-xml`.
"""
import argparse
import collections
import pathlib
import random
import sys
import tempfile
import time

import xml_differences
import xml_documents
import xml_judges
import xml_schemas
from reducing import reduced_bytes

HERE = pathlib.Path(__file__).resolve().parent
BATCH = 100


class Difference:
    """What differs about a document: the check, the answer of the program, and the answer of the other judge."""

    def __init__(self, check, ours, theirs):
        self.check, self.ours, self.theirs = check, ours, theirs

    def kinds(self):
        return self.check, self.ours.kind, self.theirs.kind

    def alike(self):
        """What stays while a document is made smaller: the kinds, and how the words of the other judge begin."""
        return self.kinds() + (self.signature()[-1][:30],)

    def signature(self):
        if self.check in ("events", "pieces"):
            return self.kinds() + ("", "")
        return self.kinds() + (xml_differences.form(self.ours.words), xml_differences.form(self.theirs.words))

    def __repr__(self):
        return f"{self.check}: {self.ours!r}; the other: {self.theirs!r}"


class Bench:
    """The judges, in one folder."""

    def __init__(self, given, folder):
        self.folder = folder
        xml_judges.lay_out(folder, {**xml_schemas.COMPACT, **xml_schemas.XML})
        self.program = xml_judges.Program(given.program.resolve(), folder)
        converter = given.program.resolve().parent / "xml2pyx"
        self.converter = converter if converter.exists() else None
        self.jing = None if given.no_jing else xml_judges.jing(folder, xml_schemas.COMPACT)
        self.xmllint = xml_judges.xmllint(folder) if given.xmllint else None
        self.counts = collections.Counter()
        for schema in xml_schemas.COMPACT:
            self.program.check(schema)

    def answers(self, documents):
        """For each document the answers of the program by all schemas."""
        names = []
        for number, data in enumerate(documents):
            names.append(f"d{number}.xml")
            (self.folder / names[-1]).write_bytes(data)
        judged = [self.program.judged(schema, names) for schema in xml_schemas.COMPACT]
        return [(name, dict(zip(xml_schemas.COMPACT, said))) for name, said in zip(names, zip(*judged))]

    def compared(self, name, said):
        """The first difference about a document, or None."""
        fault, pyx = xml_judges.converted(self.converter, self.folder, name) if self.converter else (None, None)
        failed = fault or next((it for it in said.values() if it.kind == "failed"), None)
        if failed:
            return Difference("run", failed, xml_judges.Said("an answer"))
        found = self.by_pieces(name, pyx) or (self.by_jing(name, said, pyx) if self.jing else None)
        return found or (self.by_xmllint(name, said) if self.xmllint else None)

    def by_pieces(self, name, pyx):
        """Whether xml2pyx says the same of a document that comes in small pieces. One of seven short documents is tried."""
        data = (self.folder / name).read_bytes()
        if not self.converter or len(data) > 3_000 or sum(data) % 7:
            return None
        other = xml_judges.in_pieces(self.converter, data, 1 + sum(data) % 5)
        return None if other == pyx else Difference("pieces", xml_judges.Said("valid", repr(pyx)), xml_judges.Said("valid", repr(other)))

    def by_jing(self, name, said, pyx):
        for schema, ours in said.items():
            theirs = self.jing.judged(schema, name)
            if theirs.kind != ours.kind:
                return Difference(schema, ours, theirs)
            if ours.kind not in ("valid", "invalid"):
                return None
        return self.by_loading(name, said) or self.by_events(name, pyx)

    def by_loading(self, name, said):
        data = (self.folder / name).read_bytes().replace(b"\0", b"")
        if b"SYSTEM" not in data and b"PUBLIC" not in data:
            return None
        for schema, ours in said.items():
            theirs = self.jing.judged(schema, name, "open")
            if theirs.kind != ours.kind and theirs.kind in ("valid", "invalid") and not ours.noted:
                return Difference("loading " + schema, ours, theirs)
        return None

    def by_events(self, name, ours):
        """The PYX of xml2pyx beside what the parser of jing reports."""
        theirs = self.jing.pyx(name) if self.converter else ours
        if ours == theirs:
            return None
        return Difference("events", xml_judges.Said("valid", repr(ours)), xml_judges.Said("valid", repr(theirs)))

    def by_xmllint(self, name, said):
        for way in ((), ("--push",)):
            ours, theirs = said["any.rnc"], self.xmllint.judged("any.rng", [name], way)[0]
            if theirs.kind != ours.kind:
                return Difference(" ".join(("xmllint", *way)), ours, theirs)
        return None

    def difference(self, data):
        """The first difference about bytes."""
        (name, said), = self.answers([data])
        return self.compared(name, said)

    def agreed(self, check):
        """A function that gives the common answer about bytes by the schema of a check, `outside` if the program does not judge them, and else None."""
        def common(data):
            (name, said), = self.answers([data])
            ours = said[check.split(" ")[-1] if check.endswith(".rnc") else "any.rnc"]
            difference = self.compared(name, said)
            if difference and xml_differences.by_words(difference):
                return "outside"
            return None if difference else ours.kind

        return common

    def explanation(self, data, difference):
        return xml_differences.explanation(data, difference, self.agreed(difference.check))

    def close(self):
        if self.jing:
            self.jing.close()


def judged(bench, documents):
    """The documents with a difference that nothing explains, and the difference."""
    for data, (name, said) in zip(documents, bench.answers(documents)):
        bench.counts[said["any.rnc"].kind] += 1
        difference = bench.compared(name, said)
        key = difference and bench.explanation(data, difference)
        if key:
            bench.counts[f"explained by {key}"] += 1
        elif difference:
            yield data, difference


def made_smaller(bench, data, difference):
    """A smaller document with a difference of the same form, that nothing explains either."""
    def fails(it):
        found = bench.difference(it)
        return found is not None and found.alike() == wanted and bench.explanation(it, found) is None

    wanted = difference.alike()
    return reduced_bytes(data, (xml_documents.markup, xml_documents.tokens, xml_documents.characters), fails)


def write_found(given, bench, data, difference, again):
    smaller = data if given.no_reducing else made_smaller(bench, data, difference)
    given.found.mkdir(parents=True, exist_ok=True)
    at = next(it for it in (given.found / f"xml-{number}.xml" for number in range(10**6)) if not it.exists())
    at.write_bytes(smaller)
    reported = f"{at}: {smaller[:300]!r}\n  {bench.difference(smaller) or difference!r}\n  again: {again}"
    at.with_suffix(".txt").write_text(reported + f"\n  from: {data!r}\n", encoding="utf-8")
    print(reported, flush=True)


def words():
    given = argparse.ArgumentParser(description=__doc__.splitlines()[0])
    given.add_argument("--count", type=int, default=1_000, help="how many documents")
    given.add_argument("--mutants", type=int, help="how many mutants; by default as many as documents")
    given.add_argument("--minutes", type=float, help="end after so many minutes")
    given.add_argument("--seed", default=str(random.randrange(10**6)))
    given.add_argument("--from", type=int, default=0, dest="first")
    given.add_argument("--program", type=pathlib.Path, default=HERE.parents[2] / "build/xml/rncv-xml")
    given.add_argument("--found", type=pathlib.Path, default=HERE / "found")
    given.add_argument("--most", type=int, default=20, help="how many kinds of differences to make smaller")
    given.add_argument("--no-jing", action="store_true")
    given.add_argument("--no-reducing", action="store_true")
    given.add_argument("--xmllint", action="store_true")
    given.add_argument("--changed", action="store_true", help="judge mutants of the FILEs")
    given.add_argument("files", nargs="*", type=pathlib.Path, metavar="FILE")
    given = given.parse_args()
    if not given.program.exists():
        sys.exit(f"there is no program {given.program}")
    return given


def batches(given):
    """Lists of what makes a document again and its bytes."""
    if given.files:
        wanted = [(f"--seed {given.seed} --changed {it}" if given.changed else str(it),
                   lambda it=it: xml_documents.changed(it.read_bytes(), f"{given.seed}/{it}") if given.changed else it.read_bytes()) for it in given.files]
    else:
        mutants = given.count if given.mutants is None else given.mutants
        wanted = [(f"--seed {given.seed} --from {number} --count {int(make is xml_documents.document)} --mutants {int(make is xml_documents.mutant)}",
                   lambda make=make, number=number: make(f"{given.seed}/{number}"))
                  for make, count in ((xml_documents.document, given.count), (xml_documents.mutant, mutants))
                  for number in range(given.first, given.first + count)]
    for at in range(0, len(wanted), BATCH):
        yield [(again, make()) for again, make in wanted[at:at + BATCH]]


def search(given, bench):
    """How many documents have each form of difference that nothing explains. The first one of each form is written."""
    end = time.monotonic() + 60 * given.minutes if given.minutes is not None else float("inf")
    forms = collections.Counter()
    for batch in batches(given):
        again = {data: it for it, data in batch}
        for data, difference in list(judged(bench, [data for _, data in batch])):
            forms[difference.signature()] += 1
            if forms[difference.signature()] == 1 and len(forms) <= given.most:
                write_found(given, bench, data, difference, f"dev/search/fuzz/xml_run.py {again[data]}")
        if time.monotonic() > end:
            break
    return forms


def main():
    given = words()
    with tempfile.TemporaryDirectory(prefix="rncv-fuzz-") as room:
        bench = Bench(given, pathlib.Path(room))
        forms = search(given, bench)
        bench.close()
    for form, number in forms.most_common():
        print(f"{number:6,} {' | '.join(it[:100] for it in form)}")
    for name, number in sorted(bench.counts.items()):
        print(f"{number:6,} {name}")
    print(f"dev/search/fuzz: seed {given.seed}: {sum(forms.values())} differences without an explanation, of {len(forms)} forms"
          + ("" if bench.jing else "; without jing"))
    return 1 if forms else 0


if __name__ == "__main__":
    sys.exit(main())
