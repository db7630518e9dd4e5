#!/usr/bin/env python3
"""Runs the W3C XML Conformance Test Suite through `rncv-xml`, beside xmllint and expat. It is not part of the gate.

    dev/search/conformance/run.py [--program RNCV-XML] [--each] [--pyx XML2PYX] [--way WAY] [--suite FOLDER] [--all] [--outputs] [--no-doctype]
                                  [--no-namespaces] [--reasons FILE] [--list] [CASE..]

The suite is in a source package of Debian, of 48 MB, which apt-get fetches with sources and lists of its own; only the suite is unpacked. With `--suite` it
stays in that folder, and is taken from there if it is there; else it is removed at the end. The cases are those of James Clark (`xmltest`) and of Sun (`sun`).
With `--all` they are all of XML 1.0: also `eduni`, `ibm`, `japanese` and `oasis`. CASEs are the only ones to run: names, or patterns of names with `*`.

A case that is not well formed has to be malformed; any other one has to be valid by a schema that takes any document. An `error` may be either. Each case
runs in two ways: `alone`, and `dtd`, with the option `--dtd` if the program has it. Where an external entity has to be read, a case that is not well formed may
be outside; alone any such case may be, or be valid with a note if it is not well formed. Where xml2pyx is beside the program, or `--pyx` names it, the PYX of
a case has to be what the suite says that a parser gives. With `--outputs` that, as the document that the suite has of it, is a case too, `CASE/output`.

With `--each` the program gets one document at a time, `PROGRAM [--dtd] DOCUMENT`. Its status is 0 if that is well formed; else it is malformed, or outside if
the program prints that word on standard error. `--no-doctype` leaves out documents with `<!DOCTYPE`, `--no-namespaces` the cases of Namespaces in XML.

A row of `reasons.tsv`, or of FILE, has names of cases, an answer, and the reason why that is right, with tabs between them. The names are patterns with blanks
between them; those behind `!` are left out. The answer is `malformed`, `outside`, `valid`, or `pyx` for another PYX. Differences are counted by reason; those
without one are listed, and with `--list` all. expat is the one of Python, without xmlwf.

The status is 0 if each difference has a reason; 1 if one has none, or if both ways are run and a row is for a case that needs none; 2 if the program, the suite
or the table cannot be used; and 77 if the suite is not to be had.
"""
import argparse
import collections
import concurrent.futures
import dataclasses
import fnmatch
import pathlib
import subprocess
import sys
import tempfile

import judges
import suite

HERE = pathlib.Path(__file__).resolve().parent
TOP = HERE.parents[2]
FEW = ("xmltest", "sun")
WAYS = {"alone": False, "dtd": True}  # whether external entities are read
ANSWERS = ("malformed", "outside", "valid", "pyx")
SKIPPED = 77


class Reason:
    """A row of the table: the names of cases, an answer, and why that is right. `used` has the cases that it explains."""

    def __init__(self, names, answer, words):
        self.names, self.answer, self.words, self.used = names, answer, words, set()
        self.taken = [it for it in names.split(" ") if not it.startswith("!")]
        self.left = [it[1:] for it in names.split(" ") if it.startswith("!")]

    def is_for(self, name):
        return is_one_of(name, self.taken) and not is_one_of(name, self.left)


@dataclasses.dataclass
class Difference:
    """An answer that is not as the suite says. `answer` is the word for it in the table of reasons."""
    case: suite.Case
    way: str
    answer: str
    words: str
    others: dict          # what the other judges say, by their names
    reason: Reason = None

    def line(self):
        beside = "".join(f"; {name}: {said.kind}" for name, said in self.others.items())
        reason = f" [{self.reason.words}]" if self.reason else ""
        told = " ".join(self.words.encode("utf-8", "backslashreplace").decode().split())
        return f"{self.case.name} ({self.case.kind}, entities: {self.case.entities}), {self.way}: {self.answer}: {told}{beside}{reason}"


@dataclasses.dataclass
class Results:
    """What comes of one collection in one way."""
    cases: int = 0
    differences: list = dataclasses.field(default_factory=list)
    others: collections.Counter = dataclasses.field(default_factory=collections.Counter)


def is_one_of(name, patterns):
    """Whether a pattern with `*` and `[..]` is for a name."""
    return any(fnmatch.fnmatchcase(name, it) for it in patterns)


def reasons_of(path):
    """The rows of the table."""
    try:
        lines = path.read_text(encoding="utf-8").split("\n")
    except (OSError, ValueError) as fault:
        raise suite.Unusable(f"{path}: {fault}") from None
    rows = []
    for number, line in enumerate(lines, 1):
        if line and not line.startswith("#"):
            fields = line.split("\t")
            if len(fields) != 3 or fields[1] not in ANSWERS or not all(fields):
                raise suite.Unusable(f"{path}:{number}: a row has a case, an answer ({', '.join(ANSWERS)}) and a reason")
            rows.append(Reason(*fields))
    return rows


def is_right(case, said, loads):
    """Whether an answer is as the suite says. Where an external entity decides, a program may not read it, or not judge what is not well formed in it."""
    decides = case.entities != "none"
    if case.kind == "error":
        return said.kind in ("valid", "malformed", "outside")
    if case.kind == "not-wf":
        return said.kind == "malformed" or decides and (said.kind == "outside" or said.kind == "valid" and said.noted and not loads)
    return said.kind == "valid" or decides and said.kind == "outside" and not loads


class Bench:
    """All judges, in one way."""

    def __init__(self, given, way, room):
        loads = WAYS[way]
        self.way, self.loads = way, loads
        self.program = judges.Each(given.program, loads) if given.each else judges.Program(given.program, loads, room)
        self.converter = judges.Converter(given.pyx, loads, room) if given.pyx else None
        self.others = judges.others(loads)

    def results(self, cases, reasons):
        """The results by collection, in the order of the cases."""
        found = {case.collection: Results() for case in cases}
        answers = self.program.judged([case.path for case in cases])
        with concurrent.futures.ThreadPoolExecutor(2) as pool:
            for case, difference, others in pool.map(lambda it: self.compared(*it), zip(cases, answers)):
                results = found[case.collection]
                results.cases += 1
                results.others.update(name for name, said in others.items() if not is_right(case, said, self.loads))
                if difference:
                    difference.reason = reason_for(difference, reasons)
                    results.differences.append(difference)
        return found

    def compared(self, case, said):
        """A case, its difference or None, and what the other judges say."""
        others = {judge.name: judge.judged(case.path) for judge in self.others}
        if not is_right(case, said, self.loads):
            return case, Difference(case, self.way, said.kind, said.words or case.about, others), others
        is_whole = said.kind == "valid" and (self.loads or case.entities == "none")
        fault = self.converter.fault(case) if self.converter and case.output and is_whole else ""
        return case, Difference(case, self.way, "pyx", fault, others) if fault else None, others


def reason_for(difference, reasons):
    """The first row that explains a difference, or None."""
    found = next((it for it in reasons if it.answer == difference.answer and it.is_for(difference.case.name)), None)
    if found:
        found.used.add(difference.case.name)
    return found


def table(rows, names):
    """The table of collections and ways, in Markdown."""
    yield f"| Collection | cases | as the suite says | with a reason | without | {' | '.join(f'not by {name}' for name in names)} |"
    yield "|---|" + "---|" * (4 + len(names))
    for (collection, way), it in rows.items():
        explained = sum(one.reason is not None for one in it.differences)
        cells = [it.cases, it.cases - len(it.differences), explained, len(it.differences) - explained, *(it.others[name] for name in names)]
        yield f"| {collection}{'' if way == 'alone' else ', ' + way} | {' | '.join(map(str, cells))} |"


def counted(differences):
    """How many cases each reason explains, with the answer."""
    found = collections.Counter((it.reason.words, it.answer) for it in differences if it.reason)
    for (words, answer), count in found.most_common():
        yield f"{count} {answer}: {words}"


def needless(cases, reasons):
    """The cases that a row is for without need."""
    for reason in reasons:
        for case in cases:
            if reason.is_for(case.name) and case.name not in reason.used:
                yield f"{case.name}: no difference needs the row {reason.names}: {reason.answer}"


def chosen(given, cases):
    """The cases to run."""
    taken = [it for it in cases if not it.is_1_1 and (given.all or it.collection in FEW) and not (given.no_namespaces and it.is_of_names)]
    if given.outputs:
        taken += [it.of_output() for it in taken if it.output]
    taken = [it for it in taken if not given.cases or is_one_of(it.name, given.cases)]
    return [it for it in taken if not (given.no_doctype and it.has_doctype())]


def ways_of(given):
    """The ways to run. A program without `--dtd` has one."""
    if given.way:
        return [given.way]
    try:
        run = subprocess.run([str(given.program), "--help"], stdin=subprocess.DEVNULL, capture_output=True, timeout=judges.SECONDS, check=False)
    except subprocess.TimeoutExpired:
        return ["alone"]
    return list(WAYS) if b"--dtd" in run.stdout + run.stderr else ["alone"]


def results_of(given, cases, reasons):
    """The results by collection and way, and the names of the other judges."""
    rows, names = {}, []
    with tempfile.TemporaryDirectory(prefix="rncv-conformance-") as room:
        for way in ways_of(given):
            bench = Bench(given, way, pathlib.Path(room))
            names = [it.name for it in bench.others]
            rows.update(((collection, way), it) for collection, it in bench.results(cases, reasons).items())
    return dict(sorted(rows.items(), key=lambda it: it[0][0])), names


def report(given, cases, reasons):
    """Prints all, and returns the status."""
    rows, names = results_of(given, cases, reasons)
    differences = [one for it in rows.values() for one in it.differences]
    without = [it.line() for it in differences if not it.reason]
    in_vain = list(needless(cases, reasons)) if {way for _, way in rows} == set(WAYS) else []  # a row may be for one way alone
    for lines in (table(rows, names), [""], counted(differences), [""], (it.line() for it in differences) if given.list else without, in_vain):
        for line in lines:
            print(line)
    beside = "with PYX" if given.pyx else "without PYX"
    print(f"dev/search/conformance: {len(cases)} cases, {beside}: {len(without)} differences without a reason, {len(in_vain)} reasons without a difference")
    return 1 if without or in_vain else 0


def words():
    given = argparse.ArgumentParser(description=__doc__.splitlines()[0])
    given.add_argument("--program", type=pathlib.Path, default=TOP / "build/xml/rncv-xml", help="the program under test")
    given.add_argument("--each", action="store_true", help="it gets one document at a time, and its status says whether that is well formed")
    given.add_argument("--pyx", type=pathlib.Path, help="the program that prints PYX; by default xml2pyx beside the program")
    given.add_argument("--way", choices=WAYS, help="run in this way alone, with or without external entities")
    given.add_argument("--suite", type=pathlib.Path, help="where the suite is, or stays once it is fetched")
    given.add_argument("--all", action="store_true", help="all cases of XML 1.0")
    given.add_argument("--outputs", action="store_true", help="the outputs of cases are cases too")
    given.add_argument("--no-doctype", action="store_true", help="only documents without <!DOCTYPE")
    given.add_argument("--no-namespaces", action="store_true", help="no case of Namespaces in XML")
    given.add_argument("--reasons", type=pathlib.Path, default=HERE / "reasons.tsv", help="the table of reasons")
    given.add_argument("--list", action="store_true", help="list the differences with a reason too")
    given.add_argument("cases", nargs="*", metavar="CASE", help="run these cases alone")
    given = given.parse_args()
    beside = given.program.parent / "xml2pyx"
    given.pyx = given.pyx or (beside if beside.is_file() else None)
    for program in filter(None, (given.program, given.pyx)):
        if not program.is_file():
            raise suite.Unusable(f"there is no program {program}")
    given.program, given.pyx = given.program.resolve(), given.pyx and given.pyx.resolve()
    return given


def run():
    given = words()
    reasons = reasons_of(given.reasons)
    with tempfile.TemporaryDirectory(prefix="rncv-conformance-") as room:
        top = (given.suite or pathlib.Path(room) / "xmlconf").absolute()
        if not (top / "xmlconf.xml").is_file():
            suite.fetch(top)
        cases = chosen(given, suite.cases_of(top))
        if not cases:
            raise suite.Unusable("no case of the suite is to be run")
        return report(given, cases, reasons)


def main():
    try:
        return run()
    except suite.NoSuite as fault:
        print(f"dev/search/conformance: skipped: {fault}", file=sys.stderr)
        return SKIPPED
    except (suite.Unusable, OSError) as fault:
        print(f"dev/search/conformance: {fault}", file=sys.stderr)
        return 2


if __name__ == "__main__":
    sys.exit(main())
