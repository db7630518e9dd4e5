#!/usr/bin/env python3
"""Compares why `rncv-xml` says that documents are invalid with a plain second opinion. It is not part of the gate.

    dev/search/fuzz/reasons_run.py [--count N] [--minutes N] [--seed S] [--from N] [--documents N] [--program FILE] [--found FOLDER] [--without KIND]..
                                   [--no-reducing]

A case is a random schema and some documents, valid ones and changed ones. `reasons.py` says by the plain matcher which start or end leaves nothing, and why:
what could have come there, which attribute is at fault, which are missing. `rncv-xml --format json --max-faults 1 --datatypes profile` has to say the same:

- the verdict, the place, the reason and where it stands;
- the attribute at fault: the first one, in the order of the tag, that nothing takes which is left by those before it. It is not allowed if no attribute
  pattern that is left has its name; otherwise its value is at fault;
- the attributes that are missing if all are taken and the tag cannot be closed: those without which no alternative can be closed;
- the names, values and datatypes that are expected, with the prefixes of the place.

Each kind of difference is told with its number. The first case of each is made smaller and written to a folder of `dev/search/fuzz/found`; its `report.txt`
says how to repeat it. The status is 0 if there is no difference, but those of the kinds that `--without` leaves out (with `*` for any characters), else 1,
also if no document was judged. The same seed gives the same cases. The default program is `build/xml/rncv-xml`.
"""
import argparse
import collections
import fnmatch
import json
import pathlib
import random
import subprocess
import sys
import tempfile
import time

import documents
import reasons
import reasons_cases
import reasons_said
from checks import Trial
from reducing import reduced
from running import write_files
from writing import written

HERE = pathlib.Path(__file__).resolve().parent
SECONDS = 60


class Program:
    """rncv-xml, in one folder."""

    def __init__(self, path, room):
        self.path, self.folder = str(path), pathlib.Path(room) / "case"

    def said(self, files, texts):
        """An object of JSON for each document, or None if the schema is refused. If a run ends badly, each of its documents is judged alone."""
        names = [f"d{number}.xml" for number in range(len(texts))]
        write_files(self.folder, [*files, *zip(names, texts), ("names", "".join(it + "\n" for it in names))])
        try:
            status, lines = self.once(files[0][0])
            if status == 3 and lines and lines[0]["verdict"] == "refused":
                return None
            if status in (0, 1, 2) and [it["file"] for it in lines] == names:
                return lines
            fault = f"status {status}, {len(lines)} objects"
        except (subprocess.TimeoutExpired, ValueError) as it:
            fault = str(it)
        return [{"verdict": "failed", "message": fault}] if len(texts) == 1 else [(self.said(files, [it]) or [{"verdict": "refused"}])[0] for it in texts]

    def once(self, name):
        words = [self.path, "-j", "1", "--format", "json", "--max-faults", "1", "--datatypes", "profile", "--no-ids", "--files-from", "names", name]
        run = subprocess.run(words, cwd=self.folder, capture_output=True, timeout=SECONDS, check=False)
        return run.returncode, [json.loads(it) for it in run.stdout.decode().splitlines()]


class Bench:
    """The program and the counts."""

    def __init__(self, program):
        self.program, self.counts = program, collections.Counter()

    def compared(self, schema, all_lines):
        """For each document its lines, what the program says, the reason and the difference. Nothing if the schema is refused."""
        said = self.program.said(written(schema), [documents.as_xml(it) for it in all_lines])
        patterns = reasons.ReasonPatterns(schema)
        for lines, it in zip(all_lines, said or []):
            reason = reasons.reason_of(patterns, lines)
            yield lines, it, reason, reasons_said.difference(it, reason, patterns)

    def shows(self, trial, kind):
        """Whether a trial has a difference of this kind."""
        try:
            return documents.tree_of(trial.lines) is not None and any(found and found[0] == kind for *_, found in self.compared(trial.schema, [trial.lines]))
        except (RecursionError, KeyError, IndexError):
            return False


def shown(reason):
    """A reason in words."""
    if reason is None:
        return "valid"
    known = {key: value for key, value in vars(reason).items() if value not in (None, False) and key not in ("names", "state", "scope")}
    names = sorted(it for it, may in (reason.names or {}).items() if may)
    return ", ".join([f"{key} {value}" for key, value in known.items()] + ([f"names {names}"] if reason.names is not None else []))


def report(bench, trial, kind, again):
    """The report on a trial with a difference."""
    (_, said, reason, found), = bench.compared(trial.schema, [trial.lines])
    said.pop("file", None)
    schema = "".join(text for _, text in written(trial.schema))
    return (f"{kind}: {found[1]}\n  schema: {schema.strip()}\n  document: {documents.as_xml(trial.lines)}\n  program: {json.dumps(said, ensure_ascii=False)}\n"
            f"  oracle: {shown(reason)}\n  again: {again}\n")


def write_found(given, bench, trial, kind, again):
    """Makes a trial smaller, writes it and prints the report."""
    if not given.no_reducing:
        trial = reduced(trial, lambda it: bench.shows(it, kind))
    at = next(it for it in (given.found / f"reasons-{number}" for number in range(10**6)) if not it.exists())
    at.mkdir(parents=True)
    reported = report(bench, trial, kind, again)
    for name, text in [*trial.plain, ("document.xml", documents.as_xml(trial.lines)), ("report.txt", reported)]:
        (at / name).write_bytes(text.encode())
    print(f"{at}: {reported}", flush=True)


def one_case(given, bench, name):
    """The kinds of differences in a case, each with its trial."""
    chance = random.Random(name)
    schema = reasons_cases.schema(name, chance)
    answers = list(bench.compared(schema, list(reasons_cases.Changing(schema, chance).documents(given.documents))))
    bench.counts["schemas" if answers else "refused"] += 1
    bench.counts["documents"] += len(answers)
    for lines, _, reason, found in answers:
        bench.counts["valid" if reason is None else reason.reason] += 1
        if found:
            yield found[0], Trial(schema, 0, (), lines, lines)


def search(given, bench):
    """How many documents have each kind of difference, without those that are left out."""
    end = time.monotonic() + 60 * given.minutes if given.minutes is not None else float("inf")
    number, kinds = given.first, collections.Counter()
    while time.monotonic() < end and (given.count is None or number < given.first + given.count):
        again = f"dev/search/fuzz/reasons_run.py --seed {given.seed} --from {number} --count 1 --documents {given.documents}"
        for kind, trial in list(one_case(given, bench, f"{given.seed}/{number}")):
            if any(fnmatch.fnmatch(kind, it) for it in given.without):
                bench.counts["left out"] += 1
                continue
            kinds[kind] += 1
            if kinds[kind] == 1:
                write_found(given, bench, trial, kind, again)
        number += 1
    return kinds


def words():
    given = argparse.ArgumentParser(description=__doc__.splitlines()[0])
    given.add_argument("--count", type=int, help="how many cases")
    given.add_argument("--minutes", type=float)
    given.add_argument("--seed", default=str(random.randrange(10**6)))
    given.add_argument("--from", type=int, default=0, dest="first")
    given.add_argument("--documents", type=int, default=50, help="how many documents a case has")
    given.add_argument("--program", type=pathlib.Path, default=HERE.parents[2] / "build/xml/rncv-xml")
    given.add_argument("--found", type=pathlib.Path, default=HERE / "found")
    given.add_argument("--without", action="append", default=[], metavar="KIND", help="a kind of difference that is left out")
    given.add_argument("--no-reducing", action="store_true")
    given = given.parse_args()
    if given.minutes is None and given.count is None:
        sys.exit("--minutes or --count is needed")
    if not given.program.exists():
        sys.exit(f"there is no program {given.program}")
    return given


def main():
    given = words()
    sys.setrecursionlimit(20_000)
    with tempfile.TemporaryDirectory(prefix="rncv-fuzz-") as room:
        bench = Bench(Program(given.program.resolve(), room))
        kinds = search(given, bench)
    for kind, number in kinds.most_common():
        print(f"{number:6,} {kind}")
    print(f"dev/search/fuzz: seed {given.seed}: {', '.join(f'{number:,} {name}' for name, number in bench.counts.items())}; "
          f"{sum(kinds.values()):,} differences of {len(kinds)} kinds")
    return 1 if kinds or not bench.counts["documents"] else 0


if __name__ == "__main__":
    sys.exit(main())
