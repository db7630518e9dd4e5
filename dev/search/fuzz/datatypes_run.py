#!/usr/bin/env python3
"""Judges random texts by random datatypes of XML Schema, with parameters, values, lists, excepts and choices, beside jing. It is not part of the gate.

    dev/search/fuzz/datatypes_run.py [--rows N] [--seed S] [--from N] [--minutes N] [--program FILE] [--most N]

Datatypes come in batches, as attributes of one schema. First the schema of each is judged alone by rncv-xml (default: build/xml/rncv-xml), and by jing all of
them in one run; then texts by those that both take. A difference is counted under the word for its reason of docs/use/LANGUAGE.md, "The larger set of
datatypes", or of `OF_SCHEMAS` here, if it has one. Any other one is printed. The status is 0 if there is none, else 1. The same seed gives the same schemas and
texts. It needs jing.
"""
import argparse
import collections
import pathlib
import random
import re
import shutil
import subprocess
import sys
import tempfile
import time

from datatype_schemas import made, texts_of
from pattern_judges import SECONDS, VERDICT, attribute_value

HERE = pathlib.Path(__file__).resolve().parent
BATCH = 200
TEXTS = 12
SCHEMA_LINE = re.compile(r"s\.rnc:(\d+):\d+: error: (.*)")
DOCUMENT_LINE = re.compile(r"d\.xml:(\d+):\d+: error: ")
PARAMETERS = re.compile(r"\{ ((?:\w+ = (?:\"[^\"]*\"(?: ~ )?|'[^']*'(?: ~ )?)+ )+)\}")
PARAMETER = re.compile(r'(\w+) = (?:" *([+-]?\d+) *")?')
# Why one of the two refuses a schema, beside the reasons that LANGUAGE names
OF_SCHEMAS = {
    "repeated": "jing takes a parameter twice, other than `pattern`",
    "length": "jing takes `length` beside `minLength` or `maxLength`",
    "orders": "jing takes a `minLength` above the `maxLength`, and two bounds at one end",
    "fraction": "jing takes a `fractionDigits` of integers above 0",
    "items": "jing takes a length of 0 of `NMTOKENS`, `IDREFS` and `ENTITIES`",
    "steps": "jing takes each parameter for a restriction of those before it, and wants that a bound suits them",
}
# a list type that may have no item
NO_ITEM = re.compile(r'xsd:(NMTOKENS|IDREFS|ENTITIES) \{[^}]*\b(length|minLength|maxLength) = " *[+-]?0+ *"')
ONE_END = ({"minInclusive", "minExclusive"}, {"maxInclusive", "maxExclusive"})
# A type by whose name a difference has a reason, and what rncv-xml then says of a text.
BY_TYPE = {"uri": (("anyURI",), "valid"), "prefix": (("QName", "NOTATION"), "valid"), "entity": (("ENTITY", "ENTITIES"), "valid")}


class Judges:
    """rncv-xml and jing in one folder."""

    def __init__(self, program, folder):
        self.words, self.folder = [str(program), "--datatypes", "xml-schema", "--no-ids", "-j", "1", "--all", "s.rnc"], pathlib.Path(folder)

    def printed(self, words):
        run = subprocess.run(words, cwd=self.folder, capture_output=True, timeout=SECONDS, check=False)
        return (run.stdout + run.stderr).decode("utf-8", "replace"), run.returncode

    def write_schema(self, patterns):
        """An element `e` and a number for each pattern, on the line of that number."""
        lines = [f"e{number} = element e{number} {{ attribute a {{ {pattern} }} }}" for number, pattern in enumerate(patterns, 1)]
        names = " | ".join(f"e{number}" for number in range(1, len(lines) + 1))
        (self.folder / "s.rnc").write_text("\n".join([*lines, f"start = element all {{ ({names})* }}", ""]), encoding="utf-8")

    def ours_alone(self, pattern):
        """Empty if the schema of a pattern is taken, `S12`, or anything else."""
        self.write_schema([pattern])
        out, status = self.printed(self.words)
        return "" if status == 0 else "S12" if " S12 " in out else f"status {status}: {out[:200]}"

    def jing_schemas(self, patterns):
        """For each pattern empty, or why it is refused."""
        self.write_schema(patterns)
        out, _ = self.printed(["jing", "-i", "-c", "s.rnc"])
        found = {int(line): what for line, what in reversed(SCHEMA_LINE.findall(out))}
        return [found.get(number, "") for number in range(1, len(patterns) + 1)]

    def texts(self, patterns, rows):
        """For each row of the number of a pattern and a text both verdicts. All patterns have to be taken by both."""
        self.write_schema(patterns)
        tags = [f'<e{number} a="{attribute_value(text)}"/>' for number, text in rows]
        (self.folder / "d.xml").write_text("\n".join(["<all>", *tags, "</all>", ""]), encoding="utf-8")
        for number, tag in enumerate(tags):
            (self.folder / f"{number}.xml").write_text(f"<all>{tag}</all>\n", encoding="utf-8")
        out, _ = self.printed([*self.words, "--", *(f"{number}.xml" for number in range(len(rows)))])
        ours = dict(VERDICT.findall(out))
        told, _ = self.printed(["jing", "-i", "-c", "s.rnc", "d.xml"])
        faults = {int(line) - 2 for line in DOCUMENT_LINE.findall(told)}
        if SCHEMA_LINE.search(told) or "fatal" in told or "Exception" in told:
            sys.exit(f"jing: {told[:1000]}")
        return [(ours.get(str(number), "no verdict"), "invalid" if number in faults else "valid") for number in range(len(rows))]


def reason_of_schema(pattern, ours, theirs):
    """The word for why one of the two refuses a schema; None: it has none."""
    if not ours:
        return "steps" if "is not allowed by the base type" in theirs else "uri" if "xsd:anyURI" in pattern and "not a valid value" in theirs else None
    if ours != "S12":
        return None
    reasons = filter(None, map(reason_of_parameters, PARAMETERS.findall(pattern)))
    return next(reasons, "prefix" if re.search("xsd:(QName|NOTATION) ['\"]", pattern) else "items" if NO_ITEM.search(pattern) else None)


def reason_of_parameters(group):
    """The word for why rncv-xml refuses parameters that jing takes; None: it has none."""
    found = [(name, value) for name, value in PARAMETER.findall(group) if name != "pattern"]
    values = dict(found)
    if len(found) > len(values):
        return "repeated"
    if "length" in values and {"minLength", "maxLength"} & values.keys():
        return "length"
    if any(pair <= values.keys() for pair in ONE_END) or int(values.get("minLength") or 0) > int(values.get("maxLength") or 10**9):
        return "orders"
    return "fraction" if int(values.get("fractionDigits") or 0) > 0 else None


def reason_of_text(names, text, ours):
    """The word for why jing says otherwise of a text; None: it has none."""
    for word, (types, wanted) in BY_TYPE.items():
        if any(name in types for name in names) and (ours == wanted or len(names) > 1):
            return word
    return "names" if re.search("[^\x00-\x7f]", text) and any(re.match("N|ID|ENT", name) for name in names) else None


def batch(given, judges, number):
    """The differences of a batch, each as words, with its reason; and how many rows it has."""
    chance = random.Random(f"{given.seed}/{number}")
    cases = [made(chance) for _ in range(BATCH)]
    texts = [list(texts_of(chance, names, TEXTS)) for _, names in cases]
    told = [(judges.ours_alone(pattern), theirs) for (pattern, _), theirs in zip(cases, judges.jing_schemas([pattern for pattern, _ in cases]))]
    found = [(f"{pattern}: {ours or 'taken'}, and by jing {theirs or 'taken'}", reason_of_schema(pattern, ours, theirs))
             for (pattern, _), (ours, theirs) in zip(cases, told) if bool(ours) != bool(theirs)]
    both = [at for at, (ours, theirs) in enumerate(told) if not ours and not theirs]
    rows = [(place, at, text) for place, at in enumerate(both, 1) for text in texts[at]]
    verdicts = judges.texts([cases[at][0] for at in both], [(place, text) for place, _, text in rows])
    found += [(f"{cases[at][0]}: {text!a}: {ours}, and by jing {theirs}", reason_of_text(cases[at][1], text, ours))
              for (_, at, text), (ours, theirs) in zip(rows, verdicts) if ours != theirs]
    counts = collections.Counter(f"both say {ours}" for ours, theirs in verdicts if ours == theirs)
    counts.update("refused by both" for ours, theirs in told if ours and theirs)
    return found, len(rows), counts


def search(given, judges):
    """The counts of all, with those of reasons, and how many differences have none."""
    end = time.monotonic() + 60 * given.minutes if given.minutes is not None else float("inf")
    counts, rows, number, faults = collections.Counter(), 0, given.first, 0
    while rows < given.rows and time.monotonic() < end:
        found, more, said = batch(given, judges, number)
        counts += said
        rows += more
        for words, reason in found:
            counts[f"explained by {reason}"] += reason is not None
            faults += reason is None
            if reason is None and faults <= given.most:
                print(f"{words}\n  again: dev/search/fuzz/datatypes_run.py --seed {given.seed} --from {number} --rows 1", flush=True)
        number += 1
    return +counts, rows, faults


def main():
    given = argparse.ArgumentParser(description=__doc__.splitlines()[0])
    given.add_argument("--rows", type=int, default=10_000)
    given.add_argument("--seed", default=str(random.randrange(10**6)))
    given.add_argument("--from", type=int, default=0, dest="first", help="the number of the first batch")
    given.add_argument("--minutes", type=float)
    given.add_argument("--program", type=pathlib.Path, default=HERE.parents[2] / "build/xml/rncv-xml")
    given.add_argument("--most", type=int, default=20, help="how many differences to print")
    given = given.parse_args()
    if not given.program.exists() or not shutil.which("jing"):
        sys.exit(f"datatypes_run.py: there is no program {given.program}" if not given.program.exists() else "datatypes_run.py: jing is not installed")
    begun = time.monotonic()
    with tempfile.TemporaryDirectory(prefix="rncv-datatypes-") as room:
        counts, rows, faults = search(given, Judges(given.program.resolve(), room))
    for name, number in sorted(counts.items()):
        print(f"{number:9,} {name}")
    for name, what in OF_SCHEMAS.items():
        print(f"{name}: {what}")
    print(f"dev/search/fuzz: seed {given.seed}: {rows:,} texts in {time.monotonic() - begun:.0f} s, {faults} differences without an explanation")
    return 1 if faults else 0


if __name__ == "__main__":
    sys.exit(main())
