#!/usr/bin/env python3
"""Judges random decimals, floats, durations, moments and octets beside jing and by Python. It is not part of the gate.

    dev/search/fuzz/values_run.py [--rows N] [--seed S] [--from N] [--minutes N] [--program FILE] [--most N]

Datatypes with bounds, digits, lengths or a value come in batches, as attributes of one schema (`value_texts.py`). What rncv-xml (default:
build/xml/rncv-xml) says of each schema and of each text is compared with what the standard asks for, by Python (`value_judges.py`): no difference from that is
explained. One from jing is counted under the word for its reason of docs/use/LANGUAGE.md, "The larger set of datatypes", or of `OF_JING` here, if it has
one. Any other difference is printed. The status is 0 if there is none, else 1. The same seed gives the same schemas and texts. It needs jing.
"""
import argparse
import collections
import pathlib
import random
import re
import shutil
import sys
import tempfile
import time

from datatypes_run import Judges
from value_judges import is_dated_alike, is_equal_beside, is_taken, judged
from value_texts import BOUNDS, LENGTHS, MOMENTS, made, text_of

HERE = pathlib.Path(__file__).resolve().parent
BATCH, TEXTS = 200, 80
# Why jing says otherwise, beside the reasons that LANGUAGE names
OF_JING = {
    "limits": "more than 18 digits behind a second's point, 10 of a year or 18 of a number of a duration",
    "steps": "jing takes each parameter for a restriction of those before it, and wants that a bound suits them",
    "orders": "jing takes bounds in a wrong order, or two at one end",
    "lengths": "jing takes lengths of moments and durations (XML Schema Part 2, 4.3.1)",
    "zone": "jing refuses the zone -14:00, and not +14:00 (XML Schema Part 2, 3.2.7.3)",
}


def reason_of_lexical(name, text):
    """The word for why jing takes a text of a type, or does not, where the standard does otherwise."""
    if name in MOMENTS and re.search("24:00:00", text):
        return "midnight"
    if name in ("dateTime", "time") and re.search("[0-9]:60", text):
        return "seconds"
    if name in ("dateTime", "time", "duration") and re.search(r"[.](?![0-9])|(?<![0-9])[.]", text):
        return "point"
    if name in MOMENTS and re.search("-14:00", text):
        return "zone"
    if re.search(r"[.][0-9]{19}|[0-9]{11}-", text) or name == "duration" and re.search("[1-9][0-9]{18}", text):
        return "limits"
    return None


def reason_of_text(made_type, text):
    """The word for why jing says otherwise of a text; None: it has none."""
    texts = [text, *made_type.parameters.values(), made_type.value or ""]
    words = filter(None, (reason_of_lexical(made_type.name, one) for one in texts))
    if made_type.name == "decimal" and made_type.parameters.keys() & {"totalDigits", "fractionDigits"}:
        return "digits"
    if made_type.name in MOMENTS and re.search("[.][0-9]{4}", " ".join(texts)):
        return next(words, "fraction")
    return next(words, {"time": "recurs", "duration": "sums"}.get(made_type.name) if is_equal_beside(made_type, text) else None)


def reason_of_schema(made_type, ours, theirs):
    """The word for why jing says otherwise of a datatype; None: it has none."""
    texts = [*made_type.parameters.values(), made_type.value or ""]
    words = [word for word in (reason_of_lexical(made_type.name, one) for one in texts) if word]
    if words:
        return words[0]
    if made_type.name in (*MOMENTS, "duration") and made_type.parameters.keys() & set(LENGTHS):
        return "lengths"
    if len(made_type.parameters.keys() & set(BOUNDS)) > 1 or len(made_type.parameters) > 1:
        return "steps" if not ours else "orders"
    return None


class ManyJudges(Judges):
    """The same, for schemas that are taken for good ones."""

    def are_taken(self, patterns):
        """Whether rncv-xml takes all of them."""
        self.write_schema(patterns)
        return self.printed(self.words)[1] == 0


class Batch:
    """The datatypes of a number, with texts for each, and what is said of them."""

    def __init__(self, given, number):
        chance = random.Random(f"{given.seed}/{number}")
        self.types = [made(chance) for _ in range(BATCH)]
        self.texts = [[text_of(chance, one.name) for _ in range(TEXTS)] for one in self.types]
        self.found, self.counts, self.rows = [], collections.Counter(), 0

    def differs(self, words, reason):
        self.found.append((words, reason))

    def judge_schemas(self, judges):
        """Compares what is said of each datatype. Returns the places of those that both take."""
        patterns = [one.pattern() for one in self.types]
        taken = [is_taken(one) for one in self.types]
        both, are_taken = [], judges.are_taken([pattern for pattern, is_good in zip(patterns, taken) if is_good])
        for at, (one, pattern, wanted, theirs) in enumerate(zip(self.types, patterns, taken, judges.jing_schemas(patterns))):
            ours = "" if wanted and are_taken else judges.ours_alone(pattern)
            if ours not in ("", "S12") or (ours == "") != wanted:
                self.differs(f"{pattern}: {ours or 'taken'}, and by Python {'taken' if wanted else 'refused'}", None)
            elif (ours == "") != (theirs == ""):
                self.differs(f"{pattern}: {ours or 'taken'}, and by jing {theirs or 'taken'}", reason_of_schema(one, ours, theirs))
            elif ours == "":
                both.append(at)
            else:
                self.counts["refused by all"] += 1
        return both

    def judge_texts(self, judges, both):
        rows = [(place, at, text) for place, at in enumerate(both, 1) for text in self.texts[at]]
        verdicts = judges.texts([self.types[at].pattern() for at in both], [(place, text) for place, _, text in rows])
        self.rows = len(rows)
        for (_, at, text), (ours, theirs) in zip(rows, verdicts):
            self.judge_text(self.types[at], text, ours, theirs)

    def judge_text(self, one, text, ours, theirs):
        wanted, words = judged(one, text), f"{one.pattern()}: {text!a}: {ours}"
        if ours != wanted:
            self.differs(f"{words}, and by Python {wanted}", None)
        elif not is_dated_alike(one.name, text):
            self.differs(f"{words}: datetime has another moment than value_judges.py", None)
        elif ours != theirs:
            self.differs(f"{words}, and by jing {theirs}", reason_of_text(one, text))
        else:
            self.counts[f"all say {ours}"] += 1


def search(given, judges):
    """The counts of all, with those of reasons, how many texts there were, and how many differences have no reason."""
    end = time.monotonic() + 60 * given.minutes if given.minutes is not None else float("inf")
    counts, rows, number, faults = collections.Counter(), 0, given.first, 0
    while rows < given.rows and time.monotonic() < end:
        batch = Batch(given, number)
        batch.judge_texts(judges, batch.judge_schemas(judges))
        counts += batch.counts
        rows += batch.rows
        for words, reason in batch.found:
            counts[f"explained by {reason}"] += reason is not None
            faults += reason is None
            if reason is None and faults <= given.most:
                print(f"{words}\n  again: dev/search/fuzz/values_run.py --seed {given.seed} --from {number} --rows 1", flush=True)
        number += 1
    return +counts, rows, faults


def main():
    given = argparse.ArgumentParser(description=__doc__.splitlines()[0])
    given.add_argument("--rows", type=int, default=10_000)
    given.add_argument("--seed", default=str(random.randrange(10**6)))
    given.add_argument("--from", type=int, default=0, dest="first", help="the number of the first batch")
    given.add_argument("--minutes", type=float)
    given.add_argument("--program", type=pathlib.Path, default=HERE.parents[2] / "build/xml/rncv-xml")
    given.add_argument("--most", type=int, default=20, help="how many differences to print")
    given = given.parse_args()
    if not given.program.exists() or not shutil.which("jing"):
        sys.exit(f"values_run.py: there is no program {given.program}" if not given.program.exists() else "values_run.py: jing is not installed")
    begun = time.monotonic()
    with tempfile.TemporaryDirectory(prefix="rncv-values-") as room:
        counts, rows, faults = search(given, ManyJudges(given.program.resolve(), room))
    for name, number in sorted(counts.items()):
        print(f"{number:9,} {name}")
    print(f"dev/search/fuzz: seed {given.seed}: {rows:,} texts in {time.monotonic() - begun:.0f} s, {faults} differences without an explanation")
    return 1 if faults else 0


if __name__ == "__main__":
    sys.exit(main())
