#!/usr/bin/env python3
"""Judges random expressions of the facet `pattern`, also broken ones, and texts that are near to matching them. It is not part of the gate.

    dev/search/fuzz/patterns_run.py [--pairs N] [--seed S] [--from N] [--minutes N] [--program FILE] [--found FILE] [--most N] [--no-jing] [--no-reducing]

The judges are rncv-xml (default: build/xml/rncv-xml), jing's engine, which translates for `java.util.regex`, Python's `re` over a translation, and of whether a
text is an expression also the reader of `dev/check/patterns/expressions.py`. Expressions come in batches: each is judged alone, and then all texts of a batch
by one schema in one run; the schemas of each third batch are in the XML syntax. The datatype is `string`, `normalizedString` or `token`; the others get the
text with its white space treated. A difference that a reason of `pattern_reasons.py` explains is counted under its name. Any other one is made smaller,
printed, and put into a file. The status is 0 if there is none, else 1. The same seed gives the same expressions and texts.
"""
import argparse
import collections
import pathlib
import random
import sys
import tempfile
import time

import pattern_judges
import pattern_reasons
from pattern_expressions import TREATED, is_expression, kind_of, made, texts_of, with_blanks
from reducing import reduced_parts

HERE = pathlib.Path(__file__).resolve().parent
BATCH = 100
TEXTS = 12
REDUCING_SECONDS = 20


class Difference:
    """What rncv-xml and another judge say of an expression, or of a text by it."""

    def __init__(self, judge, case, ours, theirs):
        self.judge, self.ours, self.theirs = judge, ours, theirs
        self.kind, self.pattern, self.text = case

    def kinds(self):
        """What stays while it is made smaller."""
        return self.judge, self.text is None, self.ours.split(":")[0], "" if self.text is None else self.theirs

    def __repr__(self):
        of = "" if self.text is None else f" and {self.text!a}"
        kind = "" if self.kind == "string" else f"{self.kind} "
        return f"{self.judge}: {kind}{self.pattern!a}{of}: {self.ours or 'taken'}, and by {self.judge} {self.theirs or 'taken'}"


class Bench:
    """The judges, and what was counted."""

    def __init__(self, program, folder, has_jing=True):
        self.rncv, self.jing = pattern_judges.Rncv(program, folder), pattern_judges.jing(folder) if has_jing else None
        self.counts, self.reasons = collections.Counter(), collections.Counter()

    def expression(self, kind, pattern):
        """Whether an expression is taken, whether jing takes it, and the differences."""
        is_read = is_expression(pattern)
        ours = self.rncv.expression(kind, pattern)
        theirs = self.jing.judged(pattern, [])[0] if self.jing else None
        found = []
        if (not ours) != is_read:
            reason = pattern_reasons.of_our_refusal(pattern, is_read) if ours == "S12" else None
            found.append((Difference("expressions.py", (kind, pattern, None), ours, "" if is_read else "no expression"), reason))
        if self.jing and (not ours) != (not theirs):
            reason = pattern_reasons.of_our_refusal(pattern, is_read) if ours == "S12" else pattern_reasons.of_jing_refusal(pattern, theirs)
            found.append((Difference("jing", (kind, pattern, None), ours, theirs), reason))
        return is_read and not ours, not theirs, found

    def text(self, row, ours, by_jing, by_python):
        """The differences about a text, each with its reason."""
        answers, (kind, pattern, text) = ("valid", "invalid"), row
        text = TREATED[kind](text)
        if ours not in answers:
            yield Difference("the run", row, ours, "an answer"), None
        elif by_jing in answers and by_jing != ours:
            yield Difference("jing", row, ours, by_jing), pattern_reasons.of_jing_text(self.jing, pattern, text)
        if ours in answers and by_python in answers and by_python != ours:
            yield Difference("re", row, ours, by_python), pattern_reasons.of_python_text(pattern, text)

    def judged(self, cases):
        """The differences about expressions, each with texts."""
        rows, others = [], []
        for kind, pattern, texts in cases:
            is_taken, jing_takes, found = self.expression(kind, pattern)
            yield from found
            self.counts["expressions" if is_taken else "refused"] += 1
            if not is_taken:
                continue
            rows += [(kind, pattern, text) for text in texts]
            texts = list(map(TREATED[kind], texts))
            theirs = self.jing.judged(pattern, texts)[1] if self.jing and jing_takes else []
            others += zip(theirs or ["refused" if self.jing else "not asked"] * len(texts), pattern_judges.by_python(pattern, texts))
        for row, ours, answers in zip(rows, self.rncv.texts(rows), others):
            self.counts[ours] += 1
            self.counts.update(f"{judge}: {answer}" for judge, answer in zip(("jing", "re"), answers) if answer not in ("valid", "invalid"))
            yield from self.text(row, ours, *answers)

    def such(self, difference, pattern, texts):
        """A difference like another one that nothing explains, about an expression or one of these texts; None if there is none."""
        before = self.counts.copy()
        judged = list(self.judged([(difference.kind, pattern, texts if is_expression(pattern) else [])]))
        self.counts = before
        return next((it for it, reason in judged if not reason and it.kinds() == difference.kinds()), None)

    def close(self):
        if self.jing:
            self.jing.close()


def made_smaller(bench, difference):
    """A smaller expression and text with such a difference."""
    end, found = time.monotonic() + REDUCING_SECONDS, difference

    def differs(pattern, texts):
        nonlocal found
        other = bench.such(difference, pattern, texts)
        found = other or found
        return other is not None

    def has_text(parts):
        pattern = "".join(parts)
        return differs(pattern, [found.text, *texts_of(pattern, random.Random(pattern), TEXTS)] if found.text is not None and is_expression(pattern) else [])

    for _ in range(2):  # what is left when brackets are gone may be made smaller again
        reduced_parts(list(found.pattern), has_text, end)
    if found.text:
        reduced_parts(list(found.text), lambda parts: differs(found.pattern, ["".join(parts)]), end)
    return found


def cases_of(given, number):
    """The expressions and texts of a batch."""
    for at in range(number * BATCH, (number + 1) * BATCH):
        chance = random.Random(f"{given.seed}/{at}")
        kind, pattern = kind_of(chance), made(chance)
        texts = texts_of(pattern, chance, TEXTS) if is_expression(pattern) else []
        yield kind, pattern, [with_blanks(text, chance) for text in texts] if kind != "string" else texts


def search(given, bench):
    """How many differences nothing explains, by their kinds. The first ones of each kind are written."""
    end = time.monotonic() + 60 * given.minutes if given.minutes is not None else float("inf")
    kinds, pairs, number = collections.Counter(), 0, given.first
    while pairs < given.pairs and time.monotonic() < end:
        cases, bench.rncv.syntax = list(cases_of(given, number)), "rng" if number % 3 == 2 else "rnc"
        for difference, reason in list(bench.judged(cases)):
            if reason:
                bench.reasons[f"{reason}, {'an expression' if difference.text is None else 'a text'}, {difference.judge}"] += 1
                continue
            kinds[difference.kinds()] += 1
            if kinds[difference.kinds()] <= given.most:
                write_found(given, bench, difference, number)
        pairs += sum(len(texts) or 1 for *_, texts in cases)
        number += 1
    bench.counts["pairs"] = pairs
    return kinds


def write_found(given, bench, difference, number):
    smaller = difference if given.no_reducing else made_smaller(bench, difference)
    reported = f"{smaller}\n  from: {difference}\n  again: dev/search/fuzz/patterns_run.py --seed {given.seed} --from {number} --pairs 1"
    print(reported, flush=True)
    given.found.parent.mkdir(parents=True, exist_ok=True)
    with open(given.found, "a", encoding="utf-8") as file:
        file.write(reported + "\n")


def words():
    given = argparse.ArgumentParser(description=__doc__.splitlines()[0])
    given.add_argument("--pairs", type=int, default=10_000, help="how many texts, and expressions without one, at least")
    given.add_argument("--seed", default=str(random.randrange(10**6)))
    given.add_argument("--from", type=int, default=0, dest="first", help="the number of the first batch")
    given.add_argument("--minutes", type=float, help="end after so many minutes")
    given.add_argument("--program", type=pathlib.Path, default=HERE.parents[2] / "build/xml/rncv-xml")
    given.add_argument("--found", type=pathlib.Path, default=HERE / "found/patterns.txt")
    given.add_argument("--most", type=int, default=5, help="how many differences of a kind to make smaller and to print")
    given.add_argument("--no-jing", action="store_true")
    given.add_argument("--no-reducing", action="store_true")
    given = given.parse_args()
    if not given.program.exists():
        sys.exit(f"there is no program {given.program}")
    return given


def main():
    given, begun = words(), time.monotonic()
    with tempfile.TemporaryDirectory(prefix="rncv-patterns-") as room:
        bench = Bench(given.program.resolve(), room, not given.no_jing)
        kinds = search(given, bench)
        bench.close()
    pairs = bench.counts.pop("pairs")
    for what, counts in (("", bench.counts), ("explained by ", bench.reasons)):
        for name, number in sorted(counts.items()):
            print(f"{number:9,} {what}{name}")
    for name in sorted({key.split(",")[0] for key in bench.reasons}):
        print(f"{name}: {pattern_reasons.REASONS[name]}")
    for kind, number in kinds.most_common():
        print(f"{number:9,} without an explanation: {kind}")
    print(f"dev/search/fuzz: seed {given.seed}: {pairs:,} pairs in {time.monotonic() - begun:.0f} s, {sum(kinds.values())} differences without an explanation"
          + ("" if bench.jing else "; without jing"))
    return 1 if kinds else 0


if __name__ == "__main__":
    sys.exit(main())
