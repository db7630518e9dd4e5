#!/usr/bin/env python3
"""Searches for small schemas whose documents take long. It is not part of the gate.

    dev/search/limits/search.py --minutes N [--seed S] [--keep FOLDER] [PROGRAM]

The default PROGRAM is `crates/rncv/out/rncv`. Schemas of at most 10 KB are made of nested `?`, `*`, `+`, `&`, `|`, lists and attributes. Some have 24 levels
of definitions, each made from the next one by a random rule. Others have 14 random sides, alike but for their names. Documents of 100 KB to 1 MB, or of 10 KB
by levels and sides, are drawn at random by the schema. A run gets 10 seconds of a processor and 4 GiB of addresses. The schemas whose documents take the most
time a byte are kept and changed further. At the end the worst ones are printed after records of short elements, and written to FOLDER (default:
build/limits-search).
"""
import argparse
import pathlib
import random
import sys
import tempfile
import time
import types

from run import judged, parsed

HERE = pathlib.Path(__file__).resolve().parent
SECONDS, MEBIBYTES = 10, 4_096
LEAST, MOST, SHORT, SCHEMA = 100_000, 1_000_000, 10_000, 10_000
NAMES = ["a", "b", "c", "d"]
LEVELS, SIDES = 24, 14
STEPS, ROWS = 3_000, 60
KEPT = 12
RECORDS = ("element doc { element record { attribute id { xsd:integer }, attribute kind { 'new' | 'open' }, element name { text }, "
           "element tags { list { token* } }, element note { text }* }* }")


class Maker:
    """Makes random patterns. A pattern is (sign, members), or a leaf: ("element", name), ("attribute", name), ("value", text) or ("next", "").

    An element `a.text` has the name `a` and another body, and an attribute `x.one` has the name `x` and the value 1. ("levels", [rule, last]) are
    definitions, each of which is the rule with the next definition in place of the leaf `next`. ("sides", [side]) is an interleave of sides that have names
    of their own, and ("both", [side]) a group of them.
    """

    def __init__(self, chance):
        self.chance = chance

    def pattern(self, depth, next_one=0.0):
        """A random pattern. A leaf is `next` with the given chance."""
        pick = self.chance.random()
        if depth == 0 or pick < 0.15:
            return self.leaf(next_one)
        if pick < 0.5:
            return (self.chance.choice("?*+"), [self.pattern(depth - 1, next_one)])
        if pick < 0.58 and not next_one:
            return (self.chance.choice("?*+"), [("attribute", self.chance.choice(["*", "x", "y"]))])
        sign = self.chance.choice([",", ",", "|", "&"])
        return (sign, [self.pattern(depth - 1, next_one) for _ in range(self.chance.choice([2, 2] if next_one else [2, 2, 3, 5]))])

    def leaf(self, next_one):
        if self.chance.random() < next_one:
            return ("next", "")
        return ("element", self.chance.choice(NAMES) + self.chance.choice(["", "", "", ".text"]))

    def values(self, depth, next_one=0.0):
        """A random pattern for the content of a list. A leaf is `next` with the given chance."""
        if depth == 0:
            return ("next", "") if self.chance.random() < next_one else ("value", self.chance.choice("abc"))
        sign = self.chance.choice(["?", "*", "+", ",", ",", "|"])
        return (sign, [self.values(depth - 1, next_one) for _ in range(1 if sign in "?*+" else self.chance.choice([2, 2] if next_one else [2, 3, 6]))])

    def side(self):
        """A choice of two ways to go on after an attribute or an element of one name."""
        name = self.chance.choice("xy")
        firsts = [("attribute", name), ("attribute", f"{name}.one")] if self.chance.random() < 0.4 else [("element", "a"), ("element", "a.text")]
        return ("|", [(",", [first, self.pattern(self.chance.randrange(2))]) for first in firsts])

    def seed(self):
        pick = self.chance.random()
        if pick < 0.15:
            return ("list", [self.values(self.chance.randrange(2, 6))])
        if pick < 0.25:
            return ("list", [("levels", [self.values(self.chance.randrange(1, 4), 0.7), self.values(1)])])
        if pick < 0.5:
            return ("levels", [self.pattern(self.chance.randrange(1, 4), 0.7), self.pattern(self.chance.randrange(2))])
        if pick < 0.65:
            return (self.chance.choice(["sides", "both"]), [self.chance.choice([self.side, lambda: self.pattern(2)])()])
        return self.pattern(self.chance.randrange(2, 7))

    def changed(self, pattern):
        """The pattern with one part changed."""
        if isinstance(pattern[1], str) or self.chance.random() < 0.2:
            return self.replaced(pattern)
        members = list(pattern[1])
        at = self.chance.randrange(len(members))
        pick = self.chance.random()
        if pick < 0.25 and pattern[0] in (",", "|", "&"):
            members *= self.chance.choice([2, 2, 4])
        elif pick < 0.4 and pattern[0] in (",", "|", "&"):
            members.insert(at, self.chance.choice(members))
        elif pick < 0.5 and pattern[0] in (",", "|", "&") and len(members) > 1:
            del members[at]
        else:
            members[at] = self.changed(members[at])
        return (pattern[0], members)

    def replaced(self, pattern):
        in_list = is_of_list(pattern)
        pick = self.chance.random()
        if pattern[0] in OUTER:
            return (pattern[0], [self.changed(pattern[1][0]), *pattern[1][1:]])
        if pick < 0.5:
            return (self.chance.choice("?*+"), [pattern])
        if pick < 0.8:
            return (self.chance.choice(",|" if in_list else ",|&"), [pattern, pattern])
        return self.values(2) if in_list else self.pattern(2)


OUTER = ("list", "levels", "sides", "both")


def is_of_list(pattern):
    return pattern[0] in ("value", "list") or not isinstance(pattern[1], str) and any(map(is_of_list, pattern[1]))


def is_of_many(pattern):
    """Whether the pattern has levels or sides."""
    return pattern[0] in ("levels", "sides", "both") or pattern[0] == "list" and is_of_many(pattern[1][0])


def named(name, copy):
    """The name of an element or attribute in a side: the number of the side comes before the dot."""
    front, dot, back = name.partition(".")
    return f"{front}{copy}{dot}{back}"


def written(pattern, copy="", following=""):
    sign, parts = pattern
    if sign == "element":
        return named(parts, copy)
    if sign == "attribute":
        front, _, back = named(parts, copy if parts != "*" else "").partition(".")
        return f"attribute {front} {{ {'text' if not back else repr('1')} }}"
    if sign == "value":
        return f"'{parts}'"
    if sign == "next":
        return following
    if sign == "levels":
        return "x0"
    if sign in ("sides", "both"):
        return (" & " if sign == "sides" else ", ").join(f"({written(parts[0], number)})" for number in range(SIDES))
    if sign == "list":
        return f"list {{ {written(parts[0])} }}"
    if sign in "?*+":
        return f"({written(parts[0], copy, following)})" + sign
    return "(" + f" {sign} ".join(written(part, copy, following) for part in parts) + ")"


def levels_of(pattern):
    """The definitions of the levels that are in the pattern."""
    sign, parts = pattern
    if sign == "list":
        return levels_of(parts[0])
    if sign != "levels":
        return ""
    return "".join(f"x{at} = {written(parts[0], following=f'x{at + 1}')}\n" for at in range(LEVELS)) + f"x{LEVELS} = {written(parts[1])}\n"


def schema_of(pattern):
    copies = range(SIDES) if pattern[0] in ("sides", "both") else [""]
    defined = "".join(f"{it}{copy} = element {it}{copy} {{ empty }}\n{it}{copy}.text = element {it}{copy} {{ text }}\n" for it in NAMES for copy in copies)
    return f"start = element doc {{ row* }}\nrow = element row {{ {written(pattern)} }}\n{levels_of(pattern)}{defined}"


def merged(sides, chance):
    """The items of all sides. Those of each side stay in their order."""
    places = [at for at, side in enumerate(sides) for _ in side]
    chance.shuffle(places)
    each = [iter(side) for side in sides]
    return [next(each[at]) for at in places]


class Sampler:
    """Draws random attributes and children of a row. After so many steps it draws no more, since levels lead to very many."""

    def __init__(self, chance, steps=STEPS):
        self.chance, self.left = chance, steps

    def drawn(self, pattern, levels=None, level=0):
        """A list of pairs: whether it is an attribute, and its name."""
        sign, parts = pattern
        self.left -= 1
        if self.left < 0:
            return []
        if sign in ("element", "value"):
            return [(False, parts.partition(".")[0])]
        if sign == "attribute":
            return [(True, f"a{self.chance.randrange(99)}" if parts == "*" else parts.partition(".")[0])]
        if sign == "levels":
            return self.drawn(("next", ""), pattern)
        if sign == "next":
            return self.drawn(levels[1][level == LEVELS], levels, level + 1)
        if sign == "|":
            return self.drawn(self.chance.choice(parts), levels, level)
        if sign in ("sides", "both"):
            sides = [[(is_attribute, named(name, at)) for is_attribute, name in self.drawn(parts[0])] for at in range(SIDES)]
            return merged(sides, self.chance) if sign == "sides" else sum(sides, [])
        if sign == "?" and self.chance.random() < 0.5:
            return []
        times = self.chance.choice([1, 2, 3, 8]) if sign in "*+" else 1
        sides = [self.drawn(part, levels, level) for part in parts * times]
        return merged(sides, self.chance) if sign == "&" else sum(sides, [])


def row_of(pattern, chance):
    """A random row by the pattern, or one with a child less."""
    items = Sampler(chance).drawn(pattern)
    children = [name for is_attribute, name in items if not is_attribute]
    if chance.random() < 0.1 and len(children) > 1:
        children.pop(chance.randrange(len(children)))
    tag = "(row\n" + "".join(f"A{it} 1\n" for it in list(dict.fromkeys(name for is_attribute, name in items if is_attribute))[:200])
    if is_of_list(pattern):
        return tag + "-" + " ".join(children) + " \n)row\n"
    return tag + "".join(f"({it}\n){it}\n" for it in children) + ")row\n"


def document_of(pattern, chance):
    """A document of random rows. At most ROWS of them differ."""
    size = SHORT if is_of_many(pattern) else chance.choice([LEAST, LEAST, LEAST * 3, MOST])
    rows, written_size = [], 0
    while written_size < size:
        rows.append(row_of(pattern, chance) if len(rows) < ROWS else chance.choice(rows[:ROWS]))
        written_size += len(rows[-1])
    return "(doc\n" + "".join(rows) + ")doc\n"


class Measured:
    """A schema and a document, and the time and memory that they took."""

    def __init__(self, pattern, schema, document, answer, seconds, memory):
        self.pattern, self.schema, self.document, self.answer, self.memory = pattern, schema, document, answer, memory
        self.size, self.seconds = len(document), seconds

    @property
    def nanoseconds(self):
        return 1e9 * self.seconds / self.size

    def row(self, name):
        return f"| {name} | {len(self.schema):,} | {self.size:,} | {self.seconds:.2f} | {self.nanoseconds:,.0f} | {self.memory:,.0f} | `{self.answer}` |"


class Judge:
    def __init__(self, program, room):
        self.room, self.runs = pathlib.Path(room), 0
        self.given = types.SimpleNamespace(program=program, seconds=SECONDS, megabytes=MEBIBYTES)

    def measure(self, pattern, schema, document):
        (self.room / "s.rnc").write_text(schema)
        (self.room / "document.pyx").write_text(document)
        self.runs += 1
        answer, seconds, memory = judged(self.given, "valid", None, self.room, ["s.rnc"])
        return Measured(pattern, schema, document, answer.strip("`"), seconds, memory)


def records(chance):
    rows = []
    while len(rows) < 2_500:
        rows.append(f"(record\nAid {len(rows)}\nAkind new\n(name\n-Part number {len(rows)}\n)name\n(tags\n-t1 t2\n)tags\n" + "(note\n-A note.\n)note\n" * chance.randrange(3)
                    + ")record\n")
    return "(doc\n" + "".join(rows) + ")doc\n"


def search(judge, chance, end):
    """The worst schemas that were found. All schemas are new until KEPT of them are kept, and later one in five."""
    maker, kept = Maker(chance), []
    while time.monotonic() < end:
        is_new = len(kept) < KEPT or chance.random() < 0.2
        pattern = maker.seed() if is_new else maker.changed(chance.choice(kept).pattern)
        schema = schema_of(pattern)
        if len(schema) > SCHEMA:
            continue
        found = judge.measure(pattern, schema, document_of(pattern, chance))
        if found.answer.startswith("refused"):
            continue
        kept = sorted(kept + [found], key=lambda it: -it.nanoseconds)[:KEPT]
    return kept


def main():
    words = argparse.ArgumentParser(description=__doc__.splitlines()[0])
    words.add_argument("--minutes", type=float, required=True)
    words.add_argument("--seed", default=str(random.randrange(10**6)))
    words.add_argument("--keep", type=pathlib.Path, default=HERE.parents[2] / "build/limits-search")
    given = parsed(words)
    sys.setrecursionlimit(20_000)
    chance = random.Random(given.seed)
    with tempfile.TemporaryDirectory(prefix="limits-search-") as room:
        judge = Judge(given.program, room)
        plain = judge.measure(None, RECORDS, records(chance))
        kept = search(judge, chance, time.monotonic() + 60 * given.minutes)
    print(f"seed {given.seed}, {judge.runs:,} runs\n")
    print("| What | Schema, bytes | Document, bytes | Seconds of a processor | Nanoseconds a byte | Greatest memory, MiB | Answer |\n|---|---|---|---|---|---|---|")
    print(plain.row("records"))
    for at, it in enumerate(kept):
        print(it.row(f"{at}"))
        (given.keep / str(at)).mkdir(parents=True, exist_ok=True)
        (given.keep / str(at) / "s.rnc").write_text(it.schema)
        (given.keep / str(at) / "document.pyx").write_text(it.document)
    print(f"\nwritten to {given.keep}")


if __name__ == "__main__":
    main()
