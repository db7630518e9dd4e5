#!/usr/bin/env python3
"""Times the reader of documents and the matcher together. It is not part of the gate.

    dev/bench/match_time/run.py [--only WORD] [--times N] [--seconds N] [--built PROGRAM] [--records N] [--jing]

It builds `program.txt` beside a copy of the crates that it uses. `--built` names a PROGRAM that was built in the same way. It makes schemas and
documents, and judges each document N times (default: 3). The quickest run counts. Each row has the bytes of the document, the milliseconds of a
processor, the greatest memory, and the answer of the matcher. A run that takes longer than `--seconds` (default: 20) is stopped. `--records` is the number
of records in the first document (default: 45,000).

`--jing` judges the same documents, as XML, with jing in one running Java machine on one processor. It needs the packages `jing`, `libjing-java` and a JDK.
Its columns have the milliseconds on the clock for compiling the schema, for judging the document the first time, and for judging it again. The last time
uses what was kept from earlier times. Each is the least of 12. A run that takes longer than five times `--seconds` is stopped.
"""
import argparse
import os
import pathlib
import random
import sys
import tempfile

HERE = pathlib.Path(__file__).resolve().parent
sys.path.insert(0, str(HERE.parent))
from measuring import Jing, Table, answer, built, took  # noqa: E402
from workloads import as_xml  # noqa: E402

USES = "rng_deriv rng_deriv_laws rng_rules rng_simple rng_load rng_model pyx"


def element(name, inner=""):
    return f"({name}\n{inner}){name}\n"


def root(children):
    return element("doc", "".join(children))


def members(sign, count, name="e"):
    return f" {sign} ".join(f"element {name}{i} {{ empty }}" for i in range(count))


def lists(count):
    """A group of `count` members, in lists of 500 to limit the depth."""
    parts = [f"({', '.join(f'element e{i} {{ empty }}' for i in range(at, min(at + 500, count)))})" for at in range(0, count, 500)]
    return ", ".join(parts)


def records(count, draw):
    schema = ("element doc { element record { attribute id { xsd:integer }, attribute kind { \"new\" | \"open\" | \"held\" }, "
              "element name { text }, element quantity { xsd:integer }, element tags { list { token* } }, element note { text }* }* }")
    rows = (f"(record\nAid {i * 7919}\nAkind {draw.choice(['new', 'open', 'held'])}\n" + element("name", f"-Part number {i}\n")
            + element("quantity", f"-{draw.randrange(-99, 2000)}\n") + element("tags", f"-t{i} t{i + 1}\n")
            + element("note", "-A note of some words, as notes are.\n") * draw.randrange(3) + ")record\n" for i in range(count))
    return schema, root(rows)


def shuffled(count, rows):
    def workload(draw):
        names = [f"e{i}" for i in range(count)]
        lines = (element("row", "".join(element(name) for name in draw.sample(names, count))) for _ in range(rows))
        return f"element doc {{ element row {{ {members('&', count)} }}* }}", root(lines)
    return workload


def sequence(count):
    return lambda draw: (f"element doc {{ {lists(count)} }}", root(element(f"e{i}") for i in range(count)))


def one_of(count):
    return lambda draw: (f"element doc {{ ({members('|', count)})* }}", root(element(f"e{draw.randrange(count)}") for _ in range(20_000)))


def nested_repeats(depth):
    return lambda draw: (f"element doc {{ {'(' * depth}element e0 {{ empty }}{')+' * depth} }}", root([element("e0")] * 2_000))


def shuffled_stars(count):
    def workload(draw):
        members_of = " & ".join(f"element e{i} {{ empty }}*" for i in range(count))
        lines = (element("row", "".join(element(f"e{draw.randrange(count)}") for _ in range(2 * count))) for _ in range(1_000))
        return f"element doc {{ element row {{ {members_of} }}* }}", root(lines)
    return workload


def pairs(count):
    def workload(draw):
        joined = " & ".join(f"(element a{i} {{ empty }}, element b{i} {{ empty }})" for i in range(count))
        falling = list(reversed(range(count)))
        return f"element doc {{ {joined} }}", root([element(f"{letter}{i}") for letter in "ab" for i in falling])
    return workload


def optional_groups(count):
    def workload(draw):
        joined = " & ".join(f"(element a{i} {{ empty }}?, element b{i} {{ empty }}*)" for i in range(count))
        return f"element doc {{ {joined} }}", root([element(f"b{i}") for _ in range(3) for i in reversed(range(count))])
    return workload


def rounds(count):
    def workload(draw):
        joined = " & ".join(f"element e{i} {{ empty }}?" for i in range(count))
        return f"element doc {{ ({joined})+ }}", root([element(f"e{draw.randrange(count)}") for _ in range(1_000)])
    return workload


def optionals(count):
    return lambda draw: (f"start = element doc {{ {', '.join(['a?'] * count)} }}\na = element a {{ empty }}", root([element("a")] * count))


def ambiguous(count):
    def workload(draw):
        schema = f"start = element doc {{ (a | b)*, a, {', '.join(['(a | b)'] * count)} }}\na = element a {{ empty }}\nb = element b {{ empty }}"
        return schema, root([element(draw.choice("ab")) for _ in range(2_000 - count - 1)] + [element("a")] * (count + 1))
    return workload


def any_attributes(draw):
    row = "(row\n" + "".join(f"Aname{i} {i}\n" for i in range(256)) + ")row\n"
    return "element doc { element row { attribute * { text }+ }* }", root([row] * 300)


def attributes_in_order(draw):
    wanted = ", ".join(f"attribute x{i} {{ text }}" for i in range(64))
    row = "(row\n" + "".join(f"Ax{i} {i}\n" for i in reversed(range(64))) + ")row\n"
    return f"element doc {{ element row {{ {wanted} }}* }}", root([row] * 1_000)


def optional_attributes(draw):
    wanted = " & ".join(f"attribute x{i} {{ text }}?" for i in range(64))
    rows = ("(row\n" + "".join(f"Ax{i} {i}\n" for i in draw.sample(range(64), 32)) + ")row\n" for _ in range(1_000))
    return f"element doc {{ element row {{ {wanted} }}* }}", root(rows)


def attributes(prefixes, count):
    """Declares each prefix with its own name as the namespace. Then `count` attributes, with the prefixes in turn or without one."""
    declared = "".join(f"Axmlns:{prefix} {prefix}\n" for prefix in prefixes)
    return declared + "".join(f"A{prefixes[i % len(prefixes)] + ':' if prefixes else ''}x{i} {i}\n" for i in range(count))


def tag(inner):
    return f"(doc\n{inner})doc\n"


def nested_attributes(count):
    return lambda draw: ("element doc { ((attribute * { text }*)*)* }", tag(attributes("", count)))


def attributes_100_deep(count):
    return lambda draw: (f"element doc {{ {'(' * 100}attribute * {{ text }}{')+' * 100} }}", tag(attributes("", count)))


def two_namespaces(count):
    schema = ('namespace p = "p" namespace q = "q" '
              "element doc { (attribute p:* { text }* | attribute q:* { text }*)* }")
    return lambda draw: (schema, tag(attributes("pq", count)))


def overlapping_attributes(classes, count):
    alternatives = " | ".join(f'(attribute * {{ token | "k{i}" }}+)*' for i in range(classes))
    return lambda draw: (f"element doc {{ ({alternatives})* }}", tag(attributes("", count)))


def groups_of_attributes(count):
    schema = ('namespace p = "p" namespace q = "q" namespace r = "r" '
              "element doc { (attribute p:* { text }+ | attribute z { text })*, (attribute q:* { text }* | attribute r:* { text }+)+ }")
    return lambda draw: (schema, tag(attributes("pqr", count)))


def levels(count, member, last):
    """Two ways at each level. Both have the next level and a different optional member."""
    rules = (f"x{i} = (x{i + 1}, {member(f'y{i}')}?) | (x{i + 1}, {member(f'z{i}')}?)" for i in range(count))
    return "\n".join(["start = element doc { x0 }", *rules, f"x{count} = {last}"])


def levels_of_elements(count, given):
    schema = levels(count, lambda name: f"element {name} {{ empty }}", "attribute w { text }?")
    return lambda draw: (schema, root(element(draw.choice("yz") + str(i)) for i in reversed(range(given))))


def levels_of_attributes(count, given):
    schema = levels(count, lambda name: f"attribute {name} {{ text }}", "empty")
    return lambda draw: (schema, tag("".join(f"A{draw.choice('yz')}{i} {i}\n" for i in draw.sample(range(count), given))))


def equal_optionals(count):
    members_of = ["element e { empty }?"] * count
    joined = ", ".join(f"({', '.join(members_of[at:at + 500])})" for at in range(0, count, 500))
    return lambda draw: (f"element doc {{ {joined} }}", root([element("e")] * count))


def other_optionals(count):
    """Members with one name, each with a different body, and as many children. Each member matches each child."""
    members_of = ", ".join(f"element b {{ text, element c{i} {{ empty }}? }}?" for i in range(count))
    return lambda draw: (f"element doc {{ {members_of} }}", root([element("b")] * count))


def lists_of(members, pieces, count):
    """Lists of 50 pieces. The pattern is any number of these members."""
    def workload(draw):
        lines = (element("row", f"-{' '.join(draw.choice(pieces) for _ in range(50))}\n") for _ in range(count))
        return f"element doc {{ element row {{ list {{ ({' | '.join(members)})* }} }}* }}", root(lines)
    return workload


def words(count):
    return [f"word{i:03}" for i in range(count)]


def values(count, given):
    return lists_of([f'"{word}"' for word in words(count)], words(given), 400)


def integers(count, given):
    numbers = [str(i) for i in range(count)]
    return lists_of([f'xsd:integer "{number}"' for number in numbers], numbers[-given:], 200)


def ranges(count, given):
    bounds = [f'xsd:integer {{ minInclusive = "{10 * i}" maxInclusive = "{10 * i + 5}" }}' for i in range(count)]
    return lists_of(bounds, [str(10 * i) for i in range(given)], 100)


def doubled(count, last, choices, times):
    """Definitions, each the next one twice. The document has, `times` times, the children of one of the choices, named by its letters."""
    rules = [f"x{i} = x{i + 1}, x{i + 1}" for i in range(count)]
    schema = "\n".join(["start = element doc { x0 }", *rules, f"x{count} = {last}"])
    return lambda draw: (schema, root(element(name) for _ in range(times) for name in draw.choice(choices)))


WORKLOADS = [
    ("a list of 900 members", sequence(900)),
    ("a list of 20,000 members, in lists of 500", sequence(20_000)),
    ("1,000 rows of 4 interleaved members", shuffled(4, 1_000)),
    ("1,000 rows of 64 interleaved members", shuffled(64, 1_000)),
    ("1,000 rows of 16 interleaved members, each any number of times", shuffled_stars(16)),
    ("64 interleaved groups of two", pairs(64)),
    ("64 interleaved groups of two that may be left out", optional_groups(64)),
    ("rounds of 16 interleaved members that may be left out", rounds(16)),
    ("400 lists of 50 pieces, of 40 values", values(40, 40)),
    ("400 lists of 50 pieces, of 300 values", values(300, 300)),
    ("400 lists of 50 pieces, of 8 of 300 values", values(300, 8)),
    ("200 lists of 50 pieces, of 300 integers as values", integers(300, 300)),
    ("200 lists of 50 pieces, of 8 of 300 integers as values", integers(300, 8)),
    ("100 lists of 50 pieces, of 100 ranges of integers", ranges(100, 100)),
    ("100 lists of 50 pieces, of 8 of 100 ranges of integers", ranges(100, 8)),
    ("20,000 children, each one of 10", one_of(10)),
    ("20,000 children, each one of 950", one_of(950)),
    ("300 elements of 256 attributes of any name", any_attributes),
    ("1,000 elements of 64 attributes in falling order", attributes_in_order),
    ("1,000 elements of half of 64 interleaved attributes", optional_attributes),
    ("400 members that may be left out, and 400 children", optionals(400)),
    ("2,000 children, an `a` 13 from the end", ambiguous(12)),
    ("2,000 children, 8 repetitions in one another", nested_repeats(8)),
    ("2,000 children, 100 repetitions in one another", nested_repeats(100)),
    ("60 attributes, 3 repetitions in one another of those of any name", nested_attributes(60)),
    ("250 attributes, 3 repetitions in one another of those of any name", nested_attributes(250)),
    ("250 attributes, 100 repetitions in one another of those of any name", attributes_100_deep(250)),
    ("180 attributes of two namespaces in turn", two_namespaces(180)),
    ("250 attributes of two namespaces in turn", two_namespaces(250)),
    ("240 attributes, 40 repetitions of those of any name", overlapping_attributes(40, 240)),
    ("240 attributes of three namespaces, in two groups", groups_of_attributes(240)),
    ("26 levels of two ways each, no child", levels_of_elements(26, 0)),
    ("60 levels of two ways each, no child", levels_of_elements(60, 0)),
    ("200 levels of two ways each, no child", levels_of_elements(200, 0)),
    ("200 levels of two ways each, a child of each", levels_of_elements(200, 200)),
    ("200 levels of two attributes each, 20 of them given", levels_of_attributes(200, 20)),
    ("900 equal members that may be left out, and 900 children", equal_optionals(900)),
    ("9,000 equal members that may be left out, in lists of 500, and 9,000 children", equal_optionals(9_000)),
    ("300 members of one name and different bodies that may be left out, and 300 children", other_optionals(300)),
    ("990 definitions, each the next one twice, and 300 children", doubled(990, "element b { empty } | empty", "b", 300)),
    ("990 definitions, each the next one twice, and 3,000 children", doubled(990, "element b { empty } | empty", "b", 3_000)),
    ("990 definitions, each the next one twice, of one of two", doubled(990, "element b { empty } | element c { empty } | empty", "bc", 300)),
    ("990 definitions, each the next one twice, of three that may be left out",
     doubled(990, "element b { empty }?, element c { empty }?, element d { empty }?", "bcd", 300)),
    ("990 definitions, each the next one twice, of a pair that may be left out",
     doubled(990, "(element b { empty }, element c { empty })?", ["bc"], 1_500)),
    ("990 definitions, each the next one twice, of two interleaved", doubled(990, "element b { empty }? & element c { empty }?", "bc", 300)),
    ("32 definitions, each the next one twice, of two interleaved or none", doubled(32, "(element b { empty } & element c { empty })?", ["bc"], 6)),
    ("60 definitions, each the next one twice, of a group of two or one",
     doubled(60, "(element b { empty }, element c { empty }) | element d { empty } | empty", ["bc", "d"], 30)),
]


def by_program(program, folder, given):
    """The cells for the matcher: the least milliseconds of a processor, the greatest memory of that run, and its answer."""
    runs = [took([program], folder / "document.pyx", cwd=folder, seconds=given.seconds) for _ in range(given.times)]
    run = min(runs, key=lambda run: float("inf") if run.status is None else run.processor)
    return ["", "", answer(run, given.seconds)] if run.status is None else [f"{run.processor:.1f}", f"{run.memory:.1f}", answer(run)]


def by_jing(jing, folder, document, seconds):
    """The cells for jing: the least milliseconds to compile the schema, to judge the document and to judge it again, and its answer."""
    (folder / "document.xml").write_text(as_xml(document), encoding="utf-8")
    loop = jing.loop(folder / "s.rnc", [folder / "document.xml"], anew=12, rounds=12, seconds=5 * seconds, processors={max(os.sched_getaffinity(0))})
    if loop is None:
        return ["", "", "", f"given up after {5 * seconds:.0f} s"]
    return [*(f"{min(times):.1f}" for times in loop[:3]), "valid" if loop.is_valid else "invalid"]


def main():
    words = argparse.ArgumentParser(description=__doc__.splitlines()[0])
    words.add_argument("--only", default="")
    words.add_argument("--times", type=int, default=3)
    words.add_argument("--seconds", type=float, default=20)
    words.add_argument("--built", type=pathlib.Path)
    words.add_argument("--records", type=int, default=45_000)
    words.add_argument("--jing", action="store_true")
    given = words.parse_args()
    with tempfile.TemporaryDirectory(prefix="match-time-") as room:
        folder = pathlib.Path(room)
        program = given.built.resolve() if given.built else built(folder, "match_time", HERE / "program.txt", USES)
        jing = Jing(folder, options=["-Xss512m"]) if given.jing else None
        if jing and not jing.classes:
            sys.exit("match_time: no jing.jar or no javac: apt-get install jing libjing-java default-jdk-headless")
        table = Table("Schema and document", "Bytes", "Milliseconds of a processor", "Greatest memory, MiB", "Answer",
                      *(["jing: schema", "document", "document again", "Answer"] if jing else []))
        for name, workload in [("records of short elements", lambda draw: records(given.records, draw)), *WORKLOADS]:
            if given.only in name:
                schema, document = workload(random.Random(7))
                (folder / "s.rnc").write_text(schema, encoding="utf-8")
                (folder / "document.pyx").write_text(document, encoding="utf-8")
                peer = by_jing(jing, folder, document, given.seconds) if jing else []
                table.row(name, f"{len(document.encode()):,}", *by_program(program, folder, given), *peer)


if __name__ == "__main__":
    main()
