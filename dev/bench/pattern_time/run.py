#!/usr/bin/env python3
"""Measures what the facet `pattern` costs. It is not part of the gate.

    dev/bench/pattern_time/run.py [--library FOLDER] [--program RNCV-XML] [--texts N] [--attributes N] [--times N] [--core N] [--only WORD]

The first table is of instructions, by callgrind and the library that `programs/library/build.sh` built in FOLDER (default: build/library). A document of
different texts is judged with the facet and without it, and the difference is what the facet costs. From texts of three lengths follow the instructions a byte,
and those a text beside them. At most 12 a byte and 100 a text are wanted, of expressions of at most 64 states.

The second table is of time: N attributes (100,000), codes of `[A-Z]{2}[0-9]{4}(-[a-z]+)?` or names that are not ASCII, by the library, which reads PYX, by
`rncv-xml` (default: build/xml/rncv-xml), and by jing in a running machine, each on one processor. The milliseconds are the least of some runs, of a processor
and with the start, and for jing on the clock and without it. The last columns are the quotients; at most 1.0 is wanted. Without jing (libjing-java) or a JDK
they are empty. `--only instructions` and `--only time` leave the other one out.
"""
import argparse
import os
import pathlib
import random
import re
import sys
import tempfile

HERE = pathlib.Path(__file__).resolve().parent
sys.path[:0] = [str(HERE.parent), str(HERE.parent / "datatype_time")]
from measuring import TOP, Jing, Table, took, wanted  # noqa: E402  (the folders are known only here)
from run import XML_SCHEMA, Judge  # noqa: E402

LENGTHS = (20, 220, 1020)
CODE = "[A-Z]{2}[0-9]{4}(-[a-z]+)?"
LETTERS = "abcdefghijklmnopqrstuvwxyz"
NAME = r"[\p{L}\- ]{1,40}"


def from_letters(letters):
    """Texts of these letters by chance."""
    return lambda chance, length: "".join(chance.choices(letters, k=length))


def code(chance, length):
    return "".join([*chance.choices(LETTERS.upper(), k=2), *chance.choices("0123456789", k=4), "-", *chance.choices(LETTERS, k=length - 7)])


def mail(chance, length):
    return "".join(chance.choices(LETTERS + ".-_", k=length - 12)) + "@example.org"


# A name, an expression of at most 64 states, and what makes a text of so many characters that it matches.
ROWS = [
    ("a code", CODE, code),
    ("letters", "[a-z]+", from_letters(LETTERS)),
    ("any characters", ".*", from_letters(LETTERS + " .,;")),
    ("no blanks", r"\S+", from_letters(LETTERS + ".,;!")),
    ("characters of names", r"\i\c*", from_letters(LETTERS)),
    ("an address", r"[a-z0-9._%+\-]+@([a-z0-9\-]+\.)+[a-z]{2,4}", mail),
    ("words", "((alpha|beta|gamma) ?)+", lambda chance, length: "".join(chance.choices(("alpha ", "gamma "), k=(length + 5) // 6))),
    ("an `a` eight from the end", "[ab]*a[ab]{7}", lambda chance, length: f"{from_letters('ab')(chance, length - 8)}a{from_letters('ab')(chance, 7)}"),
    ("an `a` thirty from the end", "[ab]*a[ab]{29}", lambda chance, length: f"{from_letters('ab')(chance, length - 30)}a{from_letters('ab')(chance, 29)}"),
    ("Greek letters", r"\p{L}+", from_letters("αβγδεζηθικλμνξοπρστυφχψω")),
    ("letters of many alphabets", r"\i\c*", from_letters("abcdeäöüéèαβγдежзиぁあ")),
]


def schema(facet, tag="text"):
    return f"element doc {{ element {tag} {{ xsd:string {facet} }}* }}"


def written(expression):
    """The facet, with the expression as a literal of the compact syntax."""
    return f'{{ pattern = "{expression}" }}'


def document(texts):
    return "(doc\n" + "".join(f"(text\n-{text}\n)text\n" for text in texts) + ")doc\n"


def texts_of(name, make, length, count):
    """Different texts, the same ones each time."""
    chance = random.Random(f"{name} {length}")
    return list(dict.fromkeys(make(chance, length) for _ in range(count)))


def difference(judge, expression, texts):
    """The instructions of the facet, and the bytes of all texts."""
    text = document(texts)
    with_facet, without = (judge.instructions(XML_SCHEMA, schema(facet), text) for facet in (written(expression), ""))
    nothing, none = (judge.instructions(XML_SCHEMA, schema(facet), document([])) for facet in (written(expression), ""))
    return with_facet - without - (nothing - none), sum(len(it.encode()) for it in texts)


def line_through(points):
    """The slope between the first point and the last one, and the value at nothing of the line through the first."""
    (low_x, low_y), *_, (high_x, high_y) = points
    slope = (high_y - low_y) / (high_x - low_x)
    return slope, low_y - slope * low_x


def instruction_rows(given):
    table = Table("Texts", "Expression", "Instructions a byte", "and a text", *(f"a text of {length} characters" for length in LENGTHS))
    with tempfile.TemporaryDirectory(prefix="rncv-patterns-") as room:
        judge = Judge(given.library, pathlib.Path(room))
        for name, expression, make in ROWS:
            points = []
            for length in LENGTHS:
                texts = texts_of(name, make, length, given.texts)
                instructions, size = difference(judge, expression, texts)
                points.append((size / len(texts), instructions / len(texts)))
            slope, rest = line_through(points)
            table.row(name, f"`{expression}`".replace("|", "\\|"), f"{slope:.1f}", f"{rest:,.0f}", *(f"{value:,.0f}" for _, value in points))


def codes(count):
    """So many codes."""
    chance = random.Random(1)
    made = (code(chance, chance.randrange(8, 16)) for _ in range(count))
    return [it if chance.random() < 0.5 else it[:6] for it in made]


def names(count):
    """So many names that are not ASCII."""
    chance = random.Random(2)
    return ["".join(chance.choices(LETTERS, k=chance.randrange(3, 9))) + chance.choice("äöüéèñø") + chance.choice(LETTERS) for _ in range(count)]


def as_xml(texts):
    return "<doc>\n" + "".join(f'<r c="{it}"/>\n' for it in texts) + "</doc>\n"


def as_pyx(texts):
    return "(doc\n" + "".join(f"(r\nAc {it}\n)r\n" for it in texts) + ")doc\n"


def least(words, times, core):
    """The least milliseconds of a processor of some runs, which have to succeed."""
    return min(wanted(took(words, processors=core, has_memory=False), words[0]).processor for _ in range(times))


def time_rows(given):
    table = Table("Attributes", "the library", "`rncv-xml`", "jing warm", "the library by jing", "`rncv-xml` by jing")
    core = {max(os.sched_getaffinity(0)) if given.core is None else given.core}
    with tempfile.TemporaryDirectory(prefix="rncv-patterns-") as room:
        folder = pathlib.Path(room)
        jing, library = Jing(folder), Judge(given.library, folder).program
        schema_file, xml, pyx = (folder / name for name in ("s.rnc", "d.xml", "d.pyx"))
        for name, make, facet in ((f"codes, `{CODE}`", codes, written(CODE)), ("codes, `xsd:string` alone", codes, ""),
                                  (f"names, `{NAME}`", names, written(NAME)), ("names, `xsd:string` alone", names, "")):
            texts = make(given.attributes)
            xml.write_text(as_xml(texts), encoding="utf-8")
            pyx.write_text(as_pyx(texts), encoding="utf-8")
            schema_file.write_text(f"element doc {{ element r {{ attribute c {{ xsd:string {facet} }}, empty }}* }}\n", encoding="utf-8")
            ours = [least(words, given.times, core) for words in ([library, XML_SCHEMA, schema_file, pyx], [given.program, "-j", "1", schema_file, xml])]
            loop = jing.loop(schema_file, [xml], rounds=5 * given.times, processors=core) if jing.classes else None
            theirs = min(*loop.firsts, *loop.laters) if loop else 0
            told = [f"{theirs:.1f}{'' if loop.is_valid else ' (not valid)'}", *(f"{it / theirs:.2f}" for it in ours)] if loop else ["", "", ""]
            table.row(f"{given.attributes:,}, {name}", *(f"{it:.1f}" for it in ours), *told)


def main():
    parser = argparse.ArgumentParser(prog="run.py", description=__doc__.splitlines()[0])
    parser.add_argument("--library", type=pathlib.Path, default=TOP / "build/library")
    parser.add_argument("--program", type=pathlib.Path, default=TOP / "build/xml/rncv-xml")
    parser.add_argument("--texts", type=int, default=100)
    parser.add_argument("--attributes", type=int, default=100_000)
    parser.add_argument("--times", type=int, default=20)
    parser.add_argument("--core", type=int)
    parser.add_argument("--only", choices=("instructions", "time"))
    given = parser.parse_args()
    for part, path, rows in (("instructions", given.library / "lib/librncv.a", instruction_rows), ("time", given.program, time_rows)):
        if given.only not in (None, part):
            continue
        if not path.exists():
            print(f"run.py: no {path}: programs/library/build.sh and programs/xml/build.sh build them", file=sys.stderr)
            return 2
        rows(given)
    return 0


if __name__ == "__main__":
    sys.exit(main())
