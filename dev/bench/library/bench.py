#!/usr/bin/env python3
"""Measures what the library takes for many short documents. It is no test, and no part of the gate.

    dev/bench/library/bench.py [LIBRARY] [--rncv PROGRAM] [--jing JAR] [--documents N] [--runs N]      (LIBRARY: the built librncv.so; else that of build)

The schema has some 8,000 lines and 300 elements, like one for books and articles. A generator with a seed makes it, and documents that are valid by
it. Printed are milliseconds, on the clock and of a processor: to compile the schema once; to judge N documents of about 1 KB by it, one after the
other; and to judge one of about 20 KB again and again. With PROGRAM, the built `rncv`, it also judges the first of the documents, one a run, for
comparison. The calls are those of the Python package (`programs/python`), so they take what the C library takes and a little more.

With --jing JAR, jing judges the same documents, as XML files, in one running Java machine: several rounds, so that the machine is warm. jing reads and
parses the files, and the library is handed PYX.
"""
import argparse
import os
import pathlib
import random
import statistics
import sys
import tempfile

sys.path.insert(0, str(pathlib.Path(__file__).resolve().parents[1]))
from measuring import TOP, Jing, Table, spent, took  # noqa: E402
from workloads import as_xml  # noqa: E402

SEED = 20_260_101
TOPICS, INLINES, BLOCKS, SECTIONS = 12, 84, 120, 84
WORDS = "the of a schema element and pattern name is in to which document value text for each one where line".split()
ATTRIBUTES = ("width", "align", "level", "link")
VALUES = ("small", "normal", "large", "left", "right", "none")


def choice(values):
    """A choice of texts."""
    return "(" + " | ".join(f'"{value}"' for value in values) + ")"


def class_of(kind, number):
    """The name of the class of inline, block or section elements that this one is in."""
    return f"{kind}.class.{number % TOPICS}"


class Grammar:
    """A schema of many elements, and documents for it."""

    def __init__(self, chance):
        self.chance = chance
        self.attributes = {}
        self.leaves = {}
        self.uses = {}
        self.lines = [
            "# A schema of sections, blocks and inline elements.",
            'default namespace = "http://example.org/ns/book"',
            "",
            "start = section.0",
            "",
        ]

    def write(self):
        """The text of the schema."""
        self.common()
        for number in range(INLINES):
            self.inline(number)
        for number in range(BLOCKS):
            self.block(number)
        for number in range(SECTIONS):
            self.section(number)
        for kind, count in (("inline", INLINES), ("block", BLOCKS), ("section", SECTIONS)):
            self.classes(kind, count)
        return "\n".join(self.lines) + "\n"

    def common(self):
        """The attributes that every element has."""
        self.lines += ["common.attributes =", "  attribute id { xsd:NCName }?,"]
        self.lines += [f"  attribute {name} {{ text }}?," for name in ("role", "condition", "revision", "version", "remap", "audience", "vendor")]
        self.lines += ['  attribute xml:lang { xsd:token }?', ""]

    def attribute_lines(self, name):
        """An element's own attributes. They are remembered for the documents."""
        found, lines = [], []
        for attribute in ATTRIBUTES[:1 + self.chance.randrange(len(ATTRIBUTES))]:
            kind = self.chance.randrange(4)
            body = ("text", 'xsd:integer { minInclusive = "0" }', choice(VALUES), "xsd:boolean")[kind]
            found.append((attribute, kind))
            lines += [f"# The attribute {attribute} of {name}.", f"{name}.attribute.{attribute} =", f"  attribute {attribute} {{ {body} }}?", ""]
        self.attributes[name] = found
        lines += [f"{name}.attributes =", "  common.attributes"]
        lines += [f"  & {name}.attribute.{attribute}" for attribute, _ in found]
        return lines

    def element(self, name, content):
        """The definitions of an element."""
        self.lines += [f"# The element {name}.", *self.attribute_lines(name), "", f"{name} =", f"  element {name} {{", f"    {name}.attributes,"]
        self.lines += [f"    {line}" for line in content] + ["  }", ""]

    def inline(self, number):
        if number % 5 == 0:
            self.leaves[f"inline.{number}"] = kind = number // 5 % 3
            self.element(f"inline.{number}", [("xsd:integer", "xsd:NMTOKEN", choice(VALUES))[kind]])
            return
        self.uses[f"inline.{number}"] = used = self.chance.sample(range(TOPICS), 3)
        self.element(f"inline.{number}", ["(text", *[f" | {class_of('inline', topic)}" for topic in used], ")*"])

    def block(self, number):
        self.uses[f"block.{number}"] = used = self.chance.sample(range(TOPICS), 5)
        inlines = [f" | {class_of('inline', topic)}" for topic in used[:4]]
        title = ["element title { common.attributes, text }?,"] if number % 2 else []
        blocks = [f", {class_of('block', used[4])}*"] if number % 3 == 0 else []
        self.element(f"block.{number}", [*title, "element content { (text", *inlines, ")* }", *blocks])

    def section(self, number):
        self.uses[f"section.{number}"] = used = self.chance.sample(range(TOPICS), 5)
        self.element(f"section.{number}", [
            "(element title { common.attributes, text } & element date { xsd:token }? & element author { text }*),",
            f"({class_of('block', used[0])} | {class_of('block', used[1])} | {class_of('block', used[2])})+,",
            f"({class_of('section', used[3])} | {class_of('section', used[4])})*",
        ])

    def classes(self, kind, count):
        for topic in range(TOPICS):
            members = [f"{kind}.{number}" for number in range(topic, count, TOPICS)]
            self.lines += [f"{class_of(kind, topic)} =", "  " + "\n  | ".join(members), ""]

    def member(self, kind, topic):
        """An element of a class."""
        count = {"inline": INLINES, "block": BLOCKS, "section": SECTIONS}[kind]
        return f"{kind}.{self.chance.choice(range(topic, count, TOPICS))}"

    def document(self, size):
        """A valid document of about this many bytes."""
        self.out, self.size, self.target = [], 0, size
        self.put("(section.0", "Axmlns http://example.org/ns/book")
        self.section_body("section.0", 0)
        return "".join(self.out).encode()

    def put(self, *lines):
        for line in lines:
            self.out.append(line + "\n")
            self.size += len(line) + 1

    def tag(self, name):
        """A start tag with some of its attributes."""
        self.put(f"({name}")
        self.own_attributes(name)

    def own_attributes(self, name):
        if self.chance.randrange(3) == 0:
            self.put(f"Aid n{self.chance.randrange(10_000)}")
        for attribute, kind in self.attributes[name]:
            if self.chance.randrange(3) == 0:
                value = (self.words(2), str(self.chance.randrange(900)), self.chance.choice(VALUES), self.chance.choice(("true", "0")))[kind]
                self.put(f"A{attribute} {value}")

    def words(self, count):
        return " ".join(self.chance.choice(WORDS) for _ in range(count))

    def section_body(self, name, depth):
        """What is in a section after its tag's name, and its end."""
        self.own_attributes(name)
        parts = [("(title", f"-{self.words(4)}", ")title")] + [("(author", f"-{self.words(2)}", ")author")] * self.chance.randrange(3)
        self.chance.shuffle(parts)
        for part in parts:
            self.put(*part)
        used = self.uses[name]
        while True:
            self.block_element(self.member("block", self.chance.choice(used[:3])), 0)
            if self.size >= self.target or self.chance.randrange(6) == 0:
                break
        while self.size < self.target and depth < 8:
            inner = self.member("section", self.chance.choice(used[3:]))
            self.put(f"({inner}")
            self.section_body(inner, depth + 1)
        self.put(f"){name}")

    def block_element(self, name, depth):
        self.tag(name)
        number, used = int(name.split(".")[1]), self.uses[name]
        if number % 2 and self.chance.randrange(2):
            self.put("(title", f"-{self.words(3)}", ")title")
        self.put("(content", f"-{self.words(5)}")
        for _ in range(self.chance.randrange(3)):
            self.inline_element(self.member("inline", self.chance.choice(used[:4])), 0)
            self.put(f"-{self.words(6)}")
        self.put(")content")
        while number % 3 == 0 and depth < 3 and self.chance.randrange(2):
            self.block_element(self.member("block", used[4]), depth + 1)
        self.put(f"){name}")

    def inline_element(self, name, depth):
        self.tag(name)
        if name in self.leaves:
            self.put("-" + ("17", "name-17", "small")[self.leaves[name]])
        else:
            self.put(f"-{self.words(2)}")
            if depth < 2 and self.chance.randrange(3) == 0:
                self.inline_element(self.member("inline", self.chance.choice(self.uses[name])), depth + 1)
        self.put(f"){name}")


def judged(validator, documents):
    """Judges the documents. All of them are valid."""
    for document in documents:
        if not validator.validate(document):
            sys.exit(f"bench.py: a document is {validator.validate(document)}")


def program_runs(program, schema, documents):
    """The milliseconds on the clock and of a processor of all runs of the program, one run for each document."""
    with tempfile.TemporaryDirectory(prefix="rncv-bench-") as room:
        path = pathlib.Path(room, "s.rnc")
        path.write_bytes(schema)
        runs = [took([program, "valid", path], pieces=[document], has_memory=False) for document in documents]
    wrong = next((run for run in runs if run.printed != "valid"), None)
    if wrong:
        sys.exit(f"bench.py: the program answers {wrong.printed}")
    return sum(run.clock for run in runs), sum(run.processor for run in runs)


def jing_rows(table, jar, schema, documents, large):
    """The rows for jing: one loop over all documents, and one over the large one."""
    with tempfile.TemporaryDirectory(prefix="rncv-bench-") as room:
        folder = pathlib.Path(room)
        jing = Jing(folder, jar)
        if not jing.classes:
            sys.exit("bench.py: no javac")
        (folder / "s.rnc").write_bytes(schema)
        for at, document in enumerate([*documents, large]):
            (folder / f"{at}.xml").write_text(as_xml(document.decode()), encoding="utf-8")
        names = [folder / f"{at}.xml" for at in range(len(documents) + 1)]
        loop = jing.loop(folder / "s.rnc", names[:-1], rounds=9)
        table.row("jing: all documents, in a machine that begins", f"{loop.firsts[0]:.2f}", "")
        table.row("jing: all documents again (least of 9 rounds)", f"{min(loop.laters):.2f}", "")
        loop = jing.loop(folder / "s.rnc", names[-1:], rounds=1_999)
        table.row(f"jing: the document of {len(large):,} bytes, first", f"{loop.firsts[0]:.2f}", "")
        table.row("jing: the same, again (median of the last 200)", f"{statistics.median(loop.laters[-200:]):.2f}", "")


def main():
    words = argparse.ArgumentParser(description=__doc__, formatter_class=argparse.RawDescriptionHelpFormatter)
    words.add_argument("library", type=pathlib.Path, nargs="?", default=TOP / "build/library/lib/librncv.so")
    words.add_argument("--rncv", metavar="PROGRAM", type=pathlib.Path)
    words.add_argument("--jing", metavar="JAR")
    words.add_argument("--documents", type=int, default=2_000)
    words.add_argument("--runs", type=int, default=20)
    words.add_argument("--write", metavar="FOLDER", type=pathlib.Path, help="write the schema and the documents there too")
    asked = words.parse_args()

    os.environ["RNCV_LIBRARY"] = str(asked.library.resolve())
    sys.path.insert(0, str(TOP / "programs/python"))
    import rncv

    grammar = Grammar(random.Random(SEED))
    schema = grammar.write().encode()
    documents = [grammar.document(800) for _ in range(asked.documents)]
    large = grammar.document(20_000)
    if asked.write:
        asked.write.mkdir(parents=True, exist_ok=True)
        for name, data in [("s.rnc", schema), ("large.pyx", large), *((f"{at}.pyx", data) for at, data in enumerate(documents[:20]))]:
            (asked.write / name).write_bytes(data)
    total = sum(map(len, documents))
    elements = schema.count(b"# The element ")
    print(f"The schema: {schema.count(10):,} lines, {len(schema):,} bytes, {elements} elements.")
    print(f"The documents: {len(documents):,} of {total // len(documents):,} bytes on average, and one of {len(large):,} bytes.\n")
    table = Table("", "Milliseconds on the clock", "of a processor")

    def report(what, clock, processor):
        table.row(what, f"{clock:.2f}", f"{processor:.2f}")

    validator, *times = spent(lambda: rncv.compile({"s.rnc": schema}))
    report("the schema, compiled", *times)
    report("the first document", *spent(lambda: judged(validator, documents[:1]))[1:])
    report(f"the other {len(documents) - 1:,} documents, each once", *spent(lambda: judged(validator, documents[1:]))[1:])
    report("all of them again", *spent(lambda: judged(validator, documents))[1:])
    report(f"the document of {len(large):,} bytes, first", *spent(lambda: judged(validator, [large]))[1:])
    again = [spent(lambda: judged(validator, [large]))[1:] for _ in range(200)]
    report("the same, again (median of 200)", *(statistics.median(column) for column in zip(*again)))
    other, *times = spent(validator.share)
    report("a second validator by the same schema", *times)
    report(f"the document of {len(large):,} bytes, first by this one", *spent(lambda: judged(other, [large]))[1:])
    if asked.rncv:
        runs = documents[:asked.runs]
        report(f"{len(runs)} runs of the program, one a document", *program_runs(str(asked.rncv.resolve()), schema, runs))
    if asked.jing:
        jing_rows(table, asked.jing, schema, documents, large)


if __name__ == "__main__":
    main()
