"""Hints of `rncv-xml` about further faults of a document (`--max-faults`): worked documents, and two faults that are planted into valid ones.

    python3 -B faults_test.py --count 2000     plants them into so many documents, and prints how many were told
"""
import argparse
import collections
import copy
import json
import pathlib
import random
import re
import subprocess
import tempfile
import unittest
from xml.sax.saxutils import escape, quoteattr

from testing import RNCV_XML, TOP, InFolder

BOOK = (pathlib.Path(__file__).resolve().parent / "messages.rnc").read_text(encoding="utf-8")
HEAD = "<head><title>t</title><author>a</author></head>"
CHAPTER = '<chapter id="c"><title>t</title><para>p</para></chapter>'
RECORDS = """
start = element records { attribute version { "1" }, record+ }
record = element record {
  attribute number { xsd:positiveInteger }, attribute kind { "plain" | "large" }?,
  element name { text }, element date { xsd:date }, (element amount { xsd:decimal } | element count { xsd:integer }),
  element tag { xsd:NMTOKEN }*, address?
}
address = element address { element street { text }, element town { text }, element zip { xsd:string { pattern = "[0-9]{5}" } }? }
"""
USUAL = 120  # documents with two faults in an ordinary run


LETTER = "\u00e9"
# Documents by the schema of a book, where `@` is a good head and `%` a good chapter, with what is told of each: the first fault, and hints.
WORKED = (
    ("<book>@%</book>", []),
    ("<book>@<chaptr/>%</book>", ["1:54: invalid: <chaptr> is not allowed here; expected <chapter>"]),
    # two elements, and each element alone
    ('<book>\n@\n<chapter id="c"><title>t</title><para><em/></para>\n<note/></chapter>\n</book>',
     ["3:39: invalid: <em> is not allowed here; expected <code>, <emph>, <link>, {urn:example:vocabulary}term or text",
      "4:1: hint: <note> ends too early: expected <level>, <para> or <size>"]),
    # an attribute hides no fault of the content, and the content none of an attribute
    ('<book lang="xx">\n%\n</book>', ['1:1: invalid: attribute lang of <book> is wrong ("xx"); expected "de", "en" or "fr"',
                                     "2:1: hint: <chapter> is not allowed here; expected <head>"]),
    ("<book>\n@%\n<appendix>t</appendix>\n<appendix Id='a'><para/>t</appendix></book>",
     ["3:1: invalid: <appendix> lacks attribute id",
      '3:11: hint: text is not allowed in <appendix> ("t"); expected <figure>, <list>, <note>, <para> or <table>',
      "4:1: hint: attribute Id is not allowed in <appendix>; expected id",
      '4:25: hint: text is not allowed in <appendix> ("t"); expected <figure>, <list>, <note>, <para> or <table>']),
    # what is behind the first fault in the same content is not told, and what is in another element is
    ("<book>\n@x\n<no/>%<appendix/></book>",
     ['2:48: invalid: text is not allowed in <book> ("x\\n"); expected <chapter>', "3:62: hint: <appendix> lacks attribute id"]),
    # in an element that the schema does not have, those that it has are judged
    ('<book>@\n<chaptr id="c" x="y">t<title>t</title><table columns="0"/><other/></chaptr>%</book>',
     ["2:1: invalid: <chaptr> is not allowed here; expected <chapter>",
      '2:39: hint: attribute columns of <table> is no xsd:positiveInteger ("0")',
      "2:39: hint: <table> ends too early: expected <row>"]),
    # an element that is not allowed where it is may be another one, so nothing is told of itself
    ("<book>@\n<appendix>t<para><em/></para></appendix>%</book>",
     ["2:1: invalid: <appendix> is not allowed here; expected <chapter>",
      "2:18: hint: <em> is not allowed here; expected <code>, <emph>, <link>, {urn:example:vocabulary}term or text"]),
    ('<book><head/>\n<chapter id="c"><title>t</title>\n<chapter><para/></chapter></chapter></book>',
     ["1:7: invalid: <head> ends too early: expected <title>",
      "3:1: hint: <chapter> is not allowed here; expected <figure>, <list>, <note>, <para> or <table>"]),
    # the places of the ends, and of texts behind blanks and references
    ('<book><head><title>t</title></head>\n<chapter id="c"> <!-- --> </chapter>\n<chapter id="d"><title>t</title>\n <?i?>&#120;y\n</chapter></book>',
     ["1:29: invalid: <head> ends too early: expected <author>", "2:27: hint: <chapter> ends too early: expected <title>",
      '4:7: hint: text is not allowed in <chapter> ("xy\\n"); expected <figure>, <list>, <note>, <para> or <table>']),
    # the text of an entity has the place of its reference
    ("<!DOCTYPE book [<!ENTITY e '<note/>'>]>\n<book lang='xx'>@\n<chapter id='c'><title>t</title>\n&e;</chapter></book>",
     ['2:1: invalid: attribute lang of <book> is wrong ("xx"); expected "de", "en" or "fr"',
      "4:1: hint: <note> ends too early: expected <level>, <para> or <size>"]),
    # prefixes are those around the element
    ("<p:x xmlns:p='u'/>", ["1:1: invalid: <p:x> is not allowed here; expected <book>"]),
    ("<book xmlns:v='urn:example:vocabulary' lang='xx'>@\n<chapter id='c'><title>t</title><para><em/></para></chapter></book>",
     ['1:1: invalid: attribute lang of <book> is wrong ("xx"); expected "de", "en" or "fr"',
      "2:39: hint: <em> is not allowed here; expected <code>, <emph>, <link>, <v:term> or text"]),
    # a long text is shown in part, and blanks beside elements are nothing
    ("<book lang='xx'>\n@" + " " * 700 + "%" + " " * 700 + LETTER * 700 + "%</book>",
     ['1:1: invalid: attribute lang of <book> is wrong ("xx"); expected "de", "en" or "fr"',
      f'2:1504: hint: text is not allowed in <book> ("{LETTER * 40}.."); expected <appendix> or <chapter>']),
)
# By schemas with elements of one name in several places.
PLACED = """
start = element a { (x | y)*, any? }
x = element x { element v { xsd:int } }
y = element y { element v { xsd:boolean } | element v { attribute n { xsd:int }, element v { empty } } }
any = element any { (attribute * { text } | text | element * { anything })* }
anything = (attribute * { text } | text | element * { anything })*
"""
IN_PLACES = (
    ("<a><b/>\n<x><v>1</v></x><y><v>true</v></y><any><x/><v z=''>t</v></any></a>", ["1:4: invalid: <b> is not allowed here; expected <any>, <x> or <y>"]),
    ("<a><b/>\n<x><v>true</v></x>\n<y><v>yes</v></y></a>",
     ["1:4: invalid: <b> is not allowed here; expected <any>, <x> or <y>", '2:7: hint: the text of <v> is no xsd:int ("true")',
      '3:7: hint: the text of <v> is no xsd:boolean ("yes")']),
    ("<a><b/>\n<y><v n='1'><v>1</v></v></y>\n<y><v n='x'><v/></v></y></a>",
     ["1:4: invalid: <b> is not allowed here; expected <any>, <x> or <y>", '2:16: hint: text is not allowed in <v> ("1"); expected the end of <v>',
      '3:4: hint: attribute n of <v> is no xsd:int ("x")']),
    # in an element that is not expected, each may be any of its name, and here any content is good
    ("<a><b><v>yes</v><x/></b></a>", ["1:4: invalid: <b> is not allowed here; expected <any>, <x> or <y>"]),
)


class Worked(InFolder):
    """Documents and what is told of them."""

    def told(self, schema, document, *words):
        self.write("h.rnc", schema)
        self.write("d.xml", document.replace("@", HEAD).replace("%", CHAPTER))
        out, status = self.judge(*words, "h.rnc", "d.xml")
        return [line.removeprefix("d.xml:") for line in out.splitlines()], status

    def test_documents(self):
        for schema, rows in ((BOOK, WORKED), (PLACED, IN_PLACES)):
            for document, wanted in rows:
                self.assertEqual(self.told(schema, document), (wanted, 1 if wanted else 0), document)
                self.assertEqual(self.told(schema, document, "--max-faults", "1"), (wanted[:1], 1 if wanted else 0), document)

    def test_most(self):
        document = "<book>@\n" + "<chapter/>\n" * 2000 + "</book>"
        for most in (1, 2, 3, 20, 1000):
            told, status = self.told(BOOK, document, f"--max-faults={most}")
            self.assertEqual((len(told), status), (most, 1))
            self.assertEqual([line.split(":")[0] for line in told], [str(2 + at // 2) for at in range(most)])
        self.assertEqual(len(self.told(BOOK, document)[0]), 20)
        for wrong in ("0", "1001", "x", "-1", "1x", "", "99999999999999999999"):
            self.assertEqual(self.run_in(RNCV_XML, f"--max-faults={wrong}", "s.rnc")[1].splitlines()[0],
                             f"rncv-xml: --max-faults wants a number from 1 to 1000, and not '{wrong}'")

    def test_the_first_ones_are_kept(self):
        """Elements in others end before these, and a fault of those that are around comes first."""
        document = "<book>\n<x/>@%" + "".join(f"\n<appendix id='a' x{at}=''><list>\n<item/></list></appendix>" for at in range(9)) + "</book>"
        told = [line.split(":")[0] for line in self.told(BOOK, document, "--max-faults", "5")[0]]
        self.assertEqual(told, ["2", "3", "4", "5", "6"])

    def test_verdicts_stay(self):
        for document, verdict in (("<book>@<chapter/>", 2), ("<book>@<chapter/><chapter/>&e;</book>", 2)):
            told, status = self.told(BOOK, document)
            self.assertEqual((len(told), status), (1, verdict))
        ids = "start = element a { element b { attribute id { xsd:ID } }* }"
        self.assertEqual(self.told(ids, '<a><b id="x"/><b id="x"/><b id="x"/></a>'), (['1:15: invalid: ID "x" is already at line 1'], 1))
        self.assertEqual(self.told(BOOK, "<book>@<chapter/>%<appendix/></book>", "--quiet"), ([], 1))

    def test_standard_input(self):
        self.write("h.rnc", BOOK)
        text = f"<book>{HEAD}<chapter/></book>".encode()
        first = "-:1:54: invalid: <chapter> lacks attribute id\n"
        both = first + "-:1:54: hint: <chapter> ends too early: expected <title>\n"
        self.assertEqual(self.judge("h.rnc", "-", given=text), (first, 1))
        self.write("d.xml", text)
        self.assertEqual(self.shell("rncv-xml h.rnc - < d.xml"), (both, 1))
        self.write("e.xml", b"line\n" + text)
        self.assertEqual(self.shell("{ read line; rncv-xml h.rnc -; } < e.xml"), (both, 1))
        self.assertEqual(self.shell("rncv-xml h.rnc <(cat d.xml)")[0].count("\n"), 1)

    def test_formats(self):
        document = '<book lang="xx">\n@%<appendix id="1"><em/></appendix></book>'
        wanted = [(1, 1, "attribute-value", "lang"), (2, 104, "attribute-value", "id"), (2, 121, "element-not-allowed", None)]
        answer = json.loads(self.told(BOOK, document, "--format", "json")[0][0])
        self.assertEqual([(each["line"], each["column"], each["reason"], each.get("attribute")) for each in (answer, *answer["hints"])], wanted)
        self.assertEqual((answer["hints"][0]["at"], answer["hints"][0]["name"], answer["hints"][0]["datatype"]), ("attribute", "id", "xsd:NCName"))
        self.assertEqual(answer["hints"][1]["message"], "hint: <em> is not allowed here; expected <figure>, <list>, <note>, <para> or <table>")
        self.assertNotIn("hints", json.loads(self.told(BOOK, "<book>%</book>", "--format", "json")[0][0]))
        results = json.loads("\n".join(self.told(BOOK, document, "--format", "sarif")[0]))["runs"][0]["results"]
        self.assertEqual([(each["ruleId"], each["level"], each["properties"]["reason"]) for each in results],
                         [("invalid", "error", wanted[0][2]), ("hint", "note", wanted[1][2]), ("hint", "note", wanted[2][2])])
        lines = self.told(BOOK, document, "--format", "github")[0]
        self.assertEqual([line.split("::")[1].split(" ")[0] for line in lines], ["error", "notice", "notice"])
        shown = self.told(BOOK, document, "--source")[0]
        self.assertEqual([line.strip() for line in shown[2::3]], ["^"] * 3)
        self.assertEqual(shown[8].index("^"), shown[7].index("<em"))

    def test_threads(self):
        for number in range(60):
            self.write(f"m{number}.xml", f"<book>{HEAD}{'<chapter/>' * (number % 7)}</book>")
        self.write("h.rnc", BOOK)
        names = [f"m{number}.xml" for number in range(60)]
        self.assertEqual(self.judge("-j", "7", "h.rnc", *names), self.judge("-j", "1", "h.rnc", *names))

    def test_large(self):
        """Many children, and elements in each other."""
        document = '<book lang="xx">@' + "%" * 60_000 + "\n<y/>" + "%" * 10 + "<appendix/></book>"
        told = self.told(BOOK, document)[0]
        self.assertEqual([line.split(" ", 1)[1] for line in told[1:]],
                         ["hint: <y> is not allowed here; expected <appendix> or <chapter>", "hint: <appendix> lacks attribute id"])
        document = "<book>@\n" + "%" * 40_000 + "\n{}\n%<appendix/></book>"
        self.assertEqual(self.told(BOOK, document.format("x"))[0], ['3:1: invalid: text is not allowed in <book> ("x\\n"); expected <appendix> or <chapter>',
                                                                    "4:57: hint: <appendix> lacks attribute id"])
        self.assertEqual(self.told(BOOK, document.format("<appendix/>"))[0], [
            "3:1: invalid: <appendix> lacks attribute id", "4:1: hint: <chapter> is not allowed here; expected <appendix>",
            "4:57: hint: <appendix> lacks attribute id"])
        deep = "start = a\na = element a { attribute x { xsd:int }, a? }"
        told = self.told(deep, "<a y=''>\n" + "<a x=''>\n" * 9000 + "</a>" * 9001)[0]
        self.assertEqual([line.split(":")[0] for line in told[:1]], ["1"])
        self.assertEqual(len(told), 20)

    def test_a_schema_that_is_too_large(self):
        """The schema for elements alone would break a limit: there are no hints."""
        names = " | ".join(f"element {'x' * 2000}{at} {{ attribute y {{ text }} }}" for at in range(300))
        schema = f"start = element a {{ ({names})* }}"
        told, status = self.told(schema, f"<a><b/><{'x' * 2000}1/></a>")
        self.assertEqual((len(told), status), (1, 1))


# ---- planted faults

class Element:
    """An element with a name that no other one of its document has."""

    def __init__(self, name, attributes=(), children=()):
        self.name, self.attributes, self.children, self.own = name, dict(attributes), list(children), None

    def elements(self):
        """Itself and all in it, in their order."""
        yield self
        for child in self.children:
            if isinstance(child, Element):
                yield from child.elements()

    def name_all(self):
        for number, element in enumerate(self.elements()):
            element.own = f"n{number}"
        return self

    def lines(self):
        """The element as XML, each tag of an element with elements in a line that ends with the element's own name."""
        attributes = "".join(f" {name}={quoteattr(value)}" for name, value in self.attributes.items())
        if not any(isinstance(child, Element) for child in self.children):
            text = escape("".join(self.children))
            yield (f"<{self.name}{attributes}>{text}</{self.name}>" if text else f"<{self.name}{attributes}/>") + f"<!--{self.own}-->"
            return
        yield f"<{self.name}{attributes}><!--{self.own}-->"
        for number, child in enumerate(self.children):
            yield from child.lines() if isinstance(child, Element) else [escape(child).replace("\n", " ") + f"<!--{self.own}t{number}-->"]
        yield f"</{self.name}><!--/{self.own}-->"

    def text(self):
        return "\n".join(self.lines()) + "\n"


def record(chance, number):
    children = [Element("name", (), [chance.choice(("Ada", "Bob", "Eve"))]), Element("date", (), ["2002-11-21"]),
                Element(*chance.choice((("amount", (), ["1.5"]), ("count", (), ["7"]))))]
    children += [Element("tag", (), ["x"]) for _ in range(chance.randrange(3))]
    if chance.random() < 0.5:
        parts = [Element("street", (), ["s"]), Element("town", (), ["t"]), Element("zip", (), ["12345"])]
        children.append(Element("address", (), parts[:chance.choice((2, 3))]))
    return Element("record", {"number": str(number), **({"kind": "plain"} if chance.random() < 0.5 else {})}, children)


def records(chance):
    return Element("records", {"version": "1"}, [record(chance, number + 1) for number in range(chance.randrange(3, 30))])


def para(chance):
    marks = [Element("emph", (), ["e"]), Element("link", {"href": "http://example.org/"}, ["l"]), Element("code", (), ["c"])]
    return Element("para", (), ["Some words, ", *chance.sample(marks, chance.randrange(3)), " and others."])


def block(chance):
    kind = chance.randrange(6)
    if kind == 0:
        return Element("list", {"kind": "plain"}, [Element("item", (), [para(chance)]) for _ in range(chance.randrange(1, 4))])
    if kind == 1:
        rows = [Element("row", (), [Element("cell", (), ["c"]) for _ in range(2)]) for _ in range(chance.randrange(1, 4))]
        return Element("table", {"columns": "2"}, rows)
    if kind == 2:
        return Element("figure", {"src": "a.png", "width": "4"}, [Element("caption", (), ["c"])])
    if kind == 3:
        return Element("note", {"since": "2002-11-21"}, [chance.choice((Element("size", (), ["1 2"]), Element("level", (), ["low"])))])
    return para(chance)


def book(chance):
    head = Element("head", (), [Element("title", (), ["t"]), Element("author", (), ["a"]), Element("date", (), ["2002-11-21"])])
    chapters = [Element("chapter", {"id": f"c{number}", "kind": "draft"},
                        [Element("title", (), ["t"]), *(block(chance) for _ in range(chance.randrange(1, 9)))])
                for number in range(chance.randrange(1, 6))]
    appendices = [Element("appendix", {"id": f"a{number}"}, [block(chance)]) for number in range(chance.randrange(3))]
    return Element("book", {"lang": "en"}, [head, *chapters, *appendices])


def plain(text):
    """A field of PYX without its escapes."""
    return re.sub(r"\\(.)", lambda found: {"n": "\n", "t": "\t"}.get(found[1], found[1]), text)


def example(name):
    """The document of an example."""
    around, last = Element("", (), []), None
    opened = [around]
    for line in (TOP / "examples" / name / "document.pyx").read_text(encoding="utf-8").splitlines():
        if line[0] == "(":
            last = Element(line[1:])
            opened[-1].children.append(last)
            opened.append(last)
        elif line[0] == "A":
            attribute, _, value = line[1:].partition(" ")
            opened[-1].attributes[attribute] = plain(value)
        elif line[0] == "-" and line.strip("-\\n\\t "):
            opened[-1].children.append(plain(line[1:]))
        elif line[0] == ")":
            opened.pop()
    return around.children[0]


SUBJECTS = {
    "records": (RECORDS, records),
    "book": (BOOK, book),
    "bibliography": (TOP / "examples/bibliography/bibliography.rnc", lambda chance: example("bibliography")),
}
# These are tried besides, by the option: schemas with elements of one name in several places, and with any element.
OTHERS = {
    "configuration": (TOP / "examples/configuration/server.rnc", lambda chance: example("configuration")),
    "invoices": (TOP / "examples/invoices/message.rnc", lambda chance: example("invoices")),
}


def misspelt(chance, name):
    """The name with a letter too few; with one more if it is short. The prefix stays."""
    prefix, _, local = name.rpartition(":")
    at = chance.randrange(len(local))
    return (prefix + ":" if prefix else "") + (local + "x" if len(local) < 3 else local[:at] + local[at + 1:])


KINDS = ("tag", "attribute left out", "attribute misspelt", "value", "left out", "twice", "swapped", "text")


class Fault:
    """A fault to plant: its kind, the element where it shows, and what else chance says of it. `own`: that element's own name."""

    def __init__(self, chance, root):
        self.kind, self.touched = chance.choice(KINDS), set()
        places = [each for each in root.elements() if self.suits(each)]
        self.number, self.own = chance.random(), chance.choice(places).own if places else None

    def suits(self, element):
        """Whether the element has what the fault changes."""
        if self.kind.startswith("attribute"):
            return bool(element.attributes)
        return self.kind in ("value", "text") or any(isinstance(child, Element) for child in element.children)

    def pick(self, items):
        return items[int(self.number * len(items))] if items else None

    def plant(self, root):
        """Changes the document. False: there is nothing to change."""
        chance = random.Random(self.number)
        element = next((each for each in root.elements() if each.own == self.own), None)
        if element is None:
            return False
        children = [at for at, child in enumerate(element.children) if isinstance(child, Element)]
        names = [name for name in element.attributes if not name.startswith("xmlns")]
        at, name = self.pick(children), self.pick(names)
        if self.kind.startswith("attribute"):
            return name is not None and self.change_attribute(chance, element, name)
        if self.kind == "value":
            if name is not None and chance.random() < 0.5:
                element.attributes[name] = "?!"
            elif not children:
                element.children = ["?!"]
            return True
        if self.kind == "text":
            element.children.insert(chance.randrange(len(element.children) + 1), "stray")
            return True
        return at is not None and self.change_children(chance, element, at)

    def change_attribute(self, chance, element, name):
        value = element.attributes.pop(name)
        if self.kind == "attribute misspelt":
            element.attributes[misspelt(chance, name)] = value
        return True

    def change_children(self, chance, element, at):
        child = element.children[at]
        self.touched = {each.own for each in child.elements()}
        if self.kind == "tag":
            child.name = misspelt(chance, child.name)
        elif self.kind == "left out":
            del element.children[at]
        elif self.kind == "twice":
            again = copy.deepcopy(child)
            for each in again.elements():
                each.own += "again"
            element.children.insert(at, again)
        elif at + 1 == len(element.children) or not isinstance(element.children[at + 1], Element):
            return False
        else:
            self.touched |= {each.own for each in element.children[at + 1].elements()}
            element.children[at:at + 2] = reversed(element.children[at:at + 2])
        return True

    def is_far_from(self, other):
        """Whether the two show in different elements, and none is in what the other has changed."""
        return self.own != other.own and self.own not in other.touched and other.own not in self.touched


def judged(schema, documents):
    """What is told of each document: nothing, or the element's own name in the line of each fault."""
    with tempfile.TemporaryDirectory() as folder:
        room = pathlib.Path(folder)
        for number, text in enumerate(documents):
            (room / f"{number}.xml").write_text(text, encoding="utf-8")
        if not isinstance(schema, pathlib.Path):
            (room / "s.rnc").write_text(schema, encoding="utf-8")
            schema = room / "s.rnc"
        (room / "list").write_text("".join(f"{number}.xml\n" for number in range(len(documents))), encoding="utf-8")
        out = subprocess.run([RNCV_XML, "--format", "json", "--files-from", "list", schema], cwd=room, capture_output=True, check=False).stdout
        told = []
        for text, line in zip(documents, out.decode("utf-8").splitlines()):
            answer, lines = json.loads(line), text.split("\n")
            faults = [] if answer["verdict"] == "valid" else [answer, *answer.get("hints", ())]
            told.append([(re.findall("<!--(.*?)-->", lines[fault["line"] - 1])[-1], fault["message"]) for fault in faults])
        return told


def with_faults(root, *faults):
    """The document with the faults; None: one cannot be planted."""
    changed = copy.deepcopy(root)
    return changed.text() if all([fault.plant(changed) for fault in faults]) else None


def single_faults(schema, roots, chance, each):
    """For each document faults that make it invalid, with the place of each."""
    tried = [(root, Fault(chance, root)) for root in roots for _ in range(each)]
    texts = [with_faults(root, fault) for root, fault in tried]
    planted = [(number, text) for number, text in enumerate(texts) if text is not None]
    told = judged(schema, [text for _, text in planted])
    found = {root: [] for root in roots}
    for (number, _), faults in zip(planted, told):
        if faults:
            found[tried[number][0]].append((tried[number][1], faults[0][0], len(faults)))
    return found


class Count:
    """How many documents with two faults there were, in how many both were told, and in how many a third one."""

    def __init__(self):
        self.all = self.both = self.third = self.single = self.second = 0
        self.kinds, self.missed, self.more = collections.Counter(), [], []


def count_pairs(name, wanted, seed, count):
    """Plants two faults into documents of a schema, and counts what is told."""
    schema, make = {**SUBJECTS, **OTHERS}[name]
    chance = random.Random(f"{name} {seed}")
    roots = [make(chance).name_all() for _ in range(max(3, wanted // 20))]
    assert not any(judged(schema, [root.text() for root in roots])), "a document without faults is not valid"
    pairs = []
    for root, faults in single_faults(schema, roots, chance, 40).items():
        count.single += len(faults)
        count.second += sum(told > 1 for _, _, told in faults)
        far = [(one, other) for at, one in enumerate(faults) for other in faults[:at] if one[0].is_far_from(other[0])]
        pairs += [(root, *pair) for pair in chance.sample(far, min(len(far), 30))]
    pairs = chance.sample(pairs, min(len(pairs), wanted))
    texts = [with_faults(root, one[0], other[0]) for root, one, other in pairs]
    pairs = [(pair, text) for pair, text in zip(pairs, texts) if text is not None]
    for (pair, text), told in zip(pairs, judged(schema, [text for _, text in pairs])):
        places = {place for place, _ in told}
        count.all += 1
        count.kinds.update((pair[1][0].kind, pair[2][0].kind))
        count.both += pair[1][1] in places and pair[2][1] in places
        count.third += len(told) > 2
        if not (pair[1][1] in places and pair[2][1] in places):
            count.missed.append((name, pair[1][0].kind, pair[2][0].kind, pair[1][1], pair[2][1], told, text))
        if len(told) > 2:
            count.more.append((name, pair[1][0].kind, pair[2][0].kind, pair[1][1], pair[2][1], told, text))


class Planted(unittest.TestCase):
    """Two faults far apart."""

    def test_both_are_told(self):
        for name in SUBJECTS:
            count = Count()
            count_pairs(name, USUAL // len(SUBJECTS), 1, count)
            self.assertGreaterEqual(count.all, USUAL // len(SUBJECTS) - 10, name)
            self.assertGreaterEqual(count.both, 0.95 * count.all, name)
            self.assertLessEqual(count.third, 0.05 * count.all, name)


def main(wanted, seed, shows):
    total = Count()
    for name in (*SUBJECTS, *OTHERS):
        count = Count()
        count_pairs(name, wanted // len(SUBJECTS), seed, count)
        print(f"{name}: {count.all} documents, both told {count.both}, a third one told {count.third}; "
              f"one fault: {count.single} documents, a second one told {count.second}")
        print("    planted: " + ", ".join(f"{kind} {number}" for kind, number in sorted(count.kinds.items())))
        if name in SUBJECTS:
            total.all, total.both, total.third = total.all + count.all, total.both + count.both, total.third + count.third
        for kind, rows in (("missed", count.missed), ("more", count.more)):
            for row in rows[:shows]:
                print(kind, *row[:5], *row[5], sep="\n    ")
    print(f"all: {total.all} documents, both told {100 * total.both / total.all:.1f}%, no third one {100 - 100 * total.third / total.all:.1f}%")


if __name__ == "__main__":
    parser = argparse.ArgumentParser()
    parser.add_argument("--count", type=int)
    parser.add_argument("--seed", type=int, default=0)
    parser.add_argument("--show", type=int, default=0)
    words, _ = parser.parse_known_args()
    main(words.count, words.seed, words.show) if words.count else unittest.main(verbosity=1)
