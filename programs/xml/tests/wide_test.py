"""Tests of tags with many attributes, of which libxml2 gets some alone. A build that leaves out all but the first is compared with one that leaves out none."""
import os
import pathlib
import random
import tempfile
import unittest

from shortening_test import build
from testing import InFolder, processor_seconds

DOCUMENTS = int(os.environ.get("RNCV_XML_WIDE", "150"))
ENTITIES = "<!ENTITY e 'v &#38;#10; &#34;&f;'><!ENTITY f 'w&#9;'><!ENTITY tag '&#60;a/>'><!ENTITY loop '&loop;'>"


class Wide:
    """Documents with wide tags, some of them malformed."""

    def __init__(self, seed):
        self.chance = random.Random(seed)
        self.next = 0
        self.wrong = 0.002 if self.chance.random() < 0.4 else 0

    def is_wrong(self):
        return self.chance.random() < self.wrong

    def name(self):
        self.next += 1
        prefix = self.chance.choice(("", "", "", "p:", "q:", "xml:")) if not self.is_wrong() else self.chance.choice(("none:", "p:q:", ":", "-"))
        number = self.next if not self.is_wrong() else self.chance.randrange(1, self.next + 1)
        return f"{prefix}{self.chance.choice('ab' + chr(0x3042))}{number}{'x' * self.chance.choice((0, 0, 0, 3, 40))}"

    def value(self):
        pieces = ("x", "\u3042", " ", "\n\t", "&#10;", "&#x3042;", "&lt;", "&amp;", "&e;", "&f;", ">", "'", "{left-out:", "&#32; ", "&quot;")
        pieces += ("&#133;", "\u0085", "\x7f", "\u0080", "&#127;")
        wrong = ("<", "&", "&none;", "&tag;", "&loop;", "&#1;", "&#0;", "&e", "\"", "\x7f", "\u0081")
        text = "".join(self.chance.choice(pieces) for _ in range(self.chance.choice((0, 1, 1, 3)))) * self.chance.choice((1, 1, 1, 1, 200))
        return text + (self.chance.choice(wrong) if self.is_wrong() else "")

    def blanks(self):
        return self.chance.choice((" ", " ", " ", "\n", "  \t", " " * 300)) if not self.is_wrong() else ""

    def attribute(self):
        if self.chance.random() < 0.02:
            self.next += 1
            return f"{self.blanks()}xmlns:n{self.next}='u{self.next}'"
        around = self.chance.choice(("=", "=", "=", " =", "= ", "\n=\n")) if not self.is_wrong() else self.chance.choice(("", "==", " "))
        value = self.value()
        quote = '"' if "'" in value or self.chance.random() < 0.5 else "'"
        return f"{self.blanks()}{self.name()}{around}{quote}{value}{quote}"

    def tag(self, end):
        count = self.chance.choice((3, 150, 400, 1_200))
        return f"<r{''.join(self.attribute() for _ in range(count))}{self.chance.choice(('', ' '))}{end}"

    def document(self):
        names = ("a1", "p:a2", "b700", "c", "d", "xml:space")
        kinds = ("CDATA 'd'", "NMTOKENS ' d  e '", "NMTOKENS #IMPLIED")
        declared = "".join(f"<!ATTLIST r {name} {self.chance.choice(kinds)}>" for name in names if self.chance.random() < 0.3)
        root = f"<s xmlns:p='u' xmlns:q='{self.chance.choice('vu')}'>x{self.tag('>')}{self.tag('/>')}</r>{self.tag('/>')}</s>"
        return f"<!DOCTYPE s [{ENTITIES}{declared}]>\n{root}<?p?>"


class WideTags(InFolder):
    """The two builds."""

    @classmethod
    def setUpClass(cls):
        cls.builds = tempfile.TemporaryDirectory()
        folder = pathlib.Path(cls.builds.name)
        cls.wide = build(folder / "wide", "USUAL_WIDTH=5", "MOST_AHEAD=70000")
        cls.whole = build(folder / "whole", "USUAL_WIDTH=1000000000")

    @classmethod
    def tearDownClass(cls):
        cls.builds.cleanup()

    def converted(self, program, document):
        """The lines, in the order of the names where they are attributes, with their places; or the fault."""
        self.write("d.xml", document)
        out, reported, status = self.run_in(program, "--lines", "places", "d.xml")
        if status != 0:
            return [], reported.strip("\n").split("\n")[-1].split(": ", 1)[1][:40], status
        lines = [[]]
        for line, place in zip(out.split("\n"), (self.folder / "places").read_text().split("\n")):
            lines += [] if line.startswith("A") else [[]]
            lines[-1].append((line, place))
        return [sorted(line) for line in lines], reported, 0

    def assert_equal(self, document, what):
        """Checks that both give the same. Returns whether the document is well-formed."""
        found, wanted = self.converted(self.wide, document), self.converted(self.whole, document)
        self.assert_same(found, wanted, what)
        return wanted[-1] == 0

    def test_it_gives_the_same(self):
        good = sum(self.assert_equal(Wide(seed).document(), seed) for seed in range(DOCUMENTS))
        self.assertGreater(good, DOCUMENTS // 6)

    def judged(self, tag, subset="", *options):
        """What `rncv-xml` prints about a tag that has 2,000 other attributes before these."""
        others = " ".join(f'a{at}="{at}"' for at in range(2_000))
        self.write("wide.rnc", 'start = any any = element * { attribute * - d { text }*, attribute d { "x" | xsd:string "y \\x{A}" | "y z" }?, any* }')
        self.write("wide.xml", f'<!DOCTYPE r [{subset}]>\n<r xmlns:p="u" {others} {tag}/>')
        return self.judge(*options, "wide.rnc", "wide.xml")

    def test_what_is_judged(self):
        for tag, subset in (("d='x'", ""), ("d='&e;&#10;'", "<!ENTITY e 'y '>"), ("p:d='w' e=''", ""), ("d='&e;'", "<!ENTITY e 'x'>"),
                            ("d=' y  z '", "<!ATTLIST r d NMTOKENS 'x'>"), ("d='x'", "<!ATTLIST r d CDATA 'w'>"), ("p:a='' xmlns:q='v' q:a=''", ""),
                            ("d='&none;x'", "<!ENTITY % p ''> %p;")):
            self.assertEqual(self.judged(tag, subset), ("", 0), tag)
        for tag, subset in (("d='w'", ""), ("d='y \n'", ""), ("e=''", "<!ATTLIST r d CDATA 'w'>"), ("d='&e;'", "<!ENTITY e 'y\n'>")):
            self.assertEqual(self.judged(tag, subset)[1], 1, tag)

    def test_names(self):
        for tag, words in (("a7=''", "the attribute a7 is there twice"), ("b='' b=''", "the attribute b is there twice"),
                           ("p:b='' p:b=''", "the attribute p:b is there twice"), ("p:b='' q:b='' xmlns:q='u'", "'p:b' and 'q:b' have one name (NS 6.3)"),
                           ("q:b=''", "the prefix 'q' is not declared (NS 5)"), ("p:b:c=''", "'p:b:c' is no QName")):
            out, status = self.judged(tag)
            self.assertEqual(status, 2)
            self.assertIn(words, out, tag)
        self.assertIn("have one name", self.judged("p:b=''", "<!ATTLIST r q:b CDATA '' xmlns:q CDATA 'u'>")[0])

    def test_the_limit(self):
        limit = "over a limit of this program: a tag has more than 1,500 attributes and declarations (--max-attributes)\n"
        self.assertEqual(self.judged("", "", "--max-attributes", "1500"), (f"wide.xml:2:1: {limit}", 2))

    def test_time_is_linear(self):
        """libxml2 would take minutes for them."""
        self.write("any.rnc", "start = element r { attribute * { text }* }")
        self.write("d.xml", "<r " + " ".join(f'a{at}=""' for at in range(200_000)) + "/>")
        before = processor_seconds()
        self.assertEqual(self.judge("--max-attributes", "200000", "any.rnc", "d.xml"), ("", 0))
        self.assertLess(processor_seconds() - before, 6)


if __name__ == "__main__":
    unittest.main()
