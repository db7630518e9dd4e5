"""Tests of long comments, instructions and CDATA sections, which libxml2 gets in parts, and of a build that cuts and nests as soon as it can."""
import os
import pathlib
import random
import re
import subprocess
import tempfile
import unittest

import nesting_test
from testing import HERE, RNCV_XML, XML2PYX, InFolder, peak_of

DOCUMENTS = int(os.environ.get("RNCV_XML_SECTIONS", "60"))
ANY = "any = element * { (attribute * { text } | text | any)* } start = any"
# How sections begin and end, and texts of them that are, or are nearly, of the bytes by which they end.
KINDS = (("<!--", "-->", ("- ", "-\u3042", "->", "-<!")), ("<![CDATA[", "]]>", ("]", "] ", "]>", "]]\u3042", "] ]>")), ("<?p ", "?>", ("?", "? ", "??\u3042")))


class Sections:
    """Documents of sections, many of them with what ends or begins sections."""

    def __init__(self, seed):
        self.chance = random.Random(seed)

    def body(self, *pieces):
        length = self.chance.choice((0, 1, 5, 300, 4000, 9000))
        pieces = self.chance.choice(pieces)
        return "".join(self.chance.choice(pieces) for _ in range(length))

    def data(self):
        markup = ("<b>", "</b>", "<!--", "-->", "<?", "?>", "<![CDATA[")
        text = self.body("]", "] ", "x]", ("x", "]", "]]", ">"), ("]", "]", "]", ">"), '<a b="1">&amp;| ', "\u3042]>x", "\n ", markup)
        return f"<![CDATA[{text.replace(']]>', '] ]>')}{']' * self.chance.randrange(4)}]]>"

    def comment(self):
        text = self.body("- ", "x-", ("- ", "->", "-\u3042"), "x", "\u3042-", "<!|>", "?> ", "\"'", ("<!-", "->", "]]>", "<b>"))
        while "--" in text and self.chance.random() < 0.99:
            text = text.replace("--", "- ")
        return f"<!--{text} -->"

    def instruction(self):
        return f"<?p {self.body('?', '? ', 'x?>', 'x')[:200].replace('?>', '? ')}?>"

    def section(self):
        return self.chance.choice((self.data, self.comment, self.comment, self.instruction))()

    def document(self):
        declared = f"<!DOCTYPE a [{self.comment()}<!ENTITY e 'v'>{self.instruction()}<!ELEMENT a ANY>]>" if self.chance.random() < 0.3 else ""
        content = "".join(self.chance.choice(("", " ", "x", "\n", "<b/>", "&lt;", "text" * 900)) + self.section() for _ in range(self.chance.randrange(6)))
        return f"{declared}<a>{content}{self.chance.choice(('</a>', '</a>', '</a>', '</b>', '', ']]></a>', '<![CDATA[x', '<!--'))}"


class Variant(InFolder):
    """A build of `xml2pyx` that cuts sections at each read, and puts all entities into one another."""

    @classmethod
    def setUpClass(cls):
        flags = {"CFLAGS": "-O1 -DUNCUT_BYTES=1 -DLEVELS_OF_LIBXML2=0", "ONLY": "xml2pyx"}
        cls.builds = tempfile.TemporaryDirectory()
        cls.program = pathlib.Path(cls.builds.name) / "a variant/xml2pyx"
        subprocess.run([HERE / "build.sh", cls.program.parent], capture_output=True, text=True, check=True, env={**os.environ, **flags})

    @classmethod
    def tearDownClass(cls):
        cls.builds.cleanup()

    def converted(self, program, data):
        """The PYX with each text on the line before, the places of its lines if all texts fit on one, what is reported, and the status."""
        self.write("d.xml", data)
        out, reported, status = self.run_in(program, "--lines", "places", "d.xml")
        places = (self.folder / "places").read_text() if len(data) < 20_000 else ""
        return (out.replace("\n-", ""), places, "", 0) if status == 0 else ("", "", reported, status)

    def test_it_gives_the_same(self):
        good = 0
        for seed in range(DOCUMENTS):
            document = Sections(seed).document()
            wanted = self.converted(XML2PYX, document)
            self.assert_same(self.converted(self.program, document), wanted, seed)
            good += wanted[-1] == 0
        self.assertGreater(good, DOCUMENTS // 5)
        for seed in range(DOCUMENTS):
            document = nesting_test.System(seed).document(0)
            self.assertEqual(self.converted(self.program, document)[0], self.converted(XML2PYX, document)[0], seed)

    def compared(self, document):
        """Compares all but instructions, and what is quoted of sections: they are in parts. Returns whether the document is well-formed."""
        both = []
        for program in (self.program, XML2PYX):
            out, places, reported, status = self.converted(program, document)
            both.append((re.sub("(?m)^[?].*", "", out), places, re.split(": <!--|: PI", reported)[0], status))
        self.assert_same(*both, document[:40])
        return status == 0

    def test_sections_of_the_bytes_of_their_ends(self):
        for begin, end, pieces in KINDS:
            for piece in pieces:
                for before in ("", "x", "xy"):
                    section = f"{begin}{before}{piece * 70_000}{'x' * (end[0] == '-')}{end}"
                    self.assertTrue(self.compared(f"<a>{section}<b/></a>"), section[:20])
                    self.assertFalse(self.compared(f"<a>{section}<b></a>"), section[:20])
                    self.assertFalse(self.compared(f"<a>{section[:-1]}"), section[:20])

    def test_ends_at_each_place(self):
        for begin, end, pieces in KINDS:
            for piece in pieces[:2]:
                text = piece * 9_000
                sections = (f"{begin}{text[:length]}{'x' * (end[0] == '-')}{end}" for length in range(3_900, 8_100))
                self.assertTrue(self.compared(f"<a>{''.join(sections)}</a>"), piece)

    def test_faults_in_comments(self):
        chance = random.Random(1)
        for _ in range(DOCUMENTS):
            place = chance.randrange(4_000, 60_000)
            self.assertFalse(self.compared(f"<a><!--{'- ' * (place // 2)}{chance.choice(('--', '---', '---->', ' --- '))}{'- ' * 9_000}x--></a>"), place)


class Long(InFolder):
    """Sections of megabytes."""

    def setUp(self):
        super().setUp()
        if not RNCV_XML.exists():
            self.skipTest("no rncv-xml")
        self.write("any.rnc", ANY)

    def judged(self, document, schema="any.rnc"):
        self.write("d.xml", document)
        return self.judge("--all", schema, "d.xml")

    def test_the_text_of_a_section(self):
        for piece, count in (("abc] <x>&| ", 300_000), ("\u3042]>", 700_000), ("]", 2_100_000), ("\n<?x -->", 400_000)):
            length = len(piece) * count
            expression = "".join(f"\\{letter}" if letter in "]|?-" else "&#10;" if letter == "\n" else letter for letter in piece).replace("&#10;", "\\n")
            self.write("s.rnc", f"element a {{ element b {{ empty }}, element c {{ xsd:string {{ length = '{length}' pattern = '({expression})*' }} }} }}")
            for document, verdict in ((f"<a><b/><c><![CDATA[{piece * count}]]></c></a>", ("d.xml: valid\n", 0)),
                                      (f"<a><b/><c><![CDATA[{piece * (count - 1)}]]></c></a>", 1), (f"<a><b/><c><![CDATA[{piece * count}x]]></c></a>", 1)):
                with self.subTest(piece=piece):
                    found = self.judged(document, "s.rnc")
                    self.assertEqual(found if verdict != 1 else found[1], verdict)

    def test_places_behind_long_sections(self):
        for section in (f"<![CDATA[{'x] ' * 900_000}\n]]>", f"<!--{'x- ' * 900_000}\n-->", f"<?p {'x? ' * 900_000}\n?>"):
            self.write("s.rnc", "element a { text, element b { empty } }")
            self.assertRegex(self.judged(f"<a>{section}   <c/></a>", "s.rnc")[0], "^d.xml:2:\\d+: invalid: <c> is not allowed")
            column = int(self.judged(f"<a>{section}   <c/></a>", "s.rnc")[0].split(":")[2])
            self.assertEqual(column, len(section.split("\n")[1]) + 4)

    def test_faults_in_long_sections(self):
        long = "x " * 1_200_000
        for document in (f"<a><![CDATA[{long}</a>", f"<a><!--{long}</a>", f"<a><?p {long}</a>", f"<a><!--{long}--{long}--></a>", f"<a><!--{long}---></a>",
                         f"<!DOCTYPE a [<!--{long}]><a/>", f"<a><![CDATA[{long}]]>]]></a>"):
            self.assertEqual(self.judged(document)[1], 2)
        for document in (f"<!DOCTYPE a [<!--{'<!ENTITY | ' * 200_000}-->]><a/>", f"<a><![CDATA[{'<b a=1 ' * 400_000}]]></a>",
                         f"<!--{long}--><a/><!--{long}-->"):
            self.assertEqual(self.judged(document), ("d.xml: valid\n", 0))

    def test_the_end_of_a_section_in_text(self):
        """libxml2 gets some 4,000 bytes at once, and looks for the end in these."""
        names = []
        for end in ("]]>", "]]]]>"):
            for length in (*range(3_960, 4_000), *range(7_960, 8_000)):
                names.append(self.write(f"{len(end)}-{length}.xml", f"<a>{'x' * length}{end}{'x' * 5_000}</a>").name)
        out, status = self.judge("--all", "any.rnc", *names)
        self.assertEqual(status, 2)
        self.assertEqual([line for line in out.splitlines() if "Sequence ']]>' not allowed in content" not in line], [])

    def test_a_long_document_type(self):
        long = 2_000_000
        for document, wanted in ((f"<!DOCTYPE{' ' * long}a><a/>", ("d.xml: valid\n", 0)), (f"<!DOCTYPE\na PUBLIC '{'x' * long}' ''><a/>", ("d.xml: valid\n", 0)),
                                 (f"<!DOCTYPEa{' ' * long}><a/>", ("d.xml:1:1: malformed XML: no blank after <!DOCTYPE\n", 2))):
            self.assert_same(self.judged(document), wanted)

    def test_sections_of_the_bytes_of_their_ends(self):
        """They are cut too: no more is held of them than of others."""
        for begin, end, pieces in KINDS:
            for piece in pieces:
                self.write("d.xml", f"<a>{begin}{piece * (20_000_000 // len(piece.encode()))}{'x' * (end[0] == '-')}{end}</a>")
                self.assert_same(self.judge("--all", "--max-memory", "8M", "any.rnc", "d.xml"), ("d.xml: valid\n", 0), begin + piece)

    def test_memory(self):
        self.without_sanitizers(RNCV_XML)
        for begin, end in (("<![CDATA[", "]]>"), ("<!--", "-->"), ("<?p ", "?>")):
            self.write("d.xml", f"<a>{begin}{'text ' * 8_000_000}{end}</a>")
            peak, status = peak_of((RNCV_XML, self.folder / "any.rnc", self.folder / "d.xml"))
            self.assertEqual(status, 0)
            self.assertLess(peak, 16_384)


if __name__ == "__main__":
    unittest.main()
