"""Tests of `xml2pyx` and `rncv-xml` on attributes that are declared with many choices, of which libxml2 gets few.

    RNCV_XML_CHOICES=5000 python3 -B choices_test.py     compares so many random documents with what a build says that leaves no choices out

RNCV_XML_TIGHT and RNCV_XML_WHOLE may name the two builds of `xml2pyx` that it compares, so that one of them can have sanitizers.
"""
import os
import pathlib
import random
import re
import tempfile
import unittest

from shortening_test import ANY, build
from testing import RNCV_XML, XML2PYX, InFolder, peak_of, processor_seconds

DOCUMENTS = int(os.environ.get("RNCV_XML_CHOICES", "100"))
CUT = 4000  # bytes that libxml2 gets at once
KEPT = 300  # bytes of a list that it always gets
COUNTS = (1, 2, 30, 70, 150, 400, 1_200)
# What breaks a list if it is put somewhere.
FAULTS = ("||", "|)", ",", "(", "b(", '"', "'", "#", "\u00d7", "$", "/", "*", "?", ">", "<", "%", "%p;", "&", "&#65;", "&e;", "a b", ")", ";", "=", "\u037e",
          "--", "<!-- -->", "\U000f0000", "[", "]", "]>", "\x7f", "\u2028", "")
FIRST = "ab_\u3042:\u00e9\U00010000"  # characters at the beginning of a name
OTHER = "-.71\u00b7\u0300"  # others, which may begin a choice that is no name
RESTS = ("", "1", "b", ":c", ":::", "\u3042\u00e9", "\U00010000x", "-\u0300.")


class Lists:
    """Documents with lists of choices, some of them malformed."""

    def __init__(self, seed):
        self.chance = random.Random(seed)

    def blank(self):
        return self.chance.choice(("", "", "", "", " ", "\n", " \t", "\n  " * 40, " " * self.chance.randrange(700)))

    def choice(self, is_name):
        times = self.chance.choice((1, 1, 1, 1, 9, self.chance.randrange(400)))
        return self.chance.choice(FIRST if is_name else FIRST + OTHER) + self.chance.choice(RESTS) * times

    def list(self, is_name=False):
        several = [self.blank() + self.choice(is_name) + self.blank() for _ in range(self.chance.choice((1, 5, 60)))]
        count = self.chance.choice(COUNTS)
        choices = (several * (count // len(several) + 1))[:count]
        if self.chance.random() < 0.3:
            at = self.chance.randrange(len(choices))
            choices[at] = self.wrong(choices[at])
        return f"({'|'.join(choices)})"

    def wrong(self, text):
        at = self.chance.randrange(len(text) + 1)
        return text[:at] + self.chance.choice((*FAULTS, "1a")) + text[at:]

    def attribute(self):
        name = self.chance.choice(("a", "NOTATION", "b:c", "d\u3042", "CDATA"))
        is_notation = self.chance.random() < 0.3
        kind = f"NOTATION{self.blank()} {self.list(True)}" if is_notation else self.chance.choice((self.list(), self.list(), "CDATA", "NMTOKENS"))
        default = self.chance.choice(("#IMPLIED", "#REQUIRED", "'a|b)(c'", "#FIXED 'x  y'", "'NOTATION (x'", "#FIXED \"'(\"", '")\'"', "'a  >'", "'%'"))
        return f" {self.blank()}{name} {self.blank()}{kind} {self.blank()}{default}"

    def declaration(self):
        attributes = "".join(self.attribute() for _ in range(self.chance.choice((1, 1, 2, 5))))
        return self.chance.choice((f"<!ATTLIST r{attributes}{self.blank()}>",) * 6 + (
            f"<!-- <!ATTLIST r a ({'a|' * 200} -->", f"<?p <!ATTLIST r a ({'a|' * 200}' ?>", f"<!ENTITY e \"<!ATTLIST r a ({'a|' * 300}'\">", "%p;",
            f"<!ELEMENT r ({'|'.join('ab' * 300)})*>", "<!NOTATION n SYSTEM '<!ATTLIST r a ('>", f"<!ATTLIST r{self.blank()}>"))

    def document(self):
        declared = "".join(self.blank() + self.declaration() for _ in range(self.chance.choice((1, 2, 5))))
        entity = re.sub('[%&"]', "x", self.list())
        text = f"<!DOCTYPE r [<!ENTITY % p \"<!ATTLIST p a {entity} 'x  y'>\">{' ' * self.chance.randrange(CUT)}{declared}]>\n<r a=' b  c '>\n<p/>x</r>\n"
        text = text if self.chance.random() < 0.9 else text[:self.chance.randrange(len(text))]
        return text if self.chance.random() < 0.9 else text.replace("</r>", "</p>")


class Variant(InFolder):
    """A build of `xml2pyx` that takes no markup of more than 50,000 bytes, and one that leaves no choices out."""

    @classmethod
    def setUpClass(cls):
        cls.builds = tempfile.TemporaryDirectory()
        folder = pathlib.Path(cls.builds.name)
        cls.tight = os.environ.get("RNCV_XML_TIGHT") or build(folder / "tight", "LONGEST_HELD=20000", "MOST_HELD=50000", "LONGEST_ENTITY=5000")
        cls.whole = os.environ.get("RNCV_XML_WHOLE") or build(folder / "whole", "LONGEST_NAME=9000000", "LIST_KEPT=900000000")

    @classmethod
    def tearDownClass(cls):
        cls.builds.cleanup()

    def converted(self, program, document):
        self.write("d.xml", document)
        out, reported, status = self.run_in(program, "--lines", "places", "d.xml")
        return (out, (self.folder / "places").read_text(), "", 0) if status == 0 else ("", "", reported.splitlines()[-1][:100], status)

    def same(self, document, what):
        """Checks that both say the same. Returns whether the document is well-formed."""
        found, wanted = self.converted(self.tight, document), self.converted(self.whole, document)
        self.assert_same(found, wanted, what)
        return wanted[-1] == 0

    def test_random_documents(self):
        good = sum(self.same(Lists(seed).document(), seed) for seed in range(DOCUMENTS))
        self.assertGreater(good, DOCUMENTS // 5)
        self.assertGreater(DOCUMENTS - good, DOCUMENTS // 5)

    def test_faults(self):
        """Each fault is told at its place, and in the same words, wherever it is."""
        for kind in ("", "NOTATION "):
            for at, fault in enumerate(FAULTS):
                before = "\n".join(["|bc", "|\u3042 d", " |\U00010000:", "|c"][step % 4] for step in range((KEPT // 5, 2 * KEPT, CUT)[at % 3] + at))
                for place in ("a{}", "a{}|", "a {}", "a|{}", "a{}b", "a | {}c", "a{}\u3042"):
                    well = self.same(f"<!DOCTYPE r [<!ATTLIST r a {kind}(a{before}|{place.format(fault)}|d{before}) 'x'>]><r/>", (kind, fault, place))
                    self.assertFalse(well and fault != "", (kind, fault, place))

    def test_faults_in_each_part_of_a_list(self):
        """A fault is found in what libxml2 has got when choices are left out, and in what it gets before and behind these."""
        for at in (*range(KEPT - 270, KEPT + 10, 7), *range(KEPT, 2 * KEPT + 20, 31), *range(CUT - 60, CUT + 700, 97)):
            for fault in ("||", " b c ", ",", "\u00d7", "\u3042\u037e"):
                text = ("\u3042b|" * (at // 5 + 1))[:at // 5 * 3]
                self.assertFalse(self.same(f"<!DOCTYPE r [<!ATTLIST r a ({text}{fault}{'|c' * CUT}) 'x'>\n]><r/>", (at, fault)))

    def test_notations_are_names(self):
        for begin in "-.1\u00b7\u0300":
            for kind, good in (("NOTATION", False), ("", True), ("NOTATION\n", False)):
                for name in ("NOTATION", "a"):
                    for front in ("", "n NOTATION (n) #IMPLIED ", "n NOTATION (n) 'n' ", "NOTATION CDATA #FIXED 'n' "):
                        text = f"<!DOCTYPE r [<!ATTLIST r {front}{name} {kind} ({'b|' * CUT}{begin}) #IMPLIED>]><r/>"
                        self.assertEqual(self.same(text, (begin, kind, name)), good)

    def test_what_is_no_list(self):
        many = "a|" * CUT
        begun = f"<!ATTLIST r a ({many}"
        for text in (f"<!-- {begun} -->", f"<?p {begun}?>", f"<!ENTITY e '{begun}'>", f"<!ENTITY e \"{begun}'\">", f"<!ATTLIST r a CDATA '({many}'>",
                     f"<!ATTLIST r a CDATA \"'({many}\">", f"<!ATTLIST r a (b) 'NOTATION ({many}'>", f"<!ELEMENT r ({many}b)>",
                     f"<!NOTATION n SYSTEM '{begun}'>", f"<!ENTITY % p '{begun}'>", f"<!ATTLIST r a (b) #IMPLIED><!ELEMENT r ({many}b)*>"):
            for end in ("", "<!ATTLIST r b (c|) #IMPLIED>"):
                self.assertEqual(self.same(f"<!DOCTYPE r [{text}{end}]><r/>", text[:30]), end == "", text[:30])

    def test_it_holds_little(self):
        """Lists and choices of more than 50,000 bytes, which a build reads that lets libxml2 hold no more."""
        long, blanks, distinct = "ab:c" * 20_000, "\n \t" * 20_000, "|".join(f"n{at}" for at in range(15_000))
        for choices in (long, f"a{blanks}|{blanks}b", f"{blanks}a", f"a|b{blanks}", distinct, f"a|{long}|b", ":" * 60_000, "\U00010000\u3042" * 20_000,
                        "a|" * 30_000 + "b"):
            for kind in ("", "NOTATION"):
                for default in ("'b'", "#IMPLIED", f"'{'x' * 60_000}  y'", f"#FIXED '{'x' * 60_000}' {'c' * 60_000} NMTOKENS #IMPLIED"):
                    text = f"<!DOCTYPE r [<!ATTLIST r a {kind} ({choices}) {default} b (b) 'b'>]><r/>"
                    self.assertTrue(self.same(text, (choices[:10], kind, default[:10])))

    def test_the_rest_of_the_attribute(self):
        """What comes behind a list whose beginning is kept no more is shortened too."""
        for choices in ("a|" * 700_000 + "b", "a:" * 700_000):
            text = f"<!DOCTYPE r [<!ATTLIST r a ({choices}) '{'x' * 60_000}' {'c' * 60_000} NMTOKENS {' ' * 60_000} #IMPLIED>]><r {'c' * 60_000}=' d  e '/>"
            self.assertTrue(self.same(text, choices[:10]))

    def test_characters_of_several_bytes(self):
        """libxml2 gets a list up to any byte of a character before choices are left out."""
        for shift in range(8):
            for choice in ("\U00010000\u3042:", "\u3042|", "\u00e9:"):
                self.assertTrue(self.same(f"<!DOCTYPE r [<!ATTLIST r a ({'a' * shift}{choice * 12_000}b) 'c'>]><r/>", (shift, choice)))

    def test_entities(self):
        """Choices are also left out of parameter entities, long ones and others."""
        for count in (50, 1_000, 9_000):
            for end, good in ((")", True), ("|)", False), ("", False), (",b)", False), (" )", True), (" c)", False)):
                for middle in ("", '<!ENTITY &#37; q "<!ELEMENT b ANY>"> &#37;q; '):
                    text = f"<!ENTITY % p '{middle}<!ATTLIST r a ({'b|' * count}c{end} \"x  y\">{middle}<!ATTLIST r b NMTOKENS \" z \">'>"
                    self.assertEqual(self.same(f"<!DOCTYPE r [{text}%p;]>\n<r/>", (count, end)), good)
        text = "<!ENTITY % p '<!ATTLIST r a (" + "b|" * 1_000 + "c) \"\">'><!ENTITY e '%p;'>"  # the value of an entity has the text as it is
        self.write("d.dtd", f"{text}%p; %p;<!ENTITY f '%p;'>")
        answers = []
        for program in (self.tight, self.whole):
            self.write("d.xml", "<!DOCTYPE r SYSTEM 'd.dtd'><r><![CDATA[]]>x</r>")
            answers.append(self.run_in(program, "--dtd", "d.xml"))
        self.assertEqual(answers[0], answers[1])
        self.assertEqual(answers[0][2], 0)


class Usual(InFolder):
    """The usual build."""

    def setUp(self):
        super().setUp()
        self.write("any.rnc", ANY)

    def test_their_time_grows_with_their_length(self):
        seconds = []
        for count in (50_000, 1_000_000):
            begun = processor_seconds()
            choices = "|".join(f"n{at}" for at in range(count))
            for declared in (f"<!ATTLIST a x ({choices}) 'b'>", f"<!ATTLIST a x NOTATION ({choices}) 'b'>",
                             f"<!ENTITY % p '<!ATTLIST a x ({choices}) \"b\">'>%p;"):
                self.write("d.xml", f"<!DOCTYPE a [{declared}]><a/>")
                self.assert_same(self.run_in(XML2PYX, "d.xml"), ("(a\nAx b\n)a\n", "", 0))
            seconds.append(processor_seconds() - begun)
        self.assertLess(seconds[0], 1)
        self.assertLess(seconds[1], 20)

    def test_many_long_lists(self):
        """libxml2 gets little of each list, so that it compares few choices."""
        choices = "|".join(f"n{at}" for at in range(2_000))
        text = "".join(f"<!ATTLIST a{at} x ({choices}) #IMPLIED>" for at in range(500))
        self.write("d.xml", f"<!DOCTYPE a [{text}]><a/>")
        begun = processor_seconds()
        self.assert_same(self.run_in(XML2PYX, "d.xml"), ("(a\n)a\n", "", 0))
        self.assertLess(processor_seconds() - begun, 2)

    def test_memory(self):
        self.without_sanitizers(XML2PYX)
        peaks = []
        for length in (100, 20_000_000):
            for text in ("a:b", "a|", "  \n"):
                self.write("d.xml", f"<!DOCTYPE a [<!ATTLIST a x (b|{text * (length // len(text))}b) #IMPLIED>]><a/>")
                peaks.append(peak_of((XML2PYX, self.folder / "d.xml")))
        self.assertEqual({status for _, status in peaks}, {0})
        self.assertLess(max(peaks)[0] - min(peaks)[0], 8_000)

    def test_places_behind_them(self):
        if not RNCV_XML.exists():
            self.skipTest("no rncv-xml")
        self.write("s.rnc", "element a { attribute x { text }, element b { attribute y { text }? }+ }")
        for choices in ("b|" * 100_000 + "c", "b |\n" * 100_000 + "c", "\u3042" * 100_000, "b\n|" * 100_000 + "\U00010000:"):
            front = f"<!DOCTYPE a [<!ATTLIST a z ({choices}) #IMPLIED x (b) 'b'>]><a><b/><b y='1'/>"
            line, column = front.count("\n") + 1, len(front) - front.rfind("\n")
            self.write("d.xml", front + "<c/></a>")
            self.assertEqual(self.judge("s.rnc", "d.xml")[0].split(" ")[0], f"d.xml:{line}:{column}:")
            self.write("d.xml", front.replace("'b'", "'b' y") + "<c/></a>")
            wanted = front.index(">]>") - front.rfind("\n", 0, front.index(">]>"))
            self.assertEqual(self.judge("s.rnc", "d.xml")[0].split(" ")[0], f"d.xml:{line}:{wanted + 2}:")

    def test_bytes_that_are_no_character(self):
        for text in ("b|", "b |\n", "\u3042\u3042"):
            front = f"<!DOCTYPE a [<!ATTLIST a z ({text * 50_000}"
            self.write("d.xml", front.encode() + b"\xe3\xff|c) 'x'>]><a/>")
            place = f"d.xml:{front.count(chr(10)) + 1}:{len(front) - front.rfind(chr(10))}:"
            self.assertEqual(self.run_in(XML2PYX, "d.xml")[1].splitlines()[-1], f"{place} malformed XML: bytes that are no character of UTF-8")

    def test_a_slow_pipe(self):
        document = f"<!DOCTYPE a [<!ATTLIST a x ({'b|' * 900}{chr(0x3042) * 99}) 'b'>]><a/>".encode()
        script = 'i=0; while [ $i -lt $0 ]; do dd bs=7 count=1 2>/dev/null; i=$((i+7)); done | "$1" -'
        self.assertEqual(self.run_in("sh", "-c", script, len(document), XML2PYX, given=document), ("(a\nAx b\n)a\n", "", 0))


if __name__ == "__main__":
    unittest.main()
