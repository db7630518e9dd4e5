"""Tests of what may come next."""
import unittest
import unittest.mock as mock
import xml.etree.ElementTree as trees

import rncv
from rncv import Datatype, Expected, NameClass, Value
from rncv._expected import expected_of

XSD = "http://www.w3.org/2001/XMLSchema-datatypes"
BOOK = {"s.rnc": b'default namespace = "urn:b" book = element book { element title { text }, element part { "a b" | xsd:NCName { maxLength = "9" } }* }'
                 b' start = book'}
TITLE, PART = NameClass("{urn:b}title"), NameClass("{urn:b}part")
NOTHING = Expected((), False, (), ())


class TextTest(unittest.TestCase):
    """What the lines of the library are."""

    def test_lines(self):
        self.assertEqual(expected_of(b""), NOTHING)
        self.assertEqual(expected_of(b"text\n"), NOTHING._replace(text=True))
        self.assertEqual(expected_of(b"element {}a\nelement {urn:\\s\\\\\\n}b\nelement *\nelement {}*\nelement {u}*\n").elements,
                         tuple(map(NameClass, ("a", "{urn: \\\n}b", "*", "{}*", "{u}*"))))
        self.assertEqual(expected_of(b"value  token x\\r\\t\\sy\nvalue u n \ndatatype u n\n"),
                         Expected((), False, (Value("x\r\t y", Datatype("", "token")), Value("", Datatype("u", "n"))), (Datatype("u", "n"),)))

    def test_parameters(self):
        """A value may be empty, also at the end of a line. Two datatypes with other parameters are two."""
        self.assertEqual(expected_of(b"datatype u n p a\\s\\\\ q \ndatatype u n\ndatatype u n p a\\s\\\\ q \ndatatype u n q  p b\n").datatypes,
                         (Datatype("u", "n", (("p", "a \\"), ("q", ""))), Datatype("u", "n"), Datatype("u", "n", (("q", ""), ("p", "b")))))

    def test_each_is_told_once(self):
        self.assertEqual(expected_of(b"element {}b\nelement {}a\nelement {}b\n").elements, (NameClass("b"), NameClass("a")))

    def test_excepts(self):
        inner = NameClass("{u}*", (NameClass("{u}a"), NameClass("b")))
        whole = NameClass("*", (inner, NameClass("c")))
        self.assertEqual(expected_of(b"element * except ( {u}* except ( {u}a {}b ) {}c )\nelement {}d\n").elements, (whole, NameClass("d")))
        self.assertEqual(str(whole), "* except ({u}* except ({u}a, b), c)")
        self.assertEqual(expected_of(b"element * except ( * )\n").elements, (NameClass("*", (NameClass("*"),)),))


class DocumentTest(unittest.TestCase):
    """What documents in progress and verdicts tell."""

    def setUp(self):
        self.validator = rncv.compile(BOOK)
        self.addCleanup(self.validator.close)

    def test_events(self):
        with self.validator.events() as events:
            self.assertEqual(events.expected().elements, (NameClass("{urn:b}book"),))
            events.start("{urn:b}book")
            self.assertEqual(events.expected(), NOTHING._replace(elements=(TITLE,)))
            events.start("{urn:b}title")
            self.assertEqual(events.expected(), NOTHING._replace(text=True))
            events.end()
            events.start("{urn:b}part")
            self.assertEqual(events.expected(), Expected((), True, (Value("a b", Datatype("", "token")),), (Datatype(XSD, "NCName", (("maxLength", "9"),)),)))
            events.text("a b")
            events.end()
            self.assertEqual(events.expected().elements, (PART,))
            events.start("{urn:b}title", place=99)
            self.assertEqual((events.invalid_since(), events.expected().elements), (99, (PART,)))
            events.end()
            events.end()
            verdict = events.finish()
        self.assertEqual((str(verdict), verdict.expected.elements), ("invalid at 99", (PART,)))
        self.assertEqual(verdict, rncv.EventVerdict("invalid", 99))
        for call in (events.expected, events.finish):
            self.assertRaises(ValueError, call)

    def test_tags(self):
        bodies = b"(element b { attribute * - z { text }* } | element b { attribute c { empty } })*"
        schema = {"s.rnc": b"element a { attribute id { text }, attribute x | y { text }?, " + bodies + b" }"}
        with rncv.compile(schema) as validator, validator.events() as events:
            tag = events.expected_tag("a")
            self.assertEqual((set(tag.attributes), tag.required), ({NameClass("x"), NameClass("y"), NameClass("id")}, ("id",)))
            self.assertEqual(events.expected_tag("b"), rncv.ExpectedTag((), ()))
            for other in ("{u}a", "", "\ud800"):
                self.assertEqual(events.expected_tag(other), rncv.ExpectedTag((), ()))
            events.start("a", {"id": "1"})
            tag = events.expected_tag("b")
            self.assertEqual((set(tag.attributes), tag.required), ({NameClass("c"), NameClass("*", (NameClass("z"),))}, ()))
            events.start("c", place=99)
            self.assertEqual(events.expected_tag("b"), tag)
            self.assertRaises(TypeError, events.expected_tag, b"b")
        self.assertRaises(ValueError, events.expected_tag, "b")

    def test_pyx(self):
        with self.validator.begin() as document:
            self.assertEqual(document.expected().elements, (NameClass("{urn:b}book"),))
            self.assertTrue(document.feed(b"(book\nAxmlns urn:b\n(part\n)part\n"))
            self.assertEqual((document.invalid_since(), document.expected().elements), (4, (TITLE,)))
            self.assertTrue(document.feed(b")book\n"))
            verdict = document.finish()
        self.assertEqual((str(verdict), verdict.expected), ("invalid line 4", NOTHING._replace(elements=(TITLE,))))
        self.assertEqual(verdict, rncv.Verdict("invalid", 0, 4))

    def test_verdicts(self):
        good = b"(book\nAxmlns urn:b\n(title\n-x\n)title\n)book\n"
        self.assertIsNone(self.validator.validate(good).expected)
        self.assertIsNone(self.validator.validate(good.replace(b")book", b")bock")).expected)
        self.assertEqual(self.validator.validate(good.replace(b"title", b"part")).expected.elements, (TITLE,))
        # malformed after it was invalid
        self.assertIsNone(self.validator.validate(b"(book\nAxmlns urn:b\n(part\n)part\n").expected)
        with self.validator.events() as events:
            events.start("book")
            self.assertEqual(str(events.finish()), "malformed")
        verdict = self.validator.validate_tree(trees.fromstring("<book xmlns='urn:b'><title/><part>a  b</part><title/></book>"))
        self.assertEqual((str(verdict), verdict.expected.elements), ("invalid at the start of {urn:b}title", (PART,)))
        self.assertIsNone(self.validator.validate_tree(trees.fromstring("<book xmlns='urn:b'><title/></book>")).expected)

    def test_out_of_memory(self):
        with mock.patch.object(self.validator, "_library", wraps=self.validator._library) as library:
            library.rncv_expected.return_value = 3
            library.rncv_expected.side_effect = None
            with self.validator.events() as events:
                self.assertRaises(MemoryError, events.expected)
                events.start("book", place=7)
                events.end()
                verdict = events.finish()
        self.assertEqual((str(verdict), verdict.expected), ("invalid at 7", None))


if __name__ == "__main__":
    unittest.main()
