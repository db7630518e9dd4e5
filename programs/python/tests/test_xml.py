"""Tests of `Validator.validate_xml`. They need the library for XML beside the other one, and are skipped without it."""
import array
import dataclasses
import gc
import io
import os
import pathlib
import pickle
import signal
import tempfile
import threading
import time
import unittest
import unittest.mock as mock

from pages import TOP, page, served
from test_rncv import folder, python

import rncv
from rncv import _xml

SCHEMA = {"s.rnc": b'element a { attribute x { "1" }, element b { "two" }* }'}
GOOD = b"<a x='1'>\n <b>two</b>\n</a>\n"
ROWS = [
    (GOOD, rncv.XmlVerdict("valid"), "valid"),
    (b"<a x='1'>\n <c/></a>", rncv.XmlVerdict("invalid", 2, 2, "element", "c", 0, "invalid: <c> is not allowed here; expected <b>"), "2:2: invalid: <c> is not allowed here; expected <b>"),
    (b"<a x='2'/>", rncv.XmlVerdict("invalid", 1, 1, "attribute", "x", 0, 'invalid: attribute x of <a> is wrong ("2"); expected "1"'), '1:1: invalid: attribute x of <a> is wrong ("2"); expected "1"'),
    (b"<a x='1'><b>three</b></a>", rncv.XmlVerdict("invalid", 1, 13, "text", "three", 0, 'invalid: the text of <b> is wrong ("three"); expected "two"'),
     '1:13: invalid: the text of <b> is wrong ("three"); expected "two"'),
    (b"<a x='1'><b/></a>", rncv.XmlVerdict("invalid", 1, 10, "end", "b", 0, 'invalid: <b> ends too early: expected "two"'), '1:10: invalid: <b> ends too early: expected "two"'),
    ("<a x='é'/>".encode(), rncv.XmlVerdict("invalid", 1, 1, "attribute", "x", 0, 'invalid: attribute x of <a> is wrong ("é"); expected "1"'),
     '1:1: invalid: attribute x of <a> is wrong ("é"); expected "1"'),
]


def has_library():
    """Whether there is a library for XML."""
    try:
        rncv._xml_library()
    except rncv.LibraryError:
        return False
    return True


class Small(io.BytesIO):
    """A file that returns less than it is asked for."""

    def read(self, size=-1):
        return super().read(min(size, 7))


@unittest.skipUnless(has_library(), "no library for XML beside librncv (programs/xml/library.sh builds it)")
class Datatypes(unittest.TestCase):
    """Documents, IDs and hints with the larger set of datatypes."""

    SCHEMA = {"s.rnc": b"element a { attribute n { xsd:ID }, attribute r { xsd:IDREFS }?, (xsd:language | element b { xsd:NMTOKENS }) }"}

    def test_documents(self):
        with rncv.compile(self.SCHEMA, datatypes="xml-schema") as validator, validator.share() as other:
            for document, told in ((b"<a n='x' r=' x '>de-AT</a>", "valid"), (b"<a n='x'>de_AT</a>", '1:10: invalid: the text of <a> is no xsd:language ("de_AT")'),
                                   (b"<a n='x'><b> </b></a>", "1:14: invalid: <b> ends too early: expected xsd:NMTOKENS"), (b"<a n='x' r='y'>de</a>", '1:1: invalid: no ID "y"')):
                self.assertEqual([str(each.validate_xml(document)) for each in (validator, other)], [told] * 2, document)
            self.assertTrue(validator.validate_xml(b"<a n='x' r='y'>de</a>", ids=False))

    def test_hints(self):
        hints = {}
        for datatypes in ("profile", "xml-schema"):
            with self.assertRaises(rncv.SchemaError) as caught:
                rncv.compile({"s.rnc": b'element a { xsd:Name { pattern = "(" } }'}, datatypes=datatypes)
            hints[datatypes] = (caught.exception.hint_column, caught.exception.hint)
        self.assertEqual(hints["profile"][0], 13)
        self.assertTrue(hints["profile"][1].startswith("xsd:Name is of the datatypes xml-schema, and not of those of the profile: rncv-profile s.rnc -o DIR "))
        self.assertEqual(hints["xml-schema"][0], 24)
        self.assertTrue(hints["xml-schema"][1].startswith("the pattern '(' is no regular expression of XML Schema"))


@unittest.skipUnless(has_library(), "no library for XML beside librncv (programs/xml/library.sh builds it)")
class Annotations(unittest.TestCase):
    """Annotations in schemas that the library does not have become blanks, and places are those in the files as they are written."""

    GOOD = "b [ 'é' ]\r\nstart = element x { empty >> a:b [ c = 'é' ] } d [ ]\n".encode()
    NAMESPACE = b"namespace a = 'u'\n"
    TOLD = ("clause", "offset", "line", "column", "hint", "hint_line", "hint_column")

    def refused(self, text):
        with folder() as room, self.assertRaises(rncv.SchemaError) as caught:
            (room / "s.rnc").write_bytes(text)
            rncv.compile(room / "s.rnc")
        with self.assertRaises(rncv.SchemaError) as other:
            rncv.compile({"s.rnc": text}, annotations=True)
        reported = [[getattr(error.exception, name) for name in self.TOLD] for error in (caught, other)]
        self.assertEqual(*reported)
        return caught.exception

    def test_accepted(self):
        with folder() as room:
            (room / "main.rnc").write_bytes(self.NAMESPACE + b"a:b [ include [ 'none.rnc' ] ] include 's.rnc' " + b"a:b\\x{5B} ]\n")
            (room / "s.rnc").write_bytes(self.NAMESPACE + self.GOOD)
            with rncv.compile(room / "main.rnc") as validator:
                self.assertEqual([validator.validate_xml(text).kind for text in (b"<x/>", b"<y/>")], ["valid", "invalid"])
        with rncv.compile({"s.rnc": bytearray(self.NAMESPACE + self.GOOD)}, annotations=True) as validator:
            self.assertTrue(validator.validate_xml(b"<x/>"))

    def test_a_mapping_is_handed_in_as_it_is(self):
        for text, place in ((b"b [ ] start = element x { empty }", (6, 1, 3)), (b"start = element x { empty } >> b [ ]", (5, 1, 29))):
            with self.assertRaises(rncv.SchemaError) as caught:
                rncv.compile({"s.rnc": text})
            self.assertEqual((caught.exception.clause, caught.exception.line, caught.exception.column), place)

    def test_places(self):
        text = "b [ 'é' ] # é\r\nc [ 'é€' ] start = element x { }".encode()
        error = self.refused(text)
        self.assertEqual((error.clause, error.offset, error.line, error.column), (6, len(text) - 1, 2, 32))
        error = self.refused("c [ 'é' ] start = element x { attribute y { text } >> c [ '€' ], attribute y { text } }".encode())
        self.assertEqual((error.clause, error.hint_line, error.hint_column), (24, 1, 66))
        self.assertIn("(the other is at 1:31)", error.hint)
        error = self.refused("c [ 'é' ] include 'none.rnc'".encode())
        self.assertEqual((error.clause, error.mentioned_at[1:]), (1, (1, 19)))
        self.assertEqual(self.refused(b"b [ '\x01' ] start = element x { empty }").clause, 4)

    def test_names(self):
        error = self.refused("b [ 'é' ] start = element x { empty >> a:b [ ] }".encode())
        self.assertEqual((error.clause, error.offset, error.line, error.column, error.hint_line, error.hint_column), (6, 40, 1, 40, 1, 40))
        self.assertEqual(error.hint, "the prefix of this name in an annotation is not declared")
        self.assertEqual((self.refused(b"] [ a:b [ ] ] element x { empty }").column, self.refused(b"[ xml:b = '' c ] element x { empty }").hint), (1, None))

    def test_what_is_no_sentence(self):
        for text, clause in ((b"b [ ] element x { empty }", 6), (b"element x { empty } >> b [ ]", 5), (b"b [ c d ] start = element x { empty }", 6)):
            self.assertEqual(self.refused(text).clause, clause)


@unittest.skipUnless(has_library(), "no library for XML beside librncv (programs/xml/library.sh builds it)")
class Judged(unittest.TestCase):
    """The verdicts, in whatever form a document comes."""

    def setUp(self):
        room = tempfile.TemporaryDirectory()
        self.addCleanup(room.cleanup)
        self.path = pathlib.Path(room.name) / "é a.xml"
        self.validator = rncv.compile(SCHEMA)
        self.addCleanup(self.validator.close)

    def test_hints(self):
        document = b"<a x='2'>\n<b>three</b>\n<c/><b/></a>"
        told = ['2:4: hint: the text of <b> is wrong ("three"); expected "two"', "3:1: hint: <c> is not allowed here; expected <b>",
                '3:5: hint: <b> ends too early: expected "two"']
        self.path.write_bytes(document)
        for form in (document, bytearray(document), self.path, str(self.path), io.BytesIO(document), Small(document), open(self.path, "rb")):
            verdict = self.validator.validate_xml(form, hints=20)
            self.assertEqual((verdict.kind, verdict.attribute, [str(each) for each in verdict.hints]), ("invalid", "x", told), form)
            if hasattr(form, "close"):
                form.close()
        first = verdict.hints[0]
        self.assertEqual((first.kind, first.at, first.name, first.reason, first.expected), ("invalid", "text", "three", "text-value", ('"two"',)))
        self.assertEqual([len(self.validator.validate_xml(document, hints=most).hints) for most in (0, 1, 2, 999_999, 1 << 64)], [0, 1, 2, 3, 3])
        self.assertEqual(self.validator.validate_xml(document).hints, ())
        for other in (GOOD, b"<a x='2'><b></a>", b"<a x='2'>&e;</a>"):
            self.assertEqual(self.validator.validate_xml(other, hints=20).hints, (), other)
        self.assertRaisesRegex(ValueError, "not -1", self.validator.validate_xml, document, hints=-1)
        for most in (1.5, "3", None):
            for other in (document, GOOD):
                self.assertRaises(TypeError, self.validator.validate_xml, other, hints=most)

    def test_hints_of_a_file(self):
        """It is read again from the position that it had, if it can go back."""
        document = b"<a x='2'><b>three</b></a>"
        file = io.BytesIO(b"before" + document)
        file.seek(6)
        self.assertEqual([str(each) for each in self.validator.validate_xml(file, hints=20).hints], ['1:13: hint: the text of <b> is wrong ("three"); expected "two"'])

        class Stream(io.BytesIO):
            """A file that cannot go back."""

            def seekable(self):
                return False

        verdict = self.validator.validate_xml(Stream(document), hints=20)
        self.assertEqual((verdict.kind, verdict.hints), ("invalid", ()))

        class Once(io.BytesIO):
            """A file that fails when it is read again."""

            def seek(self, *place):
                raise OSError("gone")

        self.assertRaisesRegex(OSError, "gone", self.validator.validate_xml, Once(document), hints=20)
        self.assertTrue(self.validator.validate_xml(GOOD, hints=20))

    def judged(self, document, validator=None):
        """The verdict on a document. Wants the same for a path, for files and for each kind of bytes."""
        validator = validator or self.validator
        verdict = validator.validate_xml(document)
        self.path.write_bytes(document)
        others = [bytearray(document), memoryview(document), io.BytesIO(document), Small(document), str(self.path), self.path, array.array("B", document),
                  memoryview(document[::-1])[::-1]]
        for other in others:
            self.assertEqual(validator.validate_xml(other), verdict)
        with open(self.path, "rb") as file, open(self.path, "rb", buffering=0) as raw:
            self.assertEqual(validator.validate_xml(file), verdict)
            self.assertEqual(validator.validate_xml(raw), verdict)
        return verdict

    def test_rows(self):
        for document, verdict, line in ROWS:
            with self.subTest(document):
                self.assertEqual(self.judged(document), verdict)
                self.assertEqual((str(verdict), bool(verdict), verdict.valid), (line, line == "valid", line == "valid"))

    def test_malformed_and_outside(self):
        verdict = self.judged(b"<a x='1'>\n<b></a>")
        self.assertEqual((verdict.kind, verdict.line, verdict.clause, bool(verdict)), ("malformed", 2, 0, False))
        self.assertTrue(str(verdict).startswith(f"2:{verdict.column}: malformed XML: "))
        verdict = self.judged(b"<a x='1'><y:b/></a>")
        self.assertEqual((verdict.kind, verdict.line, verdict.column, verdict.clause), ("malformed", 1, 10, 11))
        self.assertTrue(str(verdict).startswith("1:10: malformed P11: "))
        self.assertEqual(self.judged(b"").kind, "malformed")
        verdict = self.judged(b"<!DOCTYPE a SYSTEM 'a.dtd'>\n<a x='1'>&e;</a>")
        self.assertEqual((verdict.kind, verdict.line, bool(verdict)), ("outside", 2, False))

    def test_reasons(self):
        """What is wrong, as members: those of `rncv-xml --format json`."""
        with rncv.compile({"s.rnc": b'start = a a = element a { attribute x { "1" | "2" }, attribute y { xsd:int }?, attribute z { text }?, (b | c)+ }'
                                    b" b = element b { empty } c = element c { empty }"}, datatypes="xml-schema") as validator:
            for document, wanted in (
                    (b"<a x='1'><d/></a>", ("element-not-allowed", ("<b>", "<c>"), None, None)),
                    (b"<a x='3'/>", ("attribute-value", ('"1"', '"2"'), "x", None)), (b"<a x='1' y='n'/>", ("attribute-value", ("xsd:int",), "y", "xsd:int")),
                    (b"<a x='1' v=''/>", ("attribute-not-allowed", ("y", "z"), "v", None)), (b"<a/>", ("attributes-missing", ("x",), "x", None)),
                    (b"<a x='1'/>", ("incomplete", ("<b>", "<c>"), None, None)), (b"<a x='1'>t<b/></a>", ("text-not-allowed", ("<b>", "<c>"), None, None)),
                    (b"<a x='1'><b/></a>", (None, (), None, None)), (b"<a x='1'>", (None, (), None, None)), (b"<a", (None, (), None, None))):
                verdict = self.judged(document, validator)
                self.assertEqual((verdict.reason, verdict.expected, verdict.attribute, verdict.datatype), wanted, document)

    def test_tokens(self):
        """Which token of a list is wrong, of hints too."""
        with rncv.compile({"s.rnc": b"element a { attribute x { list { xsd:int+ } }, element b { list { 'v', 'w' } }* }"}, datatypes="xml-schema") as validator:
            for document, wanted in ((b"<a x='1 n 2'/>", "n"), ("<a x='1'><b>v é x</b></a>".encode(), "é"), (b"<a x='1'><b>v w x</b></a>", "x"),
                                     (b"<a x='1'><b>v</b></a>", None), (b"<a x='1'><c/></a>", None), (b"<a x='1'/>", None), (b"<a", None)):
                self.assertEqual(self.judged(document, validator).token, wanted, document)
            verdict = validator.validate_xml(b"<a x='1 n'><b>v x</b><b/></a>", hints=9)
            self.assertEqual((verdict.token, [each.token for each in verdict.hints]), ("n", ["x", None]))

    def test_earlier(self):
        """A document that is malformed may have been invalid before."""
        verdict = self.validator.validate_xml(b"<a x='1'>\n <c/><b")
        self.assertEqual((verdict.kind, verdict.earlier), ("malformed", rncv.XmlVerdict("invalid", 2, 2, "element", "c", 0, "invalid: <c> is not allowed here; expected <b>")))
        outside = b"<!DOCTYPE a [<!ENTITY e SYSTEM 'e.xml'>]><a x='2'><b>&e;</b></a>"
        self.assertEqual((self.validator.validate_xml(outside).kind, self.validator.validate_xml(outside).earlier.at), ("outside", "attribute"))
        for data in (GOOD, GOOD[:-3], b"<a x='2'/>", b"<"):
            self.assertIsNone(self.validator.validate_xml(data).earlier)

    def test_ids(self):
        """A copy as rncv-profile writes it of a schema with the datatypes ID and IDREF."""
        text = (b'element a { attribute x { xsd:NCName { minLength = "000000001" } }, element b { attribute y { xsd:NCName { minLength = "00000001" } } }* }\n'
                b"# rncv-profile: 2 ID-types marked, see s.profile.txt\n")
        good, bad = b"<a x='p'><b y='p'/></a>", b"<a x='p'>\n<b y='q'/></a>"
        wrong = rncv.XmlVerdict("invalid", 2, 1, "attribute", "y", 0, 'invalid: no ID "q"')
        with rncv.compile({"s.rnc": text}) as validator, validator.share() as other:
            self.assertEqual((self.judged(good, validator).kind, self.judged(bad, validator)), ("valid", wrong))
            self.assertTrue(validator.validate_xml(bad, ids=False))
            self.assertEqual((other.validate_xml(bad), validator.validate_xml(bad)), (wrong, wrong))
        with rncv.compile({"s.rnc": text.replace(b"attribute x", b"attribute x | z")}) as validator:
            verdict = validator.validate_xml(bad)
            self.assertEqual((verdict.kind, len(verdict.notes)), ("valid", 1))
            self.assertTrue(verdict.notes[0].startswith("1:1: note: IDs are not checked: "))

    def test_notes(self):
        verdict = self.judged(b"<!DOCTYPE a SYSTEM 'a.dtd'><a x='1'/>")
        self.assertEqual((verdict.kind, str(verdict), bool(verdict), len(verdict.notes)), ("valid", "valid", True, 1))
        self.assertRegex(verdict.notes[0], "^1:[0-9]+: note: .*a.dtd")

    def test_examples(self):
        count = 0
        for path, names in served():
            with folder(path), rncv.compile(*names) as validator:
                for name in sorted(pathlib.Path(".").glob("*.xml")):
                    reported = self.judged(name.read_bytes(), validator)
                    self.assertIn(reported.kind, ("valid", "invalid"), name)
                    count += 1
        self.assertGreater(count, 1)
        reported = page("README.md")
        with rncv.compile(TOP / "examples/letter/s.rnc") as validator:
            for name in ("letter.xml", "untitled.xml"):
                verdict = validator.validate_xml(TOP / "examples/letter" / name)
                self.assertIn(f"examples/letter/{name}:{' ' if verdict else ''}{verdict}", reported)

    def test_long_documents(self):
        body = b" <b>two</b>\n" * 300_000
        for document, line in ((b"<a x='1'>\n" + body + b"</a>", "valid"), (b"<a x='1'>\n" + body + b"<c/></a>", "300002:1: invalid: <c> is not allowed here; expected <b>")):
            self.path.write_bytes(document)
            with open(self.path, "rb") as file:
                for given in (document, bytearray(document), self.path, file):
                    self.assertEqual(str(self.validator.validate_xml(given)), line)

    def test_a_file_is_read_in_pieces(self):
        class Counting(io.BytesIO):
            sizes = []

            def read(self, size=-1):
                self.sizes.append(size)
                return super().read(size)

        self.assertTrue(self.validator.validate_xml(Counting(b"<a x='1'>" + b"<b>two</b>" * 20_000 + b"</a>")))
        self.assertEqual(Counting.sizes, [65_536] * 5)
        Counting.sizes.clear()
        self.assertEqual(self.validator.validate_xml(Counting(b"<<" + b" " * 500_000)).kind, "malformed")
        self.assertEqual(len(Counting.sizes), 1)

    def test_position(self):
        file = io.BytesIO(b"before" + GOOD)
        file.seek(6)
        self.assertTrue(self.validator.validate_xml(file))

    def test_pipe(self):
        for data, line in ((GOOD, "valid"), (b"<a x='1'>", None)):
            reading, writing = os.pipe()
            os.write(writing, data)
            os.close(writing)
            try:
                verdict = self.validator.validate_xml(f"/dev/fd/{reading}")
            except FileNotFoundError:
                self.skipTest("no /dev/fd")
            finally:
                os.close(reading)
            self.assertEqual(str(verdict) if line else verdict.kind, line or "malformed")

    def test_both_kinds_of_documents(self):
        self.assertTrue(self.validator.validate(b"(a\nAx 1\n)a\n"))
        self.assertTrue(self.validator.validate_xml(GOOD))
        self.validator.begin().feed(b"(a\n")
        gc.collect()
        self.assertTrue(self.validator.validate_xml(GOOD))
        self.assertEqual(str(self.validator.validate(b"(a\nAx 2\n)a\n")), "invalid line 3")
        fresh = rncv.compile(SCHEMA)
        fresh.begin().feed(b"(a\n")
        gc.collect()
        self.assertTrue(fresh.validate_xml(GOOD))
        self.assertEqual(fresh.simple_text().count(b"element"), 2)

    def test_values_of_an_included_file(self):
        """The literals of all files are tried, to say what is wrong."""
        files = {"m.rnc": b'include "p.rnc" start = element a { x }', "p.rnc": b'x = attribute x { "odd one" }, attribute y { "odd two" }'}
        with rncv.compile(files) as validator:
            for own in (validator, validator.share()):
                self.assertEqual(str(own.validate_xml(b"<a x='odd one' y='3'/>")), '1:1: invalid: attribute y of <a> is wrong ("3"); expected "odd two"')
            self.assertEqual(str(validator.share().validate_xml(b"<a x='3' y='odd two'/>")), '1:1: invalid: attribute x of <a> is wrong ("3"); expected "odd one"')

    def test_verdicts_are_values(self):
        verdict = self.validator.validate_xml(b"<c/>")
        self.assertEqual(pickle.loads(pickle.dumps(verdict)), verdict)
        self.assertRaises(dataclasses.FrozenInstanceError, setattr, verdict, "kind", "valid")
        # a verdict outlives the next call and the validator
        self.assertTrue(self.validator.validate_xml(GOOD))
        self.validator.close()
        self.assertEqual(str(verdict), "1:1: invalid: <c> is not allowed here; expected <a>")


class Hints(unittest.TestCase):
    """Where a schema that is refused most likely breaks the clause."""

    def refused(self, *files):
        with self.assertRaises(rncv.SchemaError) as caught:
            rncv.compile(*files)
        error = caught.exception
        again = pickle.loads(pickle.dumps(error))
        self.assertEqual((str(again), vars(again)), (str(error), vars(error)))
        return error, (error.hint, error.hint_file, error.hint_line, error.hint_column)

    @unittest.skipUnless(has_library(), "no library for XML beside librncv (programs/xml/library.sh builds it)")
    def test_hints(self):
        error, hint = self.refused({"m.rnc": b"include '\xc3\xa9.rnc'\nstart = a", "\u00e9.rnc": "a = element \u00e9 { b }".encode()})
        self.assertEqual(hint, ("b is not defined", "\u00e9.rnc", 1, 17))
        hint = self.refused({"m.rnc": b"include 'b.rnc'", "b.rnc": b"start = element b { xsd:date }"})[1]
        told = ("xsd:date is of the datatypes xml-schema, and not of those of the profile: rncv-profile m.rnc -o DIR writes a copy with xsd:token there, "
                "which accepts any text")
        self.assertEqual(hint, (told, "b.rnc", 1, 21))
        self.assertEqual((error.clause, error.file, error.line), (15, None, None))
        self.assertEqual(str(error), "refused S15: what is referred to is defined (4.18): hint: b is not defined (\u00e9.rnc:1:17)")
        error, hint = self.refused({"m.rnc": b'element a { external "b.rnc" & element b { empty } }', "b.rnc": b"element b { empty }"})
        self.assertEqual(hint, ("element b is on both sides of & in element a (the other is at b.rnc:1:1)", "m.rnc", 1, 32))
        for text in (b"element a {", b"external 'b.rnc'", b"element a { empty" + b" | text" * 1_000 + b" }"):
            self.assertEqual(self.refused({"m.rnc": text})[1], (None,) * 4, text)

    @unittest.skipUnless(has_library(), "no library for XML beside librncv (programs/xml/library.sh builds it)")
    def test_paths(self):
        with folder(TOP) as room:
            (room / "parts").mkdir()
            (room / "parts/b.rnc").write_bytes(b"a = b\n")
            (room / "m.rnc").write_bytes(b"include 'parts/b.rnc'\nstart = a")
            self.assertEqual(self.refused(room / "m.rnc")[1], ("b is not defined", str(room / "parts/b.rnc"), 1, 5))

    def test_no_library(self):
        for error in (rncv.LibraryError("none"), MemoryError()):
            with mock.patch.object(rncv, "_xml_library", side_effect=error):
                self.assertEqual(self.refused({"m.rnc": b"start = a"})[1], (None,) * 4)
                self.assertEqual(str(self.refused({"m.rnc": b"start = a"})[0]), "refused S15: what is referred to is defined (4.18)")


@unittest.skipUnless(has_library(), "no library for XML beside librncv (programs/xml/library.sh builds it)")
class Errors(unittest.TestCase):
    """What is no document, what cannot be read, and calls in the wrong order."""

    def setUp(self):
        self.validator = rncv.compile(SCHEMA)
        self.addCleanup(self.validator.close)

    def test_files_that_cannot_be_read(self):
        with folder() as room:
            for path, kind in (("none.xml", FileNotFoundError), (room, IsADirectoryError), ("-", FileNotFoundError), ("", FileNotFoundError)):
                with self.assertRaises(kind) as caught:
                    self.validator.validate_xml(path)
                self.assertEqual(caught.exception.filename, path if path != room else str(room))
                self.assertTrue(self.validator.validate_xml(GOOD))
            self.assertRaises(ValueError, self.validator.validate_xml, "a\0b")
            if os.geteuid() != 0:
                (room / "closed.xml").touch(0)
                self.assertRaises(PermissionError, self.validator.validate_xml, "closed.xml")
            # it is there when it is looked at, and not when it is opened
            (room / "gone.xml").write_bytes(GOOD)
            state = os.stat("gone.xml")
            os.unlink("gone.xml")
            with mock.patch.object(os, "stat", return_value=state), self.assertRaises(FileNotFoundError) as caught:
                self.validator.validate_xml("gone.xml")
            self.assertEqual(caught.exception.filename, "gone.xml")

    def test_what_is_no_document(self):
        for document in (None, 5, ["<a/>"], iter([b"<a/>"]), object(), io.StringIO("<a/>"), io.StringIO("")):
            with self.subTest(document):
                self.assertRaises(TypeError, self.validator.validate_xml, document)
                self.assertTrue(self.validator.validate_xml(GOOD))

    def test_files_that_fail(self):
        class File:
            def __init__(self, *answers):
                self.answers = iter(answers)

            def read(self, size):
                answer = next(self.answers)
                if isinstance(answer, BaseException):
                    raise answer
                return answer(size) if callable(answer) else answer

        for answers, kind in [((OSError("mine"),), OSError), ((GOOD, KeyboardInterrupt()), KeyboardInterrupt), ((b"<a>", KeyError("mine")), KeyError),
                              ((b"<a>", GeneratorExit()), GeneratorExit), ((StopIteration(),), StopIteration),
                              ((None,), BlockingIOError), (("<a/>",), TypeError), ((5,), TypeError), ((lambda size: b"x" * (size + 1),), ValueError),
                              ((lambda size: 1 // 0,), ZeroDivisionError)]:
            with self.subTest(answers):
                self.assertRaises(kind, self.validator.validate_xml, File(*answers))
                self.assertTrue(self.validator.validate_xml(GOOD))
        self.assertTrue(self.validator.validate_xml(File(bytearray(GOOD[:5]), memoryview(GOOD[5:]), b"")))

    def test_one_at_a_time(self):
        validator = self.validator

        class File:
            def __init__(self, call):
                self.call, self.left = call, [GOOD, b""]

            def read(self, size):
                self.call()
                return self.left.pop(0)

        for call in (validator.begin, validator.share, validator.simple_text, lambda: validator.validate(b""), lambda: validator.validate_xml(GOOD)):
            self.assertRaisesRegex(RuntimeError, "in progress", validator.validate_xml, File(call))
        with validator.begin():
            self.assertRaisesRegex(RuntimeError, "in progress", validator.validate_xml, GOOD)
        self.assertTrue(validator.validate_xml(GOOD))
        self.assertRaisesRegex(ValueError, "closed", validator.validate_xml, File(validator.close))
        self.assertRaisesRegex(ValueError, "closed", validator.validate_xml, GOOD)
        validator.close()

    def test_closed(self):
        with rncv.compile(SCHEMA) as validator:
            self.assertTrue(validator.validate_xml(GOOD))
            other = validator.share()
        self.assertRaisesRegex(ValueError, "closed", validator.validate_xml, GOOD)
        self.assertTrue(other.validate_xml(GOOD))
        other.close()
        other.close()

    def test_memory_that_is_refused(self):
        memory = 3
        self.assertTrue(self.validator.validate_xml(GOOD))
        judge = self.validator._judge
        for name in ("rncv_xml_judge_file", "rncv_xml_judge_by"):
            with mock.patch.object(judge._library, name, return_value=memory), self.assertRaises(MemoryError):
                self.validator.validate_xml(__file__ if name.endswith("file") else io.BytesIO(GOOD))
        with mock.patch.object(judge, "_judge_bytes", return_value=memory), self.assertRaises(MemoryError):
            self.validator.validate_xml(GOOD)
        for name, call in (("rncv_xml_judge_share", self.validator.share), ("rncv_xml_judge_new_with", lambda: rncv.compile(SCHEMA).validate_xml(GOOD))):
            with mock.patch.object(judge._library, name, return_value=memory), self.assertRaises(MemoryError):
                call()
        self.assertTrue(self.validator.validate_xml(GOOD))

    def test_a_file_that_was_not_read_to_its_end(self):
        """A `valid` for the beginning of a document is no answer."""
        def fill(source, piece):
            piece.length = 0 if hasattr(source, "was_asked") else len(GOOD)
            _xml.ctypes.memmove(piece.bytes, GOOD, piece.length)
            source.was_asked = True

        with mock.patch.object(_xml._Source, "_fill", fill), self.assertRaises(RuntimeError):
            self.validator.validate_xml(io.BytesIO(GOOD))

    def test_exceptions_between_two_steps(self):
        """The handler of a signal may raise an exception when the lock is taken or let go. The validator can judge the next document."""
        class Lock:
            def __init__(self, steps):
                self.steps, self.lock = steps, threading.RLock()

            def step(self):
                self.steps -= 1
                if self.steps == 0:
                    raise InterruptedError

            def __enter__(self):
                self.step()
                self.lock.acquire()

            def __exit__(self, *_):
                self.lock.release()
                self.step()

        lock = self.validator._lock
        self.addCleanup(setattr, self.validator, "_lock", lock)
        for steps in range(1, 5):
            self.validator._lock = Lock(steps)
            self.assertRaises(InterruptedError, self.validator.validate_xml, GOOD)
            self.validator._lock = lock
            self.assertTrue(self.validator.validate_xml(GOOD), steps)
            self.assertTrue(self.validator.simple_text())

    @unittest.skipUnless(hasattr(signal, "pthread_kill"), "no signals for threads")
    def test_signals(self):
        """Ctrl-C stops a long document, in memory, in a file and in a pipe."""
        class Interrupted(Exception):
            pass

        def interrupt(number, frame):
            raise Interrupted

        before = signal.signal(signal.SIGUSR1, interrupt)
        self.addCleanup(signal.signal, signal.SIGUSR1, before)
        main, reading_writing = threading.get_ident(), os.pipe()
        long = b"<a x='1'>" + b"<b>two</b>" * 3_000_000 + b"</a>"
        with tempfile.NamedTemporaryFile() as file, os.fdopen(reading_writing[0], "rb", buffering=0) as pipe:
            file.write(long)
            file.flush()
            for document in (long, file.name, pipe):
                timer = threading.Timer(0.1, signal.pthread_kill, (main, signal.SIGUSR1))
                timer.start()
                begun = time.monotonic()
                self.assertRaises(Interrupted, self.validator.validate_xml, document)
                self.assertLess(time.monotonic() - begun, 10)
                timer.join()
            os.close(reading_writing[1])
        self.assertTrue(self.validator.validate_xml(GOOD))


@unittest.skipUnless(has_library(), "no library for XML beside librncv (programs/xml/library.sh builds it)")
class Threads(unittest.TestCase):
    """Several threads."""

    def run_all(self, calls):
        wrong = []

        def guarded(call):
            try:
                call()
            except BaseException as error:  # pylint: disable=broad-except
                wrong.append(error)

        threads = [threading.Thread(target=guarded, args=(call,)) for call in calls]
        for thread in threads:
            thread.start()
        for thread in threads:
            thread.join()
        self.assertEqual(wrong, [])

    def test_shared(self):
        validator = rncv.compile(SCHEMA)
        validator.validate_xml(GOOD)

        def work(own):
            with own:
                for at in range(300):
                    document, verdict, _ = ROWS[at % len(ROWS)]
                    self.assertEqual(own.validate_xml(document if at % 2 else io.BytesIO(document)), verdict)

        self.run_all([lambda own=validator.share(): work(own) for _ in range(4)])
        self.assertTrue(validator.validate_xml(GOOD))

    def test_one_validator(self):
        """Threads that share one validator by mistake get right verdicts or a RuntimeError."""
        validator, reported = rncv.compile(SCHEMA), []

        def work():
            for at in range(300):
                document, verdict, _ = ROWS[at % len(ROWS)]
                try:
                    reported.append(validator.validate_xml(document) == verdict)
                except RuntimeError as error:
                    self.assertIn("in progress", str(error))

        self.run_all([work] * 4)
        self.assertTrue(reported and all(reported))

    def test_closed_meanwhile(self):
        for _ in range(20):
            validator = rncv.compile(SCHEMA)

            def work(own=validator):
                try:
                    while True:
                        own.validate_xml(b"<a x='1'>" + b"<b>two</b>" * 5_000 + b"</a>")
                except ValueError as error:
                    self.assertIn("closed", str(error))

            self.run_all([work, validator.close])


class Library(unittest.TestCase):
    """Where the library for XML is searched."""

    ANNOTATED = """
import os, rncv
try:
    rncv.compile(os.environ["SCHEMA"])
except rncv.SchemaError as error:
    print(error.clause, error.line, error.column)
"""
    CODE = """
import rncv
validator = rncv.compile({'s.rnc': b'element a { empty }'})
print(validator.validate(b'(a\\n)a\\n'))
try:
    print(validator.validate_xml(b'<a/>'))
except rncv.LibraryError as error:
    print("no:", error)
print(validator.validate(b'(a\\n)a\\n'), validator.share().validate(b'(b\\n)b\\n'))
"""

    def test_beside_the_other_one(self):
        built = pathlib.Path(os.environ["RNCV_LIBRARY"]).resolve()
        with folder() as room:
            (room / "lib").mkdir()
            (room / "lib/librncv.so").write_bytes(built.read_bytes())
            for named in (room, room / "lib/librncv.so"):
                run = python(self.CODE, RNCV_LIBRARY=str(named))
                lines = run.stdout.splitlines()
                self.assertEqual((lines[0], lines[2], run.stderr), ("valid", "valid invalid line 2", ""))
                self.assertEqual(lines[1], f"no: no library of rncv for XML: there is no librncv_xml.so beside {room.resolve()}/lib/librncv.so. "
                                           "programs/xml/library.sh builds it")
            (room / "s.rnc").write_text("start = element a { empty } b [ ]\n")
            self.assertEqual(python(self.ANNOTATED, SCHEMA=str(room / "s.rnc"), RNCV_LIBRARY=str(room)).stdout, "6 1 31\n")
            (room / "lib/librncv_xml.so").write_text("no library")
            self.assertIn("no: the library of rncv for XML cannot be used: ", python(self.CODE, RNCV_LIBRARY=str(room)).stdout)
            other = built.with_name("librncv_xml.so")
            if other.exists():
                (room / "lib/librncv_xml.so").write_bytes(other.read_bytes())
                self.assertEqual(python(self.CODE, RNCV_LIBRARY=str(room)).stdout, "valid\nvalid\nvalid invalid line 2\n")
                self.assertEqual(python(self.ANNOTATED, SCHEMA=str(room / "s.rnc"), RNCV_LIBRARY=str(room)).stdout, "")


if __name__ == "__main__":
    unittest.main()
