"""Tests of the Python package. The expected answers are in docs/use/CLAUSES.md, docs/use/LANGUAGE.md, README.md and `examples`."""
import array
import contextlib
import copy
import ctypes.util
import gc
import gzip
import importlib.util
import io
import os
import pathlib
import pickle
import subprocess
import sys
import tempfile
import threading
import typing
import unittest
import unittest.mock as mock
import zipfile

from pages import TOP, clauses, document_of, page, schema_of, served

import rncv

A = {"s.rnc": b"element a { element b { text }* }"}
GOOD = b"(a\n(b\n-hi\n)b\n)a\n"
BAD = b"(a\n(c\n)c\n)a\n"
VALID = rncv.Verdict("valid")
BAD_VERDICT = rncv.Verdict("invalid", 0, 3)
LETTER = TOP / "examples/letter"
PROGRAM = pathlib.Path(os.environ.get("RNCV") or TOP / "crates/rncv/out/rncv")


def cut(data, size):
    """The bytes in pieces of this size."""
    return (data[begin:begin + size] for begin in range(0, len(data), size))


@contextlib.contextmanager
def folder(path=None):
    """Works in a fresh folder, and changes back at the end."""
    before = os.getcwd()
    with tempfile.TemporaryDirectory() as room:
        os.chdir(path or room)
        try:
            yield pathlib.Path(room)
        finally:
            os.chdir(before)


def python(code, room=None, **variables):
    """Runs code in Python, with the package of this checkout or the one in a folder."""
    kept = {name: value for name, value in os.environ.items() if name != "RNCV_LIBRARY"}
    environment = {**kept, "PYTHONPATH": str(room or TOP / "programs/python"), "PYTHONDONTWRITEBYTECODE": "1", **variables}
    return subprocess.run([sys.executable, "-c", code], env=environment, capture_output=True, text=True, timeout=60, check=False)


class Documents(unittest.TestCase):
    """The verdicts are those of the pages, in whatever form a document comes."""

    def judged(self, validator, document):
        """The verdict on a document. Wants the same verdict for pieces, for files and for each kind of bytes."""
        verdict = validator.validate(document)
        small = [1, 7] if len(document) < 100_000 else []
        for size in [*small, 4096]:
            self.assertEqual(validator.validate(cut(document, size)), verdict)
        for other in (bytearray(document), memoryview(document), io.BytesIO(document), [document], iter([b"", document, b""]), array.array("B", document)):
            self.assertEqual(validator.validate(other), verdict)
        return verdict

    def test_examples(self):
        examples = served()
        self.assertEqual(len(examples), 7)
        for path, names in examples:
            with self.subTest(path.name), folder(path), rncv.compile(*names) as validator:
                self.assertEqual(self.judged(validator, (path / "document.pyx").read_bytes()), VALID)

    def test_letters(self):
        reported = page("README.md") + page("docs/use/LANGUAGE.md")
        self.assertIn("\nvalid\n", reported)
        document = (LETTER / "document.pyx").read_bytes()
        with rncv.compile(LETTER / "s.rnc") as validator:
            self.assertEqual(str(self.judged(validator, document)), "valid")
            for other, answer in [
                (document.replace(b"title", b"subject"), "invalid line 4"),
                (b"".join(document.splitlines(True)[:7]), "malformed P13 line 7"),
            ]:
                self.assertIn(answer, reported)
                verdict = self.judged(validator, other)
                self.assertEqual(str(verdict), answer)
                self.assertFalse(verdict)
            self.assertEqual(self.judged(validator, document), VALID)

    def test_clauses(self):
        pairs = clauses("P")
        self.assertEqual([number for number, _, _ in pairs], list(range(1, 14)))
        with rncv.compile({"s.rnc": b"element a { empty }"}) as validator:
            for number, broken, repair in pairs:
                with self.subTest(number):
                    verdict = self.judged(validator, document_of(broken))
                    self.assertEqual((verdict.kind, verdict.valid, verdict.clause), ("malformed", False, number))
                    self.assertIn(f"### P{number}: {verdict.title}\n", page("docs/use/CLAUSES.md"))
                    self.assertIn(self.judged(validator, document_of(repair)).kind, ("valid", "invalid"))

    def test_empty(self):
        with rncv.compile(A) as validator:
            for document in (b"", [], iter(()), io.BytesIO(), bytearray(), memoryview(b"")):
                self.assertEqual(str(validator.validate(document)), "malformed P13 line 0")

    def test_broken_characters(self):
        with rncv.compile(A) as validator:
            for document, line in [(b"(a\n-\xff\n)a\n", 2), (b"(a\n-\xc3", 2), (b"(a\n(\xed\xa0\x80\n", 2)]:
                for size in (1, 7, 4096):
                    verdict = validator.validate(cut(document, size))
                    self.assertEqual((verdict.kind, verdict.line), ("malformed", line))

    def test_files(self):
        with rncv.compile(A) as validator, tempfile.TemporaryFile() as file:
            file.write(b"before" + GOOD)
            file.seek(6)
            self.assertTrue(validator.validate(file))
            file.seek(6)
            with open(os.dup(file.fileno()), "rb", buffering=0) as raw:
                self.assertTrue(validator.validate(raw))
            # a malformed document is not read further once that is known
            with open(os.dup(file.fileno()), "rb", buffering=0) as raw:
                file.write(b"text\n" * 100_000)
                raw.seek(0)
                self.assertEqual(str(validator.validate(raw)), "malformed P4 line 1")
                self.assertEqual(raw.tell(), 65_536)

    def test_types_of_files(self):
        """Whatever is read from is a document for a checker of types, too, also if it is no `typing.BinaryIO`."""
        for call in (rncv.Validator.validate, rncv.Validator.validate_xml):
            self.assertIn(rncv.BinaryFile, typing.get_args(typing.get_type_hints(call)["document"]))
        for file in (io.BytesIO(), gzip.GzipFile(fileobj=io.BytesIO(), mode="w"), zipfile.ZipFile(io.BytesIO(), "w").open("a", "w")):
            self.assertIsInstance(file, rncv.BinaryFile)

    @unittest.skipUnless(importlib.util.find_spec("mypy"), "no mypy")
    def test_types(self):
        """The package, and a program that uses it, have the types that they say."""
        program = "\n".join([
            "import gzip, io, pathlib, subprocess, zipfile, rncv",
            "def judged(validator: rncv.Validator, path: pathlib.Path, zipped: zipfile.ZipFile, run: subprocess.Popen[bytes]) -> list[bool]:",
            "    assert run.stdout is not None",
            "    verdicts = [validator.validate_xml(path), validator.validate_xml(gzip.open(path)), validator.validate_xml(zipped.open('a'), hints=3),",
            "                validator.validate_xml(run.stdout), validator.validate_xml(path.open('rb')), validator.validate_xml(io.BytesIO())]",
            "    return [bool(validator.validate(run.stdout)), bool(validator.validate(gzip.open(path))), *map(bool, verdicts)]",
        ])
        with folder() as room:
            command = [sys.executable, "-m", "mypy", "--strict", "--cache-dir", str(room), "-c", program]
            checked = subprocess.run(command, env={**os.environ, "MYPYPATH": str(TOP / "programs/python")}, capture_output=True, text=True, check=False)
        self.assertEqual((checked.returncode, checked.stderr), (0, ""), checked.stdout)

    def test_small_pieces(self):
        """Small pieces are joined up to 64 KiB, so that there are few calls. Once the document is malformed, no more than that is read."""
        with rncv.compile(A) as validator:
            pieces = iter([b"text\n"] * 100_000)
            self.assertEqual(str(validator.validate(pieces)), "malformed P4 line 1")
            self.assertEqual(100_000 - len(list(pieces)), 65_536 // 5 + 1)
            pieces = iter([b"x" * 70_000, b"(a\n"])
            self.assertEqual(validator.validate(pieces).kind, "malformed")
            self.assertEqual(len(list(pieces)), 1)
            begun = validator._library.rncv_document_feed
            long = [b"(a\n", *[b"(b\n)b\n"] * 70_000, b")a\n"]
            for count, document in [(1, GOOD.splitlines(True)), (3, [GOOD[:5], bytearray(GOOD[5:9]), GOOD[9:]]), (7, long)]:
                with mock.patch.object(validator._library, "rncv_document_feed", side_effect=begun) as fed:
                    self.assertTrue(validator.validate(iter(document)))
                self.assertEqual(fed.call_count, count)
            # a caller may use one buffer again and again
            room = bytearray(4)

            def through_room():
                for at in range(0, len(GOOD), 4):
                    room[:] = GOOD[at:at + 4].ljust(4)
                    yield memoryview(room)[:len(GOOD[at:at + 4])]

            self.assertTrue(validator.validate(through_room()))

            def without_end():
                while True:
                    yield b"text\n"
                    yield b""

            self.assertEqual(str(validator.validate(without_end())), "malformed P4 line 1")

    def test_five_megabytes(self):
        record = b"(b\n-some words\n)b\n"
        count = 5_000_000 // len(record) + 1
        document = b"(a\n" + record * count + b")a\n"
        bad = b"(a\n" + record * count + b"(c\n)c\n)a\n"
        line = 1 + 3 * count + 2
        with rncv.compile(A) as validator, tempfile.TemporaryFile() as file:
            for given in (document, bytearray(document), cut(document, 4096), io.BytesIO(document)):
                self.assertTrue(validator.validate(given))
            file.write(bad)
            file.seek(0)
            self.assertEqual(validator.validate(file), rncv.Verdict("invalid", 0, line))
            self.assertEqual(validator.validate(memoryview(bad)[:-6]), rncv.Verdict("malformed", 13, line - 1))

    def test_bytes_of_all_kinds(self):
        class Long(bytes):
            def __len__(self):
                return 1 << 40

        eight = b"(a\n-\n)a\n"
        with rncv.compile(A) as validator:
            self.assertEqual(validator.validate(array.array("I", eight)), VALID)
            self.assertEqual(validator.validate(memoryview(eight).cast("I")), VALID)
            self.assertEqual(validator.validate(memoryview(eight).cast("B", (2, 4))), VALID)
            self.assertEqual(validator.validate(memoryview(GOOD[::-1])[::-1]), VALID)
            twice = bytes(byte for one in GOOD for byte in (one, 0))
            self.assertEqual(validator.validate(memoryview(twice)[::2]), VALID)
            self.assertEqual(validator.validate(Long(GOOD)), VALID)
            self.assertEqual(validator.validate([Long(GOOD)]), VALID)

    @unittest.skipUnless(PROGRAM.exists(), f"no program at {PROGRAM}")
    def test_as_the_program(self):
        for path, names in served():
            document = (path / "document.pyx").read_bytes().splitlines(True)
            with folder(path), rncv.compile(*names) as validator:
                for at in range(0, len(document), len(document) // 6 + 1):
                    for lines in (document[:at], document[:at] + document[at + 1:], document[:at + 1] + document[at:], document + document[at:at + 1]):
                        given = b"".join(lines)
                        run = subprocess.run([PROGRAM, "valid", *names], input=given, capture_output=True, timeout=60, check=False)
                        self.assertEqual(f"{validator.validate(given)}\n".encode(), run.stdout)
                run = subprocess.run([PROGRAM, "simple", *names], capture_output=True, timeout=60, check=False)
                self.assertEqual(validator.simple_text(), run.stdout)


class Schemas(unittest.TestCase):
    """Which files are schemas, and how a refusal is reported."""

    def refused(self, *files):
        with self.assertRaises(rncv.SchemaError) as caught:
            rncv.compile(*files)
        error = caught.exception
        self.assertIn(f"### S{error.clause}: {error.title}\n", page("docs/use/CLAUSES.md"))
        has_place = [it is not None for it in (error.offset, error.line, error.column)]
        self.assertEqual(has_place, [3 <= error.clause <= 8] * 3)
        return error

    def test_clauses(self):
        pairs = clauses("S")
        self.assertEqual([number for number, _, _ in pairs], list(range(1, 28)))
        for number, broken, repair in pairs:
            with self.subTest(number):
                error = self.refused(schema_of(broken))
                self.assertEqual(error.clause, number)
                # docs/use/LANGUAGE.md: S1 to S8 are reported with a file; the file of S1 was not given
                self.assertEqual(error.index, 0 if 2 <= number <= 8 else None)
                self.assertEqual(error.file, "b.rnc" if number == 1 else "s.rnc" if number <= 8 else None)
                rncv.compile(schema_of(repair)).close()

    def test_datatypes(self):
        larger, number = {"s.rnc": b"element a { xsd:unsignedByte }"}, {"s.rnc": b"element a { xsd:integer }"}
        self.assertEqual(self.refused(larger).clause, 12)
        for words in ({}, {"datatypes": "profile"}):
            with self.assertRaises(rncv.SchemaError):
                rncv.compile(larger, **words)
            with rncv.compile(number, **words) as validator:
                self.assertFalse(validator.validate(b"(a\n-" + b"1" * 39 + b"\n)a\n"))
        with rncv.compile(larger, datatypes="xml-schema") as validator, validator.share() as other:
            for text, wanted in ((b"255", True), (b"256", False), (b"+07", True), (b"-0", True), (b"1.0", False)):
                self.assertEqual([bool(each.validate(b"(a\n-" + text + b"\n)a\n")) for each in (validator, other)], [wanted] * 2, text)
        with rncv.compile(number, datatypes="xml-schema") as validator:
            self.assertTrue(validator.validate(b"(a\n-" + b"1" * 39 + b"\n)a\n"))
        with folder() as room:
            (room / "s.rnc").write_bytes(larger["s.rnc"])
            rncv.compile("s.rnc", datatypes="xml-schema").close()
            # it is looked at before a file is read
            for wrong in ("", "xsd", "XML-SCHEMA", None, 1, b"profile", ["profile"]):
                with self.assertRaisesRegex(ValueError, "^datatypes is 'profile' or 'xml-schema', and not "):
                    rncv.compile("none.rnc", datatypes=wrong)

    def test_which_file(self):
        main = b'start = element book { empty }\ninclude "bad.rnc"\n'
        error = self.refused({"m.rnc": main, "other.rnc": b"x = empty", "bad.rnc": b"part = element part {"})
        self.assertEqual((error.clause, error.file, error.index), (6, "bad.rnc", 2))
        self.assertTrue(str(error).startswith("refused S6 file bad.rnc: the tokens are a sentence of the grammar"))
        error = self.refused({"m.rnc": main, "bad.rnc": b"# \xff\n"})
        self.assertEqual((error.clause, error.file, error.index), (3, "bad.rnc", 1))
        self.assertEqual((error.offset, error.line, error.column), (2, 1, 3))
        error = self.refused({"m.rnc": main, "./bad.rnc": b"x = empty"})
        self.assertEqual((error.clause, error.file, error.index), (1, "bad.rnc", None))
        self.assertEqual((error.missing, error.mentioned_at), ("bad.rnc", ("m.rnc", 2, 9)))
        self.assertTrue(str(error).startswith("refused S1 file bad.rnc: "))
        self.assertTrue(str(error).endswith(": there is no bad.rnc (m.rnc:2:9)"))
        # a name of any length, and an empty one
        for name in ("x" * 100_000, "caf\u00e9", ""):
            self.assertEqual(self.refused({"m.rnc": f'external "{name}"'.encode()}).file, name)
        again = pickle.loads(pickle.dumps(error))
        self.assertEqual((str(again), again.missing, again.mentioned_at), (str(error), error.missing, error.mentioned_at))
        error = self.refused(TOP / "examples/broken/s.rnc")
        self.assertEqual(str(error).split(":")[0], f"refused S6 file {TOP / 'examples/broken/s.rnc'}")
        again = pickle.loads(pickle.dumps(error))
        self.assertEqual((str(again), again.clause, again.index), (str(error), 6, 0))

    def test_paths(self):
        with folder() as room:
            (room / "parts").mkdir()
            (room / "parts/b.rnc").write_bytes(b"start = element b { empty }\n")
            (room / "m.rnc").write_bytes(b'include "parts/b.rnc"\n')
            with rncv.compile("m.rnc", "parts/b.rnc") as validator:
                self.assertTrue(validator.validate(b"(b\n)b\n"))
            with rncv.compile(pathlib.Path("./m.rnc"), pathlib.Path("parts/b.rnc")) as validator:
                self.assertTrue(validator.validate(b"(b\n)b\n"))
            with rncv.compile("m.rnc", "./parts/b.rnc") as validator:
                self.assertTrue(validator.validate(b"(b\n)b\n"))
            error = self.refused("m.rnc", "parts/b.rnc", "parts/b.rnc")
            self.assertEqual((error.clause, error.file, error.index), (1, "parts/b.rnc", 1))
            with self.assertRaises(FileNotFoundError):
                rncv.compile("m.rnc", "none.rnc")
            # a long file is refused, and is not read to its end
            (room / "m.rnc").write_bytes(b"element a { empty } #" + b"x" * 3_000_000)
            self.assertEqual(self.refused("m.rnc").clause, 2)

    def test_odd_names(self):
        for name in ("a b.rnc", "é/日本語 \U0001f600.rnc", "-x", "'", "%20", "..", "a\tb", "\\x{41}"):
            with self.subTest(name):
                literal = '"""' + name.replace("\\", "\\x{5C}") + '"""'
                files = {"main": f"external {literal}".encode(), name: b"element a { empty }"}
                with rncv.compile(files) as validator:
                    self.assertTrue(validator.validate(b"(a\n)a\n"))
                files[name] = b"element a {"
                error = self.refused(files)
                self.assertEqual((error.clause, error.file, error.index), (6, name, 1))
        for name in ("", "\0", "a\0b", "\n"):
            with self.subTest(name):
                rncv.compile({name: b"element a { empty }"}).close()
                self.assertEqual(self.refused({name: b"{"}).file, name)

    def test_what_is_no_schema(self):
        for files, kind in [
            (({},), ValueError), ((), ValueError), (({"\udc80": b"element a { empty }"},), ValueError), (({"a": "element a { empty }"},), TypeError),
            (({b"a": b"element a { empty }"},), TypeError), ((b"a",), TypeError), ((1,), TypeError), (({"a": 5},), TypeError), (({"a": None},), TypeError),
        ]:
            with self.subTest(files), self.assertRaises(kind):
                rncv.compile(*files)
        for text in (bytearray(b"element a { empty }"), memoryview(b"element a { empty }")):
            rncv.compile({"s.rnc": text}).close()
        with self.assertRaises(TypeError):
            rncv.Validator(None)

    def test_no_files_but_many(self):
        files = {"s.rnc": b"element a { empty }", **{f"{number}.rnc": b"x = empty" for number in range(64)}}
        self.assertEqual(self.refused(files).clause, 2)
        files.popitem()
        rncv.compile(files).close()

    def test_simple_text(self):
        reported = page("docs/use/LANGUAGE.md")
        with rncv.compile(LETTER / "s.rnc") as validator:
            text = validator.simple_text()
            self.assertIn(f"$ rncv simple s.rnc\n{text.decode()}```", reported)
        with rncv.compile({"again.rnc": text}) as validator:
            self.assertEqual(validator.simple_text(), text)
        wide = "a" * 50_000
        with rncv.compile({"s.rnc": f'element {wide} {{ element {wide} {{ empty }} }}'.encode()}) as validator:
            expected = f"start = e0\ne0 = element {wide} {{ e1 }}\ne1 = element {wide} {{ empty }}\n"
            self.assertEqual(validator.simple_text(), expected.encode())

    def test_mentions(self):
        text = b'include "a.rnc" { x = external "b" ~ ".rnc" } include "a.rnc"'
        for file in (text, bytearray(text), memoryview(text)):
            self.assertEqual(rncv.mentions(file), ["a.rnc", "b.rnc", "a.rnc"])
        for file, names in ((b"", []), (b"element a { text }", []), (b'external ""', [""]), ('include "é"'.encode(), ["é"])):
            self.assertEqual(rncv.mentions(file), names)
        # more than the first buffer takes
        names = [f"part{number}.rnc" for number in range(20_000)]
        self.assertEqual(rncv.mentions("".join(f"include '{name}' " for name in names).encode()), names)
        with self.assertRaises(rncv.SchemaError) as caught:
            rncv.mentions(b'include "a.rnc"\nx = ')
        error = caught.exception
        self.assertEqual((error.clause, error.file, error.index, error.offset, error.line, error.column), (6, None, None, 20, 2, 5))
        self.assertEqual(str(error), "refused S6: " + rncv.clause_title("S", 6))
        for file in ('include "a.rnc"', None, [b"empty"]):
            self.assertRaises(TypeError, rncv.mentions, file)

    def test_datatype_place(self):
        text = "# é\r\nelement a { xsd:byte | xsd:none }".encode()
        for file in (text, bytearray(text), memoryview(text)):
            self.assertEqual(rncv.datatype_place(file), (18, 2, 13))
            self.assertEqual(rncv.datatype_place(file, datatypes="xml-schema"), rncv.Place(offset=29, line=2, column=24))
        self.assertEqual(rncv.datatype_place(b"element a { xsd:integer 'x' }", "profile").column, 13)
        # none, and files that break a clause before
        for file in (b"", b"element a { xsd:integer }", b"include 'b.rnc'", b"element a { xsd:none", b"element a:b { xsd:none }", b"xsd:none \xff", b"xsd:none \0"):
            self.assertIsNone(rncv.datatype_place(file))
        # a schema that is refused has one
        larger = b"element a { xsd:unsignedByte }"
        self.assertEqual(self.refused({"s.rnc": larger}).clause, 12)
        self.assertEqual(rncv.datatype_place(larger), (12, 1, 13))
        self.assertIsNone(rncv.datatype_place(larger, "xml-schema"))
        for wrong in ("", "xsd", None, 1):
            self.assertRaises(ValueError, rncv.datatype_place, text, wrong)
        for file in ("xsd:none", None, [b"xsd:none"]):
            self.assertRaises(TypeError, rncv.datatype_place, file)

    def test_titles(self):
        self.assertEqual(rncv.clause_title("P", 13), "a document has a root, and its elements are closed (XML 2.1)")
        for group, clause in [("S", 0), ("S", 28), ("P", 14), ("Q", 1), ("", 1), ("S", -1), ("S", 2 ** 40)]:
            self.assertIsNone(rncv.clause_title(group, clause))
        for clause in (1.5, "1", None):
            self.assertRaises(TypeError, rncv.clause_title, "S", clause)
        self.assertIsNone(VALID.title)

    def test_version(self):
        self.assertIn(rncv.version(), (rncv.__version__, f"{rncv.__version__} (not proved)"))


class Progress(unittest.TestCase):
    """Documents in progress, and documents that are abandoned."""

    def setUp(self):
        self.validator = rncv.compile(A)
        self.addCleanup(self.validator.close)

    def test_editor(self):
        with self.validator.begin() as document:
            self.assertTrue(document.feed(b"(a\n(b\n"))
            self.assertIsNone(document.invalid_since())
            self.assertTrue(document.feed(b")b\n(c\n"))
            self.assertTrue(document.feed(b")c\n"))
            line = document.invalid_since()
            self.assertTrue(4 <= line <= 5)
            self.assertTrue(document.feed(b")a\n"))
            self.assertEqual(document.invalid_since(), line)
            self.assertEqual(document.finish(), rncv.Verdict("invalid", 0, line))

    def test_malformed(self):
        with self.validator.begin() as document:
            self.assertTrue(document.feed(b"(a\n"))
            self.assertFalse(document.feed(b")b\n"))
            self.assertFalse(document.feed(b""))
            self.assertFalse(document.feed(b"x" * 3_000_000))
            self.assertEqual(str(document.finish()), "malformed P8 line 2")

    def test_malformed_in_a_later_part(self):
        with self.validator.begin() as document:
            self.assertFalse(document.feed(b"(a\n" + b"?x\n" * 500_000 + b")b\n" + b"?x\n" * 500_000))
            self.assertEqual(str(document.finish()), "malformed P8 line 500002")

    def test_ended(self):
        document = self.validator.begin()
        document.feed(GOOD)
        self.assertTrue(document.finish())
        for call in (document.finish, document.invalid_since, lambda: document.feed(b""), lambda: document.feed(bytearray()),
                     lambda: document.feed(GOOD), document.__enter__):
            self.assertRaises(ValueError, call)
        document.close()
        with self.validator.begin() as document:
            pass
        self.assertRaises(ValueError, document.finish)
        self.assertRaises(ValueError, rncv.Document(self.validator).finish)
        self.assertTrue(self.validator.validate(GOOD))

    def test_one_at_a_time(self):
        document = self.validator.begin()
        for call in (self.validator.begin, self.validator.share, self.validator.simple_text, lambda: self.validator.validate(GOOD)):
            self.assertRaisesRegex(RuntimeError, "in progress", call)
        document.feed(GOOD)
        self.assertTrue(document.finish())
        self.assertTrue(self.validator.validate(GOOD))

    def test_dropped(self):
        self.validator.begin().feed(BAD)
        gc.collect()
        self.assertEqual(self.validator.simple_text().count(b"element"), 2)
        self.validator.begin().feed(b"(a\n")
        gc.collect()
        self.assertTrue(self.validator.share().validate(GOOD))
        self.validator.begin().feed(b"(a\n")
        gc.collect()
        self.assertTrue(self.validator.validate(GOOD))

    def test_exceptions_of_the_caller(self):
        def pieces():
            yield b"(a\n"
            raise KeyError("mine")

        class File:
            def read(self, size):
                raise OSError("mine")

        def again():
            yield b"(a\n"
            self.validator.validate(GOOD)

        def closes():
            yield b"(a\n"
            self.validator.close()
            yield b")a\n"

        for document, kind in [
            (pieces(), KeyError), (File(), OSError), (again(), RuntimeError), (["(a\n"], TypeError), ([1], TypeError), ("(a\n", TypeError),
            (io.StringIO("(a\n)a\n"), TypeError), (io.StringIO(""), TypeError), (None, TypeError), (5, TypeError), ([b"(a\n", None], TypeError),
        ]:
            with self.subTest(str(document)):
                self.assertRaises(kind, self.validator.validate, document)
                self.assertTrue(self.validator.validate(GOOD))
        self.assertRaisesRegex(ValueError, "closed", self.validator.validate, closes())

    def test_exception_that_is_kept(self):
        def pieces():
            yield b"(a\n"
            raise KeyError("mine")

        try:
            self.validator.validate(pieces())
        except KeyError as error:
            kept = error
        self.assertIsNotNone(kept.__traceback__)
        self.assertTrue(self.validator.validate(GOOD))

    def test_memory_that_is_refused(self):
        """As the header says: without memory a document does not begin, and it ends without a verdict."""
        memory = 3
        for name in ("rncv_document_begin", "rncv_document_feed", "rncv_document_end", "rncv_schema_share", "rncv_simple"):
            with self.subTest(name), mock.patch.object(self.validator._library, name, return_value=memory):
                call = {"rncv_schema_share": self.validator.share, "rncv_simple": self.validator.simple_text}.get(name, lambda: self.validator.validate(GOOD))
                with self.assertRaises(MemoryError) as kept:
                    call()
            self.assertTrue(self.validator.validate(GOOD))
            del kept

    def test_waiting_file(self):
        class File:
            def read(self, size):
                return None

        self.assertRaises(BlockingIOError, self.validator.validate, File())
        self.assertTrue(self.validator.validate(GOOD))

    def test_closed(self):
        validator = rncv.compile(A)
        document = validator.begin()
        validator.close()
        validator.close()
        self.assertTrue(validator.closed)
        for call in (validator.begin, validator.share, validator.simple_text, validator.__enter__, lambda: validator.validate(GOOD), document.finish,
                     document.invalid_since, lambda: document.feed(GOOD)):
            self.assertRaisesRegex(ValueError, "closed", call)
        document.close()
        with rncv.compile(A) as validator:
            other = validator.share()
        self.assertRaises(ValueError, validator.validate, GOOD)
        self.assertTrue(other.validate(GOOD))
        other.close()

    def test_no_copies(self):
        document = self.validator.begin()
        for thing in (self.validator, document):
            for copies in (copy.copy, copy.deepcopy, pickle.dumps):
                self.assertRaises(TypeError, copies, thing)

    def test_two_at_once(self):
        other = rncv.compile({"t.rnc": b"element a { element c { empty } }"})
        with self.validator.begin() as one, other.begin() as two:
            for byte in range(len(BAD)):
                one.feed(BAD[byte:byte + 1])
                two.feed(BAD[byte:byte + 1])
            self.assertEqual(two.finish(), VALID)
            self.assertEqual(one.finish().kind, "invalid")
        other.close()


class Threads(unittest.TestCase):
    """Several threads."""

    def run_all(self, work, arguments):
        wrong = []

        def guarded(*given):
            try:
                work(*given)
            except BaseException as error:  # pylint: disable=broad-except
                wrong.append(error)

        threads = [threading.Thread(target=guarded, args=given) for given in arguments]
        for thread in threads:
            thread.start()
        for thread in threads:
            thread.join()
        self.assertEqual(wrong, [])

    def test_shared(self):
        validator = rncv.compile(A)

        def work(own, number):
            with own:
                for count in range(200):
                    good = (count + number) % 2 == 0
                    self.assertEqual(own.validate(cut(GOOD if good else BAD, 5)).valid, good)

        self.run_all(work, [(validator.share(), number) for number in range(4)])
        self.assertTrue(validator.validate(GOOD))

    def test_one_handle(self):
        validator, reported = rncv.compile(A), []

        def work():
            for _ in range(200):
                try:
                    reported.append(validator.validate(cut(GOOD, 3)))
                except RuntimeError as error:
                    self.assertIn("in progress", str(error))

        self.run_all(work, [()] * 4)
        self.assertEqual(set(reported), {VALID})
        self.assertTrue(validator.validate(GOOD))

    def test_closed_by_another(self):
        for _ in range(20):
            validator = rncv.compile(A)
            document = validator.begin()

            def feed(document=document):
                with contextlib.suppress(ValueError):
                    document.feed(b"(a\n")
                    while True:
                        document.feed(b"(b\n)b\n" * 1000)

            self.run_all(lambda call: call(), [(feed,), (validator.close,)])

    def test_end_of_the_process(self):
        code = f"""
import rncv, threading
begun = threading.Event()
def pieces():
    yield b"(a\\n"
    begun.set()
    while True:
        yield b"(b\\n)b\\n" * 170_000
validator = rncv.compile({A!r})
threading.Thread(target=validator.validate, args=(pieces(),), daemon=True).start()
begun.wait()
print("end")
"""
        run = python(code, RNCV_LIBRARY=os.environ["RNCV_LIBRARY"])
        self.assertEqual((run.stdout, run.stderr, run.returncode), ("end\n", "", 0))


class Library(unittest.TestCase):
    """Where the library is searched, and running out of memory."""

    CODE = "import rncv; print(rncv.compile({'s.rnc': b'element a { empty }'}).validate(b'(a\\n)a\\n'))"

    def package(self, room):
        """A copy of the package alone."""
        room.mkdir(parents=True)
        (room / "rncv").mkdir()
        for module in (TOP / "programs/python/rncv").glob("*.py"):
            (room / "rncv" / module.name).write_bytes(module.read_bytes())
        return room

    def test_places(self):
        built = pathlib.Path(os.environ["RNCV_LIBRARY"])
        with folder() as room:
            top = room / "checkout"
            path = self.package(top / "programs/python")
            run = python(self.CODE, path)
            self.assertIn("rncv.LibraryError: no library of rncv", run.stderr)
            for place in (path / "rncv", path):
                self.assertIn(f"{place}/librncv.so", run.stderr)
                (place / "librncv.so").symlink_to(built)
                self.assertEqual(python(self.CODE, path).stdout, "valid\n")
                (place / "librncv.so").unlink()
            (top / "build/library/lib").mkdir(parents=True)
            (top / "build/library/lib/librncv.so").symlink_to(built)
            self.assertIn("LibraryError", python(self.CODE, path).stderr)
            (top / "programs/library/include").mkdir(parents=True)
            (top / "programs/library/include/rncv.h").touch()
            self.assertEqual(python(self.CODE, path).stdout, "valid\n")
            # if the variable is set, only its place is searched
            run = python(self.CODE, path, RNCV_LIBRARY=str(room / "none.so"))
            self.assertIn(f"RNCV_LIBRARY={room / 'none.so'}", run.stderr)
            self.assertNotIn("checkout/build", run.stderr)
            (room / "text.so").write_text("no library")
            self.assertIn("LibraryError", python(self.CODE, path, RNCV_LIBRARY=str(room / "text.so")).stderr)

    def test_other_library(self):
        other = ctypes.util.find_library("c")
        if other is None:
            self.skipTest("no C library is found")
        code = f"import rncv; rncv._places = lambda: iter([('other', {other!r})]); rncv.clause_title('S', 1)"
        self.assertRegex(python(code).stderr, "(?s)LibraryError.*other: .*rncv_compile")

    def test_want_of_memory(self):
        code = """
import resource, rncv
text = b"start = element a { empty }\\n" + b"".join(b"x%d = element b { x%d }\\n" % (i, i) for i in range(30_000))
validator = rncv.compile({"s.rnc": b"element a { text }"})
with open("/proc/self/statm") as file:
    pages = int(file.read().split()[0])
usual = resource.getrlimit(resource.RLIMIT_AS)
resource.setrlimit(resource.RLIMIT_AS, (pages * resource.getpagesize() + 3_000_000, usual[1]))
try:
    rncv.compile({"s.rnc": text})
except MemoryError as error:
    print(error)
resource.setrlimit(resource.RLIMIT_AS, usual)
print(validator.validate(b"(a\\n)a\\n"), rncv.compile({"s.rnc": text}).validate(b"(a\\n)a\\n"))
"""
        if not os.path.exists("/proc/self/statm"):
            self.skipTest("no /proc")
        run = python(code, RNCV_LIBRARY=os.environ["RNCV_LIBRARY"])
        self.assertEqual((run.stdout, run.stderr), ("rncv: out of memory\nvalid valid\n", ""))


class Xml(unittest.TestCase):
    """PYX of `programs/xml`, passed on as docs/use/LIBRARY.md shows it."""

    def test_letters(self):
        from pyx_writer import convert

        reported = page("README.md")
        for name, expected in [("letter.xml", "letter.xml: valid"), ("untitled.xml", "untitled.xml:3:3: invalid")]:
            self.assertIn(f"examples/letter/{expected}", reported)
            places = []
            with rncv.compile(LETTER / "s.rnc") as validator, validator.begin() as document, open(LETTER / name, "rb") as source:
                convert(source, document.feed, lambda own, place: places.append(place))
                verdict = document.finish()
            place = "" if verdict else ":{}:{}".format(*places[verdict.line - 1])
            self.assertEqual(f"{name}{place}: {verdict.kind}", expected)


if __name__ == "__main__":
    unittest.main()
