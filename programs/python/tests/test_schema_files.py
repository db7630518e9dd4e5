"""Tests of how `rncv.compile` finds the files of a schema."""
import os
import pathlib
import tempfile
import time
import unittest

from pages import TOP  # noqa: F401, pylint: disable=unused-import

import rncv
from rncv import _schema_files

ELEMENT = b"a = element a { empty }\n"
GOOD = b"(a\n)a\n"


class Found(unittest.TestCase):
    """A file that another one mentions is beside that one, whatever folder the process is in."""

    def setUp(self):
        before = os.getcwd()
        self.addCleanup(os.chdir, before)
        room = tempfile.TemporaryDirectory()
        self.addCleanup(room.cleanup)
        self.room = pathlib.Path(room.name)
        os.chdir(self.room)
        self.write("sch/main.rnc", b'include "parts/b.rnc"\nstart = a\n')
        self.write("sch/parts/b.rnc", b'include "c.rnc"\n')
        self.write("sch/parts/c.rnc", ELEMENT)

    def write(self, name, text):
        path = self.room / name
        path.parent.mkdir(parents=True, exist_ok=True)
        path.write_bytes(text)

    def is_good(self, *paths):
        with rncv.compile(*paths) as validator:
            self.assertTrue(validator.validate(GOOD))

    def refused(self, *paths):
        with self.assertRaises(rncv.SchemaError) as caught:
            rncv.compile(*paths)
        return caught.exception

    def test_from_any_folder(self):
        for folder, path in ((".", "sch/main.rnc"), ("sch", "main.rnc"), ("sch/parts", "../main.rnc"), ("/", self.room / "sch/main.rnc"),
                             (".", "./sch//../sch/main.rnc"), (".", pathlib.Path("sch/main.rnc"))):
            os.chdir(self.room / folder)
            self.is_good(path)

    def test_files_that_are_given_too(self):
        self.is_good("sch/main.rnc", "sch/parts/b.rnc", "sch/parts/c.rnc")
        os.chdir("sch")
        self.is_good("main.rnc", "parts/b.rnc")
        self.write("top.rnc", b'include "sch/main.rnc"\n')
        self.write("sch/top.rnc", b'include "sch/main.rnc"\n')
        os.chdir("..")
        self.is_good("sch/top.rnc", "sch/main.rnc")
        self.assertEqual(self.refused("sch/top.rnc").clause, 1)

    def test_missing(self):
        (self.room / "sch/parts/c.rnc").unlink()
        for folder, path, shown in (("", "sch/main.rnc", "sch/"), ("sch", "./main.rnc", "./"), ("/", str(self.room / "sch/main.rnc"), f"{self.room}/sch/")):
            os.chdir(self.room / folder)
            error = self.refused(path)
            self.assertEqual((error.clause, error.file, error.index, error.line), (1, "c.rnc", None, None))
            self.assertEqual(error.missing, os.path.normpath(f"{shown}parts/c.rnc"))
            self.assertEqual(error.mentioned_at, (f"{shown}parts/b.rnc", 1, 9))
            self.assertTrue(str(error).endswith(f": there is no {error.missing} ({shown}parts/b.rnc:1:9)"), str(error))
        os.chdir(self.room)
        self.write("m.rnc", 'é = empty\r\n\ta = empty include "http://example.org/x.rnc"\n'.encode())
        error = self.refused("m.rnc")
        self.assertEqual((error.missing, error.mentioned_at), ("http://example.org/x.rnc", ("m.rnc", 2, 20)))
        self.write("m.rnc", b'\\x{69}nclude \'\\x{70}arts/\' ~ # joined\n"x.rnc"\n')
        self.assertEqual((self.refused("m.rnc").missing, self.refused("m.rnc").mentioned_at), ("parts/x.rnc", ("m.rnc", 1, 14)))
        with self.assertRaises(FileNotFoundError) as caught:
            rncv.compile("none.rnc")
        self.assertEqual(caught.exception.filename, "none.rnc")

    def test_missing_in_a_mapping(self):
        files = {"m.rnc": b'include "a.rnc" include "b.rnc"', "a.rnc": b'start = external "c.rnc"', "b.rnc": b'x = external "d.rnc"',
                 "e.rnc": b'include "f.rnc"'}
        self.assertEqual((self.refused(files).missing, self.refused(files).mentioned_at), ("c.rnc", ("a.rnc", 1, 18)))
        files["c.rnc"] = b"element a { empty }"
        self.assertEqual(self.refused(files).missing, "d.rnc")
        files["d.rnc"] = files["c.rnc"]
        self.is_good(files)
        # nothing is read for a mapping
        self.assertEqual(self.refused({"sch/main.rnc": b'include "parts/b.rnc"'}).missing, "parts/b.rnc")

    def test_where_a_file_is_refused(self):
        self.write("sch/parts/c.rnc", b"a = element a {")
        error = self.refused("sch/main.rnc")
        self.assertEqual((error.clause, error.file, error.index, error.line, error.column), (6, "sch/parts/c.rnc", 2, 1, 16))
        self.assertTrue(str(error).startswith("refused S6 file sch/parts/c.rnc: "))

    def test_two_files(self):
        self.write("parts/b.rnc", ELEMENT)
        with self.assertRaisesRegex(ValueError, "^'parts/b.rnc' in sch/main.rnc may be sch/parts/b.rnc or parts/b.rnc$"):
            rncv.compile("sch/main.rnc", "parts/b.rnc")
        self.is_good("sch/main.rnc")
        self.write("sch/main.rnc", b'include "parts/b.rnc" include "c.rnc" start = a\n')
        self.write("sch/c.rnc", b"x = empty\n")
        with self.assertRaisesRegex(ValueError, "^'c.rnc' in sch/main.rnc is sch/c.rnc and 'c.rnc' in sch/parts/b.rnc is sch/parts/c.rnc: one name is one "
                                    "file; write one of them as './c.rnc'$"):
            rncv.compile("sch/main.rnc")
        self.write("sch/main.rnc", b'include "parts/b.rnc" include "./c.rnc" start = a\n')
        self.is_good("sch/main.rnc")
        # the main file's own name may mean another file elsewhere
        self.write("sch/parts/main.rnc", ELEMENT)
        self.write("sch/parts/b.rnc", b'include "main.rnc"\n')
        os.chdir("sch")
        self.is_good("main.rnc")

    def test_uris(self):
        self.write("sch/a b%.rnc", ELEMENT)
        for words in ("a b%.rnc", "a%20b%25.rnc", f"file://{self.room}/sch/a%20b%25.rnc", f"file://localhost{self.room}/sch/a%20b%25.rnc#x",
                      f"{self.room}/sch/a b%.rnc", "./a%20b%25.rnc", "parts/../a b%.rnc"):
            self.write("sch/u.rnc", f'include "{words}" start = a'.encode())
            self.is_good("sch/u.rnc")
        for words in ("file://elsewhere/a.rnc", "http://example.org/a.rnc", "", "a%00.rnc"):
            self.write("sch/u.rnc", f'include "{words}" start = a'.encode())
            self.assertEqual(self.refused("sch/u.rnc").clause, 1)

    def test_what_is_no_mention(self):
        self.write("m.rnc", b'# include "x.rnc"\n[ b:c [ include "x.rnc" ] ] \\include = "include" include.x = "y"\nstart = element a { empty }\n'
                            b"namespace b = 'external'\n")
        self.assertEqual([], list(_schema_files._places_in((self.room / "m.rnc").read_bytes())))
        long = b'include "x.rnc" #' + b"x" * 1_048_576
        self.write("m.rnc", long)
        self.assertEqual(self.refused("m.rnc").clause, 2)

    def test_time(self):
        """The time grows with the length of the file."""
        begun = time.process_time()
        for text in (b"include #" + b" " * 1_000_000, b"include " + b"# #\n" * 250_000, b'include "" ~ # "\n' * 60_000, (b"include #\n" + b" " * 100) * 9_000,
                     b"\'\'\'" + b'"' * 1_000_000, b"include " * 130_000, b"a:" * 500_000, b"\\x{23}" * 150_000):
            list(_schema_files._places_in(text))
        self.assertLess(time.process_time() - begun, 20)

    def test_many_files(self):
        for number in range(80):
            self.write(f"many/{number}.rnc", b'include "%d.rnc"\n' % (number + 1))
        self.write("many/80.rnc", ELEMENT)
        self.assertEqual(self.refused("many/0.rnc").clause, 2)
        self.write("many/60.rnc", ELEMENT)
        self.write("many/m.rnc", b'include "0.rnc" start = a')
        self.is_good("many/m.rnc")
        self.write("many/60.rnc", b'include "0.rnc"\n')
        self.assertNotIn(self.refused("many/0.rnc").clause, (1, 2))

    @unittest.skipIf(os.geteuid() == 0, "root reads every file")
    def test_unreadable(self):
        os.chmod("sch/parts/c.rnc", 0)
        with self.assertRaises(PermissionError):
            rncv.compile("sch/main.rnc")


if __name__ == "__main__":
    unittest.main()
