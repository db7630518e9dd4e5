"""Tests of `run.py`, over the repository's own examples and a folder of a schema of each kind:   test.py

RNCV_XML_PROGRAMS names the folder of rncv-xml, by default build/xml. Without it the tests are skipped, or fail if RNCV_REQUIRED is set.
"""
import contextlib
import io
import os
import pathlib
import shutil
import subprocess
import sys
import tempfile
import unittest
import unittest.mock
import zipfile

import run

PROGRAM = pathlib.Path(os.environ.get("RNCV_XML_PROGRAMS", run.TOP / "build/xml")) / "rncv-xml"
XSD = 'datatypeLibrary="http://www.w3.org/2001/XMLSchema-datatypes"'
FILES = {
    "served.rnc": 'include "part.rnc" start = element a { attribute x { xsd:integer }?, text, b }', "part.rnc": "b = element b { text }",
    "same.rng": f'<element name="a" xmlns="http://relaxng.org/ns/structure/1.0" {XSD}><data type="token"/></element>',
    "dates.rnc": 'include "part.rnc" start = element a { attribute x { xsd:date }, attribute y { xsd:decimal { pattern = "a" } }, b }',
    "broken.rnc": "start = element a {",
    "hidden.rnc": "start = element a { attribute x { xsd:date }, attribute x { text } }", "far.rnc": 'start = external "http://example.org/x.rnc"',
}
DOCUMENTS = {"good.xml": "<a>1<b/></a>", "bad.xml": "<a/>", "cut.xml": "<a>", "left-out.xml": "<!DOCTYPE a SYSTEM 'none.dtd'><a/>"}


class Shipped(unittest.TestCase):
    def setUp(self):
        if not PROGRAM.is_file():
            self.assertNotIn("RNCV_REQUIRED", os.environ, f"no {PROGRAM}")
            self.skipTest(f"no {PROGRAM}")
        folder = tempfile.TemporaryDirectory()
        self.addCleanup(folder.cleanup)
        self.folder = pathlib.Path(folder.name) / "some"
        self.folder.mkdir()
        for name, text in {**FILES, **DOCUMENTS}.items():
            (self.folder / name).write_text(text, encoding="utf-8")

    def report(self, *words, has_jing=False):
        """The lines that the script prints, and its status."""
        out = io.StringIO()
        which = shutil.which if has_jing else lambda name: None
        with contextlib.redirect_stdout(out), unittest.mock.patch.object(sys, "argv", ["run.py", "--program", str(PROGRAM), *map(str, words)]), \
                unittest.mock.patch.object(run.shutil, "which", which):
            status = run.run()
        return out.getvalue().split("\n"), status

    def test_each_kind(self):
        lines, status = self.report("--datatypes", "profile", self.folder)
        self.assertIn("| some | 7 | 2 | 1 | 1 | 3 | 0 | 0, 0 | 0 |", lines)
        self.assertEqual(status, 1)
        self.assertIn("| `xsd:date` | 1 | 0 |", lines)
        self.assertIn("| `xsd:decimal` | 1 | 0 |", lines)
        for name, clause in (("hidden", "S24"), ("broken", "S6"), ("far", "S1")):
            self.assertTrue(any(f"{name}.rnc: " in it and f" {clause} " in it for it in lines), lines)

    def test_beside_jing(self):
        if not shutil.which("jing"):
            self.skipTest("jing is not installed")
        for name in ("hidden.rnc", "far.rnc"):
            (self.folder / name).unlink()
        lines, status = self.report("--datatypes", "profile", "--documents", self.folder, self.folder, has_jing=True)
        self.assertIn("| some | 5 | 2 | 1 | 2 | 0 | 0 | 6, 2 | 0 |", lines)
        self.assertEqual((lines[-2:], status), (["", ""], 0))
        lines, status = self.report("--datatypes", "profile", "--own", 9, "--list", self.folder, has_jing=True)
        self.assertIn("| some | 5 | 2 | 1 | 2 | 0 | 0 | 6, 2 | 0 |", lines)
        self.assertIn(f"served: {self.folder}/same.rng", lines)
        self.assertIn(f"datatypes: {self.folder}/dates.rnc: pattern, xsd:date, xsd:decimal", lines)

    def test_some_documents(self):
        for count, taken in ((0, []), (1, [0]), (2, [0, 5]), (3, [0, 4, 8]), (10, list(range(10))), (99, list(range(10)))):
            self.assertEqual(run.some_of(list(range(10)), count), taken)
        self.assertEqual(run.some_of([], 5), [])

    def test_a_difference_is_told(self):
        verdicts = {self.folder / "good.xml": "invalid"}
        with unittest.mock.patch.object(run.Jing, "judge", lambda *_: (True, "", verdicts)):
            tried = run.try_schema(run.Rncv(PROGRAM), run.Jing(), self.folder / "served.rnc", list(verdicts))
        self.assertEqual(tried.differences, (f"{self.folder}/good.xml: valid, and by jing invalid",))

    def test_sets_of_datatypes(self):
        (self.folder / "larger.rnc").write_text("element a { attribute x { xsd:int { maxExclusive = \"5\" } }, xsd:QName }", encoding="utf-8")
        self.assertIn("| some | 8 | 4 | 0 | 1 | 3 | 0 | 0, 0 | 0 |", self.report(self.folder)[0])
        lines, _ = self.report("--datatypes", "profile", self.folder)
        self.assertIn("| some | 8 | 2 | 2 | 1 | 3 | 0 | 0, 0 | 0 |", lines)
        self.assertIn("| `xsd:QName` | 1 | 0 |", lines)

    def test_packages(self):
        """A package is fetched by apt-get, here by a script of that name, and a jar in it is looked into."""
        if not shutil.which("dpkg-deb"):
            self.skipTest("dpkg-deb is not installed")
        room = self.folder.parent
        for folder in ("package/DEBIAN", "package/usr", "bin"):
            (room / folder).mkdir(parents=True)
        control = "Package: some-schemas\nVersion: 1\nArchitecture: all\nMaintainer: nobody <n@example.org>\nDescription: none\n"
        (room / "package/DEBIAN/control").write_text(control)
        (room / "package/usr/a.rnc").write_text(FILES["part.rnc"].replace("b =", "start ="))
        with zipfile.ZipFile(room / "package/usr/b.jar", "w") as jar:
            jar.writestr("in/b.rng", FILES["same.rng"])
            jar.writestr("in/b.txt", "x")
        (room / "package/usr/same.jar").symlink_to("b.jar")
        subprocess.run(["dpkg-deb", "-b", "package", "some-schemas_1_all.deb"], cwd=room, stdout=subprocess.DEVNULL, check=True)
        (room / "bin/apt-get").write_text(f'#!/bin/sh\n[ "$*" = "download -q some-schemas" ] && cp "{room}/some-schemas_1_all.deb" .\n')
        (room / "bin/apt-get").chmod(0o755)
        with unittest.mock.patch.dict(os.environ, {"PATH": f"{room}/bin:{os.environ['PATH']}"}):
            lines, status = self.report("some-schemas")
        self.assertEqual((lines[2], status), ("| some-schemas | 2 | 2 | 0 | 0 | 0 | 0 | 0, 0 | 0 |", 0))

    def test_the_examples(self):
        lines, _ = self.report(run.TOP / "examples")
        row = next(it for it in lines if it.startswith("| examples |")).split(" | ")
        self.assertGreater(int(row[1]), 10)
        self.assertGreaterEqual(int(row[2]), 8)
        self.assertEqual(lines[2].replace("examples", "all"), lines[3])


if __name__ == "__main__":
    unittest.main(verbosity=1)
