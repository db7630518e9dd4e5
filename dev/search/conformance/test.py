"""Tests of `run.py`, over a suite of a few made-up cases, without a network:   test.py

RNCV_XML_PROGRAMS names the folder of rncv-xml, by default build/xml. Without it a program in Python is tried alone, or tests fail if RNCV_REQUIRED is set.
"""
import contextlib
import io
import os
import pathlib
import sys
import tarfile
import tempfile
import unittest
import unittest.mock

import run
import suite

HERE = pathlib.Path(__file__).resolve().parent
PROGRAM = pathlib.Path(os.environ.get("RNCV_XML_PROGRAMS", run.TOP / "build/xml")).resolve() / "rncv-xml"
FILES = {
    "xmlconf.xml": """<!DOCTYPE TESTSUITE SYSTEM "testcases.dtd" [
<!ENTITY clark SYSTEM "xmltest/list.xml"><!ENTITY sun SYSTEM "sun/list.xml"><!ENTITY oasis SYSTEM "oasis/list.xml"><!ENTITY new SYSTEM "eduni/new/list.xml">]>
<TESTSUITE><TESTCASES xml:base="xmltest/">&clark;</TESTCASES>&sun;<TESTCASES>&oasis;</TESTCASES><TESTCASES>&new;</TESTCASES></TESTSUITE>""",
    "xmltest/list.xml": """<?xml version="1.0" encoding="UTF-8"?><TESTCASES PROFILE="some">
<TEST TYPE="not-wf" ENTITIES="none" ID="bad" URI="not-wf/bad.xml" SECTIONS="2">An end tag
  is <EM>missing</EM>.</TEST>
<TEST TYPE="valid" ID="good" URI="good.xml" OUTPUT="out/good.xml">The entity is there.</TEST>
<TEST TYPE="not-wf" ENTITIES="general" ID="far" URI="far.xml">The entity is malformed.</TEST>
<TEST TYPE="not-wf" ID="name" URI="name.xml">A name.</TEST></TESTCASES>""",
    "xmltest/not-wf/bad.xml": "<a>",
    "xmltest/good.xml": "<!DOCTYPE a [<!ENTITY e 't&#10;'><!ATTLIST a y NMTOKEN ' d '>]><a x='1 '><!--c-->&e;</a>",
    "xmltest/out/good.xml": '<a x="1 " y="d">t&#10;</a>',
    "xmltest/far.xml": "<!DOCTYPE a [<!ENTITY e SYSTEM 'far.ent'>]><a>&e;</a>",
    "xmltest/far.ent": "<b>",
    "xmltest/name.xml": "<\u309a/>",
    "sun/list.xml": """<TEST TYPE="invalid" ID="other" URI="other.xml">Text.</TEST><TEST TYPE="error" ID="odd" URI="odd.xml">Either.</TEST>""",
    "sun/other.xml": "<!DOCTYPE a [<!ELEMENT a EMPTY>]><a>t</a>",
    "sun/odd.xml": "<a>&#1;</a>",
    "oasis/list.xml": """<TEST TYPE="valid" ID="o-1" URI="o 1.xml"/><TEST TYPE="not-wf" RECOMMENDATION="NS1.0" ID="o-2" URI="o2.xml"/>""",
    "oasis/o 1.xml": "<a/>",
    "oasis/o2.xml": "<p:a/>",
    "eduni/new/list.xml": """<TEST TYPE="valid" VERSION="1.1" ID="n-1" URI="new.xml"/>""",
    "eduni/new/new.xml": "<?xml version='1.1'?><a>&#1;</a>",
}
REASONS = "# cases, answer, reason\nna[m]e other !other\tvalid\tnames of the fifth edition\n"
# A program that gets one document, and says by its status what is right; like expat, it has not the names of the fifth edition. It reads no external entity.
BY_STATUS = """#!/bin/sh
[ $# = 1 ] || exit 3
case "$1" in
  */bad.xml | */name.xml | */odd.xml | */o2.xml) echo "$1: malformed" >&2; exit 2 ;;
  */far.xml) echo "$1: an entity is not read" >&2 ;;
esac
"""
# An apt-get that has one source package.
APT_GET = """#!/bin/sh
grep -q SourceParts "$APT_CONFIG" && grep -q '^deb-src ' "$(dirname "$APT_CONFIG")/sources.list" || exit 9
case "$*" in
  "-q update") ;;
  "-q source --download-only qtbase-opensource-src") cp "{archive}" . ;;
  *) exit 8 ;;
esac
"""


def write_files(folder, files):
    for name, text in files.items():
        (folder / name).parent.mkdir(parents=True, exist_ok=True)
        (folder / name).write_text(text, encoding="utf-8")


class Conformance(unittest.TestCase):
    def setUp(self):
        room = tempfile.TemporaryDirectory()
        self.addCleanup(room.cleanup)
        self.room = pathlib.Path(room.name)
        self.top = self.room / "suite"
        write_files(self.top, FILES)
        write_files(self.room, {"reasons.tsv": REASONS, "none.tsv": ""})
        self.by_status = self.script("by-status", BY_STATUS)

    def script(self, name, text):
        path = self.room / name
        path.parent.mkdir(exist_ok=True)
        path.write_text(text, encoding="utf-8")
        path.chmod(0o755)
        return path

    def report(self, *words, reasons="reasons.tsv", **environment):
        """What the script prints, its status, and what it says of faults."""
        out, told = io.StringIO(), io.StringIO()
        words = ["run.py", "--reasons", self.room / reasons, *words]
        with contextlib.redirect_stdout(out), contextlib.redirect_stderr(told), unittest.mock.patch.object(sys, "argv", list(map(str, words))), \
                unittest.mock.patch.dict(os.environ, environment):
            status = run.main()
        return out.getvalue(), status, told.getvalue()

    def by_rncv(self, *words, **more):
        if not PROGRAM.is_file():
            self.assertNotIn("RNCV_REQUIRED", os.environ, f"no {PROGRAM}")
            self.skipTest(f"no {PROGRAM}")
        return self.report("--program", PROGRAM, "--suite", self.top, *words, **more)

    def by_each(self, *words, **more):
        return self.report("--each", "--program", self.by_status, "--suite", self.top, "--way", "alone", *words, **more)

    def test_the_program(self):
        out, status, _ = self.by_rncv()
        for row in ("| sun | 2 | 2 | 0 | 0 |", "| sun, dtd | 2 | 2 | 0 | 0 |", "| xmltest | 4 | 3 | 1 | 0 |", "| xmltest, dtd | 4 | 3 | 1 | 0 |"):
            self.assertIn(row, out)
        self.assertIn("\n2 valid: names of the fifth edition\n", out)
        self.assertIn("6 cases, with PYX: 0 differences without a reason, 0 reasons without a difference", out)
        self.assertEqual(status, 0)

    def test_a_difference_without_a_reason(self):
        out, status, _ = self.by_rncv("--way", "alone", reasons="none.tsv")
        self.assertIn("\nname (not-wf, entities: none), alone: valid: A name.; ", out)
        self.assertIn("; expat: malformed\n", out)
        self.assertEqual(status, 1)

    def test_a_reason_without_a_difference(self):
        write_files(self.room, {"more.tsv": REASONS + "ba*\tvalid\tnothing\no-*\tvalid\tthese are not run\n"})
        out, status, _ = self.by_rncv(reasons="more.tsv")
        self.assertIn("\nbad: no difference needs the row ba*: valid\n", out)
        self.assertEqual((status, "o-1" in out), (1, False))
        self.assertEqual(self.by_rncv("--way", "dtd", reasons="more.tsv")[1], 0)

    def test_other_pyx(self):
        """A program whose PYX lacks the attribute by default."""
        pyx = self.script("pyx", "#!/bin/sh\nprintf '(a\\nAx 1 \\n-t\\\\n\\n)a\\n'\n")
        out, status, _ = self.by_rncv("--pyx", pyx)
        self.assertIn("\ngood (valid, entities: none), dtd: pyx: line 3 of its PYX is '-t\\\\n', and not 'Ay d'", out)
        self.assertEqual(status, 1)
        write_files(self.room, {"more.tsv": REASONS + "good\tpyx\ttried\n"})
        out, status, _ = self.by_rncv("--pyx", pyx, "--list", reasons="more.tsv")
        self.assertIn("not 'Ay d'; ", out)
        self.assertIn(" [tried]\n", out)
        self.assertEqual(status, 0)

    def test_all(self):
        out, status, _ = self.by_each("--all", reasons="none.tsv")
        self.assertEqual([it.split(" | ")[0:3] for it in out.split("\n")[2:5]], [["| oasis", "2", "2"], ["| sun", "2", "2"], ["| xmltest", "4", "4"]])
        self.assertEqual(status, 0)
        for words, count in ((["--all", "--no-namespaces"], 7), (["--no-doctype"], 3), (["--outputs"], 7), (["--all", "--no-doctype", "--outputs"], 6),
                             (["--all", "o*"], 4), (["*/output", "--outputs"], 1)):
            self.assertIn(f": {count} cases, without PYX: 0 differences", self.by_each(*words)[0])

    def test_a_program_that_fails(self):
        out, status, _ = self.by_each("--way", "dtd", reasons="none.tsv")
        self.assertIn("| sun, dtd | 2 | 0 | 0 | 2 |", out)
        self.assertIn("\nodd (error, entities: none), dtd: failed: status 3:", out)
        self.assertEqual(status, 1)
        silent = self.script("silent", "#!/bin/sh\n[ $# = 1 ] || echo no\n")
        out, status, _ = self.report("--program", silent, "--suite", self.top)
        self.assertIn("\nbad (not-wf, entities: none), alone: failed: ", out)
        self.assertEqual(status, 1)

    def test_a_program_that_gives_up(self):
        outside = self.script("outside", "#!/bin/sh\necho 'this is outside' >&2\nexit 2\n")
        out, status, _ = self.report("--each", "--program", outside, "--suite", self.top, "good", "far")
        self.assertIn("\ngood (valid, entities: none), alone: outside: this is outside; ", out)
        self.assertEqual(("\nfar" in out, status), (False, 1))

    def test_what_cannot_be_used(self):
        refusing = self.script("refusing", "#!/bin/sh\necho no schema\nexit 3\n")
        for words, wanted in ((["--program", self.room / "nothing"], "there is no program"), (["--program", refusing], "no schema"),
                              (["--each", "--program", self.by_status, "nothing"], "no case of the suite is to be run"),
                              (["--each", "--program", self.by_status, "--suite", self.room], "is no empty folder")):
            _, status, told = self.report("--suite", self.top, *words)
            self.assertIn(wanted, told)
            self.assertEqual(status, 2)
        for row in ("a\tvalid", "a\tgood\tnever", "a\tvalid\t"):
            write_files(self.room, {"broken.tsv": f"# a head\n{row}\n"})
            _, status, told = self.by_each(reasons="broken.tsv")
            self.assertIn("broken.tsv:2: a row has", told)
            self.assertEqual(status, 2)

    def test_lists_that_are_broken(self):
        for name, text, wanted in (("sun/list.xml", "<TEST", "sun/list.xml:1:"), ("sun/list.xml", "<TEST ID='x' URI='other.xml'/>", "a case without TYPE"),
                                   ("sun/list.xml", "<TEST ID='x' TYPE='x' URI='other.xml'/>", "of no kind that is known: x"),
                                   ("sun/list.xml", "<TEST ID='x' TYPE='valid' URI='x.xml'/>", "there is no document of the case x"),
                                   ("sun/list.xml", None, "sun/list.xml: No such file"), ("xmlconf.xml", "<a>&b;</a>", "xmlconf.xml:1:")):
            write_files(self.top, FILES)
            (self.top / name).unlink() if text is None else (self.top / name).write_text(text)
            _, status, told = self.by_each()
            self.assertIn(wanted, told)
            self.assertEqual(status, 2)

    def test_reading(self):
        cases = {it.name: it for it in suite.cases_of(self.top)}
        self.assertEqual(list(cases), ["bad", "good", "far", "name", "other", "odd", "o-1", "o-2", "n-1"])
        self.assertEqual(cases["bad"].about, "An end tag is missing.")
        self.assertEqual([it.collection for it in cases.values()], 4 * ["xmltest"] + 2 * ["sun"] + 2 * ["oasis"] + ["eduni"])
        self.assertEqual([name for name, it in cases.items() if it.is_1_1], ["n-1"])
        for encoding in ("utf-8", "utf-16", "utf-16-be"):
            (self.top / "oasis/o 1.xml").write_bytes("<!DOCTYPE a><a/>".encode(encoding))
            self.assertTrue(cases["o-1"].has_doctype())

    def path(self):
        """Where programs are looked for, with those of the test before others."""
        return f"{self.room}/bin:{os.environ['PATH']}"

    def archive(self, files):
        """An archive of a source package with these files, and with others that are not to be unpacked."""
        path = self.room / "qtbase-opensource-src_1.orig.tar.xz"
        inside = "qt-1/tests/XML-Test-Suite/xmlconf/"
        with tarfile.open(path, "w:xz") as packed:
            for name, text in {**{inside + it: text for it, text in files.items()}, "qt-1/other": "x", inside + "../up": "x"}.items():
                member = tarfile.TarInfo(name)
                member.size = len(text.encode())
                packed.addfile(member, io.BytesIO(text.encode()))
            link = tarfile.TarInfo(inside + "link")
            link.type, link.linkname = tarfile.SYMTYPE, "/etc/passwd"
            packed.addfile(link)
        return path

    def test_fetching(self):
        self.script("bin/apt-get", APT_GET.format(archive=self.archive(FILES)))
        for kept in (["--suite", self.room / "some/kept"], []):
            out, status, told = self.report("--each", "--program", self.by_status, "--way", "alone", *kept, reasons="none.tsv", PATH=self.path())
            self.assertIn(": 6 cases", out, told)
            self.assertEqual(status, 0)
        self.assertEqual(sorted(it.relative_to(self.room / "some/kept").as_posix() for it in (self.room / "some").rglob("*") if it.is_file()), sorted(FILES))

    def test_that_it_is_skipped(self):
        for script, wanted in (("echo 'E: no network'; exit 100", "qtbase-opensource-src is not to be had: E: no network"), ("exit 0", "it has no archive"),
                               (APT_GET.format(archive=self.archive({"readme": "x"})), "the suite is not in it"),
                               ("echo x > qtbase-opensource-src_1.orig.tar.xz", "qtbase-opensource-src_1.orig.tar.xz: ")):
            self.script("bin/apt-get", f"#!/bin/sh\n{script}\n")
            out, status, told = self.report("--each", "--program", self.by_status, "--suite", self.room / "kept", PATH=self.path())
            self.assertIn("dev/search/conformance: skipped: ", told)
            self.assertIn(wanted, told)
            self.assertEqual((out, status, (self.room / "kept").exists()), ("", 77, False))
        self.assertIn("apt-get is not installed", self.report("--each", "--program", self.by_status, PATH=str(self.room))[2])

    def test_the_table(self):
        """Each row of the table itself is of its form, and no two rows are for one case and answer."""
        rows = run.reasons_of(HERE / "reasons.tsv")
        self.assertGreater(len(rows), 3)
        names = [(name, it.answer) for it in rows for name in it.taken]
        self.assertEqual(len(names), len(set(names)))


if __name__ == "__main__":
    unittest.main(verbosity=1)
