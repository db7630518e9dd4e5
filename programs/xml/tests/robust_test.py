"""Tests of `rncv-xml` with files, lists and schemas that are not what they should be."""
import json
import os
import select
import socket
import subprocess
import threading
import unittest

from testing import RNCV_XML, SCHEMA, InFolder

VALID = "good.xml: valid\n", 0
SECONDS = 30


class Folders(InFolder):
    """In a folder only files and links to them are documents."""

    def judge_soon(self, *words):
        """What `rncv-xml` prints, and its status, if it does not wait for ever."""
        run = subprocess.run([RNCV_XML, *words], cwd=self.folder, stdin=subprocess.DEVNULL, capture_output=True, timeout=SECONDS, check=False)
        return run.stdout.decode(), run.returncode

    def test_pipes_and_sockets_are_passed_over(self):
        self.write("top/a.xml", '<a x="1"/>')
        os.mkfifo(self.folder / "top/b.xml")
        with socket.socket(socket.AF_UNIX) as listening:
            here = os.getcwd()
            os.chdir(self.folder / "top")
            try:
                listening.bind("c.xml")  # a path from the root may be too long
            finally:
                os.chdir(here)
        for name, target in (("d.xml", "b.xml"), ("e.xml", "c.xml"), ("f.xml", "/dev/zero"), ("g.xml", "a.xml"), ("h.xml", "none"), ("i.xml", ".")):
            (self.folder / "top" / name).symlink_to(target)
        wanted = "top/a.xml: valid\ntop/g.xml: valid\ntop/h.xml: No such file or directory\n", 4
        for jobs in ("1", "3"):
            self.assertEqual(self.judge_soon("-j", jobs, "--all", "-r", "s.rnc", "top"), wanted)

    def test_a_pipe_that_is_named_is_read(self):
        os.mkfifo(self.folder / "pipe.xml")
        self.write("list", "pipe.xml\n")
        for words in (("s.rnc", "pipe.xml"), ("-r", "s.rnc", "pipe.xml"), ("--files-from", "list", "s.rnc")):
            writer = threading.Thread(target=lambda: (self.folder / "pipe.xml").write_text('<a x="1"/>'), daemon=True)
            writer.start()
            self.assertEqual(self.judge_soon("--all", *words), ("pipe.xml: valid\n", 0))
            writer.join(SECONDS)


class Lists(InFolder):
    """A name of a list is judged when its end has come."""

    def read_line(self, run):
        """The next line of a program that runs. It has to come soon."""
        line = b""
        while not line.endswith(b"\n"):
            if not select.select([run.stdout], [], [], SECONDS)[0]:
                self.fail(f"no answer, only {line}")
            byte = os.read(run.stdout.fileno(), 1)
            if not byte:
                break
            line += byte
        return line.decode()

    def client(self, *words):
        run = subprocess.Popen([RNCV_XML, "--all", "--files-from", "-", *words], cwd=self.folder, stdin=subprocess.PIPE, stdout=subprocess.PIPE, bufsize=0)
        self.addCleanup(run.stdout.close)
        self.addCleanup(run.wait)
        self.addCleanup(run.stdin.close)
        self.addCleanup(run.kill)
        return run

    def test_a_client_that_waits_for_each_answer(self):
        answers = {"good.xml": "good.xml: valid\n", "bad.xml": "bad.xml:3:3: invalid: <c> is not allowed here; expected the end of <a>\n", "none.xml": "none.xml: No such file or directory\n"}
        for jobs in ("1", "4"):
            for end, words in (("\n", ()), ("\0", ()), ("\0", ("--null",)), ("\0", ("-0",))):
                run = self.client("-j", jobs, *words, "s.rnc")
                for number in range(100):
                    name = list(answers)[number % 3]
                    run.stdin.write((name + end).encode())
                    self.assertEqual(self.read_line(run), answers[name], (jobs, end, words, number))
                run.stdin.write(b"good.xml")  # the end of the list ends the last name
                run.stdin.close()
                self.assertEqual((self.read_line(run), self.read_line(run), run.wait(SECONDS)), ("good.xml: valid\n", "", 4))

    def test_answers_do_not_wait_for_the_next_name(self):
        os.mkfifo(self.folder / "pipe.xml")
        run = self.client("-j", "4", "s.rnc")
        run.stdin.write(b"good.xml\npipe.xml\nbad.xml\ngood.xml\n")
        self.assertEqual(self.read_line(run), "good.xml: valid\n")
        (self.folder / "pipe.xml").write_text('<a x="1"/>')
        self.assertEqual([self.read_line(run) for _ in range(3)], ["pipe.xml: valid\n", "bad.xml:3:3: invalid: <c> is not allowed here; expected the end of <a>\n", "good.xml: valid\n"])
        run.stdin.close()
        self.assertEqual(run.wait(SECONDS), 1)

    def test_what_separates_names(self):
        self.write("a\nb.xml", '<a x="1"/>')
        shown = "a\\nb.xml: valid\n"
        self.assertEqual(self.judge("--all", "--files-from", "-", "s.rnc", given=b"a\nb.xml\0good.xml\0"), (f"{shown}good.xml: valid\n", 0))
        run = self.client("-0", "s.rnc")
        for part in (b"a\nb", b".xml\0", b"\0\0a\nb.xml\0"):
            run.stdin.write(part)
            if part.endswith(b"\0"):
                self.assertEqual(self.read_line(run), shown)
        run = self.client("s.rnc")
        run.stdin.write(b"\n\ngood.xml\n")
        self.assertEqual(self.read_line(run), "good.xml: valid\n")
        run.stdin.write(b"good.xml\0bad.xml\ngood.xml\n")
        self.assertEqual([self.read_line(run), self.read_line(run)], [
            "good.xml: a line of the list has a zero byte in it: with --null zero bytes separate the names\n", "good.xml: valid\n"])
        self.assertEqual(self.run_in(RNCV_XML, "--null", "s.rnc", "good.xml")[2], 5)

    def test_long_lists(self):
        many = b"good.xml\0" * 100_000
        out, status = self.judge("--format", "github", "--files-from", "-", "s.rnc", given=many)
        self.assertEqual((out, status), ("", 0))
        self.assertEqual(self.judge("--files-from", "-", "s.rnc", given=b"x" * 100_000 + b"\ngood.xml\n"), (f"{'x' * 100_000}: File name too long\n", 4))
        for given in (b"x" * 1_200_000, b"x" * 1_200_000 + b"\ngood.xml\n"):
            self.assertEqual(self.judge("--all", "--files-from", "-", "s.rnc", given=b"good.xml\n" + given), (
                "good.xml: valid\n-: a name in it has more than 1,048,576 bytes\n", 4))


class NoSchemas(InFolder):
    """A file that is no schema in the compact syntax, in UTF-8, has a sentence that says what it is."""

    RELAX_NG = '<r:grammar b="&lt;" xmlns:r="http://relaxng.org/ns/structure/1.0">\n</r:grammar>\n'

    def refused(self, message, name, *more):
        """Checks the answer in each format. No document is read."""
        words = name, *more
        self.assertEqual(self.run_in(RNCV_XML, *words), (f"{name}: {message}\n", "", 3))
        self.assertEqual(self.run_in(RNCV_XML, "--quiet", *words), ("", f"{name}: {message}\n", 3))
        self.assertEqual(json.loads(self.judge("--format", "json", *words)[0]), {"file": name, "verdict": "refused", "message": message})
        result = json.loads(self.judge("--format", "sarif", *words)[0])["runs"][0]["results"][0]
        self.assertEqual((result["ruleId"], result["message"]["text"], result["locations"]), (
            "refused", message, [{"physicalLocation": {"artifactLocation": {"uri": name}}}]))
        self.assertEqual(self.judge("--format", "github", *words), (f"::error file={name},title=refused::{message}\n", 3))

    def test_the_xml_syntax(self):
        """Such a file is known by its root, or by its name. rng_test.py has more."""
        reported = "1:1: <grammar> has no attribute 'b'"
        for name in ("t.rng", "t.xml"):
            self.write(name, self.RELAX_NG)
            self.assertEqual(self.judge(name, "good.xml"), (f"{name}:{reported}\n", 3))
        self.write("t.rng", "\ufeff <!-- cut -->\n<element name='a'")
        self.assertRegex(self.judge("t.rng", "good.xml")[0], r"^t\.rng:2:\d+: malformed XML: .*\n$")
        self.write("t.rng", "<a/>")
        self.assertRegex(self.judge("t.rng", "good.xml")[0], r"^t\.rng:1:1: the root is no element of RELAX NG .*\n$")
        self.write("t.xml", f'<?xml version="1.0"?>\n<!DOCTYPE r:grammar [<!ENTITY e ">">]><?p q?><!-- > -->\n{self.RELAX_NG}')
        self.assertEqual(self.judge("t.xml", "good.xml"), ("t.xml:3:1: <grammar> has no attribute 'b'\n", 3))
        self.write("main.rnc", 'include "low/t.rng"')
        self.write("low/t.rng", self.RELAX_NG)
        self.assertEqual(self.judge("main.rnc", "good.xml"), (f"low/t.rng:{reported}\n", 3))

    def test_documents(self):
        first = "this is an XML document and no schema: the schema comes first"
        swapped = f"{first}; the words are swapped (s.rnc comes after it)"
        self.refused(first, "good.xml")
        self.refused(first, "good.xml", "bad.xml")
        self.refused(swapped, "good.xml", "s.rnc")
        self.refused(swapped, "good.xml", "bad.xml", "s.rnc")
        self.refused(swapped, "good.xml", "--", "s.rnc")
        self.refused(first, "cut.xml", "good.xml")
        for text in ("<", "<a>" * 600, "<a xmlns:r='http://relaxng.org/ns/structure/1.0'/>", '<a>\n<b xmlns="http://relaxng.org/ns/structure/1.0"/></a>',
                     "<a>" + "x" * 1_200_000, "<!ELEMENT a EMPTY>"):
            self.write("d.xml", text)
            self.refused(first, "d.xml", "good.xml")
        self.write("main.rnc", 'start = external "good.xml"')
        self.assertEqual(self.judge("main.rnc", "bad.xml", "s.rnc"), ("good.xml: this is an XML document and no schema\n", 3))

    def test_xml_schema(self):
        self.write("t.xsd", '<xs:schema xmlns:xs="http://www.w3.org/2001/XMLSchema"/>')
        self.refused("this is a W3C XML Schema; rncv-xml reads RELAX NG", "t.xsd", "good.xml")

    def test_utf_16(self):
        for encoding in ("utf-16", "utf-16-le", "utf-16-be"):
            self.write("t.rng", f'<?xml version="1.0" encoding="utf-16"?>{self.RELAX_NG}'.encode(encoding))
            self.assertEqual(self.judge("t.rng"), ("t.rng:1:40: <grammar> has no attribute 'b'\n", 3))
            for text in (SCHEMA, "  <a/>"):
                self.write("t.rnc", text.encode(encoding))
                self.refused("this is UTF-16; rncv-xml reads schemas in UTF-8 (iconv -f UTF-16 -t UTF-8 converts it)", "t.rnc", "good.xml")
        for text in (b"\0\0\0\0", b"a\0", b"\0"):
            self.write("t.rnc", text)
            self.assertRegex(self.judge("t.rnc", "good.xml")[0], "^t.rnc:.* S[3-6] ")


class Marks(InFolder):
    """A byte order mark of UTF-8 is dropped, and is no column."""

    def test_marked_files(self):
        self.write("b.rnc", "\ufeffa = " + SCHEMA)
        self.write("main.rnc", '\ufeffinclude "b.rnc"\nstart = a\n')
        self.assertEqual(self.judge("--all", "main.rnc", "good.xml"), VALID)
        self.write("empty.rnc", "\ufeff")
        self.assertRegex(self.judge("empty.rnc", "good.xml")[0], "^empty.rnc:1:1: S14 ")

    def test_places(self):
        for text in ("element a {\n  |", "element a { \u00e9 | }", 'include "none.rnc"', "element a { b:c }", "element\ufeff a { empty }"):
            self.write("t.rnc", text)
            wanted = self.judge("t.rnc", "good.xml")
            self.assertRegex(wanted[0], r"^t\.rnc:\d+:\d+: S")
            self.write("t.rnc", "\ufeff" + text)
            self.assertEqual(self.judge("t.rnc", "good.xml"), wanted)

    def test_one_mark_is_dropped(self):
        self.write("t.rnc", "\ufeff\ufeff" + SCHEMA)
        self.assertRegex(self.judge("t.rnc", "good.xml")[0], r"^t\.rnc:1:\d+: S6 ")

    def test_limits(self):
        for mark in ("", "\ufeff"):
            for length, status in ((1_048_576, 0), (1_048_577, 3), (1_048_579, 3), (1_048_580, 3), (2_000_000, 3)):
                self.write("t.rnc", mark + SCHEMA + "#" * (length - len(SCHEMA)))
                out, found = self.judge("t.rnc", "good.xml")
                self.assertEqual(found, status, (mark, length, out))
                self.assertRegex(out, "^t.rnc: S2 " if status else "^$")


class Names(InFolder):
    """Names of a schema's files."""

    def test_a_file_is_no_standard_input(self):
        document = b'<a x="1"/>'
        self.write("-", SCHEMA)
        self.write("main.rnc", 'start = external "-"')
        self.assertEqual(self.judge("--all", "main.rnc", "-", given=document), ("-: valid\n", 0))
        self.assertEqual(self.run_in(RNCV_XML, "--verbose", "main.rnc", "-", given=document)[1], (
            "rncv-xml: schema file main.rnc\nrncv-xml: schema file ./-\n1 valid\n"))
        self.write("x.rnc", 'start = external "x"')
        self.assertEqual(self.judge("--all", "--map", "x=-", "x.rnc", "-", given=document), ("-: valid\n", 0))
        self.write("-", "element a {")
        self.assertRegex(self.judge("main.rnc", "-", given=document)[0], r"^\./-:1:\d+: S6 ")
        (self.folder / "-").unlink()
        self.assertRegex(self.judge("main.rnc", "-", given=SCHEMA.encode())[0], "^main.rnc:1:18: S1 .*: there is no -, see ")
        self.assertEqual(self.run_in(RNCV_XML, "--map=x=-", "x.rnc", "good.xml", given=SCHEMA.encode()), (
            "", "rncv-xml: cannot read file ./-: No such file or directory\n", 4))
        for words in (("-", "good.xml"), ("s.rnc", "-", "--", "good.xml")):
            self.assertEqual(self.run_in(RNCV_XML, *words, given=SCHEMA.encode())[2], 5)

    def test_control_characters_are_shown(self):
        name, written, shown = "a\n\t\r\x7f\x85.rnc", r"a\x{A}\x{9}\x{D}\x{7F}\x{85}.rnc", r"a\n\t\r\x7f\x85.rnc"
        self.write("main.rnc", f'include "{written}"\n')
        message = f"S1 a file that is mentioned is handed in once (profile): there is no {shown}, see docs/use/CLAUSES.md"
        self.assertEqual(self.judge("main.rnc", "good.xml"), (f"main.rnc:1:9: {message}\n", 3))
        self.assertEqual(json.loads(self.judge("--format", "json", "main.rnc")[0])["message"], message)
        self.assertIn(f"col=9,title=refused::{message}", self.judge("--format", "github", "main.rnc")[0])
        self.write("uri.rnc", 'include "urn:b\\x{A}c"\n')
        self.assertRegex(self.judge("uri.rnc")[0], r"^uri.rnc:1:9: S1 .*: there is no urn:b\\nc, and nothing is fetched \(--map HREF=FILE\), see .*\n$")
        self.write(name, f"start = {SCHEMA}# rncv-profile: 1 datatype loosened, see main.profile.txt\n")
        profile = rf"see {shown[:-4]}.profile.txt"
        self.assertEqual(self.run_in(RNCV_XML, "--verbose", name, "good.xml")[1], (
            f"rncv-xml: schema file {shown}\n1 valid, by a schema that 1 datatype was loosened in ({profile})\n"))
        self.assertEqual(self.judge("--strict-profile", name), (f"{shown}: 1 datatype was loosened in it ({profile})\n", 3))
        self.write(name, "start =")
        self.assertRegex(self.judge("main.rnc")[0].replace(shown, "NAME"), r"^NAME:1:\d+: S6 .*\n$")
        self.write(name, "<a/>")
        self.assertEqual(self.judge("main.rnc"), (f"{shown}: this is an XML document and no schema\n", 3))
        self.write("two.rnc", 'include "b\\x{A}%20c.rnc"')
        self.write("b\n%20c.rnc", "")
        self.write("b\n c.rnc", "")
        self.assertEqual(self.run_in(RNCV_XML, "two.rnc"), ("", r"rncv-xml: 'b\n%20c.rnc' in two.rnc may be b\n%20c.rnc or b\n c.rnc" + "\n", 3))

    def test_wrong_words_are_shown(self):
        for words in (("--bo\ngus", "s.rnc"), ("-j", "1\n2", "s.rnc"), ("--map", "a\nb", "s.rnc")):
            errors = self.run_in(RNCV_XML, *words)[1]
            self.assertEqual(errors.count("\n"), 2)
            self.assertIn("\\n", errors)


if __name__ == "__main__":
    unittest.main(verbosity=1)
