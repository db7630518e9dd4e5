"""Tests of `rncv-xml`, `xml2pyx`, `rncv-profile` and `rncv-lsp` with standard streams that fail. One line must report the failure, without a traceback,
and nothing is called valid that was not judged. test.sh calls this. The programs' own tests have more cases of closed pipes, names and folders.
"""
import errno
import os
import sys
import unittest

from harness import TOP, XML_PROGRAMS, InFolder, WithCalls, closed_pipe_is_reported, closed_pipe_kills

RNCV_XML, XML2PYX = XML_PROGRAMS / "rncv-xml", XML_PROGRAMS / "xml2pyx"
PROFILE, LSP, CONVERTER = TOP / "programs/profile/rncv-profile", TOP / "programs/lsp/rncv-lsp", TOP / "programs/xml/converter/xml2pyx"
DOCUMENT = b"<a>\n</a>\n"
PYX = b"(a\n-\\n\n)a\n"
CLOSED_PIPE = 141
FORMATS = ["--all"], ["--format", "json"], ["--format", "sarif"], ["--format", "github", "--all"], ["--verbose"]


class Programs(InFolder):
    """Files for the programs. A program that is not built skips its tests."""

    def setUp(self):
        super().setUp()
        self.write("d.xml", DOCUMENT)
        self.write("b.xml", b"<b/>\n")
        self.write("date.rnc", b"element a { xsd:date }")
        self.write("a.rnc", b"element a { text }")

    def built(self, program):
        """Returns the program. Skips the test if it is not built."""
        if not os.access(program, os.X_OK):
            self.skipTest(f"{program.name} is not built")
        return program

    def folder_stream(self):
        folder = os.open(self.folder, os.O_RDONLY)
        self.addCleanup(os.close, folder)
        return folder


class InC(Programs):
    """The two programs in C."""

    def judge(self, *words, **more):
        return self.run_program(self.built(RNCV_XML), words, given=DOCUMENT, **more)

    def convert(self, *words, **more):
        return self.run_program(self.built(XML2PYX), words, given=DOCUMENT, **more)


class Streams(InC):
    """Standard streams of these programs that are closed, full, or not streams."""

    def test_all_is_well(self):
        self.assertEqual(self.convert("-"), (0, PYX, b""))
        self.assertEqual(self.judge("--all", "a.rnc", "-", "d.xml"), (0, b"-: valid\nd.xml: valid\n", b""))
        self.assertEqual(self.judge("a.rnc", "b.xml"), (1, b"b.xml:1:1: invalid: <b> is not allowed here; expected <a>\n", b""))

    def test_no_input(self):
        for reported, streams in (("standard input is closed", {"closed": [0]}), ("Is a directory", {"stdin": self.folder_stream()}),
                              ("Bad file descriptor", {"stdin": self.device("written", "wb")})):
            self.assertEqual(self.judge("--all", "a.rnc", "-", "d.xml", **streams), (4, f"-: {reported}\nd.xml: valid\n".encode(), b""))
            self.assertEqual(self.convert("-", **streams), (4, b"", f"xml2pyx: {reported}\n".encode()))

    def test_no_output(self):
        for reported, streams in (("standard output is closed", {"closed": [1]}), ("No space left on device", {"stdout": self.full()}),
                              ("Bad file descriptor", {"stdout": self.device("d.pyx", "rb")})):
            for words in FORMATS:
                self.assertEqual(self.judge("-j1", *words, "a.rnc", "d.xml", "b.xml", **streams)[::2], (4, self.last(f"rncv-xml: {reported}", words)), words)
            self.assertEqual(self.judge("a.rnc", "b.xml", **streams), (4, None, f"rncv-xml: {reported}\n".encode()))
            self.assertEqual(self.convert("d.xml", **streams), (4, None, f"xml2pyx: {reported}\n".encode()))
            self.assertEqual(self.judge("--help", **streams), (4, None, f"rncv-xml: {reported}\n".encode()))

    @staticmethod
    def last(line, words):
        """The expected standard error: the notes of --verbose, and then this line."""
        return (b"rncv-xml: schema file a.rnc\n" if "--verbose" in words else b"") + line.encode() + b"\n"

    def test_closed_pipe(self):
        for before in (closed_pipe_kills, closed_pipe_is_reported):
            for words in FORMATS[:-1]:
                self.assertEqual(self.judge(*words, "a.rnc", "d.xml", "b.xml", stdout=self.pipe_end(1), before=before), (CLOSED_PIPE, None, b""))
            self.assertEqual(self.convert("d.xml", stdout=self.pipe_end(1), before=before), (CLOSED_PIPE, None, b""))

    def test_no_errors(self):
        for streams in ({"closed": [2]}, {"stderr": self.full()}, {"stderr": self.pipe_end(1)}):
            self.assertEqual(self.judge("--verbose", "a.rnc", "d.xml", **streams), (0, b"d.xml: valid\n", None))
            self.assertEqual(self.judge("none.rnc", "d.xml", **streams), (4, b"", None))
            self.assertEqual(self.judge("--bogus", **streams), (5, b"", None))
            self.assertEqual(self.convert("none.xml", **streams), (4, b"", None))

    def test_nothing_is_there(self):
        before = {path.name: path.read_bytes() for path in self.folder.iterdir()}
        self.assertEqual(self.judge("--all", "a.rnc", "d.xml", closed=[0, 1, 2]), (4, None, None))
        self.assertEqual(self.judge("a.rnc", "-", closed=[0, 1, 2]), (4, None, None))
        self.assertEqual(self.convert("d.xml", closed=[0, 1, 2]), (4, None, None))
        self.assertEqual({path.name: path.read_bytes() for path in self.folder.iterdir()}, before)


class Calls(WithCalls, InC):
    """Calls of the two programs in C that fail, or that read or write less than they could."""

    def judged(self, *words, **plans):
        return self.planned(self.built(RNCV_XML), ("-j1", "--all", "a.rnc", *words), given=DOCUMENT, **plans)[:3]

    def converted(self, *words, **plans):
        return self.planned(self.built(XML2PYX), words, given=DOCUMENT, **plans)[:3]

    def test_reads(self):
        for plan in ([-errno.EIO], [4, -errno.EIO], [len(DOCUMENT), -errno.EIO]):
            self.assertEqual(self.judged("-", "d.xml", read=plan), (4, b"-: Input/output error\nd.xml: valid\n", b""), plan)
            status, out, errors = self.converted("-", read=plan)
            self.assertEqual((status, errors), (4, b"xml2pyx: Input/output error\n"), plan)
            self.assertTrue(PYX.startswith(out), plan)

    def test_reads_that_are_made_again(self):
        for plan in ([1], [-errno.EINTR, 3, -errno.EINTR, 100]):
            self.assertEqual(self.judged("-", read=plan), (0, b"-: valid\n", b""), plan)
            self.assertEqual(self.judged("d.xml", file=plan, opened=[1]), (0, b"d.xml: valid\n", b""), plan)
            self.assertEqual(self.converted("-", read=plan), (0, PYX, b""), plan)

    def test_files(self):
        status, out, errors = self.judged("d.xml", opened=[-errno.EACCES])
        self.assertEqual((status, out, errors.count(b"\n")), (4, b"", 1))
        self.assertEqual(self.judged("d.xml", opened=[1, -errno.EACCES]), (4, b"d.xml: Permission denied\n", b""))
        self.assertEqual(self.judged("-", file=[-errno.EIO])[:2], (4, b""))
        self.assertEqual(self.converted("d.xml", file=[-errno.EIO]), (4, b"", b"xml2pyx: Input/output error: d.xml\n"))

    def test_writes(self):
        whole = b"b.xml:1:1: invalid: <b> is not allowed here; expected <a>\nd.xml: valid\n"
        for plan in ([1], [-errno.EINTR, 3, -errno.EINTR, 100]):
            self.assertEqual(self.judged("b.xml", "d.xml", write=plan), (1, whole, b""), plan)
            self.assertEqual(self.converted("-", write=plan), (0, PYX, b""), plan)
        for plan, reported in (([0], "Input/output error"), ([3, 0], "Input/output error"), ([3, -errno.ENOSPC], "No space left on device")):
            out = 0 if plan[0] == 0 else 3
            self.assertEqual(self.judged("b.xml", "d.xml", write=plan), (4, whole[:out], f"rncv-xml: {reported}\n".encode()), plan)
            self.assertEqual(self.converted("-", write=plan), (4, PYX[:out], f"xml2pyx: {reported}\n".encode()), plan)
        self.assertEqual(self.judged("b.xml", write=[3, -errno.EPIPE]), (CLOSED_PIPE, whole[:3], b""))


class Python(Programs):
    """The programs in Python. If standard input is a folder, the interpreter ends before any of them begins."""

    def run_python(self, *words, unbuffered="", **more):
        """A run with Python's own buffers, as for most users. Wants no traceback or exception on standard error."""
        answer = self.run_program(sys.executable, ("-B", *words), given=DOCUMENT, environment={"PYTHONUNBUFFERED": unbuffered}, **more)
        self.assertNotIn(b"Traceback", answer[2] or b"")
        self.assertNotIn(b"Exception", answer[2] or b"")
        return answer

    def outputs(self):
        """Streams that accept no output: the reported fault of each, and the status."""
        yield "standard output is closed", 4, {"closed": [1]}
        yield "No space left on device", 4, {"stdout": self.full()}
        yield None, CLOSED_PIPE, {"stdout": self.pipe_end(1), "before": closed_pipe_kills}

    def test_profile(self):
        found = b"date.rnc:1:13: the datatype xsd:date is not served\n"
        self.assertEqual(self.run_python(PROFILE, "date.rnc", closed=[0]), (1, found, b""))
        for reported, status, streams in self.outputs():
            self.assertEqual(self.run_python(PROFILE, "date.rnc", **streams), (status, None, f"rncv-profile: {reported}\n".encode() if reported else b""))
            self.assertEqual(self.run_python(PROFILE, "--write", "copy", "s.rnc", **streams)[0], status)
            self.assertEqual(self.run_python(PROFILE, "s.rnc", **streams), (0, None, b""))
        for streams in ({"closed": [2]}, {"stderr": self.full()}):
            self.assertEqual(self.run_python(PROFILE, "date.rnc", **streams), (1, found, None))
            self.assertEqual(self.run_python(PROFILE, "s.rnc", "none.rnc", **streams), (4, b"", None))
        self.assertEqual(self.run_python(PROFILE, "date.rnc", closed=[0, 1, 2]), (4, None, None))

    def test_help(self):
        """It is reported if it cannot be written, whether Python holds it back or not. Wrong words give nothing on standard output."""
        for program, name in ((PROFILE, b"rncv-profile"), (CONVERTER, b"xml2pyx")):
            for unbuffered in ("", "1"):
                for reported, status, streams in self.outputs():
                    wanted = name + f": {reported}\n".encode() if reported else b""
                    self.assertEqual(self.run_python(program, "--help", unbuffered=unbuffered, **streams), (status, None, wanted))
                for streams in ({"closed": [2]}, {"stderr": self.full()}):
                    self.assertEqual(self.run_python(program, "--other", unbuffered=unbuffered, **streams), (4, b"", None))

    def test_names_stay_on_their_line(self):
        self.write("a\n\x1b.rnc", b"element a { xsd:date }")
        self.write("a\n\x1b.xml", b"<a")
        self.assertEqual(self.run_python(PROFILE, "a\n\x1b.rnc"), (1, b"a\\n\\x1b.rnc:1:13: the datatype xsd:date is not served\n", b""))
        self.assertEqual(self.run_python(CONVERTER, "a\n\x1b.xml"), (4, b"", b"a\\n\\x1b.xml:1:1: malformed XML: unclosed token\n"))

    def test_names_that_are_not_utf_8(self):
        with open(os.fsencode(self.folder) + b"/caf\xe9.rnc", "wb") as file:
            file.write(b"element a { xsd:date }")
        self.assertEqual(self.run_python(PROFILE, b"caf\xe9.rnc"), (1, b"caf\xe9.rnc:1:13: the datatype xsd:date is not served\n", b""))
        status, out, errors = self.run_python(PROFILE, b"none\xe9.rnc")
        self.assertEqual((status, out, errors.count(b"\n")), (4, b"", 1))

    def test_converter(self):
        for reported, streams in (("standard input is closed", {"closed": [0]}), ("Bad file descriptor", {"stdin": self.device("written", "wb")})):
            self.assertEqual(self.run_python(CONVERTER, "-", **streams), (4, b"", f"xml2pyx: {reported}\n".encode()))
        for reported, status, streams in self.outputs():
            self.assertEqual(self.run_python(CONVERTER, "-", **streams), (status, None, f"xml2pyx: {reported}\n".encode() if reported else b""))
        self.assertEqual(self.run_python(CONVERTER, "none.xml", closed=[2]), (4, b"", None))
        self.assertEqual(self.run_python(CONVERTER, "d.xml", closed=[0, 1, 2]), (4, None, None))

    def test_language_server(self):
        """It ends with status 1, as when its client is gone. Messages that it cannot send are dropped."""
        closed = b"rncv-lsp: a standard stream is closed\n"
        self.assertEqual(self.run_python(LSP, closed=[0]), (1, b"", closed))
        self.assertEqual(self.run_python(LSP, closed=[1]), (1, None, closed))
        self.assertEqual(self.run_python(LSP, closed=[0, 1, 2]), (1, None, None))
        self.assertEqual(self.run_python(LSP, stdin=self.device("written", "wb")), (1, b"", b"rncv-lsp: standard input: Bad file descriptor\n"))
        self.write("asked", b"Content-Length: 2\r\n\r\n{}")
        for streams in ({"stdout": self.full()}, {"stdout": self.pipe_end(1), "before": closed_pipe_kills}):
            self.assertEqual(self.run_python(LSP, stdin=self.device("asked", "rb"), **streams), (1, None, b""))


if __name__ == "__main__":
    unittest.main(verbosity=1)
