"""Tests of `rncv` with standard streams, files and arguments that fail, by docs/use/LANGUAGE.md ("Answers"). test.sh calls this."""
import errno
import os
import resource
import select
import subprocess
import unittest

from harness import RNCV, SECONDS, SIMPLE, InFolder, WithCalls, closed_pipe_is_reported, closed_pipe_kills

READ_FAILED = 4, b"", b"rncv: read failed\n"
WRITE_FAILED = 4, None, b"rncv: write failed\n"
WAITING = b"rncv: reading the document, PYX lines, from standard input\n"
END_OF_INPUT = b"\x04"  # Ctrl-D at the beginning of a line
USAGE = 5, b"", b"usage: rncv valid|check|simple FILES..\n"
VALID, OK, FORM, REFUSED = ((0, b"valid\n", b""), (0, b"schema ok\n", b""), (0, SIMPLE, b""), (3, b"refused S6 file broken.rnc\n", b""))
# An answer of each kind: the arguments, the document, and the answer.
ANSWERS = [
    (("valid", "s.rnc"), b"(a\n)a\n", VALID),
    (("valid", "s.rnc"), b"(b\n)b\n", (1, b"invalid line 2\n", b"")),
    (("valid", "s.rnc"), b"", (2, b"malformed P13 line 0\n", b"")),
    (("valid", "broken.rnc"), b"(a\n)a\n", REFUSED),
    (("check", "s.rnc"), b"", OK),
    (("check", "broken.rnc"), b"", REFUSED),
    (("simple", "eight.rnc"), b"", FORM),
]
UNREAD = [answer for answer in ANSWERS if answer[0] != ("valid", "s.rnc")]


class Program(InFolder):
    def run_rncv(self, *words, **more):
        return self.run_program(RNCV, words, **more)

    def cannot_read(self, name, *words, **more):
        """Wants a report that this file cannot be read."""
        name = os.fsencode(name)
        self.assertEqual(self.run_rncv(*words, **more), (4, b"", b"rncv: cannot read file " + name + b"\n"))


class Inputs(Program):
    """Standard input that is closed, or is not a document."""

    def test_all_is_well(self):
        for words, document, wanted in ANSWERS:
            self.assertEqual(self.run_rncv(*words, given=document), wanted, words)

    def test_closed(self):
        self.assertEqual(self.run_rncv("valid", "s.rnc", closed=[0]), READ_FAILED)
        for words, _, wanted in UNREAD:
            self.assertEqual(self.run_rncv(*words, closed=[0]), wanted, words)

    def test_folder(self):
        folder = os.open(self.folder, os.O_RDONLY)
        self.addCleanup(os.close, folder)
        self.assertEqual(self.run_rncv("valid", "s.rnc", stdin=folder), READ_FAILED)
        for words, _, wanted in UNREAD:
            self.assertEqual(self.run_rncv(*words, stdin=folder), wanted, words)

    def test_no_reading(self):
        self.assertEqual(self.run_rncv("valid", "s.rnc", stdin=self.device("written", "wb")), READ_FAILED)

    def test_nothing_yet(self):
        """An empty pipe that does not block."""
        ends = os.pipe2(os.O_NONBLOCK)
        for end in ends:
            self.addCleanup(os.close, end)
        self.assertEqual(self.run_rncv("valid", "s.rnc", stdin=ends[0]), READ_FAILED)

    def test_empty(self):
        wanted = 2, b"malformed P13 line 0\n", b""
        self.assertEqual(self.run_rncv("valid", "s.rnc", stdin=self.device("/dev/null", "rb")), wanted)
        self.assertEqual(self.run_rncv("valid", "s.rnc", stdin=self.pipe_end(0)), wanted)

    def test_endless(self):
        """An answer does not wait for the end of an endless input."""
        self.assertEqual(self.run_rncv("valid", "s.rnc", stdin=self.device("/dev/zero", "rb")), (2, b"malformed P10 line 1\n", b""))
        self.assertEqual(self.run_rncv("valid", "s.rnc", given=b"(a\n)b\n" + b"?x\n" * 1_000_000), (2, b"malformed P8 line 2\n", b""))


class Typed(Program):
    """A document that is typed on a terminal. A line on standard error says what the program waits for."""

    def terminal(self):
        """A keyboard and its terminal."""
        ends = os.openpty()
        for end in ends:
            self.addCleanup(os.close, end)
        return ends

    def typed(self, *words, document=b"(a\n)a\n", **more):
        """A run in which the document is typed, and then the end of the input."""
        keyboard, terminal = self.terminal()
        os.write(keyboard, document + END_OF_INPUT)
        return self.run_rncv(*words, stdin=terminal, **more)

    def test_the_line_is_printed_once(self):
        for words, document, (status, out, errors) in ANSWERS:
            wanted = WAITING if words == ("valid", "s.rnc") else errors
            self.assertEqual(self.typed(*words, document=document), (status, out, wanted), (words, document))

    def test_before_the_document(self):
        """The line is there before anything is typed."""
        keyboard, terminal = self.terminal()
        with subprocess.Popen([RNCV, "valid", "s.rnc"], cwd=self.folder, stdin=terminal, stdout=subprocess.PIPE, stderr=subprocess.PIPE) as run:
            is_there, _, _ = select.select([run.stderr], [], [], SECONDS)
            found = run.stderr.readline() if is_there else b""
            os.write(keyboard, b"(a\n)a\n" + END_OF_INPUT)
            self.assertEqual((found, *run.communicate(timeout=SECONDS)), (WAITING, b"valid\n", b""))

    def test_faults_before_the_document(self):
        for name in ("none.rnc", "."):
            self.assertEqual(self.typed("valid", "s.rnc", name), (4, b"", f"rncv: cannot read file {name}\n".encode()))
        for words in ((), ("valid",), ("valid", "--"), ("valid", "-x")):
            self.assertEqual(self.typed(*words), USAGE, words)

    def test_other_terminals(self):
        """What is written to a terminal is the same as elsewhere."""
        for name, written in (("stdout", b"valid\r\n"), ("stderr", b"")):
            screen, terminal = self.terminal()
            *_, errors = self.run_rncv("valid", "s.rnc", **{name: terminal})
            is_there, _, _ = select.select([screen], [], [], 0)
            self.assertEqual((errors or b"", os.read(screen, 100) if is_there else b""), (b"", written), name)

    def test_no_errors(self):
        """If standard error accepts nothing, the document is judged all the same."""
        self.assertEqual(self.typed("valid", "s.rnc", closed=[2]), (0, b"valid\n", None))
        self.assertEqual(self.typed("valid", "s.rnc", stderr=self.full()), (0, b"valid\n", None))


class Outputs(Program):
    """Standard output and standard error that accept nothing."""

    def test_closed(self):
        for words, document, _ in ANSWERS:
            self.assertEqual(self.run_rncv(*words, given=document, closed=[1]), WRITE_FAILED, words)

    def test_full(self):
        for words, document, _ in ANSWERS:
            self.assertEqual(self.run_rncv(*words, given=document, stdout=self.full()), WRITE_FAILED, words)

    def test_no_writing(self):
        for words, document, _ in ANSWERS:
            self.assertEqual(self.run_rncv(*words, given=document, stdout=self.device("d.pyx", "rb")), WRITE_FAILED, words)
        self.assertEqual((self.folder / "d.pyx").read_bytes(), b"(a\n)a\n")

    def test_no_room_yet(self):
        """A full pipe that does not block."""
        ends = os.pipe2(os.O_NONBLOCK)
        for end in ends:
            self.addCleanup(os.close, end)
        with self.assertRaises(BlockingIOError):
            while True:
                os.write(ends[1], b"x" * 4096)
        self.assertEqual(self.run_rncv("check", "s.rnc", stdout=ends[1]), WRITE_FAILED)

    def test_closed_pipe(self):
        """The program ignores SIGPIPE, whether it was ignored before or not."""
        for words, document, _ in ANSWERS:
            for before in (closed_pipe_kills, closed_pipe_is_reported):
                self.assertEqual(self.run_rncv(*words, given=document, stdout=self.pipe_end(1), before=before), WRITE_FAILED, words)

    def test_no_errors(self):
        """If standard error accepts nothing, only the exit status reports the fault."""
        failing = (("check", "none.rnc"), 4), (("check", "-x"), 5), ((), 5)
        for words, document, (status, out, _) in ANSWERS:
            self.assertEqual(self.run_rncv(*words, given=document, closed=[2]), (status, out, None), words)
        for words, status in failing:
            self.assertEqual(self.run_rncv(*words, closed=[2]), (status, b"", None), words)
            self.assertEqual(self.run_rncv(*words, stderr=self.full()), (status, b"", None), words)
            self.assertEqual(self.run_rncv(*words, stderr=self.pipe_end(1), before=closed_pipe_kills), (status, b"", None), words)

    def test_nothing_is_there(self):
        """A file that gets the number of a closed stream is not used as a stream: no document is read from it, and nothing is written to it."""
        before = {path.name: path.read_bytes() for path in self.folder.iterdir()}
        for words, _, _ in ANSWERS:
            self.assertEqual(self.run_rncv(*words, closed=[0, 1]), WRITE_FAILED if words != ("valid", "s.rnc") else (4, None, b"rncv: read failed\n"), words)
            self.assertEqual(self.run_rncv(*words, closed=[0, 1, 2]), (4, None, None), words)
        self.assertEqual(self.run_rncv(closed=[0, 1, 2]), (5, None, None))
        self.assertEqual({path.name: path.read_bytes() for path in self.folder.iterdir()}, before)


class Files(Program):
    """Files that do not exist or cannot be read, and arguments that name no file."""

    def test_no_file(self):
        (self.folder / "circle.rnc").symlink_to("circle.rnc")
        for name in ("none.rnc", "", "none/s.rnc", "s.rnc/", "s.rnc/s.rnc", "circle.rnc", "x" * 300, "x/" * 3000, "a\nb", " s.rnc", "valid", "caf\u00e9.rnc"):
            for command in ("valid", "check", "simple"):
                self.cannot_read(name, command, name)
            self.cannot_read(name, "valid", "s.rnc", name, "other.rnc")

    def test_folder(self):
        (self.folder / "folder").mkdir()
        for name in (".", "..", "/", "folder"):
            self.cannot_read(name, "check", name)
            self.cannot_read(name, "valid", "s.rnc", name, closed=[0])

    def test_no_file_in_the_place_of_a_stream(self):
        self.cannot_read("none.rnc", "valid", "s.rnc", "none.rnc", closed=[0])
        self.assertEqual(self.run_rncv("valid", "s.rnc", "none.rnc", closed=[1]), (4, None, b"rncv: cannot read file none.rnc\n"))

    def test_endless(self):
        self.assertEqual(self.run_rncv("check", "/dev/zero"), (3, b"refused S2 file /dev/zero\n", b""))

    def test_empty(self):
        self.assertEqual(self.run_rncv("check", "/dev/null"), (3, b"refused S14\n", b""))

    def test_words_that_are_not_utf_8(self):
        name = b"caf\xe9.rnc"
        with open(os.fsencode(self.folder) + b"/" + name, "wb") as file:
            file.write(b"element a { empty }")
        for words in (["valid", name], ["check", "s.rnc", name], ["check", "--", name], [name, "s.rnc"], [b"\xff"], ["valid", b"s.rnc\xc0\x80"]):
            self.assertEqual(self.run_rncv(*words), USAGE, words)

    def test_each_file_is_closed(self):
        """One descriptor is enough for all files."""
        names = [self.write(f"{number}.rnc", b"element a { empty }").name for number in range(60)]
        self.assertEqual(self.run_rncv("check", *names, before=lambda: resource.setrlimit(resource.RLIMIT_NOFILE, (4, 4))), OK)


class Calls(WithCalls):
    """Reads and writes that fail, or transfer less than they could."""

    def calls(self, *words, **plans):
        return self.planned(RNCV, words, **plans)

    def answers(self, wanted, *words, calls="", **plans):
        """Wants an answer, and calls that match the regular expression."""
        *answer, log = self.calls(*words, **plans)
        self.assertEqual(tuple(answer), wanted, (words, plans))
        self.assertRegex(log, f"^(?:{calls})$")

    def test_files_then_the_document_then_the_answer(self):
        for words, document, wanted in ANSWERS:
            reads = "r+" if words == ("valid", "s.rnc") else ""
            self.answers(wanted, *words, given=document, calls=f"of+{reads}w+")
        self.answers(VALID, "valid", "s.rnc", "broken.rnc", calls="of+of+r+w+")

    def test_the_first_read_fails(self):
        for error in (errno.EIO, errno.EINTR, errno.EAGAIN, errno.EBADF, errno.EISDIR, errno.ENOMEM):
            self.answers(READ_FAILED, "valid", "s.rnc", read=[-error], calls="of+re+")

    def test_the_second_read_fails(self):
        self.answers(READ_FAILED, "valid", "s.rnc", read=[3, -errno.EIO], calls="of+rre+")

    def test_each_read_fails_in_turn(self):
        """The document has six bytes, so the seventh read finds its end."""
        for reads in range(9):
            wanted, calls = (VALID, "r{7}w+") if reads >= 7 else (READ_FAILED, f"r{{{reads + 1}}}e+")
            self.answers(wanted, "valid", "s.rnc", read=[1] * reads + [-errno.EIO], calls=f"of+{calls}")

    def test_an_interrupted_read_has_failed(self):
        self.answers(READ_FAILED, "valid", "s.rnc", read=[-errno.EINTR, 100], calls="of+re+")
        self.answers(READ_FAILED, "valid", "s.rnc", read=[4, -errno.EINTR, 100], calls="of+rre+")

    def test_a_read_after_the_fault_is_not_made(self):
        self.answers((2, b"malformed P8 line 2\n", b""), "valid", "s.rnc", given=b"(a\n)b\n(c\n", read=[6, -errno.EIO], calls="of+rw+")

    def test_no_document_is_read_for_nothing(self):
        """Each read would fail, but a refused schema, `check` and `simple` make none."""
        for words, _, wanted in UNREAD:
            self.answers(wanted, *words, read=[-errno.EIO], calls="of+w+")
        self.answers(USAGE, "valid", "-x", read=[-errno.EIO], calls="e+")

    def test_the_first_write_fails(self):
        for error in (errno.ENOSPC, errno.EIO, errno.EINTR, errno.EAGAIN, errno.EPIPE, errno.EBADF, errno.ENOMEM):
            for words, document, _ in ANSWERS:
                self.answers((4, b"", WRITE_FAILED[2]), *words, given=document, write=[-error], calls="of+r*we+")

    def test_the_first_write_takes_nothing(self):
        for words, document, _ in ANSWERS:
            self.answers((4, b"", WRITE_FAILED[2]), *words, given=document, write=[0], calls="of+r*we+")

    def test_the_third_write_fails(self):
        self.answers((4, b"va", WRITE_FAILED[2]), "valid", "s.rnc", write=[1, 1, -errno.ENOSPC], calls="of+r+wwwe+")

    def test_the_seventh_write_of_a_simple_form_fails(self):
        self.answers((4, b"start ", WRITE_FAILED[2]), "simple", "eight.rnc", write=[1] * 6 + [-errno.EIO], calls="of+w{7}e+")

    def test_each_write_fails_in_turn(self):
        """The earlier writes are a beginning of the answer, and no write follows the failed one."""
        for words, document, (status, out, errors) in ANSWERS:
            for writes in range(len(out) + 1):
                wanted, calls = (status, out, errors), f"w{{{len(out)}}}"
                if writes < len(out):
                    wanted, calls = (4, out[:writes], WRITE_FAILED[2]), f"w{{{writes + 1}}}e+"
                self.answers(wanted, *words, given=document, write=[1] * writes + [-errno.EIO], calls=f"of+r*{calls}")

    def test_an_interrupted_write_has_failed(self):
        self.answers((4, b"", WRITE_FAILED[2]), "check", "s.rnc", write=[-errno.EINTR, 100], calls="of+we+")
        self.answers((4, b"sch", WRITE_FAILED[2]), "check", "s.rnc", write=[3, -errno.EINTR, 100], calls="of+wwe+")

    def test_calls_of_one_byte(self):
        for words, document, wanted in ANSWERS:
            self.answers(wanted, *words, given=document, read=[1], write=[1], file=[1], calls="of+r*w+")

    def test_files_that_fail(self):
        for error in (errno.EACCES, errno.EMFILE, errno.ELOOP, errno.EIO):
            self.answers((4, b"", b"rncv: cannot read file s.rnc\n"), "valid", "s.rnc", opened=[-error], calls="oe+")
            self.answers((4, b"", b"rncv: cannot read file broken.rnc\n"), "valid", "s.rnc", "broken.rnc", "d.pyx", opened=[1, -error], calls="of+oe+")
        for error in (errno.EIO, errno.EISDIR, errno.EAGAIN):
            self.answers((4, b"", b"rncv: cannot read file s.rnc\n"), "valid", "s.rnc", file=[-error], calls="ofe+")
            self.answers((4, b"", b"rncv: cannot read file s.rnc\n"), "check", "s.rnc", file=[5, -error], calls="offe+")

    def test_no_memory_for_a_file(self):
        no_memory = 4, b"", b"rncv: out of memory\n"
        self.answers(no_memory, "valid", "s.rnc", opened=[-errno.ENOMEM], calls="oe+")
        self.answers(no_memory, "valid", "s.rnc", file=[-errno.ENOMEM], calls="ofe+")

    def test_an_interrupted_call_of_a_file_is_made_again(self):
        self.answers(VALID, "valid", "s.rnc", opened=[-errno.EINTR, 1], file=[-errno.EINTR, 100], calls="oof+r+w+")


if __name__ == "__main__":
    unittest.main(verbosity=1)
