"""The common part of the tests of streams: a fresh folder, and runs of a program with streams that are closed, full, or fail by a plan.

RNCV_PROGRAM names the built `rncv`, RNCV_XML_PROGRAMS the folder with `rncv-xml` and `xml2pyx`, and RNCV_CALLS the shim of `calls.c` as a shared object.
Tests of what is missing are skipped.
"""
import os
import pathlib
import signal
import subprocess
import tempfile
import unittest

TOP = pathlib.Path(__file__).resolve().parents[3]
RNCV = pathlib.Path(os.environ.get("RNCV_PROGRAM", TOP / "crates/rncv/out/rncv")).resolve()
XML_PROGRAMS = pathlib.Path(os.environ.get("RNCV_XML_PROGRAMS", TOP / "build/xml")).resolve()
CALLS = os.environ.get("RNCV_CALLS", "")
SECONDS = 60
SIMPLE = (b"start = e0\ne0 = element a { p0 }\np0 = p1, p2\np1 = empty | p3\np2 = empty | p4\np3 = attribute x { text }\np4 = e1+\n"
          b"e1 = element b { empty }\n")


class InFolder(unittest.TestCase):
    """A fresh folder with schemas and a document."""

    def setUp(self):
        folder = tempfile.TemporaryDirectory()
        self.addCleanup(folder.cleanup)
        self.folder = pathlib.Path(folder.name)
        self.write("s.rnc", b"element a { empty }")
        self.write("eight.rnc", b"element a { attribute x { text }?, element b { empty }* }")
        self.write("broken.rnc", b"element a { foo | bar, baz }")
        self.write("d.pyx", b"(a\n)a\n")

    def write(self, name, data):
        """Writes a file."""
        path = self.folder / name
        path.write_bytes(data)
        return path

    def device(self, name, mode):
        """An open file of the folder, or a device. It is closed at the end of the test."""
        file = open(self.folder / name, mode, buffering=0)
        self.addCleanup(file.close)
        return file

    def full(self):
        """A device that accepts no byte."""
        if not os.path.exists("/dev/full"):
            self.skipTest("there is no /dev/full")
        return self.device("/dev/full", "wb")

    def pipe_end(self, at):
        """The read end (0) or the write end (1) of a pipe whose other end is closed."""
        ends = os.pipe()
        os.close(ends[1 - at])
        file = os.fdopen(ends[at], "rb" if at == 0 else "wb", buffering=0)
        self.addCleanup(file.close)
        return file

    def run_program(self, program, words, *, given=b"(a\n)a\n", closed=(), before=None, environment=None, **streams):
        """The status of a run, and what it writes on both streams; None for a stream that is closed or goes elsewhere.

        `given` is standard input, and `closed` are the numbers of the closed streams. `before` is called in the new process. `streams` may have a stdin, a
        stdout or a stderr."""
        def begin():
            for number in closed:
                os.close(number)
            if before:
                before()

        kept = {name: streams.get(name, subprocess.PIPE) for name in ("stdin", "stdout", "stderr")}
        words = [word if isinstance(word, bytes) else os.fsencode(word) for word in (program, *words)]
        fds = () if not environment or "CALLS_TO" not in environment else (int(environment["CALLS_TO"]),)
        with subprocess.Popen(words, cwd=self.folder, preexec_fn=begin, pass_fds=fds, env={**os.environ, **(environment or {})}, **kept) as run:
            out, errors = run.communicate(given if kept["stdin"] == subprocess.PIPE else None, timeout=SECONDS)
        return run.returncode, out if 1 not in closed else None, errors if 2 not in closed else None


class WithCalls(InFolder):
    """Runs in which calls fail by a plan."""

    def setUp(self):
        if not CALLS:
            self.skipTest("no C compiler is installed")
        super().setUp()

    def planned(self, program, words, *, given=b"(a\n)a\n", read=None, write=None, file=None, opened=None):
        """The status of a run by the plans, what it writes on both streams, and a letter for each of its calls."""
        log = self.device("calls", "wb+")
        plans = {"CALLS_READ": read, "CALLS_WRITE": write, "CALLS_FILE": file, "CALLS_OPEN": opened}
        environment = {name: ",".join(map(str, plan)) for name, plan in plans.items() if plan is not None}
        answer = self.run_program(program, words, given=given, environment={**environment, "LD_PRELOAD": CALLS, "CALLS_TO": str(log.fileno())})
        return (*answer, (self.folder / "calls").read_text())


def closed_pipe_kills():
    """Sets SIGPIPE to its default action, as under a shell."""
    signal.signal(signal.SIGPIPE, signal.SIG_DFL)


def closed_pipe_is_reported():
    """Makes a write to a closed pipe fail without a signal."""
    signal.signal(signal.SIGPIPE, signal.SIG_IGN)
