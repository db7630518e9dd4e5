"""What the tests of `rncv-xml` and `xml2pyx` share.

The variable RNCV_XML_PROGRAMS names the folder with the two programs, RNCV_PROGRAM the built `rncv`.
"""
import os
import pathlib
import resource
import shutil
import subprocess
import sys
import tempfile
import unittest

HERE = pathlib.Path(__file__).resolve().parents[1]
TOP = HERE.parents[1]
PROGRAMS = pathlib.Path(os.environ.get("RNCV_XML_PROGRAMS", TOP / "build/xml")).resolve()
RNCV_XML, XML2PYX = PROGRAMS / "rncv-xml", PROGRAMS / "xml2pyx"
RNCV = pathlib.Path(os.environ.get("RNCV_PROGRAM", TOP / "crates/rncv/out/rncv")).resolve()
sys.path.insert(0, str(HERE / "converter"))

SCHEMA = "element a { attribute x { text }, (element b { empty } | text) }\n"


class InFolder(unittest.TestCase):
    """A fresh folder with a schema and documents."""

    def setUp(self):
        folder = tempfile.TemporaryDirectory()
        self.addCleanup(folder.cleanup)
        self.folder = pathlib.Path(folder.name)
        self.write("s.rnc", SCHEMA)
        self.write("good.xml", '<?xml version="1.0"?>\n<a x="1">\n  <b/>\n</a>\n')
        self.write("bad.xml", '<a x="1">\n  <b/>\n  <c/>\n</a>\n')
        self.write("cut.xml", '<a x="1">\n  <b>\n</a>\n')

    def write(self, name, text):
        """Writes a file, text as UTF-8 or bytes."""
        path = self.folder / name
        path.parent.mkdir(parents=True, exist_ok=True)
        path.write_bytes(text if isinstance(text, bytes) else text.encode("utf-8"))
        return path

    def run_in(self, *words, given=b"", **more):
        """What a program prints on both streams, and its status."""
        run = subprocess.run([word if isinstance(word, bytes) else str(word) for word in words], cwd=more.pop("cwd", self.folder), input=given,
                             capture_output=True, timeout=100, check=False, **more)
        for stream in (run.stdout, run.stderr):
            self.assertNotIn(b"AddressSanitizer", stream)
            self.assertNotIn(b"runtime error", stream)
        return run.stdout.decode("utf-8", "backslashreplace"), run.stderr.decode("utf-8", "backslashreplace"), run.returncode

    def judge(self, *words, **more):
        """What `rncv-xml` prints on standard output, and its status."""
        out, _, status = self.run_in(RNCV_XML, *words, **more)
        return out, status

    def shell(self, script, **environment):
        """What a shell script prints on both streams, with the programs on its PATH, and its status."""
        self.wanted("bash")
        path = os.pathsep.join(map(str, (PROGRAMS, RNCV.parent, os.environ["PATH"])))
        run = subprocess.run(["bash", "-c", script], cwd=self.folder, stdin=subprocess.DEVNULL, stdout=subprocess.PIPE, stderr=subprocess.STDOUT,
                             timeout=100, check=False, env={**os.environ, "PATH": path, **environment})
        return run.stdout.decode(), run.returncode

    def assert_same(self, found, wanted, what=None):
        """As assertEqual, for values whose difference would take long to print."""
        if found != wanted:
            self.fail(f"{what}: {str(found)[:500]} and not {str(wanted)[:500]}")

    def wanted(self, *programs):
        for program in programs:
            if not shutil.which(program):
                self.skipTest(f"{program} is not installed")

    def without_sanitizers(self, program):
        """Skips a test of memory if the program is built with AddressSanitizer. That keeps freed memory, and needs terabytes of addresses to begin with."""
        if b"__asan_init" in program.read_bytes():
            self.skipTest(f"{program.name} is built with sanitizers, which take memory themselves")


def processor_seconds():
    """The seconds of a processor that ended programs took. A busy machine does not change them much, as it changes the seconds on the clock."""
    used = resource.getrusage(resource.RUSAGE_CHILDREN)
    return used.ru_utime + used.ru_stime


def peak_of(words):
    """The most memory that a program had, in KiB, and its status. `time` measures it, and is small. Without `time` Python measures it, and is not small."""
    if os.access("/usr/bin/time", os.X_OK):
        with tempfile.NamedTemporaryFile() as measured:
            run = subprocess.run(["/usr/bin/time", "-q", "-f", "%M", "-o", measured.name, *map(str, words)], stdout=subprocess.DEVNULL,
                                 stderr=subprocess.DEVNULL, check=False, timeout=100)
            return int(measured.read().split()[-1]), run.returncode
    script = ("import resource, subprocess, sys\n"
              "status = subprocess.run(sys.argv[1:], stdout=subprocess.DEVNULL, stderr=subprocess.DEVNULL).returncode\n"
              "print(resource.getrusage(resource.RUSAGE_CHILDREN).ru_maxrss, status)\n")
    run = subprocess.run([sys.executable, "-c", script, *map(str, words)], capture_output=True, check=True, timeout=100)
    peak, status = map(int, run.stdout.split())
    return peak, status
