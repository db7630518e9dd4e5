"""Tests of the library that judges XML: it is built here, beside a copy of librncv (RNCV_LIBRARY, by default build/library).

Its test program in C runs alone and with the sanitizers of the compiler. The Python package uses it, and its answers are compared with those of `rncv-xml`.
"""
import atexit
import ctypes
import functools
import os
import pathlib
import random
import re
import shlex
import shutil
import subprocess
import sys
import tempfile
import unittest

from testing import HERE, RNCV_XML, TOP, InFolder

LIBRARY = pathlib.Path(os.environ.get("RNCV_LIBRARY", TOP / "build/library")).resolve()
WARNINGS = "-std=c17 -Wall -Wextra -Wconversion -Werror -pedantic -D_XOPEN_SOURCE=700".split()
SANITIZERS = "-g -O1 -fsanitize=address,undefined -fno-sanitize-recover=all"
# What a library must not do: write, end the process, set signals.
FORBIDDEN = re.compile(r"^(_?_?exit|_Exit|quick_exit|abort|sigaction|signal|write|puts|putchar|perror|fwrite|printf|fprintf|vfprintf|fputs|fputc|dprintf)(@|$)")
REFUSED, UNREAD = 1, 16
AS_THE_PROGRAM = """
import sys, rncv
with rncv.compile("s.rnc") as validator:
    for name in sys.argv[1:]:
        verdict = validator.validate_xml(name)
        print(name + (":" if verdict.line else ": ") + str(verdict))
        for note in verdict.notes:
            print(name + ":" + note, file=sys.stderr)
"""
sys.path.insert(0, str(TOP / "programs/python"))


def compiler():
    return shlex.split(os.environ.get("CC", "cc"))


def built(folder, **variables):
    """Builds the library beside a copy of librncv. None: something is missing."""
    shutil.copytree(LIBRARY, folder, symlinks=True)
    environment = {name: value for name, value in os.environ.items() if name not in ("RNCV_LIBRARY", "PREFIX")}
    run = subprocess.run([HERE / "library.sh", folder], env={**environment, **variables}, capture_output=True, text=True, check=False)
    if run.returncode not in (0, 2) or run.stdout or (run.returncode == 0 and run.stderr):
        raise AssertionError(f"library.sh: {run.returncode}\n{run.stdout}{run.stderr}")
    if run.returncode == 2:
        print(f"library_test.py: {run.stderr.strip()}")
    return folder if run.returncode == 0 else None


def private_libraries(folder):
    """What the static library is linked with."""
    text = (folder / "lib/pkgconfig/rncv_xml.pc").read_text()
    return re.search(r"^Libs.private: *(.*)$", text, re.M)[1].split()


@functools.lru_cache(maxsize=None)
def the_library():
    """The library, built once; None if it is not."""
    room = tempfile.TemporaryDirectory()
    atexit.register(room.cleanup)
    can_build = (LIBRARY / "lib/librncv.so").exists() and shutil.which(compiler()[0])
    library = built(pathlib.Path(room.name) / "library") if can_build else None
    if library is None and os.environ.get("RNCV_REQUIRED"):
        raise AssertionError(f"the library for XML cannot be built over {LIBRARY}")
    return library


class InLibrary(InFolder):
    """A fresh folder, and the library."""

    def setUp(self):
        super().setUp()
        self.library = the_library()
        if self.library is None:
            self.skipTest("the library for XML is not built")

    def compile(self, source, *words, name="program", **more):
        self.run_good([*compiler(), *WARNINGS, *words[:1], f"-I{self.library / 'include'}", "-o", str(self.folder / name), str(source), *words[1:]], **more)
        return self.folder / name

    def run_good(self, words, **more):
        run = subprocess.run(words, capture_output=True, text=True, timeout=300, check=False, **more)
        self.assertEqual((run.returncode, run.stderr), (0, ""), words)
        return run.stdout


class Built(InLibrary):
    """What the build leaves, and the test program in C."""

    SOURCE = HERE / "tests/library_test.c"
    MEMORY = HERE / "tests/library_memory_test.c"
    WRAPS = "-Wl,--wrap=malloc,--wrap=calloc,--wrap=realloc"

    def static(self, folder):
        return [str(folder / "lib/librncv_xml.a"), str(folder / "lib/librncv.a"), *private_libraries(folder)]

    def test_header(self):
        header = self.write("header.c", '#include "rncv_xml.h"\n')
        self.run_good([*compiler(), "-std=c11", *WARNINGS[1:], f"-I{self.library / 'include'}", "-fsyntax-only", str(header)])
        other = shlex.split(os.environ.get("CXX", "c++"))
        if shutil.which(other[0]):
            self.run_good([*other, "-x", "c++", "-std=c++11", "-Wall", "-Wextra", "-Werror", f"-I{self.library / 'include'}", "-fsyntax-only", str(header)])

    def test_names(self):
        declared = sorted(set(re.findall(r"\brncv_xml_[a-z_]+(?=\()", (HERE / "include/rncv_xml.h").read_text())))
        self.assertGreater(len(declared), 8)
        for words in (["-D", self.library / "lib/librncv_xml.so"], ["-g", self.library / "lib/librncv_xml.a"]):
            lines = self.run_good(["nm", "--defined-only", *map(str, words)]).splitlines()
            self.assertEqual(sorted(line.split()[-1] for line in lines if len(line.split()) == 3), declared)

    def test_what_it_does_not_do(self):
        for words in (["-D", self.library / "lib/librncv_xml.so"], [self.library / "lib/librncv_xml.a"]):
            used = [line.split()[-1] for line in self.run_good(["nm", "-u", *map(str, words)]).splitlines() if line.split()]
            self.assertIn("rncv_compile_with", used)
            self.assertEqual([name for name in used if FORBIDDEN.match(name)], [])

    def test_program(self):
        program = self.compile(self.SOURCE, "-O2", *self.static(self.library))
        self.assertEqual(self.run_good([program, str(self.folder)]), "library_test: ok\n")

    def test_refused_memory(self):
        program = self.compile(self.MEMORY, "-O2", self.WRAPS, *self.static(self.library))
        self.assertEqual(self.run_good([program, str(self.folder)]), "library_memory_test: ok\n")

    def test_program_with_sanitizers(self):
        probe = self.write("probe.c", "int main(void) { return 0; }\n")
        flags = SANITIZERS.split()
        if subprocess.run([*compiler(), *flags, "-o", self.folder / "probe", probe], capture_output=True, check=False).returncode != 0:
            self.skipTest("the compiler has no sanitizers")
        folder = built(self.folder / "a sanitized one", CFLAGS=SANITIZERS + " -DLONGEST_ENTITY=60 -DUSUAL_WIDTH=3")
        for source, *more in ((self.SOURCE,), (self.MEMORY, self.WRAPS)):
            program = self.compile(source, "-O1", *flags, *more, *self.static(folder))
            self.assertEqual(self.run_good([program, str(self.folder)]), f"{source.stem}: ok\n")

    def test_shared(self):
        self.wanted("pkg-config")
        environment = {**os.environ, "PKG_CONFIG_PATH": str(self.library / "lib/pkgconfig")}
        version = self.run_good(["pkg-config", "--modversion", "rncv_xml"], env=environment).strip()
        self.assertEqual(version, (TOP / "VERSION").read_text().strip())
        if not (self.library / "lib/pkgconfig/rncv.pc").read_text().startswith(f"prefix={self.library}\n"):
            # the copy of librncv was built for another folder
            text = (self.library / "lib/pkgconfig/rncv.pc").read_text()
            (self.library / "lib/pkgconfig/rncv.pc").write_text(re.sub("^prefix=.*", f"prefix={self.library}", text))
        words = self.run_good(["pkg-config", "--cflags", "--libs", "rncv_xml"], env=environment).split()
        program = self.compile(self.SOURCE, "-O2", *words, "-lpthread")
        self.assertEqual(self.run_good([program, str(self.folder)], env={**os.environ, "LD_LIBRARY_PATH": str(self.library / "lib")}), "library_test: ok\n")

    def test_what_is_missing(self):
        run = subprocess.run([HERE / "library.sh", self.folder / "empty"], env={**os.environ, "RNCV_LIBRARY": str(self.folder / "none")}, capture_output=True,
                             text=True, check=False)
        self.assertEqual((run.returncode, run.stderr.startswith("programs/xml/library.sh: no librncv in ")), (2, True), run.stderr)
        self.assertFalse((self.folder / "empty").exists())


class Used(InLibrary):
    """The Python package over the library."""

    def python(self, *words, **more):
        environment = {**os.environ, "RNCV_LIBRARY": str(self.library), "PYTHONPATH": str(TOP / "programs/python"), "PYTHONDONTWRITEBYTECODE": "1"}
        return subprocess.run([sys.executable, *map(str, words)], env=environment, capture_output=True, text=True, timeout=300, check=False, **more)

    def test_package(self):
        environment = {"RNCV_LIBRARY": str(self.library / "lib/librncv.so")}
        run = subprocess.run([sys.executable, "-B", "-m", "unittest", "test_xml"], cwd=TOP / "programs/python/tests", env={**os.environ, **environment},
                             capture_output=True, text=True, timeout=300, check=False)
        self.assertEqual(run.returncode, 0, run.stdout + run.stderr)
        self.assertNotIn("no library for XML", run.stderr)

    def test_pages(self):
        run = self.python("-B", TOP / "programs/library/tests/readme_test.py", self.library)
        self.assertEqual((run.returncode, "left out" in run.stdout), (0, False), run.stdout + run.stderr)

    def mutants(self):
        """Documents, most of them with faults."""
        chance = random.Random(5)
        good = ['<?xml version="1.0"?>\n<a x="1">\n  <b/>\n</a>\n', "<!DOCTYPE a SYSTEM 'a.dtd' [<!ENTITY e '<b/>'>]>\n<a x='1'>&e;</a>",
                '<a x="é&lt;">t<!-- c --></a>', "<n:a xmlns:n='u' n:x='1'>\n\t<b></b></n:a>"]
        changes = [("<b/>", ""), ("<b/>", "<c/>"), ('"1"', '"2"'), ("x=", "z="), ("t<", "u<"), ("<a ", "<a y='3' "), ("<b/>", "<b/><b/>"), (">", "> "),
                   ("b", "d"), ("<b/>", "<y:b/>"), ("xmlns:n", "n:y"), ("&e;", "&f;")]
        for at in range(400):
            text = good[at % len(good)]
            for _ in range(chance.randrange(3)):
                text = text.replace(*chance.choice(changes), 1)
            for _ in range(chance.randrange(3) // 2):
                place = chance.randrange(len(text))
                text = text[:place] + chance.choice(["", "<", "&", "/", "\x01", "'", "<c/>", "y='2'", "t", "\n"]) + text[place + chance.randrange(3):]
            yield text

    def test_as_the_program(self):
        """The answers are the lines of rncv-xml."""
        names = []
        self.write("s.rnc", 'element a { attribute x { "1" | "3" }, attribute y { "2" }?, (element b { empty } | "t") }\n')
        for at, text in enumerate(self.mutants()):
            names.append(f"{at}.xml")
            self.write(names[-1], text)
        run = self.python("-c", AS_THE_PROGRAM, *names, cwd=self.folder)
        out, errors, _ = self.run_in(RNCV_XML, "--all", "--max-faults", "1", "s.rnc", *names)
        self.assert_same(run.stdout, out)
        self.assert_same(run.stderr, errors)
        for word in ("valid", "invalid: <", "invalid: attribute", "invalid: the text", "ends too early", "malformed XML", "malformed P", "outside"):
            self.assertIn(word, out)
        self.assertIn("note:", errors)


class Mapping(ctypes.Structure):
    _fields_ = [("href", ctypes.c_char_p), ("path", ctypes.c_char_p)]


class File(ctypes.Structure):
    _fields_ = [("name", ctypes.c_void_p), ("name_length", ctypes.c_size_t), ("bytes", ctypes.c_void_p), ("length", ctypes.c_size_t)]


class Files(ctypes.Structure):
    _fields_ = [("list", ctypes.POINTER(File)), ("paths", ctypes.POINTER(ctypes.c_char_p)), ("count", ctypes.c_size_t), ("hidden", ctypes.c_void_p)]


class Refused(ctypes.Structure):
    _fields_ = [("clause", ctypes.c_int32), ("file", ctypes.c_int64), ("offset", ctypes.c_int64), ("line", ctypes.c_int64), ("column", ctypes.c_int64)]


class Fault(ctypes.Structure):
    _fields_ = [("clause", ctypes.c_int32), ("line", ctypes.c_uint64), ("column", ctypes.c_uint64), ("path", ctypes.c_char_p), ("message", ctypes.c_char_p),
                ("missing", ctypes.c_char_p)]


class Found(InLibrary):
    """The files of a schema, by the library in C and by the package in Python: both find the same."""

    def setUp(self):
        super().setUp()
        ctypes.CDLL(str(self.library / "lib/librncv.so"))
        self.calls = ctypes.CDLL(str(self.library / "lib/librncv_xml.so"))
        before = os.getcwd()
        self.addCleanup(os.chdir, before)
        os.chdir(self.folder)

    def by_c(self, main):
        files, fault = Files(), Fault()
        try:
            status = self.calls.rncv_xml_files_find(os.fsencode(main), None, ctypes.c_size_t(0), ctypes.byref(files), ctypes.byref(fault))
            if status != 0:
                return status, fault.message.decode()
            found = [(ctypes.string_at(file.name, file.name_length), os.fsdecode(files.paths[at]), ctypes.string_at(file.bytes, file.length))
                     for at, file in enumerate(files.list[:files.count])]
            self.assertEqual(self.calls.rncv_xml_files_explain(ctypes.byref(files), ctypes.byref(Refused(1, -1, -1, -1, -1)), ctypes.byref(fault)), 0)
            missing = None if fault.missing is None else (os.fsdecode(fault.missing), os.fsdecode(fault.path), fault.line, fault.column)
            return found, missing
        finally:
            self.calls.rncv_xml_files_free(ctypes.byref(files))
            self.calls.rncv_xml_fault_free(ctypes.byref(fault))

    def by_python(self, main):
        from rncv import _mentioned_if_read, _xml
        from rncv._schema_files import MOST_FILES, Finder

        try:
            finder = Finder([(main.encode(), main)], _mentioned_if_read, functools.partial(_xml.blanked, _xml.typed(self.calls)))
        except ValueError as error:
            return REFUSED, str(error)
        except OSError as error:
            return UNREAD, f"cannot read file {error.filename}: {error.strerror}"
        return [(file.name, file.path, file.content) for file in finder.files[:MOST_FILES + 1]], finder.missing and tuple(finder.missing)

    def opened(self, main):
        """The status of a judge by the schema, and the clause, the file and the line of its fault."""
        judge, fault = ctypes.c_void_p(), Fault()
        try:
            status = self.calls.rncv_xml_judge_open(os.fsencode(main), None, ctypes.c_size_t(0), ctypes.byref(judge), ctypes.byref(fault))
            return status, fault.clause, fault.path, fault.line
        finally:
            self.calls.rncv_xml_judge_free(ctypes.byref(judge))
            self.calls.rncv_xml_fault_free(ctypes.byref(fault))

    def test_more_files_than_the_library_takes(self):
        for number in range(70):
            self.write(f"part{number}.rnc", f"a{number} = element a {{ empty }}")
        self.write("main.rnc", "".join(f'include "part{number}.rnc"\n' for number in range(70)) + "start = a0 | a69")
        self.assertEqual(len(self.by_c("main.rnc")[0]), 64)
        self.assertEqual(self.opened("main.rnc"), (0, 0, None, 0))
        self.write("part69.rnc", "a69 =\n element a { b }")
        self.assertEqual(self.opened("main.rnc"), (REFUSED, 15, b"part69.rnc", 2))
        self.write("part69.rnc", "a69 =\n element a {")
        self.assertEqual(self.opened("main.rnc"), (REFUSED, 6, b"part69.rnc", 2))
        files, fault = Files(), Fault()
        self.assertEqual(self.calls.rncv_xml_files_find(b"main.rnc", None, ctypes.c_size_t(0), ctypes.byref(files), None), 0)
        self.calls.rncv_xml_files_explain(ctypes.byref(files), ctypes.byref(Refused(2, 0, -1, -1, -1)), ctypes.byref(fault))
        self.assertEqual((files.count, fault.clause, fault.path, fault.line), (71, 6, b"part69.rnc", 2))
        self.calls.rncv_xml_files_free(ctypes.byref(files))
        self.calls.rncv_xml_fault_free(ctypes.byref(fault))

    def test_layouts(self):
        chance = random.Random(7)
        names = ["a.rnc", "b.rnc", "s/a.rnc", "s/b.rnc", "s/t/a.rnc", "s/t/c d.rnc", "é.rnc"]
        mentions = [*names, "./a.rnc", "../a.rnc", "../b.rnc", "t/a.rnc", "c%20d.rnc", "t/c d.rnc", "%C3%A9.rnc", f"file://{self.folder}/b.rnc",
                    "http://x.org/a.rnc", "./../s//a.rnc", "file:a.rnc", "s", "", "none.rnc", "a%2Ernc", "FILE:///none?x"]
        forms = ['include "{}"', "div {{ include '{}' }}", 'x = external """{}"""', "external '{}'", "# include \"{}\"", '[ a:b [ include "{}" ] ]',
                 "\\include '{}'", "include.x '{}'", "y = '{}'", 'include # c\n\t"{}"', 'inclu\\x{{64}}e "{}"', "é = 'é' \r include '{}'", 'include inherit = b "{}"',
                 'external "" ~ "{}" ~ ""', "@ include '{}'", 'include """x"y""" include "{}"', "include:x '{}'", "a:* '{}'", 'include "\\x{{0}}{}"',
                 "'\n' include '{}'", "include [ a:b [ ] ] '{}'", '\\x{{A}}include "{}"', 'include """""" include "{}"', 'include "" "{}"',
                 "include \\x{{27}}{}'", 'a:b [ include [ "{}" ] \u00e9 [ "\u20ac" ] ]', 'x = empty >> a:b [ "]" include [ ] "{}" ]', 'b [ ] include "{}"']
        counts = dict.fromkeys(("found", "missing", "refused", "unread"), 0)
        for _ in range(400):
            for name in names:
                likely = mentions if chance.randrange(4) == 0 else mentions[:-7]
                shapes = forms if chance.randrange(3) == 0 else forms[:3]
                path = self.write(name, "\n".join(chance.choice(shapes).format(chance.choice(likely)) for _ in range(chance.randrange(5))))
                if chance.randrange(12) == 0:
                    path.unlink()
            for main in ("a.rnc", "./s/a.rnc", f"{self.folder}/s/t/a.rnc"):
                reported = self.by_c(main)
                self.assertEqual(reported, self.by_python(main))
                counts["found"] += isinstance(reported[0], list) and len(reported[0]) > 2
                counts["missing"] += isinstance(reported[0], list) and reported[1] is not None
                counts["refused"] += reported[0] == REFUSED
                counts["unread"] += reported[0] == UNREAD
        self.assertGreater(min(counts.values()), 10, counts)


if __name__ == "__main__":
    unittest.main()
