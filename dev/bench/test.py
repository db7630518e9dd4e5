#!/usr/bin/env python3
"""Quick tests of what the timers share:   dev/bench/test.py"""
import contextlib
import importlib.util
import io
import pathlib
import re
import sys
import unittest

sys.dont_write_bytecode = True
HERE = pathlib.Path(__file__).resolve().parent
sys.path.insert(0, str(HERE))
from measuring import Table, answer, below, spent, took, wanted  # noqa: E402
from workloads import as_xml  # noqa: E402

SHELL = ["/bin/sh", "-c"]


def timer(name):
    """The program of a timer as a module."""
    spec = importlib.util.spec_from_file_location(name, HERE / name / "run.py")
    module = importlib.util.module_from_spec(spec)
    spec.loader.exec_module(module)
    return module


class Measuring(unittest.TestCase):
    """Runs of small programs."""

    def test_a_run(self):
        for has_memory in (True, False):
            run = took([*SHELL, "echo \\ a; exit 3"], has_memory=has_memory)
            self.assertEqual((run.printed, run.status, answer(run)), ("a", 3, "a"))
            self.assertGreater(run.clock, 0)
            self.assertGreater(run.memory, 0)

    def test_standard_input(self):
        self.assertEqual(took(["cat"]).printed, "")
        self.assertEqual(took(["cat"], pieces=[b"a", b"b"] * 3).printed, "ababab")
        self.assertEqual(took(["wc", "-l"], stdin=__file__).printed, str(pathlib.Path(__file__).read_text(encoding="utf-8").count("\n")))

    def test_a_program_that_wants_no_more(self):
        self.assertEqual(took(["true"], pieces=[bytes(100_000)] * 100).status, 0)

    def test_a_run_that_takes_too_long(self):
        run = took([*SHELL, "sleep 60"], seconds=0.2)
        self.assertEqual((run.status, answer(run, 0.2)), (None, "given up after 0.2 s"))
        self.assertLess(run.clock, 30_000)

    def test_a_run_that_fails(self):
        self.assertEqual(answer(took(["false"])), "status 1")
        with self.assertRaisesRegex(SystemExit, "the work: status 1"):
            wanted(took(["false"]), "the work")

    def test_a_call(self):
        found, clock, processor = spent(lambda: 7)
        self.assertEqual((found, clock >= 0, processor >= 0), (7, True, True))

    def test_a_table(self):
        with contextlib.redirect_stdout(io.StringIO()) as printed:
            Table("A", "B").row(1, "x")
        self.assertEqual(printed.getvalue(), "| A | B |\n|---|---|\n| 1 | x |\n")

    def test_crates_below(self):
        self.assertEqual(set(below("pyx indexmap")), {"pyx", "rng_model"})

    def test_xml_of_a_document(self):
        self.assertEqual(as_xml("(a\nAx 1 2\nAy \n(b\n)b\n-t\n)a\n"), '<a x="1 2" y=""><b></b>t</a>')


class PatternTime(unittest.TestCase):
    """The texts of `pattern_time`."""

    def test_that_texts_match(self):
        made = timer("pattern_time")
        for name, expression, make in made.ROWS:
            for length in made.LENGTHS:
                texts = made.texts_of(name, make, length, 20)
                translated = expression.replace(r"\i\c*", r"\w+").replace(r"\p{L}", r"\w")
                self.assertTrue(texts and all(length - 6 < len(text) < max(length, 30) + 6 and re.fullmatch(translated, text) for text in texts), name)
                self.assertEqual(texts, made.texts_of(name, make, length, 20))
                self.assertEqual(len(set(texts)), len(texts))

    def test_that_attributes_match(self):
        made = timer("pattern_time")
        for texts, expression in ((made.codes(50), made.CODE), (made.names(50), r"\w{1,40}")):
            self.assertEqual((len(texts), [it for it in texts if not re.fullmatch(expression, it)]), (50, []))
            self.assertEqual(re.findall('c="(.*)"', made.as_xml(texts)), re.findall("\nAc (.*)", made.as_pyx(texts)))

    def test_a_line(self):
        self.assertEqual(timer("pattern_time").line_through([(20, 270), (220, 2470), (1020, 11270)]), (11, 50))


if __name__ == "__main__":
    unittest.main()
