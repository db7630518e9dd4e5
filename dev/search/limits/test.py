#!/usr/bin/env python3
"""A quick test of the tools about limits:   dev/search/limits/test.py [PROGRAM]     (PROGRAM: the built rncv, else crates/rncv/out/rncv)

They print a row of a table for an input, and find the least stack. A program that is missing, is slow or needs more stack than there is, is told. Expressions
are judged by the `rncv-xml` in the folder that RNCV_XML_PROGRAMS names, by default build/xml.
"""
import os
import pathlib
import subprocess
import sys
import tempfile
import unittest

import inputs
import patterns
import stack

HERE = pathlib.Path(__file__).resolve().parent
PROGRAM = HERE.parents[2] / "crates/rncv/out/rncv"
RNCV_XML = pathlib.Path(os.environ.get("RNCV_XML_PROGRAMS", HERE.parents[2] / "build/xml")).resolve() / "rncv-xml"
SMALL = "an empty element"


def reported(tool, *words):
    """What a tool prints on both streams, and its status."""
    run = subprocess.run([sys.executable, "-B", HERE / tool, *map(str, words)], capture_output=True, text=True, timeout=600, check=False)
    return run.stdout, run.stderr, run.returncode


def cells(out):
    """The cells of the last row of a table."""
    return [cell.strip() for cell in out.splitlines()[-1].strip("|").split(" | ")]


class LimitsTest(unittest.TestCase):
    def script(self, text):
        """A program that is a script."""
        room = tempfile.TemporaryDirectory()
        self.addCleanup(room.cleanup)
        path = pathlib.Path(room.name, "a script")
        path.write_text(f"#!/bin/sh\n{text}\n", encoding="utf-8")
        path.chmod(0o755)
        return path

    def test_a_row_of_run(self):
        out, errors, status = reported("run.py", "--quick", "--only", SMALL, PROGRAM)
        self.assertEqual((errors, status), ("", 0))
        name, command, seconds, memory, answer = cells(out)
        self.assertEqual((name, command, answer), (f"{SMALL}, a stack of 256 KiB", "`check`", "`schema ok`"))
        self.assertLess(float(seconds), 5)
        self.assertGreater(int(memory), 0)

    def test_a_row_of_stack(self):
        out, errors, status = reported("stack.py", "--only", SMALL, PROGRAM)
        self.assertEqual((errors, status), ("", 0))
        name, command, size, answer = cells(out)
        self.assertEqual((name, command, answer), (SMALL, "`check`", "`schema ok`"))
        self.assertLess(int(size), 256)

    def test_a_program_that_is_not_there(self):
        for tool, words in (("run.py", []), ("stack.py", []), ("search.py", ["--minutes", "0"])):
            for program in (HERE / "none", HERE / "inputs.py"):
                out, errors, status = reported(tool, *words, program)
                self.assertEqual((out, status), ("", 1), (tool, program))
                self.assertRegex(errors, "^[^\n]* is not there, or is no program\n$")

    def test_a_program_that_ends_by_a_signal(self):
        program = self.script("kill -SEGV $$")
        self.assertEqual(cells(reported("run.py", "--only", SMALL, program)[0])[-1], "ended by SIGSEGV")
        self.assertEqual(cells(reported("stack.py", "--only", SMALL, program)[0])[-2:], ["more", "ended by SIGSEGV"])

    def test_a_program_that_is_slow(self):
        out = reported("run.py", "--only", SMALL, "--seconds", "1", self.script("while :; do :; done"))[0]
        self.assertRegex(cells(out)[2], r"^over \d\.\d\d$")
        self.assertEqual(cells(out)[-1], "stopped after 1 seconds")

    def test_a_bar_in_an_answer(self):
        self.assertIn(" | `a \\| b` |\n", reported("run.py", "--only", SMALL, self.script("echo 'a | b'; echo more"))[0])

    def test_the_least_size(self):
        for size in (8, 9, 60, 100, 1_503, 65_535):
            found = stack.least(lambda most, size=size: most >= size, 65_536)
            self.assertTrue(size <= found <= size + max(1, found // 100), (size, found))

    def test_each_input_is_made(self):
        for name, _, stack_size, make in inputs.ROWS:
            files, document = make(0.01)
            self.assertTrue(files and all(isinstance(text, str) for text in (*files, document)), name)
            self.assertIn(stack_size, (None, 256))

    def test_words_of_expressions(self):
        for words, text in (("(a?)^2 a^3", "(a?)(a?)aaa"), ("U+61-U+65/2", "ace"), ("( U+61-U+63/1| )*", "(a|b|c)*"), ("", ""), ("a", "a")):
            self.assertEqual(patterns.made(words), text)
        self.assertRegex(patterns.made("ab~100"), "^[ab]{100}$")
        self.assertEqual(patterns.made("ab~100"), patterns.made("ab~100"))

    def test_rows_of_expressions(self):
        if not RNCV_XML.is_file():
            self.skipTest(f"no {RNCV_XML}")
        for name, answers in (("plus-plus", 4), ("counts-in-counts", 2), ("groups-open", 1)):
            out, errors, status = reported("patterns.py", "--no-jing", "--only", name, "--program", RNCV_XML)
            self.assertEqual((errors, status, len(out.splitlines())), ("", 0, 2 + answers), out)
        self.assertRegex(cells(out)[5], r"^\d+\.\d S12, \d+ MiB$")

    def test_a_wrong_answer_about_an_expression(self):
        program = self.script('case "$*" in *d.xml) echo "d.xml: valid";; esac')
        out, _, status = reported("patterns.py", "--no-jing", "--only", "star-of-star", "--program", program)
        self.assertEqual((out.splitlines()[-2:], status), ([f"{name}: rncv-xml: taken, valid, and the row says taken, invalid"
                                                            for name in ("star-of-star", "star-of-star-long")], 1))
        out, _, status = reported("patterns.py", "--no-jing", "--only", "plus-plus-long", "--seconds", "1", "--program", self.script("sleep 9"))
        self.assertIn("| stopped | stopped |", out)


if __name__ == "__main__":
    if len(sys.argv) > 1:
        PROGRAM = pathlib.Path(sys.argv.pop(1)).resolve()
    unittest.main()
