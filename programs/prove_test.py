#!/usr/bin/env python3
"""Tests of prove.py, with a stand-in for `rt`:   programs/prove_test.py"""
import os
import pathlib
import re
import subprocess
import sys
import tempfile
import unittest

HERE = pathlib.Path(__file__).resolve().parent
sys.path.insert(0, str(HERE))
sys.dont_write_bytecode = True
import prove  # noqa: E402

CRATES = "# crates\nlow: std\nmid: low\nbeside:\nlib staticlib: mid\nprogram: mid low\n"
TABLE = "| Crate | Proofs | Tests | Check | Edits | An edit | Sum |\n|---|---|---|---|---|---|---|\n| `low` | 1.5 | 0.0 | 0.0 | 0.0 |  | 1.5 |\n| `mid` | 0.5 | 0.0 | 0.0 | 0.0 |  | 0.5 |\n"
RT = """#!/bin/sh
[ "$*" = ci ] && [ -d .git ] && [ ! -e crates/low/must-fail ] && [ ! -e crates/beside ] || exit 9
cat crates.txt
echo "rt: low is kept: an earlier run proved the same files"
echo "== mid"
echo "rt: mid proved"
[ ! -e crates/mid/src/bad ] || { echo "rt: program NOT PROVED"; echo "2 passed, 1 failed"; exit 1; }
mkdir -p crates/program/out
echo built > crates/program/out/program
echo "rt: program proved"
echo "rt: lib proved"
"""


class Prove(unittest.TestCase):
    """The parts of prove.py, and a run of it in a small checkout."""

    def test_crates(self):
        uses = prove.uses_of(CRATES)
        self.assertEqual(prove.with_all_below(uses, ["program"]), ["low", "mid", "program"])
        self.assertEqual(prove.with_all_below(uses, ["lib", "beside"]), ["low", "mid", "beside", "lib"])
        self.assertEqual(uses["lib"], ("lib staticlib: mid", ["mid"]))

    def test_that_the_repository_has_what_make_builds(self):
        uses = prove.uses_of((prove.TOP / "crates.txt").read_text(encoding="utf-8"))
        minutes = prove.minutes_of((prove.TOP / "docs/develop/GATE.md").read_text(encoding="utf-8"))
        names = re.search(r"programs/prove\.py (.*)", (prove.TOP / "Makefile").read_text(encoding="utf-8"))[1].split()
        crates = prove.with_all_below(uses, names)
        self.assertIn("rng_model", crates)
        self.assertGreater(sum(name in minutes for name in crates), len(crates) // 2)

    def test_progress(self):
        now = [0.0]
        progress = prove.Progress(["a", "b", "c"], {"a": 1.0, "b": 2.0, "c": 3.0}, lambda: now[0])
        self.assertEqual(progress.line("a", "is kept"), "1 of 3: a is kept")
        now[0] = 240.0
        self.assertEqual(progress.line("b", "proved"), "2 of 3: b proved; about 6 minutes left")
        self.assertEqual(progress.line("c", "proved"), "3 of 3: c proved")

    def run_in(self, top, *words):
        """What a run in a checkout prints, and its status."""
        for name, text in (("crates.txt", CRATES), ("docs/develop/GATE.md", TABLE), ("programs/prove.py", (HERE / "prove.py").read_text(encoding="utf-8")),
                           ("bin/rt", RT), *((f"crates/{name}/src/lib.rt", "") for name in ("low", "mid", "beside", "lib", "program")), ("crates/low/must-fail/a.edit", "")):
            (top / name).parent.mkdir(parents=True, exist_ok=True)
            (top / name).write_text(text, encoding="utf-8")
        (top / "bin/rt").chmod(0o755)
        path = f"{top / 'bin'}{os.pathsep}{os.environ['PATH']}"
        run = subprocess.run([sys.executable, "-B", top / "programs/prove.py", *words], capture_output=True, text=True, timeout=120, check=False,
                             env={**os.environ, "PATH": path})
        return run.stdout + run.stderr, run.returncode

    def test_run(self):
        with tempfile.TemporaryDirectory() as room:
            top = pathlib.Path(room)
            out, status = self.run_in(top, "program", "lib")
            self.assertEqual(status, 0, out)
            self.assertEqual(out.splitlines()[1], "1 of 4: low is kept")
            self.assertTrue(out.splitlines()[2].startswith("2 of 4: mid proved; about "), out)
            self.assertEqual(out.splitlines()[-1], "4 of 4: lib proved")
            self.assertEqual((top / "crates/program/out/program").read_text(), "built\n")
            self.assertIn("lib staticlib: mid\nprogram: mid low\n", (top / "build/proved/log").read_text())

    def test_run_that_fails(self):
        with tempfile.TemporaryDirectory() as room:
            top = pathlib.Path(room)
            (top / "crates/mid/src").mkdir(parents=True)
            (top / "crates/mid/src/bad").touch()
            out, status = self.run_in(top, "program")
            self.assertEqual(status, 1)
            self.assertIn("program NOT PROVED", out)
            self.assertFalse((top / "crates/program/out").exists())
            self.assertEqual(self.run_in(top, "none"), ("programs/prove.py: crates.txt has no none\n", 2))


if __name__ == "__main__":
    unittest.main(verbosity=1)
