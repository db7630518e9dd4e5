#!/usr/bin/env python3
"""Tests of dev/cost:   dev/cost_test.py"""
import pathlib
import subprocess
import sys
import tempfile
import unittest

HERE = pathlib.Path(__file__).resolve().parent
CRATES = "# The crates.\nlow: indexmap\nbeside:\nmid staticlib: low core\n# Tests.\nhigh: mid beside small\nsmall:\n"
HEAD = "| Crate | Proofs | Tests | Check before the edits | Edits | An edit, seconds | Sum |\n|---|---|---|---|---|---|---|\n"
ROWS = "| `low` | 1.5 | | 1.0 | 2.2 | 16 | 4.7 |\n| `mid` | 0.2 |  |  |  |  |  |\n| `high` | 2.0 | 1.0 | | | | 3.0 |\n"
REFERENCE = "# minutes\nfactor 1.0\nsmall 0.4 f2a45a5d16879094\nlow 9.0 f2a45a5d16879094\n"


class Cost(unittest.TestCase):
    """Each test runs a copy of the program in a small checkout, or the program itself."""

    def run_at(self, top, *words):
        run = subprocess.run([sys.executable, "-B", top / "dev/cost", *words], capture_output=True, text=True, timeout=60, check=False)
        return run.stdout + run.stderr, run.returncode

    def small(self, *words):
        """What it prints in a checkout of five crates, one of which has no minutes."""
        with tempfile.TemporaryDirectory(prefix="cost-") as room:
            top = pathlib.Path(room)
            for name, text in (("crates.txt", CRATES), ("docs/develop/GATE.md", HEAD + ROWS), ("dev/check/gate_times/reference.txt", REFERENCE),
                               ("dev/cost", (HERE / "cost").read_text(encoding="utf-8"))):
                (top / name).parent.mkdir(parents=True, exist_ok=True)
                (top / name).write_text(text, encoding="utf-8")
            return self.run_at(top, *words)

    def test_all_above_are_proved_again(self):
        self.assertEqual(self.small("low"), ("low: 1.5\nmid: 0.2\nhigh: 2.0\n3 crates, 3.7 minutes of proofs, 7.9 with tests and edits\n", 0))
        self.assertEqual(self.small("mid"), ("mid: 0.2\nhigh: 2.0\n2 crates, 2.2 minutes of proofs, 3.2 with tests and edits\n", 0))

    def test_what_two_have_above_counts_once(self):
        self.assertEqual(self.small("mid", "beside"), (
            "beside: 0.0\nmid: 0.2\nhigh: 2.0\n3 crates, 2.2 minutes of proofs, 3.2 with tests and edits\n"
            "without minutes: beside\n", 0))

    def test_a_small_crate_has_its_row_elsewhere(self):
        self.assertEqual(self.small("small"), ("high: 2.0\nsmall: 0.4\n2 crates, 2.4 minutes of proofs, 3.4 with tests and edits\n", 0))

    def test_each_alone(self):
        lines = self.small()[0].splitlines()
        self.assertEqual([line.split(":")[0] for line in lines], ["low", "small", "mid", "beside", "high", "without minutes"])

    def test_a_word_that_is_no_crate(self):
        self.assertEqual(self.small("low", "indexmap"), ("cost: no crate of crates.txt: indexmap\n", 2))

    def test_this_checkout(self):
        text, status = self.run_at(HERE.parent, "rng_model")
        self.assertEqual(status, 0, text)
        self.assertRegex(text, r"(?m)^rncv: [\d.]+\n(.*\n)*\d+ crates, \d\d+\.\d minutes of proofs, \d\d+\.\d with tests and edits$")


if __name__ == "__main__":
    unittest.main()
