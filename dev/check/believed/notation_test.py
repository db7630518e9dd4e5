#!/usr/bin/env python3
"""Tests of dev/check/believed/notation.py:   dev/check/believed/notation_test.py"""
import pathlib
import sys
import tempfile
import unittest

sys.dont_write_bytecode = True
sys.path.insert(0, str(pathlib.Path(__file__).resolve().parent))
from notation import PAGE, faults, rows_of, words_of  # noqa: E402
from texts import Crates  # noqa: E402

FILE = "crates/low/specs/A.antt"
TEXT = """-- a λ in a comment is none
use Rattle.std.specs.Prelude.{ℕ, List, if◌then◌else◌,
  ◌||◌}
use Rattle.std.specs.Hash as fed
use Rattle.low.specs.B.{own}

abbrev pub f : List ℕ → ℕ
f xs = own "× data" xs
"""
WORDS = {"ℕ", "List", "if", "then", "else", "||", "fed", "use", "abbrev", "pub", "→", "as"}
TABLE = "| Written | Read |\n|---|---|\n| `ℕ`, `List A` | |\n| `if a then x else y`, `a \\|\\| b` | |\n| `fed.str xs` | |\n| `use M as n`, `pub` | |\n| `abbrev f : A → B` | |\n"


class Notation(unittest.TestCase):
    """The words of a small checkout, and pages about them."""

    def test_words_of_a_file(self):
        with tempfile.TemporaryDirectory(prefix="notation-") as room:
            top = pathlib.Path(room)
            for name, text in ((FILE, TEXT), ("crates/low/src/lib.rt", "")):
                (top / name).parent.mkdir(parents=True)
                (top / name).write_text(text, encoding="utf-8")
            self.assertEqual(words_of(Crates(top), FILE), WORDS)

    def test_a_page_that_has_them(self):
        self.assertEqual(list(faults(dict.fromkeys(WORDS, FILE), TABLE)), [])

    def test_each_row_is_needed(self):
        for number, row in rows_of(TABLE):
            page = "".join(line for at, line in enumerate(TABLE.splitlines(keepends=True), 1) if at != number)
            self.assertEqual(list(faults(dict.fromkeys(WORDS, FILE), page)), [f"{PAGE} lacks `{word}` of {FILE}" for word in sorted(row & WORDS)], row)

    def test_a_row_without_need(self):
        page = TABLE + "| `fold f a xs` | ℕ |\n"
        self.assertEqual(list(faults(dict.fromkeys(WORDS, FILE), page)), [f"{PAGE}:8: no believed file has a word of this row"])


if __name__ == "__main__":
    unittest.main()
