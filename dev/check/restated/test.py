#!/usr/bin/env python3
"""Tests of dev/check/restated/run.py:   dev/check/restated/test.py"""
import pathlib
import sys
import tempfile
import unittest

sys.dont_write_bytecode = True
sys.path.insert(0, str(pathlib.Path(__file__).resolve().parent))
from run import copies, copy_faults, faults, keep, kit_lemmas, normal, restatements, rows_of  # noqa: E402

SAME = "{A : Type 0} (x y : A) → Some x ≡ Some y → x ≡ y"
KIT = {
    "std/proofs/lemmas/Option.antt": "pub use Rattle.core.proofs.Runs.{same_Some, hidden as shown}\n",
    "std/proofs/lemmas/Bool.antt": "pub or_left : (x y : Bool) → x ≡ true → (x || y) ≡ true\nor_left x y h = h\n\nmine : (b : Bool) → (b && false) ≡ false\n",
    "core/proofs/Runs.antt": f"same_Some : {SAME}\nsame_Some x y h = h\n\nhidden : {{A : Type 0}} (x : A) →\n  None ≡ Some x → ⊥\n",
}
LEMMAS = "-- lemmas\nuse Rattle.std.proofs.Common.{ℕ}\n\nsome_is : {X : Type 0} {p q : X} → Some p ≡ Some q → p ≡ q\nsome_is h = h\n"
ROW = "some_is std.proofs.lemmas.Option.{same_Some}"


class Restated(unittest.TestCase):
    """A small kit, and a checkout of one crate."""

    def setUp(self):
        room = tempfile.TemporaryDirectory(prefix="restated-")
        self.addCleanup(room.cleanup)
        self.top = pathlib.Path(room.name)
        for name, text in KIT.items():
            self.write(f"kit/{name}", text)

    def write(self, name, text):
        path = self.top / name
        path.parent.mkdir(parents=True, exist_ok=True)
        path.write_text(text, encoding="utf-8")

    def found(self, text):
        self.write("crates/low/proofs/A.antt", text)
        return list(restatements(self.top, kit_lemmas(self.top / "kit")))

    def test_names_and_implicits_do_not_count(self):
        self.assertEqual(normal(SAME), normal("{B : Type 0} → {p : B} {q : B} → Some p ≡ Some q → p ≡ q"))
        self.assertNotEqual(normal(SAME), normal("{B : Type 0} {p q : B} → Some p ≡ Some q → q ≡ p"))

    def test_brackets_do_not_count(self):
        self.assertEqual(normal("(x y : Bool) → (x && y) ≡ true → x ≡ true"), normal("(a b : Bool) → a && b ≡ true → a ≡ true"))

    def test_what_the_kit_exports(self):
        self.assertEqual(sorted(kit_lemmas(self.top / "kit").values()),
                         [f"std.proofs.lemmas.{name}" for name in ("Bool.{or_left}", "Option.{same_Some}", "Option.{shown}")])

    def test_a_new_one_is_refused(self):
        found = self.found(LEMMAS)
        self.assertEqual(found, [("crates/low/proofs/A.antt:4", "some_is", "std.proofs.lemmas.Option.{same_Some}")])
        self.assertEqual(list(faults(found, [])),
                         ["crates/low/proofs/A.antt:4: some_is states what the kit has: use Rattle.std.proofs.lemmas.Option.{same_Some}"])

    def test_a_known_one_passes_once(self):
        found = self.found(LEMMAS)
        self.assertEqual(list(faults(found, [ROW])), [])
        self.assertEqual(len(list(faults(found * 2, [ROW]))), 1)

    def test_a_known_one_that_is_gone(self):
        self.assertEqual(len(list(faults([], [ROW]))), 1)

    def test_over_several_lines(self):
        self.assertEqual([name for _, name, _ in self.found("module _ where\n  pub no : {A : Type 0}\n    (a : A) → None ≡ Some a → ⊥\n")], ["no"])

    def test_other_statements(self):
        self.assertEqual(self.found("one : {A : Type 0} (x : A) → None ≡ Some x → ℕ\nabbrev same : {A : Type 0} (x y : A) → Some x ≡ Some y → x ≡ y\n"), [])


LOW = "pub last : {A : Type 0} (xs : List A) (x : A) → slice_get (xs ++ x ∷ []) (length xs) ≡ Some x\nlast xs x = refl\n"
HIGH = "module _ {B : Type 0} (ys : List B) where\n  at_end : (y : B) → slice_get (ys ++ y ∷ []) (length ys) ≡ Some y\n  at_end y = refl\n"
OWN = "module _ (n : ℕ) (l : 0 < n) where\n  pub size : (k : ℕ) → k < n → length (numbers k) ≡ n + k\n  size k i = by {proof}\n"
STEP = "f : (n : ℕ) → T n\nf n = go n where\n  go : (k : ℕ) → length (numbers k) ≡ length (numbers {other})\n  go k = refl\n"


class Copies(unittest.TestCase):
    """A checkout of two crates."""

    def setUp(self):
        room = tempfile.TemporaryDirectory(prefix="restated-")
        self.addCleanup(room.cleanup)
        self.top = pathlib.Path(room.name)

    def found(self, low, high):
        for name, text in (("low/proofs/A", low), ("high/proofs/one/B", high)):
            path = self.top / f"crates/{name}.antt"
            path.parent.mkdir(parents=True, exist_ok=True)
            path.write_text(text, encoding="utf-8")
        return copies(self.top)

    def rows(self, low, high):
        return [[name for name, _ in places] for places in self.found(low, high).values()]

    def test_the_parameters_of_a_module(self):
        self.assertEqual(self.rows(LOW, HIGH), [["high at_end", "low last"]])

    def test_a_premise_that_a_proof_needs(self):
        self.assertEqual(self.rows(OWN.format(proof="l"), OWN.format(proof="l")), [["high size", "low size"]])
        self.assertEqual(self.rows(OWN.format(proof="l"), OWN.format(proof="i")), [])

    def test_a_premise_that_another_lemma_needs(self):
        more = "\n  less : n ≡ n\n  less = by l\n"
        self.assertEqual(self.rows(OWN.format(proof="l"), OWN.format(proof="less") + more), [["high size", "low size"]])

    def test_in_a_where(self):
        self.assertEqual(self.rows(STEP.format(other="k"), STEP.format(other="k")), [["high go", "low go"]])
        self.assertEqual(self.rows(STEP.format(other="n"), STEP.format(other="n")), [])

    def test_what_is_no_lemma(self):
        for text in ("record R : Type 0 where\n  last : (x : List ℕ) → length (numbers x) ≡ length x\n",
                     "IsMade : (x : List ℕ) → (y : List ℕ) → Type 0\nIsMade x y = x ≡ y\n",
                     "pub returns : (t : List ℕ) (c : List ℕ) → goal.returns t c\nreturns t c = refl\n"):
            self.assertEqual(self.rows(text, text), [])

    def test_a_new_one_is_refused(self):
        found = self.found(LOW, HIGH)
        self.assertEqual(list(copy_faults(found, [])),
                         ["crates/low/proofs/A.antt:1: last states what crates/high/proofs/one/B.antt:2 has: cite one, of the lowest crate"])

    def test_a_known_one(self):
        found = self.found(LOW, HIGH)
        self.assertEqual(list(copy_faults(found, ["high at_end, low last: a reason: this one"])), [])
        self.assertEqual(len(list(copy_faults(found, ["high at_end, low last: a reason", "high at_end, low last: a reason"]))), 1)
        self.assertEqual(len(list(copy_faults({}, ["high at_end, low last: a reason"]))), 1)

    def test_a_list_becomes_shorter(self):
        file = self.top / "copies.txt"
        file.write_text("# A head.\nb x, c y: one\na x, c y: two\nb x, c y: three\n", encoding="utf-8")
        self.assertEqual(keep(file, rows_of(file)[0], ["b x, c y", "d z"]), ["b x, c y: one"])
        self.assertEqual(file.read_text(encoding="utf-8"), "# A head.\nb x, c y: one\n")


class Lists(unittest.TestCase):
    """The lists that are kept."""

    def test_each_copy_has_a_reason(self):
        here = pathlib.Path(__file__).resolve().parent
        for row in rows_of(here / "copies.txt")[0]:
            self.assertRegex(row, r"^\w+ \S+(, \w+ \S+)+: .{10,}$")


if __name__ == "__main__":
    unittest.main()
