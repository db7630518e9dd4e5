#!/usr/bin/env python3
"""Tests of dev/check/believed/run.py: in copies of this checkout and of a small one, it must report each planted fault, and no other.

    dev/check/believed/test.py
"""
import pathlib
import re
import shutil
import sys
import tempfile
import unittest

sys.dont_write_bytecode = True
HERE = pathlib.Path(__file__).resolve().parent
TOP = HERE.parents[2]
sys.path.insert(0, str(HERE))
from run import TOUR, closure_of, judged, stands_right  # noqa: E402
from texts import is_file, rows  # noqa: E402

# A checkout of two crates: file by file.
SMALL = {
    "crates/rng_model/src/lib.rt": "pub use name::Name;\n",
    "crates/rng_model/src/name.rt": "pub struct Name {\n    pub text: String,\n}\n",
    "crates/rng_model/specs/Lib.antt": "pub mod names\n",
    "crates/rng_model/specs/names/Names.antt": "use Rattle.rng_model.specs.declared.name.Name.{Name}\nabbrev pub IsName : Name → Type 0\n",
    "crates/rng_model/specs/names/Other.antt": "-- use Rattle.high.specs.plain.Steps.{step}\n",
    "crates/high/src/lib.rt": """ghost use Rattle.rng_model.specs.names.Names.{IsName};
ghost use Rattle.rng_model.specs.names.Other.{IsOther};
ghost use Rattle.high.specs.plain.Steps.{step};
use rng_model::Name;

pub fn read(name: &Name) -> bool
    ensures { IsName name.now }
{
    inner(name)
}

fn inner(name: &Name) -> bool
    ensures { step name }
{
    true
}
""",
    "crates/high/specs/Lib.antt": "pub mod plain\n",
    "crates/high/specs/plain/Steps.antt": "-- steps\n",
    TOUR: "| File | What |\n|---|---|\n| `rng_model/specs/names/Names.antt` | names |\n",
}


class SmallCheckout(unittest.TestCase):
    """A checkout of two crates."""

    def setUp(self):
        self.room = tempfile.TemporaryDirectory()
        self.addCleanup(self.room.cleanup)
        self.top = pathlib.Path(self.room.name)
        for name, text in SMALL.items():
            self.write(name, text)
        self.write("calls.txt", "high read\n")
        self.write("exceptions.txt", "")

    def write(self, name, text):
        path = self.top / name
        path.parent.mkdir(parents=True, exist_ok=True)
        path.write_text(text)

    def add(self, name, text):
        self.write(name, (self.top / name).read_text() + text)

    def judged(self):
        return judged(self.top, self.top)


class Small(SmallCheckout):
    """What is followed, and what is reported, in a checkout of two crates."""

    def test_closure(self):
        closure, found = self.judged()
        self.assertEqual(set(closure.parent), {"crates/rng_model/specs/names/Names.antt", "crates/rng_model/src/name.rt: Name"})
        self.assertEqual(found, [])

    def test_file_outside(self):
        self.add("crates/rng_model/specs/names/Names.antt", "use Rattle.high.specs.plain.Steps.{step}\n")
        self.assertEqual([fault.split(":")[0] for fault in self.judged()[1]],
                         ["crates/high/specs/plain/Steps.antt is in the closure and outside rng_model, rnc_model, rncv_model", TOUR])

    def test_type_outside(self):
        self.add("crates/high/src/lib.rt", "pub enum Kind {\n    Good,\n}\n")
        self.add("crates/rng_model/specs/names/Names.antt", "use Rattle.high.specs.declared.lib.Kind.TheVariants as kinds\n")
        self.assertEqual([fault.split(" is in ")[0] for fault in self.judged()[1]], ["crates/high/src/lib.rt: Kind"])

    def test_method_of_a_trait(self):
        self.add("crates/high/src/lib.rt", """pub struct Taker {
    count: u8,
}

impl Takes for Taker {
    fn take(&mut self)
        ensures { step self.new }
    {
        self.count = 0;
    }
}
""")
        self.write("calls.txt", "high read\nhigh Taker\n")
        self.assertIn("crates/high/specs/plain/Steps.antt", self.judged()[0].parent)

    def test_tour(self):
        self.write(TOUR, SMALL[TOUR].replace("Names.antt", "Other.antt"))
        self.assertEqual(self.judged()[1], [f"{TOUR}: the tour lacks crates/rng_model/specs/names/Names.antt",
                                            f"{TOUR}: the tour lists crates/rng_model/specs/names/Other.antt, which is not in the closure"])

    def test_order_of_the_tour(self):
        names, other = "crates/rng_model/specs/names/Names.antt", "crates/rng_model/specs/names/Other.antt"
        self.add(names, "use Rattle.rng_model.specs.names.Other.{IsOther}\n")
        self.add(TOUR, "| `rng_model/specs/names/Other.antt` | others |\n")
        self.assertEqual(self.judged()[1], [f"{TOUR}: {names} comes before {other}, which it uses"])

    def test_exceptions(self):
        self.add("crates/rng_model/specs/names/Names.antt", "use Rattle.high.specs.plain.Steps.{step}\n")
        self.write("exceptions.txt", "crates/high/specs/plain/Steps.antt carried because it is handed on\n")
        self.assertEqual(self.judged()[1], [])
        self.write("exceptions.txt", "crates/high/specs/plain/Steps.antt stays because it is read\n")
        self.assertEqual(self.judged()[1], [f"{TOUR}: the tour lacks crates/high/specs/plain/Steps.antt"])
        self.write("crates/rng_model/specs/names/Names.antt", "")
        self.assertIn("dev/check/believed/exceptions.txt: crates/high/specs/plain/Steps.antt is not an exception", self.judged()[1])


# A type whose calls hand on a relation, and the file that says what the relation is.
COUNTER = """ghost use Rattle.high.specs.plain.Steps.{Holds};
pub struct Counter {
    count: u64,
}

impl Counter {
    pub fn new() -> Self
        ensures first { Holds result [] }
    {
        Counter { count: 0 }
    }

    pub fn add(&mut self, text: &str) -> Result<(), Full>
        ensures added { OnOk result ((xs : List Text) → Holds self.old xs → Holds self.new (text ∷ xs)) }
    {
        self.more()
    }

    pub fn count(&self) -> u64
        ensures { (xs : List Text) → Holds self.now xs → result ≡ length xs }
    {
        self.count
    }
}
"""
# Another method, which keeps the relation.
MORE = """
impl Counter {
    pub fn more(&mut self)
        ensures kept { (xs : List Text) → Holds self.old xs → Holds self.new xs }
    {
        self.count = self.count;
    }
}
"""
STEPS = "pub record Holds (n : ℕ) (xs : List Text) : Type 0 where\n  pub count : n ≡ length xs\n"


class Carried(SmallCheckout):
    """A relation that calls hand on: it is concluded before it is a premise, and each call that changes the value concludes it."""

    FILE = "crates/high/specs/plain/Steps.antt"

    def setUp(self):
        super().setUp()
        self.write(self.FILE, STEPS)
        self.add("crates/high/src/lib.rt", COUNTER)
        self.write("calls.txt", "high read\nhigh Counter\n")
        self.write("exceptions.txt", f"{self.FILE} carried because `new` gives it, `add` keeps it, and `count` takes it\n")

    def without(self, old, new=""):
        """The faults if a text of the type is another one."""
        path = self.top / "crates/high/src/lib.rt"
        text = path.read_text()
        self.assertIn(old, text)
        path.write_text(text.replace(old, new))
        return [fault.removeprefix(f"{self.FILE}: ") for fault in self.judged()[1]]

    def test_handed_on(self):
        self.assertEqual(self.judged()[1], [])

    def test_no_beginning(self):
        self.assertEqual(self.without("ensures first { Holds result [] }"),
                         ["Holds is a premise of the clause ensures added of high::Counter::add, and no other clause concludes it"])

    def test_not_kept(self):
        self.assertEqual(self.without("Holds self.old xs → Holds self.new (text ∷ xs)", "xs ≡ xs"),
                         ["Holds is a premise of the clause ensures of high::Counter::count, and high::Counter::add does not conclude it of what it changes"])

    def test_only_required(self):
        self.assertEqual(self.without("ensures first { Holds result [] }", "requires { ¬ (Holds 0 []) }"),
                         ["Holds is a premise of the clause ensures added of high::Counter::add, and no other clause concludes it"])

    def test_not_kept_by_a_method_that_is_left_out(self):
        self.write("calls.txt", "high read\nhigh Counter new more count\n")
        self.add("crates/high/src/lib.rt", MORE)
        self.assertEqual(self.judged()[1], [])
        self.assertEqual(self.without("Holds self.old xs → Holds self.new (text ∷ xs)", "xs ≡ xs"),
                         ["Holds is a premise of the clause ensures of high::Counter::count, and high::Counter::add does not conclude it of what it changes"])

    def test_clause_that_is_left_out(self):
        self.write("calls.txt", "high read\nhigh Counter new add-added count\n")
        self.assertEqual([fault.removeprefix(f"{self.FILE}: ") for fault in self.judged()[1]],
                         ["Holds is a premise of the clause ensures of high::Counter::count, and high::Counter::add does not conclude it of what it changes"])
        self.write("calls.txt", "high read\nhigh Counter new add-other count\n")
        self.assertRaises(SystemExit, self.judged)

    def test_in_a_definition_that_stays(self):
        self.write("crates/high/specs/plain/Adding.antt", "use Rattle.high.specs.plain.Steps.{Holds}\n"
                   "abbrev pub Adds : ℕ → ℕ → Text → Type 0\nAdds old new x = (xs : List Text) → Holds old xs\n    → Holds new (x ∷ xs)\n")
        self.add("exceptions.txt", "crates/high/specs/plain/Adding.antt stays because it names the value\n")
        self.add(TOUR, "| `high/specs/plain/Adding.antt` | adding |\n")
        self.add("crates/high/src/lib.rt", "ghost use Rattle.high.specs.plain.Adding.{Adds};\n")
        self.assertEqual(self.without("((xs : List Text) → Holds self.old xs → Holds self.new (text ∷ xs))", "(Adds self.old self.new text)"), [])
        self.assertEqual(len(self.without("ensures first { Holds result [] }")), 1)


class Planted(unittest.TestCase):
    """Faults in a copy of this checkout."""

    @classmethod
    def setUpClass(cls):
        cls.room = tempfile.TemporaryDirectory()
        cls.addClassCleanup(cls.room.cleanup)
        cls.top = pathlib.Path(cls.room.name)
        for crate in sorted((TOP / "crates").iterdir()):
            for folder in ("src", "specs"):
                if (crate / folder).is_dir():
                    shutil.copytree(crate / folder, cls.top / "crates" / crate.name / folder)
        (cls.top / TOUR).parent.mkdir(parents=True)
        shutil.copy(TOP / TOUR, cls.top / TOUR)
        shutil.copy(TOP / "README.md", cls.top)
        cls.closure, cls.before = judged(cls.top, HERE)

    def reported(self, data=HERE):
        """The faults that are new in the copy."""
        return set(judged(self.top, data)[1]) - set(self.before)

    def test_the_calls_are_there(self):
        for line in rows(HERE / "calls.txt"):
            self.assertTrue(closure_of(self.top, [line]).parent, line)

    def test_file_outside(self):
        planted = "crates/rng_load/specs/Planted.antt"
        known = self.top / next(node for node in self.closure.parent if is_file(node) and stands_right(node))
        text = known.read_text()
        (self.top / planted).write_text("-- planted\n")
        known.write_text("use Rattle.rng_load.specs.Planted.{planted}\n" + text)
        self.addCleanup(known.write_text, text)
        self.addCleanup((self.top / planted).unlink)
        reported = {fault.split(": by ")[0] for fault in self.reported() if not fault.startswith("README.md")}
        self.assertEqual(reported, {f"{planted} is in the closure and outside rng_model, rnc_model, rncv_model", f"{TOUR}: the tour lacks {planted}"})

    def test_line_missing(self):
        page = (self.top / TOUR).read_text()
        name = next(node for node in self.closure.parent if is_file(node) and f"`{node.removeprefix('crates/')}`" in page)
        without = "".join(line for line in page.splitlines(True) if f"`{name.removeprefix('crates/')}`" not in line)
        (self.top / TOUR).write_text(without)
        self.addCleanup((self.top / TOUR).write_text, page)
        self.assertIn(f"{TOUR}: the tour lacks {name}", self.reported())

    def test_figures_of_the_readme(self):
        readme = self.top / "README.md"
        text = readme.read_text()
        self.addCleanup(readme.write_text, text)
        readme.write_text(re.sub(r"\d+ files; for `run`", "7 files; for `run`", text))
        self.assertIn("and it says", self.reported().pop())
        readme.write_text("")
        self.assertIn("no sentence has the figures", self.reported().pop())

    def test_not_handed_on(self):
        planted = "crates/rng_model/specs/restrictions/RestrictionFaults.antt"
        for name, old, new in (("rng_rules/src/restrictions.rt", "BreaksNone", "IsLeastRestriction"),
                               ("rncv_validator/src/validator.rt", "ensures restricted { BreaksNone ", "ensures restricted { IsLeastRestriction ")):
            file = self.top / "crates" / name
            text = file.read_text()
            self.assertIn(old, text)
            file.write_text(text.replace(old, new))
            self.addCleanup(file.write_text, text)
        shutil.copy(HERE / "calls.txt", self.top)
        (self.top / "exceptions.txt").write_text((HERE / "exceptions.txt").read_text() + f"{planted} carried because `restrict` gives it\n")
        self.assertIn(f"{planted}: BreaksNone is a premise of the clause requires of rng_deriv::Matcher::new, and no other clause concludes it",
                      self.reported(self.top))


if __name__ == "__main__":
    unittest.main()
