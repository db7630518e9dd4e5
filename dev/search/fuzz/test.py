#!/usr/bin/env python3
"""A quick test of the fuzz tool:   dev/search/fuzz/test.py [PROGRAM]

Some cases of a fixed seed find nothing. In a program with a planted fault the fault is found, and the case is made small. The same holds of documents in
XML, of expressions of the facet `pattern`, and of why documents are invalid, for the `rncv-xml` in the folder that RNCV_XML_PROGRAMS names.
"""
import os
import pathlib
import random
import shutil
import subprocess
import sys
import tempfile
import unittest

import datatype_schemas
import datatypes_run
import documents
import value_judges
import value_texts
import values_run
import pattern_expressions
import pattern_judges
import pattern_reasons
import patterns_run
import reasons
import reasons_cases
import reasons_said
import schemas
import xml_differences
import xml_documents
import xml_judges
import xml_run

HERE = pathlib.Path(__file__).resolve().parent
PROGRAM = HERE.parents[2] / "crates/rncv/out/rncv"
RNCV_XML = pathlib.Path(os.environ.get("RNCV_XML_PROGRAMS", HERE.parents[2] / "build/xml")).resolve() / "rncv-xml"
# It calls a valid document invalid if the schema has an interleave.
FAULTY = """#!/bin/sh
answer=$("$REAL_PROGRAM" "$@")
status=$?
if [ "$answer" = valid ] && grep -q '&' "$2"; then
  echo 'invalid line 1'
  exit 1
fi
printf '%s\\n' "$answer"
exit $status
"""
# It reports each invalid document at its first line.
HASTY = """#!/bin/sh
answer=$("$REAL_PROGRAM" "$@")
status=$?
printf '%s\\n' "$answer" | sed 's/^invalid line .*/invalid line 1/'
exit $status
"""


# It ends by a signal if a document has a section of CDATA.
CRASHING = """#!/bin/sh
for name; do
  case $name in *.xml) grep -q 'CDATA' "$name" && kill -SEGV $$ ;; esac
done
exec "$REAL_PROGRAM" "$@"
"""
# It calls each attribute with a `b` invalid.
STRICT = """#!/bin/sh
answer=$("$REAL_PROGRAM" "$@")
status=$?
printf '%s\\n' "$answer" | while read -r line; do
  name=${line%%:*}
  if grep -qs 'a="[^"]*b' "$name"; then echo "$name:1:1: invalid: b"; else printf '%s\\n' "$line"; fi
done
exit $status
"""


# It does not tell a text of a wrong datatype.
UNTYPED = """#!/bin/sh
answer=$("$REAL_PROGRAM" "$@")
status=$?
printf '%s\\n' "$answer" | sed 's/"reason": "text-value"/"reason": "incomplete"/'
exit $status
"""


def fuzz(*words):
    run = subprocess.run([sys.executable, "-B", HERE / "run.py", "--no-jing", *map(str, words)], capture_output=True, text=True,
                         env={**os.environ, "REAL_PROGRAM": str(PROGRAM), "RNCV_LIBRARY": ""})
    return run.returncode, run.stdout + run.stderr


class FuzzTest(unittest.TestCase):
    def test_that_nothing_is_found(self):
        status, reported = fuzz("--seed", "test", "--cases", 50, PROGRAM)
        self.assertEqual(status, 0, reported)
        self.assertIn("0 faults found", reported)

    def found(self, text, check):
        """What is found in a faulty program: the schema, the document and the report."""
        with tempfile.TemporaryDirectory() as room:
            faulty = pathlib.Path(room, "faulty")
            faulty.write_text(text)
            faulty.chmod(0o755)
            status, reported = fuzz("--seed", "test", "--minutes", 1, "--most", 1, "--found", pathlib.Path(room, "found"), faulty)
            self.assertEqual(status, 1, reported)
            case = pathlib.Path(room, "found", check + "-0")
            return tuple((case / it).read_text() for it in ("plain/s.rnc", "document.pyx", "report.txt"))

    def test_that_a_wrong_answer_is_found_and_made_small(self):
        schema, document, report = self.found(FAULTY, "matcher")
        self.assertLess(len(schema), 80, report)
        self.assertLess(len(document.splitlines()), 6, report)
        self.assertIn("again: dev/search/fuzz/run.py --seed test --from ", report)

    def test_that_a_hasty_line_is_found(self):
        schema, _, report = self.found(HASTY, "continuations")
        self.assertLess(len(schema), 80, report)


class XmlTest(unittest.TestCase):
    """`xml_run.py` without jing: the runs of rncv-xml alone are looked at."""

    def test_that_parts_join_to_the_document(self):
        for number in range(50):
            data = xml_documents.mutant(number)
            for split in (xml_documents.markup, xml_documents.tokens, xml_documents.characters):
                self.assertEqual(b"".join(split(data)), data)
            self.assertEqual(data, xml_documents.mutant(number))

    def test_that_each_explanation_is_in_the_table(self):
        table = (HERE.parents[2] / "programs/xml/tests/reasons.tsv").read_text(encoding="utf-8")
        self.assertEqual([key for key in sorted(xml_differences.KEYS) if f"\n{key}\t" not in table], [])

    def test_that_a_difference_is_explained(self):
        said = xml_judges.Said
        for ours, theirs, data, agreed, key in (
                (said("outside", "external entity 's.ent' is not loaded: outside the profile"), said("valid"), b"<a/>", None, "unread"),
                (said("valid"), said("malformed"), "<\ua000/>".encode(), "valid", "names"),
                (said("valid"), said("malformed"), "<\ua000/>".encode(), "malformed", None),
                (said("valid"), said("malformed"), b"<?xml version='1.7'?><a/>", "valid", "versions"),
                (said("malformed"), said("valid"), b"<?xml version='1.0' encoding='EUC-JP'?><a>\xa4</a>", None, "jing-bytes"),
                (said("malformed"), said("valid"), b"<a/>", None, None)):
            found = xml_differences.explanation(data, xml_run.Difference("any.rnc", ours, theirs), lambda changed, agreed=agreed: agreed)
            self.assertEqual(found, key)

    def judged(self, program, *words):
        with tempfile.TemporaryDirectory() as room:
            run = subprocess.run([sys.executable, "-B", HERE / "xml_run.py", "--no-jing", "--seed", "test", "--program", program, "--found", room,
                                  *map(str, words)], capture_output=True, text=True, check=False,
                                 env={**os.environ, "REAL_PROGRAM": str(RNCV_XML)})
            found = [it.read_bytes() for it in sorted(pathlib.Path(room).glob("*.xml"))]
            return run.returncode, run.stdout + run.stderr, found

    def test_that_each_document_is_answered(self):
        if not RNCV_XML.exists():
            self.skipTest(f"there is no {RNCV_XML}")
        status, reported, _ = self.judged(RNCV_XML, "--count", 100, "--mutants", 100)
        self.assertEqual(status, 0, reported)
        self.assertIn("0 differences without an explanation", reported)

    def test_that_a_crash_is_found_and_made_small(self):
        if not RNCV_XML.exists():
            self.skipTest(f"there is no {RNCV_XML}")
        with tempfile.TemporaryDirectory() as room:
            crashing = pathlib.Path(room, "rncv-xml")
            crashing.write_text(CRASHING)
            crashing.chmod(0o755)
            status, reported, found = self.judged(crashing, "--count", 20, "--mutants", 0, "--most", 1)
        self.assertEqual((status, found), (1, [b"CDATA"]), reported)


class PatternsTest(unittest.TestCase):
    """`patterns_run.py` without jing: Python's `re` judges beside rncv-xml."""

    def test_sizes(self):
        for pattern, size in (("", 1), ("|", 2), ("ab", 3), ("(a)", 3), ("(a|b)*", 6), ("a+", 4), ("a{0}", 3), ("a{2,}", 5), ("[a-z-[b]]{3,4}", 6),
                              (r"\p{Lu}\[[\]\[]", 4), ("a{4094}", 4096)):
            self.assertEqual(pattern_expressions.size(pattern), size, pattern)

    def test_parts(self):
        self.assertEqual(pattern_expressions.class_escapes(r"\\d\p{IsThai}[\W]\W\-"), [r"\p{IsThai}", r"\W"])
        self.assertEqual(pattern_expressions.bracket_classes(r"[a-[b]]\[[\]]x"), ["[a-[b]]", r"[\]]"])

    def test_that_a_seed_says_all(self):
        kinds = set()
        for number in range(60):
            made = [pattern_expressions.made(random.Random(number)) for _ in range(2)]
            self.assertEqual(made[0], made[1])
            kinds.add(pattern_expressions.is_expression(made[0]))
        self.assertEqual(kinds, {True, False})

    def test_that_the_translation_agrees(self):
        found = []
        for pattern in (r"(a|b{2,3})*", r"[a-z-[aeiou]]+", r"\i\c*", r"[^\s\d]?", r"(x+x+)+y", "", "[a-[b-[c]]]."):
            texts = pattern_expressions.texts_of(pattern, random.Random(pattern), 20)
            wanted = ["valid" if pattern_expressions.matches(pattern, text) else "invalid" for text in texts]
            self.assertEqual(pattern_judges.by_python(pattern, texts), wanted)
            found += wanted
        self.assertTrue(min(found.count("valid"), found.count("invalid")) > 30)
        self.assertEqual(pattern_judges.by_python("(a*)*b", ["a" * 40]), ["too many steps"])

    def test_reasons(self):
        class Jing:
            def holds(self, part, c):
                return {r"\i": c.isalpha() and c < "\x7f", r"[^a\s]": True}.get(part)

        self.assertEqual(pattern_reasons.of_jing_text(Jing(), r"\ib", "\xe9b"), "names")
        self.assertEqual(pattern_reasons.of_jing_text(Jing(), r"[^a\s]", "a"), "negation")
        self.assertIsNone(pattern_reasons.of_jing_text(Jing(), r"\ib", "ab"))
        self.assertEqual([pattern_reasons.of_our_refusal(it, True) for it in ("a{4295000000}", "a{4095}", "a{4094}")], ["count", "size", None])
        self.assertEqual(pattern_reasons.of_jing_refusal("[-a]", 'character "-" must be escaped'), "dash")
        self.assertIsNone(pattern_reasons.of_jing_refusal("a-b", 'character "-" must be escaped'))

    def judged(self, program, *words):
        with tempfile.TemporaryDirectory() as room:
            run = subprocess.run([sys.executable, "-B", HERE / "patterns_run.py", "--no-jing", "--seed", "test", "--pairs", "1", "--most", "1",
                                  "--program", program, "--found", pathlib.Path(room, "found"), *words], capture_output=True, text=True, check=False,
                                 env={**os.environ, "REAL_PROGRAM": str(RNCV_XML)})
            return run.returncode, run.stdout + run.stderr

    def test_that_nothing_differs(self):
        if not RNCV_XML.exists():
            self.skipTest(f"there is no {RNCV_XML}")
        status, reported = self.judged(RNCV_XML)
        self.assertEqual(status, 0, reported)
        self.assertIn("0 differences without an explanation", reported)

    def test_that_a_wrong_verdict_is_found(self):
        if not RNCV_XML.exists():
            self.skipTest(f"there is no {RNCV_XML}")
        with tempfile.TemporaryDirectory() as room:
            strict = pathlib.Path(room, "rncv-xml")
            strict.write_text(STRICT)
            strict.chmod(0o755)
            status, reported = self.judged(strict, "--no-reducing")
        self.assertEqual(status, 1, reported)
        self.assertRegex(reported.splitlines()[0], r"^re: (?:\w+ )?'.*' and '.*b.*': invalid, and by re valid$")

    def test_that_a_difference_is_made_small(self):
        class Bench:
            """A program that calls each text with a `b` invalid."""
            def such(self, difference, pattern, texts):
                wrong = [it for it in texts if "b" in it and pattern_expressions.matches(pattern, it)]
                return patterns_run.Difference("re", ("string", pattern, wrong[0]), "invalid", "valid") if wrong else None

        found = patterns_run.made_smaller(Bench(), patterns_run.Difference("re", ("string", "a(x*b|[cd]{2,3})+.?", "axxbcdb!"), "invalid", "valid"))
        self.assertIn((found.pattern, found.text), (("b", "b"), (".", "b")))


class DatatypesTest(unittest.TestCase):
    """`datatypes_run.py`, which needs jing."""

    def test_that_a_seed_says_all(self):
        made = [[datatype_schemas.made(random.Random(number)) for number in range(100)] for _ in range(2)]
        self.assertEqual(made[0], made[1])
        self.assertTrue({"list", "(xsd", "xsd:"} <= {pattern[:4] for pattern, _ in made[0]})

    def test_reasons_of_schemas(self):
        for pattern, ours, theirs, reason in (
                ('xsd:int { maxInclusive = "1" maxInclusive = "1" }', "S12", "", "repeated"), ('xsd:ID { length = "1" maxLength = "2" }', "S12", "", "length"),
                ('xsd:ID { minLength = " 4 " maxLength = "+3" }', "S12", "", "orders"),
                ('xsd:int { minInclusive = "1" minExclusive = "0" }', "S12", "", "orders"),
                ('list { (xsd:int { fractionDigits = "1" } | xsd:int)* }', "S12", "", "fraction"), ('(xsd:token | xsd:QName "a")', "S12", "", "prefix"),
                ('xsd:int { totalDigits = "1" }', "", '"10" is not allowed by the base type', "steps"), ('xsd:anyURI ":"', "", "is not a valid value", "uri"),
                ('xsd:int { pattern = "a" pattern = "b" maxInclusive = "1" }', "S12", "", None), ("xsd:token", "status 1: x", "", None),
                ('"a"', "", "x", None)):
            self.assertEqual(datatypes_run.reason_of_schema(pattern, ours, theirs), reason, pattern)

    def test_reasons_of_texts(self):
        for names, text, ours, reason in ((["ENTITY"], "a", "valid", "entity"), (["anyURI"], ":", "valid", "uri"), (["anyURI"], ":", "invalid", None),
                                          (["NCName"], "\U00010000", "valid", "names"), (["int"], "1", "valid", None)):
            self.assertEqual(datatypes_run.reason_of_text(names, text, ours), reason, names)

    def test_that_nothing_differs(self):
        if not RNCV_XML.exists() or not shutil.which("jing"):
            self.skipTest("rncv-xml or jing is not installed")
        run = subprocess.run([sys.executable, "-B", HERE / "datatypes_run.py", "--seed", "test", "--rows", "1", "--program", RNCV_XML],
                             capture_output=True, text=True, check=False)
        self.assertEqual(run.returncode, 0, run.stdout + run.stderr)
        self.assertIn("0 differences without an explanation", run.stdout)


class ValuesTest(unittest.TestCase):
    """`values_run.py`, which needs jing."""

    def test_that_a_seed_says_all(self):
        made = [[value_texts.made(random.Random(number)).pattern() for number in range(300)] for _ in range(2)]
        self.assertEqual(made[0], made[1])
        self.assertEqual({name for name in value_texts.NAMES if any(pattern.startswith(f"xsd:{name}") for pattern in made[0])}, set(value_texts.NAMES))

    def test_what_python_says(self):
        for name, parameters, value, text, verdict in (
                ("decimal", {"totalDigits": "3"}, None, "1.230", "valid"), ("decimal", {"fractionDigits": "1"}, None, "1.23", "invalid"),
                ("decimal", {"totalDigits": "3"}, None, "0.0001", "invalid"), ("float", {}, "16777216", "16777217", "valid"),
                ("float", {}, "16777216", "16777217.00000000000001", "invalid"), ("float", {"maxInclusive": "NaN"}, None, "NaN", "valid"),
                ("duration", {"minInclusive": "P30D"}, None, "P1M", "invalid"), ("duration", {}, "P1Y", "P12M", "invalid"),
                ("time", {}, "00:00:00Z", "19:00:00-05:00", "valid"),
                ("time", {"minInclusive": "08:00:00+09:00"}, None, "09:00:00+09:00", "valid"),
                ("time", {"minInclusive": "08:00:00+09:00"}, None, "07:00:00+09:00", "invalid"),
                ("duration", {"maxInclusive": "PT1H"}, None, "PT60M", "valid"), ("duration", {}, None, "P1234567890D", "valid"),
                ("gMonthDay", {}, None, "--02-30", "invalid"),
                ("dateTime", {"maxExclusive": "2000-01-01T00:00:00"}, None, "1999-12-31T10:00:00Z", "invalid"),
                ("hexBinary", {}, "aF", "Af", "valid"), ("base64Binary", {"maxLength": "1"}, None, "A A = =", "valid")):
            self.assertEqual(value_judges.judged(value_texts.Made(name, parameters, value), text), verdict, (name, text))

    def test_dates_beside_datetime(self):
        for name, text in (("dateTime", "0001-01-01T00:00:00+14:00"), ("date", "9999-12-31-13:59"), ("time", "23:59:59.999999Z"), ("gMonthDay", "--02-29Z")):
            self.assertEqual(value_judges.by_datetime(name, text) is not None, not text.startswith("0001"), text)
            self.assertTrue(value_judges.is_dated_alike(name, text), text)

    def test_reasons(self):
        for name, parameters, text, reason in (
                ("time", {}, "24:00:00", "midnight"), ("dateTime", {}, "2000-01-01T00:00:60", "seconds"), ("duration", {}, "PT.5S", "point"),
                ("gDay", {}, "---01-14:00", "zone"), ("gYear", {}, "99999999999-01:00", "limits"), ("decimal", {"totalDigits": "1"}, "1.0", "digits"),
                ("time", {"minInclusive": "23:00:00Z"}, "08:00:00+09:00", "recurs"), ("time", {"minInclusive": "01:00:00Z"}, "00:00:00", None),
                ("duration", {"maxInclusive": "PT1H"}, "PT60M", "sums"), ("duration", {"maxInclusive": "PT1H"}, "PT61M", None),
                ("date", {}, "2000-01-01", None), ("float", {}, "1", None)):
            self.assertEqual(values_run.reason_of_text(value_texts.Made(name, parameters), text), reason, (name, text))

    def test_that_nothing_differs(self):
        if not RNCV_XML.exists() or not shutil.which("jing"):
            self.skipTest("rncv-xml or jing is not installed")
        run = subprocess.run([sys.executable, "-B", HERE / "values_run.py", "--seed", "test", "--rows", "1", "--program", RNCV_XML],
                             capture_output=True, text=True, check=False)
        self.assertEqual(run.returncode, 0, run.stdout + run.stderr)
        self.assertIn("0 differences without an explanation", run.stdout)


class ReasonsTest(unittest.TestCase):
    """`reasons_run.py`: the plain matcher says why a document is invalid."""
    INTEGER = ("data", "xsd:integer", (), None)
    # element r { ((attribute x { text }, attribute y { xsd:integer }) | attribute z { text }), (xsd:integer | (text, element a { empty })) }
    PARTS = [("attribute", ("name", "", it), body) for it, body in (("x", ("text",)), ("y", INTEGER), ("z", ("text",)))]
    CONTENT = ("choice", (INTEGER, ("group", (("text",), ("element", ("name", "", "a"), ("empty",))))))
    SCHEMA = schemas.Schema(("element", ("name", "", "r"), ("group", (("choice", (("group", tuple(PARTS[:2])), PARTS[2])), CONTENT))), {})

    def said(self, lines, schema=SCHEMA):
        """The reason for a document, its place, and what belongs to it."""
        found = reasons.reason_of(reasons.ReasonPatterns(schema), lines.split("|"))
        if found is None:
            return None
        about = {found.attribute, *(found.missing or ()), *(found.others or ()), *(it for it, may in (found.names or {}).items() if may)} - {None}
        return found.reason, found.at, found.column, sorted(about), sorted(found.texts or ())

    def test_reasons(self):
        integer, names = ("data", "xsd:integer", ()), {it: ("", it) for it in "arxyz"}
        for lines, wanted in (
                ("(r|Az 1|-5|)r", None),
                ("(q|)q", (reasons.ELEMENT, "element", 1, [names["r"]], [])),
                ("(r|Az 1|-t|(b|)b|)r", (reasons.ELEMENT, "element", 11, [names["a"]], [])),
                ("(r|)r", (reasons.MISSING, "element", 1, [], [])),
                ("(r|Ax 1|)r", (reasons.MISSING, "element", 1, [names["y"]], [])),
                ("(r|Ax 1|Az 1|)r", (reasons.ATTRIBUTE, "attribute", 1, [names["y"], names["z"]], [])),
                ("(r|Az 1|Ay 1|)r", (reasons.ATTRIBUTE, "attribute", 1, [names["y"]], [])),
                ("(r|Ay t|Ax 1|)r", (reasons.ATTRIBUTE_VALUE, "attribute", 1, [names["y"]], [integer])),
                ("(r|Az 1|- t|)r", (reasons.INCOMPLETE, "end", 12, [names["a"]], [])),
                ("(r|Az 1|)r", (reasons.INCOMPLETE, "end", 1, [names["a"]], [integer])),
                ("(r|Az 1|- |)r", (reasons.INCOMPLETE, "end", 11, [names["a"]], [integer])),
                ("(r|Az 1|(a|)a|-t|)r", (reasons.TEXT, "text", 17, [], [])),
                ("(r|Az 1|(a|)a|-t|(a|)a|)r", (reasons.TEXT, "text", 17, [], []))):
            self.assertEqual(self.said(lines), wanted, lines)

    def test_an_element_of_which_nothing_is_valid(self):
        schema = schemas.Schema(("element", ("any", None), ("group", (("notAllowed",), self.PARTS[0]))), {})
        found = self.said("(a|)a", schema)
        self.assertEqual(found[:3], (reasons.ELEMENT, "element", 1))
        self.assertIn((reasons.FRESH_URI, reasons.FRESH), found[3])

    def test_what_is_shown(self):
        scope = {"": "urn:a", "p": "urn:b"}
        told = ["<b>", "<p:c>", "<d> without namespace", "{urn:c}e", "any element of urn:d (with exceptions)", '"<f>"', "xsd:integer"]
        items = reasons_said.Items(told, scope)
        self.assertEqual(items.names, {("urn:a", "b"), ("urn:b", "c"), ("", "d"), ("urn:c", "e")})
        self.assertEqual((items.wild, items.texts, items.has_text), ({("urn:d", True)}, {'"<f>"', "xsd:integer"}, False))
        self.assertTrue(items.covers(("urn:d", "x")) and not items.covers(("urn:a", "x")))
        self.assertEqual(reasons_said.attributes_of(["x", "p:x"], scope), {("", "x"), ("urn:b", "x")})
        self.assertRaises(reasons_said.Unresolved, reasons_said.expanded, "q:x", scope, True)
        self.assertEqual(reasons_said.shown_text(("data", "xsd:token", (("minLength", "1"), ("maxLength", "2")))),
                         'xsd:token { minLength = "1" maxLength = "2" }')

    def test_differences(self):
        patterns = reasons.ReasonPatterns(self.SCHEMA)
        reason = reasons.reason_of(patterns, "(r|Az 1|)r".split("|"))
        said = {"verdict": "invalid", "line": 1, "column": 1, "at": "end", "name": "r", "reason": "incomplete", "expected": ["<a>", "xsd:integer"]}
        for changes, kind in (
                ({}, None), ({"verdict": "valid"}, "valid, and not invalid"), ({"reason": "text-value"}, "text-value, and not incomplete"),
                ({"column": 11}, "place"), ({"name": "a"}, "name"), ({"expected": ["xsd:integer"]}, "names expected for incomplete"),
                ({"expected": ["<a>", "<b>", "xsd:integer"]}, "names expected for incomplete"), ({"expected": ["<a>"]}, "texts expected for incomplete"),
                ({"expected": ["<p:a>", "xsd:integer"]}, "a prefix that is not declared")):
            found = reasons_said.difference({**said, **changes}, reason, patterns)
            self.assertEqual(found and found[0], kind, changes)

    def test_that_a_seed_says_all(self):
        for number in range(10):
            made = []
            for _ in range(2):
                chance = random.Random(number)
                changing = reasons_cases.Changing(reasons_cases.schema(str(number), chance), chance)
                made.append([documents.as_bytes(it) for it in changing.documents(10)])
            self.assertEqual(*made)

    def judged(self, program, *words):
        with tempfile.TemporaryDirectory() as room:
            run = subprocess.run([sys.executable, "-B", HERE / "reasons_run.py", "--seed", "test", "--count", "8", "--documents", "20", "--program", program,
                                  "--found", room, *words], capture_output=True, text=True, check=False, env={**os.environ, "REAL_PROGRAM": str(RNCV_XML)})
            return run.returncode, run.stdout + run.stderr

    def test_that_nothing_differs(self):
        if not RNCV_XML.exists():
            self.skipTest(f"there is no {RNCV_XML}")
        status, reported = self.judged(RNCV_XML)
        self.assertEqual(status, 0, reported)
        self.assertIn(" 0 differences", reported)

    def test_that_a_wrong_reason_is_found(self):
        if not RNCV_XML.exists():
            self.skipTest(f"there is no {RNCV_XML}")
        with tempfile.TemporaryDirectory() as room:
            untyped = pathlib.Path(room, "untyped")
            untyped.write_text(UNTYPED)
            untyped.chmod(0o755)
            status, reported = self.judged(untyped, "--no-reducing", "--without", "attribute*")
        self.assertEqual(status, 1, reported)
        self.assertIn(": incomplete, and not text-value: ", reported)


if __name__ == "__main__":
    if len(sys.argv) > 1:
        PROGRAM = pathlib.Path(sys.argv.pop(1)).resolve()
    unittest.main()
