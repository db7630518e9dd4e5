#!/usr/bin/env python3
"""Tests of `rncv-xml --datatypes`: which datatypes a schema may name, and what is noted of those that are judged by their spelling. See test.sh. What texts the
datatypes take, `dev/check/datatypes` compares with jing."""
import json
import re
import unittest

from testing import HERE, RNCV_XML, InFolder

LARGER = """start = element order { attribute number { xsd:positiveInteger { totalDigits = "5" } }, attribute see { xsd:anyURI { maxLength = "20" } }?, line+ }
line = element line { attribute count { xsd:unsignedByte }, xsd:language }
"""
GOOD = '<order number="+00042" see="a b"><line count=" 7 ">de-AT</line></order>'
# The same in the XML syntax.
IN_XML = """<element name="order" xmlns="http://relaxng.org/ns/structure/1.0" datatypeLibrary="http://www.w3.org/2001/XMLSchema-datatypes">
  <attribute name="number"><data type="positiveInteger"><param name="totalDigits">5</param></data></attribute>
  <optional><attribute name="see"><data type="anyURI"><param name="maxLength">20</param></data></attribute></optional>
  <oneOrMore><element name="line">
    <attribute name="count"><data type="unsignedByte"/></attribute>
    <data type="language"/>
  </element></oneOrMore>
</element>
"""
BAD = (
    (GOOD.replace("+00042", "0"), '1:1: invalid: attribute number of <order> is no xsd:positiveInteger ("0")'),
    (GOOD.replace("+00042", "123456"), '1:1: invalid: attribute number of <order> is an xsd:positiveInteger that the schema does not allow ("123456"); '
     'expected xsd:positiveInteger { totalDigits = "5" }'),
    (GOOD.replace("a b", "a" * 21), f'1:1: invalid: attribute see of <order> is an xsd:anyURI that the schema does not allow ("{"a" * 21}"); '
     'expected xsd:anyURI { maxLength = "20" }'),
    (GOOD.replace(" 7 ", "256"), '1:34: invalid: attribute count of <line> is no xsd:unsignedByte ("256")'),
    (GOOD.replace("de-AT", "-"), '1:52: invalid: the text of <line> is no xsd:language ("-")'),
)
# What <a> may have, what it has, what is said of that, and what is told as expected.
UP_TO_9, UP_TO_20 = 'xsd:integer { maxInclusive = "9" }', 'xsd:integer { minInclusive = "1" maxInclusive = "20" }'
FROM_30, LONG = 'xsd:integer { minInclusive = "30" }', f'xsd:string {{ pattern = "{"a" * 2000}" }}'
NO_QUOTE, NO_QUOTES = """xsd:string { pattern = '[^"]' }""", r'''xsd:string { pattern = "[^\"']" pattern = "" }'''
NOT_ALLOWED = 'the text of <a> is an xsd:{} that the schema does not allow ("{}")'
PARAMETERS = (
    (UP_TO_20, "21", f"{NOT_ALLOWED.format('integer', 21)}; expected {UP_TO_20}", [UP_TO_20]),
    (UP_TO_20, "two", 'the text of <a> is no xsd:integer ("two")', [UP_TO_20]),
    (UP_TO_20, "", f"<a> ends too early: expected {UP_TO_20}", [UP_TO_20]),
    (f'{UP_TO_20} - "7"', "21", f"{NOT_ALLOWED.format('integer', 21)}; expected {UP_TO_20}", [UP_TO_20]),
    (f'{UP_TO_20} - "7"', "7", NOT_ALLOWED.format("integer", 7), [UP_TO_20]),
    (f'({FROM_30} - "40") | ({UP_TO_9} - "7")', " 7 ", NOT_ALLOWED.format("integer", "7 "), [UP_TO_9, FROM_30]),
    ('xsd:integer - "7"', "7", NOT_ALLOWED.format("integer", 7), ["xsd:integer"]),
    (f"{FROM_30} | {UP_TO_9}", "15", f"{NOT_ALLOWED.format('integer', 15)}; expected {UP_TO_9} or {FROM_30}", [UP_TO_9, FROM_30]),
    (f"{FROM_30} | {UP_TO_9}", "two", 'the text of <a> is no xsd:integer ("two")', [UP_TO_9, FROM_30]),
    (f'{UP_TO_9} | xsd:date | "none"', "15", f'the text of <a> is wrong ("15"); expected "none", xsd:date or {UP_TO_9}', ['"none"', "xsd:date", UP_TO_9]),
    (NO_QUOTE, '"', NOT_ALLOWED.format("string", r'\"') + f"; expected {NO_QUOTE}", [NO_QUOTE]),
    ("""xsd:string { pattern = '[^"' ~ "']" pattern = "" }""", "x", f"{NOT_ALLOWED.format('string', 'x')}; expected {NO_QUOTES}", [NO_QUOTES]),
    (r'xsd:string { pattern = "\x{9}\d" }', "x", NOT_ALLOWED.format("string", "x") + r'''; expected xsd:string { pattern = "\t\d" }''',
     ['xsd:string { pattern = "\t\\d" }']),
    (LONG, "x", f"{NOT_ALLOWED.format('string', 'x')}; expected {LONG[:80]}..", [LONG]),
)
SPELLED = "are judged by their spelling"
# Schemas with datatypes that depend on the document, and the note.
NOTED = (
    ("xsd:QName", f"texts of xsd:QName {SPELLED}: their prefixes are not looked up"),
    ("xsd:NOTATION | xsd:QName", f"texts of xsd:QName and xsd:NOTATION {SPELLED}: their prefixes are not looked up"),
    ("xsd:ENTITY", f"texts of xsd:ENTITY {SPELLED}: the entities are not looked up"),
    ("xsd:ENTITIES | xsd:QName", f"texts of xsd:QName {SPELLED}: their prefixes are not looked up; "
     f"texts of xsd:ENTITIES {SPELLED}: the entities are not looked up"),
)
# Schemas that name no such datatype, though they nearly do.
NOT_NOTED = ('namespace xsd = "u" element xsd:QName { xsd:token }', "# xsd:QName\nelement a { text }", 'element a { attribute b { "xsd:QName" } }',
             "element a { empty | (xsd:ENTITY, notAllowed) }", "start = element a { text } unused = element b { xsd:QName }")


class Sets(InFolder):
    """The two sets."""

    def test_the_larger_set_is_the_default(self):
        self.write("good.xml", GOOD)
        self.write("s.rng", IN_XML)
        for schema in (self.write("s.rnc", LARGER).name, "s.rng"):
            for words in ((), ("--datatypes", "xml-schema"), ("--datatypes=xml-schema",), ("--datatypes", "profile", "--datatypes", "xml-schema")):
                with self.subTest((schema, words)):
                    self.assertEqual(self.run_in(RNCV_XML, *words, "--all", schema, "good.xml"), ("good.xml: valid\n", "", 0))
            for document, wanted in BAD:
                with self.subTest((schema, document)):
                    self.write("bad.xml", document)
                    self.assertEqual(self.run_in(RNCV_XML, schema, "bad.xml"), (f"bad.xml:{wanted}\n", "", 1))

    def test_the_six_of_the_profile(self):
        self.write("s.rnc", LARGER)
        self.write("s.rng", IN_XML)
        self.write("good.xml", GOOD)
        for schema, place in (("s.rnc", "1:44"), ("s.rng", "2:28")):
            out, errors, status = self.run_in(RNCV_XML, "--datatypes", "profile", schema, "good.xml")
            self.assertEqual((errors, status), ("", 3))
            self.assertRegex(out, rf"^s\.rn[cg]:{place}: S12 .*: hint: xsd:positiveInteger is of the datatypes xml-schema, and not of those of the profile: ")

    def test_numbers(self):
        """In the larger set a number may have any length, and bounds have an order."""
        self.write("s.rnc", "element a { xsd:integer }")
        self.write("long.xml", f"<a>{'9' * 39}</a>")
        self.assertEqual(self.judge("--all", "s.rnc", "long.xml"), ("long.xml: valid\n", 0))
        self.assertEqual(self.judge("--datatypes", "profile", "s.rnc", "long.xml"),
                         (f'long.xml:1:4: invalid: the text of <a> is an xsd:integer that the schema does not allow ("{"9" * 39}")\n', 1))
        self.write("s.rnc", 'element a { xsd:integer { minInclusive = "5" maxInclusive = "4" } }')
        self.assertEqual(self.run_in(RNCV_XML, "--datatypes", "profile", "s.rnc")[2], 0)
        self.assertIn("leave no value between them", self.judge("s.rnc")[0])

    def test_parameters(self):
        """Messages tell the parameters of a datatype, as a schema has them. The member `datatype` is its name."""
        for content, text, said, expected in PARAMETERS:
            with self.subTest(content, text=text):
                self.write("s.rnc", f"element a {{ {content} }}")
                self.write("a.xml", f"<a>{text}</a>")
                told = json.loads(self.judge("--format", "json", "s.rnc", "a.xml")[0])
                self.assertEqual((told["message"], told["expected"]), (f"invalid: {said}", expected))
                self.assertEqual("datatype" in told, " is an " in said or " is no " in said)
                self.assertIn(told.get("datatype", ""), ("", expected[0].split(" ")[0]))

    def test_pattern(self):
        """Each pattern restricts the type, in the larger set alone."""
        both = 'xsd:NCName { pattern = "[a-c]+" pattern = "..." }'
        self.write("s.rnc", f"element a {{ {both} }}")
        for text, status in (("abc", 0), ("abd", 1), ("ab", 1)):
            verdict = f"invalid: {NOT_ALLOWED.format('NCName', text + ' ')}; expected {both}" if status else "valid"
            self.write("a.xml", f"<a> {text} </a>")
            out, found = self.judge("--all", "s.rnc", "a.xml")
            self.assertEqual((re.sub(":[0-9]+:[0-9]+:", ":", out), found), (f"a.xml: {verdict}\n", status))
        out, status = self.judge("--datatypes", "profile", "s.rnc")
        self.assertEqual(status, 3)
        self.assertIn(": hint: the parameter pattern of xsd:NCName is of the datatypes xml-schema, and not of those of the profile: rncv-profile s.rnc -o DIR ", out)

    def test_the_command_of_a_hint(self):
        """What the hint says makes a copy that is served."""
        self.write("s.rnc", 'datatypes d = "urn:d" element a { attribute b { xsd:NCName { pattern = "[ab]+" length = "2" } }, attribute c { xsd:anyURI }, d:t }')
        self.write("good.xml", '<a b="ab" c="/">1 m</a>')
        command = self.judge("s.rnc")[0].split(" which is not served: ")[1].split(" writes ")[0].replace("DIR", "copy").split(" ")
        self.assertEqual(command[0], "rncv-profile")
        self.run_in(HERE.parent / "profile/rncv-profile", *command[1:])
        self.assertEqual(self.judge("--all", "copy/s.rnc", "good.xml"), ("good.xml: valid\n", 0))
        self.assertIn("xsd:anyURI", (self.folder / "copy/s.rnc").read_text())


# Types whose values are no texts, each with parameters: a text that it allows, and some that it does not.
TYPED = (
    ('xsd:decimal { totalDigits = "3" fractionDigits = "1" maxExclusive = "50" }', " +049.90 ", "49.95", "50", "1e1"),
    ('xsd:float { minInclusive = "0" }', "1e400", "-1E-40", "NaN", "+INF"),
    ('xsd:double { maxExclusive = "INF" pattern = ".*" }', "1E308", "1E309", "INF", "NaN"),
    ('xsd:duration { minInclusive = "PT0S" maxExclusive = "P1M" }', "P27DT23H59.5S", "P28D", "-PT1S", "P"),
    ('xsd:dateTime { minInclusive = "2000-01-01T00:00:00Z" }', "1999-12-31T23:00:00-01:00", "2000-01-01T00:00:00+00:01", "2000-01-01T00:00:00", "2000-01-01"),
    ('xsd:time { maxInclusive = "12:00:00" }', "12:00:00.00", "12:00:00.01", "11:00:00Z", "1:00:00"),
    ('xsd:date { minExclusive = "2000-02-28" }', "2000-02-29", "2000-02-28", "2001-02-29", "2001-2-28"),
    ("xsd:gYearMonth", "-0001-12Z", "2000-13", "2000", "00000-01"),
    ('xsd:gYear { maxInclusive = "1999" }', "-12000", "2000", "1999Z", "0000"),
    ("xsd:gMonthDay", "--02-29", "--02-30", "02-29", "--2-29"),
    ('xsd:gDay { minInclusive = "---02" }', "---31", "---01", "---32", "31"),
    ("xsd:gMonth", "--12+14:00", "--13", "--12--", "--12+14:01"),
    ('xsd:hexBinary { length = "2" }', " 0aFf ", "0aF", "0aFf00", "0aFg"),
    ('xsd:base64Binary { maxLength = "1" }', " T Q = = ", "TWE=", "TR==", "TQ"),
)


class Typed(InFolder):
    """Datatypes whose values are numbers, moments, durations or octets."""

    def test_what_they_allow(self):
        for pattern, good, *bad in TYPED:
            with self.subTest(pattern):
                self.write("s.rnc", f"element a {{ {pattern} }}")
                for text in (good, *bad):
                    self.write("a.xml", f"<a>{text}</a>")
                    self.assertEqual(self.run_in(RNCV_XML, "s.rnc", "a.xml")[2], text != good, text)
                out, status = self.judge("--datatypes", "profile", "s.rnc", "a.xml")
                self.assertIn(f": hint: {pattern.split(' ')[0]} is of the datatypes xml-schema, and not of those of the profile: ", out)
                self.assertEqual(status, 3)

    def test_values(self):
        """A value is compared as one of its datatype, and a datatype in the XML syntax is the same."""
        for name, value, same, other in (("decimal", "1.0", "+01", "1.1"), ("double", "1", "0.1E1", "2"), ("dateTime", "2000-01-01T00:00:00Z",
                                         "2000-01-01T01:00:00+01:00", "2000-01-01T00:00:00"), ("hexBinary", "0a", "0A", "0B"), ("duration", "P1Y", "P1Y0M", "P12M")):
            with self.subTest(name):
                self.write("s.rnc", f'element a {{ xsd:{name} "{value}" }}')
                self.write("s.rng", '<element name="a" xmlns="http://relaxng.org/ns/structure/1.0" datatypeLibrary="http://www.w3.org/2001/XMLSchema-datatypes">'
                           f'<value type="{name}">{value}</value></element>')
                for text in (value, same, other):
                    self.write("a.xml", f"<a>{text}</a>")
                    self.assertEqual([self.run_in(RNCV_XML, schema, "a.xml")[2] for schema in ("s.rnc", "s.rng")], [int(text == other)] * 2, text)


class Spelled(InFolder):
    """Datatypes whose texts depend on the document."""

    def setUp(self):
        super().setUp()
        self.write("a.xml", "<a>x</a>")

    def test_notes(self):
        for pattern, note in NOTED:
            with self.subTest(pattern):
                self.write("s.rnc", f"element a {{ {pattern} }}")
                self.assertEqual(self.run_in(RNCV_XML, "--all", "s.rnc", "a.xml", "a.xml"), ("a.xml: valid\na.xml: valid\n", f"s.rnc: note: {note}\n", 0))
                self.assertEqual(self.run_in(RNCV_XML, "--quiet", "s.rnc", "a.xml"), ("", "", 0))
                self.assertEqual(self.run_in(RNCV_XML, "--strict", "s.rnc", "a.xml"), (f"s.rnc: {note}\n", "", 3))

    def test_other_formats(self):
        self.write("s.rnc", "element a { xsd:QName }")
        note = NOTED[0][1]
        out, errors, status = self.run_in(RNCV_XML, "--format", "json", "s.rnc", "a.xml")
        self.assertEqual((json.loads(out), errors, status), ({"file": "a.xml", "verdict": "valid", "notes": [{"message": note}]}, "", 0))
        results = json.loads(self.judge("--format", "sarif", "s.rnc", "a.xml")[0])["runs"][0]["results"]
        self.assertEqual([(each["level"], each["message"]["text"]) for each in results], [("note", note)])
        self.assertEqual(self.judge("--format", "github", "s.rnc", "a.xml"), (f"::notice file=s.rnc,title=note::{note}\n", 0))

    def test_schemas_without_a_note(self):
        for schema in NOT_NOTED:
            with self.subTest(schema):
                self.write("s.rnc", schema)
                self.assertEqual(self.run_in(RNCV_XML, "--strict", "s.rnc"), ("", "rncv-xml: the schema is good; no document is named\n", 0))

    def test_prefixes_and_entities_are_not_looked_up(self):
        self.write("s.rnc", "element a { attribute b { xsd:QName }, xsd:ENTITIES }")
        for document, wanted in (('<a b="p:x">e f</a>', "valid"), ('<a b="p:x:y">e</a>', 'invalid: attribute b of <a> is wrong ("p:x:y"); expected xsd:QName'),
                                 ('<a b="p">:</a>', 'invalid: the text of <a> is no xsd:ENTITIES (":")')):
            self.write("a.xml", document)
            self.assertTrue(self.judge("--all", "s.rnc", "a.xml")[0].endswith(f": {wanted}\n"), document)


if __name__ == "__main__":
    unittest.main(verbosity=1)
