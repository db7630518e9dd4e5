"""Tests of how `rncv-xml` checks IDs: on copies that `rncv-profile` writes. Where jing is installed, it has to say the same about the schemas and documents."""
import concurrent.futures
import json
import pathlib
import re
import shutil
import subprocess
import unittest

from testing import HERE, RNCV_XML, InFolder, processor_seconds

PROFILE = HERE.parent / "profile/rncv-profile"
HEAD = 'namespace n = "urn:n"\ndatatypes d = "http://relaxng.org/ns/compatibility/datatypes/1.0"\n'
PARTS = """start = element r { attribute id { xsd:ID }?, attribute xml:id { d:ID }?, attribute n:id { d:ID }?, (a | b | n)* }
a = element a { attribute id { xsd:ID }?, attribute ref { xsd:IDREF }?, attribute refs { xsd:IDREFS }?, attribute other { text }?, (a | b | n)* }
b = element b { attribute id { xsd:NCName }?, attribute ref { d:IDREF }?, attribute refs { d:IDREFS }?, attribute * - (id | ref | refs) { text }* }
n = element n:a | n:b { attribute id { d:ID }?, attribute ref { text }? }
"""
SCHEMA = HEAD + PARTS
# Documents by this schema, and what is said about them: the place and what follows `invalid: `, or nothing.
DOCUMENTS = (
    ('<r/>', ""),
    ('<r id="x"/>', ""),
    ('<r>\n <a id="x"/>\n <a id="y"/>\n</r>', ""),
    ('<r>\n <a id="x"/>\n\n <a id="x"/>\n</r>', '4:2: ID "x" is already at line 2'),
    ('<r>\n <a id="x"/><a id="X"/>\n</r>', ""),
    ('<r>\n <a id=" x\n"/>\n <a id="x"/>\n</r>', '4:2: ID "x" is already at line 2'),
    ('<r>\n <a id="x"/>\n <a id="&#x78;"/>\n</r>', '3:2: ID "x" is already at line 2'),
    ('<r id="x" xml:id="x"/>', '1:1: ID "x" is already at line 1'),
    ('<r id="x"><a ref="x"/></r>', ""),
    ('<r><a ref=" x&#10; "/>\n<a id="x"/></r>', ""),
    ('<r id="x">\n  <a ref="y"/></r>', '2:3: no ID "y"'),
    ('<r id="x">\n  <a\n ref="y"/></r>', '2:3: no ID "y"'),
    ('<r id="x"><a refs="x"/><a refs="x  x&#9;y"/>\n <a id="y"/></r>', ""),
    ('<r id="x"><a refs="x y z"/><a id="y"/></r>', '1:11: no ID "z"'),
    # the first one in the document
    ('<r id="x">\n<a ref="y"/>\n<a id="x"/>\n</r>', '2:1: no ID "y"'),
    ('<r id="x">\n<a ref="y"/>\n<a id="x"/>\n<a id="y"/></r>', '3:1: ID "x" is already at line 1'),
    ('<r id="x">\n<a id="x"/>\n<a ref="y"/></r>', '2:1: ID "x" is already at line 1'),
    ('<r>\n<a ref="y"/>\n<a ref="z"/>\n<a id="y"/></r>', '3:1: no ID "z"'),
    # what the schema does not take comes first
    ('<r id="x">\n<a id="x"/>\n<c/>\n</r>', "3:1: <c> is not allowed here; expected <a>, <b>, {urn:n}a or {urn:n}b"),
    ('<r id="x"><a id="x y"/></r>', '1:11: attribute id of <a> is no xsd:TYPE ("x y")'),
    # by the names of the element and the attribute
    ('<r id="x"><b id="x"/></r>', ""),
    ('<r id="x"><a other="x"/><b x="x" y="x"/></r>', ""),
    ('<r id="x"><n:a id="x" xmlns:n="urn:n"/></r>', '1:11: ID "x" is already at line 1'),
    ('<r id="x"><a id="x" xmlns="urn:n"/></r>', '1:11: ID "x" is already at line 1'),
    ('<r id="x"><a ref="y" xmlns="urn:n"/></r>', ""),
    ('<n:r xmlns:n=""/>', "malformed"),
    ('<r id="x" xmlns:n="urn:n"><n:a id="y"><!-- --></n:a><n:b id="y"/></r>', '1:53: ID "y" is already at line 1'),
    ('<r n:id="x" id="x" xmlns:n="urn:n"/>', '1:1: ID "x" is already at line 1'),
    ('<r xmlns:m="urn:n" m:id="x"><a xmlns:m="urn:m" id="y"/><a id="x"/></r>', '1:56: ID "x" is already at line 1'),
    ('<r><b xmlns:m="urn:n" m:id="x"/><a id="x"/></r>', ""),
    ('<!DOCTYPE r [<!ENTITY e "x"><!ATTLIST a ref CDATA "y">]>\n<r id="&e;"><a ref="x"/>\n<a/></r>', '3:1: no ID "y"'),
)
# Schemas that section 5 of RELAX NG DTD Compatibility does not allow, and why.
UNSOUND = (
    ("start = element a { attribute id { xsd:ID }, b* } b = element b { attribute id { xsd:ID } | attribute id { xsd:IDREF } }",
     "attribute id has two ID-types in element b"),
    ("start = element a { attribute id { xsd:ID }?, b* } b = element a { attribute id { text } }",
     "attribute id has an ID-type at one place and none at another in element a"),
    ("start = element a { attribute id { xsd:ID }?, b* } b = element * - c { attribute * - d { text }* }",
     "attribute * has an ID-type at one place and none at another in element *"),
    ("start = element a { attribute id { xsd:ID }?, b* } b = element c | a { attribute id { text } }",
     "attribute id has an ID-type at one place and none at another in element c"),
    ("start = element a { attribute id { xsd:ID }?, attribute n:* { text }*, b* } b = element a { attribute n:id { xsd:IDREF } }",
     "attribute {urn:n}* has an ID-type at one place and none at another in element a"),
    ("start = element a { attribute id | name { xsd:ID } }", "an attribute with an ID-type has more than one name: id in element a"),
    ("start = element a { attribute n:* { xsd:ID }* }", "an attribute with an ID-type has more than one name: {urn:n}* in element a"),
    ("start = element * { attribute id { xsd:ID } }", "attribute id has an ID-type, and its element has any name of a class in element *"),
    ("start = element a | n:* { attribute id { xsd:ID } }", "attribute id has an ID-type, and its element has any name of a class in element a"),
    ("start = element a { xsd:ID }", "an ID-type is not directly in an attribute in element a"),
    ("start = element a { xsd:IDREFS }", "an ID-type is not directly in an attribute in element a"),
    ("start = element a { attribute id { xsd:ID | xsd:IDREF } }", "an ID-type is not directly in an attribute in element a"),
    ("start = element a { attribute id { xsd:ID | empty } }", "an ID-type is not directly in an attribute in element a"),
    ("start = element a { attribute id { list { xsd:ID } } }", "an ID-type is not directly in an attribute in element a"),
    ("start = element a { attribute id { list { xsd:IDREFS+ } } }", "an ID-type is not directly in an attribute in element a"),
    ("start = element a { attribute id { xsd:ID }, attribute b { xsd:token - xsd:ID } }", "an ID-type is not directly in an attribute in element a"),
    ('start = element a { attribute id { xsd:ID "x" | xsd:ID "y" } }', "an ID-type is not directly in an attribute in element a"),
)
# Schemas that it does allow.
SOUND = (
    "start = element a { attribute id { xsd:ID }?, b* } b = element b { attribute id { text } }",
    "start = element a { attribute id { xsd:ID }?, b* } b = element * - a { attribute * { text }* }",
    "start = element a { attribute id { xsd:ID }?, attribute * - id { text }*, b* } b = element a { attribute id { d:ID } }",
    "start = element a { attribute id { xsd:ID }?, b* } b = element a { attribute n:id { text } | (notAllowed, attribute id { text }) }",
    'start = element a { attribute id { xsd:ID - "x" } }',
    'start = element a { attribute id { xsd:ID { minLength = "2" maxLength = "3" } } }',
    'start = element a { attribute id { xsd:ID "x" }?, attribute ref { xsd:IDREF "x" }? }',
    'start = element a { attribute id { xsd:ID }, attribute b { xsd:NCName { minLength = "000000001" } } }',
    'start = element a { attribute id { xsd:ID }, attribute b { xsd:NCName "\\x{A}x" | list { xsd:token { minLength = "0000001" } } } }',
    "start = element a { attribute id { xsd:ID }, (a | b)* } a = element c | d { attribute id { xsd:ID } } "
    "b = element (d | e) | n:d { attribute id { d:ID }? }",
)


class OnCopies:
    """Tests on copies that `rncv-profile` writes with the options MADE, by `rncv-xml` with the options JUDGED. There IDs are of TYPE."""

    MADE, JUDGED, TYPE = (), (), "NCName"

    def copied(self, schema):
        self.write("s.rnc", schema)
        shutil.rmtree(self.folder / "copy", ignore_errors=True)
        self.assertIn(self.run_in(PROFILE, *self.MADE, "-o", "copy", "s.rnc")[2], (0, 1))

    def notes(self):
        """What is noted about the schema, and its status."""
        out, errors, status = self.run_in(RNCV_XML, *self.JUDGED, "copy/s.rnc")
        self.assertEqual(out, "")
        return errors, status

    def test_documents(self):
        self.copied(SCHEMA)
        for number, (document, wanted) in enumerate(DOCUMENTS):
            with self.subTest(document):
                self.write("d.xml", document)
                out, status = self.judge(*self.JUDGED, "copy/s.rnc", "d.xml")
                told = out.removeprefix("d.xml:").replace(": invalid: ", ": ").rstrip("\n")
                line = wanted.replace("TYPE", self.TYPE)
                self.assertEqual((told, status) if wanted != "malformed" else status, (line, int(line != "")) if wanted != "malformed" else 2)
                self.assertIn(self.judge(*self.JUDGED, "--no-ids", "copy/s.rnc", "d.xml")[1], (0,) if "ID" in wanted or not wanted else (1, 2))

    def test_schemas_that_are_not_sound(self):
        for schema, reason in UNSOUND:
            with self.subTest(schema):
                self.copied(HEAD + schema)
                self.assertEqual(self.notes()[0].splitlines()[0], f"copy/s.rnc: note: IDs are not checked: {reason}")

    def test_schemas_that_are_sound(self):
        for schema in SOUND:
            with self.subTest(schema):
                self.copied(HEAD + schema)
                self.assertEqual(self.notes(), ("rncv-xml: the schema is good; no document is named\n", 0))


class Names(OnCopies, InFolder):
    """The datatypes of IDs themselves, of the larger set. Those of the compatibility library become those of XML Schema in a copy."""

    MADE, TYPE = ("--datatypes", "xml-schema"), "ID"

    def test_a_schema_without_a_copy(self):
        self.write("s.rnc", 'namespace n = "urn:n"\n' + PARTS.replace(" d:ID", " xsd:ID"))
        self.write("d.xml", '<r id="x">\n<a id="x"/></r>')
        self.assertEqual(self.run_in(RNCV_XML, "s.rnc", "d.xml"), ('d.xml:2:1: invalid: ID "x" is already at line 1\n', "", 1))
        self.assertEqual(self.run_in(RNCV_XML, "--all", "--no-ids", "--strict", "--strict-profile", "s.rnc", "d.xml"), ("d.xml: valid\n", "", 0))


class Marks(OnCopies, InFolder):
    """The marks, with the six datatypes."""

    JUDGED = ("--datatypes", "profile")


class Ids(OnCopies, InFolder):
    """The marks, with the larger set."""

    def jing(self, *words):
        """What jing prints, and its status."""
        run = subprocess.run(["jing", "-c", *words], cwd=self.folder, capture_output=True, text=True, check=False, timeout=100)
        return run.stdout, run.returncode

    def test_documents_beside_jing(self):
        self.wanted("jing")
        self.write("s.rnc", SCHEMA)
        documents = [each for each in DOCUMENTS if each[1] != "malformed"]
        names = [self.write(f"{number}.xml", document).name for number, (document, _) in enumerate(documents)]
        told = {pathlib.Path(line.split(":")[0]).name for line in self.jing("s.rnc", *names)[0].splitlines()}
        for name, (document, wanted) in zip(names, documents):
            with self.subTest(document):
                self.assertEqual(name in told, wanted != "")

    def test_schemas_beside_jing(self):
        self.wanted("jing")
        self.write("d.xml", "<a/>")
        schemas = [(True, schema) for schema, _ in UNSOUND] + [(False, schema) for schema in SOUND]
        for number, (_, schema) in enumerate(schemas):
            self.write(f"{number}.rnc", HEAD + schema)
        with concurrent.futures.ThreadPoolExecutor(4) as pool:
            answers = pool.map(lambda number: self.jing(f"{number}.rnc", "d.xml")[0], range(len(schemas)))
        for answer, (is_unsound, schema) in zip(answers, schemas):
            with self.subTest(schema):
                self.assertEqual("ID-type" in answer, is_unsound, answer)

    def test_what_the_closing_line_says(self):
        self.copied(SCHEMA)
        self.write("d.xml", '<r id="x"/>')
        told = "1 valid, by a schema that 9 datatypes were loosened in (see copy/s.profile.txt)\n"
        self.assertEqual(self.run_in(RNCV_XML, "copy/s.rnc", "d.xml"), ("", "", 0))
        self.assertEqual(self.run_in(RNCV_XML, "--strict-profile", "copy/s.rnc", "d.xml"), ("", "", 0))
        self.assertEqual(self.run_in(RNCV_XML, "--no-ids", "copy/s.rnc", "d.xml"), ("", told, 0))
        self.assertEqual(self.judge("--no-ids", "--strict-profile", "copy/s.rnc", "d.xml")[1], 3)
        self.copied(SCHEMA.replace("{ text }?, (a", "{ xsd:date }?, (a"))
        self.assertEqual(self.run_in(RNCV_XML, "copy/s.rnc", "d.xml"), ("", told.replace("9 datatypes were", "1 datatype was"), 0))

    def test_what_no_document_has_is_not_loosened(self):
        self.copied("start = element a { (notAllowed, attribute id { xsd:ID }) | empty } b = element b { attribute id { xsd:ID } }")
        self.write("d.xml", "<a/>")
        self.assertEqual(self.run_in(RNCV_XML, "--all", "--strict-profile", "copy/s.rnc", "d.xml"), ("d.xml: valid\n", "", 0))

    def test_notes_in_each_format(self):
        self.copied(HEAD + UNSOUND[0][0])
        self.write("d.xml", '<a id="x"/>')
        note = f"IDs are not checked: {UNSOUND[0][1]}"
        loosened = "3 datatypes were loosened in the schema (see copy/s.profile.txt)"
        self.assertEqual(self.run_in(RNCV_XML, "--all", "copy/s.rnc", "d.xml"), (
            "d.xml: valid\n", f"copy/s.rnc: note: {note}\n1 valid, by a schema that {loosened.replace('in the schema', 'in')}\n", 0))
        found = json.loads(self.judge("--format", "json", "copy/s.rnc", "d.xml")[0])
        self.assertEqual((found["verdict"], found["notes"]), ("valid", [{"message": f"{note}; {loosened}"}]))
        results = json.loads(self.judge("--format", "sarif", "copy/s.rnc", "d.xml")[0])["runs"][0]["results"]
        self.assertEqual([(each["level"], each["message"]["text"]) for each in results], [("note", note), ("note", loosened)])
        self.assertEqual(self.run_in(RNCV_XML, "--quiet", "copy/s.rnc", "d.xml"), ("", f"rncv-xml: {note}; {loosened}\n", 0))
        self.assertEqual(self.judge("--strict-profile", "copy/s.rnc", "d.xml")[1], 3)

    def test_answers_in_each_format(self):
        self.copied(SCHEMA)
        self.write("d.xml", '<r id="x">\n <a\n other="1" refs="y"/></r>')
        message = 'invalid: no ID "y"'
        self.assertEqual(json.loads(self.judge("--format", "json", "copy/s.rnc", "d.xml")[0]), {
            "file": "d.xml", "verdict": "invalid", "line": 2, "column": 2, "at": "attribute", "name": "refs", "message": message})
        result = json.loads(self.judge("--format", "sarif", "copy/s.rnc", "d.xml")[0])["runs"][0]["results"][0]
        self.assertEqual((result["ruleId"], result["message"]["text"]), ("invalid", message))
        self.assertEqual(self.judge("--format", "github", "copy/s.rnc", "d.xml"), (f"::error file=d.xml,line=2,col=2,title=invalid::{message}\n", 1))

    def test_documents_do_not_share_ids(self):
        self.copied(SCHEMA)
        self.write("d.xml", '<r id="x"><a id="y"/></r>')
        self.write("e.xml", '<r id="x"><a ref="y"/></r>')
        self.write("f.xml", '<r xmlns:n="urn:n"><n:a id="x"/>')
        names = ["d.xml", "e.xml", "f.xml"] * 200
        answers = ["d.xml: valid", 'e.xml:1:11: invalid: no ID "y"', "f.xml:1:33: malformed XML"] * 200
        for jobs in ("-j1", "-j4"):
            out, status = self.judge(jobs, "--all", "copy/s.rnc", *names)
            self.assertEqual(([re.sub("(malformed XML).*", r"\1", line) for line in out.splitlines()], status), (answers, 2))

    def test_a_large_document_in_pieces(self):
        """Lines of a tag, and declarations, are in several pieces of the PYX. Two threads take it."""
        self.copied(SCHEMA)
        filler = "<!-- a comment of some length, so that this file is large -->" * 40
        inside = "".join(f'<a other="{"o" * (number % 700)}" id="i{number}" xmlns:n{number}="urn:n"><n{number}:a id="j{number}"/>'
                         f'<a refs="i{number} j{number}"/></a>\n{filler if number % 50 == 0 else ""}' for number in range(20_000))
        self.write("d.xml", f"<r>{inside}</r>")
        self.write("e.xml", f'<r>{inside}<a ref="i20000"/></r>')
        self.write("f.xml", f'<r>{inside}<a id="j7"/></r>')
        for jobs in ("-j1", "-j2"):
            self.assertEqual(self.judge(jobs, "--all", "copy/s.rnc", "d.xml"), ("d.xml: valid\n", 0))
            self.assertEqual(self.judge(jobs, "copy/s.rnc", "e.xml"), ('e.xml:20001:1: invalid: no ID "i20000"\n', 1))
            self.assertEqual(self.judge(jobs, "copy/s.rnc", "f.xml"), ('f.xml:20001:1: invalid: ID "j7" is already at line 8\n', 1))

    def test_time_grows_with_the_document(self):
        self.copied(SCHEMA)
        seconds = []
        for count in (20_000, 200_000):
            inside = "".join(f'<a id="i{number}" refs="i{count - 1 - number} i0"/>' for number in range(count))
            self.write("d.xml", f"<r>{inside}</r>")
            begin = processor_seconds()
            self.assertEqual(self.judge("copy/s.rnc", "d.xml"), ("", 0))
            seconds.append(processor_seconds() - begin)
        self.assertLess(seconds[1], 30 * seconds[0] + 1)

    def test_time_grows_with_the_schema(self):
        groups = "".join(f"g{group} = {' | '.join(f'e{number}' for number in range(group, 3000, 60))}\n" for group in range(60))
        elements = " | ".join(f"g{group}" for group in range(60))
        lines = "".join(f"e{number} = element e{number % 1500} {{ attribute id {{ xsd:ID }}?, attribute * - id {{ text }}* }}\n" for number in range(3000))
        self.copied(f"start = element r {{ ({elements})* }}\n{groups}{lines}")
        begin = processor_seconds()
        self.assertEqual(self.notes(), ("rncv-xml: the schema is good; no document is named\n", 0))
        self.assertLess(processor_seconds() - begin, 20)

    def test_a_copy_of_several_files(self):
        self.write("b.rnc", HEAD + PARTS.partition("\n")[2])
        self.write("main.rnc", f'{HEAD}include "b.rnc"\n{PARTS.partition(chr(10))[0]}\n')
        self.assertEqual(self.run_in(PROFILE, "-o", "copy", "main.rnc")[2], 1)
        self.write("d.xml", '<r id="x">\n<a ref="y"/></r>')
        self.assertEqual(self.judge("copy/main.rnc", "d.xml"), ('d.xml:2:1: invalid: no ID "y"\n', 1))
        self.assertEqual((self.folder / "copy/b.rnc").read_text().splitlines()[-1], "# rncv-profile: 6 ID-types marked, see main.profile.txt")

    def test_marks_without_the_comment_are_none(self):
        text = 'start = element r { attribute id { xsd:NCName { minLength = "000000001" } }, r* } r = element r { attribute id { xsd:NCName } }\n'
        self.write("d.xml", '<r id="x"><r id="x"/></r>')
        self.write("s.rnc", text)
        self.assertEqual(self.judge("s.rnc", "d.xml"), ("", 0))


if __name__ == "__main__":
    pathlib.Path(PROFILE).resolve(strict=True)
    unittest.main(verbosity=1)
