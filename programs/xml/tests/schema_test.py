"""Tests of how `rncv-xml` finds the files of a schema, and of what it says about a schema."""
import json
import os
import unittest

from testing import RNCV_XML, SCHEMA, InFolder

ELEMENT = "a = element a { attribute x { text }, (element b { empty } | text) }\n"
VALID = "good.xml: valid\n", 0
MENTIONED = "S1 a file that is mentioned is handed in once (profile)"


class SchemaFiles(InFolder):
    """The files of a schema are found beside those that mention them, and none is taken for another."""

    def setUp(self):
        super().setUp()
        self.schema("sch/main.rnc", 'include "b.rnc" start = a')
        self.schema("sch/b.rnc", ELEMENT)

    def schema(self, name, text):
        self.write(name, text + "\n")

    def answer(self, *schemas):
        return self.judge("--all", *schemas, "--", "good.xml")

    def failure(self, *schemas):
        """What standard error says when something stops the program, and the status."""
        out, errors, status = self.run_in(RNCV_XML, *schemas, "--", "good.xml")
        self.assertEqual(out, "")
        return errors, status

    def refused(self, clause, main, file):
        out, status = self.answer(main)
        self.assertRegex(out, rf"^{file}:(\d+:\d+:)? {clause} .*, see docs/use/CLAUSES.md\n$")
        self.assertEqual(status, 3)

    def test_from_any_folder(self):
        for folder, main, document in (
                (".", "sch/main.rnc", "good.xml"), ("sch", "main.rnc", "../good.xml"), ("sch", "../sch/main.rnc", "../good.xml"),
                (".", "./sch/../sch/main.rnc", "good.xml"), ("/", self.folder / "sch/main.rnc", self.folder / "good.xml")):
            self.assertEqual(self.judge("--all", main, document, cwd=self.folder / folder), (f"{document}: valid\n", 0))
        self.assertEqual(self.judge("sch/main.rnc", "bad.xml")[1], 1)
        self.assertEqual(self.judge("sch/main.rnc", "-", given=b'<a x=""/>'), ("", 0))

    def test_files_that_are_named_too(self):
        self.assertEqual(self.answer("sch/main.rnc", "sch/b.rnc"), VALID)
        self.assertEqual(self.answer("sch/main.rnc", "b.rnc"), VALID)
        self.assertEqual(self.judge("--all", "main.rnc", "b.rnc", "--", "../good.xml", cwd=self.folder / "sch"), ("../good.xml: valid\n", 0))
        self.schema("main.rnc", 'include "sch/b.rnc" start = a')
        self.assertEqual(self.answer("main.rnc", "sch/b.rnc"), VALID)
        self.schema("sch/top.rnc", 'include "sch/b.rnc" start = a')
        self.assertEqual(self.answer("sch/top.rnc", "sch/b.rnc"), VALID)
        self.schema("b.rnc", ELEMENT)
        self.assertEqual(self.failure("sch/main.rnc", "b.rnc"), ("rncv-xml: 'b.rnc' in sch/main.rnc may be sch/b.rnc or b.rnc\n", 3))
        self.assertEqual(self.answer("sch/main.rnc"), VALID)

    def test_folders_in_folders(self):
        self.schema("sch/top.rnc", 'include "common/x.rnc" start = a')
        self.schema("sch/common/x.rnc", 'include "y.rnc" include "./../common/z.rnc"')
        self.schema("sch/common/y.rnc", ELEMENT)
        self.schema("sch/common/z.rnc", "")
        self.assertEqual(self.answer("sch/top.rnc"), VALID)
        self.schema("sch/common/low.rnc", 'include "../main.rnc"')
        self.assertEqual(self.answer("sch/common/low.rnc"), VALID)
        self.schema("sch/y.rnc", "a = element z { empty }")
        self.assertEqual(self.answer("sch/top.rnc"), VALID)

    def test_a_file_with_the_name_of_the_main_file(self):
        self.schema("top.rnc", 'include "low/x.rnc" start = a')
        self.schema("low/x.rnc", 'include "top.rnc"')
        self.schema("low/top.rnc", ELEMENT)
        self.assertEqual(self.answer("top.rnc"), VALID)
        self.schema("top.rnc", 'include "low/x.rnc" start =')
        self.refused("S6", "top.rnc", "top.rnc")
        self.schema("top.rnc", 'include "low/x.rnc" start = a')
        self.schema("low/top.rnc", "a =")
        self.refused("S6", "top.rnc", "low/top.rnc")

    def test_no_file_is_taken_for_another(self):
        self.schema("sch/top.rnc", 'include "common/x.rnc" include "y.rnc" start = a')
        self.schema("sch/common/x.rnc", 'include "y.rnc"')
        self.schema("sch/common/y.rnc", ELEMENT)
        one = "'y.rnc' in sch/common/x.rnc is sch/common/y.rnc: one name is one file; write one of them as './y.rnc'\n"
        self.assertEqual(self.failure("sch/top.rnc"), (f"rncv-xml: 'y.rnc' in sch/top.rnc is no file and {one}", 3))
        self.schema("sch/y.rnc", "")
        self.assertEqual(self.failure("sch/top.rnc"), (f"rncv-xml: 'y.rnc' in sch/top.rnc is sch/y.rnc and {one}", 3))
        self.schema("sch/top.rnc", 'include "common/x.rnc" include "./y.rnc" start = a')
        self.assertEqual(self.answer("sch/top.rnc"), VALID)
        self.schema("sch/q r.rnc", ELEMENT)
        self.schema("sch/q%20r.rnc", ELEMENT)
        self.schema("sch/top.rnc", 'include "q%20r.rnc" start = a')
        self.assertEqual(self.failure("sch/top.rnc"), ("rncv-xml: 'q%20r.rnc' in sch/top.rnc may be sch/q%20r.rnc or sch/q r.rnc\n", 3))

    def test_names(self):
        self.schema("sch/-b.rnc", ELEMENT)
        self.schema("sch/b c/\u00e9.rnc", ELEMENT)
        top, encoded = self.folder, "sch/b%20c/%C3%A9.rnc"
        for mention in ('"-b.rnc"', '"b c/\u00e9.rnc" { }', '"b%20c/%C3%A9.rnc"', '"b " ~ \'c/\' ~ """\u00e9.rnc"""', r'"\x{62} c/\x{E9}.rnc"',
                        f'"{top}/sch/b.rnc"', f'"file://{top}/sch/b.rnc"', f'"file://localhost{top}/{encoded}"', '"./../sch/none/../b.rnc"'):
            self.schema("sch/top.rnc", f"# c\ninclude {mention} start = a")
            self.assertEqual(self.answer("sch/top.rnc"), VALID, mention)
        self.schema("sch/top.rnc", '\\x{69}nclude "-b.rnc" start = a')
        self.assertEqual(self.answer("sch/top.rnc"), VALID)
        self.schema("sch/e.rnc", "element a { attribute x { text }, (element b { empty } | text) }")
        self.schema("sch/top.rnc", 'start = external "e.rnc"')
        self.assertEqual(self.answer("sch/top.rnc"), VALID)

    def test_files_that_are_not_there(self):
        (self.folder / "sch/folder").mkdir()
        beside = ("none.rnc", "sch/none.rnc"), ("../none.rnc", "none.rnc"), ("folder", "sch/folder"), ("b.rnc/c", "sch/b.rnc/c")
        for mention, shown in beside:
            self.schema("sch/top.rnc", f'\ninclude "{mention}" start = element a {{ empty }}')
            self.assertEqual(self.answer("sch/top.rnc"), (f"sch/top.rnc:2:9: {MENTIONED}: there is no {shown}, see docs/use/CLAUSES.md\n", 3))
        for uri in ("http://example.org/b.rnc", "urn:b.rnc", "file://example.org/b.rnc"):
            self.schema("sch/top.rnc", f'include "{uri}" start = a')
            self.assertEqual(self.answer("sch/top.rnc"), (
                f"sch/top.rnc:1:9: {MENTIONED}: there is no {uri}, and nothing is fetched (--map HREF=FILE), see docs/use/CLAUSES.md\n", 3))
            self.assertEqual(self.answer("--map", f"{uri}=sch/b.rnc", "sch/top.rnc"), VALID)
        self.schema("sch/low/x.rnc", 'include "none.rnc"')
        self.schema("sch/top.rnc", 'include "low/x.rnc" start = a')
        self.assertEqual(self.answer("sch/top.rnc"), (f"sch/low/x.rnc:1:9: {MENTIONED}: there is no sch/low/none.rnc, see docs/use/CLAUSES.md\n", 3))
        self.assertEqual(self.failure("sch/none.rnc"), ("rncv-xml: cannot read file sch/none.rnc: No such file or directory\n", 4))
        self.assertEqual(self.failure("sch"), ("rncv-xml: cannot read file sch: Is a directory\n", 4))

    def test_a_file_that_breaks_a_clause_mentions_nothing(self):
        self.schema("b.rnc", ELEMENT)
        for text, clause, place in (
                ('include "b.rnc" start =', "S6", "2:1"), ('include "b.rnc" start = a %', "S5", "1:27"), ('include "b.rnc" start = p:a', "S8", "1:25"),
                ('include "b.rnc" include "none.rnc', "S5", "1:25"), ('include "b.rnc" start = "\\x{0}"', "S4", "1:26")):
            self.schema("sch/main.rnc", text)
            # it does not matter that the mention may be one of two files
            out, status = self.judge("--all", "sch/main.rnc", "b.rnc", "--", "good.xml")
            self.assertRegex(out, f"^sch/main.rnc:{place}: {clause} ")
            self.assertEqual(status, 3)

    def test_maps(self):
        self.schema("elsewhere/b.rnc", ELEMENT)
        self.schema("sch/b.rnc", "a = element z { empty }")
        self.assertEqual(self.answer("sch/main.rnc")[1], 1)
        self.assertEqual(self.answer("--map", "b.rnc=elsewhere/b.rnc", "sch/main.rnc"), VALID)
        self.assertEqual(self.failure("--map=b.rnc=none.rnc", "sch/main.rnc"), ("rncv-xml: cannot read file none.rnc: No such file or directory\n", 4))

    def test_what_is_no_mention(self):
        annotation = '[ xml:a = "include" include [ "none.rnc" external [ "none.rnc" ] ] ]'
        self.schema("sch/top.rnc", f'# include "none.rnc"\n{annotation} include "b.rnc" [ xml:a = "b" ] start = a')
        self.assertEqual(self.answer("sch/top.rnc"), VALID)
        self.schema("sch/top.rnc", r'include "b.rnc" \include = a start = \include | element include { attribute external { xsd:string "include" } }')
        self.assertEqual(self.answer("sch/top.rnc"), VALID)

    def test_answers_name_files_as_they_are_found(self):
        for text, clause in (("a = element a {", "S6"), ("a = \x0c", "S4"), ("a = $", "S5")):
            self.schema("sch/b.rnc", text)
            self.refused(clause, "sch/main.rnc", "sch/b.rnc")
        self.write("sch/b.rnc", b'\xff include "c.rnc"')
        self.refused("S3", "sch/main.rnc", "sch/b.rnc")
        self.write("sch/b.rnc", "#" * 1_048_577)
        self.refused("S2", "sch/main.rnc", "sch/b.rnc")

    def test_cycles_and_many_files(self):
        for texts in ({"c": "c.rnc"}, {"c": "./c.rnc"}, {"c": "d.rnc", "d": "./c.rnc"}, {"c": "../sch/c.rnc"}):
            for name, mention in texts.items():
                self.schema(f"sch/{name}.rnc", f'include "{mention}"')
            self.assertRegex(self.answer("sch/c.rnc")[0], r"^sch/\S*[cd]\.rnc:1:9: S9 .*: hint: (the file mentions itself|files mention one another): sch/\S*[cd]\.rnc -> ")
        for number in range(65):
            self.schema(f"sch/n{number}.rnc", f'include "n{number + 1}.rnc"')
        self.schema("sch/n65.rnc", f"start = a {ELEMENT}")
        for main in ("sch/n0.rnc", "sch/n1.rnc", "sch/n2.rnc"):
            self.assertEqual(self.answer(main), VALID)

    def test_a_refused_schema_leaves_the_documents_unread(self):
        self.write("t.rnc", "element a {")
        out, status = self.judge("--all", "t.rnc", "none.xml", "good.xml", "bad.xml")
        self.assertRegex(out, r"^t\.rnc:(\d+:\d+:)? S6 the tokens are a sentence of the grammar \(CS 2\), see docs/use/CLAUSES\.md\n$")
        self.assertEqual(status, 3)
        self.assertEqual(self.run_in(RNCV_XML, "--quiet", "t.rnc", "good.xml"), ("", out, 3))


class Changed(InFolder):
    """A schema that `rncv-profile` loosened or tightened says so."""

    def setUp(self):
        super().setUp()
        self.write("main.rnc", 'include "b.rnc"\nstart = element feed { element updated { xsd:token }, a }\n'
                               "# rncv-profile: 1 datatype loosened, see main.profile.txt\n")
        self.write("b.rnc", "a = attribute x { xsd:token }, attribute y { xsd:token }\n"
                            "# rncv-profile: 2 datatypes loosened, see main.profile.txt\n")
        self.write("feed.xml", '<feed x="" y=""><updated>yesterday</updated></feed>')

    def test_the_closing_line(self):
        reported = "by a schema that 3 datatypes were loosened in (see main.profile.txt)"
        self.assertEqual(self.run_in(RNCV_XML, "main.rnc", "feed.xml"), ("", f"1 valid, {reported}\n", 0))
        many = "feed.xml\n" * 2_000
        self.assertEqual(self.run_in(RNCV_XML, "--files-from", "-", "main.rnc", "good.xml", given=many.encode())[1:], (
            f"2,000 valid, 1 invalid, {reported}\n", 1))
        self.assertEqual(self.run_in(RNCV_XML, "--quiet", "main.rnc", "feed.xml"), (
            "", "rncv-xml: 3 datatypes were loosened in the schema (see main.profile.txt)\n", 0))

    def test_tightened(self):
        self.write("b.rnc", "# rncv-profile: 1 datatype tightened, see main.profile.txt\na = attribute x { xsd:token }, attribute y { xsd:token }\n")
        reported = "1 datatype was loosened and 1 datatype was tightened"
        self.assertEqual(self.run_in(RNCV_XML, "main.rnc", "feed.xml")[1], f"1 valid, by a schema that {reported} in (see main.profile.txt)\n")
        self.assertEqual(self.judge("--strict-profile", "main.rnc", "feed.xml"), (f"main.rnc: {reported} in it (see main.profile.txt)\n", 3))
        for mark in ("# rncv-profile: 2 datatypes tightened, see t.profile.txt\n", "# rncv-profile: 2 tightened\r\n"):
            self.write("t.rnc", mark + SCHEMA)
            reported = "2 datatypes were tightened"
            self.assertEqual(self.run_in(RNCV_XML, "t.rnc", "good.xml")[1], f"1 valid, by a schema that {reported} in (see t.profile.txt)\n")
            self.assertEqual(self.judge("--strict-profile", "t.rnc", "good.xml"), (f"t.rnc: {reported} in it (see t.profile.txt)\n", 3))
        self.write("t.rnc", "# rncv-profile: 1 datatype loosened, 2 datatypes tightened, see 3 tightened.profile.txt\n" + SCHEMA)
        reported = "1 datatype was loosened and 2 datatypes were tightened"
        self.assertEqual(self.judge("--strict-profile", "t.rnc", "good.xml"), (f"t.rnc: {reported} in it (see t.profile.txt)\n", 3))

    def test_a_note_in_each_format(self):
        words = "3 datatypes were loosened in the schema (see main.profile.txt)"
        out, _, status = self.run_in(RNCV_XML, "--format", "json", "main.rnc", "feed.xml", "good.xml")
        self.assertEqual(([json.loads(line)["notes"] for line in out.splitlines()], status), ([[{"message": words}]] * 2, 1))
        results = json.loads(self.judge("--format", "sarif", "main.rnc", "feed.xml")[0])["runs"][0]["results"]
        self.assertEqual(results, [{"ruleId": "note", "level": "note", "message": {"text": words},
                                    "locations": [{"physicalLocation": {"artifactLocation": {"uri": "main.rnc"}}}]}])
        self.assertEqual(self.judge("--format", "github", "main.rnc", "feed.xml"), (f"::notice file=main.rnc,title=note::{words}\n", 0))

    def test_strict_profile(self):
        self.assertEqual(self.run_in(RNCV_XML, "--strict-profile", "main.rnc", "feed.xml"), (
            "main.rnc: 3 datatypes were loosened in it (see main.profile.txt)\n", "", 3))
        self.assertEqual(self.judge("--strict-profile", "s.rnc", "good.xml"), ("", 0))

    def test_what_rncv_profile_writes(self):
        self.write("date.rnc", "element updated { xsd:dateTime }\n")
        self.write("date.xml", "<updated>yesterday</updated>")
        profile = os.path.join(os.path.dirname(os.path.abspath(__file__)), "../../profile/rncv-profile")
        self.assertEqual(self.run_in(profile, "--write", "copy", "date.rnc")[2], 1)
        self.assertEqual(self.run_in(RNCV_XML, "copy/date.rnc", "date.xml"), (
            "", "1 valid, by a schema that 1 datatype was loosened in (see copy/date.profile.txt)\n", 0))
        self.write("copy/date.rnc", SCHEMA)
        self.assertEqual(self.run_in(RNCV_XML, "copy/date.rnc", "good.xml"), ("", "", 0))


if __name__ == "__main__":
    unittest.main(verbosity=1)
