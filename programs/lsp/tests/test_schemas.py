"""Tests of what is found in schemas."""
import os
import pathlib
import random
import re
import shutil
import tempfile
import time
import unittest

from client import NO_XML_LIBRARY, SCHEMA, WithServer, has_xml_library, rncv, span

S6 = "S6: the tokens are a sentence of the grammar (CS 2)"


class Places(WithServer):
    """Where a fault is reported."""

    SHARED = True

    def one(self, text, name="s.rnc"):
        """The only finding in a schema."""
        uri = self.uri(name)
        self.client.versions.pop(uri, None)
        self.client.open(uri, text)
        found = self.client.found(uri)
        self.client.close(uri)
        self.client.found(uri, None)
        self.assertEqual(len(found), 1, found)
        self.assertEqual(found[0]["source"], "rncv")
        return found[0]

    def test_a_word(self):
        reported = self.one("element a { text more }")
        self.assertEqual((reported["code"], reported["message"], reported["severity"]), ("S6", S6, 1))
        self.assertEqual(span(reported), (0, 17, 0, 21))
        self.assertNotIn("codeDescription", reported)

    def test_behind_odd_characters(self):
        for before, character in (("\u00e9", 1), ("\U0001F600", 2), ("\u20ac\U00010000", 3), ("\t", 1), ("e\u0301", 2)):
            reported = self.one(f"# {before}\r\n# x\relement \\x{{61}} {{ # {before}\n\"{before}\" text }}")
            self.assertEqual((reported["code"], span(reported)), ("S6", (3, character + 3, 3, character + 7)), before)

    def test_behind_escapes(self):
        self.assertEqual(span(self.one("element \\x{61}\\x{25} { text }")), (0, 14, 0, 20))
        self.assertEqual(span(self.one("element a\\x{62} { text m\\x{6F}re }")), (0, 23, 0, 32))
        self.assertEqual(span(self.one('element a { "\\x{A}" text }')), (0, 20, 0, 24))

    def test_the_end(self):
        self.assertEqual(span(self.one("element a {\r\n  text\r\n")), (2, 0, 2, 0))
        self.assertEqual(span(self.one("element a {")), (0, 11, 0, 11))

    def test_each_clause_with_a_place(self):
        for text, code, place in (
                ("element \ud800 { text }", "S3", (0, 8, 0, 9)), ("\nelement a { text # \x01\n}", "S4", (1, 19, 1, 20)),
                ("element a { \\x{0} }", "S4", (0, 12, 0, 17)), ("element a { \"open }\ntext", "S5", (0, 12, 0, 19)),
                ("element a { text } >> b [ ]", "S5", (0, 19, 0, 21)), ("element a { % }", "S5", (0, 12, 0, 13)),
                ("element a { " + "(" * 128 + "text", "S7", (0, 139, 0, 140)), ("element \u00e9:b { text }", "S8", (0, 8, 0, 11))):
            reported = self.one(text)
            self.assertEqual((reported["code"], span(reported)), (code, place), text)

    def test_clauses_of_all_files(self):
        reported = self.one("# first\nelement a { empty" + " | text" * 1_000 + " }")
        self.assertEqual((reported["code"], span(reported), reported["message"]), ("S17", (0, 0, 0, 7), "S17: patterns are at most 1,000 deep (profile)"))
        reported = self.one("#" + "x" * 1_048_576)
        self.assertEqual(reported["code"], "S2")

    @unittest.skipUnless(has_xml_library(), NO_XML_LIBRARY)
    def test_hints(self):
        for text, code, place, hint in (
                ("# first\nstart = element a { b, c }\nb = text", "S15", (1, 23, 1, 24), "c is not defined"),
                ("# \U0001F600\relement \\x{61} { # \u00e9\r\n\tlist { text } }\r\n", "S20", (2, 8, 2, 12), "text is inside list"),
                ("element a { attribute \u00e9 { text }, attribute \u00e9 { text } }", "S24", (0, 34, 0, 43),
                 "attribute \u00e9 is there twice in element a (the other is at 1:13)"),
                ("element a { xsd:dates }", "S12", (0, 12, 0, 21), "xsd:dates is no datatype of XML Schema"),
                ("element a { xsd:date { minInclusive = '2001-02-29' } }", "S12", (0, 23, 0, 35), "the minInclusive '2001-02-29' is no value of xsd:date"),
                ("start = grammar { b = text }", "S14", (0, 8, 0, 15), "the grammar that begins here has no start")):
            reported = self.one(text)
            self.assertEqual((reported["code"], reported["severity"], span(reported)), (code, 1, place), text)
            self.assertTrue(reported["message"].startswith(f"{code}: ") and reported["message"].endswith(f": hint: {hint}"), reported["message"])

    @unittest.skipUnless(has_xml_library(), NO_XML_LIBRARY)
    def test_annotations(self):
        uri = self.uri("annotated.rnc")
        self.client.open(uri, "namespace b = 'u'\nb:c [ '\u00e9' ]\r\nstart = element x { empty >> b:d [ e = '\U0001F600' ] } f [ ]\n")
        self.assertEqual(self.client.found(uri), [])
        self.client.close(uri)
        self.client.found(uri, None)
        for text, code, place in (
                ("b [ '\u00e9' ]\r\nc [ '\u20ac\U0001F600' ] start = element x { }", "S6", (1, 32, 1, 33)),
                ("c [ '\u00e9' ] start = element x { attribute y { text } >> c [ '\u20ac' ], attribute y { text } }", "S24", (0, 65, 0, 74)),
                ("b [ c d ] start = element x { empty }", "S6", (0, 4, 0, 5)), ("b [ '\x01' ] start = element x { empty }", "S4", (0, 5, 0, 6))):
            reported = self.one(text)
            self.assertEqual((reported["code"], span(reported)), (code, place), text)
        reported = self.one("[ a:b = '' ] element x { empty }")
        self.assertEqual((reported["code"], span(reported)), ("S6", (0, 2, 0, 5)))
        self.assertTrue(reported["message"].endswith(": hint: the prefix of this name in an annotation is not declared"), reported["message"])

    def test_parts_of_schemas(self):
        reported = self.one("b = element b { text }")
        self.assertEqual((reported["code"], reported["severity"]), ("S14", 3))
        self.assertIn("a part of another schema", reported["message"])
        reported = self.one("start = grammar { b = text }")
        self.assertEqual((reported["code"], reported["severity"]), ("S14", 1))


class Edits(WithServer):
    """Documents that change."""

    SHARED = True

    def test_mended_by_edits(self):
        uri = self.uri("s.rnc")
        self.client.open(uri, "# \U0001F600\r\nelement a { text more }\r\n")
        self.assertEqual(span(self.client.found(uri)[0]), (1, 17, 1, 21))
        self.client.change(uri, 2, (1, 16, 1, 16, "\r\n,"), (2, 2, 2, 6, "\U0001F600"), (2, 2, 2, 4, "element b { text }"))
        self.assertEqual(self.client.found(uri, 2), [])
        self.client.change(uri, 3, (0, 4, 0, 4, "\r\n}"), (99, 0, 100, 5, "}"))
        self.assertEqual(span(self.client.found(uri, 3)[0]), (1, 0, 1, 1))
        self.client.change(uri, 4, "element a { text }")
        self.assertEqual(self.client.found(uri, 4), [])
        self.client.change(uri, 5, (0, 999, 0, 1000, "}"))
        self.assertEqual(span(self.client.found(uri, 5)[0]), (0, 18, 0, 19))
        self.client.close(uri)
        self.assertEqual(self.client.found(uri, None), [])

    def test_many_edits(self):
        uri = self.uri("s.rnc")
        self.client.open(uri, SCHEMA)
        for version in range(2, 203):
            self.client.change(uri, version, (0, 0, 0, 0 if version % 2 == 0 else 1, "}" if version % 2 == 0 else ""))
        self.assertEqual(span(self.client.found(uri, 202)[0]), (0, 0, 0, 1))
        self.assertLess(self.client.published.count(uri), 100)

    def test_edits_anywhere(self):
        chosen, text, letters = random.Random(2), "element a {\r\n  text }\n", ["\r", "\n", "\r\n", "\U0001F600", "\u00e9", "# ", "{", "}", "a", ""]
        one, other = self.uri("one.rnc"), self.uri("other.rnc")
        self.client.open(one, text)

        def place(offset):
            lines = re.split("\r\n|\r|\n", text[:offset])
            return len(lines) - 1, len(lines[-1].encode("utf-16-le")) // 2

        for version in range(2, 130):
            ends = sorted(offset - (text[offset - 1:offset + 1] == "\r\n") for offset in (chosen.randrange(len(text) + 1) for _ in range(2)))
            words = "".join(chosen.choice(letters) for _ in range(chosen.randrange(4)))
            ends = ends if chosen.random() < 0.3 else [ends[0], ends[0]]
            self.client.change(one, version, (*place(ends[0]), *place(ends[1]), words))
            text = text[:ends[0]] + words + text[ends[1]:]
        text = text + "}\n}"
        self.client.change(one, 130, (10_000, 0, 10_000, 0, "}\n}"))
        self.client.open(other, text, "rnc", 131)
        self.assertEqual(self.client.found(one, 130), self.client.found(other, 131))
        self.assertEqual(len(self.client.found(one, 130)), 1)

    def test_a_language_and_no_path(self):
        self.client.open("untitled:one", "element a {", "rnc")
        self.assertEqual(len(self.client.found("untitled:one")), 1)
        self.client.change("untitled:one", 2, 'include "b.rnc"')
        self.assertEqual(self.client.found("untitled:one", 2)[0]["code"], "S1")
        self.client.open(self.uri("odd%20%C3%A9.rnc").replace("%25", "%"), "element a {")
        self.assertEqual(len(self.client.found(self.uri("odd%20%C3%A9.rnc").replace("%25", "%"))), 1)
        for language in ("rnc", "RNC", "rnc-mode", "relaxng-compact"):
            self.client.close(self.uri("s.txt"))
            self.client.open(self.uri("s.txt"), "element a {", language)
            self.client.codes(self.uri("s.txt"), ["S6"])
        for language in ("conf", "plaintext", "xml", ""):
            self.client.close(self.uri("t.rnc"))
            self.client.open(self.uri("t.rnc"), "element a {", language)
            self.client.codes(self.uri("t.rnc"), ["S6"])


class Files(WithServer):
    """Schemas of several files."""

    SHARED = True

    MAIN = 'include "parts/b.rnc"\nstart = b\n'

    def test_a_fault_in_another_file(self):
        part = self.write("parts/b.rnc", "b = element b {\n  text text }")
        main = self.uri("main.rnc")
        self.client.open(main, self.MAIN)
        self.assertEqual(self.client.found(main), [])
        reported = self.client.codes(part, ["S6"])
        self.assertEqual(span(reported[0]), (1, 7, 1, 11))
        self.assertIsNone(self.client.versions[part])
        self.client.open(part, "b = element b { text }")
        self.assertEqual(self.client.found(part), [])
        self.client.change(part, 2, "# \U0001F600\nb = element b { \"\U0001F600\" text }")
        self.assertEqual(span(self.client.found(part, 2)[0]), (1, 21, 1, 25))
        self.client.close(part)
        self.client.found(part, None)
        self.assertEqual(self.client.codes(part, ["S6"]), reported)
        self.write("parts/b.rnc", "b = element b { text } #")
        self.client.notify("workspace/didChangeWatchedFiles", changes=[])
        self.client.codes(part, [])

    @unittest.skipUnless(has_xml_library(), NO_XML_LIBRARY)
    def test_a_hint_in_another_file(self):
        main, part = self.uri("main.rnc"), self.write("parts/a.rnc", "a = element a {\n  b }")
        self.client.open(main, "include 'parts/a.rnc'\nstart = a")
        reported = self.client.codes(part, ["S15"])[0]
        self.assertEqual((span(reported), reported["message"].partition(": hint: ")[2]), ((1, 2, 1, 3), "b is not defined"))
        self.client.change(main, 2, "include 'parts/a.rnc'\nstart = a\nb = empty")
        self.client.codes(part, [])
        self.client.change(main, 3, "start = a\nb = empty\n a = empty\ninclude 'parts/a.rnc'\n")
        reported = self.client.codes(part, ["S13"])[0]
        self.assertEqual(reported["message"].partition(": hint: ")[2], "a is defined twice with = (the other is at main.rnc:3:2)")

    def test_a_file_that_changes_on_the_disk(self):
        part, main = self.write("parts/b.rnc", "b ="), self.uri("main.rnc")
        self.client.open(main, self.MAIN)
        self.client.codes(part, ["S6"])
        self.write("parts/b.rnc", "b = element b { text }")
        self.client.codes(part, [])
        os.remove(self.folder / "parts/b.rnc")
        self.assertEqual(span(self.client.codes(main, ["S1"])[0]), (0, 8, 0, 21))

    def test_a_byte_order_mark(self):
        part, main = self.write("parts/b.rnc", "\ufeffb = element b { text }"), self.uri("main.rnc")
        self.client.open(main, self.MAIN)
        self.assertEqual(self.client.found(main), [])
        self.client.change(main, 2, "\ufeff" + self.MAIN)
        self.assertEqual(self.client.found(main, 2), [])
        self.client.change(main, 3, "\ufeff" + self.MAIN.replace("b.", "c."))
        self.assertEqual(span(self.client.found(main, 3)[0]), (0, 9, 0, 22))
        self.write("parts/b.rnc", "\ufeffb = text text")
        self.client.change(main, 4, "\ufeffstart = b include 'parts/b.rnc'")
        self.assertEqual(span(self.client.codes(part, ["S6"])[0]), (0, 9, 0, 13))
        self.client.change(main, 5, "\ufeffstart text")
        self.assertEqual(span(self.client.found(main, 5)[0]), (0, 7, 0, 11))

    def test_missing_files(self):
        main = self.uri("main.rnc")
        self.client.open(main, 'include "b.rnc"\ninclude "c" ~ \'.rnc\'\n[ d [ "d.rnc" ]   ] a = external "http://none.example/x.rnc"')
        found = self.client.found(main)
        self.assertEqual([span(reported) for reported in found], [(0, 8, 0, 15), (1, 8, 1, 20), (2, 33, 2, 60)])
        self.assertEqual({reported["code"] for reported in found}, {"S1"})
        self.assertIn(str(self.folder / "c.rnc"), found[1]["message"])
        self.assertIn("nothing is fetched", found[2]["message"])

    def test_names_that_are_none(self):
        main = self.uri("main.rnc")
        odd = ("\ud800.rnc", "\udc80", "a%00b", "\\x{FFFD}", "x" * 5_000, "file:///%00", "file://host/x.rnc", "file:", "http://[", "/")
        for version, words in enumerate(odd, 1):
            self.client.close(main)
            self.client.open(main, f'include "{words}"', "", version)
            self.assertIn(self.client.found(main, version)[0]["code"], ("S1", "S3"), words)
        self.client.open("file:///\ud800.rnc", "element a { text }")
        self.assertEqual(self.client.found("file:///\ud800.rnc"), [])

    def test_names_of_files(self):
        self.write("a b/\u00e9.rnc", 'include "../c.rnc"')
        self.write("c.rnc", "c = element c { text }")
        main = self.uri("main.rnc")
        self.client.open(main, 'start = c\ninclude "a%20b/%C3%A9.rnc"')
        self.assertEqual(self.client.found(main), [])
        self.client.change(main, 2, f'start = c\ninclude "{self.uri("c.rnc")}"')
        self.assertEqual(self.client.found(main, 2), [])
        self.client.change(main, 3, 'start = c\ninclude "file:a%20b/%C3%A9.rnc"')
        self.assertEqual(self.client.found(main, 3), [])
        self.write("d/c.rnc", "d = element d { text }")
        self.write("d/d.rnc", 'include "c.rnc"')
        self.client.change(main, 4, 'start = c | d\ninclude "c.rnc" include "d/d.rnc"')
        self.client.found(main, 4)
        self.assertIn("one name must mean one file", self.client.codes(self.uri("d/d.rnc"), ["files"])[0]["message"])
        self.client.change(main, 5, 'start = c | d\ninclude "./c.rnc" include "d/d.rnc"')
        self.assertEqual(self.client.found(main, 5), [])
        self.client.codes(self.uri("d/d.rnc"), [])

    def test_open_parts(self):
        part, main = self.uri("parts/b.rnc"), self.uri("main.rnc")
        self.client.open(part, "b = element b { text }")
        self.assertEqual([reported["code"] for reported in self.client.found(part)], ["S14"])
        self.client.open(main, self.MAIN)
        self.client.codes(part, [])
        self.assertEqual(self.client.found(main), [])
        self.client.change(main, 2, self.MAIN + '"open')
        self.assertEqual([reported["code"] for reported in self.client.found(main, 2)], ["S5"])
        self.assertEqual(self.client.diagnostics[part], [])
        self.client.close(main)
        self.client.codes(part, ["S14"])

    def test_files_that_mention_each_other(self):
        one, two = self.uri("one.rnc"), self.uri("two.rnc")
        self.client.open(one, 'include "two.rnc"')
        self.client.open(two, 'include "one.rnc"')
        self.client.codes(one, ["S9"])
        self.assertEqual(self.client.found(two), [])
        self.client.open(self.uri("self.rnc"), 'include "self.rnc"')
        self.client.codes(self.uri("self.rnc"), ["S9"])

    def test_a_link(self):
        self.write("parts/b.rnc", "b =")
        (self.folder / "link.rnc").symlink_to(self.folder / "parts/b.rnc")
        main = self.uri("main.rnc")
        self.client.open(self.uri("parts/b.rnc"), "b = element b { text }")
        self.client.open(main, 'include "link.rnc"\nstart = b')
        self.assertEqual(self.client.found(main), [])
        self.client.codes(self.uri("parts/b.rnc"), [])

    def test_what_is_no_file(self):
        os.mkfifo(self.folder / "pipe.rnc")
        (self.folder / "folder.rnc").mkdir()
        main = self.uri("main.rnc")
        self.client.open(main, 'include "pipe.rnc" include "folder.rnc" include "/dev/zero" include "" include "."')
        self.assertEqual([reported["code"] for reported in self.client.found(main)], ["S1"] * 5)

    def test_many_files(self):
        for number in range(70):
            self.write(f"{number}.rnc", f'include "{number + 1}.rnc"')
        self.client.open(self.uri("main.rnc"), 'include "0.rnc"')
        self.assertEqual([reported["code"] for reported in self.client.found(self.uri("main.rnc"))], ["S2"])


class Settings(WithServer):
    """Positions in other units, and addresses of clauses."""

    OPTIONS = {"rncv": {"clausesUrl": "https://pages.example/CLAUSES.md"}}
    CAPABILITIES = {"general": {"positionEncodings": ["utf-7", "utf-8", "utf-16"]}}

    def test_utf_8(self):
        self.assertEqual(self.initialized["capabilities"]["positionEncoding"], "utf-8")
        uri = self.uri("s.rnc")
        self.client.open(uri, "element a { '\u00e9\U0001F600' text }")
        reported = self.client.found(uri)[0]
        self.assertEqual(span(reported), (0, 21, 0, 25))
        self.assertEqual(reported["codeDescription"]["href"], "https://pages.example/CLAUSES.md#s6-the-tokens-are-a-sentence-of-the-grammar-cs-2")
        self.client.change(uri, 2, (0, 20, 0, 20, ","), (0, 13, 0, 19, "\u00e9"), (0, 12, 0, 17, ""))
        self.assertEqual(self.client.found(uri, 2), [])

    def test_utf_32(self):
        client = self.started()
        answer = client.initialize(None, None, general={"positionEncodings": ["utf-32"]})
        self.assertEqual(answer["capabilities"]["positionEncoding"], "utf-32")
        client.open("file:///none/s.rnc", "element a { '\u00e9\U0001F600' text }")
        self.assertEqual(span(client.found("file:///none/s.rnc")[0]), (0, 17, 0, 21))
        client.change("file:///none/s.rnc", 2, (0, 14, 0, 16, "'"), (0, 12, 0, 15, "\U0001F600\U0001F600}"))
        self.assertEqual(span(client.found("file:///none/s.rnc", 2)[0]), (0, 16, 0, 20))


class Datatypes(WithServer):
    """The sets of datatypes: that of the command line, and that of the client."""

    LARGER, OTHER = "element a { xsd:date }", "element a { xsd:dates }"

    def codes_of(self, words, options):
        """The codes for a schema of the larger set, and for one of neither, and the server's client."""
        client = self.started(*words)
        client.initialize(options)
        for name, text, codes in (("s", self.LARGER, []), ("t", self.OTHER, ["S12"])):
            client.open(f"file:///none/{name}.rnc", text)
        return [[each["code"] for each in client.found(f"file:///none/{name}.rnc")] for name in "st"], client

    def test_sets(self):
        for words, options, refused in (((), None, []), (("--datatypes", "xml-schema"), None, []), (("--datatypes=profile",), None, ["S12"]),
                                        (("--datatypes", "profile"), {"datatypes": "xml-schema"}, []), ((), {"rncv": {"datatypes": "profile"}}, ["S12"]),
                                        ((), {"datatypes": "all"}, [])):
            with self.subTest((words, options)):
                self.assertEqual(self.codes_of(words, options)[0], [refused, ["S12"]])

    def test_a_setting_that_changes(self):
        _, client = self.codes_of((), None)
        client.notify("workspace/didChangeConfiguration", settings={"rncv": {"datatypes": "profile"}})
        client.codes("file:///none/s.rnc", ["S12"])
        client.notify("workspace/didChangeConfiguration", settings={"rncv": {"datatypes": ""}})
        client.codes("file:///none/s.rnc", [])


class NoLibrary(WithServer):
    """The server without the library."""

    def setUp(self):
        self.client = self.started(RNCV_LIBRARY="/none/librncv.so")
        self.client.initialize()

    def test_it_goes_on(self):
        self.client.open("file:///none/s.rnc", "element")
        self.client.until(lambda message: message.get("method") == "window/showMessage")
        self.assertEqual(self.client.found("file:///none/s.rnc"), [])
        self.client.open("file:///none/a.xml", "<a>")
        self.assertEqual([reported["code"] for reported in self.client.found("file:///none/a.xml")], ["malformed"])
        time.sleep(0.1)
        self.assertEqual(self.client.stop(), 0)
        shown = [message for message in self.client.other if message.get("method") == "window/showMessage"]
        self.assertEqual(len(shown), 1)


class NoXmlLibrary(WithServer):
    """The server with the library for schemas alone."""

    def setUp(self):
        room = tempfile.TemporaryDirectory()
        self.addCleanup(room.cleanup)
        self.folder = pathlib.Path(room.name).resolve()
        shutil.copy(rncv._library()._name, self.folder / "librncv.so")
        self.client = self.started(RNCV_LIBRARY=str(self.folder / "librncv.so"))
        self.client.initialize(None, self.folder)

    def test_it_goes_on(self):
        self.client.open(self.uri("s.rnc"), "element a { b }")
        found = self.client.codes(self.uri("s.rnc"), ["S15"])
        self.assertEqual((span(found[0]), found[0]["message"]), ((0, 0, 0, 15), "S15: what is referred to is defined (4.18)"))
        self.client.change(self.uri("s.rnc"), 2, "element a { empty }")
        self.client.codes(self.uri("s.rnc"), [])
        for name, text, codes in (("a.xml", "<b/>", []), ("b.xml", "<a><b></a>", ["malformed"])):
            self.client.open(self.uri(name), f"<?xml-model href='s.rnc'?>{text}")
            self.client.codes(self.uri(name), codes)
        self.assertEqual(self.client.stop(), 0)
        shown = [message["params"]["message"] for message in self.client.other if message.get("method") == "window/showMessage"]
        self.assertEqual(len(shown), 1)
        self.assertIn("cannot judge XML by schemas: no library of rncv for XML: there is no librncv_xml.so beside ", shown[0])


if __name__ == "__main__":
    unittest.main()
