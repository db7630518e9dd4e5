"""Tests of what is found in XML documents."""
import time
import unittest

from client import SCHEMA, WithServer, span

MODEL = '<?xml-model href="s.rnc"?>\n'
LETTER = '''start = element letter { attribute to { "a" | "b" }?, attribute at { xsd:integer }?, element title { xsd:integer }, element empty { empty }?,
                            element body { text }, element last { element x { text } }? }'''


class Documents(WithServer):
    """Documents with a schema that an instruction names."""

    SHARED = True

    def setUp(self):
        super().setUp()
        self.write("s.rnc", LETTER)
        self.count = 0

    def found(self, text, name="a.xml"):
        """The findings in a document: the codes, ranges and messages."""
        self.count += 1
        uri = self.uri(name)
        if uri in self.client.versions:
            self.client.change(uri, self.count, text)
        else:
            self.client.open(uri, text, "xml", self.count)
        return [(reported["code"], span(reported), reported["message"]) for reported in self.client.found(uri, self.count)]

    def one(self, text, name="a.xml"):
        """The only finding in a document, but for hints."""
        found = [each for each in self.found(MODEL + text, name) if each[0] != "hint"]
        self.assertEqual(len(found), 1, found)
        return found[0]

    def test_valid(self):
        self.assertEqual(self.found(MODEL + "<letter><title> 5 </title><body/></letter>"), [])
        self.assertEqual(self.found('<?xml version="1.0"?>\r\n<!-- <?xml-model href="none.rnc"?> -->\r\n' + MODEL + "<letter><title>5</title><body/></letter>"), [])

    def test_what_stands_at_the_place(self):
        for text, place, words in (
                ("<letter>\n <subject/></letter>", (2, 1, 2, 9), "<subject> is not allowed here; expected <title>"),
                ("<letter\n to='c'><title>1</title><body/></letter>", (2, 1, 2, 7), 'attribute to of <letter> is wrong ("c"); expected "a" or "b"'),
                ("<letter to='a' at = 'c'><title>1</title><body/></letter>", (1, 15, 1, 23), 'attribute at of <letter> is no xsd:integer ("c")'),
                ("<letter other='\U0001F600' to='b'/>", (1, 8, 1, 18), "attribute other is not allowed in <letter>; expected at"),
                ("<letter><title>\n <!-- \U0001F600 -->\U0001F600\n</title><body/></letter>", (2, 12, 2, 14), 'the text of <title> is no xsd:integer ("\U0001F600\\n")'),
                ("<letter><title>1<![CDATA[\U0001F600]]>x</title><body/></letter>", (1, 15, 1, 31), 'the text of <title> is no xsd:integer ("1\U0001F600x")'),
                ("<letter><title>&#120;&amp;</title><body/></letter>", (1, 15, 1, 26), 'the text of <title> is no xsd:integer ("x&")'),
                ("<letter>text<title>1</title><body/></letter>", (1, 8, 1, 12), 'text is not allowed in <letter> ("text"); expected <title>'),
                ("<letter><title>1</title>\n</letter >", (2, 0, 2, 10), "<letter> ends too early: expected <body> or <empty>"),
                ("<letter/>", (1, 0, 1, 7), "<letter> ends too early: expected <title>"),
                ("<letter><title>1</title><body/><last/></letter>", (1, 31, 1, 36), "<last> ends too early: expected <x>"),
                ("<letter><title>1</title><empty>x</empty><body/></letter>", (1, 31, 1, 32), 'text is not allowed in <empty> ("x"); expected the end of <empty>'),
                ("<other/>", (1, 0, 1, 6), "<other> is not allowed here; expected <letter>"),
                ("<p:letter xmlns:p='u'/>", (1, 0, 1, 9), "<p:letter> is not allowed here; expected <letter>")):
            self.assertEqual(self.one(text), ("invalid", place, f"invalid: {words}"), text)

    def test_hints(self):
        """Further faults are informations, each at what it is about."""
        text = "<letter to='c'>\n<title>1</title><body>\n<b/></body>\n<last at='1'>\n<x>\u00e9<y/></x>\U0001F600</last></letter>"
        first = ("invalid", (1, 8, 1, 14), 'invalid: attribute to of <letter> is wrong ("c"); expected "a" or "b"')
        hints = [("hint", (3, 0, 3, 2), "hint: <b> is not allowed here; expected text"), ("hint", (4, 6, 4, 12), "hint: attribute at is not allowed in <last>"),
                 ("hint", (5, 4, 5, 6), "hint: <y> is not allowed here; expected text"),
                 ("hint", (5, 12, 5, 14), 'hint: text is not allowed in <last> ("\U0001F600")')]
        found = self.found(MODEL + text)
        self.assertEqual(found[0], first)
        self.assertEqual([each[:2] for each in found[1:]], [each[:2] for each in hints], found)
        self.assertEqual([reported["severity"] for reported in self.client.diagnostics[self.uri("a.xml")]], [1, 3, 3, 3, 3])
        for most in (3, 1):
            self.client.notify("workspace/didChangeConfiguration", settings={"rncv": {"maxFaults": most}})
            self.assertEqual(self.client.codes(self.uri("a.xml"), ["invalid", "hint", "hint"][:most])[0]["code"], "invalid")
        self.client.notify("workspace/didChangeConfiguration", settings={"rncv": {"maxFaults": 1001}})
        self.client.codes(self.uri("a.xml"), ["invalid", "hint", "hint", "hint", "hint"])
        logged = [message["params"]["message"] for message in self.client.other if message.get("method") == "window/logMessage"]
        self.assertEqual(logged, ["rncv-lsp: the setting maxFaults is no number from 1 to 1000"])
        self.assertEqual(self.found("<?xml-model href='s.rnc'?><letter to='c'><b></letter>")[0][0], "malformed")

    def test_hints_in_a_long_document(self):
        """The first fault does not wait for them."""
        uri = self.uri("long.xml")
        self.client.open(uri, MODEL + "<letter to='c'>" + "<!-- x -->\n" * 30_000 + "<title>x</title><body/></letter>")
        self.assertEqual([each["code"] for each in self.client.found(uri)], ["invalid"])
        self.assertEqual(span(self.client.codes(uri, ["invalid", "hint"])[1]), (30_001, 7, 30_001, 8))
        self.client.change(uri, 2, MODEL + "<letter><title>1</title><!--" + "x" * 300_000 + "--><body/></letter>")
        self.assertEqual(self.client.found(uri, 2), [])

    def test_the_most_faults(self):
        client = self.started("--max-faults", "2")
        client.initialize(None, self.folder)
        client.open(self.uri("b.xml"), MODEL + "<letter to='c'><title>1</title><body><b/></body><last><y/></last></letter>")
        self.assertEqual([reported["code"] for reported in client.found(self.uri("b.xml"))], ["invalid", "hint"])
        for words in ("0", "1001", "x", ""):
            self.assertEqual(self.started("--max-faults", words).ended(), 2, words)

    def test_ids(self):
        """The schema is a copy as rncv-profile writes it of one with the datatypes ID and IDREF."""
        copy = ('element a { attribute x { xsd:NCName { minLength = "000000001" } }, element b { attribute y { xsd:NCName { minLength = "00000001" } } }* }\n'
                "# rncv-profile: 2 ID-types marked, see s.profile.txt\n")
        self.write("s.rnc", copy)
        self.assertEqual(self.found(MODEL + "<a x='p'><b y='p'/></a>"), [])
        self.assertEqual(self.one("<a x='p'>\n <b y='q'/></a>"), ("invalid", (2, 4, 2, 9), 'invalid: no ID "q"'))
        self.write("s.rnc", copy.replace("attribute x", "attribute x | z"))
        code, _, message = self.one("<a x='p'><b y='q'/></a>")
        self.assertEqual((code, message), ("note", "IDs are not checked: an attribute with an ID-type has more than one name: x in element a"))
        self.write("s.rnc", LETTER)

    def test_places_behind_odd_characters(self):
        for before in ("<!--\u00e9-->", "<!--\U0001F600-->", "<?p \U00010000?>"):
            place = self.one(f"<letter>\r\n{before}\r<!--\n-->{before}<b/></letter>")[1]
            self.assertEqual(place, (4, 3 + len(before.encode("utf-16-le")) // 2, 4, 5 + len(before.encode("utf-16-le")) // 2))

    def test_entities_and_defaults(self):
        self.assertEqual(self.one("<!DOCTYPE letter [<!ENTITY e '<b/>'>]>\n<letter>&e;</letter>"), ("invalid", (2, 8, 2, 11), "invalid: <b> is not allowed here; expected <title>"))
        self.assertEqual(self.one("<!DOCTYPE letter [<!ATTLIST letter to CDATA 'c'>]>\n<letter\n><title>1</title><body/></letter>"),
                         ("invalid", (2, 0, 2, 7), 'invalid: attribute to of <letter> is wrong ("c"); expected "a" or "b"'))

    def test_not_well_formed(self):
        self.assertEqual(self.one("<letter><title>5</title>\n<body></letter>"),
                         ("malformed", (2, 6, 2, 15), "malformed XML: mismatched tag: </letter> where <body> is open"))
        self.assertEqual(self.one("<letter><title>5</title>\n<body>\U0001F600<</body></letter>")[:2], ("malformed", (2, 9, 2, 16)))
        self.assertEqual(self.one("<letter><title>5</title><body>")[0], "malformed")
        self.assertEqual(self.found("")[0][0], "malformed")
        self.assertEqual([code for code, _, _ in self.found(MODEL + "<letter><b/>\n<")], ["malformed", "invalid"])
        self.assertEqual(self.found(MODEL + "<letter><b/>\n<")[0][:2], ("malformed", (2, 1, 2, 1)))

    def test_outside_the_profile(self):
        code, place, words = self.one("<!DOCTYPE letter [<!ENTITY e SYSTEM 'e.xml'>]>\n<letter>&e;</letter>")
        self.assertEqual((code, place), ("outside", (2, 8, 2, 11)))
        self.assertIn("external entity 'e.xml' is not loaded: outside the profile", words)

    def test_an_external_dtd(self):
        for model, reported in ((MODEL, "its entities and attribute defaults are not there"), ("<!-- no schema -->\n", "its entities are not known")):
            for words, place in (("<!DOCTYPE letter SYSTEM 'letter.dtd'>", (1, 0, 1, 36)), ("<!DOCTYPE letter\n PUBLIC '-' 'letter.dtd' \n>", (1, 0, 2, 24)),
                                 ("<!-- \u00e9 --> <!DOCTYPE letter SYSTEM 'letter.dtd' [\n<!ENTITY e 'e'> ]>", (1, 11, 1, 47))):
                found = self.found(f"{model}{words}\n<letter><title>5</title><body/></letter>")
                self.assertEqual(found, [("note", place, f"the external DTD 'letter.dtd' is not loaded: {reported}")], (model, words))
                self.assertEqual(self.client.diagnostics[self.uri("a.xml")][0]["severity"], 3)
        self.assertEqual(self.found("<!DOCTYPE letter [<!ENTITY e 'e'>]><letter/>"), [])

    def test_malformed(self):
        self.assertEqual(self.one("<p:letter/>")[:2], ("P11", (1, 0, 1, 9)))
        code, place, words = self.found(MODEL + "<a>" * 10_001 + "</a>" * 10_001)[0]
        self.assertEqual((code, place), ("outside", (1, 30_000, 1, 30_002)))
        self.assertIn("more than 10,000 elements are open", words)

    def test_encodings_that_are_declared(self):
        for encoding in ("ISO-8859-1", "UTF-16", "utf-8", "EUC-JP", "Shift_JIS", "GB18030", "bogus"):
            for before, after in (('version="1.0" encoding="', '"'), ("version = '1.0'\tencoding = '", "' standalone='no' ")):
                declaration = f"<?xml {before}{encoding}{after}?>"
                found = self.found(declaration + '<?xml-model href="s.rnc"?><letter><!--\u00e9\u3042--><b/></letter>')
                at = len(declaration) + 43
                self.assertEqual(found, [("invalid", (0, at, 0, at + 2), "invalid: <b> is not allowed here; expected <title>")], declaration)
                self.assertEqual(self.found(declaration + "<letter>\u00e9\u3042</letter>"), [])
        self.assertEqual(self.found('<?xml version="1.0"\r\nencoding=\n"EUC-JP"?>\n<?xml-model href="s.rnc"?><b/>'),
                         [("invalid", (3, 26, 3, 28), "invalid: <b> is not allowed here; expected <letter>")])
        self.assertEqual(self.found("\ufeff<?xml-model href='s.rnc'?><b/>"), [("invalid", (0, 27, 0, 29), "invalid: <b> is not allowed here; expected <letter>")])
        self.assertEqual(self.found("\ufeff<?xml version='1.0' encoding='EUC-JP'?><?xml-model href='s.rnc'?><b/>"),
                         [("invalid", (0, 66, 0, 68), "invalid: <b> is not allowed here; expected <letter>")])

    def test_declarations_that_are_malformed(self):
        for words in ('version="1.0" encoding=""', 'version="1.0" encoding="\u00e9"', 'version="1.0" encoding="1"', 'encoding="EUC-JP"',
                      'version="1.0"encoding="UTF-8"', 'version="1.0" standalone="no" encoding="UTF-8"',
                      'version="1.0" encoding="UTF-8" encoding="UTF-8"', 'version="1.0" encoding=\'UTF-8"'):
            for model in ("", '<?xml-model href="s.rnc"?>'):
                self.assertEqual([code for code, _, _ in self.found(f"<?xml {words}?>{model}<letter><title>5</title><body/></letter>")], ["malformed"], words)
        wide = "\0".join("<letter/>")
        for text in (f"{wide}\0", f"\0{wide}", "\ufeff\ufeff<letter/>", "\xff\xfe<letter/>"):
            for model in ("", MODEL):
                self.assertEqual([code for code, _, _ in self.found(text.replace("<letter", model + "<letter"))][:1], ["malformed"], text)

    def test_changed_many_times(self):
        uri = self.uri("a.xml")
        self.client.open(uri, MODEL + "<letter><title>5</title><body></body></letter>")
        for version in range(2, 203):
            self.client.change(uri, version, (1, 30, 1, 30, "x"))
        self.client.change(uri, 203, (1, 24, 1, 24, "<b/>"))
        found = self.client.found(uri, 203)
        self.assertEqual([span(reported) for reported in found], [(1, 24, 1, 26)])
        self.client.change(uri, 204, (1, 24, 1, 28, ""))
        self.assertEqual(self.client.found(uri, 204), [])
        self.assertLess(self.client.published.count(uri), 100)
        self.client.close(uri)
        self.assertEqual(self.client.found(uri, None), [])

    def test_a_large_document_is_given_up_for_a_newer_one(self):
        uri = self.uri("a.xml")
        self.client.open(uri, MODEL + "<letter>" + "<!-- x -->\n<?p?>" * 400_000 + "</letter>")
        time.sleep(0.2)
        self.client.open(self.uri("b.xml"), MODEL + "<letter/>")
        self.assertEqual(len(self.client.found(self.uri("b.xml"))), 1)
        self.assertNotIn(uri, self.client.versions)
        self.client.change(uri, 2, MODEL + "<letter/>")
        self.assertEqual(len(self.client.found(uri, 2)), 1)
        self.assertEqual(self.client.published.count(uri), 1)

    def test_a_long_document(self):
        self.write("s.rnc", SCHEMA)
        code, place, words = self.one("<list>\n" + "<item at='1'>text</item>\n" * 2_000 + "<item at='x'/>\n</list>")
        self.assertEqual((place, words), ((2002, 6, 2002, 12), 'invalid: attribute at of <item> is no xsd:integer ("x")'))


class Schemas(WithServer):
    """How documents name their schemas."""

    SHARED = True

    def test_ways_to_name_it(self):
        self.write("d/s%20\u00e9.rnc", "element a { text }")
        self.write("d/s.txt", "element a { text }")
        kind = 'type="application/relax-ng-compact-syntax"'
        uri, version = self.uri("d/e/a.xml"), 0
        for words, is_found in ((f'{kind} href="../s.txt"', True), ('href="../s.txt"', False), ("href='../s%2520%C3%A9.rnc'", True),
                                ('href="../s%20\u00e9.rnc"', True), (f'href="{self.uri("d/s.txt")}" {kind}', True), ('href="../s.txt" type="text/css"', False),
                                (f'href="file:../s.txt" {kind}', True),
                                ("href='../s%2520%C3%A9.rnc#part'", True), ("title='no' href = '&#x2e;./s.txt' " + kind.replace('"', "'"), True),
                                (f'href="s.rng" type="application/xml"?><?xml-model href="../s.txt" {kind}', True)):
            version += 1
            text = f"<?xml version='1.0'?><?xml-model {words}?><b/>"
            self.client.close(uri)
            self.client.open(uri, text, "xml", version)
            self.assertEqual([reported["code"] for reported in self.client.found(uri, version)], ["invalid"] if is_found else [], words)

    def test_the_xml_syntax(self):
        self.write("d/s.rng", "<element name='a' xmlns='http://relaxng.org/ns/structure/1.0'><empty/></element>")
        self.write("d/s.xml", "<element name='a' xmlns='http://relaxng.org/ns/structure/1.0'><empty/></element>")
        space, uri, version = 'schematypens="http://relaxng.org/ns/structure/1.0"', self.uri("d/a.xml"), 0
        for words, lack in (('href="s.rng"', ""), (f'href="s.xml" type="application/xml" {space}', ""), ('href="s.rng" type="application/xml"', ""),
                            (f'href="S.RNG?x#y" {space}', f"there is no schema {self.folder / 'd/S.RNG'}, and "),
                            ('href="../none.rng"', f"there is no schema {self.folder / 'none.rng'}, and "), (f'href="http://none.example/s" {space}', ""),
                            (f'href="s.rng"?><?xml-model href="none.xml" {space}', "")):
            version += 1
            self.client.close(uri)
            self.client.open(uri, f"<?xml version='1.0'?>\n<?xml-model {words}?><b/>", "xml", version)
            found, href = self.client.found(uri, version), words.split('"')[1]
            self.assertEqual([(reported["code"], reported["severity"], reported["message"]) for reported in found], [
                ("schema", 2, f"{lack}the schema {href} is in the XML syntax of RELAX NG, which is not served: `trang` converts it to the compact syntax")])
            self.assertEqual(span(found[0]), (1, 0, 1, len(f"<?xml-model {words.split('?>')[0]}?>")))
        self.client.change(uri, version + 1, "<?xml-model href='none.rng'?><b>")
        self.assertEqual([reported["code"] for reported in self.client.found(uri, version + 1)], ["schema", "malformed"])
        self.write("d/none.rng", "<x/>")
        while "there is no schema" in self.client.diagnostics[uri][0]["message"]:
            self.client.take()
        self.client.change(uri, version + 2, "<?xml-model href='s.rng' type='application/relax-ng-compact-syntax'?><b/>")
        self.assertEqual([(reported["severity"], reported["message"]) for reported in self.client.found(uri, version + 2)], [
            (1, f"the schema {self.folder / 'd/s.rng'} is in the XML syntax of RELAX NG, which is not served: `trang` converts it to the compact syntax")])
        self.write("d/s.rnc", "<schema xmlns='http://www.w3.org/2001/XMLSchema'/>")
        self.client.change(uri, version + 3, "<?xml-model href='s.rnc'?><b/>")
        self.assertEqual([reported["message"] for reported in self.client.found(uri, version + 3)], [
            f"the schema {self.folder / 'd/s.rnc'} is XML, and no schema of RELAX NG"])
        self.write("d/s.rnc", "element b { empty }")
        version += 1
        for text in ("<?xml-model href='s.rng'?><?xml-model href='s.rnc'?><b/>",
                     "<?xml-model href='s.xsd' schematypens='http://www.w3.org/2001/XMLSchema'?><b/>",
                     "<?xml-model href='s.rng' schematypens='http://purl.oclc.org/dsdl/schematron'?><b/>", "<?xml-model href=''?><b/>"):
            version += 3
            self.client.change(uri, version, text)
            self.assertEqual(self.client.found(uri, version), [], text)

    def test_copies_that_are_not_the_same(self):
        uri, version = self.uri("a.xml"), 0
        b_mark = "# rncv-profile: 2 datatypes loosened, see b.profile.txt\n"
        self.write("b.rnc", f"b = element b {{ xsd:integer }} # rncv-profile: 9 datatypes loosened, see no.txt\n{b_mark}")
        for mark, words in (("# rncv-profile: 1 datatype loosened, see s.profile.txt", "3 datatypes were loosened in (see s.profile.txt)"),
                            ("# rncv-profile: 1 datatype tightened, see s.profile.txt\r",
                             "2 datatypes were loosened in and 1 datatype was tightened in (see s.profile.txt)"),
                            ("", "2 datatypes were loosened in (see b.profile.txt)")):
            self.write("s.rnc", f'include "b.rnc" start = element a {{ b }}\n{mark}\n')
            for text, codes, place in (("<!-- x -->\n<a><b>1</b></a>", [], (2, 0, 2, 2)), ("<a><b/></a>", ["invalid"], (1, 0, 1, 2)),
                                       ("<!-- -->", ["malformed"], (0, 0, 0, 26)), ("<?p?>" * 300 + "<a><b>1</b></a>", [], (1, 1500, 1, 1502))):
                version += 1
                self.client.close(uri)
                self.client.open(uri, MODEL + text, "xml", version)
                found = self.client.found(uri, version)
                self.assertEqual(sorted(reported["code"] for reported in found), sorted(["profile", *codes]))
                reported = next(reported for reported in found if reported["code"] == "profile")
                self.assertEqual((reported["severity"], reported["message"], span(reported)), (3, f"judged by a schema that {words}", place))
        self.write("b.rnc", f"b = element b {{ xsd:integer }}\n {b_mark}# rncv-profile: many datatypes loosened, see x\n")
        self.client.change(uri, version + 1, MODEL + "<a><b>1</b></a>")
        self.client.codes(uri, [])

    def test_any_language_is_xml(self):
        for language in ("docbk", "docbook", "xslt", "xsd", "rng", "svg", "ant", "mhtml", "sgml", "nxml", "xhtml", "html", "conf", "plaintext", "", 5, None):
            for name in ("a.xml", "a", "a.txt"):
                uri = self.uri(name)
                self.client.open(uri, "<a>", language)
                self.client.codes(uri, ["malformed"])
                self.client.close(uri)
                self.client.found(uri, None)
        uri = self.uri("b.xml")
        self.client.open(uri, "\r\n <a>", "rnc")
        self.client.codes(uri, ["malformed"])
        self.client.change(uri, 2, "element")
        self.client.codes(uri, ["S6"])
        self.client.change(uri, 3, "<a/>")
        self.client.codes(uri, [])
        self.client.close(uri)
        for name in ("a.dtd", "B.MOD", "c.ent"):
            self.client.open(self.uri(name), "<!ELEMENT a EMPTY>", "sgml")
        self.client.open(uri, "<a>")
        self.client.codes(uri, ["malformed"])
        self.assertEqual([name for name in ("a.dtd", "B.MOD", "c.ent") if self.uri(name) in self.client.versions], [])

    def test_an_instruction_that_names_nothing(self):
        uri = self.uri("a.xml")
        for version, text in enumerate(("<a><?xml-model href='none.rnc'?></a>", "<a/><?xml-model href='none.rnc'?>", "<?xml-model?><a/>",
                                        "<!DOCTYPE a [<?xml-model href='none.rnc'?>]><a/>", "<?xml-stylesheet href='none.rnc'?><a/>")):
            self.client.close(uri)
            self.client.open(uri, text, "xml", version + 1)
            self.assertEqual(self.client.found(uri, version + 1), [], text)

    def test_missing_and_not_fetched(self):
        uri = self.uri("a.xml")
        self.client.open(uri, "<?xml version='1.0'?>\n<?xml-model href='none.rnc'?><a></b>")
        found = self.client.found(uri)
        self.assertEqual([(reported["code"], span(reported)) for reported in found], [("schema", (1, 0, 1, 29)), ("malformed", (1, 34, 1, 35))])
        self.assertIn(f"there is no schema {self.folder / 'none.rnc'}", found[0]["message"])
        self.write("none.rnc", "element a { empty }")
        self.client.codes(uri, ["malformed"])
        self.client.change(uri, 2, "<?xml-model href='http://none.example/none.rnc'?><a/>")
        found = self.client.found(uri, 2)
        self.assertEqual([(reported["code"], reported["severity"]) for reported in found], [("schema", 3)])

    def test_refused(self):
        part = self.write("parts/b.rnc", "b = element b {\n text text }")
        main, uri = self.write("main.rnc", 'include "parts/b.rnc"\nstart = b'), self.uri("a.xml")
        self.client.open(uri, "<!-- x -->\n<?xml-model href='main.rnc'?>\n<a/>")
        reported = self.client.found(uri)
        self.assertEqual([(each["code"], span(each)) for each in reported], [("schema", (1, 0, 1, 29))])
        self.assertIn(f"{self.folder / 'parts/b.rnc'}:2:7: S6: the tokens are a sentence of the grammar", reported[0]["message"])
        self.assertEqual(span(self.client.codes(part, ["S6"])[0]), (1, 6, 1, 10))
        self.client.open(part, "b = element b { text }")
        self.assertEqual(self.client.found(part), [])
        self.client.codes(uri, ["invalid"])
        self.client.change(part, 2, "b = element a { text }")
        self.client.codes(uri, [])
        self.client.open(main, "start = b")
        self.client.codes(uri, ["schema"])
        self.client.close(main)
        self.client.codes(uri, [])
        self.client.close(uri)
        self.client.codes(part, ["S14"])

    def test_a_schema_that_changes_on_the_disk(self):
        uri = self.uri("a.xml")
        self.write("s.rnc", "element b { text }")
        self.client.open(uri, MODEL + "<a/>")
        self.assertEqual([reported["code"] for reported in self.client.found(uri)], ["invalid"])
        self.write("s.rnc", "element a { text } #")
        self.client.notify("textDocument/didSave", textDocument={"uri": uri})
        self.client.codes(uri, [])

    def test_no_schema(self):
        uri = self.uri("a.xml")
        self.client.open(uri, "<!DOCTYPE a SYSTEM 'a.dtd'><a b='&c;'>&d;</a>")
        self.assertEqual([reported["code"] for reported in self.client.found(uri)], ["note"])
        self.client.change(uri, 2, "<a>\U0001F600</b>")
        self.assertEqual([span(reported) for reported in self.client.found(uri, 2)], [(0, 7, 0, 8)])
        self.client.change(uri, 3, "<a xmlns:b=''/>")
        self.assertEqual(self.client.found(uri, 3), [])


class Settings(WithServer):
    """Schemas that the settings name."""

    OPTIONS = {"schemas": [{"pattern": "**/*.{xhtml,list}", "schema": "schemas/s.rnc"}, {"pattern": 5}, {"pattern": "notes/*.xml", "schema": "none.rnc"}]}
    CAPABILITIES = {"workspace": {"configuration": True}}

    def test_by_pattern(self):
        self.write("schemas/s.rnc", "element a { empty }")
        self.client.open(self.uri("x/y/b.xhtml"), "<b/>", "xml")
        self.assertEqual([span(reported) for reported in self.client.found(self.uri("x/y/b.xhtml"))], [(0, 0, 0, 2)])
        self.client.open(self.uri("c.list"), "<a/>", "plaintext")
        self.assertEqual(self.client.found(self.uri("c.list")), [])
        self.client.open(self.uri("notes/d.xml"), "<!---->\n<a/>", "xml")
        self.assertEqual([(reported["code"], span(reported)) for reported in self.client.found(self.uri("notes/d.xml"))], [("schema", (0, 0, 0, 7))])
        self.client.open(self.uri("x/notes/d.xml"), "<a/>", "xml")
        self.assertEqual(self.client.found(self.uri("x/notes/d.xml")), [])
        self.assertEqual([message["params"]["type"] for message in self.client.other if message.get("method") == "window/logMessage"], [2])

    def test_an_instruction_goes_first(self):
        self.write("schemas/s.rnc", "element a { empty }")
        self.write("s.rnc", "element b { empty }")
        self.client.open(self.uri("b.xhtml"), MODEL + "<b/>", "xml")
        self.assertEqual(self.client.found(self.uri("b.xhtml")), [])

    def test_changed_settings(self):
        self.write("schemas/s.rnc", "element a { empty }")
        self.write("b.rnc", "element b { empty }")
        uri = self.uri("b.xhtml")
        self.client.open(uri, "<b/>", "xml")
        self.assertEqual(len(self.client.found(uri)), 1)
        rules = {"schemas": [{"pattern": "*.xhtml", "schema": str(self.folder / "b.rnc")}], "clausesUrl": "u"}
        self.client.notify("workspace/didChangeConfiguration", settings={"rncv": rules})
        self.client.codes(uri, [])
        self.client.settings = {"schemas": [{"pattern": "*.xhtml", "schema": self.uri("schemas/s.rnc")}]}
        self.client.notify("workspace/didChangeConfiguration", settings=None)
        self.client.codes(uri, ["invalid"])
        self.client.notify("workspace/didChangeConfiguration", settings={"rncv": {"schemas": 5, "clausesUrl": []}})
        self.client.codes(uri, [])

    def test_folders(self):
        self.write("other/schemas/s.rnc", "element b { empty }")
        self.write("schemas/s.rnc", "element a { empty }")
        uri = self.uri("other/b.list")
        self.client.open(uri, "<b/>")
        self.assertEqual(len(self.client.found(uri)), 1)
        event = {"added": [{"uri": self.uri("other"), "name": "other"}], "removed": [{"uri": self.folder.as_uri(), "name": "x"}]}
        self.client.notify("workspace/didChangeWorkspaceFolders", event=event)
        self.client.codes(uri, [])


if __name__ == "__main__":
    unittest.main()
