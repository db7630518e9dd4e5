"""Tests of `rncv-xml`: its lines, statuses, options and ends."""
import itertools
import json
import os
import re
import shlex
import signal
import subprocess
import sys
import unittest

from testing import RNCV_XML, SCHEMA, TOP, InFolder, peak_of, processor_seconds


OVER_MEMORY = r"^d\.xml:\d+:\d+: over a limit of this program: more than 1,048,576 bytes are held of the document \(--max-memory\)\n$"


class Lines(InFolder):
    """What is printed about a document."""

    def line(self, schema, xml, **more):
        self.write("t.rnc", schema)
        self.write("d.xml", xml)
        out, status = self.judge("t.rnc", "d.xml", **more)
        return out, status

    def invalid(self, schema, xml, reported):
        """Checks that one line is printed, for a file and for standard input."""
        self.assertEqual(self.line(schema, xml), (f"d.xml:{reported}\n", 1))
        self.assertEqual(self.judge("t.rnc", "-", given=xml.encode()), (f"-:{reported}\n", 1))

    def test_valid_documents_are_silent(self):
        self.assertEqual(self.run_in(RNCV_XML, "s.rnc", "good.xml"), ("", "", 0))
        self.assertEqual(self.judge("--all", "s.rnc", "good.xml", "bad.xml"), ("good.xml: valid\nbad.xml:3:3: invalid: <c> is not allowed here; expected the end of <a>\n", 1))
        self.assertEqual(self.run_in(RNCV_XML, "--verbose", "s.rnc", "good.xml"), ("good.xml: valid\n", "rncv-xml: schema file s.rnc\n1 valid\n", 0))
        self.assertEqual(self.run_in(RNCV_XML, "--quiet", "s.rnc", "bad.xml", "none.xml"), ("", "", 4))

    def test_what_stands_at_the_place(self):
        self.invalid("element a { element b { empty } }", "<a>\n <c/></a>", "2:2: invalid: <c> is not allowed here; expected <b>")
        self.invalid("element a { element b { empty } }", "<a>\n <b/>\n <b>x</b></a>", "3:2: invalid: <b> is not allowed here; expected the end of <a>")
        self.invalid("element a { element b { xsd:integer } }", "<a>\n <b>12x</b></a>", '2:5: invalid: the text of <b> is no xsd:integer ("12x")')
        self.invalid("element a { element b { xsd:integer } }", "<a>\n <b><!-- 1 -->1<![CDATA[\n2]]>\n</b></a>", '2:15: invalid: the text of <b> is no xsd:integer ("1\\n2\\n")')
        self.invalid('element a { element b { "x" } }', "<a>\n <b/></a>", '2:2: invalid: <b> ends too early: expected "x"')
        self.invalid("element a { list { xsd:integer+ } }", "<a>1 x</a>", '1:4: invalid: the text of <a> is no list that the schema allows '
                     '("1 x": "x" is not allowed here; expected xsd:integer)')
        self.invalid("element a { element b { empty }, element c { empty } }", "<a>\n <b/>\n </a>", "3:2: invalid: <a> ends too early: expected <c>")
        self.invalid("element a { mixed { element b { empty } } }", "<a>\n text </a>", "2:7: invalid: <a> ends too early: expected <b>")
        self.invalid("element a { element b { empty }* }", "<a>\n <b/> text <b/></a>", '2:7: invalid: text is not allowed in <a> ("text "); expected <b>')

    def test_a_text_begins_behind_its_blanks(self):
        listed = "element a { element b { empty }* }"
        self.invalid(listed, "<a>\n <b/>\n\n\t  stray\n<b/></a>", '4:4: invalid: text is not allowed in <a> ("stray\\n"); expected <b>')
        self.invalid(listed, "<a>\r\n <b/>\r\n\r  stray</a>", '4:3: invalid: text is not allowed in <a> ("stray"); expected <b>')
        self.invalid(listed, "<a>\n t&#228;xt &amp; \u00e9</a>", '2:2: invalid: text is not allowed in <a> ("t\u00e4xt & \u00e9"); expected <b>')
        self.invalid(listed, "<a>\n <?i\n?>\n <?i?> <?i?>\n  stray<?i?> and more<b/></a>", '5:3: invalid: text is not allowed in <a> ("stray and more"); expected <b>')
        self.invalid(listed, f"<a>{' ' * 100_000}\n stray</a>", '2:2: invalid: text is not allowed in <a> ("stray"); expected <b>')
        self.invalid(listed, f"<a>\n{'&#13; ' * 50_000}\n stray</a>", '3:2: invalid: text is not allowed in <a> ("stray"); expected <b>')
        self.invalid("element a { element b { xsd:integer } }", "<a><b>\n  12x</b></a>", '2:3: invalid: the text of <b> is no xsd:integer ("12x")')
        self.invalid("element a { element b { xsd:integer } }", "<a><b>\n \t</b></a>", "2:3: invalid: <b> ends too early: expected xsd:integer")

    def test_a_text_is_never_reported_beyond_its_line(self):
        """Blanks that are written as references, or come from an entity, do not move a line down."""
        listed = "element a { element b { empty }* }"
        for xml in ("<a>\n<b/>&#10;&#10;stray</a>", "<a>\n<b/>&#10; stray\n\n\n</a>", "<a>\n<b/>&blanks;stray</a>", "<a>\n<b/>&all;</a>",
                    "<a>\n<b/>&all;<b/></a>", "<a>\n<b/><![CDATA[ stray]]></a>", "<a>\n<b/>&tags;</a>"):
            self.write("t.rnc", listed)
            entities = "<!DOCTYPE a [<!ENTITY blanks '&#10;&#10; '><!ENTITY all '&#10;&#10; stray'><!ENTITY tags '&#10; stray<b/>'>]>"
            self.write("d.xml", entities + xml)
            out, status = self.judge("t.rnc", "d.xml")
            self.assertEqual(status, 1)
            self.assertRegex(out, r'^d\.xml:2:\d+: invalid: text is not allowed in <a> \("stray(\\n){0,3}"\); expected <b>\n$', xml)

    def test_a_text_that_is_not_allowed_at_an_end(self):
        """The text before an end tag is told if it is wrong whatever follows it, and the end if something is missing after it."""
        text, end = r'2:5: invalid: .* \("two"[):]', "2:8: invalid: <i> ends too early: expected "
        for content, reported in (("empty", text), ("element j { empty }", text), ("element j { empty }*", text), ("element j { empty }, text", text),
                              ("xsd:NCName { minLength = '100' }", text), ("xsd:NCName { minLength = '100' } | element j { empty }", text),
                              ("list { xsd:NCName, xsd:integer, xsd:integer, xsd:integer }", text), ("attribute x { text }?", text),
                              ("text, element j { empty }", end), ("mixed { element j { empty } }", end), ("mixed { element * { empty } }", end),
                              ("mixed { element * - (j | k) { empty } }", end), ("mixed { element * - j { empty } }", end),
                              ("mixed { element j { attribute k { text } } }", end), ('element j { " text " }, element text { text }', text)):
            self.write("t.rnc", f"element a {{ element i {{ {content} }} }}")
            self.write("d.xml", "<a>\n <i>two</i></a>")
            self.assertRegex(self.judge("t.rnc", "d.xml")[0], f"^d\\.xml:{reported}", content)
        twice = "element a { mixed { element j { empty }, element k { empty } } }"
        self.invalid(twice, "<a>one<j/>two</a>", "1:14: invalid: <a> ends too early: expected <k>")
        self.invalid("element a { text, element j { empty }, element k { empty } }", "<a>one<j/>two</a>", '1:11: invalid: text is not allowed in <a> ("two"); expected <k>')

    def test_attributes(self):
        hours = 'element a { attribute at { xsd:integer { minInclusive = "0" maxInclusive = "23" } }, attribute k { "on" | "off" }? }'
        self.invalid(hours, '<a\n at="24"/>', '1:1: invalid: attribute at of <a> is an xsd:integer that the schema does not allow ("24"); '
                     'expected xsd:integer { minInclusive = "0" maxInclusive = "23" }')
        self.invalid(hours, '<a at="2" k="of"/>', '1:1: invalid: attribute k of <a> is wrong ("of"); expected "off" or "on"')
        self.invalid(hours, '<a at="2" l="on"/>', "1:1: invalid: attribute l is not allowed in <a>; expected k")
        self.invalid(hours, '<a k="on"/>', "1:1: invalid: <a> lacks attribute at")
        self.invalid("element a { element b { attribute x { 'yes' }, attribute y { 'no' } } }", '<a>\n <b x="yes" y="yes"/></a>',
                     '2:2: invalid: attribute y of <b> is wrong ("yes"); expected "no"')

    def test_long_texts_are_shown_by_their_beginning(self):
        self.invalid("element a { xsd:integer }", f"<a>{'x' * 100}</a>", f'1:4: invalid: the text of <a> is no xsd:integer ("{"x" * 40}..")')

    def test_a_long_text_is_cut_between_characters(self):
        for before in range(5):
            for unit in ("\u00e9", "\u20ac", "\U0001f600", "\t", "\\", "\n"):
                text = "x" * (before + 1) + unit * 600
                self.write("t.rnc", "element a { xsd:integer }")
                self.write("d.xml", f"<a>{text}</a>")
                out, _ = self.judge("--format", "json", "t.rnc", "d.xml")
                name = json.loads(out)["name"]
                self.assertTrue(len(name) > 100 and text.startswith(name), name)
                name.encode("utf-8")

    def test_malformed(self):
        self.assertEqual(self.judge("s.rnc", "cut.xml"), ("cut.xml:3:1: malformed XML: mismatched tag: </a> where <b> is open\n", 2))
        self.assertEqual(self.line(SCHEMA, '<a x="1">\n<p:b/></a>'), (
            "d.xml:2:1: malformed P11: the prefix 'p' is not declared (NS 5), see docs/use/CLAUSES.md\n", 2))
        self.assertEqual(self.line(SCHEMA, '<a x="1">\n<c/></b>'), ("d.xml:2:5: malformed XML: mismatched tag: </b> where <a> is open\n", 2))

    def test_the_end_of_a_section_in_text(self):
        """libxml2 tells of it where the text begins, or a part of it."""
        for character in ("x", " x", "] ", "\u3042", "x\U00010000"):
            for count in (1, 30, 300, *range(3_985, 4_005, 3), 70_000):
                text = character * (count // len(character.encode()) + 1)
                for before in (f"<a>{text}", f"<a>\n<b/>{text}", f"<a>\n&#65;{text}"):
                    column = len(before) - before.rfind("\n")
                    self.assert_same(self.line(SCHEMA, f"{before}]]>{text}</a>"), (
                        f"d.xml:{before.count(chr(10)) + 1}:{column}: malformed XML: Sequence ']]>' not allowed in content\n", 2), before[:20])

    def test_clauses_in_the_words_of_xml(self):
        for document, reported in (
                ("<p:a:b/>", "P6: the name of the element 'p:a:b' is no QName (NS 4)"),
                ("<a p:x:y=''/>", "P6: the name of the attribute 'p:x:y' is no QName (NS 4)"),
                ("<a y='' :x='' z=''/>", "P6: the name of the attribute ':x' is no QName (NS 4)"),
                ("<a xmlns:p='u' p:x='' q:y=''/>", "P11: the prefix 'q' is not declared (NS 5)"),
                ("<a y='' xmlns:p='u' p:x='' xmlns:q='u' q:x=''/>", "P12: the attributes 'p:x' and 'q:x' have one name (NS 6.3)")):
            self.assertEqual(self.line("element a { empty }", document), (f"d.xml:1:1: malformed {reported}, see docs/use/CLAUSES.md\n", 2))

    def test_the_first_fault_counts(self):
        """What the reader of PYX refuses comes before what is malformed behind it."""
        self.assertEqual(self.line("element a { empty }", "<a><p:b/></b>"), (
            "d.xml:1:4: malformed P11: the prefix 'p' is not declared (NS 5), see docs/use/CLAUSES.md\n", 2))

    def test_forbidden_declarations(self):
        xml, xmlns = "http://www.w3.org/XML/1998/namespace", "http://www.w3.org/2000/xmlns/"
        for declaration in ("xmlns:p=''", "xmlns:xml='u'", f"xmlns:p='{xml}'", f"xmlns='{xml}'", f"xmlns='{xmlns}'", f"xmlns:p='{xmlns}'", "xmlns:xmlns='u'"):
            self.assertRegex(self.line("element a { empty }", f"<a {declaration}/>")[0], "malformed XML: ")
        self.assertEqual(self.line("element a { empty }", f"<a xmlns:xml='{xml}'/>"), ("", 0))

    def test_the_prefix_that_is_not_declared(self):
        """Of several prefixes that the tag does not declare itself, the one that no tag around it declares."""
        page = "<a xmlns:s='s'>{}<b xmlns:t='t'><t:c/></b>\n<s:b xml:lang='' s:x='' {}=''/></a>"
        for filling in ("", "<!-- -->" * 3_000, "<b y='1'>text</b>" * 3_000):
            self.assertEqual(self.line("element a { empty }", page.format(filling, "t:x")), (
                "d.xml:2:1: malformed P11: the prefix 't' is not declared (NS 5), see docs/use/CLAUSES.md\n", 2))
        twice = "<a xmlns:s='s' xmlns:t='s' xmlns:v='v'>{}\n<s:b v:x='' t:x='' v:y='' s:x=''/></a>"
        for filling in ("", "<b y='1'>text</b>" * 3_000):
            self.assertEqual(self.line("element a { empty }", twice.format(filling)), (
                "d.xml:2:1: malformed P12: the attributes 't:x' and 's:x' have one name (NS 6.3), see docs/use/CLAUSES.md\n", 2))
        many = "<b y='1'>text and more text</b>" * 60_000
        self.assertEqual(self.line("element a { empty }", page.format(many, "t:x")), (
            "d.xml:2:1: malformed P11: the prefix 't' is not declared (NS 5), see docs/use/CLAUSES.md\n", 2))
        self.assertEqual(self.line("element a { empty }", f"<a>{many}\n<t:b/></a>"), (
            "d.xml:2:1: malformed P11: the prefix 't' is not declared (NS 5), see docs/use/CLAUSES.md\n", 2))

    def test_a_tag_in_several_pieces(self):
        """The names are known also if the tag comes in several pieces."""
        for size in (21_845, 60_000):
            values = " ".join(f"x{number}='{'y' * size}'" for number in range(3))
            self.assertEqual(self.line("element a { empty }", f"<a>\n<b {values} p:z=''/></a>"), (
                "d.xml:2:1: malformed P11: the prefix 'p' is not declared (NS 5), see docs/use/CLAUSES.md\n", 2), size)

    def test_depth(self):
        over = "over a limit of this program: more than {} elements are open (--max-depth)"
        deep = "start = a a = element a { a? }"
        for depth, words, status in ((9_000, (), 0), (10_000, (), 0), (20_000, (), 2), (20_000, ("--max-depth", "20000"), 0), (513, ("--max-depth=512",), 2)):
            self.write("t.rnc", deep)
            self.write("d.xml", "<a>" * depth + "</a>" * depth)
            most = 512 if depth == 513 else 10_000
            self.assertEqual(self.judge(*words, "t.rnc", "d.xml"), (f"d.xml:1:{3 * most + 1}: {over.format(f'{most:,}')}\n" if status else "", status))
        found = json.loads(self.judge("--format", "json", "--max-depth", "1", "t.rnc", "d.xml")[0])
        self.assertEqual((found["verdict"], found["column"], "clause" in found), ("outside", 4, False))
        self.write("d.xml", f"<!DOCTYPE a [<!ENTITY e '{'<a>' * 10 + '</a>' * 10}'>]>" + "<a>" * 10 + "&e;" + "</a>" * 10)
        self.assertEqual(self.judge("--max-depth", "20", "t.rnc", "d.xml"), ("", 0))
        self.assertRegex(self.judge("--max-depth", "19", "t.rnc", "d.xml")[0], "more than 19 elements are open")

    def test_memory(self):
        """What is held of a document is limited: markup, texts, declarations and IDs."""
        self.write("t.rnc", "element a { attribute * { text }*, (text | element b { attribute id { xsd:ID }? }*) }")
        entities = "".join(f"<!ENTITY e{number} ''>" for number in range(50_000))
        ids = "".join(f"<b id='i{number}'/>" for number in range(50_000))
        for document in (f"<a x='{'v' * 2_000_000}'/>", f"<a><![CDATA[{'v' * 2_000_000}]]></a>", f"<a><!--{'v' * 2_000_000}--></a>",
                         f"<!DOCTYPE a [{entities}]><a/>", f"<a>{ids}</a>"):
            self.write("d.xml", document)
            self.assertEqual(self.judge("t.rnc", "d.xml"), ("", 0))
            self.assertRegex(self.judge("--max-memory", "1M", "t.rnc", "d.xml")[0], OVER_MEMORY, document[:50])
            self.assertEqual(self.judge("--max-memory=1M", "t.rnc", "d.xml")[1], 2)
        self.write("d.xml", f"<a>{'<b/>' * 400_000}</a>")
        self.assertEqual(self.judge("--max-memory", "1M", "t.rnc", "d.xml"), ("", 0))

    def test_namespaces_by_default_in_memory(self):
        self.write("t.rnc", "element a { empty }")
        namespaces = "".join(f"<!ATTLIST b xmlns:p{number} CDATA '{number}{'u' * 40_000}'>" for number in range(1_000))
        self.write("d.xml", f"<!DOCTYPE a [{namespaces}]><a/>")
        self.assertEqual(self.judge("t.rnc", "d.xml"), ("", 0))
        self.assertRegex(self.judge("--max-memory", "70M", "t.rnc", "d.xml")[0], OVER_MEMORY.replace("1,048,576", "73,400,320"))

    def test_texts_in_memory(self):
        """A text counts only where the schema tests what it says, so that the library holds it."""
        self.write("free.rnc", "element a { text }")
        self.write("tested.rnc", 'element a { xsd:string { maxLength = "5" } }')
        self.write("mixed.rnc", "element a { mixed { element b { xsd:token }* } }")
        large, entity = "v" * 4_000_000, f"<!DOCTYPE a [<!ENTITY e '{'v' * 100_000}'>]>"
        for document in (f"<a>{large}</a>", f"{entity}<a>{'&e;' * 40}</a>", f"<a>{(large + chr(10))[:1000] * 4000}</a>"):
            self.write("d.xml", document)
            self.assertEqual(self.judge("--max-memory", "1M", "free.rnc", "d.xml"), ("", 0))
            self.assertEqual(self.judge("--max-memory", "1M", "mixed.rnc", "d.xml"), ("", 0))
            line, status = self.judge("--max-memory", "1M", "tested.rnc", "d.xml")
            self.assertRegex(line, OVER_MEMORY)
            self.assertEqual(status, 2)
            self.assertRegex(self.judge("tested.rnc", "d.xml")[0], "that the schema does not allow|is wrong")
        self.write("d.xml", f"<a>{large}<b>x</b>{large}</a>")
        self.assertEqual(self.judge("--max-memory", "1M", "mixed.rnc", "d.xml"), ("", 0))
        self.write("d.xml", f"<a><b>{large}</b></a>")
        self.assertRegex(self.judge("--max-memory", "1M", "mixed.rnc", "d.xml")[0], OVER_MEMORY)

    def test_elements_that_nothing_matches(self):
        schema = "start = element a { (b | c | x)* } b = element b { notAllowed } c = element c { attribute y { notAllowed } } x = element x { empty }"
        for document, reported in (("<a><b/></a>", "1:4: invalid: <b> is not allowed here; expected <c> or <x>"),
                                   ("<a><c y='1'/></a>", "1:4: invalid: <c> is not allowed here; expected <b> or <x>"),
                                   ("<a><c/></a>", "1:4: invalid: <c> is not allowed here; expected <b> or <x>")):
            self.invalid(schema, document, reported)
        schema = 'namespace p = "u" element a { (element p:* - p:x { notAllowed } | element * - (p:* | b) { notAllowed } | element c { empty })* }'
        self.invalid(schema, "<a xmlns:p='u'><p:b/></a>",
                     "1:16: invalid: <p:b> is not allowed here; expected <c>, any element (with exceptions) or any element of u (with exceptions)")

    def test_far_behind(self):
        """What is told does not depend on how far behind the place is."""
        self.write("t.rnc", """
            namespace p = "urn:p"
            start = element a { (b | element c { element d { empty }* } | text)* }
            b = element b { attribute x { xsd:int }, attribute p:y { "1" | "2" }?, (attribute u { text } | attribute v { text })?, element p:e { empty }? }
            """)
        begin = "<a xmlns:q='urn:p'>" + "<b x='1' q:y='2'><q:e/></b> text <c><d/></c>\n" * 60_000
        for inside, reported in (
                ("<b x='1' z=''/>", "60001:1: invalid: attribute z is not allowed in <b>; expected q:y, u or v"),
                ("<b q:y='3' x='1'/>", '60001:1: invalid: attribute q:y of <b> is wrong ("3"); expected "1" or "2"'),
                ("<b q:y='1' x='one'/>", '60001:1: invalid: attribute x of <b> is no xsd:int ("one")'),
                ("<b q:y='1'/>", "60001:1: invalid: <b> lacks attribute x"), ("<b/>", "60001:1: invalid: <b> lacks attribute x"),
                ("<b x='1' v='' u=''/>", '60001:1: invalid: attribute u of <b> does not go with the others (""); expected q:y'),
                ("<b x='1'><e/></b>", "60001:10: invalid: <e> is not allowed here; expected <q:e>"),
                ("<b x='1'>t<q:e/></b>", '60001:10: invalid: text is not allowed in <b> ("t"); expected <q:e>'),
                ("<c><d/>t<d/></c>", '60001:8: invalid: text is not allowed in <c> ("t"); expected <d>'),
                ("<c><d/>t</c>", '60001:8: invalid: text is not allowed in <c> ("t"); expected <d>'),
                ("<c><d><r:d xmlns:r='urn:p'/></d></c>", "60001:7: invalid: <r:d> is not allowed here; expected the end of <d>"),
                ("<c xmlns:r='urn:p'><d/></c><b x='1'><e/></b>", "60001:37: invalid: <e> is not allowed here; expected <q:e>"),
                ("<b xmlns:r='urn:p' x='1'><e/></b>", "60001:26: invalid: <e> is not allowed here; expected <r:e>")):
            self.write("d.xml", begin + inside + "</a>")
            self.assertEqual(self.judge("--max-faults", "1", "t.rnc", "d.xml"), (f"d.xml:{reported}\n", 1), inside)

    def test_width(self):
        self.write("t.rnc", "element a { attribute * { text }* }")
        for count, words, most in ((257, (), ""), (2_000, (), ""), (10_000, (), ""), (10_001, (), "10,000"), (40_000, ("--max-attributes", "40000"), ""),
                                   (12_001, ("--max-attributes=12000",), "12,000"), (2, ("--max-attributes=1",), "1"), (1, ("--max-attributes=1",), "")):
            self.write("d.xml", "<a " + " ".join(f'a{number}=""' for number in range(count)) + "/>")
            over = f"d.xml:1:1: over a limit of this program: a tag has more than {most} attributes and declarations (--max-attributes)\n"
            self.assertEqual(self.judge(*words, "t.rnc", "d.xml"), (over, 2) if most else ("", 0), (count, words))
        over = "over a limit of this program: a tag has more than 2 attributes and declarations (--max-attributes)"
        for tags, column in (("<a x='' y=''/>", 0), ("<a xmlns:p='u' x=''/>", 0), ("<!-- --><a xmlns:p='u' x='' p:y=''/>", 9), ("<!-- --><a x='' y='' z=''/>", 9),
                             ("<!DOCTYPE a [<!ATTLIST a z CDATA ''>]><a x='' y=''/>", 0)):
            self.write("d.xml", tags)
            self.assertEqual(self.judge("--max-attributes", "2", "t.rnc", "d.xml"), (f"d.xml:1:{column}: {over}\n", 2) if column else ("", 0), tags)

    def test_a_wide_tag_that_is_invalid(self):
        """What is wrong with a tag of many attributes is told at its place, also as a hint."""
        self.write("t.rnc", 'element r { element a { attribute * - b { "" }*, attribute b { xsd:int } }* }')
        many = " ".join(f"a{number}=''" for number in range(11_000))
        self.write("d.xml", f"<r>\n<a {many}/>\n<a {many} b='x'/>\n<a xmlns:p='u' {many} p:c='1' b='2'/></r>")
        self.assertEqual(self.judge("--max-attributes", "12000", "t.rnc", "d.xml"), (
            "d.xml:2:1: invalid: <a> lacks attribute b\nd.xml:3:1: hint: attribute b of <a> is no xsd:int (\"x\")\n"
            "d.xml:4:1: hint: attribute p:c of <a> is wrong (\"1\"); expected \"\"\n", 1))

    def test_wide_declarations(self):
        """The defaults that a DTD declares have the same limit, or a lower one below the usual one; choices have it in entities, where they are not left out."""
        self.write("t.rnc", "start = any\nany = element * { attribute * { text }*, any* }")
        defaults = " ".join(f"x{number} CDATA 'v'" for number in range(1_001))
        spaces = " ".join(f"xmlns:x{number} CDATA 'v'" for number in range(501))
        choices = "|".join(f"n{number}" for number in range(10_001))
        attributes = " ".join(f'a{number}=""' for number in range(10_001))
        above = " above 10,000"
        for declared, what, option in (
                (f"<!ENTITY e '<b {attributes}/>'>", "a tag has more than 10,000 attributes and declarations", ""),
                (f"<!ATTLIST a {defaults}>", "more than 1,000 declarations of attributes with defaults for one element", above),
                (f"<!ATTLIST a {spaces}><!ATTLIST b {spaces}>", "more than 1,000 declarations of namespaces by default", above)):
            self.write("d.xml", f"<!DOCTYPE a [{declared}]><a/>")
            line, status = self.judge("t.rnc", "d.xml")
            self.assertRegex(line, rf"^d\.xml:1:\d+: over a limit of this program: {what} \(--max-attributes{option}\)\n$")
            self.assertEqual(status, 2)
            self.assertEqual(self.judge("--max-attributes", "10001", "t.rnc", "d.xml"), ("", 0), what)
        bars = "|" * 10_001
        lists = " ".join(f"x{number} (p|q|r) #IMPLIED" for number in range(5_001))
        for entity in (f'<!ATTLIST a x CDATA "{bars}">', f'<!ENTITY e "{bars}">', f'<!NOTATION n SYSTEM "{bars}">', f"<!ATTLIST a {lists}>",
                       f'<!-- " --><!ENTITY e "&#39;"><!ENTITY f "{bars}">'):
            self.write("d.xml", f"<!DOCTYPE a [<!ENTITY % p '{entity}'>%p;]><a/>")
            self.assert_same(self.judge("t.rnc", "d.xml"), ("", 0), entity[:20])
        self.write("d.xml", f"<!DOCTYPE a [<!NOTATION n SYSTEM '{bars}'{' ' * 9_000}>]><a/>")
        self.assertEqual(self.judge("t.rnc", "d.xml"), ("", 0))
        for front, is_left_out in (("&#39;", False), ('<!-- " -->', True), ('<?a "?>', True), ('<!ENTITY e "&#39;">', True), ('<![IGNORE[ " ]]>', False),
                                   ('<!ATTLIST a y CDATA "&#39;" z CDATA "', False), ('<!ATTLIST a y CDATA "50 &#37;">', True)):
            self.write("d.xml", f"<!DOCTYPE a [<!ENTITY % p '{front}<!ATTLIST a x ({choices}) #IMPLIED>'>\n%p;]><a/>")
            wanted = "" if is_left_out else "d.xml:2:1: over a limit of this program: a declaration of attributes has more than 10,000 choices (--max-attributes)\n"
            self.assertEqual(self.judge("t.rnc", "d.xml")[0], wanted, front)
        self.write("d.xml", "<!DOCTYPE a [<!ENTITY % p \"<!ATTLIST a x (p|q) 'p'>\">\n<!ATTLIST a x (p|q) 'p'>\n%p;]><a/>")
        self.assertEqual(self.judge("--max-attributes", "1", "t.rnc", "d.xml"), (
            "d.xml:3:1: over a limit of this program: a declaration of attributes has more than 1 choices (--max-attributes)\n", 2))
        self.assertEqual(self.judge("--max-attributes", "2", "t.rnc", "d.xml"), ("", 0))

    def test_choices_of_declarations_behind_each_other(self):
        """The choices of each list are counted by themselves, and not what has come of the next declaration."""
        self.write("t.rnc", "start = any\nany = element * { attribute * { text }*, any* }")
        few, many = ("|".join(f"n{number}" for number in range(count)) for count in (40, 400))
        for declared, status in ((f"<!ATTLIST a> <!ELEMENT a ({many})>", 0), (f"<!ATTLIST a ~ ({few}) #IMPLIED><!ELEMENT a ({many})*>", 0),
                                 (f"<!ATTLIST a ~ ({few}) 'n1'><!ENTITY ~ '{many}'>", 0), (f"<!ATTLIST a ~ ({few}) #IMPLIED b~ NOTATION ({few}) #IMPLIED>", 0),
                                 (f"<!-- ' --><!ATTLIST a> <!ATTLIST a ~ CDATA '{few}' b~ (&#37;many;) #IMPLIED>", 2)):
            text = "".join(declared.replace("~", f"x{number}") for number in range(100))
            self.write("d.dtd", f"<!ENTITY % many '{many}'>{text.replace('&#37;', '%')}")
            self.write("d.xml", f"<!DOCTYPE a [{text}]><a/>" if status == 0 else "<!DOCTYPE a SYSTEM 'd.dtd'><a/>")
            self.assertEqual(self.judge("--max-attributes", "50", "--dtd", "t.rnc", "d.xml")[1], status, declared[:50])

    def test_many_defaults(self):
        """What defaults give beyond the document's length is limited. The option raises that by its square."""
        self.write("t.rnc", "start = any\nany = element * { attribute * { text }*, any* }")
        declared = " ".join(f"x{number} CDATA '{'v' * 100}'" for number in range(1_000))
        self.write("d.xml", f"<!DOCTYPE b [<!ATTLIST a {declared}>]><b>{'<a/>' * 1_000}</b>")
        over = "over a limit of this program: attributes by default of more than 100 times the document's length (--max-attributes above 10,000)\n"
        line, status = self.judge("t.rnc", "d.xml")
        self.assertEqual((line[line.index("over"):], status), (over, 2))
        self.assertEqual(self.judge("--max-attributes", "20000", "t.rnc", "d.xml"), ("", 0))

    def test_many_namespaces_in_scope(self):
        self.write("t.rnc", "start = any\nany = element * { attribute * { text }*, any* }")
        declared = " ".join(f"xmlns:p{number}='u'" for number in range(9_000))
        self.write("d.xml", f"<a {declared}>{'<b/>' * 300_000}</a>")
        begun = processor_seconds()
        over = r"over a limit of this program: too many declarations of namespaces are in scope \(--max-attributes above 10,000\)"
        self.assertRegex(self.judge("t.rnc", "d.xml")[0], over)
        self.assertEqual(self.judge("--max-attributes", "20000", "t.rnc", "d.xml"), ("", 0))
        self.assertLess(processor_seconds() - begun, 20)

    def test_long_parts(self):
        """Texts, names and values of any length are judged, and what is wrong with them is told at its place."""
        cut, long = "w" * 40, 'xsd:string { minLength = "20000000" }'
        self.write("t.rnc", "element a { attribute x { xsd:token { pattern = '[v]*' } }?, element b { text }?, element c { xsd:string { minLength = '20000000' } }? }")
        for document, reported in ((f"<a x='{'v' * 10_000_000}'/>", ""), (f"<a><b>{'v' * 20_000_000}</b></a>", ""), (f"<a><c>{'v' * 20_000_000}</c></a>", ""),
                                   (f"<a>\n <b><![CDATA[{'v' * 3_000_000}]]></b><d/></a>", f"2:{3_000_021}: invalid: <d> is not allowed here; expected <c>"),
                                   (f"<a>\n <b x='{'v' * 3_000_000}'>t</b></a>", "2:2: invalid: attribute x is not allowed in <b>"),
                                   (f"<a>\n <c><!--{'v' * 3_000_000}-->\n  short</c></a>",
                                    f'3:3: invalid: the text of <c> is an xsd:string that the schema does not allow ("short"); expected {long}'),
                                   (f"<a>\n <c>\n  {'w' * 3_000_000}</c></a>",
                                    f'3:3: invalid: the text of <c> is an xsd:string that the schema does not allow ("{cut}.."); expected {long}'),
                                   (f"<a>\n <b><?p {'v' * 3_000_000}?></b>\n <c/></a>", f"3:2: invalid: <c> ends too early: expected {long}")):
            self.write("d.xml", document)
            self.assertEqual(self.judge("t.rnc", "d.xml"), (f"d.xml:{reported}\n", 1) if reported else ("", 0))

    def test_pyx_is_not_xml(self):
        self.write("pyx", "(a\nAx 1\n)a\n")
        self.write("other", "a\n(a\n")
        out, status = self.judge("s.rnc", "pyx", "other", "cut.xml")
        lines = out.splitlines()
        self.assertEqual(status, 2)
        self.assertRegex(lines[0], r"^pyx:1:1: malformed XML: .*; this looks like PYX: rncv reads PYX$")
        self.assertEqual([line for line in lines[1:] if "PYX" in line], [])

    def test_outside_the_profile(self):
        self.write("e.rnc", 'element a { attribute x { "" }? }\n')
        self.write("attribute.xml", '<!DOCTYPE a SYSTEM "def.dtd"><a x="&ext;"/>')
        self.write("behind.xml", '<!DOCTYPE a [<!ENTITY % p SYSTEM "def.dtd"> %p; <!ATTLIST a own CDATA "d">]><a/>')
        self.write("plain.xml", '<!DOCTYPE a SYSTEM "def.dtd"><a x=""/>')
        out, errors, status = self.run_in(RNCV_XML, "--all", "-j1", "e.rnc", "attribute.xml", "behind.xml", "plain.xml")
        self.assertEqual((out, status), (
            "attribute.xml:1:30: entity 'ext' is not declared in the document itself: outside the profile\n"
            "behind.xml:1:49: a declaration behind a parameter entity that is not loaded: outside the profile\n"
            "plain.xml: valid\n", 2))
        self.assertEqual(errors.splitlines()[-1],
                         "plain.xml:1:1: note: the external DTD 'def.dtd' is not loaded: its entities and attribute defaults are not there")

    def test_parameter_entities_in_any_order(self):
        """They may be referred to in any order and as often as one likes, whatever libxml2 takes for a loop."""
        head = "<!ENTITY % e ''><!ENTITY % n '&#37;e; &#37;u;'><!ENTITY % c '<!--x-->&#37;n;'>"
        names = []
        for number, parts in enumerate(itertools.product(("%e;", "%n;", "%c;", "<!--x-->", " "), repeat=4)):
            subset = "".join(parts)
            self.write(f"{number}.dtd", head + subset)
            names.append(self.write(f"d{number}.xml", f"<!DOCTYPE a [{head}{subset}]><a x='1'/>"))
            names.append(self.write(f"e{number}.xml", f"<!DOCTYPE a SYSTEM '{number}.dtd'><a x='1'/>"))
            names.append(self.write(f"p{number}.xml", f"<!DOCTYPE a [<!ENTITY % p SYSTEM '{number}.dtd'>%p;{subset}%p;]><a x='1'/>"))
        self.assertEqual(self.judge("--dtd", "s.rnc", *names), ("", 0))

    def test_nesting_in_parameter_entities(self):
        """That groups, and declarations which end in parameter entities, nest properly is a matter of validity (2.8, 3.2.1). What begins in an entity between
        declarations ends there (WFC: PE Between Declarations)."""
        nested = ('"(b">%(o)s<!ELEMENT a (%%o;)*)>', '"(b">%(o)s<!ELEMENT a %%o;)>', '"b)">%(o)s<!ELEMENT a (%%o;>', '"(b)>">%(o)s<!ELEMENT a %%o;',
                  '"c CDATA #IMPLIED>">%(o)s<!ATTLIST a %%o;', '"SYSTEM \'x\'>">%(o)s<!NOTATION n %%o;', '"\'x\'>">%(o)s<!ENTITY e %%o;',
                  '"(#PCDATA|b">%(o)s<!ELEMENT a %%o;)*>', '"b)*">%(o)s<!ELEMENT a (#PCDATA|%%o;>', '"((b),">%(o)s<!ELEMENT a %%o; c)>',
                  '"a (b)>">%(o)s<!ELEMENT %%o;', '"a (">%(o)s<!ELEMENT %%o;b)>', '"(b)>"><![INCLUDE[%(o)s<!ELEMENT a %%o;]]>')
        parted = ('"<!ELEMENT a">%%o; (b)>', '"<!ATTLIST a b CDATA">%%o; "x">', '"<!ENTITY e">%%o; "x">', '"<!NOTATION n">%%o; SYSTEM "x">', '"<!ELEMENT a (b">%%o;)>',
                  '"<!ELEMENT a EMPTY">%%o;>', '"<![INCLUDE[">%%o;<!ELEMENT a ANY>]]>', '"<!--">%%o;-->', '"<?p">%%o;?>')
        default = "<!ATTLIST a x CDATA '1'>"
        for declared, status in [(it, 0) for it in nested] + [(it, 2) for it in parted]:
            with self.subTest(declared=declared):
                self.write("n.dtd", f"<!ENTITY % o {declared % {'o': '<!--x-->'}}{default}")
                self.write("n.xml", "<!DOCTYPE a SYSTEM 'n.dtd'><a/>")
                self.assertEqual(self.judge("-q", "--dtd", "s.rnc", "n.xml")[1], status)
        self.write("n.xml", f"<!DOCTYPE a [<!ENTITY % o '<!ELEMENT a (b'>%o;)>{default}]><a/>")
        self.assertEqual(self.judge("-q", "--dtd", "s.rnc", "n.xml")[1], 2)

    def test_what_is_no_declaration(self):
        for subset in ("x", "<!X>", "&lt;", "<![IGNORE[]]>", "<!ENTITY % p 'x'>%p;"):
            self.assertRegex(self.line(SCHEMA, f"<!DOCTYPE a [{subset}]><a x='1'/>")[0],
                             r"^d\.xml:1:\d+: malformed XML: neither a declaration nor the end of the document type\n$")

    def test_strict(self):
        self.write("e.rnc", 'element a { attribute x { "" }? }\n')
        self.write("plain.xml", '<!DOCTYPE a SYSTEM "def.dtd"><a x=""/>')
        self.write("wrong.xml", '<!DOCTYPE a SYSTEM "def.dtd"><a y=""/>')
        self.write("cut.xml", '<!DOCTYPE a SYSTEM "def.dtd"><a>')
        self.write("own.xml", '<!DOCTYPE a [<!ATTLIST a x CDATA "">]><a/>')
        words = "the external DTD 'def.dtd' is not loaded: its entities and attribute defaults are not there"
        self.assertEqual(self.judge("--all", "--strict", "e.rnc", "plain.xml", "wrong.xml", "own.xml"), (
            f"plain.xml:1:1: {words}\nwrong.xml:1:1: {words}\nown.xml: valid\n", 2))
        self.assertEqual(self.judge("-q", "--strict", "e.rnc", "plain.xml"), ("", 2))
        self.assertEqual(self.judge("-q", "e.rnc", "plain.xml"), ("", 0))
        self.assertRegex(self.judge("--strict", "e.rnc", "cut.xml")[0], r"^cut\.xml:1:\d+: malformed XML: ")

    def test_strict_about_iconv(self):
        self.write("t.rnc", 'element a { string "\\x{3042}" }\n')
        self.write("d.xml", '<?xml version="1.0" encoding="EUC-JP"?>\n<a>\u3042</a>'.encode("euc-jp"))
        self.write("e.xml", '<?xml version="1.0" encoding="ISO-8859-1"?>\n<a>\u00e9</a>'.encode("latin-1"))
        words = "the encoding 'EUC-JP' is read by iconv: other programs may read other characters"
        self.assertEqual(self.run_in(RNCV_XML, "--all", "t.rnc", "d.xml"), ("d.xml: valid\n", f"d.xml:1:1: note: {words}\n", 0))
        self.assertEqual(self.judge("-q", "--strict", "t.rnc", "e.xml"), ("", 1))
        self.assertEqual(self.judge("--all", "--strict", "t.rnc", "d.xml"), (f"d.xml:1:1: {words}\n", 2))

    def test_the_words_of_today(self):
        self.assertEqual(self.judge("--all", "s.rnc", "--", "good.xml"), ("good.xml: valid\n", 0))
        self.assertEqual(self.judge("--all", "--", "s.rnc", "good.xml"), ("good.xml: valid\n", 0))
        self.write("-d.xml", '<a x="1"/>')
        self.assertEqual(self.judge("--all", "s.rnc", "--", "-d.xml"), ("-d.xml: valid\n", 0))

    def test_a_schema_alone(self):
        self.assertEqual(self.run_in(RNCV_XML, "s.rnc"), ("", "rncv-xml: the schema is good; no document is named\n", 0))


class Batches(InFolder):
    """Many documents: a fault of one does not stop the others."""

    def setUp(self):
        super().setUp()
        self.write("bogus.xml", '<?xml version="1.0" encoding="bogus"?><a/>')
        self.write("new.xml", '<?xml version="1.1"?><a/>')
        self.write("dashes.xml", "<a>-- - -")
        self.write("comment.xml", "<a><!-- -- - --></a>")
        self.write("empty.xml", "")
        self.write("nul.xml", "<a>\0</a>")
        (self.folder / "folder.xml").mkdir()
        for encoding in ("Shift_JIS", "EUC-JP", "GB18030"):
            self.write(f"{encoding}.xml", f'<?xml version="1.0" encoding="{encoding}"?><a x="\u3042"/>'.encode(encoding))
        self.names = ("bogus.xml", "new.xml", "dashes.xml", "comment.xml", "empty.xml", "nul.xml", "folder.xml", "none.xml", "Shift_JIS.xml",
                      "EUC-JP.xml", "GB18030.xml", "good.xml")

    def test_a_fault_of_one_document_is_its_own(self):
        for jobs in ("1", "3", "64"):
            out, status = self.judge("-j", jobs, "--all", "s.rnc", *self.names)
            lines = out.splitlines()
            self.assertEqual((status, len(lines)), (4, len(self.names)))
            self.assertEqual(lines[:2] + lines[4:5] + lines[6:], [
                "bogus.xml:1:1: the encoding 'bogus' is not read: outside the profile; iconv -f .. -t UTF-8 may write it as UTF-8",
                "new.xml:1:1: outside the profile: XML 1.1 is not read",
                "empty.xml:1:1: malformed XML: no root element", "folder.xml: it is a folder: --recursive judges the documents in folders",
                "none.xml: No such file or directory", "Shift_JIS.xml: valid", "EUC-JP.xml: valid", "GB18030.xml: valid", "good.xml: valid"])
            self.assertNotIn("Traceback", out)

    def test_the_greatest_status(self):
        for names, status in ((("good.xml",), 0), (("good.xml", "bad.xml"), 1), (("cut.xml", "bad.xml"), 2), (("bogus.xml", "bad.xml"), 2),
                              (("cut.xml", "none.xml", "bad.xml"), 4)):
            self.assertEqual(self.judge("s.rnc", *names)[1], status, names)

    def test_names_that_are_not_utf_8(self):
        for name, text in ((b"s\xff.rnc", SCHEMA), (b"t\xff.rnc", "element a {"), (b"good\xff.xml", '<a x="1"/>'), (b"bad\xff.xml", "<a/>")):
            (self.folder / os.fsdecode(name)).write_text(text)
        for locale in ("C", "C.UTF-8"):
            environment = {**os.environ, "LC_ALL": locale}
            self.assertEqual(self.judge("--all", b"s\xff.rnc", b"good\xff.xml", env=environment), ("good\\xff.xml: valid\n", 0))
            self.assertEqual(self.judge("s.rnc", b"none\xff.xml", env=environment), ("none\\xff.xml: No such file or directory\n", 4))
            self.assertRegex(self.judge(b"t\xff.rnc", "good.xml", env=environment)[0], r"^t\\xff\.rnc:(\d+:\d+:)? S6 ")
            out, _ = self.judge("--format", "json", "s.rnc", b"bad\xff.xml", env=environment)
            self.assertEqual(json.loads(out)["file"], "bad\udcff.xml")

    def test_names_with_line_ends(self):
        self.write("a\nb.xml", "<a/>")
        self.assertRegex(self.judge("s.rnc", "a\nb.xml")[0], r"^a\\nb\.xml:1:1: invalid")

    def test_many_in_order(self):
        names = [f"d{number}.xml" for number in range(300)]
        for number, name in enumerate(names):
            self.write(name, '<a x="1"/>' if number % 3 else "<a>" + "<c/>" * (number * 7 % 500) + "</a>")
        outs = {jobs: self.judge("-j", jobs, "--all", "s.rnc", *names) for jobs in ("1", "2", "7")}
        self.assertEqual(outs["1"], outs["2"])
        self.assertEqual(outs["1"], outs["7"])
        self.assertEqual(list(dict.fromkeys(line.split(":")[0] for line in outs["1"][0].splitlines())), names)

    def test_folders(self):
        for name in ("top/b.xml", "top/a/c.xml", "top/a/d.xml", "top/a/e.txt", "top/f.XML"):
            self.write(name, '<a x="1"/>')
        (self.folder / "top/circle.xml").symlink_to(".")
        (self.folder / "top/link.xml").symlink_to("f.XML")
        (self.folder / "top/gone.xml").symlink_to("nowhere")
        self.assertEqual(self.judge("--all", "-r", "s.rnc", "top"), (
            "top/a/c.xml: valid\ntop/a/d.xml: valid\ntop/b.xml: valid\ntop/gone.xml: No such file or directory\ntop/link.xml: valid\n", 4))
        self.assertEqual(self.judge("--all", "--recursive", "--glob", "*.txt", "--glob", "[f-z].*", "s.rnc", "top/", "good.xml"), (
            "top/a/e.txt: valid\ntop/f.XML: valid\ngood.xml: valid\n", 0))
        self.assertEqual(self.judge("s.rnc", "top"), ("top: it is a folder: --recursive judges the documents in folders\n", 4))

    def test_a_folder_with_a_path_that_is_too_long(self):
        self.write("top/good.xml", '<a x="1"/>')
        folder = os.open(self.folder / "top", os.O_RDONLY)
        for _ in range(50):
            os.mkdir("d" * 100, dir_fd=folder)
            within = os.open("d" * 100, os.O_RDONLY, dir_fd=folder)
            os.close(folder)
            folder = within
        os.close(folder)
        out, status = self.judge("--all", "-r", "s.rnc", "top")
        self.assertRegex(out, r"^top(/d{100})+: File name too long\ntop/good.xml: valid\n$")
        self.assertEqual(status, 4)

    def test_names_from_a_file(self):
        self.write("with blank.xml", '<a x="1"/>')
        wanted = "good.xml: valid\nwith blank.xml: valid\n", 0
        self.write("lines", "good.xml\nwith blank.xml\n")
        self.write("zeros", "good.xml\0with blank.xml\0")
        self.assertEqual(self.judge("--all", "--files-from", "lines", "s.rnc"), wanted)
        self.assertEqual(self.judge("--all", "--files-from", "zeros", "s.rnc"), wanted)
        self.assertEqual(self.judge("--all", "--files-from=-", "s.rnc", given=b"good.xml\0with blank.xml"), wanted)
        self.assertEqual(self.judge("--files-from", "none", "s.rnc"), ("none: No such file or directory\n", 4))
        self.assertEqual(self.judge("--files-from", "-", "s.rnc", given=b""), ("", 0))
        (self.folder / "empty").mkdir()
        for words in (("--files-from=/dev/null", "s.rnc"), ("--recursive", "s.rnc", "empty")):
            self.assertEqual(self.run_in(RNCV_XML, *words), ("", "rncv-xml: the schema is good; no document is found\n", 0))
        many = b"".join(b"good.xml\n" for _ in range(20_000))
        self.assertEqual(self.judge("--all", "--files-from", "-", "s.rnc", given=many), ("good.xml: valid\n" * 20_000, 0))

    def test_standard_input(self):
        self.assertEqual(self.judge("--all", "s.rnc", "-", given=b'<a x=""/>'), ("-: valid\n", 0))
        self.assertEqual(self.judge("--stdin-name", "page.xml", "s.rnc", "-", given=b"<a>\n</b>"), ("page.xml:2:1: malformed XML: mismatched tag: </b> where <a> is open\n", 2))
        twice = "-: standard input is named twice, and can be read only once\n"
        for jobs in ("1", "3"):
            self.assertEqual(self.judge("-j", jobs, "--all", "s.rnc", "-", "-", "good.xml", given=b'<a x=""/>'), (
                f"-: valid\n{twice}good.xml: valid\n", 4))
        self.assertEqual(self.shell("rncv-xml --all s.rnc - good.xml <&-"), ("-: standard input is closed\ngood.xml: valid\n", 4))
        out, status = self.shell("rncv-xml s.rnc <(cat bad.xml) /dev/stdin < bad.xml")
        self.assertRegex(out, r"^/dev/fd/\d+:3:3: invalid: <c> is not allowed here; expected the end of <a>\n/dev/stdin:3:3: invalid: <c> is not allowed here; expected the end of <a>\n$")
        self.assertEqual(status, 1)


class Formats(InFolder):
    """What other programs read."""

    NAMES = "good.xml", "bad.xml", "cut.xml", "none.xml"

    def test_json(self):
        out, status = self.judge("--format", "json", "s.rnc", *self.NAMES)
        found = [json.loads(line) for line in out.splitlines()]
        self.assertEqual((status, [each["verdict"] for each in found]), (4, ["valid", "invalid", "malformed", "failed"]))
        self.assertEqual(found[0], {"file": "good.xml", "verdict": "valid"})
        self.assertEqual(found[1], {"file": "bad.xml", "verdict": "invalid", "line": 3, "column": 3, "at": "element", "name": "c",
                                    "message": "invalid: <c> is not allowed here; expected the end of <a>", "reason": "element-not-allowed"})
        self.write("t.rnc", "element a {")
        refused = json.loads(self.judge("--format=json", "t.rnc", "good.xml")[0])
        self.assertEqual((refused["file"], refused["verdict"], refused["clause"]), ("t.rnc", "refused", "S6"))

    def test_sarif(self):
        for names, count in ((self.NAMES, 3), (("good.xml",), 0)):
            log = json.loads(self.judge("--format", "sarif", "s.rnc", *names)[0])
            self.assertEqual((log["version"], len(log["runs"][0]["results"])), ("2.1.0", count))
        log = json.loads(self.judge("--format", "sarif", "s.rnc", *self.NAMES)[0])
        place = log["runs"][0]["results"][0]["locations"][0]["physicalLocation"]
        self.assertEqual(place, {"artifactLocation": {"uri": "bad.xml"}, "region": {"startLine": 3, "startColumn": 3}})

    def test_github(self):
        self.write("a,b:c.xml", "<a>\n</b>")
        self.assertEqual(self.judge("--format", "github", "s.rnc", "bad.xml", "a,b:c.xml", "good.xml"), (
            "::error file=bad.xml,line=3,col=3,title=invalid::invalid: <c> is not allowed here; expected the end of <a>\n"
            "::error file=a%2Cb%3Ac.xml,line=2,col=1,title=malformed::malformed XML: mismatched tag: </b> where <a> is open\n", 2))
        self.assertEqual(self.judge("--format", "github", "s.rnc", "a\t\x1b[1m\x7f\n\r%,:\x9b.xml"), (
            "::error file=a\\t\\x1b[1m\\x7f%0A%0D%25%2C%3A\\x9b.xml,title=failed::No such file or directory\n", 4))

    def test_notes(self):
        """What was not read is told in each format; as text it is for people, on standard error."""
        self.write("e.rnc", 'element a { attribute x { "" }? }\n')
        self.write("noted.xml", '<!DOCTYPE a SYSTEM "def.dtd">\n<a y=""/>')
        self.write("plain.xml", "<a/>")
        words = "the external DTD 'def.dtd' is not loaded: its entities and attribute defaults are not there"
        line = f"noted.xml:1:1: note: {words}\n"
        self.assertEqual(self.run_in(RNCV_XML, "e.rnc", "noted.xml"), ("noted.xml:2:1: invalid: attribute y is not allowed in <a>; expected x\n", line, 1))
        out, errors, _ = self.run_in(RNCV_XML, "--format", "json", "e.rnc", "noted.xml", "plain.xml")
        found = [json.loads(each) for each in out.splitlines()]
        self.assertEqual((found[0]["notes"], errors), ([{"line": 1, "column": 1, "message": words}], ""))
        self.assertEqual(found[1], {"file": "plain.xml", "verdict": "valid"})
        results = json.loads(self.judge("--format", "sarif", "e.rnc", "noted.xml", "plain.xml")[0])["runs"][0]["results"]
        self.assertEqual([(each["level"], each["ruleId"]) for each in results], [("note", "note"), ("error", "invalid")])
        self.assertEqual(results[0]["locations"][0]["physicalLocation"], {
            "artifactLocation": {"uri": "noted.xml"}, "region": {"startLine": 1, "startColumn": 1}})
        self.assertEqual(self.judge("--format", "github", "e.rnc", "noted.xml", "plain.xml"), (
            f"::notice file=noted.xml,line=1,col=1,title=note::{words}\n"
            "::error file=noted.xml,line=2,col=1,title=invalid::invalid: attribute y is not allowed in <a>; expected x\n", 1))
        found = json.loads(self.judge("--format", "json", "--strict", "e.rnc", "noted.xml")[0])
        self.assertEqual((found["verdict"], found["line"], found["message"], len(found["notes"])), ("outside", 1, words, 1))
        self.assertNotIn("at", found)

    def test_no_schema_in_them(self):
        for form, status in (("json", 5), ("sarif", 5), ("github", 0), ("text", 0)):
            self.assertEqual(self.judge("--print-schema", "--format", form, "s.rnc")[1], status, form)

    def test_a_line_stays_a_line(self):
        """No reader of lines divides what is printed for a document, and JSON is UTF-8 without halves of characters."""
        strange = "\u2028\u2029\x85\x7f\u009f\u20ac"
        self.write("t.rnc", "element a { xsd:integer }")
        for name, text in ((f"d{strange}\n.xml", f"<a>x{strange}</a>"), ("e.xml", f"<!DOCTYPE a SYSTEM '{strange}'><a>1</a>")):
            self.write(name, text)
            for form in ("text", "json", "github", "sarif"):
                out, errors, _ = self.run_in(RNCV_XML, "--all", "--format", form, "t.rnc", name)
                if form == "json":
                    self.assertEqual(len(out.splitlines()), 1)
                    found = json.loads(out)
                    self.assertEqual(found["file"], name)
                    self.assertEqual(found.get("name", ""), f"x{strange}" if "name" in found else "")
                    json.dumps(found, ensure_ascii=False).encode("utf-8")
                elif form == "github":
                    self.assertEqual((out.count("::"), len(out.splitlines())), (2, 1))
                elif form == "text":
                    self.assertEqual([len(each.splitlines()) for each in (out, errors) if each], [1] * (1 + (name == "e.xml")))
                elif form == "sarif":
                    json.loads(out)

    def test_bytes_that_are_no_utf_8(self):
        """Only the name of a file has halves of characters in JSON, for its bytes that are no UTF-8."""
        for name in (b"n\xe2\x82.xml", b"n\xff\xe2\x80\xa8\xe2\x82\xac\x80.xml"):
            (self.folder / os.fsdecode(name)).write_text("<b/>")
            found = json.loads(self.judge("--format", "json", "s.rnc", name)[0])
            self.assertEqual(os.fsencode(found.pop("file")), name)
            json.dumps(found, ensure_ascii=False).encode("utf-8")
        (self.folder / os.fsdecode(b"t\xff.rnc")).write_text(f"{SCHEMA}# rncv-profile: 1 datatype loosened, see t.profile.txt\n")
        found = json.loads(self.judge("--format", "json", b"t\xff.rnc", "good.xml")[0])
        json.dumps(found, ensure_ascii=False).encode("utf-8")
        self.assertEqual(found["verdict"], "valid")

    def test_color(self):
        self.assertEqual(self.judge("s.rnc", "bad.xml")[0], "bad.xml:3:3: invalid: <c> is not allowed here; expected the end of <a>\n")
        colored = "\x1b[1mbad.xml:3:3:\x1b[0m \x1b[31minvalid: <c> is not allowed here; expected the end of <a>\x1b[0m\n"
        self.assertEqual(self.judge("--color", "always", "s.rnc", "bad.xml")[0], colored)
        self.wanted("script")
        environment = {name: value for name, value in os.environ.items() if name != "NO_COLOR"}
        plain = "bad.xml:3:3: invalid: <c> is not allowed here; expected the end of <a>\n"
        shown = "      <c/>\n      ^\n"
        self.assertEqual(self.judge("--source", "s.rnc", "bad.xml")[0], plain + shown)
        self.assertEqual(self.judge("--source", "--no-source", "s.rnc", "bad.xml")[0], plain)
        self.assertEqual(self.judge("--source", "s.rnc", "-", given=b"<b/>")[0].count("\n"), 1)
        self.write("new.xml", '<?xml version="1.0"?>\r<a x="1"><b/>\r\n\r\r  <c/>\r</a>')
        self.assertEqual(self.judge("--source", "s.rnc", "new.xml")[0], plain.replace("bad.xml:3:3", "new.xml:5:3") + shown)
        for more, wanted in (({}, colored + shown), ({"NO_COLOR": "1"}, plain + shown), ({"TERM": "dumb"}, plain + shown)):
            # without a terminal for errors, on which a slow run shows its progress
            run = subprocess.run(["script", "-qec", f"{shlex.quote(str(RNCV_XML))} s.rnc bad.xml 2> /dev/null", "/dev/null"], cwd=self.folder, stdin=subprocess.DEVNULL,
                                 capture_output=True, check=False, env={**environment, "TERM": "xterm", **more})
            self.assertEqual(run.stdout.decode().replace("\r\n", "\n"), wanted)

    def test_progress(self):
        self.wanted("script", "sh")
        command = f"(sleep 1.3; cat good.xml) | {shlex.quote(str(RNCV_XML))} --no-source s.rnc bad.xml - cut.xml"
        run = subprocess.run(["script", "-qec", f"sh -c {shlex.quote(command)}", "/dev/null"], cwd=self.folder, stdin=subprocess.DEVNULL, capture_output=True,
                             check=False, env={**os.environ, "NO_COLOR": "1"})
        self.assertIn(b" of 3 documents, 0 MB", run.stdout)
        self.assertTrue(run.stdout.rstrip().endswith(b"\r\x1b[Kcut.xml:3:1: malformed XML: mismatched tag: </a> where <b> is open"), run.stdout)


class Words(InFolder):
    """The command line."""

    def test_wrong_words(self):
        for words in ((), ("--",), ("--bogus", "s.rnc"), ("-j",), ("-j", "x", "s.rnc"), ("-j", "-1", "s.rnc"), ("-j", "0", "s.rnc"), ("-j65", "s.rnc"),
                      ("--jobs=100000", "s.rnc"), ("--jobs=", "s.rnc"), ("-j", "2x", "s.rnc"), ("--format", "xml", "s.rnc"),
                      ("--map", "x", "s.rnc"), ("--datatypes", "all", "s.rnc"), ("--datatypes=", "s.rnc"), ("--max-depth", "0", "s.rnc"), ("--max-depth", "1K", "s.rnc"),
                      ("--max-attributes", "0", "s.rnc"), ("--files-from", "a", "--files-from=b", "s.rnc"),
                      ("--max-attributes", "1000000001", "s.rnc"), ("--max-attributes=1K", "s.rnc"), ("--max-attributes",), ("--max-memory", "x", "s.rnc"), ("--max-memory", "1KB", "s.rnc"), ("--max-memory=", "s.rnc"), ("--quiet", "--all", "s.rnc"), ("-", "good.xml"), ("--files-from", "-", "s.rnc", "-")):
            out, errors, status = self.run_in(RNCV_XML, *words)
            self.assertEqual((out, status), ("", 5), words)
            self.assertRegex(errors, r"^rncv-xml: .*\nusage: rncv-xml .*\n$")

    def test_help(self):
        out, errors, status = self.run_in(RNCV_XML, "--help")
        self.assertEqual((errors, status), ("", 0))
        page = (TOP / "man/rncv-xml.1").read_text()
        for option in re.findall(r"--[a-z][-a-z]+", out):
            self.assertIn(option.replace("-", "\\-"), page)
        self.assertRegex(self.run_in(RNCV_XML, "--version")[0], r"^rncv-xml \d+\.\d+\.\d+ \(librncv \d+\.\d+\.\d+( \(not proved\))?\)\n$")
        self.assertEqual(self.run_in(RNCV_XML, "-h")[0], out)
        self.assertEqual(out.splitlines()[-1], "`man rncv-xml` has more. `man rncv` is about the proved program.")

    def test_values(self):
        for words in (("-j2",), ("-j", "2"), ("--jobs=2",), ("--jobs", "2"), ("-j1",), ("-j64",)):
            self.assertEqual(self.judge(*words, "s.rnc", "good.xml"), ("", 0))


class Ends(InFolder):
    """How the program ends."""

    def test_output_that_is_not_there(self):
        self.assertEqual(self.shell("rncv-xml --all s.rnc good.xml >&-"), ("rncv-xml: standard output is closed\n", 4))
        self.assertEqual(self.shell("rncv-xml --all s.rnc good.xml > /dev/full"), ("rncv-xml: No space left on device\n", 4))
        self.assertEqual(self.shell("rncv-xml s.rnc bad.xml 2>&-"), ("bad.xml:3:3: invalid: <c> is not allowed here; expected the end of <a>\n", 1))

    def test_a_closed_pipe(self):
        many = "bad.xml " * 3000
        for jobs in ("1", "3"):
            script = f"rncv-xml -j {jobs} s.rnc {many} | head -n 1; echo ${{PIPESTATUS[0]}}"
            self.assertEqual(self.shell(script), ("bad.xml:3:3: invalid: <c> is not allowed here; expected the end of <a>\n141\n", 0))

    def test_interrupt(self):
        for jobs in ("1", "3"):
            words = RNCV_XML, "-j", jobs, "--all", "s.rnc", "good.xml", "-", *["good.xml"] * 9
            with subprocess.Popen(words, cwd=self.folder, stdin=subprocess.PIPE, stdout=subprocess.PIPE, stderr=subprocess.PIPE,
                                  preexec_fn=lambda: signal.signal(signal.SIGINT, signal.SIG_DFL)) as run:
                self.assertEqual(run.stdout.readline(), b"good.xml: valid\n")
                run.send_signal(signal.SIGINT)
                self.assertEqual((run.wait(30), run.stdout.read(), run.stderr.read()), (130, b"", b""))

    def test_little_memory(self):
        """However little memory there is, nothing is called valid, and nothing crashes."""
        self.without_sanitizers(RNCV_XML)
        bounded = ("import os, resource, sys\n"
                   "resource.setrlimit(resource.RLIMIT_AS, (int(sys.argv[1]) * 1024,) * 2)\n"
                   "os.execv(sys.argv[2], sys.argv[2:])\n")
        self.write("large.xml", '<a x="1"><!--' + "x" * 3_000_000 + f"--><b/>{' ' * 300_000}<c/></a>")
        self.write("tag.xml", f'<a x="{"y" * 60_000}"><b z="{"q" * 3_000_000}"/></a>')
        seen = set()
        for size in range(3_000, 160_000, 3_500):
            run = subprocess.run([sys.executable, "-c", bounded, str(size), RNCV_XML, "-j1", "s.rnc", "large.xml", "tag.xml"], cwd=self.folder,
                                 capture_output=True, check=False)
            seen.add(run.returncode)
            self.assertIn(run.returncode, (1, 2, 4, 127, -11 if b"error while loading" in run.stderr else 4), (size, run.stdout, run.stderr))
        self.assertIn(1, seen)

    def test_an_answer_does_not_wait_for_the_rest(self):
        """What is malformed ends the reading of a pipe at once."""
        with subprocess.Popen([RNCV_XML, "s.rnc", "-"], cwd=self.folder, stdin=subprocess.PIPE, stdout=subprocess.PIPE) as run:
            run.stdin.write(b'<a x="1"><p:b/>' + b"<b/>" * 10_000)
            run.stdin.flush()
            self.assertEqual(run.wait(30), 2)
            self.assertRegex(run.stdout.read(), b"^-:1:10: malformed P11: ")

    def test_costs(self):
        self.without_sanitizers(RNCV_XML)
        self.write("r.rnc", "element r { element b { attribute x { text }, text }* }")
        small, large = (peak_of([RNCV_XML, "-j1", self.folder / "r.rnc", self.write("d.xml", "<r>" + '<b x="1">t</b>\n' * count + "</r>")])
                        for count in (20_000, 400_000))
        self.assertEqual((small[1], large[1]), (0, 0))
        self.assertLess(large[0], small[0] + 2_000)
        self.assertLess(large[0], 16_384)
        names = [self.write(f"d{number}.xml", '<r><b x="1"/></r>') for number in range(2_000)]
        begun = processor_seconds()
        self.assertEqual(self.judge("-j1", "r.rnc", *names), ("", 0))
        self.assertLess(processor_seconds() - begun, 3)


if __name__ == "__main__":
    unittest.main(verbosity=1)
