"""Tests of schemas in the XML syntax: of `rng2rnc`, and of `rncv-xml` with them."""
import json
import os
import re
import unittest

from testing import PROGRAMS, RNCV_XML, InFolder, processor_seconds

RNG2RNC = PROGRAMS / "rng2rnc"
NS = "http://relaxng.org/ns/structure/1.0"
XSD = "http://www.w3.org/2001/XMLSchema-datatypes"

# Schemas, and what is written of them. `@` is the declaration of the namespace of RELAX NG, a pilcrow is a line end.
PATTERNS = (
    ("<element @ name='a'><empty/></element>", r"element \a { empty }"),
    ("<element @ name=' a '><text/></element>", r"element \a { text }"),
    ("<attribute @ name='a'/>", r"attribute \a { text }"),
    ("<attribute @ name='a'><notAllowed/></attribute>", r"attribute \a { notAllowed }"),
    ("<attribute @><name>a</name><text/></attribute>", r"namespace inherited = inherit¶¶attribute inherited:a { text }"),
    ("<group @><empty/><text/></group>", "empty, text"),
    ("<interleave @><empty/><text/></interleave>", "empty & text"),
    ("<choice @><empty/><text/></choice>", "empty | text"),
    ("<group @><empty/></group>", "empty"),
    ("<optional @><text/></optional>", "text?"),
    ("<zeroOrMore @><text/></zeroOrMore>", "text*"),
    ("<oneOrMore @><text/><empty/></oneOrMore>", "(text, empty)+"),
    ("<optional @><zeroOrMore><text/></zeroOrMore></optional>", "(text*)?"),
    ("<choice @><group><text/><empty/></group><group><text/></group></choice>", "(text, empty) |¶text"),
    ("<list @><text/><empty/></list>", "list { text, empty }"),
    ("<mixed @><text/><empty/></mixed>", "mixed { text, empty }"),
    ("<ref @ name=' start '/>", r"\start"),
    ("<parentRef @ name='a'/>", r"parent \a"),
    ("<value @/>", '""'),
    ("<value @> a </value>", '" a "'),
    ("<value @ type=' string '>a</value>", 'string "a"'),
    ("<value @ type='token'>a&quot;'\\&#9;&#10;&#13;\u00e9<!-- c --><?i?><![CDATA[<]]></value>", r"""token "a" ~ '"' ~ "'\x{5C}\x{9}\x{A}\x{D}""" + '\u00e9<"'),
    (f"<value @ datatypeLibrary='{XSD}'>a</value>", '"a"'),
    (f"<value @ datatypeLibrary='{XSD}' type='integer'>1</value>", 'xsd:integer "1"'),
    ("<data @ type='string'/>", "string"),
    (f"<data @ datatypeLibrary='{XSD}' type=' integer '><param name=' minInclusive '> 1 </param><param name='maxInclusive'/></data>",
     r'xsd:integer { \minInclusive = " 1 " \maxInclusive = "" }'),
    ("<data @ type='string'><except><value>a</value></except></data>", 'string - "a"'),
    ("<data @ type='string'><except><value>a</value><value>b</value></except></data>", 'string - ("a" | "b")'),
    ("<optional @><data type='string'><except><value>a</value></except></data></optional>", '(string - "a")?'),
    ("<data @ type='a' datatypeLibrary='urn:a b\u00e9&lt;'/>", 'datatypes lib1 = "urn:a%20b%C3%A9%3C"¶¶lib1:a'),
    ("<data @ type='a'/>", 'datatypes lib1 = ""¶¶lib1:a'),
    ("<grammar @/>", ""),
    ("<grammar @><start><text/></start></grammar>", "start = text"),
    ("<grammar @><start combine='choice'><text/></start><start combine=' interleave '><text/></start></grammar>", "start |= text¶start &= text"),
    ("<grammar @><define name='a'><text/><empty/></define></grammar>", r"\a = text, empty"),
    ("<grammar @><div><div/><define name='a'><text/></define></div></grammar>", r"div {¶  div {¶  }¶  \a = text¶}"),
    ("<element @ name='a'><grammar><start><parentRef name='a'/></start></grammar></element>",
     r"element \a {¶  grammar {¶    start = parent \a¶  }¶}"),
    ("<grammar @><start><grammar><start><text/></start></grammar></start></grammar>", "start =¶  grammar {¶    start = text¶  }"),
    ("<choice @><group><grammar/></group></choice>", "notAllowed | grammar {¶}"),
)

# Name classes of an element, and how they are written.
CLASSES = (
    ("<name>a</name>", r"\a"),
    ("<name> a </name>", r"\a"),
    ("<name ns='u'>a</name>", "ns1:a"),
    ("<name ns=''>a</name>", "none:a"),
    ("<name xmlns:p='u'>p:a</name>", "p:a"),
    ("<name ns='v' xmlns:p='u'>p:a</name>", "p:a"),
    ("<name>xml:a</name>", "xml:a"),
    ("<name ns='http://www.w3.org/XML/1998/namespace'>a</name>", "xml:a"),
    ("<anyName/>", "*"),
    ("<nsName ns='u'/>", "ns1:*"),
    ("<nsName/>", "inherited:*"),
    ("<anyName><except><name>a</name></except></anyName>", r"* - \a"),
    ("<anyName><except><name>a</name><nsName ns='u'/></except></anyName>", r"* - (\a | ns1:*)"),
    ("<nsName ns='u'><except><name ns='u'>a</name></except></nsName>", "ns1:* - ns1:a"),
    ("<choice><name>a</name><name>b</name></choice>", r"\a | \b"),
    ("<choice><name>a</name></choice>", r"\a"),
    ("<choice><choice><name>a</name><name>b</name></choice><anyName><except><name>c</name></except></anyName></choice>", r"(\a | \b) | (* - \c)"),
)

# What is no schema, with the place and the words of the line.
REFUSED = (
    ("<a/>", "1:1: the root is no element of RELAX NG (of the namespace http://relaxng.org/ns/structure/1.0)"),
    ("<element @ name='a'>\n <txt/></element>", "2:2: <txt> is no element of RELAX NG"),
    ("<start @><text/></start>", "1:1: <start> is no pattern: a schema is one pattern or a grammar"),
    ("<element @ name='a'/>", "1:1: <element> has one pattern or more"),
    ("<element @><text/></element>",
     "1:{}: <text> is not allowed here: <element> without the attribute name has a name class, and then one pattern or more"),
    ("<element @><name>a</name></element>", "1:1: <element> without the attribute name has a name class, and then one pattern or more"),
    ("<element @/>", "1:1: <element> without the attribute name has a name class, and then one pattern or more"),
    ("<attribute @/>", "1:1: <attribute> without the attribute name has a name class, and then at most one pattern"),
    ("<attribute @ name='a'><text/>\n<text/></attribute>", "2:1: <text> is not allowed here: <attribute> has at most one pattern"),
    ("<attribute @ name='a'>\n<name>b</name></attribute>", "2:1: <name> is not allowed here: <attribute> has at most one pattern"),
    ("<element @ name='a'>\n<anyName/></element>", "2:1: <anyName> is not allowed here: <element> has one pattern or more"),
    ("<group @/>", "1:1: <group> has one pattern or more"),
    ("<choice @><name>a</name></choice>", "1:{}: <name> is not allowed here: <choice> has one pattern or more"),
    ("<ref @/>", "1:1: <ref> needs the attribute 'name'"),
    ("<ref @ name='a:b'/>", "1:1: <ref> has a name that is no name of XML without a colon: 'a:b'"),
    ("<ref @ name=''/>", "1:1: <ref> has a name that is no name of XML without a colon: ''"),
    ("<ref @ name='a'>\n<text/></ref>", "2:1: <text> is not allowed here: <ref> has no children"),
    ("<parentRef @/>", "1:1: <parentRef> needs the attribute 'name'"),
    ("<empty @ name='a'/>", "1:1: <empty> has no attribute 'name'"),
    ("<empty @ foo='a'/>", "1:1: <empty> has no attribute 'foo'"),
    (f"<empty @ xmlns:r='{NS}' r:ns='a'/>", "1:1: <empty> has no attribute 'r:ns'"),
    ("<text @>\n  x</text>", "2:3: text is not allowed in <text>"),
    ("<element @ name='a'><text/>\n x</element>", "2:2: text is not allowed in <element>"),
    ("<data @/>", "1:1: <data> needs the attribute 'type'"),
    ("<data @ type='a:b'/>", "1:1: <data> has a type that is no name of XML without a colon: 'a:b'"),
    ("<data @ type='a'><except><text/></except>\n<param name='p'/></data>", "2:1: <param> is not allowed here: <data> has params, and then at most one except"),
    ("<data @ type='a'>\n<except/></data>", "2:1: <except> has one pattern or more"),
    ("<data @ type='a'>\n<param/></data>", "2:1: <param> needs the attribute 'name'"),
    ("<value @><text/></value>", "1:{}: <text> is not allowed here: <value> has text alone"),
    ("<value @><a xmlns=''/></value>", "1:1: <value> has text alone, and no elements of other namespaces"),
    ("<externalRef @/>", "1:1: <externalRef> needs the attribute 'href'"),
    ("<externalRef @ href='a#b'/>", "1:1: <externalRef> has an href that is no URI of another file without a fragment: 'a#b'"),
    ("<externalRef @ href='a%2'/>", "1:1: <externalRef> has an href that is no URI of another file without a fragment: 'a%2'"),
    ("<externalRef @ href=''/>", "1:1: <externalRef> has an href that is no URI of another file without a fragment: ''"),
    ("<grammar @><text/></grammar>", "1:{}: <text> is not allowed here: <grammar> has start, define, div and include"),
    ("<grammar @><start/></grammar>", "1:{}: <start> has one pattern"),
    ("<grammar @><start><text/>\n<text/></start></grammar>", "2:1: <text> is not allowed here: <start> has one pattern"),
    ("<grammar @><start name='a'><text/></start></grammar>", "1:{}: <start> has no attribute 'name'"),
    ("<grammar @><start combine='x'><text/></start></grammar>", "1:{}: <start> has a combine that is not choice and not interleave: 'x'"),
    ("<grammar @><define><text/></define></grammar>", "1:{}: <define> needs the attribute 'name'"),
    ("<grammar @><define name='a'/></grammar>", "1:{}: <define> has one pattern or more"),
    ("<grammar @><include/></grammar>", "1:{}: <include> needs the attribute 'href'"),
    ("<grammar @><include href='x'>\n<include href='x'/></include></grammar>", "2:1: <include> is not allowed here: <include> has start, define and div"),
    ("<grammar @><include href='x'><div>\n<include href='x'/></div></include></grammar>",
     "2:1: <include> is not allowed here: <div> has start, define and div"),
    ("<element @><name/><text/></element>", "1:{}: <name> has a name that is no name of XML, with a prefix or without one: ''"),
    ("<element @ name='a b'><text/></element>", "1:1: <element> has a name that is no name of XML, with a prefix or without one: 'a b'"),
    ("<element @ name='1'><text/></element>", "1:1: <element> has a name that is no name of XML, with a prefix or without one: '1'"),
    ("<element @ name='p:a'><text/></element>", "1:1: <element> has a name whose prefix is not declared: 'p:a'"),
    (f"<value @ datatypeLibrary='{XSD}' type='QName'>p:a</value>", "1:1: <value> has a name whose prefix is not declared: 'p:a'"),
    ("<element @><anyName><name>a</name></anyName><text/></element>", "1:{}: <name> is not allowed here: <anyName> has at most one except"),
    ("<element @><nsName><except/></nsName><text/></element>", "1:{}: <except> has one name class or more"),
    ("<element @><choice/><text/></element>", "1:{}: <choice> has one name class or more"),
    ("<text @ datatypeLibrary='a'/>", "1:1: <text> has a datatypeLibrary that is no absolute URI without a fragment: 'a'"),
    ("<text @ datatypeLibrary='urn:a#b'/>", "1:1: <text> has a datatypeLibrary that is no absolute URI without a fragment: 'urn:a#b'"),
    ("<text @/><text/>", "1:{}: malformed XML: something after the root element"),
    ("<text @ p:a=''/>", "1:1: malformed XML: the prefix 'p' is not declared"),
    ("<text @><p:a/></text>", "1:{}: malformed XML: the prefix 'p' is not declared"),
    ("<text @><a xmlns:p='' xmlns=''/></text>", "1:{}: malformed XML: xmlns:p: Empty XML namespace is not allowed"),
    ("<text @ xmlns:p='u' xmlns:q='u' p:a='' q:a=''/>", "1:1: malformed XML: there are two attributes 'a'"),
    ("<!DOCTYPE text [<!ATTLIST text xmlns:p CDATA ''>]><text @/>", "1:{}: malformed XML: the prefix 'p' is declared as nothing"),
    ("<text @ xmlns:xml='u'/>", "1:{}: malformed XML: xml namespace prefix mapped to wrong URI"),
    ("<?xml version='1.1'?><text @/>", "1:1: outside the profile: XML 1.1 is not read"),
)


def schema(text):
    """The text with the declaration of RELAX NG's namespace."""
    return text.replace("@", f"xmlns='{NS}'", 1)


def grammar(text, attributes=""):
    return f"<grammar xmlns='{NS}' datatypeLibrary='{XSD}' {attributes}>{text}</grammar>"


class InRng(InFolder):
    def convert(self, *words, **more):
        return self.run_in(RNG2RNC, *words, **more)

    def written(self, text):
        """What is written of a schema."""
        self.write("x.rng", schema(text))
        out, errors, status = self.convert("x.rng")
        self.assertEqual((errors, status), ("", 0), text)
        return out


class Written(InRng):
    """What each element and attribute of RELAX NG becomes."""

    def test_patterns(self):
        for text, wanted in PATTERNS:
            self.assertEqual(self.written(text), wanted.replace("\u00b6", "\n") + "\n" * (wanted != ""), text)

    def test_name_classes(self):
        for text, wanted in CLASSES:
            found = self.written(f"<element @>{text}<empty/></element>")
            self.assertEqual(found.rstrip("\n").split("\n")[-1], f"element {wanted} {{ empty }}", text)

    def test_namespaces(self):
        ns = "ns='u' xmlns:p='u' xmlns:q='v'"
        text = (f"<element @ {ns} name='a'><attribute name='b'/><attribute name='c' ns='v'/><attribute><name>d</name></attribute>"
                "<element name='e' ns=''><empty/></element></element>")
        self.assertEqual(self.written(text), (
            'default namespace = "u"\nnamespace q = "v"\nnamespace p = "u"\nnamespace none = ""\n\nelement \\a {\n'
            '  attribute \\b { text },\n  attribute q:c { text },\n  attribute p:d { text },\n  element none:e { empty }\n}\n'))
        text = "<group @><element name='p:a' xmlns:p='u'><empty/></element><element name='p:a' xmlns:p='v'><empty/></element></group>"
        self.assertEqual(self.written(text), 'namespace p = "u"\nnamespace ns2 = "v"\n\nelement p:a { empty }, element ns2:a { empty }\n')

    def test_values_with_prefixes(self):
        text = (f"<choice @ datatypeLibrary='{XSD}' xmlns:p='u'><value type='QName'>p:a</value><value type='QName' xmlns:p='v'>p:a</value>"
                "<value type='QName'> a </value><value type='NOTATION' ns='w'>a</value><value type='token'>r:a</value></choice>")
        self.assertEqual(self.written(text), (
            'namespace p = "u"\nnamespace ns2 = "v"\nnamespace ns3 = "w"\n\n'
            'xsd:QName "p:a" |\nxsd:QName "ns2:a" |\nxsd:QName " a " |\nxsd:NOTATION "ns3:a" |\nxsd:token "r:a"\n'))

    def test_foreign(self):
        text = ("<r:element xmlns:r='http://relaxng.org/ns/structure/1.0' name='a' x:b='' xmlns:x='y'><x:c>text<r:foo/></x:c>\n"
                "<c><r:start/></c><r:text x:ns=''><!-- c --><x:d/></r:text><?i?></r:element>")
        self.assertEqual(self.written(text), "element \\a { text }\n")

    def test_encodings_and_entities(self):
        text = f"<!DOCTYPE element [<!ENTITY e 'b'><!ATTLIST text xml:id CDATA 'c'>]><element xmlns='{NS}' name='\u00e9'><value>&e;\u00e9</value></element>"
        for encoding in ("utf-8", "utf-8-sig", "utf-16", "iso-8859-1"):
            declared = encoding.replace("-sig", "")
            self.write("x.rng", f"<?xml version='1.0' encoding='{declared}'?>{text}".encode(encoding))
            self.assertEqual(self.convert("x.rng"), ('element \\\u00e9 { "b\u00e9" }\n', "", 0), encoding)

    def test_an_external_dtd_is_noted(self):
        self.write("x.rng", "<!DOCTYPE text SYSTEM 'x.dtd'>" + schema("<text @/>"))
        note = "the external DTD 'x.dtd' is not loaded: its entities and attribute defaults are not there\n"
        self.assertEqual(self.convert("x.rng"), ("text\n", f"x.rng:1:1: note: {note}", 0))
        self.write("y.rng", "<!DOCTYPE element SYSTEM 'x.dtd'>" + schema("<element @ name='a'><externalRef href='x.rng'/></element>"))
        self.write("a.xml", "<a>1</a>")
        self.assertEqual(self.run_in(RNCV_XML, "y.rng", "a.xml")[2], 0)
        for option in ((), ("--catalog", "none.cat")):
            self.assertEqual(self.run_in(RNCV_XML, "--strict", *option, "y.rng", "a.xml"), (f"y.rng:1:1: {note}", "", 3))
        self.write("y.rng", schema("<element @ name='a'><externalRef href='x.rng'/></element>"))
        self.assertEqual(self.run_in(RNCV_XML, "--strict", "y.rng", "a.xml"), (f"x.rng:1:1: {note}", "", 3))


class Refused(InRng):
    """What is no schema is refused, at its place."""

    def test_refusals(self):
        for text, wanted in REFUSED:
            self.write("x.rng", schema(text))
            out, errors, status = self.convert("x.rng")
            self.assertEqual((out, status), ("", 3), text)
            self.assertRegex(errors, "^" + re.escape(f"x.rng:{wanted}\n").replace(r"\{\}", "[0-9]+") + "$", text)
            self.assertEqual(self.judge("x.rng", "good.xml"), (errors, 3))

    def test_limits(self):
        deep = "<group>" * 600 + "<text/>" + "</group>" * 600
        self.write("x.rng", schema(f"<group @>{deep}</group>"))
        out, errors, status = self.convert("x.rng")
        self.assertEqual((out, status), ("", 3))
        self.assertRegex(errors, r"^x\.rng:1:\d+: .*(open|deep).*\n$")
        many = "".join(f"<data type='a' datatypeLibrary='urn:{number}'/>" for number in range(4_097))
        self.write("x.rng", schema(f"<choice @>{many}</choice>"))
        self.assertEqual(self.convert("x.rng"), ("", "x.rng:1:1: more than 4,096 namespaces or libraries: outside the profile\n", 3))


    def test_time(self):
        """It does not grow with the square of the file."""
        group = "<group " + " ".join(f"xmlns:p@{number}='u'" for number in range(200)) + ">"
        groups = "".join(group.replace("@", f"{number}x") for number in range(6))
        self.write("x.rng", f"<group xmlns='{NS}'>{groups}<text/>{'</group>' * 7}")
        self.assertRegex(self.convert("x.rng")[1], r"^x\.rng:1:\d+: more than 1,024 declarations of namespaces are in scope: outside the profile\n$")
        self.write("x.rng", schema(f"<choice @>{''.join(f'<externalRef href={chr(39)}m{number}{chr(39)}/>' for number in range(30_000))}</choice>"))
        self.write("x.rnc", " | ".join(f'external "m{number}"' for number in range(40_000)))
        before = processor_seconds()
        for name in ("x.rng", "x.rnc"):
            self.assertEqual(self.judge(name), (f"{name}: more than 8,192 mentions of files: outside the profile\n", 3))
        self.assertLess(processor_seconds() - before, 5)

    def test_many_mentions(self):
        for number in range(70):
            self.write(f"m{number}.rng", schema(f"<element @ name='m{number}'><empty/></element>"))
        for count, words in ((60, ""), (70, r"x\.rng: the schema has 71 files\. 71 are left .*\n")):
            mentions = "".join(f"<externalRef href='m{number}.rng'/>" for number in range(count))
            self.write("x.rng", schema(f"<choice @>{mentions}</choice>"))
            self.assertRegex(self.judge("x.rng")[0], f"^{words}$")


class Files(InRng):
    """Includes and external files."""

    def test_copies(self):
        self.write("sch/main.rng", grammar("<include href='low/b.rng' ns='u'/><include href='b.rng'><define name='x'><text/></define></include>"
                                           "<start><externalRef href='low/e%20%C3%A9.rng'/></start>", "ns='v'"))
        self.write("sch/low/b.rng", grammar("<include href='../b.rng'/>"))
        self.write("sch/b.rng", grammar("<define name='x'><element name='b'><text/></element></define>"))
        self.write("sch/low/e \u00e9.rng", schema("<element @ name='e'><text/></element>"))
        out, errors, status = self.convert("-o", "copy", "sch/main.rng")
        self.assertEqual((out, errors, status), ("written: copy/main.rnc copy/b.rnc copy/b-2.rnc copy/e \u00e9.rnc\n", "", 0))
        read = {path.name: path.read_text("utf-8") for path in (self.folder / "copy").iterdir()}
        self.assertEqual(read, {
            "main.rnc": 'default namespace = "v"\nnamespace ns1 = "u"\n\ninclude "b.rnc" inherit = ns1\ninclude "b-2.rnc" {\n  \\x = text\n}\n'
                        'start = external "e \u00e9.rnc"\n',
            "b.rnc": 'include "b-2.rnc"\n', "b-2.rnc": "\\x = element \\b { text }\n", "e \u00e9.rnc": "element \\e { text }\n"})
        self.assertEqual(self.convert("--output=copy", "sch/main.rng")[::2], (out, 0))
        self.assertEqual(self.convert("sch/main.rng")[1:], ("rng2rnc: 3 more files are mentioned: -o DIR writes them too\n", 0))

    def test_bases(self):
        for attributes, href, path in (
                ("xml:base='low/'", "b.rng", "low/b.rng"), ("xml:base='low/x.rng'", "b.rng", "low/b.rng"), ("xml:base='low/x/'", "../b.rng", "low/b.rng"),
                (f"xml:base='file://{self.folder}/low/'", "b.rng", "low/b.rng"), ("xml:base='http://x/y/'", "../b.rng", None),
                ("xml:base='low/'", f"{self.folder}/b.rng", "b.rng"), ("xml:base='?q'", "low/b.rng", "low/b.rng")):
            self.write("main.rng", grammar(f"<div><include href='{href}'/></div><start><ref name='x'/></start>", attributes))
            for place in ("b.rng", "low/b.rng"):
                self.write(place, grammar(f"<define name='x'><element name='a'><value>{place}</value></element></define>"))
            words = ["main.rng", "-"] if path else ["--map", "http://x/b.rng=low/b.rng", "main.rng", "-"]
            self.assertEqual(self.judge(*words, given=f"<a>{path or 'low/b.rng'}</a>".encode()), ("", 0), (attributes, href))
        self.write("main.rng", grammar("<div xml:base='low/'><div xml:base='../b/'><include href='c.rng'/></div></div>"))
        self.assertRegex(self.convert("main.rng")[1], r"^main\.rng:1:\d+: there is no b/c\.rng\n$")

    def test_missing(self):
        self.write("main.rng", grammar("\n<include href='none.rng'/>"))
        self.assertEqual(self.convert("main.rng"), ("", "main.rng:2:1: there is no none.rng\n", 3))
        self.assertRegex(self.judge("main.rng")[0], r"^main\.rng:2:1: S1 .*: there is no none\.rng, see docs/use/CLAUSES\.md\n$")
        self.write("main.rng", grammar("\n<include href='http://x/b.rng'/>"))
        self.assertEqual(self.convert("main.rng"), ("", "main.rng:2:1: there is no http://x/b.rng, and nothing is fetched (--map HREF=FILE)\n", 3))
        self.write("b.rng", grammar(""))
        self.assertEqual(self.convert("--map", "http://x/b.rng=b.rng", "main.rng")[2], 0)

    def test_what_is_not_copied(self):
        self.write("main.rng", grammar("<include href='b.rnc'/>"))
        self.write("b.rnc", "x = text\n")
        self.assertEqual(self.convert("-o", "copy", "main.rng"), ("written: copy/main.rnc copy/b.rnc\n", "", 0))
        self.assertEqual((self.folder / "copy/b.rnc").read_text(), "x = text\n")
        self.assertEqual(self.convert("-o", ".", "main.rng"), ("", "./b.rnc: a copy would replace this file of the schema: choose another folder\n", 4))
        self.write("b.rnc", '\ninclude "c.rnc"')
        self.assertEqual(self.convert("-o", "copy", "main.rng"), (
            "", "b.rnc:2:9: this file is in the compact syntax, and mentions others: it is not copied\n", 3))

    def test_words(self):
        self.assertEqual(self.convert()[::2], ("", 5))
        self.assertEqual(self.convert("x.rng", "y.rng")[2], 5)
        self.assertEqual(self.convert("--map", "x", "x.rng")[2], 5)
        self.assertEqual(self.convert("-o")[2], 5)
        self.assertEqual(self.convert("--none", "x.rng")[2], 5)
        self.assertRegex(self.convert("--help")[0], r"^usage: rng2rnc ")
        self.assertRegex(self.convert("--help")[0], r"3 if a file is no schema or mentions one that is not there, .*; 4 if a file\scannot be read ")
        self.assertRegex(self.convert("--version")[0], r"^rng2rnc \d+\.\d+\.\d+\n$")
        self.assertEqual(self.convert("none.rng"), ("", "rng2rnc: cannot read file none.rng: No such file or directory\n", 4))
        self.assertEqual(self.convert("-a.rng")[2], 5)
        self.assertEqual(self.convert("no\n\x1bne \u00e9.rng"), ("", "rng2rnc: cannot read file no\\n\\x1bne \u00e9.rng: No such file or directory\n", 4))
        self.assertEqual(self.convert("s.rnc"), ("", "s.rnc: this is no schema in the XML syntax\n", 3))
        self.write("x.rng", schema("<text @/>"))
        self.assertEqual(self.convert("-o", "x.rng", "x.rng")[2], 4)
        self.assertEqual(self.convert("-o", "none/x", "x.rng"), ("", "rng2rnc: none/x: No such file or directory\n", 4))
        if os.path.exists("/dev/full"):
            self.assertEqual(self.shell("rng2rnc x.rng > /dev/full"), ("rng2rnc: No space left on device\n", 4))
        self.assertEqual(self.shell("ulimit -f 0; rng2rnc -o copy x.rng"), ("rng2rnc: copy/x.rnc: File too large\n", 4))


class Catalogs(InRng):
    """URIs that are files by XML catalogs."""

    def setUp(self):
        super().setUp()
        self.write("own/b.rng", grammar("<define name='b'><element name='b'><empty/></element></define>"))
        self.environment = {**os.environ, "XML_CATALOG_FILES": ""}

    def catalog(self, name, entries, attributes=""):
        self.write(name, f"<catalog xmlns='urn:oasis:names:tc:entity:xmlns:xml:catalog' {attributes}>{entries}</catalog>")

    def answer(self, uri, *words):
        self.write("main.rng", grammar(f"<include href='{uri}'/><start><ref name='b'/></start>"))
        self.write("main.rnc", f'include "{uri}" start = b')
        answers = [self.run_in(RNCV_XML, *words, name, "-", given=b"<b/>", env=self.environment) for name in ("main.rng", "main.rnc")]
        statuses = {status for _, _, status in answers} | {self.convert(*words, "main.rng", env=self.environment)[2]}
        return answers[0][0] + answers[0][1], statuses

    def test_entries(self):
        for entries, attributes in (
                ("<uri name='http://x/b.rng' uri='own/b.rng'/>", ""),
                ("<uri name='http://x/b.rng' uri='b.rng'/>", "xml:base='own/'"),
                ("<group xml:base='own/'><uri name='http://x/b.rng' uri='./b%2Erng'/></group>", ""),
                (f"<uri name='http://x/b.rng' uri='file://{self.folder}/own/b.rng'/>", ""),
                ("<rewriteURI uriStartString='http://x/' rewritePrefix='own/'/><rewriteURI uriStartString='http://' rewritePrefix='none/'/>", ""),
                ("<nextCatalog catalog='none.cat'/><nextCatalog catalog='own/next.cat'/>", ""),
                ("<delegateURI uriStartString='http://x/' catalog='own/next.cat'/><nextCatalog catalog='wrong.cat'/>", ""),
                ("<delegateURI uriStartString='http://' catalog='own/next.cat'/><delegateURI uriStartString='http://x' catalog='c.cat'/>", "")):
            self.catalog("c.cat", entries, attributes)
            self.catalog("own/next.cat", "<other xmlns='u'/><uri name='http://x/b.rng' uri='b.rng'/>")
            self.catalog("wrong.cat", "<uri name='http://x/b.rng' uri='own/none.rng'/>")
            self.assertEqual(self.answer("http://x/b.rng", "--catalog", "c.cat"), ("", {0}), entries)
            self.environment["XML_CATALOG_FILES"] = f"none.cat  c.cat\nfile://{self.folder}/wrong.cat"
            self.assertEqual(self.answer("http://x/b.rng"), ("", {0}), entries)
            self.assertEqual(self.answer("http://x/b.rng", "--map", "http://x/b.rng=own/b.rng"), ("", {0}), entries)
            self.environment["XML_CATALOG_FILES"] = ""

    def test_what_is_not_there(self):
        self.catalog("c.cat", "<uri name='urn:b' uri='http://x/'/><nextCatalog catalog='c.cat'/><nextCatalog catalog='http://x/c.cat'/><uri name='urn:c'/>")
        for uri in ("urn:b", "http://x/b.rng", "urn:c"):
            reported, statuses = self.answer(uri, "--catalog", "c.cat")
            self.assertIn(f"there is no {uri}, and nothing is fetched", reported)
            self.assertEqual(statuses, {3})

    def test_faults(self):
        reported, statuses = self.answer("urn:b", "--catalog", "none.cat")
        self.assertEqual((reported, statuses), ("none.cat: No such file or directory\n", {4}))
        self.write("c.cat", "<catalog")
        reported, statuses = self.answer("urn:b", "--catalog", "c.cat")
        self.assertRegex(reported, r"^c\.cat:1:\d+: malformed XML: .*\n$")
        self.assertEqual(statuses, {3})
        self.write("c.cat", "\n<a/>")
        reported, statuses = self.answer("urn:b", "--catalog", "c.cat")
        root = "the root is no element of XML Catalogs (of the namespace urn:oasis:names:tc:entity:xmlns:xml:catalog)"
        self.assertEqual((reported, statuses), (f"c.cat:2:1: {root}\n", {3}))
        self.environment["XML_CATALOG_FILES"] = "c.cat"
        self.assertEqual(self.answer("urn:b")[1], {3})
        self.assertEqual(self.answer("own/b.rng", "--catalog", "c.cat"), ("", {0}))


class Judged(InRng):
    """`rncv-xml` with schemas in the XML syntax."""

    def test_answers(self):
        self.write("a.rng", schema("<element @ name='a'><attribute name='x'/><choice><element name='b'><empty/></element><text/></choice></element>"))
        self.assertEqual(self.judge("--all", "a.rng", "good.xml", "bad.xml"), ("good.xml: valid\nbad.xml:3:3: invalid: <c> is not allowed here; expected the end of <a>\n", 1))

    def test_both_kinds(self):
        self.write("main.rnc", 'include "sch/b.rng"\nstart = a')
        self.write("sch/b.rng", grammar("<include href='low/c.rnc'/><define name='a'><element name='a'><attribute name='x'/><ref name='b'/></element>"
                                        "</define>"))
        self.write("sch/low/c.rnc", 'include "d.rng"')
        self.write("sch/low/d.rng", grammar("<define name='b'><element name='b'><empty/></element></define>"))
        self.assertEqual(self.judge("--all", "main.rnc", "good.xml"), ("good.xml: valid\n", 0))
        self.write("main.rng", grammar("<include href='sch/b.rng'/><start><ref name='a'/></start>"))
        self.assertEqual(self.judge("--all", "main.rng", "good.xml"), ("good.xml: valid\n", 0))

    def test_one_name_in_two_folders(self):
        for folder in ("p", "q"):
            self.write(f"{folder}/main.rng", grammar("<include href='b.rng'/>"))
            self.write(f"{folder}/b.rng", grammar(f"<define name='{folder}'><element name='{folder}'><empty/></element></define>"))
        self.write("b.rng", grammar("<include href='p/main.rng'/><include href='./q/main.rng'/><start><choice><ref name='p'/><ref name='q'/></choice></start>"))
        for name in "pq":
            self.assertEqual(self.judge("b.rng", "-", given=f"<{name}/>".encode()), ("", 0))
        self.assertEqual(self.judge("b.rng", "-", given=b"<r/>")[1], 1)

    def test_namespaces_across_files(self):
        self.write("main.rng", grammar("<include href='b.rng' ns='u'/><start><group><ref name='r'/></group></start>", "ns='w'"))
        self.write("b.rng", grammar("<define name='r'><element name='r'><ref name='e'/><externalRef href='c.rng'/><externalRef href='c.rng' ns=''/>"
                                    "<externalRef href='d.rng' ns='v'/></element></define>"
                                    "<define name='e'><element name='e' ns='x'><empty/></element></define>"))
        self.write("c.rng", schema("<element @ name='c'><attribute><name>d</name></attribute></element>"))
        self.write("d.rng", schema("<element @ name='d' ns='y'><empty/></element>"))
        document = "<r xmlns='u' xmlns:u='u'><e xmlns='x'/><c u:d=''/><c d='' xmlns=''/><d xmlns='y'/></r>"
        self.assertEqual(self.judge("main.rng", "-", given=document.encode()), ("", 0))
        for wrong in (document.replace("u:d", "d"), document.replace("xmlns='x'", ""), document.replace("xmlns=''", ""), document.replace("'y'", "'v'")):
            self.assertEqual(self.judge("main.rng", "-", given=wrong.encode())[1], 1, wrong)

    def test_library_by_the_nearest_element(self):
        """It does not pass into other files."""
        self.write("main.rng", grammar("<start><element name='a'><externalRef href='b.rng'/></element></start>"))
        self.write("b.rng", schema("<data @ type='integer'/>"))
        self.assertRegex(self.judge("main.rng")[0], r"^b\.rng:1:1: S12 ")
        self.write("b.rng", schema(f"<choice @ datatypeLibrary=''><data type='integer' datatypeLibrary='{XSD}'/><data type='token'/></choice>"))
        self.assertEqual(self.judge("main.rng"), ("", 0))

    def test_faults_are_reported_at_the_element(self):
        for clause, text, place in (
                (11, "<start><element><anyName><except>\n<anyName/></except></anyName><empty/></element></start>", "2:1:"),
                (12, "<start>\n<element name='a'>\n  <data type='integr'/></element></start>", "3:3:"),
                (13, "<start><text/></start>\n<start><text/></start>", "2:1:"),
                (14, "<define name='a'><text/></define>", "1:"),
                (15, "<start>\n  <ref name='none'/></start>", "2:3:"),
                (16, "<start>\n<ref name='a'/></start><define name='a'>\n<choice><text/><ref name='a'/></choice></define>", ""),
                (22, "<start>\n <text/></start>", "2:2:"),
                (24, "<start><element name='a'><attribute name='b'/>\n  <attribute name='b'/></element></start>", "2:3:")):
            self.write("main.rng", grammar(text))
            out, status = self.judge("main.rng")
            self.assertRegex(out, rf"^main\.rng:{place}.*S{clause} ")
            self.assertEqual(status, 3)
        self.assertIn("attribute b is there twice in element a (the other is at 1:", out)
        self.write("b.rng", schema("<text @/>"))
        self.write("main.rng", grammar("\n<include href='b.rng'/>"))
        self.assertRegex(self.judge("main.rng")[0], r"^main\.rng:2:1: S10 ")
        self.write("b.rng", schema("<choice @><grammar/></choice>"))
        self.assertRegex(self.judge("main.rng")[0], r"^main\.rng:2:1: S10 ")
        answer = json.loads(self.judge("--format", "json", "main.rng")[0])
        self.assertEqual((answer["file"], answer["line"], answer["column"], answer["clause"]), ("main.rng", 2, 1, "S10"))

    def test_large(self):
        """The XML may be larger than a file in the compact syntax may be, and what is written may not."""
        comment = "<!-- " + "c" * 1_200_000 + " -->"
        self.write("a.rng", schema(f"<element @ name='a'>{comment}<text/></element>"))
        self.assertEqual(self.judge("a.rng", "-", given=b"<a/>"), ("", 0))
        values = "".join(f"<value>{number:05}{'c' * 60_000}</value>" for number in range(20))
        self.write("a.rng", schema(f"<element @ name='a'><choice>{values}</choice></element>"))
        self.assertRegex(self.judge("a.rng")[0], r"^a\.rng: S2 ")
        self.write("a.rng", b"<a>" + b" " * 17_000_000)
        self.assertEqual(self.judge("a.rng"), ("a.rng:1:1: the file has more than 16,777,216 bytes: outside the profile\n", 3))

    def test_print_schema(self):
        self.write("main.rng", grammar("<include href='low/b.rng'/><start><ref name='b'/></start>"))
        self.write("low/b.rng", grammar("<include href='c.rnc'/>"))
        self.write("low/c.rnc", "b = element a { text }")
        self.assertEqual(self.judge("--print-schema", "main.rng", "none.xml"), (
            '# main.rng\ninclude "low/b.rng"\nstart = \\b\n\n# low/b.rng, mentioned as low/b.rng\ninclude "c.rnc"\n\n'
            "# low/c.rnc, mentioned as c.rnc\nb = element a { text }\n", 0))
        self.write("low/c.rnc", "b = element a { none }")
        out, status = self.judge("--print-schema", "main.rng")
        self.assertRegex(out, r"(?s)^# main\.rng\n.*\nb = element a \{ none \}\nlow/c\.rnc:1:17: S15 ")
        self.assertEqual(status, 3)


if __name__ == "__main__":
    unittest.main(verbosity=1)
