"""Tests of names, identifiers, blanks, zeros and values that are too long for libxml2, which gets less of them."""
import os
import pathlib
import random
import subprocess
import tempfile
import unittest

from testing import HERE, RNCV_XML, XML2PYX, InFolder, peak_of

DOCUMENTS = int(os.environ.get("RNCV_XML_SHORTENED", "60"))
ANY = "any = element * { (attribute * { text } | text | any)* } start = any"
ENTITIES = f"""<!ENTITY short 'xy'><!ENTITY long '{'long ' * 900}'><!ENTITY both '&long;&short; &#38;amp;&short;&#38;#38;"'>
<!ENTITY blank 'a&#9;&#38;#9;&#13;&#38;#13; b'><!ENTITY tag '&#60;'><!ENTITY loop '&both;&loop;'>"""
NAMES = "ab-._7\u00b7\u3042\u0300"


class Long:
    """Documents with names and values of some 10,000 bytes, some of them malformed."""

    def __init__(self, seed):
        self.chance = random.Random(seed)
        self.names = [self.name() for _ in range(3)]
        self.names += [self.names[0][:-1] + "x", self.names[1] + "b", "b"]

    def length(self):
        return self.chance.choice((1, 300, 4_000, 9_990, 10_000, 10_001, 10_009, 12_000, 30_000))

    def text(self, pieces):
        piece = "".join(self.chance.choice(pieces) for _ in range(self.chance.choice((1, 1, 7, 100))))
        return piece * (self.length() // len(piece) + 1)

    def name(self):
        return self.chance.choice("a_\u3042") + self.text(NAMES) + ("" if self.chance.random() < 0.97 else self.chance.choice("\u00d7$"))

    def chosen(self):
        return self.chance.choice(self.names)

    def blank(self):
        return self.text(" \n\t") if self.chance.random() < 0.2 else " "

    def reference(self):
        zeros = "0" * self.length()
        return self.chance.choice((f"&#{zeros}65;", f"&#x{zeros}3042;", f"&{self.chosen()};", "&amp;" if self.chance.random() < 0.9 else "&#1;"))

    def value(self):
        pieces = ("x", "\u3042", "'", " ", "\n", "{left-out:", "{left-out:00000000}", "{", "\u0085", "\x7f", "\u00e9")
        return "".join(self.chance.choice((self.text(pieces[:self.chance.choice((2, 5, 11))]), "x", self.reference(), self.referring()))
                       for _ in range(self.chance.randrange(5)))

    def referring(self):
        """References among few other bytes, as in pictures in base 64."""
        references = ("&#10;", "&#32;", "&#x3042;", "&lt;", "&#038;", "&#127;", "&#x85;", "&short;", "&long;", "&both;", "&blank;")
        other = ("&none;", "&tag;", "&#1;", "&#xFFFE;", "&#xD800;", "&", "&;", "&#;", "<", "&loop;", "&both")
        pieces = [self.chance.choice(references) for _ in range(3)] + ["x", "x y", "  "]
        piece = "".join(self.chance.choice(pieces) for _ in range(self.chance.choice((1, 7, 30))))
        return piece * (self.length() // 10 // len(piece) + 1) + ("" if self.chance.random() < 0.95 else self.chance.choice(other))

    def attribute(self):
        prefix = self.chance.choice(("", "", "", "p:", "q:", self.names[1] + ":"))
        name = self.chance.choice((prefix + self.chosen(), "c", "d", "xmlns:q", "xmlns"))
        return f'{self.blank()}{name}{self.blank()}="{self.value()}"'

    def element(self, depth):
        name = self.chosen()
        attributes = "".join(self.attribute() for _ in range(self.chance.randrange(4)))
        if self.chance.random() < 0.3 or depth > 3:
            return f"<{name}{attributes}{self.blank()}/>"
        content = "".join(self.element(depth + 1) if self.chance.random() < 0.5 else self.reference() for _ in range(self.chance.randrange(3)))
        return f"<{name}{attributes}>{content}</{name if self.chance.random() < 0.97 else self.chosen()}{self.blank()}>"

    def identifier(self):
        public = self.text("ab -/:") + ("" if self.chance.random() < 0.9 else self.chance.choice("^\u3042"))
        system = self.text(self.chance.choice(("ab /%\u3042", ("#", "a"), ("%41", "b"), ("%41", "b", "#"))))
        return self.chance.choice((f'SYSTEM{self.blank()}"{system}"', f"PUBLIC '{public}' '{self.text('ab')}'", f'PUBLIC "{public}"'))

    def model(self):
        """A content model, which may be long. Some are wrong."""
        separator = self.chance.choice(",|") + self.blank()
        items = [self.chance.choice(("a", "b?", "p:c*", "(a,b)", "(a|(b,c+)?)+", f"a{self.blank()}", self.chosen())) for _ in range(5)]
        items *= self.chance.choice((1, 1, 50, 900))
        if self.chance.random() < 0.05:
            items.insert(self.chance.randrange(len(items)), self.chance.choice(("", "#PCDATA", "a b", "a|b,c", "(a", "a)", "a:b:c")))
        if self.chance.random() < 0.5:
            items = ["#PCDATA"] + [self.chance.choice(("a", "b", "p:c", "c ")) for _ in items]
            separator = "|"
        begin, end = ("", "") if items[0] == "#PCDATA" or self.chance.random() < 0.5 else self.brackets()
        return f"({begin}{separator.join(items)}{end}){'*' if self.chance.random() < 0.95 else '?'}"

    def brackets(self):
        """The beginnings and ends of brackets around a model."""
        count = self.chance.choice((1, 3, 15, 17))
        around = [self.chance.choice((("(", ")"), ("a|(", ")"), ("a,b,(", ")*,c"), ("(", ")?|d"), ("a|(", "),b"))) for _ in range(count)]
        return "".join(begin for begin, _ in around), "".join(end for _, end in reversed(around))

    def declaration(self):
        name = self.chosen()
        return self.chance.choice((
            f"<!ENTITY {name} '{self.element(2).replace(chr(39), chr(34))}'>",
            f"<!ENTITY{self.blank()}{name}{self.blank()}\"{self.value()}\"{self.blank()}>", f"<!ENTITY SYSTEM '{self.value()[:1].strip(chr(39))}'>",
            f"<!ENTITY % {name} '<!ENTITY {self.chosen()} \"v\">'> %{name};", f"<!NOTATION {name} {self.identifier()}>",
            f"<!ELEMENT {name}{self.blank()}({self.chosen()}|{self.chosen()})*>", f"<!ELEMENT {name} {self.model()}>", f"<!--{self.text('x ')}-->",
            f"<!ATTLIST {name}{self.blank()}c ({self.text('a')}|b) 'b' d NMTOKENS #IMPLIED>", f"<!ATTLIST {name} xmlns:p CDATA 'u'>",
            f'<!ATTLIST {name} xmlns:q CDATA "{self.value()}" e CDATA{self.blank()}#FIXED "{self.value()}" d NMTOKENS "{self.value()}">',
            f"<?{name} {self.text('x ')}?>", f"<!ENTITY e{name} {self.identifier()} NDATA n>"))

    def document(self):
        declared = "".join(self.blank() + self.declaration() for _ in range(self.chance.randrange(6)))
        entities = "".join(f"<!ENTITY {name} 'v'>" for name in self.names) + ENTITIES
        if self.chance.random() < 0.5:
            declared, entities = entities, declared
        return f"<!DOCTYPE {self.chosen()} [{declared}{entities}]><r xmlns:p='u' xmlns:q='v' xmlns:{self.names[1]}='w'>{self.element(0)}</r><?{self.chosen()}?>"


def build(folder, *limits):
    """Builds `xml2pyx` with these limits, for the bytes that libxml2 gets."""
    flags = {"CFLAGS": " ".join(["-O1", *(f"-D{limit}" for limit in limits)]), "ONLY": "xml2pyx"}
    subprocess.run([HERE / "build.sh", folder], capture_output=True, check=True, env={**os.environ, **flags})
    return folder / "xml2pyx"


class Variant(InFolder):
    """A build of `xml2pyx` that shortens names and values of some 10,000 bytes, and one that shortens none of them."""

    @classmethod
    def setUpClass(cls):
        cls.builds = tempfile.TemporaryDirectory()
        folder = pathlib.Path(cls.builds.name)
        cls.short = build(folder / "short", "LONGEST_HELD=20000", "MOST_GIVEN=5000")
        cls.tight = build(folder / "tight", "LONGEST_HELD=20000", "MOST_HELD=50000")
        cls.whole = build(folder / "whole", "LONGEST_NAME=9000000")

    @classmethod
    def tearDownClass(cls):
        cls.builds.cleanup()

    def converted(self, program, document):
        self.write("d.xml", document)
        out, reported, status = self.run_in(program, "--dtd", "--lines", "places", "d.xml")
        return (out, (self.folder / "places").read_text(), "", 0) if status == 0 else ("", "", reported.splitlines()[-1][:60], status)

    def assert_equal(self, document, what):
        """Checks that both give the same. Returns whether the document is well-formed."""
        found, wanted = self.converted(self.short, document), self.converted(self.whole, document)
        if "is not declared" in found[2] or "is no QName" in found[2]:  # the place may be one in the declaration, and not where it begins
            found, wanted = found[2].split(": ", 1)[1][:30], wanted[2].split(": ", 1)[1][:30]
        self.assert_same(found, wanted, what)
        return wanted[-1] == 0

    def test_it_gives_the_same(self):
        good = sum(self.assert_equal(Long(seed).document(), seed) for seed in range(DOCUMENTS))
        self.assertGreater(good, DOCUMENTS // 4)

    def test_values_by_types_and_defaults(self):
        """Blanks of values that are no text count as one each, also in a default and in what references give."""
        for text in ("a  b\n" * 9_000, "a &#32; &#10;b " * 3_000, "a&e; " * 3_000, "a" * 30_000 + "  " + "b" * 15_000, " " * 40_000 + "b"):
            for kind in ("CDATA", "NMTOKENS", "CDATA #FIXED"):
                for front, tag in ((f"a {kind} '{text}'", "<r/>"), (f"a {kind.split()[0]} #IMPLIED", f"<r a='{text}'/>")):
                    self.assertTrue(self.assert_equal(f"<!DOCTYPE r [<!ENTITY e '  x y'><!ATTLIST r {front}>]>{tag}", (kind, text[:20])))

    def test_namespaces(self):
        long = "u" * 30_000
        for one, other in ((long, long + "v"), (long + "&#118;", long + "v"), ("&e;" * 3_000, "xy" * 3_000)):
            self.assertTrue(self.assert_equal(f"<!DOCTYPE r [<!ENTITY e 'xy'>]><r xmlns:a='{one}' xmlns:b='{other}' a:c='' b:d=''><a:r/></r>", one[:9]))
        declared = f"<!DOCTYPE r [<!ATTLIST r xmlns CDATA '{long}'>]>"
        self.assertTrue(self.assert_equal(f"{declared}<r><r><b xmlns=''/></r></r>", "default"))

    def test_it_holds_little(self):
        """Markup of more than 50,000 bytes is read by a build that lets libxml2 hold no more."""
        picture, model = ("A" * 76 + "&#10;") * 760, "|".join(f"n{at}" for at in range(15_000))
        inner = "(" * 20 + f"a,({model}),(a|b)" + ")" * 20
        for subset, tag in (("", f"<r a='{picture}'/>"), (f"<!ATTLIST r a CDATA '{picture}'>", "<r/>"), (f"<!ENTITY e '{picture}'>", "<r>&e;</r>"),
                            (f"<!ELEMENT r ({model})>", "<r/>"), (f"<!ELEMENT r {inner}>", "<r/>"),
                            (f"<!ATTLIST r {' CDATA #IMPLIED '.join(model.split('|'))} CDATA #IMPLIED>", "<r/>")):
            document = f"<!DOCTYPE r [{subset}]>{tag}"
            self.assert_same(self.converted(self.tight, document), self.converted(self.whole, document), document[:40])

    def test_it_holds_few_references(self):
        """The same for references to entities alone, and for short tokens."""
        long = "n" * 4_000
        entities = f"<!ENTITY e 'ev'><!ENTITY \u00e9.-x 'y'><!ENTITY {long} 'w'>"
        for text in ("&e;" * 20_000, "&\u00e9.-x;" * 9_000, f"&{long};" * 20, "a b\n " * 11_000):
            for subset, tag in (("", f"<r a='{text}'/>"), ("<!ATTLIST r a NMTOKENS 'v'>", f"<r a='{text}' xmlns:p='u'/>"), (f"<!ATTLIST r a CDATA '{text}'>", "<r/>"),
                                (f"<!ATTLIST r a NMTOKENS '{text}'>", "<r/>"), (f"<!ENTITY z '{text}'>", "<r>&z;</r>"), ("", f"<r>{text}</r>")):
                document = f"<!DOCTYPE r [{entities}{subset}]>{tag}"
                self.assert_same(self.converted(self.tight, document), self.converted(self.whole, document), (text[:10], subset[:20], tag[:10]))

    def test_control_characters(self):
        """Those from U+007F on are there as they are, and by references."""
        for text in ("\x7f", "\u0085", "\x7fA\x7f", "\x80\x9f\x7f?", "&#127;", "&#x7F;A&#x7f;", "&#133;x&#x0080;&#x9F;"):
            text *= 58_000 // len(text.encode())
            for subset, tag in (("", f"<r a='{text}'/>"), (f"<!ATTLIST r a CDATA '{text}' xmlns:p CDATA '{text}'>", "<r/>"),
                                (f"<!ENTITY e '{text}'>", "<r>&e;</r>"), (f"<!ENTITY e '{text}'>", "<r a='&e;'/>"),
                                (f"<!ATTLIST r a NMTOKENS '{text}'>", f"<r xmlns:p='{text}'/>")):
                document = f"<!DOCTYPE r [{subset}]>{tag}"
                found, wanted = self.converted(self.tight, document), self.converted(self.whole, document)
                self.assert_same(found, wanted, document[:60])
                self.assertEqual(wanted[-1], 0)

    def test_references_to_entities_in_literals(self):
        """They stay as they are, by whatever name. One that is no name is a fault, which is found where it is."""
        for name, status in (("a-b", 0), ("_.7", 0), ("\u00e9\u3042", 0), ("a\u00b7\u0300", 0), ("\U00010000", 0), ("-a", 2), ("a$", 2), ("\u00b7a", 2),
                             ("a\u00d7", 2), ("7", 2), ("a\ufffd", 0), ("a\u037e", 2), ("a:b", 0), (":", 0)):
            text = f"&{name};" * (90_000 // len(f"&{name};".encode()))
            for before in ("", f"<!ENTITY {name if status == 0 else 'x'} 'v'>") if ":" not in name else ("",):
                document = f"<!DOCTYPE r [{before}<!ENTITY e '{text}'>]><r>{'&e;' if before else ''}</r>"
                self.assertEqual(self.assert_equal(document, name), status == 0)
                self.assertEqual(self.converted(self.tight, document)[-1], status)

    def test_system_identifiers(self):
        """libxml2 says that one has a fragment, or is no URI, if it says so of the whole one."""
        declarations = ("<!NOTATION n SYSTEM '{}'>", "<!ENTITY e SYSTEM '{}'>", "<!ENTITY % p SYSTEM '{}'>%p;<!ENTITY e 'v'>",
                        f"<!ENTITY % p PUBLIC '{'p' * 9_000}' '{{}}'><!ENTITY % p 'v'><!ENTITY e '&#37;p;'>", "<!ENTITY e SYSTEM '{}' NDATA n>")
        for text in ("#" * 30_000, "a" * 12_000 + "#b" * 9_000, "a#" + "b" * 9_000 + "##" * 9_000, "%41" * 9_000, "a%41" * 9_000,
                     "ab%41%42" * 4_000 + "#c%44" * 4_000):
            for at in range(6):
                for declaration in declarations:
                    self.assert_equal(f"<!DOCTYPE r [{declaration.format('x' * at + text)}<!ATTLIST r a CDATA 'b'>]><r/>", (text[:9], at, declaration))

    def test_models(self):
        """libxml2 gets several declarations in the place of one with a long model."""
        def document(separator, end, *items):
            return f"<!DOCTYPE r [<!ELEMENT r ({separator.join(items)}){end}>]><r a=''/>"

        many = [f"n{at}" for at in range(9_000)]
        deep = "(c|" * 20 + "|".join(many) + ")" * 20
        for separator, front, end in (("|", ["a"], "*"), (",", ["(a|b)+"], "?"), ("|", ["#PCDATA"], "*"), (",", ["((a|b),c)", "(d?)", deep, "(a|b)"], "")):
            self.assertTrue(self.assert_equal(document(separator, end, *front, *many), separator))
            for wrong in ("a,b|c", "", "#PCDATA", "a?b", "a:b:c", "a)"):
                self.assertFalse(self.assert_equal(document(separator, end, *front, *many[:7_000], wrong, *many[7_000:]), (separator, wrong)))
        self.assertFalse(self.assert_equal(document("|", "", "#PCDATA", *many), "no star"))
        self.assertFalse(self.assert_equal(document("|", "*", "#PCDATA", *many, "a?"), "a mark"))

    def test_namespaces_that_libxml2_knows(self):
        """libxml2 gets what entities give if that is short, however much they have given."""
        for text in ("", "http://www.w3.org/XML/1998/namespace", "http://www.w3.org/2000/xmlns/", "u"):
            entities = f"<!ENTITY big '{'x' * 6_000}'><!ENTITY none ''><!ENTITY e '&none;{text}&none;'>"
            for name in ("xmlns:a", "xmlns", "xmlns:xml"):
                self.assert_equal(f"<!DOCTYPE r [{entities}]><r b='&big;' {name}='&e;'/>", (name, text))

    def test_namespaces_that_have_types(self):
        for kind in ("NMTOKENS", "CDATA", "ID"):
            for text in ("  u   v  ", "http://www.w3.org/XML/1998/namespace", ""):
                entities = f"<!ENTITY big '{'x' * 6_000}'><!ENTITY e '{' ' * 100}{text}{' ' * 100}'><!ENTITY t '<r/>'>"
                for declared, tag in ((f"xmlns:a {kind} #IMPLIED", "r b='&big;' xmlns:a='&e;'"), (f"b CDATA '&big;' xmlns:a {kind} '&e;'", "r")):
                    if "u" in text or "#" in declared:
                        document = f"<!DOCTYPE r [{entities}<!ATTLIST r {declared}>]><{tag} a:c=''>&t;</r>"
                        found, wanted = self.converted(self.short, document), self.converted(self.whole, document)
                        self.assertEqual((found[0], found[3]), (wanted[0], wanted[3]), (kind, text))

    def test_an_entity_that_a_document_alone_does_not_have(self):
        self.write("e.dtd", "<!ENTITY e 'x'>")
        for text in ("&e;", "&f;"):
            document = f"<?xml version='1.0' standalone='yes'?><!DOCTYPE r SYSTEM 'e.dtd' [<!ENTITY f '&e;'>]><r a='{'x' * 30_000}{text}'/>"
            self.assertFalse(self.assert_equal(document, text))

    def test_a_reference_before_a_long_name(self):
        name = "a" * 30_000
        self.assertTrue(self.assert_equal(f"<!DOCTYPE r [<!ENTITY {name} 'v'>]><{name}>&{name};</{name}>", "end"))

    def test_the_place_of_a_fault_between_two_runs(self):
        text = "a" * 20_000
        for byte in "^&\u3042\t":
            self.assertFalse(self.assert_equal(f"<!DOCTYPE r PUBLIC '{text}{byte}{text}' 'b'><r/>", byte))


class Whole(InFolder):
    """Names of more than 10,000,000 bytes, and what is beside them."""

    def setUp(self):
        super().setUp()
        if not RNCV_XML.exists():
            self.skipTest("no rncv-xml")
        self.write("any.rnc", ANY)

    def judged(self, document, schema="any.rnc"):
        self.write("d.xml", document)
        return self.judge("--all", schema, "d.xml")

    def test_names(self):
        for letter, other in (("a", "b"), ("\u3042", "\u3044")):
            name = letter * (12_000_000 // len(letter.encode()))
            good = (f"<r><{name} {name}='1' {name}{other}='2'>x</{name}></r>", f"<r><b xmlns:{name}='u'><{name}:b {name}:{name}=''/></b></r>",
                    f"<!DOCTYPE r [<!ENTITY e '<b/>'>]><r><{name}>&e;&e;</{name}></r>",
                    f"<!DOCTYPE r [<!ENTITY {name} 'v'><!ENTITY % {name} '<!ELEMENT r ANY>'> %{name}; <?{name}?>]><r a='&{name};'>&{name};</r>",
                    f"<!DOCTYPE r [<!ENTITY e '<{name}>x</{name}>'>]><r>&e;<{name}/></r>",
                    f"<!DOCTYPE r [<!ENTITY % p '<!ENTITY {name} &#34;v&#34;>'>%p;]><r>&{name};</r>")
            bad = (f"<r><{name}>x</{name[:-1]}{other}></r>", f"<r><b {name}='1' {name}='2'/></r>", f"<r><{name}\u00d7/></r>",
                   f"<r><b xmlns:{name}='u'><{name}{other}:b/></b></r>", f"<!DOCTYPE r [<!ENTITY {name} 'v'>]><r>&{name}{other};</r>",
                   f"<!DOCTYPE r [<!ENTITY e '<{name}>x</{name}{other}>'>]><r>&e;</r>")
            for document in good:
                self.assert_same(self.judged(document), ("d.xml: valid\n", 0))
            for document in bad if letter == "a" else bad[:1]:
                line = self.judged(document)[0]
                self.assertIn("malformed", line[:60])
                self.assertLess(len(line), 1_000)

    def test_each_attribute_of_a_list(self):
        self.write("s.rnc", 'element r { attribute * { xsd:string { length = "3" } }* }')
        for length in (9_500_000, 12_000_000):
            name = "a" * length
            for before in ("", "b CDATA #IMPLIED ", "PUBLIC CDATA 'x y' c (d) #IMPLIED "):
                document = f"<!DOCTYPE r [<!ATTLIST r {before}{name} NMTOKENS #IMPLIED>]><r {name}=' a  b '/>"
                self.assert_same(self.judged(document, "s.rnc"), ("d.xml: valid\n", 0))

    def test_the_target_of_an_instruction(self):
        before = "<a>" + "<!-- x -->" * 10_000
        for length in (2_000_000, 12_000_000):
            target = "a" * length
            for end, status in (("?>", 0), (" $?>", 0), ("$?>", 2), ("$b?>", 2), ("\u00d7?>", 2), ("\u00d7 b?>", 2), ("", 2)):
                self.assertEqual(self.judged(f"{before}<?{target}{end}</a>")[1], status)

    def test_identifiers_blanks_and_zeros(self):
        long = "ab" * 6_000_000
        blanks = " \n" * 6_000_000
        zeros = "0" * 12_000_000
        for document, status in ((f"<!DOCTYPE r [<!NOTATION n PUBLIC '{long}' '{long}'>]><r/>", 0), (f"<!DOCTYPE r [<!NOTATION n PUBLIC '{long}^'>]><r/>", 2),
                                 (f"<!DOCTYPE r [<!NOTATION n SYSTEM '{'#' * 12_000_000}'><!ENTITY e SYSTEM '{'a#' * 6_000_000}'>]><r/>", 0),
                                 (f"<!DOCTYPE r [<!NOTATION n PUBLIC '' '{'#%7F' * 3_000_000}'><!ENTITY e SYSTEM '{chr(127) * 12_000_000}'>]><r/>", 0),
                                 (f"<!DOCTYPE r [<!ENTITY SYSTEM '{long}'>]><r>&SYSTEM;</r>", 0), (f"<r a='&#{zeros}65;'>&#x{zeros}41;</r>", 0),
                                 (f"<r a='&#{zeros};'/>", 2), (f"<r{blanks}a{blanks}={blanks}'1'{blanks}>{blanks}</r{blanks}>{blanks}", 0),
                                 (f"<r{blanks}a='1'b='2'/>", 2), (f"{blanks}<!DOCTYPE{blanks}r{blanks}[{blanks}<?a{blanks}b?>]>{blanks}<r/>", 0)):
            with self.subTest(document[:40]):
                self.assertEqual(self.judged(document)[1], status)

    def test_bytes_that_are_no_character_behind_them(self):
        for text in ("<r/>", "", "<r/><!-- x -->\n", "<!DOCTYPE r [", "<!DOCTYPE r SYSTEM 'a", "<r a='1'"):
            for length in (20_000, 20_001, 30_000):
                line, status = self.judged((text + " " * length).encode() + b"\xFF")
                place = f"{1 + text.count(chr(10))}:{len(text) - text.rfind(chr(10)) + length}"
                self.assertEqual((line, status), (f"d.xml:{place}: malformed XML: bytes that are no character of UTF-8\n", 2), text)

    def test_namespaces(self):
        long = "u" * 34_000_000
        for end, other, wanted in (("", "", "malformed"), ("", "v", "valid"), ("&#127;", "&#x7f;", "malformed")):
            self.assertIn(wanted, self.judged(f"<r xmlns:a='{long}{other}' xmlns:b='{long}{end}' a:c='' b:c=''><a:r/></r>")[0])

    def test_a_namespace_in_two_forms(self):
        long = "u" * 5_000
        entities = f"<!ENTITY big '{'x' * 20_100_000}'><!ENTITY e '{long}'>"
        for other, wanted in ((long, "malformed"), (long + "v", "valid")):
            document = f"<!DOCTYPE r [{entities}]><r b='&big;' xmlns:p='&e;' xmlns:q='{other}' xmlns:s='&e;'><r p:a='' q:a=''/><r s:a='' q:b=''/></r>"
            self.assertIn(wanted, self.judged(document)[0])

    def test_values(self):
        self.write("s.rnc", "element r { attribute a { xsd:string { pattern = 'u*vb' } } }")
        long = "u" * 34_000_000
        for front, tag, status in (("", f"<r a='{long}vb'/>", 0), ("", f"<r a='{long}v b'/>", 1), (f"<!ATTLIST r a CDATA '{long}&#118;b'>", "<r/>", 0),
                                   (f"<!ATTLIST r a CDATA '{long}b'>", "<r/>", 1), (f"<!ENTITY e '{long}'>", "<r a='&e;&e;vb'/>", 0)):
            self.assertEqual(self.judged(f"<!DOCTYPE r [{front}]>{tag}", "s.rnc")[1], status)

    def test_no_more_is_held_of_them_than_is_allowed(self):
        self.without_sanitizers(RNCV_XML)
        for begin, length, most in (("<r", 60_000_000, 10), ("<r a='", 160_000_000, 100)):
            self.write("d.xml", begin + "a" * length)
            self.assertIn("--max-memory", self.judge("--max-memory", f"{most}M", "any.rnc", "d.xml")[0])
            peak, _ = peak_of([RNCV_XML, "--max-memory", f"{most}M", self.folder / "any.rnc", self.folder / "d.xml"])
            self.assertLess(peak, (most + 20) * 1024, begin)

    def test_places_behind_them(self):
        self.write("s.rnc", "element r { element b { attribute c { text }? }+ }")
        for front in (f"<!DOCTYPE r [<!ENTITY {'a' * 12_000_000} 'v'>]>\n<r>", f"<r\n{' ' * 12_000_000}>", f"<?{'a' * 12_000_000}?>\n<r><b c='&#{'0' * 12_000_000}65;'/>"):
            line = front.count("\n") + 1
            column = len(front) - front.rfind("\n")
            self.assertEqual(self.judged(f"{front}<b/><c/></r>", "s.rnc")[0].split(" ")[0], f"d.xml:{line}:{column + 4}:")


class Literals(InFolder):
    """Long literals that libxml2 gets whole."""

    def test_their_time_grows_with_their_length(self):
        text = "a" * 1_200_000
        for document in (f"<r xmlns:p='{text}'/>", f"<!DOCTYPE r [<!ATTLIST r a CDATA '{text}'>]><r/>"):
            self.write("d.xml", document)
            self.assertIn("attribute of more than 65,536 bytes", self.run_in(XML2PYX, "d.xml")[1])


class Boundaries(InFolder):
    """libxml2 takes the first byte of a character for one by itself where it has no more bytes."""

    def test_names_at_each_place(self):
        for make in (lambda name: f"<{name}></{name}>", lambda name: f"<b {name}='1'/>", lambda name: f"<?{name} x?>", lambda name: f"<b>x</b><{name}:b xmlns:{name}='u'/>"):
            for character, length in (("\u3042", 110), ("\U00010000", 110), ("\u3042", 400)):
                for shift in range(2_400, 4_000, 97 if length == 110 else 301):
                    document = f"<r>{' ' * shift}{make(character * length)}{' ' * 5_000}</r>"
                    self.write("d.xml", document)
                    self.assertEqual(self.run_in(XML2PYX, "d.xml")[1:], ("", 0), shift)

    def test_what_comes_behind_long_names_and_blanks(self):
        """libxml2 looks at several bytes there, and sees only to it that it has 250 before the name."""
        for length in (62, 85, 90, 240, 250):
            name = ("\u3042" if length < 100 else "a") * length
            for declared in (f"<!ELEMENT {name}~ ANY>", f"<!ELEMENT {name}~ EMPTY>", f"<!NOTATION {name}~ SYSTEM 'a'>", f"<?{name}?>", f"<!ELEMENT b{' ' * length}ANY>",
                             f"<?b{' ' * length}?>", f"<!ENTITY {name}~ PUBLIC 'a' 'b'>", f"<!ATTLIST {name}~ b CDATA #IMPLIED>"):
                text = "".join(declared.replace("~", str(at)) + "\n" * (at % 7) for at in range(2_000))
                self.write("d.xml", f"<!DOCTYPE r [{text}]><r/>")
                self.assertEqual(self.run_in(XML2PYX, "d.xml")[1:], ("", 0), declared)


if __name__ == "__main__":
    unittest.main()
