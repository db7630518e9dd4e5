"""Tests of long entities, which libxml2 reads as if the document had their texts. A build for which all entities above some bytes are long is compared with
one for which none is."""
import os
import pathlib
import random
import tempfile
import unittest

from shortening_test import build
from testing import InFolder

DOCUMENTS = int(os.environ.get("RNCV_XML_INCLUDED", "150"))
FRAGMENTS = ("<a>", "</a>", "</r>", "<!--", "-->", "<![CDATA[", "]]>", "<?p ", "?>", "<a b='", "'/>", "<a ", ">", "&#38;", "&#38;am", "p;", "]", "<", "]>",
             "<!ENTITY x '", "%")


class Entities:
    """Documents with entities in one another, some of them malformed."""

    def __init__(self, seed):
        self.chance = random.Random(seed)
        self.names = [f"e{at}" for at in range(self.chance.randrange(1, 6))]
        self.parameters = [f"p{at}" for at in range(self.chance.randrange(4))]

    def some(self, function, most=5):
        return "".join(function() for _ in range(self.chance.randrange(most)))

    def text(self):
        pieces = ["x", "0123456789", "\u3042", "\n", "\t ", "]]", ">", "]", "\u00e9\u00e8", "%", "\U0001F600"]
        pieces += ["&#13;", "&#38;#10;", "&#10;", "&amp;", "&#38;lt;", "&#38;#13;", "&#9;", "&#x0000000000003042;", "&#38;#x0000000000003042;"]
        zeros = "0" * 70
        pieces += ["&#127;", "&#38;#127;", "\u0085", f"&#38;#{zeros}127;A", f"&#{zeros}127;", "\x7f"]
        return self.chance.choice(pieces) * self.chance.choice((1, 1, 1, 3, 100, 900))

    def reference(self, names):
        return f"&{self.chance.choice(names)};" if names and self.chance.random() < 0.98 else "&none;"

    def attribute(self, at, names):
        value = self.some(lambda: self.reference(names) if self.chance.random() < 0.3 else self.text().replace("'", ""), 4)
        return f" {self.chance.choice(('b', 'c', 'xmlns:q', 'xmlns'))}{at if self.chance.random() < 0.3 else ''}='{value}'"

    def element(self, names, depth):
        attributes = "".join(self.attribute(at, names) for at in range(self.chance.choice((0, 0, 1, 2))))
        return f"<a{attributes}/>" if depth > 3 or self.chance.random() < 0.3 else f"<a{attributes}>{self.content(names, depth + 1)}</a>"

    def content(self, names, depth=0):
        """What may be in an element."""
        kinds = (self.text, self.text, lambda: self.reference(names), lambda: self.element(names, depth), lambda: f"<!--{self.text().replace('-', '')}-->",
                 lambda: f"<?p {self.text()}?>", lambda: f"<![CDATA[{self.text()}]]>")
        return self.some(lambda: self.chance.choice(kinds)())

    def broken(self, text):
        """The text, or one that is not balanced."""
        if self.chance.random() > 0.06:
            return text
        at = self.chance.randrange(len(text) + 1)
        return self.chance.choice((text[:at], text[at:], text[:at] + self.chance.choice(FRAGMENTS) + text[at:]))

    def entity(self, at):
        names = self.names if self.chance.random() < 0.03 else self.names[:at]
        return f'<!ENTITY {self.names[at]} "{self.broken(self.content(names)).replace("%", "&#37;")}">'

    def declarations(self, at):
        """What may be in a parameter entity, whose literal has single quotes."""
        kinds = (lambda: f"<!ENTITY f{self.chance.randrange(3)} \"{self.text().replace('&', '&#38;')}\">", lambda: f"<!--{self.text().replace('&', 'and')}-->",
                 lambda: f"<?p {self.text().replace('&', 'and')}?>", lambda: "<!ELEMENT a (b|c)*>", lambda: "<!ATTLIST a d CDATA 'v' e NMTOKENS ' v  w '>",
                 lambda: f"%{self.parameters[self.chance.randrange(at)]};" if at > 0 else " ", lambda: "\n",
                 lambda: f"<!NOTATION n{self.chance.randrange(9999)} SYSTEM 's'>")
        return self.some(lambda: self.chance.choice(kinds)())

    def parameter(self, at):
        text = self.broken(self.declarations(at)).replace("%", "&#37;").replace("'", "&#39;")
        return f"<!ENTITY % {self.parameters[at]} '{text}'>"

    def document(self):
        subset = "".join(self.parameter(at) + self.chance.choice(("", "\n", f"%{self.parameters[at]};")) for at in range(len(self.parameters)))
        subset += self.some(lambda: f"%{self.chance.choice(self.parameters)};" if self.parameters else "")
        subset += "".join(self.entity(at) for at in range(len(self.names)))
        subset += self.some(lambda: f"%{self.chance.choice(self.parameters)};" if self.parameters else "")
        if self.chance.random() < 0.3:
            subset += f'<!ATTLIST a f CDATA "{self.some(lambda: self.reference(self.names), 3)}">'
        alone = " standalone='yes'" if self.chance.random() < 0.1 else ""
        names = [*self.names, "f0"] if self.parameters else self.names
        content = "".join(self.content(names) for _ in range(3))
        return f'<?xml version="1.0"{alone}?>\n<!DOCTYPE r [{subset}]>\n<r>{content}</r>\n'


class Included(InFolder):
    """The two builds."""

    @classmethod
    def setUpClass(cls):
        cls.builds = tempfile.TemporaryDirectory()
        folder = pathlib.Path(cls.builds.name)
        cls.included = build(folder / "included", "LONGEST_ENTITY=20")
        cls.tight = build(folder / "tight", "LONGEST_ENTITY=20000", "LONGEST_HELD=20000", "MOST_HELD=50000")
        cls.whole = build(folder / "whole", "LONGEST_ENTITY=2000000000")

    @classmethod
    def tearDownClass(cls):
        cls.builds.cleanup()

    def converted(self, program, document):
        self.write("d.xml", document)
        out, reported, status = self.run_in(program, "--lines", "places", "d.xml")
        return (out, (self.folder / "places").read_text(), reported, 0) if status == 0 else ("", "", "", status)

    def assert_equal(self, document, what, program=None):
        """Checks that two builds give the same. Returns whether the document is well-formed."""
        found, wanted = self.converted(program or self.included, document), self.converted(self.whole, document)
        self.assert_same(found, wanted, what)
        return wanted[-1] == 0

    def test_it_gives_the_same(self):
        good = sum(self.assert_equal(Entities(seed).document(), seed) for seed in range(DOCUMENTS))
        self.assertGreater(good, DOCUMENTS // 4)

    def test_it_holds_little(self):
        """Markup of more than 50,000 bytes in the text of an entity is read by a build that lets libxml2 hold no more."""
        long = "x\u3042" * 15_000
        for text in (long, f"<a b='{long}'/>", f"<a b='{'x&#38;#10;' * 9_000}'/>", f"<!--{long}-->", f"<?p {long}?>", f"<![CDATA[{long}]]>",
                     f"<{long}></{long}>", f"<a>{long}</a>&f;<b c='&f;'/>{long}"):
            for tag in ("<r>&e;</r>", "<r>x<a>&e;</a>&e;</r>", "<r>&g;</r>", "<r b='&e;'/>"):
                entities = f"<!ENTITY e \"{text}\"><!ENTITY f 'x{long}y'><!ENTITY g 'x&e;y'>"
                is_good = self.assert_equal(f"<!DOCTYPE r [{entities}]>{tag}", (text[:9], tag), self.tight)
                self.assertEqual(is_good, "=" not in tag or "<" not in text, (text[:9], tag))

    def test_parameter_entities(self):
        long = "x\u3042" * 15_000
        for text in (f"<!--{long}-->", f"<?p {long}?>", f"<!ENTITY e '{long}'>", f"<!ATTLIST r b CDATA '{long}'>", f"<!ELEMENT r ({'b|' * 30_000}b)*>",
                     " " * 60_000):
            for reference in ("%p;", "\n %p; %p;", "%p;<!ENTITY e 'v'>%p;", "%q;", "<!--%p;-->%q;%p;"):
                subset = f"<!ENTITY % p \"{text}\"><!ENTITY % q '<!--x-->&#37;p;<!--y-->'><!ENTITY e 'd'>"
                self.assertTrue(self.assert_equal(f"<!DOCTYPE r [{subset}{reference}]><r>&e;</r>", (text[:9], reference), self.tight), reference)

    def test_what_is_not_balanced(self):
        """An entity ends what it begins, and nothing else."""
        words = "the text of an entity is not balanced"
        for text, behind in (("<a>", "</a>"), ("</a><a>", ""), ("<!--", "-->"), ("<?p ", "?>"), ("<![CDATA[", "]]>"), ("<b c='", "'/>"), ("</a></r>", "")):
            self.write("d.xml", f'<!DOCTYPE r [<!ENTITY e "{"x" * 30}{text}">]>\n<r><a>&e;{behind}</a></r>')
            self.assertIn(f"d.xml:2:7: malformed XML: {words}", self.run_in(self.included, "d.xml")[1])
        for text, behind in (("<!--", "-->"), ("<?p ", "?>"), ("<!NOTATION n SYSTEM '", "'>"), ("<!ATTLIST r b CDATA '", "'>"), ("]><r>", "</r>")):
            self.write("d.xml", f'<!DOCTYPE r [\n<!ENTITY % p "{" " * 30}{text}">\n %p;{behind}]><r/>')
            self.assertIn(f"d.xml:3:2: malformed XML: {words}", self.run_in(self.included, "d.xml")[1])

    def test_places(self):
        """What is behind an entity has its own place."""
        self.write("d.xml", "<!DOCTYPE r [<!ENTITY e '<a>\n\n</a>long long long text\n'>]>\n<r>\u3042&e;\u3042&e; </b></r>")
        self.assertEqual(self.run_in(self.included, "d.xml")[1:], ("d.xml:5:13: malformed XML: mismatched tag: </b> where <r> is open\n", 2))

    def test_entities_in_themselves(self):
        for subset, tag in (("<!ENTITY e '012345678901234567890123456789&f;'><!ENTITY f '&e;'>", "<r>&f;</r>"),
                            ("<!ENTITY % p '<!--0123456789012345678901234567890-->&#37;q;'><!ENTITY % q '&#37;p;'>%q;", "<r/>")):
            self.write("d.xml", f"<!DOCTYPE r [{subset}]>{tag}")
            self.assertIn("malformed XML: recursive entity reference", self.run_in(self.included, "d.xml")[1])


if __name__ == "__main__":
    unittest.main()
