"""Tests of entities in one another, of which libxml2 reads some 500: below as many others an entity gives what it gives by itself."""
import os
import random
import subprocess
import time
import unittest

from testing import HERE, RNCV_XML, XML2PYX, InFolder

SYSTEMS = int(os.environ.get("RNCV_XML_SYSTEMS", "60"))
MANY = 520
LOOP = "malformed XML: recursive entity reference"

TEXTS = ("x", " ", "\n", "\t", "]", "]]", ">", "]]&gt;", "\u00e9", "&#38;#60;", "&#38;#38;", "&#38;#9;", "&#38;#10;", "&#38;#13;", "&#13;", "&#9;", "&lt;",
         "&#38;lt;", "&#34;", "<b/>", "<b></b>", "<!-- &e0; -->", "<?p &e0; ?>", "<![CDATA[&e0;]]>")
FAULTS = ("&#38;", "&#60;", "<b>", "</b>", "&#60;!--", "-->", "&#38;x", "<", "&nope;", "]]>")


def chain(name, count, inner):
    """Entities in one another: the outermost, with this name, gives what the innermost text does."""
    names = [name, *(f"{name}.{number}" for number in range(count))]
    return "".join(f"<!ENTITY {outer} '&{below};'>" for outer, below in zip(names, names[1:])) + f'<!ENTITY {names[-1]} "{inner}">'


class System:
    """Entities that refer to those before them, and sometimes to others, at random."""

    def __init__(self, seed):
        self.chance = random.Random(seed)
        self.names = [f"e{number}" for number in range(self.chance.randrange(2, 7))]
        self.entities = [(name, self.text(self.names[:number] if self.chance.random() < 0.97 else self.names)) for number, name in enumerate(self.names)]

    def value(self, names):
        return "".join(self.chance.choice(("x", " ", "&#9;", "&#38;#10;", "&lt;", *(f"&{name};" for name in names))) for _ in range(self.chance.randrange(4)))

    def piece(self, names):
        kind = self.chance.random()
        if kind < 0.35 and names:
            return f"&{self.chance.choice(names)};"
        if kind < 0.45:
            return f"<b>{self.text(names)}</b>"
        if kind < 0.55:
            return f"<c q='{self.value(names)}'/>"
        return self.chance.choice(FAULTS if kind > 0.98 else TEXTS)

    def text(self, names):
        return "".join(self.piece(names) for _ in range(self.chance.randrange(4)))

    def document(self, count):
        """A document that refers to entities, each below so many others."""
        declared = "".join(f'<!ENTITY {name} "{text}">' + (chain(f"deep.{name}", count, f"&{name};") if count else "") for name, text in self.entities)
        used = self.chance.sample(self.names, 2)
        deep = "deep." if count else ""
        return f"<!DOCTYPE a [{declared}]><a q='&{deep}{used[0]};'>]&{deep}{used[1]};&gt;&{deep}{used[0]};</a>"


class Nested(InFolder):
    """A document `d.xml` in a fresh folder."""

    def converted(self, data):
        """Its PYX, and whether it is malformed."""
        self.write("d.xml", data)
        out, _, status = self.run_in(XML2PYX, "d.xml")
        return out if status == 0 else "", status

    def fault(self, data):
        self.write("d.xml", data)
        _, reported, status = self.run_in(XML2PYX, "d.xml")
        self.assertEqual(status, 2)
        return reported.split(":", 3)[3].strip()

    def test_each_text_in_content(self):
        for text in (*TEXTS, *FAULTS, "]]&f;", "&f;>", "<c q='&f;&#38;#9;' r=\"&#38;f;\"/>", "a&f;<b>&f;</b>", "&f;&nope;", "<!---->"):
            text = text.replace('"', "&#34;")
            document = "<!DOCTYPE a [<!ENTITY f ']>'><!ENTITY e0 ''>{}]><a>{}]&{};&gt;</a>"
            with self.subTest(text=text):
                for f in ("]>", "v"):
                    plain = document.replace("f ']>'", f"f '{f}'").format(f'<!ENTITY e "{text}">', "", "e")
                    deep = document.replace("f ']>'", f"f '{f}'").format(chain("e", MANY, text), "", "e")
                    self.assertEqual(self.converted(deep), self.converted(plain))

    def test_no_reference_is_made_of_two_texts(self):
        for text, inner in (("&#38;&f;", "lt;"), ("&#38;a&f;", "mp;"), ("&#38;#&f;", "65;"), ("&#38;#x&f;", "41;"), ("&#38;&f;", "f;")):
            document = f'<!DOCTYPE a [<!ENTITY f "{inner}">{{}}<!ENTITY g "{text}&e;">]><a>&g;</a>'
            with self.subTest(text=text):
                self.assertEqual(self.converted(document.format('<!ENTITY e "v">')), ("", 2))
                self.assertEqual(self.converted(document.format(chain("e", MANY, "v"))), ("", 2))

    def test_each_text_in_a_value(self):
        for text in (*TEXTS, *FAULTS, "&f;", "&#38;quot;&#39;", "&f;&#38;f;&#38;#10;"):
            document = "<!DOCTYPE a [<!ENTITY f 'v'><!ENTITY e0 ''>{}]><a q='1 &e;'/>"
            with self.subTest(text=text):
                self.assertEqual(self.converted(document.format(chain("e", MANY, text))), self.converted(document.format(f'<!ENTITY e "{text}">')))

    def test_random_systems(self):
        well_formed = 0
        for seed in range(SYSTEMS):
            plain = self.converted(System(seed).document(0))
            self.assertEqual(self.converted(System(seed).document(MANY)), plain, seed)
            well_formed += plain[1] == 0
        self.assertGreater(well_formed, SYSTEMS // 4)

    def test_values_by_default_and_tags_in_entities(self):
        deep = chain("e", MANY, "v")
        self.assertEqual(self.converted(f"<!DOCTYPE a [{deep}<!ATTLIST a x CDATA '1&e;'>]><a/>"), ("(a\nAx 1v\n)a\n", 0))
        self.assertEqual(self.converted(f"<!DOCTYPE a [{deep}<!ENTITY t '<b x=\"&e;\"/>'>]><a>&t;</a>"), ("(a\n(b\nAx v\n)b\n)a\n", 0))

    def test_entities_that_are_declared_last(self):
        chained = "".join(f"<!ENTITY e{number + 1} 'x&e{number};'>" for number in reversed(range(MANY)))
        self.assertEqual(self.converted(f"<!DOCTYPE a [{chained}<!ENTITY e0 ''>]><a>&e{MANY};</a>"), (f"(a\n-{'x' * MANY}\n)a\n", 0))

    def test_entities_that_are_declared_behind_a_default(self):
        first, last = chain("e", 450, "&f;"), chain("f", 450, "v")
        others = "".join(f"<!ENTITY g{number} '&lt;'>" for number in range(100))
        declared = f"<!ENTITY % p ''>%p;{others}{first}<!ATTLIST a x CDATA '&e;'>{last}"
        self.assertEqual(self.converted(f"<!DOCTYPE a [{declared}]><a>&e;</a>"), ("(a\nAx \n-v\n)a\n", 0))

    def test_loops(self):
        for count in (1, 499, MANY, 9_000):
            loop = "".join(f"<!ENTITY e{number} '&e{(number + 1) % count};'>" for number in range(count))
            parameters = "".join(f"<!ENTITY % e{number} '&#37;e{(number + 1) % count};'>" for number in range(count))
            for document in (f"<!DOCTYPE a [{loop}]><a>&e0;</a>", f"<!DOCTYPE a [{loop}]><a q='&e0;'/>", f"<!DOCTYPE a [{parameters}%e0;]><a/>"):
                with self.subTest(count=count):
                    self.assertEqual(self.fault(document), LOOP)

    def test_a_reference_in_a_comment_is_none(self):
        deep = chain("e", MANY, "<!-- &e; --><?p &e;?><![CDATA[&e;]]>")
        self.assertEqual(self.converted(f"<!DOCTYPE a [{deep}]><a>&e;</a>"), ("(a\n?p &e;\n-&e;\n)a\n", 0))

    def test_parameter_entities(self):
        body = "<!ENTITY % p{0} '<!ENTITY f{0} &#34;{0}&#34;>&#37;p{1};<!ENTITY g{0} &#34;>&#34;><!-- &#34; -->&#37;p{1};'>"
        chained = "<!ENTITY % p0 '<!ATTLIST a x CDATA &#34;1&#34;>'>" + body.format(1, 0)
        chained += "".join(f"<!ENTITY % p{number} ' <!ENTITY f{number} &#34;{number}&#34;>&#37;p{number - 1};<!ENTITY g{number} &#34;>&#34;>'>"
                           for number in range(2, 3_000))
        self.assertEqual(self.converted(f"<!DOCTYPE a [{chained}%p2999;]><a>&f1;&f2999;&f1500;&g7;&g1;</a>"), ("(a\nAx 1\n-129991500>>\n)a\n", 0))

    def test_parameter_entities_that_are_not_whole(self):
        for text in ('<!ENTITY g "', "<!ENTITY g", "<!--", "<!-- -", "<?p", "<", "]", '"', "<!ATTLIST a x CDATA '", ">", "]>"):
            declared = f"<!ENTITY % p '{text.replace(chr(39), '&#39;')}'>"
            names = ["p", *(f"q{number}" for number in range(MANY))]
            deep = declared + "".join(f"<!ENTITY % {outer} '&#37;{inner};<!ENTITY h &#34;>&#34;> -->?>'>" for inner, outer in zip(names, names[1:]))
            with self.subTest(text=text):
                self.assertEqual(self.converted(f"<!DOCTYPE a [{declared}%p;<!ENTITY h '>'>]><a/>")[1], 2)
                self.assertEqual(self.converted(f"<!DOCTYPE a [{deep}%q{MANY - 1};]><a/>")[1], 2)

    def test_names_beside_a_parameter_entity_stay_apart(self):
        declared = '<!ENTITY % n "x"><!ENTITY % p "<!ATTLIST a &#37;n;y CDATA \'w\'>">'
        chained = "".join(f"<!ENTITY % q{number} '&#37;{f'q{number - 1}' if number else 'p'};'>" for number in range(MANY))
        for used in ("%p;", chained + f"%q{MANY - 1};"):
            self.write("d.dtd", declared + used)
            self.write("d.xml", '<!DOCTYPE a SYSTEM "d.dtd"><a/>')
            self.assertEqual(self.run_in(XML2PYX, "--dtd", "d.xml")[2], 2)

    def test_an_external_entity_between_many(self):
        self.write("d.ent", "&f;")
        self.write("d.xml", f"<!DOCTYPE a [{chain('e', 400, '&x;')}<!ENTITY x SYSTEM 'd.ent'>{chain('f', 400, 'v')}]><a>&e;</a>")
        reported = self.run_in(XML2PYX, "--dtd", "d.xml")[1]
        self.assertIn("over a limit of this program", reported)
        self.assertNotIn("malformed", reported)

    def test_faults_of_a_comment_take_no_time(self):
        text = "<!-- " + "-- x" * 200_000 + "-->"
        for document in (f"<!DOCTYPE a [<!ENTITY e '{text}'>]><a>&e;</a>", f"<!DOCTYPE a [<!ENTITY % p '{text}'>%p;]><a/>",
                         f"<!DOCTYPE a [{chain('e', MANY, text)}]><a>&e;</a>"):
            began = time.monotonic()
            self.assertRegex(self.fault(document), "Double hyphen within comment")
            self.assertLess(time.monotonic() - began, 20)


class Limits(InFolder):
    """What `--max-depth` and `--max-memory` allow."""

    def judged(self, document, *options):
        self.write("d.xml", document)
        self.write("any.rnc", "any = element * { (attribute * { text } | text | any)* } start = any")
        out, _, status = self.run_in(RNCV_XML, "--all", *options, "any.rnc", "d.xml")
        return out.split(":", 3)[-1].strip(), status

    def setUp(self):
        super().setUp()
        if not RNCV_XML.exists():
            self.skipTest("no rncv-xml")

    @staticmethod
    def documents(count):
        """Documents with so many entities in one another: in content, in a value, in the DTD."""
        chained = chain("e", count, "v")
        parameters = "<!ENTITY % e0 ''>" + "".join(f"<!ENTITY % e{number + 1} '&#37;e{number};'>" for number in range(count))
        return f"<!DOCTYPE a [{chained}]><a>&e;</a>", f"<!DOCTYPE a [{chained}]><a q='&e;'/>", f"<!DOCTYPE a [{parameters}%e{count};]><a/>"

    def test_depth(self):
        limit = "over a limit of this program: more than 10,000 entities are in one another (--max-depth)"
        for count, wanted in ((9_990, ("valid", 0)), (10_010, (limit, 2))):
            for document in self.documents(count):
                self.assertEqual(self.judged(document), wanted)
                self.assertEqual(self.judged(document, "--max-depth", "20000"), ("valid", 0))

    def test_a_depth_that_is_less_than_libxml2_reads(self):
        limit = "over a limit of this program: more than 500 entities are in one another (--max-depth)"
        for count, wanted in ((490, ("valid", 0)), (510, (limit, 2))):
            for document in self.documents(count):
                self.assertEqual(self.judged(document, "--max-depth", "100"), wanted)

    def test_growth(self):
        laughs = '<!ENTITY e0 "ha">' + "".join(f'<!ENTITY e{number + 1} "{f"&e{number};" * 10}">' for number in range(5))
        document = f"<!DOCTYPE a [{laughs}]><a>&e5;</a>"
        limit = "over a limit of this program: entities give more than 100 times the document's length, and more than 1,310,720 bytes (--max-memory)"
        self.assertEqual(self.judged(document, "--max-memory", "10M"), (limit, 2))
        self.assertEqual(self.judged(document), ("valid", 0))

    def test_room_for_parameter_entities(self):
        texts = ("&#37;q;" + " " * 100_000, "&#37;p0;", "&#37;p1;", "&#37;p2;" * 60, *(f"&#37;p{number};" for number in range(3, 501)))
        declared = "<!ENTITY % q '<!ENTITY g &#34;&#34;>'>" + "".join(f"<!ENTITY % p{number} '{text}'>" for number, text in enumerate(texts))
        limit = "over a limit of this program: entities in entities have more than 2,621,440 bytes (--max-memory)"
        document = f"<!DOCTYPE a [<!-- {'x' * 1_000_000} -->{declared}%p{len(texts) - 1};]><a/>"
        self.assertEqual(self.judged(document, "--max-memory", "20M"), (limit, 2))
        self.assertEqual(self.judged(document), ("valid", 0))


class Balance(InFolder):
    """Which texts may be put into others, where libxml2 calls itself for elements in one another, by the test program in C."""

    OLD = "#include <libxml/xmlversion.h>\n#undef LIBXML_VERSION\n#define LIBXML_VERSION 20910\n"
    BUILD = """
    cc=${CC:-cc}
    . "$0/parser.sh"
    for part in entity_balance entity_text xml_names bytes parser_words; do sources="$sources $0/src/*/$part.c"; done
    exec $cc -std=c17 -Wall -Wextra -Wconversion -Werror -pedantic -D_XOPEN_SOURCE=700 -include "$2" -I"$0/src/reading" -I"$0/src/program" $parser_flags -o "$1" \\
        "$0/tests/balance_test.c" $sources $parser_libs
    """

    def test_an_old_libxml2(self):
        program = self.folder / "program"
        build = subprocess.run(["sh", "-c", self.BUILD, HERE, program, self.write("old.h", self.OLD)], capture_output=True, text=True, check=False)
        self.assertEqual((build.returncode, build.stderr), (0, ""))
        self.assertEqual(self.run_in(program), ("balance_test: ok\n", "", 0))


if __name__ == "__main__":
    unittest.main()
