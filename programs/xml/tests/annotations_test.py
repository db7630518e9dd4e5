"""Tests of annotations in schemas: those that the library does not have are written over with blanks, at the places that the grammar has for them."""
import random
import shutil
import subprocess
import unittest

from testing import RNCV_XML, InFolder

# Sentences of the compact syntax, each with the root `x` alone.
GOOD = (
    "a:b [ ] start = element x { empty }",
    "start = element x { empty } a:b [ ]",
    "start = element x { empty } a:b [ ] a:c [ a:d = '1' e = \"2\" ~ '3' \"t\" f [ g [ ] ] 'u' ]",
    "b [ ] start = element x { empty }",
    "\\start [ ] start = element x { empty }",
    "a:b [] div { a:c [] start = element x { empty } a:d [] } a:e []",
    "a:b [ start [ ] element [ div = '1' ] ] start = element x { empty }",
    "[ a:b = '1' ] start = element x { empty } a:b [ ]",
    "start = grammar { a:b [ ] start = element x { empty } }",
    "element x { empty >> a:b [ ] }",
    "element x { empty >> b [ ] }",
    "element x { empty >> element [ ] }",
    "start = element x { empty } >> a:b [ ] >> a:c [ 'd' ]",
    "element x { (empty >> a:b [ ]) >> a:c [ ] }",
    "element x >> a:b [ ] { empty }",
    "element (x >> a:b [ ] | y >> a:c [ ]) >> a:d [ ] { empty }",
    "element * - y >> a:b [ ] { empty }",
    "element a:* >> a:b [ ] { empty } | element x { empty }",
    "element x { text >> a:b [ ] ? >> a:c [ ] }",
    "element x { text* >> a:b [ ], text+ >> a:c [ ] }",
    "element x { xsd:integer >> a:b [ ] | empty }",
    "element x { xsd:integer { minInclusive = '1' } >> a:b [ ] | empty }",
    "element x { (xsd:integer - '1' >> a:b [ ]) | empty }",
    "element x { 'a' ~ 'b' >> a:c [ ] | token 'c' >> a:d [ ] | empty }",
    "start = y >> a:b [ ] y = element x { empty } >> a:b [ ]",
    "start = grammar { start = parent y >> a:c [ ] } y = element x { empty }",
    "start = element x { empty >> a:b [ c = 'd' ] } y |= empty >> a:b [ ] y |= text",
    "a:b [ \"]\" ']' ] start = element x { empty >> a:b [ '>>' ] }",
    "a:b\\x{20}\\x{5B} ] start = element x { empty \\x{3E}\\x{3E} a:b [ ] }",
    "a:\u00fc [ '\u00e4' ] start = element x { empty } # >> a:b [",
    "a:b [ ] ## more\nstart = element x { empty >> a:b [ ] }",
    "start = element x { empty } # a:b [ \n a:b [ # ]\n ]",
    "start = element x { ((((empty >> a:b []) >> a:b []) >> a:b []) >> a:b []) }",
)
# No sentences, each with the column of the first token that continues none.
BAD = (
    ("element x { empty } >> a:b [ ] >> a:c [ 'd' ]", 21),
    ("(element x { empty } >> a:b [ ]) | element y { empty }", 22),
    ("a:b [ ] start = element x { empty } | >> a:b [ ] element y { empty }", 39),
    ("a:b [ ] [ ] a:c [ ] start = element x { empty }", 13),
    ("start = a:b [ ] element x { empty }", 17),
    ("element x { empty } a:b [ ]", 21),
    ("a:b [ ] element x { empty }", 9),
    ("element >> a:b [ ] x { empty }", 9),
    ("start >> a:b [ ] = element x { empty }", 7),
    ("start = >> a:b [ ] element x { empty }", 9),
    ("div { } >> a:b [ ] start = element x { empty }", 9),
    ("element x { 'a' >> a:b [ ] ~ 'b' }", 28),
    ("element x { xsd:integer >> a:b [ ] '1' }", 36),
    ("element x { xsd:integer >> a:b [ ] { minInclusive = '1' } }", 36),
    ("element x { xsd:integer >> a:b [ ] - '1' }", 36),
    ("element x { xsd:integer { minInclusive = '1' >> a:b [ ] } }", 46),
    ("element * >> a:b [ ] - x { empty }", 22),
    ("start = element x { empty } y >> a:b [ ] = empty", 31),
    ("element x { text, >> a:b [ ] text }", 19),
    ("element x { text >> a:b } [", 21),
    ("element x { text >> a:b [ }", 27),
    ("element x { text >> a:* [ ] }", 21),
    ("element x { text > > a:b [ ] }", 18),
    ("element x { text >> [ ] }", 21),
    ("a:b [ 'c' d = 'e' ] start = element x { empty }", 11),
    ("a:b [ c = ] start = element x { empty }", 11),
    ("a:b [ c ] start = element x { empty }", 7),
    ("element [ ] start = element x { empty }", 19),
    ("element x { text >> a:b [ ] text }", 29),
    ("element x { text >> a:b [ ] ?? }", 30),
    ("a:\u00fc [ '\u00e4' ] start = element x { empty ( }", 39),
    ("a:b\u00d7 [ ] start = element x { empty }", 1),
    ("a:b [ \u00b7 [ ] ] start = element x { empty }", 7),
    ("element x { empty >> a:b [ a:\u037e = '' ] }", 28),
)
# Names that an annotation may have, and names that it may not, with the column and a word of the hint (empty: the form of the annotation is wrong).
DECLARED = ('namespace a = "http://example.org/a" namespace b = "http://example.org/" ~ \'a\' namespace c = "http://example.org/c" '
            'namespace r = "http://relaxng.org/ns/structure/1.0" namespace w = "http://www.w3.org/2000/xmlns" namespace e = "" namespace i = inherit '
            'default namespace d = "" namespace start = "s" datatypes t = "http://www.w3.org/2001/XMLSchema-datatypes"\n')
GOOD_NAMES = (
    "a:x = '1' c:x = '2' xml:x = '3' start:x = '4' d [ x = '1' a:x = '2' ] d [ x = '1' ]",
    "d [ x = '1' y = '2' e [ x = '1' e:y = '' ] x [ x = '1' ] ]",
    "a:x = '' d [ a:x = '' ]",
    "d [ r:x = '' r:y [ ] ]",
    "xmlns [ \\start = '' ] w:x [ ] e:x [ ] d:x [ ] xml:x [ ] a:xmlns [ ]",
    "a:xmlns = ''",
    "d [ e:xmlns = '' ]",
    "d [ a\\x{3A}x = '' c:x = '' ]",
)
BAD_NAMES = (
    ("x:x = ''", 1, "prefix"),
    ("x:x [ ]", 1, "prefix"),
    ("t:x [ ]", 1, "prefix"),
    ("xmlns:x [ ]", 1, "prefix"),
    ("xmlns:x = ''", 1, "prefix"),
    ("d [ x:x [ ] ]", 5, "prefix"),
    ("d [ e [ ] f [ 'g' x:x [ ] ] ]", 19, "prefix"),
    ("d [ a:x = '' x:x = '' ]", 14, "prefix"),
    ("i:x [ ]", 1, "inherited"),
    ("i:x = ''", 1, "inherited"),
    ("d [ i:x [ ] ]", 5, "inherited"),
    ("d [ i:x = '' ]", 5, "inherited"),
    ("r:x [ ]", 1, "RELAX NG"),
    ("r:x = ''", 1, "RELAX NG"),
    ("d [ ] r:x [ ]", 7, "RELAX NG"),
    ("e:x = ''", 1, "has a namespace"),
    ("d:x = ''", 1, "has a namespace"),
    ("w:x = ''", 1, "declares"),
    ("d [ w:x = '' ]", 5, "declares"),
    ("d [ xmlns = '' ]", 5, "declares"),
    ("d [ \\xmlns = '' ]", 5, "declares"),
    ("a:x = '1' a:x = '2'", 11, "already"),
    ("a:x = '1' b:x = '2'", 11, "already"),
    ("a:x = '1' c:y = '' b:y = '' b:x = '2' d [ ]", 29, "already"),
    ("a:x = '1' a:y = '' a:y = '' a:x = '2'", 20, "already"),
    ("a:x = '1' a:x = '2' x:x = ''", 11, "already"),
    ("a:x = '1' a:x = '2' 'a'", 11, "already"),
    ("d [ x = '1' e:x = '2' ]", 13, "already"),
    ("d [ x = '1' x = '2' 'text' e [ ] ]", 13, "already"),
    ("d [ e [ x = '1' y = '' x = '2' ] ]", 24, "already"),
    ("d [ a\\x{3A}x = '' b:x = '' ]", 19, "already"),
    ("x = '1'", 1, ""),
    ("\\x = '1'", 1, ""),
    ("xmlns = '1'", 1, ""),
    ("'text'", 1, ""),
    ("d [ ] a:x = '1'", 7, ""),
    ("d [ ] 'text'", 7, ""),
    ("a:x", 1, ""),
    ("a:x = ", 8, ""),
    ("a:* [ ]", 1, ""),
    ("[ ]", 1, ""),
    ("= |", 1, ""),
    ("d [ 'text' x = '1' ]", 12, ""),
)
# Where an annotation is in a schema: `[ .. ]`, and elements that are not in one.
LEADS = ("[ % ] element x { empty }", "start = element x { empty } [ % ] div { }", "element x { [ % ] empty }", "element ([ % ] x | y) { empty }",
         "element * - [ % ] y { empty }", "element x { xsd:token { [ % ] maxLength = '1' } }", "start = element x { empty } b:b [ ] [ % ] y = text >> c:c [ ]")
OTHERS = ("start = element x { empty } %", "% start = element x { empty }", "div { % } start = element x { empty }", "element x { text >> % }",
          "element x >> % { empty }")
PREFIX = 'namespace a = "http://example.org/a"\n'
TOKENS = "a:b [ ] >> 'c' = { } ( ) x start | , & ? * - + element empty div grammar xsd:integer ~ include inherit".split()


class Annotations(InFolder):
    """Schemas with annotations, each judged with `<x/>`."""

    def judged(self, schema):
        self.write("a.rnc", PREFIX + schema)
        self.write("x.xml", "<x/>")
        run = subprocess.run([RNCV_XML, "a.rnc", "x.xml"], cwd=self.folder, capture_output=True, check=False)
        return run.returncode, (run.stdout + run.stderr).decode()

    def test_sentences(self):
        for schema in GOOD:
            with self.subTest(schema):
                self.assertEqual(self.judged(schema), (0, ""))

    def test_what_is_no_sentence(self):
        for schema, column in BAD:
            with self.subTest(schema):
                status, out = self.judged(schema)
                self.assertEqual((status, out[:out.find(" ")]), (3, f"a.rnc:2:{column}:"))

    def named(self, place, names):
        """What `rncv-xml` says to names in an annotation there; and the column where they begin, less one."""
        self.write("a.rnc", DECLARED + place.replace("%", names))
        self.write("x.xml", "<x/>")
        run = subprocess.run([RNCV_XML, "a.rnc", "x.xml"], cwd=self.folder, capture_output=True, check=False)
        return run.returncode, run.stdout.decode(), place.index("%")

    def test_names_in_annotations(self):
        for names in GOOD_NAMES:
            for place in (*LEADS, *(OTHERS if "= " not in names.split("[")[0] and names.count(" [ ") == 1 else ())):
                with self.subTest(names=names, place=place):
                    self.assertEqual(self.named(place, names)[:2], (0, ""))

    def test_names_that_annotations_may_not_have(self):
        for names, column, hint in BAD_NAMES:
            is_element = names.endswith("]") and names.split()[1] == "[" and hint and not names.startswith("d [ ] ")
            for place in (*LEADS, *(OTHERS if is_element else ())):
                with self.subTest(names=names, place=place):
                    status, out, before = self.named(place, names)
                    self.assertEqual((status, out[:out.find(" ")]), (3, f"a.rnc:2:{before + column}:"))
                    self.assertIn("hint" if hint else "S6", out)
                    self.assertEqual("hint" in out, bool(hint))
                    self.assertIn(hint, out)

    def test_names_in_files_that_are_mentioned(self):
        self.write("b.rnc", "# \u00fc\n[ a:x = '\u00fc' a:y [ ] ] empty")
        self.write("a.rnc", PREFIX + "element x { external 'b.rnc' }")
        run = subprocess.run([RNCV_XML, "a.rnc", "-"], cwd=self.folder, input=b"<x/>", capture_output=True, check=False)
        self.assertEqual((run.returncode, run.stdout[:14]), (3, b"b.rnc:2:3: S6 "))
        self.assertIn(b": hint: the prefix of this name in an annotation is not declared", run.stdout)
        self.write("a.rnc", PREFIX + "element x { external 'b.rnc' ) }")
        run = subprocess.run([RNCV_XML, "a.rnc", "-"], cwd=self.folder, input=b"<x/>", capture_output=True, check=False)
        self.assertEqual((run.returncode, run.stdout[:15], b"hint" in run.stdout), (3, b"a.rnc:2:30: S6 ", False))

    def test_many_names(self):
        """Neither many prefixes nor many attributes take long."""
        prefixes = "".join(f"namespace p{at} = 'u{at}'\n" for at in range(20_000))
        names = " ".join(f"p{at % 20_000}:x{at // 20_000} = ''" for at in range(30_000))
        for more, status in (("", 0), (" p7:x0 = ''", 3)):
            self.write("a.rnc", prefixes + "[ " + names + more + " ] element x { empty }")
            run = subprocess.run([RNCV_XML, "a.rnc", "-"], cwd=self.folder, input=b"<x/>", capture_output=True, check=False, timeout=20)
            self.assertEqual((run.returncode, b"already" in run.stdout), (status, status > 0), run.stdout[:200])

    def test_lines_and_columns_stay(self):
        status, out = self.judged("a:b [ '\u00fc\u00fc\u00fc'\n\u00fc [ ] ]\r\na:c [ '\u20ac' ] start = element x { empty } }")
        self.assertEqual((status, out[:out.find(" ")]), (3, "a.rnc:4:41:"))

    def test_columns_of_hints_stay(self):
        status, out = self.judged("c [ '\u00fc' ] start = element x { attribute y { text } >> b [ '\u20ac' ], attribute y { text } }")
        self.assertEqual((status, out[:out.find(" ")]), (3, "a.rnc:2:66:"))
        self.assertIn("attribute y is there twice in element x (the other is at 2:31)", out)
        status, out = self.judged("start = element (x >> b [ '\u20ac' ] | y) >> b [ ] { attribute y { text }, attribute y { text } }")
        self.assertEqual((status, out[:out.find(" ")]), (3, "a.rnc:2:71:"))
        self.assertNotIn("[", out)

    def test_characters(self):
        """What S3 and S4 refuse is refused in annotations too."""
        for text, clause in ((b"\xff", 3), (b"\xed\xa0\x80", 3), (b"\x01", 4), (b"\0", 4), ("\uffff".encode(), 4), (b"\\x{1}", 4), (b"\\x{D800}", 4),
                             (b"\\x{110000}", 4), (b"\\x{}", 4), (b"\\xx{41", 4)):
            self.write("a.rnc", b"b [ '\xc3\xbc" + text + b"' ] start = element x { empty }")
            self.write("x.xml", "<x/>")
            run = subprocess.run([RNCV_XML, "a.rnc", "x.xml"], cwd=self.folder, capture_output=True, check=False)
            self.assertEqual((run.returncode, run.stdout[:13]), (3, b"a.rnc:1:7: S%d" % clause), text)

    def test_escaped_brackets(self):
        self.assertEqual(self.judged("a:b \\x{5B} ] start = element x { empty }"), (0, ""))

    def test_brackets_that_are_deep(self):
        deep = "start = element x { empty } a:b [ " + "c [ " * 20_000 + "]" * 20_001
        self.assertEqual(self.judged(deep), (0, ""))
        for opening in ("(" * 100_000, "a:b - " * 50_000, "[ " * 100_000, "grammar { start = " * 30_000, "empty >> a:b [ " * 50_000):
            status, out = self.judged("a:b [ ] start = " + opening)
            self.assertEqual((status, out[:6]), (3, "a.rnc:"))

    def test_as_jing_takes_them(self):
        if shutil.which("jing") is None:
            self.skipTest("jing is not installed")
        for schema in (*GOOD, *(bad for bad, _ in BAD)):
            with self.subTest(schema):
                status, _ = self.judged(schema)
                run = subprocess.run(["jing", "-c", "a.rnc", "x.xml"], cwd=self.folder, capture_output=True, check=False)
                self.assertEqual(run.returncode == 0, status == 0, run.stdout)

    def test_names_as_jing_takes_them(self):
        if shutil.which("jing") is None:
            self.skipTest("jing is not installed")
        for names in (*GOOD_NAMES, *(bad for bad, _, _ in BAD_NAMES)):
            with self.subTest(names):
                status, _, _ = self.named(LEADS[0], names)
                self.write("a.rnc", DECLARED.replace('default namespace d = ""', 'namespace d = ""') + LEADS[0].replace("%", names))
                run = subprocess.run(["jing", "-c", "a.rnc", "x.xml"], cwd=self.folder, capture_output=True, check=False)
                self.assertEqual(run.returncode == 0, status == 0, run.stdout)

    def test_mutants_end_with_a_status(self):
        choose = random.Random(7)
        for _ in range(200):
            words = choose.choice(GOOD).split()
            for _ in range(choose.randint(1, 3)):
                at = choose.randrange(len(words))
                words[at:at + choose.randint(0, 1)] = choose.choices(TOKENS, k=choose.randint(0, 2))
                words = words or ["x"]
            schema = " ".join(words)
            with self.subTest(schema):
                self.assertIn(self.judged(schema)[0], (0, 1, 3, 4))


if __name__ == "__main__":
    unittest.main()
