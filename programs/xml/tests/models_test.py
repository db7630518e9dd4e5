"""Tests of `rncv-xml` and `xml2pyx` on content models with many brackets in one another, of which libxml2 gets a shallow one.

    python3 -B models_test.py --count 10000     compares so many random models with the same ones inside 1,100 brackets
"""
import argparse
import json
import random
import re
import sys
import unittest

from testing import RNCV_XML, XML2PYX, InFolder, peak_of, processor_seconds

USUAL = 1500  # random models in an ordinary run
FEW, MANY = 8, 1100  # brackets around a model: libxml2 reads few of them itself
OVER = "over a limit of this program: a declaration has more than {} brackets in one another (--max-depth)"
CUT = 4000  # bytes that libxml2 gets at once
ANY = "start = any any = element * { (attribute * { text } | text | any)* }"


def inside(count, model="b", sign=""):
    return "(" * count + model + f"){sign}" * count


def declared(model, name="a"):
    return f"<!DOCTYPE a [<!ELEMENT {name} {model}>]><a/>"


# What is inside of a bracket.
GOOD = ("b", "b?", "(b)", "(b)*", "b,c", "b|c", "b , (c|d)+,e?", "(b|(c,d)*|e)?", " ( b\n|\tc ) ", "((b))", "(b,c)|(d,e)", "(b)|c|(d)", "b:c",
        "\u00e9|\U00010000", "((b|c),(d|e))", "(b?,c*)+", "_-.1", "(( b)?)?")
WRONG = ("", " ", "()", "b c", "b,", "b|", ",b", "|b", "b,,c", "b||c", "b,c|d", "b|c,d", "(b|c,d)", "(b,c|d),e", "b|(c),d", "b ?", "b??", "?b", "?", "(b) ?",
         "(b)??", "(b)?*", "(b)c", "(b)(c)", "b(c)", "(b),", "(b)?c", "(b) c", "(,b)", "(b,)", "( )", "()?", "#PCDATA", "b|#PCDATA", "(#PCDATA)",
         "(#PCDATA|b)*", "%b;", "b%c;", "b&c;", "&b;", "b;c", "'b'", "b\"c\"", "1", "-b", ".", "b/c", "\u00d7", "b\u00d7", "b:c:d", ":", ":b", "b:", "b:1",
         "(b:c:d)", "b,c:d:e", "<b", "b<", "b>", ">", "b-->", "<!-- c -->", "b<!-- c -->", "EMPTY b", "(b", "b)", "((b)", "(b))", "(", ")", "b|(c", "(b,c",
         "b,c)")


def random_model(chance, depth=0):
    """A good model, as the productions 47 to 50 have it."""
    blank = lambda: chance.choice(("", "", "", " ", "\n", " \t"))
    if depth > 4 or chance.random() < 0.4:
        return chance.choice(("b", "c", "d:e", "\u00e9", "long-name")) + chance.choice(("", "", "?", "*", "+"))
    separator = chance.choice("|,")
    parts = [random_model(chance, depth + 1) for _ in range(chance.choice((1, 1, 2, 3)))]
    return "(" + blank() + (blank() + separator + blank()).join(parts) + blank() + ")" + chance.choice(("", "", "?", "*", "+"))


def mutant(chance, model):
    """The model with some characters changed, most often two."""
    for _ in range(chance.choice((0, 1, 1, 2, 3))):
        at = chance.randrange(len(model) + 1)
        part = chance.choice(("", "", *"()()|,|,?*+ b:#%;<>&'1\n"))
        model = model[:at] + part + model[at + chance.choice((0, 1)):]
    return model


class Models(InFolder):
    def setUp(self):
        super().setUp()
        self.write("any.rnc", ANY)

    def answer(self, document, *words):
        """What is said of a document, and the status."""
        self.write("d.xml", document)
        out, status = self.judge(*words, "any.rnc", "d.xml")
        return out.removeprefix("d.xml:").removesuffix("\n"), status

    def answers(self, documents):
        """The verdict, the place and the words for each."""
        names = [self.write(f"d{number}.xml", document).name for number, document in enumerate(documents)]
        self.write("names", "".join(name + "\n" for name in names))
        out, _ = self.judge("--format", "json", "--files-from", "names", "any.rnc")
        found = [json.loads(line) for line in out.splitlines()]
        self.assertEqual(len(found), len(names))
        return [(line["verdict"], line.get("line", 0), line.get("column", 0), line.get("message", "")) for line in found]

    def events(self, document, *words):
        self.write("d.xml", document)
        return self.run_in(XML2PYX, *words, "d.xml")


class Limits(Models):
    def test_depths(self):
        for count in (1, 15, 16, 17, 18, 2000, 2048, 2049, 3000, 9999, 10_000):
            self.assertEqual(self.answer(declared(inside(count))), ("", 0), count)
            wanted = ("", 0) if count < 10_000 else (f"1:10026: {OVER.format('10,000')}", 2)
            self.assertEqual(self.answer(declared(inside(count, "(b?|c)*", "+"))), wanted, count)
        self.assertEqual(self.answer(declared(inside(10_001))), (f"1:10026: {OVER.format('10,000')}", 2))

    def test_other_limits(self):
        for most in (500, 501, 512):
            self.assertEqual(self.answer(declared(inside(most)), "--max-depth", most), ("", 0), most)
            for model in (inside(most + 1), "(b," * most + "(b)" + ")" * most, inside(most, "()"), inside(most, "(c,d|e)")):
                self.assertEqual(self.answer(declared(model), "--max-depth", most),
                                 (f"1:{26 + model.rindex('(')}: {OVER.format(most)}", 2), model[-9:])
        self.assertEqual(self.answer(declared(inside(501)), "--max-depth", "1"), (f"1:526: {OVER.format(500)}", 2))
        # the first fault counts
        self.assertEqual(self.answer(f"<!DOCTYPE a [<!ELEMENT a ()>\n<!ELEMENT a {inside(501)}>]><a/>", "--max-depth", "1")[0],
                         "1:27: malformed XML: ContentDecl : Name or '(' expected")
        self.assertEqual(self.answer(declared(inside(500, "b(c)")), "--max-depth", "500")[0],
                         "1:527: malformed XML: ContentDecl : ',' '|' or ')' expected")

    def test_a_million(self):
        """Time and memory grow with the depth, and a little."""
        self.write("d.xml", declared(inside(1_000_000)))
        before = processor_seconds()
        self.assertEqual(self.judge("--max-depth", "2000000", "any.rnc", "d.xml"), ("", 0))
        self.assertLess(processor_seconds() - before, 10)
        self.without_sanitizers(RNCV_XML)
        peak, status = peak_of((RNCV_XML, "--max-depth", "2000000", self.folder / "any.rnc", self.folder / "d.xml"))
        self.write("d.xml", declared(inside(10)))
        small, _ = peak_of((RNCV_XML, self.folder / "any.rnc", self.folder / "d.xml"))
        self.assertEqual(status, 0)
        self.assertLess(peak - small, 24_000)

    def test_separators_and_signs(self):
        count = 250_000
        model = "(b|(c?,\n" * count + "d" + ")?,e)*" * count
        self.assertEqual(self.answer(declared(model), "--max-depth", "500000"),
                         (f"{count + 1}:4: malformed XML: ',' and '|' in one bracket of a declaration", 2))
        self.assertEqual(self.answer(declared(model.replace(")?,e)", ",e)?)")), "--max-depth", "500000"), ("", 0))


class Faults(Models):
    def same(self, models):
        """Few and many brackets around a model give one verdict, with the same words and the same place in the model."""
        pairs = [(model, declared(inside(FEW, model)), declared(inside(MANY, model))) for model in models]
        few, many = (self.answers([pair[side] for pair in pairs]) for side in (1, 2))
        for (model, _, _), one, other in zip(pairs, few, many):
            self.assertEqual((one[0], one[1], one[3]), (other[0], other[1], other[3]), repr(model))
            self.assertIn(other[2] - one[2], (0, MANY - FEW, 2 * (MANY - FEW)), (model, one, other))
        return few

    def test_good_models(self):
        self.assertEqual({answer[0] for answer in self.same(GOOD)}, {"valid"})

    def test_wrong_models(self):
        self.assertEqual({answer[0] for answer in self.same(WRONG)}, {"malformed"})

    def test_random_models(self):
        chance = random.Random(1100)
        models = [random_model(chance) for _ in range(USUAL // 3)]
        found = self.same(models + [mutant(chance, chance.choice(models)) for _ in range(USUAL - len(models))])
        self.assertEqual({answer[0] for answer in found[:len(models)]}, {"valid"})
        self.assertIn("malformed", {answer[0] for answer in found})

    def test_places(self):
        """A fault is told at its line and column."""
        for model, place, words in (("b\n|c\n,d", "3:1", "',' and '|' in one bracket of a declaration"),
                                    ("b\n(c)", "2:1", "ContentDecl : ',' '|' or ')' expected"),
                                    ("b,\n ()", "2:3", "ContentDecl : Name or '(' expected"),
                                    ("(b)\n c", "2:2", "ContentDecl : ',' '|' or ')' expected"),
                                    ("\u00e9\n,x:y:z", "1:14", "the name 'x:y:z' is no QName of Namespaces in XML")):
            self.assertEqual(self.answer(declared(inside(3000, model))), (f"{place}: malformed XML: {words}", 2), model)

    def test_a_text_that_ends(self):
        for count in (10, 30, 3000):
            for end in ("", "b", "b|", "(b)", ")", "b)", "b" + ")" * count):
                self.assertEqual(self.answer("<!DOCTYPE a [<!ELEMENT a " + "(" * count + end)[1], 2, (count, end))


class Texts(Models):
    """What is no model stays as it is."""

    def test_contents(self):
        brackets = inside(40, "b|c")
        model = f"<!ELEMENT a {brackets}>"
        default = f"<!DOCTYPE a [<!ATTLIST a b CDATA '{brackets}'>]><a/>"
        for document, texts in ((f"<a><![CDATA[{model}]]></a>", [model]), (f"<!DOCTYPE a [<!ENTITY e '<![CDATA[{model}]]>'>]><a>&e;</a>", [model]),
                                (f"<!DOCTYPE a [<!ENTITY e \"'&#60;![CDATA[{model}]]>\">]><a>&e;</a>", ["'" + model]), (default, []),
                                (f"<a>{model[1:]}</a>", [model[1:]]), (f"<!--<!DOCTYPE a [ {model}--><a>{brackets}</a>", [brackets]),
                                (f"<!DOCTYPE a PUBLIC '-' \"<!ELEMENT a {inside(40, '')}>\"><a>x</a>", ["x"])):
            out, _, status = self.events(document)
            self.assertEqual((re.findall("^-(.*)", out, re.M), status), (texts, 0), document[:60])
        self.assertIn(f"b {brackets}\n", self.events(default)[0])

    def test_other_markup(self):
        """Between these a model is found, and in these none is."""
        wrong = inside(40, "b c")
        others = (f"<!--<!ELEMENT a {wrong}>-->", f"<!-- - ->{wrong} -->", f"<?p <!ELEMENT a {wrong}>?>", f"<?p {wrong}>??>", "<!--'-->", "<?p \"?>", "\n",
                  f"<!ENTITY e \"<!ELEMENT a {wrong}>\">", f"<!ENTITY e '\"<!ELEMENT a {wrong}'>", f"<!ENTITY % p '<!ELEMENT a {wrong}>'>",
                  f"<!ENTITY f SYSTEM \"<!ELEMENT {wrong}\" NDATA n>", "<!NOTATION n SYSTEM '<!ELEMENT'>", f"<!ATTLIST a b CDATA '{wrong}'>",
                  "<!ATTLIST a c (x|y) 'x' d NOTATION (n) #IMPLIED>", f"<!ELEMENT c {inside(3000)}>", "<!ELEMENT d EMPTY>", "<!ELEMENT g (#PCDATA|b|c)*>")
        for other in others:
            for model, status in ((inside(40), 0), (wrong, 2)):
                self.assertEqual(self.answer(f"<!DOCTYPE a [{other}<!ELEMENT a {model}>{other}]><a/>")[1], status, other[:40])

    def test_cuts(self):
        """The text comes to libxml2 in pieces, which end anywhere."""
        model = "(b|(c,d?)*|" + inside(30, "(b)?,c)?,(d") + ")+"
        whole = "<!-- -><!-'<! --><?p '?><!ENTITY % p '<!ELEMENT'><!ELEMENT a " + model + ">"
        for tail, verdict in (("", "valid"), (" x", "malformed")):
            begins = [f"<!DOCTYPE a [{' ' * (CUT - 13 - at)}" for at in range(len(whole))]
            documents = [begin + whole.replace(",c)?", f",c{tail})?") + "]><a/>" for begin in begins]
            self.assertEqual({answer[0] for answer in self.answers(documents)}, {verdict})

    def test_a_slow_pipe(self):
        document = declared(inside(60, "(b|c)?")).encode()
        script = 'i=0; while [ $i -lt $0 ]; do dd bs=1 count=1 2>/dev/null; i=$((i+1)); done | "$1" --all any.rnc -'
        self.assertEqual(self.run_in("sh", "-c", script, len(document), RNCV_XML, given=document), ("-: valid\n", "", 0))


class Entities(Models):
    def test_parameter_entities(self):
        for count, words, status in ((3000, (), 0), (10_000, (), 0), (10_001, (), 2), (100_000, ("--max-depth", "100000"), 0)):
            document = f"<!DOCTYPE a [<!ENTITY % d '<!ELEMENT a {inside(count)}>'>\n%d;%d; %d;]><a/>"
            self.assertEqual(self.answer(document, *words), (f"2:1: {OVER.format('10,000')}" if status else "", status), count)
            self.assertEqual(self.answer(document.replace("%d;", ""), *words), ("", 0), count)

    def test_faults(self):
        """A fault is told where the entity is read, and only then. Of an entity each fault is as above the depth."""
        for model in GOOD + WRONG:
            if "%" in model or "&" in model or '"' in model:
                continue  # these have other meanings in the value of an entity
            found = []
            for count in (FEW, MANY):
                document = f"<!DOCTYPE a [<!ENTITY % d \"<!ELEMENT a {inside(count, model)}>\"> \n{{}}]><a/>"
                found.append(self.answer(document.format("%d;")))
                self.assertEqual(self.answer(document.format("")), ("", 0), model)
            self.assertEqual(found[0], found[1], model)
            self.assertEqual(found[0][1], 0 if model in GOOD else 2, model)

    def test_references(self):
        """A reference inside of a declaration is outside the profile, at any depth."""
        for count in (1, 15, 16, 17, 3000):
            for model in ("&#37;b;", "b,&#37;b;", "(b)&#37;b;"):
                document = f"<!DOCTYPE a [<!ENTITY % b 'b'><!ENTITY % d '<!ELEMENT a {inside(count, model)}>'>%d;]><a/>"
                self.assertEqual(self.answer(document)[1], 2, (count, model))

    def test_parts_of_declarations(self):
        for count in (10, 1000):
            for first, second in (("(" * count, "b" + ")" * count), ("(" * count + "b", ")" * count), (inside(count), "")):
                for end in ("", ">"):
                    document = f"<!DOCTYPE a [<!ENTITY % d '<!ELEMENT a {first}'><!ENTITY % e '{second}{end}'>%d;%e;]><a/>"
                    self.assertEqual(self.answer(document)[1], 2, document[:100])


class External(Models):
    def read(self, text, *words, document="<!DOCTYPE a SYSTEM 'd.dtd'><a>&e;</a>"):
        """The text of the root, with an external DTD."""
        self.write("d.dtd", text + "<!ENTITY e 'read'>")
        out, error, status = self.events(document, "--dtd", *words)
        return (out.split("\n-")[-1].split("\n")[0] if status == 0 else error), status

    def test_declarations(self):
        self.assertEqual(self.read(f"<!ELEMENT a {inside(3000, 'b|c')}>"), ("read", 0))
        self.assertEqual(self.read(f"<!ELEMENT a {inside(3000, 'b|c,d')}>")[1], 2)
        self.assertIn(OVER.format("10,000"), self.read(f"<!ELEMENT a {inside(10_001)}>")[0])
        self.write("d.mod", f"<!ELEMENT a {inside(3000)}>")
        self.assertEqual(self.read("<!ENTITY % m SYSTEM 'd.mod'>%m;%m; %m;"), ("read", 0))

    def test_references(self):
        """A model with references is read with what these give."""
        entities = "<!ENTITY % m 'b|c'><!ENTITY % n '(b|c)'><!ENTITY % o ''>"
        for model, status in (("%m;", 0), ("%m;|d", 0), ("%m;,d", 2), ("%n;", 0), ("%n;,d", 0), ("d,%n;*", 2), ("d,%m;", 2), ("(%m;),(%m;)?", 0), ("%o;", 2),
                              ("b%o;", 0)):
            self.assertEqual({self.read(f"{entities}<!ELEMENT a {inside(count, model)}>")[1] for count in (3, 40, 1000)}, {status}, model)
        self.assertIn("2,048", self.read(f"{entities}<!ELEMENT a {inside(3000, '%m;')}>")[0])

    def test_sections(self):
        for text in (f"<![INCLUDE[<!ELEMENT a {inside(40)}>]]>", f"<![IGNORE[ don't <!ELEMENT a {inside(40, 'b c')}> ]]>",
                     f"<!ELEMENT a {inside(3000)}><![IGNORE[\"]]>"):
            self.assertEqual(self.read(text), ("read", 0))
        self.assertEqual(self.read(f"<![INCLUDE[<!ELEMENT a {inside(40, 'b c')}>]]>")[1], 2)

    def test_values_of_entities(self):
        """The value of an entity has the text of another one as it is, also if its models are read too."""
        model = f"<!ELEMENT a {inside(40, 'b|c')}>"
        for reads in ("", "%d;", "%d;%d; %d;"):
            self.assertEqual(self.read(f"<!ENTITY % d '{model}'>{reads}<!ENTITY e 'x<![CDATA[%d;]]>y'>"), (f"x{model}y", 0), reads)


if __name__ == "__main__":
    options = argparse.ArgumentParser()
    options.add_argument("--count", type=int, default=USUAL)
    given, rest = options.parse_known_args()
    USUAL = given.count
    unittest.main(argv=[sys.argv[0], *rest])
