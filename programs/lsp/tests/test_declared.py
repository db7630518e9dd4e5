"""Tests of what a schema declares: by its simple form, and in its files."""
import sys
import unittest

from client import TOP

sys.path.insert(0, str(TOP / "programs/lsp"))
from rncv_lsp.outside import rncv  # noqa: E402
from rncv_lsp.schema_declarations import Declarations  # noqa: E402
from rncv_lsp.schema_files import SchemaFile, SchemaSet  # noqa: E402
from rncv_lsp.simple_form import Form  # noqa: E402


def form_of(schema):
    """The simple form of a schema."""
    with rncv.compile({"s": schema.encode()}, datatypes="xml-schema") as validator:
        return Form(validator.simple_text().decode())


def declared_in(*texts):
    """The declarations in the files of a schema, the main file first."""
    files = {f"f{number}": SchemaFile(f"f{number}", f"/f{number}.rnc", text.encode()) for number, text in enumerate(texts)}
    return Declarations(SchemaSet(files["f0"], files))


class Forms(unittest.TestCase):
    """What elements may have."""

    def test_attributes(self):
        form = form_of('''start = element a { (attribute x { "1" | "2" }, (attribute y { text } | attribute y { "b" }), attribute z { text }?)
                                              | (attribute x { xsd:boolean }, attribute y { list { "c"* } }, element b { empty }+) }''')
        found = {each.name: each[1:] for each in form.content(("", "a")).attributes}
        self.assertEqual(found, {("", "x"): (True, ("1", "2", "true", "false"), False), ("", "y"): (True, ("b", "c"), True), ("", "z"): (False, (), False)})
        self.assertEqual(form.content(("", "a")).children, (("", "b"),))
        needed, is_filled = form.need(("", "a"))
        self.assertEqual([each.name for each in needed], [("", "x"), ("", "y")])
        self.assertTrue(is_filled)
        self.assertEqual(form.need(("", "b")), ((), False))

    def test_elements_of_one_name(self):
        form = form_of('''start = element a { element b { attribute x { "1" }, attribute y { "2" } }, element c { element b { attribute x { "3" }, text } } }''')
        self.assertEqual([each.name for each in form.need(("", "b"))[0]], [("", "x")])
        self.assertEqual([each.values for each in form.content(("", "b")).attributes], [("1", "3"), ("2",)])

    def test_values(self):
        form = form_of(r'''start = element a { "x \x{5C} \x{A} ' { }" | string "p1" | xsd:boolean | (xsd:token - "not") | xsd:token { pattern = "e1|p2" } }''')
        self.assertEqual(form.content(("", "a")).values, ("x \\ \n ' { }", "p1", "true", "false"))

    def test_name_classes(self):
        form = form_of('''namespace p = "u" namespace q = "v"
                          start = element a { element * - (a | p:* | q:x) { attribute in { text } }*, element (b | p:c | \\element) { empty }*,
                                              element p:* - p:c { attribute only { text } }* , attribute * - y { text }* }''')
        for name, wanted in ((("", "z"), "in"), (("v", "y"), "in"), (("u", "d"), "only"), (("u", "c"), None), (("v", "x"), None), (("", "a"), None)):
            self.assertEqual([each.name[1] for each in form.content(name).attributes], [wanted] if wanted else [], name)
        self.assertEqual(form.content(("", "a")).children, (("", "b"), ("u", "c"), ("", "element")))

    def test_a_deep_form(self):
        form = form_of("start = element a { " + ", ".join(f"attribute a{number} {{ text }}" for number in range(900)) + " }")
        self.assertEqual(len(form.need(("", "a"))[0]), 900)
        self.assertEqual(len(form.content(("", "a")).attributes), 900)

    def test_what_is_no_form(self):
        for text in ("", "\n", "start", "start = e0\ne0 = element", "e0 = element a { p0", "e0 = element a { p0 }\np0 = ,", "e0 = element a { p0 }\np0 = list {", "p0 = \x00"):
            form = Form(text)
            form.prepare()
            self.assertEqual(form.content(("", "a")).attributes, ())

    def test_the_schema_of_elements(self):
        form = form_of('namespace p = "u" start = element a { attribute x { "1" }, (element p:b { attribute y { text }, "e1 e2" } | attribute z { text }) }')
        with rncv.compile({"s": form.schema_of_elements().encode()}) as validator:
            for document, verdict in ((b"(a\n(p\nAxmlns u\n)p\n)a\n", False), (b"(a\n(b\nAxmlns u\n)b\n)a\n", True), (b"(a\n)a\n", True),
                                      (b"(b\nAxmlns u\n-e1 e2\n)b\n", True), (b"(b\nAxmlns u\n-x\n)b\n", False), (b"(c\n)c\n", False)):
                self.assertEqual(validator.validate(document).valid, verdict, document)


class Declared(unittest.TestCase):
    """Where elements and attributes are declared."""

    def places(self, found):
        """The files and the sources of declarations."""
        return [(each.file.key, each.source) for each in found]

    def test_documentation(self):
        found = declared_in('## first\n# no\n##  second \r\n[ p:x = "y" ]\r\na = element a {\r\n ### in a\n attribute b { text } }\n'
                            '[ a:documentation [ "one " ~ \'\'\'two\nthree\'\'\' ] a:other [ "no" ] ] element c { empty }\n'
                            'd =\n  ## here\n  element d { empty }')
        self.assertEqual(found.element(("", "a"))[0].documentation, "first\n second")
        self.assertEqual(found.attribute(("", "b"), ("", "a"))[0].documentation, "in a")
        self.assertEqual(found.element(("", "c"))[0].documentation, "one two\nthree")
        self.assertEqual(found.element(("", "d"))[0].documentation, "here")

    def test_names(self):
        found = declared_in('default namespace d = "u"\nnamespace e = "v" ~ "w"\nelement (\\element | e:x) { attribute text { text }, attribute e:y { text } }\n'
                            'element * - z { empty }')
        self.assertEqual(self.places(found.element(("u", "element"))), self.places(found.element(("vw", "x"))))
        self.assertEqual(len(found.element(("u", "element"))), 1)
        self.assertEqual(len(found.attribute(("", "text"), ("u", "element"))), 1)
        self.assertEqual(len(found.attribute(("vw", "y"), ("u", "element"))), 1)
        self.assertEqual(found.element(("u", "z")), [])
        self.assertEqual(found.prefixes["u"], "d")

    def test_by_reference(self):
        found = declared_in('include "f1" { b |= element b { y } }\na = element a { b, x }\nx = attribute x { "1" }',
                            'b = element b { attribute x { "2" } }\ny = attribute x { "3" }, y2 y2 &= z? z = y\nc = element c { d = "e" }')
        self.assertEqual(self.places(found.attribute(("", "x"), ("", "a"))), [("f0", 'attribute x { "1" }')])
        self.assertEqual(self.places(found.attribute(("", "x"), ("", "b"))), [("f1", 'attribute x { "2" }'), ("f1", 'attribute x { "3" }')])
        self.assertEqual(len(found.attribute(("", "x"), ("", "none"))), 3)

    def test_by_parent(self):
        found = declared_in("a = element a { element b { c } }\nc = element c { element b { empty } }")
        self.assertEqual(self.places(found.element(("", "b"), ("", "c"))), [("f0", "element b { empty }")])
        self.assertEqual(len(found.element(("", "b"), ("", "none"))), 2)

    def test_broken_files(self):
        text = 'a = element a { attribute x { "1" }, [ b [ "c" ] ] element d { text } } ## e\n[ f ] element g { empty }'
        for end in range(len(text)):
            found = declared_in(text[:end])
            self.assertEqual(len(found.element(("", "a"))), end > text.index("{"), text[:end])
            declared_in(text[end:])
        for text in ("element", "attribute {", "namespace", "default namespace =", "namespace a", "}}}", "]]", "[[", "element a {{{", "a = = b", "\\", "element a - b"):
            declared_in(text)


if __name__ == "__main__":
    unittest.main()
