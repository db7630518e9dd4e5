"""Tests of requests about the names in schemas: definitions, references, renaming, outlines, hovers and completions."""
import random
import re
import sys
import unittest

from client import TOP, WithServer, framed, rncv, span

sys.path.insert(0, str(TOP / "programs/lsp"))
from rncv_lsp.documents import new_document, uri_of  # noqa: E402
from rncv_lsp.rnc_grammars import Grammars, Outlines  # noqa: E402
from rncv_lsp.rnc_names import Asked, rename  # noqa: E402
from rncv_lsp.rnc_outline import DEFINE, REFERENCE, SPACE_USE  # noqa: E402
from rncv_lsp.rnc_types import DIGITS, LENGTHS, PARAMETERS, BOUNDS  # noqa: E402
from rncv_lsp.schema_files import Disk  # noqa: E402

MARK = re.compile(r"@(\w*)@")


def taken(text):
    """A text without its marks, and where the marks were."""
    places, parts, last = {}, [], 0
    for found in MARK.finditer(text):
        parts.append(text[last:found.start()])
        places[found[1]] = sum(map(len, parts))
        last = found.end()
    return "".join([*parts, text[last:]]), places


def position(text, offset):
    """The line, and the column in units of UTF-16."""
    lines = re.split("\r\n|\r|\n", text[:offset])
    return {"line": len(lines) - 1, "character": len(lines[-1].encode("utf-16-le")) // 2}


def applied(text, edits):
    """A text after the edits of an answer."""
    starts = [0, *(found.end() for found in re.finditer("\r\n|\r|\n", text))]
    places = [[starts[at["line"]] + at["character"] for at in (each["range"]["start"], each["range"]["end"])] + [each["newText"]] for each in edits]
    for start, end, new in sorted(places, reverse=True):
        text = text[:start] + new + text[end:]
    return text


LITERALS = '''start = @1@a
# a = b { "
b = """
a = { # "
""" | 'a = "' | "a" ~ 'a = b' ~ """'a'""" ~ 'a'
## a = text
[ a = "a" x [ a = "b" "a" ] ]
@2@a = text >> x [ a = "a" ]
a [ "a" ]
c = @3@a
d = """a\'\'\' "\'\'"""
@4@a |= text
'''


class Asking(WithServer):
    """A server for all tests, and files whose texts have marks such as `@1@`."""

    SHARED = True
    CAPABILITIES = {"textDocument": {"documentSymbol": {"hierarchicalDocumentSymbolSupport": True}, "hover": {"contentFormat": ["markdown", "plaintext"]}}}

    def setUp(self):
        super().setUp()
        self.texts, self.marks = {}, {}

    def put(self, name, marked, is_open=True):
        """Writes a file, and opens it."""
        text, places = taken(marked)
        uri = self.write(name, text)
        self.texts[uri] = text
        self.marks.update({mark: (uri, at) for mark, at in places.items()})
        if is_open:
            self.client.open(uri, text)
        return uri

    def ask(self, method, mark, **others):
        """The result of a request about a mark, or its error."""
        uri, at = self.marks[mark]
        params = {"textDocument": {"uri": uri}, "position": position(self.texts[uri], at), **others}
        answer = self.client.request(f"textDocument/{method}", params)
        return answer["result"] if "result" in answer else answer["error"]

    def about(self, method, uri):
        """The result of a request about a file."""
        return self.client.request(f"textDocument/{method}", {"textDocument": {"uri": uri}})["result"]

    def marks_at(self, locations):
        """The marks where ranges begin; the range itself if there is no mark."""
        known = {(uri, *position(self.texts[uri], at).values()): mark for mark, (uri, at) in self.marks.items()}
        starts = [(each["uri"], *each["range"]["start"].values()) for each in locations]
        return sorted(known.get(start, str(start)) for start in starts)

    def definition(self, mark):
        """The marks of the definitions of the name at a mark."""
        return " ".join(self.marks_at(self.ask("definition", mark) or []))

    def references(self, mark, whole=True):
        """The marks of all places of the name at a mark."""
        return " ".join(self.marks_at(self.ask("references", mark, context={"includeDeclaration": whole}) or []))


class Definitions(Asking):
    """Where names are defined, and where they are used."""

    def test_one_file(self):
        self.put("s.rnc", "start = @1@foo | @2@bar\n@3@foo = element a { @4@\\foo* }\n@5@foo |= text\n@6@bar = notAllowed # foo\n")
        for mark in "1345":
            self.assertEqual((self.definition(mark), self.references(mark), self.references(mark, False)), ("3 5", "1 3 4 5", "1 4"))
        self.assertEqual((self.definition("2"), self.references("6")), ("6", "2 6"))

    def test_ends_of_names(self):
        self.put("s.rnc", "start = foo@1@|bar@2@\n@e@foo = text\n@f@bar = text @0@\n")
        self.assertEqual((self.definition("1"), self.definition("2"), self.definition("0")), ("e", "f", ""))
        self.put("t.rnc", "start = foo@3@ |bar\n@g@foo = text")
        self.assertEqual(self.definition("3"), "g")

    def test_nested_grammars(self):
        self.put("s.rnc", """start = @1@a | grammar {
          start = @2@a | parent @3@a | element x { grammar { start = @4@a | parent @5@a  @6@a = text } }
          @7@a = element b { text }
          div { b = @8@a }
        }
        @9@a = element a { text }
        b = parent @0@a""")
        for marks, wanted in (("139", "9"), ("2578", "7"), ("46", "6"), ("0", "")):
            for mark in marks:
                self.assertEqual(self.definition(mark), wanted, mark)
        self.assertEqual([self.references(mark) for mark in "1246"], ["1 3 9", "2 5 7 8", "4 6", "4 6"])

    def test_includes(self):
        self.put("main.rnc", 'include @i@"part.rnc" { @1@a = @2@b }\nstart = @3@a | @4@c\n@5@c |= text')
        self.put("part.rnc", "start = @6@a\n@7@a = @8@b | a1\na1 = @9@a\n@b@b = text\n@c@c |= empty", False)
        for mark, wanted in (("1", "7"), ("2", "b"), ("3", "1"), ("4", "5 c"), ("5", "5 c")):
            self.assertEqual(self.definition(mark), wanted, mark)
        self.assertEqual([self.references(mark) for mark in "1245"], ["1 3 6 7 9", "2 8 b", "4 5 c", "4 5 c"])
        self.assertEqual(self.ask("definition", "i"), [{"uri": self.uri("part.rnc"), "range": {"start": {"line": 0, "character": 0}, "end": {
            "line": 0, "character": 0}}}])
        self.client.open(self.uri("part.rnc"), self.texts[self.uri("part.rnc")])
        self.assertEqual((self.definition("6"), self.references("9")), ("1 7", "1 3 6 7 9"))

    def test_files_that_are_grammars_in_braces(self):
        self.put("main.rnc", 'include "part.rnc" { @1@a = @2@b }\nstart = @3@a | external "other.rnc"\n@4@c = text')
        self.put("part.rnc", "# a grammar\n(grammar { start = @5@a  @6@a = text  @7@b = empty })")
        self.put("other.rnc", "grammar { start = parent @8@c | @9@c  @0@c = text }")
        self.assertEqual([self.definition(mark) for mark in "1235789"], ["6", "7", "1", "1 6", "7", "4", "0"])
        self.assertEqual([self.references(mark) for mark in "124"], ["1 3 5 6", "2 7", "4 8"])

    def test_start_is_replaced(self):
        self.put("main.rnc", 'include "part.rnc" { @1@start = a }')
        self.put("part.rnc", "@2@start = a\na = text", False)
        self.assertEqual((self.definition("1"), self.references("1")), ("2", "1 2"))

    def test_same_name_in_two_grammars(self):
        self.put("one.rnc", 'include "common.rnc"\n@1@a = text\n@p@b = text')
        self.put("two.rnc", 'include "common.rnc"\n@2@a = text\n@q@b = text')
        self.put("common.rnc", "start = @3@b", False)
        self.put("other.rnc", "start = @o@b\n@n@b = empty")
        self.assertEqual((self.references("1"), self.references("2"), self.references("p"), self.references("o")), ("1", "2", "3 p q", "n o"))

    def test_externals(self):
        self.put("main.rnc", 'start = external @e@"pattern.rnc" | external "grammar.rnc"\n@1@a = text\n'
                 'b = grammar { start = external "pattern.rnc"  @2@a = text }')
        self.put("pattern.rnc", "element p { @3@a }")
        self.put("grammar.rnc", "start = @4@a | parent @5@a\n@6@a = text")
        self.assertEqual([self.definition(mark) for mark in "123456"], ["1", "2", "1 2", "6", "1", "6"])
        self.assertEqual([self.references(mark) for mark in "146"], ["1 2 3 5", "4 6", "4 6"])
        self.assertEqual(self.references("e"), self.references("e", False))

    def test_cycles_and_missing_files(self):
        self.put("one.rnc", 'include "two.rnc" include "missing.rnc" include "" include "http://x/y.rnc"\n@1@a = @2@b')
        self.put("two.rnc", 'include "one.rnc" { @0@a = @6@b }\n@3@b = @4@a | external @m@"no.rnc" | external "two.rnc"', False)
        self.assertEqual((self.definition("2"), self.references("2")), ("3", "2 3 6"))
        self.assertEqual(self.references("1"), "0 1 4")
        self.client.open(self.uri("two.rnc"), self.texts[self.uri("two.rnc")])
        self.assertEqual((self.definition("4"), self.definition("m")), ("0 1", ""))
        self.put("self.rnc", 'include "self.rnc" @5@a = @7@a')
        self.assertEqual((self.definition("7"), self.references("5")), ("5", "5 7"))

    def test_prefixes(self):
        self.put("s.rnc", """@1@namespace @2@a = "u"
default namespace @3@d = "v"
datatypes @4@a = "http://www.w3.org/2001/XMLSchema-datatypes"
@5@a:note [ @6@a:at = "x" @7@a:b [ ] ]
start = [ @8@a:c [ "y" ] ] element @9@a:x { attribute (@A@a:* - @B@a:y) { @C@a:integer } >> @D@a:z [ ], @E@xsd:int, element @F@d:@G@e { text } }
include "x.rnc" inherit = @H@a
""")
        for mark in "56789ABDH":
            self.assertEqual((self.definition(mark), self.references(mark)), ("2", "2 5 6 7 8 9 A B D H"), mark)
        self.assertEqual((self.definition("C"), self.references("4"), self.definition("F"), self.definition("E"), self.definition("G"), self.definition("1")),
                         ("4", "4 C", "3", "", "", ""))

    def test_broken_schemas(self):
        self.put("s.rnc", """start = @1@a, @2@b
@3@a = element a { ( text, "open
@4@b = element b { xsd:string { minLength = "1"
@5@c = grammar { start = @6@d  @7@d = [ x:y = "1"
  @8@e = @9@d } }
} ) ]
@A@f |= element
@B@g = attribute x { @C@a | @D@f } include
@E@h = (parent | @F@g
div {
@G@i = @H@h
""")
        for mark, wanted in (("1", "3"), ("2", "4"), ("6", "7"), ("9", "7"), ("C", "3"), ("D", "A"), ("F", "B"), ("H", "E")):
            self.assertEqual(self.definition(mark), wanted, mark)

    def test_parameters_without_values(self):
        self.put("s.rnc", "@1@start = xsd:token { pattern = } | @2@a\n@3@b = xsd:token { minLength = maxLength = '1' } | @4@a\n@5@a = xsd:token { minLength =\n"
                          "@6@c = element x { @7@a }")
        self.assertEqual([self.definition(mark) for mark in "247"], ["5", "5", "5"])
        self.assertEqual(len(self.about("documentSymbol", self.marks["1"][0])), 4)

    def test_annotations_without_values(self):
        uri = self.put("s.rnc", "[ a = ] start = @1@a [ b = c = 'd' e [ f = ] ]\n@2@a = text include 'x'\n"
                             "\\inherit = a [ g =\n@3@h = element x { @4@a } i = @5@h")
        self.assertEqual([self.definition(mark) for mark in "145"], ["2", "2", "3"])
        self.assertEqual([each["name"] for each in self.about("documentSymbol", uri)], ["start", "a", "include x", "inherit", "h", "i"])

    def test_literals_comments_and_annotations(self):
        self.put("s.rnc", LITERALS)
        self.assertEqual((self.definition("3"), self.references("1")), ("2 4", "1 2 3 4"))

    def test_escapes_and_positions(self):
        self.put("s.rnc", "# \U0001F600\r\nstart = '\U0001F600' | @1@\\x{66}oo | @2@foo\r"
                 "@3@fo\\xxx{00006f} = text\n@4@\\start |= @5@\\start\r\n@6@\u00e9 = @7@\u00e9")
        self.assertEqual([self.references(mark) for mark in "147"], ["1 2 3", "4 5", "6 7"])
        self.assertEqual(self.ask("references", "1", context={})[0]["range"]["end"], {"line": 1, "character": 23})

    def test_other_units(self):
        client = self.started()
        client.initialize(None, None, general={"positionEncodings": ["utf-8"]})
        client.open(self.uri("s.rnc"), "\u00e9 = '\U0001F600' | \u00e9")
        answer = client.request("textDocument/definition", {"textDocument": {"uri": self.uri("s.rnc")}, "position": {"line": 0, "character": 14}})
        self.assertEqual([span(each) for each in answer["result"]], [(0, 0, 0, 2)])

    def test_edits(self):
        uri = self.put("s.rnc", "\n".join(["start = @1@a", *(f"b{n} = text # {'x' * 50}" for n in range(500)), "@2@a = text"]))
        self.assertEqual(self.references("1"), "1 2")
        self.client.change(uri, 2, (250, 0, 250, 0, "c = a |\n"))
        self.assertEqual(len(self.ask("references", "1", context={})), 3)
        self.client.change(uri, 3, (249, 0, 249, 0, 'd = """'))
        self.assertEqual(len(self.ask("references", "1", context={})), 3)
        self.client.change(uri, 4, (502, 0, 502, 0, '"""'))
        self.assertEqual([span(each) for each in self.ask("references", "1", context={})], [(0, 8, 0, 9), (502, 3, 502, 4)])
        self.client.change(uri, 5, (249, 0, 249, 7, ""), (502, 0, 502, 3, "a &= text #"))
        self.assertEqual(len(self.ask("references", "1", context={})), 3)

    def test_other_documents(self):
        self.client.open(self.uri("a.xml"), "<a/>")
        self.marks["0"] = self.uri("a.xml"), 0
        self.texts[self.uri("a.xml")] = "<a/>"
        for method in ("definition", "references", "documentHighlight", "prepareRename", "rename", "hover"):
            self.assertIsNone(self.ask(method, "0", newName="x"))
        for method in ("documentSymbol", "foldingRange"):
            self.assertIsNone(self.about(method, self.uri("a.xml")))
            self.assertIsNone(self.about(method, self.uri("not-open.rnc")))
        for params in (None, {}, {"textDocument": {"uri": self.uri("a.xml")}, "position": {"line": "1"}}):
            self.assertEqual(self.client.request("textDocument/definition", params)["error"]["code"], -32602)

    def test_highlights(self):
        self.put("s.rnc", 'include "t.rnc"\nstart = @1@a, @2@b\n@3@a = text')
        self.put("t.rnc", "b = a", False)
        found = self.ask("documentHighlight", "1")
        self.assertEqual([(span(each), each["kind"]) for each in found], [((1, 8, 1, 9), 2), ((2, 0, 2, 1), 3)])


class Renaming(Asking):
    """Another name for a definition, or for a prefix."""

    def renamed(self, mark, new):
        """The texts of the files that change, by their names."""
        result = self.ask("rename", mark, newName=new)
        if "changes" not in result:
            return result["message"]
        return {uri.rpartition("/")[2]: applied(self.texts[uri], edits) for uri, edits in result["changes"].items()}

    def test_in_all_files(self):
        self.put("main.rnc", 'include "part.rnc" { @1@a = @2@b }\r\nstart = \\a | grammar { start = a | parent a  a = text }\r\na |= \\x{61}')
        self.put("part.rnc", "a = b, a?\nb = notAllowed", False)
        wanted = {"main.rnc": 'include "part.rnc" { c = b }\r\nstart = c | grammar { start = a | parent c  a = text }\r\nc |= c',
                  "part.rnc": "c = b, c?\nb = notAllowed"}
        self.assertEqual(self.renamed("1", "c"), wanted)
        self.assertEqual(self.renamed("1", "\\c"), wanted)
        self.assertEqual(self.renamed("2", "\\list"), {"main.rnc": self.texts[self.uri("main.rnc")].replace("= b ", "= \\list "), "part.rnc":
                                                     "a = \\list, a?\n\\list = notAllowed"})
        self.assertEqual(self.renamed("1", "a"), {})

    def test_refused(self):
        self.put("s.rnc", """@n@namespace @p@p = "u"
namespace q = "v"
include "part.rnc"
@s@start = @1@a | grammar { @2@b = text } | @e@element @l@x { @x@xsd:int } | @d@p:y
a = text""")
        self.put("part.rnc", "c = text", False)
        for mark, new, message in (
                ("1", "c", "c is already defined in this grammar"), ("1", "list", "list is a keyword: write \\list"), ("1", "", "'' is no identifier"),
                ("1", "a b", "'a b' is no identifier"), ("1", "a:b", "'a:b' is no identifier"), ("1", "\\x{61}", "'\\\\x{61}' is no identifier"),
                ("1", "1", "'1' is no identifier"), ("1", "a\n", "'a\\n' is no identifier"), ("p", "q", "the prefix q is there already"),
                ("p", "xml", "the prefix xml has a meaning of its own"), ("x", "y", "the prefix xsd is not declared in this file"),
                *((mark, "c", "only a definition, a reference or a prefix can be renamed") for mark in "sle")):
            self.assertEqual(self.renamed(mark, new), message)
        self.assertIn("grammar { c = text }", self.renamed("2", "c")["s.rnc"])
        self.assertEqual(self.ask("prepareRename", "s")["code"], -32803)

    def test_prefixes(self):
        self.put("s.rnc", 'namespace @1@a = "u"\ndatatypes @2@a = "v"\nstart = element a:a { a:a } >> a:a [ a:a = "" ]\na = external "x" inherit = a')
        self.assertEqual(self.renamed("1", "start"), {
            "s.rnc": 'namespace start = "u"\ndatatypes a = "v"\nstart = element start:a { a:a } >> start:a [ start:a = "" ]\na = external "x" inherit = start'})
        self.assertIn('datatypes b = "v"\nstart = element a:a { b:a }', self.renamed("2", "b")["s.rnc"])

    def test_without_blanks(self):
        self.put("s.rnc", 'namespace@1@\\a="u"\nstart=grammar{start=parent@2@\\list|element a:b{\\b}b=text}\\list=text')
        self.assertIn("start=parent\\c|element a:b{\\b}b=text}c=text", self.renamed("2", "c")["s.rnc"])
        self.assertIn('namespace\\p="u"\nstart=grammar{start=parent\\list|element p:b{', self.renamed("1", "p")["s.rnc"])

    def test_prepared(self):
        self.put("s.rnc", "start = @1@\\\\list | \U0001F600 @2@a\n\\\\list = text".replace("\\\\", "\\"))
        self.assertEqual(self.ask("prepareRename", "1"), {"range": {"start": {"line": 0, "character": 8}, "end": {"line": 0, "character": 13}},
                                                          "placeholder": "\\list"})
        self.assertEqual(self.ask("prepareRename", "2")["range"], {"start": {"line": 0, "character": 19}, "end": {"line": 0, "character": 20}})

    def test_versions(self):
        client = self.started()
        client.initialize(None, None, workspace={"workspaceEdit": {"documentChanges": True}})
        self.write("part.rnc", "a = a")
        main, part = self.uri("main.rnc"), self.uri("part.rnc")
        client.open(main, "include 'part.rnc' start = a", "", 7)
        found = client.request("textDocument/rename", {"textDocument": {"uri": main}, "position": {"line": 0, "character": 27}, "newName": "b"})["result"]
        self.assertEqual([(each["textDocument"], len(each["edits"])) for each in found["documentChanges"]],
                         [({"uri": main, "version": 7}, 1), ({"uri": part, "version": None}, 2)])


class Symbols(Asking):
    """Symbols, and what can be folded."""

    TEXT = """# one
# two
namespace a = "u"
include "x.rnc" {
  start |= b
}
## Documentation
[ a:b = "1" ]
e =
  element a:e {
    text
  }

div {
  at &= attribute b { xsd:int }
  g = grammar {
    start = c
    c = string
  } # end
}
# not a block
o = (e | at)*
"""

    def shown(self, symbols):
        """The symbols, each with its name, its kind, its detail and those in it."""
        return [(each["name"], each["kind"], each["detail"], self.shown(each["children"])) for each in symbols]

    def test_symbols(self):
        found = self.about("documentSymbol", self.put("s.rnc", self.TEXT))
        self.assertEqual(self.shown(found), [
            ("include x.rnc", 2, "", [("start", 12, "|=", [])]), ("e", 5, "element a:e", []),
            ("div", 4, "", [("at", 7, "&= attribute b", []), ("g", 3, "grammar", [("grammar", 3, "", [("start", 12, "", []), ("c", 26, "string", [])])])]),
            ("o", 23, "", [])])
        self.assertEqual((span(found[0]), span(found[1]), span({"range": found[1]["selectionRange"]}), span(found[2])),
                         ((3, 0, 5, 1), (6, 0, 11, 3), (8, 0, 8, 1), (13, 0, 19, 1)))

    def test_elements_of_a_pattern(self):
        text = "namespace a = 'u'\nelement a:b { element c | d { text }, attribute e { text }, element * { grammar { start = element f { empty } } }, element g"
        found = self.about("documentSymbol", self.put("s.rnc", text))
        self.assertEqual(self.shown(found), [("a:b", 5, "", [("c", 5, "", []), ("grammar", 3, "", [("start", 12, "element f", [])])])])
        self.assertEqual(span(found[0]), (1, 8, 1, len(text) - 18))

    def test_symbols_without_a_tree(self):
        client = self.started()
        client.initialize()
        client.open(self.uri("s.rnc"), self.TEXT)
        found = client.request("textDocument/documentSymbol", {"textDocument": {"uri": self.uri("s.rnc")}})["result"]
        self.assertEqual([(each["name"], each.get("containerName")) for each in found][:4],
                         [("include x.rnc", None), ("start", "include x.rnc"), ("e", None), ("div", None)])

    def test_folding(self):
        found = self.about("foldingRange", self.put("s.rnc", self.TEXT))
        self.assertEqual([(each["startLine"], each["endLine"], each.get("kind")) for each in found],
                         [(0, 1, "comment"), (3, 4, None), (9, 10, None), (13, 18, None), (15, 17, None)])

    def test_workspace(self):
        self.put("one.rnc", "paragraph = text\nstart = paragraph")
        self.put("two.rnc", "start = grammar { pear = text }")
        found = self.client.request("workspace/symbol", {"query": "PAR"})["result"]
        self.assertEqual([(each["name"], each["location"]["uri"]) for each in found], [("paragraph", self.uri("one.rnc")), ("pear", self.uri("two.rnc"))])
        self.assertEqual(len(self.client.request("workspace/symbol", {"query": ""})["result"]), 5)
        self.assertEqual(self.client.request("workspace/symbol", {"query": "no such"})["result"], [])

    def test_broken_and_deep(self):
        for text in ("grammar {" * 2_000, "}" * 2_000, "[" * 2_000 + "]" * 3_000 + "{" * 2_000, "(" * 9_000 + "}" * 9_000, "a = grammar { " * 1_000,
                     "div { include 'x' { " * 1_000 + "a = b", "element " * 1_000, "a = x { " * 1_000 + "b = 'c", "include", "a =", "=", "'", '"""', "\\",
                     "\x00",
                     "namespace", "default namespace", "datatypes x", "parent", "external", ">>", "a [", "", "\ufeff", "<a/>", "a = b >> ", "inherit ="):
            uri = self.put("s.rnc", f"@0@{text}")
            self.assertIsInstance(self.about("documentSymbol", uri), list, text[:20])
            self.assertIsInstance(self.about("foldingRange", uri), list, text[:20])
            self.marks["1"] = uri, len(text)
            for mark, method in ((mark, method) for mark in "01" for method in ("definition", "references", "hover", "completion", "rename")):
                answer = self.ask(method, mark, newName="x")
                self.assertNotEqual(isinstance(answer, dict) and answer.get("code"), -32603, (text[:20], method))
            self.client.close(uri)


class Hovers(Asking):
    """What is shown about a name."""

    def hover(self, mark):
        """What is shown at a mark."""
        found = self.ask("hover", mark)
        return found and found["contents"]["value"]

    def test_definitions(self):
        self.put("s.rnc", """start = @1@a, @2@long, @3@none
## What an *a* is,
## in two lines.
[ x = "y" ]
@4@a = element a { text } # ```
b = text
a |= empty >> a [ '```' ]
long =
""" + "  empty |\n" * 20 + "  empty")
        self.assertEqual(self.hover("1"), "```rnc\na = element a { text }\n```\n\nWhat an \\*a\\* is,\\\nin two lines\\.\n\n"
                         "````rnc\na |= empty >> a [ '```' ]\n````")
        self.assertEqual(self.hover("4"), self.hover("1"))
        self.assertEqual(self.hover("2"), "```rnc\nlong =\n" + "  empty |\n" * 11 + "..\n```")
        self.assertIsNone(self.hover("3"))

    def test_namespaces(self):
        self.put("s.rnc", """default namespace = "u"
namespace p = "v"
namespace l = inherit
start = element @1@a { attribute @2@b { @3@xsd:date }, attribute @4@p:c { @5@string }, attribute @6@xml:lang { text }, attribute @7@q:r { text } }
  | element @8@p:* { empty } | element @9@l:a { empty }
include "part.rnc"
include "part.rnc" inherit = @0@p""")
        self.put("part.rnc", "x = element @A@e { empty }")
        for mark, wanted in (("1", "the element a in the namespace u"), ("2", "the attribute b in no namespace"), ("4", "the prefix p: the namespace v"),
                             ("8", "the prefix p: the namespace v"), ("9", "the prefix l: no namespace"), ("0", "the prefix p: the namespace v"),
                             ("5", "the datatype string of RELAX NG"), ("6", "the prefix xml: the namespace http://www.w3.org/XML/1998/namespace"),
                             ("A", "the element e in the namespace u\n\nthe element e in the namespace v"),
                             ("3", "the prefix xsd: the datatypes of http://www.w3.org/2001/XMLSchema-datatypes")):
            self.assertEqual((self.hover(mark) or "").replace("\\", ""), wanted, mark)
        self.assertIsNone(self.hover("7"))

    def test_plain_text(self):
        client = self.started()
        client.initialize()
        client.open(self.uri("s.rnc"), "## *x*\na = a")
        found = client.request("textDocument/hover", {"textDocument": {"uri": self.uri("s.rnc")}, "position": {"line": 1, "character": 4}})["result"]
        self.assertEqual(found["contents"], {"kind": "plaintext", "value": "a = a\n\n*x*"})


class Completions(Asking):
    """What can be written at a place."""

    def completed(self, marked):
        """The texts that can be written at the mark in a file, and what they replace."""
        uri = self.put("s.rnc", marked)
        found = self.ask("completion", "0")
        self.client.close(uri)
        if found is None:
            return None, None
        place = found["items"][0]["textEdit"]["range"] if found["items"] else None
        return [each["label"] for each in found["items"]], place and place["end"]["character"] - place["start"]["character"]

    def test_many_names(self):
        """Of many names those are told that fit what is typed, and the client is to ask again. Keywords are told in each case."""
        definitions = "".join(f"\nb{number} = empty" for number in range(400)) + "\nab39 = empty"
        for typed, first, count in (("", "b0", 256), ("b", "b0", 256), ("b39", "b39", 23), ("\\b39", "b39", 23), ("B399", "b399", 1), ("em", "element", 0)):
            uri = self.put("s.rnc", f"start = {typed}@0@{definitions}")
            found = self.ask("completion", "0")
            self.client.close(uri)
            labels = [each["label"] for each in found["items"]]
            self.assertTrue(found["isIncomplete"], typed)
            self.assertEqual((labels[0], len([each for each in labels if each[-1].isdigit()])), (first, count), typed)
        self.assertEqual(len(self.completed("start = @0@\nb = empty")[0]), len(set(self.completed("start = @0@\nb = empty")[0])))

    def test_patterns(self):
        for text in ("start = @0@", "start = a, \\list | @0@", "start = a, fo@0@", "start = element x { ( @0@", "start = a # '\n & e@0@ } c", "start = (@0@)"):
            found, _ = self.completed(f"foo = text\n\\list = empty\nx = grammar {{ inner = text }}\n{text}\nbar = text")
            self.assertEqual(found[:4], ["foo", "\\list", "x", "bar"], text)
            self.assertTrue({"element", "empty", "text", "grammar", "xsd:", "xsd:date"} < set(found) and not {"inner", "div", "start"} & set(found), text)
        self.assertEqual(self.completed("start = a, fo-o@0@")[1], 4)
        self.assertEqual(self.completed("start = \\l@0@")[1], 2)
        self.assertIn("a", self.completed("start = grammar { start = parent @0@ b = text } a = text")[0])
        self.assertNotIn("b", self.completed("start = grammar { start = parent @0@ b = text } a = text")[0])

    def test_datatypes(self):
        self.assertEqual(self.completed("datatypes d = 'http://www.w3.org/2001/XMLSchema-datatypes' datatypes e = 'u' start = d:@0@")[1], 2)
        found, length = self.completed("start = xsd:da@0@")
        self.assertTrue({"xsd:date", "xsd:unsignedByte"} < set(found) and "element" not in found and length == 6)
        self.assertEqual(self.completed("a = xsd:token { pattern = 'x' @0@ }")[0], ["pattern", "length", "minLength", "maxLength"])
        self.assertEqual(self.completed("a = xsd:date { min@0@")[0][:2], ["pattern", "minInclusive"])
        self.assertEqual(self.completed("a = string { @0@ }")[0], [])

    def test_names_and_components(self):
        before = 'namespace p = "u" namespace q = "v"\n'
        self.assertEqual(self.completed(before + "a = element @0@")[0], ["p:", "q:"])
        self.assertEqual(self.completed(before + 'include "x" inherit = @0@')[0], ["p", "q"])
        self.assertEqual(self.completed("a = text\n@0@")[0], ["div", "include", "start", "datatypes", "default", "namespace"])
        self.assertEqual(self.completed("a = grammar { b = text\n@0@")[0], ["div", "include", "start"])
        self.assertIn("element", self.completed("@0@")[0])
        self.put("part.rnc", "b = text\nc = empty", False)
        self.assertEqual(self.completed('include "part.rnc" { @0@ }')[0], ["div", "start", "b", "c"])

    def test_nothing(self):
        for text in ("# @0@", "a = 'x@0@", "## x@0@", 'a = """\n@0@\n"""', "[ @0@ ] a = text", "a [ b [ @0@", "a = xsd:token { pattern = @0@",
                     "namespace p = 'u' a = element p:@0@", "a = element b @0@", "namespace @0@"):
            self.assertFalse(self.completed(text)[0], text)

class Indenting(Asking):
    """The blanks at the beginning of lines."""

    TEXT = """ namespace a =
"u"
  include "x.rnc" {
start = b
    }
start =
element a { # one
\t(b
| element c {
\"\"\"
  as it is
\"\"\"
}
&
## d
   attribute d { text })
      # two
  } |
[ a:b =
"c" ]
notAllowed

div {
# three
x = (y |
z) }
"""
    WANTED = """namespace a =
  "u"
include "x.rnc" {
  start = b
}
start =
  element a { # one
    (b
     | element c {
         \"\"\"
  as it is
\"\"\"
       }
     &
       ## d
       attribute d { text })
    # two
  } |
  [ a:b =
      "c" ]
  notAllowed

div {
  # three
  x = (y |
    z) }
"""

    def indented(self, text, method="formatting", **others):
        """The text with other blanks."""
        uri = self.put("s.rnc", text)
        result = self.client.request(f"textDocument/{method}", {"textDocument": {"uri": uri}, "options": {"tabSize": 2, "insertSpaces": True}, **others})
        self.client.close(uri)
        return applied(text, result["result"])

    def test_whole_files(self):
        for ends in ("\n", "\r\n"):
            wanted = self.WANTED.replace("\n", ends)
            self.assertEqual(self.indented(self.TEXT.replace("\n", ends)), wanted)
            self.assertEqual(self.indented(wanted), wanted)
        for path in TOP.glob("examples/*/*.rnc"):
            text = path.read_text(encoding="utf-8")
            self.assertEqual(self.indented(text), text)

    def test_registration(self):
        self.assertTrue(self.initialized["capabilities"]["documentFormattingProvider"])
        client = self.started()
        found = client.initialize(None, None, textDocument={"formatting": {"dynamicRegistration": True}})["capabilities"]
        self.assertEqual((found.get("documentFormattingProvider"), found.get("documentRangeFormattingProvider")), (None, True))
        asked = client.until(lambda message: message.get("method") == "client/registerCapability")
        self.assertEqual([(each["method"], each["registerOptions"]["documentSelector"][0]) for each in asked["params"]["registrations"]],
                         [("textDocument/formatting", {"pattern": "**/*.rnc"})])
        client.write(framed({"jsonrpc": "2.0", "id": asked["id"], "result": None}))
        self.assertEqual(client.stop(), 0)

    def test_ranges_and_tabs(self):
        text = "a =\nb\nc =\nd\n"
        place = {"start": {"line": 1, "character": 0}, "end": {"line": 2, "character": 0}}
        self.assertEqual(self.indented(text, "rangeFormatting", range=place), "a =\n  b\nc =\nd\n")
        self.assertEqual(self.indented(text, options={"tabSize": 8, "insertSpaces": False}), "a =\n\tb\nc =\n\td\n")

    def test_what_stays(self):
        for text in ("a = {\n b", "a = (\n b }", " ]", "a = 'x\n b", "", "(\n" * 2_000 + ")\n" * 2_000):
            self.assertEqual(self.indented(text), text)

    def test_valid_after_renaming(self):
        chosen = random.Random(8)
        for name in ("bibliography/bibliography", "configuration/server", "invoices/message"):
            path = TOP / f"examples/{name}.rnc"
            grammars = Grammars([new_document({"uri": path.as_uri(), "text": path.read_text(encoding="utf-8")})], Disk(), Outlines())
            found = ((key, each) for key, outline in grammars.outlines.items() for each in outline.with_role(DEFINE, REFERENCE, SPACE_USE))
            places = [(key, each) for key, each in found if each.text != "xml"]
            for key, each in chosen.sample(places, 15):
                edits = rename(Asked(grammars, key, each.start, "utf-16"), "zz")
                files = {key: applied(file.lines.text, edits.get(uri_of(key), [])).encode() for key, file in grammars.files.items()}
                rncv.compile({key.rpartition("/")[2]: text for key, text in files.items()}, annotations=True)


class Types(unittest.TestCase):
    """The datatypes that completions offer."""

    def test_datatypes(self):
        source = (TOP / "programs/xml/src/schemas/schema_types.c").read_text(encoding="utf-8")
        kinds = {"LENGTH": LENGTHS, "BARE": (), "CONTEXT": (), "INTEGER": (*BOUNDS, *DIGITS), "DECIMAL": (*BOUNDS, *DIGITS), "ORDERED": BOUNDS}
        found = {name: ("pattern", *kinds[kind]) for name, kind in re.findall(r'\{"(\w+)", TYPE_(\w+)\}', source)}
        self.assertEqual(PARAMETERS, found)


if __name__ == "__main__":
    unittest.main()
