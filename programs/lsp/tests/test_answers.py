"""Tests of the answers about a place in an XML document: what may come there, hover and definition."""
import re
import time
import unittest

from client import WithServer

MODEL = '<?xml-model href="s.rnc"?>\n'
LETTER = '''default namespace = "urn:l"
namespace o = "urn:o"
namespace a = "http://relaxng.org/ns/compatibility/annotations/1.0"
start = letter
## A letter
## to someone
letter = element letter {
  ## Who gets it
  attribute to { "Ada" | "Bob" },
  attribute o:sent { xsd:boolean }?,
  attribute kind { list { ("new" | "old")+ } }?,
  title?, (para | o-note)*, element end { empty }? }
[ a:documentation [ "Its title" ] ]
title = element title { attribute lang { text }, text }
para = element para { mixed { element done { "yes" | "no" | xsd:boolean }*, element p { text }* } }
o-note = element o:note { attribute id { xsd:NCName }, empty }
'''
SNIPPETS = {"textDocument": {"completion": {"completionItem": {"snippetSupport": True}}, "hover": {"contentFormat": ["plaintext", "markdown"]}}}
BEGIN = f"{MODEL}<letter xmlns='urn:l' to='Ada'>"


class Asking(WithServer):
    """Documents with the cursor at `|`."""

    SHARED = True
    CAPABILITIES = SNIPPETS

    def setUp(self):
        super().setUp()
        self.write("s.rnc", LETTER)
        self.count = 0

    def opened(self, text, name="a.xml"):
        """Opens or changes a document, and returns its URI and the position of the cursor."""
        before, _, after = text.partition("|")
        self.count += 1
        uri = self.uri(name)
        if uri in self.client.opened:
            self.client.change(uri, self.count, before + after)
        else:
            self.client.open(uri, before + after, "xml", self.count)
        self.client.found(uri, self.count)
        lines = re.split("\r\n|\r|\n", before)
        return uri, {"line": len(lines) - 1, "character": len(lines[-1].encode("utf-16-le")) // 2}

    def asked(self, method, text, name="a.xml", units=None, **others):
        """The answer to a request at the cursor, whose column may be in other units."""
        uri, position = self.opened(text, name)
        position["character"] = position["character"] if units is None else units
        answer = self.client.request(f"textDocument/{method}", {"textDocument": {"uri": uri}, "position": position, **others})
        self.assertNotIn("error", answer, text)
        return answer["result"]

    def items(self, text, name="a.xml", **others):
        """The items at the cursor, in their order."""
        answer = self.asked("completion", text, name, **others)
        return sorted(answer["items"], key=lambda item: item["sortText"]) if answer else None

    def labels(self, text, name="a.xml", **others):
        """The labels of the items at the cursor."""
        return [item["label"] for item in self.items(text, name, **others) or ()]

    def applied(self, text, label):
        """The document with this item in it."""
        items = {item["label"]: item for item in self.items(text)}
        self.assertIn(label, items, text)
        item = items[label]
        before, _, after = text.partition("|")
        place, lines = item["textEdit"]["range"], (before + after).splitlines(keepends=True)
        line = lines[place["start"]["line"]].encode("utf-16-le")
        ends = [2 * place[end]["character"] for end in ("start", "end")]
        lines[place["start"]["line"]] = (line[:ends[0]] + item["textEdit"]["newText"].encode("utf-16-le") + line[ends[1]:]).decode("utf-16-le")
        self.assertEqual(place["start"]["line"], place["end"]["line"])
        return "".join(lines)


class Elements(Asking):
    """Names of elements."""

    def test_what_is_announced(self):
        found = self.initialized["capabilities"]
        self.assertIn("<", found["completionProvider"]["triggerCharacters"])
        self.assertTrue(found["hoverProvider"] and found["definitionProvider"])

    def test_behind_a_bracket(self):
        self.assertEqual(self.labels(f"{BEGIN}<|"), ["title", "para", "note", "end", "/letter"])
        self.assertEqual(self.labels(f"{BEGIN}<title lang='x'/><|</letter>"), ["para", "note", "end", "/letter"])
        self.assertEqual(self.labels(f"{BEGIN}<end/><|"), ["/letter"])
        self.assertEqual(self.labels(f"{BEGIN}<para>x<|"), ["done", "p", "/para"])
        self.assertEqual(self.labels(f"{BEGIN}<ti|"), ["title", "para", "note", "end", "/letter"])

    def test_where_nothing_is_typed(self):
        self.assertEqual(self.labels(f"{BEGIN}|</letter>"), ["title", "para", "note", "end"])
        self.assertEqual(self.labels(f"{BEGIN}\n  |\n</letter>"), ["title", "para", "note", "end"])
        self.assertEqual(self.labels(f"{BEGIN}<para>some words|"), [])
        self.assertEqual(self.labels(f"{BEGIN} |", context={"triggerKind": 2, "triggerCharacter": " "}), [])
        self.assertEqual(self.labels(f"{MODEL}|"), ["letter"])

    def test_the_text_of_an_item(self):
        self.assertEqual(self.applied(f"{BEGIN}<|", "title"), f'{BEGIN}<title lang="$1">$0</title>')
        self.assertEqual(self.applied(f"{BEGIN}<ti|", "title"), f'{BEGIN}<title lang="$1">$0</title>')
        self.assertEqual(self.applied(f"{BEGIN}\n|\n", "end"), f"{BEGIN}\n<end/>$0\n")
        self.assertEqual(self.applied(f"{MODEL}<|", "letter"), f'{MODEL}<letter xmlns="urn:l" to="${{1|Ada,Bob|}}">$0</letter>')
        self.assertEqual(self.applied(f"{BEGIN}<|", "note"), f'{BEGIN}<note xmlns="urn:o" id="$1"/>$0')
        self.assertEqual(self.applied(f"{BEGIN}<ti|tl lang='x'></title>", "title"), f"{BEGIN}<title lang='x'></title>")
        self.assertEqual(self.applied(f"{BEGIN}<|>", "title"), f"{BEGIN}<title>")
        self.assertEqual(self.applied(f"{BEGIN}<|", "/letter"), f"{BEGIN}</letter>")

    def test_prefixes(self):
        text = f"{MODEL}<l:letter xmlns:l='urn:l' xmlns:n='urn:o' xmlns:m='urn:o' to='Ada'>"
        self.assertEqual(self.labels(f"{text}<|"), ["l:title", "l:para", "n:note", "l:end", "/l:letter"])
        self.assertEqual(self.labels(f"{text}<m:|"), ["l:title", "l:para", "m:note", "l:end", "/l:letter"])
        self.assertEqual(self.applied(f"{text}<|", "l:title"), f'{text}<l:title lang="$1">$0</l:title>')

    def test_end_tags(self):
        self.assertEqual(self.applied(f"{BEGIN}<para>x</|", "para"), f"{BEGIN}<para>x</para>")
        self.assertEqual(self.applied(f"{BEGIN}<para>x</pa|>", "para"), f"{BEGIN}<para>x</para>")
        self.assertEqual(self.applied("<a>\n<b>x</|", "b"), "<a>\n<b>x</b>")

    def test_documentation(self):
        found = {item["label"]: item.get("documentation") for item in self.items(f"{BEGIN}<|")}
        self.assertEqual(found["title"], "Its title")
        self.assertIsNone(found["para"])
        self.assertEqual(self.items(f"{MODEL}<|")[0]["documentation"], "A letter\nto someone")


class Attributes(Asking):
    """Names and values of attributes, and values in content."""

    def test_names(self):
        self.assertEqual(self.labels(f"{MODEL}<letter xmlns='urn:l' |"), ["to", "o:sent", "kind"])
        self.assertEqual(self.labels(f"{MODEL}<letter xmlns='urn:l' k| to='Ada'>"), ["o:sent", "kind"])
        self.assertEqual(self.labels(f"{MODEL}<letter xmlns='urn:l' k|='Ada'>"), ["to", "o:sent", "kind"])
        self.assertEqual(self.labels(f"{MODEL}<letter |xmlns='urn:l'>"), ["to", "o:sent", "kind"])
        self.assertEqual(self.labels(f"{BEGIN}<title |"), ["lang"])
        self.assertEqual(self.labels(f"{BEGIN}<none |"), [])

    def test_the_text_of_an_item(self):
        self.assertEqual(self.applied(f"{BEGIN}<title l|", "lang"), f'{BEGIN}<title lang="$1"$0')
        self.assertEqual(self.applied(f"{BEGIN}<title l|a='x'>", "lang"), f"{BEGIN}<title lang='x'>")
        self.assertEqual(self.applied(f"{MODEL}<letter xmlns='urn:l' |", "o:sent"),
                         f"""{MODEL}<letter xmlns='urn:l' xmlns:o="urn:o" o:sent="${{1|true,false|}}"$0""")
        self.assertEqual(self.applied(f"{MODEL}<letter xmlns='urn:l' xmlns:p='urn:o' |", "p:sent")[-28:], """ p:sent="${1|true,false|}"$0""")
        self.assertEqual(self.labels(f"{MODEL}<letter xmlns='urn:l' xmlns:o='urn:other' |"), ["to", "kind"])
        self.assertEqual(self.items(f"{MODEL}<letter xmlns='urn:l' |")[0]["documentation"], "Who gets it")

    def test_values(self):
        self.assertEqual(self.labels(f"{MODEL}<letter xmlns='urn:l' to='|'>"), ["Ada", "Bob"])
        self.assertEqual(self.applied(f"{MODEL}<letter xmlns='urn:l' to='A|d'>", "Ada"), f"{MODEL}<letter xmlns='urn:l' to='Ada'>")
        self.assertEqual(self.applied(f"{MODEL}<letter xmlns='urn:l' to=\"A|\n", "Ada"), f"{MODEL}<letter xmlns='urn:l' to=\"Ada\n")
        self.assertEqual(self.labels(f"{MODEL}<letter xmlns='urn:l' xmlns:o='urn:o' o:sent='|"), ["true", "false"])
        self.assertEqual(self.applied(f"{MODEL}<letter xmlns='urn:l' kind='new o|'", "old"), f"{MODEL}<letter xmlns='urn:l' kind='new old'")
        self.assertEqual(self.labels(f"{BEGIN}<title lang='|'"), [])

    def test_namespaces(self):
        self.assertEqual(self.applied(f"{MODEL}<letter x|", "xmlns"), f'{MODEL}<letter xmlns="urn:l"')
        self.assertEqual(self.labels(f"{MODEL}<p:note |"), ["xmlns:p"])
        self.assertEqual(self.labels(f"{MODEL}<none |"), [])
        self.assertEqual(self.labels(f"{MODEL}<letter xmlns='|'"), ["urn:l", "urn:o"])
        self.assertEqual(self.labels(f"{MODEL}<p:note xmlns:p='|'"), ["urn:o", "urn:l"])

    def test_values_in_content(self):
        self.assertEqual(self.labels(f"{BEGIN}<para><done>|"), ["yes", "no", "true", "false"])
        self.assertEqual(self.applied(f"{BEGIN}<para><done> y|</done>", "yes"), f"{BEGIN}<para><done> yes</done>")
        self.write("list.rnc", 'element a { list { ("one" | "two" | xsd:boolean)+ } }')
        self.assertEqual(self.labels('<?xml-model href="list.rnc"?><a>one |'), ["one", "two", "true", "false"])
        self.assertEqual(self.applied('<?xml-model href="list.rnc"?><a>one t|</a>', "two"), '<?xml-model href="list.rnc"?><a>one two</a>')


class Broken(Asking):
    """Documents in which something is wrong, and places where nothing may come."""

    def test_nowhere(self):
        for text in (f"{BEGIN}<!-- <|", f"{BEGIN}<!-- a > |-->", f"{BEGIN}<![CDATA[ <|", f"{BEGIN}<![CDATA[ <a > <|", f"{BEGIN}<?p <|", "<!DOCTYPE letter [ <|", "<!DOCTYPE |",
                     "<!DOCTYPE letter [ <!ENTITY e '>'> | ]><letter/>", f"{BEGIN}<!-|", "<?xml |", f"{BEGIN}<title lang=|", f"{BEGIN}<title lang='x'|"):
            self.assertEqual(self.labels(text), [], text)

    def test_without_a_schema(self):
        for text in ("|", "<|", "<a |", "<a b='|'", "<a>|"):
            self.assertEqual(self.labels(text), [], text)
        self.assertEqual(self.labels("<a><b/><|"), ["/a"])
        self.assertIsNone(self.asked("hover", "<a|>"))
        self.assertIsNone(self.asked("definition", "<a|>"))

    def test_a_refused_schema(self):
        self.write("bad.rnc", LETTER + "para = empty")
        text = BEGIN.replace("s.rnc", "bad.rnc")
        self.assertEqual(self.labels(f"{text}<|"), ["/letter"])
        self.assertIn("Its title", self.asked("hover", f"{text}<tit|le/></letter>")["contents"]["value"])
        self.assertEqual(self.labels('<?xml-model href="none.rnc"?><a><|'), ["/a"])
        self.write("bad.rnc", LETTER.replace("Its title", "Another") + "para = empty")
        for _ in range(100):
            words = self.asked("hover", f"{text}<tit|le/></letter>")["contents"]["value"]
            if "Another" in words:
                break
            time.sleep(0.1)
        self.assertIn("Another", words)

    def test_what_is_not_valid_before(self):
        self.assertEqual(self.labels(f"{BEGIN}<end/><end/><|"), ["title", "para", "note", "end", "/letter"])
        self.assertEqual(self.labels(f"{BEGIN}<end/><end/><para><p/>|"), ["p"])
        self.assertEqual(self.labels(f"{BEGIN}<title/><para><none a=''>x</none><done>z</done></para>x<!-- --><|"), ["para", "note", "end", "/letter"])
        self.assertEqual(self.labels(f"{MODEL}<none><letter xmlns='urn:l' none=''><n:note xmlns:n='urn:o'/><!-- \U0001F600 --><|"), ["para", "note", "end", "/letter"])
        self.assertEqual(self.labels(f"{MODEL}<letter xmlns='urn:l'><para x=''><done y=''>|"), ["yes", "no", "true", "false"])
        self.assertEqual(self.labels(f"{BEGIN}<none><|"), ["/none"])
        self.assertEqual(self.labels(f"{BEGIN}<end/><para>x<|"), ["done", "p", "/para"])

    def test_what_is_not_well_formed_before(self):
        for text in (f"{BEGIN}<para> a & b </para><para><|", f"{BEGIN}<p:q/><para><|", f"{BEGIN}</para><para><|", f"{BEGIN}<para a=1></para><para><|",
                     f"{BEGIN}<para>&none;</para><para><|", f"{BEGIN}<title lang='<'/>\n<para>\n<|"):
            self.assertEqual(self.labels(text), ["done", "p", "/para"], text)
        self.assertEqual(self.labels(f"{BEGIN}</letter><letter xmlns='urn:l'><para><|"), ["done", "p", "/para"])
        self.assertEqual(self.labels(f"{BEGIN}</letter><|"), [])
        self.assertEqual(self.labels(f"{BEGIN}& <!-- <|"), [])
        self.assertEqual(self.labels(f"{BEGIN}<para <done |"), [])

    def test_more_than_pyx_takes(self):
        self.write("deep.rnc", "start = a a = element a { a?, element b { empty }? }")
        self.assertEqual(self.labels(f'<?xml-model href="deep.rnc"?>{"<a>" * 600}<a/><|'), ["b", "/a"])
        self.assertEqual(self.labels(f"{MODEL}<letter xmlns='urn:l' to='Ada' kind='{'new ' * 20_000}'><end/><|"), ["/letter"])
        self.assertEqual(self.labels(f"{BEGIN}<para>{chr(233) * 600_000}</para><end/><|"), ["/letter"])

    def test_far_behind_the_root(self):
        """Only what is near is read."""
        text = f"<!-- \U0001F600 -->{BEGIN}\n" + "<para>\U0001F600<p>x</p></para>\n" * 60_000
        for end, wanted in (("<|", ["title", "para", "note", "end", "/letter"]), ("<para><p/><|", ["p", "/para"]), ("<para><done>|", ["yes", "no", "true", "false"]),
                            ("<title |", ["lang"]), ("<!-- <|", [])):
            self.assertEqual(self.labels(text + end), wanted, end)
        self.assertIn("Its title", self.asked("hover", f"{text}<tit|le/>")["contents"]["value"])

    def test_an_unknown_prefix(self):
        self.assertEqual(self.labels(f"{MODEL}<p:letter><|"), ["/p:letter"])
        self.assertEqual(self.labels(f"{MODEL}<p:letter |"), ["xmlns:p"])

    def test_positions(self):
        for before in ("<!--\U0001F600-->", "<!--\u00e9-->\r\n<!--\r-->\U00010000", "\r"):
            text = f"{BEGIN}<para>{before}<p>x</p>{before}"
            column = len(re.split("\r\n|\r|\n", text)[-1].encode("utf-16-le")) // 2
            self.assertEqual(self.applied(f"{text}<|", "p"), f"{text}<p>$0</p>", text)
            self.assertEqual([end["character"] for end in self.asked("hover", f"{text}<p|>")["range"].values()], [column + 1, column + 2], text)

    def test_a_byte_order_mark(self):
        self.assertEqual(self.labels(f"\ufeff<?xml version='1.0' encoding='UTF-16'?>{BEGIN}<title lang='x'/><|"), ["para", "note", "end", "/letter"])

    def test_positions_that_are_none(self):
        uri, _ = self.opened(f"{BEGIN}<para>")
        for line, character in ((99, 0), (0, 999), (-1, -1), (1, 10**12)):
            for method in ("completion", "hover", "definition"):
                answer = self.client.request(f"textDocument/{method}", {"textDocument": {"uri": uri}, "position": {"line": line, "character": character}})
                self.assertIn("result", answer)
        for params in (None, {}, {"textDocument": {"uri": uri}}, {"textDocument": {"uri": uri}, "position": {"line": "1", "character": 0}}):
            self.assertEqual(self.client.request("textDocument/completion", params)["error"]["code"], -32602)
        params = {"textDocument": {"uri": "file:///none.xml"}, "position": {"line": 0, "character": 0}}
        self.assertIsNone(self.client.request("textDocument/hover", params)["result"])


class Declared(Asking):
    """Hover and definition."""

    def test_hover(self):
        found = self.asked("hover", f"{BEGIN}<ti|tle lang='x'>")
        self.assertEqual(found["contents"], {"kind": "markdown", "value": f"`{self.folder}/s.rnc:14`\n\nIts title\n\n```rnc\nelement title {{ attribute lang {{ text }}, text }}\n```"})
        self.assertEqual(found["range"], {"start": {"line": 1, "character": 32}, "end": {"line": 1, "character": 37}})
        self.assertIn("Who gets it\n\n```rnc\nattribute to { \"Ada\" | \"Bob\" }", self.asked("hover", f"{MODEL}<letter xmlns='urn:l' t|o='Ada'/>")["contents"]["value"])
        self.assertIn("A letter\nto someone", self.asked("hover", f"{BEGIN}</lett|er>")["contents"]["value"])
        self.assertIsNone(self.asked("hover", f"{BEGIN}<no|ne/>"))
        self.assertIsNone(self.asked("hover", f"{BEGIN}wo|rds"))
        self.assertIsNone(self.asked("hover", f"{MODEL}<letter xml|ns='urn:l'/>"))

    def test_definition(self):
        for text, line, name in ((f"{BEGIN}<ti|tle/>", 13, "title"), (f"{BEGIN}<n:no|te xmlns:n='urn:o'/>", 15, "o:note"), (f"{BEGIN}</lett|er>", 6, "letter"),
                                 (f"{BEGIN}<title la|ng='x'/>", 13, "lang")):
            found = self.asked("definition", text)
            self.assertEqual([each["uri"] for each in found], [self.uri("s.rnc")], text)
            start, end = found[0]["range"]["start"], found[0]["range"]["end"]
            self.assertEqual((start["line"], LETTER.splitlines()[line][start["character"]:end["character"]]), (line, name), text)

    def test_the_schema(self):
        found = self.asked("definition", '<?xml-model hr|ef="s.rnc"?><a/>')
        self.assertEqual(found, [{"uri": self.uri("s.rnc"), "range": {"start": {"line": 0, "character": 0}, "end": {"line": 0, "character": 0}}}])
        self.assertIsNone(self.asked("definition", '<?xml-model href="no|ne.rnc"?><a/>'))

    def test_several_files(self):
        self.write("s.rnc", 'include "parts/t.rnc" { start = a }\na = element a { t, element b { attribute c { "1" }, t }, attribute c { "2" }? }\n')
        self.write("parts/t.rnc", "start = notAllowed\n## a text\nt = element t { c?, text }\nc = attribute c { text }\n")
        found = self.asked("definition", f"{MODEL}<a><t |c='x'/></a>".replace("|c", "c|"))
        self.assertEqual([(each["uri"], each["range"]["start"]["line"]) for each in found], [(self.uri("parts/t.rnc"), 3)])
        found = self.asked("definition", f"{MODEL}<a><t/><b c|='1'/></a>")
        self.assertEqual([(each["uri"], each["range"]["start"]) for each in found], [(self.uri("s.rnc"), {"line": 1, "character": 41})])
        self.assertIn("a text", self.asked("hover", f"{MODEL}<a><t|/></a>")["contents"]["value"])


class BySettings(Asking):
    """A schema that the settings name, and a client without snippets and with other units."""

    SHARED = False
    OPTIONS = {"schemas": [{"pattern": "*.xml", "schema": "s.rnc"}]}
    CAPABILITIES = {"general": {"positionEncodings": ["utf-32"]}}

    def test_an_empty_document(self):
        for text, wanted in (("|", "<letter xmlns=\"urn:l\""), ("<|", "letter xmlns=\"urn:l\""), ("\n|\n", "<letter xmlns=\"urn:l\"")):
            self.assertEqual([item["textEdit"]["newText"] for item in self.items(text)], [wanted], text)
        self.assertEqual(self.labels("<!-- <|"), [])

    def test_texts_and_units(self):
        text = "<letter xmlns='urn:l' to='Ada'><!-- \U0001F600 --><title "
        self.assertEqual([(item["textEdit"]["newText"], item["textEdit"]["range"]["start"]["character"]) for item in self.items(f"{text}|", units=len(text))],
                         [('lang=""', len(text))])
        found = self.asked("hover", f"{text[:-6]}|{text[-6:]}>", units=len(text) - 6)
        self.assertEqual(found["contents"], {"kind": "plaintext", "value": "s.rnc:14\n\nIts title\n\nelement title { attribute lang { text }, text }"})
        self.assertEqual(found["range"]["end"]["character"], len(text) - 1)

    def test_before_the_schema_is_known(self):
        """The client is told to ask again, and gets what needs no schema."""
        self.write("large.rnc", "start = " + " | ".join(f"element a{number} {{ text }}" for number in range(900)))
        uri = self.uri("b.xml")
        self.client.open(uri, '<?xml-model href="large.rnc"?><a><')
        place = {"textDocument": {"uri": uri}, "position": {"line": 0, "character": 34}}
        first = self.client.request("textDocument/completion", place)["result"]
        self.client.found(uri)
        second = self.client.request("textDocument/completion", place)["result"]
        self.assertFalse(second["isIncomplete"])
        self.assertEqual([[item["label"] for item in answer["items"]] for answer in (first, second)], [["/a"], ["/a"]])



if __name__ == "__main__":
    unittest.main()
