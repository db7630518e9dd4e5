"""Tests of how long the server takes for edits of large documents, and for requests that come while it judges. The limits are for a busy machine.

    python3 -B test_speed.py --times     prints how long answers take behind keystrokes at 20 places in 200 KB, and the first ones: of a processor, by the
                                         clock, and until the client has read them
"""
import gc
import itertools
import os
import pathlib
import statistics
import sys
import time
import unittest
from typing import NamedTuple

from client import SCHEMA, WithServer

MODEL = '<?xml-model href="s.rnc"?>\n'
ITEM = "<item at='1'>text and <![CDATA[more]]> \u00e9</item>"
COUNT = 100_000
EDITS = 100
# The longest that an answer may take behind a keystroke in a document of this length. Where many others use the processors, it
# takes three times as long. The first answer about a document of which nothing is read may take so much of a processor.
ANSWER_SECONDS, ANSWER_LENGTH, BUSY, FIRST_SECONDS = 0.02, 200_000, 3, 0.3
PLACES = 20
# What has an empty answer at some of the places.
MAY_BE_EMPTY = ("completion of an element", "completion of an attribute", "completion of a value", "hover", "definition", "formatting", "rangeFormatting")
BOOK_SCHEMA = """## A book
start = element book { element title { text }, chapter+ }
## A chapter
chapter = element chapter { attribute id { xsd:NCName }, element title { text }, section* }
section = element section { attribute role { "draft" | "final" }?, element title { text }, (para | items)* }
## A paragraph
para = element para { (text | element emph { text } | element link { attribute href { xsd:anyURI }, text })* }
items = element list { element item { para+ }+ }
"""
PARA = "<para>Some words <emph>here</emph> and <link href='http://example.org/'>there</link>.</para>\n"
SECTION = ("<section role='draft'><title>Section</title>\n" + PARA * 6 + "<list><item><para>one</para></item><item><para>two</para></item></list>\n"
           "</section>\n")
DEFINITION = """## The element {0}
# and more words
e{0} = element name{0} {{
  attribute id {{ xsd:NCName }}?,
  attribute kind {{ "a" | "b" }}?,
  (e{1} | text | element inner{0} {{ text }})*
}}
"""
NOTE = '''[ a:note [ """
  Some words about the element {0},
  in two lines.
""" ] ]
'''
# What is typed in front of a definition, or in one, and what closes it: the column, the words, how many lines further they are closed, and by what.
OPENED = ((0, "div {", 700, "}"), (0, "grammar {", 0, "}"), (2, '"""', 0, '"""'), (2, "[", 0, "]"), (2, "(", 0, ")"), (2, "{", 0, "}"))
# The pauses before the requests behind a keystroke. The server judges 30 milliseconds behind a message.
PAUSES = ((0.0,), (0.1, 0.02), (0.035,), (0.05, 0.0, 0.02), (0.15,))
# The requests that are about one file alone.
OF_ONE_FILE = ("documentSymbol", "foldingRange", "formatting")
KINDS = ("in_a_document", "in_a_schema", "in_an_open_schema", "with_pauses", "at_first", "at_once")
# For so many hundredths of a second a server does nothing that is idle.
QUIET = 30
# Some 0.2 seconds when nothing else runs. To copy the whole text for each edit would take 20 seconds.
SECONDS = 10.0


class Large(WithServer):
    """A document of 5 MB."""

    def setUp(self):
        super().setUp()
        self.write("s.rnc", SCHEMA)
        self.uri_of_document = self.uri("a.xml")

    def edited(self, places):
        """How long it takes until a request behind edits at these places is answered."""
        begin = time.monotonic()
        for version, (line, character) in enumerate(places, 2):
            self.client.change(self.uri_of_document, version, (line, character, line, character, "x"))
        self.client.request("x")
        return time.monotonic() - begin

    def test_edits_of_many_lines(self):
        self.client.open(self.uri_of_document, f"{MODEL}<list>\n" + f"{ITEM}\n" * COUNT + "</list>")
        self.assertLess(self.edited([(number * 7_919 % COUNT + 2, 13) for number in range(EDITS)]), SECONDS)
        self.assertEqual(self.client.found(self.uri_of_document, EDITS + 1), [])

    def test_edits_of_one_line(self):
        self.client.open(self.uri_of_document, f"{MODEL}<list>" + ITEM * COUNT + "</list>")
        # Each edit is made in front of those before it, so that all places are in the texts of items.
        self.assertLess(self.edited([(1, 6 + number * 900 * len(ITEM) + 13) for number in reversed(range(EDITS))]), SECONDS)
        self.client.change(self.uri_of_document, EDITS + 2, (1, 0, 1, 6 + 900 * len(ITEM) * (EDITS - 1) + EDITS - 1, "<list>"))
        self.assertEqual(self.client.found(self.uri_of_document, EDITS + 2), [])

    def test_requests_while_documents_are_judged(self):
        for name in ("a.xml", "b.xml", "c.xml"):
            self.client.open(self.uri(name), f"{MODEL}<list>\n" + f"{ITEM}\n" * COUNT + "</list>")
        self.client.request("x")
        times = []
        for number in range(100):
            if number % 10 == 0:
                self.client.change(self.uri("b.xml"), number + 2, (number + 2, 13, number + 2, 13, "x"))
            begin = time.monotonic()
            self.client.request("x")
            times.append(time.monotonic() - begin)
            time.sleep(0.01)
        self.assertNotIn(self.uri("b.xml"), self.client.versions)
        self.assertLess(sorted(times)[50], 0.1)
        self.assertLess(max(times), 2.0)

    def test_completion_behind_each_keystroke(self):
        """Near the end of 200 KB. An answer takes about a millisecond when nothing else runs, and some 30 if all is read anew."""
        count = ANSWER_LENGTH // len(ITEM)
        self.client.open(self.uri_of_document, f"{MODEL}<list>\n" + f"{ITEM}\n" * count + "\n</list>")
        self.client.found(self.uri_of_document)
        times = []
        for column, letter in enumerate("<item at='1'"):
            self.client.change(self.uri_of_document, column + 2, (count + 2, column, count + 2, column, letter))
            begin = time.monotonic()
            place = {"textDocument": {"uri": self.uri_of_document}, "position": {"line": count + 2, "character": column + 1}}
            answer = self.client.request("textDocument/completion", place)["result"]
            times.append(time.monotonic() - begin)
            self.assertEqual(bool(answer["items"]), column < len("<item at"), column)
        self.assertLess(min(times), ANSWER_SECONDS)  # the least, since other tests take the processor too


class Times(NamedTuple):
    """The seconds of an answer: of a processor, in the thread that answers; by the clock, until all its bytes are there; the same without what threads have
    waited for a processor, as far as that is known; and until the client has read it."""

    spent: float
    clock: float
    busy: float
    read: float


class Answers(WithServer):
    """How long answers take behind keystrokes that are spread over documents of 200 KB."""

    CAPABILITIES = {"textDocument": {"documentSymbol": {"hierarchicalDocumentSymbolSupport": True}}}

    def setUp(self):
        super().setUp()
        # Answers are large, and the client looks for cycles in none of them.
        gc.disable()
        self.addCleanup(gc.enable)

    def spent(self):
        """The processor time of the thread that answers; the clock, if the system does not tell it."""
        identity = self.client.process.pid
        try:
            return int(pathlib.Path(f"/proc/{identity}/task/{identity}/schedstat").read_text().split()[0]) / 1e9
        except (OSError, IndexError, ValueError):
            return time.perf_counter()

    def waited(self):
        """How long all threads of the server and of the client have waited for a processor; 0, if the system does not tell it."""
        tasks = (path for identity in (self.client.process.pid, os.getpid()) for path in pathlib.Path(f"/proc/{identity}/task").glob("*/schedstat"))
        try:
            return sum(int(path.read_text().split()[1]) for path in tasks) / 1e9
        except (OSError, IndexError, ValueError):
            return 0.0

    def idle(self):
        """Waits until no thread of the server has anything to do. If the system does not tell that, some seconds."""
        tasks, quiet = pathlib.Path(f"/proc/{self.client.process.pid}/task"), 0
        if not tasks.exists():
            time.sleep(5)
            return
        while quiet < QUIET:
            states = {path.read_text().rpartition(")")[2].split()[0] for path in tasks.glob("*/stat")}
            quiet = quiet + 1 if states == {"S"} else 0
            time.sleep(0.01)

    def timed(self, uri, method, params):
        """The times of the answer to a request, and the answer. A method may have words behind it."""
        waited, spent, begin = self.waited(), self.spent(), time.perf_counter()
        answer = self.client.request(f"textDocument/{method.split()[0]}", {"textDocument": {"uri": uri}, **params})
        taken, spent, arrived = time.perf_counter() - begin, self.spent() - spent, self.client.arrived - begin
        self.client.other.clear()
        return Times(spent, arrived, max(spent, arrived - (self.waited() - waited)), taken), answer

    def typed(self, uri, places, letters, requests):
        """For each request and for the first keystroke at a place, or a later one, how long the answers took. `places` are lines, in which letters are typed
        at a column. Behind each keystroke comes one request, so that it bears all that the keystroke costs."""
        times, version = {}, 1
        self.idle()  # what opening the document costs does not count
        for number, (line, column) in enumerate(places):
            for at, letter in enumerate(letters):
                version += 1
                self.client.change(uri, version, (line, column + at, line, column + at, letter))
                every = requests(line, column + at + 1, letters[:at + 1])
                method = list(every)[(number + at) % len(every)]
                spent, answer = self.timed(uri, method, every[method])
                times.setdefault((method, "there" if at else "first"), []).append(spent)
                self.assertTrue(answer.get("result") or method in MAY_BE_EMPTY, (method, letters[:at + 1], answer))
            version += 1
            self.client.change(uri, version, (line, column, line, column + len(letters), ""))
        return times

    @staticmethod
    def spread(lines):
        """Some of these lines, so that each is far from the one before."""
        chosen = [lines[number * (len(lines) - 1) // (PLACES - 1)] for number in range(PLACES)]
        return [chosen[number * 7 % PLACES] for number in range(PLACES)]

    def in_a_document(self):
        """The times in an XML document."""
        self.write("s.rnc", BOOK_SCHEMA)
        chapter = "<chapter id='c{}'>\n<title>Chapter</title>\n" + SECTION * 8 + "</chapter>\n"
        text = f"{MODEL}<book>\n<title>Book</title>\n" + "".join(map(chapter.format, range(ANSWER_LENGTH // len(chapter) + 1))) + "</book>\n"
        uri = self.uri("a.xml")
        self.client.open(uri, text)
        self.assertEqual(self.client.found(uri), [])
        places = self.spread([number for number, line in enumerate(text.split("\n")) if line.startswith("<para>")])

        def requests(line, column, typed):
            """The requests behind a keystroke."""
            at, name = ({"position": {"line": line, "character": character}} for character in (column, 2))
            what = "a value" if "'" in typed else "an attribute" if " " in typed else "an element"
            return {f"completion of {what}": at, "hover": name, "definition": name}

        return self.typed(uri, [(line, 0) for line in places], "<para/><section role='d", requests)

    @staticmethod
    def schema(has_notes=False, first=""):
        """A schema. It may have notes, and a first component."""
        count = ANSWER_LENGTH // len(DEFINITION)
        notes = {number: NOTE.format(number) for number in range(0, count, 20)} if has_notes else {}
        definitions = "".join(notes.get(number, "") + DEFINITION.format(number, number + 1) for number in range(count))
        return f"namespace a = \"urn:a\"\n{first}start = e0\n{definitions}e{count} = element last {{ empty }}\n"

    def open_schema(self, name, *kind):
        """Opens a schema. Returns its URI, and its lines."""
        uri, text = self.uri(name), self.schema(*kind)
        self.client.open(uri, text, "rnc")
        self.assertEqual(self.client.found(uri), [])
        return uri, text.split("\n")

    @staticmethod
    def requests(line, column, typed):
        """The requests behind a keystroke in a schema."""
        at, name = ({"position": {"line": line, "character": character}} for character in (column, 4))
        options = {"options": {"tabSize": 2, "insertSpaces": True}}
        near = {"start": {"line": max(line - 3, 0), "character": 0}, "end": {"line": line + 3, "character": 0}}
        return {"completion": at, "hover": name, "definition": name, "references": {**name, "context": {"includeDeclaration": True}},
                "rename": {**name, "newName": "other"}, "documentSymbol": {}, "foldingRange": {}, "formatting": options,
                "rangeFormatting": {**options, "range": near}}

    def in_a_schema(self):
        """The times in a schema."""
        uri, lines = self.open_schema("b.rnc")
        places = self.spread([number for number, line in enumerate(lines) if line.startswith("  (e")])
        return self.typed(uri, [(line, 3) for line in places], "e1 | e1 | ", self.requests)

    def in_an_open_schema(self, most=PLACES):
        """The times behind what opens a brace or a literal and closes it, letter by letter, and is undone. Each time another request comes."""
        uri, lines = self.open_schema("b.rnc", True)
        times, methods, version = {}, itertools.cycle(self.requests(0, 0, "")), 1
        self.idle()
        for line in self.spread([number for number, line in enumerate(lines) if line.startswith("  (e")])[:most]:
            for opened in OPENED:
                typed = self.typed_by(opened, line, (line + opened[2]) % len(lines))
                undone = [(*edit[:3], edit[3] + 1, "") for edit in reversed(typed)]
                for when, edit in [*(("typed", edit) for edit in typed), *(("undone", edit) for edit in undone)]:
                    version += 1
                    self.client.change(uri, version, edit)
                    method = next(methods)
                    spent = self.timed(uri, method, self.requests(line, opened[0] + 1, "")[method])[0]
                    times.setdefault((f"{opened[1]}{opened[3]}", when), []).append(spent)
        return times

    @staticmethod
    def typed_by(opened, line, end):
        """The edits that open something near a line, and close it in that line or in another one."""
        column, words, further, closing = opened
        begin = line - 3 if column == 0 else line  # the first line of the definition
        first, end = (0, end) if further else (column + len(words), begin)
        edits = [(begin, at, begin, at, letter) for at, letter in enumerate(words, column)]
        return edits + [(end, at, end, at, letter) for at, letter in enumerate(closing, first)]

    def at_first(self, rounds=3):
        """The times of the first request behind the opening of a schema, once the server was idle."""
        times = {}
        for method, number in itertools.product(self.requests(100, 4, ""), range(rounds)):
            uri, lines = self.open_schema(f"{method}{number}.rnc")
            self.idle()
            line = next(at for at, each in enumerate(lines) if at > len(lines) // 2 and each.startswith("  (e"))
            spent, answer = self.timed(uri, method, self.requests(line, 4, "")[method])
            times.setdefault((method, "opened"), []).append(spent)
            self.assertTrue(answer.get("result") or method in MAY_BE_EMPTY, (method, answer))
            self.client.close(uri)
        return times

    def with_pauses(self, most=PLACES):
        """The times behind keystrokes in a schema that mentions a file, with pauses, in which the server judges."""
        self.write("x.rnc", "x = text\n")
        uri, lines = self.open_schema("b.rnc", False, 'include "x.rnc"\n')
        times, methods, version = {}, itertools.cycle(self.requests(0, 0, "")), 1
        self.idle()
        for line in self.spread([number for number, line in enumerate(lines) if line.startswith("  (e")])[:most]:
            for column, letter in enumerate("e1 | e1 | ", 3):
                version += 1
                self.client.change(uri, version, (line, column, line, column, letter))
                for pause in PAUSES[version % len(PAUSES)]:
                    time.sleep(pause)
                    method = next(methods)
                    spent = self.timed(uri, method, self.requests(line, column + 1, "")[method])[0]
                    times.setdefault((method, "paused"), []).append(spent)
        return times

    def at_once(self, methods=None, rounds=3):
        """The times of the first request right behind the opening of a schema; and of requests about another one that come before."""
        other, times, text = self.open_schema("b.rnc")[0], {}, self.schema()
        for number, method in enumerate([*(methods or self.requests(0, 0, ""))] * rounds):
            uri = self.uri(f"{method}{number}.rnc")
            self.idle()
            self.client.open(uri, text, "rnc")
            for name, asked, when in ((OF_ONE_FILE[number % len(OF_ONE_FILE)], other, "beside"), (method, uri, "at once")):
                spent = self.timed(asked, name, self.requests(100, 4, "")[name])[0]
                times.setdefault((name, when), []).append(spent)
            self.client.found(uri)
            self.client.close(uri)
        return times

    def check(self, times):
        """Wants short times, and longest ones that are not much longer. Those of a clock count without what others had of the processors."""
        for (method, when), each in times.items():
            limit = BUSY * (FIRST_SECONDS if when == "at once" else ANSWER_SECONDS)
            self.assertLess(statistics.median(found.spent for found in each), limit, (method, when))
            self.assertLess(max(found.spent for found in each), limit, (method, when))
            self.assertLess(max(found.busy for found in each), limit, (method, when))

    def test_documents(self):
        self.check(self.in_a_document())

    def test_schemas(self):
        self.check(self.in_a_schema())

    def test_open_schemas(self):
        self.check(self.in_an_open_schema(4))

    def test_schemas_with_pauses(self):
        self.check(self.with_pauses(2))

    def test_first_requests(self):
        self.check(self.at_first(1))

    def test_requests_at_once(self):
        self.check(self.at_once(("completion", "documentSymbol", "formatting"), 1))


def main():
    """Prints the times."""
    for kind in [word for word in sys.argv[1:] if word != "--times"] or KINDS:
        case = Answers(kind)
        Answers.setUpClass()
        case.setUp()
        print(f"{kind}: milliseconds of a processor; by the clock; by the clock without waits for a processor; until the client has read it: the median, and "
              "the worst")
        for (method, when), times in getattr(case, kind)().items():
            shown = "   ".join(f"{1000 * statistics.median(each):6.1f} {1000 * max(each):6.1f}" for each in zip(*times))
            print(f"    {method:26} {when:7} {shown}   of {len(times)}")
        case.doCleanups()


if __name__ == "__main__":
    main() if "--times" in sys.argv else unittest.main()
