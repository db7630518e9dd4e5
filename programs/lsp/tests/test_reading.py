"""Tests of readings up to the cursor, by random documents, edits and places."""
import random
import re
import sys
import unittest
import unittest.mock

from client import TOP
from test_answers import LETTER

sys.path.insert(0, str(TOP / "programs/lsp"))
from rncv_lsp.outside import rncv  # noqa: E402
from rncv_lsp.schema_declarations import Declarations  # noqa: E402
from rncv_lsp.schema_files import SchemaFile, SchemaSet  # noqa: E402
from rncv_lsp.simple_form import Form  # noqa: E402
from rncv_lsp.texts import Text  # noqa: E402
from rncv_lsp.xml_completion import Asked, Completion, Knowledge  # noqa: E402
from rncv_lsp.xml_cursor import boundary, continues, cursor_at  # noqa: E402
from rncv_lsp.xml_feeds import EventFeed, PyxFeed  # noqa: E402
from rncv_lsp.xml_reading import STRETCH_LENGTH, Reading  # noqa: E402

PIECES = ("words", "<!--c \U0001F600 <x> -->", "<?p <q> ?>", "<![CDATA[ <z> ]]>", "&amp;", "\r\n", "\r", "\u00e9", "\U00010000")
BLANKS = (" ", "\n", "\r\n", "<!-- <a> -->", "<?p?>")
EDITS = ("", "<", ">", "</", "<p", "x", '"', "'", "&", "<!--", "-->", "]]>", "<![CDATA[", " ", "=", "<a b='", "\r", "<?", "\0", "\ud800", "<!DOCTYPE a [",
         "<p>", "</p>", "<para>", "</para>")
HIDDEN = re.compile(r"<!--.*?-->|<!\[CDATA\[.*?\]\]>|<\?.*?\?>|<!DOCTYPE.*?\]>", re.S)
ENCODING = "utf-16"
ROUNDS, EDIT_COUNT = 80, 12


def some(chosen, parts, most=3):
    """Some of these parts, one behind the other."""
    return "".join(chosen.choice(parts) for _ in range(chosen.randrange(most)))


def para(chosen):
    """An element with others and texts in it."""
    first, then = (some(chosen, (element, *PIECES), 4) for element in ("<done>yes</done>", "<p>&amp;</p>"))
    return f"<para>{first}{then}</para>{some(chosen, BLANKS)}"


def letter(chosen):
    """A valid document."""
    start = chosen.choice(("", "<?xml version='1.0'?>\r\n", "<!DOCTYPE letter [<!ENTITY e '>'> <!-- ' --> ]>\n"))
    given = chosen.choice(("", " xmlns:n='urn:o' n:sent='true'", ' kind="new old"'))
    title = chosen.choice(("", f"<title lang='x>y'>{some(chosen, PIECES)}</title>"))
    notes = "".join(chosen.choice((para(chosen), "<note xmlns='urn:o' id='i'/>")) for _ in range(chosen.randrange(5)))
    return f"{start}<letter xmlns='urn:l' to='Ada'{given}>{some(chosen, BLANKS)}{title}{notes}{chosen.choice(('', '<end/>'))}</letter>"


class Readings(unittest.TestCase):
    """One schema, and documents that are made by chance."""

    def setUp(self):
        self.validator = rncv.compile({"s": LETTER.encode()}, datatypes="xml-schema")
        self.other = self.validator.share()
        form = Form(self.validator.simple_text().decode())
        self.elements = rncv.compile({"s": form.schema_of_elements().encode()}, datatypes="xml-schema")
        main = SchemaFile("s", "/s.rnc", LETTER.encode())
        self.known = Knowledge(form, Declarations(SchemaSet(main, {"s": main})))
        for validator in (self.validator, self.other, self.elements):
            self.addCleanup(validator.close)

    def answer(self, reading, text, place):
        """The cursor at a place, and the items there. The elements that are open begin at their tags, and each edit is around the cursor in its line."""
        cursor = cursor_at(reading, text, place)
        for each in cursor.open:
            self.assertEqual(text.slice(each.start, each.start + 1 + len(each.name)), "<" + each.name)
        expected = reading.expected() if cursor.kind in ("element", "content") else None
        items = Completion(Asked(text, cursor, expected, ENCODING, True), self.known).items()
        for item in items:
            start, end = (text.offset(*item["textEdit"]["range"][each].values(), ENCODING) for each in ("start", "end"))
            self.assertTrue(start <= place <= end and not set(text.slice(start, end)) & set("\r\n"), (cursor, item))
        return cursor, expected, items

    def test_what_is_there_is_offered(self):
        for seed in range(ROUNDS):
            document = letter(random.Random(seed))
            self.assertTrue(self.other.validate_xml(document.encode()), document)
            text, reading = Text(document), Reading((EventFeed if seed % 2 else PyxFeed)(self.validator))
            for found in re.finditer(r"<(/?[a-z]+)", HIDDEN.sub(lambda part: "\0" * len(part[0]), document)):
                cursor, expected, items = self.answer(reading, text, found.start(1))
                labels = [item["label"].rpartition(":")[2] for item in items]
                self.assertIn(found[1].lstrip("/"), labels if found[1][0] != "/" else [label.lstrip("/") for label in labels], (document, cursor))
                self.check_inside(text, cursor, expected)
            reading.feed.close()

    def check_inside(self, text, cursor, expected):
        """In the innermost element alone, without attributes, at least as much is expected."""
        if not cursor.open or expected is None:
            return
        reading = Reading(PyxFeed(self.elements), cursor.open[-1])
        reading.advance(text, boundary(text, cursor.start))
        found = reading.expected()
        reading.feed.close()
        self.assertTrue(set(expected.elements) <= set(found.elements) and set(expected.values) <= set(found.values), cursor)

    def test_a_reading_that_goes_on(self):
        known = 0
        for seed in range(ROUNDS):
            with unittest.mock.patch("rncv_lsp.xml_reading.STRETCH_LENGTH", (1, 10, 40, 8_192)[seed % 4]):
                known += self.check_going_on(seed)
        self.assertGreater(known, ROUNDS // 2)

    def check_going_on(self, seed):
        """A reading that goes on, or begins anew with what is known, tells what one does that knows nothing. Returns how many stretches were known."""
        chosen = random.Random(seed)
        document, kept, count = letter(chosen), Reading(PyxFeed(self.validator)), 0
        for _ in range(EDIT_COUNT):
            at = chosen.randrange(len(document) + 1)
            document = document[:at] + chosen.choice(EDITS) + document[at + chosen.choice((0, 0, 0, 1, 3, 10)):]
            place = min(chosen.choice((at, at + 1, chosen.randrange(len(document) + 1))), len(document))
            place -= document[place - 1:place + 1] == "\r\n"
            text = Text(document)
            if not continues(kept, text, place):
                kept.feed.close()
                kept = Reading(PyxFeed(self.validator), None, kept.known)
                kept.known.move_to(text)
                count += len(kept.known.by_start)
            fresh = Reading(PyxFeed(self.other))
            self.assertEqual(self.answer(kept, text, place), self.answer(fresh, text, place), (document, place))
            fresh.feed.close()
        kept.feed.close()
        return count

    def test_a_reading_that_is_too_far(self):
        cases = (("<l<<!--a>", 4, "<l<!--a>", 3), ("<letter><<", 10, "<letter><!--", 9), ("<letter xmlns='urn:l'>a<", 24, "<letter xmlns='urn:l'>ab", 23))
        for before, first, document, place in cases:
            kept, fresh, text = Reading(PyxFeed(self.validator)), Reading(PyxFeed(self.other)), Text(document)
            cursor_at(kept, Text(before), first)
            if not continues(kept, text, place):
                kept.feed.close()
                kept = Reading(PyxFeed(self.validator))
            self.assertEqual(self.answer(kept, text, place), self.answer(fresh, text, place), document)
            kept.feed.close()
            fresh.feed.close()

    def test_edits_that_change_what_is_behind_them(self):
        text = Text("<!DOCTYPE letter [<!ENTITY e 'words'>]>\n<letter xmlns='urn:l' to='Ada'>" + "<para>a</para>" * 9 + "<para>&e;</para>" * 20 + "</letter>")
        edits = (("ENTITY e", "ENTITY f"), ("ENTITY f", "ENTITY e"), ("<para>", "<para><para>"), ("<para><para>", "<para>"),
                 ("urn:l", "urn:o"), ("urn:o", "urn:l"), ("a</para>", "a<!--</para>"), ("<!--", "<![CDATA["), ("<![CDATA[", ""), ("</para>", "</para>\u00e9"))
        with unittest.mock.patch("rncv_lsp.xml_reading.STRETCH_LENGTH", 40):
            ahead = Reading(PyxFeed(None))
            ahead.advance(text, text.length)
            for old, new in edits:
                at = text.text.index(old)
                text = text._replaced(at, at + len(old), new)
                reading, fresh = Reading(PyxFeed(self.validator), None, ahead.known), Reading(PyxFeed(self.other))
                self.assertEqual(self.answer(reading, text, text.length - 50), self.answer(fresh, text, text.length - 50), new)
                self.assertEqual((reading.fault_at, reading.is_in_data), (fresh.fault_at, fresh.is_in_data))
                reading.feed.close()
                fresh.feed.close()

    def test_what_is_parsed_again(self):
        items = "".join(f"<para>{number}<p>words</p>\n</para>" for number in range(4_000))
        text = Text(f"<letter xmlns='urn:l' to='Ada'>{items}</letter>")
        ahead = Reading(PyxFeed(None))
        ahead.advance(text, text.length)
        known, parse, parsed = ahead.known, Reading._parse, []
        self.assertGreater(len(known.by_start), 10)
        with unittest.mock.patch.object(Reading, "_parse", lambda reading, begin: (parsed.append(reading.at - begin), parse(reading, begin))):
            for number in range(30):
                place = text.text.index("<p>", number * 7_919 % 30 * (text.length // 31))
                text = text._replaced(place, place, "<em>\u00e9</em>")
                reading = Reading(PyxFeed(self.validator), None, known)
                fresh = Reading(PyxFeed(self.other))
                parsed.clear()
                cursor = cursor_at(reading, text, place + 1)
                self.assertLess(sum(parsed), 3 * STRETCH_LENGTH)
                self.assertEqual((cursor, reading.expected()), (cursor_at(fresh, text, place + 1), fresh.expected()))
                reading.feed.close()
                fresh.feed.close()


if __name__ == "__main__":
    unittest.main()
