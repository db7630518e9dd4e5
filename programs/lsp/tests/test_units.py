"""Tests of single parts of the server."""
import io
import json
import queue
import random
import re
import sys
import threading
import time
import unittest
import unittest.mock

from client import NO_XML_LIBRARY, TOP, has_xml_library

sys.path[:0] = [str(TOP / "programs/lsp"), str(TOP / "programs/xml/converter")]
from pyx_writer import convert  # noqa: E402
from rncv_lsp.coordinator import Coordinator  # noqa: E402
from rncv_lsp.documents import Document, Documents  # noqa: E402
from rncv_lsp.findings import Finding, address, slug  # noqa: E402
from rncv_lsp.framing import MessageReader  # noqa: E402
from rncv_lsp.jobs import Idle, Jobs  # noqa: E402
from rncv_lsp.outside import rncv  # noqa: E402
from rncv_lsp.parts import joined_capabilities, joined_requests  # noqa: E402
from rncv_lsp.rpc import Connection, Dispatcher  # noqa: E402
from rncv_lsp.schemas import Outcome  # noqa: E402
from rncv_lsp.settings import matches  # noqa: E402
from rncv_lsp.texts import CODECS, PIECE_LENGTH, Text, units  # noqa: E402
from rncv_lsp.versions import shown_version  # noqa: E402
from rncv_lsp.xml_judging import judged  # noqa: E402
from xml_feed import OutsideProfile  # noqa: E402

TEXTS = ("1", "t", " ", "\n", "<!-- c -->", "<?p?>", "&amp;", "")
LETTERS = ["a", "\u00e9", "\u20ac", "\U0001F600", "\r", "\n", "\r\n", "\ud800", ""]


def plain_offset(text, line, character, encoding):
    """The offset of a position, by the definition: line by line, and character by character."""
    starts = [0, *(end.end() for end in re.finditer("\r\n|\r|\n", text))]
    if line >= len(starts):
        return len(text)
    at = starts[line]
    while at < len(text) and text[at] not in "\r\n":
        character -= units(text[at], encoding)
        if character < 0:
            return at
        at += 1
    return at


class Units(unittest.TestCase):
    """Texts, patterns and addresses."""

    def test_positions_and_offsets(self):
        chosen = random.Random(1)
        for _ in range(300):
            text = Text("".join(chosen.choice(LETTERS) for _ in range(chosen.randrange(12))))
            for encoding in CODECS:
                for offset in range(len(text.text) + 1):
                    place = text.position(offset, encoding)
                    back = text.offset(place["line"], place["character"], encoding)
                    is_inside = text.text[offset - 1:offset + 1] == "\r\n"
                    self.assertEqual(back, offset - 1 if is_inside else offset, (text.text, encoding, offset))

    def test_positions_that_are_none(self):
        text = Text("a\U0001F600b\r\nc")
        self.assertEqual([text.offset(0, at, "utf-16") for at in range(6)], [0, 1, 1, 2, 3, 3])
        self.assertEqual([text.offset(0, at, "utf-8") for at in range(8)], [0, 1, 1, 1, 1, 2, 3, 3])
        self.assertEqual((text.offset(1, 9, "utf-16"), text.offset(2, 0, "utf-16"), text.offset(10**30, 10**30, "utf-16")), (6, 6, 6))
        self.assertEqual(units("\U0001F600\ud800", "utf-16"), 3)

    def test_edits_at_random(self):
        chosen, letters = random.Random(6), [*LETTERS, "\udc00", "abc", "\r\r\n\n"]

        def words(most):
            return "".join(chosen.choice(letters) for _ in range(chosen.randrange(most)))

        for length in (1, 2, 5, 4_096):
            with unittest.mock.patch("rncv_lsp.texts.PIECE_LENGTH", length):
                for _ in range(40):
                    plain = words(40)
                    text = Text(plain)
                    for _ in range(15):
                        encoding = chosen.choice(list(CODECS))
                        places = [{"line": chosen.randrange(-1, 12), "character": chosen.randrange(9)} for _ in range(2)]
                        new = words(chosen.choice((2, 30)))
                        start, end = (plain_offset(plain, max(0, place["line"]), place["character"], encoding) for place in places)
                        text = text.edited({"range": {"start": places[0], "end": places[1]}, "text": new}, encoding)
                        plain = plain[:start] + new + plain[max(start, end):]
                        self.assertEqual((text.text, text.length), (plain, len(plain)))
                        self.assertTrue(all(piece.text for piece in text.pieces) or len(text.pieces) == 1)
                        start, end = sorted(chosen.randrange(len(plain) + 1) for _ in range(2))
                        self.assertEqual(text.slice(start, end), plain[start:end])
                        line = sum(found.end() <= start for found in re.finditer("\r\n|\r|\n", plain))
                        begin = plain_offset(plain, line, 0, encoding)
                        self.assertEqual(text.position(start, encoding), {"line": line, "character": units(plain[begin:start], encoding)})
                        self.assertEqual(text.at(line + 1, 2), min(begin + 1, len(plain)))

    def test_pieces_keep_their_size(self):
        text = Text("")
        for number in range(3_000):
            place = {"line": number % 7 * (number // 20), "character": number % 11}
            text = text.edited({"range": {"start": place, "end": place}, "text": "some words\n" * (number % 5) + "\U0001F600"}, "utf-16")
        lengths = [piece.length for piece in text.pieces]
        self.assertGreater(len(lengths), 10)
        self.assertLess(max(lengths), 3 * PIECE_LENGTH)
        self.assertGreater(sorted(lengths)[len(lengths) // 4], PIECE_LENGTH // 4)

    def test_edits(self):
        change = {"range": {"start": {"line": 0, "character": 3}, "end": {"line": 0, "character": 1}}, "text": "x"}
        self.assertEqual(Text("abcd").edited(change, "utf-16").text, "abcxd")

    def test_patterns(self):
        roots = ("/home/site",)
        for pattern, path, wanted in (
                ("**/*.xhtml", "/home/site/a.xhtml", True), ("**/*.xhtml", "/other/b/a.xhtml", True), ("*.xml", "/other/b/a.xml", True),
                ("notes/*.xml", "/home/site/notes/a.xml", True),
                ("notes/*.xml", "/home/site/notes/b/a.xml", False), ("notes/*.xml", "/other/notes/a.xml", False),
                ("/home/**/a?.xml", "/home/b/c/ab.xml", True), ("/home/**/a?.xml", "/home/b/c/a.xml", False), ("a[!b-c].xml", "/x/ad.xml", True),
                ("a[!b-c].xml", "/x/ab.xml", False), ("a[]].xml", "/x/a.xml", False), ("{a,b*}.xml", "/x/bc.xml", True), ("{a,b*}.xml", "/x/c.xml", False),
                ("a.xml", "/x/aXxml", False), ("[z-a]", "/x/a", False), ("**", "/x/y", True), ("a[\\].x", "/x/a\\.x", True), ("a[^&&~].x", "/x/ab.x", True)):
            self.assertEqual(matches(pattern, path, roots), wanted, (pattern, path))

    def test_addresses_of_clauses(self):
        page = (TOP / "docs/use/CLAUSES.md").read_text(encoding="utf-8")
        headings = {found[1]: found[2] for found in re.finditer(r"^### ((?:S|P)\d+): (.*)$", page, re.M)}
        self.assertEqual(len(headings), 40)
        for clause, title in headings.items():
            self.assertEqual(slug(f"{clause}: {rncv.clause_title(clause[0], int(clause[1:]))}"), slug(f"{clause}: {title}"))
        finding = Finding(0, 1, "no", "S14", "a grammar has a start (4.18)")
        self.assertEqual(address("https://x.example/rncv/clause/", finding), "https://x.example/rncv/clause/S14.html")
        self.assertEqual(address("https://x.example/CLAUSES.md", finding), "https://x.example/CLAUSES.md#s14-a-grammar-has-a-start-418")
        self.assertEqual(slug("P5: the escapes are `\\n`, `\\t` and `\\\\` (profile)"), "p5-the-escapes-are-n-t-and--profile")

    def test_version(self):
        with unittest.mock.patch.object(rncv, "version", return_value="9.9.9"):
            own = shown_version()
        self.assertRegex(own, r"^\d+\.\d+\.\d+$")
        with unittest.mock.patch.object(rncv, "version", return_value="9.9.9 (not proved)"):
            self.assertEqual(shown_version(), f"{own} (not proved)")
        with unittest.mock.patch.object(rncv, "version", side_effect=rncv.LibraryError("none")):
            self.assertEqual(shown_version(), own)


@unittest.skipUnless(has_xml_library(), NO_XML_LIBRARY)
class Verdicts(unittest.TestCase):
    """The findings in a document agree with the library's verdict on the same lines."""

    SCHEMA = b"""start = element a { attribute x { xsd:integer }?, (element b { attribute y { "1" | "2" }?, xsd:integer }
                 | element c { (element b { text })*, text })*, element d { empty }? }"""

    def setUp(self):
        self.chosen = random.Random(3)

    def element(self, name, depth):
        """An element, valid or not."""
        attributes = "".join(f' {each}="{self.chosen.choice("123q")}"' for each in self.chosen.sample("xy", self.chosen.choice((0, 0, 0, 1, 2))))
        kinds = (lambda: self.element(self.chosen.choice("bcd"), depth + 1) if depth < 4 else "", lambda: self.chosen.choice(TEXTS))
        return f"<{name}{attributes}>{''.join(self.chosen.choice(kinds)() for _ in range(self.chosen.randrange(4)))}</{name}>"

    def test_generated_documents(self):
        kinds, outcome = set(), Outcome("s")
        with rncv.compile({"s.rnc": self.SCHEMA}) as validator:
            for _ in range(400):
                text = self.element("a", 0)
                if self.chosen.random() < 0.2:
                    cut = self.chosen.randrange(len(text))
                    text = text[:cut] + self.chosen.choice('<>&"x') + text[cut + 1:]
                found = judged(Document("u", "/u", "/u", "xml", 1, Text(text)), validator, outcome, lambda: False, 20)
                codes = [finding.code for finding in found if finding.code != "hint"]
                kinds.update(finding.code for finding in found if finding.code == "hint")
                lines = []
                try:
                    convert(io.BytesIO(text.encode("utf-8")), lines.append)
                    wanted = validator.validate(b"".join(lines)).kind
                    self.assertEqual(codes, {"valid": [], "invalid": ["invalid"]}.get(wanted, codes), text)
                except OutsideProfile:
                    wanted = "no document"
                    self.assertIn(codes[0], ("malformed", "outside"), text)
                self.assertTrue(all(0 <= finding.start <= finding.end <= len(text) for finding in found), text)
                kinds.update([wanted, *(" ".join(finding.message.split()[:3]) for finding in found if finding.code == "invalid")])
        self.assertGreaterEqual(kinds, {"valid", "invalid", "hint", "no document",
                                        "invalid: attribute y", "invalid: text is", "invalid: the text", "invalid: <b> is"})


class Broken:
    """A device that is gone."""

    def write(self, data):
        raise BrokenPipeError

    flush = write


class Faults(unittest.TestCase):
    """The server reports its own errors, and continues."""

    def setUp(self):
        self.sink = io.BytesIO()
        self.connection = Connection(self.sink)

    def sent(self):
        """The messages that were sent."""
        reader = MessageReader(io.BytesIO(self.sink.getvalue()))
        return [json.loads(data) for data in iter(reader.read, None)]

    def test_handlers(self):
        dispatcher = Dispatcher(self.connection, lambda method, is_request: True)
        dispatcher.requests["r"] = dispatcher.notifications["n"] = lambda params: [][0]
        dispatcher.take(b'{"id": 1, "method": "r"}')
        dispatcher.take(b'{"method": "n"}')
        reported = "internal error: IndexError: list index out of range"
        log = {"jsonrpc": "2.0", "method": "window/logMessage", "params": {"type": 1, "message": f"rncv-lsp: {reported}"}}
        self.assertEqual(self.sent(), [log, {"jsonrpc": "2.0", "id": 1, "error": {"code": -32603, "message": reported}}, log])

    def test_jobs(self):
        reported, done = queue.Queue(), queue.Queue()
        jobs = Jobs(reported.put)
        for number in range(5):
            jobs.put("fault", lambda: [][0])
            self.assertIsInstance(reported.get(timeout=120), IndexError)
            jobs.put("good", lambda: done.put(number))
            self.assertEqual(done.get(timeout=120), number)

    def test_judging(self):
        documents = Documents()
        coordinator = Coordinator(documents, self.connection)
        documents.open(Document("file:///none/s.rnc", "/none/s.rnc", "/none/s.rnc", "rnc", 1, 5))
        coordinator.start()
        coordinator.touch()
        limit = time.monotonic() + 120
        while not self.sink.getvalue() and time.monotonic() < limit:
            time.sleep(0.01)
        self.assertIn("internal error: AttributeError", self.sent()[0]["params"]["message"])

    def test_the_other_side_is_gone(self):
        connection = Connection(Broken())
        connection.log(1, "x")
        connection.notify("x", None)


class Waits(unittest.TestCase):
    """Threads that give way."""

    def test_a_thread_gives_way_to_another_one(self):
        idle, done = Idle(), queue.Queue()
        idle.wait()
        with idle:
            idle.wait()  # it does not wait for itself
            threading.Thread(target=lambda: done.put(idle.wait()), daemon=True).start()
            self.assertRaises(queue.Empty, done.get, timeout=0.1)
        self.assertIsNone(done.get(timeout=120))


class PartsTest(unittest.TestCase):
    """Parts that answer requests."""

    def test_requests(self):
        one, other = {"a": lambda params: params or None, "b": lambda params: "one"}, {"a": lambda params: "other", "c": lambda params: None}
        found = joined_requests([one, other])
        self.assertEqual([found[name](0) for name in "abc"], ["other", "one", None])
        self.assertEqual(found["a"](1), 1)
        self.assertEqual(joined_requests([]), {})

    def test_capabilities(self):
        one = {"hover": True, "completion": {"characters": ["<", " "], "more": 1}}
        other = {"rename": {"prepare": True}, "completion": {"characters": [":", "<"]}}
        self.assertEqual(joined_capabilities([one, other]), {"hover": True, "rename": {"prepare": True}, "completion": {"characters": ["<", " ", ":"], "more": 1}})


if __name__ == "__main__":
    unittest.main()
