"""Tests of why a start or an end leaves nothing."""
import unittest
import unittest.mock as mock
import xml.etree.ElementTree as trees

import rncv

SCHEMA = {"s.rnc": b"""
    namespace p = "urn:p"
    start = element a { (b | element c { element d { empty }+ } | text)* }
    b = element b { attribute x { xsd:int }, attribute p:y { "1" | "2" }?, (attribute u { text } | attribute v { text })?, element d { xsd:int }? }
    """}
# What is told in the root, and why nothing can follow its last event: a tuple is a start, a text, or None for an end.
STARTS = [
    ([("e",)], ("element-not-allowed", None)),
    ([("b", {"x": "1", "z": ""})], ("attribute-not-allowed", "z")),
    ([("b", [("{urn:p}y", "1"), ("x", "one")])], ("attribute-value", "x")),
    ([("b", [("{urn:p}y", "3"), ("x", "1")])], ("attribute-value", "{urn:p}y")),
    ([("b", [("x", "1"), ("v", ""), ("u", "")])], ("attribute-not-allowed", "u")),
    ([("b", [("x", "1"), ("u", ""), ("v", "")])], ("attribute-not-allowed", "v")),
    ([("b", {"{urn:p}y": "2"})], ("attributes-missing", None)),
    ([("b", {"x": "1"}), " t ", ("d",)], ("text-not-allowed", None)),
    ([("b", {"x": "1"}), " t ", None], ("text-not-allowed", None)),
    ([("b", {"x": "1"}), ("d",), "one", None], ("text-value", None)),
    ([("b", {"x": "1"}), ("d",), None], ("incomplete", None)),
    ([("c",), " ", None], ("incomplete", None)),
    ([("c",), ("d",), None, "t", ("d",)], ("text-not-allowed", None)),
]


def tell(events, told):
    """Tells an event."""
    if told is None:
        return events.end()
    return events.text(told) if isinstance(told, str) else events.start(*told)


def attributes_of(told):
    """The attributes of an event, with their names."""
    given = told[1] if isinstance(told, tuple) and len(told) > 1 else {}
    return list(given.items()) if isinstance(given, dict) else given


def lines_of(events):
    """The lines of these events. Each start declares the prefix of its attributes before them."""
    lines, opened = [], []
    for told in events:
        if isinstance(told, str):
            lines.append(f"-{told}")
        elif told is None:
            lines.append(f"){opened.pop()}")
        else:
            opened.append(told[0])
            lines += [f"({told[0]}", "Axmlns:p urn:p", *(f"A{name.replace('{urn:p}', 'p:')} {value}" for name, value in attributes_of(told))]
    return "".join(f"{line}\n" for line in lines).encode()


class Reasons(unittest.TestCase):
    """What is told of a document."""

    def setUp(self):
        self.validator = rncv.compile(SCHEMA, datatypes="xml-schema")
        self.addCleanup(self.validator.close)

    def test_after_a_call(self):
        for told, wanted in STARTS:
            with self.validator.events() as events:
                events.start("a")
                for each in told:
                    self.assertIsNone(events.reason)
                    self.assertTrue(tell(events, each))
                self.assertEqual(events.reason, wanted, told)
                again = events.end_reason() if told[-1] is None else events.start_reason(*told[-1])
                self.assertEqual(again, wanted, told)
                # it is that of the first event after which nothing can follow
                self.assertTrue(events.text("x") and events.start("other", {"x": "1"}) and events.end())
                self.assertEqual(events.reason, wanted, told)
                verdict = events.finish()
            self.assertEqual((verdict.kind, verdict.reason, events.reason), ("malformed", None, wanted))

    def test_verdicts(self):
        for told, wanted in STARTS:
            with self.validator.events() as events:
                events.start("a")
                depth = 1
                for each in told:
                    tell(events, each)
                    depth += 0 if isinstance(each, str) else -1 if each is None else 1
                while depth > 0:
                    depth -= events.end()
                verdict = events.finish()
            self.assertEqual((verdict.kind, verdict.reason), ("invalid", wanted), told)
            self.assertIsInstance(verdict.reason, rncv.Reason)
            self.assertEqual(verdict, rncv.EventVerdict("invalid", verdict.place))
        with self.validator.events() as events:
            self.assertTrue(events.start("a") and events.text("t") and events.end())
            self.assertEqual((events.finish().reason, events.reason), (None, None))

    def test_lines(self):
        for told, (kind, name) in STARTS:
            with self.validator.begin() as document:
                document.feed(b"(a\n")
                self.assertIsNone(document.reason())
                document.feed(lines_of([*told, "a tag is known by the line behind it"]))
                names = [it for it, value in attributes_of(told[-1])]
                self.assertEqual(document.reason(), (kind, names.index(name) if name else None), told)
                verdict = document.finish()
            self.assertEqual((verdict.kind, verdict.reason), ("malformed", None))
        verdict = self.validator.validate(b"(a\n(b\nAx 1\nAxmlns:p urn:p\nAz 2\n)b\n)a\n")
        self.assertEqual((str(verdict), verdict.reason), ("invalid line 6", ("attribute-not-allowed", 1)))
        self.assertEqual(verdict, rncv.Verdict("invalid", 0, 6))
        self.assertIsNone(self.validator.validate(b"(a\n)a\n").reason)

    def test_asked(self):
        with self.validator.events() as events:
            self.assertEqual((events.start_reason("b"), events.start_reason("a")), (("element-not-allowed", None), None))
            self.assertEqual(events.end_reason(), ("incomplete", None))
            self.assertTrue(events.start("a"))
            self.assertIsNone(events.end_reason())
            self.assertIsNone(events.start_reason("b", {"x": "1"}))
            self.assertEqual(events.start_reason("b"), ("attributes-missing", None))
            self.assertEqual(events.start_reason("b", [("x", "")]), ("attribute-value", "x"))
            self.assertIsNone(events.reason)
            self.assertTrue(events.start("b", {"x": "1"}) and events.start("d"))
            self.assertEqual(events.held(), 0)
            self.assertTrue(events.text("12") and events.text("\u20ac"))
            self.assertEqual(events.held(), 5)
            self.assertTrue(events.end())
            self.assertEqual((events.held(), events.expected_in_place().datatypes), (0, (rncv.Datatype("http://www.w3.org/2001/XMLSchema-datatypes", "int"),)))
            self.assertEqual((events.expected().datatypes, events.end_reason()), ((), ("text-value", None)))
            for wrong in ("\ud800", "{\udfff}b"):
                with self.assertRaises(ValueError):
                    events.start_reason(wrong)
            with self.assertRaises(ValueError):
                events.start_reason("b", {"x": "\ud800"})
            with self.assertRaises(TypeError):
                events.start_reason(b"b")
        for call in (events.end_reason, events.held, events.expected_in_place, lambda: events.start_reason("a")):
            with self.assertRaises(ValueError):
                call()

    def test_tags(self):
        integer = rncv.Datatype("http://www.w3.org/2001/XMLSchema-datatypes", "int")
        nothing = rncv.Expected((), False, (), ())
        with self.validator.events() as events:
            self.assertEqual(events.tag_options("a", named="x"), rncv.TagOptions(rncv.ExpectedTag((), ()), nothing))
            self.assertIsNone(events.tag_options("b"))
            self.assertTrue(events.start("a"))
            tag, value = events.tag_options("b", {"u": ""}, named="x")
            self.assertEqual(({it.name for it in tag.attributes}, tag.required), ({"x", "{urn:p}y"}, ("x",)))
            self.assertEqual(value, nothing._replace(text=True, datatypes=(integer,)))
            tag, value = events.tag_options("b", [("x", "1"), ("v", "")], "{urn:p}y")
            self.assertEqual(({it.name for it in tag.attributes}, tag.required), ({"{urn:p}y"}, ()))
            self.assertEqual({it.text for it in value.values}, {"1", "2"})
            for wrong in ({"x": "one"}, {"x": "1", "z": ""}, [("u", ""), ("v", "")]):
                self.assertIsNone(events.tag_options("b", wrong))
            # what could have been in place of the start that nothing can follow
            self.assertTrue(events.start("b", [("x", "1"), ("u", ""), ("v", "")]))
            tag, value = events.tag_options("b", [("x", "1"), ("u", "")], named="v")
            self.assertEqual(({it.name for it in tag.attributes}, tag.required, value), ({"{urn:p}y"}, (), nothing))
            self.assertEqual((events.reason, events.invalid_since()), (("attribute-not-allowed", "v"), 2))
            for wrong in (("\ud800",), ("b", {"x": "\ud800"}), ("b", {}, "\ud800")):
                with self.assertRaises(ValueError):
                    events.tag_options(*wrong)
            for wrong in ((b"b",), ("b", {"x": 1}), ("b", (), b"x")):
                with self.assertRaises(TypeError):
                    events.tag_options(*wrong)
        with self.assertRaises(ValueError):
            events.tag_options("a")

    def test_trees(self):
        for document, kind, attribute, at, tag in (
                ("<a><b x='1' z=''/></a>", "attribute-not-allowed", "z", "start", "b"),
                ("<a><b xmlns:q='urn:p' x='1' q:y='3'/></a>", "attribute-value", "{urn:p}y", "start", "b"),
                ("<a><c/></a>", "incomplete", None, "end", "c"), ("<a><c>t<d/></c></a>", "text-not-allowed", None, "start", "d")):
            verdict = self.validator.validate_tree(trees.fromstring(document))
            self.assertEqual((verdict.kind, verdict.reason, verdict.at, verdict.element.tag), ("invalid", (kind, attribute), at, tag))
        self.assertIsNone(self.validator.validate_tree(trees.fromstring("<a/>")).reason)
        self.assertIsNone(self.validator.validate_tree(trees.fromstring("<a><b x='1' z=''/></a>")[0]).reason.attribute)

    def test_out_of_memory(self):
        """Without memory for the reason there is none, and the verdict stays."""
        library = mock.Mock(wraps=self.validator._library)  # pylint: disable=protected-access
        library.rncv_fault_reason = library.rncv_events_start_reason = library.rncv_events_tag_options = lambda *_: 3
        with mock.patch.object(self.validator, "_library", library), self.validator.events() as events:
            self.assertTrue(events.start("b"))
            self.assertIsNone(events.reason)
            for call in (events.start_reason, events.tag_options):
                with self.assertRaises(MemoryError):
                    call("b")
            self.assertTrue(events.end())
            verdict = events.finish()
        self.assertEqual((verdict.kind, verdict.reason), ("invalid", None))


if __name__ == "__main__":
    unittest.main()
