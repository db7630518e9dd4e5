"""Tests of documents that come as events, and of trees."""
import contextlib
import importlib.util
import sys
import unittest
import unittest.mock as mock
import xml.etree.ElementTree as trees

from pages import TOP, clauses, document_of, served

import rncv

sys.path.insert(0, str(TOP / "programs/library/tests"))
from pyx_events import events_of  # noqa: E402

LETTERS = {"s.rnc": b'default namespace = "urn:l" element letter { attribute to { text }?, (element title { text } | element n { xsd:integer })* }'}
NAME = "{urn:l}letter"
PLACE = (1 << 64) - 1

lxml_trees = None
if importlib.util.find_spec("lxml"):
    import lxml.etree as lxml_trees
    import lxml.objectify as lxml_objects


def named(uri, local):
    """The name as Python has it."""
    return f"{{{uri.decode()}}}{local.decode()}" if uri else local.decode()


def told(validator, document):
    """The verdict on a document in PYX that is told as events, with the number of the line as place, and the lines that stand for it."""
    lines = {}
    with validator.events() as events:
        for number, (kind, *event) in enumerate(events_of(document), 1):
            if kind == "text":
                assert events.text(event[0].decode())
                continue
            lines[number] = event[0]
            if kind == "end":
                assert events.end(number)
            else:
                assert events.start(named(*event[1:3]), [(named(*attribute[:2]), attribute[2].decode()) for attribute in event[3]], number)
        verdict = events.finish()
    return verdict, lines.get(verdict.place, ())


def tree_of(document, of=trees):
    """The tree of a document in PYX."""
    builder = of.TreeBuilder()
    names = []
    for kind, *event in events_of(document):
        if kind == "start":
            names.append(named(*event[1:3]))
            builder.start(names[-1], {named(*attribute[:2]): attribute[2].decode() for attribute in event[3]})
        elif kind == "end":
            builder.end(names.pop())
        else:
            builder.data(event[0].decode())
    return builder.close()


class Events(unittest.TestCase):
    """What the calls return."""

    def test_letters(self):
        with rncv.compile(LETTERS) as validator:
            for _ in range(2):
                with validator.events() as events:
                    self.assertTrue(events.start(NAME, {"to": "Ada"}))
                    self.assertTrue(events.text(" \n") and events.start("{urn:l}title") and events.text("Hi ") and events.text("\u20ac") and events.end())
                    self.assertIsNone(events.invalid_since())
                    self.assertTrue(events.end() and events.text("\n"))
                    self.assertEqual(events.finish(), rncv.EventVerdict("valid"))
                for place in (None, 2, 77, PLACE):
                    with validator.events() as events:
                        self.assertTrue(events.start(NAME, place=1) and events.start("title", place=place))
                        self.assertEqual(events.invalid_since(), place or 2)
                        self.assertTrue(events.end(3) and events.end(4))
                        verdict = events.finish()
                    self.assertEqual((verdict, bool(verdict), verdict.valid, str(verdict)), (rncv.EventVerdict("invalid", place or 2), False, False, f"invalid at {place or 2}"))

    def test_as_pyx(self):
        """Each document of the pages and examples has the same verdict in PYX, as events and as a tree."""
        documents = [(path / "document.pyx").read_bytes() for path, _ in served()] + [document_of(repair) for _, _, repair in clauses("P")]
        judges = [rncv.compile({"s.rnc": b"element a { empty }"}), rncv.compile(LETTERS), *(rncv.compile(*(path / name for name in names)) for path, names in served())]
        kinds = set()
        for validator in judges:
            with validator:
                for document in documents:
                    verdict = validator.validate(document)
                    by_events, lines = told(validator, document)
                    kinds.add(verdict.kind)
                    with self.subTest(document=document[:60]):
                        self.assertEqual(by_events.kind, verdict.kind)
                        self.assertTrue(verdict.valid or verdict.line in lines, (verdict, lines))
                        self.assertEqual(validator.validate_tree(tree_of(document)).kind, verdict.kind)
                        if lxml_trees:
                            self.assertEqual(validator.validate_tree(tree_of(document, lxml_trees)).kind, verdict.kind)
        self.assertEqual(kinds, {"valid", "invalid"})

    def test_malformed(self):
        lone = "\ud800"
        wrong = [
            lambda events: events.end(),
            lambda events: events.text("x"),
            lambda events: events.start(""),
            lambda events: events.start("a b"),
            lambda events: events.start("p:a"),
            lambda events: events.start("{urn:l"),
            lambda events: events.start(lone),
            lambda events: events.start("{\0}a"),
            lambda events: events.start("a", {"b": lone}),
            lambda events: events.start("a", {"": "c"}),
            lambda events: events.start("a", [("b", "1"), ("b", "2")]),
            lambda events: events.start("a") and events.text("\x01"),
            lambda events: events.start("a") and events.text(lone),
            lambda events: events.start("a") and events.end() and events.start("a"),
            lambda events: events.start("a") and events.end() and events.end(),
        ]
        with rncv.compile(LETTERS) as validator:
            for number, call in enumerate(wrong):
                with self.subTest(number), validator.events() as events:
                    self.assertIs(call(events), False)
                    self.assertEqual((events.start("a"), events.text(""), events.end()), (False, False, False))
                    verdict = events.finish()
                    self.assertEqual((verdict, str(verdict), bool(verdict)), (rncv.EventVerdict("malformed"), "malformed", False))
            for begin in (lambda events: None, lambda events: events.start(NAME)):
                with validator.events() as events:
                    begin(events)
                    self.assertEqual(events.finish().kind, "malformed")

    def test_wrong_types(self):
        with rncv.compile(LETTERS) as validator, validator.events() as events:
            for error, call in [
                (TypeError, lambda: events.start(b"a")),
                (TypeError, lambda: events.start(None)),
                (TypeError, lambda: events.start("a", {"b": 1})),
                (TypeError, lambda: events.start("a", {b"b": "1"})),
                (TypeError, lambda: events.start("a", ["bc"])),
                (TypeError, lambda: events.start("a", 7)),
                (TypeError, lambda: events.text(b"x")),
                (TypeError, lambda: events.text(None)),
                (TypeError, lambda: events.end("1")),
                (TypeError, lambda: events.end(1.0)),
                (ValueError, lambda: events.end(0)),
                (ValueError, lambda: events.end(-1)),
                (ValueError, lambda: events.start("a", place=PLACE + 1)),
            ]:
                self.assertRaises(error, call)
            # none of them told anything
            self.assertTrue(events.start(NAME, place=5) and events.end(6))
            self.assertEqual(events.finish(), rncv.EventVerdict("valid"))

    def test_calls_that_raise_do_not_count(self):
        """Without a place it is the number of the start or end."""
        with rncv.compile(LETTERS) as validator, validator.events() as events:
            for error, place in [(ValueError, 0), (ValueError, PLACE + 1), (TypeError, "1")]:
                self.assertRaises(error, events.start, NAME, (), place)
                self.assertRaises(error, events.end, place)
            self.assertTrue(events.start(NAME) and events.start("a"))
            self.assertEqual(events.invalid_since(), 2)

    def test_order(self):
        with rncv.compile(LETTERS) as validator:
            events = validator.events()
            for begin in (validator.begin, validator.events, validator.share, validator.simple_text, lambda: validator.validate(b""),
                          lambda: validator.validate_tree(trees.Element("a"))):
                self.assertRaises(RuntimeError, begin)
            events.close()
            events.close()
            for call in (lambda: events.start("a"), lambda: events.text(""), events.end, events.invalid_since, events.finish, events.__enter__):
                self.assertRaisesRegex(ValueError, "the document has ended", call)
            # one that nothing refers to is dropped
            validator.events().start(NAME)
            self.assertTrue(validator.simple_text())
            validator.begin().feed(b"(a\n")
            with validator.events() as events:
                self.assertTrue(events.start(NAME) and events.end())
                self.assertTrue(events.finish())
            # an exception in a block drops the document
            with contextlib.suppress(KeyError), validator.events() as events:
                events.start(NAME)
                raise KeyError
            self.assertEqual(validator.validate(b"(x\n)x\n").kind, "invalid")
            events = validator.events()
            self.assertRaises(TypeError, events.__reduce__)
            validator.close()
            self.assertRaisesRegex(ValueError, "the validator is closed", events.end)
            self.assertRaisesRegex(ValueError, "the validator is closed", validator.events)
            self.assertRaisesRegex(ValueError, "the validator is closed", lambda: validator.validate_tree(trees.Element("a")))

    def test_memory_that_is_refused(self):
        with rncv.compile(LETTERS) as validator:
            with mock.patch.object(validator._library, "rncv_events_begin", lambda *words: 3):
                self.assertRaises(MemoryError, validator.events)
            for name, call in [("start", lambda events: events.start("a")), ("text", lambda events: events.text("")), ("end", lambda events: events.end())]:
                with validator.events() as events, mock.patch.object(validator._library, f"rncv_events_{name}", lambda *words: 3):
                    self.assertRaises(MemoryError, call, events)
            with validator.events() as events, mock.patch.object(validator._library, "rncv_events_finish", lambda *words: 3):
                self.assertRaises(MemoryError, events.finish)
            self.assertEqual(validator.validate(b"(x\n)x\n").kind, "invalid")


class Trees(unittest.TestCase):
    """What is judged of a tree, and where it is at fault."""

    def of_each_kind(self, xml):
        """The tree of a document, by each package."""
        yield trees.fromstring(xml, trees.XMLParser(target=trees.TreeBuilder(insert_comments=True, insert_pis=True)))
        if lxml_trees:
            yield lxml_trees.fromstring(xml)

    def test_letters(self):
        with rncv.compile(LETTERS) as validator:
            for xml, answer, local in [
                ("<letter xmlns='urn:l' to='Ada'>\n<title>H<!-- c -->i<?p?></title><!-- c --> <n> 7<!-- c -->3 </n></letter>", "valid", None),
                ("<letter xmlns='urn:l' ><n>7<?p?>a</n></letter>", "invalid at the end of {urn:l}n", "n"),
                ("<letter xmlns='urn:l'><title/>text<title/></letter>", "invalid at the start of {urn:l}title", "title"),
                ("<letter xmlns='urn:l'><title/><!-- c -->text</letter>", "invalid at the end of {urn:l}letter", "letter"),
                ("<letter xmlns='urn:l' from='x'/>", "invalid at the start of {urn:l}letter", "letter"),
                ("<letter/>", "invalid at the start of letter", "letter"),
            ]:
                for tree in self.of_each_kind(xml):
                    for given in (tree, trees.ElementTree(tree) if isinstance(tree, trees.Element) else tree.getroottree()):
                        verdict = validator.validate_tree(given)
                        self.assertEqual((str(verdict), bool(verdict), verdict.valid), (answer, answer == "valid", answer == "valid"))
                        self.assertEqual(local and verdict.element.tag.rpartition("}")[2], local)
            # the element itself, of several that are alike
            letter = trees.fromstring("<letter xmlns='urn:l'><n>1</n><n>x</n><n>2</n></letter>")
            self.assertIs(validator.validate_tree(letter).element, letter[1])
            # an element in a tree is judged without its tail
            whole = trees.fromstring("<whole><letter xmlns='urn:l'/>tail</whole>")
            self.assertTrue(validator.validate_tree(whole[0]))

    def test_names(self):
        with rncv.compile(LETTERS) as validator:
            tree = trees.Element(trees.QName("urn:l", "letter"), {trees.QName("to"): "x"})
            self.assertTrue(validator.validate_tree(tree))

    def test_elements_that_iterate_over_others(self):
        """An element of lxml.objectify iterates over itself and the elements beside it that have its name, and its attributes are its children."""
        class Element(trees.Element):
            def __iter__(self):
                raise AssertionError("these are not its children")

            def iterchildren(self):
                return iter([self[at] for at in range(len(self))])

            def __getattr__(self, name):
                if name != "getroot":
                    raise AttributeError(name)
                return self.find("{urn:l}getroot")

        parsers = [lambda xml: trees.fromstring(xml, trees.XMLParser(target=trees.TreeBuilder(Element)))]
        if lxml_trees:
            parsers.append(lxml_objects.fromstring)
        with rncv.compile(LETTERS) as validator:
            for parsed in parsers:
                self.assertTrue(validator.validate_tree(parsed("<letter xmlns='urn:l'><title>a</title><title>b</title><n>7</n></letter>")))
                tree = parsed("<letter xmlns='urn:l'><title>a</title><getroot/></letter>")
                self.assertEqual(str(validator.validate_tree(tree)), "invalid at the start of {urn:l}getroot")

    def test_malformed(self):
        with rncv.compile(LETTERS) as validator:
            for change, at in [
                (lambda tree: tree[0].set("a b", ""), "start"),
                (lambda tree: tree[0].set("b", "\x01"), "start"),
                (lambda tree: setattr(tree[0], "tag", "a:b"), "start"),
                (lambda tree: setattr(tree[0], "text", "\x01"), "text"),
                (lambda tree: setattr(tree[0], "tail", "\ud800"), "tail"),
            ]:
                tree = trees.fromstring("<letter xmlns='urn:l'><title/></letter>")
                change(tree)
                verdict = validator.validate_tree(tree)
                self.assertEqual((verdict.kind, verdict.element, verdict.at), ("malformed", tree[0], at))

    def test_what_is_no_tree(self):
        with rncv.compile(LETTERS) as validator:
            for tree in (None, "<a/>", b"<a/>", 7, [], trees.Comment("c"), trees.ElementTree()):
                self.assertRaises(TypeError, validator.validate_tree, tree)
            for change in (lambda tree: setattr(tree, "tag", 7), lambda tree: setattr(tree, "text", 7), lambda tree: tree.set("a", 7)):
                tree = trees.Element(NAME)
                change(tree)
                self.assertRaises(TypeError, validator.validate_tree, tree)
            tree = trees.Element(NAME)
            tree.append(trees.Element(trees.Element))
            self.assertRaises(ValueError, validator.validate_tree, tree)
            self.assertTrue(validator.validate_tree(trees.Element(NAME)))
        if lxml_trees:
            with rncv.compile(LETTERS) as validator:
                parser = lxml_trees.XMLParser(resolve_entities=False)
                tree = lxml_trees.fromstring("<!DOCTYPE a [<!ENTITY e 'x'>]><letter xmlns='urn:l'>&e;</letter>", parser)
                self.assertRaises(ValueError, validator.validate_tree, tree)

    def test_elements_in_themselves(self):
        with rncv.compile(LETTERS) as validator:
            for depth in (0, 1, 5):
                root = inner = trees.Element(NAME)
                for _ in range(depth):
                    inner = trees.SubElement(inner, NAME)
                inner.append(root)
                self.assertRaisesRegex(ValueError, "in itself", validator.validate_tree, root)
                inner.clear()
            # the same element at several places is not in itself
            root, title = trees.Element(NAME), trees.Element("{urn:l}title")
            root.extend([title, title])
            self.assertTrue(validator.validate_tree(root))

    def test_depth(self):
        """A tree is walked without recursion."""
        with rncv.compile({"s.rnc": b"start = a a = element a { a? }"}) as validator:
            root = inner = trees.Element("a")
            for _ in range(5000):
                inner = trees.SubElement(inner, "a")
            self.assertTrue(validator.validate_tree(root))
            trees.SubElement(inner, "b")
            self.assertEqual(str(validator.validate_tree(root)), "invalid at the start of b")


if __name__ == "__main__":
    unittest.main()
