"""Tests of the parts in which schemas are read: behind edits they tell what a reading of the whole text does."""
import bisect
import itertools
import json
import random
import re
import sys
import threading
import types
import unittest
import unittest.mock

from client import TOP

sys.path.insert(0, str(TOP / "programs/lsp"))
from rncv_lsp.documents import new_document  # noqa: E402
from rncv_lsp.rnc_ahead import ahead  # noqa: E402
from rncv_lsp.rnc_completion import spot_of  # noqa: E402
from rncv_lsp.rnc_grammars import Outlines  # noqa: E402
from rncv_lsp.rnc_indent import indented  # noqa: E402
from rncv_lsp.rnc_parts import Outline  # noqa: E402
from rncv_lsp.rnc_places import Lines  # noqa: E402
from rncv_lsp.rnc_symbols import foldings, tree  # noqa: E402
from rncv_lsp.rnc_tokens import lexed  # noqa: E402
from rncv_lsp.rnc_tree import written_tree  # noqa: E402
from rncv_lsp.schema_files import opened  # noqa: E402
from rncv_lsp.texts import CODECS, Piece, Text  # noqa: E402

# Words of which texts are made at random.
WORDS = ("a", "foo ", " ", "\n", "\r\n", "\r", "=", "|=", "{", "}", "[", "]", "(", ")", '"', "'", '"""', "'''", "#", "##", "element ", "attribute ",
         "start", "grammar", "div", "include", "external", "parent ", "inherit", "namespace ", "datatypes ", "default ", "xsd:int ", "a:b", "a:*", ">>",
         "~", "\\", "\\x{61}", "\\x{22}", "\n# c\n", "\n## d\n", "\nfoo = text\n", "\n  bar |= baz\n", "\n element ", ",", "-", '"x"', "\u00e9", "\U0001F600")
EDITS_OF_SCHEMAS = 12
# What opens something, and what closes it; and how many times something is opened.
OPENED = (("div {\n", "}\n"), ("grammar {", "}"), ("a = grammar {\n", "}"), ('include "x" {', "}"), ('"""', '"""'), ("'''", "'''"), ('"', '"'), ("[", "]"),
          ("a:b [", "]"), ("(", ")"), ("{", "}"), ("element a {\n", "}"), ("## ", "\n"))
SESSIONS = 30


def folded(text):
    """What can be folded in a text, by all its tokens."""
    ends = [found.end() for found in re.finditer("\r\n|\r|\n", text)]
    tokens, comments, open_quotes = lexed(text)
    waiting, found = [], set()
    for token in (token for token in tokens if token.kind == "sign" and token.text in "{}[]"):
        if token.text in "{[":
            waiting.append(token)
            continue
        while token.text == "}" and waiting and waiting[-1].text == "[":
            waiting.pop()
        if waiting and waiting[-1].text + token.text in ("{}", "[]"):
            found.add((bisect.bisect_right(ends, waiting.pop().start), bisect.bisect_right(ends, token.start) - 1))
    ranges = [{"startLine": start, "endLine": end} for start, end in found if end > start]
    lines = sorted({line for start, end in [*comments, *(token[2:] for token in tokens if token.kind == "doc")]
                    for line in range(bisect.bisect_right(ends, start), bisect.bisect_right(ends, end) + 1)})
    first = [line for line in lines if line - 1 not in lines]
    blocks = zip(first, [line for line in lines if line + 1 not in lines])
    ranges += [{"startLine": start, "endLine": end, "kind": "comment"} for start, end in blocks if end > start]
    return sorted(ranges, key=lambda reported: (reported["startLine"], -reported["endLine"]))


def names_in(outline):
    """All names of an outline."""
    return sorted(outline.with_role(*{role for part in outline.parts for role in part.by_role}))


def told(outline):
    """What an outline tells of grammars and names, and its components."""
    names = names_in(outline)
    scopes = [*{name.scope for name in names}]
    return (names, outline.components, outline.enclosing, outline.is_grammar, outline.spaces, outline.libraries,
            [list(outline.defined({scope})) for scope in scopes])


class Parts(unittest.TestCase):
    """The parts in which a file is read."""

    def test_edits_at_random(self):
        chosen = random.Random(3)
        for length in (8, 30, 100, 4_096) * 20:
            with unittest.mock.patch("rncv_lsp.texts.PIECE_LENGTH", length):
                text = Text("".join(chosen.choice(WORDS) for _ in range(chosen.randrange(150))))
                outline = Outline(text)
                for _ in range(5):
                    start, new = chosen.randrange(text.length + 1), "".join(chosen.choice(WORDS) for _ in range(chosen.randrange(3)))
                    text = text._replaced(start, min(start + chosen.randrange(4), text.length), new)
                    outline = Outline(text, outline)
                    self.check(outline)
                    self.assertTrue(all(0 <= each.opened.start <= each.opened.name_start <= each.opened.name_end <= each.end <= text.length
                                        for each in outline.components), text.text)

    def check(self, outline):
        """An outline that is made from another one tells what one does that is made anew, and one of a text that is not cut."""
        fresh, whole = Outline(outline.lines), Outline(Text(pieces=[Piece(outline.lines.text)]))
        self.assertEqual(told(outline), told(fresh), outline.lines.text)
        self.assertEqual(told(outline), told(whole), outline.lines.text)
        self.check_views(outline, fresh, whole)
        self.check_spots(outline, fresh, whole)

    def check_views(self, outline, *others):
        """What is shown of an outline is shown of these others too."""
        lines = Lines(outline.lines, "utf-16")
        shown = json.loads(written_tree(outline, lines) or "null"), foldings(outline, None), indented(outline, "  "), indented(outline, "\t")
        for each in others:
            self.assertEqual(shown, (tree(each, lines), foldings(each, None), indented(each, "  "), indented(each, "\t")), outline.lines.text)
            self.assertEqual(foldings(outline, 3), foldings(each, 3))
        for each in outline.components:
            self.assertEqual(outline.component(each.opened.name_start), (each.opened.start, each.end))
        self.assertEqual(json.loads(foldings(outline, None)), folded(outline.lines.text))

    def check_spots(self, outline, *others):
        """What may be written at a place depends on the text alone."""
        for offset in (0, outline.lines.length // 2, outline.lines.length):
            spots = []
            for each in (outline, *others):
                asked = types.SimpleNamespace(grammars=types.SimpleNamespace(outlines={"": each}), key="", offset=offset)
                found = spot_of(asked) if each.parts else None
                spots.append(found and (found.start, found.typed, found.reader.stack, found.reader.expects))
            self.assertEqual(spots, spots[:1] * len(spots), (outline.lines.text, offset))

    def test_edits_of_schemas(self):
        chosen = random.Random(5)
        for path in sorted((TOP / "examples").glob("*/*.rnc")):
            text = Text(path.read_text(encoding="utf-8"))
            with unittest.mock.patch("rncv_lsp.texts.PIECE_LENGTH", 200), unittest.mock.patch("rncv_lsp.rnc_parts.PART_LENGTH", 50):
                outline = Outline(text)
                for _ in range(EDITS_OF_SCHEMAS):
                    start = chosen.choice((0, text.length, *[chosen.randrange(text.length + 1)] * 6))
                    length, new = chosen.choice((0, 0, 1, 5, 80)), "".join(chosen.choice(WORDS) for _ in range(chosen.randrange(3)))
                    text = text._replaced(start, min(start + length, text.length), new)
                    outline = Outline(text, outline)
                    self.check(outline)

    def test_what_is_opened_and_closed(self):
        paths = sorted((TOP / "examples").glob("*/*.rnc"))
        for seed in range(SESSIONS):
            chosen = random.Random(seed)
            words = [chosen.choice(paths).read_text(encoding="utf-8")[:1_500], *(chosen.choice(OPENED)[:2] for _ in range(chosen.randrange(3)))]
            text = Text("\n".join("\nfoo = text\n".join(each) if isinstance(each, tuple) else each for each in words))
            with unittest.mock.patch("rncv_lsp.texts.PIECE_LENGTH", chosen.choice((30, 200, 4_096))), \
                    unittest.mock.patch("rncv_lsp.rnc_parts.PART_LENGTH", chosen.choice((1, 50, 300))):
                self.check_session(chosen, Outline(text))

    def check_session(self, chosen, outline):
        """Something is opened and closed letter by letter, or changed meanwhile, and undone."""
        texts, (opening, closing) = [outline.lines], chosen.choice(OPENED)
        line = chosen.choice([0, *(found.end() for found in re.finditer("\n", outline.lines.text))])
        start = chosen.choice((line, line, chosen.randrange(outline.lines.length + 1)))
        edits = [(start + at, letter) for at, letter in enumerate(opening)]
        if chosen.randrange(2):
            edits.append((chosen.randrange(outline.lines.length + 1), chosen.choice(WORDS)))
        end = chosen.choice((start + len(opening), outline.lines.length + len(opening), chosen.randrange(start, outline.lines.length + 1) + len(opening)))
        edits += [(end + at, letter) for at, letter in enumerate(closing)]
        for at, letter in edits:
            texts.append(texts[-1]._replaced(at, at, letter))
        for text in (*texts[1:], *reversed(texts[:-1])):
            outline = Outline(text, outline)
            self.check(outline)

    def test_parts_that_were_gone(self):
        notes = {n: f'x{n} = """\n{n}"""\n' for n in range(0, 2_000, 20)}
        text = Text("start = p0\n" + "".join(f"p{n} =\n  element e{n} {{ p{n + 1}?, p{n // 2} }}\n{notes.get(n, '')}" for n in range(2_000)))
        outline = Outline(text)
        parts, middle = {id(part) for part in outline.parts}, text.text.index("p900 =")
        for opened in ("div {", "grammar {", 'include "x" {', "(", "[", '"""', "{"):
            outline = Outline(text._replaced(middle, middle, opened), outline)
            self.assertLess(sum(id(part) not in parts for part in outline.parts), 4, opened)
            outline = Outline(text, outline)
            self.assertEqual({id(part) for part in outline.parts}, parts, opened)

    def test_parts_that_close_much(self):
        openings = "grammar {\na =\n  grammar {\n", "div {\na =\n  b\n", 'include "@" {\na =\n  b\n', "a =\n  ((\n"
        inside = "a = a\nb = parent a\n"
        for opening, count in itertools.product(openings, (1, 5, 15)):
            opened = "".join(opening.replace("@", str(number)) for number in range(count))
            with unittest.mock.patch("rncv_lsp.rnc_parts.PART_LENGTH", 1):
                outline = Outline(Text(opened + inside + "}\n" * count + inside + "} )\n" * count + inside))
                self.check(outline)
                self.check(Outline(Text(inside + outline.lines.text), outline))

    def test_what_is_ready(self):
        text = Text("start = a0\n" + "".join(f"a{n} =\n  element a {{ a{n + 1}? }}\n" for n in range(100)))
        outline, lines = Outline(text), Lines(text, "utf-16")
        self.assertGreater(len(list(ahead(outline, lines.encoding))), 2 * len(outline.parts))
        with unittest.mock.patch("rncv_lsp.rnc_tree.Writer"), unittest.mock.patch("rncv_lsp.rnc_indent.Indenter"):
            self.check_views(outline)
        self.check(outline)

    def test_a_reading_in_steps(self):
        text = Text("start = a0\n" + "".join(f"a{n} =\n  element a {{ a{n + 1}? }}\n" for n in range(2_000)))
        before = Outline(text, None, True)
        threads = [threading.Thread(target=lambda: all(iter(before.advance, False))) for _ in range(3)]
        for thread in threads:
            thread.start()
        for thread in threads:
            thread.join()
        self.assertGreater(len(before.parts), 30)
        self.assertEqual(told(before), told(Outline(text)))
        changed = text._replaced(30_000, 30_000, "x")
        after, steps = Outline(changed, before, True), 0
        while after.advance():
            steps += 1
        self.assertLess(steps, 5)
        self.assertEqual(told(after), told(Outline(changed)))

    def test_a_fault_in_a_reading(self):
        outlines, file = Outlines(), opened(new_document({"uri": "urn:s.rnc", "text": "start = a\na = text\n"}))
        with unittest.mock.patch("rncv_lsp.rnc_parts.read", side_effect=MemoryError):
            self.assertRaises(MemoryError, outlines.begin(file).advance)
            self.assertRaises(MemoryError, outlines.of, file)
        self.assertEqual(told(outlines.of(file)), told(Outline(file.lines)))
        self.assertIs(outlines.of(file), outlines.begin(file))

    def test_tokens_stay(self):
        chosen = random.Random(5)
        for _ in range(300):
            text = "".join(chosen.choice(WORDS) for _ in range(chosen.randrange(40)))
            text += "".join(")" if sign == "(" else "}" if sign == "{" else "]" for sign in reversed(re.findall(r"[\[({]", text)))
            new = text
            for line in reversed(indented(Outline(Text(text)), "   ")):
                self.assertEqual(text[line.start:line.first].strip(" \t"), "")
                new = new[:line.start] + line.blanks + new[line.first:]
            self.assertEqual([token[:2] for token in lexed(new).tokens], [token[:2] for token in lexed(text).tokens], text)

    def test_edits_that_change_what_is_before_them(self):
        cases = (('a = external "x"\nb = text\nc = b\n', "b =", '~ "y"'), ("a = \"\"\"\nb = text\nc = text\n", "c = text\n", '"""\nd = text\n'),
                 ("start =\nb = a\nc = text\n", "b =", "b |"), ("## d\nb = a\nc = b\n", "b =", "# e\nb ="))
        for length, (schema, old, new) in itertools.product((8, 4_096), cases):
            with unittest.mock.patch("rncv_lsp.texts.PIECE_LENGTH", length), unittest.mock.patch("rncv_lsp.rnc_parts.PART_LENGTH", 1):
                text, at = Text(schema), schema.index(old)
                changed = text._replaced(at, at + len(old), new)
                self.check(Outline(changed, Outline(text)))

    def test_positions(self):
        chosen = random.Random(7)
        for _ in range(200):
            text = Text("".join(chosen.choice(WORDS) for _ in range(chosen.randrange(30))))
            for encoding in CODECS:
                lines = Lines(text, encoding)
                places = [offset for offset in range(text.length + 1) if text.text[offset - 1:offset + 1] != "\r\n"]
                self.assertEqual([lines.position(offset) for offset in places], [text.position(offset, encoding) for offset in places])

    def test_what_is_read_again(self):
        text = Text("start = p0\n" + "".join(f"## {n}\np{n} =\n  element e{n} {{ p{n + 1}?, (p{n // 2} | xsd:int)* }}\n" for n in range(3_500)))
        outline = Outline(text)
        self.assertGreater(len(outline.parts), 30)
        for number in range(20):
            text = text._replaced(9_000 * number, 9_000 * number, "x")
            before, outline = {id(part) for part in outline.parts}, Outline(text, outline)
            self.assertLess(sum(id(part) not in before for part in outline.parts), 6)
            self.assertEqual(len(list(outline.with_text("p3"))), 4)


if __name__ == "__main__":
    unittest.main()
