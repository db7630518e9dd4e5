"""The outline of a schema as JSON. What a part of the text adds to it is written once, with places for the numbers of its lines."""
from __future__ import annotations

import bisect
import itertools
import json
from typing import List, NamedTuple, Optional, Tuple

from rncv_lsp.rnc_outline import Opened
from rncv_lsp.rnc_part import Part
from rncv_lsp.rnc_parts import Component, Outline
from rncv_lsp.rnc_places import Lines
from rncv_lsp.rnc_symbols import MOST_DEPTH, kind_of, name_of
from rncv_lsp.rpc import Written
from rncv_lsp.texts import LINE_END, units


class Form(NamedTuple):
    """What is written between two ends of components that begin before a part: a text with `%d` for numbers, and these numbers: lines, counted from the first
    one of the part. `outside` has the offsets of positions before the part, and where their numbers are, a line and a character."""

    text: str
    numbers: List[int]
    outside: List[Tuple[int, int]]


class Shown(NamedTuple):
    """What a part adds: a form before each end of a component that begins before it, and a last one; and how many levels these have. `kept` has the line where
    the part began when its forms were filled last, and the texts, if these depend on nothing else."""

    forms: List[Form]
    depth: int
    kept: List[Tuple[int, List[str]]]


class Writer:
    """Writes the forms of a part."""

    def __init__(self, words: str, encoding: str) -> None:
        self._words, self._encoding = words, encoding
        self._is_plain = encoding == "utf-32" or words.isascii()
        self._ends = [found.end() for found in LINE_END.finditer(words)]
        self._begin_form()

    def _begin_form(self) -> None:
        """Begins a form."""
        self._parts: List[str] = []
        self._form = Form("", [], [])

    def run(self, part: Part) -> Shown:
        """Writes all components."""
        forms, path, depth = [], [], 0  # type: List[Form], List[Opened], int
        for event in part.facts.events:
            if not isinstance(event, int):
                self._parts.append(self._head(event))
                path.append(event)
                depth = max(depth, len(path))
            elif path:
                self._parts.append(self._tail(path.pop(), event))
            else:
                forms.append(self._form._replace(text="".join(self._parts)))
                self._begin_form()
        return Shown([*forms, self._form._replace(text="".join(self._parts))], depth, [(-1, [])])

    def _head(self, opened: Opened) -> str:
        """A component up to those in it."""
        component = Component(opened, 0, -1, 1)
        comma = "," if self._parts and not self._parts[-1].endswith("[") else ""
        name, detail = (json.dumps(words).replace("%", "%%") for words in (name_of(component), opened.detail))
        place = self._range(opened.name_start, opened.name_end)
        return f'{comma}{{"name":{name},"kind":{kind_of(component)},"detail":{detail},"selectionRange":{place},"children":['

    def _tail(self, opened: Opened, end: int) -> str:
        """A component behind those in it."""
        return f'],"range":{self._range(opened.start, max(end, opened.name_end))}}}'

    def _range(self, start: int, end: int) -> str:
        """A range."""
        return f'{{"start":{self._position(start)},"end":{self._position(end)}}}'

    def _position(self, offset: int) -> str:
        """A position."""
        if offset < 0:
            self._form.outside.append((len(self._form.numbers), offset))
            self._form.numbers.extend((0, 0))
            return '{"line":%d,"character":%d}'
        line = bisect.bisect_right(self._ends, offset)
        start = self._ends[line - 1] if line else 0
        self._form.numbers.append(line)
        character = offset - start if self._is_plain else units(self._words[start:offset], self._encoding)
        return f'{{"line":%d,"character":{character}}}'


def shown(part: Part, encoding: str) -> Shown:
    """What a part adds. It is kept with the part."""
    found = part.shown.get(encoding)
    if found is None:
        found = part.shown[encoding] = Writer(part.words, encoding).run(part)
    return found


def texts_of(found: Shown, above: int, begin: int, lines: Lines) -> List[str]:
    """The texts of the forms of the part that begins here, in this line."""
    line, texts = found.kept[0]
    if line != above:
        texts = [filled(form, above, begin, lines) for form in found.forms]
        if not any(form.outside for form in found.forms):
            found.kept[0] = above, texts
    return texts


def filled(form: Form, above: int, begin: int, lines: Lines) -> str:
    """The text of a form of the part that begins here, in this line."""
    numbers = [above + line for line in form.numbers]
    for at, offset in form.outside:
        numbers[at:at + 2] = lines.position(begin + offset).values()
    return form.text % tuple(numbers)


def written_tree(outline: Outline, lines: Lines) -> Optional[Written]:
    """The components as symbols, those inside others as their children; None if they are too deep for that."""
    found, path = ["["], []  # type: List[str], List[Tuple[int, int]]
    for above, (begin, part) in zip(outline.aboves, outline.placed()):
        each = shown(part, lines.encoding)
        if each.depth + len(path) > MOST_DEPTH:
            return None
        for text, outer in itertools.zip_longest(texts_of(each, above, begin, lines), part.spans.outer):
            if text:
                found += ["" if found[-1].endswith("[") else ",", text]
            if outer is not None and path:
                found.append(tail(*path.pop(), begin + outer, lines))
        path += [(begin + opened.start, begin + opened.name_end) for opened in map(part.opened.__getitem__, part.spans.open)]
    found += [tail(*ends, lines.length, lines) for ends in reversed(path)]
    return Written("".join([*found, "]"]))


def tail(start: int, name_end: int, end: int, lines: Lines) -> str:
    """What is behind the children of a component."""
    return f'],"range":{lines.written(start, max(end, name_end))}}}'
