"""What is kept of a document that was read: stretches between two start tags, each with the elements that are open before and behind it. A stretch whose text
is still there, behind the same elements, need not be parsed again."""
from __future__ import annotations

import bisect
from typing import Dict, List, NamedTuple, Optional, Sequence, Tuple

from rncv_lsp.simple_form import XML_NAMESPACE
from rncv_lsp.texts import Text

FIRST_SCOPE: Dict[str, str] = {"": "", "xml": XML_NAMESPACE}


class OpenElement(NamedTuple):
    """An element that is open: its name as it is written, the declarations that hold in it, as URIs by prefix, and where its tag begins."""

    name: str
    scope: Dict[str, str]
    start: int

    @property
    def expanded(self) -> Tuple[str, str]:
        """The URI and the local name. The URI of a prefix that is not declared is a text that no schema has."""
        return expanded(self.name, self.scope)


def expanded(name: str, scope: Dict[str, str]) -> Tuple[str, str]:
    """The URI and the local name of an element's name."""
    prefix, _, local = name.rpartition(":")
    return scope.get(prefix, "\0"), local


class Stretch(NamedTuple):
    """What was read between two places, the elements that are open at each, at least one behind it, and the PYX of it. Where those before it begin does not
    count: its text may have moved."""

    start: int
    end: int
    before: Tuple[OpenElement, ...]
    after: Tuple[OpenElement, ...]
    pyx: bytes

    @property
    def inner(self) -> Tuple[OpenElement, ...]:
        """The elements that begin in it and are open behind it."""
        return tuple(each for each in self.after if each.start >= self.start)

    def moved(self, by: int) -> Stretch:
        """The same at another place."""
        if by == 0:
            return self
        inner = self.inner
        after = self.after[:len(self.after) - len(inner)] + tuple(each._replace(start=each.start + by) for each in inner)
        return self._replace(start=self.start + by, end=self.end + by, after=after)

    def is_behind(self, stack: Sequence[Tuple[str, Dict[str, str], int]]) -> bool:
        """Whether these elements, with their declarations, are those before it."""
        return [each[:2] for each in stack] == [each[:2] for each in self.before]


class Stretches:
    """The stretches of a text that changes, by where they begin. Only one thread uses an object."""

    def __init__(self, lines: Optional[Text] = None) -> None:
        self.lines = lines or Text()
        self.by_start: Dict[int, Stretch] = {}
        self._starts: List[int] = []

    def move_to(self, lines: Text) -> None:
        """Keeps those that the changed text has too: before what differs; and behind it, if the prolog is the same, which says what entities and attributes
        there are."""
        if lines is self.lines:
            return
        before, self.lines = self.lines, lines
        first, last = before.shared(lines) if self.by_start else (0, 0)
        by, behind = lines.length - before.length, before.length - last
        known = list(self.by_start.values())
        found = [each.moved(by) for each in known if each.start >= behind and each.after[0].start < min(first, each.start)]
        self.by_start = {each.start: each for each in (*found, *(each for each in known if each.end <= first))}
        self._starts = sorted(self.by_start)

    def add(self, stretch: Stretch) -> None:
        """Adds a stretch of the text."""
        if stretch.start not in self.by_start:
            bisect.insort(self._starts, stretch.start)
        self.by_start[stretch.start] = stretch

    def next(self, place: int, end: int) -> int:
        """Where the first one behind a place begins; the end, if that is not before it."""
        at = bisect.bisect_right(self._starts, place)
        return min(self._starts[at], end) if at < len(self._starts) else end
