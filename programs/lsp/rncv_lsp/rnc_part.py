"""A part of a file that changes: what its tokens are, and what it says behind a state. Both are kept for a while when the part is gone, and found again by its
text: a literal or a brace that is opened may be closed some keystrokes later."""
from __future__ import annotations

import functools
from typing import Any, Dict, Iterable, Iterator, List, NamedTuple, Optional, Tuple

from rncv_lsp.outside import KEYWORDS
from rncv_lsp.rnc_outline import DEFINE, START, Facts, Name, Opened
from rncv_lsp.rnc_states import State
from rncv_lsp.rnc_tokens import CNAME, DOC, LITERAL, OPEN, QUOTED, SIGN, WORD, Lexed

# The keywords behind which nothing more must come, and the signs that say what the token behind them is.
LAST_WORDS = ("empty", "text", "notAllowed", "string", "token")
OPEN_SIGNS = ("=", "|=", "&=", "~", ">>")
PARTNERS = {"}": "{", ")": "(", "]": "["}
BRACKETS = frozenset("{}()[]")
# What is found of a part when it is asked for.
FOUND_ONCE = ("brackets", "blocks", "opened", "head", "spans", "by_text", "by_role", "defined")
# How many ways to read a text are kept; how long a text is that is kept when it is gone, and all of them.
MOST_WAYS, KEPT_LENGTH, MOST_KEPT_LENGTH = 4, 16_384, 1_048_576


class Nesting(NamedTuple):
    """The brackets of a part: those that close what is open before it, those that stay open, and how many levels it adds at most."""

    closing: str
    opening: str
    depth: int


class Scan(NamedTuple):
    """What is kept of the tokens of a part: the lines of its comments and of its braces, where literals have no end, whether it ends where it may, and how its
    brackets nest: None if they do not, or a literal has no end."""

    comments: List[Tuple[int, int]]
    braces: List[Tuple[int, str]]
    open: List[int]
    is_settled: bool
    nesting: Optional[Nesting]


class Spans(NamedTuple):
    """The components that begin in a part: where each ends, or -1 for those that are open behind it, whose indices are `open`. `outer` has the ends of
    components that are open before it."""

    ends: List[int]
    outer: List[int]
    open: List[int]


class Brackets(NamedTuple):
    """The braces and brackets of a part: the lines of pairs that are not on one line, those that close what is open before it, and those that stay open."""

    pairs: List[Tuple[int, int]]
    outer: List[Tuple[int, str]]
    open: List[Tuple[int, str]]


def close_bracket(waiting: List[Tuple[int, str]], line: int, sign: str, pairs: List[Tuple[int, int]]) -> bool:
    """Takes a sign that closes a pair. One that has no partner is skipped. False: nothing is open."""
    while sign == "}" and waiting and waiting[-1][1] == "[":
        waiting.pop()
    if waiting and waiting[-1][1] == ("{" if sign == "}" else "["):
        start = waiting.pop()[0]
        pairs += [(start, line)] if line > start else []
        return True
    return bool(waiting)


def joined_lines(runs: Iterable[Tuple[int, int]]) -> Iterator[Tuple[int, int]]:
    """Runs of lines, of which those are joined that follow each other."""
    first, last = -1, -2
    for start, end in runs:
        if start > last + 1:
            if last >= 0:
                yield first, last
            first = start
        last = end
    if last >= 0:
        yield first, last


def between(state: State) -> Tuple[bool, bool, int, int]:
    """What counts of a state besides its frames."""
    return state.is_in_definition, state.expects, state.lead, state.last


class Part:
    """What a part of a text says behind a state. Offsets count from its beginning."""

    def __init__(self, words: str, before: State, scan: Scan, facts: Facts) -> None:
        self.words, self.length, self.scan, self.facts = words, len(words), scan, facts
        self.line_count = lines_at(words, [self.length])[0]
        self._before = between(before)
        self.starts = [name.start for name in facts.names]
        # How its lines are indented (rnc_indent.py), by what is around it, and what was around it last; how its components are written (rnc_tree.py), by the
        # encoding; and what can be folded in it (rnc_symbols.py).
        self.indented: Dict[Any, List[Any]] = {}
        self.around: Tuple[Any, Any] = None, None
        self.shown: Dict[str, Any] = {}
        self.folded: Tuple[Any, Any] = None, None

    def is_behind(self, state: State) -> bool:
        """Whether this is what it says behind a state."""
        return self._before == between(state) and self.facts.used.is_in(state)

    def after(self, state: State) -> State:
        """The state behind it, if this one is before it."""
        return self.facts.used.behind(self.facts.after, state)

    @functools.cached_property
    def brackets(self) -> Brackets:
        """Its braces and brackets, by lines."""
        found, waiting = Brackets([], [], []), []  # type: Brackets, List[Tuple[int, str]]
        for line, sign in self.scan.braces:
            if sign in "{[":
                waiting.append((line, sign))
            elif not close_bracket(waiting, line, sign, found.pairs):
                found.outer.append((line, sign))
        found.open.extend(waiting)
        return found

    @functools.cached_property
    def blocks(self) -> List[Tuple[int, int]]:
        """The first and the last line of each block of comments in it."""
        return list(joined_lines(self.scan.comments))

    @functools.cached_property
    def opened(self) -> List[Opened]:
        """The components that begin in it."""
        return [event for event in self.facts.events if not isinstance(event, int)]

    @functools.cached_property
    def head(self) -> Tuple[int, bool]:
        """How many blanks it begins with, and whether a definition begins behind them."""
        blanks = self.length - len(self.words.lstrip(" \t"))
        return blanks, next((opened.name_start for opened in self.opened if opened.kind in (DEFINE, START)), -1) == blanks

    @functools.cached_property
    def spans(self) -> Spans:
        """Where the components end."""
        found, path = Spans([], [], []), []  # type: Spans, List[int]
        for event in self.facts.events:
            if not isinstance(event, int):
                path.append(len(found.ends))
                found.ends.append(-1)
            elif path:
                index = path.pop()
                found.ends[index] = max(event, self.opened[index].name_end)
            else:
                found.outer.append(event)
        found.open.extend(path)
        return found

    @functools.cached_property
    def by_text(self) -> Dict[str, List[Name]]:
        """The names with each text."""
        found: Dict[str, List[Name]] = {}
        for name in self.facts.names:
            found.setdefault(name.text, []).append(name)
        return found

    @functools.cached_property
    def by_role(self) -> Dict[str, List[Name]]:
        """The names with each role."""
        found: Dict[str, List[Name]] = {}
        for name in self.facts.names:
            found.setdefault(name.role, []).append(name)
        return found

    @functools.cached_property
    def defined(self) -> Dict[int, List[str]]:
        """The names of the definitions in it, by their grammars."""
        found: Dict[int, List[str]] = {}
        for name in self.by_role.get(DEFINE, ()):
            found.setdefault(name.scope, []).append(name.text)
        return found


class Known:
    """What is known of the parts of a file, by their texts: of those that are in it, and of the last ones that were."""

    def __init__(self) -> None:
        self._texts: Dict[str, Tuple[Scan, List[Part]]] = {}
        # The texts that are in the file no more, and how long they are.
        self._gone: Dict[str, None] = {}
        self._gone_length = 0

    def scan(self, words: str) -> Optional[Scan]:
        """What is known of the tokens of a text."""
        found = self._texts.get(words)
        return found[0] if found is not None else None

    def part(self, words: str, state: State) -> Optional[Part]:
        """What is known of a text behind a state."""
        found = self._texts.get(words)
        return next((part for part in found[1] if part.is_behind(state)), None) if found is not None else None

    def add(self, part: Part) -> None:
        """Adds a part."""
        parts = self._texts.setdefault(part.words, (part.scan, []))[1]
        parts.insert(0, part)
        del parts[MOST_WAYS:]

    def move(self, before: List[Part], after: List[Part]) -> None:
        """Notes that the file has some parts instead of others. A long one that is gone is forgotten: it is long because of a literal that is not closed."""
        there = {part.words for part in after}
        for words in there.intersection(self._gone):
            del self._gone[words]
            self._gone_length -= len(words)
        for words in {part.words for part in before} - there:
            if len(words) > KEPT_LENGTH:
                self._texts.pop(words, None)
            elif words not in self._gone:
                self._gone[words] = None
                self._gone_length += len(words)
        while self._gone_length > MOST_KEPT_LENGTH:
            words = next(iter(self._gone))
            del self._gone[words]
            self._gone_length -= len(words)
            self._texts.pop(words, None)


def scan_of(found: Lexed, words: str) -> Scan:
    """What is kept of the tokens of a part with this text."""
    comments = sorted(found.comments + [(token.start, token.end) for token in found.tokens if token.kind == DOC])
    lines = lines_at(words, [place for comment in comments for place in comment])
    brackets = [(text, start) for kind, text, start, _ in found.tokens if kind == SIGN and text in BRACKETS]
    braces = [bracket for bracket in brackets if bracket[0] not in "()"]
    numbered = list(zip(lines_at(words, [start for _, start in braces]), [sign for sign, _ in braces]))
    nesting = nesting_of(sign for sign, _ in brackets) if not any(token.kind == OPEN for token in found.tokens) else None
    return Scan(list(zip(lines[::2], lines[1::2])), numbered, found.open, is_settled(found), nesting)


def lines_at(text: str, places: List[int]) -> List[int]:
    """The lines of places, counted from 0. Each place is behind the one before."""
    found, line, last, has_returns = [], 0, 0, "\r" in text
    for place in places:
        line += text.count("\n", last, place)
        if has_returns:
            line += text.count("\r", last, place) - text.count("\r\n", last, place)
        found.append(line)
        last = place
    return found


def nesting_of(brackets: Iterable[str]) -> Optional[Nesting]:
    """How the brackets of a part nest."""
    closing, opening, most = [], [], 0  # type: List[str], List[str], int
    for sign in brackets:
        if sign not in PARTNERS:
            opening.append(sign)
            most = max(most, len(opening) - len(closing))
        elif not opening:
            closing.append(sign)
        elif opening.pop() != PARTNERS[sign]:
            return None
    return Nesting("".join(closing), "".join(opening), most)


def is_settled(found: Lexed) -> bool:
    """Whether the tokens are read the same without those behind them, which begin with a definition or an element."""
    kind, text = next((token[:2] for token in reversed(found.tokens) if token.kind != DOC), (DOC, ""))
    if kind == WORD:
        return text not in KEYWORDS or text in LAST_WORDS
    return text not in OPEN_SIGNS if kind == SIGN else kind in (QUOTED, CNAME, LITERAL, OPEN, DOC)


