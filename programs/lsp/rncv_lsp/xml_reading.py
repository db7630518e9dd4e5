"""Reads a document up to a place: which elements are open there, and what the schema expects next. A reading goes on from where it stopped as long as the text
before that place stays the same, so that a keystroke near the end of a long document takes little time."""
from __future__ import annotations

import bisect
import re
import xml.parsers.expat
from typing import Any, Callable, Dict, List, Optional, Tuple

from rncv_lsp.outside import rncv
from rncv_lsp.texts import Text
from rncv_lsp.xml_feeds import Feed, PyxFeed
from rncv_lsp.xml_stretches import FIRST_SCOPE, OpenElement, Stretch, Stretches

# A stretch of a document is kept that begins and ends before a start tag, and has about so many characters: some 200 elements.
STRETCH_LENGTH = 8_192
START = re.compile(r"<(?![/!?])")
# The bytes of UTF-8 that begin no character.
CONTINUED = bytes(range(0x80, 0xC0))
# What stands in a text that is not well formed. Each of these has one beginning and one end, which is the only group; what has no end goes to the end of the
# text, or a tag to the next one.
PIECE = re.compile(r"""<!--.*?(?:(-->)|\Z)|<!\[CDATA\[.*?(?:(\]\]>)|\Z)|<\?.*?(?:(\?>)|\Z)|<!(?:[^<>"']+|"[^"]*(?:"|\Z)|'[^']*(?:'|\Z))*(>)?"""
                   r"""|</?[^\s<>/&="'?!;]+(?:[^<>"']+|"[^"<]*(?:"|(?=<)|\Z)|'[^'<]*(?:'|(?=<)|\Z))*(>)?""", re.S)
NAME = re.compile(r"</?([^\s<>/&=\"'?!;]+)")
GIVEN = re.compile(r"""\s([^\s<>/&="'?!;]+)\s*=\s*(?:"([^"<]*)"|'([^'<]*)')""")
# The parts of a prolog.
PROLOG = re.compile(r"""<!--.*?(?:-->|\Z)|<\?.*?(?:\?>|\Z)|<!DOCTYPE|"[^"]*(?:"|\Z)|'[^']*(?:'|\Z)|[][<>]""", re.S)


def scope_in(scope: Dict[str, str], attributes: List[str]) -> Dict[str, str]:
    """The declarations in an element with these attributes, which are names and values in turn."""
    for name in attributes[::2]:
        if name.startswith("xmlns"):
            break
    else:
        return scope
    declared = {name[6:]: value for name, value in zip(attributes[::2], attributes[1::2]) if name == "xmlns" or name.startswith("xmlns:")}
    return {**scope, **declared}


class Reading:
    """What was read of a document, and handed on by a feed. With `inside` only that element is read and handed on, with its texts and empty children, and
    without attributes, for a schema of such elements: what is wrong around it, in its children, or with attributes, does not count. Stretches that are known,
    also by another reading of the document, are not parsed again."""

    def __init__(self, feed: Optional[Feed] = None, inside: Optional[OpenElement] = None, known: Optional[Stretches] = None) -> None:
        self.lines, self.at = Text(), inside.start if inside is not None else 0
        self.known = known if known is not None else Stretches()
        self.has_root = self.is_in_data = False
        self.feed, self._inside = feed or Feed(), inside
        # For each open element the name, the declarations, and how many bytes are before its tag, or -1 less its place if it is in a stretch that was not
        # parsed; and where these places are that were asked for.
        self._stack: List[Tuple[str, Dict[str, str], int]] = []
        self._places: Dict[int, int] = {}
        # Where a fault is; and behind that, up to where tags were told, and the elements that are open there.
        self._fault_at, self._loose = -1, (-1, [])  # type: int, Tuple[int, List[OpenElement]]
        # How many bytes were parsed; and where each part of them begins, in bytes and in characters.
        self._bytes, self._parts = 0, []  # type: int, List[Tuple[int, int]]
        # Where a stretch begins, and the elements that are open there.
        self._since: Tuple[int, Tuple[OpenElement, ...]] = (self.at, ())
        self._prepare()

    def _prepare(self) -> None:
        """Makes a parser for what follows: it has read the prolog, if elements are open, and their names as tags. Says what it calls."""
        self._parser: Any = xml.parsers.expat.ParserCreate("UTF-8")
        parser, head = self._parser, b""
        if self._stack:
            tags = "".join(f"<{name}>" for name, _, _ in self._stack)
            head = (self.lines.slice(0, self.open[0].start).removeprefix("\ufeff") + tags).encode("utf-8", "surrogatepass")
        # How many bytes of the parser are no bytes of the text that was parsed.
        self._shift, self._has_parser = len(head) - self._bytes, True
        parser.buffer_text, parser.ordered_attributes = True, True
        self._defers = xml.parsers.expat.version_info >= (2, 6) and not hasattr(parser, "SetReparseDeferralEnabled")
        if hasattr(parser, "SetReparseDeferralEnabled"):
            parser.SetReparseDeferralEnabled(False)
        parser.Parse(head, False)
        is_whole = self._inside is None
        parser.StartElementHandler = self._start_inside if not is_whole else self._start_handler() if self.has_root else self._start
        parser.EndElementHandler = self._end_handler() if is_whole else self._end_inside
        parser.StartCdataSectionHandler, parser.EndCdataSectionHandler = (lambda: self._set_data(True)), (lambda: self._set_data(False))
        if self.feed.takes_texts:
            parser.CharacterDataHandler = self.feed.text if is_whole else self._text_inside

    def _start(self, name: str, attributes: List[str]) -> None:
        """Takes the start tag of the root."""
        self.has_root = True
        self._parser.StartElementHandler = take = self._start_handler()
        take(name, attributes)

    def _start_handler(self) -> Callable[[str, List[str]], None]:
        """What takes a start tag. It is called for each tag before the cursor, so it calls little itself: a line of PYX without attributes is added at
        once."""
        stack, parser, shift, feed = self._stack, self._parser, self._shift, self.feed
        push, add, hand_on = stack.append, feed.add if isinstance(feed, PyxFeed) else None, feed.start

        def take(name: str, attributes: List[str]) -> None:
            """Takes a start tag."""
            scope = stack[-1][1] if stack else FIRST_SCOPE
            if attributes:
                scope = scope_in(scope, attributes)
            push((name, scope, parser.CurrentByteIndex - shift))
            if attributes or add is None:
                hand_on(name, attributes, scope)
            else:
                add("(" + name)

        return take

    def _end_handler(self) -> Callable[[str], None]:
        """What takes an end tag."""
        pop, add, hand_on = self._stack.pop, self.feed.add if isinstance(self.feed, PyxFeed) else None, self.feed.end

        def take(name: str) -> None:
            """Takes an end tag."""
            pop()
            if add is None:
                hand_on(name)
            else:
                add(")" + name)

        return take

    def _start_inside(self, name: str, attributes: List[str]) -> None:
        """Takes a start tag. The element and its children get all declarations that hold in them."""
        stack = self._stack
        outer = stack[-1][1] if stack else {}
        scope = scope_in(outer, attributes) if stack else self._inside.scope
        is_new = scope is not outer and len(stack) < 2
        declared = [(prefix, uri) for prefix, uri in scope.items() if prefix != "xml"] if is_new else []
        stack.append((name, scope, self._parser.CurrentByteIndex))
        self.has_root = True
        if len(stack) <= 2:
            self.feed.start(name, [word for prefix, uri in declared for word in (f"xmlns:{prefix}" if prefix else "xmlns", uri)], scope)

    def _end_inside(self, name: str) -> None:
        """Takes an end tag."""
        del self._stack[-1]
        if len(self._stack) <= 1:
            self.feed.end(name)

    def _text_inside(self, words: str) -> None:
        """Takes a text."""
        if len(self._stack) == 1:
            self.feed.text(words)

    def _set_data(self, is_in_data: bool) -> None:
        """Takes the beginning or the end of a section CDATA."""
        self.is_in_data = is_in_data

    @property
    def open(self) -> List[OpenElement]:
        """The open elements."""
        self._places = {count: self._places[count] if count in self._places else self._place(count) for _, _, count in self._stack}
        return [OpenElement(name, scope, self._places[count]) for name, scope, count in self._stack]

    def _place(self, count: int) -> int:
        """The place behind so many bytes."""
        if count < 0:
            return -1 - count
        begin, place = self._parts[bisect.bisect_right(self._parts, (count, self.at)) - 1]
        data = self.lines.slice(place, place + count - begin).encode("utf-8", "surrogatepass")
        return place + length(data[:count - begin])

    def continues(self, lines: Text, end: int) -> bool:
        """Whether the text has not changed before the place up to which it was read, which is not behind the new end. Some parsers wait for more text behind
        markup that is not finished, so that one has to begin anew."""
        is_waiting = self._defers and (self.unfinished() < self.at or not self.has_root)
        return self.at <= end and not is_waiting and lines.begins_like(self.lines, self.at)

    def advance(self, lines: Text, end: int) -> None:
        """Reads on up to a place."""
        self.lines = lines
        self.known.move_to(lines)
        while self._fault_at < 0 and self.at < end:
            if not self._skip(end):
                begin, self.at = self.at, self._stop(end)
                self._parse(begin)
                self._keep()
        self.at = max(self.at, end)
        self.feed.flush()

    def _skip(self, end: int) -> bool:
        """Takes a stretch that is known and goes no further than the end, if it begins here, without parsing it."""
        known = self.known.by_start.get(self.at) if self._since[0] == self.at else None
        if known is None or known.end > end or not known.is_behind(self._stack):
            return False
        inner = known.inner
        self._stack[len(known.after) - len(inner):] = [(name, scope, -1 - start) for name, scope, start in inner]
        self.feed.again(known.pyx)
        self.at, self.has_root, self._has_parser = known.end, True, False
        self._add(known.pyx)
        return True

    def _stop(self, end: int) -> int:
        """Up to where the next characters are parsed: to a start tag, or to where something is known."""
        begin = self.at + STRETCH_LENGTH
        found = START.search(self.lines.slice(begin, min(begin + STRETCH_LENGTH, end)))
        return self.known.next(self.at, min(begin + (found.start() if found else STRETCH_LENGTH), end))

    def _keep(self) -> None:
        """Keeps the stretch that ends here, if it is long or something is known behind it, and nothing is unfinished."""
        is_wanted = self.at - self._since[0] >= STRETCH_LENGTH or self.at in self.known.by_start
        if self._fault_at >= 0 or not is_wanted or not self._stack or self._inside is not None or self.is_in_data:
            return
        if self.unfinished() == self.at and START.match(self.lines.slice(self.at, self.at + 2)):
            pyx = self.feed.cut()
            if pyx is not None:
                self._add(pyx)

    def _add(self, pyx: bytes) -> None:
        """Adds the stretch that ends here."""
        behind = tuple(self.open)
        self.known.add(Stretch(self._since[0], self.at, self._since[1], behind, pyx))
        self._since = self.at, behind

    def loosely(self, limit: int, end: int) -> Tuple[List[OpenElement], int]:
        """The elements that are open at the end, behind a fault, and where the markup begins that is not finished there. What is told up to the limit is
        kept."""
        begin, stack = self._loose if self._loose[0] > self._fault_at else (self._fault_at, self.open)
        if begin < limit:
            found, start = loosely_open(self.lines, begin, limit, stack)
            if start == limit:
                self._loose = begin, stack = limit, found
        return loosely_open(self.lines, min(begin, end), end, stack)

    def _parse(self, begin: int) -> None:
        """Parses what follows a place. A byte order mark is left out."""
        if not self._has_parser:
            self._prepare()
        words = self.lines.slice(begin, self.at)
        words = words[1:] if begin == 0 and words.startswith("\ufeff") else words
        data = words.encode("utf-8", "surrogatepass")
        self._parts.append((self._bytes, self.at - len(words)))
        try:
            self._parser.Parse(data, False)
        except xml.parsers.expat.ExpatError:
            self._fault_at = self._place(self._parser.ErrorByteIndex - self._shift)
        self._bytes += len(data)

    def unfinished(self) -> int:
        """Where the markup begins that is not finished at the place up to which was read; that place if there is none."""
        is_parsing = self._has_parser and self.has_root and self._fault_at < 0
        count = self._parser.CurrentByteIndex - self._shift if is_parsing else self._bytes
        return self._place(count) if 0 <= count < self._bytes else self.at

    @property
    def fault_at(self) -> Optional[int]:
        """Where the text is not well formed, if it is not."""
        return self._fault_at if self._fault_at >= 0 else None

    def expected(self) -> Optional[rncv.Expected]:
        """What may come next; None if that is not known, since the document is not valid before that, or is not well formed."""
        return self.feed.expected() if self._fault_at < 0 else None


def length(data: bytes) -> int:
    """How many characters begin in these bytes of UTF-8."""
    return len(data.translate(None, CONTINUED))


def loosely_open(lines: Text, begin: int, end: int, open_elements: List[OpenElement]) -> Tuple[List[OpenElement], int]:
    """The elements that are open at the end, if these are open at the beginning, as far as tags can be told in a text that is not well formed; and where the
    markup begins that is not finished there."""
    stack, text, last = list(open_elements), lines.slice(begin, end), end
    for found in PIECE.finditer(text):
        words = found[0]
        last = begin + found.start() if found.end() == len(text) and found.lastindex is None else end
        named = NAME.match(words)
        if named is None or last < end:
            continue
        if words.startswith("</"):
            at = next((at for at in reversed(range(len(stack))) if stack[at].name == named[1]), len(stack))
            del stack[at:]
        elif not words.endswith("/>"):
            scope = scope_in(stack[-1].scope if stack else FIRST_SCOPE, given_in(words))
            stack.append(OpenElement(named[1], scope, begin + found.start()))
    return stack, last


def is_finished(words: str) -> bool:
    """Whether a piece of markup has its end."""
    for begin, end in (("<!--", "-->"), ("<![CDATA[", "]]>"), ("<?", "?>")):
        if words.startswith(begin):
            return words.endswith(end) and len(words) >= len(begin) + len(end)
    return words.endswith(">")


def given_in(tag: str) -> List[str]:
    """The attributes of a tag, as names and values in turn. References in values stay as they are."""
    return [word for found in GIVEN.finditer(tag) for word in (found[1], found[2] if found[2] is not None else found[3])]


def is_in_prolog(text: str) -> bool:
    """Whether the end of a text is in a prolog, but in no comment, instruction or document type."""
    depth, is_finished_there = 0, True
    for found in PROLOG.finditer(text):
        words = found[0]
        if words == "<!DOCTYPE":
            depth = 1
        elif words == "[" and depth == 1:
            depth = 2
        elif words == "]" and depth == 2:
            depth = 1
        elif words == ">" and depth == 1:
            depth = 0
        is_finished_there = found.end() < len(text) or is_finished(words) or words == "]"
    return depth == 0 and is_finished_there
