"""A text, its lines, and places in it: as the protocol counts them, and as the library and XML count them."""
from __future__ import annotations

import bisect
import functools
import itertools
import operator
import re
from typing import Any, Dict, Iterator, List, Optional, Tuple

LINE_END = re.compile("\r\n|\r|\n")
MARK = "\ufeff"
# For each encoding: the codec, and the width of one unit in bytes.
CODECS = {"utf-8": ("utf-8", 1), "utf-16": ("utf-16-le", 2), "utf-32": ("utf-32-le", 4)}
PIECE_LENGTH = 4_096


def unmarked(text: str) -> str:
    """The text with a blank in place of a byte order mark, so that places stay."""
    return " " + text[1:] if text.startswith(MARK) else text


def units(text: str, encoding: str) -> int:
    """How long a text is in units of the encoding."""
    if encoding == "utf-32" or text.isascii():
        return len(text)
    codec, width = CODECS[encoding]
    return len(text.encode(codec, "surrogatepass")) // width


def index_after(text: str, count: int, encoding: str) -> int:
    """How many characters of a text fit into so many units of the encoding."""
    if encoding == "utf-32" or text.isascii():
        return min(count, len(text))
    low, high = 0, min(count, len(text))
    while low < high:
        middle = (low + high + 1) // 2
        low, high = (middle, high) if units(text[:middle], encoding) <= count else (low, middle - 1)
    return low


def common(first: str, second: str) -> int:
    """How many characters at the beginning of two texts are the same."""
    low, high = 0, min(len(first), len(second))
    while low < high:
        middle = (low + high + 1) // 2
        low, high = (middle, high) if first[low:middle] == second[low:middle] else (low, middle - 1)
    return low


class Piece:
    """A part of a text. Its line ends are counted at once, and searched only if they are needed."""

    __slots__ = ("text", "length", "line_count", "_ends", "_units")

    def __init__(self, text: str) -> None:
        self.text, self.length = text, len(text)
        self.line_count = text.count("\n") + text.count("\r") - text.count("\r\n")
        self._ends: Optional[Tuple[int, ...]] = None
        self._units: Dict[str, int] = {}

    @property
    def ends(self) -> Tuple[int, ...]:
        """The offset after each line end."""
        if self._ends is None:
            self._ends = tuple(found.end() for found in LINE_END.finditer(self.text))
        return self._ends

    def units(self, encoding: str) -> int:
        """The length in units of the encoding."""
        if encoding not in self._units:
            self._units[encoding] = units(self.text, encoding)
        return self._units[encoding]


def cut(text: str) -> Iterator[Piece]:
    """The pieces of a text. They have about the same length, and none ends between the two characters of a line end."""
    count = max(1, round(len(text) / PIECE_LENGTH))
    begin = 0
    for number in range(1, count + 1):
        end = len(text) * number // count
        end += text[end - 1:end + 1] == "\r\n"
        if end > begin:
            yield Piece(text[begin:end])
        begin = max(begin, end)


class Text:
    """A text that does not change. Offsets count characters from 0.

    It is a list of pieces, so that a changed copy costs little: it has the same pieces, except those at the change. No piece ends between the two
    characters of a line end, so the line ends of the text are those of its pieces.
    """

    def __init__(self, text: str = "", pieces: Optional[List[Piece]] = None) -> None:
        self.pieces = (list(cut(text)) if pieces is None else pieces) or [Piece("")]

    @functools.cached_property
    def text(self) -> str:
        """The text as one string."""
        return "".join(piece.text for piece in self.pieces)

    @functools.cached_property
    def _offsets(self) -> List[int]:
        """Where the pieces begin, and where the last one ends."""
        return [0, *itertools.accumulate(map(operator.attrgetter("length"), self.pieces))]

    @functools.cached_property
    def _line_counts(self) -> List[int]:
        """How many line ends there are before each piece, and in the whole text."""
        return [0, *itertools.accumulate(map(operator.attrgetter("line_count"), self.pieces))]

    @property
    def length(self) -> int:
        """How many characters the text has."""
        return self._offsets[-1]

    @property
    def line_count(self) -> int:
        """How many line ends the text has."""
        return self._line_counts[-1]

    @property
    def begins_with_tag(self) -> bool:
        """Whether the text begins with `<`, behind blanks. Schemas in the compact syntax do not."""
        return self.slice(0, PIECE_LENGTH).lstrip("\ufeff \t\r\n").startswith("<")

    def _index(self, offset: int) -> int:
        """The index of the piece that has the character at an offset; of the last piece for the end of the text."""
        return min(bisect.bisect_right(self._offsets, offset), len(self.pieces)) - 1

    def parts(self, start: int, end: int) -> Iterator[str]:
        """What is between two offsets, piece by piece."""
        index = self._index(start)
        while start < end:
            begin = self._offsets[index]
            part = self.pieces[index].text[start - begin:end - begin]
            yield part
            start, index = start + len(part), index + 1

    def slice(self, start: int, end: int) -> str:
        """What is between two offsets."""
        return "".join(self.parts(max(0, start), min(end, self.length)))

    def begins_like(self, other: Text, length: int) -> bool:
        """Whether the first characters of two texts are the same. Pieces that both have are not compared."""
        shared = 0
        for mine, its in zip(self.pieces, other.pieces):
            if mine is not its:
                break
            shared += mine.length
        return shared >= length or self.slice(shared, length) == other.slice(shared, length)

    def shared(self, other: Text) -> Tuple[int, int]:
        """How many characters are the same at the beginning of two texts, and at their end. Pieces that both have are not compared."""
        length = min(self.length, other.length)
        first, last = (min(length, sum(mine.length for mine, _ in itertools.takewhile(lambda pair: pair[0] is pair[1], pairs)))
                       for pairs in (zip(self.pieces, other.pieces), zip(reversed(self.pieces), reversed(other.pieces))))
        mine, its = self.slice(first, self.length - last), other.slice(first, other.length - last)
        return first + common(mine, its), last + common(mine[::-1], its[::-1])

    def line_start(self, line: int) -> int:
        """Where a line (counted from 0) begins."""
        if line <= 0:
            return 0
        index = bisect.bisect_left(self._line_counts, line) - 1
        return self._offsets[index] + self.pieces[index].ends[line - self._line_counts[index] - 1]

    def line_end(self, line: int) -> int:
        """Where a line (counted from 0) ends, before its line end."""
        if line >= self._line_counts[-1]:
            return self.length
        end = self.line_start(line + 1)
        return end - (2 if self.slice(end - 2, end) == "\r\n" else 1)

    def offset(self, line: int, character: int, encoding: str) -> int:
        """The offset of a position of the protocol. A position after the end of a line means that end. One after the text means the end of the text."""
        if line > self._line_counts[-1]:
            return self.length
        at, end, left = self.line_start(line), self.line_end(line), character
        index = self._index(at)
        while at < end:
            piece, begin = self.pieces[index], self._offsets[index]
            is_whole = at == begin and end >= begin + piece.length
            part = piece.text if is_whole else piece.text[at - begin:end - begin]
            width = piece.units(encoding) if is_whole else units(part, encoding)
            if left < width:
                return at + index_after(part, left, encoding)
            at, left, index = at + len(part), left - width, index + 1
        return end

    def line_of(self, offset: int) -> Tuple[int, int]:
        """The line (counted from 0) of an offset, and where it begins."""
        index = self._index(offset)
        begin, ends = self._offsets[index], self.pieces[index].ends
        count = bisect.bisect_right(ends, offset - begin)
        line = self._line_counts[index] + count
        return line, begin + ends[count - 1] if count else self.line_start(line)

    def position(self, offset: int, encoding: str) -> Dict[str, int]:
        """The position of the protocol for an offset."""
        offset = max(0, min(offset, self.length))
        line, start = self.line_of(offset)
        return {"line": line, "character": sum(units(part, encoding) for part in self.parts(start, offset))}

    def range(self, start: int, end: int, encoding: str) -> Dict[str, Any]:
        """The range of the protocol between two offsets."""
        return {"start": self.position(start, encoding), "end": self.position(end, encoding)}

    def at(self, line: int, column: int) -> int:
        """The offset of a line and a column that count from 1, columns in characters."""
        if line > self._line_counts[-1] + 1:
            return self.length
        return min(self.line_start(line - 1) + max(column, 1) - 1, self.length)

    def edited(self, change: Any, encoding: str) -> Text:
        """The text after a change of the protocol, which has a range and a text."""
        ends = [change["range"][end] for end in ("start", "end")]
        start, end = (self.offset(max(0, place["line"]), max(0, place["character"]), encoding) for place in ends)
        return self._replaced(start, max(start, end), change["text"])

    def _replaced(self, start: int, end: int, words: str) -> Text:
        """The text with other words between two offsets. The pieces beside the change are cut anew too, so that line ends stay whole, and pieces large."""
        first, behind = max(0, self._index(start) - 1), min(len(self.pieces), self._index(end) + 2)
        before, after = self.slice(self._offsets[first], start), self.slice(end, self._offsets[behind])
        return Text(pieces=[*self.pieces[:first], *cut(before + words + after), *self.pieces[behind:]])
