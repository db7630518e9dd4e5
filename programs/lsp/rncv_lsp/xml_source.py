"""XML documents as bytes for the library, and what the server parses itself: the prolog, and documents without a schema."""
from __future__ import annotations

import io
import itertools
import re
import xml.parsers.expat
from typing import Callable, Iterator, Optional, Tuple

from rncv_lsp.texts import MARK, Text

PIECE_BYTES = 65_536
PROLOG_BYTES = 1_048_576
HEAD_LENGTH = 65_536
BLANK = "[ \t\r\n]"
# The encoding in an XML declaration that is good otherwise. The parser reports any other declaration.
DECLARED = re.compile(rf"""<\?xml{BLANK}+version{BLANK}*={BLANK}*(?:"[^"<>]*"|'[^'<>]*')({BLANK}+encoding{BLANK}*={BLANK}*"""
                      rf"""(?:"[A-Za-z][-._A-Za-z0-9]*"|'[A-Za-z][-._A-Za-z0-9]*'))(?={BLANK}*\?>|{BLANK}+standalone)""")
NO_CHARACTER = "\uffff"

Place = Tuple[int, int]
Cancelled = Callable[[], bool]
Report = Callable[[Place, str], None]


class GivenUp(Exception):
    """The judging stops, since the document has changed."""


class Fault(Exception):
    """Why a document is not well formed, with the line and the column from 1."""

    def __init__(self, place: Place, what: str) -> None:
        super().__init__(what)
        self.place, self.what = place, what


def pieces_of(lines: Text) -> Iterator[bytes]:
    """A document's text in UTF-8, piece by piece, without a byte order mark. The text that an editor sends is Unicode, and the encoding that it declares is
    about the file on the disk. So the declared encoding is replaced by blanks. What would tell the parser about an encoding is replaced by another character
    that XML does not have there: NUL, and a second byte order mark."""
    head = lines.slice(0, HEAD_LENGTH).removeprefix(MARK).replace("\0", NO_CHARACTER)
    found = DECLARED.match(head)
    if found:
        head = head[:found.start(1)] + re.sub("[^\r\n]", " ", found[1]) + head[found.end(1):]
    if head.startswith(MARK):
        head = NO_CHARACTER + head[1:]
    for part in itertools.chain([head], lines.parts(HEAD_LENGTH, lines.length)):
        yield part.encode("utf-8", "surrogatepass")


class Source(io.RawIOBase):
    """The bytes of a document. They are made as they are read, so that judging begins and stops at once. Reading raises GivenUp once the document has
    changed. It can go back to its beginning, and nowhere else."""

    def __init__(self, lines: Text, is_cancelled: Cancelled) -> None:
        super().__init__()
        self._lines, self._is_cancelled = lines, is_cancelled
        self._pieces, self._left, self._at = pieces_of(lines), b"", 0

    def seekable(self) -> bool:
        """Whether it can go back."""
        return True

    def tell(self) -> int:
        """How many bytes were read."""
        return self._at

    def seek(self, offset: int, whence: int = io.SEEK_SET) -> int:
        """Goes back to the beginning."""
        if offset != 0 or whence != io.SEEK_SET:
            raise io.UnsupportedOperation("only back to the beginning")
        self._pieces, self._left, self._at = pieces_of(self._lines), b"", 0
        return 0

    def read(self, size: int = -1) -> bytes:
        """The next bytes."""
        if self._is_cancelled():
            raise GivenUp
        wanted = min(size, PIECE_BYTES) if size >= 0 else None
        pieces, length = [self._left], len(self._left)
        while (wanted is None or length < wanted) and (piece := next(self._pieces, None)) is not None:
            pieces.append(piece)
            length += len(piece)
        data = b"".join(pieces)
        taken = data if wanted is None else data[:wanted]
        self._left = data[len(taken):]
        self._at += len(taken)
        return taken


def offset_of(lines: Text, place: Place) -> int:
    """The offset in the text of a line and a column of its bytes. A byte order mark is not a column."""
    line, column = place
    return lines.at(line, column + (1 if line == 1 and lines.slice(0, 1) == MARK else 0))


def want_well_formed(source: Source, report: Report) -> None:
    """Raises Fault for a document that is not well formed XML. Nothing external is loaded, and an external DTD is reported."""
    parser = xml.parsers.expat.ParserCreate()

    def begins(name: str, system: Optional[str], public: Optional[str], has_internal: bool) -> None:
        """Takes the document type."""
        if system is not None:
            report((parser.CurrentLineNumber, parser.CurrentColumnNumber + 1), f"the external DTD {system!r} is not loaded: its entities are not known")

    parser.StartDoctypeDeclHandler = begins
    try:
        while piece := source.read(PIECE_BYTES):
            parser.Parse(piece, False)
        parser.Parse(b"", True)
    except xml.parsers.expat.ExpatError as fault:
        raise Fault((fault.lineno, fault.offset + 1), f"malformed XML: {xml.parsers.expat.ErrorString(fault.code)}") from None


class Begun(Exception):
    """The root of a document begins at this place."""

    def __init__(self, place: Place) -> None:
        super().__init__(place)
        self.place = place


def instructions(lines: Text, take: Callable[[str, str, Place], None]) -> Optional[Place]:
    """Passes on the target, the text and the place of each instruction before the root, except those in the document type. Returns the place of the root; None
    if that is not known."""
    parser = xml.parsers.expat.ParserCreate()
    types = []

    def instruction(target: str, words: str) -> None:
        """Passes on an instruction outside the document type."""
        if len(types) % 2 == 0:
            take(target, words, (parser.CurrentLineNumber, parser.CurrentColumnNumber + 1))

    def start(name: str, attributes: object) -> None:
        """Stops the parser at the root."""
        raise Begun((parser.CurrentLineNumber, parser.CurrentColumnNumber + 1))

    parser.ProcessingInstructionHandler = instruction
    parser.StartElementHandler = start
    parser.StartDoctypeDeclHandler = lambda *named: types.append("begins")
    parser.EndDoctypeDeclHandler = lambda: types.append("ends")
    left = PROLOG_BYTES
    try:
        for piece in pieces_of(lines):
            parser.Parse(piece, False)
            left -= len(piece)
            if left < 0:
                return None
    except Begun as begun:
        return begun.place
    except xml.parsers.expat.ExpatError:
        pass
    return None
