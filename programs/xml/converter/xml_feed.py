"""Passes a document to expat piece by piece, in time that grows with the document alone. Nothing here is proved."""
import codecs
import dataclasses
import importlib
import re
import xml.parsers.expat

PIECE_BYTES = 65_536
LONG_BYTES = 1_048_576
TOKEN_BYTES = 16_777_216
MARKS = (codecs.BOM_UTF8, codecs.BOM_UTF16_LE, codecs.BOM_UTF16_BE)
GOES_ON = "rncv-xml-goes-on"
BUILT_IN = ("utf-8", "utf-16", "utf-16-be", "utf-16-le", "iso8859-1", "ascii")
NOT_MALFORMED = ("out of memory", "unknown encoding", "limit on input amplification factor (from DTD and entities) breached")


class OutsideProfile(Exception):
    """Something that the XML has and the profile does not have, with its place (line and column from 1)."""

    def __init__(self, line, column, what):
        super().__init__(what)
        self.line, self.column, self.what = line, column, what


class Malformed(OutsideProfile):
    """What expat says about XML that is not well formed."""


@dataclasses.dataclass(frozen=True)
class Kind:
    """A kind of token that may be cut in two anywhere: how it opens, how it closes, and how its next part opens."""
    opens: str
    closes: str
    reopens: str


KINDS = (Kind("<!--", "-->", "<!--"), Kind("<?", "?>", f"<?{GOES_ON} "))
# Where such a token may be cut: after a character that begins neither its end nor a line end, and before the first byte of a character.
SEAMS = {
    "latin-1": re.compile(rb".+?[^-?\r](?=[^\x80-\xbf])", re.S),
    "utf-16-le": re.compile(rb"(?:..)*?(?!-\0|\?\0|\r\0)..(?=.[^\xdc-\xdf])", re.S),
    "utf-16-be": re.compile(rb"(?:..)*?(?!\0-|\0\?|\0\r)..(?=[^\xdc-\xdf])", re.S),
}


def units_of(start):
    """The codec for the ASCII characters of a document that begins with these bytes, as expat finds it."""
    if start[:2] == codecs.BOM_UTF16_LE or start[1:2] == b"\0":
        return "utf-16-le"
    if start[:2] == codecs.BOM_UTF16_BE or start[:1] == b"\0":
        return "utf-16-be"
    return "latin-1"


def is_served(encoding):
    """Whether expat knows the encoding, or Python has a table of its 256 bytes."""
    try:
        name = codecs.lookup(encoding).name
        return name in BUILT_IN or hasattr(importlib.import_module("encodings." + name.replace("-", "_")), "decoding_table")
    except (ImportError, LookupError, ValueError):
        return False


class Feed:
    """Passes a document's bytes to expat. It keeps the bytes from the start of the token that expat has not read to its end.

    Some versions of expat read an unfinished token again from its start at each call. So a long comment or instruction is passed as several, which
    vanish as one does. The pieces of any other token get larger while it lasts, and such a token has a limit.
    """

    def __init__(self, parser):
        self.parser = parser
        self.kept, self.begin = bytearray(), 0
        self.units, self.encoding, self.first = "", "utf-8", b""
        self.shift_line = self.shift = 0
        self.cut_at = self.cut_place = None
        if hasattr(parser, "SetReparseDeferralEnabled"):
            parser.SetReparseDeferralEnabled(False)

    def here(self):
        """The line and the column, from 1, at which the parser is."""
        return self.unshifted(self.parser.CurrentLineNumber, self.parser.CurrentColumnNumber)

    def unshifted(self, line, column):
        """The place in the document, without a byte order mark, and without what the seams of long tokens added to this line."""
        return line, max(1, column + 1 - (self.shift if line == self.shift_line else 0))

    def declared(self, encoding):
        """Takes the encoding that the document declares."""
        if encoding is not None and not is_served(encoding):
            raise OutsideProfile(*self.here(), f"the encoding {encoding!r} is not served")
        if encoding is not None and self.first.startswith(codecs.BOM_UTF8) and encoding.lower() != "utf-8":
            raise OutsideProfile(*self.here(), f"the byte order mark says UTF-8, and the declaration {encoding}: outside the profile")
        if encoding is not None and self.units == "latin-1":
            self.encoding = encoding

    def all_of(self, source):
        """Reads the binary file to its end."""
        while piece := source.read(min(max(PIECE_BYTES, len(self.kept)), LONG_BYTES)):
            if not self.units:
                piece = self.begun(piece)
            self.take(piece)
        self.parse(b"" if self.units else self.first, True)

    def begun(self, piece):
        """Finds the width of the characters in the first bytes, which may come one by one."""
        self.first += piece
        if len(self.first) < 4:
            return b""
        self.units = units_of(self.first)
        self.encoding = "utf-8" if self.units == "latin-1" else self.units
        self.shift_line, self.shift = 1, int(self.first.startswith(MARKS))
        return self.first

    def take(self, piece):
        """Passes a piece. If it continues a long comment or instruction, it gets a seam."""
        if len(self.kept) >= LONG_BYTES:
            piece = self.after_seam(piece)
        self.parse(piece, False)
        if len(self.kept) > TOKEN_BYTES:
            raise OutsideProfile(*self.here(), f"markup of more than {TOKEN_BYTES:,} bytes: outside the profile")

    def after_seam(self, piece):
        """Cuts the unfinished token at the first possible place in the piece, and returns the rest of the piece."""
        kind = next((kind for kind in KINDS if self.kept.startswith(kind.opens.encode(self.units))), None)
        is_aligned = self.units == "latin-1" or len(self.kept) % 2 == 0
        seam = SEAMS[self.units].match(piece) if kind and is_aligned else None
        if not seam or not self.goes_on(kind, seam[0]):
            return piece
        self.part(seam[0], kind)
        return piece[seam.end():]

    def goes_on(self, kind, data):
        """Whether the end of the unfinished token is neither in the kept bytes nor in the bytes after them, and it is no declaration `<?xml`."""
        opens, closes = (text.encode(self.units) for text in (kind.opens, kind.closes))
        begins = self.kept[len(opens):len(opens) + 6].decode(self.units, "replace").lower()
        return not begins.startswith("xml") and (self.kept + data).find(closes, len(opens)) < 0

    def part(self, piece, kind):
        """Ends the token after the piece, and opens another of its kind."""
        if self.cut_at != self.begin:
            self.cut_place = self.here()
        closes, reopens = (text.encode(self.units) for text in (kind.closes, kind.reopens))
        end = self.begin + len(self.kept) + len(piece) + len(closes)
        self.parse(piece + closes + reopens, False)
        line, added = self.parser.CurrentLineNumber, len(kind.closes + kind.reopens)
        self.shift = added + (self.shift if line == self.shift_line else 0)
        self.shift_line, self.cut_at = line, end

    def parse(self, data, is_last):
        """Parses some bytes, and keeps those of the unfinished token."""
        self.kept += data
        try:
            self.parser.Parse(data, is_last)
        except xml.parsers.expat.ExpatError as fault:
            raise self.reported(fault) from None
        except (LookupError, ValueError) as fault:
            raise OutsideProfile(*self.here(), f"not read: {fault}") from None
        index = self.parser.CurrentByteIndex
        if index > self.begin:
            del self.kept[:index - self.begin]
            self.begin = index

    def reported(self, fault):
        """What expat says, at its place in the document. For a long token that does not end, the place is its beginning."""
        text = xml.parsers.expat.ErrorString(fault.code)
        place = self.cut_place if self.parser.ErrorByteIndex == self.cut_at else self.unshifted(fault.lineno, fault.offset)
        if text in NOT_MALFORMED:
            return OutsideProfile(*place, f"not read: {text}")
        return Malformed(*place, f"malformed XML: {text}")

    def source(self):
        """The document's text from the tag at which the parser is: longer and longer pieces of the kept bytes. It has no piece if these have no reference."""
        begin, size = self.parser.CurrentByteIndex - self.begin, 1_024
        while self.kept.find(b"&", begin) >= 0:
            yield bytes(self.kept[begin:begin + size]).decode(self.encoding, "replace")
            if begin + size >= len(self.kept):
                return
            size *= 4
