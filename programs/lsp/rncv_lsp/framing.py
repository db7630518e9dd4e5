"""Messages on a stream of bytes: a header with `Content-Length`, an empty line, and as many bytes as it says."""
from __future__ import annotations

import re
from typing import BinaryIO, Optional

HEADER_BYTES = 65_536
MESSAGE_BYTES = 1_073_741_824
PIECE_BYTES = 1_048_576
# A header right behind bytes that belong to no message, such as the rest of a message that is longer than its header says.
BURIED = re.compile(rb"(?<![-\w])content-length[ \t]*:[ \t]*([0-9]{1,18})\Z", re.I)
BURIED_BYTES = 64


class FramingFault(Exception):
    """What was read is not a message. The stream can still be read."""


class MessageReader:
    """Reads the messages of a stream. After bytes that are not a message it is lost: it looks for the next header, and reports nothing more before that."""

    def __init__(self, source: BinaryIO) -> None:
        self._source = source
        self.is_lost = False

    def read(self) -> Optional[bytes]:
        """The bytes of the next message, or None at the end of the stream. Skips lines that are not part of a header, and empty lines before it."""
        length: Optional[int] = None
        is_begun, rest = False, b""
        while line := self._source.readline(HEADER_BYTES):
            words = (rest + line).strip()
            rest = b"" if line.endswith(b"\n") else words[-BURIED_BYTES:]
            if words:
                is_begun = True
                length = self._length_in(words, length)
            elif length is not None:
                return self._body(length)
            elif is_begun:
                self._fail("a header without Content-Length", self.is_lost)
        return None

    def _fail(self, what: str, is_known: bool = False) -> None:
        """Raises FramingFault, unless the client knows already that the reader is lost."""
        self.is_lost = True
        if not is_known:
            raise FramingFault(what)

    def _length_in(self, words: bytes, before: Optional[int]) -> Optional[int]:
        """The length in a line of the header; `before` if the line has none."""
        name, _, value = words.partition(b":")
        number = value.strip()
        if name.strip().lower() != b"content-length":
            found = BURIED.search(words, max(0, len(words) - BURIED_BYTES))
            return int(found[1]) if found else before
        if not number.isdigit() or len(number) > 18:
            self._fail("a Content-Length that is not a number")
        return int(number)

    def _body(self, length: int) -> Optional[bytes]:
        """The bytes of a message; None if the stream ends too early. A message that is too long is skipped, as bytes that are not a message are."""
        if length > MESSAGE_BYTES:
            self._fail("a message that is too long")
        pieces = []
        while length > 0:
            piece = self._source.read(min(length, PIECE_BYTES))
            if not piece:
                return None
            pieces.append(piece)
            length -= len(piece)
        self.is_lost = False
        return b"".join(pieces)


def write_message(sink: BinaryIO, data: bytes) -> None:
    """Writes a message."""
    sink.write(b"Content-Length: %d\r\n\r\n" % len(data) + data)
    sink.flush()
