"""Places in a text as the protocol counts them, for many offsets."""
from __future__ import annotations

from typing import Any, Dict

from rncv_lsp.texts import Text, units


class Lines:
    """The lines of a text, in one of the protocol's encodings."""

    def __init__(self, text: Text, encoding: str) -> None:
        self._lines, self._text, self.encoding, self.length = text, text.text, encoding, text.length
        self._is_plain = encoding == "utf-32" or self._text.isascii()

    def line(self, offset: int) -> int:
        """The line of an offset, counted from 0."""
        return self._lines.line_of(offset)[0]

    def position(self, offset: int) -> Dict[str, int]:
        """The position of an offset."""
        line, start = self._lines.line_of(offset)
        return {"line": line, "character": offset - start if self._is_plain else units(self._text[start:offset], self.encoding)}

    def range(self, start: int, end: int) -> Dict[str, Any]:
        """The range between two offsets."""
        return {"start": self.position(start), "end": self.position(end)}

    def written(self, start: int, end: int) -> str:
        """The range between two offsets as JSON."""
        first, last = self.position(start), self.position(end)
        return (f'{{"start":{{"line":{first["line"]},"character":{first["character"]}}},'
                f'"end":{{"line":{last["line"]},"character":{last["character"]}}}}}')
