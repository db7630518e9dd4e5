"""Two ways to hand a document to the library: as PYX, many lines in a call, and by a call for each event, which takes longer and has no limits of size."""
from __future__ import annotations

from typing import Dict, List, Optional, Union

from rncv_lsp.outside import rncv

# At most so many characters are in one line of PYX.
LINE_LENGTH = 8_192


class Feed:
    """Hands a document to nobody."""

    is_refused = takes_texts = False
    document: Optional[Union[rncv.Document, rncv.Events]] = None

    def start(self, name: str, attributes: List[str], scope: Dict[str, str]) -> None:
        """Takes a start tag: names and values of attributes in turn, with declarations, and all declarations that hold in it."""

    def end(self, name: str) -> None:
        """Takes an end tag."""

    def text(self, words: str) -> None:
        """Takes a text."""

    def flush(self) -> None:
        """Hands on what was taken."""

    def cut(self) -> Optional[bytes]:
        """Hands on what was taken, and returns what was taken since the last time, so that it can be taken again at once; None if that is not kept."""
        return None

    def again(self, pyx: bytes) -> None:
        """Takes what was cut off before."""

    def expected(self) -> Optional[rncv.Expected]:
        """What may come next; None if that is not known, since the document is not valid up to here."""
        if self.document is None or self.is_refused or self.document.invalid_since() is not None:
            return None
        return self.document.expected()

    def close(self) -> None:
        """Lets go of the validator."""
        if self.document is not None:
            self.document.close()


class PyxFeed(Feed):
    """Hands it on as PYX, or only keeps it, if there is no validator."""

    takes_texts = True

    def __init__(self, validator: Optional[rncv.Validator]) -> None:
        self.document: Optional[rncv.Document] = validator.begin() if validator is not None else None
        self._lines: List[str] = []
        self._taken: List[bytes] = []
        self.add = self._lines.append  # adds a line

    def start(self, name: str, attributes: List[str], scope: Dict[str, str]) -> None:
        """Takes a start tag. The library finds the declarations among the attributes."""
        self.add("(" + name)
        for at in range(0, len(attributes), 2):
            self.add(f"A{attributes[at]} {escaped(attributes[at + 1])}")

    def end(self, name: str) -> None:
        """Takes an end tag."""
        self.add(")" + name)

    def text(self, words: str) -> None:
        """Takes a text, in lines that are not too long."""
        if len(words) <= LINE_LENGTH:
            self.add("-" + (escaped(words) if "\\" in words or "\n" in words or "\t" in words else words))
            return
        for at in range(0, len(words), LINE_LENGTH):
            self.add("-" + escaped(words[at:at + LINE_LENGTH]))

    def flush(self) -> None:
        """Hands on the lines, and keeps them."""
        if self._lines and self._lines[-1][0] in "(A":
            self.add("?")  # the next line says that the tag has no more attributes
        if self._lines:
            self._taken.append(("\n".join(self._lines) + "\n").encode("utf-8", "surrogatepass"))
            self._lines.clear()
            self.again(self._taken[-1])

    def cut(self) -> Optional[bytes]:
        """Hands on the lines, and returns those since the last time."""
        self.flush()
        pyx = b"".join(self._taken)
        self._taken.clear()
        return pyx

    def again(self, pyx: bytes) -> None:
        """Hands on lines."""
        if self.document is not None and not self.is_refused:
            self.is_refused = not self.document.feed(pyx)


class EventFeed(Feed):
    """Hands on each event."""

    takes_texts = True

    def __init__(self, validator: rncv.Validator) -> None:
        self.document: rncv.Events = validator.events()

    def start(self, name: str, attributes: List[str], scope: Dict[str, str]) -> None:
        """Takes a start tag. A prefix that is not declared is refused."""
        pairs = [(each, value) for each, value in zip(attributes[::2], attributes[1::2]) if each.partition(":")[0] != "xmlns"]
        names = [braced(name, scope), *(braced(each, scope) if ":" in each else each for each, _ in pairs)]
        self.is_refused = self.is_refused or None in names or not self.document.start(names[0], list(zip(names[1:], [value for _, value in pairs])))

    def end(self, name: str) -> None:
        """Takes an end tag."""
        self.is_refused = self.is_refused or not self.document.end()

    def text(self, words: str) -> None:
        """Takes a text."""
        self.is_refused = self.is_refused or not self.document.text(words)


def braced(name: str, scope: Dict[str, str]) -> Optional[str]:
    """A name as the library takes it; None if its prefix is not declared."""
    prefix, _, local = name.rpartition(":")
    uri = scope.get(prefix)
    return None if uri is None else f"{{{uri}}}{local}" if uri else local


def escaped(words: str) -> str:
    """A value or a text in PYX."""
    if "\\" in words:
        words = words.replace("\\", "\\\\")
    if "\n" in words:
        words = words.replace("\n", "\\n")
    return words.replace("\t", "\\t") if "\t" in words else words
