"""Finds the files of a schema: what a file mentions is beside it, as for the program `rncv-xml` (programs/xml/src/schemas/schema_files.c). Nothing here is proved.
What a file mentions, the library says. Where in the file, which only messages have, is found here."""

from __future__ import annotations

import bisect
import os
import re
import stat
from collections.abc import Callable, Iterator, Sequence
from typing import NamedTuple, Optional

# With one more file, or one more byte in a file, the library refuses the schema by S2.
MOST_FILES = 64
_MOST_BYTES = 1_048_576

_NAME = rb"[A-Za-z_\x80-\xff][-.0-9A-Za-z_\x80-\xff]*"
# Blanks and comments can be cut in one way only, so that a search that fails takes linear time.
_BLANKS = rb"[ \t\r\n]*(?:\#[^\r\n]*(?:[\r\n]|\Z)[ \t\r\n]*)*"
_LITERAL = rb"(?:\"\"\".*?\"\"\"|'''.*?'''|\"[^\"\r\n]*\"|'[^'\r\n]*')"
_KEYWORD = rb"(?:include|external)(?![-.0-9A-Za-z_\x80-\xff:])(?=" + _BLANKS + rb"[\"'])"
# A keyword before a literal, a literal with its joined segments, a bracket of an annotation, or a run of everything else.
_TOKEN = re.compile(
    rb"(?P<keyword>" + _KEYWORD + rb")"
    rb"|(?P<literal>" + _LITERAL + rb"(?:" + _BLANKS + rb"~" + _BLANKS + _LITERAL + rb")*)"
    rb"|(?P<bracket>[][])"
    rb"|(?P<rest>(?:[ \t\r\n>|&=,?*+{}()~-]+|\#[^\r\n]*|(?!" + _KEYWORD + rb")\\?" + _NAME + rb"(?::(?:" + _NAME + rb"|\*))?)+)",
    re.S,
)
# A segment of a literal, or what is between two.
_SEGMENT = re.compile(rb"\"\"\"(.*?)\"\"\"|'''(.*?)'''|\"([^\"\r\n]*)\"|'([^'\r\n]*)'|\#[^\r\n]*|[ \t\r\n~]+", re.S)
_ESCAPE = re.compile(rb"\\x+\{([0-9A-Fa-f]+)\}")
# These replace an escaped line feed and carriage return while tokens are read, since these end no line. XML allows neither of the two.
_HIDDEN = {0x0A: b"\x01", 0x0D: b"\x02"}
_SHOWN = bytes.maketrans(b"\x01\x02", b"\n\r")
_SCHEME = re.compile(rb"([A-Za-z][-+.0-9A-Za-z]+):")
_QUOTED = re.compile(rb"%([0-9A-Fa-f]{2})")
_LINE_END = re.compile(rb"\r\n|\r|\n")


# The names that a file mentions, in its order; none if the file breaks a clause by itself.
Mentions = Callable[[bytes], Sequence[bytes]]


class Mention(NamedTuple):
    """What an `include` or an `external` names, and where its literal begins in the file."""

    words: bytes
    at: int


class Missing(NamedTuple):
    """A mention of a file that is not there: what is missing, and the file, line and column of the mention."""

    what: str
    file: str
    line: int
    column: int


class SchemaFile:
    """A file of a schema: the name under which the library gets it, the path where it is, its bytes as they are written, and as the library gets them."""

    def __init__(self, name: bytes, path: str, written: bytes = b"", content: bytes = b"") -> None:
        self.name, self.path, self.written, self.content = name, path, written, content

    def read(self, blanked: Callable[[bytes], bytes]) -> None:
        """Reads at most one byte more than a file may have. `blanked` writes blanks over annotations."""
        with open(self.path, "rb") as file:
            self.written = file.read(_MOST_BYTES + 1)
        self.content = blanked(self.written)

    def missing(self, words: bytes, what: str) -> Missing:
        """Says that what is mentioned by these words is not there."""
        at = next((mention.at for mention in _places_in(self.content) if mention.words == words), 0)
        return Missing(what, self.path, *place_of(self.written, at))


def place_of(written: bytes, at: int) -> tuple[int, int]:
    """The line and the column of a byte in a file."""
    before = written[:at]
    ends = [end.end() for end in _LINE_END.finditer(before)]
    return len(ends) + 1, len(before[ends[-1] if ends else 0:].decode("utf-8", "replace")) + 1


def _places_in(content: bytes) -> Iterator[Mention]:
    """The mentions of a file with their places, in the order of its tokens. In annotations nothing is a mention."""
    text, origins = _without_escapes(content)
    depth, at, is_mention = 0, 0, False
    while True:
        found = _TOKEN.match(text, at)
        if found is None:
            return
        kind = found.lastgroup
        if kind == "literal" and is_mention:
            words = b"".join(b"".join(segment.groups(b"")) for segment in _SEGMENT.finditer(found[0])).translate(_SHOWN)
            yield Mention(words, _origin_of(found.start(), origins))
        elif kind == "bracket":
            depth += 1 if found[0] == b"[" else -1
        # between a keyword and its literal there may be blanks
        is_mention = (kind == "keyword" and depth == 0) or (is_mention and kind == "rest")
        at = found.end()


def _without_escapes(content: bytes) -> tuple[bytes, list[tuple[int, int]]]:
    """The text with its escapes replaced, and for each of these where the text after it begins, there and in the file."""
    if b"\\" not in content:
        return content, []
    parts, origins, length, end = [], [], 0, 0
    for found in _ESCAPE.finditer(content):
        code = int(found[1], 16)
        shown = _HIDDEN.get(code) or (chr(code).encode("utf-8", "surrogatepass") if 0 < code <= 0x10FFFF else b"\\")
        parts += [content[end:found.start()], shown]
        length += found.start() - end + len(shown)
        end = found.end()
        # the replaced character comes from where the escape begins
        origins += [(length - len(shown), found.start()), (length, end)]
    parts.append(content[end:])
    return b"".join(parts), origins


def _origin_of(at: int, origins: list[tuple[int, int]]) -> int:
    """Where a place in the text is in the file."""
    index = bisect.bisect_right(origins, (at, 1 << 62)) - 1
    return at if index < 0 else origins[index][1] + at - origins[index][0]


def missing_in(files: Sequence[SchemaFile], mentions: Mentions) -> Optional[Missing]:
    """The first mention of a file that was not handed in, in the order in which the main file leads to the others."""
    named = {file.name: file for file in files}
    waiting = [files[0]]
    reached = {files[0].name}
    for file in waiting:
        for words in mentions(file.content):
            if words not in named:
                return file.missing(words, words.decode("utf-8"))
            if words not in reached:
                reached.add(words)
                waiting.append(named[words])
    return None


class Finder:
    """Finds the files that a schema needs, beginning with those that are given. `files` are those that were found, and `missing` is the first mention of one
    that is not there. `mentions` says what a file mentions, and `blanked` writes blanks over the annotations of a file.

    ValueError: a mention may mean several files. OSError: a file cannot be read.
    """

    def __init__(self, given: Sequence[tuple[bytes, str]], mentions: Mentions, blanked: Callable[[bytes], bytes] = bytes) -> None:
        self.files = [SchemaFile(name, path) for name, path in given]
        self.missing: Optional[Missing] = None
        self._given = {name for name, _ in given[1:]}
        self._meant: dict[bytes, tuple[Optional[str], str]] = {}
        for index, file in enumerate(self.files):
            if index > MOST_FILES:
                break
            file.read(blanked)
            # a file that is too long is refused
            for words in mentions(file.content) if len(file.content) <= _MOST_BYTES else ():
                self._take(file, words)

    def _take(self, file: SchemaFile, words: bytes) -> None:
        """Takes one mention."""
        path = self._meaning(file, words)
        if words in self._meant:
            self._want_one(file, words, path)
            return
        self._meant[words] = path, file.path
        if path is not None:
            self._add(words, path)
        elif self.missing is None:
            ways = _ways(words, os.fsencode(file.path))
            self.missing = file.missing(words, os.fsdecode(_normal(ways[-1])) if ways else words.decode("utf-8"))

    def _meaning(self, file: SchemaFile, words: bytes) -> Optional[str]:
        """The path of the file that the words mean, if there is one."""
        ways = [path for way in _ways(words, os.fsencode(file.path)) for path in (way, _normal(way))]
        if words in self._given:
            ways.append(words)
        found = [os.fsdecode(path) for path in ways if _is_file(path)]
        for other in found[1:]:
            if not _is_same(found[0], other):
                raise ValueError(f"{_shown(words)} in {file.path} may be {found[0]} or {other}")
        return found[0] if found else None

    def _want_one(self, file: SchemaFile, words: bytes, path: Optional[str]) -> None:
        """Raises an error if the words mean one file here and another elsewhere."""
        before, by = self._meant[words]
        if (path is None) != (before is None) or (path is not None and before is not None and not _is_same(path, before)):
            name = _shown(words)
            raise ValueError(f"{name} in {by} is {before or 'no file'} and {name} in {file.path} is {path or 'no file'}: "
                             f"one name is one file; write one of them as './{words.decode('utf-8')}'")

    def _add(self, words: bytes, path: str) -> None:
        """Adds the file that is mentioned, unless a file of that name is there. If the name of the main file means another file here, the main file gets a
        name that no file can mention."""
        main = self.files[0]
        if main.name == words and not _is_same(main.path, path):
            main.name = b"\x01" + main.name
        for at, file in enumerate(self.files):
            if file.name == words:
                # a file that is given by these words and does not exist is taken from beside the file that mentions it
                if at > 0 and not _is_same(file.path, path):
                    file.path = path
                return
        self.files.append(SchemaFile(words, path))


def _shown(words: bytes) -> str:
    return "'" + words.decode("utf-8", "replace") + "'"


def _is_file(path: bytes) -> bool:
    try:
        return stat.S_ISREG(os.stat(path).st_mode)
    except (OSError, ValueError):
        return False


def _is_same(one: str, other: str) -> bool:
    """Whether both paths lead to the same thing, or neither leads to anything."""
    found: list[Optional[tuple[int, int]]] = []
    for path in (one, other):
        try:
            state = os.stat(path)
            found.append((state.st_dev, state.st_ino))
        except (OSError, ValueError):
            found.append(None)
    return found[0] == found[1]


def _unquoted(text: bytes) -> bytes:
    """The text with `%20` and the like replaced. A path has no zero byte, so `%00` stays as it is written."""
    return _QUOTED.sub(lambda found: found[0] if found[1] == b"00" else bytes([int(found[1], 16)]), text)


def _local(words: bytes, scheme: int) -> Optional[bytes]:
    """The path of a `file:` URI of this machine, as it is written. None: the file would have to be fetched."""
    if words[:scheme].lower() != b"file:":
        return None
    path = words[scheme:]
    if path.startswith(b"//"):
        host, slash, rest = path[2:].partition(b"/")
        if host not in (b"", b"localhost"):
            return None
        path = slash + rest
    return re.split(rb"[?#]", path, maxsplit=1)[0]


def _ways(words: bytes, path: bytes) -> list[bytes]:
    """The ways in which the words of a mention may be a path beside the file at `path`: as they are written, and as a URI."""
    folder = path[: path.rfind(b"/") + 1]
    scheme = _SCHEME.match(words)
    if scheme:
        local = _local(words, scheme.end())
        return [] if local is None else [_beside(folder, _unquoted(local))]
    if not words or b"\0" in words:
        return []
    return [_beside(folder, words)] + ([_beside(folder, _unquoted(words))] if b"%" in words else [])


def _beside(folder: bytes, words: bytes) -> bytes:
    return words if words.startswith(b"/") else folder + words


def _normal(path: bytes) -> bytes:
    """The path without `.`, `..` and doubled slashes, as far as these can be left out of the text."""
    is_from_root = path.startswith(b"/")
    parts: list[bytes] = []
    for part in path.split(b"/"):
        if part in (b"", b"."):
            continue
        if part == b"..":
            if parts and parts[-1] != b"..":
                parts.pop()
                continue
            if is_from_root:
                continue
        parts.append(part)
    return (b"/" if is_from_root else b"") + b"/".join(parts) or b"."
