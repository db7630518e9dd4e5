"""The files of a schema: the open ones as they are in the client, the others from the disk. Nothing is fetched."""
from __future__ import annotations

import codecs
import dataclasses
import functools
import os
import re
import stat
import urllib.parse
from typing import Dict, Iterable, Iterator, List, Optional, Tuple

from rncv_lsp.documents import Document, path_of
from rncv_lsp.schema_words import FILE_BYTES, Mention, mentions_of
from rncv_lsp.texts import Text

MOST_FILES = 64
SCHEME = re.compile(r"([A-Za-z][-+.0-9A-Za-z]+):")
# The name of the main file. No file can mention it, since XML does not allow its first character.
MAIN = "\uffffmain"


@dataclasses.dataclass(frozen=True)
class SchemaFile:
    """A file of a schema. `key` identifies it, `path` is where it was found, and `document` is set if it is open in the client."""

    key: str
    path: str
    content: bytes
    document: Optional[Document] = None

    @functools.cached_property
    def lines(self) -> Text:
        """The text with its lines. Bytes that are not UTF-8 are replaced by other characters."""
        return self.document.lines if self.document else Text(self.content.decode("utf-8", "replace"))

    @property
    def mentions(self) -> Tuple[Mention, ...]:
        """What the file mentions. A file that is too long is refused, and mentions nothing."""
        return mentions_of(self.lines.text) if len(self.content) <= FILE_BYTES else ()


def state_of(path: str) -> Optional[Tuple[int, ...]]:
    """A value that changes when the file is written; None if there is no file."""
    try:
        found = os.stat(path)
    except (OSError, ValueError):
        return None
    return (found.st_dev, found.st_ino, found.st_size, found.st_mtime_ns) if stat.S_ISREG(found.st_mode) else None


class Disk:
    """The files that were read. A file that has changed is read again."""

    def __init__(self) -> None:
        self._known: Dict[str, Tuple[Tuple[int, ...], SchemaFile]] = {}

    def find(self, path: str) -> Optional[SchemaFile]:
        """The file at a path, without a byte order mark; None if there is no file or it cannot be read. Keeps at most one byte more than a file may have."""
        state, known = state_of(path), self._known.get(path)
        if state is None or (known is not None and known[0] == state):
            return known[1] if state and known else None
        try:
            with open(path, "rb") as file:
                content = file.read(len(codecs.BOM_UTF8) + FILE_BYTES + 1).removeprefix(codecs.BOM_UTF8)
            fresh = SchemaFile(os.path.realpath(path), path, content[:FILE_BYTES + 1])
        except OSError:
            return None
        self._known[path] = state, fresh
        return fresh

    def keep(self, paths: Iterable[str]) -> None:
        """Forgets all but these."""
        wanted = set(paths)
        self._known = {path: known for path, known in self._known.items() if path in wanted}


class FileView:
    """The files at one moment: the open documents, and the disk. `states` has the state of each path that was looked up, taken before it was read."""

    def __init__(self, documents: Iterable[Document], disk: Disk) -> None:
        self._open = {document.key: document for document in documents if document.path is not None}
        self._disk = disk
        self._looked_up: Dict[str, Optional[SchemaFile]] = {}
        self.states: Dict[str, Optional[Tuple[int, ...]]] = {}

    def find(self, path: str) -> Optional[SchemaFile]:
        """The file at a path, if there is one."""
        if path not in self._looked_up:
            self.states[path] = state_of(path)
            try:
                document = self._open.get(os.path.realpath(path))
            except (OSError, ValueError):  # not a path
                document = None
            self._looked_up[path] = opened(document, path) if document else self._disk.find(path)
        return self._looked_up[path]


def opened(document: Document, path: Optional[str] = None) -> SchemaFile:
    """An open document as a file of a schema."""
    return SchemaFile(document.key, path or document.path or document.uri, document.content, document)


@dataclasses.dataclass(frozen=True)
class Trouble:
    """A mention that leads to no file, or that could mean two files."""

    file: SchemaFile
    mention: Mention
    what: str


@dataclasses.dataclass
class SchemaSet:
    """The files of a schema under the names that the library gets, the main file first."""

    main: SchemaFile
    files: Dict[str, SchemaFile]
    missing: List[Trouble] = dataclasses.field(default_factory=list)
    unclear: List[Trouble] = dataclasses.field(default_factory=list)

    @property
    def keys(self) -> List[str]:
        """The keys of the files, each once."""
        return list(dict.fromkeys(file.key for file in self.files.values()))


def ways(words: str, path: str) -> Iterator[str]:
    """The paths to which the words of a mention may lead, relative to the file that mentions them. The words are read literally, and as a URI. There is no
    path if they are not text, or if the file would have to be fetched."""
    if any("\ud800" <= letter <= "\udfff" for letter in words):
        return
    has_scheme = SCHEME.match(words) is not None
    names = (path_of(words) if has_scheme else words, None if has_scheme else urllib.parse.unquote(words))
    for name in dict.fromkeys(filter(None, names)):
        place = os.path.join(os.path.dirname(path), name)
        if os.path.isabs(place):
            yield os.path.normpath(place)


def collected(main: SchemaFile, view: FileView) -> SchemaSet:
    """The files of the schema with this main file, in the order in which the library loads them."""
    schema = SchemaSet(main, {MAIN: main})
    meant: Dict[str, Optional[SchemaFile]] = {}
    waiting, read = [main], {(os.path.dirname(main.path), main.key)}
    while waiting and len(schema.files) <= MOST_FILES:
        file = waiting.pop(0)
        for mention in file.mentions:
            found = target(schema, file, mention, view)
            if mention.words in meant and key_of(meant[mention.words]) != key_of(found):
                what = f"{mention.words!r} means another file where another file mentions it: one name must mean one file"
                schema.unclear.append(Trouble(file, mention, what))
                continue
            meant[mention.words] = found
            if found is None:
                continue
            schema.files.setdefault(mention.words, found)
            place = os.path.dirname(found.path), found.key
            if place not in read:
                read.add(place)
                waiting.append(found)
    return schema


def target(schema: SchemaSet, file: SchemaFile, mention: Mention, view: FileView) -> Optional[SchemaFile]:
    """The mentioned file. If there is none, or there are two, the schema records that."""
    places = list(ways(mention.words, file.path))
    found = [each for each in map(view.find, places) if each is not None]
    if not found:
        where = f"there is no {places[-1]}" if places else "this is not a file beside the schema, and nothing is fetched"
        schema.missing.append(Trouble(file, mention, where))
        return None
    if any(each.key != found[0].key for each in found):
        schema.unclear.append(Trouble(file, mention, f"{mention.words!r} may be {found[0].path} or {found[-1].path}"))
    return found[0]


def key_of(file: Optional[SchemaFile]) -> Optional[str]:
    """What identifies a file."""
    return None if file is None else file.key


def main_files(candidates: List[SchemaFile], sets: Dict[str, SchemaSet], reached: Iterable[str]) -> List[SchemaFile]:
    """The open schema files that are judged as main files. No other open one mentions them, and they are in no schema that is judged anyway. If files mention
    each other, the one that was opened first is taken."""
    covered = set(reached)
    chosen: List[SchemaFile] = []
    others = {file.key: {key for other in candidates if other.key != file.key for key in sets[other.key].keys} for file in candidates}
    for is_last in (False, True):
        for file in candidates:
            if file.key not in covered and (is_last or file.key not in others[file.key]):
                chosen.append(file)
                covered.update(sets[file.key].keys)
    return chosen
