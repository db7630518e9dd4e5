"""The documents that the client has open."""
from __future__ import annotations

import dataclasses
import functools
import os
import pathlib
import threading
import urllib.parse
from typing import Any, Dict, List, Optional, Tuple

from rncv_lsp.rpc import INVALID_PARAMS, RpcFault, member
from rncv_lsp.texts import Text, unmarked
from rncv_lsp.xml_prolog import Model, models_in

SCHEMA_LANGUAGES = ("rnc", "relaxng-compact", "relax-ng-compact", "relaxng", "rnc-mode")
# The ends of names of files that are parts of DTDs. Some editors have one language for these and for documents.
DTD_ENDS = (".dtd", ".ent", ".mod")
# One more than a file of a schema may have. A longer file is refused, and the rest of it does not matter.
CONTENT_LENGTH = 1_048_577


def path_of(uri: str) -> Optional[str]:
    """The path of a file's URI; None for another URI."""
    try:
        parts = urllib.parse.urlsplit(uri)
        path = os.fsdecode(urllib.parse.unquote_to_bytes(parts.path))
    except ValueError:
        return None
    is_local = parts.scheme.lower() == "file" and parts.netloc in ("", "localhost")
    return path if is_local and path and "\0" not in path else None


def uri_of(path: str) -> str:
    """The URI of an absolute path."""
    return pathlib.Path(path).as_uri()


@dataclasses.dataclass(frozen=True)
class Document:
    """A document as it is open in the client. `key` identifies it: the path with links resolved, or the URI if it is not a file."""

    uri: str
    path: Optional[str]
    key: str
    language: str
    version: int
    lines: Text

    @functools.cached_property
    def content(self) -> bytes:
        """The first bytes that the document would have as a file of a schema in UTF-8: as many as one may have, and more."""
        return unmarked(self.lines.slice(0, CONTENT_LENGTH)).encode("utf-8", "surrogatepass")

    @functools.cached_property
    def models(self) -> Tuple[Model, ...]:
        """The instructions `xml-model` before the root."""
        return models_in(self.lines)

    @property
    def is_schema(self) -> bool:
        """Whether this is a schema in the compact syntax. Some editors have one language for all that they send to a server, so what begins with `<` is XML,
        unless its name says that it is a schema."""
        is_named = (self.path or self.uri).lower().endswith(".rnc")
        return is_named or (self.language in SCHEMA_LANGUAGES and not self.lines.begins_with_tag)

    @property
    def is_xml(self) -> bool:
        """Whether this is XML: all else is, except parts of DTDs. Editors have many names for the languages of XML."""
        return not self.is_schema and not (self.path or self.uri).lower().endswith(DTD_ENDS)


def new_document(item: Any) -> Document:
    """The document that a client opens."""
    uri = member(item, "uri", str)
    path = path_of(uri)
    language = item.get("languageId")
    key = os.path.realpath(path) if path is not None else uri
    name = language.lower() if isinstance(language, str) else ""
    return Document(uri, path, key, name, version_in(item, 0), Text(member(item, "text", str)))


def version_in(item: Any, otherwise: int) -> int:
    """The version that a client sends; `otherwise` if it sends none."""
    found = item.get("version")
    return found if isinstance(found, int) and not isinstance(found, bool) else otherwise


class Documents:
    """The open documents, in the order in which they were opened."""

    def __init__(self) -> None:
        self.encoding = "utf-16"
        self._lock = threading.Lock()
        self._open: Dict[str, Document] = {}

    def open(self, document: Document) -> None:
        """Adds a document that the client has opened."""
        with self._lock:
            self._open.pop(document.uri, None)
            self._open[document.uri] = document

    def change(self, item: Any, changes: List[Any]) -> Document:
        """Changes a document, and returns it as it is then. If one of the changes is bad, nothing is changed."""
        uri = member(item, "uri", str)
        document = self.current(uri)
        if document is None:
            raise RpcFault(INVALID_PARAMS, f"a change of a document that is not open: {uri}")
        lines = document.lines
        for change in changes:
            words = member(change, "text", str)
            lines = Text(words) if change.get("range") is None else lines.edited(checked(change), self.encoding)
        changed = dataclasses.replace(document, version=version_in(item, document.version), lines=lines)
        with self._lock:
            self._open[uri] = changed
        return changed

    def close(self, uri: str) -> None:
        """Removes a document."""
        with self._lock:
            self._open.pop(uri, None)

    def current(self, uri: str) -> Optional[Document]:
        """The document as it is now, if it is open."""
        with self._lock:
            return self._open.get(uri)

    def is_current(self, document: Document) -> bool:
        """Whether the document is open and has not changed."""
        return self.current(document.uri) is document

    def snapshot(self) -> List[Document]:
        """All documents as they are now."""
        with self._lock:
            return list(self._open.values())


def checked(change: Any) -> Any:
    """Returns the change, or raises RpcFault if its range is bad."""
    for end in ("start", "end"):
        place = member(member(change, "range", dict), end, dict)
        member(place, "line", int)
        member(place, "character", int)
    return change
