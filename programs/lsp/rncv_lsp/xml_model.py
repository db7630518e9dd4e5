"""Finds the schema of a document: by `<?xml-model href=".."?>` before its root, else by the settings."""
from __future__ import annotations

import dataclasses
import os
import urllib.parse
from typing import Optional, Tuple

from rncv_lsp.documents import Document, path_of
from rncv_lsp.findings import WARNING, Finding, first_line
from rncv_lsp.schema_files import SCHEME, FileView
from rncv_lsp.schemas import XML_SYNTAX
from rncv_lsp.settings import Settings, schema_by_rule


@dataclasses.dataclass(frozen=True)
class Named:
    """The schema of a document, and the place in the document that names it. `path` is None if the schema would have to be fetched."""

    words: str
    path: Optional[str]
    start: int
    end: int


def schema_named(document: Document, settings: Settings, roots: Tuple[str, ...]) -> Optional[Named]:
    """The schema of a document, if it has one."""
    model = next((model for model in document.models if model.is_compact), None)
    if model is not None:
        return Named(model.href, path_beside(document, model.file), model.start, model.end)
    path = schema_by_rule(settings, document.path, roots) if document.path else None
    return Named(path, path, *first_line(document.lines)) if path else None


def not_served(document: Document, view: FileView) -> Tuple[Finding, ...]:
    """The finding about the first instruction that names a schema in the XML syntax."""
    model = next((model for model in document.models if model.is_xml_syntax), None)
    if model is None:
        return ()
    path = path_beside(document, model.file)
    lack = f"there is no schema {path}, and " if path is not None and view.find(path) is None else ""
    return (Finding(model.start, model.end, f"{lack}the schema {model.href} {XML_SYNTAX}", "schema", severity=WARNING),)


def path_beside(document: Document, href: str) -> Optional[str]:
    """The path of a reference, relative to the document. The reference is read as a URI, or literally if only that is a file."""
    names = [path_of(href)] if SCHEME.match(href) else [urllib.parse.unquote(href), href]
    places = [os.path.join(os.path.dirname(document.path or ""), name) for name in names if name is not None]
    paths = [os.path.normpath(place) for place in places if os.path.isabs(place)]
    return next((path for path in paths if os.path.isfile(path)), paths[0] if paths else None)
