"""The requests of a client about the names in schemas in the compact syntax. For other documents the answers are empty."""
from __future__ import annotations

import itertools
from typing import Any, Callable, Dict, List, Optional, Union

from rncv_lsp.documents import SCHEMA_LANGUAGES, Document, Documents
from rncv_lsp.jobs import IDLE, keep_objects
from rncv_lsp.rnc_ahead import ahead
from rncv_lsp.rnc_completion import completion
from rncv_lsp.rnc_grammars import MOST_FILES, Grammars, Outlines, mentioned_in
from rncv_lsp.rnc_hover import hover
from rncv_lsp.rnc_indent import edits, indented
from rncv_lsp.rnc_names import Asked, definition, highlights, prepared, references, rename
from rncv_lsp.rnc_places import Lines
from rncv_lsp.rnc_symbols import MOST_SYMBOLS, flat, foldings, tree
from rncv_lsp.rnc_tree import written_tree
from rncv_lsp.rpc import Connection, Handler, Written, member
from rncv_lsp.schema_files import Disk, FileView, SchemaFile, opened

MOST_BLANKS = 16
CAPABILITIES = {
    "definitionProvider": True,
    "referencesProvider": True,
    "renameProvider": {"prepareProvider": True},
    "documentHighlightProvider": True,
    "documentSymbolProvider": True,
    "workspaceSymbolProvider": True,
    "foldingRangeProvider": True,
    "hoverProvider": True,
    "completionProvider": {"triggerCharacters": [":", "\\"]},
}
# A client that has several formatters for a document asks its user for one. So that it does not ask for XML, the server registers for schemas alone, if it can.
FORMATTING = {"formatting": "documentFormattingProvider", "rangeFormatting": "documentRangeFormattingProvider"}
SCHEMAS = [{"pattern": "**/*.rnc"}, *({"language": language} for language in SCHEMA_LANGUAGES)]


def offered(params: Any, *names: str) -> Any:
    """What a client says that it can, at this path of names; None if it says nothing."""
    value = params.get("capabilities") if isinstance(params, dict) else None
    for name in names:
        value = value.get(name) if isinstance(value, dict) else None
    return value


class SchemaRequests:
    """Answers the requests, to the thread that reads messages. Another thread gets ready what is asked about a schema. `datatypes` says which set of datatypes
    schemas may name."""

    def __init__(self, documents: Documents, datatypes: Callable[[], str]) -> None:
        self._documents, self._datatypes = documents, datatypes
        self._disk, self._outlines = Disk(), Outlines()
        # The schemas that were opened, and that nothing was got ready of.
        self._opened: List[SchemaFile] = []
        self._has_tree = self._is_markdown = self._has_versions = False
        self._most_foldings: Optional[int] = None
        self._registered: List[str] = []
        self.requests: Dict[str, Handler] = {
            "textDocument/definition": lambda params: self._answer(params, definition),
            "textDocument/references": self._references,
            "textDocument/documentHighlight": lambda params: self._answer(params, highlights),
            "textDocument/prepareRename": lambda params: self._answer(params, prepared),
            "textDocument/rename": self._rename,
            "textDocument/documentSymbol": self._symbols,
            "textDocument/foldingRange": self._foldings,
            "textDocument/formatting": self._format,
            "textDocument/rangeFormatting": lambda params: self._format(params, member(params, "range", dict)),
            "textDocument/hover": lambda params: self._answer(params, lambda asked: hover(asked, self._is_markdown)),
            "textDocument/completion": lambda params: self._answer(params, lambda asked: completion(asked, self._datatypes() == "profile")),
            "workspace/symbol": self._workspace_symbols,
        }

    def initialize(self, params: Any) -> Dict[str, Any]:
        """Notes what the client can, and returns what the server can."""
        formats = offered(params, "textDocument", "hover", "contentFormat")
        self._is_markdown = isinstance(formats, list) and "markdown" in formats
        self._has_tree = offered(params, "textDocument", "documentSymbol", "hierarchicalDocumentSymbolSupport") is True
        self._has_versions = offered(params, "workspace", "workspaceEdit", "documentChanges") is True
        most = offered(params, "textDocument", "foldingRange", "rangeLimit")
        self._most_foldings = most if isinstance(most, int) and most > 0 else None
        self._registered = [name for name in FORMATTING if offered(params, "textDocument", name, "dynamicRegistration") is True]
        return {**CAPABILITIES, **{capability: True for name, capability in FORMATTING.items() if name not in self._registered}}

    def register(self, connection: Connection) -> None:
        """Asks the client to send requests about the format of schemas, and of no other documents."""
        found = [{"id": name, "method": f"textDocument/{name}", "registerOptions": {"documentSelector": SCHEMAS}} for name in self._registered]
        if found:
            connection.ask("client/registerCapability", {"registrations": found}, lambda result: None)

    def begin(self, document: Document) -> None:
        """Begins to read a schema that was opened. It is read beside (`prepare`), or by the first answer that needs it."""
        self._opened.append(opened(document))
        self._outlines.begin(self._opened[-1])

    def close(self) -> None:
        """Forgets what is known of schemas if none is open any more, so that the first answer about another one does not bear that."""
        if not any(document.is_schema for document in self._documents.snapshot()):
            self._outlines.keep(())

    def prepare(self) -> None:
        """Reads the schemas that were opened, and the files that they reach, and gets ready what is asked of them, step by step, while nothing is asked. Only
        one thread at a time does that."""
        while self._opened:
            file = self._opened.pop()
            self._read_from(file)
            for _ in ahead(self._outlines.begin(file), self._documents.encoding):
                IDLE.wait()
            keep_objects()

    def _read_from(self, file: SchemaFile) -> None:
        """Reads a file, and those on the disk that it reaches."""
        view, waiting, seen = FileView(self._documents.snapshot(), self._disk), [file], {file.key}
        while waiting and len(seen) < MOST_FILES:
            file = waiting.pop(0)
            outline = self._outlines.begin(file)
            while outline.advance():
                IDLE.wait()
            found = {each.key: each for _, each in mentioned_in(file, outline, view) if each.document is None and each.key not in seen}
            waiting += found.values()
            seen.update(found)

    def _grammars(self) -> Grammars:
        """The grammars of the schemas that are open."""
        return Grammars(self._documents.snapshot(), self._disk, self._outlines)

    def _schema(self, params: Any) -> Optional[Document]:
        """The open schema that is asked about, if it is one."""
        document = self._documents.current(member(member(params, "textDocument", dict), "uri", str))
        return document if document is not None and document.is_schema else None

    def _asked(self, params: Any) -> Optional[Asked]:
        """The question about a position."""
        document, place = self._schema(params), member(params, "position", dict)
        line, character = (max(0, member(place, name, int)) for name in ("line", "character"))
        if document is None:
            return None
        return Asked(self._grammars(), document.key, document.lines.offset(line, character, self._documents.encoding), self._documents.encoding)

    def _answer(self, params: Any, answer: Callable[[Asked], Any]) -> Any:
        """The answer to the question about a position."""
        asked = self._asked(params)
        return answer(asked) if asked is not None and asked.key in asked.grammars.outlines else None

    def _references(self, params: Any) -> Any:
        """All places of a name."""
        context = params.get("context") if isinstance(params, dict) else None
        is_whole = not isinstance(context, dict) or context.get("includeDeclaration") is not False
        return self._answer(params, lambda asked: references(asked, is_whole))

    def _rename(self, params: Any) -> Any:
        """The edits that give a name another text."""
        new = member(params, "newName", str)
        edits = self._answer(params, lambda asked: rename(asked, new))
        if edits is None or not self._has_versions:
            return None if edits is None else {"changes": edits}
        versions = {document.uri: document.version for document in self._documents.snapshot()}
        return {"documentChanges": [{"textDocument": {"uri": uri, "version": versions.get(uri)}, "edits": each} for uri, each in edits.items()]}

    def _symbols(self, params: Any) -> Union[Written, List[Dict[str, Any]], None]:
        """The outline of a schema."""
        document = self._schema(params)
        if document is None:
            return None
        outline, lines = self._outlines.of(opened(document)), Lines(document.lines, self._documents.encoding)
        return (written_tree(outline, lines) or tree(outline, lines)) if self._has_tree else list(flat(outline, lines, document.uri))

    def _foldings(self, params: Any) -> Optional[Written]:
        """What can be folded in a schema."""
        document = self._schema(params)
        if document is None:
            return None
        return foldings(self._outlines.of(opened(document)), self._most_foldings)

    def _format(self, params: Any, place: Any = None) -> Optional[Written]:
        """The edits that indent a schema, or the lines of a range."""
        document, options = self._schema(params), member(params, "options", dict)
        size = max(1, min(member(options, "tabSize", int), MOST_BLANKS))
        first, last = (member(member(place, end, dict), "line", int) for end in ("start", "end")) if place is not None else (0, None)
        if document is None:
            return None
        text, unit = document.lines, "\t" if options.get("insertSpaces") is False else " " * size
        end = text.line_end(last) if last is not None else None
        found = indented(self._outlines.of(opened(document)), unit, text.line_start(first) if first <= text.line_count else text.length, end)
        return edits(found, Lines(text, self._documents.encoding), first, last)

    def _workspace_symbols(self, params: Any) -> List[Dict[str, Any]]:
        """The components of the open schemas whose names fit a query."""
        query = member(params, "query", str)
        schemas = [document for document in self._documents.snapshot() if document.is_schema]
        found = (flat(self._outlines.of(opened(document)), Lines(document.lines, self._documents.encoding), document.uri, query) for document in schemas)
        return list(itertools.islice(itertools.chain.from_iterable(found), MOST_SYMBOLS))
