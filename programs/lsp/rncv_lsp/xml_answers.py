"""The answers about a place in an XML document: what may come there, and what the schema says of a name there."""
from __future__ import annotations

import contextlib
import os
import re
import threading
from typing import Any, Callable, Dict, List, NamedTuple, Optional, Tuple

from rncv_lsp import DATATYPES
from rncv_lsp.coordinator import Coordinator, Task, uri_of_file
from rncv_lsp.documents import Document, Documents
from rncv_lsp.outside import rncv
from rncv_lsp.rpc import Handler, member, within
from rncv_lsp.schema_declarations import Declaration, Declarations
from rncv_lsp.schema_files import SchemaSet
from rncv_lsp.schemas import Outcome, name_of
from rncv_lsp.settings import is_in
from rncv_lsp.simple_form import Form
from rncv_lsp.texts import Text
from rncv_lsp.xml_completion import Asked, Completion, Knowledge, attribute_name
from rncv_lsp.xml_cursor import Cursor, boundary, continues, cursor_at, cursor_far, end_of_name
from rncv_lsp.xml_feeds import EventFeed, PyxFeed
from rncv_lsp.xml_reading import Reading
from rncv_lsp.xml_source import instructions, offset_of
from rncv_lsp.xml_stretches import OpenElement, Stretches, expanded

CAPABILITIES = {
    "completionProvider": {"triggerCharacters": ["<", "/", " ", '"', "'"]},
    "hoverProvider": True,
    "definitionProvider": True,
}
# Behind these characters a client asks by itself. In content they begin nothing.
ONLY_IN_TAGS = (" ", "/", '"', "'")
BY_CHARACTER = 2
MOST_SCHEMAS, MOST_LINES, MOST_SHOWN = 8, 12, 3
# How many characters of a document are read for an answer.
MOST_READ = 1_048_576


class Kept(NamedTuple):
    """A reading that is kept for the next question about its document, and the schema by which it reads; and the element, if it is inside of one."""

    schema: str
    validator: Optional[rncv.Validator]
    reading: Reading
    inside: Optional[OpenElement] = None


class Cache:
    """Values by key, for any thread: one makes a value, and others wait for it. Those that were asked for longest ago are dropped."""

    def __init__(self) -> None:
        self._known: Dict[Any, Any] = {}
        self._lock = threading.Lock()

    def find(self, key: Any, make: Callable[[], Any]) -> Any:
        """The value of a key, which is made if there is none."""
        with self._lock:
            value = self._known.pop(key) if key in self._known else make()
            self._known[key] = value
            while len(self._known) > MOST_SCHEMAS:
                del self._known[next(iter(self._known))]
            return value


class XmlAnswers:
    """Answers about XML documents, to the thread that reads messages; none about other documents. Another thread gets ready what is known of schemas."""

    def __init__(self, documents: Documents, coordinator: Coordinator) -> None:
        self._documents, self._coordinator = documents, coordinator
        self._forms, self._declarations, self._elements = Cache(), Cache(), Cache()
        self._expecting: Dict[Tuple[str, bool], Kept] = {}
        self._telling: Dict[str, Reading] = {}
        # What was read of documents; and what another thread has read ahead, or None once that is taken.
        self._known: Dict[str, Stretches] = {}
        self._ahead: Dict[str, Optional[Stretches]] = {}
        self._has_snippets = self._has_markdown = False
        coordinator.prepare = self._prepare
        self.requests: Dict[str, Handler] = {
            "textDocument/completion": self._completion,
            "textDocument/hover": self._hover,
            "textDocument/definition": self._definition,
        }

    def initialize(self, params: Any) -> Dict[str, Any]:
        """Notes what the client can, and returns what the server can."""
        formats = within(params, "capabilities", "textDocument", "hover", "contentFormat")
        self._has_markdown = isinstance(formats, list) and "markdown" in formats
        self._has_snippets = within(params, "capabilities", "textDocument", "completion", "completionItem", "snippetSupport") is True
        return CAPABILITIES

    def forget(self, uri: str) -> None:
        """Forgets what belongs to a closed document."""
        self._expecting.pop((uri, False), None)
        self._expecting.pop((uri, True), None)
        self._telling.pop(uri, None)
        self._known.pop(uri, None)
        self._ahead.pop(uri, None)

    def changed(self, document: Document) -> None:
        """Keeps what was read of a document beside its change."""
        if document.uri in self._known:
            self._known[document.uri].move_to(document.lines)

    def _completion(self, params: Any) -> Any:
        """What may come at a position. As long as the schema is not known yet, the client is told to ask again."""
        document, offset = self._place(params)
        if document is None:
            return None
        task = self._coordinator.task_of(document.uri)
        cursor, expected = self._expected(document, task.outcome if task is not None else None, offset)
        asked_by = params.get("context")
        is_by_character = isinstance(asked_by, dict) and asked_by.get("triggerKind") == BY_CHARACTER
        if cursor.kind == "content" and is_by_character and asked_by.get("triggerCharacter") in ONLY_IN_TAGS:
            return None
        known = self._knowledge(document.uri, task.outcome) if task is not None and task.outcome is not None else None
        asked = Asked(document.lines, cursor, expected, self._documents.encoding, self._has_snippets)
        return {"isIncomplete": task is None, "items": Completion(asked, known).items()}

    def _hover(self, params: Any) -> Any:
        """What the schema says of the name at a position."""
        document, offset = self._place(params)
        if document is None:
            return None
        cursor, found = self._declared(document, offset)
        if not found:
            return None
        words = "\n\n".join(map(self._shown, found[:MOST_SHOWN]))
        return {"contents": {"kind": "markdown" if self._has_markdown else "plaintext", "value": words},
                "range": document.lines.range(cursor.start, cursor.end, self._documents.encoding)}

    def _definition(self, params: Any) -> Any:
        """Where the schema declares the name at a position; in the instruction that names the schema, where that is."""
        document, offset = self._place(params)
        if document is None:
            return None
        encoding = self._documents.encoding
        model = next((model for model in document.models if model.is_compact), None)
        if model is not None and model.start <= offset <= model.end:
            schema = self._coordinator.schema_of(document.uri)
            return None if schema is None else [{"uri": uri_of_file(schema.main), "range": Text().range(0, 0, encoding)}]
        found = self._declared(document, offset)[1]
        return [{"uri": uri_of_file(each.file), "range": each.file.lines.range(each.name_start, each.name_end, encoding)} for each in found] or None

    def _place(self, params: Any) -> Tuple[Optional[Document], int]:
        """The document in XML that is meant, if it is open, and the offset in it."""
        uri, position = member(member(params, "textDocument", dict), "uri", str), member(params, "position", dict)
        line, character = (max(0, member(position, name, int)) for name in ("line", "character"))
        document = self._documents.current(uri)
        if document is None or not document.is_xml:
            return None, 0
        return document, document.lines.offset(line, character, self._documents.encoding)

    def _expected(self, document: Document, outcome: Optional[Outcome], offset: int) -> Tuple[Cursor, Optional[rncv.Expected]]:
        """What is at a place, and what may come there, if that is known. If the document is not valid, only the innermost element counts."""
        try:
            cursor, expected = self._expected_by_all(document, outcome, offset)
            is_near = bool(cursor.open) and offset - cursor.open[-1].start <= MOST_READ
            if expected is None and is_near and outcome is not None and cursor.kind in ("element", "content"):
                reading = self._reading_by(document, outcome, offset, cursor.open[-1])
                reading.advance(document.lines, boundary(document.lines, offset))
                expected = reading.expected()
            return cursor, expected
        except MemoryError:
            self.forget(document.uri)
            raise

    def _expected_by_all(self, document: Document, outcome: Optional[Outcome], offset: int) -> Tuple[Cursor, Optional[rncv.Expected]]:
        """The same, if all counts that is before the place. Far behind the beginning that would take too long."""
        root = self._far_root(document, offset)
        if root is not None:
            return cursor_far(document.lines, root, offset), None
        reading = self._reading_by(document, outcome, offset)
        cursor = cursor_at(reading, document.lines, offset)
        if reading.feed.is_refused:  # it may be over a limit of PYX, and then it is read in another way
            reading = self._reading_by(document, outcome, offset)
            cursor = cursor_at(reading, document.lines, offset)
        return cursor, reading.expected() if outcome is not None and cursor.kind in ("element", "content") else None

    @staticmethod
    def _far_root(document: Document, offset: int) -> Optional[int]:
        """Where the root begins, if the place is too far behind it."""
        place = instructions(document.lines, lambda *instruction: None) if offset > MOST_READ else None
        root = offset_of(document.lines, place) if place is not None else offset
        return root if offset - root > MOST_READ else None

    def _reading_by(self, document: Document, outcome: Optional[Outcome], offset: int, inside: Optional[OpenElement] = None) -> Reading:
        """A reading of the document by its schema, or of an element in it: the one that is kept, if it can go on."""
        key, schema = (document.uri, inside is not None), outcome.name if outcome is not None else ""
        kept = self._expecting.pop(key, None)
        is_like = kept is not None and kept.schema == schema
        is_refused = is_like and kept.reading.feed.is_refused and isinstance(kept.reading.feed, PyxFeed)
        if is_like and not is_refused and kept.inside == inside and continues(kept.reading, document.lines, offset):
            self._expecting[key] = kept
            return kept.reading
        if kept is not None:
            kept.reading.feed.close()
        own = kept.validator if is_like else self._validator(outcome, inside is not None)
        feed = EventFeed(own) if is_refused else PyxFeed(own)
        known = self._stretches(document) if inside is None and not is_refused else None
        self._expecting[key] = Kept(schema, own, Reading(feed, inside, known), inside)
        return self._expecting[key].reading

    def _validator(self, outcome: Optional[Outcome], is_inside: bool) -> Optional[rncv.Validator]:
        """Another validator by a schema, or by that of its elements."""
        if outcome is None or outcome.validator is None:
            return None
        found = self._elements.find(outcome.name, lambda: elements_by(self._form(outcome))) if is_inside else outcome.validator
        return found.share() if found is not None else None

    def _reading(self, document: Document, offset: int) -> Reading:
        """A reading of the document for its open elements alone. It leaves the other one where the client types."""
        reading = self._telling.get(document.uri)
        if reading is None or not continues(reading, document.lines, offset):
            reading = self._telling[document.uri] = Reading(PyxFeed(None), None, self._stretches(document))
        return reading

    def _stretches(self, document: Document) -> Stretches:
        """What was read of a document."""
        known = self._known.setdefault(document.uri, Stretches(document.lines))
        known.move_to(document.lines)
        ahead = self._ahead.get(document.uri)
        if ahead is not None:
            self._ahead[document.uri] = None
            ahead.move_to(document.lines)
            for stretch in ahead.by_start.values():
                known.add(stretch)
        return known

    def _knowledge(self, uri: str, outcome: Outcome) -> Knowledge:
        """What is known of the schema of a document."""
        schema = self._coordinator.schema_of(uri)
        return Knowledge(self._form(outcome), self._declarations_of(schema) if schema is not None else Declarations())

    def _form(self, outcome: Outcome) -> Form:
        """The simple form of a schema."""
        return self._forms.find(outcome.name, lambda: Form(outcome.validator.simple_text().decode("utf-8")))

    def _prepare(self, task: Task) -> None:
        """Gets ready what is known of the schema of a document, and reads the document."""
        self._read_ahead(task.document)
        if task.outcome is None or task.outcome.validator is None:
            return
        with contextlib.suppress(MemoryError):  # an answer reports that
            self._knowledge(task.document.uri, task.outcome).form.prepare()
            self._elements.find(task.outcome.name, lambda: elements_by(self._form(task.outcome)))

    def _read_ahead(self, document: Document) -> None:
        """Reads a document for the first time, so that the first answer about a place far behind its beginning takes no longer than others."""
        if document.uri in self._ahead or document.lines.length > MOST_READ:
            return
        reading = Reading(PyxFeed(None))
        reading.advance(document.lines, document.lines.length)
        self._ahead[document.uri] = reading.known
        if self._documents.current(document.uri) is None:  # it was closed meanwhile
            self._ahead.pop(document.uri, None)

    def _declarations_of(self, schema: SchemaSet) -> Declarations:
        """The declarations in a schema's files."""
        key = name_of(schema, ""), tuple(file.path for file in schema.files.values())
        return self._declarations.find(key, lambda: Declarations(schema))

    def _declared(self, document: Document, offset: int) -> Tuple[Cursor, List[Declaration]]:
        """The name at a place, and its declarations."""
        offset = end_of_name(document.lines, offset)
        root = self._far_root(document, offset)
        cursor = cursor_at(self._reading(document, offset), document.lines, offset) if root is None else cursor_far(document.lines, root, offset)
        schema = self._coordinator.schema_of(document.uri)
        if schema is None or not 0 < cursor.end - cursor.start or cursor.kind not in ("element", "end", "attribute"):
            return cursor, []
        declarations = self._declarations_of(schema)
        if cursor.kind == "attribute":
            return cursor, declarations.attribute(attribute_name(cursor.attribute, cursor.scope), cursor.element)
        around = cursor.open[:-1] if cursor.kind == "end" else cursor.open
        name = cursor.element if cursor.kind == "element" or not cursor.open else expanded(cursor.tag, cursor.open[-1].scope)
        return cursor, declarations.element(name, around[-1].expanded if around else None)

    def _shown(self, declaration: Declaration) -> str:
        """A declaration for people: its place, its documentation, and its source."""
        file = declaration.file
        root = next((root for root in self._coordinator.roots if is_in(file.path, root)), None)
        path = os.path.relpath(file.path, root) if root is not None else file.path
        place = f"{path}:{file.lines.position(declaration.start, self._documents.encoding)['line'] + 1}"
        source = cut_source(declaration.source)
        if not self._has_markdown:
            return "\n\n".join(filter(None, (place, declaration.documentation, source)))
        fence = "`" * max(3, *(len(run) + 1 for run in re.findall("`+", source) or [""]))
        return "\n\n".join(filter(None, (f"`{place}`", declaration.documentation, f"{fence}rnc\n{source}\n{fence}")))


def elements_by(form: Form) -> Optional[rncv.Validator]:
    """A validator for all elements of a schema, each by itself; None if it would be too large."""
    try:
        return rncv.compile({"elements": form.schema_of_elements().encode("utf-8")}, datatypes=DATATYPES[0])
    except (rncv.SchemaError, MemoryError):
        return None


def cut_source(source: str) -> str:
    """The first lines of a pattern, with less indentation."""
    lines = source.splitlines()
    widths = [len(line) - len(line.lstrip()) for line in lines[1:] if line.strip()]
    least = min(widths, default=0)
    shown = [lines[0], *(line[least:] for line in lines[1:])] if lines else []
    return "\n".join(shown[:MOST_LINES] + (["..."] if len(shown) > MOST_LINES else []))
