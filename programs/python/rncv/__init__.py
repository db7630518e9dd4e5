"""Judges documents by RELAX NG schemas, with the C library of `rncv`. Nothing in this module is proved; docs/use/LIBRARY.md says what is.

    import rncv

    with rncv.compile("examples/letter/s.rnc") as validator, open("examples/letter/document.pyx", "rb") as document:
        print(validator.validate(document))

A schema is a set of files in the RELAX NG Compact Syntax. A document is XML (`Validator.validate_xml`), or PYX, one event a line (`Validator.validate`;
docs/use/XML.md says how to make it from XML), or the calls of a parser (`Validator.events`), or a tree (`Validator.validate_tree`). A schema is compiled once,
and then judges documents, one after another.

The variable RNCV_LIBRARY names the library, or a folder that has `lib/librncv.so`. Without it the module searches beside this package, in
`build/library/lib` of the checkout that has this package, where `make install` put the library, and where the system keeps libraries. It loads the
library at the first call that needs it. The library for XML, `librncv_xml.so`, is beside it. Without that one `validate_xml` raises LibraryError, and all
else works.

Threads. A validator judges one document at a time: a second one at the same time is a RuntimeError. `Validator.share` makes another validator for the
same schema, for example for another thread. The library runs without the lock of the interpreter. No object of this module can be copied or pickled. After
`os.fork` in a process with several threads, do not use the validators of the parent in the child.
"""

from __future__ import annotations

import contextlib
import ctypes
import ctypes.util
import dataclasses
import functools
import itertools
import operator
import os
import pathlib
import threading
import weakref
from collections.abc import Callable, Generator, Iterable, Iterator, Mapping
from types import TracebackType
from typing import Any, NamedTuple, NoReturn, Optional, Protocol, Type, TypeVar, Union, overload, runtime_checkable

from . import _events, _schema_files, _xml
from ._events import Attributes, EventVerdict, TreeVerdict
from ._expected import Datatype, Expected, ExpectedTag, NameClass, TagOptions, Value, expected_of, tag_of
from ._reasons import NOTHING_MATCHES, LineReason, Reason, Told, line_reason_of, reason_of
from ._xml import XmlVerdict

__all__ = ["Datatype", "Document", "EventVerdict", "Events", "Expected", "ExpectedTag", "LibraryError", "LineReason", "NameClass", "Place", "Reason",
           "SchemaError", "TagOptions", "TreeVerdict", "Validator", "Value", "Verdict", "XmlVerdict", "clause_title", "compile", "datatype_place", "mentions",
           "version"]
__version__ = "0.9.0"

Bytes = Union[bytes, bytearray, memoryview]
Path = Union[str, "os.PathLike[str]"]


@runtime_checkable
class BinaryFile(Protocol):
    """A binary file. Those of `gzip`, `zipfile`, `subprocess` and others are no `typing.BinaryIO`."""

    def read(self, size: int, /) -> Optional[Bytes]:
        """Returns up to so many bytes, and none at the end."""


# How much is read at once from the file of a document, and up to how much small pieces are joined.
_READ_BYTES = 65_536
# How much is passed to the library in one call. Between two calls the interpreter handles signals.
_CALL_BYTES = 1_048_576
# The size of the first buffer for a text. For a longer text the library is called twice.
_TEXT_BYTES = 65_536

# From S9 on a schema breaks a clause as a whole: the proved library knows no place. For S6 there are hints about names in annotations.
_HINTED = (6, *range(9, 28))

# The sets of datatypes that a schema may name, and their numbers in the library.
_DATATYPES = {"profile": 0, "xml-schema": 1}

_DONE, _REFUSED, _MALFORMED, _MEMORY, _MISUSE, _SPACE = range(6)
_KINDS = ("valid", "invalid", "malformed")
_NAMES = ("librncv.so", "librncv.so.0", "librncv.dylib")


class LibraryError(OSError):
    """The C library, or the one for XML, was not found, or does not fit this module."""


class SchemaError(ValueError):
    """The files are not a schema: they break a clause, S1 to S27.

    `clause` is its number, and `title` says in English what it requires. `file` is the path or the name of the file that breaks it, and `index` the position
    of the first file with this name: those that were given come first, and then those that were found. Both are None if the clause is not about one file.
    For S3 to S8 `offset`, in bytes from 0, and `line` and `column`, from 1, say where the file breaks the clause. For the other clauses these are None.

    If a file is mentioned and is not there (S1), `file` is the name by which it is mentioned, as the proved library reports it, and `index` is None. `missing`
    is the path where it was looked for, or else its name. `mentioned_at` is the file, the line and the column of the mention, or None if that was not found.
    For files that are there these two are None.

    For S9 to S27, and for a name in an annotation (S6), `hint` says, in a few words, what most likely breaks the clause, and `hint_file`, `hint_line` and
    `hint_column` where. `hint_file` is the path or the name of the file. A hint is a guess outside the proof. All four are None if none is known, or if there
    is no library for XML.
    """

    def __init__(
        self,
        clause: int,
        title: str,
        file: Optional[str] = None,
        index: Optional[int] = None,
        offset: Optional[int] = None,
        line: Optional[int] = None,
        column: Optional[int] = None,
        missing: Optional[str] = None,
        mentioned_at: Optional[tuple[str, int, int]] = None,
        hint: Optional[str] = None,
        hint_file: Optional[str] = None,
        hint_line: Optional[int] = None,
        hint_column: Optional[int] = None,
    ) -> None:
        super().__init__(clause, title, file, index, offset, line, column, missing, mentioned_at, hint, hint_file, hint_line, hint_column)
        self.clause, self.title, self.file, self.index = clause, title, file, index
        self.offset, self.line, self.column = offset, line, column
        self.missing, self.mentioned_at = missing, mentioned_at
        self.hint, self.hint_file, self.hint_line, self.hint_column = hint, hint_file, hint_line, hint_column

    def __str__(self) -> str:
        file = "" if self.file is None else f" file {self.file}"
        missing = "" if self.missing is None else f": there is no {self.missing}"
        place = "" if self.mentioned_at is None else " ({}:{}:{})".format(*self.mentioned_at)
        hint = "" if self.hint is None else f": hint: {self.hint} ({self.hint_file}:{self.hint_line}:{self.hint_column})"
        return f"refused S{self.clause}{file}: {self.title}{missing}{place}{hint}"


@dataclasses.dataclass(frozen=True)
class Verdict:
    """The verdict on a document. It is true exactly if the document is valid, and its `str` is the answer of the program.

    `kind` is "valid", "invalid" or "malformed". `clause` is the number of the clause P1 to P13 that a malformed document breaks, otherwise 0. `line`
    counts from 1. For an invalid document it is the line after which no continuation is valid. For a malformed one it is the line of the clause, or 0
    if the document has no line. For a valid one it is 0.

    `expected` is what could have come before that line, if the line was known before the end of an invalid document, and otherwise None. `reason` is then
    why nothing can follow it, unless memory ran out.
    """

    kind: str
    clause: int = 0
    line: int = 0
    expected: Optional[Expected] = dataclasses.field(default=None, compare=False, repr=False)
    reason: Optional[LineReason] = dataclasses.field(default=None, compare=False, repr=False)

    @property
    def valid(self) -> bool:
        """Whether the document is valid."""
        return self.kind == "valid"

    @property
    def title(self) -> Optional[str]:
        """What the broken clause requires, in English; None if the document breaks none."""
        return clause_title("P", self.clause)

    def __bool__(self) -> bool:
        return self.valid

    def __str__(self) -> str:
        if self.kind == "malformed":
            return f"malformed P{self.clause} line {self.line}"
        return self.kind if self.valid else f"{self.kind} line {self.line}"


class Place(NamedTuple):
    """A place in a file: the offset in bytes from 0, and the line and the column from 1, in characters."""

    offset: int
    line: int
    column: int


class _Schema(ctypes.Structure):
    """A handle of the library."""

    _fields_ = [("hidden", ctypes.c_void_p)]


class _File(ctypes.Structure):
    """A file of a schema, as the library takes it."""

    _fields_ = [
        ("name", ctypes.c_char_p),
        ("name_length", ctypes.c_size_t),
        ("bytes", ctypes.c_char_p),
        ("length", ctypes.c_size_t),
    ]


class _Fault(ctypes.Structure):
    """Why files are refused, as the library reports it."""

    _fields_ = [
        ("clause", ctypes.c_int32),
        ("file", ctypes.c_int64),
        ("offset", ctypes.c_int64),
        ("line", ctypes.c_int64),
        ("column", ctypes.c_int64),
    ]


class _Verdict(ctypes.Structure):
    """The verdict on a document, as the library reports it."""

    _fields_ = [("kind", ctypes.c_int32), ("clause", ctypes.c_int32), ("line", ctypes.c_uint64)]


class Validator:
    """A compiled schema. `rncv.compile` makes one. It judges documents one after another.

    What it computes from the schema for one document is kept for the next ones. A `with` block closes it at its end. A validator that is no longer used
    is freed with or without `close`. Every call on a closed validator raises ValueError.
    """

    def __init__(self, handle: _Schema, texts: tuple[bytes, ...] = (), datatypes: int = 0) -> None:
        if not isinstance(handle, _Schema):
            raise TypeError("a validator is made by rncv.compile")
        self._library = _library()
        self._handle = handle
        # The first XML document makes the judge. From the files of the schema it takes values to try, and then they are not needed.
        self._judge: Optional[_xml.Judge] = None
        self._texts, self._datatypes = texts, datatypes
        # Each call on the handle holds this lock. A destructor or a signal may make another call in the same thread, before or after such a call.
        self._lock = threading.RLock()
        self._document: Optional[Callable[[], Any]] = None
        self._closed = False
        self._free = weakref.finalize(self, self._library.rncv_schema_free, handle)
        # Do not free it at the end of the process: a thread may still be in a call.
        self._free.atexit = False

    def validate(self, document: Union[Bytes, BinaryFile, Iterable[Bytes]]) -> Verdict:
        """Judges a document in PYX: bytes, a binary file, or pieces that come one after another, such as lines. A file is read from its position to its end.

        Once the document is malformed, no more of a file is read, and of the pieces at most 65,536 bytes more: small ones are joined, since a call of the
        library for each line would take longer than the line. An exception from the file or the pieces goes to the caller, and the validator can judge the
        next document. RuntimeError: another document is in progress. MemoryError: out of memory.
        """
        pieces = _pieces_of(document)
        with self.begin() as begun:
            for piece in pieces:
                if not begun.feed(piece):
                    break
            return begun.finish()

    def validate_xml(self, document: Union[Path, Bytes, BinaryFile], ids: bool = True, hints: int = 0) -> XmlVerdict:
        """Judges an XML document: the path of a file, bytes, or a binary file. A binary file is read from its position to its end, in pieces of 64 KiB.

        If the schema names the datatypes ID, IDREF and IDREFS, or is a copy by `rncv-profile` of one that does, each ID has to be there once, and what refers
        to one has to find it. `ids=False` leaves that out. It is not proved. If RELAX NG DTD Compatibility does not allow the schema, a note says why nothing is checked.

        An invalid document has its first fault as verdict. With `hints` it is read once more, and the verdict has up to so many hints at others, as those of
        `rncv-xml`; they are not proved. A binary file has to be one that can go back to its position, else there are none.

        OSError: the file cannot be read. An exception from a binary file goes to the caller, and the validator can judge the next document. LibraryError:
        there is no library for XML. RuntimeError: another document is in progress. MemoryError: out of memory.
        """
        most = operator.index(hints)
        if most < 0:
            raise ValueError(f"hints is how many there are at most, and not {most}")
        judging, judge = _Judging(), None
        try:
            with self._lock:
                if self._closed or self._document is not None:
                    self._want_free()
                ready = self._judge or self._new_judge()
                self._document, judge = weakref.ref(judging), ready
            ready.want_ids(bool(ids))
            verdict = ready.of_bytes(document) if type(document) is bytes and not most else _judged_xml(ready, document, most)
        finally:
            # If the handler of a signal raises an exception here, `judging` is gone with this call, and the validator can judge the next document too.
            with self._lock:
                if judge is not None:
                    self._document = None
                    if self._closed:
                        judge.free()
        if self._closed:
            self._want_open()
        return verdict

    def begin(self) -> Document:
        """Begins a document in PYX. It is then fed piece by piece.

        RuntimeError: another document is in progress, that is, not finished, not closed, and still referred to. MemoryError: out of memory.
        """
        return self._begun(Document(self), self._begin_with_reasons)

    def events(self) -> Events:
        """Begins a document that comes as events, as a parser tells it: the start and the end of each element, and texts.

        RuntimeError: another document is in progress, that is, not finished, not closed, and still referred to. MemoryError: out of memory.
        """
        return self._begun(Events(self), self._library.rncv_events_begin)

    def validate_tree(self, tree: Any) -> TreeVerdict:
        """Judges a tree of `xml.etree.ElementTree` or of `lxml`, without writing it: an element, which is then the root, or a whole tree. Names are written
        `{uri}local`. Comments and processing instructions are left out, and the texts around them are one. The tree may be of any depth. Do not change it
        during the call.

        TypeError: it is no such tree, or a name, a text or a value in it is not text. ValueError: it has a reference to an entity, or an element that is in
        itself. RuntimeError: another document is in progress. MemoryError: out of memory.
        """
        root = _events.root_of(tree)
        with self.events() as events:
            for at, element in _events.walk(root):
                if not events._tell(at, element):
                    return TreeVerdict("malformed", element, at)
            verdict = events.finish()
        if verdict.place is None:
            return TreeVerdict(verdict.kind)
        tags = ((at, element) for at, element in _events.walk(root) if at in ("start", "end"))
        at, element = next(itertools.islice(tags, verdict.place - 1, None))
        return TreeVerdict(verdict.kind, element, at, verdict.expected, verdict.reason)

    def share(self) -> Validator:
        """Returns another validator for the same schema, for example for another thread. The schema is not copied. Close each of the two separately.

        RuntimeError: a document is in progress. MemoryError: out of memory.
        """
        with self._lock:
            self._let_go()
            other = _Schema()
            _want_done(self._library.rncv_schema_share(self._handle, other))
            validator = Validator(other, self._texts, self._datatypes)
            if self._judge is not None:
                validator._keep_judge(self._judge.share())
            return validator

    def simple_text(self) -> bytes:
        """Returns the printed simple form of the schema. This is a schema in the compact syntax too.

        RuntimeError: a document is in progress. MemoryError: out of memory.
        """
        with self._lock:
            self._let_go()
            return _written_by(self._library.rncv_simple, self._handle)

    def close(self) -> None:
        """Frees the schema, and drops a document in progress. A second call does nothing."""
        with self._lock:
            is_judging = self._document is not None and isinstance(self._document(), _Judging)
            self._closed, self._document = True, None
            self._free()
            # A judge that is judging is freed at the end of that call.
            if self._judge is not None and not is_judging:
                self._judge.free()

    @property
    def closed(self) -> bool:
        """Whether the validator is closed."""
        return self._closed

    def __enter__(self) -> Validator:
        self._want_open()
        return self

    def __exit__(self, kind: Optional[Type[BaseException]], error: Optional[BaseException], trace: Optional[TracebackType]) -> None:
        self.close()

    def __reduce__(self) -> NoReturn:
        raise TypeError("a validator is not copied or pickled: Validator.share makes another one")

    def _want_open(self) -> None:
        if self._closed:
            raise ValueError("the validator is closed")

    def _begun(self, document: _Begun, begin: Callable[[_Schema], int]) -> _Begun:
        """The document, which the library has begun by this call."""
        with self._lock:
            self._want_free()
            self._document = weakref.ref(document)
            status = begin(self._handle)
            if status != _DONE:
                self._document = None
            _want_done(status)
            return document

    def _begin_with_reasons(self, handle: _Schema) -> int:
        """Begins a document in PYX that keeps the tag after which nothing can follow, for its reason. Returns the status."""
        status: int = self._library.rncv_document_begin(handle)
        if status == _DONE:
            status = self._library.rncv_want_reasons(handle)
        return status

    def _want_free(self) -> None:
        """Raises an error if a document is in progress and is still referred to."""
        self._want_open()
        if self._document is not None and self._document() is not None:
            raise RuntimeError("a document is in progress: a validator judges one at a time, and Validator.share makes another one")
        self._document = None

    def _new_judge(self) -> _xml.Judge:
        """Makes the judge for XML documents."""
        library = _xml_library()
        self._let_go()
        files = (_File * len(self._texts))(*[_File(b"", 0, text, len(text)) for text in self._texts])
        return self._keep_judge(_xml.Judge.of_schema(library, self._handle, files, self._datatypes))

    def _keep_judge(self, judge: _xml.Judge) -> _xml.Judge:
        self._judge, self._texts = judge, ()
        weakref.finalize(self, judge.free).atexit = False
        return judge

    def _let_go(self) -> None:
        """Drops a document that is no longer referred to. Raises an error if another document is in progress."""
        self._want_free()
        self._drop()

    def _drop(self) -> None:
        """Drops a document of either kind, if there is one."""
        self._library.rncv_document_end(self._handle, _Verdict())
        self._library.rncv_events_finish(self._handle, _Verdict())


class _InProgress:
    """A document in progress, of either kind."""

    def __init__(self, validator: Validator) -> None:
        self._validator = validator

    def close(self) -> None:
        """Drops the document, without a verdict. Does nothing if it has ended."""
        with self._validator._lock:
            if self._is_in_progress():
                self._validator._document = None
                self._validator._drop()

    def expected(self) -> Expected:
        """Returns what may come next in the innermost element that is open. Once `invalid_since` is known, it is what could have come before that line or event.

        An element counts where its pattern stands, whether or not its content can be matched. After a text it is what may come behind that text; a blank one
        counts as nothing, and of events one counts once a start or an end has come behind it. MemoryError: out of memory.
        """
        with self._validator._lock:
            self._want_progress()
            return expected_of(_written_by(self._validator._library.rncv_expected, self._validator._handle))

    def __exit__(self, kind: Optional[Type[BaseException]], error: Optional[BaseException], trace: Optional[TracebackType]) -> None:
        self.close()

    def __reduce__(self) -> NoReturn:
        raise TypeError("a document is not copied or pickled")

    def _is_in_progress(self) -> bool:
        current = self._validator._document
        return current is not None and current() is self

    def _want_progress(self) -> None:
        self._validator._want_open()
        if not self._is_in_progress():
            raise ValueError("the document has ended")

    def _reported_by(self, call: Callable[[_Schema, _Verdict], int], since: Callable[[], Optional[int]]) -> tuple[_Verdict, Optional[Expected]]:
        """Ends the document by this call of the library. Returns what it reports, and what could have come in the place of what made the document invalid."""
        reported, expected = _Verdict(), None
        with self._validator._lock:
            if since() is not None:
                with contextlib.suppress(MemoryError):
                    expected = self.expected()
            status = call(self._validator._handle, reported)
            self._validator._document = None
        _want_done(status)
        return reported, expected if _KINDS[reported.kind] == "invalid" else None

    def _since_by(self, call: Callable[[_Schema, ctypes.c_uint64], int]) -> Optional[int]:
        """The line or the place that this call of the library reports."""
        since = ctypes.c_uint64()
        with self._validator._lock:
            self._want_progress()
            _want_done(call(self._validator._handle, since))
        return since.value or None

    def _is_taken(self, call: Callable[..., int], *words: Any) -> bool:
        """Passes a part of the document to the library. Returns False if it is malformed."""
        with self._validator._lock:
            self._want_progress()
            status = call(self._validator._handle, *words)
        if status == _MALFORMED:
            return False
        _want_done(status)
        return True


_Begun = TypeVar("_Begun", bound=_InProgress)


class Document(_InProgress):
    """A document in progress. `Validator.begin` makes one.

    A `with` block drops it at its end. Every call on a finished or dropped document raises ValueError.
    """

    def feed(self, piece: Bytes) -> bool:
        """Takes the next bytes. A piece may end anywhere, even inside a line or a character.

        Returns False once the document is malformed, and then more bytes change nothing; otherwise True. MemoryError: out of memory, and each later
        call for this document raises it too.
        """
        if type(piece) is bytes and len(piece) <= _CALL_BYTES:
            return self._feed_part(piece)
        with contextlib.closing(_parts_of(piece)) as parts:
            return all(map(self._feed_part, parts))

    def invalid_since(self) -> Optional[int]:
        """Returns the line, from 1, after which no continuation is valid; None while no such line is known. It is one of the lines that were fed, and no
        document with the same lines up to it is valid."""
        return self._since_by(self._validator._library.rncv_document_invalid_since)

    def reason(self) -> Optional[LineReason]:
        """Returns why nothing can follow the line of `invalid_since`; None while no such line is known. MemoryError: out of memory."""
        told = Told()
        with self._validator._lock:
            self._want_progress()
            _want_done(self._validator._library.rncv_fault_reason(self._validator._handle, told))
        return line_reason_of(told)

    def finish(self) -> Verdict:
        """Ends the document and returns the verdict. The validator can judge the next one. MemoryError: out of memory; the document has ended."""
        with self._validator._lock:
            reason = None
            with contextlib.suppress(MemoryError):
                reason = self.reason()
            reported, expected = self._reported_by(self._validator._library.rncv_document_end, self.invalid_since)
        kind = _KINDS[reported.kind]
        return Verdict(kind, reported.clause, reported.line, expected, reason if kind == "invalid" else None)

    def __enter__(self) -> Document:
        with self._validator._lock:
            self._want_progress()
        return self

    def _feed_part(self, part: bytes) -> bool:
        """Passes an object of type `bytes` to the library in one call. Returns what `feed` returns."""
        return self._is_taken(self._validator._library.rncv_document_feed, part, len(part))


class Events(_InProgress):
    """A document in progress that comes as events. `Validator.events` makes one.

        with validator.events() as events:
            events.start("{urn:letters}letter", {"to": "Ada"}, place=1)
            events.text("Hi")
            events.end(place=2)
            print(events.finish())

    A name is written `local`, or `{uri}local` if it has a namespace. A place is a number from 1 to 2^64 - 1, such as a line. Without one it is the number of
    the start or end, counted from 1. `start`, `text` and `end` return False once no document begins with the calls so far, and then more of them change
    nothing; otherwise True. MemoryError: out of memory, and each later call for this document raises it too. A `with` block drops the document at its end.
    Every call on a finished or dropped document raises ValueError.
    """

    def __init__(self, validator: Validator) -> None:
        super().__init__(validator)
        self._count = 0
        self._since = ctypes.c_uint64()
        self._reason: Optional[Reason] = None

    @property
    def reason(self) -> Optional[Reason]:
        """Why nothing can follow the start or end after which no continuation is valid, once that is known (`invalid_since`); None while it is not, or if
        memory ran out. It stays after the document."""
        return self._reason

    def start(self, name: str, attributes: Attributes = (), place: Optional[int] = None) -> bool:
        """Takes the start of an element. Its attributes are a mapping of names to values, or pairs. A declaration of a namespace is not an attribute.

        TypeError: a name or a value is not text. ValueError: the place is out of range.
        """
        (uri, local), given, number = _events.parts_of(name), _events.array_of(attributes), self._place_of(place)
        return self._is_tag_taken("rncv_events_start", number, uri, len(uri), local, len(local), given, len(given))

    def text(self, text: str) -> bool:
        """Takes a text. Texts that follow each other are one. TypeError: it is not text."""
        given = _events.utf8_of(text)
        return self._is_taken(self._validator._library.rncv_events_text, given, len(given))

    def end(self, place: Optional[int] = None) -> bool:
        """Takes the end of the innermost element that is open. ValueError: the place is out of range."""
        return self._is_tag_taken("rncv_events_end", self._place_of(place))

    def start_reason(self, name: str, attributes: Attributes = ()) -> Optional[Reason]:
        """Returns why a start of this name with these attributes leaves nothing of what may come next, or None if it leaves something. Once `invalid_since` is
        known, the start is in place of that event. The document goes on as before. A text counts once a start or an end has come behind it.

        That something is left does not say that it can be completed. TypeError: a name or a value is not text. ValueError: one has a lone surrogate.
        MemoryError: out of memory; later calls for this document may raise it too.
        """
        (uri, local), given = _events.parts_of(name), _events.array_of(attributes)
        return self._reason_by(self._validator._library.rncv_events_start_reason, uri, len(uri), local, len(local), given, len(given))

    def tag_options(self, name: str, attributes: Attributes = (), named: str = "") -> Optional[TagOptions]:
        """Returns what a start of this name may have behind these attributes, and what the value of the attribute `named` may be there; None if nothing is left
        behind them, as `start_reason` tells. Once `invalid_since` is known, the start is in place of that event: with the attributes before the one at fault,
        and its name as `named`, it is what could have been there. The document goes on as before.

        An attribute counts where its pattern is, whether or not a value matches it. It is required if what is left cannot be completed without it. TypeError: a
        name or a value is not text. ValueError: one has a lone surrogate. MemoryError: out of memory; later calls for this document may raise it too.
        """
        (uri, local), given, (named_uri, named_local) = _events.parts_of(name), _events.array_of(attributes), _events.parts_of(named)
        words = (uri, len(uri), local, len(local), given, len(given), named_uri, len(named_uri), named_local, len(named_local))
        with self._validator._lock:
            self._want_progress()
            status, text = _told_by(self._validator._library.rncv_events_tag_options, self._validator._handle, *words)
        if status == _REFUSED:
            return None
        if status == _MALFORMED:
            raise ValueError("a name or a value has a lone surrogate")
        _want_done(status)
        return TagOptions(tag_of(text), expected_of(text))

    def end_reason(self) -> Optional[Reason]:
        """Returns why the end of the innermost element leaves nothing, or None if it may come. Once `invalid_since` is known, the end is in place of that
        event. The document goes on as before. A text counts once a start or an end has come behind it. MemoryError: out of memory; later calls for this
        document may raise it too."""
        return self._reason_by(self._validator._library.rncv_events_end_reason)

    def expected_in_place(self) -> Expected:
        """Returns what could have come in place of the text directly before the event after which no continuation is valid. If there is no such event or text,
        or the text is blank, it is what `expected` returns. MemoryError: out of memory."""
        with self._validator._lock:
            self._want_progress()
            return expected_of(_written_by(self._validator._library.rncv_expected_in_place, self._validator._handle))

    def held(self) -> int:
        """Returns how many bytes the library holds of the text behind the last start or end: none where the schema does not test what a text says."""
        held = ctypes.c_size_t()
        with self._validator._lock:
            self._want_progress()
            _want_done(self._validator._library.rncv_events_held(self._validator._handle, held))
        return held.value

    def expected_tag(self, name: str) -> ExpectedTag:
        """Returns what the tag of an element of this name may have, if the element starts next. Once `invalid_since` is known, it starts in place of that event.

        There is nothing if no such element may start. An attribute counts where its pattern is in the content of such an element, whether or not a value
        matches it. It is required if each such element needs it. TypeError: the name is not text. MemoryError: out of memory.
        """
        uri, local = _events.parts_of(name)
        with self._validator._lock:
            self._want_progress()
            if not _is_utf8(uri + local):
                return ExpectedTag((), ())  # no element has such a name
            return tag_of(_written_by(self._validator._library.rncv_expected_tag, self._validator._handle, uri, len(uri), local, len(local)))

    def invalid_since(self) -> Optional[int]:
        """Returns the place after which no continuation is valid; None while no such place is known. It is that of a start or end, and no document that begins
        with the calls up to that one is valid."""
        return self._since_by(self._validator._library.rncv_events_invalid_since)

    def finish(self) -> EventVerdict:
        """Ends the document and returns the verdict. The validator can judge the next one. MemoryError: out of memory; the document has ended."""
        reported, expected = self._reported_by(self._validator._library.rncv_events_finish, self.invalid_since)
        kind = _KINDS[reported.kind]
        return EventVerdict(kind, reported.line or None, expected, self._reason if kind == "invalid" else None)

    def __enter__(self) -> Events:
        with self._validator._lock:
            self._want_progress()
        return self

    def _is_tag_taken(self, call: str, place: int, *words: Any) -> bool:
        """Passes a start, with these words, or an end, by the call of this name. Returns False if it is malformed. If nothing valid can follow it, the reason
        is asked for; if memory runs out for that, there is none."""
        library = self._validator._library
        with self._validator._lock:
            self._want_progress()
            handle = self._validator._handle
            status = getattr(library, call)(handle, place, *words)
            if status == _DONE and not self._since.value:
                library.rncv_events_invalid_since(handle, self._since)
                if self._since.value:
                    with contextlib.suppress(MemoryError):
                        self._reason = self._reason_of_fault(words)
        if status == _MALFORMED:
            return False
        _want_done(status)
        return True

    def _reason_of_fault(self, words: tuple[Any, ...]) -> Optional[Reason]:
        """The reason of the start with these words, or of the end, after which no continuation is valid. Its tag is at hand, so the library need not keep it."""
        told, library = Told(), self._validator._library
        call = library.rncv_events_start_reason if words else library.rncv_events_end_reason
        _want_done(call(self._validator._handle, *words, told))
        return reason_of(told, words[-2] if words else ()) or NOTHING_MATCHES

    def _reason_by(self, call: Callable[..., int], *words: Any) -> Optional[Reason]:
        """The reason that this call of the library tells. The words are those of a start, with its attributes before the last one, or none."""
        told = Told()
        with self._validator._lock:
            self._want_progress()
            status = call(self._validator._handle, *words, told)
        if status == _MALFORMED:
            raise ValueError("a name or a value has a lone surrogate")
        _want_done(status)
        return reason_of(told, words[-2] if words else ())

    def _place_of(self, place: Optional[int]) -> int:
        number = self._count + 1 if place is None else operator.index(place)
        if not 0 < number < 1 << 64:
            raise ValueError(f"a place is a number from 1 to 2^64 - 1, and not {number}")
        self._count += 1
        return number

    def _tell(self, at: str, element: Any) -> bool:
        """Takes what a tree has at this place of an element."""
        if at == "start":
            return self.start(element.tag, element.attrib)
        if at == "end":
            return self.end()
        text = element.text if at == "text" else element.tail
        return text is None or self.text(text)


@overload
def compile(files: Mapping[str, Bytes], /, *, annotations: bool = False, datatypes: str = "profile") -> Validator: ...


@overload
def compile(*paths: Path, datatypes: str = "profile") -> Validator: ...


def compile(*files: Any, annotations: bool = False, datatypes: str = "profile") -> Validator:
    """Compiles the schema of these files. The first file is the main one.

    They are paths, or one mapping of names to bytes. With paths the main file is enough, whatever folder the process is in: a file that another one mentions
    is found beside that one, as for `rncv-xml` (docs/use/XML.md). Nothing is fetched. Further paths are files too, and a mention of such a path, byte for byte,
    means that file. (`pathlib` gives `./a.rnc` as `a.rnc`.) In a mapping a file is mentioned by its name, byte for byte, and nothing is read. At most
    1,048,577 bytes of a file are read, since a longer file is refused. Files that are nested very deeply may need more stack than the thread has, and that
    ends the process: docs/use/LIBRARY.md has figures.

    Annotations of the compact syntax that the library does not have (docs/use/XML.md) become blanks in files that are read, as for `rncv-xml`. Places are those in
    the file as it is written. With `annotations=True` that is done for the files of a mapping too; else they are handed in as they are. It needs the library
    for XML: without it all files are handed in as they are, and S6 refuses those annotations.

    `datatypes` says which datatypes the schema may name (docs/use/LANGUAGE.md): "profile", the six that the program `rncv` has, or "xml-schema", the larger set
    that is the default of `rncv-xml`. With "xml-schema" texts of QName, NOTATION, ENTITY and ENTITIES are judged by their spelling: prefixes and entities are
    not looked up.

    SchemaError: the files break a clause. OSError: a file cannot be read. ValueError: there is no file, a name is not UTF-8, a mention may mean several
    files, or `datatypes` is none of the two. MemoryError: out of memory. LibraryError: there is no library.
    """
    number = _number_of(datatypes)
    library = _library()
    if len(files) == 1 and isinstance(files[0], Mapping):
        sources = _sources_of(files[0], annotations)
    else:
        sources = _sources_found(files)
    if not sources.names:
        raise ValueError("a schema has at least one file")
    given = _array_of(sources.names, sources.texts)
    handle, fault = _Schema(), _Fault()
    status = library.rncv_compile_with(given, len(given), number, handle, fault)
    if status == _REFUSED:
        raise _refusal(fault, sources, given, number)
    _want_done(status)
    return Validator(handle, tuple(sources.texts), number)


def _number_of(datatypes: Any) -> int:
    """The number of a set of datatypes in the library."""
    if not isinstance(datatypes, str) or datatypes not in _DATATYPES:
        raise ValueError(f"datatypes is 'profile' or 'xml-schema', and not {datatypes!r}")
    return _DATATYPES[datatypes]


def mentions(file: Bytes) -> list[str]:
    """Returns the names of the files that a schema file mentions by `include` and `external`, as they are written, in the order of the file.

    Those in the braces of an `include` come after its own name, and a name that is mentioned twice is there twice. The call looks for no file. The file may
    have any size.

    SchemaError: the file by itself breaks a clause, S3 to S8. The error has its place, and `file` and `index` are None. MemoryError: out of memory.
    LibraryError: there is no library.
    """
    return [name.decode("utf-8") for name in _mentioned(_whole(file))]


def datatype_place(file: Bytes, datatypes: str = "profile") -> Optional[Place]:
    """Returns the place of the first datatype of a schema file that breaks S12, or None if the file has none. The place is that of the datatype's name.

    `datatypes` is as in `compile`. All datatypes of the file count, also in components that an `include` of another file overrides, or that nothing refers to.
    Other files do not, and a file that by itself breaks a clause, S3 to S8, has no place. The file may have any size.

    ValueError: `datatypes` is no set. MemoryError: out of memory. LibraryError: there is no library.
    """
    number, text, place = _number_of(datatypes), _whole(file), _Fault()
    status = _library().rncv_datatype_place(text, len(text), number, place)
    if status == _REFUSED:
        return None
    _want_done(status)
    return Place(place.offset, place.line, place.column)


def clause_title(group: str, clause: int) -> Optional[str]:
    """Returns the title of a clause, in English: group "S" with 1 to 27, or group "P" with 1 to 13. None for any other."""
    number = operator.index(clause)
    if group not in ("S", "P") or not 0 < number < 100:
        return None
    title: Optional[bytes] = _library().rncv_clause_title(group.encode("ascii"), number)
    return None if title is None else title.decode("utf-8")


def version() -> str:
    """Returns the version of the library that is loaded, as `0.9.0`. If it was built without proofs, `0.9.0 (not proved)`."""
    text: bytes = _library().rncv_version()
    return text.decode("ascii")


@dataclasses.dataclass
class _Sources:
    """The files of a schema: their names for the library, their names for people, their texts as they are written, and as the library gets them. `missing`
    finds a mention of a file that is not there."""

    names: list[bytes]
    shown: list[str]
    written: list[bytes]
    texts: list[bytes]
    missing: Callable[[], Optional[_schema_files.Missing]]


def _sources_of(files: Mapping[Any, Any], annotations: bool) -> _Sources:
    """The files of a mapping of names to bytes."""
    written = [_whole(text) for text in files.values()]
    texts = [_blanked(text) for text in written] if annotations else written
    shown = list(files)
    names = [_utf8_of(name) for name in shown]
    handed = [_schema_files.SchemaFile(*file) for file in zip(names, shown, written, texts)]
    return _Sources(names, shown, written, texts, lambda: _schema_files.missing_in(handed, _mentioned_if_read))


def _sources_found(paths: Iterable[Any]) -> _Sources:
    """The files at these paths, and those that are found beside them."""
    shown = [_name_of(path) for path in paths]
    finder = _schema_files.Finder([(_utf8_of(path), path) for path in shown], _mentioned_if_read, _blanked)
    files = finder.files[:_schema_files.MOST_FILES + 1]
    names, texts = [file.name for file in files], [file.content for file in files]
    return _Sources(names, [file.path for file in files], [file.written for file in files], texts, lambda: finder.missing)


def _mentioned(text: bytes) -> list[bytes]:
    """The names that a file mentions."""
    library, fault = _library(), _Fault()

    def write(names: Any, size: int, needed: Any) -> int:
        status: int = library.rncv_mentions(text, len(text), names, size, needed, fault)
        if status == _REFUSED:
            raise SchemaError(fault.clause, clause_title("S", fault.clause) or "", None, None, _known(fault.offset), _known(fault.line), _known(fault.column))
        return status

    return _written_by(write).split(b"\0")[:-1]


def _mentioned_if_read(text: bytes) -> list[bytes]:
    """The same; none of a file that breaks a clause, since the library refuses it."""
    try:
        return _mentioned(text)
    except SchemaError:
        return []


def _blanked(written: bytes) -> bytes:
    """A file with blanks for annotations; as it is written if there is no library for XML."""
    try:
        return _xml.blanked(_xml_library(), written)
    except LibraryError:
        return written


def _array_of(names: list[bytes], texts: list[bytes]) -> Any:
    """Files as the libraries take them."""
    return (_File * len(names))(*[_File(name, len(name), text, len(text)) for name, text in zip(names, texts)])


def _refusal(fault: _Fault, sources: _Sources, given: Any, datatypes: int) -> SchemaError:
    """The error for files that the library refuses; `given` is the files as it took them."""
    index = _known(fault.file)
    name = None if index is None else sources.shown[index]
    reported: tuple[Optional[str], Optional[tuple[str, int, int]]] = (None, None)
    if fault.clause == 1 and index is None:
        name = _written_by(_library().rncv_refused_name, given, len(given)).decode("utf-8")
        missing = sources.missing()
        reported = (name, None) if missing is None else (missing.what, (missing.file, missing.line, missing.column))
    title = clause_title("S", fault.clause) or ""
    hint = _hint(fault, sources, datatypes) if fault.clause in _HINTED else ()
    offset, line, column = _known(fault.offset), _known(fault.line), _known(fault.column)
    if index is not None and offset is not None and sources.written[index] is not sources.texts[index]:
        column = _schema_files.place_of(sources.written[index], offset)[1]  # a blank is a character for each byte
    if offset is not None and hint[1:] != (name, line, column):
        hint = ()  # the library has found another fault
    return SchemaError(fault.clause, title, name, index, offset, line, column, *reported, *hint)


def _hint(fault: _Fault, sources: _Sources, datatypes: int) -> tuple[Any, ...]:
    """The words and the place of a hint: the text, the file, the line and the column; nothing if there is none, or no library for XML."""
    try:
        found = _xml.hint_of(_xml_library(), _array_of(sources.names, sources.written), sources.shown, fault.clause, datatypes)
    except (LibraryError, MemoryError):
        return ()
    return () if found is None else (found.text, sources.shown[found.file], found.line, found.column)


def _written_by(call: Callable[..., int], *words: Any) -> bytes:
    """The text that a call of the library writes to a buffer."""
    status, text = _told_by(call, *words)
    _want_done(status)
    return text


def _told_by(call: Callable[..., int], *words: Any) -> tuple[int, bytes]:
    """The status of such a call, and its text. If the buffer is too small, a second call gets one that is not."""
    length = ctypes.c_size_t(_TEXT_BYTES)
    while True:
        size = length.value
        text = ctypes.create_string_buffer(size)
        status = call(*words, text, size, length)
        if status != _SPACE:
            return status, ctypes.string_at(text, length.value) if status == _DONE else b""


def _is_utf8(written: bytes) -> bool:
    try:
        written.decode("utf-8")
    except UnicodeDecodeError:
        return False
    return True


def _known(number: int) -> Optional[int]:
    """A number that the library returns, or None for -1."""
    return None if number < 0 else number


def _want_done(status: int) -> None:
    """Raises an error if a call failed."""
    if status == _MEMORY:
        raise MemoryError("rncv: out of memory")
    if status != _DONE:
        raise RuntimeError(f"rncv: a call of the library returned {status}")


def _name_of(path: Any) -> str:
    name = os.fspath(path)
    if not isinstance(name, str):
        raise TypeError(f"a path is text, and not {type(name).__name__}")
    return name


def _utf8_of(name: Any) -> bytes:
    if not isinstance(name, str):
        raise TypeError(f"the name of a file is text, and not {type(name).__name__}")
    try:
        return str.encode(name, "utf-8")
    except UnicodeEncodeError:
        raise ValueError(f"the name of the file {name!r} is not UTF-8") from None


def _whole(data: Any) -> bytes:
    """The data as `bytes`; copied unless its type is `bytes`."""
    if type(data) is bytes:
        return data
    with memoryview(data) as view:
        return view.tobytes()


def _parts_of(data: Any) -> Generator[bytes, None, None]:
    """Copies of the bytes in parts, each for one call. There is one part if they are empty."""
    with _flat(data) as view:
        for begin in range(0, max(1, len(view)), _CALL_BYTES):
            yield view[begin:begin + _CALL_BYTES].tobytes()


def _flat(data: Any) -> memoryview:
    """A one-dimensional view of single bytes."""
    view = memoryview(data)
    if view.ndim == 1 and view.itemsize == 1:
        return view
    with view:
        return memoryview(view.tobytes())


def _pieces_of(document: Any) -> Iterator[Any]:
    """The pieces of a document, in whatever form it was given."""
    if isinstance(document, str):
        raise TypeError("a document is bytes, and not str")
    if isinstance(document, (bytes, bytearray, memoryview)):
        return iter([document])
    if hasattr(document, "read"):
        return _read_pieces(document)
    return iter([document]) if _is_buffer(document) else _joined(iter(document))


def _joined(pieces: Iterator[Any]) -> Iterator[Any]:
    """The pieces, with small ones joined. Only those of type `bytes` are: others may change once the next one is asked for."""
    waiting: list[bytes] = []
    size = 0
    for piece in pieces:
        is_small = type(piece) is bytes and len(piece) < _READ_BYTES
        if is_small and piece:
            waiting.append(piece)
            size += len(piece)
        if waiting and (size >= _READ_BYTES or not is_small):
            yield b"".join(waiting)
            waiting, size = [], 0
        if not is_small:
            yield piece
    if waiting:
        yield b"".join(waiting)


def _read_pieces(file: Any) -> Iterator[Any]:
    """The pieces of a binary file, to its end."""
    while True:
        piece = file.read(_READ_BYTES)
        if piece is None:
            raise BlockingIOError("the file has no bytes yet: it must be a file that waits for them")
        if not piece:
            if isinstance(piece, str):
                raise TypeError("a document is a binary file, not a text file")
            return
        yield piece


def _is_buffer(document: Any) -> bool:
    """Whether an object gives access to its bytes, as an array does."""
    try:
        memoryview(document).release()
    except TypeError:
        return False
    return True


class _Judging:
    """Takes the place of a document while an XML document is judged."""


def _judged_xml(judge: _xml.Judge, document: Any, hints: int) -> XmlVerdict:
    """The verdict on an XML document, in whatever form it was given, with hints if some are wanted."""
    begin: Optional[int] = None
    if isinstance(document, (str, os.PathLike)):
        document = _name_of(document)
        verdict = judge.of_path(document)
    elif not isinstance(document, (bytes, bytearray, memoryview)) and hasattr(document, "read"):
        begin = _position_of(document) if hints else None
        verdict = judge.of_file(document)
    elif _is_buffer(document):
        document = _whole(document)
        verdict = judge.of_bytes(document)
    else:
        raise TypeError(f"an XML document is a path, bytes or a binary file, and not {type(document).__name__}")
    found = judge.hints_of(document, begin, hints) if hints and verdict.kind == "invalid" else ()
    return dataclasses.replace(verdict, hints=found) if found else verdict


def _position_of(file: Any) -> Optional[int]:
    """The position of a binary file, if it can go back there."""
    try:
        return file.tell() if file.seekable() else None
    except (AttributeError, OSError):
        return None


@functools.lru_cache(maxsize=None)
def _xml_library() -> ctypes.CDLL:
    """The library for XML, which is beside the other one and uses it."""
    other = _library()._name
    folder, name = os.path.split(other)
    there = [path for path in (os.path.join(folder, name) for name in _xml.NAMES) if os.path.exists(path)]
    path = (there[0] if there else None) if folder else ctypes.util.find_library("rncv_xml")
    if path is None:
        raise LibraryError(f"no library of rncv for XML: there is no {_xml.NAMES[0]} beside {other}. programs/xml/library.sh builds it")
    try:
        return _xml.typed(ctypes.CDLL(path))
    except (OSError, AttributeError) as error:
        raise LibraryError(f"the library of rncv for XML cannot be used: {path}: {error}") from None


@functools.lru_cache(maxsize=None)
def _library() -> ctypes.CDLL:
    """The library, with the types of its functions."""
    missed = []
    for place, path in _places():
        try:
            if path is not None:
                return _typed(ctypes.CDLL(path))
            missed.append(f"  {place}: not there")
        except (OSError, AttributeError) as error:
            missed.append(f"  {place}: {error}")
    looked_for = "\n".join(missed)
    raise LibraryError(f"no library of rncv. programs/library/build.sh builds it, and RNCV_LIBRARY may name it. These places were searched:\n{looked_for}")


def _places() -> Iterator[tuple[str, Optional[str]]]:
    """The places where the library may be, in search order, each with the file or the name to load, if there is one."""
    named = os.environ.get("RNCV_LIBRARY")
    if named:
        path = pathlib.Path(named).resolve()
        yield f"RNCV_LIBRARY={named}", str(path / "lib/librncv.so" if path.is_dir() else path)
        return
    package = pathlib.Path(__file__).resolve().parent
    folders = [package, package.parent]
    top = package.parents[2] if len(package.parents) > 2 else package
    if (top / "programs/library/include/rncv.h").is_file():
        folders.append(top / "build/library/lib")
    if package.parts[-4:-1] == ("share", "rncv", "python"):
        folders.append(package.parents[3] / "lib")
    for folder in folders:
        there = [folder / name for name in _NAMES if (folder / name).exists()]
        yield f"{folder}/{' or '.join(_NAMES)}", str(there[0]) if there else None
    yield "the library rncv of the system", ctypes.util.find_library("rncv")


def _typed(library: ctypes.CDLL) -> ctypes.CDLL:
    """Returns the library with the types of its functions. Raises AttributeError if it lacks one."""
    schema, size, status = ctypes.POINTER(_Schema), ctypes.c_size_t, ctypes.c_int32
    for name, kinds, kind in [
        ("rncv_compile_with", [ctypes.POINTER(_File), size, ctypes.c_uint32, schema, ctypes.POINTER(_Fault)], status),
        ("rncv_refused_name", [ctypes.POINTER(_File), size, ctypes.c_char_p, size, ctypes.POINTER(size)], status),
        ("rncv_mentions", [ctypes.c_char_p, size, ctypes.c_char_p, size, ctypes.POINTER(size), ctypes.POINTER(_Fault)], status),
        ("rncv_datatype_place", [ctypes.c_char_p, size, ctypes.c_uint32, ctypes.POINTER(_Fault)], status),
        ("rncv_schema_share", [schema, schema], status),
        ("rncv_schema_free", [schema], None),
        ("rncv_document_begin", [schema], status),
        ("rncv_document_feed", [schema, ctypes.c_char_p, size], status),
        ("rncv_document_invalid_since", [schema, ctypes.POINTER(ctypes.c_uint64)], status),
        ("rncv_document_end", [schema, ctypes.POINTER(_Verdict)], status),
        ("rncv_events_begin", [schema], status),
        ("rncv_events_start", [schema, ctypes.c_uint64, ctypes.c_char_p, size, ctypes.c_char_p, size, ctypes.POINTER(_events.Attribute), size], status),
        ("rncv_events_text", [schema, ctypes.c_char_p, size], status),
        ("rncv_events_end", [schema, ctypes.c_uint64], status),
        ("rncv_events_invalid_since", [schema, ctypes.POINTER(ctypes.c_uint64)], status),
        ("rncv_events_held", [schema, ctypes.POINTER(size)], status),
        ("rncv_events_start_reason", [schema, ctypes.c_char_p, size, ctypes.c_char_p, size, ctypes.POINTER(_events.Attribute), size, ctypes.POINTER(Told)],
         status),
        ("rncv_events_tag_options", [schema, *[ctypes.c_char_p, size] * 2, ctypes.POINTER(_events.Attribute), size, *[ctypes.c_char_p, size] * 3,
                                     ctypes.POINTER(size)], status),
        ("rncv_events_end_reason", [schema, ctypes.POINTER(Told)], status),
        ("rncv_want_reasons", [schema], status),
        ("rncv_fault_reason", [schema, ctypes.POINTER(Told)], status),
        ("rncv_events_finish", [schema, ctypes.POINTER(_Verdict)], status),
        ("rncv_expected", [schema, ctypes.c_char_p, size, ctypes.POINTER(size)], status),
        ("rncv_expected_in_place", [schema, ctypes.c_char_p, size, ctypes.POINTER(size)], status),
        ("rncv_expected_tag", [schema, ctypes.c_char_p, size, ctypes.c_char_p, size, ctypes.c_char_p, size, ctypes.POINTER(size)], status),
        ("rncv_simple", [schema, ctypes.c_char_p, size, ctypes.POINTER(size)], status),
        ("rncv_clause_title", [ctypes.c_char, ctypes.c_int32], ctypes.c_char_p),
        ("rncv_version", [], ctypes.c_char_p),
    ]:
        call = getattr(library, name)
        call.argtypes, call.restype = kinds, kind
    return library
