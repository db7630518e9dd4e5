"""Judges XML by the C library `librncv_xml` (programs/xml/include/rncv_xml.h). Nothing here is proved."""

from __future__ import annotations

import ctypes
import dataclasses
import io
import os
import stat
from collections.abc import Callable, Generator, Sequence
from typing import Any, NamedTuple, Optional

# How much is read at once from a file.
_READ_BYTES = 65_536
# A longer document is passed in pieces. Between two of these the interpreter handles signals.
_CALL_BYTES = 1_048_576

_DONE, _MEMORY = 0, 3
_KINDS = ("failed", "valid", "invalid", "malformed", "outside")
_FAILED, _IS_VALID = 0, 1
# The most hints about a document (RNCV_XML_MOST_HINTS). The number of a call of C does not hold every number of Python.
_MOST_HINTS = 999
_PLACES = (None, "element", "attribute", "text", "end")

NAMES = ("librncv_xml.so", "librncv_xml.so.0", "librncv_xml.dylib")


@dataclasses.dataclass(frozen=True)
class XmlVerdict:
    """The verdict on an XML document. It is true exactly if the document is valid, and its `str` is the line of `rncv-xml` without the file.

    `kind` is "valid", "invalid", "malformed" (not well-formed XML, or no document of the profile: then `clause` is the number of the clause P1 to P13 that
    it breaks, otherwise 0) or "outside" (something in it is outside the profile). `line` and `column` count from 1, in characters, and are 0 if there is no
    place. `at` says what is at the place of an invalid document: "element", "attribute", "text" or "end" (something is missing before an end tag); None if
    that is not known. `name` is that of the element or the attribute, or the first characters of the text. `message` is what `rncv-xml` prints after the
    place. `notes` say what is left out of the document, such as an external DTD: each is a line with the place. `earlier` says where a document that is
    malformed or outside was invalid before that place, if it was. `hints` are verdicts on further faults of an invalid document, if they were asked for.

    `reason`, `expected`, `attribute`, `datatype` and `token` are those of `rncv-xml --format json` for an invalid document: a word for what is wrong, what
    could have been there, the attribute that is wrong or those that are missing, the name of the datatype that a value or a text should have, and the token
    of a list that is wrong. They are None if that is not known, and for `earlier`; `expected` is then empty.
    """

    kind: str
    line: int = 0
    column: int = 0
    at: Optional[str] = None
    name: Optional[str] = None
    clause: int = 0
    message: str = ""
    notes: tuple[str, ...] = ()
    earlier: Optional[XmlVerdict] = None
    reason: Optional[str] = dataclasses.field(default=None, compare=False, repr=False)
    expected: tuple[str, ...] = dataclasses.field(default=(), compare=False, repr=False)
    attribute: Optional[str] = dataclasses.field(default=None, compare=False, repr=False)
    datatype: Optional[str] = dataclasses.field(default=None, compare=False, repr=False)
    hints: tuple[XmlVerdict, ...] = dataclasses.field(default=(), compare=False, repr=False)
    token: Optional[str] = dataclasses.field(default=None, compare=False, repr=False)

    @property
    def valid(self) -> bool:
        """Whether the document is valid."""
        return self.kind == "valid"

    def __bool__(self) -> bool:
        return self.valid

    def __str__(self) -> str:
        if self.valid:
            return self.kind
        return f"{self.line}:{self.column}: {self.message}" if self.line else self.message


_VALID = XmlVerdict("valid")


class _Handle(ctypes.Structure):
    """A handle of the library."""

    _fields_ = [("hidden", ctypes.c_void_p)]


class _Answer(ctypes.Structure):
    """The answer for a document, as the library gives it."""

    _fields_ = [
        ("verdict", ctypes.c_int32),
        ("at", ctypes.c_int32),
        ("clause", ctypes.c_int32),
        ("error", ctypes.c_int32),
        ("line", ctypes.c_uint64),
        ("column", ctypes.c_uint64),
        ("name", ctypes.c_char_p),
        ("message", ctypes.c_char_p),
        ("notes", ctypes.c_char_p),
        ("note_count", ctypes.c_size_t),
        ("earlier_at", ctypes.c_int32),
        ("earlier_line", ctypes.c_uint64),
        ("earlier_column", ctypes.c_uint64),
        ("earlier_name", ctypes.c_char_p),
        ("earlier_message", ctypes.c_char_p),
        ("reason", ctypes.c_char_p),
        ("attribute", ctypes.c_char_p),
        ("datatype", ctypes.c_char_p),
        ("expected", ctypes.c_void_p),
        ("expected_count", ctypes.c_size_t),
        ("token", ctypes.c_char_p),
    ]


class _Piece(ctypes.Structure):
    """Where the next bytes of a document go."""

    _fields_ = [
        ("context", ctypes.c_void_p),
        ("bytes", ctypes.c_void_p),
        ("size", ctypes.c_size_t),
        ("length", ctypes.c_size_t),
    ]


class Hint(NamedTuple):
    """Where a schema most likely breaks a clause: the words, the index of the file, the line and the column."""

    text: str
    file: int
    line: int
    column: int


class _Hint(ctypes.Structure):
    """A hint, as the library gives it."""

    _fields_ = [
        ("file", ctypes.c_uint64),
        ("line", ctypes.c_uint64),
        ("column", ctypes.c_uint64),
        ("text", ctypes.c_char * 512),
    ]


_Read = ctypes.CFUNCTYPE(None, ctypes.c_void_p)


def typed(library: ctypes.CDLL) -> ctypes.CDLL:
    """Returns the library with the types of its functions. Raises AttributeError if it lacks one."""
    pointer, size, status = ctypes.c_void_p, ctypes.c_size_t, ctypes.c_int32
    for name, kinds, kind in [
        ("rncv_xml_annotations_blank", [pointer, size, pointer], status),
        ("rncv_xml_hint_find_with", [pointer, pointer, size, status, ctypes.c_uint32, pointer], status),
        ("rncv_xml_judge_new_with", [pointer, pointer, size, ctypes.c_uint32, pointer], status),
        ("rncv_xml_judge_share", [pointer, pointer], status),
        ("rncv_xml_judge_ids", [pointer, status], status),
        ("rncv_xml_judge_free", [pointer], None),
        ("rncv_xml_judge_file", [pointer, ctypes.c_char_p, pointer], status),
        ("rncv_xml_judge_bytes", [pointer, ctypes.c_char_p, size, pointer], status),
        ("rncv_xml_judge_by", [pointer, _Read, pointer, pointer], status),
        ("rncv_xml_judge_again", [pointer, _Read, pointer, size, pointer], status),
        ("rncv_xml_judge_hint", [pointer, size, pointer], status),
    ]:
        call = getattr(library, name)
        call.argtypes, call.restype = kinds, kind
    return library


def blanked(library: ctypes.CDLL, written: bytes) -> bytes:
    """A file of a schema with blanks for the annotations that the other library does not have."""
    if b"[" not in written and b"\\" not in written:
        return written
    text, changed = ctypes.create_string_buffer(written, len(written)), ctypes.c_int32()
    _want_done(library.rncv_xml_annotations_blank(text, len(written), ctypes.byref(changed)))
    return text.raw if changed.value else written


def hint_of(library: ctypes.CDLL, files: Any, shown: Sequence[str], clause: int, datatypes: int) -> Optional[Hint]:
    """The hint about a clause that these files break, if one is known. The files are an array, as the other library takes them, and may have annotations.
    `datatypes` is the number of the set that they may name."""
    names = (ctypes.c_char_p * len(shown))(*[name.encode("utf-8", "replace") for name in shown])
    found = _Hint()
    status = library.rncv_xml_hint_find_with(files, names, len(files), clause, datatypes, ctypes.byref(found))
    return Hint(_text(found.text), found.file, found.line, found.column) if status == _DONE and found.line > 0 else None


class _Source:
    """Gives the bytes of a binary file to the library. An error of the file is kept for the caller."""

    def __init__(self, file: Any) -> None:
        self._file = file
        self.error: Optional[BaseException] = None
        self.has_ended = False

    def pieces(self) -> Generator[None, int, None]:
        """Takes the addresses of pieces, one after the other, and fills them.

        An exception in a callback is lost. It may be that of a signal, at the callback's first instruction. In a generator that is in the `try`.
        """
        try:
            while True:
                try:
                    address = yield
                except GeneratorExit:  # this generator is closed; one from the file is an exception like others
                    return
                self._fill(_Piece.from_address(address))
        except BaseException as error:  # pylint: disable=broad-except
            self.error = error
        yield

    def _fill(self, piece: _Piece) -> None:
        """Writes the next bytes of the file."""
        size = min(piece.size, _READ_BYTES)
        data = self._file.read(size)
        if data is None:
            raise BlockingIOError("the file has no bytes yet: it must be a file that waits for them")
        if isinstance(data, str):
            raise TypeError("a document is a binary file, not a text file")
        if type(data) is not bytes:
            with memoryview(data) as view:
                data = view.tobytes()
        if len(data) > size:
            raise ValueError(f"the file returned {len(data)} bytes when it was asked for {size}")
        ctypes.memmove(piece.bytes, data, len(data))
        self.has_ended = not data
        piece.length = len(data)


class Judge:
    """A judge of the library. It judges one document at a time, and the caller takes care of that."""

    def __init__(self, library: ctypes.CDLL) -> None:
        self._library = library
        self._handle = _Handle()
        self._answer = _Answer()
        # The calls take these, which are made once.
        self._to_handle, self._to_answer = ctypes.byref(self._handle), ctypes.byref(self._answer)
        self._judge_bytes = library.rncv_xml_judge_bytes
        self._checks_ids = True

    @classmethod
    def of_schema(cls, library: ctypes.CDLL, schema: ctypes.Structure, files: Any, datatypes: int) -> Judge:
        """A judge by the schema with this handle, which may name the datatypes of the set of this number. Its files are an array, as the other library takes
        them."""
        judge = cls(library)
        _want_done(library.rncv_xml_judge_new_with(ctypes.byref(schema), files, len(files), datatypes, judge._to_handle))
        return judge

    def share(self) -> Judge:
        """Another judge by the same schema."""
        other = Judge(self._library)
        _want_done(self._library.rncv_xml_judge_share(self._to_handle, other._to_handle))
        return other

    def want_ids(self, wanted: bool) -> None:
        """Says whether IDs are checked. At first they are."""
        if wanted != self._checks_ids:
            _want_done(self._library.rncv_xml_judge_ids(self._to_handle, int(wanted)))
            self._checks_ids = wanted

    def free(self) -> None:
        """Frees the judge. A second call does nothing."""
        self._library.rncv_xml_judge_free(self._to_handle)

    def of_bytes(self, data: bytes) -> XmlVerdict:
        """The verdict on these bytes, an object of type `bytes`."""
        length = len(data)
        if length > _CALL_BYTES:
            return self.of_file(io.BytesIO(data))
        status = self._judge_bytes(self._to_handle, data, length, self._to_answer)
        if status == _DONE and self._answer.verdict == _IS_VALID and self._answer.note_count == 0:
            return _VALID
        return self._verdict(status)

    def of_path(self, path: Any) -> XmlVerdict:
        """The verdict on the file at a path. A file that is long, or is a pipe, is read here, so that signals are handled meanwhile."""
        state = os.stat(path)
        if state.st_size > _CALL_BYTES or not stat.S_ISREG(state.st_mode):
            with open(path, "rb", buffering=0) as file:
                return self.of_file(file)
        status = self._library.rncv_xml_judge_file(self._to_handle, os.fsencode(path), self._to_answer)
        if status == _DONE and self._answer.verdict == _IS_VALID and self._answer.note_count == 0:
            return _VALID
        if status == _DONE and self._answer.verdict == _FAILED and self._answer.error != 0:
            raise OSError(self._answer.error, os.strerror(self._answer.error), path)
        return self._verdict(status)

    def of_file(self, file: Any) -> XmlVerdict:
        """The verdict on a binary file, from its position to its end."""
        has_ended, status = self._read(file, lambda read: self._library.rncv_xml_judge_by(self._to_handle, read, None, self._to_answer))
        verdict = self._verdict(status)
        if verdict.valid and not has_ended:
            raise RuntimeError("rncv: the file was not read to its end")
        return verdict

    @staticmethod
    def _read(file: Any, call: Callable[[Any], Any]) -> tuple[bool, int]:
        """Whether a call has read a file to its end, and the status of the call. It gets the function that reads."""
        source = _Source(file)
        pieces = source.pieces()
        next(pieces)
        status: int = call(_Read(pieces.send))
        error, source.error = source.error, None
        if error is not None:
            try:
                raise error
            finally:
                del error
        return source.has_ended, status

    def hints_of(self, document: Any, begin: Optional[int], most: int) -> tuple[XmlVerdict, ...]:
        """Further faults of the document that was judged last: bytes, a path, or a binary file, which was read from this position. None: it cannot be read
        again."""
        if isinstance(document, bytes):
            return self._hints(io.BytesIO(document), most)
        if isinstance(document, (str, os.PathLike)):
            if not stat.S_ISREG(os.stat(document).st_mode):
                return ()
            with open(document, "rb", buffering=0) as file:
                return self._hints(file, most)
        if begin is None:
            return ()
        document.seek(begin)
        return self._hints(document, most)

    def _hints(self, file: Any, most: int) -> tuple[XmlVerdict, ...]:
        """Further faults of the document in a file, from its position on."""
        count, most = ctypes.c_size_t(), min(most, _MOST_HINTS)
        _, status = self._read(file, lambda read: self._library.rncv_xml_judge_again(self._to_handle, read, None, most, ctypes.byref(count)))
        _want_done(status)
        return tuple(self._hint(index) for index in range(count.value))

    def _hint(self, index: int) -> XmlVerdict:
        """One of the hints that were found."""
        return self._verdict(self._library.rncv_xml_judge_hint(self._to_handle, index, self._to_answer))

    def _verdict(self, status: int) -> XmlVerdict:
        """What the library answers."""
        _want_done(status)
        answer = self._answer
        if answer.verdict == _FAILED:
            raise RuntimeError(f"rncv: {_text(answer.message)}")
        at = _PLACES[answer.at]
        return XmlVerdict(_KINDS[answer.verdict], answer.line, answer.column, at, None if at is None else _text(answer.name), answer.clause,
                          _text(answer.message), tuple(_lines(answer.notes)), self._earlier(), _text(answer.reason) or None,
                          tuple(_texts(answer.expected, answer.expected_count)), _text(answer.attribute) or None, _text(answer.datatype) or None,
                          token=_text(answer.token) or None)

    def _earlier(self) -> Optional[XmlVerdict]:
        """Where the document was invalid before the place of the answer, if it was."""
        answer = self._answer
        if not answer.earlier_line:
            return None
        at = _PLACES[answer.earlier_at]
        name = None if at is None else _text(answer.earlier_name)
        return XmlVerdict("invalid", answer.earlier_line, answer.earlier_column, at, name, 0, _text(answer.earlier_message))


def _text(text: Optional[bytes]) -> str:
    return (text or b"").decode("utf-8", "replace")


def _texts(address: Optional[int], count: int) -> Generator[str, None, None]:
    """So many texts that follow each other, each with a zero behind it."""
    at = address or 0
    for _ in range(count):
        text = ctypes.string_at(at)
        at += len(text) + 1
        yield _text(text)


def _lines(text: Optional[bytes]) -> Sequence[str]:
    return [line for line in _text(text).split("\n") if line]


def _want_done(status: int) -> None:
    """Raises an error if a call failed."""
    if status == _MEMORY:
        raise MemoryError("rncv: out of memory")
    if status != _DONE:
        raise RuntimeError(f"rncv: a call of the library for XML returned {status}")
