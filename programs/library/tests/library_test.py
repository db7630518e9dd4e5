"""Calls the shared object from Python, by ctypes. The argument is its path."""

import ctypes
import sys

DONE, REFUSED, MALFORMED, MEMORY, MISUSE, SPACE = range(6)
VALID, INVALID, BROKEN = range(3)
PROFILE, XML_SCHEMA = range(2)


class Schema(ctypes.Structure):
    _fields_ = [("hidden", ctypes.c_void_p)]


class File(ctypes.Structure):
    _fields_ = [
        ("name", ctypes.c_char_p),
        ("name_length", ctypes.c_size_t),
        ("bytes", ctypes.c_char_p),
        ("length", ctypes.c_size_t),
    ]


class Fault(ctypes.Structure):
    _fields_ = [
        ("clause", ctypes.c_int32),
        ("file", ctypes.c_int64),
        ("offset", ctypes.c_int64),
        ("line", ctypes.c_int64),
        ("column", ctypes.c_int64),
    ]


class Attribute(ctypes.Structure):
    _fields_ = [(name, kind) for text in ("uri", "local", "value") for name, kind in ((text, ctypes.c_char_p), (f"{text}_length", ctypes.c_size_t))]


class Verdict(ctypes.Structure):
    _fields_ = [("kind", ctypes.c_int32), ("clause", ctypes.c_int32), ("line", ctypes.c_uint64)]


def library(path):
    """The library, with the types of its functions."""
    lib = ctypes.CDLL(path)
    schema, size = ctypes.POINTER(Schema), ctypes.c_size_t
    for name, kinds in {
        "rncv_compile": [ctypes.POINTER(File), size, schema, ctypes.POINTER(Fault)],
        "rncv_compile_with": [ctypes.POINTER(File), size, ctypes.c_uint32, schema, ctypes.POINTER(Fault)],
        "rncv_refused_name": [ctypes.POINTER(File), size, ctypes.c_char_p, size, ctypes.POINTER(size)],
        "rncv_datatype_place": [ctypes.c_char_p, size, ctypes.c_uint32, ctypes.POINTER(Fault)],
        "rncv_schema_share": [schema, schema],
        "rncv_document_begin": [schema],
        "rncv_document_feed": [schema, ctypes.c_char_p, size],
        "rncv_document_invalid_since": [schema, ctypes.POINTER(ctypes.c_uint64)],
        "rncv_document_end": [schema, ctypes.POINTER(Verdict)],
        "rncv_events_begin": [schema],
        "rncv_events_start": [schema, ctypes.c_uint64, ctypes.c_char_p, size, ctypes.c_char_p, size, ctypes.POINTER(Attribute), size],
        "rncv_events_text": [schema, ctypes.c_char_p, size],
        "rncv_events_end": [schema, ctypes.c_uint64],
        "rncv_events_invalid_since": [schema, ctypes.POINTER(ctypes.c_uint64)],
        "rncv_events_finish": [schema, ctypes.POINTER(Verdict)],
        "rncv_simple": [schema, ctypes.c_char_p, size, ctypes.POINTER(size)],
    }.items():
        call = getattr(lib, name)
        call.argtypes, call.restype = kinds, ctypes.c_int32
    lib.rncv_schema_free.argtypes, lib.rncv_schema_free.restype = [schema], None
    lib.rncv_clause_title.argtypes = [ctypes.c_char, ctypes.c_int32]
    lib.rncv_clause_title.restype = ctypes.c_char_p
    return lib


def files_of(*pairs):
    return (File * len(pairs))(*[File(name, len(name), text, len(text)) for name, text in pairs])


def refused_name(lib, files):
    """The name of the file that breaks a clause by itself."""
    needed = ctypes.c_size_t()
    assert lib.rncv_refused_name(files, len(files), None, 0, needed) in (SPACE, DONE)
    text = ctypes.create_string_buffer(needed.value)
    assert lib.rncv_refused_name(files, len(files), text, needed.value, needed) == DONE
    return text.raw[: needed.value]


def main():
    lib = library(sys.argv[1])
    schema, fault, verdict = Schema(), Fault(), Verdict()

    assert lib.rncv_compile(None, 0, schema, fault) == MISUSE
    assert lib.rncv_compile_with(None, 0, XML_SCHEMA, schema, fault) == MISUSE
    refused = files_of((b"s.rnc", b'include "b.rnc"'), (b"b.rnc", b"element a {"))
    assert lib.rncv_compile(refused, len(refused), schema, fault) == REFUSED
    assert (fault.clause, fault.file, fault.offset, fault.line, fault.column) == (6, 1, 11, 1, 12)
    assert lib.rncv_clause_title(b"S", fault.clause).startswith(b"the tokens are a sentence")
    assert refused_name(lib, refused) == b"b.rnc"
    assert refused_name(lib, files_of((b"s.rnc", b'include "b.rnc"'))) == b"b.rnc"

    text = b"element a {\n  xsd:byte | xsd:none }"
    for datatypes, column in ((PROFILE, 3), (XML_SCHEMA, 14)):
        assert lib.rncv_datatype_place(text, len(text), datatypes, fault) == DONE
        assert (fault.clause, fault.file, fault.offset, fault.line, fault.column) == (12, 0, 11 + column, 2, column)
    assert lib.rncv_datatype_place(b"", 0, PROFILE, fault) == REFUSED
    assert lib.rncv_datatype_place(None, 0, 2, fault) == MISUSE

    files = files_of((b"s.rnc", b"element a { text }"))
    for number in (2, 256, 2**32 - 1):
        assert lib.rncv_compile_with(files, len(files), number, schema, fault) == MISUSE
    assert lib.rncv_compile(files, len(files), schema, fault) == DONE
    needed = ctypes.c_size_t()
    assert lib.rncv_simple(schema, None, 0, needed) == SPACE
    text = ctypes.create_string_buffer(needed.value)
    assert lib.rncv_simple(schema, text, needed.value, needed) == DONE
    assert text.raw == b"start = e0\ne0 = element a { text }\n"

    for pieces, expected in [
        ([b"(a\n-hi", b"\n)a\n"], (VALID, 0, 0)),
        ([b"(b\n)b\n"], (INVALID, 0, 2)),
        ([b"(a\n", b")b\n"], (BROKEN, 8, 2)),
    ]:
        assert lib.rncv_document_begin(schema) == DONE
        for piece in pieces:
            assert lib.rncv_document_feed(schema, piece, len(piece)) in (DONE, MALFORMED)
        assert lib.rncv_document_end(schema, verdict) == DONE
        assert (verdict.kind, verdict.clause, verdict.line) == expected
        assert lib.rncv_document_feed(schema, b"x", 1) == MISUSE
    lib.rncv_schema_free(schema)
    lib.rncv_schema_free(schema)
    print("python: ok")


if __name__ == "__main__":
    main()
