"""Rows of cases through the C library:   rows_test.py librncv.so

For each row of crates/rncv_run_cases, and of the places of datatypes in crates/schema_cases, the library gives the answer in the row. The gate compares the
programs with the same answers. Documents are fed whole, and then in pieces of 4,096 bytes and of one byte, or of 97 if they are long. Those that break no
clause, or P13 alone, are told as events too.
"""

import ctypes
import os
import re
import sys
import urllib.parse

from library_test import BROKEN, DONE, INVALID, PROFILE, REFUSED, SPACE, XML_SCHEMA, Attribute, Fault, Schema, Verdict, files_of, library, refused_name
from pyx_events import events_of

CRATES = os.path.abspath(f"{os.path.dirname(__file__)}/../../../crates")
RUNS, SCHEMAS = "rncv_run_cases", "schema_cases"


def rows(name, crate=RUNS):
    """The rows of a file of cases: the place of each, and its fields. The last field is `= ` and the answer, except in `schemas.txt`."""
    with open(f"{CRATES}/{crate}/data/{name}", encoding="utf-8") as lines:
        for number, line in enumerate(lines.read().split("\n"), 1):
            if line and not line.startswith("#"):
                yield f"{name}:{number}", [urllib.parse.unquote_to_bytes(field) for field in line.split("\t")]


def cases(name, crate=RUNS):
    """The rows of a file of cases: the place of each, its fields and its answer, as the program prints it."""
    for place, (*fields, answer) in rows(name, crate):
        assert answer.startswith(b"= "), place
        yield place, fields, answer[2:].decode() + "\n"


def joined(fields):
    """Pieces, each followed by how often it is there. The last number may be left out."""
    return b"".join(piece * int(times or 1) for piece, times in zip(fields[::2], [*fields[1::2], b"1"]))


class Program:
    """The answers of the program, by the library."""

    def __init__(self, path):
        self.lib = library(path)
        self.told = 0

    def refused(self, files, fault):
        if fault.clause > 8:
            return f"Refused refused S{fault.clause}\n"
        name = refused_name(self.lib, files_of(*files)).decode()
        assert fault.file < 0 or files[fault.file][0] == name.encode(), (name, fault.file)
        return f"Refused refused S{fault.clause} file {name}\n"

    def simple(self, schema):
        length = ctypes.c_size_t()
        assert self.lib.rncv_simple(schema, None, 0, length) == SPACE
        text = ctypes.create_string_buffer(length.value)
        assert self.lib.rncv_simple(schema, text, length.value, length) == DONE
        return f"Good {text.raw[: length.value].decode()}"

    def verdict(self, schema, document, most):
        verdict, since = Verdict(), ctypes.c_uint64()
        assert self.lib.rncv_document_begin(schema) == DONE
        for start in range(0, len(document), most):
            piece = document[start : start + most]
            if self.lib.rncv_document_feed(schema, piece, len(piece)) != DONE:
                break
        assert self.lib.rncv_document_invalid_since(schema, since) == DONE
        assert self.lib.rncv_document_end(schema, verdict) == DONE
        if since.value:
            assert verdict.kind == BROKEN or (verdict.kind, verdict.line) == (INVALID, since.value), (since.value, verdict.kind, verdict.line)
        if most >= len(document) and (verdict.kind != BROKEN or verdict.clause == 13):
            kind, lines = self.verdict_on_events(schema, document)
            assert kind == verdict.kind and (kind != INVALID or verdict.line in lines), (document, kind, lines, verdict.line)
            self.told += 1
        if verdict.kind == BROKEN:
            return f"Malformed malformed P{verdict.clause} line {verdict.line}\n"
        return f"Invalid invalid line {verdict.line}\n" if verdict.kind == INVALID else "Good valid\n"

    def verdict_on_events(self, schema, document):
        """The kind of the verdict on a document that is told as events, and the lines that stand for the place."""
        verdict, since, places = Verdict(), ctypes.c_uint64(), {}
        assert self.lib.rncv_events_begin(schema) == DONE
        for place, (kind, *event) in enumerate(events_of(document), 1):
            if kind == "text":
                assert self.lib.rncv_events_text(schema, event[0], len(event[0])) == DONE, event
                continue
            places[place] = event[0]
            if kind == "end":
                assert self.lib.rncv_events_end(schema, place) == DONE, event
                continue
            uri, local, attributes = event[1:]
            given = (Attribute * len(attributes))(*[sum(((text, len(text)) for text in attribute), ()) for attribute in attributes])
            assert self.lib.rncv_events_start(schema, place, uri, len(uri), local, len(local), given, len(given)) == DONE, event
        assert self.lib.rncv_events_invalid_since(schema, since) == DONE
        assert self.lib.rncv_events_finish(schema, verdict) == DONE
        if since.value:
            assert verdict.kind == BROKEN or (verdict.kind, verdict.line) == (INVALID, since.value), (since.value, verdict.kind, verdict.line)
        return verdict.kind, places.get(verdict.line)

    def answer(self, command, files, document):
        schema, fault = Schema(), Fault()
        handed = files_of(*files)
        status = self.lib.rncv_compile(handed, len(files), schema, fault)
        assert status in (DONE, REFUSED), status
        if status == REFUSED:
            return self.refused(files, fault)
        try:
            if command == b"check":
                return "Good schema ok\n"
            if command == b"simple":
                return self.simple(schema)
            pieces = (max(1, len(document)), 4096, 1 if len(document) < 4096 else 97)
            answers = {self.verdict(schema, document, most) for most in pieces}
            assert len(answers) == 1, answers
            return answers.pop()
        finally:
            self.lib.rncv_schema_free(schema)

    def word(self, datatypes, text, document):
        """What a schema and a document give with a set of datatypes: the clause that the schema breaks, or a letter for the verdict."""
        schema, fault = Schema(), Fault()
        status = self.lib.rncv_compile_with(files_of((b"s.rnc", text)), 1, datatypes, schema, fault)
        assert status in (DONE, REFUSED), status
        if status == REFUSED:
            return f"S{fault.clause}"
        letter = self.verdict(schema, document, 3)[0].replace("G", "V")
        self.lib.rncv_schema_free(schema)
        return letter

    def datatype_place(self, datatypes, text):
        """The line for the place where a file has the first datatype that breaks S12."""
        fault = Fault()
        status = self.lib.rncv_datatype_place(text, len(text), datatypes, fault)
        assert status in (DONE, REFUSED), status
        return "none\n" if status == REFUSED else f"{fault.offset} {fault.line}:{fault.column}\n"


def runs():
    """The place, the command, the files, the document and the answer of each row of a run."""
    for place, (command, name, schema, *document), answer in cases("cases.txt"):
        yield place, command, [(name, schema)], joined(document), answer
    for place, (command, name, document, *schema), answer in cases("sizes.txt"):
        yield place, command, [(name, joined(schema))], document, answer
    for place, (command, document, *files), answer in (case for name in ("files.txt", "worked.txt") for case in cases(name)):
        times = [*files[2::3], b"1"]
        yield place, command, [(name, text * int(often or 1)) for name, text, often in zip(files[::3], files[1::3], times)], document, answer


def letters(program, schemas):
    """The place of each document, its letters by schemas that were compiled once, and its answer."""
    handles = [Schema() for _ in schemas]
    for handle, (_, (schema,)) in zip(handles, schemas):
        assert program.lib.rncv_compile(files_of((b"s.rnc", schema)), 1, handle, Fault()) == DONE
    for place, (document,), answer in cases("documents.txt"):
        yield place, "".join(program.verdict(handle, document, 3)[0].replace("G", "V") for handle in handles) + "\n", answer
    for handle in handles:
        program.lib.rncv_schema_free(handle)


def answers(program):
    """The place of each row, what the library answers, and the answer of the row. C has no devices that fail, so none of `devices.txt`."""
    for place, command, files, document, answer in runs():
        yield place, program.answer(command, files, document), answer
    yield from letters(program, [*rows("schemas.txt")])
    for place, (schema, document), answer in cases("datatypes.txt"):
        yield place, " ".join(program.word(datatypes, schema, document) for datatypes in (PROFILE, XML_SCHEMA)) + "\n", answer
    for place, pieces, answer in cases("datatypes.txt", SCHEMAS):
        yield place, "".join(program.datatype_place(datatypes, joined(pieces)) for datatypes in (PROFILE, XML_SCHEMA)), answer


def counts_of(crate):
    """How many rows of each file a program compares."""
    with open(f"{CRATES}/{crate}/stdout", encoding="utf-8") as lines:
        return {name: int(count) for name, count in re.findall(r"(\S+): (\d+) rows\n", lines.read())}


def row_count():
    """How many rows the programs compare that the library answers: all of the runs but those of `devices.txt`, and the places of datatypes."""
    return sum(count for name, count in counts_of(RUNS).items() if name != "devices.txt") + counts_of(SCHEMAS)["datatypes.txt"]


def main():
    count, program = 0, Program(sys.argv[1])
    for place, by_library, answer in answers(program):
        if by_library != answer:
            sys.exit(f"{place}: {by_library!r}, and not {answer!r}")
        count += 1
    assert count == row_count(), (count, row_count())
    print(f"rows by the library: {count} as the program answers them; {program.told} documents as events")


if __name__ == "__main__":
    main()
