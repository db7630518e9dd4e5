#!/usr/bin/env python3
"""Counts what values of each datatype cost. It is not part of the gate.

    dev/bench/datatype_time/run.py [--library FOLDER] [--records N]

It judges N records (default: 3,000) with two values of a number and two of a name each, and a text, by the library that `programs/library/build.sh` built in
FOLDER (default: build/library), and counts instructions by callgrind. They are the whole of a run: the schema, the reader and the matcher. A row has the
datatype, and the instructions by it with the set of XML Schema, as a multiple of those with the six types, where the numbers are `xsd:integer` and the names
`xsd:NCName`. The documents of a row are the same. The first row is that of the six types themselves with the larger set.

The second table is of the primitive types whose values are no texts: what a text costs more by the datatype than by `xsd:string`, in instructions a byte of it,
of records with one text each. At most 40 are wanted of a date or a decimal.
"""
import argparse
import os
import pathlib
import re
import subprocess
import sys
import tempfile

HERE = pathlib.Path(__file__).resolve().parent
sys.path.insert(0, str(HERE.parent))
from measuring import TOP, Table  # noqa: E402

PROFILE, XML_SCHEMA = 0, 1
# The types by which the numbers, and the names, of the documents are judged.
NUMBERS = {
    "positive": ("nonNegativeInteger positiveInteger long int short unsignedLong unsignedInt unsignedShort", lambda number: number * 7919 % 30_000 + 1),
    "negative": ("nonPositiveInteger negativeInteger", lambda number: -(number * 7919 % 30_000) - 1),
    "small": ("byte unsignedByte", lambda number: number % 127),
}
NAMES = {
    "names": ("Name ID IDREF ENTITY NMTOKEN token normalizedString string anyURI QName NMTOKENS IDREFS ENTITIES", lambda number: f"n{number * 31 % 100_000}"),
    "languages": ("language", lambda number: ("en-US", "de", "fr")[number % 3]),
}


def number(index):
    return NUMBERS["positive"][1](index)


def name(index):
    return NAMES["names"][1](index)


def element(tag, inner):
    return f"({tag}\n{inner}){tag}\n"


def document(numbers, names, count):
    rows = (element("record", f"Aid {numbers(row)}\nAref {names(row)}\n" + element("quantity", f"-{numbers(row + 7)}\n")
                    + element("code", f"-{names(row + 3)}\n") + element("note", "-A note of some words.\n")) for row in range(count))
    return element("doc", "".join(rows))


def schema(number_type, name_type):
    return (f"element doc {{ element record {{ attribute id {{ xsd:{number_type} }}, attribute ref {{ xsd:{name_type} }}, "
            f"element quantity {{ xsd:{number_type} }}, element code {{ xsd:{name_type} }}, element note {{ text }} }}* }}")


# A text of each primitive type, by the number of a record.
PRIMITIVES = {
    "decimal": lambda row: f"{row * 7919 % 1_000_000}.{row % 1000:03}",
    "float": lambda row: f"{row * 7919 % 1_000_000}.{row % 1000:03}e-{row % 20}",
    "double": lambda row: f"{row * 7919 % 1_000_000}.{row % 1000:03}e-{row % 20}",
    "duration": lambda row: f"P{row % 90}Y{row % 12}M{row % 28}DT{row % 24}H{row % 60}M{row % 60}.5S",
    "dateTime": lambda row: f"{1900 + row % 200}-{row % 12 + 1:02}-{row % 28 + 1:02}T{row % 24:02}:{row % 60:02}:{row % 60:02}+01:00",
    "date": lambda row: f"{1900 + row % 200}-{row % 12 + 1:02}-{row % 28 + 1:02}",
    "time": lambda row: f"{row % 24:02}:{row % 60:02}:{row % 60:02}",
    "gYearMonth": lambda row: f"{1900 + row % 200}-{row % 12 + 1:02}",
    "gYear": lambda row: f"{1900 + row % 200}",
    "gMonthDay": lambda row: f"--{row % 12 + 1:02}-{row % 28 + 1:02}",
    "gDay": lambda row: f"---{row % 28 + 1:02}",
    "gMonth": lambda row: f"--{row % 12 + 1:02}",
    "hexBinary": lambda row: f"{row * 7919 % 0xFFFFFFFF:08X}" * 3,
    "base64Binary": lambda row: f"{row * 7919 % 0xFFFFFFFF:08X}" * 3,
}


def texts_document(text_of, count):
    return element("doc", "".join(element("record", f"-{text_of(row)}\n") for row in range(count)))


def texts_schema(content):
    return f"element doc {{ element record {{ {content} }}* }}"


class Judge:
    """The program that judges, and the files that it is given."""

    def __init__(self, library, folder):
        self.folder = folder
        self.program = folder / "judge"
        subprocess.run([os.environ.get("CC", "cc"), "-std=c11", "-Wall", "-Wextra", "-Wconversion", "-Werror", "-O2", f"-I{library}/include", "-o", self.program,
                        HERE / "judge.c", library / "lib/librncv.a"], check=True)

    def instructions(self, datatypes, schema_text, text):
        for file, content in (("schema.rnc", schema_text), ("document.pyx", text)):
            (self.folder / file).write_text(content, encoding="utf-8")
        run = subprocess.run(["valgrind", "--tool=callgrind", "--callgrind-out-file=/dev/null", self.program, str(datatypes), self.folder / "schema.rnc",
                              self.folder / "document.pyx"], capture_output=True, text=True, check=False)
        if run.returncode or run.stdout != "0\n":
            raise SystemExit(f"run.py: not valid by {schema_text}: status {run.returncode}, {run.stdout!r}")
        return int(re.search(r"refs:\s+([\d,]+)", run.stderr)[1].replace(",", ""))


def rows(count):
    """The datatype, its two types, and the document."""
    yield "the six types", "integer", "NCName", document(number, name, count)
    for types, numbers in NUMBERS.values():
        for datatype in types.split():
            yield f"`{datatype}`", datatype, "NCName", document(numbers, name, count)
    for types, names in NAMES.values():
        for datatype in types.split():
            yield f"`{datatype}`", "integer", datatype, document(number, names, count)


def main():
    parser = argparse.ArgumentParser(prog="run.py", description=__doc__.splitlines()[0])
    parser.add_argument("--library", type=pathlib.Path, default=TOP / "build/library")
    parser.add_argument("--records", type=int, default=3_000)
    given = parser.parse_args()
    if not (given.library / "lib/librncv.a").exists():
        print(f"run.py: no librncv.a in {given.library}/lib: programs/library/build.sh builds it", file=sys.stderr)
        return 2
    with tempfile.TemporaryDirectory(prefix="rncv-datatypes-") as room:
        judge = Judge(given.library, pathlib.Path(room))
        table = Table("Datatype", "Instructions", "As a multiple")
        for title, number_type, name_type, text in rows(given.records):
            base = judge.instructions(PROFILE, schema("integer", "NCName"), text)
            found = judge.instructions(XML_SCHEMA, schema(number_type, name_type), text)
            table.row(title, f"{found:,}", f"{found / base:.3f}")
        print()
        table = Table("Datatype", "Bytes of a text", "Instructions a byte")
        for datatype, text_of in PRIMITIVES.items():
            text = texts_document(text_of, given.records)
            cost = (judge.instructions(XML_SCHEMA, texts_schema(f"xsd:{datatype}"), text) - judge.instructions(XML_SCHEMA, texts_schema("xsd:string"), text))
            length = sum(len(text_of(row)) for row in range(given.records))
            table.row(f"`{datatype}`", f"{length / given.records:.1f}", f"{cost / length:.1f}")
    return 0


if __name__ == "__main__":
    sys.exit(main())
