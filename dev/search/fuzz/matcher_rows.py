#!/usr/bin/env python3
"""Writes rows of random schemas and documents for `rng_deriv_cases`.

    dev/search/fuzz/matcher_rows.py [--seed S] [--schemas N] [PROGRAM] > crates/rng_deriv_cases/data/generated.txt

A row has a schema of one file, a document and the verdict (`= valid` or `= invalid`). The verdict is that of the plain matcher of this folder
(`matching.py`), which shares nothing with the matchers that `rng_deriv_cases` compares. Each of these schemas is in the grammar and breaks no clause: the
default PROGRAM, `crates/rncv/out/rncv`, answers `schema ok`. For each schema there are valid documents and changed ones. The same seed gives the same rows.
The last line says how many rows there are, and how many of them are valid. `stdout` of `rng_deriv_cases` has the first number too.
"""
import argparse
import pathlib
import random
import sys
import tempfile

import documents
import matching
import running
import schemas
from run import case_documents
from writing import written

DEFAULT_PROGRAM = pathlib.Path(__file__).resolve().parents[3] / "crates/rncv/out/rncv"
MOST_BYTES = 600


def field(text):
    """A field of a row: `%` and two digits for bytes that end a field, a row or a character."""
    return "".join(chr(it) if 32 <= it < 127 and it != 37 else f"%{it:02X}" for it in text.encode())


def rows_of(schema, text, name):
    """Pairs of a verdict and a row of a schema with this text."""
    seen = set()
    for lines, _ in case_documents(schema, random.Random(name)):
        document = documents.as_bytes(lines).decode()
        verdict = documents.verdict(matching.Patterns(schema), lines)
        if verdict == "malformed" or document in seen or len(document) > MOST_BYTES:
            continue
        seen.add(document)
        yield verdict, f"{field(text)}\t{field(document)}\t= {verdict}"


def rows(program, seed, count):
    """Pairs of a verdict and a row, for so many schemas, without those of several files, large ones, and those that the program refuses."""
    for number in range(count):
        name = f"{seed}/{number}"
        schema = schemas.made(name)
        files = written(schema)
        if len(files) == 1 and len(files[0][1]) <= MOST_BYTES and program.run("check", files).line == "schema ok":
            yield from rows_of(schema, files[0][1], name)


def main():
    given = argparse.ArgumentParser(description=__doc__.splitlines()[0])
    given.add_argument("--seed", default="1")
    given.add_argument("--schemas", type=int, default=80)
    given.add_argument("program", nargs="?", default=DEFAULT_PROGRAM)
    given = given.parse_args()
    sys.setrecursionlimit(20_000)
    with tempfile.TemporaryDirectory() as room:
        try:
            made = list(rows(running.Program(pathlib.Path(given.program).resolve(), room), given.seed, given.schemas))
        except OSError as fault:
            sys.exit(f"matcher_rows.py: {given.program}: {fault.strerror}")
    print("# Random schemas and documents, by dev/search/fuzz/matcher_rows.py. A row has a schema, a document and the verdict.")
    print(f"# seed {given.seed}, {given.schemas} schemas")
    print("\n".join(row for _, row in made))
    valid = sum(verdict == "valid" for verdict, _ in made)
    print(f"# {len(made)} rows, {valid} valid")


if __name__ == "__main__":
    main()
