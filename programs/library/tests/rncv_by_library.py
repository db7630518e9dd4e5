#!/usr/bin/env python3
"""The program `rncv`, by the C library, so that tests of the program can be run on the library:   rncv_by_library.py valid|check|simple FILES..

The variable RNCV_LIBRARY names librncv.so; else it is build/library/lib/librncv.so. It answers as `rncv` does (docs/use/LANGUAGE.md).
"""

import os
import sys

from library_test import REFUSED, Fault, Schema, files_of
from rows_test import Program

STATUS = {"Good": 0, "Invalid": 1, "Malformed": 2, "Refused": 3}


def main():
    words = sys.argv[1:]
    marked = words.index("--") if "--" in words else len(words)
    has_option = any(len(word) > 1 and word.startswith("-") for word in words[:marked])
    words = words[:marked] + words[marked + 1 :]
    if has_option or len(words) < 2 or words[0] not in ("valid", "check", "simple"):
        print("usage: rncv valid|check|simple FILES..", file=sys.stderr)
        return 5
    here = os.path.dirname(os.path.abspath(__file__))
    program = Program(os.environ.get("RNCV_LIBRARY", f"{here}/../../../build/library/lib/librncv.so"))
    files = []
    for name in words[1:]:
        try:
            with open(name, "rb") as it:
                files.append((os.fsencode(name), it.read(1_048_577)))
        except OSError:
            print(f"rncv: cannot read file {name}", file=sys.stderr)
            return 4
    schema, fault = Schema(), Fault()
    if program.lib.rncv_compile(files_of(*files), len(files), schema, fault) == REFUSED:
        answer = program.refused(files, fault)
    else:
        document = sys.stdin.buffer.read() if words[0] == "valid" else b""
        answer = program.answer(words[0].encode(), files, document)
    program.lib.rncv_schema_free(schema)
    status, _, text = answer.partition(" ")
    sys.stdout.buffer.write(text.encode())
    return STATUS[status]


if __name__ == "__main__":
    sys.exit(main())
