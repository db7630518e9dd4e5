#!/usr/bin/env python3
"""Changed simple forms, and documents of some tags, for what checks IDs:   programs/xml/tests/ids_fuzz.py [SECONDS [SEED]]

It needs a C compiler with sanitizers, and the built `rncv` (RNCV_PROGRAM), which prints the simple forms of copies that `rncv-profile` writes. It is not in the
gate. ids_fuzz.c says what must hold.
"""
import os
import pathlib
import subprocess
import sys
import tempfile

import ids_test
from testing import HERE, RNCV

SOURCES = [next(HERE.glob(f"src/*/{name}.c")) for name in ("text_table", "id_form", "id_types", "id_check", "schema_tokens", "xml_names", "paths", "bytes")]
# What finds out how a file is written needs the parser of XML. It is not called here.
STUBS = """
#include "conversion.h"
void convert(const struct byte_source *source, const struct pyx_sink *sink, struct fault *fault) { (void)source; (void)sink; (void)fault; }
void fault_free(struct fault *fault) { (void)fault; }
"""
FLAGS = "-std=c17 -g -O1 -D_XOPEN_SOURCE=700 -fsanitize=address,undefined -fno-sanitize-recover=all".split()


def main():
    seconds, seed = sys.argv[1:2] or ["60"], sys.argv[2:3] or ["1"]
    with tempfile.TemporaryDirectory() as room:
        folder = pathlib.Path(room)
        (folder / "stubs.c").write_text(STUBS, encoding="utf-8")
        words = [os.environ.get("CC", "cc"), *FLAGS, *(f"-I{it}" for it in HERE.glob("src/*")), "-o", folder / "fuzz"]
        subprocess.run([*words, HERE / "tests/ids_fuzz.c", folder / "stubs.c", *SOURCES], check=True)
        schemas = [ids_test.SCHEMA, *(ids_test.HEAD + schema for schema, _ in ids_test.UNSOUND), *(ids_test.HEAD + schema for schema in ids_test.SOUND)]
        forms = []
        for number, schema in enumerate(schemas):
            (folder / "s.rnc").write_text(schema, encoding="utf-8")
            subprocess.run([ids_test.PROFILE, "-o", "copy", "s.rnc"], cwd=folder, capture_output=True, check=False)
            form = subprocess.run([RNCV, "simple", "copy/s.rnc"], cwd=folder, capture_output=True, check=True).stdout
            forms.append(folder / f"{number}.form")
            forms[-1].write_bytes(form)
        return subprocess.run([folder / "fuzz", *seconds, *seed, *forms], check=False).returncode


if __name__ == "__main__":
    sys.exit(main())
