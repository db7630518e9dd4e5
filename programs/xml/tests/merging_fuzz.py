#!/usr/bin/env python3
"""Gives random schemas of several files, with tokens changed at random, to `rncv-xml`, built with the sanitizers:   merging_fuzz.py [SECONDS [FIRST]]

RNCV_XML_PROGRAMS names its folder. With fewer files (`--most-files`) it has to answer what it answers without, or to say that too many files are left.
"""
import pathlib
import random
import re
import subprocess
import sys
import tempfile
import time

from merging_test import Maker
from testing import PROGRAMS

TOKEN = re.compile(r"\"\"\".*?\"\"\"|\"[^\"\n]*\"|'[^'\n]*'|[\w.:\\-]+\*?|#[^\n]*\n|\|=|&=|\s+|.", re.S)
PARTS = ("{", "}", "(", ")", "[", "]", "=", "|=", "&", "|", ",", "-", "*", "?", "start", "div", "include", "external", "grammar", "inherit", "element",
         "attribute", "parent", "n1", "p:a", "p:*", '"main.rnc"', '"f1.rnc"', '"gone.rnc"', "'x'", "namespace", "default", "datatypes", "#", "##\n", "\\x{20}",
         "\\x{A}", "\\x{23}", "\\x{0}", "\x0c", "é", ">>", "~", "xsd:QName", "q", "m1")


def changed(source, text):
    tokens = TOKEN.findall(text)
    for _ in range(source.choice((0, 1, 1, 1, 2, 4))):
        at = source.randint(0, len(tokens))
        end = min(len(tokens), at + source.choice((0, 1, 1, 2, 8)))
        tokens[at:end] = source.choice(([source.choice(PARTS)], [" ", source.choice(PARTS), " "], tokens[end:end + source.randint(0, 6)], []))
    return "".join(tokens)


def answer(folder, *words):
    run = subprocess.run([PROGRAMS / "rncv-xml", "--all", *words, "main.rnc", "good.xml", "bad.xml"], cwd=folder, capture_output=True, timeout=60, check=False)
    return run.stdout + run.stderr, run.returncode


def judge(folder, count):
    """What is wrong with the answers; None: nothing."""
    wanted = answer(folder)
    if wanted[1] not in (0, 1, 3) or b"Sanitizer" in wanted[0] or b"runtime error" in wanted[0]:
        return f"{wanted}"
    for most in range(1, count):
        found = answer(folder, "--most-files", str(most))
        if found != wanted and b"are left after" not in found[0]:
            return f"{most} files: {found}, and not {wanted}"
    return None


def main():
    seconds = float(sys.argv[1]) if len(sys.argv) > 1 else 60
    number = int(sys.argv[2]) if len(sys.argv) > 2 else 0
    first, start = number, time.monotonic()
    with tempfile.TemporaryDirectory() as room:
        folder = pathlib.Path(room)
        (folder / "good.xml").write_text("<a/>")
        (folder / "bad.xml").write_text("<a xmlns='u'><b/></a>")
        while time.monotonic() - start < seconds:
            number += 1
            source = random.Random(f"fuzz {number}")
            files = Maker(f"fuzz {number}").schema()
            for name, text in files.items():
                (folder / name).write_text(changed(source, text) if source.random() < 0.3 else text, encoding="utf-8")
            fault = judge(folder, len(files))
            if fault:
                print(f"merging_fuzz.py: schema {number}: {fault}")
                return 1
    print(f"merging_fuzz.py: {number - first} schemas, no fault")
    return 0


if __name__ == "__main__":
    sys.exit(main())
