#!/usr/bin/env python3
"""Gives bytes that are changed at random to `rng2rnc` and `rncv-xml`, built with the sanitizers:   rng_fuzz.py [SECONDS]

RNCV_XML_PROGRAMS names their folder. Each run has to end with a status of the program, and without a message of the sanitizers.
"""
import pathlib
import random
import subprocess
import sys
import tempfile
import time

from testing import PROGRAMS, TOP

sys.path.insert(0, str(TOP / "dev/search/fuzz"))
from rng_schemas import Maker  # noqa: E402

PARTS = (b"<", b">", b"/>", b"'", b'"', b"&", b"&#0;", b"&#10;", b"\0", b"\xff", b"\xef\xbb\xbf", b"xmlns", b":", b"<!--", b"]]>", b"<grammar", b"</", b"\\", b"#",
         b"%", b"<!DOCTYPE a [<!ENTITY e '<text/>'>]>", b"&e;", b" " * 70_000, b"<group>" * 40)


def changed(source, data):
    data = bytearray(data)
    for _ in range(source.choice((1, 1, 2, 5))):
        at = source.randint(0, len(data))
        end = min(len(data), at + source.choice((0, 1, 3, 20)))
        data[at:end] = source.choice(PARTS) if source.random() < 0.6 else bytes(data[end:end + source.randint(0, 60)])
    return bytes(data)


def judge(words):
    """What is wrong with a run; None: nothing."""
    run = subprocess.run(words, capture_output=True, timeout=60, check=False)
    reported = run.stdout + run.stderr
    is_good = run.returncode in (0, 3) and b"Sanitizer" not in reported and b"runtime error" not in reported
    return None if is_good else f"{run.returncode}: {reported.decode('utf-8', 'replace')[-2000:]}"


def main():
    seconds = float(sys.argv[1]) if len(sys.argv) > 1 else 60
    start, number = time.monotonic(), 0
    with tempfile.TemporaryDirectory() as room:
        folder = pathlib.Path(room)
        while time.monotonic() - start < seconds:
            number += 1
            source = random.Random(number)
            for name, tree in Maker(source).schema().items():
                data = tree.text().encode("utf-16" if source.random() < 0.1 else "utf-8")
                (folder / name).write_bytes(changed(source, data) if source.random() < 0.8 else data)
            for words in ([PROGRAMS / "rng2rnc", "-o", folder / "copy", folder / "main.rng"], [PROGRAMS / "rncv-xml", "--print-schema", folder / "main.rng"]):
                fault = judge(words)
                if fault:
                    print(f"rng_fuzz.py: schema {number}: {fault}")
                    return 1
    print(f"rng_fuzz.py: {number} schemas, no fault")
    return 0


if __name__ == "__main__":
    sys.exit(main())
