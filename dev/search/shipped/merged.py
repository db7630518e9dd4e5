#!/usr/bin/env python3
"""Compares schemas of several files with what `rncv-xml` writes of them in fewer files, by the simple forms that jing prints of both.

    dev/search/shipped/merged.py [--program RNCV-XML] FOLDER|SCHEMA..

Schemas of one file, and those that jing refuses, are counted alone. It needs jing. The status is 1 if two forms differ.
"""
import argparse
import collections
import pathlib
import re
import subprocess
import sys
import tempfile

from run import SECTION, TOP, SchemaFile, output_of, schemas_of
from profile_reader import Edit

LEFT = re.compile(r" (\d+) are left after the others")
# A file has its own prefixes, which the values of qualified names show. No such file is written into another one.
SECONDS = 300


def form_of(path):
    """The simple form that jing prints; None if it refuses the schema."""
    words = ["jing", "-s", "-i", *(["-c"] if path.suffix == ".rnc" else []), path.absolute()]
    run = subprocess.run(list(map(str, words)), capture_output=True, timeout=SECONDS, check=False)
    return run.stdout.decode("utf-8", "replace") if run.returncode == 0 else None


def printed(program, path, most):
    """What the library gets if it takes `most` files: texts by name. A number: so many are left, and too many."""
    out, status = output_of([program, "--most-files", most, "--print-schema", path])
    left = LEFT.search(out)
    if left:
        return int(left[1])
    out = re.sub(r"[^\n]*\n\Z", "", out) if status == 3 else out  # the last line says why it is refused
    found = [it for it in SECTION.finditer(out) if pathlib.Path(it[1]).is_file()]
    ends = [it.start() for it in found[1:]] + [len(out)]
    return {it[2] or "": out[it.end():end] for it, end in zip(found, ends)}


def written(texts, folder):
    """Writes the texts as files whose names have no folder. Returns the main one."""
    names = {name: f"f{number}.rnc" for number, name in enumerate(texts)}
    for name, text in texts.items():
        file = SchemaFile(names[name], text.encode())
        file.edits = [Edit(it.start, it.end, f'"{names[it.href]}"') for it in file.mentions]
        (folder / names[name]).write_text(file.copy(), encoding="utf-8")
    return folder / "f0.rnc"


def compare(program, path, counts):
    """Compares a schema with what is written of it in the fewest files, and in half of its files. Returns what differs; None: nothing."""
    whole = printed(program, path, 1000)
    form = form_of(path) if len(whole) > 1 else None
    if form is None:
        counts["of one file" if len(whole) < 2 else "refused by jing"] += 1
        return None
    fewest = printed(program, path, 1)
    for most in sorted({fewest if isinstance(fewest, int) else 1, max(len(whole) // 2, fewest if isinstance(fewest, int) else 1), len(whole) - 1}):
        texts = printed(program, path, most)
        if isinstance(texts, int):
            continue
        with tempfile.TemporaryDirectory() as folder:
            if form_of(written(texts, pathlib.Path(folder))) != form:
                return f"{path}: another form in {most} files"
        counts["the same"] += 1
    return None


def main():
    given = argparse.ArgumentParser(description=__doc__.splitlines()[0])
    given.add_argument("--program", default=TOP / "build/xml/rncv-xml", type=pathlib.Path)
    given.add_argument("paths", nargs="+", metavar="FOLDER|SCHEMA", type=pathlib.Path)
    given = given.parse_args()
    counts, faults = collections.Counter(), 0
    for path in (it for each in given.paths for it in (schemas_of(each) if each.is_dir() else [each])):
        fault = compare(given.program.absolute(), path, counts)
        if fault:
            faults += 1
            print(fault, flush=True)
    print(f"{', '.join(f'{count} {what}' for what, count in counts.items())}; {faults} differ")
    return 1 if faults else 0


if __name__ == "__main__":
    sys.exit(main())
