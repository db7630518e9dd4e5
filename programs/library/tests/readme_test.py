#!/usr/bin/env python3
"""Runs the programs on the pages about the library, and compares what they print with the pages.

    programs/library/tests/readme_test.py FOLDER      (FOLDER: where the library was built, with include and lib)

A program is a fenced block `c NAME` or `python NAME`, and must print the next block `text`. Those of C are compiled twice, with the shared
and the static library. Each runs in a folder of its own with `examples` and `programs` of this checkout. Programs that judge XML are left out if the library
for XML (programs/xml/library.sh) is not in FOLDER.
"""
import os
import pathlib
import re
import shlex
import subprocess
import sys
import tempfile

TOP = pathlib.Path(__file__).resolve().parents[3]
BLOCK = re.compile(r"^```([^`\n]*)\n(.*?)^```$", re.M | re.S)
WARNINGS = "-std=c11 -Wall -Wextra -Wconversion -Werror -pedantic".split()
KINDS = ("c", "python")


def programs(text):
    """The programs of a page: the kind, the name, the text, and what is printed."""
    blocks = [(found[1].split(), found[2]) for found in BLOCK.finditer(text)]
    for at, (words, program) in enumerate(blocks):
        if len(words) == 2 and words[0] in KINDS:
            printed = next((output for said, output in blocks[at + 1:] if said == ["text"]), None)
            yield words[0], words[1], program, printed


def pages():
    """The pages, each with its programs."""
    names = ["README.md", "docs/use/LIBRARY.md"]
    if not list(programs((TOP / "README.md").read_text(encoding="utf-8"))) and (TOP / "README_section.md").exists():
        names[0] = "README_section.md"
    return [(name, list(programs((TOP / name).read_text(encoding="utf-8")))) for name in names]


def is_for_xml(program):
    """Whether a program uses the library for XML."""
    return any(word in program for word in ("rncv_xml", "validate_xml", ".hint"))


def compiled(built, room, name, program):
    """The commands that run a program of C, by the library that it uses."""
    compiler = [*shlex.split(os.environ.get("CC", "cc")), *WARNINGS, "-O2", f"-I{built / 'include'}", name]
    # the old kind of path is also used for what a library needs
    shared = [f"-L{built / 'lib'}", f"-Wl,-rpath,{built / 'lib'},--disable-new-dtags"]
    libraries = {"shared": [*shared, "-lrncv"], "static": [str(built / "lib/librncv.a")]}
    if is_for_xml(program):
        private = re.search("^Libs.private: *(.*)$", (built / "lib/pkgconfig/rncv_xml.pc").read_text(), re.M)[1].split()
        libraries = {"shared": [*shared, "-lrncv_xml", "-lrncv"], "static": [str(built / "lib/librncv_xml.a"), *libraries["static"], *private]}
    for kind, words in libraries.items():
        subprocess.run([*compiler, "-o", f"{name}.{kind}", *words], cwd=room, check=True)
        yield kind, [str(room / f"{name}.{kind}")]


def faults(built, kind, name, program, printed):
    """A line for each way in which a program does not print what the page says."""
    if printed is None:
        yield "no block `text` follows it"
        return
    environment = {**os.environ, "RNCV_LIBRARY": str(built / "lib/librncv.so"), "PYTHONPATH": str(TOP / "programs/python"), "PYTHONDONTWRITEBYTECODE": "1"}
    with tempfile.TemporaryDirectory(prefix="readme-") as folder:
        room = pathlib.Path(folder)
        for part in ("examples", "programs"):
            (room / part).symlink_to(TOP / part)
        (room / name).write_text(program, encoding="utf-8")
        for way, words in compiled(built, room, name, program) if kind == "c" else [("python", [sys.executable, name])]:
            run = subprocess.run(words, cwd=room, env=environment, capture_output=True, text=True, timeout=60, check=False)
            if (run.stdout, run.stderr, run.returncode) != (printed, "", 0):
                yield f"{way}: it ended with status {run.returncode} and printed\n{run.stdout}{run.stderr}and the page has\n{printed}"


def main():
    if len(sys.argv) != 2:
        sys.exit(__doc__)
    built = pathlib.Path(sys.argv[1]).resolve()
    count, left_out, found = 0, 0, []
    has_xml = (built / "lib/librncv_xml.so").exists()
    for page, all_programs in pages():
        kinds = {kind for kind, *_ in all_programs}
        found += [f"{page}: it has no program of {kind}" for kind in KINDS if kind not in kinds]
        for kind, name, program, printed in all_programs:
            if is_for_xml(program) and not has_xml:
                left_out += 1
                continue
            count += 1
            found += [f"{page}: {name}: {fault}" for fault in faults(built, kind, name, program, printed)]
    if left_out:
        print(f"readme_test: {left_out} programs are left out: no library for XML in {built}")
    print("\n".join(found) or f"readme_test: {count} programs: ok")
    return 1 if found else 0


if __name__ == "__main__":
    sys.exit(main())
