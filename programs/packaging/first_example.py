#!/usr/bin/env python3
"""Runs the first transcript of an unpacked package's README with the programs of that package alone.

    programs/packaging/first_example.py ROOT      (ROOT: the folder into which the package was unpacked)
"""
import importlib.util
import os
import pathlib
import shutil
import sys

TOP = pathlib.Path(__file__).resolve().parents[2]
PROGRAMS = ("rncv", "rncv-xml", "xml2pyx", "rncv-profile")


def transcripts():
    """The module that runs the transcripts of pages."""
    spec = importlib.util.spec_from_file_location("transcripts", TOP / "dev/check/transcripts/test.py")
    module = importlib.util.module_from_spec(spec)
    sys.modules["transcripts"] = module
    spec.loader.exec_module(module)
    return module


def main():
    root = pathlib.Path(sys.argv[1]).resolve()
    pages = transcripts()
    folder = root / "usr/share/doc/rncv"
    path = f"{root}/usr/bin:/usr/bin:/bin"
    for program in PROGRAMS:
        found = shutil.which(program, path=path)
        if found is None or not found.startswith(f"{root}/"):
            print(f"first_example.py: {program} is not that of the package, but {found}")
            return 1
    blocks = pages.blocks_of("README.md", (folder / "README.md").read_text(encoding="utf-8"))
    first = next((block for block in blocks if block.words[:1] == ["console"] and block.words[1:] != ["unrun"]), None)
    if first is None or not first.commands():
        print("first_example.py: README.md has no transcript")
        return 1
    for block in (block for block in blocks if block.is_file() and block.line < first.line):
        (folder / block.words[1]).parent.mkdir(parents=True, exist_ok=True)
        (folder / block.words[1]).write_text(block.text, encoding="utf-8")
    faults = list(pages.faults_of(first, folder, {"PATH": path, "LC_ALL": "C", "PYTHONDONTWRITEBYTECODE": "1"}))
    print("".join(faults) + f"first example, {first.place()}: {len(first.commands())} commands, {len(faults)} faults")
    return 1 if faults else 0


if __name__ == "__main__":
    os.environ.pop("RNCV_XML_PROGRAMS", None)
    sys.dont_write_bytecode = True
    sys.exit(main())
