#!/usr/bin/env python3
"""Runs the two programs of README.md "In your program", by the commands that the page has below them, where rncv is installed.

    programs/packaging/judge_example.py README.md HOME          (behind `make install PREFIX=HOME/.local`)
    programs/packaging/judge_example.py README.md HOME ROOT     (behind the Debian package, which was unpacked into the folder ROOT)

The commands run as they are on the page, in an empty folder, with HOME and PATH alone in the environment. The Debian package needs no command that sets
variables: that command is left out. Since ROOT is not the root of the system, the compiler, the linker, pkg-config and Python are told by variables where
the places are that they would search by themselves.
"""
import importlib.util
import os
import pathlib
import sys
import tempfile

TOP = pathlib.Path(__file__).resolve().parents[2]
NAMES = ("judge.c", "judge.py")


def transcripts():
    """The module that runs the transcripts of pages."""
    spec = importlib.util.spec_from_file_location("transcripts", TOP / "dev/check/transcripts/test.py")
    module = importlib.util.module_from_spec(spec)
    sys.modules["transcripts"] = module
    spec.loader.exec_module(module)
    return module


def only(found, what):
    """The only one of the things found."""
    if len(found) != 1:
        sys.exit(f"judge_example.py: README.md has {len(found)} times {what}, and not once")
    return found[0]


def parts_of(blocks):
    """The files of the page by their names, what each program prints, and the block of commands."""
    files = {name: only([block for block in blocks if block.words[1:] == [name]], name) for name in NAMES}
    last = max(block.line for block in files.values())
    printed = next((block.text for block in blocks if block.words == ["text"] and block.line > last), None)
    if printed is None:
        sys.exit("judge_example.py: no block `text` follows the programs")
    commands = only([block for block in blocks if block.words[:1] == ["console"] and "judge." in block.text], "commands for judge.c and judge.py")
    return {name: block.text for name, block in files.items()}, printed, commands


def environment_of(home, root):
    """The variables for the commands."""
    environment = {"HOME": home, "PATH": "/usr/bin:/bin", "LC_ALL": "C", "PYTHONDONTWRITEBYTECODE": "1"}
    if root is None:
        return environment
    lib = next(iter(sorted(root.glob("usr/lib/**/librncv.so"))), None)
    if lib is None:
        sys.exit(f"judge_example.py: there is no librncv.so in {root}/usr/lib")
    folder = str(lib.parent)
    return {
        **environment, "CPATH": f"{root}/usr/include", "LIBRARY_PATH": folder, "LD_LIBRARY_PATH": folder,
        "PKG_CONFIG_PATH": f"{folder}/pkgconfig", "PYTHONPATH": f"{root}/usr/lib/python3/dist-packages",
    }


def main():
    if len(sys.argv) not in (3, 4):
        sys.exit(__doc__)
    page, home = pathlib.Path(sys.argv[1]), sys.argv[2]
    root = pathlib.Path(sys.argv[3]).resolve() if len(sys.argv) == 4 else None
    pages = transcripts()
    files, printed, block = parts_of(pages.blocks_of("README.md", page.read_text(encoding="utf-8")))
    commands = [command for command, _ in block.commands() if root is None or not command.startswith("export ")]
    with tempfile.TemporaryDirectory(prefix="judge-") as folder:
        for name, text in files.items():
            pathlib.Path(folder, name).write_text(text, encoding="utf-8")
        found = pages.ran(commands, folder, environment_of(home, root))
    wanted = [("" if command.startswith("export ") else printed, 0) for command in commands]
    if found == wanted and sum("judge." in command for command in commands) == len(NAMES):
        print(f"judge.c and judge.py, {block.place()}: {len(commands)} commands, 0 faults")
        return 0
    for command, did, want in zip(commands, found, wanted):
        if did != want:
            print(f"{block.place()}: $ {command}It ended with status {did[1]} and printed\n{did[0]}and the page has\n{want[0]}")
    return 1


if __name__ == "__main__":
    os.environ.pop("RNCV_LIBRARY", None)
    sys.dont_write_bytecode = True
    sys.exit(main())
