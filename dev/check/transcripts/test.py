#!/usr/bin/env python3
"""Runs the transcripts of README.md and of the pages below docs, and compares their output with the pages.

    dev/check/transcripts/test.py [PROGRAM]      (PROGRAM: the built rncv, else crates/rncv/out/rncv)

Each fenced block of a page says what it is, in the words after its fence:

- `KIND FILE`, as in "rnc order.rnc": a file, written before the commands of the page run.
- `console`: a transcript. `sh` runs each line `$ COMMAND` (with its continuation lines `> ..`). The output on both streams must be the text below it. The
  command must end with status 0, unless the next command begins with `echo $?`.
- `console wants PROGRAM..`: the same, but skipped with a message if one of these programs is not installed.
- `console unrun`: commands that take too long for a test. They are reported, and not run.
- A word of ELSEWHERE: another script tests the block, or it is not an example.

A block without words is a fault. So is a block that has a line `$ ..` and is not a transcript. Thus no example is left untested by mistake. Each page has
its own copy of README.md, docs, examples, programs and dev, and each block begins at the top of the copy. There, crates/rncv/out/rncv is the built program. It
is on the path, and so are the programs in the folder that the variable RNCV_XML_PROGRAMS names: rncv-xml and xml2pyx.
"""
import dataclasses
import difflib
import os
import pathlib
import re
import shutil
import subprocess
import sys
import tempfile

TOP = pathlib.Path(__file__).resolve().parents[3]
COPIED = ("README.md", "docs", "examples", "programs", "dev")
BLOCK = re.compile(r"^```([^`\n]*)\n(.*?)^```$", re.M | re.S)
COMMAND = re.compile(r"^\$ (.*\n(?:> .*\n)*)((?:(?!\$ ).*\n)*)", re.M)
MARK = "-- this command ended with"
ELSEWHERE = {
    "broken": "dev/check/clauses/clauses_test.py",
    "repair": "dev/check/clauses/clauses_test.py",
    "recipe": "programs/xml/tests/recipes_test.py",
    "text": "not an example: grammars, drawings, forms of command lines",
}


@dataclasses.dataclass
class Block:
    """A fenced block: its page, the line of its fence, the words after the fence, and its text."""
    page: str
    line: int
    words: list
    text: str

    def place(self):
        return f"{self.page}:{self.line}"

    def is_file(self):
        return len(self.words) == 2 and self.words[0] not in ("console", *ELSEWHERE)

    def commands(self):
        """The commands, each with the output that the page has."""
        return [(command.replace("\n> ", "\n"), wanted) for command, wanted in COMMAND.findall(self.text)]

    def fault(self):
        """What is wrong with the block itself, if anything."""
        if not self.words:
            return "the block does not say what it is"
        if self.words[0] == "console":
            known = self.words[1:] in ([], ["unrun"]) or self.words[1:2] == ["wants"] and len(self.words) > 2
            return None if known and self.text.startswith("$ ") else "not a transcript: `console`, `console wants PROGRAM..` or `console unrun`"
        if re.search(r"^\$ ", self.text, re.M):
            return "the block has commands and is not a transcript"
        return None if self.is_file() or self.words[0] in ELSEWHERE and len(self.words) == 1 else f"no kind of block: {' '.join(self.words)}"

    def skipped(self):
        """Why the transcript is not run; None if it is run."""
        if self.words[1:] == ["unrun"]:
            return "it says so"
        lacking = [program for program in self.words[2:] if not shutil.which(program, path=search_path(built_xml()))]
        return f"not installed: {' '.join(lacking)}" if lacking else None


def built_xml():
    """The folders with programs that are built outside the copy."""
    folder = os.environ.get("RNCV_XML_PROGRAMS")
    return [os.path.abspath(folder)] if folder else []


def search_path(folders):
    """A value of PATH: these folders, and then those of the current PATH."""
    return os.pathsep.join([*map(str, folders), os.environ["PATH"]])


def blocks_of(page, text):
    """The fenced blocks of a page. If a fence belongs to no block, a block without words is added, which is a fault."""
    found = [Block(page, text.count("\n", 0, at.start()) + 1, at[1].split(), at[2]) for at in BLOCK.finditer(text)]
    fences = len(re.findall(r"^[ >]*(?:```|~~~)", text, re.M))
    return found + [Block(page, 1, [], "")] * (fences != 2 * len(found))


def scratch(folder, program):
    """Copies the files that the pages use, with the program where `rt ci` puts it. Returns the environment for the commands."""
    for name in COPIED:
        if (TOP / name).is_dir():
            shutil.copytree(TOP / name, folder / name, ignore=shutil.ignore_patterns("__pycache__"))
        else:
            shutil.copy(TOP / name, folder / name)
    built = folder / "crates/rncv/out"
    built.mkdir(parents=True)
    (built / "rncv").symlink_to(program)
    path = search_path([built, *built_xml(), folder / "programs/profile"])
    kept = {name: value for name, value in os.environ.items() if name not in ("RNCV", "RNCV_REQUIRED")}
    return {**kept, "PATH": path, "LC_ALL": "C", "PYTHONDONTWRITEBYTECODE": "1"}


def ran(commands, folder, environment):
    """The output and the status of each command, up to a command that did not end. That one has the status None."""
    reported = "told=$?; printf '\\n%s %s\\n' '" + MARK + "' \"$told\"; (exit \"$told\")\n"
    script = "exec 2>&1\n" + "".join(f"{command}{reported}" for command in commands)
    run = subprocess.run(["sh", "-c", script], cwd=folder, env=environment, stdin=subprocess.DEVNULL, stdout=subprocess.PIPE, timeout=60, check=False)
    parts = re.split(rf"\n{MARK} (\d+)\n", run.stdout.decode("utf-8", "replace"))
    found = list(zip(parts[::2], map(int, parts[1::2])))
    return found + [(parts[-1], None)] * (len(found) < len(commands))


def faults_of(block, folder, environment):
    """A text for each command that does not do what the transcript says."""
    commands = block.commands()
    followed = [command for command, _ in commands[1:]] + [""]
    for (command, wanted), (printed, status), after in zip(commands, ran([command for command, _ in commands], folder, environment), followed):
        if printed != wanted:
            yield f"{block.place()}: $ {command}" + "".join(difflib.unified_diff(wanted.splitlines(True), printed.splitlines(True), "page", "run"))
        elif status != 0 and not after.startswith("echo $?"):
            yield f"{block.place()}: $ {command}it ended with status {status}, and the page does not say so\n"


def tested(page, program):
    """Runs a page, prints the faults, and returns the numbers of commands and of faults."""
    blocks = blocks_of(page, (TOP / page).read_text(encoding="utf-8"))
    faults = [f"{block.place()}: {block.fault()}\n" for block in blocks if block.fault()]
    count = 0
    with tempfile.TemporaryDirectory(prefix="transcripts-") as room:
        folder = pathlib.Path(room)
        environment = scratch(folder, program)
        for block in (block for block in blocks if block.is_file()):
            (folder / block.words[1]).parent.mkdir(parents=True, exist_ok=True)
            (folder / block.words[1]).write_text(block.text, encoding="utf-8")
        for block in (block for block in blocks if block.words[:1] == ["console"] and not block.fault()):
            if block.skipped():
                print(f"{block.place()}: skipped: {block.skipped()}")
                continue
            faults += faults_of(block, folder, environment)
            count += len(block.commands())
    print("".join(faults) + f"{page}: {count} commands, {len(faults)} faults", flush=True)
    return count, len(faults)


def main():
    program = pathlib.Path(sys.argv[1] if len(sys.argv) > 1 else TOP / "crates/rncv/out/rncv").resolve()
    if not os.access(program, os.X_OK):
        print(f"transcripts: no program at {program}", file=sys.stderr)
        return 1
    pages = ["README.md", *sorted(str(path.relative_to(TOP)) for path in (TOP / "docs").rglob("*.md"))]
    found = [tested(page, program) for page in pages]
    print(f"transcripts: {sum(count for count, _ in found)} commands, {sum(faults for _, faults in found)} faults")
    return 1 if any(faults for _, faults in found) else 0


if __name__ == "__main__":
    sys.exit(main())
