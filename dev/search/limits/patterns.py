#!/usr/bin/env python3
"""Measures what hostile expressions of the facet `pattern` cost `rncv-xml`, and jing, which has `java.util.regex`. It is not part of the gate.

    dev/search/limits/patterns.py [--program RNCV-XML] [--seconds N] [--only NAME] [--no-jing] [--write]

A row of `patterns.txt` is a name, an expression, a text, and whether the expression matches the text: `valid`, `invalid`, or `none` if it is no expression. A
fifth field is the clause by which rncv-xml refuses the schema, though it is an expression, and a sixth one says how often the facet is written. An expression
and a text are written as words with blanks between them. A word that ends in `^` and a number is repeated so often, `U+4E00-U+9FFF/2` is each second character
from one to another, with a `|` behind it these are alternatives, and `ab~9` is nine letters that are `a` or `b` by chance. So `(^3 a )*^3` is `(((a)*)*)*`.

rncv-xml judges the schema alone, and then the schema and a document. The milliseconds are those of these runs, of a processor, with their start. With jing
each row has a Java machine of its own, with its usual stack, and the milliseconds are those of its two calls. All are stopped after some seconds (20). It
prints a table of Markdown; with `--write` it is put into patterns.md here, behind the line that ends in `patterns.py --write -->`. Without jing
(libjing-java) or a JDK its cells are empty. The status is 1 if an answer is not that of the row.
"""
import argparse
import pathlib
import random
import re
import shutil
import subprocess
import sys
import tempfile

HERE = pathlib.Path(__file__).resolve().parent
TOP = HERE.parents[2]
sys.path += [str(TOP / "dev/bench"), str(TOP / "dev/check/patterns")]
from judges import content, literal  # noqa: E402  (the folders are known only here)
from measuring import Jing, took  # noqa: E402
from rows import rows_of, written  # noqa: E402

PAGE = HERE / "patterns.md"
MARK = re.compile(r"(patterns\.py --write -->\n\n).*\Z", re.S)
WORD = re.compile(r"(?P<piece>.+)\^(?P<count>\d+)|U\+(?P<low>[0-9A-F]+)-U\+(?P<high>[0-9A-F]+)/(?P<step>\d+)(?P<sign>\|?)|(?P<letters>\w+)~(?P<length>\d+)|"
                  r"(?P<once>.+)", re.S)
ANSWER = re.compile(r"(?:^|\n)(?:[^\n]*: (?P<clause>S\d+) |d\.xml(?::\d+:\d+)?: (?P<verdict>valid|invalid)\b)")
COLUMNS = ("Expression", "characters", "Text", "characters", "matches", "`rncv-xml`: the schema", "with the text", "jing: the expression", "the text")
MUCH = 32  # MiB that are shown


def made(words):
    """The text that words stand for."""
    parts = []
    for word in words.split():
        found = WORD.fullmatch(word)
        if found["piece"]:
            parts.append(found["piece"] * int(found["count"]))
        elif found["low"]:
            parts.append(found["sign"].join(map(chr, range(int(found["low"], 16), int(found["high"], 16) + 1, int(found["step"])))))
        elif found["letters"]:
            parts.append("".join(random.Random(word).choices(found["letters"], k=int(found["length"]))))
        else:
            parts.append(found["once"])
    return "".join(parts)


class Row:
    """A row of the file, and the expression and the text that it stands for."""

    def __init__(self, name, words, text_words, verdict, clause="", count=1):
        self.name, self.words, self.text_words, self.verdict = name, words, text_words, verdict
        self.clause, self.count = clause or ("S12" if verdict == "none" else ""), int(count)
        self.expression, self.text = made(words), made(text_words)

    def cells(self):
        times = f" {self.count:,} times" if self.count > 1 else ""
        return [shown(self.words) + times, f"{len(self.expression):,}", shown(self.text_words), f"{len(self.text):,}", self.verdict]


class Rncv:
    """`rncv-xml` with the larger set of datatypes, on one processor."""

    def __init__(self, program, folder, seconds):
        self.words, self.folder, self.seconds = [program, "--datatypes", "xml-schema", "-j", "1", "--all", "s.rnc"], folder, seconds

    def ran(self, row, *documents):
        """How a run is shown, and its answer: `taken`, a clause, a verdict, or how it ended."""
        run = took([*self.words, *documents], cwd=self.folder, seconds=self.seconds)
        if run.status is None:
            return "stopped", "stopped"
        found = ANSWER.search(run.printed)
        answer = found["clause"] or found["verdict"] if found else "taken" if run.status == 0 else f"status {run.status}"
        return f"{run.processor:,.1f} {answer}{f', {run.memory:.0f} MiB' if run.memory > MUCH else ''}", answer

    def told(self, row):
        """How both runs are shown, and what is wrong with the answers."""
        facets = f"pattern = {literal(row.expression)} " * row.count
        (self.folder / "s.rnc").write_text(f"element a {{ xsd:string {{ {facets}}} }}\n", encoding="utf-8")
        (self.folder / "d.xml").write_text(f"<a>{content(row.text)}</a>\n", encoding="utf-8")
        cells, answers = zip(self.ran(row), *([self.ran(row, "--", "d.xml")] if not row.clause else []))
        wanted = (row.clause,) if row.clause else ("taken", row.verdict)
        return [*cells, ""][:2], [] if answers == wanted else [f"{row.name}: rncv-xml: {', '.join(answers)}, and the row says {', '.join(wanted)}"]


class Machine:
    """The class that measures jing, compiled."""

    def __init__(self, folder, seconds):
        self.folder, self.jar, self.seconds = folder, Jing.installed(), seconds
        if self.is_ready():
            subprocess.run(["javac", "-cp", self.jar, "-d", str(folder), str(HERE / "PatternTimes.java")], check=True)

    def is_ready(self):
        return bool(self.jar and shutil.which("javac"))

    def printed(self, row):
        """What is printed of the expression and of the text: milliseconds and a word each; fewer if it was stopped."""
        for name, it in (("expression", row.expression), ("text", row.text)):
            (self.folder / name).write_bytes(it.encode())
        words = ["java", "-cp", f"{self.jar}:{self.folder}", "PatternTimes", "expression", "text", str(row.count)]
        with subprocess.Popen(words, cwd=self.folder, stdout=subprocess.PIPE, stderr=subprocess.DEVNULL, text=True) as child:
            try:
                out = child.communicate(timeout=self.seconds)[0]
            except subprocess.TimeoutExpired:
                child.kill()
                out = child.communicate()[0]
        return [line.split() for line in out.split("\n")[:-1]]

    def told(self, row):
        """How both calls are shown, and what is wrong with the answers."""
        found = self.printed(row)
        is_answered = found and found[-1][1] in ("refused", "valid", "invalid")
        wanted = {"none": "refused"}.get(row.verdict, row.verdict)
        wrong = [f"{row.name}: jing: {found[-1][1]}, and the row says {row.verdict}"] if is_answered and found[-1][1] != wanted else []
        return [cell(found, at) for at in range(2)], wrong


def cell(told, at):
    """How a time of jing is shown; empty if it was not come to."""
    if at < len(told):
        return f"{float(told[at][0]):,.1f} {told[at][1]}"
    return "stopped" if at == len(told) and (at == 0 or told[0][1] == "taken") else ""


def shown(words):
    """Words in a table."""
    return f"`{written(words)}`".replace("|", "\\|") if words else "empty"


def table(rows, judges):
    """The lines of the table, and those that say of an answer that it is not the one that the row says."""
    lines, differ = [f"| {' | '.join(COLUMNS)} |", "|---" * len(COLUMNS) + "|"], []
    print("\n".join(lines))
    for row in rows:
        cells = row.cells()
        for judge in judges:
            shown_cells, wrong = judge.told(row)
            cells += shown_cells
            differ += wrong
        lines.append(f"| {' | '.join([*cells, '', ''][:len(COLUMNS)])} |")
        print(lines[-1], flush=True)
    return lines, differ


def main():
    given = argparse.ArgumentParser(description=__doc__.splitlines()[0])
    given.add_argument("--program", default=TOP / "build/xml/rncv-xml", type=pathlib.Path)
    given.add_argument("--seconds", type=int, default=20)
    given.add_argument("--only", default="", metavar="NAME")
    given.add_argument("--no-jing", action="store_true")
    given.add_argument("--write", action="store_true")
    given = given.parse_args()
    if not given.program.is_file():
        print(f"patterns.py: no rncv-xml at {given.program}: programs/xml/build.sh builds it", file=sys.stderr)
        return 2
    rows = [Row(*row) for row in rows_of(HERE / "patterns.txt") if given.only in row[0]]
    with tempfile.TemporaryDirectory(prefix="rncv-patterns-") as folder:
        folder = pathlib.Path(folder)
        machine = Machine(folder, given.seconds) if not given.no_jing else None
        lines, differ = table(rows, [Rncv(given.program.absolute(), folder, given.seconds), *([machine] if machine and machine.is_ready() else [])])
    if given.write and not given.only:
        PAGE.write_text(MARK.sub(lambda found: found[1] + "\n".join(lines) + "\n", PAGE.read_text(encoding="utf-8")), encoding="utf-8")
    for line in differ:
        print(line)
    return 1 if differ else 0


if __name__ == "__main__":
    sys.exit(main())
