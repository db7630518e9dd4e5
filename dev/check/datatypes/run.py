#!/usr/bin/env python3
"""Judges texts of datatypes by `rncv-xml --datatypes xml-schema`, and lists what differs from the verdicts in a table.

    dev/check/datatypes/run.py [--program RNCV-XML] [TABLE.tsv]

A row of the table is a line of the document that the verdict is from, a pattern of the compact syntax, a text as XML, the verdict (`valid` or `invalid`), and,
if rncv-xml says otherwise, a word for the reason (docs/use/LANGUAGE.md). The table is `values.tsv` here, with the verdicts of jing, if none is named. The
status is 1 if a row has another verdict and no reason, or a reason and the same verdict, or if the schema of a pattern is refused: those patterns are listed.
"""
import argparse
import collections
import concurrent.futures
import dataclasses
import os
import pathlib
import re
import subprocess
import sys
import tempfile

TOP = pathlib.Path(__file__).resolve().parents[3]
PAGE = TOP / "docs/use/LANGUAGE.md"
PREFIXES = 'namespace x = "u"\nnamespace y = "u"\n'
SECONDS = 100


@dataclasses.dataclass(frozen=True)
class Row:
    """A text, its datatype as a pattern, what the table says of it, and why rncv-xml says otherwise (empty: it says the same)."""
    pattern: str
    text: str
    verdict: str
    why: str = ""


def rows_of(table):
    """The rows of a table."""
    lines = [line for line in pathlib.Path(table).read_text(encoding="utf-8").split("\n") if line and not line.startswith("#")]
    return [Row(*(line.split("\t")[1:] + [""])[:4]) for line in lines]


def verdicts_of(program, pattern, texts):
    """The verdict on each text, or the line that refuses the schema of the pattern."""
    with tempfile.TemporaryDirectory(prefix="rncv-datatypes-") as folder:
        folder = pathlib.Path(folder)
        (folder / "s.rnc").write_text(f"{PREFIXES}element t {{ {pattern} }}\n", encoding="utf-8")
        for number, text in enumerate(texts):
            (folder / f"{number}.xml").write_text(f'<t xmlns:x="u" xmlns:y="u">{text}</t>\n', encoding="utf-8")
        words = [str(program), "--datatypes", "xml-schema", "--no-ids", "-j", "1", "--all", "s.rnc", "--", *(f"{number}.xml" for number in range(len(texts)))]
        run = subprocess.run(words, cwd=folder, capture_output=True, timeout=SECONDS, check=False)
    out = run.stdout.decode("utf-8", "replace")
    if run.returncode not in (0, 1):
        return out.split("\n")[0] or run.stderr.decode("utf-8", "replace").split("\n")[0] or f"status {run.returncode}"
    found = dict(re.findall(r"^(\d+)\.xml(?::\d+:\d+)?: (valid|invalid)\b", out, re.M))
    return [found.get(str(number), "no verdict") for number in range(len(texts))]


def compared(program, rows):
    """What is not as the table says: lines, the number of rows that have a verdict, and those with a reason by reason."""
    texts = collections.defaultdict(list)
    for row in rows:
        texts[row.pattern].append(row)
    with concurrent.futures.ThreadPoolExecutor(2) as pool:
        found = list(pool.map(lambda pattern: verdicts_of(program, pattern, [row.text for row in texts[pattern]]), texts))
    lines, judged, reasons = [], 0, collections.Counter()
    for pattern, verdicts in zip(texts, found):
        if isinstance(verdicts, str):
            lines.append(f"{pattern}: not served: {verdicts}")
            continue
        judged += len(verdicts)
        for row, verdict in zip(texts[pattern], verdicts):
            differs = verdict != row.verdict
            reasons[row.why] += differs
            if differs != bool(row.why):
                lines.append(f"{pattern} '{row.text}': {verdict}, and the table says {row.verdict}{' and ' * bool(row.why)}{row.why}")
    return lines, judged, reasons


def main():
    given = argparse.ArgumentParser(description=__doc__.splitlines()[0])
    given.add_argument("--program", default=TOP / "build/xml/rncv-xml", type=pathlib.Path)
    given.add_argument("table", nargs="?", default=pathlib.Path(__file__).with_name("values.tsv"), type=pathlib.Path)
    given = given.parse_args()
    if not given.program.is_file():
        print(f"dev/check/datatypes/run.py: no rncv-xml at {given.program}: texts of datatypes are not compared")
        return 1 if os.environ.get("RNCV_REQUIRED") else 0
    rows = rows_of(given.table)
    lines, judged, reasons = compared(given.program.absolute(), rows)
    page = PAGE.read_text(encoding="utf-8")
    lines += [f"{why}: {PAGE.name} does not say why" for why in sorted({row.why for row in rows if row.why}) if f"| `{why}` |" not in page]
    for line in lines:
        print(line)
    known = ", ".join(f"{count} {why}" for why, count in sorted(reasons.items()) if why and count)
    print(f"{given.table.name}: {len(rows)} rows, {judged} judged, {sum(reasons.values())} differ{f' ({known})' * bool(known)}")
    return 1 if lines or not judged else 0


if __name__ == "__main__":
    sys.exit(main())
