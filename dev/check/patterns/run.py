#!/usr/bin/env python3
"""Compares what `rncv-xml --datatypes xml-schema` says of expressions and texts with `valid.txt`, `invalid.txt` and `texts.tsv`.

    dev/check/patterns/run.py [--program RNCV-XML]

The verdicts that count are those of `expressions.py`, and not jing's. Before that, the files are compared with it. The status is 1 if anything differs. If
`rncv-xml` is not there, or does not serve the facet, a line says so, and the files alone are compared.
"""
import argparse
import collections
import concurrent.futures
import os
import pathlib
import re
import subprocess
import sys
import tempfile

from expressions import NoExpression, matches, parsed
from judges import content, datatype, schema
from rows import rows_of

HERE = pathlib.Path(__file__).resolve().parent
TOP = HERE.parents[2]
SECONDS = 600
VERDICT = re.compile(r"^(\d+)\.xml(?::\d+:\d+)?: (valid|invalid)\b", re.M)


def is_expression(text):
    """Whether the second opinion has it for an expression."""
    try:
        parsed(text)
    except NoExpression:
        return False
    return True


def file_differences(forms, texts):
    """What the files say and expressions.py does not: lines."""
    for text, wanted in forms.items():
        if is_expression(text) != wanted:
            yield f"{text!a}: expressions.py says otherwise"
    for pattern, text, verdict, *_ in texts:
        if matches(pattern, text) != (verdict == "valid"):
            yield f"{pattern!a} and {text!a}: expressions.py says otherwise"


class Rncv:
    """`rncv-xml` with the larger set of datatypes."""

    def __init__(self, program, folder):
        self.words, self.folder = [str(program), "--datatypes", "xml-schema", "--no-ids", "-j", "1"], folder

    def ran(self, name, text, *documents):
        """What it prints of a schema and documents, and its status."""
        (self.folder / name).write_text(text, encoding="utf-8")
        run = subprocess.run([*self.words, "--all", name, *(["--", *documents] if documents else [])], cwd=self.folder, capture_output=True, timeout=SECONDS,
                             check=False)
        return run.stdout.decode("utf-8", "replace") + run.stderr.decode("utf-8", "replace"), run.returncode

    def expression(self, number, pattern):
        """Whether it takes a text as an expression; a line if it says anything else."""
        out, status = self.ran(f"{number}.rnc", f"element a {{ {datatype(pattern)} }}\n")
        return status == 0 if status == 0 or " S12 " in out else out.split("\n")[0] or f"status {status}"

    def texts(self, rows):
        """The verdicts on texts, by one schema with an element for each expression."""
        patterns = {pattern: number for number, pattern in enumerate(dict.fromkeys(row[0] for row in rows), 1)}
        for number, row in enumerate(rows):
            name = f"e{patterns[row[0]]}"
            (self.folder / f"{number}.xml").write_text(f"<all><{name}>{content(row[1])}</{name}></all>\n", encoding="utf-8")
        out, status = self.ran("texts.rnc", schema(list(patterns)), *(f"{number}.xml" for number in range(len(rows))))
        found = {int(number): verdict for number, verdict in VERDICT.findall(out)}
        return [found.get(number, f"no verdict ({out[:100]!a}, status {status})" if not found else "no verdict") for number in range(len(rows))]


def program_differences(rncv, forms, texts):
    """What the program says and the files do not: lines."""
    with concurrent.futures.ThreadPoolExecutor(2) as pool:
        told = list(pool.map(lambda it: rncv.expression(*it), enumerate(forms)))
    for (text, wanted), found in zip(forms.items(), told):
        if found != wanted:
            yield f"{text!a}: {({True: 'an expression', False: 'no expression'}).get(found, found)}, and the file says otherwise"
    for (pattern, text, verdict, *_), found in zip(texts, rncv.texts(texts)):
        if found != verdict:
            yield f"{pattern!a} and {text!a}: {found}, and the file says {verdict}"


def main():
    given = argparse.ArgumentParser(description=__doc__.splitlines()[0])
    given.add_argument("--program", default=TOP / "build/xml/rncv-xml", type=pathlib.Path)
    given = given.parse_args()
    forms = {row[0]: name == "valid.txt" for name in ("valid.txt", "invalid.txt") for row in rows_of(HERE / name)}
    forms.update((row[1], True) for row in rows_of(HERE / "real.txt"))
    texts = rows_of(HERE / "texts.tsv")
    lines, status = list(file_differences(forms, texts)), 0
    with tempfile.TemporaryDirectory(prefix="rncv-patterns-") as folder:
        rncv = Rncv(given.program.absolute(), pathlib.Path(folder))
        if not given.program.is_file():
            print(f"dev/check/patterns/run.py: no rncv-xml at {given.program}: expressions are not compared with it")
            status = 1 if os.environ.get("RNCV_REQUIRED") else 0
        elif rncv.expression("any", "a") is not True:
            print("dev/check/patterns/run.py: rncv-xml does not serve `pattern`: expressions are not compared with it")
        else:
            lines += program_differences(rncv, forms, texts)
    for line in lines:
        print(line)
    counts = collections.Counter(forms.values())
    print(f"patterns: {counts[True]} expressions, {counts[False]} that are none, {len(texts)} texts, {len(lines)} differ")
    return 1 if lines else status


if __name__ == "__main__":
    sys.exit(main())
