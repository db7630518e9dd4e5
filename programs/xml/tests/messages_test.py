"""What `rncv-xml` says of documents with one fault each, beside what jing says. `messages.tsv` has a row for each: the document, where `H` is a good head, `C` a
good chapter, and `{..}` a chapter with this content; the message of `rncv-xml`; that of jing; and the names that jing has and ours has not, with why.

    python3 -B messages_test.py --write     writes the messages of both into the table
"""
import csv
import pathlib
import re
import shutil
import subprocess
import sys
import tempfile
import unittest

from testing import RNCV_XML

HERE = pathlib.Path(__file__).resolve().parent
SCHEMA, TABLE = HERE / "messages.rnc", HERE / "messages.tsv"
HEAD = "<head><title>t</title><author>a</author></head>"
JING_LINE = re.compile(r"(?P<file>.*):\d+:\d+: (?:error|fatal): (?P<message>.*)")
CHAPTER = '<chapter id="c"><title>t</title><para>p</para></chapter>'


def document(written):
    """The document of a row."""
    inner = re.fullmatch(r"\{(.*)\}", written)
    text = f'<book>H<chapter id="c"><title>t</title>{inner[1]}</chapter></book>' if inner else written
    return text.replace("H", HEAD).replace("C", CHAPTER)


def rows():
    with open(TABLE, encoding="utf-8", newline="") as file:
        return [row + [""] * (4 - len(row)) for row in csv.reader(file, delimiter="\t", quoting=csv.QUOTE_NONE)]


def messages_of(folder, names):
    """What both programs say first of each document."""
    ours = subprocess.run([RNCV_XML, SCHEMA, *names], cwd=folder, capture_output=True, check=False).stdout.decode("utf-8").splitlines()
    found = {name: [next((line.split(": ", 1)[1] for line in ours if line.startswith(name + ":")), ""), ""] for name in names}
    if shutil.which("jing"):
        theirs = subprocess.run(["jing", "-c", SCHEMA, *names], cwd=folder, capture_output=True, check=False).stdout.decode("utf-8").splitlines()
        for told in filter(None, map(JING_LINE.fullmatch, reversed(theirs))):
            found[pathlib.Path(told["file"]).name][1] = told["message"]
    return [found[name] for name in names]


def names_in(message):
    """The names that a message of jing tells."""
    return {name.removeprefix("ns:") for name in re.findall(r'"([^"\s]+)"', message)}


class Messages(unittest.TestCase):
    """Each row."""

    def test_rows(self):
        with tempfile.TemporaryDirectory() as folder:
            names = [f"{at}.xml" for at in range(len(rows()))]
            for name, row in zip(names, rows()):
                (pathlib.Path(folder) / name).write_text(document(row[0]), encoding="utf-8")
            for row, (ours, theirs) in zip(rows(), messages_of(folder, names)):
                self.assertEqual(ours, row[1], row[0])
                self.assertIn(theirs, ("", row[2]), row[0])

    def test_names(self):
        """Ours has the names of jing's, but for those that the row lists."""
        self.assertGreaterEqual(len(rows()), 40)
        for written, ours, theirs, missing in rows():
            lacking = {name for name in names_in(theirs) if not re.search(rf"(?<![\w.-]){re.escape(name)}(?![\w.-])", ours)}
            self.assertEqual(lacking, set(missing.split(":")[0].split()), written)


def write():
    with tempfile.TemporaryDirectory() as folder:
        names = [f"{at}.xml" for at in range(len(rows()))]
        for name, row in zip(names, rows()):
            (pathlib.Path(folder) / name).write_text(document(row[0]), encoding="utf-8")
        told = messages_of(folder, names)
    lines = ["\t".join([row[0], ours, theirs or row[2], row[3]]) for row, (ours, theirs) in zip(rows(), told)]
    TABLE.write_text("\n".join(lines) + "\n", encoding="utf-8")


if __name__ == "__main__":
    write() if "--write" in sys.argv else unittest.main(verbosity=1)
