"""Reads the expected answers of the tests from the pages and the examples of the repository."""
import pathlib
import re
import sys

TOP = pathlib.Path(__file__).resolve().parents[3]
sys.path[:0] = [str(TOP / "programs/python"), str(TOP / "dev/check/clauses"), str(TOP / "programs/xml/converter")]

from clauses_test import PARTS, data, files  # noqa: E402

SERVED = re.compile(r"^\$ cd (?:examples|\.\.)/(\w+) && rncv valid ([^<\n]*) < document\.pyx\nvalid$", re.M)


def page(name):
    """The text of a page."""
    return (TOP / name).read_text(encoding="utf-8")


def clauses(group):
    """The clauses of a group in docs/use/CLAUSES.md: the number, the broken example and the repair."""
    return [(int(clause[1:]), broken, repair) for clause, broken, repair in PARTS.findall(page("docs/use/CLAUSES.md")) if clause[0] == group]


def schema_of(example):
    """The files of an example of a schema."""
    return dict(files(example))


def document_of(example):
    """The bytes of an example of a document."""
    return data(example)


def served():
    """The examples that are valid by docs/use/LANGUAGE.md: a folder, and the names of its files, the main one first."""
    return [(TOP / "examples" / folder, names.split()) for folder, names in SERVED.findall(page("docs/use/LANGUAGE.md"))]
