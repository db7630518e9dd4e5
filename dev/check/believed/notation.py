#!/usr/bin/env python3
"""Checks docs/proof/NOTATION.md against the believed files.

    dev/check/believed/notation.py [TOP]      (TOP: a checkout, else the one of this file)

The first column of its tables has each word of the kit that a believed file imports, and each word of the language that is in one. A sign `◌∷◌` is there
as `∷`. Each row has one of these words: a row for a word that is no longer used has to go. The closure of run.py says which files are believed. The page
also has the words of the definitions for calls to come, which no contract cites yet.
"""
import pathlib
import re
import sys

sys.dont_write_bytecode = True
from run import HERE, judged  # noqa: E402
from texts import imports, is_file  # noqa: E402

PAGE = "docs/proof/NOTATION.md"
TO_COME = ("xml_model",)
LANGUAGE = ("→", "×", "λ", "¬", "⊥", "Unit", "tt", "Type", "abbrev", "unfoldable", "opaque", "data", "record", "where", "mutual", "module", "pub", "use", "as",
            "let", "in", "elim", "open", "unfolding", "infix", "infixl", "infixr", "absurd", "refl")
TOKEN = re.compile(r"[^\s(){}\[\],.\"`]+|\[\]")


def words_of(crates, file):
    """The words of the kit and of the language that are in a file of specs."""
    text = re.sub(r'"[^"]*"', '""', crates.text(file))
    found = set(LANGUAGE) & set(TOKEN.findall(text))
    for module, names in imports(text):
        if not crates.is_crate(module.split(".")[0]):
            found.update(part for name in names for part in name.split("◌") if part)
    return found


def rows_of(page):
    """The rows of the tables of the page: the line's number, and the words that are written as code in the first column."""
    for number, line in enumerate(page.splitlines(), 1):
        if line.startswith("| `"):
            first = re.split(r"(?<!\\)\|", line)[1].replace("\\|", "|")
            yield number, {word for code in re.findall(r"`([^`]+)`", first) for word in TOKEN.findall(code)}


def faults(words, page):
    """The words, each with a file that has it, that the page lacks, and the rows of the page without any of them."""
    rows = list(rows_of(page))
    explained = set().union(*(row for _, row in rows))
    for word in sorted(set(words) - explained):
        yield f"{PAGE} lacks `{word}` of {words[word]}"
    for number, row in rows:
        if not row & set(words):
            yield f"{PAGE}:{number}: no believed file has a word of this row"


def files_to_come(top):
    """The files of definitions that no contract cites yet."""
    return sorted(str(file.relative_to(top)) for crate in TO_COME for file in (top / "crates" / crate / "specs").rglob("*.antt"))


def believed_words(top):
    """The words of the believed files of a checkout, and of those for calls to come, each with the first file that has it."""
    closure = judged(top, HERE)[0]
    found = {}
    for file in [*sorted(filter(is_file, closure.parent)), *files_to_come(closure.crates.top)]:
        for word in words_of(closure.crates, file):
            found.setdefault(word, file)
    return found


def main(arguments):
    if {"-h", "--help"}.intersection(arguments):
        print(__doc__.strip())
        return 0
    top = pathlib.Path(arguments[0]) if arguments else HERE.parents[2]
    words = believed_words(top)
    found = list(faults(words, (top / PAGE).read_text(encoding="utf-8")))
    print("\n".join(found) or f"notation: {len(words)} words: ok")
    return 1 if found else 0


if __name__ == "__main__":
    sys.exit(main(sys.argv[1:]))
