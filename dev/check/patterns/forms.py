#!/usr/bin/env python3
"""Writes what jing says into `valid.txt` and `invalid.txt`, and compares both with the reader of `expressions.py`.

    dev/check/patterns/forms.py

The expressions and the productions of appendix F are written by hand; the third field is jing's: `taken`, or why it refuses the expression. A fourth one says
why jing differs, and is left as it is. The status is 1 if `expressions.py` says otherwise, if it names another production for one that is none, or if jing
differs without a reason. Without jing its field is left as it is.
"""
import pathlib
import sys

from expressions import NoExpression, parsed
from judges import Jing
from rows import head_of, rows_of, write_rows

HERE = pathlib.Path(__file__).resolve().parent


def faults(name, rows):
    """What differs: lines."""
    for text, production, theirs, *why in rows:
        try:
            parsed(text)
            found = ""
        except NoExpression as fault:
            found = str(fault.production)
        if bool(found) != (name == "invalid.txt") or (found and found != production):
            yield f"{name}: {text!a}: expressions.py says {f'production {found}' if found else 'an expression'}, and the file production {production}"
        if theirs and (theirs == "taken") != (name == "valid.txt") and not why:
            yield f"{name}: {text!a}: jing says {theirs}"


def main():
    jing, lines = Jing(), []
    is_asked = jing.is_installed()
    for name in ("valid.txt", "invalid.txt"):
        rows = rows_of(HERE / name)
        if is_asked:
            told = [it or "taken" for it in jing.expressions([row[0] for row in rows])]
            rows = [[row[0], row[1], theirs, *row[3:]] for row, theirs in zip(rows, told)]
            write_rows(HERE / name, head_of(HERE / name), rows)
        lines += faults(name, rows)
        differ = sum((row[2] == "taken") != (name == "valid.txt") for row in rows)
        print(f"{name}: {len(rows)} expressions, and jing differs in {differ}")
    for line in lines:
        print(line)
    return 1 if lines else 0


if __name__ == "__main__":
    sys.exit(main())
