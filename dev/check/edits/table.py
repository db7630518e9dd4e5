#!/usr/bin/env python3
"""Writes what trying the edits of a crate gave, as a row of the table of a page. run.sh calls it.

    dev/check/edits/table.py PAGE CRATE DATE COMMIT < LINES

LINES has a line `CRATE/EDIT: RESULT` for each edit, in the words of rt. The row replaces that of the crate, or is added in the order of the names. The
table is found by the line of its head. Status 1, with a message, if the page has none.
"""
import collections
import pathlib
import sys

HEAD = "| Crate | Date | Commit | Edits | Refused | by a name alone | by a limit alone | Not refused | Not tried |"
REFUSED = "refused, as it must be"


def kind(result):
    """The column of a result, besides that of all edits. A refusal that says less of the contract counts in its own column too."""
    if not result.startswith(REFUSED):
        return ["not refused" if result.startswith("NOT REFUSED") else "not tried"]
    return ["refused"] + ["names"] * result.startswith(f"{REFUSED} (only because") + ["limit"] * result.startswith(f"{REFUSED} (only by a limit")


def row(crate, date, commit, lines):
    results = [line.split(": ", 1)[1] for line in lines if line.startswith(f"{crate}/") and ": " in line]
    count = collections.Counter(word for result in results for word in kind(result))
    numbers = [len(results)] + [count[word] for word in ("refused", "names", "limit", "not refused", "not tried")]
    return "| " + " | ".join([f"`{crate}`", date, f"`{commit}`", *map(str, numbers)]) + " |"


def with_row(page, crate, new):
    """The page with this row for the crate; None if it has no such table."""
    lines = page.split("\n")
    if HEAD not in lines:
        return None
    begin = lines.index(HEAD) + 2
    end = begin
    while end < len(lines) and lines[end].startswith("|"):
        end += 1
    rows = [line for line in lines[begin:end] if not line.startswith(f"| `{crate}` |")]
    return "\n".join(lines[:begin] + sorted([*rows, new]) + lines[end:])


def main(words):
    if len(words) != 4:
        print("dev/check/edits/table.py: wants PAGE CRATE DATE COMMIT", file=sys.stderr)
        return 1
    path, crate, date, commit = words
    try:
        page = pathlib.Path(path).read_text(encoding="utf-8")
        page = with_row(page, crate, row(crate, date, commit, sys.stdin.read().splitlines()))
        if page is None:
            print(f"dev/check/edits/table.py: {path} has no line: {HEAD}", file=sys.stderr)
            return 1
        pathlib.Path(path).write_text(page, encoding="utf-8")
    except OSError as error:
        print(f"dev/check/edits/table.py: {path}: {error.strerror}", file=sys.stderr)
        return 1
    return 0


if __name__ == "__main__":
    sys.exit(main(sys.argv[1:]))
