"""Files of rows, as the programs of cases have them: a row a line, fields with tabs between them, and lines that begin with `#` are no rows.

In a field `%` with two hexadecimal digits is a byte of UTF-8. So written are `%`, what is not printable ASCII, a blank at an end of a field, and a `#` at the
beginning. All else is as it is.
"""
import pathlib
import re
import urllib.parse

HOW = "In a field `%` with two hexadecimal digits is a byte of UTF-8 (rows.py)."
WRITTEN = re.compile(r"[^ -~]|%|^[ #]| $", re.S)


def written(field):
    """A field as it is in a file."""
    return WRITTEN.sub(lambda found: "".join(f"%{byte:02X}" for byte in found[0].encode()), field)


def read(field):
    """A field of a file as it is meant."""
    return urllib.parse.unquote_to_bytes(field).decode()


def rows_of(path):
    """The rows of a file, as lists of fields."""
    lines = pathlib.Path(path).read_text(encoding="utf-8").split("\n")
    return [[read(field) for field in line.split("\t")] for line in lines if line and not line.startswith("#")]


def write_rows(path, head, rows):
    """Writes a file: lines of comment, and rows."""
    lines = [*(f"# {line}" for line in head), *("\t".join(map(written, row)) for row in rows)]
    pathlib.Path(path).write_text("".join(f"{line}\n" for line in lines), encoding="utf-8")


def head_of(path):
    """The lines of comment at the beginning of a file."""
    found = []
    for line in pathlib.Path(path).read_text(encoding="utf-8").split("\n"):
        if not line.startswith("# "):
            break
        found.append(line[2:])
    return found
