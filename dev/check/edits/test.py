#!/usr/bin/env python3
"""Checks that each edit of crates/NAME/must-fail and crates/NAME/edits can be applied.

    dev/check/edits/test.py [TOP]      (TOP: a checkout, else the one of this file)

The gate reads must-fail/ only. Without this check, nobody would notice an edit of edits/ that no longer fits its file. An edit has a line `file: PATH`,
and then pairs of lines `old: TEXT` and `new: TEXT`. Each old text must be in that file exactly once, after the pairs above it. Each fault is printed as
one line, and the exit status is then 1. The script first checks that it finds a planted fault, and that table.py writes a row by the results of rt.
"""
import pathlib
import sys
import tempfile

sys.dont_write_bytecode = True
sys.path.insert(0, str(pathlib.Path(__file__).resolve().parent))
import table  # noqa: E402


def fault(edit, crate):
    """Returns why the edit cannot be applied to the crate, or None."""
    path, old, pairs, texts = "", "", 0, {}
    for line in edit.read_text(encoding="utf-8").split("\n"):
        word, _, rest = line.partition(":")
        rest = rest.removeprefix(" ")
        if word == "file":
            path = rest.strip()
            if not path.startswith(("src/", "specs/", "proofs/")) or not (crate / path).is_file():
                return f"there is no file {path} of src, specs or proofs"
            texts.setdefault(path, (crate / path).read_text(encoding="utf-8"))
        elif word == "old":
            old = rest
        elif word == "new":
            if not path or not old:
                return "a line `new:` is before any `file:` or `old:`"
            found = texts[path].count(old)
            if found != 1:
                return f"{path} has an old text {found} times: {old}"
            texts[path], old, pairs = texts[path].replace(old, rest), "", pairs + 1
    return None if pairs else "it has no pair of lines `old:` and `new:`"


def faults(top):
    """Returns a line for each edit of a checkout that cannot be applied, and the number of edits."""
    edits = sorted(edit for folder in ("must-fail", "edits") for edit in top.glob(f"crates/*/{folder}/*.edit"))
    found = [(edit, fault(edit, edit.parents[1])) for edit in edits]
    return [f"{edit.relative_to(top)}: {why}" for edit, why in found if why], len(edits)


def finds_a_planted_fault():
    """Returns whether an edit with a missing text is reported, and an edit with an existing text is not."""
    with tempfile.TemporaryDirectory() as room:
        crate = pathlib.Path(room, "crates", "a")
        for folder in ("src", "edits"):
            (crate / folder).mkdir(parents=True)
        (crate / "src" / "lib.rt").write_text("one\ntwo\n", encoding="utf-8")
        (crate / "edits" / "good.edit").write_text("file: src/lib.rt\nold: one\nnew: three\nold: three\nnew: four\n", encoding="utf-8")
        (crate / "edits" / "moved.edit").write_text("file: src/lib.rt\nold: five\nnew: six\n", encoding="utf-8")
        found, number = faults(pathlib.Path(room))
        return number == 2 and len(found) == 1 and found[0].startswith("crates/a/edits/moved.edit")


def writes_rows():
    """Returns whether a row is replaced, another one added in its place, and a page without the table left alone."""
    reported = ["b/one: refused, as it must be: src/lib.rt:1:1: error", "b/two: refused, as it must be (only because a proof file names it): proofs/A.antt",
            "b/three: refused, as it must be (only by a limit of the prover)", "b/four: NOT REFUSED: it is still proved", "b/five: NOT TRIED: killed"]
    new = table.row("b", "2026-01-02", "12345678", reported)
    page = f"text\n\n{table.HEAD}\n|---|\n| `a` | old |\n| `b` | old |\n| `c` | old |\n\nmore\n"
    return (new == "| `b` | 2026-01-02 | `12345678` | 5 | 3 | 1 | 1 | 1 | 1 |"
            and table.with_row(page, "b", new) == page.replace("| `b` | old |", new)
            and table.with_row(page.replace("| `b` | old |\n", ""), "b", new) == page.replace("| `b` | old |", new)
            and table.with_row("no table\n", "b", new) is None)


def main(words):
    top = pathlib.Path(words[0] if words else pathlib.Path(__file__).resolve().parents[3]).resolve()
    if not finds_a_planted_fault():
        print("dev/check/edits: a planted fault is not found")
        return 1
    if not writes_rows():
        print("dev/check/edits: table.py does not write the row of a crate")
        return 1
    found, number = faults(top)
    reported = f"{len(found)} of {number} edits cannot be applied" if found else f"{number} edits can be applied"
    print("\n".join([*found, f"dev/check/edits: {reported}"]))
    return 1 if found else 0


if __name__ == "__main__":
    sys.exit(main(sys.argv[1:]))
