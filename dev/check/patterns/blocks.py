#!/usr/bin/env python3
"""Compares the table of blocks, `crates/rng_model/specs/regexes/Blocks.antt`, with other tables, as far as they are installed.

    dev/check/patterns/blocks.py

These are those of Python's `elementpath` (package python3-elementpath), which are for XML Schema 1.0 too; Unicode's `Blocks.txt` (package unicode-data), which
is of a later version, with the blanks in its names left out; and jing's, which is asked whether the characters at the ends of each range are in the block, and
those beside them. What differs for a reason is in a table here, and counted. The status is 1 if anything else differs, or if something of that table does not.
"""
import ast
import importlib.util
import pathlib
import sys

from expressions import blocks, holds, union
from judges import Jing
from texts import XML

ELEMENTPATH = "elementpath/regex/unicode_subsets.py"
UNICODE = pathlib.Path("/usr/share/unicode/Blocks.txt")
PYTHON = pathlib.Path("/usr/lib/python3/dist-packages")
# what differs, and why
SURROGATES = "surrogates are no characters: the standard leaves these blocks out (F.1.1, behind the table)"
LATER = "Unicode gave it another range later"
RENAMED = "Unicode gave it another name later"
KNOWN = {
    "elementpath": {"HighSurrogates": SURROGATES, "HighPrivateUseSurrogates": SURROGATES, "LowSurrogates": SURROGATES,
                    "PrivateUse": "it has all characters from F0000 to 10FFFF"},
    "Blocks.txt": {"Greek": RENAMED, "CombiningMarksforSymbols": RENAMED, "PrivateUse": RENAMED,
                   **dict.fromkeys(("ArabicPresentationForms-B", "CJKUnifiedIdeographsExtensionA", "CJKUnifiedIdeographsExtensionB", "HangulSyllables",
                                    "Specials"), LATER)},
    "jing": dict.fromkeys(("ArabicPresentationForms-B", "CJKUnifiedIdeographsExtensionA", "HangulSyllables", "Specials"), LATER),
}


def elementpath_table():
    """The table of elementpath, read from its text; None if it is not installed."""
    found = importlib.util.find_spec("elementpath")
    path = next((it for it in (pathlib.Path(found.origin).parents[1] if found else PYTHON, PYTHON) if (it / ELEMENTPATH).is_file()), None)
    if not path:
        return None
    tree = ast.parse((path / ELEMENTPATH).read_text(encoding="utf-8"))
    rows = next(it.value for it in tree.body if isinstance(it, ast.Assign) and it.targets[0].id == "UNICODE_BLOCKS")
    table = {}
    for key, value in zip(rows.keys, rows.values):
        text, ranges = value.args[0].value, []
        while text:
            size = 3 if text[1:2] == "-" else 1
            ranges.append((ord(text[0]), ord(text[size - 1])))
            text = text[size:]
        table[key.value.removeprefix("Is")] = union(ranges)
    return table


def unicode_table():
    """The blocks of Unicode that have names of the table; None if it is not installed."""
    if not UNICODE.is_file():
        return None
    rows = [line.split("; ") for line in UNICODE.read_text(encoding="utf-8").splitlines() if line and not line.startswith("#")]
    table = {name.replace(" ", ""): (tuple(int(end, 16) for end in ends.split("..")),) for ends, name in rows}
    return {name: ranges for name, ranges in table.items() if name in blocks()}


def probes(ranges):
    """Characters of XML at the ends of ranges and beside them."""
    return sorted({code for low, high in ranges for code in (low - 1, low, high, high + 1) if holds(XML, code)})


def jing_differences():
    """The blocks of which jing says otherwise, with characters; None if it is not installed."""
    jing = Jing()
    if not jing.is_installed():
        return None
    refused = {name for name, fault in zip(blocks(), jing.expressions([f"\\p{{Is{name}}}" for name in blocks()])) if fault}
    rows = [(name, code) for name, ranges in blocks().items() if name not in refused for code in probes(ranges)]
    verdicts = jing.texts([(f"\\p{{Is{name}}}", chr(code)) for name, code in rows])
    found = dict.fromkeys(refused, "refused")
    for (name, code), verdict in zip(rows, verdicts):
        if (verdict == "valid") != holds(blocks()[name], code):
            found[name] = f"{found.get(name, '')} U+{code:04X} {verdict}".strip()
    return found


def table_differences(table):
    """The blocks of which a table says otherwise; None if there is none."""
    def shown(ranges):
        return " ".join(f"{low:04X}-{high:04X}" for low, high in ranges) if ranges else "missing"
    if table is None:
        return None
    return {name: f"{shown(table.get(name))}, and here {shown(blocks().get(name))}" for name in {**blocks(), **table}
            if union(table.get(name, ())) != union(blocks().get(name, ()))}


def main():
    is_good = True
    for source, found in (("elementpath", table_differences(elementpath_table())), ("Blocks.txt", table_differences(unicode_table())),
                          ("jing", jing_differences())):
        if found is None:
            print(f"blocks.py: {source} is not installed: the table is not compared with it")
            continue
        known = KNOWN[source]
        for name, what in sorted(found.items()):
            if name not in known:
                print(f"{source}: {name}: {what}")
        for name in sorted(known.keys() - found.keys()):
            print(f"{source}: {name}: does not differ")
        is_good = is_good and found.keys() == known.keys()
        print(f"{source}: {len(blocks())} blocks, {len(found)} differ, {len(found.keys() & known.keys())} of them as is known")
    return 0 if is_good else 1


if __name__ == "__main__":
    sys.exit(main())
