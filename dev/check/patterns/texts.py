#!/usr/bin/env python3
"""Writes `texts.tsv`: texts for each expression of `real.txt` and `valid.txt`, some that it matches and some that it does not.

    dev/check/patterns/texts.py

The texts are walks over the expression, and these with one edit: a character taken away, put in, exchanged for one near it, or said twice. The seed is fixed,
and each expression has its own, so that a new one changes no other row. The verdict is that of `expressions.py`. Beside it is jing's, where they differ with a
word for the reason. Characters that have changed their category since Unicode 3.2, or may get one, are left out. Without jing nothing is written. Another
version of Python may have other texts of classes that Unicode decides: it has other ends of their ranges.
"""
import pathlib
import random
import sys

from expressions import LAST, holds, is_lasting, matches, parsed
from judges import Jing
from rows import HOW, rows_of, write_rows

HERE = pathlib.Path(__file__).resolve().parent
SEED = "patterns 1"
WANTED = {True: 5, False: 5}   # rows of an expression by verdict
TRIES = 400
MOST = 200                     # characters of a text
REACH = 12                     # characters of a class that are tried
XML = ((0x9, 0xA), (0xD, 0xD), (0x20, 0xD7FF), (0xE000, 0xFFFD), (0x10000, LAST))
USUAL = tuple((ord(low), ord(high)) for low, high in ("az", "AZ", "09", "--", "__", "..", "  "))
ODD = ("\t\n\r !\"#$%&'()*+,-./09:;<=>?@AZ[\\]^_`az{|}~\x80\xa0\xaa\xb2\xb5\xb7\xd7\xe9\u0130\u0301\u0660\u0950\u0e33\u2028\u2160\u3007\u4e00\uac00\uf8ff"
       "\ufb01\ufffd\U00010330\U0001d400\U00020000")
NONCHARACTER = "\ufdd0"        # Unicode will never give it a category
REASONS = {
    "names": "`\\i` and `\\c` are those of XML 1.0, Fifth Edition. jing has those of the editions before",
    "properties": "jing has the categories and the blocks of Java, with exceptions",
}


def chars_of(ranges, rng):
    """Characters of a class: a usual one, an end of a range, or any."""
    usual = [(max(low, first), min(high, last)) for low, high in ranges for first, last in USUAL if max(low, first) <= min(high, last)]
    low, high = rng.choice(usual if usual and rng.random() < 0.75 else ranges)
    return chr(rng.choice((low, high, rng.randint(low, high))))


def is_usable(text):
    return len(text) <= MOST and all(holds(XML, ord(c)) for c in text) and is_lasting(text)


def count_of(least, most, rng):
    """How often something is repeated."""
    if most is not None and rng.random() < 0.2:
        return min(most, least + 40)
    more = rng.choice((0, 0, 1, 1, 2, 3))
    return least + more if most is None else min(least + more, most)


def walk(node, rng):
    """A text that the expression matches; None if a class has no character."""
    parts, left = [], [node]
    while left and len(parts) <= MOST:
        node = left.pop()
        if node.kind == "set":
            if not node.parts[0]:
                return None
            parts.append(chars_of(node.parts[0], rng))
        elif node.kind == "cat":
            left += reversed(node.parts)
        elif node.kind == "alt":
            left.append(rng.choice(options(node)))
        elif node.kind == "times":
            left += node.parts * count_of(*node.counts, rng)
    return "".join(parts)


def options(node):
    """The members of a choice, also of the choices in it."""
    found = []
    while node.kind == "alt":
        found.append(node.parts[0])
        node = node.parts[1]
    return [*found, node]


def near(c, rng):
    """A character beside another one, or in another case, or an odd one."""
    return rng.choice((chr(min(ord(c) + 1, LAST)), chr(max(ord(c) - 1, 9)), c.swapcase()[:1], rng.choice(ODD), rng.choice(ODD)))


def edited(text, rng):
    """The text with one edit."""
    at = rng.randint(0, len(text))
    kind = rng.randrange(5) if text else 1
    if kind == 0:
        return text[:at] + text[at + 1:]
    if kind == 1:
        return text[:at] + rng.choice(ODD) + text[at:]
    if kind == 2:
        return text[:at] + near(text[min(at, len(text) - 1)], rng) + text[at + 1:]
    if kind == 3:
        return text[:at] + text[max(at - rng.randint(1, 3), 0):]
    return text[:at]


def texts_of(pattern):
    """Texts for an expression, by whether it matches them."""
    rng = random.Random(f"{SEED} {pattern}")
    found = {True: [], False: []}
    for number in range(TRIES):
        text = walk(parsed(pattern), rng)
        text = "" if number == 0 or text is None else edited(text, rng) if number % 2 else text
        if not is_usable(text) or all(len(found[verdict]) >= most for verdict, most in WANTED.items()):
            continue
        kept = found[matches(pattern, text)]
        if text not in kept and len(kept) < WANTED[kept is found[True]]:
            kept.append(text)
    if not found[True] and matches(pattern, NONCHARACTER):
        found[True].append(NONCHARACTER)
    return found


def reason(pattern, text):
    """Why jing may differ."""
    is_odd = any(c > "\x7f" for c in text)
    if is_odd and any(f"\\{letter}" in pattern for letter in "iIcC"):
        return "names"
    if is_odd and any(f"\\{letter}" in pattern for letter in "pPwWdD"):
        return "properties"
    return "?"


def main():
    jing = Jing()
    if not jing.is_installed():
        return 0
    patterns = list(dict.fromkeys([*(row[1] for row in rows_of(HERE / "real.txt")), *(row[0] for row in rows_of(HERE / "valid.txt"))]))
    refused = dict(zip(patterns, jing.expressions(patterns)))
    rows = [(pattern, text, verdict) for pattern in patterns for verdict, texts in texts_of(pattern).items() for text in texts]
    asked = [(pattern, text) for pattern, text, _ in rows if not refused[pattern]]
    told = dict(zip(asked, jing.texts(asked)))
    lines = []
    for pattern, text, verdict in rows:
        ours, theirs = "valid" if verdict else "invalid", told.get((pattern, text), "refused")
        lines.append([pattern, text, ours, theirs, *([reason(pattern, text)] if theirs not in (ours, "refused") else [])])
    head = ["an expression, a text, whether it matches the text, what jing 20220510 says (refused: it takes the expression for none), and why it differs:",
            *(f"{word}: {what}" for word, what in REASONS.items()), f"texts.py makes this file. {HOW}"]
    write_rows(HERE / "texts.tsv", head, lines)
    unknown = [line for line in lines if line[-1] == "?"]
    for line in unknown:
        print("\t".join(map(ascii, line)))
    match, differ = sum(line[2] == "valid" for line in lines), sum(len(line) > 4 for line in lines)
    print(f"texts.tsv: {len(patterns)} expressions, {len(lines)} texts, {match} match, {differ} differ")
    return 1 if unknown else 0


if __name__ == "__main__":
    sys.exit(main())
