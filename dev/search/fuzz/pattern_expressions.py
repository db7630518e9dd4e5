"""Random expressions of the facet `pattern` (XML Schema Part 2, appendix F), also broken ones, and random texts that are near to matching them.

The reader, the classes and the walks over an expression are those of `dev/check/patterns`.
"""
import functools
import pathlib
import re
import sys

sys.path.append(str(pathlib.Path(__file__).resolve().parents[3] / "dev/check/patterns"))
from expressions import GROUPS, SINGLE, NoExpression, blocks, holds, is_lasting, matches, parsed  # noqa: E402  (the folder is known only here)
from texts import ODD, XML, edited, walk  # noqa: E402

MOST_TEXT = 60
MOST_SIZE = 4_096
USUAL = "aaabbbcxyzAZ019 _:#"
PLAIN_ODD = ODD.translate(dict.fromkeys(map(ord, ".\\?*+{}()|[]-^")))
ESCAPES = [f"\\{c}" for c in "nrt\\|.?*+(){}-[]^"]
CLASSES = [f"\\{c}" for c in "sSiIcCdDwW"]
PROPERTIES = [name + more for name, kinds in GROUPS.items() for more in ("", *kinds)]
QUANTIFIERS = ["?", "*", "+", "?", "*", "+", "{0}", "{1}", "{2}", "{0,}", "{1,}", "{2,}", "{0,1}", "{0,2}", "{1,3}", "{2,2}", "{3,5}"]
LARGE = ["{60}", "{64,}", "{255}", "{0,255}", "{999}", "{4094}", "{4095}", "{2,4095}", "{4294967295}", "{4294967296}", "{0,4294967296}", "{007}"]
# what a broken expression has too much, or elsewhere
SIGNS = list(".\\?*+{}()|[]^-,{}[]-09") + ["\\p{", "\\P", "\\i", "{,", "{1,2", "(?:", "[^", "-[", "&&", "\\u", "\\1", "^", "$", "\n", "\r", "--", "[:"]
TOKEN = re.compile(r"(?P<escape>\\[pP]\{[^}]*\}|\\.)|(?P<count>\{(?P<least>\d+)(?P<more>,(?P<most>\d*))?\})|(?P<other>.)", re.S)


def one_in(chance, count):
    return chance.randrange(count) == 0


def property_escape(chance):
    if one_in(chance, 4):
        return f"\\{chance.choice('pppP')}{{Is{chance.choice(list(blocks()))}}}"
    return f"\\{chance.choice('pppP')}{{{chance.choice(PROPERTIES)}}}"


def escape(chance):
    kind = chance.randrange(10)
    return chance.choice(ESCAPES) if kind < 3 else property_escape(chance) if kind < 6 else chance.choice(CLASSES)


def plain(chance):
    """A character that means itself outside of classes and in them, or a caret."""
    return chance.choice(PLAIN_ODD if one_in(chance, 10) else "^" if one_in(chance, 60) else USUAL)


def member(chance):
    """A character, a range or an escape in a class."""
    kind = chance.randrange(10)
    if kind < 3:
        ends = sorted(chance.choice(ESCAPES) if one_in(chance, 6) else plain(chance) for _ in range(2))
        return "-".join(ends if one_in(chance, 8) else sorted(ends, key=lambda it: SINGLE.get(it[-1], ord(it[-1])) if it[1:] else ord(it)))
    return escape(chance) if kind < 6 else plain(chance)


def bracketed(chance, depth):
    """A class in brackets, which may be negative and may subtract another one; seldom with a dash that is a character."""
    members = "".join(member(chance) for _ in range(chance.choice((1, 1, 2, 2, 3, 5))))
    dashes = ["-" if one_in(chance, 90) else "" for _ in range(2)]
    less = f"-{bracketed(chance, depth - 1)}" if depth and one_in(chance, 4) else ""
    return f"[{'^' if one_in(chance, 4) else ''}{dashes[0]}{members}{dashes[1]}{less}]"


def atom(chance, depth):
    kind = chance.randrange(20)
    if kind < 5 and depth:
        return f"({expression(chance, depth - 1)})"
    if kind < 9:
        return bracketed(chance, 2)
    if kind < 11:
        return escape(chance)
    return "." if kind == 11 else plain(chance)


def quantifier(chance):
    return chance.choice(LARGE if one_in(chance, 60) else QUANTIFIERS) if one_in(chance, 3) else ""


def branch(chance, depth):
    return "".join(atom(chance, depth) + quantifier(chance) for _ in range(chance.choice((0, 1, 1, 2, 2, 3, 4))))


def expression(chance, depth=3):
    """An expression with groups so deep."""
    return "|".join(branch(chance, depth) for _ in range(chance.choice((1, 1, 1, 2, 3))))


def broken(text, chance):
    """The text with one edit or two."""
    for _ in range(chance.choice((1, 1, 2))):
        at, kind = chance.randint(0, len(text)), chance.randrange(4)
        if kind == 0:
            text = text[:at] + text[at + 1:]
        elif kind == 1:
            text = text[:max(at - chance.randint(1, 3), 0)] + text[at:]
        else:
            text = text[:at] + chance.choice(SIGNS) + text[at + kind - 2:]
    return text


def made(chance):
    """A text that is an expression, or nearly one."""
    text = expression(chance)
    text = broken(text, chance) if one_in(chance, 4) else text
    return "".join(c for c in text if holds(XML, ord(c)))


def is_expression(text):
    try:
        parsed(text)
    except NoExpression:
        return False
    return True


def texts_of(pattern, chance, count):
    """Texts for an expression: walks over it, these with an edit or two, and texts of its own characters. None for one of a large size."""
    found = []
    count = count if size(pattern) <= MOST_SIZE else 0
    for number in range(3 * count):
        text = walk(parsed(pattern), chance) if number % 5 else "".join(chance.choice(pattern or "a") for _ in range(chance.randrange(4)))
        for _ in range(chance.choice((0, 0, 1, 1, 2))):
            text = edited(text or "", chance)
        is_usable = text is not None and len(text) <= MOST_TEXT and all(holds(XML, ord(c)) for c in text) and (is_lasting(text) or one_in(chance, 10))
        if is_usable and text not in found and len(found) < count:
            found.append(text)
    return found


# ---- white space: the datatypes that treat it otherwise

BLANKS = re.compile("[\t\n\r ]+")
TREATED = {"string": lambda text: text, "normalizedString": lambda text: re.sub("[\t\n\r]", " ", text), "token": lambda text: BLANKS.sub(" ", text).strip(" ")}


def kind_of(chance):
    """A datatype: mostly `string`."""
    return chance.choice(("string", "string", "string", "string", "normalizedString", "token"))


def with_blanks(text, chance):
    """The text with blanks put in at some places."""
    for _ in range(chance.choice((0, 1, 1, 2, 3))):
        at = chance.choice((0, len(text), chance.randint(0, len(text)), text.find(" ") + 1))
        text = text[:at] + chance.choice((" ", "\t", "\n", "\r", "  ", " \n")) + text[at:]
    return text


# ---- the escapes of an expression, and its size (docs/use/LANGUAGE.md, "The larger set of datatypes")


def class_escapes(text):
    """The escapes of an expression that are classes, each once."""
    escapes = (found["escape"] for found in TOKEN.finditer(text))
    return list(dict.fromkeys(it for it in escapes if it and it[1] in "pPsSiIcCdDwW"))


def bracket_classes(text):
    """The classes in brackets of an expression, each once and whole."""
    found, at = {}, 0
    while at < len(text):
        end = class_end(text, at) if text[at] == "[" else TOKEN.match(text, at).end()
        if text[at] == "[":
            found[text[at:end]] = None
        at = end
    return list(found)


def class_end(text, at):
    """Behind the class in brackets that begins there."""
    depth = 0
    while True:
        found = TOKEN.match(text, at)
        token = found[0] if found["escape"] else text[at]
        depth += {"[": 1, "]": -1}.get(token, 0)
        at += len(token)
        if not depth:
            return at


def copies(found):
    """How often a part with that count is written out."""
    least, most = int(found["least"]), found["most"]
    return max(int(most), 1) if most else least + 1 if found["more"] else max(least, 1)


def size(text):
    """The size of an expression: 1 for each character, class and empty branch, with one in front of each branch, and 1 for each quantifier."""
    opened, at, last = [1], 0, 0  # the size of what is open, without its last part
    while at < len(text):
        found = TOKEN.match(text, at)
        sign = found["other"] or ""
        if found["count"] or sign and sign in "?*+":
            last = 1 + last * (copies(found) if found["count"] else {"?": 1, "*": 1, "+": 2}[sign])
        elif sign == ")":
            last += opened.pop()
        elif sign == "(":
            opened[-1] += last
            opened.append(1)
            last = 0
        else:
            opened[-1] += last + (sign == "|")
            last = int(sign != "|")
        at = class_end(text, at) if sign == "[" else found.end()
    return opened[0] + last


# ---- the expression in the syntax of Python's `re`


def in_class(code):
    return f"\\U{code:08x}"


@functools.lru_cache(1000)
def class_of(ranges, alphabet):
    """A class, of the characters of an alphabet alone."""
    inside = "".join(in_class(ord(c)) for c in alphabet if holds(ranges, ord(c)))
    return f"[{inside}]" if inside else "(?!)"


def python_of(node, alphabet):
    """A node as `re` has it, for texts of these characters alone."""
    if node.kind == "set":
        return class_of(node.parts[0], alphabet)
    parts = [python_of(part, alphabet) for part in node.parts]
    if node.kind == "times":
        least, most = node.counts
        return f"(?:{parts[0]}){{{least},{'' if most is None else most}}}"
    return f"(?:{'|'.join(parts)})" if node.kind == "alt" else "".join(parts)
