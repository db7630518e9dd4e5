"""A second opinion on the facet `pattern`: a reader of the expressions of XML Schema Part 2 (Second Edition, appendix F), and a matcher. Nothing is proved.

The reader goes over the characters once, with a stack, and says which production an expression breaks. The matcher keeps the set of what may be left of the
expression (partial derivatives), so it never goes back. Counts are not unrolled.

Where the appendix leaves room, this is what the project takes. Normal characters are those of production 10 without `{` and `}`, as the text before it says. A
block that is not in the table is no block. `\\i` and `\\c` are those of XML 1.0, Fifth Edition. Categories are those of Python's `unicodedata`: callers who
want an answer that lasts ask `is_lasting` of the characters.
"""
import bisect
import functools
import pathlib
import re
import sys
import unicodedata

BLOCKS = pathlib.Path(__file__).resolve().parents[3] / "crates/rng_model/specs/regexes/Blocks.antt"
LAST = 0x10FFFF
SURROGATES = ((0xD800, 0xDFFF),)
META = frozenset(".\\?*+{}()|[]")
SINGLE = {"n": 0xA, "r": 0xD, "t": 0x9, **{c: ord(c) for c in "\\|.?*+(){}-[]^"}}
GROUPS = {"L": "ultmo", "M": "nce", "N": "dlo", "P": "cdseifo", "Z": "slp", "S": "mcko", "C": "cfon"}
NAME_START = ((0x3A, 0x3A), (0x41, 0x5A), (0x5F, 0x5F), (0x61, 0x7A), (0xC0, 0xD6), (0xD8, 0xF6), (0xF8, 0x2FF), (0x370, 0x37D), (0x37F, 0x1FFF),
              (0x200C, 0x200D), (0x2070, 0x218F), (0x2C00, 0x2FEF), (0x3001, 0xD7FF), (0xF900, 0xFDCF), (0xFDF0, 0xFFFD), (0x10000, 0xEFFFF))
NAME_MORE = ((0x2D, 0x2E), (0x30, 0x39), (0xB7, 0xB7), (0x300, 0x36F), (0x203F, 0x2040))
SPACE = ((0x9, 0xA), (0xD, 0xD), (0x20, 0x20))


class NoExpression(Exception):
    """The text is no expression: at which character that shows, and by which production of the appendix."""

    def __init__(self, at, production, what):
        super().__init__(f"character {at}, production {production}: {what}")
        self.at, self.production = at, production


# ---- classes of characters: sorted ranges that do not touch


def union(*classes):
    """The characters of any of these."""
    found = []
    for low, high in sorted(pair for ranges in classes for pair in ranges):
        if found and low <= found[-1][1] + 1:
            found[-1] = (found[-1][0], max(high, found[-1][1]))
        else:
            found.append((low, high))
    return tuple(found)


def complement(ranges):
    """The characters that are not in it."""
    found, begin = [], 0
    for low, high in union(ranges, SURROGATES):
        if begin < low:
            found.append((begin, low - 1))
        begin = high + 1
    return tuple(found) + (((begin, LAST),) if begin <= LAST else ())


def minus(ranges, others):
    """The characters of the first that are not in the second."""
    return complement(union(complement(ranges), others))


def holds(ranges, code):
    """Whether the character is in the class."""
    at = bisect.bisect_right(ranges, (code, LAST)) - 1
    return at >= 0 and code <= ranges[at][1]


@functools.lru_cache(None)
def categories():
    """The classes of all general categories."""
    found = {}
    for code in range(LAST + 1):
        ranges = found.setdefault(unicodedata.category(chr(code)), [])
        if ranges and ranges[-1][1] == code - 1:
            ranges[-1] = (ranges[-1][0], code)
        else:
            ranges.append((code, code))
    return {name: tuple(ranges) for name, ranges in found.items() if name != "Cs"}


def is_lasting(text):
    """Whether each character has had one category since Unicode 3.2, and will keep it."""
    return all(unicodedata.ucd_3_2_0.category(c) == unicodedata.category(c) and (unicodedata.category(c) != "Cn" or is_noncharacter(ord(c))) for c in text)


def is_noncharacter(code):
    """Whether Unicode will never give the number to a character."""
    return 0xFDD0 <= code <= 0xFDEF or code & 0xFFFE == 0xFFFE


@functools.lru_cache(None)
def blocks():
    """The table of blocks: ranges by name."""
    rows = re.findall(r'\(codes "([^"]+)", (.*?) ∷ \[\]\)', BLOCKS.read_text(encoding="utf-8"))
    return {name: tuple((int(low, 16), int(high, 16)) for low, high in re.findall(r"\(0x(\w+), 0x(\w+)\)", ranges)) for name, ranges in rows}


@functools.lru_cache(None)
def property_class(name):
    """The class of a property of production 27; None if there is none of that name."""
    if name[:1] in GROUPS and len(name) <= 2 and name[1:] in GROUPS[name[0]]:
        return union(*(ranges for kind, ranges in categories().items() if kind.startswith(name)))
    return blocks().get(name[2:]) if name.startswith("Is") else None


@functools.lru_cache(None)
def escaped_class(letter):
    """The class of an escape of production 37."""
    found = {"s": lambda: SPACE, "i": lambda: NAME_START, "c": lambda: union(NAME_START, NAME_MORE), "d": lambda: property_class("Nd"),
             "w": lambda: complement(union(*map(property_class, "PZC")))}[letter.lower()]()
    return complement(found) if letter.isupper() else found


# ---- expressions: nodes that are made once, so that equal ones are the same


class Node:
    """An expression: `empty`, `set` of a class, `cat` and `alt` of two, `times` of one with its counts (None: no limit)."""
    __slots__ = ("kind", "parts", "counts", "can_be_empty", "steps")
    made = {}

    def __new__(cls, kind, parts=(), counts=None, can_be_empty=False):
        key = (kind, counts, *(id(part) if isinstance(part, Node) else part for part in parts))
        if key not in cls.made:
            node = cls.made[key] = super().__new__(cls)
            node.kind, node.parts, node.counts, node.can_be_empty, node.steps = kind, parts, counts, can_be_empty, {}
        return cls.made[key]


EMPTY = Node("empty", can_be_empty=True)


def one_of(ranges):
    return Node("set", (ranges,))


def cat(first, second):
    if first is EMPTY or second is EMPTY:
        return second if first is EMPTY else first
    return Node("cat", (first, second), None, first.can_be_empty and second.can_be_empty)


def alt(first, second):
    return first if first is second else Node("alt", (first, second), None, first.can_be_empty or second.can_be_empty)


def times(least, most, node):
    if most == 0 or node is EMPTY:
        return EMPTY
    return node if (least, most) == (1, 1) else Node("times", (node,), (least, most), least == 0 or node.can_be_empty)


def sequence(nodes):
    return functools.reduce(lambda after, node: cat(node, after), reversed(nodes), EMPTY)


def choice(nodes):
    return functools.reduce(lambda after, node: alt(node, after), reversed(nodes[:-1]), nodes[-1])


# ---- the reader


class Reader:
    """Reads an expression. `at` is the number of the next character."""

    def __init__(self, text):
        self.text, self.at = text, 0

    def here(self, ahead=0):
        return self.text[self.at + ahead:self.at + ahead + 1]

    def fault(self, production, what):
        return NoExpression(self.at, production, what)

    def escape(self):
        """SingleCharEsc as a number, or a class (productions 23 to 37), behind a `\\`."""
        letter = self.here(1)
        if letter in SINGLE and letter:
            self.at += 2
            return SINGLE[letter]
        if letter and letter in "sSiIcCdDwW":
            self.at += 2
            return escaped_class(letter)
        if letter and letter in "pP":
            return self.property(letter)
        raise self.fault(23, "no escape")

    def property(self, letter):
        """The class of catEsc or complEsc (productions 25 to 36)."""
        if self.here(2) != "{":
            raise self.fault(25 if letter == "p" else 26, "no `{`")
        end = self.text.find("}", self.at)
        if end < 0:
            raise self.fault(25 if letter == "p" else 26, "no `}`")
        name = self.text[self.at + 3:end]
        found = property_class(name)
        if found is None:
            production = 36 if name.startswith("Is") else 29 + list(GROUPS).index(name[0]) if name[:1] in GROUPS and name else 28 if name else 27
            raise self.fault(production, "no property of that name")
        self.at = end + 1
        return found if letter == "p" else complement(found)

    def quantified(self, node):
        """The node with the quantifier that follows, if there is one (productions 3 to 8)."""
        sign = self.here()
        if sign and sign in "?*+":
            self.at += 1
            return times(*{"?": (0, 1), "*": (0, None), "+": (1, None)}[sign], node)
        if sign != "{":
            return node
        self.at += 1
        least = most = self.count()
        if self.here() == ",":
            self.at += 1
            most = None if self.here() == "}" else self.count()
        if self.here() != "}":
            raise self.fault(4, "no `}`")
        if most is not None and most < least:
            raise self.fault(6, "the second count is the smaller one")
        self.at += 1
        return times(least, most, node)

    def count(self):
        """QuantExact (production 8)."""
        digits = re.compile("[0-9]*").match(self.text, self.at)[0]
        if not digits:
            raise self.fault(8, "no digit")
        self.at += len(digits)
        return int(digits)

    def range_end(self):
        """The second character of a range."""
        if self.here() == "\\":
            found = self.escape()
            if not isinstance(found, int):
                raise self.fault(20, "a range ends in a class")
            return found
        self.at += 1
        return ord(self.text[self.at - 1])

    def member(self):
        """A range, a character that is not `-`, or a class (productions 17 to 23)."""
        begin = self.at
        low = self.escape() if self.here() == "\\" else ord(self.here())
        self.at += self.at == begin
        if not isinstance(low, int):
            return low
        if self.here() != "-" or not self.here(1) or self.here(1) in "-[]":
            return ((low, low),)
        self.at += 1
        high = self.range_end()
        if high < low:
            self.at = begin
            raise self.fault(18, "the range ends before it begins")
        return ((low, high),)

    def dash(self, is_first):
        """A `-` that is a character: the first one or the last one of its group."""
        if not self.here(1):
            raise self.fault(12, "no `]`")
        if not (is_first or self.here(1) == "]" or (self.here(1) == "-" and self.here(2) == "[")):
            raise self.fault(17, "a `-` that is neither the first one nor the last one")
        self.at += 1
        return ((0x2D, 0x2D),)

    def group(self):
        """The members of posCharGroup or negCharGroup (productions 14 and 15), up to a `]` or to a `-` before a `[`."""
        is_negative = self.here() == "^"
        self.at += is_negative
        members = []
        while True:
            sign = self.here()
            if sign == "":
                raise self.fault(12, "no `]`")
            if sign == "]" or (sign == "-" and self.here(1) == "[" and members):
                if not members:
                    raise self.fault(14, "an empty group")
                found = union(*members)
                return complement(found) if is_negative else found
            if sign == "[":
                raise self.fault(22, "a `[` in a group")
            members.append(self.dash(not members) if sign == "-" else self.member())

    def char_class(self):
        """charClassExpr (production 12), with what is taken away inside it (production 16), level by level."""
        opened, found = [], None
        while True:
            if found is None:
                self.at += 1
                opened.append(self.group())
            else:
                opened.append(minus(opened.pop(), found))
                if self.here() != "]":
                    raise self.fault(12 if self.here() == "" else 13, "something behind what is taken away")
            if self.here() == "-":
                self.at += 1
                found = None
                continue
            self.at += 1
            found = opened.pop()
            if not opened:
                return one_of(found)

    def atom(self):
        """An atom that is no group (production 9)."""
        sign = self.here()
        if sign == "[":
            return self.char_class()
        if sign == "\\":
            found = self.escape()
            return one_of(((found, found),) if isinstance(found, int) else found)
        if sign in META and sign != ".":
            raise self.fault(3 if sign in "?*+{" else 9, f"no atom begins with `{sign}`")
        self.at += 1
        return one_of(complement(((0xA, 0xA), (0xD, 0xD))) if sign == "." else ((ord(sign), ord(sign)),))

    def expression(self):
        """regExp (production 1), up to the end."""
        opened = [[[]]]
        while sign := self.here():
            if sign == "|":
                opened[-1].append([])
                self.at += 1
            elif sign == "(":
                opened.append([[]])
                self.at += 1
            elif sign == ")":
                if len(opened) == 1:
                    raise self.fault(9, "a `)` without a `(`")
                self.at += 1
                node = choice([sequence(branch) for branch in opened.pop()])
                opened[-1][-1].append(self.quantified(node))
            else:
                opened[-1][-1].append(self.quantified(self.atom()))
        if len(opened) > 1:
            raise self.fault(9, "no `)`")
        return choice([sequence(branch) for branch in opened[0]])


@functools.lru_cache(None)
def parsed(text):
    """The expression that a text writes, or NoExpression."""
    return Reader(text).expression()


# ---- the matcher

sys.setrecursionlimit(20_000)


def steps(node, code):
    """What may be left of an expression once this character is read, as a set."""
    found = node.steps.get(code)
    if found is None:
        found = node.steps[code] = frozenset(STEPS[node.kind](node, code))
    return found


def after_both(node, code):
    first, second = node.parts
    found = {cat(left, second) for left in steps(first, code)}
    return found | steps(second, code) if first.can_be_empty else found


def after_times(node, code):
    least, most = node.counts
    rest = times(max(least - 1, 0), None if most is None else most - 1, node.parts[0])
    return {cat(left, rest) for left in steps(node.parts[0], code)}


STEPS = {
    "empty": lambda node, code: (),
    "set": lambda node, code: (EMPTY,) if holds(node.parts[0], code) else (),
    "alt": lambda node, code: steps(node.parts[0], code) | steps(node.parts[1], code),
    "cat": after_both,
    "times": after_times,
}


def matches(pattern, text):
    """Whether the expression matches the whole text."""
    left = {parsed(pattern)}
    for c in text:
        left = set().union(*(steps(node, ord(c)) for node in left))
    return any(node.can_be_empty for node in left)
