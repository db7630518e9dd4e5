"""A plain matcher: derivatives of patterns, by section 6 of the RELAX NG specification. It shares nothing with the program under test.

A pattern of the generator (`schemas.py`) is a tuple. `Patterns` turns it into nodes and computes their derivatives. Each node occurs once.
"""
import re

BLANKS = " \t\n\r"
BLANK_RUN = re.compile("[ \t\n\r]+")
INTEGER = re.compile(r"[+-]?[0-9]{1,38}\Z")
NAME_START = "A-Z_a-z\u00c0-\u00d6\u00d8-\u00f6\u00f8-\u02ff\u0370-\u037d\u037f-\u1fff\u3001-\ud7ff"
NAME_REST = NAME_START + "0-9.\u00b7\u0300-\u036f-"
NCNAME = re.compile(f"[{NAME_START}][{NAME_REST}]*\\Z")
NMTOKEN = re.compile(f"[:{NAME_REST}]+\\Z")
BOOLEANS = {"true": True, "1": True, "false": False, "0": False}


def pieces(text):
    """The parts of a text between white space."""
    return [it for it in BLANK_RUN.split(text) if it]


def collapsed(text):
    return " ".join(pieces(text))


def is_blank(text):
    return all(it in BLANKS for it in text)


def read_value(datatype, text):
    """The value of a text by a datatype; None if the datatype does not allow it."""
    if datatype in ("string", "xsd:string"):
        return text
    text = collapsed(text)
    if datatype == "xsd:integer":
        return int(text) if INTEGER.match(text) else None
    if datatype == "xsd:boolean":
        return BOOLEANS.get(text)
    if datatype == "xsd:NCName":
        return text if NCNAME.match(text) else None
    if datatype == "xsd:NMTOKEN":
        return text if NMTOKEN.match(text) else None
    return text


LIMITS = {"minLength": lambda value, limit: len(value) >= limit, "maxLength": lambda value, limit: len(value) <= limit,
          "minInclusive": lambda value, limit: value >= limit, "maxInclusive": lambda value, limit: value <= limit}


def allows(datatype, params, text):
    value = read_value(datatype, text)
    return value is not None and all(LIMITS[name](value, int(limit)) for name, limit in params)


def in_class(name_class, name):
    """Whether an expanded name is in a name class."""
    kind = name_class[0]
    if kind == "name":
        return name == name_class[1:]
    if kind == "alternatives":
        return any(in_class(it, name) for it in name_class[1])
    if kind == "namespace" and name[0] != name_class[1]:
        return False
    return name_class[-1] is None or not in_class(name_class[-1], name)


class Node:
    """A pattern. Equal patterns are the same object."""
    __slots__ = ("kind", "parts", "nullable", "number")

    def __init__(self, kind, parts, nullable, number):
        self.kind, self.parts, self.nullable, self.number = kind, parts, nullable, number


class Patterns:
    """The patterns of one schema and their derivatives."""

    def __init__(self, schema):
        self.schema = schema
        self.made, self.bodies, self.kept = {}, {}, {}
        self.empty, self.text, self.none = self.node("empty"), self.node("text"), self.node("none")

    def node(self, kind, *parts, nullable=None):
        key = (kind, *parts)
        if key not in self.made:
            if nullable is None:
                nullable = kind in ("empty", "text")
            self.made[key] = Node(kind, parts, nullable, len(self.made))
        return self.made[key]

    def choice(self, members):
        found = {}
        for member in members:
            for it in member.parts if member.kind == "choice" else [member]:
                if it is not self.none:
                    found[it.number] = it
        if len(found) < 2:
            return next(iter(found.values()), self.none)
        parts = tuple(found[number] for number in sorted(found))
        return self.node("choice", *parts, nullable=any(it.nullable for it in parts))

    def pair(self, kind, one, other):
        if self.none in (one, other):
            return self.none
        if one is self.empty:
            return other
        if other is self.empty:
            return one
        return self.node(kind, one, other, nullable=one.nullable and other.nullable)

    def plus(self, body):
        return body if body in (self.none, self.empty) else self.node("plus", body, nullable=body.nullable)

    def star(self, body):
        return self.choice([self.plus(body), self.empty])

    def after(self, one, other):
        return self.none if self.none in (one, other) else self.node("after", one, other, nullable=False)

    # ---- from the generator's tuples

    def of(self, pattern):
        """The node of a pattern. The content of an element is not read."""
        kind = pattern[0]
        if kind in ("empty", "text"):
            return self.empty if kind == "empty" else self.text
        if kind == "notAllowed":
            return self.none
        if kind == "ref":
            return self.of(self.schema.definitions[pattern[1]])
        if kind == "choice":
            return self.choice([self.of(it) for it in pattern[1]])
        if kind in ("group", "interleave"):
            whole = self.empty
            for it in pattern[1]:
                whole = self.pair(kind, whole, self.of(it))
            return whole
        if kind in ("plus", "star", "optional", "mixed"):
            body = self.of(pattern[1])
            return {"plus": self.plus, "star": self.star, "optional": lambda it: self.choice([it, self.empty]),
                    "mixed": lambda it: self.pair("interleave", it, self.text)}[kind](body)
        return self.node(*pattern, nullable=False)

    def body(self, node):
        """The node of the content of an element, attribute, list or except."""
        pattern = node.parts[-1]
        if pattern not in self.bodies:
            self.bodies[pattern] = self.of(pattern)
        return self.bodies[pattern]

    # ---- derivatives

    def derived(self, step, node, *event):
        key = (step, node.number, *event)
        if key not in self.kept:
            self.kept[key] = step(self, node, *event)
        return self.kept[key]

    def into_after(self, change, node):
        """The node in which the part after its open element is changed."""
        if node.kind == "after":
            return self.after(node.parts[0], change(node.parts[1]))
        return self.choice([self.into_after(change, it) for it in node.parts]) if node.kind == "choice" else self.none

    def start(self, node, name):
        """The derivative by the start of a tag with this name."""
        derive = lambda it: self.derived(Patterns.start, it, name)
        kind, parts = node.kind, node.parts
        if kind == "choice":
            return self.choice([derive(it) for it in parts])
        if kind == "element":
            return self.after(self.body(node), self.empty) if in_class(parts[0], name) else self.none
        if kind == "group":
            first = self.into_after(lambda it: self.pair("group", it, parts[1]), derive(parts[0]))
            return self.choice([first, derive(parts[1])]) if parts[0].nullable else first
        if kind == "interleave":
            return self.choice([self.into_after(lambda it: self.pair("interleave", it, parts[1]), derive(parts[0])),
                                self.into_after(lambda it: self.pair("interleave", parts[0], it), derive(parts[1]))])
        if kind == "plus":
            return self.into_after(lambda it: self.pair("group", it, self.star(parts[0])), derive(parts[0]))
        return self.into_after(lambda it: self.after(it, parts[1]), derive(parts[0])) if kind == "after" else self.none

    def attribute(self, node, name, value):
        derive = lambda it: self.derived(Patterns.attribute, it, name, value)
        kind, parts = node.kind, node.parts
        if kind == "choice":
            return self.choice([derive(it) for it in parts])
        if kind in ("group", "interleave"):
            return self.choice([self.pair(kind, derive(parts[0]), parts[1]), self.pair(kind, parts[0], derive(parts[1]))])
        if kind == "plus":
            return self.pair("group", derive(parts[0]), self.star(parts[0]))
        if kind == "after":
            return self.after(derive(parts[0]), parts[1])
        return self.empty if kind == "attribute" and in_class(parts[0], name) and self.takes(self.body(node), value) else self.none

    def takes(self, node, text):
        """Whether the text alone matches the pattern."""
        return node.nullable and is_blank(text) or self.derived(Patterns.string, node, text).nullable

    def close(self, node):
        """The derivative by the end of a start tag: a pattern that still needs an attribute becomes not allowed."""
        derive = lambda it: self.derived(Patterns.close, it)
        kind, parts = node.kind, node.parts
        if kind == "choice":
            return self.choice([derive(it) for it in parts])
        if kind in ("group", "interleave"):
            return self.pair(kind, derive(parts[0]), derive(parts[1]))
        if kind == "plus":
            return self.plus(derive(parts[0]))
        if kind == "after":
            return self.after(derive(parts[0]), parts[1])
        return self.none if kind == "attribute" else node

    def string(self, node, text):
        derive = lambda it: self.derived(Patterns.string, it, text)
        kind, parts = node.kind, node.parts
        if kind == "choice":
            return self.choice([derive(it) for it in parts])
        if kind == "group":
            first = self.pair("group", derive(parts[0]), parts[1])
            return self.choice([first, derive(parts[1])]) if parts[0].nullable else first
        if kind == "interleave":
            return self.choice([self.pair(kind, derive(parts[0]), parts[1]), self.pair(kind, parts[0], derive(parts[1]))])
        if kind == "plus":
            return self.pair("group", derive(parts[0]), self.star(parts[0]))
        if kind == "after":
            return self.after(derive(parts[0]), parts[1])
        if kind == "text":
            return node
        return self.empty if self.is_taken(node, text) else self.none

    def is_taken(self, node, text):
        """Whether a value, a datatype or a list allows the text."""
        kind, parts = node.kind, node.parts
        if kind == "value":
            given = read_value(parts[0] or "token", text)
            return given is not None and given == read_value(parts[0] or "token", parts[1])
        if kind == "data":
            return allows(parts[0], parts[1], text) and not (parts[2] and self.derived(Patterns.string, self.body(node), text).nullable)
        if kind != "list":
            return False
        left = self.body(node)
        for piece in pieces(text):
            left = self.derived(Patterns.string, left, piece)
        return left.nullable

    def end(self, node):
        if node.kind == "choice":
            return self.choice([self.end(it) for it in node.parts])
        return node.parts[1] if node.kind == "after" and node.parts[0].nullable else self.none


class Judging:
    """A document that is being judged: what is left to match, and the pending text, which may not be complete yet."""

    def __init__(self, patterns):
        self.patterns = patterns
        self.left = patterns.of(patterns.schema.start)
        self.pending, self.has_element = "", [False]

    def copy(self):
        other = Judging.__new__(Judging)
        other.patterns, other.left, other.pending, other.has_element = self.patterns, self.left, self.pending, list(self.has_element)
        return other

    def flush(self):
        """Matches the pending text, which comes beside an element."""
        if not is_blank(self.pending):
            self.left = self.patterns.derived(Patterns.string, self.left, self.pending)
        self.pending = ""

    def open(self, name, attributes):
        """The start of a tag with attributes. More attributes may come."""
        self.flush()
        self.has_element[-1] = True
        self.has_element.append(False)
        self.left = self.patterns.derived(Patterns.start, self.left, name)
        for attribute, value in attributes:
            self.left = self.patterns.derived(Patterns.attribute, self.left, attribute, value)

    def close_tag(self):
        self.left = self.patterns.derived(Patterns.close, self.left)

    def text(self, text):
        self.pending += text

    def end(self):
        if self.has_element.pop():
            self.flush()
        else:
            taken = self.patterns.derived(Patterns.string, self.left, self.pending)
            self.left = self.patterns.choice([self.left, taken]) if is_blank(self.pending) else taken
        self.pending = ""
        self.left = self.patterns.end(self.left)


def judged(patterns, root):
    """Whether a document's root, (name, attributes, items), matches."""
    judging = Judging(patterns)

    def walk(element):
        name, attributes, items = element
        judging.open(name, attributes)
        judging.close_tag()
        for it in items:
            judging.text(it) if isinstance(it, str) else walk(it)
        judging.end()

    walk(root)
    return judging.left.nullable
