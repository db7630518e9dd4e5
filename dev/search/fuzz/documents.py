"""Documents as trees, as PYX lines and as XML. Random documents that a pattern allows, and changed ones.

An element is (name, attributes, items). A name is (uri, local), attributes are pairs of a name and a value, and an item is an element or a text.
"""
import re

from matching import NCNAME, Judging, in_class
from schemas import LOCALS, NAMESPACES, TEXTS, WORDS, XML

OTHERS = ["other", "z"]
CANDIDATES = TEXTS + WORDS + ["-5", "5", "8", "10", "+9", "abc", "abcdef", "tt", "false", "a-b", "x"]


class Sampler:
    """Makes random content that a node of `matching.Patterns` allows."""

    def __init__(self, patterns, chance):
        self.patterns, self.chance, self.possible = patterns, chance, {}

    def can(self, node, depth):
        """Whether something of at most this depth of elements is allowed."""
        key = (node.number, depth)
        if key not in self.possible:
            self.possible[key] = self.is_possible(node, depth)
        return self.possible[key]

    def is_possible(self, node, depth):
        kind, parts = node.kind, node.parts
        if kind == "choice":
            return any(self.can(it, depth) for it in parts)
        if kind in ("group", "interleave", "after"):
            return all(self.can(it, depth) for it in parts)
        if kind == "plus":
            return self.can(parts[0], depth)
        if kind == "element":
            return depth > 0 and self.can(self.patterns.body(node), depth - 1)
        if kind == "attribute":
            return any(self.patterns.takes(self.patterns.body(node), it) for it in CANDIDATES) or self.can(self.patterns.body(node), 0)
        if kind == "list":
            return self.can(self.patterns.body(node), 0)
        return kind not in ("data", "value") or bool(self.texts(node))

    def texts(self, node):
        """Texts that a datatype or a value allows."""
        return [it for it in [*CANDIDATES, node.parts[1] if node.kind == "value" else ""] if self.patterns.is_taken(node, it)]

    def content(self, node, depth):
        """Random attributes and items for a node. `can` must hold for it."""
        kind, parts = node.kind, node.parts
        if kind == "choice":
            return self.content(self.chance.choice([it for it in parts if self.can(it, depth)]), depth)
        if kind in ("group", "interleave"):
            return self.both(kind, self.content(parts[0], depth), self.content(parts[1], depth))
        if kind == "plus":
            found = [self.content(parts[0], depth) for _ in range(self.chance.choice([1, 1, 2, 3]))]
            return sum((it[0] for it in found), []), sum((it[1] for it in found), [])
        if kind == "element":
            return [], [(self.name(parts[0]), *self.content(self.patterns.body(node), depth - 1))]
        if kind == "attribute":
            return [(self.name(parts[0]), self.value(node))], []
        if kind == "text":
            return [], [self.chance.choice(TEXTS)] if self.chance.random() < 0.7 else []
        if kind in ("data", "value"):
            return [], [self.chance.choice(self.texts(node))]
        return [], [self.of_list(node)] if kind == "list" else []

    def both(self, kind, one, other):
        if kind == "group":
            return one[0] + other[0], one[1] + other[1]
        merged, left, right = [], list(one[1]), list(other[1])
        while left or right:
            merged.append((left if left and (not right or self.chance.random() < 0.5) else right).pop(0))
        return one[0] + other[0], merged

    def of_list(self, node):
        found = self.content(self.patterns.body(node), 0)[1]
        return self.chance.choice(["", " ", "\n"]) + self.chance.choice([" ", " ", "\t "]).join(found)

    def value(self, node):
        body = self.patterns.body(node)
        found = [it for it in CANDIDATES if self.patterns.takes(body, it)]
        if found and (self.chance.random() < 0.7 or not self.can(body, 0)):
            return self.chance.choice(found)
        return "".join(it for it in self.content(body, 0)[1])

    def name(self, name_class):
        """A name in the class, or any name if none of the known ones is in it."""
        if name_class[0] == "name":
            return name_class[1:]
        names = [(uri, local) for uri in [*NAMESPACES, "urn:other"] for local in LOCALS + OTHERS]
        found = [it for it in names if in_class(name_class, it)]
        return self.chance.choice(found or names)

    def root(self, node, depth=6):
        """A document's root for the node of a schema's start; None if there is none with this depth."""
        if not self.can(node, depth):
            return None
        items = [it for it in self.content(node, depth)[1] if not isinstance(it, str)]
        return tidied(items[0]) if items else None


def tidied(element):
    """The element in which each attribute occurs once."""
    name, attributes, items = element
    return name, list(dict(attributes).items()), [it if isinstance(it, str) else tidied(it) for it in items]


# ---- changes

def elements(root):
    """The root and each element below it."""
    yield root
    for it in root[2]:
        if not isinstance(it, str):
            yield from elements(it)


def changed(root, chance):
    """The document with one or two changes. The elements are copied, and the copies are changed."""
    root = copied(root)
    for _ in range(chance.choice([1, 1, 2])):
        change_one(chance.choice(list(elements(root))), chance)
    return as_tuples(root)


def copied(element):
    return [element[0], list(element[1]), [it if isinstance(it, str) else copied(it) for it in element[2]]]


def as_tuples(element):
    return element[0], element[1], [it if isinstance(it, str) else as_tuples(it) for it in element[2]]


def some_name(chance):
    return (chance.choice(NAMESPACES), chance.choice(LOCALS + OTHERS))


def change_one(element, chance):
    items, attributes = element[2], dict(element[1])
    pick = chance.randrange(10)
    if pick == 0:
        element[0] = some_name(chance)
    elif pick == 1 and attributes:
        attributes.pop(chance.choice(list(attributes)))
    elif pick == 2:
        name = (chance.choice(["", "", XML, "urn:a"]), chance.choice(["x", "y", "z", "w", "list", "other"]))
        attributes[name] = chance.choice(CANDIDATES)
    elif pick == 3 and attributes:
        attributes[chance.choice(list(attributes))] = chance.choice(CANDIDATES)
    elif pick in (4, 5) and items:
        del items[chance.randrange(len(items))]
    elif pick == 6 and items:
        items.insert(chance.randrange(len(items) + 1), chance.choice(items))
    elif pick == 7 and len(items) > 1:
        at = chance.randrange(len(items) - 1)
        items[at], items[at + 1] = items[at + 1], items[at]
    elif pick == 8:
        items.insert(chance.randrange(len(items) + 1), chance.choice(CANDIDATES))
    else:
        items.insert(chance.randrange(len(items) + 1), [some_name(chance), [], []])
    element[1] = list(attributes.items())


# ---- lines

def escaped(text):
    return text.replace("\\", "\\\\").replace("\n", "\\n").replace("\t", "\\t")


def unescaped(text):
    return re.sub(r"\\(.)", lambda it: {"n": "\n", "t": "\t"}.get(it[1], it[1]), text)


class LineWriter:
    """Writes a document as PYX lines, with random prefixes."""

    def __init__(self, chance):
        self.chance, self.lines = chance, []

    def prefix(self, uri, scope, added, may_be_default):
        """A prefix for the uri, perhaps a new one. A new prefix is declared in `added`."""
        now = {**scope, **added}
        known = [it for it, other in now.items() if other == uri and (it or may_be_default)]
        if uri == XML:
            return "xml"
        if known and self.chance.random() < 0.9:
            return self.chance.choice(known)
        free = [it for it in [*[""] * may_be_default, "p", "q", "r1", "s"] if it not in added]
        prefix = self.chance.choice(free) if free else f"t{len(added)}"
        added[prefix] = uri
        return prefix

    def element(self, element, scope):
        name, attributes, items = element
        added, written = {}, []
        if name[0] == "" and scope[""] != "":
            added[""] = ""
        prefix = "" if name[0] == "" else self.prefix(name[0], scope, added, True)
        used = {prefix}
        for (uri, local), value in attributes:
            mine = "" if uri == "" else self.prefix(uri, {it: scope[it] for it in scope}, added, False)
            used.add(mine)
            written.append(f"A{mine + ':' if mine else ''}{local} {escaped(value)}")
        scope = {**scope, **added}
        written += [f"Axmlns{':' + it if it else ''} {uri}" for it, uri in added.items()]
        self.chance.shuffle(written)
        tag = (prefix + ":" if prefix else "") + name[1]
        self.lines += [f"({tag}", *written]
        for it in items:
            self.text(it) if isinstance(it, str) else self.element(it, scope)
        self.lines.append(f"){tag}")

    def text(self, text):
        cut = self.chance.randrange(len(text) + 1) if self.chance.random() < 0.2 else 0
        for it in ([text[:cut]] if cut else []) + [text[cut:]]:
            self.lines.append("-" + escaped(it))
            if self.chance.random() < 0.05:
                self.lines.append("?go on")


def lines_of(root, chance):
    writer = LineWriter(chance)
    writer.element(root, {"": "", "xml": XML})
    return writer.lines


def as_bytes(lines):
    return "".join(it + "\n" for it in lines).encode()


class Malformed(Exception):
    """The lines are not a document."""


def split_name(name):
    parts = name.split(":")
    if len(parts) > 2 or not all(map(NCNAME.match, parts)):
        raise Malformed
    return ("", parts[0]) if len(parts) == 1 else tuple(parts)


class LineReader:
    """Reads PYX lines and reports them to a `Judging`. It finds no faults of characters, and no broken limits: its input has none."""

    def __init__(self, judging):
        self.judging, self.scopes, self.opened = judging, [{"": "", "xml": XML}], []
        self.tag, self.is_done = None, False

    def lookup(self, prefix):
        if prefix not in self.scopes[-1]:
            raise Malformed
        return self.scopes[-1][prefix]

    def take(self, line):
        kind, rest = line[:1], line[1:]
        if kind == "A":
            self.attribute(rest)
            return
        self.finish_tag()
        if kind == "(":
            if self.is_done:
                raise Malformed
            split_name(rest)
            self.tag = (rest, [])
        elif kind == "-" and self.opened:
            if re.search(r"\\(?![nt\\])", rest.replace("\\\\", "")):
                raise Malformed
            self.judging.text(unescaped(rest))
        elif kind == ")" and self.opened and self.opened[-1] == rest:
            self.opened.pop()
            self.scopes.pop()
            self.judging.end()
            self.is_done = not self.opened
        elif kind != "?":
            raise Malformed

    def attribute(self, rest):
        name, space, value = rest.partition(" ")
        if self.tag is None or not space or any(name == it for it, _ in self.tag[1]) or re.search(r"\\(?![nt\\])", value.replace("\\\\", "")):
            raise Malformed
        split_name(name)
        self.tag[1].append((name, unescaped(value)))

    def finish_tag(self):
        """Reports the tag, which is complete now: its declarations apply to it."""
        if self.tag is None:
            return
        name, attributes = self.begin_tag()
        self.judging.open(name, attributes)
        self.judging.close_tag()
        self.tag = None

    def begin_tag(self):
        written, given = self.tag
        scope = dict(self.scopes[-1])
        for name, value in given:
            prefix, local = split_name(name)
            if name == "xmlns" or prefix == "xmlns":
                declare(scope, local if prefix else "", value)
        self.scopes.append(scope)
        self.opened.append(written)
        prefix, local = split_name(written)
        attributes = [(self.attribute_name(name), value) for name, value in given if name != "xmlns" and not name.startswith("xmlns:")]
        if len(dict(attributes)) < len(attributes) or prefix == "xmlns":
            raise Malformed
        return (self.lookup(prefix), local), attributes

    def attribute_name(self, name):
        prefix, local = split_name(name)
        return (self.lookup(prefix) if prefix else "", local)


def declare(scope, prefix, uri):
    xmlns = "http://www.w3.org/2000/xmlns/"
    if prefix == "xmlns" or uri == xmlns or (prefix == "xml") != (uri == XML) or (prefix and not uri):
        raise Malformed
    scope[prefix] = uri


def verdict(patterns, lines):
    """`valid`, `invalid` or `malformed`, by the plain matcher."""
    reader = LineReader(Judging(patterns))
    try:
        for line in lines:
            reader.take(line)
        reader.finish_tag()
        if not reader.is_done:
            raise Malformed
    except Malformed:
        return "malformed"
    return "valid" if reader.judging.left.nullable else "invalid"


class Building:
    """Replaces `matching.Judging`, and builds the tree."""

    def __init__(self):
        self.opened = [("", [], [])]

    def open(self, name, attributes):
        self.opened.append((name, attributes, []))

    def close_tag(self):
        pass

    def text(self, text):
        self.opened[-1][2].append(text)

    def end(self):
        done = self.opened.pop()
        self.opened[-1][2].append(done)


def tree_of(lines):
    """The root of a document; None if it is malformed."""
    reader = LineReader(Building())
    try:
        for line in lines:
            reader.take(line)
    except Malformed:
        return None
    return reader.judging.opened[0][2][0] if reader.is_done else None


# ---- XML

MARKUP = {"&": "&amp;", "<": "&lt;", ">": "&gt;", '"': "&quot;", "\r": "&#13;", "\n": "&#10;", "\t": "&#9;"}


def as_xml(lines):
    """A document that is not malformed, as XML."""
    written, tag = [], None
    for line in lines:
        kind, rest = line[0], line[1:]
        if kind == "A":
            name, value = rest.split(" ", 1)
            tag += f' {name}="{marked(unescaped(value))}"'
            continue
        written.append(tag + ">" if tag else "")
        tag = f"<{rest}" if kind == "(" else None
        written.append({"(": "", ")": f"</{rest}>", "-": marked(unescaped(rest)), "?": f"<?go {rest}?>"}[kind])
    return "".join(written)


def marked(text):
    return "".join(MARKUP.get(it, it) for it in text)


