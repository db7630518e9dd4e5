"""Why a document is invalid, by the plain matcher (`matching.py`) and by trying. It shares nothing with the program under test.

The start or end is found after which nothing is left. What is left before it is then tried with other names, and attribute by attribute (sections 6.2.7 and
6.2.8 of the RELAX NG specification). An element, an attribute or a text counts where its pattern stands, whether or not something can match it.
"""
import documents
from matching import BLANKS, Judging, Patterns, in_class, is_blank
from schemas import EMPTY, children

ELEMENT, ATTRIBUTE, ATTRIBUTE_VALUE, MISSING = "element-not-allowed", "attribute-not-allowed", "attribute-value", "attributes-missing"
TEXT, TEXT_VALUE, INCOMPLETE = "text-not-allowed", "text-value", "incomplete"
TEXTS = ("text", "data", "value", "list")
FRESH, FRESH_URI = "fresh", "urn:fresh"


# ---- names of a schema

def below(pattern):
    """The pattern and all patterns in it."""
    yield pattern
    for it in children(pattern):
        yield from below(it)


def patterns_of(schema, kind):
    """The patterns of a kind in a schema."""
    return [it for body in (schema.start, *schema.definitions.values()) for it in below(body) if it[0] == kind]


def only_name(name_class):
    """The name that is alone in the class, or None."""
    while name_class[0] == "alternatives" and len(name_class[1]) == 1:
        name_class = name_class[1][0]
    return name_class[1:] if name_class[0] == "name" else None


def plain_names(name_class):
    """The names in the class that are written as such."""
    if name_class[0] == "name":
        return {name_class[1:]}
    return set().union(*map(plain_names, name_class[1])) if name_class[0] == "alternatives" else set()


def written_names(name_class):
    """The names and the namespaces that are written in a class, in excepts too."""
    if name_class is None:
        return set(), set()
    if name_class[0] == "name":
        return {name_class[1:]}, {name_class[1]}
    inner = [written_names(it) for it in (name_class[1] if name_class[0] == "alternatives" else [name_class[-1]])]
    own = {name_class[1]} if name_class[0] == "namespace" else set()
    return set().union(*(names for names, _ in inner)), own.union(*(spaces for _, spaces in inner))


def tried_names(schema):
    """The names to try: those of the elements of the schema, a new one in each of their namespaces, and one in a new namespace."""
    found = [written_names(it[1]) for it in patterns_of(schema, "element")]
    spaces = {"", FRESH_URI}.union(*(spaces for _, spaces in found))
    return {(uri, FRESH) for uri in spaces}.union(*(names for names, _ in found))


# ---- patterns

class ReasonPatterns(Patterns):
    """The patterns of a schema, after the rules of 4.20 for notAllowed."""

    def __init__(self, schema):
        super().__init__(schema)
        self.lacking = self.node("attribute", ("alternatives", ()), EMPTY, nullable=False)
        self.names = tried_names(schema)

    def of(self, pattern):
        """The node of a pattern. An attribute or a list in which nothing is allowed is itself not allowed."""
        if pattern[0] in ("attribute", "list") and self.of(pattern[-1]) is self.none:
            return self.none
        return super().of(pattern)

    def body(self, node):
        """The same. An element whose content is not allowed may start, but lacks an attribute that it can never have."""
        found = super().body(node)
        return self.lacking if found is self.none and node.kind == "element" else found

    def leaves(self, node):
        """The elements and texts that may come first."""
        kind, parts = node.kind, node.parts
        if kind in TEXTS or kind == "element":
            yield node
        elif kind in ("choice", "interleave"):
            for it in parts:
                yield from self.leaves(it)
        elif kind == "group":
            yield from self.leaves(parts[0])
            if parts[0].nullable:
                yield from self.leaves(parts[1])
        elif kind in ("plus", "after"):
            yield from self.leaves(parts[0])

    def attributes(self, node):
        """The attributes of the innermost element."""
        if node.kind == "attribute":
            yield node
        elif node.kind in ("choice", "group", "interleave", "plus", "after"):
            for it in node.parts[:1] if node.kind == "after" else node.parts:
                yield from self.attributes(it)

    def with_others(self, node, name):
        """The node in which all attributes have been taken but those that only this name has."""
        kind, parts = node.kind, node.parts
        if kind == "attribute":
            return node if node is self.lacking or only_name(parts[0]) == name else self.empty
        if kind == "choice":
            return self.choice([self.with_others(it, name) for it in parts])
        if kind in ("group", "interleave"):
            return self.pair(kind, self.with_others(parts[0], name), self.with_others(parts[1], name))
        if kind == "plus":
            return self.plus(self.with_others(parts[0], name))
        return self.after(self.with_others(parts[0], name), parts[1]) if kind == "after" else node

    def may_start(self, node, name):
        return self.derived(Patterns.start, node, name) is not self.none

    def may_have_text(self, node):
        return any(it.kind in TEXTS for it in self.leaves(node))

    def after_tag(self, node, name, attributes):
        """What a tag leaves."""
        left = self.derived(Patterns.start, node, name)
        for attribute, value in attributes:
            left = self.derived(Patterns.attribute, left, attribute, value)
        return self.derived(Patterns.close, left)

    def is_needed(self, node, name):
        """Whether no alternative can be closed without an attribute of this name."""
        return self.derived(Patterns.close, self.with_others(node, name)) is self.none

    def has_only_lacking(self, node):
        """Whether nothing is allowed in each of the elements that have begun."""
        return all(it.parts[0] is self.lacking for it in (node.parts if node.kind == "choice" else [node]))


# ---- faults

class Fault:
    """The start or end after which nothing is left: the name and the attributes of a start, the text directly before it, and what is left before that."""

    def __init__(self, judging, name=None, attributes=()):
        self.before, self.text, self.name, self.attributes = judging.left, judging.pending, name, attributes
        self.line = None

    @property
    def is_end(self):
        return self.name is None


class Watching(Judging):
    """A document that is being judged, up to the first fault."""

    def __init__(self, patterns):
        super().__init__(patterns)
        self.fault = None

    def open(self, name, attributes):
        if self.fault is None:
            fault = Fault(self, name, attributes)
            super().open(name, attributes)
            super().close_tag()
            self.fault = fault if self.left is self.patterns.none else None

    def close_tag(self):
        """The tag is closed in `open`."""

    def text(self, text):
        if self.fault is None:
            super().text(text)

    def end(self):
        if self.fault is None:
            fault = Fault(self)
            super().end()
            self.fault = fault if self.left is self.patterns.none else None


def fault_of(patterns, lines):
    """The first fault of a document, or None."""
    watching = Watching(patterns)
    reader = documents.LineReader(watching)
    tag_line = None
    for number, line in enumerate(lines):
        was_found = watching.fault is not None
        reader.take(line)
        if watching.fault is not None and not was_found:
            watching.fault.line = number if watching.fault.is_end else tag_line
        tag_line = number if line[0] == "(" else tag_line
    if not reader.is_done:
        raise documents.Malformed
    return watching.fault


# ---- places

def scope_behind(lines):
    """The namespaces of the prefixes behind these lines."""
    reader = documents.LineReader(documents.Building())
    for line in lines:
        reader.take(line)
    reader.finish_tag()
    return reader.scopes[-1]


def column_behind(lines):
    """The column of what comes behind these lines in XML."""
    return 1 + len(documents.as_xml([*lines, "-"]))


def text_begin(lines):
    """How many lines come before the text at the end, with its instructions."""
    end = len(lines)
    while end and lines[end - 1][0] in "-?":
        end -= 1
    return end


def text_column(lines):
    """The column of the first character that is no blank in the text at the end of the lines."""
    for number in range(text_begin(lines), len(lines)):
        text = documents.unescaped(lines[number][1:])
        if lines[number][0] == "-" and not is_blank(text):
            blank = text[:len(text) - len(text.lstrip(BLANKS))]
            return column_behind([*lines[:number], "-" + documents.escaped(blank)])
    return None


def lines_before_end(lines):
    """The lines before the place of an end: that of its tag, if nothing is in its element."""
    tag = len(lines)
    while lines[tag - 1] == "-" or lines[tag - 1][0] == "A":
        tag -= 1
    return lines[:tag - 1] if lines[tag - 1][0] == "(" else lines


# ---- reasons

class Reason:
    """Why a document is invalid. What does not belong to the reason is None.

    `names` says of each name that was tried whether its element may start in the state `state`. `texts` has the values and datatypes that may come, each as
    (kind, type, text or parameters), and `has_text` says whether any text may. `attribute` is the one at fault, `others` has those that the tag could have in
    its place, and `missing` those that it must have. `is_never` says that the element may start but that nothing is allowed in it: its name is then not
    expected. `scope` has the namespaces of the prefixes; `column` and `name` are what is there.
    """

    def __init__(self, reason, at):
        self.reason, self.at = reason, at
        self.state = self.names = self.texts = self.attribute = self.others = self.missing = self.scope = self.column = self.name = None
        self.has_text = self.is_never = False

    def in_state(self, patterns, state):
        """Notes what may come in this state."""
        self.state = state
        self.names = {it: patterns.may_start(state, it) for it in patterns.names}
        return self.with_texts(patterns, state)

    def with_texts(self, patterns, *states):
        """Notes the texts that may come in these states."""
        leaves = [it for state in states for it in patterns.leaves(state)]
        self.has_text = any(it.kind in TEXTS for it in leaves)
        self.texts = {("data", *it.parts[:2]) if it.kind == "data" else ("value", it.parts[0] or "token", it.parts[1])
                      for it in leaves if it.kind in ("data", "value")}
        return self

    def datatype(self):
        """The datatype that is told: the only one that may come, with whatever parameters, if no value may."""
        (kind, name), *others = {it[:2] for it in self.texts} or [("", "")]
        return name if kind == "data" and not others else None


def of_attribute(patterns, fault, left, name):
    """The reason if nothing that is left takes the attribute of this name."""
    takers = [it for it in patterns.attributes(left) if in_class(it.parts[0], name)]
    found = Reason(ATTRIBUTE_VALUE if takers else ATTRIBUTE, "attribute")
    found.attribute = name
    if takers:
        return found.with_texts(patterns, *map(patterns.body, takers))
    named = set().union(*(plain_names(it.parts[0]) for it in patterns.attributes(left)))
    found.others = named - {it for it, _ in fault.attributes}
    return found


def of_start(patterns, fault, left):
    """The reason why a start leaves nothing of what is left before it. The text before it is not at fault."""
    begun = patterns.derived(Patterns.start, left, fault.name)
    if begun is patterns.none or patterns.has_only_lacking(begun):
        found = Reason(ELEMENT, "element").in_state(patterns, left)
        found.is_never = begun is not patterns.none
        found.names[fault.name] = False
        return found
    rest = begun
    for name, value in fault.attributes:
        before, rest = rest, patterns.derived(Patterns.attribute, rest, name, value)
        if rest is patterns.none:
            return of_attribute(patterns, fault, before, name)
    found = Reason(MISSING, "element")
    alone = {only_name(it.parts[0]) for it in patterns.attributes(rest)} - {None}
    found.missing = {it for it in alone if patterns.is_needed(rest, it)}
    return found


def of_end(patterns, fault, left, may_be_text):
    """The reason why an end leaves nothing. A text before it is at fault if none is allowed there, or if no element may come behind it."""
    found = Reason(INCOMPLETE, "end").in_state(patterns, left)
    by_text = Reason(TEXT_VALUE if may_be_text else TEXT, "text").in_state(patterns, fault.before)
    is_text = not is_blank(fault.text) and not (may_be_text and any(found.names.values()))
    return by_text if is_text else found


def without_place(patterns, fault):
    """The reason for a fault, without its place."""
    has_text, may_be_text = not is_blank(fault.text), patterns.may_have_text(fault.before)
    left = patterns.derived(Patterns.string, fault.before, fault.text) if has_text else fault.before
    if fault.is_end:
        return of_end(patterns, fault, left, may_be_text)
    if has_text and (not may_be_text or patterns.after_tag(fault.before, fault.name, fault.attributes) is not patterns.none):
        return Reason(TEXT, "text").in_state(patterns, fault.before)
    return of_start(patterns, fault, left)


def reason_of(patterns, lines):
    """Why a document is invalid, or None if it is valid."""
    fault = fault_of(patterns, lines)
    if fault is None:
        return None
    found = without_place(patterns, fault)
    before = lines[:fault.line]
    if found.at == "text":
        found.scope, found.column, found.name = scope_behind(before[:text_begin(before)]), text_column(before), fault.text.lstrip(BLANKS)
        return found
    found.name = lines[fault.line][1:]
    if fault.is_end:
        found.scope, found.column = scope_behind(before), column_behind(lines_before_end(before))
    else:
        tag_end = next(it for it in range(fault.line + 1, len(lines)) if lines[it][0] != "A")
        found.scope, found.column = scope_behind(lines[:tag_end]), column_behind(before)
    return found
