"""What the simple form of a schema says of elements and attributes: `rncv simple` prints it, and docs/use/LANGUAGE.md describes it. Lines are read as they are
needed, since most of a large form never is."""
from __future__ import annotations

import functools
import re
from typing import Dict, Iterator, List, NamedTuple, Optional, Sequence, Set, Tuple

from rncv_lsp.outside import NoToken, Token, tokens

# The URI of a namespace, and a local name.
Name = Tuple[str, str]
XML_NAMESPACE = "http://www.w3.org/XML/1998/namespace"
XSD = "http://www.w3.org/2001/XMLSchema-datatypes"
PLAIN_ELEMENT = re.compile(r"^e[0-9]+ = element ((?:n[0-9]+:)?[^\s(){}|*:-][^\s(){}|*:]*) \{ ", re.M)
REFERENCE = re.compile(r"[ep][0-9]+")
CHILD = re.compile(r"""\be([0-9]+)\b|"[^"]*"|'[^']*'""")
BOOLEANS = ("true", "false")


class Part(NamedTuple):
    """What stands where a pattern is written: `kind` is "empty", "text" or "notAllowed"; "pattern" or "element", and then `name` is that of its line; "data",
    and then `name` is that of the datatype; or "value", with the value in `text`."""

    kind: str
    name: str = ""
    text: str = ""


class Line(NamedTuple):
    """A line of the form: `kind` is "element", "attribute", "list", "+", "|", ",", "&" or "-". The first two have the tokens of a name class."""

    kind: str
    parts: Tuple[Part, ...]
    names: Tuple[Token, ...] = ()


class Attribute(NamedTuple):
    """An attribute that an element may have. `is_list` says that its value is a list, with items among the `values`."""

    name: Name
    is_required: bool
    values: Tuple[str, ...]
    is_list: bool


class Content(NamedTuple):
    """What elements of a name may have: attributes, names of elements in them, and values that the schema lists for their text. `is_list` says that the text
    may be a list, with items among the values."""

    attributes: Tuple[Attribute, ...]
    children: Tuple[Name, ...]
    values: Tuple[str, ...]
    is_list: bool


class Need(NamedTuple):
    """What each match of a pattern has: attributes, each with the lines that declare it. `is_filled` says that it may also have elements or texts."""

    attributes: Dict[Name, Tuple[str, ...]]
    is_filled: bool


NO_NEED, FILLED = Need({}, False), Need({}, True)


class Form:
    """The simple form of a schema."""

    def __init__(self, text: str) -> None:
        self._lines: Dict[str, str] = {}
        self._namespaces: Dict[str, str] = {}
        self._prefixes: Dict[str, str] = {"": "", "xml": XML_NAMESPACE}
        self._read: Dict[str, Optional[Line]] = {}
        self._known: Dict[Name, Content] = {}
        self._needs: Dict[Part, Need] = {}
        self._needed: "Dict[Name, Tuple[Tuple[Attribute, ...], bool]]" = {}
        for line in text.split("\n"):
            name, _, written = line.partition(" = ")
            if name.startswith("namespace "):
                self._namespaces[name] = written
                self._prefixes[name[10:]] = literal_of(written)
            else:
                self._lines[name] = written
        self._named, self._wild = self._elements(text)

    def schema_of_elements(self) -> str:
        """The text of a schema whose documents are all elements of this one, as the root, with their children empty, and without attributes."""
        elements = [name for name in self._lines if name.startswith("e")]
        while len(elements) > 1:  # a choice of choices is less deep than a list
            elements = [f"({' | '.join(elements[at:at + 2])})" for at in range(0, len(elements), 2)]
        namespaces = [f"{name} = {written}" for name, written in self._namespaces.items()]
        lines = [line for name, written in self._lines.items() if name not in ("", "start") for line in shallow_lines(name, written)]
        return "\n".join([*namespaces, f"start = {''.join(elements) or 'notAllowed'}", *lines]) + "\n"

    def _elements(self, text: str) -> Tuple[Dict[Name, List[str]], List[str]]:
        """The lines of elements with one name, by this name, and those of all others."""
        named: Dict[Name, List[str]] = {}
        plain: Set[str] = set()
        for found in PLAIN_ELEMENT.finditer(text):
            line = text[found.start():found.start(1)].partition(" ")[0]
            plain.add(line)
            named.setdefault(self._name_of(found[1].replace("\\", "")), []).append(line)
        return named, [line for line in self._lines if line.startswith("e") and line not in plain]

    def _name_of(self, written: str) -> Name:
        """The name that is written with a prefix or without one."""
        prefix, _, local = written.rpartition(":")
        return self._prefixes.get(prefix, ""), local

    def _line(self, name: str) -> Optional[Line]:
        """The line with this name; None if it is no line of a form."""
        if name not in self._read:
            try:
                self._read[name] = line_of(tokens(self._lines.get(name, ""))[0])
            except (NoToken, IndexError):
                self._read[name] = None
        return self._read[name]

    def _lines_for(self, name: Name) -> List[Line]:
        """The lines of elements that may have the name."""
        wild = [line for line in self._wild if (read := self._line(line)) is not None and self.holds(read.names, name)]
        return [read for line in (*self._named.get(name, ()), *wild) if (read := self._line(line)) is not None]

    @property
    def elements(self) -> Tuple[Name, ...]:
        """The names that elements have by themselves, in the order of their lines."""
        return tuple(self._named)

    def namespaces(self, local: str) -> List[str]:
        """The namespaces of the schema: first those in which there is an element of this name."""
        near = [uri for uri, each in self._named if each == local]
        return [uri for uri in dict.fromkeys((*near, *self._prefixes.values())) if uri not in ("", XML_NAMESPACE)]

    def is_declared(self, name: Name) -> bool:
        """Whether an element may have the name."""
        return bool(self._lines_for(name))

    def prepare(self) -> None:
        """Gets ready what `need` tells."""
        for name in self._named if not self._needed else ():
            self.need(name)

    def need(self, name: Name) -> "Tuple[Tuple[Attribute, ...], bool]":
        """The attributes that each element of this name has, and whether such elements may have anything between their tags."""
        if name not in self._needed:
            needs = [self._need(line.parts[0]) for line in self._lines_for(name)]
            merged = either(needs) if needs else FILLED
            self._needed[name] = tuple(self._attribute(each, lines, True) for each, lines in merged.attributes.items()), merged.is_filled
        return self._needed[name]

    def content(self, name: Name) -> Content:
        """What elements of this name may have."""
        if name not in self._known:
            self._known[name] = self._content(self._lines_for(name))
        return self._known[name]

    def _content(self, lines: List[Line]) -> Content:
        """What the elements of these lines may have. An attribute is required if all of them require it."""
        required = either([self._need(line.parts[0]) for line in lines]).attributes if lines else {}
        attributes: Dict[Name, List[str]] = {}
        children: Dict[Name, None] = {}
        parts = [line.parts[0] for line in lines]
        for part in self._reached(parts):
            line = self._line(part.name) if part.kind in ("pattern", "element") else None
            names = list(self.names(line.names)) if line is not None else []
            if line is not None and line.kind == "attribute":
                attributes.update({each: [*attributes.get(each, ()), part.name] for each in names})
            else:
                children.update(dict.fromkeys(names))
        found = [self._attribute(name, lines_of, name in required) for name, lines_of in attributes.items()]
        return Content(tuple(found), tuple(children), *self._values(parts))

    def _attribute(self, name: Name, lines: Sequence[str], is_required: bool) -> Attribute:
        """The attribute that these lines declare."""
        return Attribute(name, is_required, *self._values([line.parts[0] for each in lines if (line := self._line(each)) is not None]))

    def _reached(self, waiting: List[Part]) -> Iterator[Part]:
        """These parts and all that they consist of, each once and in their order. What is inside elements and attributes is left out."""
        waiting, seen = waiting[::-1], set()
        while waiting:
            part = waiting.pop()
            if part in seen:
                continue
            seen.add(part)
            yield part
            line = self._line(part.name) if part.kind == "pattern" else None
            if line is not None and line.kind != "attribute":
                waiting += line.parts[:1] if line.kind == "-" else line.parts[::-1]

    def _values(self, parts: List[Part]) -> Tuple[Tuple[str, ...], bool]:
        """The values that parts list, and whether one is a list of them."""
        values: List[str] = []
        is_list = False
        for each in self._reached(parts):
            line = self._line(each.name) if each.kind == "pattern" else None
            is_list |= line is not None and line.kind == "list"
            values += [each.text] if each.kind == "value" else BOOLEANS if each.kind == "data" and each.name == "xsd:boolean" else ()
        return tuple(dict.fromkeys(values)), is_list

    def _need(self, part: Part) -> Need:
        """What each match of a part has. What a part consists of is done before it, and all that is done is kept."""
        done, waiting = self._needs, [part]
        while waiting:
            each = waiting[-1]
            line = self._line(each.name) if each.kind == "pattern" else None
            left = [inner for inner in line.parts if inner not in done] if line is not None and line.kind in ("+", "|", ",", "&") else []
            if left and each not in done:
                waiting += left
                continue
            done.setdefault(each, self._need_by(each, line))
            waiting.pop()
        return done[part]

    def _need_by(self, part: Part, line: Optional[Line]) -> Need:
        """The same for a part, from what is known of those that it consists of."""
        if line is None or line.kind in ("list", "-"):
            return NO_NEED if part.kind in ("empty", "notAllowed") else FILLED
        if line.kind == "attribute":
            names = list(self.names(line.names))
            return Need({names[0]: (part.name,)}, False) if len(names) == 1 else NO_NEED
        needs = [self._needs[each] for each in line.parts]
        return either(needs) if line.kind == "|" else both(needs)

    def names(self, written: Sequence[Token]) -> Iterator[Name]:
        """The names that a name class lists. None are listed of those that it has by `*` and except."""
        if not any(token.is_sign("-") for token in written):
            yield from (self._name_of(token.text) for token in written if token.kind in ("word", "quoted", "cname"))

    def holds(self, written: Sequence[Token], name: Name) -> bool:
        """Whether a name class has the name. Each level of parentheses has two values: whether the choice has it up to now, and whether the member before an
        except has it, or None."""
        levels: List[List[Optional[bool]]] = [[False, None]]
        held = False
        for token in (*written, None):
            if token is not None and token.is_sign("("):
                levels.append([False, None])
                continue
            if token is not None and token.is_sign("-"):
                levels[-1][1] = held
                continue
            if token is None or token.is_sign("|", ")"):
                held = self._closed(levels, held, token)
            else:
                held = self._has(token, name)
        return held

    @staticmethod
    def _closed(levels: List[List[Optional[bool]]], held: bool, sign: Optional[Token]) -> bool:
        """Ends a member of a choice, and the choice too if the sign is no `|`. Returns whether what has ended has the name."""
        before, kept = levels[-1]
        member = held if kept is None else kept and not held
        levels[-1] = [bool(before) or member, None]
        if sign is not None and sign.is_sign("|"):
            return False
        return bool(levels.pop()[0]) if len(levels) > 1 else bool(levels[-1][0])

    def _has(self, token: Token, name: Name) -> bool:
        """Whether one member of a name class has the name."""
        if token.is_sign("*"):
            return True
        uri, local = self._name_of(token.text)
        return uri == name[0] and local in (name[1], "*")


def shallow_lines(name: str, written: str) -> Iterator[str]:
    """The lines for one of a form, so that it has children `s0`, `s1`, .. in place of the elements `e0`, `e1`, .."""
    if written.startswith("attribute "):
        yield f"{name} = empty"
    elif written.startswith("element "):
        names, brace, inside = written.partition(" { ")
        yield f"{name} = {names}{brace}{CHILD.sub(shallow, inside)}"
        yield f"s{name[1:]} = {names} {{ empty }}"
    else:
        yield f"{name} = {CHILD.sub(shallow, written)}"


def shallow(found: "re.Match[str]") -> str:
    """The name of a child in place of that of an element; a literal as it is."""
    return found[0] if found[1] is None else f"s{found[1]}"


def either(needs: Sequence[Need]) -> Need:
    """What all of these have."""
    shared = {name: tuple(dict.fromkeys(line for need in needs for line in need.attributes[name]))
              for name in needs[0].attributes if all(name in need.attributes for need in needs[1:])}
    is_filled = any(need.is_filled for need in needs)
    return Need(shared, is_filled) if shared else FILLED if is_filled else NO_NEED


def both(needs: Sequence[Need]) -> Need:
    """What at least one of these has."""
    filled = [need for need in needs if need.attributes]
    if len(filled) == 1 and filled[0].is_filled >= any(need.is_filled for need in needs):
        return filled[0]
    merged = {name: lines for need in filled for name, lines in need.attributes.items()}
    return Need(merged, any(need.is_filled for need in needs))


@functools.lru_cache(maxsize=256)
def literal_of(written: str) -> str:
    """The text of a literal with its joined parts."""
    try:
        return "".join(token.text for token in tokens(written)[0] if token.kind == "literal")
    except NoToken:
        return ""


def line_of(found: Sequence[Token]) -> Optional[Line]:
    """The line of these tokens, without its name."""
    kind = found[0].text
    if found[0].kind == "word" and kind in ("element", "attribute", "list"):
        brace = next((at for at, token in enumerate(found) if token.is_sign("{")), len(found))
        return Line(kind, (part_of(found, brace + 1)[0],), tuple(found[1:brace]))
    one, at = part_of(found, 0)
    sign = found[at].text
    return Line(sign, (one,)) if sign == "+" else Line(sign, (one, part_of(found, at + 1)[0]))


def part_of(found: Sequence[Token], at: int) -> Tuple[Part, int]:
    """The part that begins at this token, and where it ends."""
    word = found[at].text
    if found[at].kind == "word" and word in ("empty", "text", "notAllowed"):
        return Part(word), at + 1
    if found[at].kind == "word" and REFERENCE.fullmatch(word):
        return Part("element" if word[0] == "e" else "pattern", word), at + 1
    end = at + 1
    if end < len(found) and found[end].kind == "literal":
        end += 1
        while end + 1 < len(found) and found[end].is_sign("~") and found[end + 1].kind == "literal":
            end += 2
        return Part("value", word, "".join(token.text for token in found[at + 1:end] if token.kind == "literal")), end
    if end < len(found) and found[end].is_sign("{"):
        end = next((index for index in range(end, len(found)) if found[index].is_sign("}")), len(found) - 1) + 1
    return Part("data", word), end
