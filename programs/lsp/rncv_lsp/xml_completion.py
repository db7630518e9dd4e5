"""What may come at the cursor of a document, as items of the protocol."""
from __future__ import annotations

import dataclasses
import re
from typing import Any, Dict, Iterable, List, Optional, Tuple
from xml.sax.saxutils import escape, quoteattr

from rncv_lsp.outside import rncv
from rncv_lsp.schema_declarations import Declaration, Declarations
from rncv_lsp.simple_form import BOOLEANS, XML_NAMESPACE, XSD, Attribute, Form, Name
from rncv_lsp.texts import LINE_END, Text
from rncv_lsp.xml_cursor import IN_TAG, Cursor
from rncv_lsp.xml_stretches import expanded

# Kinds of items of the protocol, and its number of a snippet.
ELEMENT, ATTRIBUTE, VALUE, SNIPPET = 10, 5, 12, 2
MOST_ITEMS = 2_000
# What is written in values, and in content, for characters that a parser would change or that would end the value.
IN_QUOTES = {'"': "&quot;", "'": "&apos;", "\t": "&#9;", "\n": "&#10;", "\r": "&#13;"}
IN_CONTENT = {"\r": "&#13;"}
PLAIN = re.compile(r"[-\w.:#+/ ]+")


@dataclasses.dataclass(frozen=True)
class Knowledge:
    """What is known of the schema of a document."""

    form: Form
    declarations: Declarations


@dataclasses.dataclass(frozen=True)
class Asked:
    """What is asked: the cursor in a text, what the schema expects there (None: not known), and what the client can do."""

    lines: Text
    cursor: Cursor
    expected: Optional[rncv.Expected]
    encoding: str
    has_snippets: bool


class Completion:
    """The items for one cursor."""

    def __init__(self, asked: Asked, known: Optional[Knowledge]) -> None:
        self._asked, self._cursor, self._known = asked, asked.cursor, known
        self._items: List[Dict[str, Any]] = []
        self._scope = asked.cursor.scope
        self._range = asked.lines.range(asked.cursor.start, asked.cursor.end, asked.encoding)

    def items(self) -> List[Dict[str, Any]]:
        """All items."""
        kind = self._cursor.kind
        if kind in ("element", "end") and self._cursor.open:
            self._add_end(kind == "element")
        if self._known is not None and kind == "element":
            self._add_elements("")
        elif self._known is not None and kind == "attribute":
            self._add_attributes()
        elif self._known is not None and kind == "value":
            self._add_values_of_attribute()
        elif self._known is not None and kind == "content" and self._cursor.open:
            self._add_content()
        elif self._known is not None and kind == "content" and not self._cursor.words.strip():
            self._add_elements("<")
        return self._items[:MOST_ITEMS]

    def _add(self, kind: int, label: str, words: str, **others: Any) -> None:
        """Adds an item that replaces what is at the cursor."""
        item = {"label": label, "kind": kind, "sortText": f"{len(self._items):05}", "filterText": label, "textEdit": {"range": self._range, "newText": words}}
        item.update({name: value for name, value in others.items() if value})
        self._items.append(item)

    def _add_end(self, has_slash: bool) -> None:
        """Adds the end tag of the innermost element."""
        name = self._cursor.open[-1].name
        is_closed = self._cursor.after.lstrip().startswith(">")
        label = f"/{name}" if has_slash else name
        self._add(ELEMENT, label, label if is_closed else f"{label}>")
        self._items[-1]["sortText"] = "99999" if has_slash else "00000"

    def _add_elements(self, bracket: str) -> None:
        """Adds the elements that may come."""
        for name in self._elements():
            written, declaration = self._written(name)
            words, is_snippet = self._tag(bracket + written, declaration, name)
            self._add(ELEMENT, written, words, insertTextFormat=SNIPPET if is_snippet else 0, detail=name[0],
                      documentation=documentation_of(self._known.declarations.element(name, self._parent)))

    @property
    def _parent(self) -> Optional[Name]:
        """The name of the innermost element."""
        return self._cursor.open[-1].expanded if self._cursor.open else None

    def _elements(self) -> List[Name]:
        """The names that the schema expects, in the order of its patterns. If the document is not valid before the cursor, the names that the innermost element
        may have anywhere."""
        parent = self._parent
        children = self._known.form.content(parent).children if parent is not None else ()
        if self._asked.expected is None:
            return list(children)
        order = {name: index for index, name in enumerate(children or self._known.form.elements)}
        parts = [each.name.rpartition("}") for each in self._asked.expected.elements]
        found = [(uri[1:] if brace else "", local) for uri, brace, local in parts if local != "*"]
        return sorted(found, key=lambda name: order.get(name, len(order)))

    def _written(self, name: Name) -> Tuple[str, Dict[str, str]]:
        """How the name of an element is written here, and the declaration that it needs, if it needs one."""
        (uri, local), scope = name, self._scope
        typed = self._cursor.words.rpartition(":")[0] if self._cursor.kind == "element" else ""
        near = self._cursor.open[-1].name.rpartition(":")[0] if self._cursor.open else ""
        prefix = next((prefix for prefix in (typed, near, "", *scope) if scope.get(prefix) == uri), None)
        return (local, {"xmlns": uri}) if prefix is None else (f"{prefix}:{local}" if prefix else local, {})

    def _tag(self, head: str, declared: Dict[str, str], name: Name) -> Tuple[str, bool]:
        """The text of an element, and whether it is a snippet. In a tag that is there already only the name is written."""
        is_there = self._cursor.kind == "element" and IN_TAG.match(self._cursor.after)
        tag, (attributes, is_filled) = head.lstrip("<"), self._known.form.need(name)
        head += "" if is_there else "".join(f" {each}={quoteattr(uri)}" for each, uri in declared.items())
        if is_there or not self._asked.has_snippets:
            return head, False
        written = [(prefixed(attribute.name, self._scope), attribute) for attribute in attributes]
        given = [(each, attribute) for each, attribute in written if each is not None]
        places = "".join(f' {literal(each)}="{place_for(attribute, number)}"' for number, (each, attribute) in enumerate(given, 1))
        return literal(head) + places + (f">$0</{literal(tag)}>" if is_filled else "/>$0"), True

    def _add_attributes(self) -> None:
        """Adds the attributes that the tag may have and has not."""
        cursor, known = self._cursor, self._known
        scope = self._scope
        there = {attribute_name(name, scope) for name in cursor.given[::2]}
        found = [each for each in known.form.content(cursor.element).attributes if each.name not in there]
        is_alone = not cursor.after.lstrip().startswith("=")
        self._add_namespace()
        gap = "" if cursor.after[:1].isspace() or cursor.after[:1] in ("", "/", ">", "<") else " "
        for attribute in sorted(found, key=lambda each: not each.is_required):
            name, declared = self._attribute_written(attribute.name, scope)
            if name is None:
                continue
            words, is_snippet = name, False
            if is_alone and self._asked.has_snippets:
                words, is_snippet = f'{literal(declared + name)}="{place_for(attribute, 1)}"{gap}$0', True
            elif is_alone:
                words = f'{declared}{name}=""{gap}'
            self._add(ATTRIBUTE, name, words, insertTextFormat=SNIPPET if is_snippet else 0, detail="required" if attribute.is_required else "",
                      documentation=documentation_of(known.declarations.attribute(attribute.name, cursor.element)))

    def _add_namespace(self) -> None:
        """Adds a declaration of the namespace in which the schema has an element of the tag's name, if it has none in the namespace that holds."""
        prefix, local = self._cursor.tag.rpartition(":")[::2]
        name = f"xmlns:{prefix}" if prefix else "xmlns"
        if name in self._cursor.given[::2] or self._known.form.is_declared(self._cursor.element):
            return
        for uri in self._known.form.namespaces(local):
            if self._known.form.is_declared((uri, local)):
                self._add(ATTRIBUTE, name, f"{name}={quoteattr(uri)}", detail=uri)

    def _attribute_written(self, name: Name, scope: Dict[str, str]) -> Tuple[Optional[str], str]:
        """How the name of an attribute is written here, and a declaration that it needs. None: its prefix is not known, or means something else here."""
        written = prefixed(name, scope)
        prefix = self._known.declarations.prefixes.get(name[0])
        if written is not None or not prefix or prefix in scope:
            return written, ""
        return f"{prefix}:{name[1]}", f"xmlns:{prefix}={quoteattr(name[0])} "

    def _add_values_of_attribute(self) -> None:
        """Adds the values that the schema lists for an attribute."""
        cursor = self._cursor
        if cursor.attribute.partition(":")[0] == "xmlns":
            self._add_values(self._known.form.namespaces(cursor.tag.rpartition(":")[2]), False)
            return
        wanted = attribute_name(cursor.attribute, cursor.scope)
        for attribute in self._known.form.content(cursor.element).attributes:
            if attribute.name == wanted:
                self._add_values(attribute.values, attribute.is_list)

    def _add_values(self, values: Iterable[str], is_list: bool) -> None:
        """Adds values. In a list only the item at the cursor is replaced."""
        words = LINE_END.split(self._cursor.words)[-1]
        begin = self._cursor.end if self._cursor.kind == "content" else self._cursor.start + len(words)
        begin -= len(re.split("[ \t]", words)[-1]) if is_list else len(words.lstrip())
        before, self._range = self._range, self._asked.lines.range(begin, self._cursor.end, self._asked.encoding)
        for value in values:
            self._add(VALUE, value, escape(value, IN_QUOTES if self._cursor.kind == "value" else IN_CONTENT))
        self._range = before

    def _add_content(self) -> None:
        """Adds what may come between tags: elements where nothing is typed, and values."""
        expected, content = self._asked.expected, self._known.form.content(self._cursor.open[-1].expanded)
        if expected is None or (content.is_list and not expected.values):
            self._add_values(content.values, content.is_list)
        else:
            booleans = BOOLEANS if any((each.library, each.name) == (XSD, "boolean") for each in expected.datatypes) else ()
            order = {value: index for index, value in enumerate(content.values)}
            listed = sorted((value.text for value in expected.values), key=lambda text: order.get(text, len(order)))
            self._add_values(dict.fromkeys([*listed, *booleans]), False)
        if not self._cursor.words.strip():
            self._add_elements("<")


def documentation_of(found: List[Declaration]) -> str:
    """The documentation of these declarations, each once."""
    return "\n\n".join(dict.fromkeys(each.documentation for each in found if each.documentation))


def attribute_name(written: str, scope: Dict[str, str]) -> Name:
    """The expanded name of an attribute. Without a prefix it has no namespace."""
    return expanded(written, scope) if ":" in written else ("", written)


def prefixed(name: Name, scope: Dict[str, str]) -> Optional[str]:
    """The name of an attribute with a prefix that means its namespace; None if there is no such prefix."""
    uri, local = name
    if not uri:
        return local
    prefix = "xml" if uri == XML_NAMESPACE else next((prefix for prefix, meant in scope.items() if prefix and meant == uri), None)
    return None if prefix is None else f"{prefix}:{local}"


def literal(words: str) -> str:
    """A text in a snippet, where some characters have a meaning."""
    return re.sub(r"([\\$}])", r"\\\1", words)


def place_for(attribute: Attribute, number: int) -> str:
    """The place in a snippet for the value of an attribute: with the values that the schema lists, if they are plain."""
    values = attribute.values
    if attribute.is_list or not values or not all(map(PLAIN.fullmatch, values)):
        return f"${number}"
    return values[0] if len(values) == 1 else f"${{{number}|{','.join(values)}|}}"
