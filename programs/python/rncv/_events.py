"""Names, attributes and trees as events: what `Validator.events` and `Validator.validate_tree` share."""

from __future__ import annotations

import ctypes
import dataclasses
from collections.abc import Iterable, Iterator, Mapping
from typing import Any, Optional, Union

from ._expected import Expected
from ._reasons import Reason

Attributes = Union[Mapping[str, str], Iterable[tuple[str, str]]]


class Attribute(ctypes.Structure):
    """An attribute, as the library takes it."""

    _fields_ = [
        ("uri", ctypes.c_char_p),
        ("uri_length", ctypes.c_size_t),
        ("local", ctypes.c_char_p),
        ("local_length", ctypes.c_size_t),
        ("value", ctypes.c_char_p),
        ("value_length", ctypes.c_size_t),
    ]


@dataclasses.dataclass(frozen=True)
class EventVerdict:
    """The verdict on a document that came as events. It is true exactly if the document is valid.

    `kind` is "valid", "invalid", or "malformed" if the calls are no document. `place` is that of the start or end after which no continuation is valid, for an
    invalid document, and otherwise None. A text has the place of the start or end behind it. `expected` is what could have come before that place, and
    `reason` why nothing can follow it, for an invalid document, unless memory ran out.
    """

    kind: str
    place: Optional[int] = None
    expected: Optional[Expected] = dataclasses.field(default=None, compare=False, repr=False)
    reason: Optional[Reason] = dataclasses.field(default=None, compare=False, repr=False)

    @property
    def valid(self) -> bool:
        """Whether the document is valid."""
        return self.kind == "valid"

    def __bool__(self) -> bool:
        return self.valid

    def __str__(self) -> str:
        return self.kind if self.place is None else f"{self.kind} at {self.place}"


@dataclasses.dataclass(frozen=True)
class TreeVerdict:
    """The verdict on a tree. It is true exactly if the tree is valid.

    `kind` is "valid", "invalid", or "malformed" if the tree is no document. For a tree that is not valid, `element` is the element at whose start or end no
    continuation is valid, or with what no document begins, and `at` says where in it: "start", "text", "end" or "tail" (the text behind it). A text that
    makes a tree invalid is reported at the start or end behind it. For a valid tree both are None. `expected` and `reason` are those of `EventVerdict`.
    """

    kind: str
    element: Any = None
    at: Optional[str] = None
    expected: Optional[Expected] = dataclasses.field(default=None, compare=False, repr=False)
    reason: Optional[Reason] = dataclasses.field(default=None, compare=False, repr=False)

    @property
    def valid(self) -> bool:
        """Whether the tree is valid."""
        return self.kind == "valid"

    def __bool__(self) -> bool:
        return self.valid

    def __str__(self) -> str:
        return self.kind if self.at is None else f"{self.kind} at the {self.at} of {_written(self.element.tag)}"


def utf8_of(text: Any) -> bytes:
    """The text in UTF-8. A lone surrogate has no UTF-8, and the library refuses what it gets for one."""
    if not isinstance(text, str):
        raise TypeError(f"a name or a text is str, and not {type(text).__name__}")
    return str.encode(text, "utf-8", "surrogatepass")


def parts_of(name: Any) -> tuple[bytes, bytes]:
    """The namespace and the local name of a name, which is written as `local` or `{uri}local`."""
    written = utf8_of(_written(name))
    uri, brace, local = written.rpartition(b"}")
    return (uri[1:], local) if brace and written.startswith(b"{") else (b"", written)


def array_of(attributes: Any) -> Any:
    """Attributes as the library takes them."""
    pairs = attributes.items() if hasattr(attributes, "items") else attributes
    given = []
    for pair in pairs:
        if isinstance(pair, (str, bytes)) or len(pair) != 2:
            raise TypeError("attributes are a mapping, or pairs of a name and a value")
        (uri, local), value = parts_of(pair[0]), utf8_of(_written(pair[1]))
        given.append(Attribute(uri, len(uri), local, len(local), value, len(value)))
    return (Attribute * len(given))(*given)


def walk(root: Any) -> Iterator[tuple[str, Any]]:
    """What a tree has, in order: "start", "text", "end" and "tail", each with its element. The tail of the root is no part of it. Of comments and processing
    instructions there is the tail alone. ValueError: an element is in itself, so the tree has no end."""
    yield "start", root
    yield "text", root
    open_elements = [(root, children_of(root))]
    numbers = {id(root)}
    while open_elements:
        element, children = open_elements[-1]
        child = next(children, None)
        if child is None:
            yield "end", element
            open_elements.pop()
            numbers.remove(id(element))
            if open_elements:
                yield "tail", element
        elif is_element(child):
            if id(child) in numbers:
                raise ValueError("an element of the tree is in itself")
            numbers.add(id(child))
            yield "start", child
            yield "text", child
            open_elements.append((child, children_of(child)))
        else:
            yield "tail", child


def children_of(element: Any) -> Iterator[Any]:
    """The children of an element. One of `lxml.objectify` iterates over itself and the elements beside it that have its name."""
    children: Iterator[Any] = element.iterchildren() if hasattr(type(element), "iterchildren") else iter(element)
    return children


def is_element(node: Any) -> bool:
    """Whether a node of a tree is an element, and not a comment or a processing instruction."""
    tag = node.tag
    if not callable(tag):
        return True
    kind = getattr(tag, "__name__", "")
    if kind not in ("Comment", "ProcessingInstruction", "PI"):
        raise ValueError(f"a node of the tree is neither an element, a comment nor a processing instruction: {kind or tag!r}")
    return False


def root_of(tree: Any) -> Any:
    """The root of a tree: an element, or what has one by `getroot`."""
    # an element of `lxml.objectify` has its children as attributes, whatever they are called
    root = tree.getroot() if hasattr(type(tree), "getroot") else tree
    if not (hasattr(root, "tag") and hasattr(root, "attrib") and hasattr(root, "tail")) or not is_element(root):
        raise TypeError(f"a tree is an element of xml.etree.ElementTree or lxml, and not {type(root).__name__}")
    return root


def _written(name: Any) -> Any:
    """The text of a name; that of a `QName`, which such trees may have in place of one."""
    return name if isinstance(name, str) else getattr(name, "text", name)
