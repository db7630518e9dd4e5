"""What may come next in a document, as the library writes it."""

from __future__ import annotations

import re
from typing import NamedTuple

_ESCAPE = re.compile(r"\\(.)")
_CHARACTERS = {"n": "\n", "r": "\r", "t": "\t", "s": " "}


class NameClass(NamedTuple):
    """Names of elements. `name` is one name, `local` or `{uri}local`; or every name, `*`; or every name of a namespace, `{uri}*`, or without one, `{}*`. From
    the latter two the names of `excepted` are left out. Its `str` is the name, and then the names that are left out."""

    name: str
    excepted: tuple[NameClass, ...] = ()

    def __str__(self) -> str:
        return f"{self.name} except ({', '.join(map(str, self.excepted))})" if self.excepted else self.name


class Datatype(NamedTuple):
    """A datatype: the URI of its library, which is empty for `string` and `token` of RELAX NG, its name there, and its parameters, each a name and a value, in
    the order of the schema. That of a value has none."""

    library: str
    name: str
    parameters: tuple[tuple[str, str], ...] = ()


class Value(NamedTuple):
    """A text, and the datatype that says which other texts are equal to it."""

    text: str
    datatype: Datatype


class Expected(NamedTuple):
    """What may come next: elements with one of these names; a text that is not blank, if `text` is true; and of which values and datatypes it may be. A list,
    and any text, are told by `text` alone. Each is told once."""

    elements: tuple[NameClass, ...]
    text: bool
    values: tuple[Value, ...]
    datatypes: tuple[Datatype, ...]


class ExpectedTag(NamedTuple):
    """What a tag may have: attributes with one of these names, and among them those that it must have, as `local` or `{uri}local`. Each is told once."""

    attributes: tuple[NameClass, ...]
    required: tuple[str, ...]


class TagOptions(NamedTuple):
    """What a start may have behind some attributes: `tag` has the attributes that may still come, and those that it still needs; `value` says what the value of
    the attribute that was asked about may be, and has no elements."""

    tag: ExpectedTag
    value: Expected


def tag_of(written: bytes) -> ExpectedTag:
    """What the lines of the library say of a tag."""
    lines = [line.split(" ") for line in dict.fromkeys(written.decode("utf-8").split("\n")[:-1])]
    attributes = tuple(_classes_of(line[:0:-1])[0] for line in lines if line[0] == "attribute")
    return ExpectedTag(attributes, tuple(_classes_of(line[1:])[0].name for line in lines if line[0] == "required"))


def expected_of(written: bytes) -> Expected:
    """What the lines of the library say."""
    lines = [line.split(" ") for line in dict.fromkeys(written.decode("utf-8").split("\n")[:-1])]
    elements = tuple(_classes_of(line[:0:-1])[0] for line in lines if line[0] == "element")
    values = tuple(Value(_plain(line[3]), Datatype(_plain(line[1]), _plain(line[2]))) for line in lines if line[0] == "value")
    datatypes = tuple(_datatype_of(*map(_plain, line[1:])) for line in lines if line[0] == "datatype")
    return Expected(elements, ["text"] in lines, values, datatypes)


def _datatype_of(library: str, name: str, *fields: str) -> Datatype:
    """A datatype with these names and values of parameters, in turn."""
    return Datatype(library, name, tuple(zip(fields[::2], fields[1::2])))


def _classes_of(words: list[str]) -> tuple[NameClass, ...]:
    """The classes up to the end or to a closing parenthesis. Takes their words, the last of which is the first."""
    classes: list[NameClass] = []
    while words and (word := words.pop()) != ")":
        excepted: tuple[NameClass, ...] = ()
        if words and words[-1] == "except":
            del words[-2:]
            excepted = _classes_of(words)
        name = _plain(word)
        classes.append(NameClass(name[2:] if name.startswith("{}") and name != "{}*" else name, excepted))
    return tuple(classes)


def _plain(field: str) -> str:
    """A field without its escapes."""
    return _ESCAPE.sub(lambda escape: _CHARACTERS.get(escape[1], escape[1]), field)
