"""What the protocol asks about a name in a schema: its definitions, all its places, and another name for it."""
from __future__ import annotations

import re
from typing import Any, Dict, Iterable, List, NamedTuple, Optional

from rncv_lsp.coordinator import uri_of_file
from rncv_lsp.outside import KEYWORDS, NCNAME
from rncv_lsp.rnc_grammars import Grammars, Place
from rncv_lsp.rnc_outline import DEFINE, EXTERNAL, INCLUDE, LIBRARY, LIBRARY_USE, PARENT, REFERENCE, SPACE, SPACE_USE, START, Name
from rncv_lsp.rnc_places import Lines
from rncv_lsp.rpc import RpcFault

IN_GRAMMARS = (DEFINE, START, REFERENCE, PARENT)
# The role of the declaration for each role of a prefix.
DECLARED_BY = {SPACE: SPACE, SPACE_USE: SPACE, LIBRARY: LIBRARY, LIBRARY_USE: LIBRARY}
DECLARATIONS = (DEFINE, START, SPACE, LIBRARY)
PREDECLARED = {SPACE: ("xml", "xmlns"), LIBRARY: ()}  # type: Dict[str, Iterable[str]]
IDENTIFIER = re.compile(rf"\\?({NCNAME})")
# A keyword with a name behind it that only its backslash sets apart.
JOINED = re.compile(r"[-.\w]\\")
READ, WRITE = 2, 3
REQUEST_FAILED = -32803


class Asked(NamedTuple):
    """A question about an offset of a file."""

    grammars: Grammars
    key: str
    offset: int
    encoding: str

    def names(self, *roles: str) -> List[Place]:
        """The names at the offset that have one of these roles."""
        return [Place(self.key, name) for name in self.grammars.outlines[self.key].at(self.offset) if name.role in roles]

    def name(self, *roles: str) -> Optional[Place]:
        """The shortest name at the offset that has one of these roles."""
        return next(iter(self.names(*roles)), None)

    def lines(self, key: str) -> Lines:
        """The lines of a file."""
        return Lines(self.grammars.files[key].lines, self.encoding)

    def locations(self, places: Iterable[Place]) -> List[Dict[str, Any]]:
        """The locations of names."""
        found = list(places)
        lines = {place.key: self.lines(place.key) for place in found}
        return [{"uri": uri_of_file(self.grammars.files[place.key]), "range": lines[place.key].range(place.name.start, place.name.end)} for place in found]


def prefix_places(asked: Asked, place: Place) -> List[Place]:
    """All places of a prefix in its file: a prefix means something else in another one."""
    declared = DECLARED_BY[place.name.role]
    names = asked.grammars.outlines[place.key].with_text(place.name.text)
    return [Place(place.key, name) for name in names if DECLARED_BY.get(name.role) == declared]


def definition(asked: Asked) -> Optional[List[Dict[str, Any]]]:
    """Where a name is defined, a prefix is declared, or a file is."""
    place = asked.name(*IN_GRAMMARS, *DECLARED_BY, INCLUDE, EXTERNAL)
    if place is None:
        return None
    if place.name.role in (INCLUDE, EXTERNAL):
        file = asked.grammars.mentioned(place)
        start = {"line": 0, "character": 0}
        return [{"uri": uri_of_file(file), "range": {"start": start, "end": start}}] if file else None
    if place.name.role in DECLARED_BY:
        return asked.locations(each for each in prefix_places(asked, place) if each.name.role in DECLARATIONS)
    found = asked.grammars.replaced(place) if place.name.detail is not None else []
    return asked.locations(found or asked.grammars.definitions(place))


def places_of(asked: Asked) -> List[Place]:
    """All places of the name at the offset."""
    place = asked.name(*IN_GRAMMARS, *DECLARED_BY, INCLUDE, EXTERNAL)
    if place is None:
        return []
    if place.name.role in (INCLUDE, EXTERNAL):
        file = asked.grammars.mentioned(place)
        return asked.grammars.mentions_of(file.key) if file else [place]
    return prefix_places(asked, place) if place.name.role in DECLARED_BY else asked.grammars.group(place)


def references(asked: Asked, with_declaration: bool) -> List[Dict[str, Any]]:
    """All places of a name, with those that define it or without."""
    return asked.locations(each for each in places_of(asked) if with_declaration or each.name.role not in DECLARATIONS)


def highlights(asked: Asked) -> List[Dict[str, Any]]:
    """The places of a name in the file."""
    lines = asked.lines(asked.key)
    return [{"range": lines.range(each.name.start, each.name.end), "kind": WRITE if each.name.role in DECLARATIONS else READ}
            for each in places_of(asked) if each.key == asked.key]


def renamed(asked: Asked) -> Place:
    """The name at the offset, which can get another name. Raises RpcFault if there is none."""
    place = asked.name(*IN_GRAMMARS, *DECLARED_BY)
    if place is None or place.name.role == START or place.name.text == "":
        raise RpcFault(REQUEST_FAILED, "only a definition, a reference or a prefix can be renamed")
    if place.name.role in DECLARED_BY and not any(each.name.role in DECLARATIONS for each in prefix_places(asked, place)):
        raise RpcFault(REQUEST_FAILED, f"the prefix {place.name.text} is not declared in this file")
    return place


def prepared(asked: Asked) -> Dict[str, Any]:
    """The range of the name that would be renamed, and the name."""
    name = renamed(asked).name
    return {"range": asked.lines(asked.key).range(name.start, name.end), "placeholder": written(name, name.text)}


def written(name: Name, text: str) -> str:
    """How a text is written as another name in this place: only names of definitions need a backslash if they are keywords."""
    return "\\" + text if text in KEYWORDS and name.role not in DECLARED_BY else text


def rename(asked: Asked, new: str) -> Dict[str, List[Dict[str, Any]]]:
    """The edits of all files, by their URIs, that give a name another text. Raises RpcFault if the text is no name, or another one has it."""
    place = renamed(asked)
    found = IDENTIFIER.fullmatch(new)
    if found is None:
        raise RpcFault(REQUEST_FAILED, f"{new!r} is no identifier")
    refuse_clash(asked, place, new, found[1])
    edits: Dict[str, List[Dict[str, Any]]] = {}
    places = places_of(asked) if found[1] != place.name.text else []
    for each, location in zip(places, asked.locations(places)):
        is_joined = each.name.start > 0 and JOINED.match(asked.grammars.files[each.key].lines.text, each.name.start - 1)
        words = "\\" + found[1] if is_joined else written(each.name, found[1])
        edits.setdefault(location["uri"], []).append({"range": location["range"], "newText": words})
    return edits


def refuse_clash(asked: Asked, place: Place, new: str, text: str) -> None:
    """Raises RpcFault if a name cannot have this text."""
    role = place.name.role
    if role in DECLARED_BY:
        declared = DECLARED_BY[role]
        known = asked.grammars.outlines[place.key].with_text(text)
        if text in PREDECLARED[declared]:
            raise RpcFault(REQUEST_FAILED, f"the prefix {text} has a meaning of its own")
        if text != place.name.text and any(DECLARED_BY.get(name.role) == declared for name in known):
            raise RpcFault(REQUEST_FAILED, f"the prefix {text} is there already")
        return
    if new in KEYWORDS:
        raise RpcFault(REQUEST_FAILED, f"{new} is a keyword: write \\{new}")
    wholes = {whole for each in asked.grammars.group(place) for node in asked.grammars.nodes_of(each) for whole in asked.grammars.wholes(node)}
    if text != place.name.text and any(asked.grammars.defines(whole, text) for whole in wholes):
        raise RpcFault(REQUEST_FAILED, f"{new} is already defined in this grammar")
