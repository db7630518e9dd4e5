"""What is shown about a name in a schema: its definition and documentation, or its namespace or library."""
from __future__ import annotations

import re
from typing import Any, Dict, List, NamedTuple, Optional, Set, Tuple

from rncv_lsp.rnc_grammars import Grammars, Place
from rncv_lsp.rnc_names import DECLARED_BY, IN_GRAMMARS, Asked
from rncv_lsp.rnc_outline import ATTRIBUTE, DATATYPE, ELEMENT, SPACE
from rncv_lsp.rnc_types import XSD

XML_NAMESPACE = "http://www.w3.org/XML/1998/namespace"
MOST_LINES, MOST_CHARACTERS, MOST_DEFINITIONS = 12, 2_000, 3
DOCUMENTATION = re.compile(r"^[ \t]*##+[ \t]?([^\r\n]*)", re.M)
MARKED = re.compile(r"([\\`*_{}\[\]()#+.!<>|~&-])")
FENCES = re.compile("`{3,}")


class Shown(NamedTuple):
    """A paragraph: words, or lines of a schema."""

    text: str
    is_source: bool = False


def hover(asked: Asked, is_markdown: bool) -> Optional[Dict[str, Any]]:
    """What is shown about the name at the offset; None if there is nothing to say."""
    place = asked.name(*IN_GRAMMARS, *DECLARED_BY) or asked.name(ELEMENT, ATTRIBUTE, DATATYPE)
    if place is None:
        return None
    role = place.name.role
    parts = defined(asked, place) if role in IN_GRAMMARS else declared(asked.grammars, place) if role in DECLARED_BY else named(asked.grammars, place)
    if not parts:
        return None
    words = [marked(part) if is_markdown else part.text for part in parts]
    contents = {"kind": "markdown" if is_markdown else "plaintext", "value": "\n\n".join(words)}
    return {"contents": contents, "range": asked.grammars.files[asked.key].lines.range(place.name.start, place.name.end, asked.encoding)}


def marked(part: Shown) -> str:
    """A paragraph in Markdown. The fence around a source is longer than any in it."""
    if not part.is_source:
        return MARKED.sub(r"\\\1", part.text).replace("\n", "\\\n")
    fence = "`" * max([3, *(len(found) + 1 for found in FENCES.findall(part.text))])
    return f"{fence}rnc\n{part.text}\n{fence}"


def defined(asked: Asked, place: Place) -> List[Shown]:
    """The definitions of a name, with their documentation."""
    found = asked.grammars.definitions(place)
    parts = [part for each in found[:MOST_DEFINITIONS] for part in source(asked, each)]
    more = len(found) - MOST_DEFINITIONS
    return [*parts, Shown(f"and {more} more")] if more > 0 else parts


def source(asked: Asked, place: Place) -> List[Shown]:
    """The lines of a definition, and its documentation."""
    outline, text = asked.grammars.outlines[place.key], asked.grammars.files[place.key].lines.text
    component = outline.component(place.name.start)
    if component is None:
        return []
    start, end = component
    lines = text[place.name.start:end].splitlines()
    words = "\n".join(lines[:MOST_LINES])
    is_cut = len(lines) > MOST_LINES or len(words) > MOST_CHARACTERS
    documented = DOCUMENTATION.findall(text[start:place.name.start])
    documentation = "\n".join(documented).strip()[:MOST_CHARACTERS]
    shown = Shown(words[:MOST_CHARACTERS] + ("\n.." if is_cut else ""), True)
    return [shown, Shown(documentation)] if documentation else [shown]


def declared(grammars: Grammars, place: Place) -> List[Shown]:
    """What a prefix stands for."""
    is_space = DECLARED_BY[place.name.role] == SPACE
    prefix = place.name.text
    spaces = namespaces(grammars, place.key, prefix) if is_space else [library_of(grammars, place.key, prefix)]
    what = f"the prefix {prefix}" if prefix else "the default namespace"
    return [Shown(f"{what}: {'the namespace' if is_space else 'the datatypes of'} {each}" if each else f"{what}: no namespace")
            for each in spaces if each is not None]


def named(grammars: Grammars, place: Place) -> List[Shown]:
    """The namespace of the name of an element or attribute, or the library of a datatype."""
    prefix, colon, _ = place.name.text.rpartition(":")
    if place.name.role == DATATYPE:
        library = library_of(grammars, place.key, prefix) if colon else ""
        return [] if library is None else [Shown(f"the datatype {place.name.text} of {library or 'RELAX NG'}")]
    if place.name.role == ATTRIBUTE and not colon:
        return [Shown(f"the attribute {place.name.text} in no namespace")]
    found = namespaces(grammars, place.key, prefix)
    return [Shown(f"the {place.name.role} {place.name.text} in {f'the namespace {each}' if each else 'no namespace'}") for each in found]


def library_of(grammars: Grammars, key: str, prefix: str) -> Optional[str]:
    """The library of datatypes that a prefix stands for; None if it is not declared."""
    return grammars.outlines[key].libraries.get(prefix, XSD if prefix == "xsd" else None)


def namespaces(grammars: Grammars, key: str, prefix: str) -> List[str]:
    """The namespaces that a prefix, or no prefix, stands for in a file: several, if the files that mention it say what it inherits."""
    waiting, seen, found = [(key, prefix)], set(), {}  # type: List[Tuple[str, str]], Set[Tuple[str, str]], Dict[str, None]
    while waiting:
        each = waiting.pop(0)
        if each in seen:
            continue
        seen.add(each)
        key, prefix = each
        spaces = grammars.outlines[key].spaces
        if prefix and prefix not in spaces:
            found.update({XML_NAMESPACE: None} if prefix == "xml" else {})
        elif spaces.get(prefix) is not None:
            found[spaces[prefix] or ""] = None
        else:
            mentions = grammars.mentions_of(key)
            waiting += [(mention.key, mention.name.detail or "") for mention in mentions]
            found.update({} if mentions else {"": None})
    return list(found)
