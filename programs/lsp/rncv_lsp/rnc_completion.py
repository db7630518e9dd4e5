"""What can be written at a place in a schema: names of definitions, prefixes, datatypes, their parameters, and keywords."""
from __future__ import annotations

import bisect
import json
import re
from typing import Iterable, List, NamedTuple, Optional, Tuple

from rncv_lsp.outside import KEYWORDS
from rncv_lsp.rnc_grammars import Node
from rncv_lsp.rnc_hover import library_of
from rncv_lsp.rnc_names import Asked
from rncv_lsp.rnc_outline import Reader
from rncv_lsp.rnc_states import CLASS, CONTENT, PARAMS, SQUARE
from rncv_lsp.rnc_symbols import has_letters
from rncv_lsp.rnc_tokens import DOC, NOTHING, OPEN, WORD, lexed
from rncv_lsp.rnc_types import datatypes_of, parameters_of
from rncv_lsp.rpc import Written

TYPED = re.compile(r"\\?[-.\w]*(?::[-.\w]*)?\Z")
LONGEST = 200
# So many names of definitions are in an answer. If there are more, those that fit what is typed are, and the client asks again.
MOST_NAMES = 256
PATTERN_WORDS = ("attribute", "element", "empty", "external", "grammar", "list", "mixed", "notAllowed", "parent", "string", "text", "token")
CONTENT_WORDS = ("div", "include", "start")
TOP_WORDS = ("datatypes", "default", "namespace")
# Behind these words the writer has to choose a name.
FREE_WORDS = ("namespace", "datatypes", "include", "external")
NAME, KEYWORD, PREFIX, DATATYPE_ITEM, PARAMETER = 18, 14, 9, 25, 10
Item = Tuple[str, int]


class Spot(NamedTuple):
    """Where something is to be written: the reader behind the tokens before it, and what is typed already, from an offset on."""

    reader: Reader
    start: int
    typed: str

    def last(self, count: int = 1) -> str:
        """The text of one of the last tokens, if it is a keyword or a sign."""
        token = self.reader.tokens[-count] if len(self.reader.tokens) >= count else NOTHING
        return token.text if token.kind in (WORD, "sign") else ""


def spot_of(asked: Asked) -> Optional[Spot]:
    """The spot at the offset; None if it is in a literal or a comment."""
    outline = asked.grammars.outlines[asked.key]
    index = max(0, bisect.bisect_right(outline.starts, asked.offset) - 1)
    begin = outline.starts[index]
    before = outline.lines.text[begin:asked.offset]
    found = TYPED.search(before, max(0, len(before) - LONGEST))
    typed = found[0] if found else ""
    before = before[:len(before) - len(typed)]
    tokens = lexed(before, lambda place: outline.has_end(begin + place))
    is_in_literal = bool(tokens.open) and outline.has_end(begin + tokens.open[-1])
    is_in_comment = bool(tokens.comments) and tokens.comments[-1][1] == len(before)
    last = tokens.tokens[-1] if tokens.tokens else NOTHING
    if is_in_comment or is_in_literal or (last.kind in (OPEN, DOC) and last.end == len(before)):
        return None
    reader = Reader(before, tokens.tokens, outline.states[index])
    reader.run()
    return Spot(reader, begin + len(before), typed)


def completion(asked: Asked, is_profile: bool) -> Optional[Written]:
    """What can be written at the offset."""
    spot = spot_of(asked) if asked.grammars.outlines[asked.key].parts else None
    if spot is None:
        return None
    place = asked.lines(asked.key).written(spot.start, asked.offset)
    every = list(dict.fromkeys(items(asked, spot, is_profile)))
    found = fitting(every, spot.typed.lstrip("\\")) if len(every) > MOST_NAMES else every
    shown = ",".join([written_item(json.dumps(text), kind, place) for text, kind in found])
    return Written(f'{{"isIncomplete":{json.dumps(found is not every)},"items":[{shown}]}}')


def written_item(text: str, kind: int, place: str) -> str:
    """An item as JSON, with its text and its place in JSON."""
    return f'{{"label":{text},"kind":{kind},"textEdit":{{"range":{place},"newText":{text}}}}}'


def fitting(every: List[Item], typed: str) -> List[Item]:
    """Those of many items that have the letters that are typed, and not all names. Those that begin with what is typed come first."""
    found = [item for item in every if has_letters(item[0], typed)] if typed else every
    names = [item for item in found if item[1] == NAME]
    first = [item for item in names if item[0].startswith(typed)]
    then = [item for item in names if not item[0].startswith(typed)]
    return [*[*first, *then][:MOST_NAMES], *(item for item in found if item[1] != NAME)]


def items(asked: Asked, spot: Spot, is_profile: bool) -> Iterable[Item]:
    """The texts that fit, and their kinds."""
    frame = spot.reader.stack[-1]
    outline, last = asked.grammars.outlines[asked.key], spot.last()
    if frame.kind == SQUARE or last in FREE_WORDS or (last == "=" and not spot.reader.expects and spot.last(2) != "inherit"):
        return []
    if last == "=" and spot.last(2) == "inherit":
        return [(prefix, PREFIX) for prefix in outline.spaces if prefix]
    if last == "default":
        return [("namespace", KEYWORD)]
    if frame.kind == PARAMS:
        if last == "=":
            return []
        prefix, _, local = (frame.words or "").rpartition(":")
        library = library_of(asked.grammars, asked.key, prefix) if prefix else ""
        return [(name, PARAMETER) for name in parameters_of(library, local, is_profile)]
    if frame.kind == CLASS:
        return [(f"{prefix}:", PREFIX) for prefix in outline.spaces if prefix] if spot.reader.expects and ":" not in spot.typed else []
    node = asked.key, frame.scope
    if last == "parent":
        return names(asked, asked.grammars.parents(node))
    if frame.kind == CONTENT and not spot.reader.expects:
        return content_items(asked, spot)
    return pattern_items(asked, node, spot.typed, is_profile)


def names(asked: Asked, nodes: Iterable[Node]) -> List[Item]:
    """The names that are defined in grammars."""
    return [("\\" + name if name in KEYWORDS else name, NAME) for name in asked.grammars.visible(nodes)]


def content_items(asked: Asked, spot: Spot) -> List[Item]:
    """What can be written where a component begins: in the braces of an `include` the names of its file."""
    frame, is_top = spot.reader.stack[-1], len(spot.reader.stack) == 1
    found = [(word, KEYWORD) for word in CONTENT_WORDS if frame.words is None or word != "include"]
    if frame.words is not None:
        targets = asked.grammars.targets((asked.key, frame.scope), frame.words)
        return [*found, *names(asked, targets)]
    found += [(word, KEYWORD) for word in TOP_WORDS if is_top]
    is_pattern = is_top and not asked.grammars.outlines[asked.key].is_grammar
    return found + [(word, KEYWORD) for word in PATTERN_WORDS] if is_pattern else found


def pattern_items(asked: Asked, node: Node, typed: str, is_profile: bool) -> List[Item]:
    """What can be written where a pattern begins."""
    libraries = dict.fromkeys(["xsd", *asked.grammars.outlines[asked.key].libraries])
    datatypes = [(f"{prefix}:{name}", DATATYPE_ITEM) for prefix in libraries
                 for name in datatypes_of(library_of(asked.grammars, asked.key, prefix), is_profile)]
    if ":" in typed:
        return datatypes
    return [*names(asked, [node]), *((word, KEYWORD) for word in PATTERN_WORDS), *((f"{prefix}:", PREFIX) for prefix in libraries), *datatypes]
