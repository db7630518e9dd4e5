"""The outline of a schema as the protocol shows it: its components, and the ranges that can be folded."""
from __future__ import annotations

import functools
from typing import Any, Dict, Iterator, List, Optional, Tuple

from rncv_lsp.rnc_outline import DEFINE, ELEMENT, INCLUDE, START
from rncv_lsp.rnc_part import Part, close_bracket, joined_lines
from rncv_lsp.rnc_parts import Component, Outline
from rncv_lsp.rnc_places import Lines
from rncv_lsp.rpc import Written

# Kinds of the protocol: by the kind of component, and for definitions by the keyword of their pattern.
FUNCTION, MODULE, NAMESPACE, PACKAGE, CLASS, PROPERTY, STRUCT, FILE, TYPE = 12, 2, 3, 4, 5, 7, 23, 1, 26
KINDS = {START: FUNCTION, INCLUDE: MODULE, "grammar": NAMESPACE, "div": PACKAGE, ELEMENT: CLASS}
PATTERN_KINDS = {"element": CLASS, "attribute": PROPERTY, "external": FILE, "string": TYPE, "token": TYPE, "grammar": NAMESPACE}
# An answer with more levels is not what a client can show, and a deep one cannot be written.
MOST_DEPTH = 50
MOST_SYMBOLS = 1_000
COMMENT = ',"kind":"comment"'
# The first line, the last one as a negative number, so that the longer range is first, and what else is written.
Folding = Tuple[int, int, str]


def kind_of(component: Component) -> int:
    """The kind of a component."""
    opened = component.opened
    return kind_of_definition(opened.detail) if opened.kind == DEFINE else KINDS[opened.kind]


@functools.lru_cache(maxsize=1_024)
def kind_of_definition(detail: str) -> int:
    """The kind of a definition, by what kind of pattern it has."""
    words = [word for word in detail.split(" ") if word not in ("|=", "&=")]
    return PATTERN_KINDS.get(words[0] if words else "", STRUCT)


def name_of(component: Component) -> str:
    """What is shown as the name of a component. The protocol allows no empty one."""
    return component.opened.text if component.opened.kind != INCLUDE else f"include {component.opened.text}"


def symbol(component: Component, lines: Lines) -> Dict[str, Any]:
    """A component as a symbol with other ones in it."""
    opened = component.opened
    return {
        "name": name_of(component), "kind": kind_of(component), "detail": opened.detail, "range": lines.range(opened.start, component.end),
        "selectionRange": lines.range(opened.name_start, opened.name_end), "children": [],
    }


def tree(outline: Outline, lines: Lines) -> List[Dict[str, Any]]:
    """The components as symbols, those inside others as their children. Very deep ones are beside the one around them."""
    found: List[Dict[str, Any]] = []
    symbols: List[Dict[str, Any]] = []
    path: List[int] = []
    for component in outline.components:
        symbols.append(symbol(component, lines))
        path[min(component.depth, MOST_DEPTH) - 1:] = [len(symbols) - 1]
        (symbols[path[-2]]["children"] if len(path) > 1 else found).append(symbols[-1])
    return found


def flat(outline: Outline, lines: Lines, uri: str, query: str = "") -> Iterator[Dict[str, Any]]:
    """The components as symbols in a list, those whose names have the letters of the query in this order."""
    for component in outline.components:
        if has_letters(component.opened.text, query):
            around = outline.components[component.around] if component.around >= 0 else None
            reported = {"name": name_of(component), "kind": kind_of(component),
                        "location": {"uri": uri, "range": lines.range(component.opened.start, component.end)}}
            yield {**reported, "containerName": name_of(around)} if around else reported


def has_letters(text: str, query: str) -> bool:
    """Whether a text has the letters of a query in this order, in either case."""
    lower, at = text.lower(), 0
    for letter in query.lower():
        at = lower.find(letter, at) + 1
        if at == 0:
            return False
    return True


def late_braces(outline: Outline) -> List[Tuple[int, int]]:
    """The lines of the pairs of braces and of brackets that begin and end in different parts."""
    waiting: List[Tuple[int, str]] = []
    found: List[Tuple[int, int]] = []
    for above, part in zip(outline.aboves, outline.parts):
        brackets = part.brackets
        for line, sign in brackets.outer:
            close_bracket(waiting, above + line, sign, found)
        if brackets.open:
            waiting += [(above + line, sign) for line, sign in brackets.open]
    return found


def comment_blocks(outline: Outline) -> Iterator[Tuple[int, int]]:
    """The first and the last line of each block of comments."""
    return joined_lines((above + start, above + end) for above, part in zip(outline.aboves, outline.parts) for start, end in part.blocks)


def joins_blocks(outline: Outline) -> bool:
    """Whether a block of comments goes on in another part."""
    last = -2
    for above, part in zip(outline.aboves, outline.parts):
        if part.blocks:
            if above + part.blocks[0][0] <= last + 1:
                return True
            last = above + part.blocks[-1][1]
    return False


def own_foldings(part: Part, above: int, has_comments: bool) -> List[Tuple[Folding, str]]:
    """What can be folded in a part alone that begins in this line. It is kept with the part."""
    key = above, has_comments
    known, found = part.folded
    if known != key:
        pairs = [(above + start, 1 - above - end, "") for start, end in set(part.brackets.pairs) if end - 1 > start]
        blocks = [(above + first, -above - last, COMMENT) for first, last in part.blocks if last > first] if has_comments else []
        found = list(map(written_folding, sorted([*pairs, *blocks])))
        part.folded = key, found
    return found


def written_folding(found: Folding) -> Tuple[Folding, str]:
    """A range, and its JSON."""
    start, end, kind = found
    return found, f'{{"startLine":{start},"endLine":{-end}{kind}}}'


def foldings(outline: Outline, most: Optional[int]) -> Written:
    """The ranges that can be folded: between braces that are on different lines, whose last line stays, and blocks of comments. If there are many, the first
    ones."""
    has_own_comments = not joins_blocks(outline)
    others = {(start, 1 - end, "") for start, end in late_braces(outline) if end - 1 > start}
    if not has_own_comments:
        others.update((first, -last, COMMENT) for first, last in comment_blocks(outline) if last > first)
    found = list(map(written_folding, others))
    for above, part in zip(outline.aboves, outline.parts):
        found += own_foldings(part, above, has_own_comments)
    return Written("[" + ",".join([words for _, words in sorted(found)[:most]]) + "]")
