"""The indentation of a schema. Only blanks at the beginning of lines change, none in a literal; a schema whose brackets do not match stays as it is.

It is found part by part. What a part gets depends on the inner levels before it, and on the ends of the definitions that begin in it. It is kept with the part:
after a keystroke only the part around it is gone through again, and none where all lines get deeper."""
from __future__ import annotations

import re
from typing import Dict, Iterator, List, NamedTuple, Optional, Tuple

from rncv_lsp.rnc_outline import DEFINE, START
from rncv_lsp.rnc_part import PARTNERS, Part
from rncv_lsp.rnc_parts import Outline
from rncv_lsp.rnc_places import Lines
from rncv_lsp.rnc_tokens import CNAME, LITERAL, SIGN, WORD, Token, lexed
from rncv_lsp.rpc import Written
from rncv_lsp.texts import LINE_END

BLANKS = re.compile("[ \t]*")
# Declarations and mentions, by a letter for each token.
LETTERS = {"include": "C", "inherit": "I", "namespace": "S", "default": "D", "datatypes": "T", "=": "=", "~": "~"}
LONG = re.compile("CL(?:~L)*(?:I=[NCISDT])?|D?S[NCISDT]?=(?:L(?:~L)*|I)|T?[NCISDT]=L(?:~L)*")
OPERATORS = ("|", "&", ",", ">>")
# What a level adds, until it is written, and what is behind an operator that is alone in its line.
UNIT, HANG = "\t", "  "
# Deeper brackets are no schema (docs/use/LANGUAGE.md), and would need very long lines.
MOST_DEPTH = 1_000
# How many ways to indent a part are kept.
MOST_KEPT = 4


class Line(NamedTuple):
    """A line that may begin with blanks: where it and its first token begin, and the blanks that it should have."""

    start: int
    first: int
    blanks: str


class Level(NamedTuple):
    """What is in an open bracket, or outside all of them. `outside` has the blanks of the line that closes it, `inside` those of its lines, and `item` those
    of what is there now. `end` is where what is long ends, and `hangs` says that the last line that began with an operator has nothing more."""

    outside: str
    inside: str
    item: str
    end: int = 0
    hangs: bool = False


class Around(NamedTuple):
    """What is around a part besides levels: where definitions in it begin and end, where the first token behind it begins, whether a definition begins there,
    and whether the text ends there. Offsets count from the beginning of the part."""

    definitions: Tuple[Tuple[int, int], ...]
    behind: int
    is_definition_behind: bool
    is_last: bool


class Indented(NamedTuple):
    """How a part is indented behind some levels, of which it does not close the first, and what it leaves of these levels and adds to them. `there` has the
    blanks that its lines have now. `is_inside`: all blanks are behind those inside the first level. `changed` has the lines that change, by these blanks and by
    the unit."""

    used: List[Level]
    lines: List[Line]
    there: List[str]
    left: List[Level]
    is_inside: bool
    changed: Dict[Tuple[str, str], List[Line]]


def letter(token: Token) -> str:
    """The letter of a token."""
    known = LETTERS.get(token.text) if token.kind in (WORD, SIGN) else None
    return "L" if token.kind == LITERAL else known or ("N" if token.is_name or token.kind == CNAME else ".")


def is_operator(token: Token) -> bool:
    """Whether a token joins patterns, or an annotation to one."""
    return token.kind == SIGN and token.text in OPERATORS


def closes(token: Token) -> bool:
    """Whether a token closes a bracket."""
    return token.kind == SIGN and token.text in PARTNERS


def long_ones(around: Around, tokens: List[Token]) -> Dict[int, int]:
    """Where definitions, declarations and mentions of a part end, by where they begin: their further lines are deeper."""
    found = dict(around.definitions)
    for match in LONG.finditer("".join(map(letter, tokens))):
        found.setdefault(tokens[match.start()].start, tokens[match.end() - 1].end)
    return found


class Indenter:
    """Goes through a part of a schema whose brackets match, line by line. Each level has one more unit of blanks."""

    def __init__(self, words: str, around: Around, levels: List[Level], begin: int) -> None:
        self.text, self.behind, self.before, self.begin = words, Token(SIGN, "", around.behind, around.behind), levels, begin
        self.tokens, self.at = lexed(words).tokens, 0
        self.long_ones = long_ones(around, self.tokens)
        self.is_long = {*self.long_ones, *([around.behind] if around.is_definition_behind else [])}
        self.levels, self.lowest = [each._replace(end=max(each.end - begin, 0)) for each in levels], len(levels)
        self.is_last = around.is_last

    def run(self) -> Indented:
        """Goes through all lines."""
        lines = self._lines()
        own = self.before[self.lowest - 1:]
        used = seen(own, self.begin, own[0].inside)
        cut = len(own[0].inside) if used is not None else 0
        left = [Level(each.outside[cut:], each.inside[cut:], each.item[cut:], each.end, each.hangs) for each in self.levels[self.lowest - 1:]]
        return Indented(used or seen(own, self.begin, "") or [], [line._replace(blanks=line.blanks[cut:]) for line in lines],
                        [self.text[line.start:line.first] for line in lines], left, used is not None, {})

    def _lines(self) -> List[Line]:
        """The lines that may begin with blanks, in their order."""
        starts = [0, *(found.end() for found in LINE_END.finditer(self.text))]
        if not self.is_last:
            del starts[-1]  # it is the first line of the next part
        found: List[Line] = []
        for start, behind in zip(starts, [*starts[1:], len(self.text) + 1]):
            first = BLANKS.match(self.text, start).end()  # type: ignore[union-attr]
            is_inside = self.at > 0 and self.tokens[self.at - 1].end > start
            line = Line(start, first, self._blanks(first))
            if self.text[first:first + 1].strip() and not is_inside:
                found.append(line)
            self._take(line, behind)
        return found

    def _token(self, index: int) -> Token:
        """The token with this index; behind the last one, a token where the first one of the next part begins, or at the end of the text."""
        return self.tokens[index] if index < len(self.tokens) else self.behind

    def _blanks(self, first: int) -> str:
        """The blanks of the line that begins here. It may close a bracket first."""
        token, level = self._token(self.at), self.levels[-1]
        if token.start == first and closes(token):
            self.lowest = min(self.lowest, len(self.levels) - 1)
            return level.outside
        hanging = HANG if level.hangs and not is_operator(token) and token.start not in self.is_long else ""
        return level.inside + (UNIT if token.start < level.end else "") + hanging

    def _take(self, line: Line, behind: int) -> None:
        """Takes the tokens of a line. What an operator at its beginning joins is behind that."""
        first = self._token(self.at)
        item = self._token(self.at + is_operator(first))
        if first.start == line.first and not closes(first):
            level = self.levels[-1]
            hangs = item.start >= behind if is_operator(first) else level.hangs
            self.levels[-1] = level._replace(item=line.blanks + " " * (item.start - line.first if item.start < behind else 0), hangs=hangs)
        while self.at < len(self.tokens) and self.tokens[self.at].start < behind:
            item = self._take_token(self.tokens[self.at], item)
            self.at += 1

    def _take_token(self, token: Token, item: Token) -> Token:
        """Takes a token of a line whose first pattern begins with an item. Returns the item in a parenthesis, if it begins with one."""
        if token.start in self.long_ones:
            self.levels[-1] = self.levels[-1]._replace(end=self.long_ones[token.start], hangs=False)
        if token.kind == SIGN and token.text in ("{", "(", "["):
            is_aligned, following, outside = token.text == "(" and token is item, self._token(self.at + 1), self.levels[-1].item
            inside = outside + (" " if is_aligned else UNIT)
            self.levels.append(Level(outside, inside, inside if is_aligned else outside))
            return following if is_aligned and following.start == token.end else item
        if closes(token):
            del self.levels[-1]
            self.lowest = min(self.lowest, len(self.levels))
        return item


def is_nested(outline: Outline) -> bool:
    """Whether all brackets match, and are not too deep, and all literals have an end."""
    path: List[str] = []
    for part in outline.parts:
        nesting = part.scan.nesting
        if nesting is None or len(path) + nesting.depth >= MOST_DEPTH:
            return False
        if nesting.closing and any(not path or path.pop() != PARTNERS[sign] for sign in nesting.closing):
            return False
        path += nesting.opening
    return not path


def indented(outline: Outline, unit: str, start: int = 0, end: Optional[int] = None) -> List[Line]:
    """The blanks at the beginning of lines that change: where they are, and what is there instead. Only the parts between two offsets are looked at."""
    found: List[Line] = []
    for begin, part, each, blanks in part_by_part(outline):
        if begin + part.length >= start and (end is None or begin <= end):
            found += [Line(first + begin, token + begin, words) for first, token, words in changed(part, each, blanks, unit)]
    return found


def part_by_part(outline: Outline) -> Iterator[Tuple[int, Part, Indented, str]]:
    """How each part is indented, where it begins, and the blanks before all its lines; nothing if brackets do not match."""
    levels = [Level("", "", "")]
    for number, (begin, part) in enumerate(outline.placed() if is_nested(outline) else ()):
        found, blanks = indented_part(part, around_of(outline, number), levels, begin)
        yield begin, part, found, blanks
        first, outermost = found.left[0], levels[-len(found.used)]
        levels[-len(found.used):] = [Level(outermost.outside, outermost.inside, blanks + first.item, first.end + begin, first.hangs)]
        levels += [Level(blanks + each.outside, blanks + each.inside, blanks + each.item, each.end + begin, each.hangs) for each in found.left[1:]]


def edits(found: List[Line], lines: Lines, first: int, last: Optional[int]) -> Written:
    """The edits of these lines, as far as they are not before the first line nor behind the last one. They begin with ASCII."""
    numbered = ((lines.line(line.start), line.first - line.start, line.blanks.replace("\t", "\\t")) for line in found)
    return Written("[" + ",".join([
        f'{{"range":{{"start":{{"line":{number},"character":0}},"end":{{"line":{number},"character":{length}}}}},"newText":"{blanks}"}}'
        for number, length, blanks in numbered if first <= number and (last is None or number <= last)]) + "]")


def around_of(outline: Outline, number: int) -> Around:
    """What is around a part with this number. It is kept with the part."""
    part, begin = outline.parts[number], outline.starts[number]
    behind = outline.parts[number + 1].head if number + 1 < len(outline.parts) else None
    key = behind, [outline.late_ends[number, index] - begin for index in part.spans.open]
    known, found = part.around
    if known != key:
        definitions = tuple([(opened.name_start, end) for opened, end in outline.spans_in(number) if opened.kind in (DEFINE, START)])
        blanks, is_definition = behind or (0, False)
        found = Around(definitions, part.length + blanks, is_definition, behind is None)
        part.around = key, found
    return found


def seen(levels: List[Level], begin: int, blanks: str) -> Optional[List[Level]]:
    """Levels as a part sees them that begins at a place, behind these blanks; None if some do not begin with them. The first one is not closed in the part."""
    first, *inner = levels
    if not all(each.item.startswith(blanks) for each in levels) or not all(each.outside.startswith(blanks) for each in inner):
        return None
    cut = len(blanks)
    return [Level("", first.inside[cut:], first.item[cut:], max(first.end - begin, 0), first.hangs),
            *(Level(each.outside[cut:], each.inside[cut:], each.item[cut:], max(each.end - begin, 0), each.hangs) for each in inner)]


def are_seen(levels: List[Level], begin: int, blanks: str, used: List[Level]) -> bool:
    """Whether a part sees levels as these others. Most parts see one, behind no blanks."""
    if len(levels) != 1 or len(used) != 1 or blanks:
        return len(levels) == len(used) and seen(levels, begin, blanks) == used
    (_, inside, item, end, hangs), mine = levels[0], used[0]
    return inside == mine.inside and item == mine.item and hangs == mine.hangs and max(end - begin, 0) == mine.end


def indented_part(part: Part, around: Around, levels: List[Level], begin: int) -> Tuple[Indented, str]:
    """How a part is indented, and the blanks before all its lines. It is kept with the part, for the last few things that were around it."""
    for found in part.indented.get(around, ()):
        own = levels[-len(found.used):]
        blanks = own[0].inside if found.is_inside else ""
        if are_seen(own, begin, blanks, found.used):
            return found, blanks
    found = Indenter(part.words, around, levels, begin).run()
    if len(part.indented) >= MOST_KEPT:
        part.indented.clear()
    part.indented[around] = [found, *part.indented.get(around, ())][:MOST_KEPT]
    return found, levels[-len(found.used)].inside if found.is_inside else ""


def changed(part: Part, found: Indented, blanks: str, unit: str) -> List[Line]:
    """The lines of a part that change, if all begin with these blanks. They are kept too."""
    lines = found.changed.get((blanks, unit))
    if lines is None:
        wanted = {words: (blanks + words).replace(UNIT, unit) for words in {line.blanks for line in found.lines}}
        lines = [Line(start, first, wanted[words]) for (start, first, words), there in zip(found.lines, found.there) if there != wanted[words]]
        if len(found.changed) >= MOST_KEPT:
            found.changed.clear()
        found.changed[blanks, unit] = lines
    return lines
