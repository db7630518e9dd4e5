"""The tokens of a part of a schema that is being edited. Nothing is refused: what begins no token is skipped, and a literal without an end ends with its
line."""
from __future__ import annotations

import re
from typing import Callable, List, NamedTuple, Optional, Tuple

from rncv_lsp.outside import ESCAPE, KEYWORDS, NCNAME, character, meaning

WORD, QUOTED, CNAME, NSNAME, LITERAL, OPEN, SIGN, DOC = "word", "quoted", "cname", "nsname", "literal", "open", "sign", "doc"
# A literal in three quotes begins as an empty one with a quote behind it. What is no blank is looked for first, and a name is gone through once: both take
# less time than to try each kind of token at each blank, and each kind of name.
LOOSE = re.compile(rf"""(?=[^ \t\r\n])(?: (?P<sign>>>|\|=|&=|[]=,|&?*+{{}}()[~-])
                      | (?P<word>{NCNAME})(?:(?P<nsname>:\*)|(?P<cname>:{NCNAME}))? | (?P<quoted>\\{NCNAME})
                      | (?P<literal>"[^"\r\n]*" | '[^'\r\n]*') | (?P<open>["'][^\r\n]*)
                      | (?P<doc>\#\#[^\r\n]*) | (?P<comment>\#[^\r\n]*(?:(?:\r\n|\r|\n)[ \t]*\#(?!\#)[^\r\n]*)*) )""", re.X)


class Token(NamedTuple):
    """A token. `text` is as it is written, without the backslash of a quoted identifier and with escapes replaced."""

    kind: str
    text: str
    start: int
    end: int

    @property
    def is_identifier(self) -> bool:
        """Whether this can be the name of a definition."""
        return self.kind == QUOTED or (self.kind == WORD and self.text not in KEYWORDS)

    @property
    def is_name(self) -> bool:
        """Whether this is an identifier or a keyword."""
        return self.kind in (QUOTED, WORD)


class Lexed(NamedTuple):
    """The tokens of a text, and the ends of its runs of comment lines. `open` is where three quotes without an end are."""

    tokens: List[Token]
    comments: List[Tuple[int, int]]
    open: List[int]


NOTHING = Token(SIGN, "", 0, 0)


def shown_of(text: str) -> Tuple[str, Optional[List[int]]]:
    """The text with its escapes replaced, and where each of its characters comes from. An escape of what is no character stays."""
    parts, offsets, last = [], [], 0
    for found in ESCAPE.finditer(text):
        shown = character(found[2]) if len(found[2]) < 9 else ""
        if shown:
            parts += [text[last:found.start()], shown]
            offsets += [*range(last, found.start()), found.start()]
            last = found.end()
    return ("".join([*parts, text[last:]]), [*offsets, *range(last, len(text) + 1)]) if parts else (text, None)


def lexed(text: str, has_end: Callable[[int], bool] = lambda place: False) -> Lexed:
    """The tokens of a text; up to three quotes that have no end in it, if they have one behind it."""
    shown, offsets = shown_of(text) if "\\x" in text else (text, None)
    found, at = Lexed([], [], []), 0
    while at >= 0:
        at = take_tokens(shown, at, found, lambda start: has_end(start if offsets is None else offsets[start]))
    return found if offsets is None else placed(found, offsets)


def take_tokens(shown: str, at: int, found: Lexed, has_end: Callable[[int], bool]) -> int:
    """Takes the tokens from a place to the first literal in three quotes that has an end, and returns where that is; -1 behind the last token."""
    add = found.tokens.append
    for match in LOOSE.finditer(shown, at):
        kind, words, (start, end) = match.lastgroup or "", match[0], match.span()
        if kind == LITERAL and end == start + 2 and shown[end:end + 1] == words[0]:  # an empty literal, and a quote
            last = shown.find(3 * words[0], end + 1) + 3
            if last > 2:
                add(Token(kind, shown[start:last], start, last))
                return last
            found.open.append(start)
            if has_end(start):
                return -1
        if kind == "comment":
            found.comments.append((start, end))
        else:
            add(Token(kind, words if kind != QUOTED else words[1:], start, end))
    return -1


def placed(found: Lexed, offsets: List[int]) -> Lexed:
    """The tokens of a text whose escapes were replaced, at their places in the text as it is written."""
    return Lexed([Token(kind, words, offsets[start], offsets[end]) for kind, words, start, end in found.tokens],
                 [(offsets[start], offsets[end]) for start, end in found.comments], [offsets[start] for start in found.open])


def go_on(found: Lexed, at: int, text: str, has_end: Callable[[int], bool]) -> None:
    """Takes the tokens of a text behind a place. If that is where three quotes are, they have their end in it."""
    found.open[:] = [start for start in found.open if start < at]
    tokens, comments, open_quotes = lexed(text, lambda place: has_end(place + at))
    found.tokens.extend([Token(kind, words, start + at, end + at) for kind, words, start, end in tokens])
    found.comments.extend([(start + at, end + at) for start, end in comments])
    found.open.extend([start + at for start in open_quotes])


def literal_words(token: Token) -> str:
    """The content of a literal."""
    return meaning(LITERAL, token.text) if token.kind == LITERAL else token.text[1:]
