"""The tokens of a schema's file: the files it mentions, and where the token at a place ends."""
from __future__ import annotations

import dataclasses
import functools
from typing import Iterator, Optional, Sequence, Tuple

from rncv_lsp.jobs import IDLE
from rncv_lsp.outside import ESCAPE, TOKEN, NoToken, Token, meaning, tokens
from rncv_lsp.texts import unmarked

FILE_BYTES = 1_048_576
# Behind so many tokens the thread gives way to the one that answers.
SOME_TOKENS = 256


@dataclasses.dataclass(frozen=True)
class Mention:
    """An `include` or an `external`: the name that it mentions, and where the literal is."""

    words: str
    start: int
    end: int


@functools.lru_cache(maxsize=4)
def tokens_of(text: str) -> Tuple[Token, ...]:
    """The tokens of a text. If no token begins at a character, the character is skipped, so that a file that is being edited keeps its mentions."""
    text = unmarked(text)
    if "\\x" not in text:
        return tuple(plain_tokens(text))
    try:
        return tuple(tokens(text)[0])
    except NoToken:
        return tuple(loose_tokens(text))


def plain_tokens(text: str, gives_way: bool = False) -> Iterator[Token]:
    """The tokens of a text without escapes. The thread gives way to the one that answers, if it has no lock and is told so."""
    for number, found in enumerate(TOKEN.finditer(unmarked(text))):
        kind = found.lastgroup or ""
        if kind != "blank":
            yield Token(kind, meaning(kind, found[0]), *found.span())
        if gives_way and number % SOME_TOKENS == 0:
            IDLE.wait()


def loose_tokens(text: str) -> Iterator[Token]:
    """The tokens of a text as it is written: escapes are not replaced."""
    at = 0
    while at < len(text):
        found = TOKEN.match(text, at)
        if found and found.lastgroup != "blank":
            yield Token(found.lastgroup, meaning(found.lastgroup, found[0]), at, found.end())
        at = found.end() if found else at + 1


def literal_at(found: Sequence[Token], index: int) -> Optional[Mention]:
    """The literal that begins at this token, with its joined segments, or None."""
    words, end = [], 0
    first = index
    while index < len(found) and found[index].kind == "literal":
        words.append(found[index].text)
        end = found[index].end
        if not (index + 1 < len(found) and found[index + 1].is_sign("~")):
            break
        index += 2
    return Mention("".join(words), found[first].start, end) if words else None


@functools.lru_cache(maxsize=128)
def mentions_of(text: str) -> Tuple[Mention, ...]:
    """What a file mentions, in the order of its tokens. Annotations contain no mentions."""
    if not ("include" in text or "external" in text or "\\x" in text):
        return ()
    depth, mentions = 0, []
    found = tokens_of(text) if "\\x" in text else list(plain_tokens(text, True))
    for index, token in enumerate(found):
        depth += token.is_sign("[") - token.is_sign("]")
        mention = literal_at(found, index + 1) if depth == 0 and token.is_keyword("include", "external") else None
        if mention is not None:
            mentions.append(mention)
    return tuple(mentions)


def has_start(text: str) -> bool:
    """Whether a file has, or might have, a start component of its own."""
    found = tokens_of(text)
    return any(token.is_keyword("start") and following.is_sign("=", "|=", "&=") for token, following in zip(found, found[1:]))


def end_of_token(text: str, start: int) -> int:
    """Where the token that begins at a place ends. If no token begins there: where an escape, an unclosed literal or a character ends. An escape may stand for
    a part of a token, and only in a text with one the tokens before the place count."""
    if "\\x" in text:
        end = {token.start: token.end for token in tokens_of(text)}.get(start, 0)
    else:
        found = TOKEN.match(text, start)
        end = found.end() if found and found.lastgroup != "blank" else 0
    escape = ESCAPE.match(text, start)
    if escape and end < escape.end():
        return escape.end()
    if end > 0:
        return end
    if text[start:start + 1] in ("'", '"'):
        return min((at for at in (text.find(end, start) for end in "\r\n") if at >= 0), default=len(text))
    return min(start + 1, len(text))
