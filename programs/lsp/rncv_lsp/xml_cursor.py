"""What a document has at the cursor: a name of an element or an attribute, a value, or content, and what is open around it."""
from __future__ import annotations

import re
from typing import Dict, NamedTuple, Tuple

from rncv_lsp.texts import LINE_END, Text
from rncv_lsp.xml_reading import NAME, Reading, given_in, is_in_prolog, loosely_open, scope_in
from rncv_lsp.xml_stretches import FIRST_SCOPE, OpenElement, expanded

# How far a tag is searched for its end; a text for its beginning, at first; and a long document for elements that are open.
TAG_LENGTH, STEP_LENGTH, FAR_LENGTH = 65_536, 4_096, 65_536
LETTER = r"""[^\s<>/&="'?!;]"""
VALUE = r"""(?:"[^"<]*"|'[^'<]*')"""
GIVEN = rf"(?:\s+{LETTER}+\s*=\s*{VALUE})*"
ELEMENT = re.compile(rf"<({LETTER}*)")
END = re.compile(rf"</({LETTER}*)")
ATTRIBUTE = re.compile(rf"<({LETTER}+){GIVEN}\s+({LETTER}*)")
IN_VALUE = re.compile(rf"""<({LETTER}+){GIVEN}\s+({LETTER}+)\s*=\s*(?:"([^"<]*)|'([^'<]*))""")
LETTERS = re.compile(f"{LETTER}*")
# What follows a name in a tag that is there already.
IN_TAG = re.compile(rf"\s*/?>|\s+{LETTER}+\s*=")
REST = re.compile(r"""(?:[^<>"']+|"[^"<]*"|'[^'<]*')*""")


class Cursor(NamedTuple):
    """What is at the cursor. `kind` is "element", "end", "attribute", "value", "content", or "" where nothing may be offered. The name or the value is between
    `start` and `end`, and `words` is the part of it before the cursor; in content it is the text since the last markup. `open` has the elements around. In a
    tag `tag` is its name, and `given` has the other attributes, as names and values in turn. `after` is what follows the name or the value."""

    kind: str
    start: int = 0
    end: int = 0
    words: str = ""
    open: Tuple[OpenElement, ...] = ()
    tag: str = ""
    attribute: str = ""
    given: Tuple[str, ...] = ()
    after: str = ""

    @property
    def scope(self) -> Dict[str, str]:
        """The declarations that hold here, with those of the tag."""
        return scope_in(self.open[-1].scope if self.open else FIRST_SCOPE, list(self.given))

    @property
    def element(self) -> Tuple[str, str]:
        """The expanded name of the tag."""
        return expanded(self.tag, self.scope)


NOTHING = Cursor("")


def boundary(lines: Text, offset: int) -> int:
    """Where the last markup before a place begins or ends. What is before that stays as it is while a name or a text is typed."""
    length = STEP_LENGTH
    while True:
        begin = max(0, offset - length)
        words = lines.slice(begin, offset)
        found = max(words.rfind("<"), words.rfind(">") + 1)
        if found > 0 or words.startswith("<"):
            return begin + max(found, 0)
        if begin == 0:
            return 0
        length *= 4


def continues(reading: Reading, lines: Text, offset: int) -> bool:
    """Whether a reading can go on to the last markup before a place. One that has read behind that cannot: it may know of what is wrong there."""
    return reading.continues(lines, boundary(lines, offset))


def cursor_at(reading: Reading, lines: Text, offset: int) -> Cursor:
    """What is at a place. The reading goes on to the last markup before it."""
    limit = boundary(lines, offset)
    reading.advance(lines, limit)
    if reading.fault_at is not None:
        open_elements, start = reading.loosely(limit, offset)
        start = start if start < offset else limit
    else:
        open_elements, start = reading.open, min(reading.unfinished(), limit)
        if reading.is_in_data or not (reading.has_root or is_in_prolog(lines.slice(0, limit))):
            return NOTHING
    return in_markup(lines, start, offset, tuple(open_elements))


def in_markup(lines: Text, start: int, offset: int, open_elements: Tuple[OpenElement, ...]) -> Cursor:
    """What is at a place in these elements, if the markup that begins at the other place is not finished there, or if that place is the end of the last one."""
    words = lines.slice(start, offset)
    if words.startswith(("<!", "<?")):
        return NOTHING
    begin = words.rfind("<")  # before it there may be the first character of a line end, or an unfinished tag
    if begin < 0:
        return Cursor("content", offset, offset, lines.slice(max(start, boundary(lines, offset)), offset), open_elements)
    return in_tag(lines, start + begin, offset, open_elements)


def cursor_far(lines: Text, root: int, offset: int) -> Cursor:
    """What is at a place far behind the beginning of the root. Elements that begin not far before the place are known, as far as their tags can be told, and
    the root. Those between are left out."""
    words = lines.slice(root, root + TAG_LENGTH)
    name, tag = NAME.match(words), REST.match(words[1:])[0]
    first = [OpenElement(name[1], scope_in(FIRST_SCOPE, given_in(tag)), root)] if name else []
    begin = offset - FAR_LENGTH
    begin += max(lines.slice(begin, offset).find("<"), 0)
    open_elements, start = loosely_open(lines, begin, offset, first)
    return in_markup(lines, start if start < offset else boundary(lines, offset), offset, tuple(open_elements))


def end_of_name(lines: Text, offset: int) -> int:
    """Where the name ends in which a place is, or before which it is."""
    return offset + LETTERS.match(lines.slice(offset, offset + TAG_LENGTH)).end()


def in_tag(lines: Text, start: int, offset: int, open_elements: Tuple[OpenElement, ...]) -> Cursor:
    """What is at a place in the tag that begins at another place."""
    words, after = lines.slice(start, offset), lines.slice(offset, offset + TAG_LENGTH)
    found = END.fullmatch(words) or ELEMENT.fullmatch(words)
    letters = LETTERS.match(after).end()
    if found:
        kind = "end" if words.startswith("</") else "element"
        # The cursor may be before a word that is no name of a tag.
        letters = letters if found[1] or IN_TAG.match(after[letters:]) else 0
        rest = after[letters:]
        given = given_in(REST.match(rest)[0]) if kind == "element" and IN_TAG.match(rest) else []
        return Cursor(kind, start + found.start(1), offset + letters, found[1], open_elements, found[1] + after[:letters], "", tuple(given), rest)
    found = ATTRIBUTE.fullmatch(words)
    if found:
        letters = letters if found[2] else 0
        given = given_in(words[:found.start(2)]) + given_in(" " + behind_value(after[letters:]))
        return Cursor("attribute", start + found.start(2), offset + letters, found[2], open_elements, found[1], found[2] + after[:letters], tuple(given),
                      after[letters:])
    found = IN_VALUE.fullmatch(words)
    return in_value(start, words, after, found, open_elements) if found else NOTHING


def in_value(start: int, words: str, after: str, found: "re.Match[str]", open_elements: Tuple[OpenElement, ...]) -> Cursor:
    """What is in a value. It goes on behind the cursor if it is closed in the same line."""
    group = 3 if found[3] is not None else 4
    quote = words[found.start(group) - 1]
    length = re.match(f"[^{quote}<\r\n]*", after).end()
    is_closed = after[length:length + 1] == quote
    rest = after[length:] if is_closed else after
    given = given_in(words[:found.start(2)]) + given_in(REST.match(rest[1:])[0] if is_closed else "")
    typed = LINE_END.split(found[group])[-1]  # an edit is in one line
    end = start + len(words) + (length if is_closed else 0)
    return Cursor("value", start + len(words) - len(typed), end, typed, open_elements, found[1], found[2], tuple(given), rest)


def behind_value(rest: str) -> str:
    """What is in a tag behind the value of the attribute whose name ends here."""
    words = REST.match(rest)[0]
    found = re.match(rf"\s*=\s*{VALUE}", words)
    return words[found.end():] if found else words
