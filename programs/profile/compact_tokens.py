"""Bytes, characters and tokens of the RELAX NG compact syntax, each with its place. Nothing here is proved."""
import bisect
import codecs
import dataclasses
import re

KEYWORDS = frozenset("attribute default datatypes div element empty external grammar include inherit list mixed namespace notAllowed parent start "
                     "string text token".split())
NOT_XML = "[^\t\n\r\x20-\ud7ff\ue000-\ufffd\U00010000-\U0010ffff]"
NAME_START = ("A-Z_a-z\xc0-\xd6\xd8-\xf6\xf8-\u02ff\u0370-\u037d\u037f-\u1fff\u200c\u200d\u2070-\u218f\u2c00-\u2fef\u3001-\ud7ff\uf900-\ufdcf"
              "\ufdf0-\ufffd\U00010000-\U000effff")
NCNAME = f"[{NAME_START}][-.0-9\xb7\u0300-\u036f\u203f\u2040{NAME_START}]*"
TOKEN = re.compile(rf"""(?P<blank>(?:[ \t\r\n]|\#[^\r\n]*)+)
                      | (?P<literal>\"\"\".*?\"\"\" | '''.*?''' | "[^"\r\n]*" | '[^'\r\n]*')
                      | (?P<nsname>{NCNAME}:\*) | (?P<cname>{NCNAME}:{NCNAME}) | (?P<quoted>\\{NCNAME}) | (?P<word>{NCNAME})
                      | (?P<sign>>>|\|=|&=|[]=,|&?*+{{}}()[~-])""", re.S | re.X)
ESCAPE = re.compile(r"\\(x+)\{([0-9A-Fa-f]+)\}")
BAD_ESCAPE = re.compile(r"\\x+\{(?![0-9A-Fa-f]+\})")
LINE_END = re.compile("\r\n|\r|\n")
# These two replace an escaped line feed and carriage return while the text is cut into tokens, since these end no line. XML allows neither of the two.
ESCAPED_ENDS = {"\n": "\ufffe", "\r": "\uffff"}
UNHIDDEN = str.maketrans({hidden: shown for shown, hidden in ESCAPED_ENDS.items()})


@dataclasses.dataclass(frozen=True)
class Encoding:
    """A file's text, and how its bytes were read. `reported` reports what is not plain UTF-8, at the offset `at`. `change` is what the copy has instead."""
    text: str
    reported: str = ""
    change: str = ""
    at: int = 0
    sure: bool = True


@dataclasses.dataclass(frozen=True)
class Token:
    """A token. `text` is its content: a literal without its quotes, a quoted identifier's name. `start` and `end` are offsets in the file's text."""
    kind: str
    text: str
    start: int
    end: int

    def is_sign(self, *signs):
        return self.kind == "sign" and self.text in signs

    def is_keyword(self, *words):
        return self.kind == "word" and self.text in words


@dataclasses.dataclass(frozen=True)
class Escape:
    """An escape, and how the profile wants it written. `shorter` is empty if it is already written that way."""
    start: int
    end: int
    shorter: str


class NoToken(Exception):
    """No blank, comment or token begins at `offset`, or a character or an escape there is bad."""

    def __init__(self, offset, what):
        super().__init__(what)
        self.offset, self.what = offset, what


def utf_16(data, name):
    """The text of bytes in UTF-16. If they are broken UTF-16, the encoding has no change for a copy."""
    try:
        return Encoding(data.decode(name), "the encoding is UTF-16", "UTF-8")
    except UnicodeDecodeError as fault:
        return Encoding(data.decode(name, "replace"), f"the encoding is UTF-16, broken at the byte {fault.start}")


def decoded(data):
    """The text of a file's bytes. A mark or a zero byte shows UTF-16. Bytes that are not UTF-8 are read as ISO 8859-1."""
    for mark, name in ((codecs.BOM_UTF16_LE, "utf-16-le"), (codecs.BOM_UTF16_BE, "utf-16-be")):
        if data.startswith(mark):
            return utf_16(data[2:], name)
    if b"\0" in data[:2]:
        return utf_16(data, "utf-16-be" if data[0] == 0 else "utf-16-le")
    marked = data.startswith(codecs.BOM_UTF8)
    data = data.removeprefix(codecs.BOM_UTF8)
    mark = "a byte order mark is first" if marked else ""
    try:
        return Encoding(data.decode("utf-8"), mark, "none" if marked else "")
    except UnicodeDecodeError as fault:
        reported = f"{mark}{', and ' if marked else ''}the byte {data[fault.start]:02X} is not UTF-8"
        return Encoding(data.decode("latin-1"), reported, "these bytes as ISO 8859-1 in UTF-8", fault.start, False)


class Places:
    """The lines and columns of a text's offsets. Both count from 1, and columns count characters."""

    def __init__(self, text):
        self.starts = [0, *(end.end() for end in LINE_END.finditer(text))]

    def of(self, offset):
        line = bisect.bisect_right(self.starts, offset)
        return line, offset - self.starts[line - 1] + 1


def character(digits):
    """The character of an escape; empty if XML has no character with that number."""
    number = int(digits, 16)
    found = chr(number) if number <= 0x10FFFF else ""
    return "" if not found or re.match(NOT_XML, found) else ESCAPED_ENDS.get(found, found)


def unescaped(text):
    """The text with its escapes replaced; the original offset of each of its characters, and of its end; and the escapes."""
    parts, offsets, escapes, last = [], [], [], 0
    for found in ESCAPE.finditer(text):
        marks, digits = found.groups()
        shown = character(digits)
        if not shown:
            raise NoToken(found.start(), f"the character {digits} is not allowed in XML")
        parts += [text[last:found.start()], shown]
        offsets += [*range(last, found.start()), found.start()]
        short = f"\\x{{{digits.lstrip('0')}}}"
        escapes.append(Escape(found.start(), found.end(), short if len(marks) > 1 or len(digits) > 6 else ""))
        last = found.end()
    return "".join([*parts, text[last:]]), [*offsets, *range(last, len(text) + 1)], escapes


def meaning(kind, written):
    """The content of a token."""
    if kind == "literal":
        quote = 3 if len(written) >= 6 and written[:3] in ('"""', "'''") else 1
        return written[quote:-quote].translate(UNHIDDEN)
    return written[1:] if kind == "quoted" else written


def tokens(text):
    """The tokens of a text and its escapes, in order. Comments and blanks are not tokens."""
    bad = re.search(NOT_XML, text)
    if bad:
        raise NoToken(bad.start(), f"the character {ord(bad[0]):X} is not allowed in XML")
    bad = BAD_ESCAPE.search(text)
    if bad:
        raise NoToken(bad.start(), "a bad escape begins here")
    shown, offsets, escapes = unescaped(text)
    found, at = [], 0
    while at < len(shown):
        match = TOKEN.match(shown, at)
        if not match:
            raise NoToken(offsets[at], "no token begins here")
        if match.lastgroup != "blank":
            found.append(Token(match.lastgroup, meaning(match.lastgroup, match[0]), offsets[at], offsets[match.end()]))
        at = match.end()
    return found, escapes
