"""Why the answers of rncv-xml and of jing about a document may differ. The keys are those of `programs/xml/tests/reasons.tsv`.

Two kinds of rows: the words of rncv-xml say why; or both judges agree once the document is changed at what the row is about.
"""
import codecs
import re

# What a document may be that rncv-xml does not judge, by its words.
OUTSIDE = (
    ("unread", r"is not declared in the document itself|behind a parameter entity|external (parameter )?entity .* is not loaded|not loaded"),
    ("in-declarations", r"parameter entity inside a declaration"),
    ("encodings", r"the encoding '.*' is not read"),
    ("limits", r"more than [0-9,]+|over a limit|too many|amplification|malformed P10"),
    ("version-1.1", r"\b1\.1\b"),
    ("references", r"refers to a tab"),
    ("fragments", r"with a fragment"),
    ("identifiers", r"is no URI"),
)
DECLARED = re.compile(rb"^(?:\xef\xbb\xbf)?<\?xml\s[^>]*?encoding\s*=\s*[\"']([A-Za-z][\w.\-]*)")
# Characters of names by the Fifth Edition of XML 1.0, without those of ASCII. The Fourth Edition has some of them.
FIFTH_START = "\u00c0-\u00d6\u00d8-\u00f6\u00f8-\u02ff\u0370-\u037d\u037f-\u1fff\u200c\u200d\u2070-\u218f\u2c00-\u2fef\u3001-\ud7ff\uf900-\ufdcf\ufdf0-\ufffd" \
              "\U00010000-\U000effff"
FIFTH = re.compile(f"[{FIFTH_START}\u00b7\u0300-\u036f\u203f\u2040]")
PLAIN = "\u00e9\u4e2d\u6587\u0436\u0416\u3042"  # of the Fourth Edition, and often in texts


def encoding_of(data):
    """The encoding of a document for Python, or None."""
    if data.startswith((codecs.BOM_UTF32_LE, codecs.BOM_UTF32_BE)):
        return "utf-32"
    if data.startswith((codecs.BOM_UTF16_LE, codecs.BOM_UTF16_BE)):
        return "utf-16"
    if data[:2] == b"<\0" or data[:2] == b"\0<":
        return "utf-16-le" if data[0] else "utf-16-be"
    declared = DECLARED.match(data)
    try:
        return codecs.lookup(declared.group(1).decode() if declared else "utf-8").name
    except LookupError:
        return None


def with_text(change):
    """A change of a text as a change of bytes."""
    def changed(data):
        encoding = encoding_of(data)
        try:
            text = data.decode(encoding)
            return change(text).encode(encoding)
        except (TypeError, ValueError, LookupError):
            return data

    return changed


def plain_names(text):
    """The text with other letters for the characters of the Fifth Edition, but for a byte order mark."""
    mark = text[:1] if text[:1] == "\ufeff" else ""
    return mark + FIFTH.sub(lambda it: it.group() if it.group() in PLAIN else chr(0x561 + ord(it.group()) % 30), text[len(mark):])


def plain_version(text):
    return re.sub(r"^(\ufeff?<\?xml\s+version\s*=\s*[\"'])1\.(?!1[\"'])[0-9]+", r"\g<1>1.0", text)


def small_characters(text):
    return re.sub("[\U00010000-\U0010ffff]|&#(x1[fF]600|128512);", "\u4e2d", text)


def in_declarations(change):
    """A change of the declarations of attributes and notations."""
    return lambda text: re.sub(r"<!(?:ATTLIST|NOTATION)(?:[^'\">]|'[^']*'|\"[^\"]*\")*>", lambda it: change(it.group()), text)


@in_declarations
def trimmed(declaration):
    blank = r"(?:\s|&#(?:38;#)?(?:x20|32|x0?9|9|10|x0?[aA]|13|x0?[dD]);)+"
    return re.sub(r"(['\"])(.*?)\1", lambda it: it.group(1) + re.sub(blank, " ", it.group(2)).strip() + it.group(1), declaration, flags=re.S)


@in_declarations
def spaced(declaration):
    return re.sub(r"(\"[^\"]*\"|'[^']*')(?=([^\s>])?)", lambda it: it.group(1) + (" " if it.group(2) else ""), declaration)


def plain_encoding(data):
    """The document in UTF-8 with a declaration that says so, or none."""
    encoding = encoding_of(data)
    try:
        text = data.decode(encoding).lstrip("\ufeff")
        return re.sub(r"^(<\?xml[^>]*?)\s+encoding\s*=\s*(\"[^\"]*\"|'[^']*')", r"\1", text).encode("utf-8")
    except (TypeError, ValueError, LookupError):
        return data


def not_standalone(text):
    return re.sub(r"(standalone\s*=\s*[\"'])yes", r"\1no", text, count=1)


def marked(data):
    """The document with a byte order mark, if it is of UTF-16 and has none."""
    return {"utf-16-le": codecs.BOM_UTF16_LE, "utf-16-be": codecs.BOM_UTF16_BE}.get(encoding_of(data), b"") + data


def plain_colons(text):
    return re.sub(r"<!(?:ELEMENT|ATTLIST|DOCTYPE)[^>\[]*", lambda it: it.group().replace(":", "_"), text)


# A key, a change, and whose answer about the document is that of both about the changed one: that of rncv-xml (ours) or of jing (theirs).
CHANGES = (
    ("names", "ours", with_text(plain_names)),
    ("names", "ours", lambda data: with_text(plain_names)(plain_encoding(data))),  # other encodings may not have the plain letters
    ("versions", "ours", with_text(plain_version)),
    ("jing-astral", "ours", with_text(small_characters)),
    ("jing-defaults", "ours", with_text(trimmed)),
    ("jing-encodings", "ours", plain_encoding),
    ("jing-blanks", "theirs", with_text(spaced)),
    ("standalone", "theirs", with_text(not_standalone)),
    ("marks", "theirs", marked),
    ("declared-names", "theirs", with_text(plain_colons)),
)
KEYS = {"jing-bytes", *(row[0] for row in OUTSIDE + CHANGES)}


def form(words):
    """The words of a judge without what is special to a document."""
    words = re.sub(r"'[^']*'|\"[^\"]*\"|&\w+;", "..", words)
    return re.sub(r"\d+", "N", words)[:120]


def by_words(difference):
    """The row for what the program says, if it does not judge the document."""
    said = difference.ours
    if said.kind == "outside" or said.words.startswith("malformed P10"):
        return next((key for key, pattern in OUTSIDE if re.search(pattern, said.words)), None)
    return None


def by_bytes(data, difference):
    """Bytes that the program refuses in an encoding other than those of Unicode. Tables of encodings differ, so Python need not refuse them too."""
    encoding = encoding_of(data)
    if difference.ours.kind != "malformed" or encoding in (None, "utf-8", "utf-16", "utf-16-le", "utf-16-be"):
        return None
    if "no character of the encoding" in difference.ours.words:
        return "jing-bytes"
    try:
        data.decode(encoding)
        return None
    except ValueError:
        return "jing-bytes"


def by_changes(data, difference, agreed):
    """The rows whose changes make the judges agree. `agreed` gives their common answer about bytes, or None."""
    for key, whose, change in CHANGES:
        changed = change(data)
        wanted = (difference.ours.kind,) if whose == "ours" else (difference.theirs.kind, "outside")
        if changed != data and agreed(changed) in wanted:
            return key
    return by_all_changes(data, agreed, "ours", (difference.ours.kind,)) or by_all_changes(data, agreed, "theirs", (difference.theirs.kind, "outside"))


def by_all_changes(data, agreed, whose, wanted):
    """The same for all changes of one kind together, if more than one changes the document."""
    used = []
    for key, of, change in CHANGES:
        changed = change(data)
        if of == whose and changed != data:
            used.append(key)
            data = changed
    return " and ".join(used) if len(used) > 1 and agreed(data) in wanted else None


def explanation(data, difference, agreed):
    """The key of the row that explains a difference, or None."""
    if difference.check in ("run", "pieces"):
        return None
    return by_words(difference) or by_bytes(data, difference) or by_changes(data, difference, agreed)
