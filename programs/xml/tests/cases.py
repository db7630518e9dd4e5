"""The hand-made cases of `cases.tsv`: XML documents, and what `rncv-xml` has to answer about them.

A line that begins with `#` is the title of a group. Each other line is a case. Its fields, which tabs separate, are

    name, encoding, schema, answers, what jing says, what xmllint says, reason, document

- `encoding` is Python's name of the encoding in which the characters are written, without a byte order mark.
- `schema` says what a valid document is, see `ROOTS`. What is behind the sign `=` has the escapes of a document.
- `answers` are the right ones, usually one: valid, invalid, malformed, outside, or limit: outside, or malformed by P10.
- `reason` has keys of `reasons.tsv`, with commas. They are there exactly if jing or xmllint answers something else. `-`: there is none.
- `document` has the escapes `\\n`, `\\r`, `\\t`, `\\\\`, `\\uXXXX` and `\\UXXXXXXXX` for characters, `\\xNN` for a byte, and `\\*N{text}` for N times the text.

What the two other programs say is recorded by `dev/search/fuzz/xml_record.py`.
"""
import codecs
import pathlib
import re

HERE = pathlib.Path(__file__).resolve().parent
ESCAPE = re.compile(r"\\\*([0-9]+)\{([^}]*)\}|\\x([0-9a-f]{2})|\\u([0-9a-fA-F]{4})|\\U([0-9a-fA-F]{8})|\\([nrt\\])|(.)", re.S)
PLAIN = {"n": "\n", "r": "\r", "t": "\t", "\\": "\\"}
XML_NAMESPACE = "http://www.w3.org/XML/1998/namespace"
# The pattern of the root for each kind of schema. {0} is a literal; `u` and `v` are prefixes of the namespaces that a schema names.
ROOTS = {
    "any": "any",
    "empty": "element * { others }",
    "text": "element * { others, string {0} }",
    "x": "element * { attribute x { string {0} }, no_x, content }",
    "-x": "element * { no_x, content }",
    "ns": "element u:* { others, content }",
    "xns": "element * { attribute u:x { text }, attribute * - u:x { text }*, content }",
    "-xns": "element * { attribute * - u:* { text }*, content }",
    "child": "element * { others, text, element u:* { others, content }, text }",
    "child-x": "element * { others, text, element * { attribute x { string {0} }, no_x, content }, text }",
    "two": "element * { others, element * { others, element u:* { others } }, element * { others, element v:* { others } } }",
}
SHARED = """any = element * { others, content }
others = attribute * { text }*
no_x = attribute * - x { text }*
content = (text | any)*
"""


class Case:
    def __init__(self, group, fields):
        name, self.encoding, self.schema, answers, self.jing, self.xmllint, self.reason, self.document = fields
        self.name, self.answers, self.fields = f"{group}: {name}", answers.split("|"), fields

    def differs(self):
        """Whether jing or xmllint says something that is no right answer."""
        return any(it not in self.answers for it in (self.jing, self.xmllint))

    def data(self):
        """The bytes of the document."""
        encoding = "utf-8" if self.encoding == "-" else self.encoding
        return b"".join(it if isinstance(it, bytes) else encoded(it, encoding) for it in unescaped(self.document))


def encoded(text, encoding):
    """The text in the encoding, also characters that no document may have."""
    try:
        return text.encode(encoding, "surrogatepass")
    except UnicodeEncodeError:
        return text.encode(encoding)


def unescaped(text):
    """Texts and bytes, in their order."""
    found = []
    for times, repeated, byte, small, large, plain, other in ESCAPE.findall(text):
        if times:
            parts = joined(unescaped(repeated))
            found.extend([parts[0] * int(times)] if len(parts) == 1 else parts * int(times))
        elif byte:
            found.append(bytes.fromhex(byte))
        else:
            found.append(chr(int(small or large, 16)) if small or large else PLAIN.get(plain, other))
    return joined(found)


def joined(parts):
    """The parts with texts side by side as one, so that an encoding with states sees them together."""
    found = []
    for it in parts:
        if found and isinstance(it, str) and isinstance(found[-1], str):
            found[-1] += it
        else:
            found.append(it)
    return found


def text_of(escaped):
    return "".join(unescaped(escaped))


def literal(text):
    """Literals of the compact syntax, joined. An escape of a quote would end a literal as the quote does."""
    escaped = "".join(it if " " <= it <= "~" and it != "\\" else f"\\x{{{ord(it):x}}}" for it in text)
    return " ~ '\"' ~ ".join(f'"{it}"' for it in escaped.split('"'))


def compact(schema):
    """The schema of a case in compact syntax."""
    kind, _, value = schema.partition("=")
    value = text_of(value)
    root = ROOTS[kind].replace("{0}", literal(value))
    spaces = value.split(" ") if kind == "two" else [value] if kind in ("ns", "xns", "-xns", "child") else []
    if spaces == [XML_NAMESPACE]:
        return f"start = {root.replace('u:', 'xml:')}\n{SHARED}"
    declared = "".join(f"namespace {prefix} = {literal(it)}\n" for prefix, it in zip("uv", spaces))
    return f"{declared}start = {root}\n{SHARED}"


def read(path=HERE / "cases.tsv"):
    """The cases of a file."""
    group, cases = "", []
    for line in path.read_text(encoding="ascii").splitlines():
        if line.startswith("#"):
            group = line[1:].strip()
        elif line:
            cases.append(Case(group, line.split("\t")))
    return cases


def reasons(path=HERE / "reasons.tsv"):
    """The keys of `reasons.tsv`, which says why answers differ."""
    return re.findall(r"^([^#\t\n][^\t\n]*)\t", path.read_text(encoding="utf-8"), re.M)


def is_known(encoding):
    try:
        codecs.lookup(encoding)
        return True
    except LookupError:
        return encoding == "-"
