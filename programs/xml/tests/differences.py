"""Where the converters in C, over libxml2, and in Python, over expat, may differ."""
import pathlib
import subprocess
import tempfile

import generated
from testing import RNCV

ANY = "start = any\nany = element * { (attribute * { text } | text | any)* }\n"


def has_lone_surrogates(data):
    """Whether a document of UTF-16 has surrogates that are no pair. Expat takes some of them, and which ones depends on its version."""
    encoding = "utf-16-le" if data[:2] == b"\xff\xfe" else "utf-16-be" if data[:2] == b"\xfe\xff" else None
    try:
        return encoding is not None and data[2:].decode(encoding) is None
    except UnicodeDecodeError:
        return True


def has_new_characters(data):
    """Whether a document has characters that the generated documents do not have: a mutant may make names of them."""
    encoding = "utf-16" if data[:2] in (b"\xff\xfe", b"\xfe\xff") else "utf-8"
    return any(character >= "\x80" and character not in generated.EVERY for character in data.decode(encoding, "replace"))


def unordered(out, places):
    """The lines with their places. Those of a tag's attributes are sorted, since libxml2 gives declarations of namespaces first, and texts are joined, since
    the converters cut them at other places."""
    rows, attributes = [], []
    for line, place in zip(out.split(b"\n"), places):
        if line[:1] == b"A":
            attributes.append((line, place))
            continue
        rows += sorted(attributes)
        attributes = []
        if line[:1] == b"-" and rows and rows[-1][0][:1] == b"-":
            rows[-1] = rows[-1][0] + line[1:], rows[-1][1]
        else:
            rows.append((line, place))
    return rows + sorted(attributes)


def is_refused(pyx):
    """Whether the reader of PYX calls the lines malformed."""
    with tempfile.TemporaryDirectory() as folder:
        schema = pathlib.Path(folder, "any.rnc")
        schema.write_text(ANY)
        judged = subprocess.run([RNCV, "valid", schema], input=pyx, capture_output=True, check=False)
    return judged.stdout.startswith(b"malformed P")


def is_explained(data, reported, in_python, reported_in_python):
    """Whether there is a reason why one converter takes the document and the other one refuses it. `in_python` is the PYX of the one in Python; None: it
    refuses the document."""
    last, last_in_python = (reported or [""])[-1], (reported_in_python or [""])[-1]
    if "encoding" in last + last_in_python or "byte order mark" in last_in_python:
        return True  # the one in C serves more encodings
    if in_python is not None:
        # names of Namespaces in XML. The reader of PYX refuses these too, unless they are those of instructions and of declarations
        return is_refused(in_python) or "colons are forbidden" in last or "XML declaration" in last
    if "is not declared in the document itself" in last_in_python:
        return True  # by an entity that nothing refers to, or that is declared nowhere
    if "declaration behind a parameter entity" in last_in_python:
        return any("it is read as nothing" in line for line in reported)  # the one in Python goes on as if the entity had declarations
    if "undefined entity" in last_in_python:
        # a parameter entity that is not declared is a matter of validity, also in a document that stands alone
        return b"standalone" in data.replace(b"\0", b"")
    return "not well-formed (invalid token)" in last_in_python and has_new_characters(data)  # names of XML 1.0 Fifth Edition
