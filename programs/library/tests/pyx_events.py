"""The events of documents in PYX that break no clause, except P13, which is about their end.

An event is ("start", lines, uri, local, attributes), with attributes (uri, local, value), or ("text", text), or ("end", lines), all in bytes. `lines` are
the lines that the library may report of such a document where it reports the place of the event: a start has that of the line behind its tag, and the text
before it that of its first line.
"""
import re

ESCAPES = {b"\\n": b"\n", b"\\t": b"\t", b"\\\\": b"\\"}
XML = b"http://www.w3.org/XML/1998/namespace"


def unescaped(text):
    return re.sub(rb"\\.", lambda found: ESCAPES[found[0]], text)


def expanded(name, scope, default):
    """The namespace and the local name of a name."""
    prefix, colon, local = name.rpartition(b":")
    return (scope[prefix] if colon else default, local)


def events_of(document):
    """The events of a document."""
    lines = document.split(b"\n")[:-1]
    scopes, at = [{b"": b"", b"xml": XML}], 0
    while at < len(lines):
        kind, text, at = lines[at][:1], lines[at][1:], at + 1
        if kind == b"(":
            first, pairs, scope = at, [], dict(scopes[-1])
            while at < len(lines) and lines[at][:1] == b"A":
                name, _, value = lines[at][1:].partition(b" ")
                pairs.append((name, unescaped(value)))
                at += 1
            declared = {name.partition(b":")[2]: value for name, value in pairs if name == b"xmlns" or name.startswith(b"xmlns:")}
            scope.update(declared)
            scopes.append(scope)
            attributes = [(*expanded(name, scope, b""), value) for name, value in pairs if name != b"xmlns" and not name.startswith(b"xmlns:")]
            yield ("start", {first, at + 1}, *expanded(text, scope, scope[b""]), attributes)
        elif kind == b")":
            scopes.pop()
            yield ("end", {at})
        elif kind == b"-":
            yield ("text", unescaped(text))
