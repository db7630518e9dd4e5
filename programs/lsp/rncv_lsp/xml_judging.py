"""Judges a document by a compiled schema, or only whether it is well formed, and returns what is found in its text."""
from __future__ import annotations

import re
from typing import Iterator, List, Tuple

from rncv_lsp.documents import Document
from rncv_lsp.findings import INFORMATION, Finding, first_line
from rncv_lsp.outside import rncv
from rncv_lsp.schemas import Outcome
from rncv_lsp.xml_source import Cancelled, Fault, Place, Source, instructions, offset_of, want_well_formed

# How far an instruction, an attribute or a document type is searched for its end; and how far a text.
SPAN_LENGTH, TEXT_LENGTH = 65_536, 2_097_152
NAME = r"[^\s<>/&=\"'?!;]+"
LITERAL = r"""(?:"[^"]*"|'[^']*')"""
# What may be at a place: an end tag, the beginning of a start tag, a reference, an instruction, a name, or any character.
AT_PLACE = re.compile(rf"</{NAME}\s*>?|<{NAME}|&{NAME};|<\?.*?\?>|{NAME}|[^\r\n]", re.S)
ATTRIBUTE = re.compile(rf"\s+({NAME})\s*=\s*{LITERAL}")
# A text to the next tag. Comments and instructions do not end it.
TEXT = re.compile(r"(?:[^<]+|<!\[CDATA\[.*?\]\]>|<!--.*?-->|<\?.*?\?>)*", re.S)
TYPE = "<!DOCTYPE"
# A document type to the end of its external part.
EXTERNAL = re.compile(rf"{TYPE}\s+{NAME}\s+(?:SYSTEM|PUBLIC\s+{LITERAL})\s+{LITERAL}")
NOTE = re.compile(r"(\d+):(\d+): note: (.*)", re.S)
# A client has a link to the clause in place of these words.
PAGE = ", see docs/use/CLAUSES.md"


def judged(document: Document, validator: rncv.Validator, outcome: Outcome, is_cancelled: Cancelled, most_faults: int) -> List[Finding]:
    """What is found in a document that has a schema. The lock of the interpreter is free, except while the next bytes are made."""
    verdict = validator.validate_xml(Source(document.lines, is_cancelled), hints=most_faults - 1)
    found = [wrong(document, each) for each in (verdict, verdict.earlier) if each is not None and not each.valid]
    found += [hint(document, each) for each in verdict.hints]
    found += [note(document, place, what) for place, what in notes_of(verdict)]
    if outcome.copy:
        root = instructions(document.lines, lambda *instruction: None)
        place = first_line(document.lines) if root is None else span(document, root)
        found.append(Finding(*place, outcome.copy, "profile", severity=INFORMATION))
    return found


def well_formed(document: Document, is_cancelled: Cancelled) -> List[Finding]:
    """What is found in a document without a schema: whether it is well formed, and what is left out."""
    found: List[Finding] = []
    try:
        want_well_formed(Source(document.lines, is_cancelled), lambda place, what: found.append(note(document, place, what)))
    except Fault as fault:
        found.append(Finding(*span(document, fault.place), fault.what, "malformed"))
    return found


def wrong(document: Document, verdict: rncv.XmlVerdict) -> Finding:
    """The finding for a document that is not valid."""
    place = max(verdict.line, 1), max(verdict.column, 1)
    ends = invalid_span(document, place, verdict) if verdict.kind == "invalid" else span(document, place)
    code = f"P{verdict.clause}" if verdict.clause else verdict.kind
    title = rncv.clause_title("P", verdict.clause) or ""
    return Finding(*ends, verdict.message.removesuffix(PAGE), code, title)


def hint(document: Document, verdict: rncv.XmlVerdict) -> Finding:
    """The finding for a further fault of a document. It may be one that the first fault has caused, so it is no error."""
    return Finding(*invalid_span(document, (verdict.line, verdict.column), verdict), verdict.message, "hint", severity=INFORMATION)


def notes_of(verdict: rncv.XmlVerdict) -> Iterator[Tuple[Place, str]]:
    """What is left out of a document, each with its place."""
    for line in verdict.notes:
        found = NOTE.fullmatch(line)
        if found:
            yield (int(found[1]), int(found[2])), found[3]


def note(document: Document, place: Place, what: str) -> Finding:
    """The finding for what is left out of a document. An external DTD is reported in the document type, or behind it."""
    start, end = span(document, place)
    if what.startswith("the external DTD "):
        start = max(document.lines.slice(0, start + len(TYPE)).rfind(TYPE), 0)
        found = EXTERNAL.match(document.lines.slice(start, start + SPAN_LENGTH))
        end = start + (found.end() if found else len(TYPE))
    return Finding(start, end, what, "note", severity=INFORMATION)


def span(document: Document, place: Place) -> Tuple[int, int]:
    """The offsets of what is at a place: a tag's beginning, a reference, a name, or one character."""
    start = offset_of(document.lines, place)
    found = AT_PLACE.match(document.lines.slice(start, start + SPAN_LENGTH))
    return start, start + found.end() if found else start


def invalid_span(document: Document, place: Place, verdict: rncv.XmlVerdict) -> Tuple[int, int]:
    """Where the part is that is wrong."""
    if verdict.at == "attribute":
        return attribute_span(document, place, verdict.name or "")
    return text_span(document, place) if verdict.at == "text" else span(document, place)


def attribute_span(document: Document, tag: Place, name: str) -> Tuple[int, int]:
    """Where an attribute is in its tag; the tag's beginning if it is not there."""
    start, at = span(document, tag)
    end = at
    while found := ATTRIBUTE.match(document.lines.slice(at, at + SPAN_LENGTH)):
        if found[1] == name:
            return at + found.start(1), at + found.end()
        at += found.end()
    return start, end


def text_span(document: Document, begin: Place) -> Tuple[int, int]:
    """Where a text is, without the blanks behind it."""
    start = offset_of(document.lines, begin)
    found = TEXT.match(document.lines.slice(start, start + TEXT_LENGTH))
    words = found[0].rstrip() if found else ""
    return (start, start + len(words)) if words else span(document, begin)
