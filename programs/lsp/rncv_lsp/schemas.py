"""Compiled schemas, which are kept as long as their files do not change, and what is found in files that are not a schema."""
from __future__ import annotations

import dataclasses
import hashlib
import os
import re
from typing import Dict, List, Optional, Tuple

from rncv_lsp.findings import ERROR, INFORMATION, Finding, first_line
from rncv_lsp.outside import rncv
from rncv_lsp.schema_files import MAIN, SchemaFile, SchemaSet, Trouble
from rncv_lsp.schema_words import end_of_token, has_start
from rncv_lsp.xml_prolog import RELAX_NG_NAMESPACE

PART_HINT = "if this file is a part of another schema, open that one too"
XML_SYNTAX = "is in the XML syntax of RELAX NG, which is not served: `trang` converts it to the compact syntax"
OTHER_XML = "is XML, and no schema of RELAX NG"
# What rncv-profile writes into a copy that accepts more or less than the original.
COPY_MARK = re.compile(r"^# rncv-profile: ([0-9]{1,9}) datatypes? (loosened|tightened), see ([^\r\n]*)", re.M)


@dataclasses.dataclass(frozen=True)
class Outcome:
    """The result of compiling a schema's files: a validator, or a fault. `name` identifies the schema, and `copy` says that the files accept more or less than
    those that they are copies of."""

    name: str
    validator: Optional[rncv.Validator] = None
    fault: Optional[rncv.SchemaError] = None
    copy: str = ""


def name_of(schema: SchemaSet, datatypes: str) -> str:
    """A name that depends on the files' names and bytes and on the datatypes that they may name: a hash."""
    total = hashlib.sha256(datatypes.encode())
    for name, file in schema.files.items():
        for part in (name.encode("utf-8", "surrogatepass"), file.content):
            total.update(b"%d:" % len(part) + part)
    return total.hexdigest()


class Schemas:
    """The compiled schemas. Only one thread uses an object."""

    def __init__(self) -> None:
        self._known: Dict[str, Outcome] = {}

    def outcome(self, schema: SchemaSet, datatypes: str) -> Outcome:
        """Compiles a schema, unless the result for exactly these files and datatypes is known."""
        name = name_of(schema, datatypes)
        if name not in self._known:
            self._known[name] = compiled(name, schema, datatypes)
        return self._known[name]

    def keep(self, names: List[str]) -> None:
        """Forgets all but these."""
        self._known = {name: outcome for name, outcome in self._known.items() if name in names}


def compiled(name: str, schema: SchemaSet, datatypes: str) -> Outcome:
    """Compiles a schema, which may name these datatypes."""
    try:
        validator = rncv.compile({each: file.content for each, file in schema.files.items()}, annotations=True, datatypes=datatypes)
    except rncv.SchemaError as fault:
        return Outcome(name, fault=fault)
    texts = tuple({file.key: file.lines.text for file in schema.files.values()}.values())
    return Outcome(name, validator, copy=copy_of(texts))


def copy_of(texts: Tuple[str, ...]) -> str:
    """What rncv-profile says in the files, for a document; empty if it says nothing."""
    marks = [found for text in texts for found in COPY_MARK.finditer(text)]
    counts = {word: sum(int(found[1]) for found in marks if found[2] == word) for word in ("loosened", "tightened")}
    parts = [f"{count} datatype{' was' if count == 1 else 's were'} {word} in" for word, count in counts.items() if count]
    return f"judged by a schema that {' and '.join(parts)} (see {marks[0][3].strip()})" if parts else ""


def findings_of(schema: SchemaSet, outcome: Outcome) -> List[Tuple[SchemaFile, Finding]]:
    """What is found in the files of a schema."""
    found = [(trouble.file, finding_of(trouble, "files", "")) for trouble in schema.unclear]
    fault = outcome.fault
    if fault is None or found:
        return found
    if fault.clause == 1 and schema.missing:
        return [(trouble.file, finding_of(trouble, "S1", fault.title)) for trouble in schema.missing]
    file = schema.files.get(fault.file or MAIN, schema.files[MAIN])
    message, severity = f"S{fault.clause}: {fault.title}", ERROR
    start, end = first_line(file.lines)
    if fault.clause == 14 and not any(has_start(each.lines.text) for each in schema.files.values()):
        message, severity = f"{message}; {PART_HINT}", INFORMATION
    elif fault.offset is not None:
        start = len(file.content[:fault.offset].decode("utf-8", "replace"))
        end = end_of_token(file.lines.text, start)
        message = message if fault.hint is None else f"{message}: hint: {fault.hint}"
    elif fault.hint is not None:
        # the main file has a name here that nobody knows
        message = f"{message}: hint: {fault.hint.replace(MAIN, os.path.basename(schema.main.path))}"
        file = schema.files[fault.hint_file or MAIN]
        start = file.lines.at(fault.hint_line or 1, fault.hint_column or 1)
        end = end_of_token(file.lines.text, start)
    return [(file, Finding(start, end, message, f"S{fault.clause}", fault.title, severity))]


def finding_of(trouble: Trouble, code: str, title: str) -> Finding:
    """A finding at a mention."""
    message = f"{code}: {title}: {trouble.what}" if title else trouble.what
    return Finding(trouble.mention.start, trouble.mention.end, message, code, title)


def refusal(schema: SchemaSet, outcome: Outcome) -> Optional[str]:
    """The message for a document whose schema this is; None if nothing is wrong with the schema."""
    found = findings_of(schema, outcome)
    if not found:
        return None
    file, finding = found[0]
    if file.lines.begins_with_tag:
        return f"the schema {file.path} {XML_SYNTAX if RELAX_NG_NAMESPACE in file.lines.text else OTHER_XML}"
    place = file.lines.position(finding.start, "utf-32")
    return f"the schema is refused: {file.path}:{place['line'] + 1}:{place['character'] + 1}: {finding.message}"
