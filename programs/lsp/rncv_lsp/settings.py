"""The settings of a client: the schemas of documents, and where the clauses are explained."""
from __future__ import annotations

import dataclasses
import functools
import os
import re
from typing import Any, List, Optional, Pattern, Tuple

from rncv_lsp import DATATYPES, MOST_FAULTS
from rncv_lsp.documents import path_of

GLOB = re.compile(r"(?P<folders>\*\*/)|(?P<all>\*\*)|(?P<some>\*)|(?P<one>\?)|(?P<set>\[[^]/]+\])|\{(?P<either>[^{}]*)\}|(?P<letter>.)", re.S)
SIGNS = re.compile(r"[\\\][^&~|]")


@dataclasses.dataclass(frozen=True)
class SchemaRule:
    """Documents whose paths match the pattern have this schema."""

    pattern: str
    schema: str


@dataclasses.dataclass(frozen=True)
class Settings:
    """The settings. Without `datatypes` the set is that of the command line, and so is the number without `most_faults`."""

    schemas: Tuple[SchemaRule, ...] = ()
    clauses_url: str = ""
    datatypes: str = ""
    most_faults: int = 0


def settings_of(value: Any) -> Tuple[Settings, List[str]]:
    """The settings that a client sends, and what is wrong with them."""
    section = value.get("rncv", value) if isinstance(value, dict) else {}
    section = section if isinstance(section, dict) else {}
    faults: List[str] = []
    listed = section.get("schemas") or []
    rules = [rule_of(each, faults) for each in listed] if isinstance(listed, list) else []
    if not isinstance(listed, list):
        faults.append("the setting schemas is not a list")
    url = section.get("clausesUrl") or ""
    if not isinstance(url, str):
        faults.append("the setting clausesUrl is not a string")
        url = ""
    datatypes = section.get("datatypes") or ""
    if datatypes and datatypes not in DATATYPES:
        faults.append(f"the setting datatypes is none of {', '.join(DATATYPES)}")
        datatypes = ""
    return Settings(tuple(rule for rule in rules if rule is not None), url, datatypes, most_faults_of(section.get("maxFaults"), faults)), faults


def most_faults_of(value: Any, faults: List[str]) -> int:
    """The setting `maxFaults`; 0 if there is none. If the value is not such a number, adds a fault and returns 0."""
    if value is None:
        return 0
    if isinstance(value, int) and not isinstance(value, bool) and 1 <= value <= MOST_FAULTS:
        return value
    faults.append(f"the setting maxFaults is no number from 1 to {MOST_FAULTS}")
    return 0


def rule_of(value: Any, faults: List[str]) -> Optional[SchemaRule]:
    """A rule of the setting `schemas`. If the value is not a rule, adds a fault and returns None."""
    pattern, schema = (value.get("pattern"), value.get("schema")) if isinstance(value, dict) else (None, None)
    if isinstance(pattern, str) and isinstance(schema, str) and pattern and schema:
        return SchemaRule(pattern, schema)
    faults.append("a setting of schemas has no pattern or no schema")
    return None


@functools.lru_cache(maxsize=256)
def glob(pattern: str) -> Pattern[str]:
    """The regular expression of a pattern: `*`, `**`, `?`, `[..]` and `{a,b}`."""
    return re.compile("".join(map(part_of_glob, GLOB.finditer(pattern))) + r"\Z", re.S)


def part_of_glob(found: "re.Match[str]") -> str:
    """The regular expression of a part of a pattern."""
    kind, words = found.lastgroup, found[0]
    if kind == "set":
        mark = "^" if words[1] in "!^" and len(words) > 3 else ""
        # Signs with a meaning in a set of a regular expression are escaped, except the one of a range.
        return f"[{mark}{SIGNS.sub(escaped, words[1 + len(mark):-1])}]"
    if kind == "either":
        return "(?:" + "|".join(glob(part).pattern[:-2] for part in found["either"].split(",")) + ")"
    known = {"folders": "(?:.*/)?", "all": ".*", "some": "[^/]*", "one": "[^/]"}
    return known.get(kind or "", re.escape(words))


def escaped(sign: "re.Match[str]") -> str:
    """A sign with a backslash, so that it has no special meaning."""
    return "\\" + sign[0]


def matches(pattern: str, path: str, roots: Tuple[str, ...]) -> bool:
    """Whether a document's path matches: the whole path, the path in a folder of the workspace, or its last part if the pattern has no slash."""
    names = [path, *(os.path.relpath(path, root) for root in roots if is_in(path, root))]
    names += [] if "/" in pattern else [os.path.basename(path)]
    try:
        return any(glob(pattern).match(name) for name in names)
    except re.error:
        return False


def is_in(path: str, root: str) -> bool:
    """Whether the path is in the folder."""
    return path.startswith(root.rstrip("/") + "/")


def schema_by_rule(settings: Settings, path: str, roots: Tuple[str, ...]) -> Optional[str]:
    """The path of the schema that the settings give to a document, if any. It is relative to the folder of the workspace, or else to the document."""
    for rule in settings.schemas:
        if matches(rule.pattern, path, roots):
            named = path_of(rule.schema) if rule.schema.lower().startswith("file:") else rule.schema
            root = next((root for root in roots if is_in(path, root)), roots[0] if roots else os.path.dirname(path))
            return os.path.normpath(os.path.join(root, named)) if named else None
    return None
