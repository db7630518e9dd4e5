"""What is found in a text, and its form in the protocol."""
from __future__ import annotations

import dataclasses
import re
from typing import Any, Dict

from rncv_lsp.texts import Text

ERROR, WARNING, INFORMATION = 1, 2, 3


@dataclasses.dataclass(frozen=True)
class Finding:
    """A finding between two offsets of a text. `code` is a clause, such as S6, or a word. `title` is the title of the clause."""

    start: int
    end: int
    message: str
    code: str = ""
    title: str = ""
    severity: int = ERROR


def first_line(lines: Text) -> "tuple[int, int]":
    """The offsets of a text's first line."""
    return 0, lines.line_end(0)


def slug(heading: str) -> str:
    """The name of a Markdown heading in an address."""
    return re.sub(r"[^\w\- ]", "", heading.lower()).replace(" ", "-")


def address(clauses_url: str, finding: Finding) -> str:
    """Where a clause is explained: its page in a folder, whose address ends in a slash, or its heading on the page of all clauses."""
    return f"{clauses_url}{finding.code}.html" if clauses_url.endswith("/") else f"{clauses_url}#{slug(f'{finding.code}: {finding.title}')}"


def diagnostic(lines: Text, finding: Finding, encoding: str, clauses_url: str) -> Dict[str, Any]:
    """A diagnostic of the protocol."""
    reported: Dict[str, Any] = {
        "range": lines.range(finding.start, finding.end, encoding),
        "severity": finding.severity,
        "source": "rncv",
        "message": finding.message,
    }
    if finding.code:
        reported["code"] = finding.code
    if finding.title and clauses_url:
        reported["codeDescription"] = {"href": address(clauses_url, finding)}
    return reported
