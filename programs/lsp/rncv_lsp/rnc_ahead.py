"""Gets ready what answers about a schema need of its parts, before the first question."""
from __future__ import annotations

from typing import Iterator

from rncv_lsp.rnc_indent import part_by_part
from rncv_lsp.rnc_part import FOUND_ONCE
from rncv_lsp.rnc_parts import Outline
from rncv_lsp.rnc_tree import shown


def ahead(outline: Outline, encoding: str) -> Iterator[int]:
    """Gets a file ready, step by step, and counts the steps. All that is made is kept with the parts, and may be made in two threads at once."""
    steps = 0
    for steps, part in enumerate(outline.parts, 1):
        shown(part, encoding)
        for name in FOUND_ONCE:
            getattr(part, name)
        yield steps
    for steps, _ in enumerate(part_by_part(outline), steps + 1):
        yield steps
    for steps, piece in enumerate(outline.lines.pieces, steps + 1):
        getattr(piece, "ends")
        yield steps
