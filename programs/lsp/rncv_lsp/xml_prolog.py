"""The instructions `<?xml-model href=".."?>` before the root of a document."""
from __future__ import annotations

import dataclasses
import html
import re
from typing import List, Tuple

from rncv_lsp.texts import Text
from rncv_lsp.xml_source import Place, instructions, offset_of

ATTRIBUTE = re.compile(r"""([^\s=]+)\s*=\s*(?:"([^"]*)"|'([^']*)')""")
COMPACT_TYPE = "application/relax-ng-compact-syntax"
RELAX_NG_NAMESPACE = "http://relaxng.org/ns/structure/1.0"
INSTRUCTION_LENGTH = 65_536


@dataclasses.dataclass(frozen=True)
class Model:
    """An instruction: what it refers to, the type of that, the namespace of its language, and the place of the instruction."""

    href: str
    kind: str
    namespace: str
    start: int
    end: int

    @property
    def file(self) -> str:
        """The reference without its query and its fragment."""
        return re.split("[?#]", self.href)[0]

    @property
    def is_compact(self) -> bool:
        """Whether it names a schema in the compact syntax."""
        return bool(self.href) and (self.kind == COMPACT_TYPE if self.kind else self.file.lower().endswith(".rnc"))

    @property
    def is_xml_syntax(self) -> bool:
        """Whether it names a schema in the XML syntax of RELAX NG."""
        has_name = self.file.lower().endswith(".rng") and not self.namespace
        return bool(self.href) and not self.is_compact and (self.namespace == RELAX_NG_NAMESPACE or has_name)


def models_in(lines: Text) -> Tuple[Model, ...]:
    """The instructions of a document, in their order."""
    found: List[Model] = []

    def take(target: str, words: str, place: Place) -> None:
        """Takes an instruction, if it is one of these."""
        if target == "xml-model":
            found.append(model_of(lines, words, place))

    instructions(lines, take)
    return tuple(found)


def model_of(lines: Text, words: str, place: Place) -> Model:
    """The instruction with these words at a place."""
    values = {found[1]: html.unescape(found[2] if found[2] is not None else found[3]) for found in ATTRIBUTE.finditer(words)}
    kind = values.get("type", "").partition(";")[0].strip().lower()
    start = offset_of(lines, place)
    length = lines.slice(start, start + INSTRUCTION_LENGTH).find("?>")
    end = start + length + 2 if length >= 0 else lines.line_end(place[0] - 1)
    return Model(values.get("href", ""), kind, values.get("schematypens", "").strip(), start, end)
