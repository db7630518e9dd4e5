"""Why a start or an end leaves nothing of a document, as the library tells it."""

from __future__ import annotations

import ctypes
from typing import Any, NamedTuple, Optional

# The words of `rncv-xml --format json`, and one more at the end, by the numbers of the library.
_WORDS = (None, "element-not-allowed", "attribute-not-allowed", "attribute-value", "attributes-missing", "text-not-allowed", "text-value", "incomplete", "nothing-matches")
_OF_AN_ATTRIBUTE = ("attribute-not-allowed", "attribute-value")


class Reason(NamedTuple):
    """Why a start or an end leaves nothing of what may come next.

    `kind` is "element-not-allowed", "attribute-not-allowed", "attribute-value" (an attribute of the name may be there, with another value),
    "attributes-missing" (all that are there are taken), "text-not-allowed" or "text-value" (the text directly before; another one may be there), or
    "incomplete" (an end comes too early). "nothing-matches": none of these is found, and yet no continuation is valid. `attribute` is the name of the
    attribute that is wrong, as `local` or `{uri}local`, and otherwise None. Where alternatives exclude one another, the order of the attributes decides
    which one is told.
    """

    kind: str
    attribute: Optional[str] = None


# That of a tag of which the patterns leave something.
NOTHING_MATCHES = Reason("nothing-matches")


class LineReason(NamedTuple):
    """Why a line of a document in PYX leaves nothing of what may come next.

    `kind` is that of `Reason`. `attribute` is the index of the attribute that is wrong among those of its tag, from 0, without declarations of namespaces,
    and otherwise None.
    """

    kind: str
    attribute: Optional[int] = None


class Told(ctypes.Structure):
    """A reason, as the library gives it."""

    _fields_ = [("kind", ctypes.c_int32), ("attribute", ctypes.c_uint64)]


def reason_of(told: Told, attributes: Any = ()) -> Optional[Reason]:
    """The reason that the library tells of a start with these attributes, or of an end."""
    word = _WORDS[told.kind]
    if word not in _OF_AN_ATTRIBUTE:
        return None if word is None else Reason(word)
    given = attributes[told.attribute]
    local = given.local.decode("utf-8")
    return Reason(word, f"{{{given.uri.decode('utf-8')}}}{local}" if given.uri else local)


def line_reason_of(told: Told) -> Optional[LineReason]:
    """The reason that the library tells of a line."""
    word = _WORDS[told.kind]
    if word is None:
        return None
    return LineReason(word, told.attribute if word in _OF_AN_ATTRIBUTE else None)
