"""The datatypes that `rncv-xml` serves, and their parameters, as programs/xml/src/schemas/schema_types.c has them."""
from __future__ import annotations

from typing import Dict, Iterable, Optional, Tuple

XSD = "http://www.w3.org/2001/XMLSchema-datatypes"
LENGTHS, DIGITS = ("length", "minLength", "maxLength"), ("totalDigits", "fractionDigits")
BOUNDS = ("minInclusive", "maxInclusive", "minExclusive", "maxExclusive")
# The names, by what parameters they have besides `pattern`.
KINDS: Dict[Tuple[str, ...], str] = {
    LENGTHS: "string normalizedString token language Name NCName NMTOKEN NMTOKENS ID IDREF IDREFS ENTITY ENTITIES anyURI hexBinary base64Binary",
    (): "boolean QName NOTATION",
    (*BOUNDS, *DIGITS): "integer nonPositiveInteger negativeInteger long int short byte nonNegativeInteger unsignedLong unsignedInt unsignedShort "
                        "unsignedByte positiveInteger decimal",
    BOUNDS: "float double duration dateTime time date gYearMonth gYear gMonthDay gDay gMonth"}
PARAMETERS = {name: ("pattern", *others) for others, names in KINDS.items() for name in names.split()}


# The smaller set has these datatypes and parameters (docs/use/LANGUAGE.md).
PROFILE = {**{name: LENGTHS[1:] for name in ("string", "token", "NCName", "NMTOKEN")}, "boolean": (), "integer": ()}


def datatypes_of(library: Optional[str], is_profile: bool) -> Iterable[str]:
    """The names of a library's datatypes."""
    return (PROFILE if is_profile else PARAMETERS) if library == XSD else ("string", "token") if library == "" else ()


def parameters_of(library: Optional[str], name: str, is_profile: bool) -> Iterable[str]:
    """The names of a datatype's parameters."""
    return (PROFILE if is_profile else PARAMETERS).get(name, ()) if library == XSD else ()
