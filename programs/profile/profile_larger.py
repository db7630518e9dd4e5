"""What the larger set of datatypes serves (docs/use/LANGUAGE.md, "The larger set"), and what a copy has in place of the rest. Nothing here is proved."""
import operator
import re

from profile_types import (ALLOWED, BOTH, BOUNDS, COMPATIBILITY, FACETS, INTEGERS, LISTS, MORE, NAME_CHARACTER, SAME, UNSIGNED, XSD, NotBroughtOver, Reported,
                           is_within, other_type, schema_type, written, wrong)
from profile_values import OCTETS, ORDERED, Ordered, collapsed, octets

TEXTS = ("string", "normalizedString", "token", "language", "Name", "NCName", "NMTOKEN", "ID", "IDREF", "ENTITY", "anyURI")
CONTEXT = ("QName", "NOTATION")
BOUNDS_OF = {"integer": (None, None), **INTEGERS, **UNSIGNED}
SERVED = (*TEXTS, *LISTS, *CONTEXT, "boolean", *BOUNDS_OF, *ORDERED, *OCTETS)
LENGTHS = ("length", "minLength", "maxLength")
MOST_COUNTED = 2 ** 63 - 1
NCNAME, INTEGER = ALLOWED["NCName"], "[+-]?[0-9]+"
TEXT_OF = {"language": "[A-Za-z]{1,8}(-[A-Za-z0-9]{1,8})*", "Name": rf"(?![-.0-9\xb7\u0300-\u036f\u203f\u2040])[{NAME_CHARACTER}]+",
           "NMTOKEN": ALLOWED["NMTOKEN"], "NMTOKENS": rf"{ALLOWED['NMTOKEN']}( {ALLOWED['NMTOKEN']})*", "boolean": ALLOWED["boolean"],
           **dict.fromkeys(("NCName", "ID", "IDREF", "ENTITY"), NCNAME)}
DIGITS = ("totalDigits", "fractionDigits")
# Pairs of parameters that exclude each other, and pairs of a lower and an upper one, with whether the lower one has to be less.
EXCLUSIVE = (("length", "minLength"), ("length", "maxLength"), ("minInclusive", "minExclusive"), ("maxInclusive", "maxExclusive"))
IN_ORDER = {("minLength", "maxLength"): False, ("minInclusive", "maxInclusive"): False, ("minInclusive", "maxExclusive"): True,
            ("minExclusive", "maxInclusive"): True, ("minExclusive", "maxExclusive"): False, ("fractionDigits", "totalDigits"): False}


def integer(text):
    """The integer that a text writes; None if it writes none."""
    return int(collapsed(text)) if re.fullmatch(INTEGER, collapsed(text)) else None


def allows(name, text):
    """Whether a type without parameters allows the text."""
    if name in BOUNDS_OF:
        number = integer(text)
        return number is not None and is_within(number, BOUNDS_OF[name])
    if name in ORDERED:
        return ORDERED[name].value_of(collapsed(text)) is not None
    if name in OCTETS:
        return octets(name, collapsed(text)) is not None
    if name in LISTS:
        pieces = collapsed(text).split(" ")
        return all(re.fullmatch(TEXT_OF[LISTS[name]], piece) for piece in pieces)
    return name not in TEXT_OF or re.fullmatch(TEXT_OF[name], collapsed(text)) is not None


def takes(name, parameter):
    """Whether a type takes the parameter."""
    if parameter in BOUNDS:
        return name in BOUNDS_OF or name in ORDERED
    if parameter in DIGITS:
        return name in BOUNDS_OF or name == "decimal"
    return parameter == "pattern" or parameter in LENGTHS and name in (*TEXTS, *LISTS, *OCTETS)


def count_of(param, name):
    """The number that a length, or a number of digits, writes; None if it may not have it."""
    number = integer(param.value)
    least = 1 if param.name == "totalDigits" or param.name in LENGTHS and name in LISTS else 0
    greatest = 0 if param.name == "fractionDigits" and name != "decimal" else MOST_COUNTED
    return number if number is not None and is_within(number, (least, greatest)) else None


def check_value(param, name):
    """The value of a parameter that the type takes."""
    if param.name not in BOUNDS:
        value = count_of(param, name)
    elif name in ORDERED:
        value = ORDERED[name].value_of(collapsed(param.value))
    else:
        value = integer(param.value) if allows(name, param.value) else None
    if value is None:
        raise NotBroughtOver(Reported(param.at, f"xsd:{name} does not allow the {param.name} {param.value!r}"))
    return value


def left_out(param, name):
    """What is reported about a parameter that the type does not take, and that a copy leaves out."""
    if param.name not in FACETS or name not in CONTEXT:
        raise wrong(param, name)
    return Reported(param.at, f"the parameter {param.name} is not served", f"no {param.name}", MORE)


def is_in_order(pair, low, high, name):
    """Whether values of a pair of parameters suit each other. Where two are not comparable, they do not."""
    order = ORDERED[name] if name in ORDERED and pair[0] in BOUNDS else Ordered(None, operator.le, operator.lt)
    return (order.is_less if IN_ORDER[pair] else order.is_at_most)(low, high)


def check_pairs(values, name):
    """Finds parameters that exclude each other. `values` has each parameter and its value, by name."""
    for pair in (*EXCLUSIVE, *IN_ORDER):
        if values.keys() >= set(pair):
            (first, low), (second, high) = values[pair[0]], values[pair[1]]
            if pair not in IN_ORDER or not is_in_order(pair, low, high, name):
                raise NotBroughtOver(Reported(max(first.at, second.at), f"the parameters {pair[0]} and {pair[1]} exclude each other"))


def data_use(use):
    """The type with the parameters that it takes, and what is reported about the others. Nobody looks into a pattern here."""
    values, patterns, reported = {}, [], []
    for param in use.params:
        if not takes(use.name, param.name):
            reported.append(left_out(param, use.name))
        elif param.name == "pattern":
            patterns.append(("pattern", param.value))
        elif param.name in values:
            raise NotBroughtOver(Reported(param.at, f"the parameter {param.name} appears twice"))
        else:
            values[param.name] = param, check_value(param, use.name)
    check_pairs(values, use.name)
    return written(use.name, [(param.name, collapsed(param.value)) for param, _ in values.values()] + patterns), reported


def served_use(use):
    """The text that replaces a type that is served (empty: it stays), and what is reported."""
    if use.value is not None and use.name in CONTEXT:
        return "xsd:NMTOKEN", [Reported(use.at, f"a value of the datatype xsd:{use.name} is not served", "xsd:NMTOKEN", BOTH)]
    if use.value is not None:
        return "", [] if allows(use.name, use.value) else [Reported(use.at, f"xsd:{use.name} does not allow the value {use.value!r}")]
    try:
        text, reported = data_use(use)
    except NotBroughtOver as fault:
        return "", [fault.reported]
    return text if reported else "", reported


def judged_larger(use):
    """The text that replaces a datatype (empty: it stays), and what is reported about it."""
    if use.library == XSD and use.name in SERVED:
        return served_use(use)
    if use.library == COMPATIBILITY and use.name in ("ID", "IDREF", "IDREFS"):
        text = written(use.name, [(param.name, param.value) for param in use.params])
        return text, [Reported(use.at, f"the datatype library {use.library!r} is not served", f"xsd:{use.name}", SAME)]
    return (schema_type if use.library == XSD else other_type)(use, False, False)
