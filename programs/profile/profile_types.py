"""The datatypes, parameters and values that the profile serves, and the nearest replacements for the others (docs/use/LANGUAGE.md). Nothing here is
proved."""
import dataclasses
import re

XSD = "http://www.w3.org/2001/XMLSchema-datatypes"
COMPATIBILITY = "http://relaxng.org/ns/compatibility/datatypes/1.0"
SAME, MORE, LESS, BOTH = "the same", "more", "less", "more and less"
TURNED = {SAME: SAME, MORE: LESS, LESS: MORE, BOTH: BOTH}
EFFECTS = {(False, False): SAME, (True, False): MORE, (False, True): LESS, (True, True): BOTH}

TEXTS = ("string", "token", "NCName", "NMTOKEN")
SERVED = (*TEXTS, "boolean", "integer")
LENGTHS = ("minLength", "maxLength")
DIGITS, GREATEST = 38, 10 ** 38 - 1
NAME_CHARACTER = ("-.0-9:A-Z_a-z\xb7\xc0-\xd6\xd8-\xf6\xf8-\u037d\u037f-\u1fff\u200c\u200d\u203f\u2040\u2070-\u218f\u2c00-\u2fef\u3001-\ud7ff"
                  "\uf900-\ufdcf\ufdf0-\ufffd\U00010000-\U000effff")
ALLOWED = {"NMTOKEN": rf"[{NAME_CHARACTER}]+", "NCName": rf"(?![-.0-9\xb7\u0300-\u036f\u203f\u2040])(?!.*:)[{NAME_CHARACTER}]+",
           "boolean": "true|false|1|0", "integer": f"[+-]?[0-9]{{1,{DIGITS}}}"}


def signed(bits):
    return -2 ** (bits - 1), 2 ** (bits - 1) - 1


# The bounds of the integer types of XML Schema. `integer` accepts a sign also for the types (UNSIGNED) that allow none.
INTEGERS = {"long": signed(64), "int": signed(32), "short": signed(16), "byte": signed(8), "nonNegativeInteger": (0, None), "positiveInteger": (1, None),
            "nonPositiveInteger": (None, 0), "negativeInteger": (None, -1)}
UNSIGNED = {"unsignedLong": (0, 2 ** 64 - 1), "unsignedInt": (0, 2 ** 32 - 1), "unsignedShort": (0, 2 ** 16 - 1), "unsignedByte": (0, 2 ** 8 - 1)}
# The datatypes of IDs, and how a copy marks what it has instead: by the number of digits of a minLength with zeros in front, or by so many line feeds
# before a value. `rncv-xml` reads the marks, and checks the IDs of documents (programs/xml/src/judging/id_types.h).
ID_TYPES = {"ID": 9, "IDREF": 8, "IDREFS": 7}
LOOKS_MARKED = "0[0-9]{6,8}"
# Lists by the type of their items.
LISTS = {"NMTOKENS": "NMTOKEN", "IDREFS": "NCName", "ENTITIES": "NCName"}
BOUNDS = ("minInclusive", "maxInclusive", "minExclusive", "maxExclusive")
FACETS = frozenset("length minLength maxLength pattern minInclusive maxInclusive minExclusive maxExclusive totalDigits fractionDigits".split())


@dataclasses.dataclass(frozen=True)
class Nearest:
    """The nearest served type, what a copy with it accepts as data and as a value, and whether lengths count the same."""
    base: str
    data: str = MORE
    value: str = SAME
    lengths: bool = True


# What `ID`, `IDREF` and `ENTITY` refer to is not looked up, for a value neither.
NEAREST = {"normalizedString": Nearest("string", SAME, LESS), "anyURI": Nearest("token"), "language": Nearest("NMTOKEN"), "Name": Nearest("NMTOKEN"),
           "ID": Nearest("NCName", MORE, MORE), "IDREF": Nearest("NCName", MORE, MORE), "ENTITY": Nearest("NCName", MORE, MORE),
           "QName": Nearest("NMTOKEN", MORE, BOTH, False), "NOTATION": Nearest("NMTOKEN", MORE, BOTH, False)}
NEAREST.update((name, Nearest("token", MORE, LESS, False)) for name in (
    "decimal float double duration dateTime date time gYear gYearMonth gMonth gMonthDay gDay hexBinary base64Binary").split())


@dataclasses.dataclass(frozen=True)
class Param:
    """A parameter as it is written; `at` is the offset of its name."""
    name: str
    value: str
    at: int


@dataclasses.dataclass(frozen=True)
class Within:
    """The excepts of datatypes around a place: whether their number is odd, and whether the innermost one is that of an integer type."""
    odd: bool = False
    integers: bool = False


@dataclasses.dataclass(frozen=True)
class TypeUse:
    """A datatype as it is written: `name` of `library`, with parameters or with a value. `has_except` says that ` - ` follows, `within` where it is."""
    library: str
    name: str
    at: int
    params: tuple = ()
    value: str = None
    has_except: bool = False
    within: Within = Within()

    def is_integer(self):
        return self.library == XSD and (self.name == "integer" or self.name in INTEGERS or self.name in UNSIGNED)


@dataclasses.dataclass(frozen=True)
class Reported:
    """A part of a datatype that is outside the profile. `effect` is what a copy with `change` accepts; without a change it is not brought over.
    `is_marked` says that the copy marks the change as a datatype of IDs."""
    at: int
    what: str
    change: str = ""
    effect: str = ""
    is_marked: bool = False


class NotBroughtOver(Exception):
    """A parameter, at its place, that no served type can express."""

    def __init__(self, reported):
        super().__init__(reported.what)
        self.reported = reported


def allows(base, text):
    """Whether a served type of XML Schema without parameters allows the text."""
    return base not in ALLOWED or re.fullmatch(ALLOWED[base], " ".join(re.split("[ \t\r\n]+", text.strip(" \t\r\n")))) is not None


def number(param, signed_too):
    """The number in a parameter. A parameter that is not a number breaks the published syntax too."""
    text = param.value.strip(" \t\r\n")
    if not re.fullmatch("[+-]?[0-9]+" if signed_too else r"\+?[0-9]+", text):
        raise NotBroughtOver(Reported(param.at, f"the parameter {param.name} is not a number: {param.value!r}"))
    return int(text)


def literal(text):
    """A literal with the text. What would begin an escape is written by one, and so is the end of a line. Quotes are in other quotes, since escapes are
    replaced before a literal ends."""
    escaped = re.sub(r"[\n\r]|\\(?=x)", lambda found: f"\\x{{{ord(found[0]):X}}}", str(text))
    return " ~ ".join(f"'{part}'" if '"' in part else f'"{part}"' for part in re.findall('"+|[^"]+', escaped) or [""])


def written(name, facets):
    """A type of XML Schema with its parameters, in the compact syntax."""
    inside = " ".join(f"{facet} = {literal(value)}" for facet, value in facets)
    return f"xsd:{name} {{ {inside} }}" if inside else f"xsd:{name}"


def marked(name, facets):
    """The facets of what replaces a datatype of IDs, with its mark. A length that leaves no room for the mark is greater than that of any document."""
    length = next((int(value) for facet, value in facets if facet == "minLength"), 1)
    return [("minLength", str(length).zfill(ID_TYPES[name])), *(pair for pair in facets if pair[0] != "minLength")]


def value_mark(name):
    """What is written between the datatype and a value, to mark it: line feeds, which do not count in a value of such a type."""
    feeds = r"\x{A}" * (10 - ID_TYPES[name])
    return f' "{feeds}" ~'


def no_value_mark(use, base):
    """What is written between a datatype that is none of IDs and a value, so that the value does not look marked."""
    return ' " " ~' if base in ("NCName", "token") and use.value.startswith("\n") else ""


def unmarked(use):
    """The same use of a datatype, without a length that looks like a mark."""
    return dataclasses.replace(use, params=tuple(
        dataclasses.replace(param, value=str(int(param.value))) if param.name == "minLength" and re.fullmatch(LOOKS_MARKED, param.value) else param
        for param in use.params))


def respelled(use):
    """What replaces a datatype that is served and does not look marked now, but did; empty: it stays."""
    if use.name in TEXTS and use.value is None:
        return written(use.name, [(param.name, param.value) for param in use.params])
    mark = "" if use.value is None else no_value_mark(use, use.name)
    return f"xsd:{use.name}{mark}" if mark else ""


def wrong(param, name):
    return NotBroughtOver(Reported(param.at, f"xsd:{name} takes no parameter {param.name}"))


def is_length(param):
    return param.name in LENGTHS and re.fullmatch("[0-9]{1,9}", param.value)


def is_bound(param):
    return param.name in ("minInclusive", "maxInclusive") and allows("integer", param.value)


def text_param(param, name, base):
    """The facets that replace a parameter of a type whose texts are characters, and what is reported, if anything."""
    if is_length(param):
        return [(param.name, param.value)], None
    if param.name == "pattern":
        return [], Reported(param.at, "the parameter pattern is not served", f"no {param.name}", MORE)
    if param.name not in (*LENGTHS, "length") or base not in TEXTS:
        raise wrong(param, name)
    length = number(param, False)
    if length > 999_999_999:
        raise NotBroughtOver(Reported(param.at, f"the parameter {param.name} has more than 9 digits"))
    facets = [(facet, str(length)) for facet in (LENGTHS if param.name == "length" else (param.name,))]
    what = "is not served" if param.name == "length" else "is not written as 1 to 9 digits"
    return facets, Reported(param.at, f"the parameter {param.name} {what}", " ".join(f'{facet} = "{value}"' for facet, value in facets), SAME)


def integer_bounds(param, name):
    """The lower and the upper bound that a parameter of an integer sets."""
    if param.name not in FACETS - {"length", *LENGTHS}:
        raise wrong(param, name)
    if param.name in ("pattern", "fractionDigits"):
        return None, None
    size = number(param, param.name != "totalDigits")
    return {"minInclusive": (size, None), "minExclusive": (size + 1, None), "maxInclusive": (None, size), "maxExclusive": (None, size - 1),
            "totalDigits": (1 - 10 ** min(size, DIGITS), 10 ** min(size, DIGITS) - 1)}[param.name]


def joined(bounds):
    """The facets that combine all bounds."""
    lowers, uppers = ([bound for bound in side if bound is not None] for side in zip(*bounds))
    return [*(("minInclusive", max(lowers)) for _ in lowers[:1]), *(("maxInclusive", min(uppers)) for _ in uppers[:1])]


def integer_param_reported(param, bounds):
    """What is reported about a parameter of an integer; None if it is served."""
    if is_bound(param):
        return None
    if param.name in ("pattern", "fractionDigits"):
        return Reported(param.at, f"the parameter {param.name} is not served", f"no {param.name}", MORE if param.name == "pattern" else SAME)
    if any(bound is not None and abs(bound) > GREATEST for bound in bounds):
        raise NotBroughtOver(Reported(param.at, f"the parameter {param.name} has more than {DIGITS} digits"))
    return Reported(param.at, f"the parameter {param.name} is not served" if param.name not in ("minInclusive", "maxInclusive")
                else f"the parameter {param.name} has more than {DIGITS} digits", written("integer", joined([bounds])), SAME)


def check_bound(param, use, own):
    """By the published rules too, the parameters of a type only narrow it: a bound is a number of the type."""
    if param.name in BOUNDS and not is_within(number(param, True), own):
        raise NotBroughtOver(Reported(param.at, f"xsd:{use.name} does not allow the {param.name} {param.value!r}"))


def integer_use(use, own):
    """The facets of an integer with its own bounds, and what is reported about its parameters."""
    bounds = [own, *(integer_bounds(param, use.name) for param in use.params)]
    for param in use.params:
        check_bound(param, use, own)
    reported = [integer_param_reported(param, bound) for param, bound in zip(use.params, bounds[1:])]
    return joined(bounds), [each for each in reported if each]


def text_use(use, base, lengths):
    """The facets of a type whose texts are characters, and what is reported about its parameters."""
    facets, reported = [], []
    for param in use.params:
        if param.name in FACETS and not lengths:
            reported.append(Reported(param.at, f"the parameter {param.name} is not served", f"no {param.name}", MORE))
            continue
        kept, about = text_param(param, use.name, base)
        facets += kept
        reported += [about] if about else []
    return facets, reported


def data_use(use, base, own, lengths):
    """The text of a type with its parameters, and what is reported about the parameters."""
    names = [param.name for param in use.params if param.name != "pattern"]
    twice = next((param for param in use.params if names.count(param.name) > 1), None)
    if twice:
        raise NotBroughtOver(Reported(twice.at, f"the parameter {twice.name} appears twice"))
    facets, reported = integer_use(use, own) if base == "integer" else text_use(use, base, lengths)
    if len({facet for facet, _ in facets}) < len(facets):
        raise NotBroughtOver(Reported(use.params[0].at, "the parameter length appears with another length"))
    return written(base, marked(use.name, facets) if use.name in ID_TYPES else facets), reported


def is_within(size, bounds):
    lower, upper = bounds
    return (lower is None or lower <= size) and (upper is None or size <= upper)


def value_reported(use, base, own, effect, known):
    """The text that replaces a value's type (empty: the type stays), and what is reported. `own` are the type's bounds, and `base` replaces the type."""
    if not allows(base, use.value) or base == "integer" and not is_within(int(use.value), own):
        return "", [Reported(use.at, f"xsd:{use.name} does not allow the value {use.value!r}")]
    if known:
        return "", []
    is_marked = use.name in ID_TYPES
    mark = value_mark(use.name) if is_marked else no_value_mark(use, base)
    return f"xsd:{base}{mark}", [Reported(use.at, f"the datatype xsd:{use.name} is not served", f"xsd:{base}", effect, is_marked)]


def nearest_integer(use):
    """What replaces an integer type. A copy accepts a sign where the type has none, and no number of more than 38 digits, not even of zeros. In the
    except of an integer type those numbers do not matter, since the type around the except has none of them either."""
    effect = EFFECTS[use.name in UNSIGNED, not use.within.integers]
    return Nearest("integer", effect, effect)


def digits_reported(use, reports_digits):
    """What is reported about an `integer` that stays, if its limit of digits matters."""
    return [Reported(use.at, f"integers of more than {DIGITS} digits are not served", "xsd:integer", LESS)] if reports_digits and use.name == "integer" else []


def list_type(use):
    """The list that replaces a type of lists, and what is reported."""
    is_marked = use.name in ID_TYPES
    text = f"list {{ {written(LISTS[use.name], marked(use.name, []) if is_marked else [])}+ }}"
    change = f"list {{ xsd:{LISTS[use.name]}+ }}"
    return text, [Reported(use.at, f"the datatype xsd:{use.name} is not served", change, SAME if use.name == "NMTOKENS" else MORE, is_marked)]


def schema_type(use, lists, reports_digits):
    """The text that replaces a type of XML Schema (empty: it stays), and what is reported."""
    name, known = use.name, use.name in SERVED
    own, base, near = (None, None), name, Nearest(name, SAME, SAME)
    if name in INTEGERS or name in UNSIGNED:
        own, near, base = (INTEGERS | UNSIGNED)[name], nearest_integer(use), "integer"
    elif name in NEAREST:
        near, base = NEAREST[name], NEAREST[name].base
    elif name in LISTS:
        if lists and use.value is None and not use.params and not use.has_except:
            return list_type(use)
        near, base = Nearest("token", MORE, SAME if name == "NMTOKENS" else MORE, False), "token"
    elif not known:
        return "", [Reported(use.at, f"xsd:{name} is not a datatype of XML Schema")]
    if use.value is not None:
        text, reported = value_reported(use, base, own, near.value, known)
        return text, reported or digits_reported(use, reports_digits)
    own_reported = digits_reported(use, reports_digits) if known else [
        Reported(use.at, f"the datatype xsd:{name} is not served", written(base, joined([own])), near.data, name in ID_TYPES)]
    try:
        text, reported = data_use(use, base, own, near.lengths)
    except NotBroughtOver as fault:
        return "", [*(Reported(each.at, each.what) for each in own_reported), fault.reported]
    return text if reported or not known else "", own_reported + reported


def other_type(use, lists, reports_digits):
    """The same for a type of another library than XML Schema's."""
    if use.library == COMPATIBILITY and use.name in ("ID", "IDREF", "IDREFS"):
        return schema_type(dataclasses.replace(use, library=XSD), lists, reports_digits)
    if use.library == "" and use.name in ("string", "token"):
        reported = [Reported(param.at, f"{use.name} takes no parameter {param.name}; xsd:{use.name} takes lengths") for param in use.params]
        return "", reported
    what = f"the datatype library {use.library!r} is not served" if use.library else f"{use.name} is not a built-in datatype"
    if use.value is not None or not use.library:
        return "", [Reported(use.at, what)]
    return "xsd:string", [Reported(use.at, what, "xsd:string", MORE)]


def judged(use, lists, reports_digits=False, is_copy=False):
    """The text that replaces a datatype (empty: it stays), and what is reported about it. `lists` says that a type may become a list pattern, and
    `reports_digits` that a number which `integer` does not serve may make the copy accept more. A copy has marks, which stay."""
    plain = use if is_copy else unmarked(use)
    text, reported = (schema_type if use.library == XSD else other_type)(plain, lists, reports_digits)
    is_other = use.library == XSD and not is_copy and (plain != use or use.value is not None)
    return text if text or reported or not is_other else respelled(plain), reported
