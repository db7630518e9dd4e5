"""Random datatypes of XML Schema with parameters, values, lists, excepts and choices of them in the compact syntax, and random texts for them."""
import pathlib
import sys

sys.path.append(str(pathlib.Path(__file__).resolve().parents[3] / "dev/check/patterns"))
from judges import literal  # noqa: E402  (the folder is known only here)

LENGTHS = ("length", "minLength", "maxLength")
BOUNDS = ("minInclusive", "minExclusive", "maxInclusive", "maxExclusive")
# the least and the greatest value of the integer types; None: no limit
INTEGERS = {
    "integer": (None, None), "nonNegativeInteger": (0, None), "positiveInteger": (1, None), "nonPositiveInteger": (None, 0), "negativeInteger": (None, -1),
    "long": (-2**63, 2**63 - 1), "int": (-2**31, 2**31 - 1), "short": (-2**15, 2**15 - 1), "byte": (-128, 127),
    "unsignedLong": (0, 2**64 - 1), "unsignedInt": (0, 2**32 - 1), "unsignedShort": (0, 2**16 - 1), "unsignedByte": (0, 255),
}
# the types of texts, with what their texts are made of
TEXTS = {
    "string": ["a", "b", " ", "\n", "1"], "normalizedString": ["a", "b", " ", "\t", "\r"], "token": ["a", "b", "1", " ", "\n"],
    "language": ["en", "US", "-", "a", "1", "abcdefgh", "x"], "Name": ["a", "b", ":", "_", "1", "-", "\xe9"], "NCName": ["a", "b", "_", "1", ".", ":"],
    "NMTOKEN": ["a", "1", ":", "-", " "], "ID": ["a", "1", "_"], "IDREF": ["a", "1", "_"], "ENTITY": ["a", "b1"],
    "anyURI": ["a", ":", "/", "#", "%20", "%", "[", " "],
}
LISTS = {"NMTOKENS": ["a", "1", " ", "-", "  "], "IDREFS": ["a", "b1", " ", "\n"], "ENTITIES": ["a", "b", " "]}
OTHERS = {"boolean": ["true", "false", "0", "1", " ", "True"], "QName": ["a", "b", ":", "1"]}
IN_ATTRIBUTES = ("ID", "IDREF", "IDREFS", "ENTITY", "ENTITIES")  # they are kept out of lists and excepts
EXPRESSIONS = [".*", ".+", "[a-z]+", "a*b?1*", "[^a]*", ".{1,3}", "(a|b|1| )*", r"\d*", r"-?\d{1,3}", r"\s*\S+", r"\i\c*", "true|1|a", ".*1", "[ab]{2}.*"]
SPACES = ["", "", "", "", " ", "\n", "  "]


def number(chance, name):
    """An integer as a text: small, or beside a limit of the type, perhaps with a sign, zeros in front and blanks."""
    limits = [it for it in INTEGERS.get(name, (0, 9)) if it is not None]
    small, large = chance.choice((10, 300)), 10**20
    value = chance.choice((chance.randrange(-small, small), chance.choice(limits or [0]) + chance.randrange(-2, 3), chance.randrange(-large, large)))
    sign = "-" if value < 0 else chance.choice(("", "", "", "+"))
    return chance.choice(SPACES) + sign + chance.choice(("", "", "", "0", "00")) + str(abs(value)) + chance.choice(SPACES)


def text_of(chance, name):
    """A text that is near to those of a type."""
    if name in INTEGERS:
        return number(chance, name) if chance.random() < 0.9 else chance.choice(("", " ", "1.0", "+", "-", "1 2", "a", "--1", "1e1"))
    pieces = TEXTS.get(name) or LISTS.get(name) or OTHERS[name]
    return "".join(chance.choice(pieces) for _ in range(chance.choice((0, 1, 1, 1, 2, 2, 3, 4))))


def parameter(chance, name):
    """A parameter with its text; seldom one that the type does not take."""
    kind = chance.randrange(12)
    if kind < 4:
        return "pattern", chance.choice(EXPRESSIONS)
    if kind == 11:
        return chance.choice((*LENGTHS, *BOUNDS, "totalDigits", "fractionDigits", "whiteSpace")), chance.choice(("0", "2", "a", "", "-1", " 3 ", "+4"))
    if name in INTEGERS:
        return chance.choice(((chance.choice(BOUNDS), number(chance, name).strip()), ("totalDigits", str(chance.randrange(0, 5)))))
    return chance.choice(LENGTHS), chance.choice(("0", "1", "2", "3", "5", " 2", "+1", "007"))


def data(chance, name):
    """A datatype with some parameters. Patterns come last, as jing takes each parameter for a restriction of those before it."""
    parameters = [parameter(chance, name) for _ in range(chance.choice((0, 0, 1, 1, 1, 2, 2, 3)))]
    parameters.sort(key=lambda it: it[0] == "pattern")
    written = " ".join(f"{key} = {literal(text)}" for key, text in parameters)
    return f"xsd:{name} {{ {written} }}" if parameters else f"xsd:{name}"


def one(chance, name):
    """A datatype, or a value of it."""
    return f"xsd:{name} {literal(text_of(chance, name))}" if chance.random() < 0.15 else data(chance, name)


def made(chance):
    """A pattern for the value of an attribute, and the names of its types."""
    names = [chance.choice([*INTEGERS, *TEXTS, *LISTS, *OTHERS]) for _ in range(2)]
    if names[0] in IN_ATTRIBUTES or chance.random() < 0.6:
        return data(chance, names[0]) if names[0] in IN_ATTRIBUTES else one(chance, names[0]), names[:1]
    names[1] = names[1] if names[1] not in IN_ATTRIBUTES else "token"
    first, second = (one(chance, name) for name in names)
    return chance.choice((f"list {{ ({first} | {second})* }}", f"list {{ {first}, {second}? }}", f"({first} | {second})",
                          f"({data(chance, names[0])} - ({first}))")), names


def texts_of(chance, names, count):
    """Texts for such a pattern; for one of lists also several with blanks between them."""
    for _ in range(count):
        pieces = [text_of(chance, chance.choice(names)) for _ in range(chance.choice((1, 1, 1, 2)))]
        yield chance.choice((" ", "\n", "  ")).join(pieces)
