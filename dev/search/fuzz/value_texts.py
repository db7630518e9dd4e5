"""Random datatypes of XML Schema whose values are numbers, moments, durations or octets, with bounds, digits, lengths or a value, and random texts for them."""
import dataclasses
import pathlib
import sys

sys.path.append(str(pathlib.Path(__file__).resolve().parents[3] / "dev/check/patterns"))
from judges import literal  # noqa: E402  (the folder is known only here)

BOUNDS = ("minInclusive", "minExclusive", "maxInclusive", "maxExclusive")
LENGTHS = ("length", "minLength", "maxLength")
MOMENTS = ("dateTime", "time", "date", "gYearMonth", "gYear", "gMonthDay", "gDay", "gMonth")
OCTETS = ("hexBinary", "base64Binary")
ORDERED = ("decimal", "float", "double", "duration", *MOMENTS)
NAMES = (*ORDERED, *OCTETS)
YEARS = ["2000", "2000", "1999", "2001", "1900", "2004", "0001", "-0001", "-0004", "-0005", "9999", "10000", "0000", "012000", "99999", "200"]
FRACTIONS = ["", "", "", ".0", ".5", ".500", ".1", ".12", ".123", ".1234", ".999", ".000000000000000001", ".999999999999999999", ".", ".1234567890123456789"]
ZONES = ["", "", "", "Z", "Z", "+00:00", "-00:00", "+14:00", "-14:00", "+05:30", "-05:00", "+13:59", "+14:01", "-12:00", "+1:00", "z", "+15:00"]
FLOATS = ["INF", "-INF", "NaN", "0", "-0", "+INF", "16777216", "16777217", "16777219", "16777217.00000000000001", "9007199254740993", "3.4028235e38",
          "3.4028236e38", "1e39", "1e400", "-1e400", "1e-45", "7e-46", "8e-46", "1e-400", "0.1", "1.0000001", "1.00000005", "4.9e-324", "2e-324", "nan",
          "0x1", "1d", "1e", "1E5", "1.e1", ".5e-1", "1e+5"]
SPACES = ["", "", "", "", "", "", " ", "\n", "  "]
MARKS = list("0123456789-+:.TZPYMDHSeEIN =Aa ")


def digits(chance, most):
    return "".join(chance.choice("0011234599") for _ in range(chance.randrange(most + 1)))


def decimal(chance):
    whole, fraction = digits(chance, chance.choice((1, 2, 3, 3, 40))), digits(chance, chance.choice((1, 2, 3, 3, 40)))
    return chance.choice(("", "", "", "-", "-", "+")) + whole + chance.choice(("", ".", ".", ".")) + fraction


def floating(chance):
    if chance.random() < 0.5:
        return chance.choice(FLOATS)
    return decimal(chance) + chance.choice(("", "e", "E", "e-", "e+", "E-")) + chance.choice(("", "0", "1", "2", "10", "37", "38", "45", "307", "323"))


def clock(chance):
    if chance.random() < 0.15:
        return "24:00:00" + chance.choice(FRACTIONS[:5])
    hour, minute, second = chance.choice((0, 0, 5, 9, 10, 12, 14, 23, 24)), chance.choice((0, 0, 30, 59, 60)), chance.choice((0, 0, 1, 59, 60))
    return f"{hour:02}:{minute:02}:{second:02}{chance.choice(FRACTIONS)}"


def day(chance):
    return chance.choice(("01", "01", "02", "28", "29", "30", "31", "32", "00", "15"))


def month(chance):
    return chance.choice(("01", "01", "02", "02", "03", "04", "11", "12", "12", "13", "00", "1"))


def moment(chance, name):
    year = chance.choice(YEARS)
    text = {"dateTime": lambda: f"{year}-{month(chance)}-{day(chance)}T{clock(chance)}", "time": lambda: clock(chance),
            "date": lambda: f"{year}-{month(chance)}-{day(chance)}", "gYearMonth": lambda: f"{year}-{month(chance)}", "gYear": lambda: year,
            "gMonthDay": lambda: f"--{month(chance)}-{day(chance)}", "gDay": lambda: f"---{day(chance)}", "gMonth": lambda: f"--{month(chance)}"}[name]()
    return text + chance.choice(ZONES)


def part(chance, letters):
    numbers = ("0", "1", "1", "2", "11", "12", "13", "24", "25", "28", "29", "30", "31", "32", "59", "60", "61", "365", "366", "367", "001", "0000000000001",
               "1234567890", "999999999999999999", "1000000000000000000", "")
    return "".join(chance.choice(numbers) + letter for letter in letters if chance.random() < 0.35)


def duration(chance):
    seconds = chance.choice(("", "", "0", "5", "60", "3600", "86400")) + chance.choice(FRACTIONS) + "S"
    time = part(chance, "HM") + (seconds if chance.random() < 0.3 else "")
    date = chance.choice(("", "", "", "-", "+")) + "P" + part(chance, "YMD")
    return date + "T" * (chance.random() < (0.95 if time else 0.03)) + time


def octets(chance, name):
    if name == "hexBinary":
        return "".join(chance.choice("0123aAfF9") for _ in range(chance.choice((0, 2, 2, 4, 4, 6, 3))))
    groups = "".join(chance.choice("AAQgwIz09+/") for _ in range(4 * chance.randrange(3)))
    last = chance.choice(("", "", "AA==", "AQ==", "AB==", "AAA=", "AAE=", "AAB=", "A===", "AA=", "AA"))
    return "".join(letter + (chance.choice((" ", "\n", "  ")) if chance.random() < 0.1 else "") for letter in groups + last)


def plain(chance, name):
    if name == "decimal":
        return decimal(chance)
    if name in ("float", "double"):
        return floating(chance)
    return duration(chance) if name == "duration" else octets(chance, name) if name in OCTETS else moment(chance, name)


def text_of(chance, name):
    """A text that is near to those of a type."""
    text = plain(chance, name)
    if text and chance.random() < 0.06:
        at = chance.randrange(len(text))
        text = text[:at] + chance.choice((chance.choice(MARKS), "")) + text[at + chance.randrange(2):]
    return chance.choice(SPACES) + text + chance.choice(SPACES)


def parameter(chance, name):
    """A parameter with its text; seldom one that the type does not take."""
    if chance.random() < 0.02:
        return chance.choice((*LENGTHS, *BOUNDS, "totalDigits", "fractionDigits", "whiteSpace")), chance.choice(("0", "2", "a", "", "-1", "2000"))
    if name in OCTETS:
        return chance.choice(LENGTHS), chance.choice(("0", "1", "2", "3", "4"))
    if name == "decimal" and chance.random() < 0.4:
        return chance.choice(("totalDigits", "fractionDigits")), chance.choice(("1", "2", "3", "5", "+4", " 2"))
    return chance.choice(BOUNDS), plain(chance, name)


@dataclasses.dataclass(frozen=True)
class Made:
    """A datatype: its name, and its parameters or its value."""
    name: str
    parameters: dict
    value: str = None

    def pattern(self):
        if self.value is not None:
            return f"xsd:{self.name} {literal(self.value)}"
        written = " ".join(f"{key} = {literal(text)}" for key, text in self.parameters.items())
        return f"xsd:{self.name} {{ {written} }}" if written else f"xsd:{self.name}"


def made(chance):
    """A random datatype."""
    name = chance.choice(NAMES)
    if chance.random() < 0.2:
        return Made(name, {}, plain(chance, name))
    return Made(name, dict(parameter(chance, name) for _ in range(chance.choice((0, 1, 1, 1, 2, 2)))))
