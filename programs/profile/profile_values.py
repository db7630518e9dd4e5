"""The values of the types of XML Schema whose values are no texts, and their order (docs/use/LANGUAGE.md, "The larger set of datatypes"). Nothing here is
proved."""
import dataclasses
import decimal
import math
import operator
import re
from fractions import Fraction

SECOND = 10 ** 18
HOUR, DAY = 3600 * SECOND, 86400 * SECOND
ANY_YEAR = 2000
MOST_FRACTION = 18
POINT = rf"(?:[.](?P<fraction>[0-9]{{1,{MOST_FRACTION}}}))?"
PARTS = {"Y": "(?P<year>-?(?:(?!0000)[0-9]{4}|[1-9][0-9]{4,9}))", "M": "(?P<month>0[1-9]|1[0-2])", "D": "(?P<day>0[1-9]|[12][0-9]|3[01])",
         "C": f"(?P<clock>(?:[01][0-9]|2[0-4]):[0-5][0-9]:[0-5][0-9]){POINT}"}
ZONE = "(?P<zone>Z|[+-](?:(?:0[0-9]|1[0-3]):[0-5][0-9]|14:00))?"
FORMS = {"dateTime": "Y-M-DTC", "time": "C", "date": "Y-M-D", "gYearMonth": "Y-M", "gYear": "Y", "gMonthDay": "--M-D", "gDay": "---D", "gMonth": "--M"}
MOMENTS = {name: re.compile("".join(PARTS.get(part, part) for part in form) + ZONE) for name, form in FORMS.items()}
# Zeros in front of a number do not count.
MOST_NUMBER = 18
FIELDS = {name: rf"(?P<{name}>0*[0-9]{{1,{MOST_NUMBER}}})" for name in ("years", "months", "days", "hours", "minutes", "seconds")}
DURATION = re.compile("(?P<sign>-?)P(?=.)(?:{years}Y)?(?:{months}M)?(?:{days}D)?(?:T(?=.)(?:{hours}H)?(?:{minutes}M)?(?:{seconds}{point}S)?)?"
                      .format(**FIELDS, point=POINT))
# The months that begin the four moments to which durations are added, from the month 0 of the year 0.
FOUR_MONTHS = [12 * year + month for year, month in ((1696, 8), (1697, 1), (1903, 2), (1903, 6))]
DECIMAL = "[+-]?(?:[0-9]+[.]?[0-9]*|[.][0-9]+)"
SIX_BITS = "[A-Za-z0-9+/]"
OCTETS = {"hexBinary": "(?:[0-9A-Fa-f]{2})*",
          "base64Binary": f"(?:{SIX_BITS}{{4}})*(?:{SIX_BITS}{{2}}[AEIMQUYcgkosw048]=|{SIX_BITS}[AQgw]==)?"}


def collapsed(text):
    return " ".join(re.split("[ \t\r\n]+", text.strip(" \t\r\n")))


@dataclasses.dataclass(frozen=True)
class Ordered:
    """A type with bounds: the value of a collapsed text (None: it has none), and whether one value is at most another, less than it, and the same."""
    value_of: object
    is_at_most: object = operator.le
    is_less: object = operator.lt
    is_same: object = operator.eq


# ---- numbers

def decimal_of(text):
    return decimal.Decimal(text) if re.fullmatch(DECIMAL, text) else None


def double_of(text):
    """The number of 64 bits that is nearest; the zeros are one."""
    if text in ("INF", "-INF", "NaN") or re.fullmatch(f"{DECIMAL}(?:[eE][+-]?[0-9]+)?", text):
        return float(text)
    return None


def float_of(text):
    """The number of 32 bits that is nearest to what is written: that of the nearest one of 64 bits may be another."""
    near = double_of(text)
    if near is None or near == 0 or not math.isfinite(near):
        return near
    unit = Fraction(2) ** (max(math.frexp(near)[1] - 1, -126) - 23)
    number = round(Fraction(decimal.Decimal(text)) / unit) * unit
    return float(number) if abs(number) < 2 ** 128 else math.copysign(math.inf, number)


def is_same_float(one, other):
    """NaN is the same as itself."""
    return one == other or one != one and other != other


def is_float_at_most(one, other):
    return one < other or is_same_float(one, other)


# ---- moments: whether the zone is known, and units of 10^-18 s

def days_in_month(year, month):
    is_leap = year % 4 == 0 and (year % 100 != 0 or year % 400 == 0)
    return 28 + is_leap if month == 2 else 30 if month in (4, 6, 9, 11) else 31


def days_before(year, month, day):
    """The days before a day, from that of 0000-01-01 on. The calendar has a year 0 here, which is written -0001."""
    return 365 * year + (year + 3) // 4 - (year + 99) // 100 + (year + 399) // 400 + sum(days_in_month(year, one) for one in range(1, month)) + day - 1


def fraction_of(digits):
    return int((digits or "").ljust(MOST_FRACTION, "0"))


def clock_of(found):
    hours, minutes, seconds = map(int, found["clock"].split(":"))
    return (3600 * hours + 60 * minutes + seconds) * SECOND + fraction_of(found["fraction"])


def offset_of(zone):
    """How far the clocks of a zone are ahead."""
    if zone in (None, "Z"):
        return 0
    return (1 if zone[0] == "+" else -1) * (60 * int(zone[1:3]) + int(zone[4:])) * 60 * SECOND


def moment_of(name, text):
    found = MOMENTS[name].fullmatch(text)
    if not found:
        return None
    has = found.groupdict()
    year, month, day = int(has.get("year") or ANY_YEAR), int(has.get("month") or 1), int(has.get("day") or 1)
    clock = clock_of(has) if has.get("clock") else 0
    year += year < 0
    if clock > DAY or day > days_in_month(year, month):
        return None
    return has["zone"] is not None, days_before(year, month, day) * DAY + clock - offset_of(has["zone"])


def is_before(one, other):
    """Whether it is, in whichever zone one without a zone is."""
    return one[1] + (14 * HOUR if one[0] != other[0] else 0) < other[1]


def is_same_time(one, other):
    """Whether two times are the same moment of the day: their values are moments of one day, by which they are ordered."""
    return one[0] == other[0] and one[1] % DAY == other[1] % DAY


# ---- durations: months, days, hours, minutes and seconds, each number for itself

def duration_of(text):
    found = DURATION.fullmatch(text)
    if not found:
        return None
    sign = -1 if found["sign"] else 1
    years, months, days, hours, minutes, seconds = (sign * int(found[name] or 0) for name in ("years", "months", "days", "hours", "minutes", "seconds"))
    return years, months, days, hours, minutes, seconds * SECOND + sign * fraction_of(found["fraction"])


def months_and_time(duration):
    years, months, days, hours, minutes, seconds = duration
    return 12 * years + months, days * DAY + hours * HOUR + minutes * 60 * SECOND + seconds


def added_to(month, duration):
    months, time = months_and_time(duration)
    month += months
    return days_before(month // 12, month % 12 + 1, 1) * DAY + time


def is_shorter(one, other):
    return all(added_to(month, one) < added_to(month, other) for month in FOUR_MONTHS)


def is_as_long(one, other):
    """Whether the two are equal in the order: as many months, and as many seconds."""
    return months_and_time(one) == months_and_time(other)


# ---- the types

def either(one_test, other_test):
    return lambda one, other: one_test(one, other) or other_test(one, other)


def moments(name):
    is_same = is_same_time if name == "time" else operator.eq
    return Ordered(lambda text: moment_of(name, text), either(is_same, is_before), is_before, is_same)


ORDERED = {"decimal": Ordered(decimal_of), "float": Ordered(float_of, is_float_at_most, is_same=is_same_float),
           "double": Ordered(double_of, is_float_at_most, is_same=is_same_float),
           "duration": Ordered(duration_of, either(is_as_long, is_shorter), is_shorter), **{name: moments(name) for name in FORMS}}


def octets(name, text):
    """The octets that a collapsed text writes, as text without blanks; None if it writes none."""
    plain = text.replace(" ", "") if name == "base64Binary" else text
    return plain if re.fullmatch(OCTETS[name], plain) else None
