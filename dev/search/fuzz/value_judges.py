"""What Python says of a datatype of `value_texts.py` and of a text: by `decimal`, by `float`, by `fractions` for 32 bits, and by the dates of `datetime`, where
it has them."""
import datetime
import pathlib
import re
import sys

sys.path.append(str(pathlib.Path(__file__).resolve().parents[3] / "programs/profile"))
from profile_larger import allows, data_use  # noqa: E402  (the folder is known only here)
from profile_types import XSD, NotBroughtOver, Param, TypeUse  # noqa: E402
from profile_values import ORDERED, SECOND, collapsed, octets  # noqa: E402
from value_texts import BOUNDS, MOMENTS, OCTETS  # noqa: E402

# A date or a time that `datetime` has. It knows years from 1 to 9999, six digits of a second, and no 24:00:00.
PLAIN = re.compile(r"(?:(?P<date>[0-9]{4}-[0-9]{2}-[0-9]{2})|-(?P<day>-[0-9]{2}-[0-9]{2}))?T?(?P<clock>[0-9]{2}:[0-9]{2}:[0-9]{2}(?:[.][0-9]{1,6})?)?"
                   r"(?P<zone>Z|[+-][0-9]{2}:[0-9]{2})?")
FIRST = datetime.datetime(2000, 1, 1)
TO_FIRST = ORDERED["date"].value_of("2000-01-01")[1]


def is_taken(made):
    """Whether XML Schema has the datatype with these parameters, or the value."""
    if made.value is not None:
        return allows(made.name, made.value)
    try:
        data_use(TypeUse(XSD, made.name, 0, tuple(Param(key, text, 0) for key, text in made.parameters.items())))
    except NotBroughtOver:
        return False
    return True


def places_and_units(number):
    """The digits behind the point of a decimal, without zeros at the end, and its digits as an integer."""
    sign, digits, exponent = number.as_tuple()
    written = "".join(map(str, digits)) + "0" * max(exponent, 0)
    places = max(-exponent, 0)
    while places and written.endswith("0"):
        written, places = written[:-1] or "0", places - 1
    return places, int(written or "0")


def is_within_digits(parameters, number):
    places, units = places_and_units(number)
    total, fraction = (int(parameters[key]) if key in parameters else None for key in ("totalDigits", "fractionDigits"))
    return (total is None or units < 10 ** total and places <= total) and (fraction is None or places <= fraction)


def is_equal_beside(made, text):
    """Whether a text is equal in the order to the value of a type, or to one of its bounds."""
    order = ORDERED[made.name]
    texts = [made.value] if made.value is not None else [one for key, one in made.parameters.items() if key in BOUNDS]
    values = [order.value_of(collapsed(one)) for one in (text, *texts)]
    return None not in values and any(order.is_at_most(values[0], one) and order.is_at_most(one, values[0]) for one in values[1:])


def is_within_bounds(made, value):
    order = ORDERED[made.name]
    bounds = {key: order.value_of(collapsed(text)) for key, text in made.parameters.items()}
    tests = {"minInclusive": lambda bound: order.is_at_most(bound, value), "minExclusive": lambda bound: order.is_less(bound, value),
             "maxInclusive": lambda bound: order.is_at_most(value, bound), "maxExclusive": lambda bound: order.is_less(value, bound)}
    return all(tests[key](bound) for key, bound in bounds.items() if key in tests)


def is_within_lengths(made, text):
    plain = text if made.name == "hexBinary" else text.rstrip("=")
    count = len(plain) // 2 if made.name == "hexBinary" else len(plain) * 3 // 4
    tests = {"length": count.__eq__, "minLength": count.__ge__, "maxLength": count.__le__}
    return all(tests[key](int(text)) for key, text in made.parameters.items())


def octets_judged(made, text):
    found = octets(made.name, collapsed(text))
    if found is None or made.value is None:
        return found is not None and is_within_lengths(made, found)
    wanted = octets(made.name, collapsed(made.value))
    return found == wanted if made.name == "base64Binary" else found.lower() == wanted.lower()


def judged(made, text):
    """`valid` or `invalid`."""
    if made.name in OCTETS:
        return "valid" if octets_judged(made, text) else "invalid"
    order = ORDERED[made.name]
    value = order.value_of(collapsed(text))
    if value is None:
        return "invalid"
    if made.value is not None:
        return "valid" if order.is_same(value, order.value_of(collapsed(made.value))) else "invalid"
    is_good = is_within_bounds(made, value) and (made.name != "decimal" or is_within_digits(made.parameters, value))
    return "valid" if is_good else "invalid"


def by_datetime(name, text):
    """The moment that `datetime` makes of a date, a dateTime, a time or a gMonthDay; None: it makes none, `text` is too strange for it."""
    found = PLAIN.fullmatch(collapsed(text))
    if name not in ("date", "dateTime", "time", "gMonthDay") or not found:
        return None
    date = found["date"] or "2000" + (found["day"] or "-01-01")
    clock = found["clock"] or "00:00:00"
    form = "%Y-%m-%dT%H:%M:%S" + ".%f" * ("." in clock) + "%z" * bool(found["zone"])
    try:
        at = datetime.datetime.strptime(f"{date}T{clock}{found['zone'] or ''}", form)
        since = at.replace(tzinfo=None) - (at.utcoffset() or datetime.timedelta()) - FIRST
    except (ValueError, OverflowError):
        return None
    return found["zone"] is not None, TO_FIRST + (since.days * 86400 + since.seconds) * SECOND + since.microseconds * SECOND // 10 ** 6


def is_dated_alike(name, text):
    """Whether `datetime` has the same moment of a text, if it has one and XML Schema has one."""
    mine, its = ORDERED[name].value_of(collapsed(text)) if name in MOMENTS else None, by_datetime(name, text)
    if mine is None or its is None:
        return True
    return mine == its
