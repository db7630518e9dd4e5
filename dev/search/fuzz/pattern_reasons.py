"""Why `rncv-xml` and another judge may say otherwise of an expression or a text: the reasons by name, and which of them holds of a difference."""
import re

from pattern_expressions import MOST_SIZE, bracket_classes, class_escapes, holds, is_lasting, parsed, size

MOST_COUNT = 2**32 - 1
REASONS = {
    "size": "an expression whose size is above 4,096 is refused",
    "count": "a count above 4,294,967,295 is refused",
    "dash": "jing wants that a `-` is escaped that is a character of a class",
    "java": "`java.util.regex` refuses what jing's translation gives it, or has no room for it",
    "names": "jing has `\\i` and `\\c` of the editions of XML before the fifth",
    "classes": "jing has categories and blocks of another version of Unicode",
    "negation": "jing writes the complement of a class with an escape such as `\\D` as `[^a&&\\p{Nd}]`, which Java reads otherwise since version 9",
    "unicode": "Python has categories of another version of Unicode",
}
DASH = re.compile(r'character "[-\]]" must be escaped|expected "\["')
NEGATIVE = re.compile(r"\[\^|-\[")
DASH_IN_CLASS = re.compile(r"\[\^?-|-\]|--|-.*\[")


def largest_count(pattern):
    return max((int(it) for it in re.findall(r"(?<=[{,])\d+(?=[,}])", pattern)), default=0)


def of_our_refusal(pattern, is_read):
    """Why an expression is refused that another judge takes."""
    if largest_count(pattern) > MOST_COUNT:
        return "count"
    return "size" if is_read and size(pattern) > MOST_SIZE else None


def of_jing_refusal(pattern, words):
    """Why jing refuses an expression that is taken."""
    if words.startswith("by Java"):
        return "java"
    return "dash" if DASH.search(words) and DASH_IN_CLASS.search(pattern) else None


def is_other(jing, part, text):
    """Whether a class, as it is written, has other characters of a text for jing."""
    told = ((jing.holds(part, c), c) for c in dict.fromkeys(text))
    return any(theirs is not None and theirs != holds(parsed(part).parts[0], ord(c)) for theirs, c in told)


def of_jing_text(jing, pattern, text):
    """Why jing says otherwise of a text: an escape or a class of the expression has another character of it for jing."""
    for escape in class_escapes(pattern):
        if is_other(jing, escape, text):
            return "names" if escape[1] in "iIcC" else "classes"
    if any(is_other(jing, it, text) and NEGATIVE.search(it) and class_escapes(it) for it in bracket_classes(pattern)):
        return "negation"
    return "classes" if is_of_later_unicode(pattern, text) else None


def is_of_later_unicode(pattern, text):
    """Whether the expression names categories, and the text has a character that did not always have the category that it has."""
    return not is_lasting(text) and any(it[1] in "pPwWdD" for it in class_escapes(pattern))


def of_python_text(pattern, text):
    """Why `re` says otherwise of a text."""
    return "unicode" if is_of_later_unicode(pattern, text) else None
