"""Compares an object of the JSON of `rncv-xml` with a reason of `reasons.py`. Each kind of difference has a name."""
import re

import reasons

WILD = re.compile(r"any element(?: (without namespace)| of ([^ ]*))?( \(with exceptions\))?\Z")
NO_NAMESPACE = "> without namespace"


class Unresolved(Exception):
    """A name is shown with a prefix that is not declared there."""


def expanded(shown, scope, is_attribute):
    """The expanded name that is shown."""
    if shown.startswith("{"):
        return tuple(shown[1:].rsplit("}", 1))
    prefix, colon, local = shown.rpartition(":")
    if prefix not in scope:
        raise Unresolved(shown)
    return ("" if is_attribute and not colon else scope[prefix]), local


def attributes_of(shown, scope):
    return {expanded(it, scope, True) for it in shown}


class Items:
    """What is expected: names, wildcards as (namespace or None, whether there are exceptions), values and datatypes, and whether `text` is told."""

    def __init__(self, items, scope):
        self.names, self.wild, self.texts, self.has_text = set(), set(), set(), False
        for item in items:
            wild = WILD.match(item)
            if wild:
                self.wild.add(("" if wild[1] else wild[2], bool(wild[3])))
            elif item.startswith("<") and item.endswith(NO_NAMESPACE):
                self.names.add(("", item[1:-len(NO_NAMESPACE)]))
            elif item[0] in "<{":
                self.names.add(expanded(item.strip("<>"), scope, False))
            elif item == "text":
                self.has_text = True
            else:
                self.texts.add(item)

    def covers(self, name):
        return name in self.names or any(uri in (None, name[0]) for uri, _ in self.wild)


def names_difference(items, reason, may_start):
    """What is wrong with the names that are told, or None. `may_start` tries a name."""
    wrong = {it for it in items.names if not may_start(it)}
    for uri, has_exceptions in items.wild:
        if not may_start((reasons.FRESH_URI if uri is None else uri, reasons.FRESH)):
            wrong.add((uri, "*"))
        wrong |= {it for it, may in reason.names.items() if not has_exceptions and uri in (None, it[0]) and not may}
    lacking = {it for it, may in reason.names.items() if may and not items.covers(it)}
    return f"told, but not expected: {sorted(wrong, key=repr)}; not told: {sorted(lacking)}" if wrong or lacking else None


def shown_text(text):
    """A value, or a datatype with its parameters, which are numbers here."""
    kind, datatype, value = text
    if kind == "value":
        return '"' + value.replace('"', '\\"') + '"'
    parameters = " ".join(f'{name} = "{limit}"' for name, limit in value)
    return f"{datatype} {{ {parameters} }}" if value else datatype


def texts_difference(items, reason):
    """What is wrong with the values and datatypes that are told, or None."""
    wanted = set() if reason.reason == reasons.TEXT else set(map(shown_text, reason.texts))
    if items.texts != wanted:
        return f"told: {sorted(items.texts)}; expected: {sorted(wanted)}"
    is_last = reason.reason == reasons.ELEMENT or reason.reason == reasons.INCOMPLETE and not any(reason.names.values())
    if items.has_text != (is_last and reason.has_text and not wanted):
        return "`text` is told" if items.has_text else "`text` is not told"
    return None


def why(said, reason):
    """What tells apart different cases of the same two reasons."""
    if reason.is_never:
        return " (nothing is allowed in it)"
    if reason.missing == set():
        return " (none by itself)"
    if reason.attribute is None:
        return ""
    told = attributes_of(said.get("attribute", "").split(), reason.scope)
    is_other = "attribute" in said and said["reason"] != reasons.MISSING and told != {reason.attribute}
    return " of another attribute" if is_other else ""


def reason_difference(said, reason):
    """What differs about the reason, and about what is there."""
    if said["reason"] != reason.reason:
        wanted = reason.missing if reason.attribute is None else reason.attribute
        return f"{said['reason']}, and not {reason.reason}{why(said, reason)}", f"attribute {said.get('attribute')!r}, and not {wanted}"
    if (said["at"], said["line"], said["column"]) != (reason.at, 1, reason.column):
        return "place", f"{said['at']} in column {said['column']}, and not {reason.at} in column {reason.column}"
    return None


def name_difference(said, reason):
    """What differs about the name, or the text, that is there."""
    name, wanted = said["name"], said["attribute"] if reason.at == "attribute" else reason.name
    if name != wanted and not (reason.at == "text" and name and wanted.startswith(name)):
        return "name", f"{name!r}, and not {wanted!r}"
    return None


def attribute_difference(said, reason):
    """What differs about the attribute at fault, the missing ones, or the others that could be there."""
    told, expected = attributes_of(said.get("attribute", "").split(), reason.scope), said.get("expected", [])
    if reason.attribute and told != {reason.attribute}:
        return f"{reason.reason} of another attribute", f"{said['attribute']}, and not {reason.attribute}"
    if reason.missing is not None and (told != reason.missing or told and attributes_of(expected, reason.scope) != told):
        return "other attributes missing", f"told: {sorted(told)}; missing: {sorted(reason.missing)}"
    if reason.others is not None and attributes_of(expected, reason.scope) != reason.others:
        return "other attributes expected", f"told: {sorted(expected)}; expected: {sorted(reason.others)}"
    return None


def expected_difference(said, reason, may_start):
    """What differs about the elements and texts that are expected."""
    items = Items(said.get("expected", []), reason.scope)
    if reason.reason in (reasons.ELEMENT, reasons.TEXT, reasons.INCOMPLETE):
        wrong = names_difference(items, reason, may_start)
        if wrong:
            return f"names expected for {reason.reason}", wrong
    wrong = texts_difference(items, reason)
    if wrong:
        return f"texts expected for {reason.reason}", wrong
    if reason.reason in (reasons.ATTRIBUTE_VALUE, reasons.TEXT_VALUE) and said.get("datatype") != reason.datatype():
        return "datatype", f"{said.get('datatype')}, and not {reason.datatype()}"
    return None


def difference(said, reason, patterns):
    """The first difference between an object and a reason (None: the document is valid), as a kind and words; None if there is none."""
    wanted = "valid" if reason is None else "invalid"
    if said["verdict"] != wanted:
        return f"{said['verdict']}, and not {wanted}", said.get("message", "")
    if reason is None:
        return None
    if "reason" not in said:
        return "no reason", said["message"]
    try:
        found = reason_difference(said, reason) or name_difference(said, reason) or attribute_difference(said, reason)
        if found or reason.others is not None or reason.missing is not None:
            return found
        return expected_difference(said, reason, lambda name: patterns.may_start(reason.state, name))
    except Unresolved as name:
        return "a prefix that is not declared", str(name)
