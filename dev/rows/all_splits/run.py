#!/usr/bin/env python3
"""A second program for matching. It tries all splits, as the rules of matching say (RELAX NG Specification, section 6.2).

It writes rows for small documents: `schemas.txt`, and `documents.txt` with all documents of at most six lines. The answer of a document has a letter for
each schema (V: valid, I: invalid). The schemas contain every kind of pattern. The last schemas are random.

    dev/rows/all_splits/run.py                      (the rows of crates/rncv_run_cases/data: the schemas of FIRST_KINDS)
    dev/rows/all_splits/run.py --kinds all          (the rows of crates/rng_deriv_cases/data)
"""
import argparse
import functools
import itertools
import pathlib
import random

TOP = pathlib.Path(__file__).resolve().parents[3]
EMPTY, TEXT, NOT_ALLOWED = ("empty",), ("text",), ("notAllowed",)


def names(*them):
    return ("names", frozenset(them))


ANY = ("any",)


def all_but(*them):
    return ("all_but", frozenset(them))


def in_class(name, name_class):
    kind = name_class[0]
    return kind == "any" or (name in name_class[1]) == (kind == "names")


def element(name, body):
    return ("element", names(name) if isinstance(name, str) else name, body)


def attribute(name, body):
    return ("attribute", names(name) if isinstance(name, str) else name, body)


def group(*members):
    return ("group", members)


def choice(*members):
    return ("choice", members)


def interleave(*members):
    return ("interleave", members)


def one_or_more(body):
    return ("oneOrMore", body)


def star(body):
    return choice(one_or_more(body), EMPTY)


def optional(body):
    return choice(body, EMPTY)


def mixed(body):
    return interleave(TEXT, body)


def a_list(body):
    return ("list", body)


def data(datatype, excepted=NOT_ALLOWED):
    return ("data", datatype, excepted)


def value(datatype, text):
    return ("value", datatype, text)


STRING, TOKEN, INTEGER = "string", "token", "integer"

# ---- schemas as they are written


def written_class(name_class):
    kind = name_class[0]
    if kind == "any":
        return "*"
    members = " | ".join(sorted(name_class[1]))
    many = f"({members})" if len(name_class[1]) > 1 else members
    return many if kind == "names" else f"* - {many}"


def written_type(datatype):
    return "xsd:integer" if datatype == INTEGER else datatype


def written_data(pattern):
    if pattern[2] == NOT_ALLOWED:
        return written_type(pattern[1])
    return f"({written_type(pattern[1])} - ({written(pattern[2])}))"


SIGNS = {"group": ", ", "choice": " | ", "interleave": " & "}


def written(pattern):
    """The pattern in the compact syntax."""
    kind = pattern[0]
    if kind in ("element", "attribute"):
        return f"{kind} {written_class(pattern[1])} {{ {written(pattern[2])} }}"
    if kind in SIGNS:
        return "(" + SIGNS[kind].join(map(written, pattern[1])) + ")"
    if kind == "oneOrMore":
        return f"({written(pattern[1])})+"
    if kind == "list":
        return f"list {{ {written(pattern[1])} }}"
    if kind == "data":
        return written_data(pattern)
    if kind == "value":
        return f'{written_type(pattern[1])} "{pattern[2]}"'
    return kind


# ---- the rules of matching

BLANKS = " \t\n\r"


def is_blank(text):
    return all(c in BLANKS for c in text)


def is_text(item):
    return isinstance(item, str)


def collapsed(text):
    return " ".join(text.split())


def is_integer(text):
    digits = collapsed(text).removeprefix("-").removeprefix("+") if collapsed(text)[:2] not in ("+-", "-+") else ""
    return digits.isascii() and digits.isdigit()


def allows(datatype, text):
    return datatype != INTEGER or is_integer(text)


def are_equal(datatype, one, other):
    if datatype == STRING:
        return one == other
    if datatype == TOKEN:
        return collapsed(one) == collapsed(other)
    return is_integer(one) and int(one) == int(other)


def unpadded(items):
    """The items without a blank string before them and without one after them."""
    if len(items) in (2, 3) and is_text(items[0]) and is_blank(items[0]):
        items = items[1:]
    if len(items) == 2 and is_text(items[1]) and is_blank(items[1]):
        items = items[:1]
    return items


@functools.cache
def matches(pattern, attributes, items):
    """Whether attributes, in any order, and a sequence of items match a pattern."""
    return RULES[pattern[0]](pattern, attributes, items)


def matches_element(pattern, attributes, items):
    items = unpadded(items)
    if attributes or len(items) != 1 or is_text(items[0]):
        return False
    name, inner, children = items[0]
    return in_class(name, pattern[1]) and weakly(pattern[2], inner, children)


def matches_attribute(pattern, attributes, items):
    return (not items and len(attributes) == 1 and in_class(attributes[0][0], pattern[1])
            and weakly(pattern[2], (), (attributes[0][1],)))


def matches_string(test, attributes, items):
    return not attributes and len(items) == 1 and is_text(items[0]) and test(items[0])


def matches_list(pattern, attributes, items):
    return matches_string(lambda text: matches(pattern[1], (), tuple(text.split())), attributes, items)


def matches_data(pattern, attributes, items):
    return matches_string(lambda text: allows(pattern[1], text) and not matches(pattern[2], (), (text,)), attributes, items)


def matches_value(pattern, attributes, items):
    return matches_string(lambda text: are_equal(pattern[1], text, pattern[2]), attributes, items)


def matches_group(pattern, attributes, items):
    """Whether the attributes can be distributed over the members in any way, and the items in order, so that each member matches its share."""
    first, others = pattern[1][0], pattern[1][1:]
    if not others:
        return matches(first, attributes, items)
    return any(matches(first, taken, items[:cut]) and matches(("group", others), left, items[cut:])
               for taken, left in parts(attributes) for cut in range(len(items) + 1))


def matches_interleave(pattern, attributes, items):
    """Whether the attributes and the items can be distributed over the members in any way, so that each member matches its share."""
    first, others = pattern[1][0], pattern[1][1:]
    if not others:
        return matches(first, attributes, items)
    return any(matches(first, taken, mine) and matches(("interleave", others), left, theirs)
               for taken, left in parts(attributes) for mine, theirs in parts(items))


def matches_one_or_more(pattern, attributes, items):
    """Whether the whole matches the body, or a part that is not empty matches it and the rest, also not empty, is more such parts."""
    if matches(pattern[1], attributes, items):
        return True
    return any((taken or cut) and (left or items[cut:]) and matches(pattern[1], taken, items[:cut])
               and matches(pattern, left, items[cut:])
               for taken, left in parts(attributes) for cut in range(len(items) + 1))


RULES = {
    "notAllowed": lambda pattern, attributes, items: False,
    "empty": lambda pattern, attributes, items: not attributes and not items,
    "text": lambda pattern, attributes, items: not attributes and all(map(is_text, items)),
    "choice": lambda pattern, attributes, items: any(matches(member, attributes, items) for member in pattern[1]),
    "element": matches_element,
    "attribute": matches_attribute,
    "list": matches_list,
    "data": matches_data,
    "value": matches_value,
    "group": matches_group,
    "interleave": matches_interleave,
    "oneOrMore": matches_one_or_more,
}


def parts(sequence):
    """All ways to split a sequence into two subsequences."""
    for chosen in itertools.product([False, True], repeat=len(sequence)):
        yield (tuple(it for it, mine in zip(sequence, chosen) if mine),
               tuple(it for it, mine in zip(sequence, chosen) if not mine))


def weakly(pattern, attributes, items):
    """Like `matches`, but no items also count as an empty string, and a single blank string also counts as no items."""
    if matches(pattern, attributes, items):
        return True
    if not items:
        return matches(pattern, attributes, ("",))
    return len(items) == 1 and is_text(items[0]) and is_blank(items[0]) and matches(pattern, attributes, ())


# ---- the schemas

B = element("b", EMPTY)
BT = element("b", TEXT)
X = attribute("x", TEXT)
Y = attribute("y", TEXT)

FIRST_KINDS = [
    ("element a { empty }", element("a", EMPTY)),
    ("element a { text }", element("a", TEXT)),
    ("element a { element b { empty } }", element("a", B)),
    ("element a { element b { text }, element b { empty } }", element("a", group(BT, B))),
    ("element a { element b { empty } | text }", element("a", choice(B, TEXT))),
    ("element a { attribute x { text }, text }", element("a", group(X, TEXT))),
    ("element a { text, attribute x { text } }", element("a", group(TEXT, X))),
    ("element a { attribute x { empty } | element b { empty } }", element("a", choice(attribute("x", EMPTY), B))),
    ("element a { attribute x { text }, attribute y { empty } }", element("a", group(X, attribute("y", EMPTY)))),
    ("element a { (empty | element b { empty }), text, (element b { text } | empty) }",
     element("a", group(choice(EMPTY, B), TEXT, choice(BT, EMPTY)))),
    ("element b { element a { text | empty } | (text, element a { attribute y { text } | empty }) }",
     element("b", choice(element("a", choice(TEXT, EMPTY)), group(TEXT, element("a", choice(Y, EMPTY)))))),
    ("element a { (element b { empty }, notAllowed) | text }", element("a", choice(group(B, NOT_ALLOWED), TEXT))),
    ("element a { element b { notAllowed } | (text, attribute x { notAllowed }) | (empty, text) }",
     element("a", choice(element("b", NOT_ALLOWED), group(TEXT, attribute("x", NOT_ALLOWED)), group(EMPTY, TEXT)))),
    ("element a { (notAllowed | attribute x { text }), (element b { text | notAllowed } | empty) }",
     element("a", group(choice(NOT_ALLOWED, X), choice(element("b", choice(TEXT, NOT_ALLOWED)), EMPTY)))),
]

ALL_KINDS = [
    element("a", star(B)),
    element("a", one_or_more(group(B, element("a", EMPTY)))),
    element("a", interleave(B, element("a", star(B)))),
    element("a", mixed(optional(B))),
    element("a", mixed(star(choice(B, element("a", TEXT))))),
    element("a", interleave(group(B, element("a", EMPTY)), X)),
    element("a", interleave(star(B), star(element("a", EMPTY)), Y)),
    element("a", data(STRING)),
    element("a", data(TOKEN, value(TOKEN, "t"))),
    element("a", data(STRING, choice(value(STRING, "t"), value(STRING, "")))),
    element("a", value(TOKEN, "t")),
    element("a", value(STRING, " ")),
    element("a", value(STRING, "")),
    element("a", value(TOKEN, "")),
    element("a", a_list(value(TOKEN, "t"))),
    element("a", a_list(star(value(TOKEN, "t")))),
    element("a", a_list(EMPTY)),
    element("a", a_list(one_or_more(data(TOKEN)))),
    element("a", group(attribute("x", data(INTEGER)), optional(attribute("y", value(STRING, ""))))),
    element("a", attribute("x", data(INTEGER, value(INTEGER, "1")))),
    element("a", attribute("y", a_list(star(data(INTEGER))))),
    element("a", one_or_more(attribute(ANY, TEXT))),
    element("a", group(star(attribute(all_but("x"), TEXT)), optional(X), optional(B))),
    element("a", choice(data(TOKEN), star(B))),
    element("a", choice(value(TOKEN, "t"), TEXT, B)),
    element(ANY, star(element(all_but("a"), TEXT))),
    element(names("a", "b"), mixed(optional(element(names("a", "b"), EMPTY)))),
    element("a", interleave(TEXT, group(B, B))),
    element("a", choice(group(B, element("a", EMPTY)), group(element("a", EMPTY), B))),
    element("a", group(star(element("a", EMPTY)), choice(EMPTY, group(B, star(B))))),
    element("a", group(optional(X), choice(a_list(EMPTY), star(choice(element("a", EMPTY), B))))),
    element("a", choice(group(optional(X), star(B)), group(optional(Y), star(element("a", EMPTY))))),
]


def some_values(rng):
    """A pattern for the strings of an element or an attribute."""
    return rng.choice([
        data(STRING), data(TOKEN), data(INTEGER), value(TOKEN, "t"), value(STRING, " "), value(INTEGER, "1"),
        data(TOKEN, value(TOKEN, "t")), data(STRING, choice(value(STRING, " "), value(TOKEN, ""))),
        a_list(star(value(TOKEN, "t"))), a_list(group(optional(data(INTEGER)), data(TOKEN))),
        choice(value(TOKEN, "t"), a_list(EMPTY)),
    ])


def some_children(rng, depth):
    """A pattern of elements, and of texts beside them."""
    sort = rng.randrange(8) if depth else 0
    if sort < 2:
        return element(rng.choice(["a", "b", ANY, all_but("b")]) if sort else rng.choice("ab"), some_content(rng, depth - 1))
    if sort == 2:
        return rng.choice([one_or_more, star, optional])(some_children(rng, depth - 1))
    if sort == 3:
        return mixed(star(element(rng.choice("ab"), some_content(rng, depth - 1))))
    if sort == 4:
        return interleave(optional(element("a", some_content(rng, depth - 1))), star(element("b", some_content(rng, depth - 1))))
    return (group if sort < 7 else choice)(some_children(rng, depth - 1), some_children(rng, depth - 1))


def some_attributes(rng):
    """Patterns of attributes with different names."""
    one = rng.choice([X, optional(X), attribute("x", some_values(rng)), star(attribute(all_but("y"), TEXT))])
    other = rng.choice([Y, optional(Y), optional(attribute("y", some_values(rng)))])
    return rng.choice([(), (), (one,), (other,), (one, other), (choice(one, other),)])


def some_content(rng, depth):
    sort = rng.randrange(5)
    children = (EMPTY if sort == 0 else TEXT if sort == 1 else some_values(rng)) if depth <= 0 or sort < 3 else some_children(rng, depth)
    members = some_attributes(rng) + (children,)
    return members[0] if len(members) == 1 else rng.choice([group, interleave])(*members) if children[0] not in STRINGS else group(*members)


STRINGS = ("data", "value", "list", "choice")


def random_schemas(count, seed=1):
    """Random schemas that obey the restrictions (section 7)."""
    rng = random.Random(seed)
    found = []
    while len(found) < count:
        one = element("a", some_content(rng, 2))
        if one not in found:
            found.append(one)
    return found


# ---- the documents

LINES = ["(a", "(b", "Ax 1", "Ay ", "-t", "- ", ")a", ")b"]


def with_text(children, text):
    return children + [text] if text else children


def read(lines):
    """The root of a document; None if the lines are not a document."""
    opened, root, text, in_tag = [], None, "", False
    for line in lines:
        kind, rest = line[0], line[1:]
        if root is not None:
            return None
        if kind == "A":
            name, attribute_value = rest.split(" ", 1)
            if not in_tag or any(name == other for other, _ in opened[-1][1]):
                return None
            opened[-1][1].append((name, attribute_value))
            continue
        in_tag = False
        if kind == "(":
            if opened:
                opened[-1][2] = with_text(opened[-1][2], text)
            text, in_tag = "", True
            opened.append([rest, [], []])
        elif not opened:
            return None
        elif kind == "-":
            text += rest
        else:
            name, attributes, children = opened.pop()
            if name != rest:
                return None
            whole, text = (name, tuple(attributes), tuple(with_text(children, text))), ""
            if opened:
                opened[-1][2] = opened[-1][2] + [whole]
            else:
                root = whole
    return root


def documents():
    """The documents of at most six lines, each with its root."""
    for count in range(7):
        for lines in itertools.product(LINES, repeat=count):
            root = read(lines)
            if root is not None:
                yield "".join(line + "%0A" for line in lines), root


def main():
    words = argparse.ArgumentParser(description=__doc__)
    words.add_argument("--kinds", choices=["first", "all"], default="first")
    words.add_argument("--data", type=pathlib.Path, help="the folder that the rows are written to")
    chosen = words.parse_args()
    crate, schemas = "rncv_run_cases", FIRST_KINDS
    if chosen.kinds == "all":
        crate, schemas = "rng_deriv_cases", schemas + [(written(it), it) for it in ALL_KINDS + random_schemas(40)]
    data = chosen.data or TOP / "crates" / crate / "data"
    (data / "schemas.txt").write_text("".join(f"{schema}\n" for schema, _ in schemas))
    with open(data / "documents.txt", "w") as rows:
        for lines, root in documents():
            letters = "".join("V" if matches(pattern, (), (root,)) else "I" for _, pattern in schemas)
            rows.write(f"{lines}\t= {letters}\n")


main()
