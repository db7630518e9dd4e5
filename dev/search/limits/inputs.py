"""Large and hostile inputs. Each row has a name, a command, the stack in KiB (None for the usual stack), and a function that makes its files and document.

The function takes a factor: 1, or a tenth for quick runs. It returns the texts of the files, which are named f0.rnc, f1.rnc and so on, and the document.
"""
import random

MEBIBYTE = 1_048_576
LIST = 500
DIGITS = "0123456789abcdefghijklmnopqrstuvwxyz"
BRACKETS = 126


def short(number):
    """A name that is a number in base 36, after a letter."""
    text = ""
    while number or not text:
        number, digit = divmod(number, 36)
        text = DIGITS[digit] + text
    return "n" + text


def lists(sign, members):
    """The members joined by the sign. Lists of 500 are joined in the same way again, to stay within the limit of depth."""
    members = list(members)
    while len(members) > LIST:
        members = ["(" + sign.join(members[at:at + LIST]) + ")" for at in range(0, len(members), LIST)]
    return sign.join(members)


def names(count, front=""):
    return lists("|", (front + short(i) for i in range(count)))


def filled(front, part, back=""):
    """A file of nearly a mebibyte: the front, the part repeated, the back."""
    def make(factor):
        room = int(MEBIBYTE * factor) - len(front) - len(back)
        return [front + part * (room // len(part)) + back], ""
    return make


def joined(sign, member, front="element a {", back="}"):
    """As many members with a sign between them as fit into a file."""
    return filled(front + member, sign + member, back)


def numbered(member, front="", room=MEBIBYTE):
    """As many numbered members as fit into a file."""
    def make(factor):
        parts, left = [front], int(room * factor) - len(front) - 50
        while left > 0:
            parts.append(member.replace("#", short(len(parts))))
            left -= len(parts[-1])
        return ["".join(parts)], ""
    return make


def components(number, room):
    text = "".join(f"x{number}_{i} = element e{i} {{ attribute a {{ text }}, empty }}\n" for i in range(room // 60))
    return text[:text.rfind("\n", 0, room) + 1]


def many_files(factor):
    room = int((MEBIBYTE - 100) * factor)
    return ["start = empty\n" + "".join(f'include "f{i}.rnc"\n' for i in range(1, 64))] + [components(i, room) for i in range(1, 64)], ""


def nested_files(front, back, last, files=64, mention="external"):
    """Files of 126 nested brackets. The innermost mentions the next file."""
    def make(factor):
        count = max(min(2, files), int(files * factor))
        return [front * BRACKETS + (f'{mention} "f{i + 1}.rnc"' if i + 1 < count else last) + back * BRACKETS for i in range(count)], ""
    return make


def nested_file_with_fault(front, back, last):
    """A file of 126 nested brackets, and behind them what no pattern has there."""
    whole = nested_files(front, back, last, 1)

    def make(factor):
        [file], document = whole(factor)
        return [file + ", }"], document
    return make


def grammars_in_a_ring(factor):
    return [" | ".join(["grammar { start = text }"] * int(20_000 * factor))], ""


def long_uri(uri, count):
    def make(factor):
        return [f'namespace p = "{"u" * int(uri * factor)}" element {names(int(count * factor), "p:")} {{ empty }}'], ""
    return make


def two_excepts(factor):
    count = int(20_000 * factor)
    return [f"element a {{ element * - ({names(count)}) {{ empty }}* & element * - ({names(count)}) {{ text }}* }}"], ""


def excepts_and_names(factor):
    count = int(20_000 * factor)
    return [f"element a {{ attribute * - ({names(count)}) {{ text }}+, attribute {names(count)} {{ text }}+ }}"], ""


def attributes_beside_excepted(factor):
    """Classes without brackets. A choice of names is as deep as it has names."""
    listed = "|".join(short(i) for i in range(max(2, int(990 * factor))))
    return [f"element a {{ attribute * - ({listed}) {{ text }}+, attribute {listed} {{ text }}+ }}"], ""


def any_other(factor):
    count = int(20_000 * factor)
    beside = lists("&", (f"element {short(i)} {{ empty }}" for i in range(count)))
    return [f"element a {{ element * - ({names(count)}) {{ empty }}* & ({beside}) }}"], ""


def names_in_two_choices(factor):
    count = int(8_000 * factor)
    defined = "".join(f"{short(i)} = element {short(i)} {{ empty }}\n" for i in range(count))
    def nest(front):
        levels = 100
        return "(" * levels + f"({names(count)})" + "".join(f" & element {front}{i} {{ empty }})" for i in range(levels))
    return [f"start = element a {{ {nest('x')} | {nest('y')} }}\n{defined}"], ""


def included_often(count, size):
    """A file of components that is included `count` times."""
    def make(factor):
        inner = "".join(f"x{i} = element e{i} {{ empty }}\n" for i in range(size)) if size else components(1, int((MEBIBYTE - 100) * factor))
        return ['include "f1.rnc" { }\n' * int(count * factor), inner], ""
    return make


def external_often(count):
    def make(factor):
        room = int((MEBIBYTE - 100) * factor)
        inner = "element e { " + lists("|", ["text"] * (room // 6)) + " }"
        return ["element a { " + lists("|", ['external "f1.rnc"'] * int(count * factor)) + " }", inner], ""
    return make


def excepted_namespaces(factor):
    count, left_out = max(2, int(100 * factor)), int(900 * factor)
    declared = "".join(f'namespace p{i} = "u{i}"\n' for i in range(count))
    members = " & ".join(f"element p{i}:* - ({names(left_out, f'p{i}:')}) {{ empty }}*" for i in range(count))
    return [f"{declared}start = element a {{ {members} }}"], ""


def brackets(factor):
    one = "(" * BRACKETS + "text" + ")" * BRACKETS
    return filled(f"element a {{{one}", f"|{one}", "}")(factor)


def levels(count, rule, last, children):
    """Definitions, each made from the next one by the rule, and a document of children `b`."""
    def make(factor):
        size = int(count * factor)
        rules = "".join(f"x{i} = {rule.replace('#', f'x{i + 1}')}\n" for i in range(size))
        return [f"start = element doc {{ x0 }}\n{rules}x{size} = {last}\nc = element c {{ empty }}\n"], root("(b\n)b\n" * int(children * factor))
    return make


def children(names):
    return "".join(f"({name}\n){name}\n" for name in names)


def defined(names):
    return "".join(f"{name} = element {name} {{ empty }}\n" for name in names)


def levels_over_two(rule, count, pairs):
    """Definitions, each made from the next one by the rule, the innermost `b, c?`, and a document of children `b` and `c` in turn."""
    def make(factor):
        [schema], _ = levels(count, rule, "(b, c?)", 0)(factor)
        return [schema + defined("b")], root(children("bc" * int(pairs * factor)))
    return make


def interleaved_levels(count):
    """Definitions, each a repetition of the next one beside a child of its own, and a document of these children, the innermost first."""
    def make(factor):
        names = [f"c{i}" for i in range(int(count * factor))]
        rules = "".join(f"x{i} = (x{i + 1} & {name}?)*\n" for i, name in enumerate(names))
        return [f"start = element doc {{ x0 }}\n{rules}x{len(names)} = empty\n{defined(names)}"], root(children(reversed(names)))
    return make


def members_behind_a_repetition(members, count):
    """A list of `a | b` behind `(a | b)*, a`, and a valid document of random children. Half of the members are alternatives behind each child."""
    def make(factor):
        behind = int(members * factor)
        listed = lists(",", ["(a | b)"] * behind) or "empty"
        chance = random.Random(1)
        names = [chance.choice("ab") for _ in range(int(count * factor))]
        names[-behind - 1] = "a"
        return [f"start = element doc {{ (a | b)*, a, {listed} }}\n{defined('ab')}"], root(children(names))
    return make


def sides_of_two_bodies(count):
    """An interleave, where two elements of one name with different bodies begin each side, and a document that suits both."""
    def make(factor):
        numbers = range(max(1, int(count * factor)))
        sides = " & ".join(f"((element a{i} {{ empty }}, b{i}) | (element a{i} {{ text }}, c{i}))" for i in numbers)
        schema = f"start = element doc {{ {sides} }}\n" + defined(f"{name}{i}" for name in "bc" for i in numbers)
        return [schema], root(children(f"{name}{i}" for name in "ac" for i in numbers))
    return make


def sides_of_three_contents(count, sign):
    """Sides that begin with one of three contents of an attribute, each followed by another attribute that is left out, and values that suit all three."""
    def make(factor):
        numbers = range(max(1, int(count * factor)))
        contents = {"b": "'1'", "c": "token", "d": "text"}
        sides = (" | ".join(f"(attribute a{i} {{ {content} }}, attribute {name}{i} {{ text }}?)" for name, content in contents.items()) for i in numbers)
        schema = f"start = element doc {{ {sign.join(f'({side})' for side in sides)} }}\n"
        return [schema], "(doc\n" + "".join(f"Aa{i} 1\n" for i in numbers) + ")doc\n"
    return make


def sides_of_two_attributes(count, sign):
    """Sides that two attributes of one name begin, with different values, and a document that suits both."""
    def make(factor):
        numbers = range(max(1, int(count * factor)))
        sides = sign.join(f'((attribute a{i} {{ "1" }}, b{i}?) | (attribute a{i} {{ text }}, c{i}?))' for i in numbers)
        schema = f"start = element doc {{ {sides} }}\n" + defined(f"{name}{i}" for name in "bc" for i in numbers)
        return [schema], root("".join(f"Aa{i} 1\n" for i in numbers) + children(f"c{i}" for i in numbers))
    return make


def root(inner, name="doc"):
    return f"({name}\n{inner}){name}\n"


def long_group(factor):
    count = int(2_000 * factor)
    members = lists(",", (f"element {short(i)} {{ empty }}" for i in range(count)))
    return [f"element doc {{ {members} }}"], root("".join(f"({short(i)}\n){short(i)}\n" for i in range(count)))


def other_bodies(factor):
    count = int(900 * factor)
    members = ", ".join(f"element b {{ text, element c{i} {{ empty }}? }}?" for i in range(count))
    return [f"element doc {{ {members} }}"], root("(b\n)b\n" * count)


ANY = "start = any\nany = element * { (attribute * { text } | text | any)* }\n"


def declarations(numbers):
    return "".join(f"Axmlns:p{i} u{i}\n" for i in numbers)


def prefix_declared_twice(factor):
    tag = f"(e\n{declarations(range(255))})e\n"
    return [ANY], root(tag * int(2_000 * factor) + f"(e\n{declarations([*range(254), 253])})e\n")


def declarations_everywhere(factor):
    depth = int(510 * factor)
    outer = "".join("(e\n" + "".join(f"Axmlns:p{level}_{i} u\n" for i in range(256)) for level in range(depth))
    tag = "(e\n" + "".join(f"Ap0_{i}:x{i} 1\n" for i in range(255)) + ")e\n"
    return [ANY], root(outer + tag * 20 + ")e\n" * depth)


def prefixes_in_use(factor):
    tag = f"(e\n{declarations(range(250))}" + "".join(f"(p{i}:e\n)p{i}:e\n" for i in range(250)) + ")e\n"
    return [ANY], root(tag * (int(10_000_000 * factor) // len(tag)))


def slot(name):
    """The slot of a name, as `pyx/src/namespaces/slots.rt` has it."""
    total = 0
    for byte in name.encode():
        total = (total ^ byte) * 16_777_619 % 2**32
    return (total >> 8) % 4_096


def names_of_one_slot(count):
    found, number = [], 0
    while len(found) < count:
        name = short(number)
        if slot(name) == 0:
            found.append(name)
        number += 1
    return found


def tags(tag, factor, front="", back=""):
    return [ANY], root(front + tag * (int(10_000_000 * factor) // len(tag)) + back)


def attributes_of_one_slot(factor):
    return tags("(e\n" + "".join(f"A{name} 1\n" for name in names_of_one_slot(255)) + ")e\n", factor)


def prefixes_of_one_slot(factor):
    return tags("(e\n" + "".join(f"Axmlns:{name} u\n" for name in names_of_one_slot(255)) + ")e\n", factor)


def long_namespaces(prefixes):
    def make(factor):
        declared = "".join(f"Axmlns:p{number} {'u' * 65_000}{number}\n" for number in range(prefixes))
        attributes = "".join(f"Ap{i % prefixes}:x{i} 1\n" for i in range(254))
        return tags(f"(e\n{attributes})e\n", factor, f"(e\n{declared}", ")e\n")
    return make


def deep_group(factor):
    """Groups in one another by their definitions, and a document whose children go through all of them."""
    count = int(900 * factor)
    rules = "".join(f"x{i} = element b {{ empty }}?, x{i + 1}\n" for i in range(count))
    return [f"start = element doc {{ x0 }}\n{rules}x{count} = element c {{ empty }}\n"], root("(b\n)b\n" * count + "(c\n)c\n")


def many_values(factor):
    count = int(95_000 * factor)
    return [f"element doc {{ {lists('|', (repr(short(i)) for i in range(count)))} }}"], root(f"-{short(count - 1)}\n")


def many_values_and_texts(factor):
    count, children = int(50_000 * factor), int(20_000 * factor)
    values = lists("|", (f'"v{i}"' for i in range(count)))
    return [f"element a {{ element b {{ {values} }}* }}"], root("".join(f"(b\n-v{i}\n)b\n" for i in range(children)), "a")


def many_names(factor):
    count, children = int(130_000 * factor), int(20_000 * factor)
    return ([f"element doc {{ element {names(count)} {{ empty }}* }}"],
            root("".join(f"({short(i)}\n){short(i)}\n" for i in range(0, count, count // children))))


def long_text(word, factor):
    """A text of a mebibyte, in lines of at most 65,536 bytes."""
    words = word + " "
    line = "-" + words * (65_000 // len(words)) + "\n"
    return root(line * (int(MEBIBYTE * factor) // len(line)))


def list_of_choices(member, sign="*"):
    def make(factor):
        members = ", ".join(member.replace("#", short(i)) for i in range(int(900 * factor)))
        return [f"element doc {{ list {{ ({members}){sign} }} }}"], long_text("a", factor)
    return make


ELEMENTS = nested_files("element a { ", " }", "text")
GRAMMARS = nested_files("grammar { start = ", " }", "text")
# What nests in a file: its name, each bracket up to what is inside it, the rest of the bracket, and what is inside the innermost one of the last file.
SHAPES = [
    ("elements", "element a { ", " }", "text"),
    ("elements `element a { text, ..? }`", "element a { text, ", "? }", "element b { empty }"),
    ("lists `list { text, .. }`", "list { text, ", " }", "empty"),
    ("`mixed`", "mixed { ", " }", "element b { empty }"),
    ("grammars", "grammar { start = ", " }", "text"),
    ("grammars `grammar { start = text, ..? }`", "grammar { start = text, ", "? }", "empty"),
    ("grammars `grammar { start = string, ..? }`", "grammar { start = string, ", "? }", "empty"),
    ("parentheses", "(", ")", "text"),
]

# What nests deeply, in one file and through files in one another: name, command, and a function as in a row.
NESTED = [
    ("an empty element", "check", lambda factor: (["element a { empty }"], "")),
    ("900 groups in one another, and as many children", "valid", deep_group),
    ("900 groups in one another", "simple", deep_group),
] + [
    (f"{'a file' if files == 1 else f'{files} files'} of 126 {what} in one another", "check", nested_files(front, back, last, files))
    for files in (1, 64) for what, front, back, last in SHAPES
] + [
    (f"a file of 126 {what} in one another, and `, }}` behind them", "check", nested_file_with_fault(front, back, last)) for what, front, back, last in SHAPES
] + [
    ("64 files of 126 `div` in one another, each file included in the one before", "check",
     nested_files("div { ", " }", "start = element a { empty }", 64, "include")),
    ("attributes of `* - (990 names)`, and of these names", "check", attributes_beside_excepted),
    ("attributes of `* - (990 names)`, and of these names", "simple", attributes_beside_excepted),
    ("a file of 60 excepts of name classes in one another", "check",
     lambda factor: (["element " + "(* - (a | " * 60 + "b" + "))" * 60 + " { empty }"], "")),
    ("a file of 120 excepts of data in one another", "check",
     lambda factor: (["element a { string - " + "(string - " * 120 + '"a"' + ")" * 120 + " }"], "")),
]

ROWS = [
    ("64 files of 1 MiB, 63 of them included by the first", "check", None, many_files),
    ("64 files of 126 elements in one another, the next file in the innermost", "check", None, ELEMENTS),
    ("64 files of 126 grammars in one another, the next file in the innermost", "check", None, GRAMMARS),
    ("20,000 grammars side by side", "check", None, grammars_in_a_ring),
    ("a uri of 100 KiB, and 100,000 names under it", "check", None, long_uri(100_000, 100_000)),
    ("a uri of 500 KiB, and 20,000 names under it", "check", None, long_uri(512_000, 20_000)),
    ("two classes `* - (20,000 names)`, interleaved", "check", None, two_excepts),
    ("attributes of `* - (20,000 names)`, and of these names", "check", None, excepts_and_names),
    ("20,000 elements, and one of any other name, interleaved", "check", None, any_other),
    ("8,000 names in two choices, both in 100 interleaves in one another", "check", None, names_in_two_choices),
    ("100 components, included 4,000 times", "check", None, included_often(4_000, 100)),
    ("a file of 1 MiB, included 2,048 times", "check", None, included_often(2_048, 0)),
    ("a file of 1 MiB, included 4,000 times", "check", None, included_often(4_000, 0)),
    ("a file of 1 MiB, 2,048 times an external one", "check", None, external_often(2_048)),
    ("a file of 1 MiB, 4,000 times an external one", "check", None, external_often(4_000)),
    ("100 classes `p:* - (900 names)`, interleaved", "check", None, excepted_namespaces),
    ("1 MiB of texts in 126 brackets each", "check", None, brackets),
    ("1 MiB of definitions", "check", None, numbered("#=text ", "start=element a{empty} ")),
    ("1 MiB of definitions `x |= text`", "check", None, filled("start=element a{x} ", "x|=text ")),
    ("1 MiB of definitions `x &= empty`", "check", None, filled("start=element a{x} ", "x&=empty ")),
    ("1 MiB of a choice", "check", None, joined("|", "text")),
    ("1 MiB of an interleave", "check", None, joined("&", "empty")),
    ("1 MiB of a group", "check", None, joined(",", "empty")),
    ("1 MiB of a name class, one name", "check", None, joined("|", "a", "element ", "{empty}")),
    ("1 MiB of a name class, different names in lists of 500", "check", None, lambda factor: ([f"element {names(int(180_000 * factor))} {{empty}}"], "")),
    ("1 MiB of an except", "check", None, joined("|", "a", "element *-(", "){empty}")),
    ("1 MiB of an except, different names in lists of 500", "check", None, lambda factor: ([f"element *-({names(int(180_000 * factor))}) {{empty}}"], "")),
    ("1 MiB of parameters", "check", None, filled("element a{xsd:string{", 'maxLength="1"', "}}")),
    ("1 MiB of escapes in a literal", "check", None, filled('element a{"', "\\x{61}", '"}')),
    ("1 MiB of segments", "check", None, joined("~", '"a"')),
    ("1 MiB of annotations in one another", "check", None,
     lambda factor: (["[" * int(MEBIBYTE * factor / 2 - 50) + "]" * int(MEBIBYTE * factor / 2 - 50) + " element a {empty}"], "")),
    ("1 MiB of annotations side by side", "check", None, filled("[", "[]", "] element a {empty}")),
    ("1 MiB of comments", "check", None, filled("element a {empty}", "#\n")),
    ("300 levels `(x, x) | (x, c?) | x` over `b`, 100 children", "valid", None, levels(300, "(#, #) | (#, c?) | #", "element b { empty }", 100)),
    ("300 levels `(x, x) | (x, c?) | x` over `b?`, 100 children", "valid", None, levels(300, "(#, #) | (#, c?) | #", "element b { empty }?", 100)),
    ("60 levels `(x, x?)` over `b`, 300 children", "valid", None, levels(60, "(#, #?)", "element b { empty }", 300)),
    ("60 levels `(x?, x)` over `b`, 300 children", "valid", None, levels(60, "(#?, #)", "element b { empty }", 300)),
    ("60 levels `(x, x?, x?)` over `b`, 300 children", "valid", None, levels(60, "(#, #?, #?)", "element b { empty }", 300)),
    ("60 levels `(x, (x, x?)?)` over `b`, 300 children", "valid", None, levels(60, "(#, (#, #?)?)", "element b { empty }", 300)),
    ("60 levels `(x+, x?)` over `b`, 50 children", "valid", None, levels(60, "(#+, #?)", "element b { empty }", 50)),
    ("60 levels `(x, x) | c*` over `b`, 50 children", "valid", None, levels(60, "((#, #) | c*)", "element b { empty }", 50)),
    ("60 levels `(x*, c*)` over `b, c?`, 40 children", "valid", None, levels_over_two("(#*, c*)", 60, 20)),
    ("160 levels `(x & c1?)*` with a name each, and a child of each, the innermost first", "valid", None, interleaved_levels(160)),
    ("1,000 members `(a | b)` behind `(a | b)*, a`, 10,000 children", "valid", None, members_behind_a_repetition(1_000, 10_000)),
    ("20 sides `(a, b) | (a, c)` with two bodies of `a` each, interleaved, 40 children", "valid", None, sides_of_two_bodies(20)),
    ("18 sides `(a, b?) | (a, c?)` with two values of an attribute `a` each, in a group", "valid", None, sides_of_two_attributes(18, ", ")),
    ("18 sides `(a, b?) | (a, c?)` with two values of an attribute `a` each, interleaved", "valid", None, sides_of_two_attributes(18, " & ")),
    ("60 sides with three contents of an attribute each, in a group", "valid", None, sides_of_three_contents(60, ", ")),
    ("60 sides with three contents of an attribute each, interleaved", "valid", None, sides_of_three_contents(60, " & ")),
    ("a group of 2,000, and as many children", "valid", None, long_group),
    ("900 members of one name with different bodies, and as many children", "valid", None, other_bodies),
    ("2,000 tags of 255 declarations, the last with two of one prefix", "valid", None, prefix_declared_twice),
    ("510 tags in one another, each of 256 declarations, and 20 tags of 255 attributes with prefixes", "valid", None, declarations_everywhere),
    ("10 MB of 250 declarations a tag, each prefix in use", "valid", None, prefixes_in_use),
    ("10 MB of 255 attributes a tag, whose names share a slot", "valid", None, attributes_of_one_slot),
    ("10 MB of 255 declarations a tag, whose prefixes share a slot", "valid", None, prefixes_of_one_slot),
    ("10 MB of 254 attributes a tag, of a namespace of 65,000 bytes", "valid", None, long_namespaces(1)),
    ("10 MB of 254 attributes a tag, of two namespaces of 65,000 bytes in turn", "valid", None, long_namespaces(2)),
    ("95,000 values in a choice, and one text", "valid", None, many_values),
    ("50,000 values in a choice, and 20,000 different texts", "valid", None, many_values_and_texts),
    ("a class of 130,000 names, and 20,000 different children", "valid", None, many_names),
    ('a list `(("a" | "bi"), ..)*` of 900 members, and a text of 1 MiB', "valid", None, list_of_choices('("a" | "b#")')),
    ('a list `(("a" | "bi")?, ..)*` of 900 members, and a text of 1 MiB', "valid", None, list_of_choices('("a" | "b#")?')),
] + [(f"{name}, a stack of 256 KiB", command, 256, make) for name, command, make in NESTED]
