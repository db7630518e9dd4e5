"""Tests of what `rncv-xml` says of a text that is no list: the first token with which nothing valid can go on, and what could be there. Random lists are
tried by a plain search, and compared with jing, whose message names the token too.

    python3 -B lists_test.py --count 5000     compares on so many random lists
"""
import argparse
import json
import random
import re
import sys
import unittest

from testing import InFolder, processor_seconds

USUAL = 400  # random lists in an ordinary run
MOST_SHOWN = 8
WORDS = ("1", "7", "07", "12", "-3", "x", "y", "2x", "true", "'", "x:y", "2002-11-21")

# Each datatype or value: how it is written, how it is shown, its datatype, and the words that it takes.
INTEGERS = ("1", "7", "07", "12", "-3")
LEAVES = {
    "integer": ("xsd:integer", "xsd:integer", "xsd:integer", INTEGERS),
    "small": ('xsd:integer { maxInclusive = "9" }', 'xsd:integer { maxInclusive = "9" }', "xsd:integer", ("1", "7", "07", "-3")),
    "large": ('xsd:integer { minInclusive = "9" }', 'xsd:integer { minInclusive = "9" }', "xsd:integer", ("12",)),
    "seven": ('xsd:integer "7"', '"7"', "", ("7", "07")),
    "others": ('(xsd:integer - xsd:integer "7")', "xsd:integer", "xsd:integer", ("1", "12", "-3")),
    "boolean": ("xsd:boolean", "xsd:boolean", "xsd:boolean", ("true", "1")),
    "date": ("xsd:date", "xsd:date", "xsd:date", ("2002-11-21",)),
    "name": ("xsd:NCName", "xsd:NCName", "xsd:NCName", ("x", "y", "true")),
    "x": ('"x"', '"x"', "", ("x",)),
    "y": ('xsd:string "y"', '"y"', "", ("y",)),
    "quote": ('"\'"', '"\'"', "", ("'",)),
}


# ---- lists

def random_list(chance, depth=0):
    """What may be in the braces of a list."""
    kind = chance.choice(("leaf", "leaf", "group", "group", "choice", "+", "*", "?", "empty")) if depth < 4 else "leaf"
    if kind == "leaf":
        return ("leaf", chance.choice(list(LEAVES)))
    if kind in ("group", "choice"):
        return (kind, tuple(random_list(chance, depth + 1) for _ in range(chance.randrange(2, 4))))
    return ("empty",) if kind == "empty" and chance.random() < 0.4 else (kind if kind != "empty" else "?", (random_list(chance, depth + 1),))


def written(pattern):
    if pattern[0] == "leaf":
        return LEAVES[pattern[1]][0]
    if pattern[0] in ("group", "choice"):
        return "(" + (", " if pattern[0] == "group" else " | ").join(map(written, pattern[1])) + ")"
    return "empty" if pattern[0] == "empty" else f"({written(pattern[1][0])}){pattern[0]}"


def begins(stack, seen):
    """With what the patterns of a stack may begin: leaves, each with what is left behind it; None if they may end."""
    if stack in seen:
        return
    seen.add(stack)
    if not stack:
        yield None
        return
    (kind, *parts), rest = stack[0], stack[1:]
    inner = parts[0] if parts else ()
    if kind == "leaf":
        yield parts[0], rest
    for first in inner if kind == "choice" else ():
        yield from begins((first, *rest), seen)
    if kind in ("group", "empty"):
        yield from begins((*inner, *rest), seen)
    if kind in ("+", "*", "?"):
        yield from begins((*inner, *(() if kind == "?" else (("*", inner),)), *rest), seen)
    if kind in ("*", "?"):
        yield from begins(rest, seen)


def possible(stacks):
    """What may come next by any of the stacks."""
    return [it for stack in stacks for it in begins(stack, set())]


def fault_of(patterns, tokens):
    """The first token at fault by all these lists, None if tokens are missing, and the leaves that may be there. Nothing if the text is a list."""
    stacks = {(it,) for it in patterns}
    for token in tokens:
        here = [it for it in possible(stacks) if it is not None]
        stacks = {rest for leaf, rest in here if token in LEAVES[leaf][3]}
        if not stacks:
            return token, {leaf for leaf, _ in here}
    here = possible(stacks)
    return None if None in here else (None, {leaf for leaf, _ in here})


def shown(leaves):
    items = sorted({LEAVES[it][1] for it in leaves})
    words = " and %d more" % (len(items) - MOST_SHOWN) if len(items) > MOST_SHOWN else ""
    last = " or " if not words else ", "
    return ", ".join(items[:MOST_SHOWN][:-1]) + (last if len(items) > 1 else "") + items[:MOST_SHOWN][-1] + words


def is_excepted(token, leaves):
    """Whether only an except tells what is wrong with the token."""
    return "others" in leaves and {LEAVES[it][2] for it in leaves} == {"xsd:integer"} and token in INTEGERS


def words_of(fault):
    token, leaves = fault
    if token is None:
        return f"it ends too early; expected {shown(leaves)}"
    said = f'"{token}" is not allowed here'
    return said + ("; expected the end of the list" if not leaves else "" if is_excepted(token, leaves) else f"; expected {shown(leaves)}")


# ---- both programs

JING = re.compile(r".*c(\d+)\.xml:\d+:\d+: error: (.*)")
AT_ONCE = 200  # lists in a schema


class Case:
    """Lists for an attribute or a text of an element, and a text that is none of them."""

    def __init__(self, number, chance):
        self.number, self.is_attribute = number, chance.random() < 0.5
        fault = None
        while fault is None:
            self.patterns = [random_list(chance) for _ in range(chance.choice((1, 1, 1, 2, 3)))]
            self.tokens = [chance.choice(WORDS) for _ in range(chance.randrange(7))]
            fault = fault_of(self.patterns, self.tokens)
        self.token, self.leaves = fault
        blanks = [chance.choice((" ", "  ", "\t", "\n")) for _ in self.tokens]
        self.text = chance.choice(("", " ", "\n")) + "".join(token + blank for token, blank in zip(self.tokens, blanks))

    def schema(self):
        lists = " | ".join(f"list {{ {written(it)} }}" for it in self.patterns)
        return f"e{self.number} = element e{self.number} {{ {f'attribute s {{ {lists} }}' if self.is_attribute else lists} }}\n"

    def xml(self):
        return f'<e{self.number} s="{self.text}"/>' if self.is_attribute else f"<e{self.number}>{self.text}</e{self.number}>"

    def wanted(self):
        """The message, without the text."""
        name = f"<e{self.number}>"
        if not self.is_attribute and not self.tokens:
            return f"{name} ends too early: expected {shown(self.leaves)}"
        begin = f"attribute s of {name}" if self.is_attribute else f"the text of {name}"
        return f"{begin} is no list that the schema allows (..: {words_of((self.token, self.leaves))})"

    def is_of_one(self, said):
        """Whether what jing says is so by one of the lists alone."""
        token = re.search(r'token "(.*?)" invalid', said)
        faults = [fault_of([it], self.tokens)[0] for it in self.patterns]
        return None in faults if "missing token" in said else token is None or token[1].replace("&apos;", "'") in faults


class RandomLists(InFolder):
    """Random lists: an element for each one."""

    count = USUAL

    def cases(self):
        """The cases of some schemas, with the names of their documents."""
        chance = random.Random(20)
        for begin in range(0, self.count, AT_ONCE):
            cases = [Case(number, chance) for number in range(begin, begin + AT_ONCE)]
            self.write("s.rnc", "start = " + " | ".join(f"e{it.number}" for it in cases) + "\n" + "".join(it.schema() for it in cases))
            for it in cases:
                self.write(f"c{it.number}.xml", it.xml())
            yield cases, [f"c{it.number}.xml" for it in cases]

    def test_the_token_is_told(self):
        for cases, names in self.cases():
            out, status = self.judge("s.rnc", *names)
            self.assertEqual((len(out.splitlines()), status), (len(cases), 1))
            for case, line in zip(cases, out.splitlines()):
                message = re.sub(r'\("(?:[^"\\]|\\.)*"(?=: )', "(..", line.partition(": invalid: ")[2])
                self.assertEqual(message, case.wanted(), case.schema() + case.xml())

    def test_jing_names_the_same_token(self):
        """Where it names one: it does not if there are too many tokens, or an except is the reason. Of several lists it has the fault of one of them."""
        self.wanted("jing")
        same = 0
        for cases, names in self.cases():
            said = {int(it[1]): it[2] for it in map(JING.match, self.run_in("jing", "-c", "s.rnc", *names)[0].splitlines()) if it}
            self.assertEqual(len(said), len(cases))
            for case in cases:
                self.assertTrue(case.is_of_one(said[case.number]), case.schema() + case.xml() + said[case.number])
            same += sum("token" in it for it in said.values())
        self.assertGreater(same, self.count // 2)


class Lists(InFolder):
    """Where lists are, and what is said if no token is found."""

    def message(self, schema, xml, *words):
        """What is said behind the text that is at fault, or behind `invalid: ` if no list is."""
        self.write("t.rnc", schema)
        self.write("d.xml", xml)
        out, status = self.judge("--max-faults", "1", *words, "t.rnc", "d.xml")
        self.assertEqual(status, 1)
        return re.sub(r'.*: invalid: (.* is no list that the schema allows \("(?:[^"\\]|\\.)*")?', "", out.rstrip("\n"))

    def test_lists_of_elements_with_one_name(self):
        """What they do not share is not told."""
        nested = "element a {{ element b {{ list {{ {} }} }}?, element c {{ element b {{ list {{ {} }} }} }}? }}"
        for one, other, said in (("xsd:integer+", "xsd:integer+", ': "x" is not allowed here; expected xsd:integer)'),
                                 ("xsd:integer+", "xsd:integer*", ': "x" is not allowed here; expected xsd:integer)'),
                                 ("xsd:integer+", "xsd:token+", ': "x" is not allowed here; expected xsd:integer)'),
                                 ("xsd:integer+", "xsd:byte+", ': "x" is not allowed here)'),
                                 ("xsd:integer+", "xsd:date+", ")"), ("xsd:integer, xsd:integer", "xsd:integer", ")")):
            self.assertEqual(self.message(nested.format(one, other), "<a><b>1 x</b></a>"), said, (one, other))
        self.assertEqual(self.message(nested.format("xsd:integer, xsd:int", "xsd:integer, xsd:byte"), "<a><c><b>1</b></c></a>"), ": it ends too early)")
        self.assertEqual(self.message("element a { element b { list { xsd:integer } } | element b { xsd:date } }", "<a><b>x</b></a>"),
                         'the text of <b> is no xsd:date ("x")')

    def test_attributes_that_go_together(self):
        either = ('element a { (attribute t { "one" }, attribute v { list { xsd:integer } }) | '
                  '(attribute t { "two" }, attribute v { list { xsd:integer, xsd:integer } }) }')
        self.assertEqual(self.message(either, '<a t="two" v="1 x"/>'), ")")
        self.assertEqual(self.message(either, '<a t="two" v="x 1"/>'), ': "x" is not allowed here; expected xsd:integer)')
        self.assertEqual(self.message(either, '<a t="one" v="1 2"/>'), 'attribute v of <a> does not go with the others ("1 2")')

    def test_texts_beside_attributes(self):
        """What only one of the alternatives has is not told."""
        either = ('element a { (attribute t { "one" }, list { xsd:integer, (xsd:boolean | xsd:NCName) }) | '
                  '(attribute t { "two" }, attribute u { text }?, list { xsd:date, xsd:boolean }) }')
        self.assertEqual(self.message(either, '<a t="two">x</a>'), ': "x" is not allowed here)')
        self.assertEqual(self.message(either, '<a t="two">1</a>'), ")")
        self.assertEqual(self.message(either, '<a t="two"/>'), "<a> ends too early: expected text")
        both = "element a { attribute t { text }?, attribute u { text }, (list { xsd:integer } | list { xsd:date, xsd:date }) }"
        self.assertEqual(self.message(both, '<a u="1">x</a>'), ': "x" is not allowed here; expected xsd:date or xsd:integer)')
        self.assertEqual(self.message(both, '<a u="1">2002-11-21</a>'), ": it ends too early; expected xsd:date)")
        self.assertEqual(self.message("element a { list { xsd:integer } | (attribute t { text }, list { xsd:int }) }", "<a>1 2</a>"),
                         ': "2" is not allowed here; expected the end of the list)')

    def test_names(self):
        self.assertEqual(self.message("element * { attribute * { list { xsd:integer+ } }+ }", '<a v="1" w="2 x"/>'),
                         ': "x" is not allowed here; expected xsd:integer)')
        spaces = 'namespace u = "urn:u" element a { attribute v { list { xsd:integer+ } }?, attribute u:v { list { xsd:date+ } }? }'
        self.assertEqual(self.message(spaces, '<a p:v="x" xmlns:p="urn:u"/>'), ': "x" is not allowed here; expected xsd:date)')
        spaces = 'namespace u = "urn:u" element a { element b { list { xsd:integer+ } }, element u:b { list { xsd:date+ } } }'
        self.assertEqual(self.message(spaces, '<a><b>1 x</b></a>'), ': "x" is not allowed here; expected xsd:integer)')
        self.assertEqual(self.message(spaces, '<a><b>1</b><b xmlns="urn:u">x</b></a>'), ': "x" is not allowed here; expected xsd:date)')

    def test_other_texts_beside_lists(self):
        """Nothing is said of tokens where another text may be."""
        wrong = ': "x" is not allowed here; expected xsd:integer)'
        self.assertEqual(self.message('element a { list { xsd:integer+ } | "auto" }', "<a>1 x</a>"), 'the text of <a> is wrong ("1 x"); expected "auto"')
        self.assertEqual(self.message("element a { list { xsd:integer+ } | (xsd:date - xsd:date '2002-11-21') }", "<a>1 x</a>"),
                         'the text of <a> is no xsd:date ("1 x")')
        self.assertEqual(self.message("element a { list { xsd:integer+ } | element b { empty } }", "<a>1 x</a>"), wrong)
        self.assertEqual(self.message("element a { attribute v { xsd:date }?, list { xsd:integer+ } }", "<a>1 x</a>"), wrong)

    def test_elements_that_are_empty(self):
        self.assertEqual(self.message("element a { list { xsd:integer+ } }", "<a/>"), "<a> ends too early: expected xsd:integer")
        self.assertEqual(self.message("element a { list { xsd:integer+ } }", "<a> </a>"), "<a> ends too early: expected xsd:integer")
        self.assertEqual(self.message("element a { list { xsd:integer+ } | list { xsd:date } }", "<a/>"), "<a> ends too early: expected xsd:date or xsd:integer")
        self.assertEqual(self.message("element a { list { xsd:integer } | element b { empty } }", "<a/>"), "<a> ends too early: expected <b>")

    def test_many_are_expected(self):
        values = " | ".join(f'"v{it:02}"' for it in range(20))
        self.assertEqual(self.message(f"element a {{ list {{ ({values})+ }} }}", "<a>v01 v20</a>"),
                         ': "v20" is not allowed here; expected "v00", "v01", "v02", "v03", "v04", "v05", "v06", "v07" and 12 more)')

    def test_limits(self):
        """Of a text in an element 512 bytes are kept, and an attribute may have 1 MiB."""
        listed = "element a { attribute v { list { xsd:integer+ } }?, list { xsd:integer+ } }"
        self.assertEqual(self.message(listed, f"<a>{'1 ' * 200}x {'1 ' * 200}</a>"), ': "x" is not allowed here; expected xsd:integer)')
        self.assertEqual(self.message(listed, f"<a>{'1 ' * 254}xyz {'1 ' * 200}</a>"), ': "xyz" is not allowed here; expected xsd:integer)')
        self.assertEqual(self.message(listed, f"<a>{'1 ' * 254}xyzz{'1 ' * 200}</a>"), ")")
        self.assertEqual(self.message("element a { list { xsd:integer+, xsd:date } }", f"<a>{'1 ' * 400}</a>"), ")")
        self.assertEqual(self.message(listed, f"<a v='{'1 ' * 500_000}x'>1</a>"), ': "x" is not allowed here; expected xsd:integer)')
        self.assertEqual(self.message(listed, f"<a v='{'1 ' * 530_000}x'>1</a>"), ")")

    def test_large_lists(self):
        """The schema of the lists has 64 KiB, and 1,000 elements for tokens."""
        for count, end, said in ((2000, "", ': "x" is not allowed here; expected'), (4000, "", ")"), (400, ', "y"', ': "x" is not allowed here; expected'),
                                 (600, ', "y"', ")")):
            values = [f'("v{it:05}"{end})' for it in range(count)]
            choices = " | ".join("(" + " | ".join(values[begin:begin + 500]) + ")" for begin in range(0, count, 500))
            self.assertTrue(self.message(f"element a {{ list {{ ({choices})+ }} }}", "<a>x</a>").startswith(said), (count, end))

    def test_signs(self):
        integers = "element a { attribute v { list { xsd:integer+ } } }"
        for token, said in (("&quot;", r'"\""'), ("&#xe9;", '"\u00e9"'), ("&amp;", '"&"'), ("'", '"\'"'), ("1&#xA0;2", '"1\u00a02"'), ("x&#13;3&#9;4", '"x"')):
            self.assertEqual(self.message(integers, f'<a v="1 {token} 2"/>'), f": {said} is not allowed here; expected xsd:integer)")

    def test_json(self):
        self.message("element a { element b { list { xsd:integer, xsd:integer } }+ }", "<a><b>1 x</b><b>1 2 3</b><b>1</b><b/></a>")
        out, _ = self.judge("--format", "json", "t.rnc", "d.xml")
        first = json.loads(out)
        self.assertEqual([(it["reason"], it.get("token"), it.get("expected")) for it in (first, *first["hints"])],
                         [("text-value", "x", None), ("text-value", "3", None), ("text-value", None, None), ("incomplete", None, ["text"])])
        self.assertEqual([it["message"].partition(" (")[2] for it in first["hints"]], ['"1 2 3": "3" is not allowed here; expected the end of the list)',
                                                                                      '"1": it ends too early; expected xsd:integer)', ""])

    def test_the_profile(self):
        self.assertEqual(self.message("element a { list { xsd:integer+ } }", "<a>1 x</a>", "--datatypes", "profile"),
                         ': "x" is not allowed here; expected xsd:integer)')

    def test_time(self):
        """It grows with the tokens."""
        spent = [processor_seconds()]
        for count in (50_000, 400_000):
            self.message("element a { attribute v { list { (xsd:integer* | (xsd:integer*, xsd:boolean))+ } } }", f"<a v='{'1 ' * count}x'/>")
            spent.append(processor_seconds())
        self.assertLess(spent[2] - spent[1], 20 * (spent[1] - spent[0]) + 1)


if __name__ == "__main__":
    parser = argparse.ArgumentParser(description="Tests of what is said of lists.")
    parser.add_argument("--count", type=int, default=USUAL)
    RandomLists.count, words = (lambda given: (given[0].count, given[1]))(parser.parse_known_args())
    unittest.main(argv=[sys.argv[0], *words])
