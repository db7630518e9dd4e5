"""Writes the rows of `rnc_grammar_cases` with their answers, and how many there are, into its folder. run.sh says more."""
import os
import random
import re
import sys

from productions import judged
from sentences import Sentence
from worked import cases

OTHERS = "x \\start xml:lang xml:* 'a' element empty grammar include inherit namespace parent start string = , | * - { } ( ) [ ] ~".split()


MENTION = re.compile(r'(External|Include)\(Mention { href: ("(?:[^"\\]|\\.)*"), namespace: (?:Inherited|Given\("(?:[^"\\]|\\.)*"\)), token: (\d+) }(?:, )?')


def members(printed):
    """The number of members of the list at the beginning of this text."""
    depth, count, quoted, before = 0, 0, False, ""
    for it in printed:
        quoted ^= it == '"' and before != "\\"
        if not quoted:
            depth += (it in "([{") - (it in ")]}")
            count += depth == 1 and it == ","
        before = it if before != "\\" else ""
        if not depth:
            break
    return 0 if printed.startswith("[]") else count + 1


def components_of(printed):
    """The number of components if a file with this printed tree is a grammar, else None."""
    inner = printed.removeprefix("Pattern(").removesuffix(")") if printed.startswith("Pattern(Grammar(") else printed
    return members(inner[len("Grammar(") :]) if inner.startswith("Grammar([") else None


def mentions(printed):
    """The files that a file with this printed tree mentions, as the program prints them. An include has the number of components in its braces."""
    for it in MENTION.finditer(printed):
        kind, href, token = it.groups()
        yield f" external {href} at {token}" if kind == "External" else f" include {href} at {token} over {members(printed[it.end() :])}"


def answer(printed):
    """What the program prints for a file with this printed tree, or for one that breaks this clause."""
    if printed.startswith("clause"):
        return printed
    count = components_of(printed)
    grammar = "" if count is None else f" is a grammar of {count}"
    return "".join([printed, grammar, *mentions(printed)])


def field(text):
    """A field of a row."""
    return text.replace("%", "%25").replace("\t", "%09")


def row(text, wanted):
    """The row of a text with its answer. An empty text is written as a space, which is not a token."""
    return f"{field(text) or '%20'}\t= {field(wanted)}\n"


def sentences(count):
    """Different random sentences with their printed trees. All are made without annotations, and half of them also with annotations."""
    made = {}
    for seed in range(count):
        for annotated in (0,) if seed % 2 else (0, 3):
            sentence = Sentence(seed, annotated)
            tree = sentence.file(seed % 4 + 1)
            made.setdefault(" ".join(sentence.words), tree)
    return made


def neighbors(words, choice):
    """The words themselves, and at each place with one word dropped, doubled, or replaced by another."""
    yield words
    for place in range(len(words)):
        front, back = words[:place], words[place + 1 :]
        yield front + back
        yield [*front, words[place], words[place], *back]
        yield [*front, choice.choice(OTHERS), *back]


def beside(count):
    """Texts that differ from short random sentences in one token, with the judgement of the productions."""
    made, choice = {}, random.Random(0)
    for seed in range(count):
        sentence = Sentence(1_000_000 + seed, seed % 2 and 4)
        sentence.file(2)
        if len(sentence.words) <= 28:
            for words in neighbors(sentence.words, choice):
                made.setdefault(" ".join(words), judged(words))
    return made


def main(folder):
    parts = {
        "worked.txt": {text: answer(wanted) for text, wanted in cases()},
        "sentences.txt": {text: answer(tree) for text, tree in sentences(400).items() if text},
        "neighbors.txt": {text: verdict for text, verdict in beside(150).items() if text},
    }
    os.makedirs(f"{folder}/data", exist_ok=True)
    with open(f"{folder}/stdout", "w", encoding="utf-8") as stdout:
        for name, rows in parts.items():
            with open(f"{folder}/data/{name}", "w", encoding="utf-8") as data:
                data.writelines(row(text, wanted) for text, wanted in rows.items())
            stdout.write(f"{name}: {len(rows)} rows\n")


main(sys.argv[1])
