#!/usr/bin/env python3
"""Random files for the blanks over annotations of `rncv-xml`:   programs/xml/tests/annotations_fuzz.py [SECONDS [SEED]]

It needs a C compiler with sanitizers, and the library (RNCV_LIBRARY, by default build/library). It makes schemas in many written forms, puts annotations
among their tokens, and makes sequences of random tokens and bytes. Then these must hold:

- the length and the line ends stay, each changed byte is a blank but one `]`, and a second call changes nothing;
- a file without a bracket stays as it is, and so does one that is a sentence for the library, but one with a name in an annotation that may not be there, which
  becomes none;
- with annotations where the grammar has them, a schema breaks the clause that it breaks without them;
- the sanitizers say nothing.

It is not in the gate. The same seed gives the same files.
"""
import collections
import ctypes
import random
import sys
import time

from hints_fuzz import HERE, TOKEN, WORDS, Bench, begin, mutant, schemas, writing, written

SOURCES = [next(HERE.parent.glob(f"src/*/{name}.c")) for name in ("schema_annotations", "annotation_names", "schema_tokens", "xml_names", "paths", "bytes")]
ELEMENTS = ["xml:b [ ]", "b []", "xml:b [ c = 'd' ]", "\\b [ xml:c = \"\u00e9\" ~ 'x' 'text' ~ '' d [ element [ e = '1' ] ] '[' ]",
            "xml:b [\r\n# ]\n'\u20ac' ]", "xml:b\\x{20}\\x{5B} \"\"\"]\n\"\"\" ]"]
NOT_ELEMENTS = [">> a:b", "a:b [", "]", "[ ]", ">>", "a:b [ c d ]", "a:b [ 'c' d = 'e' ]", "> > a:b [ ]", "[ c = '' ]", "[ a:b = '' ]", "\\b [ c = '' c = '' ]",
                "[ xml:b = '' xml:b = '' ]", "\x01", "\\x{1}", "\\x{0}", "a:* [ ]"]
SIGNS = ("[ ] [ ] >> >> a:b b 'c' \"\"\" ''' ~ = \\x{5B} \\x{5D} \\x{3E} \\x{A} \\xx{41} \\x{ # \r\n \n \r \u00e9 \u20ac \ufeff \U0001F600 - ( ) { } | , & * "
         "?").split(" ")


class Annotations(ctypes.Structure):
    """What the function in C has found."""

    _fields_ = [("is_changed", ctypes.c_bool), ("fault", ctypes.c_char_p), ("at", ctypes.c_size_t)]


class Blanks:
    """The function in C. The bytes have a room of exactly their length."""

    def __init__(self, built):
        self.call, self.system = ctypes.CDLL(built).annotations_blank, ctypes.CDLL(None)
        self.call.restype, self.call.argtypes = ctypes.c_bool, [ctypes.c_void_p, ctypes.c_size_t, ctypes.c_void_p]
        self.system.malloc.restype, self.system.malloc.argtypes = ctypes.c_void_p, [ctypes.c_size_t]
        self.system.free.argtypes = [ctypes.c_void_p]

    def once(self, text):
        room, found = self.system.malloc(len(text)), Annotations()
        ctypes.memmove(room, text, len(text))
        assert self.call(room, len(text), ctypes.byref(found)), "out of memory"
        blanked = ctypes.string_at(room, len(text))
        self.system.free(room)
        assert found.is_changed or blanked == text, text
        assert found.fault is None or blanked[found.at:].strip() == b"]", (text, blanked)
        return blanked

    def of(self, text):
        """The text with its blanks, after a look at what must hold for each text."""
        blanked = self.once(text)
        pairs = [(one, other) for one, other in zip(text, blanked) if one != other]
        assert all(other in b" ]" and one not in b"\r\n" for one, other in pairs) and sum(other == ord("]") for _, other in pairs) <= 1, (text, blanked)
        assert self.once(blanked) == blanked, (text, blanked)
        assert b"[" in text or b"\\" in text or blanked == text, text
        return blanked


def annotated(text, chance):
    """A text with annotations among its tokens."""
    tokens = TOKEN.findall(text)
    for _ in range(chance.choice([1, 1, 2, 4])):
        element = chance.choice(ELEMENTS)
        tokens.insert(chance.randrange(len(tokens) + 1), f" {chance.choice([element, '>> ' + element, chance.choice(NOT_ELEMENTS)])} ")
    return "".join(tokens)


def odd(chance):
    """Random tokens, and a few random bytes."""
    words = [chance.choice([*WORDS, *SIGNS, *ELEMENTS]) for _ in range(chance.randrange(60))]
    text = chance.choice(["", " "]).join(words).encode()
    for _ in range(chance.choice([0, 0, 0, 1, 3])):
        at = chance.randrange(len(text) + 1)
        text = text[:at] + bytes([chance.randrange(256)]) + text[at + 1:]
    return text


def plain(chance):
    """The files of a random schema, whose tokens are found easily."""
    schema = schemas.Maker(random.Random(chance.random()), wild=chance.random() < 0.6).schema()
    features = [it for it in (*writing.FEATURES, writing.ORDER) if it not in ("comments", "annotations", "escapes") and chance.random() < 0.6]
    return [(name.encode(), text.encode()) for name, text in writing.written(schema, chance.randrange(10 ** 6), features)]


def well_annotated(text, chance):
    """The text with annotations at some places that the grammar has for them: before a start, and behind a pattern that is alone in braces."""
    tokens = TOKEN.findall(text)
    solid = [at for at, token in enumerate(tokens) if not token.isspace()]
    for before, at, after in reversed(list(zip([None, *solid], solid, solid[1:]))):
        if tokens[at] == "start" and tokens[after] in ("=", "|=", "&=", "|", "&") and (before is None or tokens[before] != "\\") and chance.random() < 0.7:
            tokens.insert(at, f" {chance.choice(ELEMENTS)} {chance.choice(['', '[ ] '])}")
        if before is not None and tokens[before] == "{" and tokens[at] in ("text", "empty", "notAllowed") and tokens[after] == "}" and chance.random() < 0.7:
            tokens.insert(at + 1, "".join(f" >> {chance.choice(ELEMENTS)} " for _ in range(chance.choice([1, 1, 2]))))
    return "".join(tokens)


def run(blanks, bench, seconds, seed):
    """Prints how many files were changed. Returns the status."""
    chance, end, counts = random.Random(seed), time.monotonic() + seconds, collections.Counter()
    while time.monotonic() < end:
        for _ in range(20):
            text = odd(chance)
            counts["odd"] += 1
            counts["odd and changed"] += blanks.of(text) != text
        for files in written(chance):
            clause, texts = bench.clause(files), [text for _, text in files]
            blanked = [blanks.of(text) for text in texts]
            others = [(name, other) for (name, _), other in zip(files, blanked)]
            assert clause in range(2, 8) or blanked == texts or bench.clause(others) == 6, files
            counts["sentences" if blanked == texts else "changed"] += 1
            for name, text in files:
                other = annotated(text.decode(), chance)
                other = mutant(other, chance) if chance.random() < 0.3 else other
                counts["annotated"] += 1
                counts["annotated and taken"] += bench.clause([(name, blanks.of(other.encode()))]) not in range(2, 8)
        files = plain(chance)
        others = [(name, well_annotated(text.decode(), chance).encode()) for name, text in files]
        assert bench.clause([(name, blanks.of(text)) for name, text in others]) == bench.clause(files), others
        counts["well annotated"] += others != files
    print(", ".join(f"{name}: {count}" for name, count in sorted(counts.items())))
    return 0


if __name__ == "__main__":
    sys.exit(begin(__file__, SOURCES, lambda built, seconds, seed: run(Blanks(built), Bench(built), seconds, seed)))
