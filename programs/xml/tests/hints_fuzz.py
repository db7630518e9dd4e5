#!/usr/bin/env python3
"""Random schemas for the hints of `rncv-xml`:   programs/xml/tests/hints_fuzz.py [SECONDS [SEED]]

It needs a C compiler with sanitizers, and the library (RNCV_LIBRARY, by default build/library). It makes schemas in many written forms, with mutants of their
tokens, schemas of datatypes, and sequences of random tokens. The library says which clause is the first one that is broken. Then these must hold:

- no clause before that one has a hint, and a schema that breaks none has no hint at all;
- a schema without annotations that breaks S12 has a hint about it; in a schema of datatypes it is where the library finds the first one, or at a parameter of
  that one;
- whatever the files are, each hint is a place in them, and the sanitizers say nothing.

It is not in the gate. The same seed gives the same schemas. With FUZZ_TOLD set it prints what the hints about schemas of datatypes say, and how often.
"""
import collections
import ctypes
import os
import pathlib
import random
import re
import subprocess
import sys
import tempfile
import time

HERE = pathlib.Path(__file__).resolve().parent
TOP = HERE.parents[2]
LIBRARY = pathlib.Path(os.environ.get("RNCV_LIBRARY", TOP / "build/library")) / "lib/librncv.so"
SOURCES = [next(HERE.parent.glob(f"src/*/{name}.c")) for name in (
    "schema_hints", "schema_restrictions", "schema_words", "schema_types", "schema_asked", "schema_grammars", "schema_tree", "schema_annotations", "annotation_names",
    "schema_tokens", "xml_names", "origins", "paths", "bytes")]
# What finds out how a file is written needs the parser of XML. It is not called here.
STUBS = """
#include "conversion.h"
void convert(const struct byte_source *source, const struct pyx_sink *sink, struct fault *fault) { (void)source; (void)sink; (void)fault; }
void fault_free(struct fault *fault) { (void)fault; }
"""
CLAUSES = range(9, 28)
BACKSLASH = "\\"
TOKEN = re.compile(r'"""(?:.|\n)*?"""|"[^"\n]*"|\'[^\'\n]*\'|[A-Za-z_][\w.:*-]*|\|=|&=|[^\s]|\s+')
PIECES = ("empty|text|notAllowed|string|token|xsd:integer|\"v\"|element q { text }|attribute x { text }|attribute * { text }|list { token }|(empty, text)|"
          "mixed { empty }|xsd:date|x|y|parent x|grammar { start = text }|string - \"a\"|element * { text }|xsd:int \"1\"|text?|attribute y { text }*").split("|")
LENGTHS, BOUNDS = "length minLength maxLength", "minInclusive maxInclusive minExclusive maxExclusive"
FACETS = f"{LENGTHS} {BOUNDS} totalDigits fractionDigits pattern".split(" ")
NUMBERS = ["0", "1", "-1", "+5", "05", " 6 ", "100", "127", "128", "-128", "-129", "255", "256", "18446744073709551616", "9223372036854775807",
           "9223372036854775808", "1" * 39, "", "x", "5 6", "1.0"]
TEXTS = ["a", "a b", " a", "a:b", ":a", "a:b:c", "-a", "de-AT", "de-", "abcdefghi", "true", "\u00e9", "\\x{10000}", "0-a"]
MOMENTS = ["", "Z", "+14:00", "-00:01", "-14:01"]
TIMES = ["00:00:00", "12:00:00.5", "24:00:00", "24:00:01", "23:59:60"]
DAYS = ["2000-01-01", "2000-02-29", "2001-02-29", "-0001-12-31", "0000-01-01", "12000-06-15", "2000-1-1", "2000-13-01"]
# The datatypes of XML Schema, and one that is none: each with the parameters that it takes, and texts that are values of it, or nearly.
TYPES = {
    **dict.fromkeys("string normalizedString token language Name NCName NMTOKEN NMTOKENS ID IDREF IDREFS ENTITY ENTITIES anyURI".split(" "), (LENGTHS, TEXTS)),
    **dict.fromkeys("boolean QName NOTATION dates".split(" "), ("pattern", TEXTS)),
    **dict.fromkeys(("integer nonPositiveInteger negativeInteger long int short byte nonNegativeInteger unsignedLong unsignedInt unsignedShort unsignedByte "
                     "positiveInteger").split(" "), (f"{BOUNDS} totalDigits fractionDigits", NUMBERS)),
    "decimal": (f"{BOUNDS} totalDigits fractionDigits", [*NUMBERS, ".5", "-0.50", "1.", "+01.0", ".", "1e1", "-.0"]),
    **dict.fromkeys(("float", "double"), (BOUNDS, [*NUMBERS, ".5", "-0", "1e400", "1E-400", "-1e39", "INF", "-INF", "NaN", "+INF", "1e", "16777217", "16777216"])),
    "duration": (BOUNDS, ["P1M", "P30D", "P28D", "P31D", "P1Y", "P12M", "-P1M", "PT0S", "-PT0S", "P", "P1MT", "PT1.5S", "P1YT1H1M1S", "P1S", "PT36H", " P1D "]),
    "dateTime": (BOUNDS, [f"{day}T{time}{zone}" for day in DAYS[:5] for time in TIMES for zone in MOMENTS]),
    "time": (BOUNDS, [time + zone for time in TIMES for zone in MOMENTS]),
    "date": (BOUNDS, [day + zone for day in DAYS for zone in MOMENTS]),
    "gYearMonth": (BOUNDS, [day[:-3] + zone for day in DAYS for zone in MOMENTS]),
    "gYear": (BOUNDS, [day[:-6] + zone for day in DAYS for zone in MOMENTS]),
    "gMonthDay": (BOUNDS, [f"-{day[-6:]}{zone}" for day in DAYS for zone in MOMENTS]),
    "gDay": (BOUNDS, [f"--{day[-3:]}{zone}" for day in [*DAYS, "-31", "-32", "-00"] for zone in MOMENTS]),
    "gMonth": (BOUNDS, [f"-{day[-6:-3]}{zone}" for day in DAYS for zone in MOMENTS]),
    "hexBinary": (LENGTHS, ["", "0a", "0A", "F", "0g", " FF00 ", "F F"]),
    "base64Binary": (LENGTHS, ["", "TQ==", "T Q = =", "TR==", "TWE=", "TWF=", "TWFu", "TQ", "=", "TWFuTQ=="]),
}
PATTERNS = [".*", "[a-c]+", "(", "[", "a{2,1}", "\\x{5C}d+", "\\x{5C}", "\\x{5C}p{L}*", "\\x{5C}p{None}", "(a{60}){60}", "(a{70}){70}", "'", "a\\x{A}b"]
WORDS = ("attribute default datatypes div element empty external grammar include inherit list mixed namespace notAllowed parent start string text token a b c "
         "p:a p:* xsd:integer \\a { { } } ( ( ) ) , | & = |= &= - ? * + ~ [ ] >> # \" 'b.rnc' \"s.rnc\" \\x{61} \u00e9 \x01").split(" ")
sys.path.insert(0, str(TOP / "dev/search/fuzz"))
import schemas  # noqa: E402
import writing  # noqa: E402


class File(ctypes.Structure):
    _fields_ = [("name", ctypes.c_char_p), ("name_length", ctypes.c_size_t), ("bytes", ctypes.c_char_p), ("length", ctypes.c_size_t),
                ("shown", ctypes.c_char_p), ("origins", ctypes.c_void_p)]


class Hint(ctypes.Structure):
    _fields_ = [("file", ctypes.c_uint64), ("line", ctypes.c_uint64), ("column", ctypes.c_uint64), ("text", ctypes.c_char * 512)]


class LibraryFile(ctypes.Structure):
    _fields_ = File._fields_[:4]


class Fault(ctypes.Structure):
    _fields_ = [("clause", ctypes.c_int32), ("file", ctypes.c_int64), ("offset", ctypes.c_int64), ("line", ctypes.c_int64), ("column", ctypes.c_int64)]


class Bench:
    """The hints and the library."""

    def __init__(self, hints):
        self.hints, self.library = ctypes.CDLL(hints), ctypes.CDLL(str(LIBRARY))

    def hint(self, files, clause, datatypes):
        """The hint about a clause, with a set of datatypes, or None. Its place has to be in the file."""
        array, hint = (File * len(files))(*(File(name, len(name), text, len(text), name) for name, text in files)), Hint()
        if not self.hints.schema_hint_find(array, ctypes.c_size_t(len(files)), clause, ctypes.c_uint32(datatypes), ctypes.byref(hint)):
            return None
        lines = re.split(b"\r\n|\r|\n", files[hint.file][1])
        assert hint.line <= len(lines) and 0 < hint.column <= len(lines[hint.line - 1]) + 1 and hint.text.decode(), (files, clause, hint.line, hint.column)
        return hint.line, hint.column, hint.text.decode()

    def clause(self, files, datatypes):
        """The clause that the files break with a set of datatypes; 0: none."""
        array = (LibraryFile * len(files))(*(LibraryFile(name, len(name), text, len(text)) for name, text in files))
        schema, fault = ctypes.c_void_p(None), Fault()
        status = self.library.rncv_compile_with(array, ctypes.c_size_t(len(files)), ctypes.c_uint32(datatypes), ctypes.byref(schema), ctypes.byref(fault))
        self.library.rncv_schema_free(ctypes.byref(schema))
        return fault.clause if status == 1 else 0

    def datatype(self, text, datatypes):
        """Where a file has its first datatype that breaks S12."""
        place = Fault()
        status = self.library.rncv_datatype_place(text, ctypes.c_size_t(len(text)), ctypes.c_uint32(datatypes), ctypes.byref(place))
        return (place.line, place.column) if status == 0 else None


def datatype(chance):
    """A datatype of XML Schema with parameters, or with a value."""
    name = chance.choice(list(TYPES))
    own, texts = TYPES[name]
    if chance.random() < 0.3:
        return f'xsd:{name} "{chance.choice(texts if chance.random() < 0.8 else NUMBERS + TEXTS)}"'
    facets = []
    for _ in range(chance.choice([0, 1, 1, 2, 2, 3])):
        facet = chance.choice(own.split(" ") if chance.random() < 0.9 else FACETS)
        values = PATTERNS if facet == "pattern" else texts if facet in BOUNDS else NUMBERS
        facets.append(f'{chance.choice(["", "", "", BACKSLASH])}{facet} = "{chance.choice(values if chance.random() < 0.95 else NUMBERS + TEXTS)}"')
    return f"xsd:{name} {{ {' '.join(facets)} }}" if facets else f"xsd:{name}"


def mutant(text, chance):
    """The text with some tokens changed."""
    tokens = TOKEN.findall(text) or [""]
    for _ in range(chance.choice([1, 1, 1, 2, 3])):
        at = chance.randrange(len(tokens))
        same = next((signs for signs in (",&|", "?*+", ("=", "|=", "&=")) if tokens[at] and tokens[at] in signs), None)
        words = [token for token in tokens if re.match("[a-z]", token)]
        changes = [chance.choice(PIECES), datatype(chance), chance.choice(words or [""]), f"{tokens[at]} {chance.choice(',&|')} {chance.choice(PIECES)} ",
                   tokens[at] + chance.choice("+*?")]
        tokens[at] = chance.choice(same) if same else chance.choice(changes)
    return "".join(tokens)


def written(chance):
    """The files of a random schema, and mutants of them."""
    schema = schemas.Maker(random.Random(chance.random()), wild=chance.random() < 0.6).schema()
    features = [it for it in (*writing.FEATURES, writing.ORDER) if chance.random() < 0.6]
    files = [(name.encode(), text.encode()) for name, text in writing.written(schema, chance.randrange(10 ** 6), features)]
    yield files
    for _ in range(6):
        at = chance.randrange(len(files))
        yield [*files[:at], (files[at][0], mutant(files[at][1].decode(), chance).encode()), *files[at + 1:]]


def typed(chance):
    """A schema of some datatypes, each on a line."""
    return ("start = element a {\n" + " |\n".join(datatype(chance) for _ in range(chance.choice([1, 1, 1, 2, 3]))) + "\n}").encode()


def odd(chance):
    """Files of random tokens."""
    names = chance.sample([b"s.rnc", b"b.rnc", b"c.rnc"], chance.choice([1, 2, 3]))
    return [(name, " ".join(chance.choice(WORDS) for _ in range(chance.randrange(60))).encode()) for name in names]


def run(bench, seconds, seed):
    """Prints how many schemas break each clause and how many of these have a hint. Returns the status."""
    chance, end = random.Random(seed), time.monotonic() + seconds
    broken, hinted, placed, told, wrong = *(collections.Counter() for _ in range(4)), 0
    while time.monotonic() < end:
        for clause in (1, *CLAUSES):
            bench.hint(odd(chance), clause, chance.randrange(2))
        for _ in range(200):
            text, datatypes = typed(chance), chance.choice([0, 1, 1, 1])
            place, hint = bench.datatype(text, datatypes), bench.hint([(b"s.rnc", text)], 12, datatypes)
            placed[bool(place)] += 1
            told[re.sub(r"'.*?'|xsd:\w+", "..", hint[2]) if hint else "-"] += 1
            if (place or (0,))[0] != (hint or (0,))[0] or (place and place[1] > hint[1]):
                wrong += 1
                print(f"S12 is broken at {place}, and the hint is {hint}, with the set {datatypes}: {text.decode()}")
        for files in written(chance):
            datatypes = chance.randrange(2)
            clause = bench.clause(files, datatypes)
            broken[clause] += 1
            hint = bench.hint(files, clause, datatypes) if clause in CLAUSES else None
            hinted[clause] += hint is not None
            # the library looks for the end of an annotation alone; rncv-xml reports what is wrong inside as S6, and there is no hint
            if clause == 12 and hint is None and not any(b"[" in text for _, text in files):
                wrong += 1
                print(f"S12 is broken, and there is no hint, with the set {datatypes}: {files}")
            for before in CLAUSES if clause == 0 else range(9, clause):
                hint = bench.hint(files, before, datatypes)
                if hint:
                    wrong += 1
                    print(f"S{before} is not broken (S{clause} is), with the set {datatypes}: {hint} in {files}")
    print(", ".join(f"S{clause}: {hinted[clause]} of {broken[clause]}" for clause in sorted(broken) if clause in CLAUSES),
          f"schemas of datatypes: {placed[True]} break S12, and {placed[False]} do not", f"{wrong} wrong hints", sep="; ")
    if "FUZZ_TOLD" in os.environ:
        print("\n".join(f"{count} {what}" for what, count in told.most_common()))
    return 1 if wrong else 0


def begin(script, sources, work):
    """Builds the sources with the sanitizers, and begins again with those loaded. Then `work` gets the built file, the seconds and the seed."""
    seconds, seed = float(sys.argv[1]) if len(sys.argv) > 1 else 60, int(sys.argv[2]) if len(sys.argv) > 2 else 1
    if "FUZZ_BUILT" in os.environ:
        return work(os.environ["FUZZ_BUILT"], seconds, seed)
    with tempfile.TemporaryDirectory() as room:
        compiler, built, stubs = os.environ.get("CC", "cc"), f"{room}/built.so", pathlib.Path(room, "stubs.c")
        stubs.write_text(STUBS)
        subprocess.run([compiler, "-std=c17", "-D_XOPEN_SOURCE=700", "-g", "-O1", "-fPIC", "-shared", "-fsanitize=address,undefined",
                        "-fno-sanitize-recover=all", *(f"-I{it}" for it in HERE.parent.glob("src/*")), f"-I{LIBRARY.parents[1] / 'include'}", "-o", built, *sources, stubs,
                        f"-L{LIBRARY.parent}", f"-Wl,-rpath,{LIBRARY.parent}", "-lrncv"], check=True)
        loaded = subprocess.run([compiler, "-print-file-name=libasan.so"], capture_output=True, text=True, check=True).stdout.strip()
        environment = {**os.environ, "FUZZ_BUILT": built, "LD_PRELOAD": loaded, "ASAN_OPTIONS": "detect_leaks=0"}
        return subprocess.run([sys.executable, "-B", script, str(seconds), str(seed)], env=environment, check=False).returncode


if __name__ == "__main__":
    sys.exit(begin(__file__, SOURCES, lambda built, seconds, seed: run(Bench(built), seconds, seed)))
