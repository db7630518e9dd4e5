#!/usr/bin/env python3
"""Compares how `rncv-xml` and jing check IDs, over random schemas and documents:   dev/search/fuzz/ids_run.py [--count N] [--seed S]

A schema uses the datatypes ID, IDREF and IDREFS. `rncv-profile` writes a copy, and `rncv-xml` judges the documents by it. jing judges them by the schema
itself. Both have to find the same documents valid. Where jing says that RELAX NG DTD Compatibility does not allow the schema, `rncv-xml` has to have a note
that says so, and its verdicts have to be those of `jing -i`, which checks no IDs. It needs jing.
"""
import argparse
import json
import pathlib
import random
import re
import subprocess
import sys
import tempfile

TOP = pathlib.Path(__file__).resolve().parents[3]
PROFILE = TOP / "programs/profile/rncv-profile"
HEAD = ('datatypes d = "http://relaxng.org/ns/compatibility/datatypes/1.0"\nnamespace n = "urn:n"\nnamespace m = "urn:m"\n')
TYPES = ["xsd:ID", "xsd:IDREF", "xsd:IDREFS", "d:ID", "d:IDREF", "d:IDREFS", "xsd:ID { maxLength = \"3\" }", "xsd:IDREF { minLength = \"1\" }", "text",
         "xsd:NCName", 'xsd:anyURI { minLength = "0000001" }', 'xsd:NCName { minLength = "000000001" pattern = "[ia-z0-9]*" }', "xsd:token", 'xsd:NCName { minLength = "000000001" }', 'xsd:token { minLength = "0000001" }', "notAllowed"]
ODD = ['xsd:ID "i1"', 'd:IDREF "i2"', "xsd:ID | xsd:IDREF", 'xsd:ID - "i9"', "list { xsd:ID }", "list { xsd:IDREF+ }", "xsd:ID | empty",
       'xsd:NCName - xsd:ID "i3"',
       'xsd:anyURI "\\x{A}i1"', 'xsd:NCName "\\x{A}i1"', "list { xsd:NCName+ }", 'xsd:IDREFS "i1 i2"']
NAMES = ["id", "ref", "refs", "n:id", "xml:id"]
MINE = {"id": ["xsd:ID", "d:ID"], "ref": ["xsd:IDREF", "d:IDREF"], "refs": ["xsd:IDREFS", "d:IDREFS"], "n:id": ["xsd:ID"], "xml:id": ["xsd:ID"]}
CLASSES = ["a", "b", "c", "n:a", "a | b", "(c | n:b) | d", "*", "* - (a | b)", "n:*", "n:* - n:a"]
STARRED = ["*", "* - (id | ref | refs)", "* - id", "n:*", "n:* - n:id", "m:*"]
VALUES = ["i1", "i2", "i3", " i1 ", "i2 i3", "i1\ti1", "", "i4", "i1 i4", "&#x69;1", "i5&#10;i1"]
KNOWN = re.compile(r"ID-type")


def attribute(source, name):
    odds = source.random()
    kind = source.choice(MINE[name]) if odds < 0.8 else source.choice(TYPES) if odds < 0.95 else source.choice(ODD)
    names = name if source.random() < 0.97 else f"{name} | x{name.replace(':', '')}"
    return f"attribute {names} {{ {kind} }}" + source.choice(["", "?", "?", "?"])


def element(source, number):
    parts = [attribute(source, name) for name in source.sample(NAMES, source.randint(0, 3))]
    if source.random() < 0.25:
        parts.append(f"attribute {source.choice(STARRED)} {{ text }}*")
    if source.random() < 0.1:
        parts.append("common")
    inside = " | ".join(f"e{source.randrange(5)}" for _ in range(source.randint(0, 3)))
    parts.append(f"({inside})*" if inside else source.choice(["empty", "text", "xsd:token", "xsd:ID"] if source.random() < 0.2 else ["empty", "text"]))
    source.shuffle(parts)
    kind = source.choice(CLASSES[:4]) if source.random() < 0.85 else source.choice(CLASSES)
    return f"e{number} = element {kind} {{ {source.choice([', ', ' & ']).join(parts)} }}"


def plain_element(source, number):
    """An element that takes nearly all that a document has."""
    parts = [f"attribute {name} {{ {source.choice(MINE[name])} }}?" for name in NAMES]
    name = ["a", "b | d", "c", "n:a", "n:b"][number]
    return f"e{number} = element {name} {{ {', '.join(parts)}, (e0 | e1 | e2 | e3 | e4)* }}"


def schema(source):
    make = plain_element if source.random() < 0.4 else element
    lines = [make(source, number) for number in range(5)]
    return HEAD + "start = element r { (e0 | e1 | e2 | e3 | e4)* }\n" + "\n".join(lines) + f"\ncommon = {attribute(source, source.choice(NAMES))}\n"


def value_for(source, attribute):
    """A value that is mostly right."""
    one = f"i{source.randrange(30)}" if attribute in ("id", "n:id", "p:id", "xml:id") else f"i{source.randrange(8)}"
    return f"{one} i{source.randrange(8)}" if attribute == "refs" else one


def document(source):
    """A document that has good chances with the schemas."""
    def tag(depth):
        name = source.choice(["a", "b", "c", "n:a", "p:a", "d", "n:b"])
        names = source.sample([source.choice(["p:id", "n:id"]), *(name for name in NAMES if name != "n:id")], source.choice([0, 1, 1, 1, 2]))
        words = [f'{each}="{source.choice(VALUES) if source.random() < 0.4 else value_for(source, each)}"' for each in names]
        if source.random() < 0.1:
            words.append(source.choice(['xmlns="urn:n"', 'xmlns:n="urn:m"', 'xmlns:p="urn:n"', 'xmlns:p="urn:m"']))
        inside = "".join(tag(depth + 1) for _ in range(source.choice([0, 0, 1, 2]) if depth < 3 else 0))
        return f"<{' '.join([name, *words])}>{inside}</{name}>\n"
    return '<r xmlns:n="urn:n" xmlns:p="urn:n">\n' + "".join(tag(0) for _ in range(source.randint(1, 4))) + "</r>\n"


def jing(words, folder):
    """The names of the documents that are not valid, and what jing says about the schema."""
    run = subprocess.run(["jing", "-c", *words], cwd=folder, capture_output=True, text=True, check=False, timeout=100)
    lines = [line for line in run.stdout.splitlines() if line]
    told = [line for line in lines if re.match(r"[^:]*s\.rnc:", line) or " fatal: " in line or "error:" not in line]
    bad = {pathlib.Path(line.split(":")[0]).name for line in lines if line not in told}
    return bad, "\n".join(told) + run.stderr


def judge(program, folder, count):
    """What is wrong, and what kind of schema it was."""
    names = [f"d{number}.xml" for number in range(count)]
    bad, told = jing(["s.rnc", *names], folder)
    if told and not KNOWN.search(told):
        return None, "refused"
    if told:
        bad, _ = jing(["-i", "s.rnc", *names], folder)
    subprocess.run([PROFILE, "--write", "copy", "s.rnc"], cwd=folder, capture_output=True, check=False)
    run = subprocess.run([program, "--format", "json", "copy/s.rnc", *names], cwd=folder, capture_output=True, text=True, check=False, timeout=100)
    if run.returncode not in (0, 1):
        return f"status {run.returncode}: {run.stdout[:1000]}{run.stderr[-2000:]}", ""
    answers = [json.loads(line) for line in run.stdout.splitlines()]
    notes = " ".join(note["message"] for note in answers[0].get("notes", ()))
    mine = {answer["file"] for answer in answers if answer["verdict"] != "valid"}
    if ("IDs are not checked" in notes) != bool(told):
        return f"jing says: {told[:500]}; rncv-xml notes: {notes}", ""
    if mine != bad:
        return f"jing refuses {sorted(bad)}, rncv-xml {sorted(mine)} (notes: {notes})", ""
    by_ids = sum(": ID " in str(answer.get("message", "")) or "no ID" in str(answer.get("message", "")) for answer in answers)
    return None, "not sound" if told else f"sound, {'with' if by_ids else 'without'} documents with wrong IDs"


def main():
    options = argparse.ArgumentParser(description=__doc__.splitlines()[0])
    options.add_argument("--count", type=int, default=100)
    options.add_argument("--seed", type=int, default=1)
    options.add_argument("--documents", type=int, default=12)
    options.add_argument("--program", default=str(TOP / "build/xml/rncv-xml"))
    given = options.parse_args()
    kinds = {}
    for seed in range(given.seed, given.seed + given.count):
        source = random.Random(seed)
        with tempfile.TemporaryDirectory() as room:
            folder = pathlib.Path(room)
            (folder / "s.rnc").write_text(schema(source), encoding="utf-8")
            for number in range(given.documents):
                (folder / f"d{number}.xml").write_text(document(source), encoding="utf-8")
            wrong, kind = judge(str(pathlib.Path(given.program).absolute()), folder, given.documents)
            if wrong:
                print(f"ids_run.py: seed {seed}: {wrong}\n{(folder / 's.rnc').read_text(encoding='utf-8')}")
                return 1
            kinds[kind] = kinds.get(kind, 0) + 1
    print(f"ids_run.py: {given.count} schemas, no difference: " + ", ".join(f"{count} {kind}" for kind, count in sorted(kinds.items())))
    return 0


if __name__ == "__main__":
    sys.exit(main())
