"""The judges of the cases: the program under test, xmllint, and expat by Python's own module. Each answer is a `Said` of dev/search/fuzz/xml_judges.py.

`valid` is well formed, and for a program with a schema valid by one that takes any document. Each judge either reads external entities (`loads`) or does not.
"""
import pathlib
import shutil
import subprocess
import sys
import xml.parsers.expat

HERE = pathlib.Path(__file__).resolve().parent
sys.path.insert(0, str(HERE.parent / "fuzz"))
import xml_judges  # noqa: E402  (the folder is known only here)
from suite import Unusable  # noqa: E402
from xml_judges import CRASHES, Said  # noqa: E402

ANY = "start = any\nany = element * { (attribute * { text } | any | text)* }\n"
BATCH = 200
SECONDS = 60
UNKNOWN_ENCODING = xml.parsers.expat.errors.codes[xml.parsers.expat.errors.XML_ERROR_UNKNOWN_ENCODING]


class Program:
    """The program under test, as `rncv-xml`: many documents a run, and an object of JSON for each."""

    def __init__(self, path, loads, room):
        (room / "any.rnc").write_text(ANY, encoding="utf-8")
        self.program = xml_judges.Program(path, room, ["--dtd"] if loads else [])
        try:
            self.program.check("any.rnc")
        except SystemExit as refusal:
            raise Unusable(str(refusal)) from None

    def judged(self, paths):
        answers = []
        for at in range(0, len(paths), BATCH):
            answers += self.program.judged("any.rnc", [str(it) for it in paths[at:at + BATCH]])
        return answers


class Each:
    """A program that gets one document, and tells by its status whether that is well formed (0). What it prints on standard error is about the document:
    `outside` is a word of it if the program does not judge that."""

    def __init__(self, path, loads):
        self.words = [str(path), *(["--dtd"] if loads else [])]

    def judged(self, paths):
        return [self.answer(path) for path in paths]

    def answer(self, path):
        try:
            run = subprocess.run([*self.words, str(path)], stdout=subprocess.DEVNULL, stderr=subprocess.PIPE, timeout=SECONDS, check=False)
        except (OSError, subprocess.TimeoutExpired) as fault:
            return Said("failed", str(fault))
        errors = run.stderr.decode("utf-8", "replace")
        if run.returncode not in (0, 1, 2) or CRASHES.search(errors):
            return Said("failed", f"status {run.returncode}: {errors[-300:]}")
        kind = "valid" if run.returncode == 0 else "outside" if "outside" in errors else "malformed"
        return Said(kind, errors.strip().split("\n")[-1], noted=bool(errors))


class Xmllint:
    """xmllint. It goes on after a fault of namespaces, which is one of a document here."""

    name = "xmllint"

    def __init__(self, loads):
        self.words = ["xmllint", "--noout", "--nonet", *(["--noent", "--dtdattr"] if loads else [])]

    def judged(self, path):
        try:
            run = subprocess.run([*self.words, str(path)], stdout=subprocess.DEVNULL, stderr=subprocess.PIPE, timeout=SECONDS, check=False)
        except subprocess.TimeoutExpired:
            return Said("failed", "no answer in time")
        told = [it.partition("error : ")[2] for it in run.stderr.decode("utf-8", "replace").split("\n") if "error : " in it]
        if run.returncode < 0:
            return Said("failed", f"signal {-run.returncode}")
        return Said("malformed", told[0] if told else "") if told or run.returncode else Said("valid", noted=True)


class Expat:
    """expat with namespaces, by Python's `xml.parsers.expat`."""

    name = "expat"

    def __init__(self, loads):
        self.loads = loads

    def judged(self, path):
        parser = xml.parsers.expat.ParserCreate(namespace_separator=" ")
        if self.loads:
            parser.SetParamEntityParsing(xml.parsers.expat.XML_PARAM_ENTITY_PARSING_ALWAYS)
        try:
            self.read(path, parser)
        except xml.parsers.expat.ExpatError as fault:
            return Said("outside" if fault.code == UNKNOWN_ENCODING else "malformed", str(fault))
        except (OSError, LookupError, ValueError) as fault:  # no such file, or an encoding that Python does not map byte by byte
            return Said("outside", str(fault))
        return Said("valid", noted=True)

    def read(self, path, parser):
        def other(context, base, system, public):
            self.read(pathlib.Path(base).parent / (system or ""), parser.ExternalEntityParserCreate(context))
            return 1

        parser.SetBase(str(path))
        if self.loads:
            parser.ExternalEntityRefHandler = other
        with open(path, "rb") as file:
            parser.ParseFile(file)


def others(loads):
    """The judges beside the program that are installed."""
    return [*([Xmllint(loads)] if shutil.which("xmllint") else []), Expat(loads)]


def canonical_pyx(path):
    """The PYX of a document in canonical form, as `xml_judges.comparable` has it. Such a document has no external entity."""
    lines = []
    parser = xml.parsers.expat.ParserCreate()
    parser.ordered_attributes, parser.buffer_text = True, True

    def start(name, attributes):
        lines.append(f"({name}")
        lines.extend(f"A{key} {escaped(value)}" for key, value in zip(attributes[::2], attributes[1::2]))

    parser.StartElementHandler = start
    parser.EndElementHandler = lambda name: lines.append(f"){name}")
    parser.CharacterDataHandler = lambda text: lines.append(f"-{escaped(text)}")
    with open(path, "rb") as file:
        parser.ParseFile(file)
    return xml_judges.comparable("".join(f"{it}\n" for it in lines).encode())


def escaped(text):
    """A value or a text as it is in a line of PYX."""
    return text.replace("\\", "\\\\").replace("\n", "\\n").replace("\t", "\\t")


class Converter:
    """A program that prints the PYX of a document, as `xml2pyx`."""

    def __init__(self, path, loads, room):
        self.path, self.options, self.room = path, ["--dtd"] if loads else [], room

    def fault(self, case):
        """What is wrong with its PYX of a case with an output, or an empty text. A document that it does not convert has none."""
        fault, pyx = xml_judges.converted(self.path, self.room, str(case.path), self.options)
        if fault or pyx is None:
            return repr(fault) if fault else ""
        try:
            wanted = canonical_pyx(case.output)
        except (OSError, ValueError, xml.parsers.expat.ExpatError) as broken:
            return f"{case.output}: {broken}"
        return "" if pyx == wanted else first_difference(pyx, wanted)


def first_difference(pyx, wanted):
    """The first line in which two texts of PYX differ."""
    ours, theirs = (it.decode("utf-8", "replace").split("\n") for it in (pyx, wanted))
    at = next((at for at, (one, other) in enumerate(zip(ours, theirs)) if one != other), min(len(ours), len(theirs)) - 1)
    return f"line {at + 1} of its PYX is {ours[at][:60]!a}, and not {theirs[at][:60]!a}"
