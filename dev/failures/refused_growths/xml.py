#!/usr/bin/env python3
"""Runs `rncv-xml`, `rng2rnc` and `xml2pyx` with each growth of memory refused in turn:   xml.py FOLDER SHIM

FOLDER has the two programs, and SHIM is `refuse.c` as a shared object. The wanted answers are those of runs in which nothing is refused; the tests of
`programs/xml` say whether these are right. A growth that the program can do without leaves the answer as it is. After any other one, the status is 4. Then
one line says that memory ran out: on standard error, or in place of the answer of one document (or one folder). All other lines are lines of the answer.
`xml2pyx` writes a beginning of the PYX before.

The growths of the words about a document are an exception: the verdicts and the status are those of the answer, and what a line says about a document that
is not valid, or a note, is less. These are counted by themselves. test.sh builds the shim and calls this.
"""
import concurrent.futures
import contextlib
import io
import itertools
import json
import os
import pathlib
import re
import signal
import sys
import tempfile

from rows import Count, Row, Runner, refuse_each, too_long

FAILED, SECONDS, WHAT = 4, 1800, "out of memory"
GRAMMAR = '<grammar xmlns="http://relaxng.org/ns/structure/1.0">'
# Schemas are small, since each of their growths is refused in each case.
FILES = {
    "s.rnc": 'include "parts/b.rnc" start = element a { attribute x { "it\'s" | text }, b }\n', "parts/b.rnc": 'b = external "low%20er/c.rnc"\n',
    "parts/low er/c.rnc": "element b { empty }?\n", "t.rnc": 'element a { attribute x { "1" }?, element b { empty }? }\n',
    "i.rnc": "element a { xsd:integer }\n", "e.rnc": "element a { text }\n", "missing.rnc": 'include "gone%20.rnc" start = x\n',
    "broken.rnc": "start = element a {\n",
    "two.rnc": 'start = external "q%20r.rnc"\n', "q%20r.rnc": "empty", "q r.rnc": "empty", "mapped.rnc": 'start = external "http://example.org/x"\n',
    "s.rng": f"{GRAMMAR}<start/></grammar>\n", "h.rng": f'{GRAMMAR}<start><ref name="a"/></start></grammar>\n',
    "r.rng": f'{GRAMMAR}<include href="parts/b.rng" ns="u"/><start><ref name="a"/></start></grammar>\n',
    "parts/b.rng": f'{GRAMMAR}<define name="a"><element name="a" ns=""><oneOrMore><attribute><nsName ns="v"/></attribute></oneOrMore>'
                   '<value>"</value></element></define></grammar>\n',
    "c.cat": '<catalog xmlns="urn:oasis:names:tc:entity:xmlns:xml:catalog"><nextCatalog catalog="d.cat"/></catalog>\n',
    "d.cat": '<catalog xmlns="urn:oasis:names:tc:entity:xmlns:xml:catalog"><rewriteURI uriStartString="http://example.org/x" rewritePrefix="e.rnc"/>'
             "</catalog>\n",
    "m.rnc": 'namespace p = "u" include "parts/m.rnc" { x = element x { empty } } start = element a { x & y }\n',
    "l.rnc": 'include "broken.rnc" start = empty\n',
    "parts/m.rnc": 'datatypes d = "http://www.w3.org/2001/XMLSchema-datatypes" x = empty y = element y { d:integer }\n',
    "n.rng": f'{GRAMMAR}<include href="gone.rng"/></grammar>\n', "good.xml": '<?xml version="1.0"?>\n<a x="1">\n  <b/>\n</a>\n',
    "bad.xml": "<a><b/><c/></a>\n", "attribute.xml": '<a x="2"><b/></a>\n', "text.xml": "<a>1 &amp; <![CDATA[2]]></a>\n", "cut.xml": '<a x="1">\n<b>\n</a>\n',
    "clause.xml": "<a><p:b/></a>\n", "dtd.xml": '<!DOCTYPE a SYSTEM "day.dtd" [<!ENTITY e "1"><!ATTLIST a x CDATA "&e;">]>\n<a>&e;</a>\n',
    "outside.xml": '<!DOCTYPE a SYSTEM "day.dtd">\n<a>&e;</a>\n', "folder/good.xml": "<a/>", "folder/low/bad.xml": "<b/>", "folder/other": "",
    "ids.rnc": 'element a { attribute x { xsd:NCName { minLength = "000000001" } }, element b { attribute y { xsd:NCName { minLength = "00000001" } } }* }\n'
               "# rncv-profile: 2 ID-types marked, see ids.profile.txt\n",
    "unsound.rnc": 'element a { attribute x | y { xsd:NCName { minLength = "000000001" } } }\n# rncv-profile: 1 ID-type marked, see unsound.profile.txt\n',
    "ids.xml": '<a x="p"><b y="p"/></a>\n', "noid.xml": '<a xmlns:q="u" x="p"><b y="r"/></a>\n', "noids.xml": '<a x="p"/>\n',
    "types.rnc": 'element a { attribute x { xsd:int { minInclusive = "1" maxExclusive = "9" } }, (xsd:QName | xsd:ENTITIES) }\n', "types.xml": '<a x="5">p:q</a>\n',
    "hints.rnc": 'element a { attribute x { "1" }?, element b { attribute y { xsd:int }, element c { empty } }* }\n',
    "hints.xml": '<a x="2" xmlns:p="u">\n<b y="z">1</b>\n<b y="3"><p:d/></b><e/></a>\n',
    "tags.rnc": 'namespace p = "u" element a { element b { attribute p:x { "1" }, attribute y { "2" }? }*, element c { element d { empty } }? }\n',
    "value.xml": "<a xmlns:q='u'><b y='2' q:x='1'/><b y='2' q:x='3'/></a>\n", "name.xml": "<a xmlns:q='u'><b q:x='1' z='3'/></a>\n",
    "marked.xml": "<!DOCTYPE a [<!ENTITY e '2'><!ENTITY t '&#38;#9;'>]><a x='&e;' xmlns:n='u&t;'>\n<b y='1'>3</b></a>\n",
    "wide.xml": "<a x='1' y='2'/>\n", "choices.xml": "<!DOCTYPE a [<!ATTLIST a x (p|q) 'p'>]><a/>\n",
    "lacks.xml": "<a><b y='2'/></a>\n", "before.xml": "<a><c>some<d xmlns:q='u'/></c></a>\n", "early.xml": "<a><c xmlns:q='u'/></a>\n",
    "long.xml": "<a>" + "some words\n" * 15_000 + "</a>\n",
    "lists.rnc": 'element a { attribute x { list { "1"+ } }, list { xsd:int, (xsd:int - xsd:int "3")+ } }\n', "lists.xml": '<a x="1 2">1 3</a>\n',
    "list": "good.xml\nbad.xml\n", "zeros": "good.xml\0none.xml\0", "large.xml": "<a>" + "<!-- some words -->\n" * 15_000 + "<b/></a>\n",
}
# What libxml2 writes to standard error where it has no memory for the values of a thread. Whether a thread has a document to read is a matter of time.
THREAD = "xmlGetGlobalState: out of memory"
# What is printed about a document: a line, or a command of GitHub's. The verdict of a line is whether the document is valid.
TEXT = re.compile(r"(?P<file>[^:]*)(:\d+:\d+)?: (?P<message>.*)(?P<verdict>)")
GITHUB = re.compile(r"::error file=(?P<file>[^,]*)(,line=\d+,col=\d+)?,title=(?P<verdict>\w*)::(?P<message>.*)")
VERDICTS = "not valid", "valid"
# What is said behind the first fault of a document, and not within the words about a schema.
HINT = re.compile(r"[^:]*:\d+:\d+: hint: .*")
# The beginning of a note, or the closing line of --verbose.
NOTE = re.compile(r"[^:]*:(\d+:\d+:)?( note.*)?|\d+ valid(, \d+ [a-z ]+)*(, by a schema .*)?")
# The status of the answer, and the words.
CASES = (
    (0, "rncv-xml -j1 --all s.rnc good.xml"),
    (1, "rncv-xml -j1 --all t.rnc bad.xml attribute.xml"),
    (1, "rncv-xml -j1 --all i.rnc text.xml"),
    (1, "rncv-xml -j1 --all hints.rnc hints.xml"),
    (1, "rncv-xml -j1 --all --max-faults 1 tags.rnc value.xml name.xml lacks.xml before.xml early.xml"),
    (1, "rncv-xml -j1 --all hints.rnc marked.xml"),
    (1, "rncv-xml -j1 --all i.rnc long.xml"),
    (1, "rncv-xml -j1 --all lists.rnc lists.xml"),
    (1, "rncv-xml -j1 --format json hints.rnc hints.xml"),
    (2, "rncv-xml -j1 --all e.rnc cut.xml clause.xml"),
    (2, "rncv-xml -j1 --all e.rnc dtd.xml outside.xml"),
    (2, "rncv-xml -j1 --all --max-attributes 1 e.rnc wide.xml choices.xml"),
    (1, "rncv-xml -j1 --format json t.rnc good.xml bad.xml"),
    (1, "rncv-xml -j1 --format sarif t.rnc good.xml bad.xml"),
    (1, "rncv-xml -j1 --format github t.rnc bad.xml"),
    (1, "rncv-xml -j1 --all -r --glob *.xml --glob *.x e.rnc folder"),
    (1, "rncv-xml -j1 --all --files-from list t.rnc"),
    (4, "rncv-xml -j1 --verbose --null --files-from zeros e.rnc -- attribute.xml"),
    (1, "rncv-xml -j2 --all t.rnc good.xml bad.xml"),
    (0, "rncv-xml -j2 --all t.rnc large.xml"),
    (1, "rncv-xml -j1 --all ids.rnc ids.xml noid.xml"),
    (0, "rncv-xml -j1 --all unsound.rnc noids.xml"),
    (0, "rncv-xml -j1 --all types.rnc types.xml"),
    (3, "rncv-xml --strict types.rnc types.xml"),
    (3, "rncv-xml --datatypes profile types.rnc"),
    (0, "rncv-xml --map http://example.org/x=e.rnc mapped.rnc --"),
    (0, "rncv-xml --catalog c.cat mapped.rnc --"),
    (3, "rncv-xml missing.rnc good.xml"),
    (3, "rncv-xml broken.rnc good.xml"),
    (3, "rncv-xml two.rnc good.xml"),
    (3, "rncv-xml s.rng good.xml"),
    (3, "rncv-xml h.rng"),
    (0, "rncv-xml --print-schema r.rng"),
    (0, "rncv-xml --most-files 1 --print-schema m.rnc"),
    (0, "rncv-xml --most-files 1 r.rng"),
    (3, "rncv-xml --most-files 1 --print-schema s.rnc"),
    (3, "rncv-xml --most-files 1 missing.rnc"),
    (3, "rncv-xml --most-files 1 l.rnc"),
    (0, "rng2rnc -o copy r.rng"),
    (0, "rng2rnc --help"),
    (3, "rng2rnc n.rng"),
    (3, "rng2rnc s.rng"),
    (5, "rncv-xml --bogus s.rnc good.xml"),
    (0, "rncv-xml --help"),
    (0, "xml2pyx good.xml"),
    (0, "xml2pyx --lines places dtd.xml"),
    (2, "xml2pyx cut.xml"),
    (4, "xml2pyx none.xml"),
)


def results_of(words, out):
    """The results that were printed, a file, a verdict and a message each, without hints, which may be fewer. None: the output is no output of this format."""
    try:
        if "json" in words:
            found = [json.loads(line) for line in out.splitlines()]
            return [(each["file"], each["verdict"], each.get("message", "")) for each in found]
        if "sarif" in words:
            found = json.loads(out)["runs"][0]["results"] if out else []
            return [(each["locations"][0]["physicalLocation"]["artifactLocation"]["uri"], each["ruleId"], each["message"]["text"]) for each in found
                    if each["ruleId"] != "hint"]
    except (ValueError, KeyError):
        return None
    pattern = GITHUB if "github" in words else TEXT
    found = [pattern.fullmatch(line) for line in out.decode().splitlines() if not HINT.fullmatch(line)]
    return None if None in found else [(each["file"], each["verdict"] or VERDICTS[each["message"] == "valid"], each["message"]) for each in found]


class Case(Row):
    """The words of a run, and its answer."""

    def __init__(self, status, words):
        program, *words = words.split()
        super().__init__(words, [], b"", None)
        self.program, self.status, self.spared, self.less = program, status, sys.maxsize, 0

    def __str__(self):
        return f"{self.program} {' '.join(self.words)}"

    def says_less(self, status, found, wanted):
        """Whether the verdicts are those of the answer. The words about a document that is not valid, or a note, are not."""
        is_less = status == self.status and [each[:2] for each in found] == [each[:2] for each in wanted]
        self.less += is_less
        return is_less

    def reports(self, answer):
        """Whether a run says once that memory ran out, and else nothing that is not in the answer."""
        status, out, errors = answer
        lines, wanted = errors.decode().splitlines(), self.wanted[2].decode().splitlines()
        reported = [line for line in lines if line.startswith(f"{self.program}: {WHAT}")]
        others = {line for line in lines if line not in wanted and line not in reported and line != THREAD}
        if len(reported) > 1 or not all(line == "" or NOTE.fullmatch(line) for line in others):
            return False
        if self.program == "xml2pyx":
            return status == FAILED and len(reported) == 1 and self.wanted[1].startswith(out) or self.says_less(status, [(out,)], [(self.wanted[1],)])
        if status == FAILED and reported and self.wanted[1].startswith(out):
            return True
        found, results = results_of(self.words, out), results_of(self.words, self.wanted[1])
        if found is None:
            return False
        failures = [each for each in found if each[2] == WHAT and each not in results]
        # without libxml2, which is made ready once, no document is read
        is_reported = status == FAILED and len(failures) + len(reported) >= 1 and all(each in results or each in failures for each in found)
        return is_reported or self.says_less(status, found, results)


def lay_out():
    """Writes the files of the cases into the current folder."""
    for name, text in FILES.items():
        path = pathlib.Path(name)
        path.parent.mkdir(parents=True, exist_ok=True)
        path.write_text(text, encoding="utf-8")


def try_case(case, runner, count):
    """Runs a case, with no growth refused and then with each in turn."""
    runner.begin(case)
    case.wanted = runner.run(case, 0)[0]
    if case.wanted[0] != case.status:
        count.wrong += 1
        print(f"{case}: {case.wanted}, and not status {case.status}")
    else:
        refuse_each(runner, case, count)


def tried(case, programs, shim):
    """What came of a case in a folder of its own: how many growths were refused, left the answer, were wrong, and left the verdicts; and what was printed."""
    count, reported, case = Count(), io.StringIO(), Case(*case)
    with contextlib.redirect_stdout(reported), tempfile.TemporaryDirectory() as folder, tempfile.TemporaryDirectory() as room:
        os.chdir(folder)
        lay_out()
        try_case(case, Runner(programs / case.program, shim, room), count)
        os.chdir("/")
    return (count.refused, count.left, count.wrong, case.less), reported.getvalue()


def main(programs, shim):
    """Tries all cases, side by side, and returns the exit status."""
    programs, shim = pathlib.Path(programs).resolve(), os.path.abspath(shim)
    signal.signal(signal.SIGALRM, too_long)
    signal.alarm(SECONDS)
    with concurrent.futures.ProcessPoolExecutor() as pool:
        results = list(pool.map(tried, CASES, itertools.repeat(programs), itertools.repeat(shim)))
    print("".join(reported for _, reported in results), end="")
    refused, left, wrong, less = map(sum, zip(*(counts for counts, _ in results)))
    print(f"rncv-xml, rng2rnc, xml2pyx: {len(CASES)} cases, {refused} growths refused, {left} of them left the answer, {less} the verdicts, {wrong} wrong")
    return 1 if wrong else 0


if __name__ == "__main__":
    sys.exit(main(*sys.argv[1:]))
