#!/usr/bin/env python3
"""Tries schemas as they are shipped: which of them `rncv-xml` serves, and why it refuses the others.

    dev/search/shipped/run.py [--program RNCV-XML] [--datatypes SET] [--documents FILE|FOLDER].. [--own N] [--jobs N] [--list] FOLDER|PACKAGE..

Each `.rnc` and `.rng` file in a folder is a schema. A word that is no folder is a package of Debian: `apt-get download` fetches it, and it is unpacked, with
the schemas in its jars, into a folder of that name that is removed at the end. The table has a row for each word. Where jing is installed, it reads each schema
too, and both judge the documents that are named by each schema that both take: they have to agree. A schema that is refused for a datatype (S12) is tried again
with the nearest datatypes, as `rncv-profile` writes them, since S12 hides the clauses after it. SET is that of `rncv-xml`, `xml-schema` or `profile`, by default
the first. The status is 1 if there is a difference or another reason. With `--own` up to N XML files of each word are documents too, by all schemas. With
`--list` each schema that jing takes has a line: its column, and what it lacks.

A document that names an external DTD is left out: jing would fetch it. jing's check of ID and IDREF is off, and so is that of rncv-xml.
"""
import argparse
import collections
import concurrent.futures
import dataclasses
import os
import pathlib
import re
import shutil
import subprocess
import sys
import tempfile
import zipfile

TOP = pathlib.Path(__file__).resolve().parents[3]
sys.path.insert(0, str(TOP / "programs/profile"))
from profile_files import SchemaFile  # noqa: E402  (the folder is known only here)
from profile_reader import Edit, Traits  # noqa: E402

SECONDS = 300
CLAUSE = re.compile(r": S(\d+) ")
SECTION = re.compile(r"^# ([^\n]+?)(?:, mentioned as ([^\n]+))?\n", re.M)
LACKING = re.compile(r"(?:the (?:datatype|parameter|datatype library) (?P<name>\S+) is not served|(?P<other>.*))", re.S)
EXTERNAL = re.compile(rb"<!DOCTYPE\s+\S+\s+(SYSTEM|PUBLIC)\b")
JING_LINE = re.compile(r"^(?P<path>.*?)(?::\d+:\d+)?: (?P<kind>error|fatal|warning): (?P<what>.*)$")


@dataclasses.dataclass
class Tried:
    """A schema, and what the two say. `clause` is the one that rncv-xml names, 0 for none; `jing` says whether jing takes the schema (None: not asked)."""
    path: pathlib.Path
    status: int
    line: str
    clause: int = 0
    lacks: tuple = ()
    hidden: str = ""     # what is refused once the datatypes are replaced
    jing: bool = None
    jing_line: str = ""
    documents: int = 0   # that both judged
    valid: int = 0
    differences: tuple = ()

    def kind(self):
        """The column of the table."""
        if self.status == 0:
            return "served" if self.jing is not False else "differs"
        if self.jing is False:
            return "no schema"
        if self.clause == 12 and not self.hidden:
            return "datatypes"
        return "other" if self.jing or self.clause != 14 else "no schema"


def output_of(words):
    """What a program prints on both streams, and its status; None if it takes too long."""
    try:
        run = subprocess.run([str(word) for word in words], stdout=subprocess.PIPE, stderr=subprocess.STDOUT, timeout=SECONDS, check=False)
    except subprocess.TimeoutExpired:
        return "no answer in time\n", None
    return run.stdout.decode("utf-8", "replace"), run.returncode


class Rncv:
    """`rncv-xml`. It compares with jing without IDs."""

    def __init__(self, program, datatypes="xml-schema"):
        self.program, self.is_larger = program, datatypes == "xml-schema"
        self.options = ["--no-ids"] if "--no-ids" in output_of([program, "--help"])[0] else []
        self.options += ["--datatypes", datatypes]

    def schema(self, path):
        out, status = output_of([self.program, *self.options, path])
        clause = CLAUSE.search(out)
        lines = [line for line in out.strip().split("\n") if ": note: " not in line] or [""]
        return Tried(path, -1 if status is None else status, lines[0], int(clause[1]) if clause and status == 3 else 0)

    def verdicts(self, schema, documents):
        """The verdict on each document: valid, invalid, malformed, or outside."""
        found = {}
        for line in output_of([self.program, "--all", *self.options, schema, "--", *documents])[0].split("\n"):
            for path in (it for it in documents if line.startswith(f"{it}:")):
                words = line[len(str(path)):]
                found[path] = next((kind for kind in ("valid", "invalid", "malformed") if re.match(rf"(:\d+:\d+)?: {kind}\b", words)), "outside")
        return found

    def printed(self, schema):
        """What the library gets of a schema: texts by name, the main one first."""
        out, status = output_of([self.program, *self.options, "--print-schema", schema])
        out = re.sub(r"[^\n]*\n\Z", "", out) if status == 3 else out  # the last line says why it is refused
        found = [it for it in SECTION.finditer(out) if os.path.isfile(it[1])]
        ends = [it.start() for it in found[1:]] + [len(out)]
        return {it[2] or "": out[it.end():end] for it, end in zip(found, ends)}


class Jing:
    """jing. It judges the documents of a schema in one run, and stops at one that is not well formed."""

    def judge(self, schema, documents):
        """Whether it takes the schema, its first line about it, and the verdict on each document."""
        found, left = {}, documents
        while True:
            about, told = self.told(schema, left)
            cut = next((at for at, path in enumerate(left) if told.get(path) == "malformed"), len(left))
            found.update((path, told.get(path, "valid")) for path in left[:cut + 1])
            left = left[cut + 1:]
            if about or not left:
                return not about, about, found

    def told(self, schema, documents):
        """The first line about the schema, and the faults of the documents."""
        out, _ = output_of(["jing", "-i", *(["-c"] if schema.suffix == ".rnc" else []), schema.absolute(), *documents])
        about, faults, known = "", {}, set(documents)
        for line in filter(str.strip, out.split("\n")):
            if line.startswith("[warning] "):  # by the script that starts it, about a jar that it can do without
                continue
            told = JING_LINE.match(line)
            path = pathlib.Path(told["path"]) if told else None
            if path not in known:
                about = about or ("" if told and told["kind"] == "warning" else line)
            elif told["kind"] != "warning":
                faults[path] = "malformed" if told["kind"] == "fatal" else faults.get(path, "invalid")
        return about, faults


def files_of(texts, is_larger):
    """The texts as files of rncv-profile, with what it finds, and with names that have no folder. `is_larger` says which set is served."""
    names = {name: f"f{number}.rnc" for number, name in enumerate(texts)}
    files = [SchemaFile(names[name], text.encode()) for name, text in texts.items()]
    traits = Traits()
    for file in files:
        traits = traits.with_those_of(file.reader.traits()) if file.reader else traits
    for file in files:
        if file.reader:
            file.reader.judge_types(traits, is_larger=is_larger)
        file.collect()
        file.edits += [Edit(it.start, it.end, f'"{names[it.href]}"') for it in file.mentions if it.href in names]
    return files


def look_behind(rncv, tried):
    """Finds what datatypes lack, and what else is refused once they are replaced."""
    files = files_of(rncv.printed(tried.path), rncv.is_larger)
    told = [LACKING.fullmatch(finding.what) for file in files for finding in file.findings]
    tried.lacks = tuple(sorted({it["name"] or it["other"] for it in told if not (it["other"] or "").startswith("integers of more than")}))
    with tempfile.TemporaryDirectory() as folder:
        for file in files:
            (pathlib.Path(folder) / file.name).write_text(file.copy(), encoding="utf-8")
        copy = rncv.schema(pathlib.Path(folder) / "f0.rnc")
        if copy.status and copy.clause != 12:
            tried.hidden = copy.line.replace(folder, "")


def try_schema(rncv, jing, path, documents):
    """Tries one schema, and the documents."""
    tried = rncv.schema(path)
    if tried.clause == 12:
        look_behind(rncv, tried)
    if jing:
        takes = tried.status == 0
        tried.jing, tried.jing_line, wanted = jing.judge(path, documents if takes else [])
        if takes and tried.jing and documents:
            found = rncv.verdicts(path, documents)
            judged = [it for it in documents if found.get(it) != "outside"]
            tried.documents, tried.valid = len(judged), sum(wanted[it] == "valid" for it in judged)
            tried.differences = tuple(f"{it}: {found.get(it)}, and by jing {wanted[it]}" for it in judged if found.get(it) != wanted[it])
    return tried


def documents_of(paths):
    """The documents that are named: files, and the XML files of folders."""
    found = []
    for path in map(pathlib.Path, paths):
        found += sorted(path.rglob("*.xml")) if path.is_dir() else [path]
    return [it.absolute() for it in found if it.is_file() and not EXTERNAL.search(it.read_bytes()[:65536])]


def some_of(documents, count):
    """So many of them at most, from all over the list."""
    step = -(-len(documents) // count) if count else 0
    return documents[::step] if step else []


def schemas_of(folder):
    return sorted(it for kind in ("rnc", "rng") for it in pathlib.Path(folder).rglob(f"*.{kind}") if it.is_file())


def unpacked(package, room):
    """Fetches a package of Debian and unpacks it. Returns its folder."""
    (room / "fetched").mkdir(exist_ok=True)
    subprocess.run(["apt-get", "download", "-q", package], cwd=room / "fetched", stdout=subprocess.DEVNULL, check=True)
    folder = room / package
    subprocess.run(["dpkg-deb", "-x", max((room / "fetched").glob(f"{package}_*.deb")), folder], check=True)
    for jar in [it for it in folder.rglob("*.jar") if it.is_file() and not it.is_symlink()]:
        with zipfile.ZipFile(jar) as inside:
            inside.extractall(f"{jar}.unpacked", [name for name in inside.namelist() if name.endswith((".rnc", ".rng"))])
    return folder


COLUMNS = {"served": "served", "datatypes": "refused for datatypes alone", "no schema": "no schema by itself", "other": "refused for another reason",
           "differs": "served, and not by jing"}


def table(rows):
    """The table of all folders, in Markdown."""
    yield f"| Folder | `.rnc` and `.rng` files | {' | '.join(COLUMNS.values())} | documents, valid | other verdicts |"
    yield "|---|" + "---|" * (len(COLUMNS) + 3)
    for folder, all_tried in [*rows.items(), ("all", [it for row in rows.values() for it in row])]:
        counts = collections.Counter(it.kind() for it in all_tried)
        cells = [len(all_tried), *(counts[kind] for kind in COLUMNS), f"{sum(it.documents for it in all_tried):,}, {sum(it.valid for it in all_tried):,}",
                 sum(len(it.differences) for it in all_tried)]
        yield f"| {folder} | {' | '.join(map(str, cells))} |"


def lacking(rows):
    """The datatypes and parameters that are not served, by how many schemas are refused for them alone or among others."""
    refused = [it for row in rows.values() for it in row if it.kind() == "datatypes"]
    counts = collections.Counter(name for it in refused for name in it.lacks)
    alone = collections.Counter(it.lacks[0] for it in refused if len(it.lacks) == 1)
    yield "| Datatype or parameter | schemas | of these for it alone |"
    yield "|---|---|---|"
    for name, count in sorted(counts.items(), key=lambda it: (-it[1], it[0])):
        yield f"| `{name}` | {count} | {alone[name]} |"


def listed(rows):
    """The schemas that jing takes: a line for each."""
    for tried in (it for row in rows.values() for it in row if it.jing):
        yield f"{tried.kind()}: {tried.path}{': ' if tried.lacks else ''}{', '.join(tried.lacks)}"


def faults(rows):
    """What is not as it should be: a line for each."""
    for tried in (it for row in rows.values() for it in row):
        if tried.kind() in ("other", "differs"):
            yield f"{tried.path}: {tried.hidden or tried.line or 'served'}{'; jing: ' + tried.jing_line if tried.jing_line else ''}"
        yield from (f"{tried.path}: {it}" for it in tried.differences)


def run():
    given = argparse.ArgumentParser(description=__doc__.splitlines()[0])
    given.add_argument("--program", default=TOP / "build/xml/rncv-xml", type=pathlib.Path)
    given.add_argument("--datatypes", choices=("xml-schema", "profile"), default="xml-schema")
    given.add_argument("--documents", action="append", default=[], metavar="FILE|FOLDER")
    given.add_argument("--own", type=int, default=0, metavar="N")
    given.add_argument("--jobs", type=int, default=2)
    given.add_argument("--list", action="store_true")
    given.add_argument("folders", nargs="+", metavar="FOLDER|PACKAGE")
    given = given.parse_args()
    rncv, jing = Rncv(given.program.absolute(), given.datatypes), Jing() if shutil.which("jing") else None
    documents = documents_of(given.documents)
    with concurrent.futures.ThreadPoolExecutor(given.jobs) as pool, tempfile.TemporaryDirectory() as room:
        folders = [word if os.path.isdir(word) else unpacked(word, pathlib.Path(room)) for word in given.folders]
        documents += [it for folder in folders for it in some_of(documents_of([folder]), given.own) if it not in documents]
        rows = {os.path.basename(os.path.normpath(folder)): list(pool.map(lambda it: try_schema(rncv, jing, it, documents), schemas_of(folder)))
                for folder in folders}
    for lines in (table(rows), [""], lacking(rows), [""], listed(rows) if given.list else (), told := list(faults(rows))):
        for line in lines:
            print(line)
    return 1 if told else 0


if __name__ == "__main__":
    sys.exit(run())
