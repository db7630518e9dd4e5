"""The W3C XML Conformance Test Suite: where it is fetched from, and the cases that its lists name."""
import dataclasses
import lzma
import os
import pathlib
import re
import shutil
import subprocess
import tarfile
import tempfile
import xml.parsers.expat

PACKAGE = "qtbase-opensource-src"
INSIDE = re.compile(r"(?:\A|.*/)XML-Test-Suite/xmlconf/(?P<path>.+)\Z", re.S)
MIRROR = "http://deb.debian.org/debian"
KEYS = "/usr/share/keyrings/debian-archive-keyring.gpg"
SECONDS = 900
APT = """Dir::State "{room}/state";
Dir::Cache "{room}/cache";
Dir::Etc::SourceList "{room}/sources.list";
Dir::Etc::SourceParts "-";
APT::Sandbox::User "root";
APT::Update::Error-Mode "any";
Acquire::Retries "2";
Acquire::http::Timeout "30";
"""
KINDS = ("valid", "invalid", "not-wf", "error")
MARKS = ((b"\xff\xfe", "utf-16-le"), (b"\xfe\xff", "utf-16-be"))


class NoSuite(Exception):
    """The suite cannot be had here."""


class Unusable(Exception):
    """The suite, or something else that is there, cannot be used."""


@dataclasses.dataclass
class Case:
    """A case. `kind` is one of `KINDS`; `entities` says which external entities have to be read for that: `none`, or others."""
    name: str
    kind: str
    path: pathlib.Path
    output: pathlib.Path  # the document in canonical form, or None
    collection: str       # the folder at the top of the suite
    entities: str
    is_1_1: bool          # of XML 1.1 or of Namespaces 1.1
    is_of_names: bool     # of Namespaces in XML
    about: str = ""

    def has_doctype(self):
        """Whether `<!DOCTYPE` is in its document."""
        data = self.path.read_bytes()
        encoding = next((it for mark, it in MARKS if data.startswith(mark)), "latin-1")
        return "<!DOCTYPE" in data.decode(encoding, "replace").replace("\0", "")

    def of_output(self):
        """A case of its output, which is well formed too."""
        return dataclasses.replace(self, name=f"{self.name}/output", kind="valid", path=self.output, entities="none")


class Reader:
    """Reads a list of cases, with the lists that it has as external entities. A path in a list is relative to the folder of that list."""

    def __init__(self, top):
        self.top, self.cases, self.text, self.case = top, [], [], None

    def read(self, path, parser):
        """Reads one list."""
        parser.SetBase(str(path))
        parser.StartElementHandler = lambda name, attributes: self.start(path, name, attributes)
        parser.EndElementHandler = self.end
        parser.CharacterDataHandler = self.text.append
        parser.ExternalEntityRefHandler = lambda context, base, system, public: self.other(parser.ExternalEntityParserCreate(context), base, system)
        try:
            with open(path, "rb") as file:
                parser.ParseFile(file)
        except xml.parsers.expat.ExpatError as fault:
            raise Unusable(f"{path}:{fault.lineno}:{fault.offset + 1}: {xml.parsers.expat.ErrorString(fault.code)}") from None
        except OSError as fault:
            raise Unusable(f"{path}: {fault.strerror}") from None

    def other(self, parser, base, system):
        """Reads a list in another one. A list without a name is the DTD, which says nothing that is not known here."""
        if system and not system.endswith(".dtd"):
            self.read(pathlib.Path(base).parent / system, parser)
        return 1

    def start(self, path, name, attributes):
        if name == "TEST":
            self.case = self.case_of(path, attributes)
            self.text.clear()

    def end(self, name):
        if name == "TEST":
            self.case.about = " ".join("".join(self.text).split())
            self.cases.append(self.case)

    def case_of(self, path, attributes):
        """The case of a tag in a list."""
        missing = [it for it in ("ID", "TYPE", "URI") if it not in attributes]
        if missing:
            raise Unusable(f"{path}: a case without {missing[0]}: {attributes}")
        if attributes["TYPE"] not in KINDS:
            raise Unusable(f"{path}: the case {attributes['ID']} is of no kind that is known: {attributes['TYPE']}")
        folder, output, source = path.parent, attributes.get("OUTPUT"), attributes.get("RECOMMENDATION", "")
        is_1_1 = source.endswith("1.1") or "1.1" in attributes.get("VERSION", "")
        return Case(attributes["ID"], attributes["TYPE"], folder / attributes["URI"], folder / output if output else None, self.collection(folder),
                    attributes.get("ENTITIES", "none"), is_1_1, source.startswith("NS"))

    def collection(self, folder):
        """The folder at the top that a list is in."""
        parts = pathlib.Path(os.path.relpath(folder, self.top)).parts
        return parts[0] if parts else "."


def cases_of(top):
    """The cases of a suite, in the order of its lists."""
    parser = xml.parsers.expat.ParserCreate()
    parser.SetParamEntityParsing(xml.parsers.expat.XML_PARAM_ENTITY_PARSING_ALWAYS)
    reader = Reader(top)
    reader.read(top / "xmlconf.xml", parser)
    lost = [case for case in reader.cases if not case.path.is_file()]
    if lost:
        raise Unusable(f"{lost[0].path}: there is no document of the case {lost[0].name} ({len(lost)} of {len(reader.cases)} cases have none)")
    return reader.cases


def codename():
    """The name of the machine's version of Debian, else that of the current one."""
    try:
        text = pathlib.Path("/etc/os-release").read_text(encoding="utf-8")
    except OSError:
        text = ""
    found = re.search(r'^VERSION_CODENAME="?([a-z]+)"?$', text, re.M) if re.search(r'^ID="?debian"?$', text, re.M) else None
    return found[1] if found else "stable"


def apt_get(room, *words):
    """Runs apt-get with a configuration, lists and sources of its own, and returns the line about a fault."""
    environment = {**os.environ, "APT_CONFIG": str(room / "apt.conf"), "LC_ALL": "C"}
    try:
        run = subprocess.run(["apt-get", "-q", *words], cwd=room / "fetched", env=environment, stdin=subprocess.DEVNULL, stdout=subprocess.PIPE,
                             stderr=subprocess.STDOUT, timeout=SECONDS, check=False)
    except (OSError, subprocess.TimeoutExpired) as fault:
        return str(fault)
    lines = run.stdout.decode("utf-8", "replace").strip().split("\n")
    return "" if run.returncode == 0 else next((it for it in lines if it.startswith("E: ")), lines[-1])


def download(room):
    """Fetches the source package. Returns the archive that has the suite."""
    if not shutil.which("apt-get"):
        raise NoSuite("apt-get is not installed")
    for folder in ("state/lists/partial", "cache/archives/partial", "fetched"):
        (room / folder).mkdir(parents=True)
    (room / "apt.conf").write_text(APT.format(room=room), encoding="utf-8")
    (room / "sources.list").write_text(f"deb-src [signed-by={KEYS}] {MIRROR} {codename()} main\n", encoding="utf-8")
    fault = apt_get(room, "update") or apt_get(room, "source", "--download-only", PACKAGE)
    archives = [it for it in sorted((room / "fetched").glob(f"{PACKAGE}_*.orig.tar.*")) if it.suffix != ".asc"]
    if fault or not archives:
        raise NoSuite(f"the source package {PACKAGE} is not to be had: {fault or 'it has no archive'}")
    return archives[0]


def unpack(archive, folder):
    """Writes the files of the suite in an archive to a folder, and no other file."""
    try:
        with tarfile.open(archive, "r|*") as packed:
            for member in packed:
                inside = INSIDE.match(member.name)
                if inside and member.isfile() and ".." not in inside["path"].split("/"):
                    path = folder / inside["path"]
                    path.parent.mkdir(parents=True, exist_ok=True)
                    path.write_bytes(packed.extractfile(member).read())
    except (tarfile.TarError, lzma.LZMAError, EOFError, OSError) as fault:
        raise NoSuite(f"{archive.name}: {fault}") from None
    if not (folder / "xmlconf.xml").is_file():
        raise NoSuite(f"{archive.name}: the suite is not in it")


def fetch(folder):
    """Fetches the suite. The folder is there when all of it is."""
    if folder.exists() and (not folder.is_dir() or any(folder.iterdir())):
        raise Unusable(f"{folder} has no xmlconf.xml, and is no empty folder to fetch it to")
    folder.parent.mkdir(parents=True, exist_ok=True)
    with tempfile.TemporaryDirectory(dir=folder.parent, prefix=".conformance-") as room:
        room = pathlib.Path(room)
        unpack(download(room), room / "xmlconf")
        os.replace(room / "xmlconf", folder)
