"""The judges of XML documents that are compared: rncv-xml, jing and xmllint. Each answers `valid`, `invalid`, `malformed` or something else, and why."""
import json
import os
import pathlib
import re
import shutil
import subprocess
import threading
import time

HERE = pathlib.Path(__file__).resolve().parent
SECONDS = 20
# The files that documents of the tests refer to. rncv-xml must not open them. jing and xmllint do.
DECLARATIONS = "<!ENTITY ext 'loaded'><!ATTLIST a ext CDATA 'loaded'>"
FILES = {"s.ent": "loaded", "s.mod": DECLARATIONS, "s.dtd": DECLARATIONS}
CRASHES = re.compile(r"Sanitizer|runtime error|DEADLYSIGNAL")


class Said:
    """An answer: its kind, the words of the judge, the line and column if they are known, and whether something was noted beside."""

    def __init__(self, kind, words="", place=(0, 0), noted=False):
        self.kind, self.words, self.place, self.noted = kind, words, place, noted

    def __repr__(self):
        at = ":{}:{}".format(*self.place) if self.place[0] else ""
        return f"{self.kind}{at}{': ' if self.words else ''}{self.words}"


def lay_out(folder, schemas):
    """Writes the schemas and the files of the documents to a folder."""
    for name, text in schemas.items():
        (folder / name).write_text(text, encoding="utf-8")
    for name, text in FILES.items():
        (folder / name).write_text(text, encoding="utf-8")


class Program:
    """rncv-xml. It judges many documents in one run. If a run ends badly, each of its documents is judged alone."""

    def __init__(self, path, folder, options=()):
        self.path, self.folder, self.options, self.runs = str(path), folder, options, 0

    def check(self, schema):
        """Ends if the program refuses a schema."""
        run = subprocess.run([self.path, schema], cwd=self.folder, stdout=subprocess.PIPE, stderr=subprocess.STDOUT, check=False)
        if run.returncode:
            raise SystemExit(f"{self.path}: {run.stdout.decode('utf-8', 'replace')}")

    def judged(self, schema, names):
        """The answers about the documents of these names, by a schema file."""
        answers = self.once(schema, names)
        if answers is None and len(names) == 1:
            return [self.failure]
        return answers if answers is not None else [self.judged(schema, [name])[0] for name in names]

    def once(self, schema, names):
        self.runs += 1
        words = [self.path, *self.options, "-j", "1", "--format", "json", schema, "--", *names]
        try:
            run = subprocess.run(words, cwd=self.folder, capture_output=True, timeout=SECONDS + len(names), check=False)
        except subprocess.TimeoutExpired:
            self.failure = Said("failed", "no answer in time")
            return None
        errors = run.stderr.decode("utf-8", "replace")
        lines = run.stdout.decode("utf-8", "replace").split("\n")[:-1]
        if run.returncode not in (0, 1, 2) or CRASHES.search(errors) or len(lines) != len(names):
            self.failure = Said("failed", f"status {run.returncode}, {len(lines)} lines: {errors[-2000:]}")
            return None
        notes = {it.split(":")[0] for it in errors.splitlines() if ": note: " in it}
        try:
            return [answer_of(json.loads(line), notes) for line in lines]
        except (ValueError, TypeError, KeyError):
            self.failure = Said("failed", f"its lines are no answers in JSON: {lines[0][:200]!a}")
            return None


def answer_of(line, notes):
    place = line.get("line", 0), line.get("column", 0)
    return Said(line["verdict"], line.get("message", ""), place, line["file"] in notes or bool(line.get("notes")))


def converted(converter, folder, name, options=()):
    """What is wrong with a run of xml2pyx, or None; and its PYX in the form of XmlJudge.java, or None: no instructions, attributes by name, one line for
    a text."""
    try:
        run = subprocess.run([str(converter), *options, name], cwd=folder, capture_output=True, timeout=SECONDS, check=False)
    except subprocess.TimeoutExpired:
        return Said("failed", "xml2pyx: no answer in time"), None
    errors = run.stderr.decode("utf-8", "replace")
    if run.returncode not in (0, 2) or CRASHES.search(errors):
        return Said("failed", f"xml2pyx: status {run.returncode}: {errors[-2000:]}"), None
    return None, comparable(run.stdout) if run.returncode == 0 else None


def in_pieces(converter, data, size):
    """The PYX of a document that comes through a pipe, `size` bytes at a time, or None."""
    with subprocess.Popen([str(converter), "-"], stdin=subprocess.PIPE, stdout=subprocess.PIPE, stderr=subprocess.DEVNULL) as run:
        writer = threading.Thread(target=write_slowly, args=(run.stdin, data, size))
        writer.start()
        out = run.stdout.read()
        writer.join()
    return comparable(out) if run.returncode == 0 else None


def write_slowly(pipe, data, size):
    """Writes pieces, and waits after each, so that the reader gets it alone."""
    try:
        with pipe:
            for at in range(0, len(data), size):
                pipe.write(data[at:at + size])
                pipe.flush()
                time.sleep(0.0002)
    except BrokenPipeError:
        pass


def comparable(pyx):
    lines, attributes, texts = [], [], []

    def end():
        lines.extend(sorted(attributes, key=lambda it: it[1:].split(b" ")[0].decode("utf-8", "replace").encode("utf-16-be", "replace")))
        if b"".join(texts):
            lines.append(b"-" + b"".join(texts))
        attributes.clear()
        texts.clear()

    for line in pyx.split(b"\n")[:-1]:
        if line[:1] == b"A":
            attributes.append(line)
        elif line[:1] == b"-":
            if attributes:
                end()
            texts.append(line[1:])
        elif line[:1] != b"?":
            end()
            lines.append(line)
    return b"".join(it + b"\n" for it in lines)


class Jing:
    """jing in one Java machine."""

    def __init__(self, folder, schemas):
        self.folder, self.schemas, self.java = folder, schemas, None
        listed = subprocess.run(["dpkg", "-L", "libjing-java"], stdout=subprocess.PIPE, stderr=subprocess.DEVNULL, text=True, check=True).stdout.split()
        self.jar = next(it for it in listed if it.endswith("/jing.jar"))
        subprocess.run(["javac", "-nowarn", "-XDsuppressNotes", "-cp", self.jar, "-d", str(folder), str(HERE / "XmlJudge.java")], check=True,
                       stderr=subprocess.DEVNULL)

    def start(self):
        words = ["java", "-Xss16m", "-Xmx512m", "-XX:+UseSerialGC", "-XX:TieredStopAtLevel=1", "-cp", os.pathsep.join([str(self.folder), self.jar]), "XmlJudge"]
        self.java = subprocess.Popen(words, cwd=self.folder, stdin=subprocess.PIPE, stdout=subprocess.PIPE, stderr=subprocess.DEVNULL, text=True,
                                     encoding="utf-8")
        for name in self.schemas:
            reported = self.ask("schema", name, name)
            if reported != "ok":
                raise RuntimeError(f"jing and the schema {name}: {reported}")

    def ask(self, *words):
        """The answer to a line. A machine that does not answer in time is replaced by a new one."""
        if self.java is None:
            self.start()
        alarm = threading.Timer(SECONDS, self.java.kill)
        alarm.start()
        try:
            self.java.stdin.write(" ".join(words) + "\n")
            self.java.stdin.flush()
            line = self.java.stdout.readline()
        except BrokenPipeError:
            line = ""
        alarm.cancel()
        if not line:
            self.close()
            return "failed no answer in time"
        return line.strip()

    def judged(self, schema, name, way="closed"):
        """The answer about a document. By `open` external entities are loaded, by `closed` they are not."""
        kind, _, words = self.ask(way, schema, name).partition(" ")
        return Said(kind, words)

    def pyx(self, name):
        """What the parser of jing reports about a document, or None."""
        if self.ask("events", name, "events.pyx") != "good":
            return None
        return (self.folder / "events.pyx").read_bytes()

    def close(self):
        if self.java is not None:
            self.java.kill()
            self.java.wait()
            self.java.stdin.close()
            self.java.stdout.close()
            self.java = None


def jing(folder, schemas):
    """jing, or None if it or a Java compiler is not installed."""
    if not shutil.which("javac") or not shutil.which("dpkg"):
        return None
    try:
        return Jing(folder, schemas)
    except (subprocess.CalledProcessError, StopIteration):
        return None


class Xmllint:
    """xmllint, with schemas in XML syntax. It replaces entities, adds defaults, and opens no address of a network."""

    def __init__(self, folder):
        self.folder = folder

    def judged(self, schema, names, way=()):
        words = ["xmllint", *way, "--noout", "--nonet", "--noent", "--dtdattr", "--relaxng", schema, *names]
        try:
            run = subprocess.run(words, cwd=self.folder, capture_output=True, timeout=SECONDS + len(names), check=False)
        except subprocess.TimeoutExpired:
            return [Said("failed", "no answer in time")] if len(names) == 1 else [self.judged(schema, [name], way)[0] for name in names]
        lines = run.stderr.decode("utf-8", "replace").split("\n")
        return [lint_answer(name, lines) for name in names]


def lint_answer(name, lines):
    """The answer in what xmllint prints. It goes on after an error of namespaces, which is a fault of a document here."""
    about = [it for it in lines if it.startswith(f"{name}:") and "error : " in it]
    first = about[0].split(": ", 1)[1] if about else ""
    if any(": namespace error : " in it for it in about):
        return Said("malformed", first)
    if f"{name} validates" in lines:
        return Said("valid")
    if f"{name} fails to validate" in lines:
        return Said("invalid", first)
    return Said("malformed", first)


def xmllint(folder):
    return Xmllint(folder) if shutil.which("xmllint") else None
