"""What other programs say of expressions and of texts: jing, and `rncv-xml`. Both get schemas in the compact syntax and documents."""
import pathlib
import re
import shutil
import subprocess
import sys
import tempfile

SECONDS = 600
SCHEMA_LINE = re.compile(r"s\.rnc:(\d+):\d+: error: (?:invalid parameter: invalid regular expression: )?(.*)")
DOCUMENT_LINE = re.compile(r"d\.xml:(\d+):\d+: (error|fatal): (.*)")


def literal(text):
    """Literals of the compact syntax that are this text together. An escape of a quote would end one, and `\\x` may begin an escape: both are cut."""
    parts = filter(None, re.split(r'("+|(?<=\\)(?=x))', text))
    marked = (f"'{part}'" if part[0] == '"' else f'"{part}"' for part in parts)
    return " ~ ".join(re.sub(r"[^ -~]", lambda found: f"\\x{{{ord(found[0]):X}}}", part) for part in marked) or '""'


def content(text):
    """A text in a document."""
    return re.sub(r"[^ -%'-;=?-~]", lambda found: f"&#{ord(found[0])};", text)


def datatype(pattern):
    return f"xsd:string {{ pattern = {literal(pattern)} }}"


def schema(patterns):
    """A schema with an element `e` and a number for each expression, on the line of that number."""
    lines = [f"e{number} = element e{number} {{ {datatype(pattern)} }}" for number, pattern in enumerate(patterns, 1)]
    names = " | ".join(f"e{number}" for number in range(1, len(lines) + 1))
    return "\n".join([*lines, f"start = element all {{ ({names})* }}", ""])


def document(rows):
    """A document with an element for each number and text, each on a line of its own; the first is on line 2."""
    return "\n".join(["<all>", *(f"<e{number}>{content(text)}</e{number}>" for number, text in rows), "</all>", ""])


class Jing:
    """jing, as it is installed."""
    name = "jing"

    @staticmethod
    def is_installed():
        """Whether jing is there; a line says so if it is not."""
        if shutil.which("jing"):
            return True
        print(f"{pathlib.Path(sys.argv[0]).name}: jing is not installed: it is not asked")
        return False

    @staticmethod
    def told(patterns, rows):
        """What it prints about a schema and about a document."""
        with tempfile.TemporaryDirectory(prefix="rncv-patterns-") as folder:
            folder = pathlib.Path(folder)
            (folder / "s.rnc").write_text(schema(patterns), encoding="utf-8")
            (folder / "d.xml").write_text(document(rows), encoding="utf-8")
            run = subprocess.run(["jing", "-c", "s.rnc", "d.xml"], cwd=folder, capture_output=True, timeout=SECONDS, check=False)
        return run.stdout.decode("utf-8", "replace") + run.stderr.decode("utf-8", "replace")

    def expressions(self, patterns):
        """For each text whether jing takes it as an expression: empty, or why not."""
        told = {int(line): what.rstrip(":") for line, what in reversed(SCHEMA_LINE.findall(self.told(patterns, [])))}
        return [told.get(number, "") for number in range(1, len(patterns) + 1)]

    def texts(self, rows):
        """`valid` or `invalid` for each expression and text. All expressions have to be ones."""
        patterns = {pattern: number for number, pattern in enumerate(dict.fromkeys(pattern for pattern, _ in rows), 1)}
        printed = self.told(list(patterns), [(patterns[pattern], text) for pattern, text in rows])
        if SCHEMA_LINE.search(printed) or "fatal" in printed or "Exception" in printed or "Error" in printed:
            sys.exit(f"jing: {printed[:2000]}")
        faults = {int(line) - 2 for line, _, _ in DOCUMENT_LINE.findall(printed)}
        return ["invalid" if number in faults else "valid" for number in range(len(rows))]
