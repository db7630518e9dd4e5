"""What judges texts by expressions: `rncv-xml`, the engine of jing in one Java machine, and Python's `re` over a translation.

The answer about an expression is empty if it is taken, else the words of the refusal. The answers about texts are `valid`, `invalid`, or a word that says why
there is none.
"""
import base64
import contextlib
import os
import pathlib
import re
import shutil
import signal
import subprocess
import sys

HERE = pathlib.Path(__file__).resolve().parent
sys.path += [str(HERE.parents[1] / "check/patterns"), str(HERE.parents[1] / "bench")]
from judges import content, literal  # noqa: E402  (the folders are known only here)
import measuring  # noqa: E402
from pattern_expressions import parsed, python_of  # noqa: E402

SECONDS = 600
STEP_SECONDS = 0.3
FEW = 400             # expressions of a schema: a choice of them is as deep as it has members
VERDICT = re.compile(r"^(\d+)\.xml(?::\d+:\d+)?: (valid|invalid)\b", re.M)
LETTERS = {"v": "valid", "i": "invalid", "s": "too many steps", "o": "stack overflow"}


def compact(rows):
    """A schema in the compact syntax: an element for each number, datatype and expression."""
    return " |\n".join(f"element e{number} {{ attribute a {{ xsd:{kind} {{ pattern = {literal(pattern)} }} }} }}" for number, kind, pattern in rows) + "\n"


def in_xml(rows):
    """The same in the XML syntax."""
    written = "\n".join(f'<element name="e{number}"><attribute name="a"><data type="{kind}"><param name="pattern">{content(pattern)}</param></data></attribute>'
                        f"</element>" for number, kind, pattern in rows)
    return f'<choice xmlns="http://relaxng.org/ns/structure/1.0" datatypeLibrary="http://www.w3.org/2001/XMLSchema-datatypes">\n{written}\n</choice>\n'


def attribute_value(text):
    """A text in double quotes. As the value of an attribute one of blanks alone is that text, and no other."""
    return content(text).replace('"', "&#34;")


def document(number, text):
    return f'<e{number} a="{attribute_value(text)}"/>\n'


class Rncv:
    """`rncv-xml` with the larger set of datatypes, on one processor. Schemas are in one of the two syntaxes."""

    def __init__(self, program, folder):
        self.words, self.folder, self.syntax = [str(program), "--datatypes", "xml-schema", "--no-ids", "-j", "1"], pathlib.Path(folder), "rnc"

    def ran(self, rows, *documents):
        name = f"s.{self.syntax}"
        (self.folder / name).write_text((compact if self.syntax == "rnc" else in_xml)(rows), encoding="utf-8")
        run = subprocess.run([*self.words, "--all", name, *(["--", *documents] if documents else [])], cwd=self.folder, capture_output=True, timeout=SECONDS,
                             check=False)
        return (run.stdout + run.stderr).decode("utf-8", "replace"), run.returncode

    def expression(self, kind, pattern):
        """Empty if it takes a text as an expression of a datatype, `S12`, or anything else that it says."""
        out, status = self.ran([(0, kind, pattern)])
        return "" if status == 0 else "S12" if status == 3 and " S12 " in out else f"status {status}: {out[:200]}"

    def texts(self, rows):
        """The verdicts on rows of a datatype, an expression, which has to be taken, and a text; one run for many of them."""
        numbers = {key: number for number, key in enumerate(dict.fromkeys((kind, pattern) for kind, pattern, _ in rows))}
        if len(numbers) > FEW:
            raise ValueError("too many expressions")
        for number, (kind, pattern, text) in enumerate(rows):
            (self.folder / f"{number}.xml").write_text(document(numbers[kind, pattern], text), encoding="utf-8")
        out, status = self.ran([(number, *key) for key, number in numbers.items()], *(f"{number}.xml" for number in range(len(rows)))) if rows else ("", 0)
        found = {int(number): verdict for number, verdict in VERDICT.findall(out)}
        return [found.get(number, f"no verdict: status {status}, {out[:200]}" if status > 1 else "no verdict") for number in range(len(rows))]


class Jing:
    """The translation of jing, and `java.util.regex`, in one machine."""

    def __init__(self, folder, jar):
        subprocess.run(["javac", "-nowarn", "-cp", jar, "-d", str(folder), str(HERE / "JingPatterns.java")], check=True)
        words = ["java", "-Xmx256m", "-Xss512k", "-XX:+UseSerialGC", "-XX:TieredStopAtLevel=1", "-cp", os.pathsep.join([str(folder), jar]), "JingPatterns"]
        self.java = subprocess.Popen(words, stdin=subprocess.PIPE, stdout=subprocess.PIPE, stderr=subprocess.DEVNULL, text=True, encoding="utf-8")
        self.held = {}

    def judged(self, pattern, texts):
        """The answer about an expression, and those about texts (none if it is refused)."""
        self.java.stdin.write("\t".join(base64.b64encode(it.encode()).decode() for it in (pattern, *texts)) + "\n")
        self.java.stdin.flush()
        word, _, rest = self.java.stdout.readline().rstrip("\n").partition(" ")
        return ("", [LETTERS[letter] for letter in rest]) if word == "taken" else (rest or "no answer", [])

    def holds(self, escape, c):
        """Whether a class of characters that an escape names has a character; None if the escape is refused."""
        if (escape, c) not in self.held:
            refused, found = self.judged(escape, [c])
            self.held[escape, c] = None if refused else found == ["valid"]
        return self.held[escape, c]

    def close(self):
        self.java.stdin.close()
        self.java.wait()
        self.java.stdout.close()


def jing(folder):
    """The engine of jing, or None if it or a JDK is not installed."""
    jar = os.environ.get("JING_JAR") or measuring.Jing.installed()
    return Jing(folder, jar) if jar and shutil.which("javac") else None


class TooLong(Exception):
    """A search went on for too long."""


@contextlib.contextmanager
def at_most(seconds):
    """Ends what is inside by TooLong after so many seconds."""
    def end(*_):
        raise TooLong

    before = signal.signal(signal.SIGALRM, end)
    signal.setitimer(signal.ITIMER_REAL, seconds)
    try:
        yield
    finally:
        signal.setitimer(signal.ITIMER_REAL, 0)
        signal.signal(signal.SIGALRM, before)


def by_python(pattern, texts):
    """The answers of `re` about texts. The expression is read by `expressions.py`, and has to be one."""
    alphabet = "".join(sorted(set("".join(texts))))
    try:
        with at_most(STEP_SECONDS):
            compiled = re.compile(python_of(parsed(pattern), alphabet))
    except (OverflowError, RecursionError, TooLong):
        return ["not translated" for _ in texts]
    return [by_compiled(compiled, text) for text in texts]


def by_compiled(compiled, text):
    try:
        with at_most(STEP_SECONDS):
            return "valid" if compiled.fullmatch(text) else "invalid"
    except (TooLong, MemoryError):
        return "too many steps"
