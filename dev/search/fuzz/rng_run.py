#!/usr/bin/env python3
"""Compares what `rng2rnc` writes with the schemas that it is written from, by the simple forms that jing prints of both.

    dev/search/fuzz/rng_run.py [--count N] [--seed S] [--found FOLDER] [--program RNG2RNC] [FILE.rng..]
    dev/search/fuzz/rng_run.py --as-they-are [--program RNG2RNC] FILE.rng..

Random schemas of several files, and mutants of them and of the files that are named, are given to `rng2rnc`. A schema that it refuses has to be one that
jing refuses, a schema that jing refuses has to be refused by one of them, and both forms have to be the same. The `rncv-xml` beside it has to refuse the
schemas that jing refuses, and no others but those with datatypes that are not served. With --as-they-are only the files that are named are tried, where they
are, with what they include. It needs jing and a Java compiler.
"""
import argparse
import pathlib
import random
import re
import shutil
import subprocess
import sys
import tempfile

from rng_schemas import Maker, mutate, parsed

HERE = pathlib.Path(__file__).resolve().parent

# Why `rng2rnc` may refuse a schema that jing takes: the words of its line.
REASONS = (
    ("a fragment", "without a fragment"),  # jing takes one in a datatypeLibrary or an href that is overridden or not followed
    ("the profile", "outside the profile"),
)


# A value that is a qualified name may get another prefix of the same meaning: the form does not show what it means.
QNAME = re.compile(r'(<value type="(?:QName|NOTATION)" datatypeLibrary="[^"]*") ns="[^"]*">\s*(?:[^<:]*:)?([^<]*?)\s*</value>')


class Jing:
    """jing in one Java machine."""

    def __init__(self, room):
        installed = subprocess.run(["dpkg", "-L", "libjing-java"], stdout=subprocess.PIPE, text=True, check=True).stdout.split()
        jar = next(it for it in installed if it.endswith("/jing.jar"))
        subprocess.run(["javac", "-nowarn", "-XDsuppressNotes", "-cp", jar, "-d", str(room), str(HERE / "JingSimple.java")], check=True)
        words = ["java", "-Xss64m", "-Xmx256m", "-XX:+UseSerialGC", "-XX:TieredStopAtLevel=1", "-cp", f"{room}:{jar}", "JingSimple"]
        self.java = subprocess.Popen(words, stdin=subprocess.PIPE, stdout=subprocess.PIPE, stderr=subprocess.DEVNULL, text=True, encoding="utf-8")

    def ask(self, kind, path):
        """Whether jing takes the schema, and the form or the fault."""
        self.java.stdin.write(f"{kind} {path}\n")
        self.java.stdin.flush()
        word, _, rest = self.java.stdout.readline().strip().partition(" ")
        return word == "ok", rest


class Trials:
    def __init__(self, room, program):
        self.room, self.program, self.jing = pathlib.Path(room), pathlib.Path(program).absolute(), Jing(room)
        self.counts = dict.fromkeys(["same", "refused by both", "refused in the compact syntax", "explained", "taken by rncv-xml", "not served"], 0)

    def all(self, main):
        """What is wrong with the schema's copy, or with what rncv-xml says; None: nothing."""
        return self.judge(main) or self.judge_schema(main, self.jing.ask("xml", main)[0])

    def judge(self, main):
        """What is wrong with the schema's copy; None: nothing."""
        copy = self.room / "copy"
        shutil.rmtree(copy, ignore_errors=True)
        run = subprocess.run([self.program, "-o", copy, main], capture_output=True, timeout=100, check=False)
        reported = run.stderr.decode("utf-8", "replace")
        takes, form = self.jing.ask("xml", main)
        if run.returncode not in (0, 3) or "runtime error" in reported or "Sanitizer" in reported:
            return f"status {run.returncode}: {reported}"
        if run.returncode == 3:
            return self.judge_refusal(takes, reported)
        takes_copy, copy_form = self.jing.ask("compact", copy / (pathlib.Path(main).stem + ".rnc"))
        if takes != takes_copy and '"none:' in copy_form:
            self.counts["explained"] += 1  # a value that is a name in no namespace, where that is not the default one, cannot be written
            return None
        if takes != takes_copy:
            return f"jing takes one of the two: {form[:300] if takes_copy else copy_form[:300]}"
        if not takes:
            self.counts["refused in the compact syntax"] += 1
            return None
        self.counts["same"] += 1
        return None if QNAME.sub(r"\1>\2<", form) == QNAME.sub(r"\1>\2<", copy_form) else f"another form:\n{form}\n{copy_form}"

    def judge_schema(self, main, takes):
        """What is wrong with the answer of rncv-xml; None: nothing."""
        run = subprocess.run([self.program.with_name("rncv-xml"), main], capture_output=True, timeout=100, check=False)
        reported = (run.stdout + run.stderr).decode("utf-8", "replace")
        clause = re.search(r": (S\d+) ", reported)
        if run.returncode not in (0, 3) or "runtime error" in reported or "Sanitizer" in reported:
            return f"rncv-xml: status {run.returncode}: {reported}"
        if clause and clause[1] in ("S3", "S4", "S5", "S6", "S8"):
            return f"what is written is no schema: {reported}"
        if clause and clause[1] in ("S12", "S17"):
            self.counts["not served"] += 1
        elif takes != (run.returncode == 0):
            return f"rncv-xml: {reported}"
        elif takes:
            self.counts["taken by rncv-xml"] += 1
        return None

    def judge_refusal(self, takes, reported):
        if not takes:
            self.counts["refused by both"] += 1
        elif any(words in reported for _, words in REASONS):
            self.counts["explained"] += 1
        else:
            return f"jing takes what is refused: {reported}"
        return None


def schema_of(maker, given):
    """A random schema, or one of the named files, perhaps changed."""
    if given and maker.random.random() < 0.3:
        path = maker.random.choice(given)
        files = {pathlib.Path(path).name: parsed(pathlib.Path(path).read_bytes())}
    else:
        files = Maker(maker.random).schema()
    for _ in range(maker.random.choice((0, 1, 1, 2))):
        mutate(maker.random, maker.random.choice(list(files.values())))
    return files


def try_random(trials, given):
    """Tries random schemas. Returns how many faults were found."""
    faults = 0
    folder = trials.room / "schema"
    for number in range(given.count):
        files = schema_of(Maker(random.Random(f"{given.seed} {number}")), given.files)
        shutil.rmtree(folder, ignore_errors=True)
        folder.mkdir()
        for name, tree in files.items():
            (folder / name).write_text(tree.text(), encoding="utf-8")
        fault = trials.all(folder / next(iter(files)))
        if fault:
            faults += 1
            shutil.copytree(folder, given.found / f"{given.seed}-{number}", dirs_exist_ok=True)
            print(f"{given.seed}-{number}: {fault}", flush=True)
    return faults


def try_files(trials, given):
    """Tries the files that are named. Returns how many faults were found."""
    faults = 0
    for path in given.files:
        fault = trials.all(pathlib.Path(path).absolute())
        if fault:
            faults += 1
            print(f"{path}: {fault}", flush=True)
    return faults


def run():
    given = argparse.ArgumentParser(description=__doc__.splitlines()[0])
    given.add_argument("--count", type=int, default=2000)
    given.add_argument("--seed", type=int, default=1)
    given.add_argument("--found", type=pathlib.Path, default=pathlib.Path("rng-found"))
    given.add_argument("--program", default=HERE.parents[2] / "build/xml/rng2rnc")
    given.add_argument("--as-they-are", action="store_true")
    given.add_argument("files", nargs="*", metavar="FILE.rng")
    given = given.parse_args()
    with tempfile.TemporaryDirectory() as room:
        trials = Trials(room, given.program)
        faults = try_files(trials, given) if given.as_they_are else try_random(trials, given)
    what = f"{len(given.files)} files" if given.as_they_are else f"seed {given.seed}: {given.count} schemas"
    counts = ", ".join(f"{count} {what}" for what, count in trials.counts.items())
    print(f"dev/search/fuzz: {what}: {counts}; {faults} faults found")
    return 1 if faults else 0


if __name__ == "__main__":
    sys.exit(run())
