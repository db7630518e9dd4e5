"""Tests of the recipes of docs/use/XML.md, as they are written there, in a folder that git keeps."""
import json
import os
import re
import subprocess
import unittest

from testing import PROGRAMS, RNCV, TOP, InFolder


class Recipes(InFolder):
    PAGE = (TOP / "docs/use/XML.md").read_text(encoding="utf-8")

    def setUp(self):
        super().setUp()
        (self.folder / "s.rnc").rename(self.folder / "schema.rnc")
        (self.folder / "cut.xml").unlink()

    def recipe(self, heading, number=0):
        """A block of code under a heading of the page."""
        part = re.search(rf"^##+ {heading}\n(.*?)(?=^##|\Z)", self.PAGE, re.M | re.S)[1]
        return re.findall(r"^```recipe\n(.*?)^```$", part, re.M | re.S)[number]

    def run_shell(self, script):
        """Runs a script, in which git does not see what is set elsewhere."""
        who = {f"GIT_{role}_{what}": "a@b" for role in ("AUTHOR", "COMMITTER") for what in ("NAME", "EMAIL")}
        path = os.pathsep.join((str(PROGRAMS), str(RNCV.parent), os.environ["PATH"]))
        kept = {name: value for name, value in os.environ.items() if not name.startswith("GIT_")}
        run = subprocess.run(["bash", "-c", script], cwd=self.folder, capture_output=True, timeout=60, check=False, text=True, stdin=subprocess.DEVNULL,
                             env={**kept, **who, "PATH": path, "GIT_CONFIG_GLOBAL": "/dev/null"})
        return run.stdout + run.stderr, run.returncode

    def test_makefile(self):
        self.wanted("make")
        self.write("Makefile", self.recipe("Makefile"))
        self.assertEqual(self.run_shell("make -s good.checked"), ("", 0))
        out, status = self.run_shell("make -s bad.checked")
        self.assertRegex(out, r"^bad\.xml:3:3: invalid: <c> is not allowed here; expected the end of <a>\n")
        self.assertNotEqual(status, 0)
        self.assertEqual(sorted(path.name for path in self.folder.glob("*.checked")), ["good.checked"])

    def test_commit_hook(self):
        self.wanted("git", "xargs")
        self.run_shell("git init -q")
        self.write(".git/hooks/pre-commit", self.recipe("Before each commit"))
        (self.folder / ".git/hooks/pre-commit").chmod(0o755)
        (self.folder / "good.xml").rename(self.folder / "good one.xml")
        self.assertEqual(self.run_shell("git add schema.rnc && git commit -qm 1"), ("", 0))
        self.assertEqual(self.run_shell("git add 'good one.xml' && git commit -qm 2"), ("", 0))
        out, status = self.run_shell("git add bad.xml && git commit -qm 3")
        self.assertEqual((out, status, self.run_shell("git log --format=%s")[0]), ("bad.xml:3:3: invalid: <c> is not allowed here; expected the end of <a>\n", 1, "2\n1\n"))

    def test_the_hook_of_pre_commit(self):
        page = (TOP / ".pre-commit-hooks.yaml").read_text()
        entry = re.search(r"entry: (.*)", page)[1]
        arguments = re.search(r"args: \[(.*)\]", self.PAGE)[1].split(", ")
        self.assertEqual(self.judge_by(entry, *arguments, "good.xml", "bad.xml"), ("bad.xml:3:3: invalid: <c> is not allowed here; expected the end of <a>\n", 1))

    def judge_by(self, entry, *words):
        self.assertEqual(entry, "rncv-xml")
        return self.judge(*words)

    def test_ci_job(self):
        self.wanted("git")
        script = "\n".join(re.findall(r"^ *- (.*)$", self.recipe("A CI job"), re.M))
        self.assertEqual(self.run_shell(f"git init -q && git add good.xml\n{script}"), ("", 0))
        self.assertEqual(self.run_shell(f"git add bad.xml\n{script}"), ("bad.xml:3:3: invalid: <c> is not allowed here; expected the end of <a>\n", 1))

    def test_problem_matchers(self):
        for heading, number, path in (("A CI job", 1, ("problemMatcher", 0)), ("An editor", 0, ("tasks", 0, "problemMatcher"))):
            found = json.loads(self.recipe(heading, number))
            for step in path:
                found = found[step]
            pattern = found["pattern"][0] if isinstance(found["pattern"], list) else found["pattern"]
            out, _ = self.judge("schema.rnc", "bad.xml")
            groups = re.match(pattern["regexp"], out.rstrip()).groups()
            self.assertEqual(tuple(groups[pattern[name] - 1] for name in ("file", "line", "column", "message")), ("bad.xml", "3", "3", "invalid: <c> is not allowed here; expected the end of <a>"))

    def test_xinclude(self):
        self.wanted("xmllint")
        self.write("b.xml", "<b/>")
        self.write("book.xml", '<a x="" xmlns:xi="http://www.w3.org/2001/XInclude"><xi:include href="b.xml"/></a>')
        self.write("schema.rnc", "element a { attribute * { text }*, element b { attribute * { text }* } }")
        self.assertEqual(self.run_shell(self.recipe("With other tools")), ("", 0))
        self.write("b.xml", "<b>")
        self.assertNotEqual(self.run_shell(self.recipe("With other tools"))[1], 0)

    def test_parallel(self):
        self.wanted("parallel", "find", "sort")
        for number in range(20):
            self.write(f"documents/d {number:02}.xml", '<a x="1"/>' if number % 2 else "<a/>")
        script = self.recipe("Many machines").replace("-n 500", "-n 3")
        self.run_shell(f"mkdir -p home; export HOME=$PWD/home; {script}")
        found = [json.loads(line) for line in (self.folder / "answers.json").read_text().splitlines()]
        self.assertEqual([(each["file"], each["verdict"]) for each in found],
                         [(f"documents/d {number:02}.xml", "valid" if number % 2 else "invalid") for number in range(20)])

    def test_names_by_a_pipe(self):
        """What Spark's `pipe` does: names on standard input, an object a document on standard output."""
        command = re.search(r'names\.pipe\("(.*?)"', self.PAGE)[1]
        out, status = self.judge(*command.split()[1:], given=b"good.xml\nbad.xml\n")
        self.assertEqual(([json.loads(line)["verdict"] for line in out.splitlines()], status), (["valid", "invalid"], 1))


if __name__ == "__main__":
    unittest.main(verbosity=1)
