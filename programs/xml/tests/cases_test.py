"""Tests of `rncv-xml` on the hand-made documents of `cases.tsv`: it answers what the table says. jing and xmllint are not needed."""
import collections
import json
import re
import subprocess
import unittest

import cases
import second_opinion
from testing import RNCV, RNCV_XML, XML2PYX, InFolder

LIMIT = re.compile(r"more than [0-9,]+|too many|amplification")
# They must not be opened. Who loads them has another answer in many cases.
DECLARATIONS = "<!ENTITY ext 'loaded'><!ATTLIST a ext CDATA 'loaded'>"
FILES = {"s.ent": "loaded", "s.mod": DECLARATIONS, "s.dtd": DECLARATIONS}


def is_right(case, line):
    """Whether an answer in JSON is one of a case."""
    reported = line.get("message", "")
    if "limit" in case.answers and (line.get("clause") == "P10" or line["verdict"] == "outside" and LIMIT.search(reported)):
        return True
    return line["verdict"] in case.answers


class Documents(InFolder):
    def setUp(self):
        super().setUp()
        for name, text in FILES.items():
            self.write(name, text)

    def judged(self, schema, names):
        """The answers about documents, None for a run that ended badly."""
        run = subprocess.run([RNCV_XML, "--format", "json", schema, "--", *names], cwd=self.folder, capture_output=True, timeout=300, check=False)
        lines = run.stdout.decode("utf-8").split("\n")[:-1]
        if len(lines) == len(names) and run.returncode in (0, 1, 2) and b"runtime error" not in run.stderr and b"Sanitizer" not in run.stderr:
            return [json.loads(line) for line in lines]
        return [None] if len(names) == 1 else [self.judged(schema, [name])[0] for name in names]

    def test_the_answers(self):
        groups = collections.defaultdict(list)
        for case in cases.read():
            if cases.is_known(case.encoding):
                groups[case.schema].append(case)
        for schema, group in groups.items():
            self.write("case.rnc", cases.compact(schema))
            names = [self.write(f"d{number}.xml", case.data()).name for number, case in enumerate(group)]
            for case, line in zip(group, self.judged("case.rnc", names)):
                with self.subTest(case=case.name):
                    self.assertTrue(line and is_right(case, line), f"{'|'.join(case.answers)} is right, and not {line}; {case.document[:300]}")


    def test_the_second_opinion(self):
        """By events and by PYX each document has the same verdict."""
        if not RNCV.exists() or not XML2PYX.exists():
            self.skipTest("no rncv or no xml2pyx")
        groups = collections.defaultdict(list)
        for case in cases.read():
            if cases.is_known(case.encoding):
                groups[case.schema].append(case)
        known = 0
        for schema, group in groups.items():
            self.write("case.rnc", cases.compact(schema))
            names = [self.write(f"d{number}.xml", case.data()).name for number, case in enumerate(group)]
            for case, name, line in zip(group, names, self.judged("case.rnc", names)):
                opinion = second_opinion.by_pyx("case.rnc", name, self.folder)
                known += opinion is not None
                with self.subTest(case=case.name):
                    self.assertTrue(second_opinion.is_same(line["verdict"], line.get("clause"), opinion), f"{line}, and {opinion} by PYX")
        self.assertGreater(known, 400)


class Table(unittest.TestCase):
    """The table itself."""

    def test_that_each_name_is_there_once(self):
        names = collections.Counter(case.name for case in cases.read())
        self.assertEqual([name for name, number in names.items() if number > 1], [])

    def test_that_each_answer_is_one(self):
        for case in cases.read():
            with self.subTest(case=case.name):
                self.assertLessEqual(set(case.answers), {"valid", "invalid", "malformed", "outside", "limit"})
                self.assertLessEqual({case.jing, case.xmllint}, {"valid", "invalid", "malformed", "failed"})

    def test_that_each_difference_has_a_reason(self):
        known = cases.reasons()
        for case in cases.read():
            keys = [] if case.reason == "-" else case.reason.split(",")
            with self.subTest(case=case.name):
                self.assertEqual(case.differs(), bool(keys), f"{case.answers}; jing: {case.jing}, xmllint: {case.xmllint}")
                self.assertLessEqual(set(keys), set(known))


if __name__ == "__main__":
    unittest.main()
