"""Tests of schemas of more files than the library takes: files are written into those that include them, and nothing else changes."""
import pathlib
import random
import re
import shutil
import tempfile
import unittest

from testing import RNCV, RNCV_XML, InFolder

COUNT = 120  # of random schemas
MENTIONED = re.compile(r"^# (?P<path>[^\n]+?)(?:, mentioned as (?P<name>[^\n]+))?\n", re.M)


class Merged(InFolder):
    """The schemas are small, and so is the number of files that the library gets (`--most-files`)."""

    def files(self, **texts):
        """Writes the files of a schema. The main one is `main`."""
        for name, text in texts.items():
            self.write(f"{name}.rnc", text)

    def printed(self, most, main="main.rnc"):
        """What the library gets: texts by the names that mention them."""
        out, status = self.judge("--most-files", most, "--print-schema", main)
        self.assertIn(status, (0, 3), out)
        found = [it for it in MENTIONED.finditer(out) if (self.folder / it["path"]).is_file()]
        ends = [it.start() - 1 for it in found[1:]] + [len(out)]
        return {it["name"] or it["path"]: out[it.end():end] for it, end in zip(found, ends)}

    def simple(self, texts):
        """The simple form of a schema, as `rncv` prints it."""
        folder = self.folder / "handed"
        shutil.rmtree(folder, ignore_errors=True)
        folder.mkdir()
        for name, text in texts.items():
            (folder / name).write_text(text, encoding="utf-8")
        out, _, status = self.run_in(RNCV, "simple", *texts, cwd=folder)
        return out, status

    def same(self, *counts, main="main.rnc"):
        """Whether the schema means the same, and is told the same, with fewer files. Returns what the fewest are."""
        wanted = self.judge("--all", main, "good.xml", "bad.xml")
        form = self.simple(self.printed(1000, main)) if wanted[1] < 3 else None
        for most in counts:
            self.assertEqual(self.judge("--most-files", most, "--all", main, "good.xml", "bad.xml"), wanted, most)
            texts = self.printed(most, main)
            self.assertLessEqual(len(texts), most)
            self.assertTrue(form is None or self.simple(texts) == form, (most, texts))
        return wanted, texts


class Cases(Merged):
    """Schemas whose merged text is known, or that break a clause."""

    def test_an_include_becomes_a_div(self):
        self.files(main='include "b.rnc" start = a', b="a = element a { empty }")
        self.assertEqual(self.printed(1), {"main.rnc": "namespace m1 = inherit\ndiv {a = element m1:a { empty }\n} start = a\n"})

    def test_overriding(self):
        self.files(main='default namespace = "u"\ninclude "b.rnc" { start = x [xml:b="c"] x &= element y { z } div { y |= empty } }',
                   b='## what comes\nstart = notAllowed # here\ndiv { x = element x { text } } y = empty | empty z = element z { y }\nx &= empty')
        (_, status), texts = self.same(1)
        self.assertEqual(status, 1)
        self.assertEqual(texts, {"main.rnc": 'namespace m1 = "u"\ndefault namespace = "u"\ndiv {\ndiv { } z = element m1:z { y } start = x '
                                             "x &= element y { z } div { y |= empty }\n}\n"})

    def test_namespaces(self):
        self.files(main='namespace p = "u" default namespace q = "v" include "b.rnc" inherit = p include "c.rnc" include "d.rnc" inherit = xml '
                        "start = element a { attribute a { text }, attribute p:a { text }, b, c, d }",
                   b='namespace m1 = inherit b = element b { e } e = element (m1:c | a | xml:x | (m1:* - b)) { attribute m1:c { text }, attribute b { "" } }',
                   c='default namespace = "" namespace p = "w" c = element c { element p:c { external "x.rnc" }, external "x.rnc" inherit = p }',
                   d='default namespace p = inherit d = element d { external "x.rnc" inherit = p, element p:d { empty } }', x="element x { empty }")
        self.same(5, 4, 3, 2)

    def test_datatypes(self):
        xsd = '"http://www.w3.org/2001/XMLSchema-datatypes"'
        self.files(main=f'datatypes a = {xsd} include "b.rnc" include "c.rnc" start = element a {{ attribute a {{ a:integer }} & b & c }}',
                   b=f'datatypes m1 = {xsd} b = element b {{ m1:integer {{ minInclusive = "1" [ xml:b = "c" ] maxInclusive = "2" }} | '
                     '(xsd:token - "a") | string "m1:a" }',
                   c="c = element c { attribute d { token }, (xsd:NCName | \"\"\"a'\"b\"\"\" ~ 'c' ~ \"\") }")
        self.same(2, 1)

    def test_names_that_look_like_others(self):
        self.files(main='include "b.rnc" { \\element = element element { \\start } } start = \\element | \\m1',
                   b="\\element = empty \\start = element (start | \\include | div) { attribute external { text }?, "
                     'attribute grammar|include { "include" }? } '
                     'm1 = element m1 { xsd:string { minLength = "1" } }\n#include "none.rnc"\n')
        self.same(1)

    def test_escapes_and_comments(self):
        self.files(main='include "b.rnc"\\x{20}start=element\\x{20}a{b}#\\x{A}include "c.rnc"', b='b=element\\x{9}\\x{62}{"\\x{A}#"}#end')
        self.same(1)

    def test_a_file_at_several_places(self):
        self.files(main='namespace p = "u" start = element a { grammar { include "b.rnc" inherit = p { b = parent c } }, grammar { include "b.rnc" } } '
                        'c = element c { empty }', b="start = b | element b { empty } b = element b { grammar { start = parent b } }?")
        (out, _), _ = self.same(1)
        self.assertNotIn("see docs", out)

    def test_what_stays(self):
        self.files(main='include "b.rnc" include "c.rnc" start = a | external "d.rnc" | p | c', b='include "e.rnc" a = external "e.rnc"',
                   c='namespace x = "u" c = element c { xsd:QName "x:y" }', d='grammar { include "f.rnc" }', e="p = element p { empty } start = p",
                   f="start = element f { empty }")
        self.assertEqual(list(self.printed(5)), ["main.rnc", "b.rnc", "c.rnc", "d.rnc", "e.rnc"])
        self.assertEqual(self.judge("--most-files", "4", "main.rnc"), (
            "main.rnc: the schema has 6 files. 5 are left after the others were written into them, and 4 are served: outside the profile\n", 3))

    def test_faults_are_told(self):
        for files, clause in (({"b": "b = c"}, "S15"), ({"b": "c = b"}, "S15"), ({"b": "b = empty b = text"}, "S13"),
                              ({"b": "b = element * - * { empty }"}, "S11"),
                              ({"b": "b = element a { xsd:integer 'x' }"}, "S12"), ({"b": "b = p:integer"}, "S8"), ({"b": "b = element a {"}, "S6"),
                              ({"b": "b = \x0c"}, "S4"), ({"b": "b = ("* 129}, "S7"), ({"b": 'include "main.rnc"'}, "S9"), ({"b": 'include "gone.rnc"'}, "S1"),
                              ({"b": 'include "d.rnc" { d = empty }', "d": "b = empty"}, "S10"), ({"b": 'include "d.rnc" { b = empty }', "d": "empty"}, "S10"),
                              ({"b": 'b = element b { attribute a { text }, attribute a { text } }'}, "S24"), ({"b": "#" * 1_048_577}, "S2"),
                              ({"b": 'include "d.rnc" { b = empty }', "d": 'b = external "gone.rnc"'}, "S1"),
                              ({"b": 'include "d.rnc" { b = empty }', "d": 'b = external "x.rnc"', "x": 'include "e.rnc" { e = empty }', "e": ""}, "S10"),
                              ({"b": 'include "d.rnc" { b = empty }', "d": 'b = grammar { include "e.rnc" { e = empty } }', "e": ""}, "S10")):
            self.files(main='include "b.rnc" include "c.rnc"\ninclude "é.rnc"\ninclude "h.rnc" start = element a { b }', c="", h="", **files)
            self.write("é.rnc", "")
            wanted = self.judge("main.rnc")
            self.assertRegex(wanted[0], f": {clause} ")
            for most in (6, 5, 4):
                found = self.judge("--most-files", most, "main.rnc")
                self.assertTrue(found == wanted or (most == 4 and "x" in files and " 5 are left after" in found[0]), (files, most, found, wanted))

    def test_a_chain_of_many_files(self):
        for number in range(100):
            self.write(f"n{number}.rnc", f'include "n{number + 1}.rnc" a{number} = element a {{ a{number + 1} }}')
        self.write("n100.rnc", "start = a90 a100 = element b { empty }")
        self.assertEqual(self.judge("n0.rnc"), ("", 0))
        self.assertEqual(len(self.printed(64, "n0.rnc")), 64)
        self.assertEqual(len(self.printed(1, "n0.rnc")), 1)
        self.write("n100.rnc", "start = a99 a100 = element b {\n}")
        self.assertRegex(self.judge("n0.rnc")[0], r"^n100\.rnc:2:1: S6 ")

    def test_many_files(self):
        self.write("main.rnc", "".join(f'include "f{number}.rnc"\n' for number in range(1024)))
        for number in range(1024):
            self.write(f"f{number}.rnc", f"a{number} = empty")
        self.assertEqual(self.judge("main.rnc"), ("main.rnc: the schema has more than 1,024 files: outside the profile\n", 3))
        self.write("main.rnc", "".join(f'include "f{number}.rnc"\n' for number in range(1023)) + "start = element a { a7 }")
        self.assertEqual(self.judge("main.rnc"), ("", 0))

    def test_files_in_the_xml_syntax(self):
        ns = 'xmlns="http://relaxng.org/ns/structure/1.0"'
        self.write("main.rng", f'<grammar {ns} ns="u"><include href="b.rng"><start><ref name="a"/></start></include><include href="c.rnc"/></grammar>')
        self.write("b.rng", f'<grammar {ns} ns="v"><start><text/></start><define name="a"><element name="a" ns=""><ref name="c"/></element></define></grammar>')
        self.write("c.rnc", "c = element c { empty }")
        self.same(2, 1, main="main.rng")
        self.write("c.rnc", "c = element c { d }")
        self.same(2, 1, main="main.rng")

    def test_files_that_are_given_and_not_mentioned(self):
        self.files(main='include "b.rnc" start = a', b="a = element a { empty }", c="start = ", d="")
        self.assertEqual(self.judge("--most-files", "1", "main.rnc", "b.rnc", "c.rnc", "d.rnc", "--"), ("", 0))


class Maker:
    """Random schemas of several files. Most break no clause, and some break one."""

    def __init__(self, seed):
        self.random = random.Random(seed)
        self.names = [f"n{number}" for number in range(6)]
        self.methods = {name: self.one("|=", "|=", "&=") for name in (*self.names, "start")}
        self.known = {}  # the names that a file's grammar has

    def one(self, *choices):
        return self.random.choice(choices)

    def schema(self):
        count = self.random.randint(2, 7)
        self.patterns = {f"x{number}.rnc": self.pattern_file() for number in range(self.random.randint(0, 2))}
        files = {}
        for number in range(count - 1, -1, -1):
            name = "main.rnc" if number == 0 else f"f{number}.rnc"
            files[name] = self.grammar_file(number, sorted(it for it in files if it.startswith("f")))
        return {**dict(reversed(files.items())), **self.patterns}

    def declarations(self):
        self.prefixes, self.libraries, text = ["xml"], ["xsd"], []
        if self.random.random() < 0.6:
            text.append(self.one('default namespace = "u"', 'default namespace = "v"', 'default namespace = ""', "default namespace = inherit",
                                 'default namespace m1 = "w"', "default namespace p = inherit"))
            self.prefixes += re.findall("namespace (m1|p) =", text[-1])
        for prefix in ("p", "q", "m2"):
            if self.random.random() < 0.5 and prefix not in self.prefixes:
                text.append(f"namespace {prefix} = " + self.one('"u"', "'v'", '"w"', '""', "inherit", '"u" ~ "v"', '"http://www.w3.org/XML/1998/namespace"'))
                self.prefixes.append(prefix)
        if self.random.random() < 0.4:
            text.append('datatypes d = "http://www.w3.org/2001/XMLSchema-datatypes"')
            self.libraries.append("d")
        self.random.shuffle(text)
        return "\n".join(text)

    def name(self):
        return self.one("a", "b", "c", "\\start", "element", *(f"{it}:{self.one('a', 'b', 'start')}" for it in self.prefixes))

    def name_class(self):
        chosen = self.random.random()
        if chosen < 0.7:
            return self.name()
        if chosen < 0.8:
            return f"({self.name()} | {self.name()})"
        prefix = self.one(*self.prefixes)
        return self.one("* - a", f"* - ({self.name()} | {prefix}:*)", f"{prefix}:*", f"{prefix}:* - {prefix}:a", "*")

    def inherit(self):
        return f" inherit = {self.one(*self.prefixes)}" if self.random.random() < 0.4 else self.one("", " ")

    def data(self):
        library = self.one(*self.libraries)
        return self.one("text", "empty", '"a"', 'string "p:a"', f'{library}:integer {{ minInclusive = "1" }}', f"{library}:token - ('a' | 'b')", "token",
                        f"{library}:NCName")

    def pattern(self, depth):
        chosen = self.random.random() if depth > 0 else self.random.random() * 0.4
        if chosen < 0.25:
            return self.one(*self.names)
        if chosen < 0.4:
            return self.one("empty", "notAllowed", "text", f"element {self.name_class()} {{ {self.data()} }}")
        if chosen < 0.6:
            return f"element {self.name_class()} {{ {self.attribute()}{self.pattern(depth - 1)} }}{self.one('', '?', '*', '+')}"
        if chosen < 0.8:
            sign = self.one(", ", " | ", "|", "&", " & ")
            return f"({self.pattern(depth - 1)}{sign}{self.pattern(depth - 1)})"
        if chosen < 0.87 and self.patterns:
            return f'external "{self.one(*self.patterns)}"{self.inherit()}'
        if chosen < 0.93 and self.includes:
            return f"grammar {{ {self.include()[0]} start {self.methods['start']} element a {{ empty }} }}"
        return f"[ xml:b = 'c' ] ({self.pattern(depth - 1)})"

    def attribute(self):
        if self.random.random() < 0.5:
            return ""
        return f"attribute {self.one(self.name(), self.name(), 'include', 'div')} {{ {self.one('text', self.data())} }}, "

    def pattern_file(self):
        self.includes, self.patterns = [], {}
        return f"{self.declarations()}\n{self.pattern(2)}"

    def component(self, name):
        method = self.methods[name] if self.random.random() < 0.97 else "="
        note = self.one("", "", "## note\n", "# start = \n", "[ x [ 'include' ] ] ")
        return f"{note}{name}{self.one(' ', '')}{method} {self.pattern(2)}"

    def include(self):
        """An include, and what the grammar then has."""
        file = self.one(*self.includes)
        names = sorted(self.known[file]) if self.random.random() < 0.97 else [*self.names, "start"]
        inside = "".join(f" {self.component(name)}" for name in self.random.sample(names, min(len(names), self.random.randint(0, 2))))
        braces = self.one("", f" {{{inside}\n}}", f" {{ div {{{inside}\n}} }}")
        return f'include "{file}"{self.inherit()}{braces}', self.known[file]

    def grammar_file(self, number, others):
        self.includes = others
        text = [self.declarations()]
        names = [self.names[number % 6], *self.random.sample([*self.names, "start"], self.random.randint(0, 2))]
        parts, known = [self.component(name) for name in names], set(names)
        for _ in range(self.random.randint(number == 0, 2)):
            part, more = self.include() if others else ("", ())
            parts.append(part)
            known.update(more)
        if number == 0:
            parts += [f"{name} {self.methods[name]} empty" for name in self.names]
            parts.append(f"start {self.methods['start']} element a {{ n0, n1 }}")
        self.known[f"f{number}.rnc"] = known
        self.random.shuffle(parts)
        return "\n".join(text + [f"div {{ {it} \n}}" if self.random.random() < 0.2 else it for it in parts]) + "\n"


class Random(Merged):
    """Random schemas: the same answers and simple forms, whatever the number of files is."""

    def test_random_schemas(self):
        taken = 0
        for seed in range(COUNT):
            with self.subTest(seed=seed), tempfile.TemporaryDirectory() as folder:
                self.folder = pathlib.Path(folder)
                self.write("good.xml", "<a/>")
                self.write("bad.xml", "<a xmlns='u'><b/></a>")
                files = Maker(f"{seed}").schema()
                for name, text in files.items():
                    self.write(name, text)
                taken += self.is_the_same(len(files))
        self.assertGreater(taken, COUNT // 5)

    def is_the_same(self, count):
        wanted = self.judge("--all", "main.rnc", "good.xml", "bad.xml")
        form = self.simple(self.printed(1000)) if wanted[1] < 3 else None
        for most in range(1, count):
            found = self.judge("--most-files", most, "--all", "main.rnc", "good.xml", "bad.xml")
            if "are left after" in found[0]:
                continue
            self.assertEqual(found, wanted, most)
            self.assertTrue(form is None or self.simple(self.printed(most)) == form, (most, form))
        return wanted[1] < 3


if __name__ == "__main__":
    unittest.main(verbosity=1)
