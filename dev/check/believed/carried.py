"""Checks the reasons of the exceptions that are `carried`. run.py calls it.

Nobody needs to read what a carried relation says, since calls only hand it on: one call concludes it, and another takes it as a premise. This module
looks whether that is so. It finds each relation of a carried file in the clauses of the public calls, also where a believed definition names it, and
says whether it is a premise there (left of an arrow, below a negation, or in `requires`) or a conclusion.

- If a clause has it as a premise, another clause has it as a conclusion. Else the first clause says nothing.
- If a clause of a type's method has it as a premise, each other method that changes a value of the type (`&mut self`) has it as a conclusion, also one that
  calls.txt leaves out. Else a value may lose it, and the first clause says nothing from then on.
"""
import collections
import re

from texts import blocks, imports, is_file, methods_of, named_clauses, node_of_module, signature

STRING = re.compile(r'"(?:[^"\\]|\\.)*"')
TOKEN = re.compile(r"[()\[\]{},]|[^\s()\[\]{},]+")
DEFINITION = re.compile(r"^ *(?P<words>(?:(?:abbrev|unfoldable|opaque|pub|record|data) )+)(?P<name>[^\s:(){}]+)(?P<takes>.*?) : (?P<kind>.*)$")
CHANGES = re.compile(r"&(?:'\w+ )?mut self\b")
Clause = collections.namedtuple("Clause", "call method keyword name file text")


def nested(text):
    """The words of a text as nested lists, one for each pair of brackets. A bracket in a string is none."""
    stack = [[]]
    for token in TOKEN.findall(STRING.sub('""', text)):
        if token in "([{":
            stack.append([])
        elif token in ")]}":
            inner = stack.pop()
            stack[-1].append(inner)
        else:
            stack[-1].append(token)
    return stack[0]


def split_at(tokens, mark):
    """The parts of a list of words between these marks."""
    parts = [[]]
    for token in tokens:
        if token == mark:
            parts.append([])
        else:
            parts[-1].append(token)
    return parts


def signed_words(tokens, sign):
    """The words of a statement, with 1 for a conclusion and -1 for a premise: what is left of an arrow or below a negation changes its sign."""
    for member in split_at(tokens, ","):
        *premises, conclusion = split_at(member, "→")
        for part, own in [(part, -sign) for part in premises] + [(conclusion, sign)]:
            for before, token in zip([None, *part], part):
                for each in (own, -own) if "↔" in part else (-own,) if before == "¬" else (own,):
                    if isinstance(token, list):
                        yield from signed_words(token, each)
                    else:
                        yield token, each


def definitions(text):
    """The definitions of a file of specs by their names: whether it is a relation, and its statements."""
    found, name, depth, is_data = {}, None, 0, False
    for line in joined_lines(text):
        indent = len(line) - len(line.lstrip())
        head = DEFINITION.match(line)
        if head and (name is None or indent <= depth):
            name, depth, is_data = head["name"], indent, "data " in head["words"]
            found[name] = (is_relation(head), [])
        elif name and indent > depth:
            said = nested(behind(line, " : "))
            found[name][1].extend(split_at(said, "→")[:-1] if is_data else [said])
        elif name and line.split()[0] == name:
            found[name][1].append(nested(behind(line, " = ")))
    return found


def is_relation(head):
    takes_values = "→" in head["kind"] or "(" in head["takes"]
    return takes_values and head["kind"].removesuffix(" where").endswith("Type 0")


def joined_lines(text):
    """The lines of a text; a line that only goes on is joined to the one before."""
    lines = []
    for line in filter(str.strip, text.splitlines()):
        if lines and line.startswith("    ") and not re.match(r"\s*(?:pub )?[^\s:(]+ : ", line):
            lines[-1] += " " + line.strip()
        else:
            lines.append(line)
    return lines


def behind(line, mark):
    """What is behind the first mark of a line that is in no brackets."""
    depth = 0
    for at, sign in enumerate(line):
        depth += (sign in "([{") - (sign in ")]}")
        if depth == 0 and line.startswith(mark, at):
            return line[at + len(mark):]
    return ""


class Reasons:
    """What the public clauses say of the relations of carried files."""

    def __init__(self, crates, closure, carried):
        self.crates = crates
        self.files = {node for node in closure.parent if is_file(node)} | {node for node in carried if is_file(node)}
        self.defined = {file: definitions(crates.text(file)) for file in self.files}
        self.relations = {(file, name) for file in carried if is_file(file) for name, (is_relation, _) in self.defined[file].items() if is_relation}
        self.known = {}
        self.names = {}

    def imported(self, file):
        """The files that the imported names of a file are of."""
        if file not in self.names:
            pairs = [(node_of_module(self.crates, module), names) for module, names in imports(self.crates.text(file))]
            self.names[file] = {name: node for node, names in pairs if node in self.files for name in names}
        return self.names[file]

    def meaning_of(self, file, word):
        """The carried relations in what a word of a file says, with their signs. A word is NAME, or ALIAS.NAME for a name of another file."""
        head, _, tail = word.partition(".")
        source = self.imported(file).get(head, file)
        for name in (tail, head):
            if name in self.defined.get(source, ()):
                return self.meaning(source, name)
        return set()

    def meaning(self, file, name):
        """The carried relations in what a definition says, with their signs."""
        if (file, name) in self.relations:
            return {((file, name), 1)}
        if (file, name) not in self.known:
            self.known[file, name] = set()
            self.known[file, name] = self.signs(file, self.defined[file][name][1])
        return self.known[file, name]

    def signs(self, file, statements, sign=1):
        """The carried relations of these statements of a file, with their signs."""
        return {(relation, own * inner) for said in statements for word, own in signed_words(said, sign) for relation, inner in self.meaning_of(file, word)}

    def faults(self, calls):
        """A line for each clause that rests on a relation that is not handed on."""
        clauses = [clause for line in calls for clause in public_clauses(self.crates, *line.split())]
        others = [clause for line in calls for clause in other_clauses(self.crates, *line.split())]
        changing = sorted({pair for line in calls for pair in changing_methods(self.crates, *line.split()[:2])})
        said, said_by_others = self.said(clauses), self.said(others)
        for relation in sorted(self.relations):
            premises = [clause for clause, signs in said if (relation, -1) in signs]
            conclusions = [clause for clause, signs in said if (relation, 1) in signs and clause.keyword == "ensures"]
            kept = [clause for clause, signs in said_by_others if (relation, 1) in signs and clause.keyword == "ensures"]
            yield from lone_premises(relation, premises, conclusions)
            yield from lost(relation, premises, conclusions + kept, changing)

    def said(self, clauses):
        """These clauses, each with the carried relations in it and their signs."""
        return [(clause, self.signs(clause.file, [nested(clause.text)], -1 if clause.keyword == "requires" else 1)) for clause in clauses]


def lone_premises(relation, premises, conclusions):
    file, name = relation
    for clause in premises:
        if all(other is clause for other in conclusions):
            yield f"{file}: {name} is a premise of {reported(clause)}, and no other clause concludes it"


def lost(relation, premises, conclusions, changing):
    """The methods that change a value, and do not say that a relation that another method takes as a premise still holds."""
    file, name = relation
    for call, method in changing:
        taken = [clause for clause in premises if clause.call == call and clause.method != method and clause.keyword == "ensures"]
        if taken and not any((clause.call, clause.method) == (call, method) for clause in conclusions):
            yield f"{file}: {name} is a premise of {reported(taken[0])}, and {call}::{method} does not conclude it of what it changes"


def reported(clause):
    return f"the clause {' '.join(filter(None, (clause.keyword, clause.name)))} of {'::'.join(filter(None, (clause.call, clause.method)))}"


def public_clauses(crates, crate, name, *said):
    """The clauses of a public call, or of the methods of a type, without those that are left out."""
    call, methods = f"{crate}::{name}", methods_of(said)
    for file in crates.sources(crate):
        text = crates.text(file)
        for found in re.finditer(r"^pub fn %s\b" % name, text, re.M):
            yield from clauses_at(text, found.start(), file, call, "")
        if re.search(r"^pub struct %s\b" % name, text, re.M):
            for block, found in methods_in(text, name, methods):
                yield from (clause for clause in clauses_at(block, found.start(), file, call, found[1]) if clause.name not in methods.get(found[1], ()))


def other_clauses(crates, crate, name, *said):
    """The clauses of the public methods of a type that its line in calls.txt leaves out."""
    methods = methods_of(said)
    for file in crates.sources(crate) if methods else ():
        text = crates.text(file)
        if re.search(r"^pub struct %s\b" % name, text, re.M):
            for block, found in methods_in(text, name, ()):
                if found[1] not in methods:
                    yield from clauses_at(block, found.start(), file, f"{crate}::{name}", found[1])


def changing_methods(crates, crate, name):
    """The public methods of a type that change a value, each with the call of the type."""
    for file in crates.sources(crate):
        text = crates.text(file)
        if re.search(r"^pub struct %s\b" % name, text, re.M):
            for block, found in methods_in(text, name, ()):
                if CHANGES.search(signature(block, found.start())):
                    yield f"{crate}::{name}", found[1]


def methods_in(text, name, methods):
    """The public methods of a type, all or those with these names, and its methods for traits: each with its block."""
    for block in blocks(text, r"^impl(?:<[^{]*?>)? %s\b[^{]*\{" % name):
        for found in re.finditer(r"^ *pub fn (\w+)", block, re.M):
            if not methods or found[1] in methods:
                yield block, found
    for block in blocks(text, r"^impl\b[^\n{]*\b(?!Model\b)\w+ for %s\b[^{]*\{" % name):
        for found in re.finditer(r"^ *fn (\w+)", block, re.M):
            yield block, found


def clauses_at(text, start, file, call, method):
    """The clauses of the function at this offset."""
    for keyword, name, said in named_clauses(text, start)[0]:
        yield Clause(call, method, keyword, name, file, said)
