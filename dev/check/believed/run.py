#!/usr/bin/env python3
"""Computes which definitions the public contracts use, and says where they are.

    dev/check/believed/run.py [TOP]         (TOP: a checkout, else the one of this file)
    dev/check/believed/run.py --list [TOP]  the same, and a line for each file or type
    dev/check/believed/run.py --calls [TOP] the same, and a line for each call: what its contract alone uses
    dev/check/believed/run.py --why FILE    the imports that lead from a call to this file, or to this type

The calls are in dev/check/believed/calls.txt. The contract of a function is its `requires` and `ensures`. The contract of a type is the contracts of its
methods, what its `Model` says (its value, view and invariant), and what it says for other traits. A trait that bounds a parameter counts as a whole.

The closure starts from the names in these clauses, and follows the imports file by file. A name leads to the file of its `ghost use` line. A file of
`specs/` leads to the files of its `use` lines. A module of `specs.declared` leads to its Rust type. A type leads to what its `Model` says, if it has
one, else to the types of its fields.

It fails if a file or a type of the closure is outside the crates rng_model, rnc_model and rncv_model, unless dev/check/believed/exceptions.txt has it with
a reason. It also fails if the tour in docs/proof/DEFINITIONS.md (the tables whose first column is `File`) does not list exactly the files of the closure, or
lists one before a file that it uses. The kit's own crates are left out. An exception that `stays` is followed like the rest. An exception that is `carried` is a predicate or a view that
contracts only pass from one call to the next. Nothing depends on what it says, so the closure stops there, and the tour does not list it. That it is so
is checked too (carried.py): what one call takes as a premise another call concludes, and each call that changes the value concludes it again. An exception
that is `decided` is a file of functions that say what relations say, by theorems. The relations are believed, so the plain functions that it uses are not
followed. Its reason begins with the file of the proofs, which has to prove each of its statements.
"""
import collections
import os
import pathlib
import re
import sys

from carried import Reasons
from texts import TYPE, Crates, blocks, clauses, clauses_in, declaration, imports, is_file, methods_of, named_clauses, node_of_module, rows, signature, words

HERE = pathlib.Path(__file__).resolve().parent
MODELS = ("rng_model", "rnc_model", "rncv_model")
TOUR = "docs/proof/DEFINITIONS.md"
RUN = "rncv_run run"
README_LINE = r"\(([\d,]+) lines of code in (\d+) files; for `run` alone ([\d,]+) lines in (\d+) files\)"


class Closure:
    """The closure, as it grows: each node with the node or the call that led to it."""

    def __init__(self, crates, carried=(), decided=()):
        self.crates = crates
        self.carried = set(carried)
        self.decided = set(decided)
        self.met = set()
        self.parent = {}
        self.open = collections.deque()

    def add(self, node, parent):
        if node in self.carried:
            self.met.add(node)
        elif node is not None and node not in self.parent:
            self.parent[node] = parent
            self.open.append(node)

    def add_names(self, file, said, parent):
        """Adds what these words of a Rust file lead to: spec files by its `ghost use` lines, and the Rust types that they name."""
        text = self.crates.text(file)
        for module, names in imports(text):
            if names & said:
                self.add(node_of_module(self.crates, module), parent)
        for word in said:
            self.add(self.rust_type(file, word), parent)

    def rust_type(self, file, word):
        """The Rust type of the repository that a word means in a file, if it means one."""
        if not re.fullmatch(r"[A-Z]\w*", word):
            return None
        text = self.crates.text(file)
        if re.search(TYPE % word, text, re.M):
            return f"{file}: {word}"
        for found in re.finditer(r"^\s*(?:pub )?use (\w+)((?:::\w+)*)(?:::\{([^}]*)\}|::(\w+))?;", text, re.M):
            if word not in re.findall(r"\w+", found[3] or found[4] or found[2]):
                continue
            crate = file.split("/")[1] if found[1] in ("crate", "super") else found[1]
            return self.type_in(crate, word) if self.crates.is_crate(crate) else None
        return None

    def type_in(self, crate, word):
        for file in self.crates.sources(crate):
            if re.search(TYPE % word, self.crates.text(file), re.M):
                return f"{file}: {word}"
        for found in re.finditer(r"^pub use (\w+)::[^;]*\b%s\b[^;]*;" % word, self.crates.text(f"crates/{crate}/src/lib.rt"), re.M):
            if self.crates.is_crate(found[1]):
                return self.type_in(found[1], word)
        return None

    def follow(self):
        while self.open:
            node = self.open.popleft()
            if node.endswith(".antt"):
                for module, _ in imports(self.crates.text(node)):
                    if node not in self.decided or ".plain." not in module:
                        self.add(node_of_module(self.crates, module), node)
            elif ": " in node:
                self.follow_type(node)

    def follow_type(self, node):
        """Adds what a Rust type leads to: all clauses of a trait; what the `Model` of a type says, or else the type's fields."""
        file, name = node.split(": ")
        text = self.crates.text(file)
        if re.search(r"\btrait %s\b" % name, text):
            self.add_trait(file, name)
            return
        models = list(blocks(text, r"^impl\b[^\n{]*\bModel for %s\b[^{]*\{" % name))
        if models:
            self.add_names(file, words("".join(models)), node)
        else:
            self.add_names(file, words(declaration(text, name)), node)

    def add_trait(self, file, name):
        text = self.crates.text(file)
        for block in blocks(text, r"\btrait %s\b[^{]*\{" % name):
            said = "".join(re.findall(r"ghost \w+:[^;]*;", block))
            self.add_names(file, words(said + clauses_in(block)), f"{file}: {name}")

    def add_call(self, crate, name, *methods):
        """Adds the contract of a public call: a function, or a type with all its public methods or only with these methods (`methods_of`)."""
        call = f"{crate} {name}"
        for file in self.crates.sources(crate):
            text = self.crates.text(file)
            if re.search(r"^pub fn %s\b" % name, text, re.M):
                self.add_function(file, text, re.search(r"^pub fn %s\b" % name, text, re.M).start(), call)
                return
            if re.search(r"^pub struct %s\b" % name, text, re.M):
                self.add_type(file, text, name, methods_of(methods), call)
                return
        raise SystemExit(f"dev/check/believed/calls.txt: no public `{name}` in {crate}")

    def add_function(self, file, text, start, call):
        said = words(" ".join(clauses(text, start)[0]))
        self.add_names(file, said, call)
        for word in re.findall(r"\b[A-Z]\w*", signature(text, start)):
            self.add(self.rust_type(file, word), call)

    def add_type(self, file, text, name, methods, call):
        traits = r"(?!Model\b)\w+" if self.is_carried(f"{file}: {name}") else r"\w+"
        for block in blocks(text, r"^impl\b[^\n{]*\b%s for %s\b[^{]*\{" % (traits, name)):
            said = "".join(re.findall(r"ghost (?!use)[^;]*;", block))
            self.add_names(file, words(said + clauses_in(block)), call)
        for block in blocks(text, r"^impl(?:<[^{]*?>)? %s\b[^{]*\{" % name):
            for at in re.finditer(r"^ *pub fn (\w+)", block, re.M):
                if methods and at[1] not in methods:
                    continue
                said = {clause: text for _, clause, text in named_clauses(block, at.start())[0]}
                left_out = methods.get(at[1], set())
                if left_out - set(said):
                    raise SystemExit(f"dev/check/believed/calls.txt: {name}::{at[1]} has no clause {', '.join(left_out - set(said))}")
                self.add_names(file, words(" ".join(text for clause, text in said.items() if clause not in left_out)), call)
                for word in re.findall(r"\b[A-Z]\w*", signature(block, at.start())):
                    self.add(self.rust_type(file, word), call)

    def is_carried(self, node):
        if node in self.carried:
            self.met.add(node)
        return node in self.carried

    def way_to(self, node):
        """The nodes from a call to this one."""
        way = [node]
        while way[0] in self.parent:
            way.insert(0, self.parent[way[0]])
        return way


def closure_of(top, calls, carried=(), decided=()):
    closure = Closure(Crates(top), carried, decided)
    for line in calls:
        closure.add_call(*line.split())
    closure.follow()
    return closure


def stands_right(node):
    """Whether a file or a type is in a place that is allowed for believed definitions."""
    crate, folder = node.split("/")[1:3]
    return crate in MODELS and (folder == "specs" if is_file(node) else folder == "src")


def toured(top):
    """The files that the tour lists, in the first column of the tables with the head `File`."""
    listed, takes = [], False
    for line in (pathlib.Path(top) / TOUR).read_text().splitlines():
        cells = [cell.strip() for cell in line.strip().strip("|").split("|")]
        if not line.startswith("|"):
            takes = False
        elif cells[0] == "File":
            takes = True
        elif takes and not set(cells[0]) <= set("-: "):
            listed += [f"crates/{name}" for name in re.findall(r"`([\w/]+\.antt)`", cells[0])]
    return listed


def faults(top, closure, exceptions):
    """What is wrong: a node outside, an unnecessary exception, a file that the tour lacks, or one that it should not list."""
    nodes = set(closure.parent)
    for node in sorted(nodes):
        if not stands_right(node) and node not in exceptions:
            yield f"{node} is in the closure and outside {', '.join(MODELS)}: by {closure.way_to(node)[-2]}"
    for node in sorted(exceptions):
        if node not in nodes | closure.met or node in nodes and stands_right(node) and node not in closure.decided:
            yield f"dev/check/believed/exceptions.txt: {node} is not an exception"
    files, listed = {node for node in nodes if is_file(node)}, toured(top)
    for name in sorted(files - set(listed)):
        yield f"{TOUR}: the tour lacks {name}"
    for name in sorted(set(listed) - files):
        yield f"{TOUR}: the tour lists {name}, which is not in the closure"
    for name in sorted(set(listed)):
        if listed.count(name) > 1:
            yield f"{TOUR}: the tour lists {name} twice"
    yield from order_faults(closure.crates, listed)


def undecided(crates, reasons):
    """The statements of files that are `decided` for which the file that the reason begins with has no theorem."""
    for node, reason in reasons.items():
        proofs = reason.split()[0]
        proved = set(re.findall(r"^pub [^\s:]+ : (\w+)$", crates.text(proofs), re.M)) if (crates.top / proofs).is_file() else set()
        for statement in re.findall(r"^abbrev pub ([A-Z]\w*) : Type 0$", crates.text(node), re.M):
            if statement not in proved:
                yield f"dev/check/believed/exceptions.txt: {proofs} does not prove {statement} of {node}"


def order_faults(crates, listed):
    """A file of the tour comes after those that it uses."""
    place = {name: number for number, name in enumerate(listed)}
    for name in place:
        if (crates.top / name).is_file():
            for module, _ in imports(crates.text(name)):
                used = node_of_module(crates, module)
                if place.get(used, 0) > place[name]:
                    yield f"{TOUR}: {name} comes before {used}, which it uses"


def print_by_folder(closure, whole):
    """Prints the closure by folder: its files and their lines of code, and its Rust types."""
    folders = collections.defaultdict(list)
    for node in sorted(closure.parent):
        folders[node.rsplit("/", 1)[0]].append(node)
    for folder, nodes in folders.items():
        lines = sum(closure.crates.lines(node) for node in nodes if is_file(node))
        print(f"{folder}: {len(nodes)} files, {lines} lines of code" if is_file(nodes[0]) else f"{folder}: {len(nodes)} types")
        for node in nodes if whole else ():
            print(f"    {node.rsplit('/', 1)[1]}" + (f" {closure.crates.lines(node)}" if is_file(node) else ""))
    print(f"believed: {Size(closure)}")


class Size:
    """How many files, lines of code and Rust types a closure has."""

    def __init__(self, closure):
        files = [node for node in closure.parent if is_file(node)]
        self.files = len(files)
        self.lines = sum(map(closure.crates.lines, files))
        self.types = len(closure.parent) - len(files)

    def __str__(self):
        return f"{self.files} files, {self.lines} lines of code, {self.types} Rust types"


def print_by_call(top, calls, carried, decided):
    """Prints the size of the closure of each call."""
    for call in calls:
        print(f"{call}: {Size(closure_of(top, [call], carried, decided))}")


def readme_faults(top, size, size_of_run):
    """README says how much there is to believe, for all calls and for `run`; its figures are these."""
    said = re.search(README_LINE, " ".join((pathlib.Path(top) / "README.md").read_text().split()))
    wanted = [f"{figure:,}" for figure in (size.lines, size.files, size_of_run.lines, size_of_run.files)]
    if not said:
        yield f"README.md: no sentence has the figures {', '.join(wanted)}"
    elif list(said.groups()) != wanted:
        yield f"README.md: the figures are {', '.join(wanted)}, and it says {', '.join(said.groups())}"


def exceptions_of(path):
    """The exceptions, each with `stays`, `carried` or `decided`: a line is `NODE stays because REASON`, and likewise for the others."""
    return dict(line.split(" because ")[0].rsplit(" ", 1) for line in rows(path))


def reasons_of(path, kind):
    """The exceptions of a kind, each with its reason."""
    return {words[0]: line.split(" because ", 1)[1] for line in rows(path) for words in [line.split(" ")] if f" {kind} because " in line}


def judged(top, data):
    """The closure of a checkout by the calls and the exceptions of a folder, and its faults."""
    exceptions, calls = exceptions_of(data / "exceptions.txt"), rows(data / "calls.txt")
    carried = [node for node, kind in exceptions.items() if kind == "carried"]
    decided = reasons_of(data / "exceptions.txt", "decided")
    closure = closure_of(top, calls, carried, decided)
    found = [*faults(top, closure, exceptions), *undecided(closure.crates, decided), *Reasons(closure.crates, closure, closure.met).faults(calls)]
    if RUN in calls:
        found += readme_faults(top, Size(closure), Size(closure_of(top, [RUN], carried, decided)))
    return closure, found


def print_ways(closure, part):
    """Prints how each node with this part in its name is reached."""
    for node in closure.parent:
        if part in node:
            print("\n    ".join(closure.way_to(node)))


def main(arguments):
    if "--help" in arguments or "-h" in arguments:
        print(__doc__.strip())
        return 0
    why = arguments[arguments.index("--why") + 1] if "--why" in arguments[:-1] else None
    tops = [word for word in arguments if not word.startswith("-") and word != why]
    closure, found = judged(pathlib.Path(tops[0]) if tops else HERE.parents[2], HERE)
    if why:
        print_ways(closure, why)
        return 0
    print_by_folder(closure, "--list" in arguments)
    if "--calls" in arguments:
        print_by_call(closure.crates.top, rows(HERE / "calls.txt"), closure.carried, closure.decided)
    print("".join(f"FAULT {fault}\n" for fault in found), end="")
    return 1 if found else 0


if __name__ == "__main__":
    try:
        status = main(sys.argv[1:])
        sys.stdout.flush()
    except BrokenPipeError:
        # ends like a program that SIGPIPE ends, without a message
        os.dup2(os.open(os.devnull, os.O_WRONLY), sys.stdout.fileno())
        status = 141
    sys.exit(status)
