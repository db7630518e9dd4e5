"""Reads the Rust files and the files of specs of a checkout: modules, imports, clauses and declarations."""
import pathlib
import re

WORD = re.compile(r"[^\s(){}\[\],;.&<>:!?\"]+")
USE = re.compile(r"(?:pub )?use Rattle\.([\w.\-◌]+?)(?:\.\{([^}]*)\}| as (\w+))?\s*(?:;|$)", re.M)
IMPORT = re.compile(r"^[ \t]*(?:pub )?use [^\n{]*(?:\{[^}]*\})?[^\n]*$", re.M)
TYPE = r"^(?: *)(?:pub(?:\([^)]*\))? )?(?:struct|enum|trait) %s\b"


class Crates:
    """The crates of a checkout, with the texts of their files."""

    def __init__(self, top):
        self.top = pathlib.Path(top)
        self.texts = {}

    def path(self, name):
        return self.top / name

    def text(self, name):
        """The text of a file, by its path from the top, without comments."""
        if name not in self.texts:
            text = self.path(name).read_text()
            comment = r"//[^\n]*" if name.endswith(".rt") else r"(?m)(?:^|(?<=\s))--(?:[ \t][^\n]*|$)"
            self.texts[name] = re.sub(comment, "", text)
        return self.texts[name]

    def is_crate(self, name):
        return self.path(f"crates/{name}/src").is_dir()

    def lines(self, name):
        """The number of lines of code of a file of specs: the lines that are not blank, no comment, and no import."""
        return sum(bool(line.strip()) for line in IMPORT.sub("", self.text(name)).splitlines())

    def sources(self, crate):
        return sorted(str(path.relative_to(self.top)) for path in self.path(f"crates/{crate}/src").rglob("*.rt"))


def node_of_module(crates, module):
    """The file or the Rust type of a module `crate.specs.PATH`; None for a module of the kit or of proofs."""
    parts = module.split(".")
    if not crates.is_crate(parts[0]) or parts[1:2] != ["specs"]:
        return None
    if parts[2:3] == ["declared"] or parts[2:3] == ["contracts"]:
        return node_of_declared(crates, parts[0], parts[3:])
    for end in range(len(parts), 2, -1):
        name = f"crates/{parts[0]}/specs/{'/'.join(parts[2:end])}.antt"
        if crates.path(name).is_file():
            return name
    return node_of_module(crates, reexported(crates, parts))


def reexported(crates, parts):
    """The module that a `pub use` line of the crate's `specs/Lib.antt` exports under this name."""
    for module, names in imports(crates.text(f"crates/{parts[0]}/specs/Lib.antt")):
        if parts[2] in names:
            return ".".join([module, *parts[3:]])
    raise SystemExit(f"no file for Rattle.{'.'.join(parts)}")


def node_of_declared(crates, crate, parts):
    """The Rust type `FILE: NAME` of a module below `specs.declared`; None if it is not a type (constants, a derived impl)."""
    for end in range(len(parts), 0, -1):
        name = f"crates/{crate}/src/{'/'.join(parts[:end])}.rt"
        if crates.path(name).is_file():
            return f"{name}: {parts[end]}" if parts[end:] and re.search(TYPE % parts[end], crates.text(name), re.M) else None
    raise SystemExit(f"no type for Rattle.{crate}.specs.declared.{'.'.join(parts)}")


def imports(text):
    """The imports of a text as (module, names). An alias counts as a name."""
    for found in USE.finditer(re.sub(r"\{([^}]*)\}", lambda at: "{" + at[1].replace("\n", " ") + "}", text)):
        module, names, alias = found[1], found[2], found[3]
        if names is not None:
            yield module, {part.strip().split(" as ")[-1] for part in names.split(",") if part.strip()}
        elif alias:
            yield module, {alias}
        else:
            yield module, {module.split(".")[-1]}


def balanced(text, start):
    """The end of the bracket that opens at this offset."""
    depth = 0
    for at in range(start, len(text)):
        if text[at] in "{(":
            depth += 1
        elif text[at] in "})":
            depth -= 1
            if depth == 0:
                return at + 1
    raise SystemExit("a bracket is not closed")


def clauses(text, start):
    """The clauses of the function whose `fn` is at this offset, and where its body begins."""
    said, end = named_clauses(text, start)
    return [clause for _, _, clause in said], end


def named_clauses(text, start):
    """The clauses as (`requires` or `ensures`, the name or nothing, the clause), and where the body begins."""
    said = []
    at = text.index("(", start)
    at = balanced(text, at)
    while True:
        found = re.compile(r"\b(requires|ensures)\b(?: (\w+))? (?=\{)|\{|;").search(text, at)
        if found is None or found[0] in "{;":
            return said, found.start() if found else len(text)
        at = balanced(text, found.end())
        said.append((found[1], found[2] or "", text[found.end():at]))


def methods_of(said):
    """The methods that a line of calls.txt names, each with the names of its clauses that are left out: `METHOD`, or `METHOD-CLAUSE` once for each."""
    methods = {}
    for word in said:
        method, _, clause = word.partition("-")
        methods.setdefault(method, set()).update({clause} - {""})
    return methods


def clauses_in(block):
    """The clauses of all functions of a block, as one text."""
    return "".join(" ".join(clauses(block, at.start())[0]) for at in re.finditer(r"\bfn \w+", block))


def signature(text, start):
    """The text of a function's head, from its `fn` to its first clause or its body."""
    end = re.compile(r"\b(?:requires|ensures)\b|\{|;").search(text, balanced(text, text.index("(", start)))
    return text[start:end.start() if end else len(text)]


def blocks(text, head):
    """The texts of the blocks whose head, up to the brace, matches a pattern."""
    for found in re.finditer(head, text, re.M):
        start = text.index("{", found.end() - 1 if found[0].endswith("{") else found.end())
        yield text[start:balanced(text, start)]


def words(text):
    return set(WORD.findall(text))


def declaration(text, name):
    """The declaration of a struct or an enum, without the lines before it."""
    found = re.search(TYPE % name, text, re.M)
    end = re.compile(r"[{(;]").search(text, found.end())
    return text[found.start():end.end()] if end[0] == ";" else text[found.start():balanced(text, end.start())]


def rows(path):
    """The lines of a data file without comments and empty lines."""
    return [line for line in path.read_text().splitlines() if line.strip() and not line.startswith("#")]


def is_file(node):
    return node.endswith(".antt")
