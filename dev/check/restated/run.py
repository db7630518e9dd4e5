#!/usr/bin/env python3
"""Refuses a new lemma that states what a lemma of the kit states, or another lemma of this repository.

    dev/check/restated/run.py [TOP]      (TOP: a checkout, else the one of this file)
    dev/check/restated/run.py --shrink   takes from known.txt and copies.txt what is no longer there

The lemmas of the kit are those that `std.proofs.lemmas` exports: every crate can cite them. Two statements are the same if they differ only in the names of
their variables, in which of these are implicit, and in brackets around `x && y` or `x || y` before `≡`. The lemmas that may restate one are in known.txt, a
line for each, by name: it may only become shorter. A line there without a lemma is a fault too. Short statements are not compared, and without `rt` nothing
is compared with the kit.

The statement of a lemma in a module begins with the parameters that it or its proof needs. One in a `where` is compared unless it needs a variable from
outside. Definitions with the same name count as the same, since those that are alike are to be one too. The lemmas of this repository that may be stated
twice are in copies.txt, a line for each statement: its lemmas, and after a colon why they stay. This file too may only become shorter.
"""
import collections
import pathlib
import re
import shutil
import subprocess
import sys

HERE = pathlib.Path(__file__).resolve().parent
DECLARED = re.compile(r"^(\s*)(pub )?([^\s:(){}]+)((?: \{[^}]*\}| \([^)]*\))*) : (.*)$")
EXPORTED = re.compile(r"^pub use Rattle\.([\w.\-◌]+)\.\{([^}]*)\}", re.M)
BRACKETS = re.compile(r"\(([\w'\-]+ (?:&&|\|\|) [\w'\-]+)\) ≡")  # around an operand of `≡` that needs none
LEAST = 25  # characters of a statement that is compared
WORD = re.compile(r"[^\s(){},;]+")
GOAL = re.compile(r"(?<![\w\-])(goal\.|(\w+\.)?statement(?![\w\-]))")  # what the prover asks, by a name of its own


def statements(text):
    """The declarations of a file of lemmas, each with its line, whether it is `pub`, its name and its statement on one line."""
    lines = text.split("\n")
    for at, line in enumerate(lines):
        found = DECLARED.match(line)
        if not found or line.lstrip().startswith(("--", "use ", "pub use ", "abbrev ", "data ", "record ", "module ")):
            continue
        said = found[5]
        for more in lines[at + 1:]:
            if not more.strip() or len(more) - len(more.lstrip()) <= len(found[1]):
                break
            said += " " + more.strip()
        yield at + 1, bool(found[2]), found[3], f"{found[4].strip()} → {said}" if found[4] else said


def normal(statement):
    """A statement with numbered variables, each in brackets of its own."""
    text = re.sub(r"\s+", " ", statement.replace("{", "(").replace("}", ")"))
    text = BRACKETS.sub(r"\1 ≡", text)
    names = list(dict.fromkeys(name for names in re.findall(r"\(([^():]+?) ?:", text) for name in names.split()))
    text = re.sub(r"\(([^():]+?) ?: ?([^()]*)\)", lambda at: " ".join(f"({name} : {at[2]})" for name in at[1].split()), text)
    for number, name in enumerate(names):
        text = re.sub(rf"(?<![\w\-'.]){re.escape(name)}(?![\w\-'])", f"v{number}", text)
    return re.sub(r"\) → (?=\()", ") ", text).strip()


def is_compared(form):
    return len(form) >= LEAST and ("≡" in form or "↔" in form or "(v0 : " in form)


def binders(text):
    """The names that brackets bind, each with its type: `(x y : A) {B : Type 0}` has three."""
    at = 0
    while at < len(text):
        if text[at] not in "({":
            at += 1
            continue
        end, depth = at, 0
        while end < len(text):
            depth += (text[end] in "({") - (text[end] in ")}")
            end += 1
            if not depth:
                break
        names, colon, kind = text[at + 1:end - 1].partition(" : ")
        yield from ((name, kind) for name in names.split() if colon)
        at = end


def around(lines, at):
    """What a line is in, from the innermost outwards: pairs of the first line of each and all of its lines before the body."""
    least = len(lines[at]) - len(lines[at].lstrip())
    for above in range(at - 1, -1, -1):
        line = lines[above]
        room = len(line) - len(line.lstrip())
        if not least:
            return
        if line.strip() and room < least and not line.lstrip().startswith("--"):
            least = room
            head = [line]
            for more in lines[above + 1:at]:
                if head[-1].rstrip().endswith(" where") or len(more) - len(more.lstrip()) <= room:
                    break
                head.append(more)
            yield line.strip(), " ".join(part.strip() for part in head)


def words(text):
    return set(WORD.findall(re.sub(r"[.◌]", " ", text)))


def blocks(lines, found):
    """The words of each declaration, with its clauses and what is in their `where`, by its line and by its name."""
    by_line, by_name = {}, collections.defaultdict(set)
    for line, _, name, _ in found:
        room = len(lines[line - 1]) - len(lines[line - 1].lstrip())
        end = line
        while end < len(lines) and (not lines[end].strip() or len(lines[end]) - len(lines[end].lstrip()) > room
                                    or lines[end].strip().split(" ")[0] == name):
            end += 1
        by_line[line] = words(" ".join(lines[line - 1:end]))
        if room:
            by_name[name] |= by_line[line]
    return by_line, by_name


def closed(lines, line, said, by_line, by_name):
    """A statement with the parameters of the modules around it that it needs, or None if it is no lemma by itself."""
    used, more = set(), set(by_line[line])
    while more - used:
        used |= more
        more = set().union(*(by_name[name] for name in more if name in by_name))
    for first, head in around(lines, line - 1):
        if first.startswith(("record ", "pub record ", "data ", "pub data ")):
            return None
        if first.startswith("module "):
            for name, kind in reversed(list(binders(head.partition(" ")[2].rpartition(" where")[0]))):
                if name in used:
                    said = f"({name} : {kind}) → {said}"
                    used |= words(kind)
        elif first not in ("where", "mutual"):
            bound = {name for name, _ in binders(said)}
            if any(word in used - bound for word in list(WORD.findall(re.sub("[@=]", " ", first.partition(" = ")[0])))[1:]):
                return None
    return said


def copies(top):
    """The statements that several lemmas of a checkout have: for each the lemmas, by the crate and the name, and where they are."""
    found = collections.defaultdict(list)
    for path in sorted((top / "crates").glob("*/proofs/**/*.antt")):
        text = path.read_text(encoding="utf-8")
        lines = text.split("\n")
        declared = list(statements(text))
        by_line, by_name = blocks(lines, declared)
        for line, _, name, said in declared:
            if GOAL.search(said) or re.search(r"(^|→ )Type \d$", said):
                continue
            whole = closed(lines, line, said, by_line, by_name)
            form = whole and normal(whole)
            if form and len(form) >= LEAST and "(v0 : " in form:
                found[form].append((f"{path.relative_to(top).parts[1]} {name}", f"{path.relative_to(top)}:{line}"))
    return {form: places for form, places in found.items() if len(places) > 1}


def copy_faults(found, known):
    """The copies that are not known, and what is known of which there are no copies."""
    left = collections.Counter(row.partition(": ")[0] for row in known)
    for places in found.values():
        row = ", ".join(sorted(name for name, _ in places))
        if left[row]:
            left[row] -= 1
        else:
            for name, place in places[1:]:
                yield f"{place}: {name.split()[1]} states what {places[0][1]} has: cite one, of the lowest crate"
    for row in sorted(left.elements()):
        yield f"copies.txt: no copies for the line \"{row}\": dev/check/restated/run.py --shrink takes it out"


def rows_of(file):
    """The lines of a list, and the comments at its head."""
    lines = file.read_text(encoding="utf-8").splitlines()
    return [line for line in lines if line and not line.startswith("#")], [line for line in lines if line.startswith("#")]


def keep(file, rows, there):
    """Writes the rows of a list that are there, and returns them."""
    there, kept = collections.Counter(there), []
    for row in rows:
        key = row.partition(": ")[0]
        if there[key]:
            there[key] -= 1
            kept.append(row)
    file.write_text("\n".join([*rows_of(file)[1], *sorted(kept)]) + "\n", encoding="utf-8")
    return kept


def kit_lemmas(kit):
    """The lemmas that `std.proofs.lemmas` of the kit exports: the import of each by its statement."""
    found, texts = {}, {}

    def text(path):
        if path not in texts:
            texts[path] = path.read_text(encoding="utf-8") if path.is_file() else ""
        return texts[path]

    for path in sorted((kit / "std/proofs/lemmas").rglob("*.antt")):
        module = ".".join(path.relative_to(kit).with_suffix("").parts)
        for _, is_pub, name, said in statements(text(path)):
            if is_pub:
                found.setdefault(normal(said), f"{module}.{{{name}}}")
        for source, names in EXPORTED.findall(text(path)):
            aliases = dict((part.strip().split(" as ") * 2)[:2] for part in names.replace("\n", " ").split(",") if part.strip())
            for _, _, name, said in statements(text(kit.joinpath(*source.split(".")).with_suffix(".antt"))):
                if name in aliases:
                    found.setdefault(normal(said), f"{module}.{{{aliases[name]}}}")
    return {form: name for form, name in found.items() if is_compared(form)}


def restatements(top, lemmas):
    """The lemmas of a checkout that restate one of the kit: (file:line, name, the import of the kit's)."""
    for path in sorted((top / "crates").glob("*/proofs/**/*.antt")):
        for line, _, name, said in statements(path.read_text(encoding="utf-8")):
            lemma = lemmas.get(normal(said))
            if lemma:
                yield f"{path.relative_to(top)}:{line}", name, lemma


def faults(found, known):
    """What is restated and not known, and what is known and no longer restated."""
    left = collections.Counter(known)
    for place, name, lemma in found:
        row = f"{name} {lemma}"
        if left[row]:
            left[row] -= 1
        else:
            yield f"{place}: {name} states what the kit has: use Rattle.{lemma}"
    for row in sorted(left.elements()):
        yield f"known.txt: no lemma for the line \"{row}\": dev/check/restated/run.py --shrink takes it out"


def main(arguments):
    if {"-h", "--help"}.intersection(arguments):
        print(__doc__.strip())
        return 0
    tops = [word for word in arguments if not word.startswith("-")]
    top = pathlib.Path(tops[0]) if tops else HERE.parents[2]
    twice, found, known = copies(top), [], []
    if shutil.which("rt"):
        kit = pathlib.Path(subprocess.run(["rt", "doc"], capture_output=True, text=True, check=True).stdout.strip()).parent / "rattle"
        found = list(restatements(top, kit_lemmas(kit)))
        known = rows_of(HERE / "known.txt")[0]
    else:
        print("restated: not compared with the kit, since there is no rt")
    allowed = rows_of(HERE / "copies.txt")[0]
    if "--shrink" in arguments:
        if shutil.which("rt"):
            known = keep(HERE / "known.txt", known, [f"{name} {lemma}" for _, name, lemma in found])
        allowed = keep(HERE / "copies.txt", allowed, [", ".join(sorted(name for name, _ in places)) for places in twice.values()])
    reported = [*faults(found, known), *copy_faults(twice, allowed)]
    surplus = sum(len(places) - 1 for places in twice.values())
    print("\n".join(reported) or f"restated: {len(found)} lemmas of the kit are stated again, and {surplus} of this repository, all of them known")
    return 1 if reported else 0


if __name__ == "__main__":
    sys.exit(main(sys.argv[1:]))
