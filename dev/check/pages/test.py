#!/usr/bin/env python3
"""Checks the pages: README.md and the other *.md files at the top, the pages of docs, and README.md of programs, of dev and of the proofs of crates.

    dev/check/pages/test.py [TOP]      (TOP: a checkout, else the one of this file)

- A link `[..](FILE#PART)` leads to a file; if it has a part, it leads to a heading. The same holds for a heading in quotes after a page, as in `PAGE`,
  "HEADING".
- A path between backticks that looks like a path of the repository exists. Such a path begins with a folder of the top or with a crate, or it has the
  ending of a source or a page. A name with such an ending may be in any folder. A file of lemmas may lack its ending. A pattern with `*` matches
  something. Products of a build (`out`, `build`) and names with a part in capitals, as in crates/NAME/src, are not checked.
- Each crate of crates.txt is in one row of the maps of docs/develop/ARCHITECTURE.md (the tables whose first column is `Crate`), and each row there is a
  crate. A row `NAME_cases` or `NAME_tests` is for all crates with such a name.
- Each folder of `programs`, and each folder of a folder of `dev`, has one row in the README.md there, and each row there is a folder or a file.
- Each crate with more than 30 files of lemmas has a proofs/README.md, and each word there that looks like the name of such a file is one.
- No sentence of README.md has more than 45 words.
- Each fenced block says what it is, and is closed.
- All pages together have at most 36,000 words. A word has a letter or a digit, and no blanks.
- Each page of docs but docs/index.md is on one of the shelves `use`, `proof` and `develop`, and docs/index.md has a link to it.
- The first line below the title of each page but those of crates says who reads it and what for: it begins with "For ", and has a colon.
- No sentence of ten words or more is on two pages.

Each fault is printed as one line, and the exit status is then 1. The checks are also tried on copies with planted faults. Each planted fault must be
reported, and no other new fault.
"""
import os
import pathlib
import re
import sys
import tempfile

HERE = pathlib.Path(__file__).resolve()
MOST_WORDS = 45
ALL_WORDS = 36_000
SHELVES = ("use", "proof", "develop")
INDEX = "docs/index.md"
LEAST_WORDS = 10  # of a sentence that is on one page alone
MOST_LEMMAS = 30  # files of lemmas without a page about them
MAPS = "docs/develop/ARCHITECTURE.md"
ROOMS = ("programs", "dev")
FENCE = re.compile(r"^[ >]*(```|~~~)(.*)$")
LINK = re.compile(r"\[[^\]\n]*\]\(([^)\s]+)\)")
CODE = re.compile(r"`([^`]+)`")
LEMMA = re.compile(r"`([A-Z][A-Za-z0-9]+(?:/[A-Z][A-Za-z0-9]+)?)`")
NAMED_HEADING = re.compile(r"(?:\]\(([^)\s#]+\.md)\)|`([^`\s]+\.md)`),\s+\"([^\"]+)\"")
ENDINGS = (".rt", ".antt", ".md", ".py", ".sh")
MADE = ("out", "build")
WORD = re.compile(r"[^\s]*\w[^\s]*")
READER = re.compile(r"For [^:]+[:.]")
SENTENCE_END = re.compile(r"(?<=[.!?])[)\"'*]*\s+")


class Checkout:
    """A checkout: its pages, the names of its crates, and the paths of its files."""

    def __init__(self, top):
        self.top = pathlib.Path(top).resolve()
        self.folders = sorted(path.name for path in self.top.iterdir() if path.is_dir() and path.name not in (".git", *MADE))
        self.crates = re.findall(r"^([a-z]\w*)[^:\n]*:", (self.top / "crates.txt").read_text(encoding="utf-8"), re.M)
        self.paths = set()
        for folder, inner, names in os.walk(self.top, followlinks=True):
            inner[:] = [name for name in inner if name not in (".git", "__pycache__", *MADE)]
            self.paths.update(f"/{pathlib.Path(folder, name).relative_to(self.top)}" for name in (*names, *inner))
        self.ends = {path[at:] for path in self.paths for at in range(len(path)) if path[at] == "/"}

    def pages(self):
        """The pages, by their paths from the top."""
        found = [*self.top.glob("*.md"), *(self.top / "docs").rglob("*.md"), *(self.top / room / "README.md" for room in ROOMS),
                 *self.top.glob("crates/*/proofs/README.md")]
        return sorted(str(path.relative_to(self.top)) for path in found)

    def text(self, page):
        """The text of a page."""
        return (self.top / page).read_text(encoding="utf-8")


def prose(text):
    """The lines of a page with their numbers, without its fenced blocks."""
    inside = False
    for number, line in enumerate(text.splitlines(), 1):
        if FENCE.match(line):
            inside = not inside
        elif not inside:
            yield number, line


def headings(text):
    """The headings of a page."""
    return [found[1] for _, line in prose(text) if (found := re.fullmatch(r"#+ (.+)", line))]


def anchor(heading):
    """The part of a link that leads to a heading."""
    return re.sub(r"[^\w\- ]", "", heading.lower()).replace(" ", "-")


def link_faults(checkout, page, text):
    """Links of a page that lead nowhere."""
    for number, line in prose(text):
        for target in LINK.findall(CODE.sub("", line)):
            name, _, part = target.partition("#")
            if re.match(r"[a-z]+:", target):
                continue
            path = os.path.normpath(os.path.join(os.path.dirname(page), name)) if name else page
            if not (checkout.top / path).exists():
                yield f"{page}:{number}: the link {target} leads to no file"
            elif part and path.endswith(".md") and part not in map(anchor, headings(checkout.text(path))):
                yield f"{page}:{number}: the link {target} leads to no heading"


def heading_faults(checkout, page, text):
    """Missing headings that a page names in quotes after another page."""
    body = "\n".join(line for _, line in prose(text))
    for beside, from_top, heading in NAMED_HEADING.findall(body):
        path = os.path.normpath(os.path.join(os.path.dirname(page), beside)) if beside else from_top
        wanted = " ".join(heading.split())
        if (checkout.top / path).exists() and not any(found.startswith(wanted) for found in headings(checkout.text(path))):
            yield f"{page}: {path} has no heading \"{wanted}\""


def is_missing(checkout, word):
    """Whether a word looks like a path of the repository but is not one."""
    word = word.rstrip("/.,;:")
    parts = word.split("/")
    if not re.fullmatch(r"[\w.*\-/]+", word) or set(parts) & set(MADE) or re.search(r"(?<![\w.])[A-Z]{2,}(?:_\w+)?(?![\w.])", word):
        return False
    first = "crates/" if parts[0] in checkout.crates else ""
    if len(parts) > 1 and (first or parts[0] in checkout.folders):
        return not any(any(checkout.top.glob(first + word + ending)) for ending in ("", ".antt"))
    if not word.endswith(ENDINGS) or word in ENDINGS or word.startswith("/") or word.startswith("./"):
        return False
    ending = re.compile("/" + re.escape(word).replace(r"\*", "[^/]*"))
    return not (any(map(ending.fullmatch, checkout.ends)) if "*" in word else f"/{word}" in checkout.ends)


def made_here(text):
    """The files that the fenced blocks of a page write, as in "rnc order.rnc"."""
    kinds = [found[2].split() for line in text.splitlines() if (found := FENCE.match(line))]
    return {words[1] for words in kinds if len(words) == 2}


def path_faults(checkout, page, text):
    """Paths between backticks that do not exist."""
    made = made_here(text)
    for number, line in prose(text):
        for code in CODE.findall(line):
            for word in code.split():
                if word not in made and is_missing(checkout, word):
                    yield f"{page}:{number}: there is no {word}"


def fence_faults(page, text):
    """Fenced blocks without a kind, and a block that is not closed."""
    opened = None
    for number, line in enumerate(text.splitlines(), 1):
        found = FENCE.match(line)
        if found and opened is None:
            opened = number
            if not found[2].strip():
                yield f"{page}:{number}: the block does not say what it is"
        elif found:
            opened = None
    if opened:
        yield f"{page}:{opened}: the block is not closed"


def sentences(text, code="code"):
    """The sentences of a page, each with the line on which its paragraph, list item or table cell begins. `code` stands for what is between backticks."""
    begin, parts = 0, []
    for number, line in [*prose(re.sub(r"<!--.*?-->", lambda comment: re.sub(r"[^\n]", "", comment[0]), text, flags=re.S)), (0, "")]:
        cells = line.strip().strip("|").split("|") if line.startswith("|") else []
        if parts and (cells or not line.strip() or re.match(r"#|\s*(?:[-*]|\d+\.) ", line)):
            yield from ((begin, sentence) for sentence in SENTENCE_END.split(" ".join(parts)))
            parts = []
        for cell in cells:
            yield from ((number, sentence) for sentence in SENTENCE_END.split(cell))
        if line.strip() and not cells:
            begin = begin if parts else number
            parts.append(CODE.sub(code, line.strip()))


def sentence_faults(page, text):
    """Sentences that are too long."""
    for number, sentence in sentences(text):
        words = WORD.findall(sentence)
        if len(words) > MOST_WORDS:
            yield f"{page}:{number}: a sentence of {len(words)} words: {' '.join(words[:6])} .."


def word_faults(checkout):
    """More words than all pages may have."""
    count = sum(len(WORD.findall(checkout.text(page))) for page in checkout.pages())
    if count > ALL_WORDS:
        yield f"the pages have {count:,} words, and {ALL_WORDS:,} are allowed"


def shelf_faults(checkout):
    """Pages of docs that are on no shelf, or that the index does not lead to."""
    index = {os.path.normpath(os.path.join("docs", target)) for target in LINK.findall(checkout.text(INDEX))}
    for page in checkout.pages():
        parts = page.split("/")
        if parts[0] != "docs" or page == INDEX:
            continue
        if len(parts) != 3 or parts[1] not in SHELVES:
            yield f"{page} is on no shelf: {', '.join(SHELVES)}"
        elif page not in index:
            yield f"{INDEX}: it has no link to {page}"


def reader_faults(page, text):
    """A page whose first line below the title does not say who reads it."""
    lines = [line for line in text.splitlines() if line.strip()]
    if not page.startswith("crates/") and (len(lines) < 2 or not lines[0].startswith("# ") or not READER.match(lines[1])):
        yield f"{page}: the first line below its title does not say who reads it (\"For ..: ..\")"


def repeated_faults(checkout):
    """Sentences that are on two pages."""
    places = {}
    for page in checkout.pages():
        for number, sentence in sentences(checkout.text(page), r"`\1`"):
            said = " ".join(sentence.split())
            if len(WORD.findall(said)) < LEAST_WORDS:
                continue
            first = places.setdefault(said, (page, number))
            if first[0] != page:
                yield f"{page}:{number}: a sentence that {first[0]}:{first[1]} has too: {said[:60]} .."


def map_rows(text):
    """The crates in the maps: the names in the first column of the tables whose first column is `Crate`."""
    takes = False
    for number, line in prose(text):
        cells = [cell.strip() for cell in line.strip().strip("|").split("|")]
        if not line.startswith("|"):
            takes = False
        elif cells[0] == "Crate":
            takes = True
        elif takes:
            yield from ((number, name) for name in CODE.findall(cells[0]))


def map_faults(checkout):
    """Crates that the maps lack or have twice, and rows of the maps that are not a crate."""
    rows = list(map_rows(checkout.text(MAPS)))
    names = [name for _, name in rows]
    kinds = tuple(name[len("NAME"):] for name in names if name.startswith("NAME_"))
    for crate in checkout.crates:
        count = names.count(crate)
        if count == 0 and not (kinds and crate.endswith(kinds)):
            yield f"{MAPS}: no map has the crate {crate}"
        elif count > 1:
            yield f"{MAPS}: the maps have the crate {crate} {count} times"
    for number, name in rows:
        if name not in checkout.crates and not name.startswith("NAME_"):
            yield f"{MAPS}:{number}: {name} is not a crate of crates.txt"


def room_rows(room, text):
    """The paths in the tables of a README.md of ROOMS, and the folders that have a heading there, whose tables follow."""
    rows, groups = [], [room]
    for number, line in prose(text):
        if found := re.match(r"## `(\w+)`", line):
            groups.append(f"{room}/{found[1]}")
        elif found := re.match(r"\| `([^`]+)` \|", line):
            rows.append((number, f"{groups[-1]}/{found[1]}"))
    return rows, groups


def room_faults(checkout, room):
    """Folders that the README.md of one of ROOMS lacks or has twice, and rows there that are not there."""
    page = f"{room}/README.md"
    rows, groups = room_rows(room, checkout.text(page))
    names = [name for _, name in rows]
    for number, name in rows:
        if not (checkout.top / name).exists():
            yield f"{page}:{number}: there is no {name}"
    folders = [f"{group}/{path.name}" for group in groups if (checkout.top / group).is_dir() for path in (checkout.top / group).iterdir()
               if path.is_dir() and path.name not in ("__pycache__", *MADE)]
    for folder in sorted(folders):
        if folder not in groups and names.count(folder) != 1:
            yield f"{page}: it has {folder} {names.count(folder)} times"


def lemma_faults(checkout):
    """Crates with many files of lemmas and no page about them, and names on these pages that are no such file."""
    for folder in sorted(checkout.top.glob("crates/*/proofs")):
        files = [*folder.glob("*.antt"), *folder.glob("[A-Z]*/*.antt")]
        page, lemmas = folder / "README.md", {path.relative_to(folder).with_suffix("").as_posix() for path in files} - {"Lib"}
        name = page.relative_to(checkout.top)
        if not page.exists():
            if len(lemmas) > MOST_LEMMAS:
                yield f"{name}: it is not there, and the crate has {len(lemmas)} files of lemmas"
            continue
        for number, line in prose(page.read_text(encoding="utf-8")):
            yield from (f"{name}:{number}: there is no {word}.antt" for word in LEMMA.findall(line) if word not in lemmas)


def faults(checkout):
    """A line for each fault in the pages of a checkout."""
    for page in checkout.pages():
        text = checkout.text(page)
        yield from link_faults(checkout, page, text)
        yield from heading_faults(checkout, page, text)
        yield from path_faults(checkout, page, text)
        yield from fence_faults(page, text)
        yield from reader_faults(page, text)
        if page == "README.md":
            yield from sentence_faults(page, text)
    yield from word_faults(checkout)
    yield from shelf_faults(checkout)
    yield from repeated_faults(checkout)
    yield from map_faults(checkout)
    for room in ROOMS:
        yield from room_faults(checkout, room)
    yield from lemma_faults(checkout)


LICENCE = "No licence is granted yet: ask the owner of the repository before you pass copies on."  # a sentence of README.md
PLANTS = (
    ("docs/use/CLAUSES.md", "\nSee [a page](NOT_THERE.md).\n", "the link NOT_THERE.md leads to no file"),
    ("docs/use/CLAUSES.md", "\nSee [a part](LANGUAGE.md#not-there).\n", "the link LANGUAGE.md#not-there leads to no heading"),
    ("docs/use/CLAUSES.md", "\nSee `docs/use/LANGUAGE.md`, \"Not there\".\n", "docs/use/LANGUAGE.md has no heading \"Not there\""),
    ("docs/use/CLAUSES.md", "\nSee `docs/not_there.md`.\n", "there is no docs/not_there.md"),
    ("docs/use/CLAUSES.md", "\nSee `rng_model/src/not_there.rt`.\n", "there is no rng_model/src/not_there.rt"),
    ("docs/use/CLAUSES.md", "\nSee `not_there_at_all.antt`.\n", "there is no not_there_at_all.antt"),
    ("docs/use/CLAUSES.md", "\n```\nx\n```\n", "the block does not say what it is"),
    ("docs/use/CLAUSES.md", "\n```text\nx\n", "the block is not closed"),
    ("README.md", "\n" + "word " * MOST_WORDS + "end.\n", f"a sentence of {MOST_WORDS + 1} words"),
    (MAPS, "\n| Crate | What |\n|---|---|\n| `rng_model` | again |\n", "the maps have the crate rng_model 2 times"),
    (MAPS, "\n| Crate | What |\n|---|---|\n| `not_there` | |\n", "not_there is not a crate of crates.txt"),
    ("crates.txt", "\nnot_mapped: rng_model\n", "no map has the crate not_mapped"),
    ("dev/README.md", "\n## `check`\n\n| `not_there` | |\n", "there is no dev/check/not_there"),
    ("programs/README.md", "\n| `xml` | again |\n", "it has programs/xml 2 times"),
    ("docs/use/CLAUSES.md", "\n" + "word " * ALL_WORDS + "\n", f"and {ALL_WORDS:,} are allowed"),
    ("docs/STRAY.md", "# Stray\n\nFor nobody: a page.\n", "docs/STRAY.md is on no shelf"),
    ("docs/use/STRAY.md", "# Stray\n\nFor nobody: a page.\n", "it has no link to docs/use/STRAY.md"),
    ("docs/use/CLAUSES.md", ("\nFor ", "\nBy "), "the first line below its title does not say who reads it"),
    ("docs/use/CLAUSES.md", f"\n{LICENCE}\n", "a sentence that README.md:"),
    ("crates/pyx/proofs/README.md", "\n`NotThere`\n", "there is no NotThere.antt"),
    ("crates/pyx/proofs/README.md", "\n`Tags/NotThere`\n", "there is no Tags/NotThere.antt"),
)


def planted(text, more):
    """A text with more at its end; or, of two texts, the second in the place of the first."""
    return text + more if isinstance(more, str) else text.replace(*more, 1)


def copied(top, folder, page, more):
    """A copy of a folder with links to its files, and with a planted change of one file, which is named from there, and may be new."""
    if "/" not in page and not (top / page).exists():
        (folder / page).write_text(more, encoding="utf-8")
    for path in top.iterdir():
        copy = folder / path.name
        if path.name == page:
            copy.write_text(planted(path.read_text(encoding="utf-8"), more), encoding="utf-8")
        elif page.startswith(f"{path.name}/"):
            copy.mkdir()
            copied(path, copy, page[len(path.name) + 1:], more)
        elif path.name != ".git":
            copy.symlink_to(path)


def planted_faults(checkout, known):
    """Planted faults that are not reported, or that cause other new faults."""
    for page, more, wanted in PLANTS:
        with tempfile.TemporaryDirectory(prefix="pages-") as room:
            folder = pathlib.Path(room)
            copied(checkout.top, folder, page, more)
            new = [fault for fault in faults(Checkout(folder)) if fault not in known]
        if len(new) != 1 or wanted not in new[0]:
            yield f"dev/check/pages/test.py: planted in {page}: wanted one fault \"{wanted}\", and got {new}"


def main():
    """Checks the pages, and the checks themselves. Returns the exit status."""
    checkout = Checkout(sys.argv[1] if len(sys.argv) > 1 else HERE.parents[3])
    found = list(faults(checkout))
    found += planted_faults(checkout, set(found))
    print("\n".join(found) or f"pages: {len(checkout.pages())} pages, {len(PLANTS)} planted faults reported: ok")
    return 1 if found else 0


if __name__ == "__main__":
    sys.exit(main())
