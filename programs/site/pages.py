#!/usr/bin/env python3
"""Writes the sources of the site:   programs/site/pages.py FOLDER SITE

FOLDER then has mkdocs.yml, which writes the site to the folder SITE, and a folder `docs`: the pages of the repository in the form that mkdocs reads, and a
page for each clause, made of docs/use/CLAUSES.md and of the tables of docs/use/LANGUAGE.md.
"""
import os
import pathlib
import re
import sys

TOP = pathlib.Path(__file__).resolve().parents[2]
SHELVES = (("To use it", "use"), ("To believe it", "proof"), ("To develop it", "develop"))
FENCE = re.compile(r"^(```)([^`\n]*)$", re.M)
PICTURE = re.compile(r"\]\(docs/(\S+\.svg)\)")
PATH = re.compile(r"`(docs/(?:\w+/)?\w+\.md|README\.md|CHANGELOG\.md)`")
CODE_IN_ROW = re.compile(r"`[^`]*`")
CLAUSE = re.compile(r"^### (([SP])(\d+)): ([^\n]*)\n(.*?)^```broken\n(.*?)^```\n(.*?)^```repair\n(.*?)^```$", re.M | re.S)
ROW = re.compile(r"^\| ([SP]\d+) \| (.*?) \|(?:[ \d.]*\|)?$", re.M)
# The words of mkdocs for code that has no colours here.
PLAIN = {"console": "console", "broken": "text", "repair": "text", "recipe": "text", "rnc": "text", "rattle": "text", "elisp": "lisp"}


def sources():
    """The pages of the repository, by their places in the site."""
    found = {path.relative_to(TOP / "docs").as_posix(): path for path in sorted((TOP / "docs").rglob("*.md"))}
    return {**found, "README.md": TOP / "README.md", "CHANGELOG.md": TOP / "CHANGELOG.md"} if "README.md" not in found else found


def outside_fences(text, change):
    """The text with a change of what is not in a fenced block."""
    parts = re.split(r"(^```.*?^```$)", text, flags=re.M | re.S)
    return "".join(part if part.startswith("```") else change(part) for part in parts)


def link(place, found):
    """A link in the page at a place to the page that is named in backticks."""
    target = found[1].removeprefix("docs/")
    path = os.path.relpath(SITE_NAMES.get(target, target), os.path.dirname(place) or ".")
    return f"[{pathlib.PurePath(target).stem}]({path})"


def row(line):
    """A row of a table: mkdocs takes a bar in code as it is."""
    return CODE_IN_ROW.sub(lambda code: code[0].replace("\\|", "|"), line) if line.startswith("|") else line


def fence(found):
    """The fence of a block: mkdocs takes one word. A block that is a file gets its name in front."""
    words = found[2].split()
    if not words:
        return found[0]
    kind = PLAIN.get(words[0], words[0])
    name = f"`{words[1]}`:\n\n" if len(words) == 2 and words[0] != "console" else ""
    return f"{name}```{kind}"


def page(place, text):
    """A page in the form that mkdocs reads."""
    text = outside_fences(text, lambda part: "\n".join(map(row, PATH.sub(lambda found: link(place, found), PICTURE.sub(r"](\1)", part)).split("\n"))))
    return FENCE.sub(fence, text)


# README.md would be an index for mkdocs.
SITE_NAMES = {"README.md": "readme.md", "CHANGELOG.md": "changelog.md"}


def rules(language):
    """What breaks each clause, by the tables of LANGUAGE.md."""
    return dict(ROW.findall(language))


def clause_page(found, rule):
    """The page of a clause: what breaks it, an example, and its repair."""
    clause, group, _, title, before, broken, between, repair = found.groups()
    answer = f"refused {clause}" if group == "S" else f"malformed {clause}"
    kind = "file `s.rnc`" if group == "S" else "document, by the schema `element a { empty }`"
    rule = row(f"| {rule} |")[2:-2].strip()
    marks = "\n`{{N x TEXT}}` means N times TEXT, and `{{byte HH}}` one byte.\n" if "{{" in broken + repair else ""
    files = "\nFurther files begin after a line `## file NAME`.\n" if "## file" in broken + repair else ""
    notes = "".join(f"\n{page(f'clause/{clause}.md', part.strip())}\n" for part in (before, between) if part.strip())
    return f"""# {clause}: {title}

For whoever gets `{answer}`: what breaks this clause, with an example and a repair. [All clauses](../use/CLAUSES.md).

Broken if: {rule}
{marks}{files}{notes}
## An example that breaks it

The {kind}:

```text
{broken}```

## A repair

```text
{repair}```
"""


def with_links(text):
    """The page of all clauses, with a link to the page of each."""
    return re.sub(r"^(### ([SP]\d+): .*)$", r"\1\n\n[The page of \2](../clause/\2.md)", text, flags=re.M)


def write(folder, place, text):
    (folder / place).parent.mkdir(parents=True, exist_ok=True)
    (folder / place).write_text(text, encoding="utf-8")


def title_of(text):
    """The title of a page, as a string of YAML."""
    return "'" + re.match(r"# (.*)", text)[1].replace("`", "").replace("'", "''") + "'"


def configuration(site, texts, clauses):
    """The text of mkdocs.yml."""
    nav = ["- 'Pages': index.md", "- 'README': readme.md"]
    for name, shelf in SHELVES:
        nav += [f"- '{name}':", *(f"    - {title_of(text)}: {place}" for place, text in texts.items() if place.startswith(f"{shelf}/"))]
    nav += ["- 'Clauses':", *(f"    - '{clause}': clause/{clause}.md" for clause in clauses), "- 'Changelog': changelog.md"]
    return f"""site_name: rncv
docs_dir: docs
site_dir: {site}
use_directory_urls: false
theme:
  name: readthedocs
  highlightjs: false
  navigation_depth: 2
plugins:
  - search
markdown_extensions:
  - tables
  - fenced_code
  - toc:
      permalink: true
nav:
""" + "".join(f"  {line}\n" for line in nav)


def main():
    folder, site = map(pathlib.Path, sys.argv[1:])
    texts = {place: path.read_text(encoding="utf-8") for place, path in sources().items()}
    said = rules(texts["use/LANGUAGE.md"])
    found = list(CLAUSE.finditer(texts["use/CLAUSES.md"]))
    clauses = [it[1] for it in found]
    if lacking := [clause for clause in clauses if clause not in said]:
        sys.exit(f"programs/site/pages.py: docs/use/LANGUAGE.md does not say what breaks {', '.join(lacking)}")
    for it in found:
        write(folder / "docs", f"clause/{it[1]}.md", clause_page(it, said[it[1]]))
    for place, text in texts.items():
        write(folder / "docs", SITE_NAMES.get(place, place), page(place, with_links(text) if place == "use/CLAUSES.md" else text))
    write(folder / "docs", "develop/ways.svg", (TOP / "docs/develop/ways.svg").read_text(encoding="utf-8"))
    write(folder, "mkdocs.yml", configuration(site.resolve(), texts, clauses))


if __name__ == "__main__":
    main()
