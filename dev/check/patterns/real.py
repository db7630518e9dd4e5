#!/usr/bin/env python3
"""Writes `real.txt`: all different expressions of the facet `pattern` in the schemas of packages of Debian.

    dev/check/patterns/real.py [FOLDER|PACKAGE]..

A word that is no folder is a package, which is fetched and unpacked as `dev/search/shipped/run.py` does it, and removed at the end. Without words these are the
fourteen packages of docs/develop/FIGURES.md, and three that have many expressions. Each `.rnc` and `.rng` file is read by itself. In the compact syntax an
expression is the parameter `pattern` behind the name of a datatype: literals with `~` between them are one, and escapes `\\x{..}` are read. In the XML syntax
it is the text of an element `param`. A file that cannot be read is named.
"""
import argparse
import collections
import os
import pathlib
import sys
import tempfile
import textwrap
import xml.etree.ElementTree

HERE = pathlib.Path(__file__).resolve().parent
TOP = HERE.parents[2]
sys.path[:0] = [str(TOP / "programs/profile"), str(TOP / "dev/search/shipped")]
from compact_tokens import NoToken, decoded, tokens  # noqa: E402  (the folder is known only here)
from rows import HOW, write_rows  # noqa: E402
from run import schemas_of, unpacked  # noqa: E402

PACKAGES = ("apertium biber dblatex docbook-xsl-ns docbook5-xml emacs-common epubcheck jing-trang-doc kiwi lttoolbox-dev opendnssec-common tryton-server "
            "xhtml-relaxng xmlcopyeditor libvirt0 osinfo-db pacemaker-common").split()
PARAM = "{http://relaxng.org/ns/structure/1.0}param"


def literal_from(found, at):
    """The text of the literals with `~` between them that begin at a token; None if no literal is there."""
    parts = []
    while at < len(found) and found[at].kind == "literal":
        parts.append(found[at].text)
        at += 2 if at + 1 < len(found) and found[at + 1].is_sign("~") else len(found)
    return "".join(parts).replace("\r\n", "\n").replace("\r", "\n") if parts else None


def compact_patterns(data):
    """The expressions of a schema in the compact syntax."""
    found, _ = tokens(decoded(data).text)
    opened = []
    for at, token in enumerate(found):
        if token.is_sign("{", "["):
            opened.append(token.text == "{" and at > 0 and (found[at - 1].kind == "cname" or found[at - 1].is_keyword("string", "token")))
        elif token.is_sign("}", "]") and opened:
            opened.pop()
        elif token.kind == "word" and token.text == "pattern" and opened and opened[-1] and at + 1 < len(found) and found[at + 1].is_sign("="):
            text = literal_from(found, at + 2)
            if text is not None:
                yield text


def xml_patterns(data):
    """The expressions of a schema in the XML syntax."""
    for param in xml.etree.ElementTree.fromstring(data).iter(PARAM):
        if param.get("name", "").strip() == "pattern":
            yield param.text or ""


def patterns_of(path):
    """The expressions of a schema; a line on the standard error output if it cannot be read."""
    try:
        return list((compact_patterns if path.suffix == ".rnc" else xml_patterns)(path.read_bytes()))
    except (NoToken, xml.etree.ElementTree.ParseError) as fault:
        print(f"{path}: {fault}", file=sys.stderr)
        return []


def main():
    given = argparse.ArgumentParser(description=__doc__.splitlines()[0])
    given.add_argument("folders", nargs="*", metavar="FOLDER|PACKAGE", default=PACKAGES)
    given = given.parse_args()
    files = collections.defaultdict(set)
    with tempfile.TemporaryDirectory() as room:
        for word in given.folders:
            for path in schemas_of(word if os.path.isdir(word) else unpacked(word, pathlib.Path(room))):
                for text in patterns_of(path):
                    files[text].add(path)
    head = [f"{len(files)} different expressions of the facet `pattern`, in the schemas of these packages of Debian (bookworm):",
            *textwrap.wrap(" ".join(given.folders), 150, break_on_hyphens=False),
            f"the number of files that have the expression, and the expression. real.py makes this file. {HOW}"]
    write_rows(HERE / "real.txt", head, sorted(([str(len(paths)), text] for text, paths in files.items()), key=lambda row: row[1]))
    print(f"real.txt: {len(files)} expressions of {len(set().union(*files.values()))} files")


if __name__ == "__main__":
    main()
