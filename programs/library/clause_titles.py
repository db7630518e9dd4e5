#!/usr/bin/env python3
"""Writes a C file with the titles of the clauses:   programs/library/clause_titles.py docs/use/CLAUSES.md > clause_titles.c"""
import re
import sys

COUNTS = {"S": 27, "P": 13}


def titles_of(page):
    """The headings of the page by group and number."""
    titles = {group: {} for group in COUNTS}
    for line in page.splitlines():
        found = re.fullmatch(r"### ([SP])(\d+): (.+)", line)
        if found:
            group, number, title = found[1], int(found[2]), found[3]
            if number in titles[group]:
                sys.exit(f"clause_titles.py: {group}{number} has two headings")
            titles[group][number] = title
    for group, count in COUNTS.items():
        if sorted(titles[group]) != list(range(1, count + 1)):
            sys.exit(f"clause_titles.py: the headings of {group} are not 1 to {count}")
    return titles


def literal(text):
    """A string literal of C."""
    return '"' + text.replace("\\", "\\\\").replace('"', '\\"') + '"'


def main():
    with open(sys.argv[1], encoding="utf-8") as page:
        titles = titles_of(page.read())
    print("/* The titles of the clauses. programs/library/clause_titles.py writes this file from docs/use/CLAUSES.md. */")
    print('#include "rncv.h"')
    for group, count in COUNTS.items():
        print(f"\nstatic const char *const {group.lower()}_titles[{count}] = {{")
        for number in range(1, count + 1):
            print(f"    {literal(titles[group][number])},")
        print("};")
    print("\nconst char *rncv_clause_title(char group, int32_t clause) {")
    for group, count in COUNTS.items():
        print(f"    if (group == '{group}' && 1 <= clause && clause <= {count}) {{")
        print(f"        return {group.lower()}_titles[clause - 1];")
        print("    }")
    print("    return NULL;\n}")


main()
