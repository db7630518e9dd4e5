#!/usr/bin/env python3
"""Checks what must always hold of the program, with random schemas and documents. It is not part of the gate.

    dev/search/fuzz/run.py --minutes N [--seed S] [--cases N] [--from N] [--most N] [--found FOLDER] [--no-jing] [PROGRAM]

The default PROGRAM is `crates/rncv/out/rncv`. A case is a schema and some documents, valid ones and changed ones. The schema is written in several ways
(definitions, includes with overriding, externals, nested grammars, prefixes, annotations, comments, another order). These must hold:

- the simple form of a simple form is itself, and gives the same answers as the schema;
- all ways to write a schema give the same answers, and the ways with the same order give the same simple form;
- a document in pieces of 1, 2, 3 and 4,096 bytes gives the same answer (by the C library if RNCV_LIBRARY names it, else through a pipe);
- after `invalid line N` no continuation of the first N lines that is tried is valid;
- a plain matcher (`matching.py`) agrees, and so does jing if it and a Java compiler are installed;
- all commands give the same refusal for a schema with broken text, and pieces do not change the answer for broken texts;
- no run ends by a signal, takes more than 10 seconds or 200 MB, or prints anything except an answer.

A case that breaks one of these is made smaller and written to a folder of `dev/search/fuzz/found`. Its `report.txt` says how to repeat it. The status is 0 if
nothing was found, else 1. The same seed gives the same cases.
"""
import argparse
import pathlib
import random
import sys
import tempfile
import time

import documents
import matching
import running
import schemas
from checks import ALL_FEATURES, CHECKS, Bench, Trial, completed
from reducing import reduced

HERE = pathlib.Path(__file__).resolve().parent
ODD_LINES = ["-", ")a", "(a", "Ax 1", "Axmlns urn:a", "Axmlns:p urn:b", "Axmlns:p ", "-\\q", "-\\", "?", "", "x", "A", "(a:b:c", "(1", "Axml:x 1", "Ax"]


def raw_changed(lines, chance):
    """The lines with one line removed, copied, moved or inserted."""
    lines = list(lines)
    at = chance.randrange(len(lines))
    kind = chance.randrange(4)
    if kind == 0:
        del lines[at]
    elif kind == 1:
        lines.insert(at, lines[chance.randrange(len(lines))])
    elif kind == 2:
        lines.insert(chance.randrange(len(lines)), lines.pop(at))
    else:
        lines.insert(at, chance.choice(ODD_LINES))
    return lines


def case_documents(schema, chance):
    """Pairs of a document's lines and the lines of the document that it was made from. Both mostly write the same element in the same way."""
    written = chance.random()
    patterns = matching.Patterns(schema)
    sampler = documents.Sampler(patterns, chance)
    start = patterns.of(schema.start)
    roots = [it for it in (sampler.root(start) for _ in range(2)) if it is not None]
    if not roots:
        roots = [(("", "a"), [], [])]
    for root in roots:
        lines = documents.lines_of(root, random.Random(written))
        yield lines, lines
    for _ in range(3):
        yield documents.lines_of(documents.changed(roots[-1], chance), random.Random(written)), lines
    yield raw_changed(lines, chance), lines


def before_event(lines):
    """The lines without the tag or the text at their end: the line after them reports that."""
    end = len(lines)
    last = lines[-1][:1] if lines else ""
    while end and lines[end - 1][:1] in ("-?" if last in "-?" else "A" if last in "(A" else " "):
        end -= 1
    return lines[:end - 1] if end and last in "(A" else lines[:end]


def count(bench, trial, said):
    """Counts an answer. For `invalid`, also counts whether it is known to be reported at the first event that no valid document has."""
    bench.counts[said.kind] = bench.counts.get(said.kind, 0) + 1
    if said.kind != "invalid":
        return
    prefix = before_event(trial.lines[:int(said.line.split()[-1]) - 1])
    chance = random.Random(repr(prefix))
    completions = (completed(trial.schema, prefix, chance, number > 5) for number in range(8))
    patterns = matching.Patterns(trial.schema)
    bench.counts["reported at once"] += any(it and documents.verdict(patterns, it) == "valid" for it in completions)


def one_case(bench, name):
    """What is found in a case: for each check that fails, its name, the trial and what is wrong."""
    chance = random.Random(name)
    schema = schemas.made(name)
    bench.counts["schemas"] += 1
    failed = set()
    for number, (lines, source) in enumerate(case_documents(schema, chance)):
        features = [it for it in ALL_FEATURES if chance.random() < 0.6]
        trial = Trial(schema, chance.randrange(10**6), features, lines, source)
        for check, function in CHECKS.items():
            if check in failed or check == "pieces" and number % 3:
                continue
            wrong = function(bench, trial)
            if wrong:
                failed.add(check)
                yield check, trial, wrong
        count(bench, trial, bench.program.run("valid", trial.plain, trial.document))


def made_smaller(bench, check, trial):
    def fails(it):
        try:
            return CHECKS[check](bench, it) is not None
        except (RecursionError, KeyError, IndexError):
            return False

    return reduced(trial, fails)


def write_found(folder, bench, check, trial, wrong, again):
    """Makes a trial smaller and writes it. Returns its folder and what is wrong."""
    trial = made_smaller(bench, check, trial)
    wrong = CHECKS[check](bench, trial) or wrong
    at = next(folder / f"{check}-{number}" for number in range(10**6) if not (folder / f"{check}-{number}").exists())
    (at / "plain").mkdir(parents=True)
    for room, files in ((at, trial.dressed), (at / "plain", trial.plain)):
        for name, text in files:
            (room / name).write_bytes(text.encode())
    (at / "document.pyx").write_bytes(trial.document)
    (at / "report.txt").write_text(f"{check}: {wrong}\nfiles: {' '.join(name for name, _ in trial.dressed)}\nclothes: {' '.join(trial.features)}\n"
                                   f"again: {again}\n", encoding="utf-8")
    return at, wrong


def words():
    given = argparse.ArgumentParser(description=__doc__.splitlines()[0])
    given.add_argument("--minutes", type=float)
    given.add_argument("--seed", default=str(random.randrange(10**6)))
    given.add_argument("--cases", type=int)
    given.add_argument("--from", type=int, default=0, dest="first")
    given.add_argument("--most", type=int, default=5, help="how many faults to find")
    given.add_argument("--found", type=pathlib.Path, default=HERE / "found")
    given.add_argument("--no-jing", action="store_true")
    given.add_argument("program", nargs="?", type=pathlib.Path, default=HERE.parents[2] / "crates/rncv/out/rncv")
    given = given.parse_args()
    if given.minutes is None and given.cases is None:
        sys.exit("--minutes or --cases is needed")
    return given


def search(given, bench):
    """Runs the cases, and returns how many faults were found."""
    end = time.monotonic() + 60 * given.minutes if given.minutes is not None else float("inf")
    number, found = given.first, 0
    while time.monotonic() < end and found < given.most and (given.cases is None or number < given.first + given.cases):
        bench.program.forget()
        again = f"dev/search/fuzz/run.py --seed {given.seed} --from {number} --cases 1"
        for check, trial, wrong in one_case(bench, f"{given.seed}/{number}"):
            folder, wrong = write_found(given.found, bench, check, trial, wrong, again)
            print(f"{folder}: {check}: {wrong}\n  again: {again}", flush=True)
            found += 1
            if found == given.most:
                break
        number += 1
    return found


def main():
    given = words()
    sys.setrecursionlimit(20_000)
    with tempfile.TemporaryDirectory(prefix="rncv-fuzz-") as room:
        peer = None if given.no_jing else running.jing(room)
        bench = Bench(running.Program(given.program.resolve(), room), peer, running.library())
        found = search(given, bench)
        if peer:
            peer.close()
    reported = ", ".join(f"{number:,} {name}" for name, number in bench.counts.items())
    print(f"dev/search/fuzz: seed {given.seed}: {reported}; {bench.program.runs:,} runs; {found} faults found" + ("" if peer else "; without jing"))
    return 1 if found else 0


if __name__ == "__main__":
    sys.exit(main())
