#!/usr/bin/env python3
"""Finds the least stack that the program needs for inputs that nest deeply, and prints a table. It is not part of the gate.

    dev/search/limits/stack.py [--only WORD] [--most KIB] [PROGRAM]

The default PROGRAM is `crates/rncv/out/rncv`. `inputs.py` has the inputs (`NESTED`). Each is run with stacks of different sizes (`ulimit -s`) until the
least is known to 1 KiB, or to a hundredth where it is more than 100 KiB. `--most` is the largest stack that is tried (default: 65,536 KiB). `--only`
picks the inputs that have WORD in their name.
"""
import argparse
import pathlib
import tempfile

from inputs import NESTED
from run import cell, judged, parsed, write_input


def least(answers, most):
    """The least size from 8 to `most` for which `answers` is true, to a hundredth. It is true for `most`, and a larger size never makes it false."""
    low, high = 8, most
    while high - low > max(1, high // 100):
        middle = (low + high) // 2
        low, high = (low, middle) if answers(middle) else (middle, high)
    return high


def least_stack(given, command, make):
    """The least stack in KiB, as a text, and the answer with it. The text is `more` if the largest stack does not suffice."""
    with tempfile.TemporaryDirectory(prefix="stack-") as room:
        folder = pathlib.Path(room)
        names = write_input(make, 1, folder)

        def answer(size):
            return judged(given, command, size, folder, names)[0]

        wanted = answer(given.most)
        if wanted.startswith("ended by"):
            return "more", wanted
        return f"{least(lambda size: answer(size) == wanted, given.most):,}", wanted


def main():
    words = argparse.ArgumentParser(description=__doc__.splitlines()[0])
    words.add_argument("--only", default="")
    words.add_argument("--most", type=int, default=65_536)
    given = parsed(words)
    given.seconds, given.megabytes = 120, 4_096
    print("| Input | Command | Least stack, KiB | Answer |\n|---|---|---|---|", flush=True)
    for name, command, make in NESTED:
        if given.only in name:
            size, answer = least_stack(given, command, make)
            print(f"| {cell(name)} | `{command}` | {size} | {cell(answer)} |", flush=True)


if __name__ == "__main__":
    main()
