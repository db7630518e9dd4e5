#!/usr/bin/env python3
"""Runs a program with each growth of memory refused in turn:   rows.py PROGRAM SHIM [valid|check|simple DOCUMENT FILE..]

PROGRAM is the built `rncv`, or another program with the same answers (`by_library.c`). SHIM is `refuse.c` as a shared object. It runs the rows of
`rows.txt` and wrong command lines. With more arguments it runs one row with these files, and expects the answer of a run in which nothing is refused.

If a growth was refused, the run must answer `rncv: out of memory`, with status 4 and nothing on standard output. After a refused shrink, the row's own
answer is allowed too. The same holds for a few growths of the reader of documents: it keeps buffers for later lines only if there is room. test.sh and
run.sh build what is needed and call this.
"""
import os
import pathlib
import signal
import sys
import tempfile
from urllib.parse import unquote_to_bytes

HERE = pathlib.Path(__file__).resolve().parent
NO_MEMORY = 4, b"", b"rncv: out of memory\n"
USAGE = 5, b"", b"usage: rncv valid|check|simple FILES..\n"
# Wrong command lines. In the last two, a word is too long, or there are too many words, for the first room for words.
WRONG_WORDS = [], ["--"], ["check"], ["print", "s.rnc"], ["check", "-x", "s.rnc"], ["--", "--", "s.rnc"], ["x" * 2000, "s.rnc"], ["print"] + ["s.rnc"] * 200
SECONDS = 900
SPARED = 3


class Row:
    """The input of a program, and its expected answer: a status and what it writes on both streams."""

    def __init__(self, words, files, document, wanted):
        self.words, self.files, self.document, self.wanted = words, files, document, wanted
        # How many refused growths, other than shrinks, may leave the answer unchanged.
        self.spared = SPARED if words[:1] in (["valid"], [b"valid"]) else 0

    def __str__(self):
        return " ".join(os.fsdecode(word) for word in self.words)[:60]

    def reports(self, answer):
        """Whether a run answered that it ran out of memory, and nothing else."""
        return answer == NO_MEMORY

    @classmethod
    def read(cls, line):
        """The row in a line of `rows.txt`."""
        command, status, answer, document, *files = (unquote_to_bytes(field) for field in line.split("\t"))
        named = list(zip(files[::2], files[1::2]))
        return cls([command, *(name for name, _ in named)], named, document, (int(status), answer, b""))


class Runner:
    """Runs one program in the current folder, each time with one growth refused. The streams are files, so that a run is cheap."""

    def __init__(self, program, shim, folder):
        self._program = program
        self._environment = {"LD_PRELOAD": shim, "REFUSE_TO": "3"}
        self._document = os.path.join(folder, "document")
        self._out, self._errors, self._reported = (
            os.open(os.path.join(folder, name), os.O_RDWR | os.O_CREAT | os.O_APPEND) for name in ("out", "errors", "reported"))

    def begin(self, row):
        """Writes the files of a row."""
        for name, text in (*row.files, (self._document, row.document)):
            with open(name, "wb") as file:
                file.write(text)

    def run(self, row, growth):
        """The answer of a run, and the letter of the refused call. The letter is empty if there was no growth with this number."""
        streams = self._out, self._errors, self._reported
        for stream in streams:
            os.ftruncate(stream, 0)
        actions = [(os.POSIX_SPAWN_OPEN, 0, self._document, os.O_RDONLY, 0)]
        actions += [(os.POSIX_SPAWN_DUP2, stream, at) for at, stream in enumerate(streams, 1)]
        child = os.posix_spawn(self._program, [self._program, *row.words], {**self._environment, "REFUSE": str(growth)}, file_actions=actions)
        status = os.waitstatus_to_exitcode(os.waitpid(child, 0)[1])
        out, errors, reported = (os.pread(stream, 1 << 22, 0) for stream in streams)
        return (status, out, errors), reported


class Count:
    """How many growths were refused, and how many of these left the answer unchanged."""

    def __init__(self):
        self.refused = self.left = self.wrong = 0

    def take(self, row, growth, answer, letter):
        """Judges a run in which a growth was refused."""
        self.refused += 1
        if answer == row.wanted and (letter == b"s" or row.spared > 0):
            self.left += 1
            row.spared -= letter == b"g"
        elif not row.reports(answer):
            self.wrong += 1
            print(f"growth {growth} ({letter.decode()}) of {row}: {answer}, and not out of memory")


def refuse_each(runner, row, count):
    """All runs of a row: with no growth refused, and then with each in turn."""
    runner.begin(row)
    answer, letter = runner.run(row, 0)
    if answer != row.wanted or letter:
        count.wrong += 1
        print(f"{row}: {answer}, and not {row.wanted}")
        return
    growth = 0
    while letter or growth == 0:
        growth += 1
        answer, letter = runner.run(row, growth)
        if letter:
            count.take(row, growth, answer, letter)
        elif answer != row.wanted or (growth == 1 and row.wanted != USAGE):
            count.wrong += 1
            print(f"{row}: {answer} with no growth refused, of {growth - 1}")


def rows_of(path):
    """The rows of a file, and then the wrong command lines."""
    lines = pathlib.Path(path).read_text(encoding="utf-8").splitlines()
    rows = [Row.read(line) for line in lines if line and not line.startswith("#")]
    return rows + [Row(words, [(b"s.rnc", b"element a { empty }")], b"", USAGE) for words in WRONG_WORDS]


def row_over(runner, command, document, *names):
    """The row for existing files."""
    row = Row([command, *names], [], pathlib.Path(document).read_bytes(), None)
    runner.begin(row)
    row.wanted = runner.run(row, 0)[0]
    return row


def too_long(*_):
    sys.exit("dev/failures/refused_growths: the runs take too long")


def main(program, shim, *words):
    """Tries all rows, or the one of these words, and returns the exit status."""
    count, rows = Count(), [] if words else rows_of(HERE / "rows.txt")
    signal.signal(signal.SIGALRM, too_long)
    signal.alarm(0 if words else SECONDS)
    with tempfile.TemporaryDirectory() as folder, tempfile.TemporaryDirectory() as room:
        runner = Runner(os.path.abspath(program), os.path.abspath(shim), room)
        if words:
            rows.append(row_over(runner, *words))
        else:
            os.chdir(folder)
        for row in rows:
            refuse_each(runner, row, count)
        os.chdir("/")
    print(f"{os.path.basename(program)}: {len(rows)} rows, {count.refused} growths refused, {count.left} of them left the answer, {count.wrong} wrong")
    return 1 if count.wrong else 0


if __name__ == "__main__":
    sys.exit(main(*sys.argv[1:]))
