"""The program `rncv-lsp`: its arguments, its streams and its end."""
from __future__ import annotations

import argparse
import errno
import gc
import os
import sys
from typing import Any, NoReturn

from rncv_lsp import DATATYPES, MOST_FAULTS, USUAL_FAULTS
from rncv_lsp.versions import shown_version

# The threads that judge give way to the one that reads messages after this time.
SWITCH_SECONDS = 0.001
# After so many new objects the interpreter looks for those that are in cycles, which takes some milliseconds, and after so many times for old ones too. Mostly
# that is done while nothing is asked (jobs.py). By default it would be done many times within an answer about a large schema.
CYCLES = (20_000, 200, 20)
DESCRIPTION = """A language server for RELAX NG schemas in the compact syntax, and for XML documents that have such a schema. It uses the Language Server
Protocol on its standard streams, and reads no files except schemas. The variable RNCV_LIBRARY names the library. docs/use/EDITORS.md says how to set up
editors."""


def one_line(text: str) -> str:
    """The text, with an escape for each character that would break a line or change a terminal."""
    return "".join(character if character.isprintable() else repr(character)[1:-1] for character in text)


def failed(why: str) -> int:
    """Prints why the server ends, if there is a standard error, and returns the exit status."""
    if sys.stderr is not None:
        try:
            print(f"rncv-lsp: {one_line(why)}", file=sys.stderr, flush=True)
        except OSError:
            pass
    return 1


def write_out(text: str) -> None:
    """Writes to standard output, or raises an error."""
    if sys.stdout is None:
        raise OSError(errno.EBADF, "it is closed")
    print(text, end="", flush=True)


class Parser(argparse.ArgumentParser):
    """Help that cannot be written raises an error."""

    def print_help(self, file: Any = None) -> None:
        write_out(self.format_help())

    def error(self, message: str) -> NoReturn:
        if sys.stderr is None:
            self.exit(2)  # argparse would write to standard output
        super().error(one_line(message))


class PrintVersion(argparse.Action):
    """Prints the version, and ends the process. Only then is the library loaded."""

    def __init__(self, option_strings: Any, dest: str, **others: Any) -> None:
        super().__init__(option_strings, dest, nargs=0, help="show program's version number and exit")

    def __call__(self, parser: argparse.ArgumentParser, *others: Any) -> None:
        write_out(f"rncv-lsp {shown_version()}\n")
        parser.exit()


def parse_arguments(parser: argparse.ArgumentParser) -> argparse.Namespace:
    """Parses the arguments, or ends the process. Output that cannot be written gives one line."""
    try:
        return parser.parse_args()
    except OSError as error:
        os._exit(failed(f"standard output: {error.strerror}"))
    except SystemExit as end:
        os._exit(int(end.code or 0))  # the interpreter has another status if standard error cannot be written


def faults_wanted(words: str) -> int:
    """The number that an argument says."""
    if not (words.isascii() and words.isdigit() and 1 <= int(words[:9]) <= MOST_FAULTS):
        raise argparse.ArgumentTypeError(f"wants a number from 1 to {MOST_FAULTS}, and not {words!r}")
    return int(words)


def main() -> None:
    """Runs the server, and ends the process with its status."""
    parser = Parser(prog="rncv-lsp", description=DESCRIPTION)
    parser.add_argument("--version", action=PrintVersion)
    parser.add_argument("--stdio", action="store_true", help="use the standard streams (it always does)")
    parser.add_argument("--datatypes", choices=DATATYPES, default=DATATYPES[0],
                        help="the datatypes that a schema may name, unless the client has a setting: xml-schema (the default), or the six of the profile")
    parser.add_argument("--max-faults", type=faults_wanted, default=USUAL_FAULTS, metavar="N",
                        help=f"tell N faults of an invalid document at most: the first, and hints about others (else {USUAL_FAULTS})")
    given = parse_arguments(parser)
    try:
        from rncv_lsp.server import Server
    except ImportError as error:
        print(f"rncv-lsp: {error}: it needs the folder `programs` around it, as in the repository", file=sys.stderr)
        sys.exit(2)
    except KeyboardInterrupt:
        sys.exit(130)
    if sys.stdin is None or sys.stdout is None:
        sys.exit(failed("a standard stream is closed"))
    source, sink = sys.stdin.buffer, sys.stdout.buffer
    # Other output goes to standard error.
    sys.stdout = sys.stderr
    sys.setswitchinterval(SWITCH_SECONDS)
    gc.set_threshold(*CYCLES)
    try:
        status = Server(source, sink, given.datatypes, given.max_faults).run()
    except KeyboardInterrupt:
        status = 130
    except OSError as error:
        status = failed(f"standard input: {error.strerror}")
    except Exception as error:  # whatever happens, one line reports it
        status = failed(f"internal error: {type(error).__name__}: {error}")
    # Do not wait for the threads that judge.
    os._exit(status)
