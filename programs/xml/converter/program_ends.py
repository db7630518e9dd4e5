"""How the programs of this folder read their words, write lines and end: without a traceback. Nothing here is proved."""
import argparse
import errno
import os
import sys

# Characters that would break a line, or change a terminal, as rncv-xml shows them.
SHOWN = {**{code: f"\\x{code:02x}" for code in (*range(0x20), *range(0x7F, 0xA0))}, 9: "\\t", 10: "\\n", 13: "\\r", 0x2028: "\\u2028", 0x2029: "\\u2029"}


class Words(argparse.ArgumentParser):
    """The words of a command line. Help that cannot be written raises an error."""

    def print_help(self, file=None):
        put(self.format_help())

    def error(self, message):
        if sys.stderr is None:
            self.exit(2)  # argparse would write to standard output
        super().error(message.translate(SHOWN))


def line_bytes(text):
    """The bytes of a line. Names of files keep their bytes, but for characters that are shown. A character that the encoding does not have is escaped."""
    text = text.translate(SHOWN)
    try:
        return os.fsencode(text + "\n")
    except UnicodeEncodeError:
        return (text + "\n").encode(sys.getfilesystemencoding(), "backslashreplace")


def binary(stream, name):
    """The bytes of a standard stream, which may be closed."""
    if stream is None:
        raise OSError(errno.EBADF, f"{name} is closed")
    return stream.buffer


def put(text):
    output = binary(sys.stdout, "standard output")
    output.write(text.encode("utf-8", "backslashreplace"))
    output.flush()


def put_line(text):
    output = binary(sys.stdout, "standard output")
    output.write(line_bytes(text))
    output.flush()


def report_line(text):
    """Writes a line to standard error, if that is there."""
    try:
        errors = binary(sys.stderr, "standard error")
        errors.write(line_bytes(text))
        errors.flush()
    except OSError:
        pass


def what(fault, named=None):
    """What a fault of the system is, and of which file, unless that is the one that is named anyway."""
    file = os.fsdecode(fault.filename) if isinstance(fault.filename, (str, bytes)) else named
    return f"{fault.strerror or fault}" + (f": {file}" if file not in (None, named) else "")


def ends(program, main):
    """Runs the program and ends the process. Ctrl-C and a closed pipe end it quietly, with the status that a shell has for them."""
    try:
        status = main()
        if sys.stdout is not None:
            sys.stdout.flush()
    except KeyboardInterrupt:
        status = 130
    except BrokenPipeError:
        status = 141
    except OSError as fault:
        report_line(f"{program}: {what(fault)}")
        status = 4
    except Exception as fault:  # whatever it is, one line reports it
        report_line(f"{program}: {type(fault).__name__}: {fault}")
        status = 4
    os._exit(status)
