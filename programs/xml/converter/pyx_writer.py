"""Converts XML to PYX lines, as a stream. Tests compare it with what the programs in C make of a document. Nothing here is proved.

The PYX is that of docs/use/LANGUAGE.md. The memory is bounded by one tag and one piece of text, not by the document.
"""
import xml.parsers.expat

from xml_entities import Declarations
from xml_feed import GOES_ON, Feed, Malformed, OutsideProfile  # noqa: F401

LINE_BYTES = 65_536
TEXT_BYTES = 65_536


def escaped(text):
    """A value or a text as it is in a PYX line."""
    return text.replace("\\", "\\\\").replace("\n", "\\n").replace("\t", "\\t")


def cut(text, limit=LINE_BYTES - 1):
    """The UTF-8 of escaped pieces of `text`, in order, each of at most `limit` bytes. No escape and no character is cut."""
    data = escaped(text).encode("utf-8")
    begin = 0
    while len(data) - begin > limit:
        end = begin + limit
        while data[end] & 0xC0 == 0x80:
            end -= 1
        if backslashes_before(data, begin, end) % 2:
            end -= 1
        yield data[begin:end]
        begin = end
    yield data[begin:]


def backslashes_before(data, begin, end):
    """How many backslashes are directly before `end`, from `begin` on."""
    return end - begin - len(data[begin:end].rstrip(b"\\"))


class PyxWriter:
    """Takes expat's calls and passes on PYX lines.

    `put(line)` gets each line with its line feed. `place(own, reported)` gets two places in the XML, each a line and a column: where the PYX line comes from,
    and where the thing begins that `rncv` reports by this line. `report(line, column, what)` gets what is left out of the document without harm to its form.
    """

    def __init__(self, put, place, report):
        self.put, self.place = put, place
        self.held, self.held_size, self.held_place, self.is_blank = [], 0, None, True
        self.begun_tag = self.begun_text = None
        parser = xml.parsers.expat.ParserCreate()
        parser.ordered_attributes = True
        parser.XmlDeclHandler = self.declaration
        parser.StartElementHandler = self.start
        parser.EndElementHandler = self.end
        parser.CharacterDataHandler = self.text
        parser.ProcessingInstructionHandler = self.instruction
        self.feed = Feed(parser)
        self.here = self.feed.here
        self.declarations = Declarations(parser, self.feed, self.refuse, report)

    def refuse(self, place, what):
        raise OutsideProfile(*place, f"{what}: outside the profile")

    def declaration(self, version, encoding, standalone):
        """Takes the XML declaration. In a document that says that it is standalone, expat drops nothing. It reads XML 1.1 as XML 1.0."""
        if version == "1.1":
            self.refuse(self.here(), "XML 1.1 is not read")
        self.declarations.standalone = standalone == 1
        self.feed.declared(encoding)

    def line(self, data, place):
        """Passes on one PYX line. A line that is too long is outside the profile."""
        if len(data) > LINE_BYTES:
            kind = "attribute" if data[:1] == b"A" else "name"
            self.refuse(place, f"{kind} of more than {LINE_BYTES:,} bytes")
        self.put(data + b"\n")
        self.place(place, self.reported(data[:1], place))

    def reported(self, kind, place):
        """Where the thing begins that a line of this kind reports: a start, if this is the first line after its tag; or the text before a start."""
        if kind == b"A":
            return place
        tag, text = self.begun_tag, self.begun_text
        self.begun_tag = place if kind == b"(" else None
        self.begun_text = (text or place) if kind == b"-" else text if kind == b"?" else None
        return tag or (text if kind == b"(" else None) or place

    def start(self, name, attributes):
        self.text_ends()
        place = self.here()
        if attributes:
            self.declarations.check_tag(place)
        self.line(b"(" + name.encode("utf-8"), place)
        for key, value in zip(attributes[::2], attributes[1::2]):
            self.line(f"A{key} {escaped(value)}".encode("utf-8"), place)

    def end(self, name):
        self.text_ends()
        self.line(b")" + name.encode("utf-8"), self.here())

    def text(self, text):
        """Holds a piece of text. Some 64 KiB are held at most. Its place is that of its first character that is no blank, if it has one."""
        blanks = len(text) - len(text.lstrip(" \t\n\r"))
        if self.is_blank and blanks < len(text):
            line, column = self.here()
            self.held_place, self.is_blank = (line, column + blanks), False
        elif not self.held:
            self.held_place = self.here()
        self.held.append(text)
        self.held_size += len(text)
        if self.held_size >= TEXT_BYTES:
            self.text_ends()

    def text_ends(self):
        """Passes on the text that is held, with the place where it began."""
        if self.held:
            for piece in cut("".join(self.held)):
                self.line(b"-" + piece, self.held_place)
            self.held, self.held_size, self.is_blank = [], 0, True

    def instruction(self, target, data):
        """A processing instruction vanishes. It has a line so that texts join across it. A long line is cut."""
        if target == GOES_ON:
            return
        self.text_ends()
        head = f"?{target} {data}" if data else f"?{target}"
        self.line(next(cut(head, LINE_BYTES)), self.here())


def convert(source, put, place=lambda own, reported: None, report=lambda line, column, what: None):
    """Reads the XML of the binary file `source` to its end and passes on its PYX lines."""
    PyxWriter(put, place, report).feed.all_of(source)
