"""Random XML documents, on which two converters are compared: names, prefixes, attributes, texts, CDATA, entities, defaults, comments, encodings, and
mutants of these. The same seed gives the same documents."""
import random

NAMES = ("a", "b", "title", "p:item", "\u00e9t\u00e9", "x-y.z", "_1", "\u4e2d\u6587", "q:\u0436")
ENCODINGS = ("utf-8", "utf-8", "utf-8", "utf-8-sig", "utf-16", "utf-16-le", "iso-8859-1", "us-ascii")
LATIN = str.maketrans({"\u4e2d": "c", "\u6587": "d", "\u0436": "z", "\u20ac": "e", "\U0001f600": "f", "\u0301": "g"})
ASCII = str.maketrans({"\u00e9": "e"})
CHARACTERS = "abc  xyz019.,;:-_?!\n\n\t\\'\u00e9\u4e2d\u20ac\U0001f600\u0301"
EVERY = frozenset("".join((*NAMES, CHARACTERS)))
REFERENCES = ("&lt;", "&amp;", "&gt;", "&quot;", "&apos;", "&#9;", "&#10;", "&#x41;", "&#92;", "&#x20AC;")


class Generator:
    """Makes one document from a source of random numbers."""

    def __init__(self, seed):
        self.chance = random.Random(seed)
        self.entities, self.unread = [], False

    def pick(self, *choices):
        return self.chance.choice(choices)

    def is_so(self, often):
        return self.chance.random() < often

    def text(self, longest=20):
        length = self.chance.randrange(longest)
        if self.is_so(0.01):
            length = self.pick(1_000, 65_530, 65_536, 70_000, 140_000)
        piece = "".join(self.chance.choice(CHARACTERS) for _ in range(min(length, 200)))
        return (piece * (length // max(len(piece), 1) + 1))[:length].replace("--", "-")

    def references(self):
        known = [f"&{name};" for name in self.entities]
        if self.is_so(0.03):
            known.append("&unknown;")
        return self.chance.choice(known + list(REFERENCES))

    def content_text(self):
        return "".join(self.pick(self.text(), self.text(), self.references()) for _ in range(self.chance.randrange(4)))

    def value(self):
        quote = self.pick('"', "'")
        text = "".join(self.pick(self.text(8), self.references()) for _ in range(self.chance.randrange(4))).replace(quote, " ")
        return quote + text + quote

    def blank(self, least=0):
        return "".join(self.pick(" ", " ", "\n", "\t", "\r\n", "\r") for _ in range(self.chance.randrange(least, 3)))

    def attributes(self):
        count = self.pick(0, 0, 1, 2, 5)
        names = self.chance.sample(NAMES + ("xmlns", "xmlns:p", "xmlns:q", "xml:lang"), count)
        return "".join(f"{self.blank(1)}{name}{self.blank()}={self.blank()}{self.value()}" for name in names)

    def instruction(self):
        return f"<?{self.pick('go', 'php', 'p:x')} {self.text(30).replace('?>', '')}?>"

    def comment(self):
        return f"<!--{self.text(40)} -->"

    def cdata(self):
        return f"<![CDATA[{self.text(30)}<&{self.pick('', ']', ']]', '>')} ]]>"

    def element(self, depth):
        name, attributes, blank = self.chance.choice(NAMES), self.attributes(), self.blank()
        if depth == 0 or self.is_so(0.3):
            return f"<{name}{attributes}{blank}/>"
        parts = (self.content_text, lambda: self.element(depth - 1), self.comment, self.instruction, self.cdata, self.blank)
        weights = (4, 4, 1, 1, 1, 2)
        content = "".join(part() for part in self.chance.choices(parts, weights, k=self.chance.randrange(6)))
        return f"<{name}{attributes}{blank}>{content}</{name}{self.blank()}>"

    def declaration(self):
        kind = self.chance.randrange(8)
        if kind <= 2:
            name = self.pick("e", "f", "g", "h", "\u00e9")
            text = self.pick("plain", self.text(10), "&e;", "&#38;lt;", "<b x='1'/>", "<b x='&e;'>&unknown;</b>", "&#60;b/>").replace('"', "")
            self.entities.append(name)
            return f'<!ENTITY {name} "{text.replace("%", "")}">'
        if kind == 3:
            return f"<!ATTLIST {self.pick('a', 'b', 'title')} d{self.chance.randrange(3)} CDATA {self.value()}>"
        if kind == 4:
            return self.pick("<!ELEMENT a ANY>", '<!NOTATION n SYSTEM "n">', self.comment(), self.instruction())
        if kind == 5:
            return f'<!ATTLIST b t {self.pick("NMTOKEN", "NMTOKENS", "ID", "(x|y)")} {self.pick("#IMPLIED", "#REQUIRED")}>'
        if kind == 6 and self.is_so(0.5):
            return self.pick('<!ENTITY % p SYSTEM "p">', '<!ENTITY % p "">', '<!ENTITY % p "<!ENTITY h \'in\'>">') + self.pick("%p;", "")
        return self.pick('<!ENTITY x SYSTEM "x.xml">', "%r;") if self.is_so(0.1) else ""

    def document(self):
        """The text, and the name of its encoding."""
        encoding = self.chance.choice(ENCODINGS)
        declared = encoding.removesuffix("-sig").removesuffix("-le")
        subset = "".join(self.blank() + self.declaration() for _ in range(self.pick(0, 0, 0, 1, 3, 8)))
        doctype = ""
        if subset or self.is_so(0.1):
            external = self.pick("", "", ' SYSTEM "d.dtd"', ' PUBLIC "p" "d.dtd"')
            doctype = f"<!DOCTYPE a{external} [{subset}]>" + self.blank()
        standalone = self.pick("", "", "", " standalone='yes'", " standalone='no'")
        is_declared = encoding in ("iso-8859-1", "us-ascii") or self.is_so(0.4)
        head = f"<?xml version='1.0' encoding='{declared}'{standalone}?>" if is_declared else ""
        body = self.element(4)
        if encoding == "iso-8859-1":
            body, doctype = body.translate(LATIN), doctype.translate(LATIN)
        if encoding == "us-ascii":
            body, doctype = body.translate(LATIN).translate(ASCII), doctype.translate(LATIN).translate(ASCII)
        text = head + self.pick("", "\n", self.comment() if encoding not in ("iso-8859-1", "us-ascii") else "") + doctype + body + self.blank()
        return ("\ufeff" if encoding == "utf-16-le" else "") + text, encoding


def document(seed):
    """The bytes of a document."""
    text, encoding = Generator(seed).document()
    return text.encode(encoding)


def mutant(data, seed):
    """The document with some bytes changed, cut or doubled."""
    chance = random.Random(seed)
    changed = bytearray(data)
    for _ in range(chance.randrange(1, 4)):
        at = chance.randrange(len(changed) + 1)
        length = chance.choice((1, 1, 1, 2, 5, 20))
        kind = chance.randrange(5)
        if kind == 0:
            changed[at:at + length] = b""
        elif kind == 1:
            changed[at:at] = changed[at:at + length]
        elif kind == 2:
            changed[at:at + 1] = bytes([chance.choice(b"<>&;\"'/!-?[]=%#\\\n\r\t\0\x80\xc3\xff ax")])
        elif kind == 3:
            changed[at:at] = chance.choice((b"<!--", b"-->", b"<![CDATA[", b"]]>", b"<?x ", b"?>", b"&e;", b"&unknown;", b"<!DOCTYPE a SYSTEM 'd'>"))
        else:
            del changed[at:]
        if not changed:
            break
    return bytes(changed)
