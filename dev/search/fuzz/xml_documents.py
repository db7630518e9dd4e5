"""Random XML documents with internal DTDs, and mutants of them. The same seed gives the same documents.

Most documents are well-formed. Each place may also get something that a reader of XML often mistakes: such a place has a small share.
"""
import random
import re

ELEMENTS = ("a", "b", "c", "p:d", "e")
ATTRIBUTES = ("x", "y", "z", "p:x", "id", "xml:lang", "xml:space")
DECLARING = ("xmlns", "xmlns:p", "xmlns:q")
URIS = ("u", "v", "", "http://www.w3.org/XML/1998/namespace", "http://www.w3.org/2000/xmlns/")
GENERAL = ("g", "h", "i", "j", "k")
PARAMETER = ("m", "n", "o")
TYPES = ("CDATA", "CDATA", "(v|v)", "NMTOKEN", "NMTOKENS", "ID", "IDREF", "IDREFS", "ENTITY", "ENTITIES", "(v|w)", "( v | w )", "NOTATION (t)")
CONTENT = ("EMPTY", "ANY", "(#PCDATA)", "(#PCDATA|b|c)*", "(a?,b*,(c|e)+)", "((a,b)|c)?")
TEXTS = ("x", "1", "v w", " v  w ", "d", "\n", "\t", "\r\n", "\r", "  ", "]]", "]", ">", "'", '"', "%", "-", "\u00e9", "\u20ac", "\u4e2d", "\U0001f600",
         "\u0085", "\u2028", "\u00a0", "\ufeff", "%m;", "xy" * 40)
REFERENCES = ("&lt;", "&amp;", "&gt;", "&quot;", "&apos;", "&#9;", "&#10;", "&#13;", "&#32;", "&#x41;", "&#38;", "&#60;", "&#x20AC;", "&#37;", "&#x1F600;")
RARE = ("&u;", "&#0;", "&#x1;", "&#xD800;", "&#xFFFE;", "&#x110000;", "]]>", "<", "&", "\x01", "\x7f", "\x9f", "\ufffe", "&g", "&;", "& g;", "&#;", "&#x;",
        "&#X41;", "&#99999999999;")
LATER = ("&#38;lt;", "&#38;g;", "&#60;b/>", "&#38;#60;", "&#60;", "&#38;", "&#x26;h;", "&#60;![CDATA[x]]>", "&#38;#9;", "&#38;#10;", "&#38;#13;", "&#38;#32;",
         "&#60;p:d/>", "&#60;b x='&#38;g;'/>")
WRONG = ("<![INCLUDE[<!ENTITY g 'x'>]]>", "<![IGNORE[x]]>", "x", "&g;", "]", "<!ENTITY>", "<!ATTLIST>", "<!X>", "<b/>", "%u;", "<!ENTITY g>")
NAMES = ("\u00e9t\u00e9", "_1", "x-y.z", "\u4e2d", "\ua000", "\u3005", "\U00010000", "-a", "1a", ".a", "\u00b7a", "a\u00b7", "\u037e", "a\u0300", "\u0300a",
         ":a", "a:", "a:b:c", "q:a", "xmlns:a", "xml:a", "XMLa", "xmla", "p:1")
REAL = ("utf-16", "utf-16-le", "utf-16-be", "iso-8859-1", "windows-1252", "us-ascii", "euc-jp", "shift_jis", "koi8-r", "utf-32", "utf-8-sig", "gb18030")
DECLARED = {"utf-16-le": "UTF-16", "utf-16-be": "UTF-16", "utf-16": "UTF-16", "utf-8-sig": "UTF-8", "utf-32": "UTF-32"}
TOKEN = re.compile(r"<!\[CDATA\[|\]\]>|<!--|-->|<\?|\?>|<![A-Z]+|</?|/?>|[&%]#?[\w:.]+;|#[A-Z]+|[\w:.\-]+|\s+|.", re.S)
MARKUP = re.compile(r"<!DOCTYPE[^\[>]*\[|<[^<>]*>|[^<]+|<", re.S)
CHARACTER = re.compile(".", re.S)
PIECES = ("<!DOCTYPE a [", "]>", "<!--", "-->", "<![CDATA[", "]]>", "<?p ", "?>", "<", ">", "/>", "</", "&g;", "&u;", "%m;", "%u;", "&#38;", "&#60;", "&#37;",
          "'", '"', " ", "\n", "\r", "\t", "=", "x='1'", "xmlns='u'", "xmlns:p='u'", "p:x='1'", "<b/>", "<b>", "</b>", "<!ENTITY g 'x'>",
          "<!ENTITY % m '<!--x-->'>", "<!ATTLIST a x CDATA 'd'>", "<!ATTLIST a x NMTOKENS #IMPLIED>", "<!ELEMENT a ANY>", "<!NOTATION t SYSTEM 't'>",
          "SYSTEM 's.ent'", "<?xml version='1.0'?>", "<?xml version='1.1'?>", "standalone='yes'", "\x00", "\x01", "\ufffe", "\u0085", "a:b:c", ":", "#", "%",
          "xmlns:p=''", "xmlns:q=''", "&#1;", "\u2028", "\x7f",
          "[", "]", "(", ")", "|", ",", "*", "?", " NDATA ", " NDATA t", " SYSTEM ", " PUBLIC ", "#FIXED ", "(#PCDATA|b)*", "(v|w)", "()", "''", '""', "--",
          "<!ENTITY g SYSTEM 's.ent'>", "<!ENTITY % m SYSTEM 's.mod'>", "<!ENTITY % m ''>%m;")


class Maker:
    """Makes one document. `oddness` is the share of places that get something unusual."""

    def __init__(self, seed):
        self.chance = random.Random(seed)
        self.oddness = self.chance.choice((0, 0, 0.003, 0.01, 0.03))
        self.general, self.parameter, self.notations = [], [], []
        self.declares_prefix = self.is_so(0.8)

    def is_so(self, often):
        return self.chance.random() < often

    def pick(self, *choices):
        return self.chance.choice(choices)

    def blank(self, least=0):
        return "".join(self.pick(" ", " ", " ", "\n", "\t", "\r\n", "\r") for _ in range(max(least, self.pick(0, 0, 0, 0, 1, 2))))

    def many(self, make, most, joined=""):
        return joined.join(make() for _ in range(self.chance.randrange(most + 1)))

    def name(self, usual):
        return self.pick(*NAMES) if self.is_so(self.oddness) else self.pick(*usual)

    def reference(self):
        if self.is_so(self.oddness):
            return self.pick(*RARE)
        return f"&{self.pick(*self.general)};" if self.general and self.is_so(0.6) else self.pick(*REFERENCES)

    def quoted(self, text, quote=None):
        quote = quote or self.pick('"', "'")
        return quote + text.replace(quote, "") + quote

    def text(self):
        return self.pick(*TEXTS)

    # attributes and content

    def value(self):
        return self.quoted(self.many(lambda: self.pick(self.text(), self.text(), self.reference()), 3).replace("<", "" if self.is_so(0.99) else "<"))

    def attribute(self, name=None, value=None):
        return f"{self.blank(1)}{name or self.name(ATTRIBUTES)}{self.blank()}={self.blank()}{value or self.value()}"

    def uri(self):
        """A namespace to declare."""
        return self.pick("u", "v")

    def declaration(self):
        return self.attribute(self.pick(*DECLARING), self.quoted(self.pick("u", "v", *URIS) if self.is_so(self.oddness) else self.uri()))

    def attributes(self):
        made = {}
        for _ in range(self.pick(0, 0, 1, 1, 2, 4)):
            one = self.declaration() if self.is_so(0.2) else self.attribute()
            made[len(made) if self.is_so(self.oddness) else one.split("=")[0].strip()] = one
        return "".join(made.values())

    def comment(self):
        return "<!--" + self.many(self.text, 3).replace("--", "") + ("--" if self.is_so(self.oddness) else " ") + "-->"

    def instruction(self):
        target = self.pick("xml", "XmL", "p:x", "", "\ua000") if self.is_so(self.oddness) else self.pick("go", "xml-x", "_")
        return f"<?{target}{self.pick('', ' ' + self.many(self.text, 3))}?>"

    def section(self):
        return "<![CDATA[" + self.many(lambda: self.pick(self.text(), "<", "&", "&g;", "]]", "]"), 3).replace("]]>", "") + "]]>"

    def piece(self, depth):
        kind = self.chance.randrange(12)
        if kind < 4:
            return self.text()
        if kind < 7:
            return self.reference()
        if kind < 10 and depth < 4:
            return self.element(depth + 1)
        return self.pick(self.comment, self.instruction, self.section)()

    def content(self, depth):
        return self.many(lambda: self.piece(depth), self.pick(0, 1, 3, 6))

    def element(self, depth=0):
        name = self.name(ELEMENTS if depth else ("a", "a", "a", "b"))
        attributes = self.attributes() + ("" if depth or not self.declares_prefix else " xmlns:p='u'" if self.is_so(0.9) else "")
        if depth == 0:
            attributes = re.sub(r"(\sxmlns:p\s*=.*?)( xmlns:p='u')$", r"\1", attributes, flags=re.S)
        inner = self.content(depth)
        if not inner and self.is_so(0.5):
            return f"<{name}{attributes}{self.blank()}/>"
        end = self.pick(*ELEMENTS) if self.is_so(self.oddness) else name
        return f"<{name}{attributes}{self.blank()}>{inner}</{end}{self.blank()}>"

    # declarations

    def entity_text(self):
        """The literal of a general entity: text, references, elements in balance, or references that are read later."""
        kind = self.chance.randrange(10)
        if kind < 3:
            return self.many(self.text, 2)
        if kind < 5:
            return self.many(lambda: self.pick(self.text(), self.reference()), 3)
        if kind < 7:
            return self.element(3)
        if kind < 8:
            return self.many(lambda: self.pick(*LATER), 2)
        if kind < 9 and self.parameter and self.is_so(0.2):
            return f"%{self.pick(*self.parameter)};"
        return self.pick("<b>", "</b>", "x<b/>", "<!--x-->", "<?p?>", "<![CDATA[x]]>", "<b x='&#38;g;'/>") if self.is_so(0.2) else "v"

    def literal(self, text):
        quote = self.pick('"', "'")
        other = "'" if quote == '"' else '"'
        return quote + text.replace(quote, other) + quote

    def plain_percent(self, text):
        return text if self.is_so(self.oddness) else re.sub(r"%(?!\w+;)", "&#37;", text.replace("%m;", "m"))

    def external(self, file="s.ent"):
        if self.is_so(self.oddness * 3):
            file = self.pick("<!DOCTYPE", ">[", "]>", "&g;", "%m;", "", " ", "{", "\u00e9", "a b", "<b>", "x:y", "--")
        return self.pick(f"SYSTEM '{file}'", f"PUBLIC 'p' '{file}'", f'SYSTEM "{file}"')

    def general_entity(self):
        name = self.name(GENERAL)
        if self.is_so(0.06):
            value = self.external() + (" NDATA t" if self.is_so(0.5) else "")
        else:
            value = self.literal(self.plain_percent(self.entity_text()))
        self.general.append(name)
        return f"<!ENTITY{self.blank(1)}{name}{self.blank(1)}{value}{self.blank()}>"

    def parameter_entity(self):
        name = self.name(PARAMETER)
        if self.is_so(0.1):
            value = self.external("s.mod")
        elif self.is_so(0.5):
            inner = self.many(self.markup, 2).replace("&#", "&#38;#").replace("%", "&#37;")
            value = self.literal(inner)
        else:
            value = self.literal(self.pick("", " ", "x", "<!--x-->", "<?p?>", "&#37;m;", "&#37;n;", "<!ENTITY g '&#37;n;'>", "<!ATTLIST a x &#37;n; 'd'>",
                                           "<![INCLUDE[<!ATTLIST a x CDATA 'd'>]]>", "&g;", "&lt;", "CDATA 'd'", "<!ENTITY g 'x", "'>"))
        self.parameter.append(name)
        return f"<!ENTITY{self.blank(1)}%{self.blank(1)}{name}{self.blank(1)}{value}{self.blank()}>"

    def default(self, kind):
        if self.is_so(0.15):
            return self.pick("#IMPLIED", "#REQUIRED")
        value = self.value() if self.is_so(0.4) and kind == "CDATA" else self.quoted(self.pick("v", "w", "v", " v  w ", "v\tw", "&#9;v", "v&#32;w", "d", ""))
        return self.pick("", "", "#FIXED ") + value

    def attribute_declaration(self):
        kind = self.pick(*TYPES)
        if self.is_so(0.15):
            return f"{self.blank(1)}{self.pick(*DECLARING)} CDATA {self.pick('', '#FIXED ')}{self.quoted(self.uri())}"
        return f"{self.blank(1)}{self.name(ATTRIBUTES)}{self.blank(1)}{kind}{self.blank(1)}{self.default(kind)}"

    def attribute_list(self):
        return f"<!ATTLIST{self.blank(1)}{self.name(ELEMENTS)}{self.many(self.attribute_declaration, 3)}{self.blank()}>"

    def element_declaration(self):
        return f"<!ELEMENT{self.blank(1)}{self.name(ELEMENTS)}{self.blank(1)}{self.pick(*CONTENT)}{self.blank()}>"

    def notation(self):
        return f"<!NOTATION{self.blank(1)}t{self.blank(1)}{self.pick(self.external(), chr(39).join(('PUBLIC ', 'p', '')))}>"

    def predefined(self):
        return self.pick("<!ENTITY lt '&#38;#60;'>", "<!ENTITY amp '&#38;#38;'>", "<!ENTITY gt '>'>", "<!ENTITY quot '&#34;'>", '<!ENTITY apos "\'">',
                         "<!ENTITY lt '&#60;'>", "<!ENTITY amp '&#38;'>", "<!ENTITY gt 'x'>", "<!ENTITY gt '&#62;'>")

    def markup(self):
        """A declaration, or something else that may be between declarations."""
        kind = self.chance.randrange(24)
        if kind < 7:
            return self.general_entity()
        if kind < 12:
            return self.attribute_list()
        if kind == 12 and self.is_so(0.3):
            return self.predefined()
        if kind == 13 and self.is_so(self.oddness * 5):
            return self.pick(*WRONG)
        return self.pick(self.element_declaration, self.notation, self.comment, self.instruction, self.blank)()

    def declared(self):
        kind = self.chance.randrange(10)
        if kind < 2:
            return self.parameter_entity()
        if kind < 4 and self.parameter:
            return f"%{self.pick(*self.parameter)};"
        return self.markup()

    def subset(self):
        declared = self.many(lambda: self.declared() + self.blank(), self.pick(1, 3, 6, 10))
        outside = " " + self.external("s.dtd") if self.is_so(0.25) else ""
        return f"<!DOCTYPE{self.blank(1)}{self.pick('a', 'a', 'b', 'p:d')}{outside}{self.blank()}[{declared}]{self.blank()}>"

    def xml_declaration(self, encoding):
        version = self.pick("1.1", "2.0", "1.2", "1.", "", "foo", "1.0 ") if self.is_so(self.oddness) else "1.0"
        standalone = f" standalone={self.quoted(self.pick('yes', 'no'))}" if self.is_so(0.15) else ""
        named = f" encoding={self.quoted(encoding)}" if encoding else ""
        if self.is_so(self.oddness):
            named, standalone = standalone, named
        return f"<?xml version={self.quoted(version)}{named}{standalone}{self.pick('', '', ' ')}?>"

    def document(self):
        """The text of a document and the encoding to write it in."""
        encoding, declared = "utf-8", self.pick("", "", "", "UTF-8", "utf-8")
        if self.is_so(0.12):
            encoding = self.pick(*REAL)
            declared = DECLARED.get(encoding, encoding)
            if encoding in ("utf-16", "utf-16-le", "utf-16-be", "utf-8-sig"):
                declared = self.pick(declared, declared, declared, "")
        head = self.xml_declaration(declared) if declared or self.is_so(0.3) else ""
        doctype = self.subset() if self.is_so(0.85) else ""
        around = lambda: self.many(lambda: self.pick(self.comment, self.instruction, lambda: "\n", lambda: " ")(), 1)
        filler = f"<!--{'x' * self.pick(4_060, 8_150, 65_400, 65_500, 131_000)}{'y' * self.chance.randrange(150)}-->" if self.is_so(0.03) else ""
        text = f"{head}{filler}{around() if self.is_so(0.3) else ''}{doctype}{around()}{self.element()}{around()}"
        return text, encoding


def document(seed):
    """The bytes of a document."""
    text, encoding = Maker(seed).document()
    return text.encode(encoding, "strict" if encoding.startswith("utf-") else "xmlcharrefreplace")


def parts(data, pattern):
    """The parts of a document that a pattern finds, as bytes. They join to the document."""
    is_little, is_big = data[1:2] == b"\0" or data[:2] == b"\xff\xfe", data[:1] == b"\0" or data[:2] == b"\xfe\xff"
    encoding = "utf-16-le" if is_little else "utf-16-be" if is_big else "utf-8"
    errors = "surrogateescape" if encoding == "utf-8" else "surrogatepass"
    try:
        found = [it.encode(encoding, errors) for it in pattern.findall(data.decode(encoding, errors))]
    except UnicodeError:
        found = [it.encode("latin-1") for it in pattern.findall(data.decode("latin-1"))]
    return found


def markup(data):
    return parts(data, MARKUP)


def tokens(data):
    return parts(data, TOKEN)


def characters(data):
    return parts(data, CHARACTER)


def changed_tokens(data, chance):
    found = tokens(data)
    for _ in range(chance.choice((1, 1, 1, 2, 4))):
        at, kind = chance.randrange(len(found) + 1), chance.randrange(6)
        if kind == 0:
            del found[at:at + chance.choice((1, 1, 1, 3))]
        elif kind == 1 and found:
            found.insert(at, chance.choice(found))
        elif kind == 2 and found:
            found[at:at + 1] = [chance.choice(found)]
        elif kind == 3 and found:
            other = chance.randrange(len(found))
            at = min(at, len(found) - 1)
            found[at], found[other] = found[other], found[at]
        else:
            found.insert(at, chance.choice(PIECES).encode())
    return b"".join(found)


def changed_bytes(data, chance):
    data = bytearray(data)
    for _ in range(chance.choice((1, 1, 1, 2, 4))):
        at, kind = chance.randrange(len(data) + 1), chance.randrange(5)
        if kind == 0:
            del data[at:at + chance.choice((1, 1, 1, 2, 7))]
        elif kind == 1:
            data[at:at] = bytes([chance.choice((0, 9, 10, 13, 32, 34, 37, 38, 39, 59, 60, 61, 62, 63, 91, 93, 0x80, 0xC3, 0xED, 0xF0, 0xFF))])
        elif kind == 2 and at < len(data):
            data[at] ^= 1 << chance.randrange(8)
        elif kind == 3 and at < len(data):
            data[at] = chance.randrange(256)
        else:
            other = chance.randrange(len(data) + 1)
            data[at:at] = data[other:other + chance.randrange(12)]
    return bytes(data)


def changed(data, seed):
    """A document with a few changes of bytes or of tokens."""
    chance = random.Random(f"mutant of {seed}")
    return chance.choice((changed_tokens, changed_bytes))(data, chance)


def mutant(seed):
    """The document of this seed with a few changes."""
    return changed(document(seed), seed)
