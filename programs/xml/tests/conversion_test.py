"""Tests of the conversion in C, on `xml2pyx`: what is in the PYX, what is outside the profile, and that the converter in Python does the same."""
import contextlib
import io
import os
import subprocess
import time
import unittest

import differences
import generated
from testing import HERE, TOP, XML2PYX, InFolder, peak_of, processor_seconds

import pyx_writer

DOCUMENTS = int(os.environ.get("RNCV_XML_DOCUMENTS", "300"))


def by_converter(data):
    """The PYX of the converter in Python, the places of its lines, and the lines that it reports about the document `d.xml`."""
    lines, places, reported = [], [], []
    try:
        pyx_writer.convert(io.BytesIO(data), lines.append, lambda own, of: places.append(own),
                           lambda row, column, what: reported.append(f"d.xml:{row}:{column}: note: {what}"))
        status = 0
    except pyx_writer.OutsideProfile as fault:
        reported.append(f"d.xml:{fault.line}:{fault.column}: {fault.what}")
        status = 2
    return (b"".join(lines), places) if status == 0 else None, reported, status


def in_pieces(data):
    """The PYX, what is reported, and the status of a document that comes byte by byte."""
    with subprocess.Popen([XML2PYX, "-"], bufsize=0, stdin=subprocess.PIPE, stdout=subprocess.PIPE, stderr=subprocess.PIPE) as run:
        for byte in data:
            with contextlib.suppress(BrokenPipeError):
                run.stdin.write(bytes([byte]))
            time.sleep(0.0005)
        out, errors = run.communicate()
    return out, errors, run.returncode


class Converted(InFolder):
    """A document `d.xml` in a fresh folder."""

    def converted(self, data):
        """The PYX, the places of its lines, what is reported, and the status."""
        self.write("d.xml", data)
        run = subprocess.run([XML2PYX, "--lines", "places", "d.xml"], cwd=self.folder, capture_output=True, timeout=60, check=False)
        places = [tuple(map(int, line.split())) for line in (self.folder / "places").read_text().splitlines()]
        return run.stdout, places, run.stderr.decode("utf-8", "backslashreplace").splitlines(), run.returncode

    def pyx(self, data):
        out, _, reported, status = self.converted(data)
        self.assertEqual((reported, status), ([], 0))
        return out

    def fault(self, data):
        """What is reported about a document that is malformed or outside: line, column, words."""
        _, _, reported, status = self.converted(data)
        self.assertEqual(status, 2, reported)
        name, row, column, what = reported[-1].split(":", 3)
        self.assertEqual(name, "d.xml")
        return int(row), int(column), what[1:]


class Threads(InFolder):
    """The conversion in threads, by the test program in C."""

    BUILD = """
    cc=${CC:-cc}
    . "$0/parser.sh"
    headers=
    for part in $parser_parts; do sources="$sources $0/src/*/$part.c"; done
    for folder in "$0"/src/*; do headers="$headers -I$folder"; done
    exec $cc -std=c17 -Wall -Wextra -Wconversion -Werror -pedantic -D_XOPEN_SOURCE=700 -D_FILE_OFFSET_BITS=64 -O2 $headers $2 $parser_flags -o "$1" \\
        "$0/tests/thread_memory_test.c" $sources $parser_libs -lpthread
    """

    def refuse_memory(self, *flags):
        program = self.folder / "program"
        build = subprocess.run(["sh", "-c", self.BUILD, HERE, program, *flags], capture_output=True, text=True, check=False)
        self.assertEqual((build.returncode, build.stderr), (0, ""))
        run = subprocess.run([program], capture_output=True, text=True, timeout=100, check=False)
        self.assertRegex(run.stdout, "^thread_memory_test: ok, \\d+ growths\n$")
        self.assertEqual(run.returncode, 0, run.stderr)

    def test_refused_memory(self):
        self.refuse_memory()

    def test_refused_memory_where_entities_are_put_into_one_another(self):
        self.refuse_memory("-DLEVELS_OF_LIBXML2=0")


class Conversion(Converted):
    """What is in the PYX of a document."""

    def test_elements_attributes_texts(self):
        out, places, _, _ = self.converted('<?xml version="1.0"?>\n<a x="1\t2"><!-- gone -->\n  <p:b xmlns:p="u"/>t\\</a>')
        self.assertEqual(out, b"(a\nAx 1 2\n-\\n  \n(p:b\nAxmlns:p u\n)p:b\n-t\\\\\n)a\n")
        self.assertEqual(places, [(2, 1), (2, 1), (2, 25), (3, 3), (3, 3), (3, 21), (3, 21), (3, 23)])

    def test_entities_defaults_cdata(self):
        self.assertEqual(self.pyx('<!DOCTYPE a [<!ENTITY e "in"><!ATTLIST a x CDATA "d">]><a>&e;&lt;<![CDATA[<&]]>&#9;</a>'),
                         b"(a\nAx d\n-in<<&\\t\n)a\n")

    def test_instructions_keep_to_their_line(self):
        self.assertEqual(self.pyx("<a>x<?p q\nr?>y</a>"), b"(a\n-x\n?p q\\nr\n-y\n)a\n")

    def test_bytes_that_are_no_document(self):
        for data in (b"", b"\0", b"\0\0\0", b"<", b"\xff", b"\xff\xfe", b"\xef\xbb\xbf", b"<a>\0</a>", b"<\0a\0", b"PK\3\4", b"<a>\xff</a>",
                     b"<a><!-- -- - --></a>", b"<a>-- - -", b"-- - -"):
            with self.subTest(data=data):
                self.assertTrue(self.fault(data)[2].startswith("malformed XML: "))

    def test_long_texts_are_cut_and_join(self):
        for text in ("x" * 200_000, "\\" * 70_001, "x" + "\\\n" * 60_000, "\u20ac" * 50_000, "y\n" * 90_000):
            lines = self.pyx(f"<a>{text}</a>").split(b"\n")
            self.assertLessEqual(max(map(len, lines)), 65_536)
            self.assertTrue(all(line.decode("utf-8") is not None for line in lines))
            joined = b"".join(line[1:] for line in lines if line[:1] == b"-").replace(b"\\\\", b"\0").replace(b"\\n", b"\n").replace(b"\0", b"\\")
            self.assert_same(joined.decode(), text)

    def test_limits(self):
        self.pyx(f'<a x="{"v" * 65_533}"/>')
        self.assertEqual(self.fault(f'<a>\n <b x="{"v" * 65_534}"/></a>'), (2, 2, "attribute of more than 65,536 bytes: outside the profile"))
        self.assertEqual(self.fault(f'<{"a" * 65_536}/>'), (1, 1, "name of more than 65,536 bytes: outside the profile"))

    def test_malformed(self):
        self.assertEqual(self.fault("<a>\n</b>"), (2, 1, "malformed XML: mismatched tag: </b> where <a> is open"))

    def test_pieces_of_one_byte(self):
        for data in ("<?xml version='1.0'?><a x='1'>\u00e9<![CDATA[]]]]>&lt;</a>".encode(), "<a>\u20ac<b/></a>".encode("utf-16"),
                     '<?xml version="1.0" encoding="EUC-JP"?><a>\u3042</a>'.encode("euc-jp"), b"<a>\xe3\x81", b"<a>"):
            out, _, status = in_pieces(data)
            self.write("d.xml", data)
            whole = subprocess.run([XML2PYX, self.folder / "d.xml"], capture_output=True, check=False)
            self.assertEqual((out, status) if whole.returncode == 0 else status, (whole.stdout, 0) if whole.returncode == 0 else whole.returncode)


class Encodings(Converted):
    """Documents in other encodings than UTF-8."""

    NOTE = "note: the encoding '{}' is read by iconv: other programs may read other characters"
    NOT_READ = "the encoding '{}' is not read: outside the profile; iconv -f .. -t UTF-8 may write it as UTF-8"

    def test_built_in(self):
        self.assertEqual(self.pyx('<?xml version="1.0" encoding="ISO-8859-1"?><a>\u00e9</a>'.encode("latin-1")), b"(a\n-\xc3\xa9\n)a\n")
        self.assertEqual(self.pyx("<a>\u00e9</a>".encode("utf-16")), b"(a\n-\xc3\xa9\n)a\n")

    def test_by_iconv(self):
        for encoding, text in (("Shift_JIS", "\u3042\uff76 x"), ("EUC-JP", "\u3042\u4e9c\uff76"), ("GB18030", "\u4e2d\U0001f600\u20ac\u0100"),
                               ("Big5", "\u4e2d"), ("EUC-KR", "\ud55c"), ("KOI8-R", "\u0436"), ("windows-1251", "\u0416"), ("windows-1252", "\u20ac"),
                               ("ISO-8859-15", "\u20ac"), ("ISO-2022-JP", "\u3042x\u3042"), ("latin1", "\u00e9"), ("utf8", "\u20ac")):
            data = f'<?xml version="1.0" encoding="{encoding}"?>\n<a t="{text}">{text * 5_000}<b>{text}</b>\n <c/></a>'
            with self.subTest(encoding=encoding):
                served = self.converted(data.encode({"windows-1251": "cp1251", "windows-1252": "cp1252"}.get(encoding, encoding)))
                plain = self.converted(data.replace(f' encoding="{encoding}"', ""))
                self.assertEqual(plain[2:], ([], 0))
                noted = [] if encoding in ("latin1", "utf8") else [f"d.xml:1:1: {self.NOTE.format(encoding)}"]
                self.assert_same(served, (*plain[:2], noted, 0), encoding)

    def test_not_read(self):
        for encoding in ("bogus", "hz", "base64", "raw_unicode_escape", "utf-8-sig", "wchar_t", "char"):
            with self.subTest(encoding=encoding):
                found = self.fault(f'<?xml version="1.0" encoding="{encoding}"?><a/>')
                self.assertEqual(found, (1, 1, self.NOT_READ.format(encoding)))
        for encoding in ("UTF-16", "UTF-32", "UCS-2"):
            found = self.fault(f'<?xml version="1.0" encoding="{encoding}"?><a/>')[2]
            self.assertEqual(found, "malformed XML: the document is not in the encoding that its declaration names")
        for encoding, name in (("utf-32", "UTF-32"), ("utf-32-be", "UTF-32"), ("cp037", "EBCDIC")):
            self.assertEqual(self.fault("<?xml version='1.0'?><a/>".encode(encoding)), (1, 1, self.NOT_READ.format(name)), encoding)

    def test_an_external_entity(self):
        self.write("e.xml", '<?xml encoding="EUC-JP"?>\u3042'.encode("euc-jp"))
        self.write("d.xml", '<!DOCTYPE a [<!ENTITY e SYSTEM "e.xml">]>\n<a>&e;&e;</a>')
        run = subprocess.run([XML2PYX, "--dtd", "d.xml"], cwd=self.folder, capture_output=True, check=False)
        self.assertEqual((run.stdout.decode(), run.stderr.decode()), ("(a\n-\u3042\u3042\n)a\n", f"d.xml:2:4: {self.NOTE.format('EUC-JP')}\n"))

    def test_surrogates(self):
        for data in (b"\xff\xfe<\0a\0>\0\x3d\xd8<\0/\0a\0>\0", b"\xff\xfe<\0a\0>\0\x00\xdc<\0/\0a\0>\0", b"\xfe\xff\0<\0a\0>\xd8\x3d"):
            self.assertEqual(self.fault(data)[2], "malformed XML: bytes that are no character of the encoding")

    def test_what_is_not_of_the_encoding(self):
        for encoding, text in (("EUC-JP", b"\xa4"), ("EUC-JP", b"\xff"), ("Shift_JIS", b"\x82"),
                               ("GB18030", b"\x81\x20"), ("windows-1252", b"\x81"), ("TIS-620", b"\x80"), ("TIS-620", b"\x9f")):
            data = b'<?xml version="1.0" encoding="' + encoding.encode() + b'"?>\n<a>ab' + text + b"</a>"
            with self.subTest(encoding=encoding, text=text):
                row, column, what = self.fault(data)
                self.assertEqual((row, column, what), (2, 6, "malformed XML: bytes that are no character of the encoding"))

    def test_a_declaration_in_another_encoding(self):
        what = (1, 1, "malformed XML: the document is not in the encoding that its declaration names")
        self.assertEqual(self.fault(b'<?xml version="1.0" encoding="cp037"?>\x4c\x81\x61\x6e'), what)

    def test_the_bytes_of_escapes_come_apart(self):
        for name, text in (("ISO-2022-JP", b"\x1b$B0!\x1b(J\\\x1b(B"), ("ISO-2022-KR", b"\x1b$)C\x0e0!\x0fx"), ("ISO-2022-JP", b"\x1b$B0"),
                           ("EUC-JP", b"\xa4\xa2" * 40_000)):
            data = f'<?xml version="1.0" encoding="{name}"?><a>'.encode() + text * 2 + b"</a>"
            whole, (out, _, status) = self.converted(data), in_pieces(data)
            self.assertEqual((out if status == 0 else b"", status), (whole[0] if status == 0 else b"", whole[3]), text)


class LineEnds(Converted):
    """Line ends and marks of encodings."""

    def test_a_mark_and_a_declaration_that_differ(self):
        for encoding in ("ISO-8859-1", "EUC-JP", "windows-1252"):
            data = f'<?xml version="1.0" encoding="{encoding}"?><a>\u00e9</a>'.encode()
            self.assertEqual(self.converted(b"\xef\xbb\xbf" + data)[0], b"(a\n-" + "\u00e9".encode().decode(encoding).encode() + b"\n)a\n")
        self.assertEqual(self.pyx(b"\xef\xbb\xbf" + '<?xml version="1.0" encoding="utf-8"?><a>\u00e9</a>'.encode()), "(a\n-\u00e9\n)a\n".encode())

    def test_a_byte_order_mark_is_no_column(self):
        for encoding in ("utf-8", "utf-8-sig", "utf-16"):
            self.assertEqual(self.converted("<a><b/>\n<c/></a>".encode(encoding))[1][:4], [(1, 1), (1, 4), (1, 8), (1, 8)])


class UnreadDtd(Converted):
    """What a DTD that is not read could change is outside the profile, with its place."""

    def outside(self, xml, place, what):
        for encoding, declared in (("utf-8", ""), ("utf-16", ""), ("latin-1", '<?xml version="1.0" encoding="ISO-8859-1"?>\n'),
                                   ("cp1252", '<?xml version="1.0" encoding="windows-1252"?>\n')):
            with self.subTest(xml=xml[:200], encoding=encoding):
                row, column, reported = self.fault((declared + xml).encode(encoding))
                self.assertEqual((row - bool(declared), column, reported), (*place, f"{what}: outside the profile"))

    def undeclared(self, xml, place, name="ext"):
        self.outside(xml, place, f"entity '{name}' is not declared in the document itself")

    def test_the_documents_that_were_valid_by_mistake(self):
        self.undeclared('<!DOCTYPE a SYSTEM "def.dtd"><a x="&ext;"/>', (1, 30))
        self.outside('<!DOCTYPE a [<!ENTITY % p SYSTEM "def.dtd"> %p; <!ATTLIST a own CDATA "d">]><a/>', (1, 49),
                     "a declaration behind a parameter entity that is not loaded")

    def test_entities_in_attributes(self):
        self.undeclared('<!DOCTYPE a SYSTEM "d"><a x="&ext;"/>', (1, 24))
        self.undeclared('<!DOCTYPE a PUBLIC "p" "d">\n<a>\n <b y="1&gt;" x=\'1 > &lt;&\u00e9xt;\'/></a>', (3, 2), "\u00e9xt")
        self.undeclared('<!DOCTYPE a [<!ENTITY % p SYSTEM "d">%p;]><a x="&ext;"/>', (1, 43))
        self.undeclared('<!DOCTYPE a SYSTEM "d"><a>' + "<b/>" * 40_000 + '<b x="' + "y" * 5_000 + '&ext;"/></a>', (1, 160_027))

    def test_entities_that_are_declared_nowhere(self):
        nothing = "note: entity 'ext' is not declared: it is read as nothing"
        for subset, body, wanted in (
                ('<!ENTITY % p "">%p;', '<a x="1&ext;2">3&ext;4</a>', b"(a\nAx 12\n-34\n)a\n"), ("%p;", '<a x="&ext;"/>', b"(a\nAx \n)a\n"),
                ('%p;<!ENTITY e "<b x=\'1&ext;\'>&ext;</b>">', "<a>&e;&e;</a>", b"(a\n(b\nAx 1\n)b\n(b\nAx 1\n)b\n)a\n")):
            for encoding in ("utf-8", "utf-16"):
                with self.subTest(subset=subset):
                    out, _, reported, status = self.converted(f"<!DOCTYPE a [{subset}]>{body}".encode(encoding))
                    self.assertEqual((out, status, reported[-1].split(": ", 1)[1]), (wanted, 0, nothing))

    def test_entities_in_entities(self):
        self.undeclared('<!DOCTYPE a SYSTEM "d" [<!ENTITY e "&f;"><!ENTITY f "&#38;ext;">]><a x="&e;"/>', (1, 67))
        self.undeclared('<!DOCTYPE a SYSTEM "d" [<!ENTITY e "<b x=\'&ext;\'/>">]><a>&e;</a>', (1, 58))
        self.undeclared('<!DOCTYPE a SYSTEM "d" [<!ENTITY e "&#60;b y=\'\' x=\'&#38;ext;\'/>">]><a>&e;</a>', (1, 71))

    def test_entities_in_text(self):
        found = self.fault('<!DOCTYPE a [<!ENTITY e SYSTEM "f.xml">]><a>&e;</a>')[2]
        self.assertEqual(found, "external entity 'f.xml' is not loaded: outside the profile")
        found = self.fault('<!DOCTYPE a SYSTEM "a.dtd"><a>&e;</a>')[2]
        self.assertEqual(found, "entity 'e' is not declared in the document itself: outside the profile")

    def test_entities_in_defaults(self):
        self.undeclared('<!DOCTYPE a SYSTEM "d" [\n<!ENTITY % p "">%p;<!ATTLIST a x CDATA "&ext;">]><a/>', (2, 20))
        self.undeclared('<!DOCTYPE a SYSTEM "d" [<!ENTITY e "&ext;"><!ENTITY % p "">%p;<!ATTLIST a x CDATA "&e;">]><a/>', (1, 63))

    def test_what_is_declared_is_there(self):
        for subset, xml, wanted in (
                ('<!ENTITY e "1&f;"><!ENTITY f "2">', '<a x="&e;&lt;&#65;&amp;">&e;</a>', b"(a\nAx 12<A&\n-12\n)a\n"),
                ('<!ENTITY e "&#60;b x=\'&#38;f;\'/>"><!ENTITY f "2">', "<a>&e;</a>", b"(a\n(b\nAx 2\n)b\n)a\n"),
                ('<!ENTITY e "&ext;">', "<a/>", b"(a\n)a\n"),
                ('<!ENTITY e "2"><!ATTLIST a x CDATA "1&e;">', "<a/>", b"(a\nAx 12\n)a\n"),
                ('<!ENTITY % p "<!ENTITY e \'2\'><!ATTLIST a x CDATA \'1\'>">%p;', "<a>&e;</a>", b"(a\nAx 1\n-2\n)a\n"),
                ('<!ENTITY e "2"><!ENTITY % p SYSTEM "d">%p;', '<a x="&e;"/>', b"(a\nAx 2\n)a\n")):
            for encoding in ("utf-8", "utf-16"):
                with self.subTest(subset=subset):
                    out, _, _, status = self.converted(f'<!DOCTYPE a SYSTEM "d" [{subset}]>{xml}'.encode(encoding))
                    self.assertEqual((out, status), (wanted, 0))

    def test_declarations_behind_an_unread_parameter_entity(self):
        behind = "a declaration behind a parameter entity that is not loaded"
        for names in ("%p;", "%p;%q;", "%q;%p;"):
            for declaration in ('<!ATTLIST a own CDATA "d">', '<!ENTITY e "v">', '<!ENTITY % r "">'):
                self.outside(f'<!DOCTYPE a [<!ENTITY % p SYSTEM "d">{names}\n {declaration}]><a/>', (2, 2), behind)
        self.assertEqual(self.converted('<!DOCTYPE a [<!ENTITY % p SYSTEM "d">%q;<!ATTLIST a own CDATA "d">]><a/>')[0], b"(a\nAown d\n)a\n")
        harmless = '<!-- <!ENTITY e "v"> --><!ELEMENT a ANY><!NOTATION n SYSTEM "<!ENTITY"><?p <!ATTLIST a b CDATA "1"?>'
        self.assertEqual(self.converted(f'<!DOCTYPE a [<!ENTITY % p SYSTEM "d">%p;{harmless}]><a/>')[0][-6:], b"(a\n)a\n")

    def test_entities_that_grow(self):
        laughs = '<!ENTITY e0 "ha">' + "".join(f'<!ENTITY e{number + 1} "{f"&e{number};" * 20}">' for number in range(9))
        self.assertRegex(self.fault(f"<!DOCTYPE a [{laughs}]><a>&e9;</a>")[2], "entities give more than 100 times the document's length")
        self.assertEqual(self.fault('<!DOCTYPE a [<!ENTITY e "&f;"><!ENTITY f "&e;">]><a x="&e;"/>')[2], "malformed XML: recursive entity reference")

    def test_many_entities_that_refer_to_others(self):
        many = "".join(f'<!ENTITY e{number} "&lt;&f;">' for number in range(10_000))
        self.assertEqual(self.pyx(f'<!DOCTYPE a [<!ENTITY f "v">{many}]><a>&e0;&e9999;</a>'), b"(a\n-<v<v\n)a\n")
        looped = self.fault(f'<!DOCTYPE a [{many}<!ENTITY f "&g;"><!ENTITY g "&f;">]><a>&e0;</a>')
        self.assertEqual(looped[2], "malformed XML: recursive entity reference")

    def test_a_document_that_stands_alone(self):
        declared = '<?xml version="1.0" standalone="yes"?>'
        subset = '<!ENTITY % p SYSTEM "d">%p;<!ATTLIST a own CDATA "d">'
        self.assertEqual(self.converted(f'{declared}<!DOCTYPE a [{subset}]><a/>')[0], b"(a\nAown d\n)a\n")
        self.assertEqual(self.fault(f'{declared}<!DOCTYPE a SYSTEM "d"><a x="&ext;"/>')[2], "malformed XML: entity 'ext' is not declared")

    def test_what_is_not_loaded_is_reported(self):
        for subset, notes in (('SYSTEM "d"', 1), ('[<!ENTITY % p SYSTEM "e">%p;]', 1), ('SYSTEM "d" [<!ENTITY % p SYSTEM "e">%p;]', 2), ("[%p;]", 1),
                              ('[<!ENTITY % p SYSTEM "e">]', 0), ('[<!ENTITY % p "">%p;]', 0)):
            _, _, reported, status = self.converted(f"<!DOCTYPE a {subset}><a/>")
            self.assertEqual((len(reported), status), (notes, 0), subset)


class Declared(Converted):
    """What the declarations of a document mean, where libxml2 reads them otherwise or takes long."""

    def test_the_first_declaration_counts(self):
        self.assertEqual(self.pyx('<!DOCTYPE a [<!ATTLIST a xmlns CDATA #IMPLIED><!ATTLIST a xmlns CDATA "u" x CDATA "1" x CDATA "2">]><a/>'), b"(a\nAx 1\n)a\n")
        self.assertEqual(self.pyx('<!DOCTYPE a [<!ATTLIST a xmlns:p CDATA "u"><!ATTLIST a xmlns:p CDATA "v">]><a/>'), b"(a\nAxmlns:p u\n)a\n")

    def test_system_identifiers_that_are_no_uri(self):
        for identifier in ("a b", "a|b", "<!ENTITY x |", "a#b", "<!ENTITY #"):
            found = self.fault(f'<!DOCTYPE a [<!ENTITY % p SYSTEM "{identifier}"><!ENTITY % p "<!ENTITY f \'y\'>">%p;]><a>&f;</a>')[2]
            self.assertEqual(found, "a reference behind a parameter entity whose system identifier is no URI: outside the profile")
            self.assertEqual(self.pyx(f'<!DOCTYPE a [<!ENTITY % p SYSTEM "{identifier}">]><a/>'), b"(a\n)a\n")
            self.assertEqual(self.pyx(f'<!DOCTYPE a [<!ENTITY e SYSTEM "{identifier}">]><a/>'), b"(a\n)a\n")

    def test_entities_that_are_declared_again(self):
        declared = '<?xml version="1.0" standalone="yes"?><!DOCTYPE a [{}<!ENTITY % p "<!ENTITY e \'y\'>">%p;]><a>&e;</a>'
        self.assertEqual(self.pyx(declared.format('<!ENTITY e "x">')), b"(a\n-x\n)a\n")
        self.assertRegex(self.fault(declared.format(""))[2], "entity 'e' is declared in a parameter entity, and the document stands alone")

    def test_markup_in_entities(self):
        self.assertEqual(self.pyx(f'<!DOCTYPE a [<!ENTITY e "<!-- {"=" * 300} -->">]><a>&e;</a>'), b"(a\n)a\n")
        attributes = " ".join(f"a{number}=''" for number in range(60_000))
        begun = processor_seconds()
        for before in ("", "<!-- ' -->", "<?p '?>", "<![CDATA[']]>"):
            found = self.fault(f'<!DOCTYPE a [<!ENTITY e "{before}<x {attributes}/>">]><a>&e;</a>')[2]
            self.assertEqual(found, "over a limit of this program: a tag has more than 10,000 attributes and declarations (--max-attributes)")
        self.assertLess(processor_seconds() - begun, 3)

    def test_defaults_of_many_elements(self):
        declared = "".join(f"<!ATTLIST e{number} x CDATA '{number}'>" for number in range(20_000))
        elements = "".join(f"<e{number}/>" for number in range(0, 20_000, 7))
        begun = processor_seconds()
        found = self.pyx(f"<!DOCTYPE a [{declared}]><a>{elements}</a>")
        self.assertLess(processor_seconds() - begun, 1)
        self.assertEqual(found, b"(a\n" + b"".join(b"(e%d\nAx %d\n)e%d\n" % (number, number, number) for number in range(0, 20_000, 7)) + b")a\n")

    def test_long_declarations(self):
        choices = "|".join(f"n{number}" for number in range(100_000))
        blanks = "\n" * 4_000_000
        begun = processor_seconds()
        for text in (f"<!DOCTYPE a [<!ATTLIST a x ({choices}) #IMPLIED>]><a/>", f"<!DOCTYPE a [<!ENTITY % p '<!ATTLIST a x ({choices}) #IMPLIED>'>%p;]><a/>",
                     f"<a/>{blanks}", f"<!DOCTYPE a [{blanks}]><a/>", f"<!-- -->{blanks}<a/>", f"<!DOCTYPE a [<!ELEMENT a ({choices})*>]><a/>",
                     f"<!DOCTYPE a [<!ENTITY % p '<!ELEMENT a (#PCDATA|{choices})*>'>%p;]><a/>"):
            self.assertEqual(self.pyx(text), b"(a\n)a\n")
        self.assertLess(processor_seconds() - begun, 6)


class NewVersion(Converted):
    """XML 1.1 is not read."""

    def test_each_form(self):
        for encoding in ("utf-8", "utf-16", "utf-8-sig"):
            for text in ("<?xml version='1.1'?><a/>", "<?xml version='1.1' encoding='bogus'?><a>&#1;</a>", "<?xml version='1.1' standalone='yes'?>\u0085<a/>"):
                self.assertEqual(self.fault(text.encode(encoding)), (1, 1, "outside the profile: XML 1.1 is not read"))
        for version in ("1.0", "1.2", "1.10", "1.01", "1.9"):
            self.assertEqual(self.pyx(f"<?xml version='{version}'?><a>\u0085\x7f</a>"), "(a\n-\u0085\x7f\n)a\n".encode())


class LoadedDtd(Converted):
    """With `--dtd` the external DTD and external entities are read, from files."""

    FILES = {
        "d.dtd": b"<?xml encoding='UTF-8'?>\n<!ENTITY % atts \"x CDATA 'dx'\">\n<!ENTITY % more SYSTEM 'low%20er/more.ent'>\n%more;\n"
                 b"<![%inc;[<!ATTLIST a %atts;>]]>\n<![IGNORE[<!ATTLIST a bad CDATA 'no'>]]>\n<!ENTITY ext 'from dtd'>\n"
                 b"<!ENTITY chapter SYSTEM 'low%20er/chapter.xml'>\n",
        "low er/more.ent": b"<!ENTITY % inc 'INCLUDE'>\n<!ENTITY near SYSTEM 'near.xml'>\n",
        "low er/chapter.xml": "<?xml version='1.0' encoding='ISO-8859-1'?>\r\n<p>caf\u00e9\r\n&ext;</p>".encode("latin-1"),
        "low er/near.xml": b"near&#13;!",
    }

    def loaded(self, text, folder="."):
        """What `xml2pyx --dtd` makes of a document in a folder, and its status."""
        for name, data in self.FILES.items():
            (self.folder / name).parent.mkdir(exist_ok=True)
            self.write(name, data)
        self.write("d.xml", text)
        run = subprocess.run([XML2PYX, "--dtd", os.path.relpath(self.folder / "d.xml", self.folder / folder)], cwd=self.folder / folder,
                             capture_output=True, timeout=60, check=False)
        return run.stdout.decode(), run.stderr.decode(), run.returncode

    def test_blanks_in_values(self):
        """A parameter entity of blanks gives them to the value of an entity, also if it is read between declarations."""
        for reads in ("", "%b;", "%b;%b; %b;"):
            self.write("b.dtd", f"<!ENTITY % b ' '>{reads}<!ENTITY e 'x%b;y'>{reads}")
            self.assertEqual(self.loaded('<!DOCTYPE a SYSTEM "b.dtd"><a>&e;</a>'), ("(a\n-x y\n)a\n", "", 0), reads)

    def test_what_is_read(self):
        text = '<!DOCTYPE a SYSTEM "d.dtd">\n<a t="&ext;">&ext; &chapter;&near;&chapter;</a>'
        chapter = "(p\n-caf\u00e9\\nfrom dtd\n)p\n"
        wanted = f"(a\nAt from dtd\nAx dx\n-from dtd \\n\n{chapter}-near\r!\\n\n{chapter})a\n", "", 0
        self.assertEqual(self.loaded(text), wanted)
        self.assertEqual(self.loaded(text, "low er"), wanted)
        self.assertEqual(self.loaded('<!DOCTYPE a [<!ENTITY % d SYSTEM "d.dtd">%d;<!ATTLIST a y CDATA "own">]><a/>'), ("(a\nAx dx\nAy own\n)a\n", "", 0))
        self.assertEqual(self.loaded('<!DOCTYPE a [<!ENTITY e SYSTEM "low%20er/chapter.xml"><!ENTITY ext "own">]><a>&e;</a>')[0].count("own"), 1)

    def test_which_file_is_meant(self):
        """An identifier is relative to the file in which its declaration is, also where that is in the text of an entity (XML 1.0, 4.2.2)."""
        declared = "<!ENTITY % i \"<!ENTITY e SYSTEM 'near.xml'>\">%i;"
        self.FILES = {**LoadedDtd.FILES, "low er/own.dtd": declared.encode(), "near.xml": b"another"}
        for folder in (".", "low er"):
            self.assertEqual(self.loaded('<!DOCTYPE a SYSTEM "low%20er/own.dtd"><a>&e;</a>', folder), ("(a\n-near\r!\n)a\n", "", 0))
            self.assertEqual(self.loaded(f"<!DOCTYPE a [{declared}]><a>&e;</a>", folder), ("(a\n-another\n)a\n", "", 0))

    def test_what_is_not_read(self):
        self.write("large.dtd", b" " * 17_000_000)
        os.mkfifo(self.folder / "pipe")
        (self.folder / "low er").mkdir()
        for system, why in (("none.dtd", "No such file or directory"), ("http://example.org/d.dtd", "nothing is fetched"), ("pipe", "it is no file"),
                            ("low%20er", "it is no file"), ("large.dtd", "it has more than 16,777,216 bytes")):
            for text in (f'<!DOCTYPE a SYSTEM "{system}"><a/>', f'<!DOCTYPE a [<!ENTITY e SYSTEM "{system}">]><a>&e;</a>',
                         f'<!DOCTYPE a [<!ENTITY % e SYSTEM "{system}">%e;]><a/>'):
                out, errors, status = self.loaded(text)
                self.assertEqual((errors.split(": ", 1)[1], status), (f"'{system}' is not loaded, {why}: outside the profile\n", 2), text)

    def test_versions(self):
        self.FILES = {**LoadedDtd.FILES, "new.xml": b"<?xml version='1.1' encoding='UTF-8'?>v"}
        out = self.loaded("<!DOCTYPE a [<!ENTITY g SYSTEM 'new.xml'>]><a>&g;</a>")
        self.assertEqual((out[1].split(": ", 1)[1], out[2]), ("'new.xml' is not loaded, outside the profile: XML 1.1 is not read: outside the profile\n", 2))

    def test_what_is_malformed_there(self):
        for name, data in (("d.dtd", b"\xef\xbb\xbf" * 2), ("d.dtd", b"<?xml encoding='UTF-8'?>" * 2), ("d.dtd", b"<!ELEMENT a"), ("d.dtd", b"\xff"), ("d.dtd", b"<?xml version='1.0'?>"), ("d.dtd", b"%d;<!ENTITY % d SYSTEM 'd.dtd'>%d;"),
                           ("low er/near.xml", b"<p>"), ("low er/near.xml", b"&near;"), ("low er/near.xml", b"\0")):
            self.FILES = {**LoadedDtd.FILES, name: data}
            self.assertEqual(self.loaded('<!DOCTYPE a SYSTEM "d.dtd"><a>&near;</a>')[2], 2, data)

    def test_entities_that_grow(self):
        self.FILES = {**LoadedDtd.FILES, "large.xml": b"x" * 100_000}
        entities = '<!ENTITY e0 SYSTEM "large.xml">' + "".join(f'<!ENTITY e{number + 1} "{f"&e{number};" * 20}">' for number in range(6))
        self.assertRegex(self.loaded(f"<!DOCTYPE a [{entities}]><a>&e6;</a>")[1], "entities give more than 100 times")


class SecondOpinion(Converted):
    """The converter in Python gives the same."""

    def same(self, data, what):
        out, places, reported, status = self.converted(data)
        wanted, wanted_reported, wanted_status = by_converter(data)
        if differences.has_lone_surrogates(data):
            self.assertEqual(status, 2, what)
        elif status != wanted_status:
            self.assertTrue(differences.is_explained(data, reported, wanted and wanted[0], wanted_reported), (what, reported, wanted_reported))
        elif status == 0:
            self.assertEqual(len(reported), len(wanted_reported))
            self.assert_same(differences.unordered(out, places), differences.unordered(*wanted), what)

    def test_generated_documents_and_their_mutants(self):
        for seed in range(DOCUMENTS):
            data = generated.document(seed)
            self.same(data, f"document {seed}")
            self.same(generated.mutant(data, seed), f"mutant {seed}")

    def test_the_repository(self):
        files = [path for path in TOP.rglob("*.xml") if "build" not in path.parts]
        self.assertGreater(len(files), 1)
        for path in files:
            self.same(path.read_bytes(), str(path))

    def test_long_markup(self):
        for unit in ("x", "-x", "\r\n", "\n\r", "\u00e9", "\U0001f600", "?x", "-\n"):
            for opens, closes in (("<!--", "-->"), ("<?t ", "?>")):
                for end in ("</a>", "</a", "--></a>", "?></a>"):
                    long = unit * (1_400_000 // len(unit.encode()))
                    for encoding in ("utf-8", "utf-16") if end == "</a>" else ("utf-8",):
                        self.same(f"<a>t\n{opens}{long}{closes}u<b/>{end}".encode(encoding), (unit, opens, end, encoding))


class Costs(Converted):
    """Time and memory grow with the document as they should."""

    def test_time_of_long_markup(self):
        self.without_sanitizers(XML2PYX)
        # a comment, an instruction and CDATA are held as a whole, and a text is not
        for begin, end, most in (("<a><!--", "--></a>", 131_072), ("<a><?t ", "?></a>", 131_072), ("<!DOCTYPE a [<!--", "-->]><a/>", 131_072),
                                 ("<a><![CDATA[", "]]></a>", 131_072), ("<a>", "</a>", 16_384)):
            path = self.write("long.xml", begin + "x" * 20_000_000 + end)
            begun = processor_seconds()
            peak, status = peak_of([XML2PYX, path])
            self.assertEqual(status, 0)
            self.assertLess(processor_seconds() - begun, 3, begin)
            self.assertLess(peak, most, begin)

    def test_long_literals(self):
        for byte in "#x":
            self.assertIn("malformed XML: ", self.fault(f"<!DOCTYPE a [<!ENTITY e SYSTEM '{byte * 10_000_001}")[2])

    def test_markup_that_does_not_end(self):
        for begin, unit in (('<a x="', " "), ("<a ", " "), ("<b", "b"), ("<!DOCTYPE a [<!ENTITY e '", "x"), ("<a>&", "e"), ("<a><!--", "x\n")):
            begun = processor_seconds()
            self.assertRegex(self.fault(begin + unit * 20_000_000)[2], "malformed XML: |name of more than 65,536 bytes", begin)
            self.assertLess(processor_seconds() - begun, 5, begin)

    def test_memory_does_not_grow(self):
        small, large = (peak_of([XML2PYX, self.write("d.xml", "<r>" + '<b x="1">t</b>\n' * count + "</r>")])[0] for count in (20_000, 2_000_000))
        self.assertLess(large, small + 1_000)
        self.assertLess(large, 16_384)


class Programs(InFolder):
    """How `xml2pyx` is called, and how it ends."""

    def test_lines(self):
        out, _, status = self.run_in(XML2PYX, "good.xml", "--lines", "places")
        self.assertEqual((out, status), ("(a\nAx 1\n-\\n  \n(b\n)b\n-\\n\n)a\n", 0))
        self.assertEqual((self.folder / "places").read_text(), "2 1\n2 1\n2 10\n3 3\n3 7\n3 7\n4 1\n")
        self.assertEqual(self.run_in(XML2PYX, "cut.xml")[1:], ("cut.xml:3:1: malformed XML: mismatched tag: </a> where <b> is open\n", 2))

    def test_words(self):
        self.assertEqual(self.run_in(XML2PYX)[2], 5)
        self.assertEqual(self.run_in(XML2PYX, "good.xml", "bad.xml")[2], 5)
        self.assertEqual(self.run_in(XML2PYX, "--bogus", "good.xml")[2], 5)
        self.assertEqual(self.run_in(XML2PYX, "--help")[2], 0)
        self.assertRegex(self.run_in(XML2PYX, "--version")[0], r"^xml2pyx \d+\.\d+\.\d+\n$")
        self.assertEqual(self.run_in(XML2PYX, "none.xml")[1:], ("xml2pyx: No such file or directory: none.xml\n", 4))
        self.assertEqual(self.run_in(XML2PYX, b"none\xff.xml")[1:], ("xml2pyx: No such file or directory: none\\xff.xml\n", 4))
        self.assertEqual(self.run_in(XML2PYX, ".")[1:], ("xml2pyx: Is a directory: .\n", 4))
        self.assertEqual(self.run_in(XML2PYX, "--", "good.xml")[2], 0)

    def test_the_place_of_an_instruction_with_the_beginning_of_another(self):
        for before in ("<!ENTITY e 'x'>", "<!ELEMENT a ANY>\n", "<!ATTLIST a x CDATA 'y'> ", "<!NOTATION n SYSTEM 'n'>", "<!-- -->", "<!ENTITY % p ''>%p;",
                       "<?b?>", "", "<!ENTITY % p '<!ELEMENT a ANY>'>%p;\n%p;"):
            for closed in ("", "]>\n", "]><a>", "]><a>x"):
                end = "]><a/>" if closed == "" else "</a>" if "<a>" in closed else "<a/>"
                front = f"<!DOCTYPE a [{before}{closed}"
                self.write("d.xml", f"{front}<?x y\n<?p z\n\n?>{end}")
                out = self.run_in(XML2PYX, "--lines", "places", "d.xml")[0]
                places = dict(zip(out.splitlines(), (self.folder / "places").read_text().splitlines()))
                self.assertEqual(places["?x y\\n<?p z\\n\\n"], f"{front.count(chr(10)) + 1} {len(front) - front.rfind(chr(10))}", front)

    def test_places_do_not_replace_the_document(self):
        self.write("d.xml", "<a/>")
        os.link(self.folder / "d.xml", self.folder / "e.xml")
        for program in (XML2PYX, HERE / "converter/xml2pyx"):
            self.assertEqual(self.run_in(program, "--lines", "e.xml", "d.xml"), ("", "xml2pyx: the places would replace the document: e.xml\n", 4))
            self.assertEqual((self.folder / "d.xml").read_text(), "<a/>")

    def test_names_stay_on_their_line(self):
        self.write("-a\n\u2028\x1b \u00e9.xml", "<a>")
        self.assertEqual(self.run_in(XML2PYX, "./-a\n\u2028\x1b \u00e9.xml")[1:], (
            "./-a\\n\\u2028\\x1b \u00e9.xml:1:4: malformed XML: the document ends where <a> is open\n", 2))
        self.assertEqual(self.run_in(XML2PYX, "none\n.xml")[1:], ("xml2pyx: No such file or directory: none\\n.xml\n", 4))
        self.assertEqual(self.run_in(XML2PYX, "--lines", "none\n/lines", "good.xml")[1:], ("xml2pyx: No such file or directory: none\\n/lines\n", 4))
        self.write("a\nb.xml", "<!DOCTYPE a SYSTEM 'c\nd'><a/>")
        self.assertEqual(self.run_in(XML2PYX, "a\nb.xml")[1:], (
            "a\\nb.xml:1:1: note: the external DTD 'c\\nd' is not loaded: its entities and attribute defaults are not there\n", 0))

    def test_streams(self):
        self.assertEqual(self.shell("xml2pyx - <&-"), ("xml2pyx: standard input is closed\n", 4))
        self.assertEqual(self.shell("xml2pyx good.xml >&-"), ("xml2pyx: standard output is closed\n", 4))
        self.assertEqual(self.shell("xml2pyx good.xml > /dev/full"), ("xml2pyx: No space left on device\n", 4))
        self.assertEqual(self.shell("xml2pyx good.xml --lines /dev/full > /dev/null"), ("xml2pyx: No space left on device\n", 4))
        self.write("large.xml", "<a x='1'>" + "<b/>" * 200_000 + "</a>")
        self.assertEqual(self.shell("xml2pyx large.xml | head -n 1; echo ${PIPESTATUS[0]}"), ("(a\n141\n", 0))

    def test_xmlstarlet(self):
        self.wanted("xmlstarlet")
        ours = self.run_in(XML2PYX, "good.xml")[0]
        self.assertEqual(self.run_in("sh", "-c", r"xmlstarlet pyx good.xml | sed -e '/^[DC]/d' -e 's/^\[/-/'")[0], ours)


if __name__ == "__main__":
    unittest.main(verbosity=1)
