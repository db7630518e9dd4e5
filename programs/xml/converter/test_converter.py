"""Tests of the converter in Python, with which the one in C is compared.   programs/xml/converter/test_converter.py"""
import io
import itertools
import pathlib
import subprocess
import sys
import time
import unittest
import unittest.mock

HERE = pathlib.Path(__file__).resolve().parent
sys.path.insert(0, str(HERE))
import pyx_writer  # noqa: E402
import xml_feed  # noqa: E402


def pyx(xml):
    """The PYX of a document and the places of its lines."""
    lines, places = [], []
    pyx_writer.convert(io.BytesIO(xml), lines.append, lambda own, reported: places.append(own))
    return b"".join(lines), places


def unescaped(text):
    return text.replace(b"\\\\", b"\0").replace(b"\\n", b"\n").replace(b"\\t", b"\t").replace(b"\0", b"\\")


class Conversion(unittest.TestCase):
    """What is in the PYX of a document."""

    def test_elements_attributes_texts(self):
        lines, places = pyx(b'<?xml version="1.0"?>\n<a x="1\t2"><!-- gone -->\n  <p:b xmlns:p="u"/>t\\</a>')
        self.assertEqual(lines, b"(a\nAx 1 2\n-\\n  \n(p:b\nAxmlns:p u\n)p:b\n-t\\\\\n)a\n")
        self.assertEqual(places, [(2, 1), (2, 1), (2, 25), (3, 3), (3, 3), (3, 21), (3, 21), (3, 23)])

    def test_what_a_line_reports_of(self):
        reported = []
        pyx_writer.convert(io.BytesIO(b"<a\n x='1'>\n <b/>t<?p?>u\n<c>v</c></a>"), lambda line: None, lambda own, of: reported.append(of))
        lines = pyx(b"<a\n x='1'>\n <b/>t<?p?>u\n<c>v</c></a>")[0].splitlines()
        self.assertEqual(list(zip(lines, reported)), [
            (b"(a", (1, 1)), (b"Ax 1", (1, 1)), (b"-\\n ", (1, 1)), (b"(b", (2, 8)), (b")b", (3, 2)), (b"-t", (3, 6)), (b"?p", (3, 7)),
            (b"-u\\n", (3, 12)), (b"(c", (3, 6)), (b"-v", (4, 1)), (b")c", (4, 5)), (b")a", (4, 9))])

    def test_entities_defaults_cdata(self):
        lines, _ = pyx(b'<!DOCTYPE a [<!ENTITY e "in"><!ATTLIST a x CDATA "d">]><a>&e;&lt;<![CDATA[<&]]>&#9;</a>')
        self.assertEqual(lines, b"(a\nAx d\n-in<<&\\t\n)a\n")

    def test_instructions_keep_to_their_line(self):
        self.assertEqual(pyx(b"<a>x<?p q\nr?>y</a>")[0], b"(a\n-x\n?p q\\nr\n-y\n)a\n")

    def test_other_encodings(self):
        self.assertEqual(pyx('<?xml version="1.0" encoding="ISO-8859-1"?><a>\u00e9</a>'.encode("latin-1"))[0], b"(a\n-\xc3\xa9\n)a\n")
        self.assertEqual(pyx("<a>\u00e9</a>".encode("utf-16"))[0], b"(a\n-\xc3\xa9\n)a\n")

    def test_encodings_that_are_not_served(self):
        for encoding in ("bogus", "Shift_JIS", "EUC-JP", "GB18030", "UTF-7", "hz", "base64", "raw_unicode_escape", "utf-8-sig"):
            with self.subTest(encoding=encoding), self.assertRaises(pyx_writer.OutsideProfile) as fault:
                pyx(f'<?xml version="1.0" encoding="{encoding}"?><a>~{{+AGE-</a>'.encode())
            self.assertEqual((fault.exception.line, fault.exception.what), (1, f"the encoding {encoding!r} is not served"))
        with self.assertRaisesRegex(pyx_writer.OutsideProfile, "not read: unknown encoding"):
            pyx(b'<?xml version="1.0" encoding="cp037"?><a/>')
        self.assertEqual(pyx('<?xml version="1.0" encoding="KOI8-R"?><a>\u0436</a>'.encode("koi8-r"))[0], "(a\n-\u0436\n)a\n".encode())

    def test_bytes_that_are_no_document(self):
        for data in (b"", b"\0", b"\0\0\0", b"<", b"\xff", b"\xff\xfe", b"\xef\xbb\xbf", b"<a>\0</a>", b"<\0a\0", b"PK\3\4", b"<a>\xff</a>"):
            with self.subTest(data=data), self.assertRaises(pyx_writer.Malformed):
                pyx(data)

    def test_a_byte_order_mark_is_no_column(self):
        for encoding in ("utf-8", "utf-8-sig", "utf-16"):
            self.assertEqual(pyx("<a><b/>\n<c/></a>".encode(encoding))[1][:4], [(1, 1), (1, 4), (1, 8), (1, 8)])

    def test_long_texts_are_cut_and_join(self):
        for text in (b"x" * 200_000, b"\\" * 70_001, b"x" + b"\\\n" * 60_000, "\u20ac".encode() * 50_000, b"y\n" * 90_000):
            lines = pyx(b"<a>" + text + b"</a>")[0].split(b"\n")
            self.assertLessEqual(max(map(len, lines)), 65_536)
            self.assertTrue(all(line.decode("utf-8") is not None for line in lines))
            self.assertEqual(b"".join(unescaped(line[1:]) for line in lines if line[:1] == b"-"), text)

    def test_long_attributes_are_outside(self):
        pyx(b'<a x="' + b"v" * 65_533 + b'"/>')
        with self.assertRaises(pyx_writer.OutsideProfile) as fault:
            pyx(b'<a>\n <b x="' + b"v" * 65_534 + b'"/></a>')
        self.assertEqual((fault.exception.line, fault.exception.column), (2, 2))

    def test_malformed(self):
        with self.assertRaises(pyx_writer.Malformed) as fault:
            pyx(b"<a>\n</b>")
        self.assertEqual((fault.exception.line, fault.exception.what), (2, "malformed XML: mismatched tag"))

    def test_external_entities_are_not_loaded(self):
        with self.assertRaisesRegex(pyx_writer.OutsideProfile, "external entity 'f.xml' is not loaded"):
            pyx(b'<!DOCTYPE a [<!ENTITY e SYSTEM "f.xml">]><a>&e;</a>')
        with self.assertRaisesRegex(pyx_writer.OutsideProfile, "entity 'e' is not declared"):
            pyx(b'<!DOCTYPE a SYSTEM "a.dtd"><a>&e;</a>')
        reported = []
        pyx_writer.convert(io.BytesIO(b'<!DOCTYPE a SYSTEM "a.dtd"><a/>'), lambda line: None, report=lambda *what: reported.append(what))
        self.assertEqual(len(reported), 1)

    def test_memory_does_not_grow(self):
        script = ("import sys, resource; sys.path.insert(0, sys.argv[1]); import pyx_writer\n"
                  "class Source:\n"
                  "    left = int(sys.argv[2])\n"
                  "    def read(self, size):\n"
                  "        self.left -= 1\n"
                  "        return b'<r>' if self.left == int(sys.argv[2]) - 1 else b'' if self.left < 0 else b'<b x=\"1\">t</b>' * 4000\n"
                  "try: pyx_writer.convert(Source(), lambda line: None)\n"
                  "except pyx_writer.Malformed: print(resource.getrusage(resource.RUSAGE_SELF).ru_maxrss)\n")
        sizes = [int(subprocess.run([sys.executable, "-c", script, str(HERE), count], capture_output=True, check=True).stdout)
                 for count in ("5", "50")]
        self.assertLess(sizes[1] - sizes[0], 2_000)


class UnreadDtd(unittest.TestCase):
    """What a DTD that is not read could change is outside the profile, with its place."""

    def outside(self, xml, place, what):
        """Checks that the document is refused at this place, in each kind of encoding."""
        for encoding, declared in (("utf-8", ""), ("utf-16", ""), ("latin-1", '<?xml version="1.0" encoding="ISO-8859-1"?>\n')):
            with self.subTest(xml=xml, encoding=encoding), self.assertRaises(pyx_writer.OutsideProfile) as fault:
                pyx((declared + xml).encode(encoding))
            found = fault.exception
            self.assertEqual((found.line - bool(declared), found.column, found.what), (*place, f"{what}: outside the profile"))

    def undeclared(self, xml, place, name="ext"):
        self.outside(xml, place, f"entity {name!r} is not declared in the document itself")

    def test_entities_in_attributes(self):
        self.undeclared('<!DOCTYPE a SYSTEM "d"><a x="&ext;"/>', (1, 24))
        self.undeclared('<!DOCTYPE a PUBLIC "p" "d">\n<a>\n <b y="1&gt;" x=\'1 > &lt;&\u00e9xt;\'/></a>', (3, 2), "\u00e9xt")
        self.undeclared('<!DOCTYPE a [<!ENTITY % p SYSTEM "d">%p;]><a x="&ext;"/>', (1, 43))
        self.undeclared('<!DOCTYPE a [<!ENTITY % p "">%p;]><a x="&ext;"/>', (1, 35))
        self.undeclared('<!DOCTYPE a [%p;]><a x="&ext;"/>', (1, 19))
        self.undeclared('<!DOCTYPE a SYSTEM "d"><a>' + "<b/>" * 40_000 + '<b x="' + "y" * 5_000 + '&ext;"/></a>', (1, 160_027))

    def test_entities_in_entities(self):
        self.undeclared('<!DOCTYPE a SYSTEM "d" [<!ENTITY e "&f;"><!ENTITY f "&#38;ext;">]><a x="&e;"/>', (1, 67))
        self.undeclared('<!DOCTYPE a SYSTEM "d" [<!ENTITY e "<b x=\'&ext;\'/>">]><a>&e;</a>', (1, 36))
        self.undeclared('<!DOCTYPE a SYSTEM "d" [<!ENTITY e "&#60;b y=\'\' x=\'&#38;ext;\'/>">]><a>&e;</a>', (1, 36))

    def test_entities_in_defaults(self):
        self.undeclared('<!DOCTYPE a SYSTEM "d" [\n<!ENTITY % p "">%p;<!ATTLIST a x CDATA "&ext;">]><a/>', (2, 20))
        self.undeclared('<!DOCTYPE a SYSTEM "d" [<!ENTITY e "&ext;"><!ENTITY % p "">%p;<!ATTLIST a x CDATA "&e;">]><a/>', (1, 63))

    def test_what_is_declared_is_there(self):
        for subset, xml, wanted in (
                ('<!ENTITY e "1&f;"><!ENTITY f "2">', '<a x="&e;&lt;&#65;&amp;">&e;</a>', b"(a\nAx 12<A&\n-12\n)a\n"),
                ('<!ENTITY e "&#60;b x=\'&#38;f;\'/>"><!ENTITY f "2">', "<a>&e;</a>", b"(a\n(b\nAx 2\n)b\n)a\n"),
                ('<!ENTITY e "&ext;">', "<a/>", b"(a\n)a\n"),
                ('<!ENTITY e "2"><!ATTLIST a x CDATA "1&e;">', "<a/>", b"(a\nAx 12\n)a\n"),
                ('<!ENTITY % p "<!ENTITY e \'2\'><!ATTLIST a x CDATA \'1\'>">%p;', "<a>&e;</a>", b"(a\nAx 1\n-2\n)a\n"),
                ('<!ENTITY e "2"><!ENTITY % p SYSTEM "d">%p;', '<a x="&e;"/>', b"(a\nAx 2\n)a\n")):
            for encoding in ("utf-8", "utf-16"):
                with self.subTest(subset=subset):
                    self.assertEqual(pyx(f'<!DOCTYPE a SYSTEM "d" [{subset}]>{xml}'.encode(encoding))[0], wanted)

    def test_declarations_behind_an_unread_parameter_entity(self):
        behind = "a declaration behind a parameter entity that is not loaded"
        for name in ("p", "q"):
            for declaration in ('<!ATTLIST a own CDATA "d">', '<!ENTITY e "v">', '<!ENTITY % r "">'):
                self.outside(f'<!DOCTYPE a [<!ENTITY % p SYSTEM "d">%{name};\n {declaration}]><a/>', (2, 2), behind)
        self.outside('<!DOCTYPE a SYSTEM "d" [<!ENTITY % p SYSTEM "d">%p;\n<!ENTITY e "v">]><a/>', (2, 1), behind)
        harmless = '<!-- <!ENTITY e "v"> --><!ELEMENT a ANY><!NOTATION n SYSTEM "<!ENTITY"><?p <!ATTLIST a b CDATA "1"?>'
        self.assertEqual(pyx(f'<!DOCTYPE a [<!ENTITY % p SYSTEM "d">%p;{harmless}]><a/>'.encode())[0][-6:], b"(a\n)a\n")

    def test_entities_that_grow(self):
        laughs = '<!ENTITY e0 "ha">' + "".join(f'<!ENTITY e{number + 1} "{f"&e{number};" * 20}">' for number in range(9))
        chain = '<!ENTITY e0 "&ext;">' + "".join(f'<!ENTITY e{number + 1} "&e{number};">' for number in range(20_000))
        with self.assertRaisesRegex(pyx_writer.OutsideProfile, "not read: limit on input amplification"):
            pyx(f"<!DOCTYPE a [{laughs}]><a>&e9;</a>".encode())
        with self.assertRaisesRegex(pyx_writer.OutsideProfile, "entity 'ext' is not declared"):
            pyx(f'<!DOCTYPE a SYSTEM "d" [{chain}<!ATTLIST a x CDATA "&e20000;">]><a/>'.encode())
        with self.assertRaisesRegex(pyx_writer.Malformed, "recursive entity reference"):
            pyx(b'<!DOCTYPE a [<!ENTITY e "&f;"><!ENTITY f "&e;">]><a x="&e;"/>')

    def test_a_document_that_stands_alone(self):
        declared = '<?xml version="1.0" standalone="yes"?>'
        subset = '<!ENTITY % p SYSTEM "d">%p;<!ATTLIST a own CDATA "d">'
        self.assertEqual(pyx(f'{declared}<!DOCTYPE a [{subset}]><a/>'.encode())[0], b"(a\nAown d\n)a\n")
        with self.assertRaisesRegex(pyx_writer.Malformed, "undefined entity"):
            pyx(f'{declared}<!DOCTYPE a SYSTEM "d"><a x="&ext;"/>'.encode())

    def test_the_new_version(self):
        with self.assertRaisesRegex(pyx_writer.OutsideProfile, "XML 1.1 is not read: outside the profile"):
            pyx(b'<?xml version="1.1"?><a/>')

    def test_what_is_not_loaded_is_reported(self):
        for subset, notes in (('SYSTEM "d"', 1), ('[<!ENTITY % p SYSTEM "e">%p;]', 1), ('SYSTEM "d" [<!ENTITY % p SYSTEM "e">%p;]', 2), ("[%p;]", 1),
                              ('[<!ENTITY % p SYSTEM "e">]', 0), ('[<!ENTITY % p "">%p;]', 0)):
            reported = []
            pyx_writer.convert(io.BytesIO(f"<!DOCTYPE a {subset}><a/>".encode()), lambda line: None, report=lambda *what: reported.append(what))
            self.assertEqual(len(reported), notes, subset)


class LongMarkup(unittest.TestCase):
    """Time and memory grow with the document alone, however long a comment is."""

    UNITS = ("x", "-x", "\r\n", "\n\r", "\u00e9", "\u4e2d", "\U0001f600", "?x", ">", "<&", "''", " ")

    def outcome(self, xml, encoding, piece, longest):
        """The result for the document with pieces and long markup of this many bytes, without the lines of instructions."""
        lines, places = [], []
        with unittest.mock.patch.multiple(xml_feed, PIECE_BYTES=piece, LONG_BYTES=longest):
            try:
                pyx_writer.convert(io.BytesIO(xml.encode(encoding)), lines.append, lambda own, reported: places.append((own, reported)))
            except pyx_writer.OutsideProfile as fault:
                return fault.line, fault.column, fault.what
        return [(line, place) for line, place in zip(lines, places) if line[:1] != b"?"]

    def test_seams_leave_no_trace(self):
        ends = "</a>", "</a", "--></a>", "?></a>", "\x01</a>"
        for unit, (opens, closes), end in itertools.product(self.UNITS, (("<!--", "-->"), ("<?t ", "?>"), ("<!--", "--->"), ("<?xml ", "?>")), ends):
            xml = f"<!DOCTYPE a [{opens}{unit * 60}{closes}]><a>t\n{opens}{unit * 60}{closes}<b/>{opens}{unit * 70}{closes}u<b>{end}"
            for encoding, piece, longest in (("utf-8", 7, 16), ("utf-8", 16, 16), ("utf-16", 10, 32), ("utf-16", 16, 32)):
                with self.subTest(xml=xml, encoding=encoding, piece=piece):
                    self.assertEqual(self.outcome(xml, encoding, piece, longest), self.outcome(xml, encoding, 65_536, 1_048_576))

    def test_time(self):
        for begin, end in (("<a><!--", "--></a>"), ("<a><?t ", "?></a>"), ("<!DOCTYPE a [<!--", "-->]><a/>"), ("<a><![CDATA[", "]]></a>")):
            begun = time.process_time()
            pyx_writer.convert(io.BytesIO((begin + "x" * 20_000_000 + end).encode()), lambda line: None)
            self.assertLess(time.process_time() - begun, 4, begin)

    def test_limit(self):
        for begin, unit in (('<a x="', " "), ("<a ", " "), ("<b", "b"), ("<?xml version='1.0' ", " "), ("<!DOCTYPE a [<!ENTITY e '", "x"),
                            ("<a>&", "e")):
            with self.subTest(begin=begin), self.assertRaisesRegex(pyx_writer.OutsideProfile, "markup of more than 16,777,216 bytes"):
                pyx((begin + unit * 20_000_000).encode())


if __name__ == "__main__":
    unittest.main(verbosity=1)
