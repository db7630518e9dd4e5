"""Tests of references to characters by numbers of many digits: libxml2 takes no letter at some places of such numbers."""
import unittest

import conversion_test
import differences
from testing import RNCV_XML

CODES = (0x41, 0x9, 0xFC, 0x3042, 0xFFFD, 0x10FFFF)
DECLARED = ("<!ATTLIST a c CDATA '{0}'><!ENTITY e '{0}'><!ENTITY f '{1}<b c=\"{1}\"/><![CDATA[{1}]]><?p {1}?>'><?p {0}?><!-- '{0} --><!NOTATION n SYSTEM '{0}'>"
            "<!ENTITY % g \"<!ATTLIST a d CDATA '{1}'><!ENTITY h '{1}'>\">%g;")
CONTENT = "{0}<b c='{0}' d='&e;'/>&e;&f;&h;<b c='&h;{0}'/><![CDATA[{0}]]><!-- <![CDATA[ {0} -->{0}<?p {0}?>"


def reference(code, digits, form="x"):
    return f"&#x{code:{form}}".replace("x", "x" + "0" * (digits - len(f"{code:x}")), 1) + ";"


class References(conversion_test.Converted):
    """Each is read as the converter in Python does it."""

    def assert_read(self, document):
        wanted, _, _ = conversion_test.by_converter(document.encode())
        *found, reported, status = self.converted(document)
        self.assertEqual((reported, status), ([], 0), document[:200])
        self.assert_same(differences.unordered(*found), differences.unordered(*wanted), document[:200])

    def test_each_number_of_digits(self):
        for digits in range(1, 71):
            text = "".join(reference(code, digits, form) for code in CODES for form in "xX")
            declared, content = (part.format(text, text.replace("&", "&#38;")) for part in (DECLARED, CONTENT))
            self.assert_read(f"<!DOCTYPE a [{declared}]><a>{content}</a>")

    def test_each_place_at_the_end_of_a_read(self):
        for digits, step in ((11, 1), (64, 7)):
            for before in range(0, digits + 20, step):
                self.assert_read(f"<a>{'x' * (65_533 - before)}{reference(0xABCD, digits)}<b c='{reference(0xA, digits)}'/></a>")

    def test_many(self):
        for front, end in (("<a>", "</a>"), ("<a><![CDATA[", "]]></a>"), ("<a b='", "'/>"), ("<a><?p ", "?></a>"), ("<a><!--", "--></a>")):
            self.assert_read(front + "".join(reference(0xFC, digits) + "x" * (digits % 5) for digits in range(2, 300)) + end)

    def test_faults(self):
        for digits in (11, 21, 64, 5_000):
            zeros = "0" * digits
            for number, what in ((f"{zeros}A", "neither a digit nor ';' in a reference to a character"), (f"{zeros};", "invalid xmlChar value 0"),
                                 (f"{zeros}110000;", "character reference out of bounds"), (f"{zeros}FFFE;", "invalid xmlChar value 65534"),
                                 (f"{zeros}A{zeros};", "character reference out of bounds"), (f"12345678{zeros}A;", "character reference out of bounds")):
                self.assertEqual(self.fault(f"<a>&#x{number}g</a>"), (1, len(f"<a>&#x{number}") + 1, f"malformed XML: {what}"))

    def test_millions_of_zeros(self):
        if not RNCV_XML.exists():
            self.skipTest("no rncv-xml")
        self.write("one.rnc", 'element a { attribute b { xsd:string { length = "1" } }, xsd:string { length = "1" } }')
        for digits, code in ((10_000_005, 0x10FFFF), (12_000_000, 0xA)):
            text = reference(code, digits)
            self.write("d.xml", f"<a b='{text}'>{text}</a>")
            self.assert_same(self.judge("--all", "one.rnc", "d.xml"), ("d.xml: valid\n", 0), (digits, code))


if __name__ == "__main__":
    unittest.main()
