"""Tests of XML declarations with very many blanks, of which some are left out."""
import itertools
import unittest

import conversion_test
from testing import RNCV_XML, XML2PYX, peak_of

PARTS = ("<?xml", "version", "=", "'1.0'", "encoding", "=", "'{0}'", "standalone", "=", "'yes'", "?>")
ENCODINGS = (("utf-8", "utf-8"), ("utf-8-sig", "utf-8"), ("iso-8859-1", "iso-8859-1"), ("utf-16", "utf-16"), ("utf-16-be", "utf-16be"))
BLANKS = (" ", "\t", "\n", "\r", "\r\n", "\n \t", "\r\n\r", " \r")


def declaration(encoding, runs):
    return "".join(part + run for part, run in itertools.zip_longest(PARTS, runs, fillvalue="")).format(encoding)


class Declaration(conversion_test.Converted):
    """A root behind a declaration is where it is."""

    def assert_read(self, runs, codec, encoding):
        text = declaration(encoding, runs)
        read = text.replace("\r\n", "\n").replace("\r", "\n")
        place = read.count("\n") + 1, len(read) - read.rfind("\n")
        found = self.converted(f"{text}<a>\u00fc</a>".encode(codec))
        self.assert_same(found, ("(a\n-\u00fc\n)a\n".encode(), [place, (place[0], place[1] + 3), (place[0], place[1] + 4)], [], 0), (codec, runs))

    def test_each_place(self):
        for at, blank in itertools.product(range(10), BLANKS):
            runs = [" " if before in (0, 3, 6) else "" for before in range(10)]
            runs[at] = blank * 5_000
            self.assert_read(runs, *ENCODINGS[at % 2])

    def test_each_encoding(self):
        for (codec, encoding), length in itertools.product(ENCODINGS, (4_095, 4_096, 4_097, 40_000)):
            runs = [blank * length for blank in (" ", "\n", "", "\r\n", "", " \r", "\t", "", "\n \t", " ")]
            self.assert_read(runs, codec, encoding)

    def test_external_entities(self):
        self.write("e.ent", f"<?xml{' ' * 90_000}encoding{' ' * 9_000}='utf-8'{' ' * 9_000}?>text")
        self.write("d.xml", "<!DOCTYPE a [<!ENTITY e SYSTEM 'e.ent'>]><a>&e;</a>")
        self.assertEqual(self.run_in(XML2PYX, "--dtd", "d.xml"), ("(a\n-text\n)a\n", "", 0))

    def test_malformed_ones(self):
        blanks = " " * 200_000
        for text in (f"<?xml{blanks}", f"<?xml{blanks}version='1.0'{blanks}", f"<?xml{blanks}a='1'?><a/>", f"<?xml{blanks}version='1.0'{blanks}?><a>",
                     f"<?xml{blanks}?><a/>", f"<?xml version='1.0{blanks}'?><a/>", f"<?xml {'x' * 200_000}?><a/>"):
            self.assertIn("malformed XML", self.fault(text)[2])
        self.fault(f"<?xml{blanks}version='1.0'".encode("utf-16") + b"\0\xd8?\0>\0" * 90_000)

    def test_their_memory(self):
        self.without_sanitizers(XML2PYX)
        for blank in " \n":
            runs = [blank * 3_000_000] * 10
            self.write("d.xml", f"{declaration('utf-8', runs)}<a/>")
            peak, status = peak_of([XML2PYX, self.folder / "d.xml"])
            self.assertEqual(status, 0)
            self.assertLess(peak, 15_000)

    def test_the_memory_of_others(self):
        if not RNCV_XML.exists():
            self.skipTest("no rncv-xml")
        self.write("d.xml", f"<?xml {'x' * 9_000_000}")
        self.assertIn("--max-memory", self.judge("--max-memory", "2M", "s.rnc", "d.xml")[0])


if __name__ == "__main__":
    unittest.main()
