#!/usr/bin/env python3
"""Tests of blank texts: `rncv-xml` does not tell the library of those beside an element. See test.sh. Each content of a few pieces is judged by each
schema, and a line of Python says whether it is valid."""
import itertools
import unittest

from testing import InFolder

ENTITY = '<!DOCTYPE a [<!ENTITY e "  "><!ENTITY b "<b/>">]>'
# A piece of content, and what it is: a text, an element (None), or nothing (an empty text).
PIECES = (("  ", "  "), ("\n", "\n"), ("x", "x"), ("&#32;", " "), ("&e;", "  "), ("<![CDATA[ ]]>", " "), ("<!--c-->", ""), ("<?p?>", ""), ("<b/>", None),
          ("<b> </b>", None), ("&b;", None))
# The content of <a>, and whether it is valid, by its texts and the number of its elements.
SCHEMAS = (
    ("empty", lambda texts, elements: elements == 0 and is_blank(texts)),
    ("text", lambda texts, elements: elements == 0),
    ('string ""', lambda texts, elements: elements == 0 and texts == [""]),
    ('string "  "', lambda texts, elements: elements == 0 and texts == ["  "]),
    ('xsd:string { length = "2" }', lambda texts, elements: elements == 0 and len(texts[0]) == 2),
    ("list { empty }", lambda texts, elements: elements == 0 and is_blank(texts)),
    ("element b { empty }*", lambda texts, elements: is_blank(texts)),
    ("mixed { element b { empty }+ }", lambda texts, elements: elements > 0),
    ('xsd:string { length = "2" } | element b { empty }+', lambda texts, elements: is_blank(texts) if elements else len(texts[0]) == 2),
)
# libxml2 asks for 4,000 bytes of a document once it has fewer than 250, and what was read vanishes where the document is read, in pieces of 65,536 bytes. The
# content begins at each of these places, so that it is read last before.
PLACES, COMMENT, MORE = range(127_730, 127_755), f"<!--{'x' * 93}-->", f"<!--{'y' * 8_000}-->"
LONG = 65_536


def is_blank(texts):
    return not any(text.strip(" \n") for text in texts)


def contents(most):
    """Each content of at most so many pieces, with its texts and the number of its elements."""
    for count in range(most + 1):
        for pieces in itertools.product(PIECES, repeat=count):
            texts = [""]
            for _, text in pieces:
                if text is None:
                    texts.append("")
                else:
                    texts[-1] += text
            yield "".join(written for written, _ in pieces), texts, len(texts) - 1


class Blanks(InFolder):
    def check(self, documents, content, is_valid):
        """Wants that exactly the documents are valid that are."""
        self.write("t.rnc", f"element a {{ {content} }}")
        out, _ = self.judge("--all", "--max-faults", "1", "t.rnc", *documents)
        found = {line.split(":")[0] for line in out.splitlines() if line.endswith(": valid")}
        wanted = {name for name, (_, texts, elements) in documents.items() if is_valid(texts, elements)}
        self.assert_same(sorted(found ^ wanted), [], content)

    def documents(self, each):
        """Writes documents with these contents, each with what is before its root. Much is behind it."""
        documents = {}
        for number, (content, before) in enumerate(each):
            self.write(f"{number}.xml", f"{before}<a>{content[0]}</a>{MORE}")
            documents[f"{number}.xml"] = content
        return documents

    def test_contents(self):
        documents = self.documents([(content, ENTITY) for content in contents(3)])
        for content, is_valid in SCHEMAS:
            with self.subTest(content=content):
                self.check(documents, content, is_valid)

    def test_ends_of_what_is_read(self):
        """The content is where libxml2 asks for more of the document, and the text before that vanishes."""
        padded = [f"{ENTITY}{COMMENT * (place // len(COMMENT) - 1)}".ljust(place - len("<a>")) for place in PLACES]
        documents = self.documents([(content, before) for content in contents(1) for before in padded])
        for content, is_valid in SCHEMAS:
            with self.subTest(content=content):
                self.check(documents, content, is_valid)

    def test_long_blanks(self):
        """A blank text that comes in pieces."""
        documents = self.documents([((" " * length + end, [" " * length] + [""] * bool(end), int(bool(end))), "")
                                    for length in (1, 300, LONG, 5 * LONG) for end in ("", "<b/>")])
        for content, is_valid in SCHEMAS:
            with self.subTest(content=content):
                self.check(documents, content, is_valid)


if __name__ == "__main__":
    unittest.main()
