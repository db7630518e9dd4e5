#!/usr/bin/env python3
"""Tests of the hints of `rncv-xml` about a schema that is refused: the place, and what is wrong there. See test.sh."""
import json
import pathlib
import re
import unittest

from testing import RNCV_XML, TOP, InFolder

# For each example of docs/use/CLAUSES.md that breaks a clause: the place, and the hint. S17 has neither, and S1 to S8 have their place from the library.
EXAMPLES = {
    "S9": ("1:10", "the file mentions itself: s.rnc -> s.rnc"),
    "S10": ("1:19", "x is overridden, and is not in b.rnc"),
    "S11": ("1:13", "* is in an except of *"),
    "S12": ("1:13", "xsd:integer does not allow the value 'x'"),
    "S13": ("3:1", "a is defined twice with = (the other is at 2:1)"),
    "S14": ("1:1", "the grammar that begins here has no start"),
    "S15": ("1:13", "b is not defined"),
    "S16": ("2:27", "b refers to itself outside of elements: b -> b"),
    "S17": ("", ""),
    "S18": ("1:27", "element c is inside attribute b"),
    "S19": ("1:14", "attribute b is in a group that + repeats"),
    "S20": ("1:20", "text is inside list"),
    "S21": ("1:22", "empty is in the except of string"),
    "S22": ("1:9", "attribute a is in the start"),
    "S23": ("1:13", "xsd:integer is beside element b in element a"),
    "S24": ("1:35", "attribute b is there twice in element a (the other is at 1:13)"),
    "S25": ("1:13", "attribute * is in no repetition (+ or *) in element a"),
    "S26": ("1:35", "element b is on both sides of & in element a (the other is at 1:13)"),
    "S27": ("1:20", "text is on both sides of & in element a (the other is at 1:13)"),
}

COPY = "rncv-profile --datatypes xml-schema s.rnc -o DIR"
COMMON = """# what the schemas below share
attlist.id = attribute id { xsd:NCName }?
attlist.common = attlist.id, attribute class { xsd:token }?
inline = text | em | a
em = element em { attlist.common, inline* }
a = element a { attlist.common, attribute href { xsd:token }, inline* }
"""

# Schemas as people write them, each with one fault: its name, its files, where the hint is, and the hint.
SCHEMAS = [
    ("an attribute that the common list has too", {
        "s.rnc": 'include "common.rnc"\nstart = element doc {\n  attlist.common,\n  attribute lang { text }?,\n  attribute class { text }?,\n  p*\n}\n'
                 "p = element p { attlist.common, inline* }\n", "common.rnc": COMMON},
     "s.rnc:5:3", "S24", "attribute class is there twice in element doc (the other is at common.rnc:3:30)"),
    ("an attribute that is added to a list by &=", {
        "s.rnc": 'include "common.rnc"\nstart = element doc { p* }\np = element p { attlist.p, inline* }\nattlist.p &= attlist.common\n'
                 "attlist.p &= attribute id { text }?\n", "common.rnc": COMMON},
     "s.rnc:5:14", "S24", "attribute id is there twice in element p (the other is at common.rnc:2:14)"),
    ("a name with a mistake", {
        "s.rnc": "start = addressBook\naddressBook = element addressBook { card* }\ncards = element card { name, email }\nname = element name { text }\n"
                 "email = element email { text }\n"},
     "s.rnc:2:37", "S15", "card is not defined; is cards meant?"),
    ("a name in another case", {"s.rnc": "start = Feed\nfeed = element feed { empty }\n"}, "s.rnc:1:9", "S15", "Feed is not defined; is feed meant?"),
    ("a name that only the grammar around has", {
        "s.rnc": "start = element table { cell* }\ncell = element cell { grammar { start = element row { cell* } } }\n"},
     "s.rnc:2:55", "S15", "cell is not defined in this grammar; the one around it has it (parent cell)"),
    ("a parent reference in the outermost grammar", {
        "s.rnc": "start = element doc { parent block }\nblock = element p { text }\n"},
     "s.rnc:1:23", "S15", "no grammar is around this one, so parent finds nothing"),
    ("an include that overrides a name with a mistake", {
        "s.rnc": '# customization\ninclude "common.rnc" {\n  div {\n    inlines = text\n  }\n}\nstart = em\n', "common.rnc": COMMON},
     "s.rnc:4:5", "S10", "inlines is overridden, and is not in common.rnc"),
    ("an include that overrides a start", {
        "s.rnc": 'include "common.rnc" { start = em }\n', "common.rnc": COMMON},
     "s.rnc:1:24", "S10", "start is overridden, and there is none in common.rnc"),
    ("an include of a pattern", {
        "s.rnc": 'include "name.rnc"\nstart = element person { name }\n', "name.rnc": "element name { text }\n"},
     "s.rnc:1:9", "S10", "name.rnc is a pattern, and only a grammar can be included (external takes a pattern)"),
    ("files that include one another", {
        "s.rnc": 'include "blocks.rnc"\nstart = p\n', "blocks.rnc": '\n  include "inlines.rnc"\np = element p { inline }\n',
        "inlines.rnc": 'inline = text | q\nq = element q { p }\ninclude "blocks.rnc"\n'},
     "inlines.rnc:3:9", "S9", "files mention one another: blocks.rnc -> inlines.rnc -> blocks.rnc"),
    ("a name that a file and its include define", {
        "s.rnc": 'start = doc\ninclude "common.rnc"\ndoc = element doc { inline }\nem = element em { text }\n', "common.rnc": COMMON},
     "s.rnc:4:1", "S13", "em is defined twice with = (the other is at common.rnc:5:1)"),
    ("a name that is joined in two ways", {
        "s.rnc": "start = doc\ndoc = element doc { block* }\nblock |= element p { text }\nblock &= element q { text }\n"},
     "s.rnc:4:1", "S13", "block is defined both with |= and with &= (the other is at 3:1)"),
    ("a grammar in a grammar without a start", {
        "s.rnc": "start = element doc {\n  grammar {\n    p = element p { text }\n  }\n}\n"},
     "s.rnc:2:3", "S14", "the grammar that begins here has no start"),
    ("patterns that refer to one another", {
        "s.rnc": "start = element doc { block }\nblock = paragraph | quote\nparagraph = element p { text }\nquote = (block, note)\n"
                 "note = element note { text }\n"},
     "s.rnc:4:10", "S16", "block refers to itself outside of elements: block -> quote -> block"),
    ("a datatype of IDs, of another library", {
        "s.rnc": 'datatypes d = "http://relaxng.org/ns/compatibility/datatypes/1.0"\nstart = element n { attribute id { d:ID } }\n'},
     "s.rnc:2:36", "S12", f"d:ID is not served: {COPY} writes a copy with xsd:ID there, which accepts the same"),
    ("a datatype in a file that is included", {
        "s.rnc": 'include "parts.rnc"\n', "parts.rnc": 'datatypes q = "urn:q"\nstart = element n { xsd:duration | q:span }\n'},
     "parts.rnc:2:36", "S12", f"q:span is of the library urn:q, which is not served: {COPY} writes a copy with xsd:string there, which accepts any text"),
    ("a date that is none, in a bound", {
        "s.rnc": 'start = element event {\n  attribute on { xsd:date { minInclusive = "2000-02-29" maxExclusive = "2001-02-29" } },\n  text\n}\n'},
     "s.rnc:2:57", "S12", "the maxExclusive '2001-02-29' is no value of xsd:date"),
    ("a date that is none, as a value", {"s.rnc": 'start = element n { xsd:date "2000-02-29" | xsd:date "2001-02-29" }\n'}, "s.rnc:1:45", "S12",
     "xsd:date does not allow the value '2001-02-29'"),
    ("a value of a decimal number", {"s.rnc": 'start = element n { xsd:decimal "1.0" | xsd:decimal "1e0" }\n'}, "s.rnc:1:41", "S12",
     "xsd:decimal does not allow the value '1e0'"),
    ("a length of a duration", {"s.rnc": 'start = element n { xsd:duration { length = "1" } }\n'}, "s.rnc:1:36", "S12",
     "xsd:duration takes no parameter length"),
    ("digits of a number with a floating point", {"s.rnc": 'start = element n { xsd:double { maxInclusive = "INF" totalDigits = "1" } }\n'}, "s.rnc:1:55", "S12",
     "xsd:double takes no parameter totalDigits"),
    ("a bound of octets", {"s.rnc": 'start = element n { xsd:hexBinary { maxInclusive = "FF" } }\n'}, "s.rnc:1:37", "S12",
     "xsd:hexBinary takes no parameter maxInclusive"),
    ("a length of octets that is no number", {"s.rnc": 'start = element n { xsd:base64Binary { minLength = " 4 " maxLength = "4.0" } }\n'}, "s.rnc:1:58", "S12",
     "the maxLength '4.0' is no number from 0 on"),
    ("digits of a decimal number", {"s.rnc": 'start = element n { xsd:decimal { totalDigits = "2" fractionDigits = "3" } }\n'}, "s.rnc:1:53", "S12",
     "the fractionDigits '3' is above the totalDigits '2'"),
    ("digits behind the point, below 0", {"s.rnc": 'start = element n { xsd:decimal { fractionDigits = "-1" } }\n'}, "s.rnc:1:35", "S12",
     "the fractionDigits '-1' is no number from 0 on"),
    ("no digits at all", {"s.rnc": 'start = element n { xsd:decimal { fractionDigits = "0" totalDigits = "0" } }\n'}, "s.rnc:1:56", "S12",
     "the totalDigits '0' is no number from 1 on"),
    ("a bound of a float twice", {"s.rnc": 'start = element n { xsd:float { maxInclusive = "1" maxInclusive = "1" } }\n'}, "s.rnc:1:52", "S12",
     "the parameter maxInclusive is there twice"),
    ("two lower bounds of a month", {"s.rnc": 'start = element n { xsd:gMonth { minExclusive = "--01" pattern = "-.*" minInclusive = "--02" } }\n'}, "s.rnc:1:72",
     "S12", "the parameters minInclusive and minExclusive exclude each other"),
    ("times in the wrong order", {"s.rnc": 'start = element n { xsd:time { maxInclusive = "12:00:00Z" minInclusive = "12:00:00-00:01" } }\n'}, "s.rnc:1:59",
     "S12", "the parameters minInclusive and maxInclusive leave no value between them"),
    ("times that are not comparable", {"s.rnc": 'start = element n { xsd:dateTime { minInclusive = "2000-01-01T12:00:00" maxInclusive = "2000-01-02T00:00:00Z" } }\n'},
     "s.rnc:1:73", "S12", "the parameters minInclusive and maxInclusive leave no value between them"),
    ("durations that are not comparable", {"s.rnc": 'start = element n { xsd:duration { minExclusive = "P30D" maxExclusive = "P1M" } }\n'}, "s.rnc:1:58", "S12",
     "the parameters minExclusive and maxExclusive leave no value between them"),
    ("a bound that is no number", {"s.rnc": 'start = element n { xsd:float { minExclusive = "NaN" maxInclusive = "NaN" } }\n'}, "s.rnc:1:54", "S12",
     "the parameters minExclusive and maxInclusive leave no value between them"),
    ("a pattern of a year", {"s.rnc": 'start = element n { xsd:gYear { minInclusive = "2000" pattern = "20[0-9" } }\n'}, "s.rnc:1:55", "S12",
     "the pattern '20[0-9' is no regular expression of XML Schema, or its size, with its counts written out, is above 4,096"),
    ("a datatype that is none", {"s.rnc": "start = element n { xsd:dateTimes }\n"}, "s.rnc:1:21", "S12", "xsd:dateTimes is no datatype of XML Schema"),
    ("a datatype of a library that is not served", {"s.rnc": 'datatypes q = "urn:q"\nstart = element n { q:speed { unit = "m" } }\n'}, "s.rnc:2:21", "S12",
     f"q:speed is of the library urn:q, which is not served: {COPY} writes a copy with xsd:string there, which accepts any text"),
    ("a parameter that a datatype has not", {"s.rnc": 'start = element n { xsd:boolean { length = "1" } }\n'}, "s.rnc:1:35", "S12",
     "xsd:boolean takes no parameter length"),
    ("a length of a qualified name", {"s.rnc": 'start = element n { xsd:QName { maxLength = "1" } }\n'}, "s.rnc:1:33", "S12",
     "xsd:QName takes no parameter maxLength"),
    ("a bound that is no value", {"s.rnc": 'start = element n { xsd:byte { maxInclusive = "128" } }\n'}, "s.rnc:1:32", "S12",
     "the maxInclusive '128' is no value of xsd:byte"),
    ("a length that is no number", {"s.rnc": 'start = element n { xsd:NMTOKENS { length = "-1" } }\n'}, "s.rnc:1:36", "S12",
     "the length '-1' is no number from 1 on"),
    ("a list that may have no items", {"s.rnc": 'start = element n { xsd:IDREFS { maxLength = "0" } }\n'}, "s.rnc:1:34", "S12",
     "the maxLength '0' is no number from 1 on"),
    ("a length above the limit", {"s.rnc": 'start = element n { xsd:token { maxLength = "+09223372036854775808" } }\n'}, "s.rnc:1:33", "S12",
     "the maxLength '+09223372036854775808' is above 9,223,372,036,854,775,807, the greatest number that is served there"),
    ("a number of digits", {"s.rnc": 'start = element n { xsd:long { totalDigits = "0" } }\n'}, "s.rnc:1:32", "S12",
     "the totalDigits '0' is no number from 1 on"),
    ("two lengths", {"s.rnc": 'start = element n { xsd:Name { maxLength = "1" length = "1" } }\n'}, "s.rnc:1:48", "S12",
     "the parameters length and maxLength exclude each other"),
    ("bounds in the wrong order", {"s.rnc": 'start = element n { xsd:integer { maxExclusive = "5" minInclusive = "+05" } }\n'}, "s.rnc:1:54", "S12",
     "the parameters minInclusive and maxExclusive leave no value between them"),
    ("a parameter twice", {"s.rnc": 'start = element n { xsd:anyURI { length = "5" length = "5" } }\n'}, "s.rnc:1:47", "S12",
     "the parameter length is there twice"),
    ("a value of a qualified name", {"s.rnc": 'start = element n { xsd:QName "a" }\n'}, "s.rnc:1:21", "S12",
     "a value of xsd:QName is not served, since it depends on the prefixes of the document"),
    ("a value that a datatype has not", {"s.rnc": 'start = element n { xsd:language "de-" }\n'}, "s.rnc:1:21", "S12",
     "xsd:language does not allow the value 'de-'"),
    ("a schema in the XML syntax", {
        "s.rnc": '<element name="n" xmlns="http://relaxng.org/ns/structure/1.0" datatypeLibrary="http://www.w3.org/2001/XMLSchema-datatypes">\n'
                 '  <data type="date"/><data type="ID" datatypeLibrary="http://relaxng.org/ns/compatibility/datatypes/1.0"/>\n</element>\n'},
     "s.rnc:2:22", "S12", "lib1:ID is not served: rng2rnc s.rnc -o RNC writes it in the compact syntax, of which rncv-profile --datatypes xml-schema -o DIR "
     "writes a copy with xsd:ID there, which accepts the same"),
    ("a pattern that is no expression", {
        "s.rnc": 'zip = xsd:token {\n  pattern = "[0-9]+"\n  pattern = "[0-9]{5"\n}\nstart = element zip { zip }\n'},
     "s.rnc:3:3", "S12", "the pattern '[0-9]{5' is no regular expression of XML Schema, or its size, with its counts written out, is above 4,096"),
    ("a pattern that is too large, with characters that a literal escapes", {
        "s.rnc": 'start = element n { xsd:boolean { pattern = \'("\\n\\x{5C}x\\{\\x{9}){1000}\' } }\n'},
     "s.rnc:1:35", "S12", "the pattern '(\"\\n\\x\\{ ){1000}' is no regular expression of XML Schema, or its size, with its counts written out, is above 4,096"),
    ("digits behind the point", {"s.rnc": 'start = element n { xsd:integer { fractionDigits = " 0 " } | xsd:byte { fractionDigits = "1" } }\n'}, "s.rnc:1:73", "S12",
     "the fractionDigits '1' is not 0, which it is for integers"),
    ("a list of attributes in a repetition", {
        "s.rnc": 'include "common.rnc"\nstart = element row {\n  (attlist.common, cell)+\n}\ncell = element cell { text }\n', "common.rnc": COMMON},
     "s.rnc:3:4", "S19", "attribute id is in a group that + repeats, by the reference attlist.common"),
    ("a number beside elements", {
        "s.rnc": 'start = element price { amount, currency }\namount = xsd:integer { minInclusive = "0" }\ncurrency = element currency { text }\n'},
     "s.rnc:1:25", "S23", "xsd:integer is beside element currency in element price, by the reference amount"),
    ("a datatype with text around it", {
        "s.rnc": "start = element p { mixed { code* } }\ncode = element code { xsd:token & text }\n"},
     "s.rnc:2:23", "S23", "xsd:token is beside text in element code"),
    ("an element on two sides of &", {
        "s.rnc": "start = element head { meta.all & title & (link | title)? }\nmeta.all = meta*\nmeta = element meta { text }\n"
                 "title = element title { text }\nlink = element link { empty }\n"},
     "s.rnc:1:51", "S26", "element title is on both sides of & in element head, by the reference title"),
    ("a wildcard beside a name", {
        "s.rnc": 'namespace x = "urn:x"\nstart = element doc { any & meta* }\nany = element * { text }*\nmeta = element x:meta { text }\n'},
     "s.rnc:2:29", "S26", "element x:meta and element * have a name in common, on both sides of & in element doc, by the reference meta (the other is at 3:7)"),
    ("any attributes and one more", {
        "s.rnc": 'start = element doc { any, attribute id { text } }\nany = attribute * - (class | style) { text }*\n'},
     "s.rnc:1:28", "S24", "attribute id and attribute * - (class | style) have a name in common in element doc (the other is at 2:7)"),
    ("an attribute wildcard that is not repeated", {
        "s.rnc": 'namespace x = "urn:x"\nstart = element doc { extension?, text }\nextension = attribute x:* { text }\n'},
     "s.rnc:3:13", "S25", "attribute x:* is in no repetition (+ or *) in element doc, by the reference extension"),
    ("text in mixed", {
        "s.rnc": "start = element p { mixed { inline } }\ninline = (text | b)*\nb = element b { text }\n"},
     "s.rnc:1:29", "S27", "text is in mixed, which has text itself, in element p, by the reference inline"),
    ("an element of a list", {
        "s.rnc": "start = element ref { list { target+ } }\ntarget = element target { text }\n"},
     "s.rnc:1:30", "S20", "element target is inside list, by the reference target"),
    ("an attribute of a start", {
        "s.rnc": 'include "common.rnc"\nstart = attlist.id, em\n', "common.rnc": COMMON},
     "s.rnc:2:19", "S22", "a group (,) is in the start"),
    ("an external pattern in an attribute", {
        "s.rnc": 'start = element doc {\n  attribute size {\n    external "size.rnc"\n  }\n}\n', "size.rnc": "xsd:integer | element auto { empty }\n"},
     "s.rnc:3:14", "S18", "element auto is inside attribute size, by the file size.rnc"),
    ("an attribute that declares a namespace", {
        "s.rnc": "start = element doc {\n  attribute xmlns { text },\n  text\n}\n"},
     "s.rnc:2:13", "S11", "xmlns is no name of an attribute, since it declares a namespace"),
    ("an option in an except", {
        "s.rnc": 'start = element color { xsd:token - (reserved) }\nreserved = "none"?\n'},
     "s.rnc:1:38", "S21", "an option (?) is in the except of xsd:token, by the reference reserved"),
]

LARGER = "is of the datatypes xml-schema, and not of those of the profile"
# Patterns that break S12 with the six datatypes of the profile, where in the pattern, and the hint.
OF_THE_PROFILE = [
    ("xsd:date", 1, f"xsd:date {LARGER}: rncv-profile s.rnc -o DIR writes a copy with xsd:token there, which accepts any text"),
    ('xsd:decimal "1.0"', 1, f"xsd:decimal {LARGER}: rncv-profile s.rnc -o DIR writes a copy with xsd:token there, which compares the value as that does"),
    ('xsd:hexBinary { length = "4" }', 1, f"xsd:hexBinary {LARGER}: rncv-profile s.rnc -o DIR writes a copy with xsd:token there, which accepts any text"),
    ("xsd:dates", 1, "xsd:dates is no datatype of XML Schema"),
    ('xsd:token { minInclusive = "1" }', 13, "xsd:token takes no parameter minInclusive"),
    ('xsd:integer { maxInclusive = "1" maxInclusive = "1" }', 34, "the parameter maxInclusive is there twice"),
    ("xsd:positiveInteger", 1, f"xsd:positiveInteger {LARGER}: rncv-profile s.rnc -o DIR writes a copy with xsd:integer there, which accepts the same but for "
     "numbers of more than 38 digits"),
    ("xsd:anyURI", 1, f"xsd:anyURI {LARGER}: rncv-profile s.rnc -o DIR writes a copy with xsd:token there, which accepts any text"),
    ("xsd:ID", 1, f"xsd:ID {LARGER}: rncv-profile s.rnc -o DIR writes a copy with xsd:NCName there, which accepts more, but rncv-xml checks the IDs"),
    ('xsd:Name "a"', 1, f"xsd:Name {LARGER}: rncv-profile s.rnc -o DIR writes a copy with xsd:NMTOKEN there, which compares the value as that does"),
    ('xsd:integer { totalDigits = "1" }', 15, f"the parameter totalDigits of xsd:integer {LARGER}: rncv-profile s.rnc -o DIR writes a copy with others there, "
     "which accepts the same"),
    ('xsd:token { length = "1" }', 13, f"the parameter length of xsd:token {LARGER}: rncv-profile s.rnc -o DIR writes a copy with others there, which accepts "
     "the same"),
    ('xsd:token { pattern = "a" }', 13, f"the parameter pattern of xsd:token {LARGER}: rncv-profile s.rnc -o DIR writes a copy without it, which also "
     "accepts what the pattern does not match"),
    ('xsd:token { minLength = "+1" }', 13, "the minLength '+1' is not 1 to 9 digits"),
    (f'xsd:integer "{"1" * 39}"', 1, f"xsd:integer does not allow the value '{'1' * 39}'"),
    (f'xsd:integer {{ minInclusive = "{"1" * 39}" }}', 15, f"the minInclusive '{'1' * 39}' is no integer of at most 38 digits"),
]

# Schemas that break no clause, though they nearly do.
GOOD = [
    "element a { (attribute b { text } | attribute b { xsd:integer }), attribute c { text } }",
    "element a { (attribute b { text }, empty)+, (notAllowed, attribute b { text })? }",
    "element a { attribute * { text }*, element b { attribute * { text }+ } }",
    "element a { attribute * - b { text }*, attribute b { text } }",
    "element a { (element b { empty }, element b { empty }) & element c { empty } }",
    'namespace p = "u" default namespace = "v" element a { attribute b { text }, attribute p:b { text }, (element b { empty } & element p:b { empty }) }',
    "start = a a = element a { b* } b = element b { a | c } c = notAllowed | (empty, notAllowed)",
    "start = element a { x } x = y y = element b { x }? unused = unused",
    "start = grammar { start = parent a } a = element a { b } b = empty",
    "element a { mixed { (element b { empty } | empty)* } }",
    "element a { text | xsd:integer | (element b { empty }, element c { text }) }",
    "element a { list { xsd:integer, xsd:integer+, (\"x\" | empty) } }",
    "start = (element a { empty } | notAllowed | (empty, notAllowed))",
    "start &= attribute a { text }+ start &= notAllowed",
    "start &= element a { b } start &= empty b = text & notAllowed b &= text, text",
    'include "b.rnc" { x = element x { empty } }',
    'element a { xsd:decimal { minInclusive = "-.5" maxExclusive = "+1." totalDigits = "2" fractionDigits = "2" pattern = ".+" } }',
    'element a { xsd:float { minExclusive = "NaN" maxExclusive = "NaN" } | xsd:double { minInclusive = "-1E400" maxInclusive = "INF" } }',
    'element a { xsd:duration { minInclusive = "P12M" maxInclusive = "P12M" } | xsd:duration { minExclusive = "-P1Y" maxInclusive = "PT0.5S" } }',
    'element a { xsd:date { minInclusive = "-0001-12-31" maxExclusive = "12000-02-29" } | xsd:dateTime "2000-01-01T24:00:00" }',
    'element a { xsd:gYearMonth "2000-02" | xsd:gYear "-0004" | xsd:gMonthDay "--02-29Z" | xsd:gDay "---31" | xsd:gMonth "--12+14:00" | xsd:time "00:00:00" }',
    'element a { xsd:hexBinary { length = "2" } | xsd:base64Binary { minLength = "0" maxLength = "0" } | xsd:hexBinary "0a" | xsd:base64Binary "TQ = =" }',
]
INCLUDED = "start = x\nx = parent y\nz |= text\n"

# Nothing is said rather than something wrong. S17, and a circle of more steps than are followed.
SILENT = [("S17", "element a { empty" + " | text" * 1000 + " }"),
          ("S16", "start = x0\n" + "".join(f"x{number} = x{number + 1}\n" for number in range(9000)) + "x9000 = x0\n")]


def deep(inside):
    """Components in 110 divs. In four files in one another they are deeper than the search for a hint goes."""
    return "div { " * 110 + inside + " }" * 110


DEEP = {"s.rnc": "start = element a { x }\n" + deep('include "b.rnc"'), "b.rnc": deep('include "c.rnc"'), "c.rnc": deep('include "d.rnc"')}
# What the innermost file of these has, and where the library finds the datatype. There are no words about it.
WITHOUT_WORDS = [
    ("a datatype that is none", {"d.rnc": deep("x = text | xsd:dates")}, "d.rnc:1:672"),
    ("a bound of a date", {"d.rnc": deep('x = xsd:date | xsd:date { minInclusive = "2001-02-29" }')}, "d.rnc:1:676"),
    ("a parameter: the place is that of the datatype", {"d.rnc": deep('x = xsd:byte { maxInclusive = "128" }')}, "d.rnc:1:665"),
    ("a value", {"d.rnc": deep('\r\nx = "a" | xsd:integer "\u00e9"')}, "d.rnc:2:11"),
    ("a file that is mentioned last, and the others before it", {
        "d.rnc": deep('x = e | f include "e.rnc" f = external "f.rnc"'), "e.rnc": "e = xsd:byte\nunused = \\x{78}sd:dates", "f.rnc": "xsd:floats"}, "e.rnc:2:10"),
    ("a column after an annotation that is not handed in", {
        "d.rnc": 'namespace n = "u"\n' + deep('n:\u00e9 [ "\u00e9" ] x = xsd:dates')}, "d.rnc:2:677"),
    ("a file in the XML syntax", {
        "d.rnc": deep('include "e.rng"'), "e.rng": '<grammar xmlns="http://relaxng.org/ns/structure/1.0" datatypeLibrary='
        '"http://www.w3.org/2001/XMLSchema-datatypes">\n<define name="x">\n  <data type="dates"/></define></grammar>'}, "e.rng:3:3"),
]


class Hints(InFolder):
    """What `rncv-xml` says about a schema."""

    def answer(self, files, *options):
        for name, text in files.items():
            self.write(name, text)
        out, errors, status = self.run_in(RNCV_XML, *options, "s.rnc")
        self.assertEqual((errors, status), ("", 3))
        return out

    def hinted(self, files, *options):
        """The place, the clause and the hint, each empty if it is not there."""
        found = re.fullmatch(r"([^:\n]+(?::\d+:\d+)?): (S\d+) [^\n]*?(?:: hint: ([^\n]+))?, see docs/use/CLAUSES\.md\n", self.answer(files, *options))
        self.assertIsNotNone(found)
        return found[1], found[2], found[3] or ""

    def test_each_clause_has_a_hint(self):
        page = pathlib.Path(TOP, "docs/use/CLAUSES.md").read_text(encoding="utf-8")
        for clause, example in re.findall(r"^### (S\d+):.*?^```broken\n(.*?)^```$", page, re.M | re.S):
            if clause in EXAMPLES:
                with self.subTest(clause):
                    example = re.sub(r"\{\{(\d+) x (.+?)\}\}", lambda mark: mark[2] * int(mark[1]), example)
                    parts = re.split(r"^## file (\S+)\n", example, flags=re.M)
                    place, hint = EXAMPLES[clause]
                    self.assertEqual(self.hinted(dict(zip(["s.rnc", *parts[1::2]], parts[::2]))), ("s.rnc" + f":{place}" * bool(place), clause, hint))

    def test_schemas_with_one_fault(self):
        for name, files, place, clause, hint in SCHEMAS:
            with self.subTest(name):
                self.assertEqual(self.hinted(files), (place, clause, hint))

    def test_datatypes_of_the_profile(self):
        for pattern, column, hint in OF_THE_PROFILE:
            with self.subTest(pattern):
                self.assertEqual(self.hinted({"s.rnc": f"element a {{\n{pattern} }}"}, "--datatypes", "profile"), (f"s.rnc:2:{column}", "S12", hint))

    def test_schemas_that_are_good(self):
        self.write("b.rnc", INCLUDED.replace("parent y", "empty"))
        for schema in GOOD:
            with self.subTest(schema):
                self.write("s.rnc", schema)
                self.assertEqual(self.run_in(RNCV_XML, "s.rnc")[::2], ("", 0))

    def test_what_is_overridden_is_not_looked_at(self):
        files = {"s.rnc": 'include "b.rnc" { x = element a { y } }', "b.rnc": "start = x\nx = z\n"}
        self.assertEqual(self.hinted(files), ("s.rnc:1:35", "S15", "y is not defined"))
        files = {"s.rnc": 'include "b.rnc" { x = element x { attribute c { text }, attribute c { text } } }',
                 "b.rnc": "start = x\nx = element x { attribute b { text }, attribute b { text } }\n"}
        self.assertEqual(self.hinted(files)[::2], ("s.rnc:1:57", "attribute c is there twice in element x (the other is at 1:35)"))

    def test_what_is_not_reached_is_not_looked_at(self):
        files = {"s.rnc": "start = element a { list { text } }\nx = element x { list { element y { empty } } }\ny = list { text }\n"}
        self.assertEqual(self.hinted(files), ("s.rnc:1:28", "S20", "text is inside list"))
        files = {"s.rnc": "start = element a { (notAllowed, (text & text)) | b }\nb = element b { text & text }\n"}
        self.assertEqual(self.hinted(files)[:2], ("s.rnc:2:24", "S27"))

    def test_namespaces_tell_names_apart(self):
        head = 'namespace p = "u"\nnamespace q = "u"\nnamespace r = "v"\n'
        files = {"s.rnc": head + "element a { attribute p:b { text }, attribute r:b { text }, attribute q:b { text } }"}
        self.assertEqual(self.hinted(files)[::2], ("s.rnc:4:61", "attribute q:b and attribute p:b have a name in common in element a (the other is at 4:13)"))
        files = {"s.rnc": 'default namespace = "u"\nelement a { external "b.rnc" & element b { empty } }', "b.rnc": "element b { empty }"}
        self.assertEqual(self.hinted(files)[::2], ("s.rnc:2:32", "element b is on both sides of & in element a (the other is at b.rnc:1:1)"))

    def test_places_count_characters(self):
        files = {"s.rnc": "# \u00e9\u00e9\r\nstart = element caf\\x{E9} {\r  attribute \u00e9 { text }, attribute \u00e9 { text }\n}"}
        self.assertEqual(self.hinted(files)[::2], ("s.rnc:3:25", "attribute \u00e9 is there twice in element caf\\x{E9} (the other is at 3:3)"))

    def test_parts_of_the_schema_are_cut_and_on_one_line(self):
        files = {"s.rnc": f'element a {{ xsd:boolean "{"x" * 100}" }}'}
        self.assertEqual(self.hinted(files)[2], f"xsd:boolean does not allow the value '{'x' * 60}..'")
        files = {"s.rnc": "element a {\n  attribute * - (\n    b\n    | c\n  ) { text }\n}"}
        self.assertEqual(self.hinted(files)[2], "attribute * - ( b | c ) is in no repetition (+ or *) in element a")
        files = {"s.rnc": 'element a { xsd:boolean "\\x{A}\\x{9}\\x{E9}" }'}
        self.assertEqual(self.hinted(files)[2], "xsd:boolean does not allow the value ' \u00e9'")

    def test_nothing_is_said_rather_than_something_wrong(self):
        for clause, schema in SILENT:
            self.assertEqual(self.hinted({"s.rnc": schema}), ("s.rnc", clause, ""))

    def test_the_library_has_the_place_of_a_datatype(self):
        for name, files, place in WITHOUT_WORDS:
            with self.subTest(name):
                self.assertEqual(self.hinted({**DEEP, **files}), (place, "S12", ""))
        files = {**DEEP, "d.rnc": deep("x = xsd:byte")}
        self.assertEqual(self.hinted(files, "--datatypes", "profile"), ("d.rnc:1:665", "S12", ""))
        self.assertEqual(self.run_in(RNCV_XML, "s.rnc")[::2], ("", 0))
        # a file that is given, and that none mentions, is not looked at
        self.write("other.rnc", "x = xsd:date")
        out, _, status = self.run_in(RNCV_XML, "--datatypes", "profile", "s.rnc", "other.rnc", "--")
        self.assertRegex(out, r"^d\.rnc:1:665: S12 ")
        self.assertEqual(status, 3)

    def test_faults_with_a_place_have_no_hint(self):
        self.assertEqual(self.hinted({"s.rnc": "element a { |"})[1:], ("S6", ""))
        self.assertNotIn("hint", self.answer({"s.rnc": 'include "none.rnc"'}))

    def test_formats(self):
        files = {"s.rnc": "element a {\n  b\n}"}
        hint = "S15 what is referred to is defined (4.18): hint: b is not defined, see docs/use/CLAUSES.md"
        reported = json.loads(self.answer(files, "--format", "json"))
        self.assertEqual(reported, {"file": "s.rnc", "verdict": "refused", "line": 2, "column": 3, "clause": "S15", "message": hint})
        region = json.loads(self.answer(files, "--format", "sarif"))["runs"][0]["results"][0]
        self.assertEqual(region["locations"][0]["physicalLocation"]["region"], {"startLine": 2, "startColumn": 3})
        self.assertIn(": hint: b is not defined", region["message"]["text"])
        self.assertEqual(self.answer(files, "--format", "github"), f"::error file=s.rnc,line=2,col=3,title=refused::{hint}\n")


if __name__ == "__main__":
    unittest.main(verbosity=1)
