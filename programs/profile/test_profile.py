"""Tests of rncv-profile. See test.sh."""
import os
import pathlib
import queue
import random
import re
import signal
import subprocess
import sys
import tempfile
import threading
import unittest
from urllib.parse import unquote, unquote_to_bytes

HERE, PROGRAM = pathlib.Path(sys.argv[1]), pathlib.Path(sys.argv[2])
TOP = HERE.parents[1]
sys.path.insert(0, str(HERE))
from compact_tokens import NoToken, decoded, tokens  # noqa: E402
from profile_reader import Reader, Traits  # noqa: E402

# For each kind of finding: the main file's bytes, and the lines printed with --write, without the file's name.
SERVED = [
    b'element a { attribute * { xsd:string { maxLength = "3" } }+, (xsd:token - ("x" | [ b = "c" ] "y")) }',
    b'namespace n = inherit default namespace = "u" # >> [\n [ n:x = "1" ] element div | n:b { attribute (n:* - n:b) { list { "a"* } }+ | xsd:integer "1" }',
    b'start = n [ x = "1" ] n = [ a:x [ "y" ~ """z""" [ ] ] ] element \\start { empty } div { [ a = "b" ] n |= element b { text } }',
    b'datatypes d = "http://www.w3.org/2001/XMLSchema-datatypes" element grammar { d:integer { minInclusive = " -1 " } }',
    b'start = grammar { start = parent a } a = element list { mixed { b } } b = element b { token { } - string "a" }',
    b'element a { xsd:integer - (xsd:integer "1" | xsd:integer { minInclusive = "5" }) }',
    b'element \\x{61} { "\\x{22} ~ "a" ~ \'\\x{A}\' }',
]
FINDINGS = [
    ("utf-16", "element a { empty }".encode("utf-16"), ["1:1: the encoding is UTF-16; the copy has UTF-8, and accepts the same"]),
    ("utf-16 without a mark", "element a { empty }".encode("utf-16-be"), ["1:1: the encoding is UTF-16; the copy has UTF-8, and accepts the same"]),
    ("latin-1", b"# \xe9\nelement caf\xe9 { empty }",
     ["1:3: the byte E9 is not UTF-8; the copy has these bytes as ISO 8859-1 in UTF-8, and accepts the same if they were ISO 8859-1"]),
    ("mark", b"\xef\xbb\xbfelement a { empty }", ["1:1: a byte order mark is first; the copy has none, and accepts the same"]),
    ("mark and latin-1", b"\xef\xbb\xbfelement caf\xe9 { empty }",
     ["1:12: a byte order mark is first, and the byte E9 is not UTF-8; the copy has these bytes as ISO 8859-1 in UTF-8, and accepts "
      "the same if they were ISO 8859-1"]),
    ("annotation elements", b'a:b [ "x" ] start = element div { empty }\n div { \\start [ ] }',
     ["1:1: an annotation element among components is not served; the copy has nothing there, and accepts the same",
      "2:8: an annotation element among components is not served; the copy has nothing there, and accepts the same"]),
    ("follow", b'element a { text >> a:b [ "x" [ ] ] }',
     ["1:18: annotations that follow (>>) are not served; the copy has nothing there, and accepts the same"]),
    ("two annotations", b'\n[ a = "1" ] [ a = "2" ] element a { empty }',
     ["2:1: two annotations in a row are not served; the copy has nothing there, and accepts the same"]),
    ("annotation of a declaration", b'[ a = "1" ] namespace n = "u" element n:a { empty }',
     ["1:1: an annotation before a declaration is not served; the copy has nothing there, and accepts the same"]),
    ("escapes", b'element \\xx{61}b { "\\x{0000061}" }',
     ["1:9: an escape with more than one x or more than 6 digits is not served; the copy has \\x{61}, and accepts the same",
      "1:21: an escape with more than one x or more than 6 digits is not served; the copy has \\x{61}, and accepts the same"]),
    ("integers", b"element a { xsd:byte | xsd:unsignedByte }",
     ['1:13: the datatype xsd:byte is not served; the copy has xsd:integer { minInclusive = "-128" maxInclusive = "127" }, and accepts less',
      '1:24: the datatype xsd:unsignedByte is not served; the copy has xsd:integer { minInclusive = "0" maxInclusive = "255" }, '
      'and accepts more and less']),
    ("integers as values", b'element a { xsd:int "1" | xsd:unsignedInt "2" | xsd:integer "3" }',
     ["1:13: the datatype xsd:int is not served; the copy has xsd:integer, and accepts less",
      "1:27: the datatype xsd:unsignedInt is not served; the copy has xsd:integer, and accepts more and less"]),
    ("integers in an except", b'element a { xsd:token - (xsd:integer | xsd:long "1" | xsd:integer "2" | xsd:unsignedInt) }',
     ["1:26: integers of more than 38 digits are not served; the copy has xsd:integer, and accepts more",
      "1:40: the datatype xsd:long is not served; the copy has xsd:integer, and accepts more",
      "1:55: integers of more than 38 digits are not served; the copy has xsd:integer, and accepts more",
      '1:73: the datatype xsd:unsignedInt is not served; the copy has xsd:integer { minInclusive = "0" maxInclusive = "4294967295" }, '
      'and accepts more and less']),
    ("an integer in an except that stays as it is",
     b'datatypes d = "http://www.w3.org/2001/XMLSchema-datatypes" element a { token - d:integer { minInclusive = "+5" } }',
     ["1:80: integers of more than 38 digits are not served; the copy has xsd:integer, and accepts more"]),
    ("integers in an except of integers", b'element a { xsd:int - (xsd:integer "1" | xsd:short "2" | xsd:unsignedInt "3") }',
     ['1:13: the datatype xsd:int is not served; the copy has xsd:integer { minInclusive = "-2147483648" maxInclusive = "2147483647" }, and accepts less',
      "1:42: the datatype xsd:short is not served; the copy has xsd:integer, and accepts the same",
      "1:58: the datatype xsd:unsignedInt is not served; the copy has xsd:integer, and accepts less"]),
    ("references as values", b'element a { xsd:ENTITY "a" | xsd:IDREFS "b" | xsd:NMTOKENS "c" }',
     ["1:13: the datatype xsd:ENTITY is not served; the copy has xsd:NCName, and accepts more",
      "1:30: the datatype xsd:IDREFS is not served; the copy has xsd:token, and accepts more (rncv-xml checks the IDs)",
      "1:47: the datatype xsd:NMTOKENS is not served; the copy has xsd:token, and accepts the same"]),
    ("nearest", b'element a { xsd:date | xsd:QName "a:b" | xsd:anyURI { length = "3" } }',
     ["1:13: the datatype xsd:date is not served; the copy has xsd:token, and accepts more",
      "1:24: the datatype xsd:QName is not served; the copy has xsd:NMTOKEN, and accepts more and less",
      "1:42: the datatype xsd:anyURI is not served; the copy has xsd:token, and accepts more",
      '1:55: the parameter length is not served; the copy has minLength = "3" maxLength = "3", and accepts the same']),
    ("lists", b"element a { xsd:NMTOKENS }", ["1:13: the datatype xsd:NMTOKENS is not served; the copy has list { xsd:NMTOKEN+ }, and accepts the same"]),
    ("lists in lists", b"element a { list { xsd:NMTOKENS } }", ["1:20: the datatype xsd:NMTOKENS is not served; the copy has xsd:token, and accepts more"]),
    ("value", b'element a { xsd:decimal "1.0" }', ["1:13: the datatype xsd:decimal is not served; the copy has xsd:token, and accepts less"]),
    ("except", b"element a { xsd:token - (xsd:language | xsd:byte) }",
     ["1:26: the datatype xsd:language is not served; the copy has xsd:NMTOKEN, and accepts less",
      '1:41: the datatype xsd:byte is not served; the copy has xsd:integer { minInclusive = "-128" maxInclusive = "127" }, and accepts more']),
    ("except with a reference", b"start = element a { xsd:token - b } b = xsd:Name | xsd:integer",
     ["1:41: the datatype xsd:Name is not served; the copy has xsd:NMTOKEN, and accepts more and less",
      "1:52: integers of more than 38 digits are not served; the copy has xsd:integer, and accepts more and less"]),
    ("except of a value", b'element a { xsd:string - xsd:normalizedString "a" } | element b { xsd:decimal "1" }',
     ["1:26: the datatype xsd:normalizedString is not served; the copy has xsd:string, and accepts more",
      "1:67: the datatype xsd:decimal is not served; the copy has xsd:token, and accepts less"]),
    ("except in an except", b"element a { xsd:token - (xsd:token - (xsd:language | xsd:int)) } | element b { xsd:Name }",
     ["1:39: the datatype xsd:language is not served; the copy has xsd:NMTOKEN, and accepts more",
      '1:54: the datatype xsd:int is not served; the copy has xsd:integer { minInclusive = "-2147483648" maxInclusive = "2147483647" }, and accepts less',
      "1:80: the datatype xsd:Name is not served; the copy has xsd:NMTOKEN, and accepts more"]),
    ("grammar in an except", b"element a { xsd:token - grammar { start = xsd:language } } | element b { xsd:Name }",
     ["1:43: the datatype xsd:language is not served; the copy has xsd:NMTOKEN, and accepts less",
      "1:74: the datatype xsd:Name is not served; the copy has xsd:NMTOKEN, and accepts more"]),
    ("except of a name class", b"element * - a { xsd:language }",
     ["1:17: the datatype xsd:language is not served; the copy has xsd:NMTOKEN, and accepts more"]),
    ("bounds within those of the type", b'element a { xsd:byte { minInclusive = "-5" maxExclusive = "127" } }',
     ['1:13: the datatype xsd:byte is not served; the copy has xsd:integer { minInclusive = "-128" maxInclusive = "127" }, and accepts less',
      '1:44: the parameter maxExclusive is not served; the copy has xsd:integer { maxInclusive = "126" }, and accepts the same']),
    ("library", b'datatypes d = "u" element a { d:t { p = "1" } }',
     ["1:31: the datatype library 'u' is not served; the copy has xsd:string, and accepts more"]),
    ("pattern", b'element a { xsd:NCName { pattern = "a" } }', ["1:26: the parameter pattern is not served; the copy has no pattern, and accepts more"]),
    ("bounds", b'element a { xsd:integer { minExclusive = "1" maxInclusive = "9" totalDigits = "2" fractionDigits = "0" } }',
     ['1:27: the parameter minExclusive is not served; the copy has xsd:integer { minInclusive = "2" }, and accepts the same',
      '1:65: the parameter totalDigits is not served; the copy has xsd:integer { minInclusive = "-99" maxInclusive = "99" }, and accepts the same',
      "1:83: the parameter fractionDigits is not served; the copy has no fractionDigits, and accepts the same"]),
    ("length", b'element a { xsd:token { minLength = "0000000001" } }',
     ['1:25: the parameter minLength is not written as 1 to 9 digits; the copy has minLength = "1", and accepts the same']),
]
# What cannot be brought over: the copy has it unchanged, and it is reported for the copy too.
LEFT = [
    ("value not allowed", b'element a { xsd:boolean "yes" }', ["1:13: xsd:boolean does not allow the value 'yes'"]),
    ("value out of bounds", b'element a { xsd:byte "128" }', ["1:13: xsd:byte does not allow the value '128'"]),
    ("no type", b"element a { xsd:number }", ["1:13: xsd:number is not a datatype of XML Schema"]),
    ("no built-in", b'datatypes d = "" element a { d:text }', ["1:30: text is not a built-in datatype"]),
    ("value of a library", b'datatypes d = "u" element a { d:t "1" }', ["1:31: the datatype library 'u' is not served"]),
    ("bound above the type", b'element a { xsd:nonPositiveInteger { minInclusive = "5" } }',
     ["1:13: the datatype xsd:nonPositiveInteger is not served", "1:38: xsd:nonPositiveInteger does not allow the minInclusive '5'"]),
    ("bound weaker than the type", b'element a { xsd:byte { minInclusive = "1" maxInclusive = "1000" } }',
     ["1:13: the datatype xsd:byte is not served", "1:43: xsd:byte does not allow the maxInclusive '1000'"]),
    ("exclusive bound beside the type", b'element a { xsd:nonNegativeInteger { minExclusive = "-1" } }',
     ["1:13: the datatype xsd:nonNegativeInteger is not served", "1:38: xsd:nonNegativeInteger does not allow the minExclusive '-1'"]),
    ("no parameter", b'element a { xsd:int { minLength = "1" } }',
     ["1:13: the datatype xsd:int is not served", "1:23: xsd:int takes no parameter minLength"]),
    ("parameter of token", b'element a { token { maxLength = "1" } }', ["1:21: token takes no parameter maxLength; xsd:token takes lengths"]),
    ("parameter twice", b'element a { xsd:token { maxLength = "1" maxLength = "2" } }', ["1:25: the parameter maxLength appears twice"]),
    ("two lengths", b'element a { xsd:token { maxLength = "1" length = "1" } }', ["1:25: the parameter length appears with another length"]),
    ("no number", b'element a { xsd:token { maxLength = "x" } }', ["1:25: the parameter maxLength is not a number: 'x'"]),
    ("long bound", b'element a { xsd:integer { maxInclusive = "1' + b"0" * 38 + b'" } }', ["1:27: the parameter maxInclusive has more than 38 digits"]),
    ("long length", b'element a { xsd:token { maxLength = "1000000000" } }', ["1:25: the parameter maxLength has more than 9 digits"]),
    ("size", b"element a { empty }\n" + b"#" * 1_048_576, ["1:1: the file has more than 1,048,576 bytes"]),
    ("nesting", b"element a {\n" + b"(" * 128 + b"empty" + b")" * 128 + b"}", ["2:128: braces and parentheses nest more than 128 deep"]),
    ("uri", b'external "http://example.org/a.rnc"', ["1:10: the file http://example.org/a.rnc would have to be fetched"]),
    ("no uri", b'external "http://["', ["1:10: the file http://[ would have to be fetched"]),
    ("xml", b"<grammar/>", ["1:1: the XML syntax of RELAX NG is not served (trang writes the compact one)"]),
    ("no token", b'element a {\n "x }', ["2:2: no token begins here: the file is not read further"]),
    ("no character", b"element a\x01 { empty }", ["1:10: the character 1 is not allowed in XML: the file is not read further"]),
    ("no escape", b"element a\\x{4G} { empty }", ["1:10: a bad escape begins here: the file is not read further"]),
    ("no escaped character", b"element \\x{D800} { empty }", ["1:9: the character D800 is not allowed in XML: the file is not read further"]),
]


COMPATIBLE = b'datatypes d = "http://relaxng.org/ns/compatibility/datatypes/1.0"\n'
# The same with --datatypes xml-schema: what is served, ..
LARGER_SERVED = [
    b'element a { xsd:anyURI { length = "3" } | xsd:NMTOKENS { minLength = " +2 " maxLength = "10000000000" } | xsd:Name "a:b" | xsd:QName | xsd:NOTATION }',
    b'element a { xsd:int { minExclusive = "5" maxInclusive = "+10" totalDigits = "3" } | xsd:unsignedLong "18446744073709551615" | '
    b'xsd:integer "%b" }' % (b"1" * 50),
    b'element a { attribute b { xsd:ID }, attribute c { xsd:IDREFS }, attribute d { xsd:ENTITY "a" } } # ',
    b'element a { xsd:token - (xsd:integer | xsd:language "de-AT" | xsd:IDREFS "a b" | xsd:boolean "1" | xsd:normalizedString "a\\x{9}b") }',
    b'element a { xsd:ID { pattern = "a" minLength = "2" } - (xsd:byte { pattern = "1" maxExclusive = " 7 " } | xsd:QName { pattern = "b" }) }',
    b'element a { xsd:long { fractionDigits = "0" } | xsd:boolean { pattern = "[tf].*" pattern = ".{4}" } }',
    b'element a { xsd:decimal { totalDigits = "3" fractionDigits = "3" minInclusive = "-.5" maxExclusive = "+1." pattern = "0.*" } | xsd:decimal "1.%b" }'
    % (b"1" * 50),
    b'element a { (xsd:long - xsd:integer { minInclusive = "%b" }) | xsd:decimal { maxInclusive = "%b" } }' % (b"1" * 5000, b"9." + b"1" * 5000),
    b'element a { xsd:float { minInclusive = "NaN" maxInclusive = "NaN" } | xsd:double { minExclusive = "-INF" maxExclusive = "1e400" } | xsd:float "-0" }',
    b'element a { xsd:duration { minInclusive = "P12M" maxInclusive = "P1Y" } | xsd:duration "-P1Y2M3DT4H5M6.7S" | xsd:duration { minExclusive = "-PT0.1S" } }',
    b'element a { xsd:dateTime { minInclusive = " 2000-02-29T24:00:00Z " maxInclusive = "2000-03-01T14:00:00+14:00" } | xsd:date "-0001-02-29" }',
    b'element a { xsd:time { minInclusive = "08:00:00+09:00" maxExclusive = "24:00:00.0Z" } | xsd:gYear { maxInclusive = "9999999999-14:00" } }',
    b'element a { xsd:gYearMonth "2000-12Z" | xsd:gMonthDay { minInclusive = "--02-29" } | xsd:gDay "---31" | xsd:gMonth { minInclusive = "--01" } }',
    b'element a { xsd:hexBinary { length = "2" pattern = "A.*" } | xsd:base64Binary { minLength = "1" maxLength = "2" } | xsd:base64Binary " Y Q = = " }',
    b'element a { xsd:token - (xsd:decimal | xsd:hexBinary "0aF0" | xsd:dateTime { minExclusive = "2000-01-01T00:00:00Z" }) }',
    b'element a { xsd:NCName { minLength = "000000001" } | xsd:NCName "\\x{A}a" | xsd:byte { minInclusive = "5" maxInclusive = "5" } | string | token "" }',
]
# .. what is found, and the lines printed with --write, ..
LARGER_FINDINGS = [
    ("patterns stay", b"element a { xsd:QName { pattern = '\\d\"\\x{5C}\\x{5C}x{41}' maxLength = '3' pattern = 'b' } }",
     ["1:58: the parameter maxLength is not served; the copy has no maxLength, and accepts more"]),
    ("beside types that stay", b'element a { xsd:decimal { totalDigits = "2" } | xsd:QName { length = "2" } | xsd:date "2000-01-01" }',
     ["1:61: the parameter length is not served; the copy has no length, and accepts more"]),
    ("qualified names", b'element a { xsd:QName "a:b" | xsd:NOTATION { maxLength = "3" } }',
     ["1:13: a value of the datatype xsd:QName is not served; the copy has xsd:NMTOKEN, and accepts more and less",
      "1:46: the parameter maxLength is not served; the copy has no maxLength, and accepts more"]),
    ("IDs of the other library", COMPATIBLE + b'element a { attribute b { d:ID }, attribute c { d:IDREFS "x y" } }',
     ["2:27: the datatype library 'http://relaxng.org/ns/compatibility/datatypes/1.0' is not served; the copy has xsd:ID, and accepts the same",
      "2:49: the datatype library 'http://relaxng.org/ns/compatibility/datatypes/1.0' is not served; the copy has xsd:IDREFS, and accepts the same"]),
    ("another library", b'datatypes d = "u" element a { d:t { p = "1" } }',
     ["1:31: the datatype library 'u' is not served; the copy has xsd:string, and accepts more"]),
]
# .. and what cannot be brought over.
LARGER_LEFT = [
    (b'element a { xsd:byte "128" }', ["1:13: xsd:byte does not allow the value '128'"]),
    (b'element a { xsd:language "de-" }', ["1:13: xsd:language does not allow the value 'de-'"]),
    (b'element a { xsd:NMTOKENS "" }', ["1:13: xsd:NMTOKENS does not allow the value ''"]),
    (b'element a { xsd:byte { maxInclusive = "128" } }', ["1:24: xsd:byte does not allow the maxInclusive '128'"]),
    (b'element a { xsd:token { length = "-1" } }', ["1:25: xsd:token does not allow the length '-1'"]),
    (b'element a { xsd:int { totalDigits = "0" } }', ["1:23: xsd:int does not allow the totalDigits '0'"]),
    (b'element a { xsd:int { fractionDigits = "1" } }', ["1:23: xsd:int does not allow the fractionDigits '1'"]),
    (b'element a { xsd:boolean { length = "1" } }', ["1:27: xsd:boolean takes no parameter length"]),
    (b'element a { xsd:int { minLength = "0" } }', ["1:23: xsd:int takes no parameter minLength"]),
    (b'element a { xsd:Name { length = "1" length = "1" } }', ["1:37: the parameter length appears twice"]),
    (b'element a { xsd:Name { length = "1" maxLength = "1" } }', ["1:37: the parameters length and maxLength exclude each other"]),
    (b'element a { xsd:integer { maxExclusive = "1" minInclusive = "1" } }', ["1:46: the parameters minInclusive and maxExclusive exclude each other"]),
    (b'element a { xsd:decimal { totalDigits = "2" fractionDigits = "3" } }', ["1:45: the parameters fractionDigits and totalDigits exclude each other"]),
    (b'element a { xsd:decimal { minInclusive = "1e1" } }', ["1:27: xsd:decimal does not allow the minInclusive '1e1'"]),
    (b'element a { xsd:decimal { minInclusive = "." } }', ["1:27: xsd:decimal does not allow the minInclusive '.'"]),
    (b'element a { xsd:decimal { minExclusive = "1.0" maxInclusive = "1" } }', ["1:48: the parameters minExclusive and maxInclusive exclude each other"]),
    (b'element a { xsd:float { totalDigits = "2" } }', ["1:25: xsd:float takes no parameter totalDigits"]),
    (b'element a { xsd:float { minInclusive = "NaN" maxInclusive = "INF" } }', ["1:46: the parameters minInclusive and maxInclusive exclude each other"]),
    (b'element a { xsd:double { maxInclusive = "+INF" } }', ["1:26: xsd:double does not allow the maxInclusive '+INF'"]),
    (b'element a { xsd:float { minInclusive = "16777217" maxExclusive = "16777216" } }',
     ["1:51: the parameters minInclusive and maxExclusive exclude each other"]),
    (b'element a { xsd:duration { minInclusive = "P1M" maxInclusive = "P30D" } }', ["1:49: the parameters minInclusive and maxInclusive exclude each other"]),
    (b'element a { xsd:duration { minInclusive = "P1Y" maxExclusive = "P12M" } }', ["1:49: the parameters minInclusive and maxExclusive exclude each other"]),
    (b'element a { xsd:time { minInclusive = "24:00:00" maxInclusive = "00:00:01" } }',
     ["1:50: the parameters minInclusive and maxInclusive exclude each other"]),
    (b'element a { xsd:NMTOKENS { minLength = "0" } }', ["1:28: xsd:NMTOKENS does not allow the minLength '0'"]),
    (b'element a { xsd:duration { minInclusive = "PT.5S" } }', ["1:28: xsd:duration does not allow the minInclusive 'PT.5S'"]),
    (b'element a { xsd:duration "P" }', ["1:13: xsd:duration does not allow the value 'P'"]),
    (b'element a { xsd:dateTime { minInclusive = "2000-01-01T00:00:00" maxInclusive = "2000-01-01T14:00:00Z" } }',
     ["1:65: the parameters minInclusive and maxInclusive exclude each other"]),
    (b'element a { xsd:date { minInclusive = "2001-02-29" } }', ["1:24: xsd:date does not allow the minInclusive '2001-02-29'"]),
    (b'element a { xsd:date { minInclusive = "2000-01-01+14:01" } }', ["1:24: xsd:date does not allow the minInclusive '2000-01-01+14:01'"]),
    (b'element a { xsd:time "24:00:01" }', ["1:13: xsd:time does not allow the value '24:00:01'"]),
    (b'element a { xsd:gYear "0000" }', ["1:13: xsd:gYear does not allow the value '0000'"]),
    (b'element a { xsd:gMonth { length = "4" } }', ["1:26: xsd:gMonth takes no parameter length"]),
    (b'element a { xsd:hexBinary "0" }', ["1:13: xsd:hexBinary does not allow the value '0'"]),
    (b'element a { xsd:hexBinary { minInclusive = "0a" } }', ["1:29: xsd:hexBinary takes no parameter minInclusive"]),
    (b'element a { xsd:base64Binary "YR==" }', ["1:13: xsd:base64Binary does not allow the value 'YR=='"]),
    (b'element a { xsd:base64Binary { length = "1" minLength = "1" } }', ["1:45: the parameters length and minLength exclude each other"]),
    (b"element a { xsd:integers }", ["1:13: xsd:integers is not a datatype of XML Schema"]),
]


class InFolder(unittest.TestCase):
    """The program, in a fresh folder."""

    def setUp(self):
        folder = tempfile.TemporaryDirectory()
        self.addCleanup(folder.cleanup)
        self.folder = pathlib.Path(folder.name)

    def write(self, name, data):
        path = self.folder / name
        path.parent.mkdir(parents=True, exist_ok=True)
        path.write_bytes(data)

    def run_in(self, *words):
        run = subprocess.run([str(word) for word in words], cwd=self.folder, capture_output=True, timeout=60, check=False)
        return run.stdout.decode(), run.stderr.decode(), run.returncode

    def profile(self, *words):
        return self.run_in(HERE / "rncv-profile", *words)


class Profile(InFolder):
    """What is found and copied."""

    def checked(self, *names):
        """Wants that the program finds no broken clause in the copies."""
        if PROGRAM.exists():
            self.assertEqual(self.run_in(PROGRAM.resolve(), "check", *names)[::2], ("schema ok\n", 0))

    def test_served(self):
        for source in SERVED:
            with self.subTest(source):
                self.write("s.rnc", source)
                self.assertEqual(self.profile("s.rnc"), ("", "", 0))
                self.checked("s.rnc")

    def test_findings_and_their_copies(self):
        for name, source, lines in FINDINGS:
            with self.subTest(name):
                self.write("s.rnc", source)
                out, errors, status = self.profile("--write", "copy", "s.rnc")
                written = "written: copy/s.rnc" + " copy/s.profile.txt" * any(line.endswith((" more", " less", "the IDs)")) for line in lines)
                self.assertEqual((out.splitlines(), errors, status), ([*(f"s.rnc:{line}" for line in lines), written], "", 1))
                self.assertEqual(self.profile("copy/s.rnc"), ("", "", 0))
                self.checked("copy/s.rnc")

    def test_what_is_not_brought_over(self):
        for name, source, lines in LEFT:
            with self.subTest(name):
                self.write("s.rnc", source)
                self.assertEqual(self.profile("--write", "copy", "s.rnc")[0].splitlines()[:-1], [f"s.rnc:{line}; not brought over" for line in lines])
                self.assertEqual(self.profile("copy/s.rnc")[::2], ("".join(f"copy/s.rnc:{line}\n" for line in lines), 1))
                if PROGRAM.exists():
                    self.assertRegex(self.run_in(PROGRAM.resolve(), "check", "s.rnc")[0], "^refused S")

    def checked_by_library(self, is_good):
        """Wants that the library says the same of `s.rnc`, or of its copy, with the larger set; where there is one."""
        library = os.environ.get("RNCV_LIBRARY")
        if library and pathlib.Path(library, "lib/librncv.so").exists():
            code = "import rncv, sys; rncv.compile(sys.argv[1], datatypes='xml-schema')"
            run = subprocess.run([sys.executable, "-c", code, "copy/s.rnc"], cwd=self.folder, capture_output=True, text=True, check=False,
                                 env={**os.environ, "PYTHONPATH": str(TOP / "programs/python")})
            self.assertEqual(run.returncode == 0, is_good, run.stderr)
            self.assertTrue(is_good or "refused S12" in run.stderr, run.stderr)

    def test_the_larger_set(self):
        larger = ("--datatypes", "xml-schema", "--write", "copy", "s.rnc")
        for source in LARGER_SERVED:
            with self.subTest(source):
                self.write("s.rnc", source)
                self.assertEqual(self.profile(*larger), ("written: copy/s.rnc\n", "", 0))
                self.assertEqual((self.folder / "copy/s.rnc").read_bytes(), source)
                self.checked_by_library(True)
        for name, source, lines in LARGER_FINDINGS:
            with self.subTest(name):
                self.write("s.rnc", source)
                written = "written: copy/s.rnc" + " copy/s.profile.txt" * any(line.endswith((" more", " less")) for line in lines)
                self.assertEqual(self.profile(*larger), ("".join(f"s.rnc:{line}\n" for line in lines) + written + "\n", "", 1))
                self.assertEqual(self.profile("--datatypes=xml-schema", "copy/s.rnc"), ("", "", 0))
                self.assertNotIn("marked", (self.folder / "copy/s.rnc").read_text())
                self.checked_by_library(True)
        for source, lines in LARGER_LEFT:
            with self.subTest(source):
                self.write("s.rnc", source)
                self.assertEqual(self.profile(*larger)[0].splitlines()[:-1], [f"s.rnc:{line}; not brought over" for line in lines])
                self.checked_by_library(False)

    def test_sets_of_datatypes(self):
        self.write("s.rnc", b"element a { xsd:anyURI }")
        for words in ((), ("--datatypes", "profile")):
            self.assertEqual(self.profile(*words, "s.rnc"), ("s.rnc:1:13: the datatype xsd:anyURI is not served\n", "", 1))
        out, errors, status = self.profile("--datatypes", "all", "s.rnc")
        self.assertEqual((out, status), ("", 4))
        self.assertIn("invalid choice: 'all'", errors)

    def test_files_get_flat_names(self):
        self.write("schema/main.rnc", b'include "./a/x.rnc" { start = element a { n } }\nn = external "b/my%20x.rnc" | external "y.rnc"')
        self.write("schema/a/x.rnc", b"start = notAllowed")
        self.write("schema/b/my x.rnc", b'element b { external "x.rnc" }')
        self.write("schema/b/x.rnc", b"element c { empty }")
        self.write("schema/y.rnc", b"element y { empty }")
        out, errors, status = self.profile("--write", "copy", "schema/main.rnc")
        reported = "files are named without directories and escapes, not as"
        self.assertEqual((errors, status), ("", 1))
        self.assertEqual(out, f'schema/main.rnc:1:9: {reported} ./a/x.rnc; the copy has "x.rnc", and accepts the same\n'
                              f'schema/main.rnc:2:14: {reported} b/my%20x.rnc; the copy has "my x.rnc", and accepts the same\n'
                              f'schema/b/my x.rnc:1:22: {reported} x.rnc; the copy has "x-2.rnc", and accepts the same\n'
                              "written: copy/main.rnc copy/x.rnc copy/my x.rnc copy/x-2.rnc copy/y.rnc\n")
        self.assertEqual(self.profile("copy/main.rnc"), ("", "", 0))
        self.folder /= "copy"
        self.checked("main.rnc", "x.rnc", "my x.rnc", "x-2.rnc", "y.rnc")

    def test_number_of_files(self):
        self.write("s.rnc", b"".join(b'include "%d.rnc" ' % number for number in range(64)) + b"start = element a { empty }")
        for number in range(64):
            self.write(f"{number}.rnc", b"")
        self.assertEqual(self.profile("s.rnc"), ("s.rnc:1:1: the schema has more than 64 files\n", "", 1))

    def test_files_that_cannot_be_read(self):
        self.write("s.rnc", b'\nexternal "none.rnc"')
        self.assertEqual(self.profile("s.rnc"), ("", "s.rnc:2:10: cannot read 'none.rnc': No such file or directory\n", 4))
        self.assertEqual(self.profile("none.rnc")[1:], ("none.rnc: cannot read 'none.rnc': No such file or directory\n", 4))
        self.assertEqual(self.profile("--write", "s.rnc/x", "s.rnc")[1].splitlines()[-1], "rncv-profile: Not a directory: s.rnc/x")
        self.assertEqual(self.profile()[2], 4)

    def test_an_interrupt_while_it_begins(self):
        self.write("program_ends.py", b"raise KeyboardInterrupt")
        run = subprocess.run([HERE / "rncv-profile", "s.rnc"], cwd=self.folder, capture_output=True, timeout=60, check=False,
                             env={**os.environ, "PYTHONPATH": str(self.folder)})
        self.assertEqual((run.returncode, run.stderr), (130, b""))

    def test_a_file_without_an_end(self):
        if not pathlib.Path("/dev/zero").exists():
            self.skipTest("there is no /dev/zero")
        self.assertEqual(self.profile("/dev/zero"), ("", "/dev/zero: cannot read '/dev/zero': it has more than 16,777,216 bytes\n", 4))

    def test_broken_utf_16(self):
        self.write("s.rnc", b"\xff\xfe" + "element a { empty }#".encode("utf-16-le") + b"\0\xd8")
        reported = "s.rnc:1:1: the encoding is UTF-16, broken at the byte 40; not brought over"
        self.assertEqual(self.profile("--write", "copy", "s.rnc")[0].splitlines()[0], reported)

    def test_no_source_is_written_over(self):
        self.write("s.rnc", b"xsd:date")
        self.assertEqual(self.profile("--write", ".", "s.rnc")[1:], ("rncv-profile: s.rnc is a file of the schema; copies go to another directory\n", 4))
        self.assertEqual((self.folder / "s.rnc").read_bytes(), b"xsd:date")

    def test_a_file_that_mentions_itself_ends(self):
        self.write("s.rnc", b'element a { external "s.rnc" }')
        self.assertEqual(self.profile("s.rnc"), ("", "", 0))

    def test_dropped_lines_stay_lines(self):
        self.write("s.rnc", b'a:b [\n"x"\n]\nstart = element a { xsd:date }')
        self.profile("--write", "copy", "s.rnc")
        mark = b"\n# rncv-profile: 1 datatype loosened, see s.profile.txt\n"
        self.assertEqual((self.folder / "copy/s.rnc").read_bytes(), b"\n\n\nstart = element a { xsd:token }" + mark)

    def copy_of(self, text):
        """The copy of a schema of one file, without what is the same."""
        self.write("s.rnc", text.encode())
        self.profile("--write", "copy", "s.rnc")
        return (self.folder / "copy/s.rnc").read_text()

    def test_datatypes_of_ids_are_marked(self):
        library = 'datatypes d = "http://relaxng.org/ns/compatibility/datatypes/1.0"\n'
        mark = "\n# rncv-profile: 1 ID-type marked, see s.profile.txt\n"
        for kind, copy in (("xsd:ID", 'xsd:NCName { minLength = "000000001" }'), ("d:ID", 'xsd:NCName { minLength = "000000001" }'),
                           ("xsd:IDREF", 'xsd:NCName { minLength = "00000001" }'), ("d:IDREFS", 'list { xsd:NCName { minLength = "0000001" }+ }'),
                           ('xsd:ID { maxLength = "4" minLength = "2" }', 'xsd:NCName { minLength = "000000002" maxLength = "4" }'),
                           ('xsd:IDREF { minLength = "999999999" }', 'xsd:NCName { minLength = "999999999" }'),
                           ('xsd:ID "x"', r'xsd:NCName "\x{A}" ~ "x"'), ('d:IDREF "x"', r'xsd:NCName "\x{A}\x{A}" ~ "x"'),
                           ('xsd:IDREFS "x y"', r'xsd:token "\x{A}\x{A}\x{A}" ~ "x y"')):
            with self.subTest(kind):
                self.assertEqual(self.copy_of(f"{library}element a {{ attribute b {{ {kind} }} }}"), f"{library}element a {{ attribute b {{ {copy} }} }}{mark}")
        self.assertIn('list { xsd:token { minLength = "0000001" } }', self.copy_of("element a { attribute b { list { xsd:IDREFS } } }"))
        self.assertIn("1 datatype tightened", self.copy_of("element a { attribute b { token - xsd:ID } }"))

    def test_what_only_looks_marked_is_written_otherwise(self):
        text = 'element a { attribute b { xsd:NCName { minLength = "000000002" } }, attribute c { xsd:token "\\x{A}x" } }\n'
        copy = 'element a { attribute b { xsd:NCName { minLength = "2" } }, attribute c { xsd:token " " ~ "\\x{A}x" } }\n'
        self.assertEqual(self.copy_of(text), copy)
        for kind, copy in (('xsd:NCName { minLength = "000000002" pattern = "a" }', 'xsd:NCName { minLength = "2" }'),
                           ('xsd:anyURI { minLength = "0000005" }', 'xsd:token { minLength = "5" }'), ('xsd:anyURI "\\x{A}x"', 'xsd:token " " ~ "\\x{A}x"'),
                           ('xsd:ENTITY { minLength = "00000003" }', 'xsd:NCName { minLength = "3" }'), ('token "\\x{A}x"', 'token "\\x{A}x"'),
                           ('xsd:string "\\x{A}x"', 'xsd:string "\\x{A}x"'), ('xsd:NCName "x"', 'xsd:NCName "x"')):
            self.assertEqual(self.copy_of(f"element a {{ {kind} }}\n").splitlines()[0], f"element a {{ {copy} }}")
        mark = "# rncv-profile: 1 ID-type marked, see s.profile.txt\n"
        self.assertEqual(self.copy_of(text + mark), text + mark)

    def test_loosened_copies_are_marked(self):
        self.write("s.rnc", b'include "b.rnc"\nstart = element a { n, xsd:date, attribute x { xsd:time } }\n')
        self.write("b.rnc", b'n = attribute n { xsd:positiveInteger }')
        self.assertTrue(self.profile("--write", "copy", "s.rnc")[0].endswith("\nwritten: copy/s.rnc copy/b.rnc copy/s.profile.txt\n"))
        copies = [(self.folder / "copy" / name).read_text().splitlines()[-1] for name in ("s.rnc", "b.rnc")]
        self.assertEqual(copies[0], "# rncv-profile: 2 datatypes loosened, see s.profile.txt")
        self.assertEqual(copies[1], "# rncv-profile: 1 datatype tightened, see s.profile.txt")
        reported = "the datatype xsd:date is not served; the copy has xsd:token, and accepts more\n"
        self.assertEqual((self.folder / "copy/s.profile.txt").read_text().splitlines(True)[0], f"s.rnc:2:24: {reported}")
        self.assertEqual(self.profile("--write", "again", "copy/s.rnc")[0], "written: again/s.rnc again/b.rnc\n")
        self.assertEqual((self.folder / "again/s.rnc").read_text(), (self.folder / "copy/s.rnc").read_text())

    def test_what_a_copy_accepts_less_is_marked_beside_what_it_accepts_more(self):
        self.write("s.rnc", b'include "b.rnc"\nstart = element a { xsd:decimal "1.0" | xsd:unsignedInt | xsd:date | n }')
        self.write("b.rnc", b'n = element n { xsd:token }\n')
        self.assertEqual(self.profile("--write", "copy", "s.rnc")[2], 1)
        marks = "# rncv-profile: 2 datatypes loosened, see s.profile.txt\n# rncv-profile: 2 datatypes tightened, see s.profile.txt\n"
        self.assertTrue((self.folder / "copy/s.rnc").read_text().endswith("| n }\n" + marks))
        self.assertNotIn("rncv-profile", (self.folder / "copy/b.rnc").read_text())
        reported = (self.folder / "copy/s.profile.txt").read_text().splitlines()
        self.assertEqual([line.rpartition(" accepts ")[2] for line in reported], ["less", "more and less", "more"])

    def test_an_external_in_an_except(self):
        self.write("s.rnc", b'element a { xsd:token - external "b.rnc" }')
        self.write("b.rnc", b"xsd:language")
        self.assertEqual(self.profile("--write", "copy", "s.rnc")[0].splitlines()[0],
                         "b.rnc:1:1: the datatype xsd:language is not served; the copy has xsd:NMTOKEN, and accepts more and less")

    def test_a_fault_of_the_words_is_one_line(self):
        self.assertEqual(self.profile("--a\n\x1b\u2028b", "s.rnc")[1].splitlines()[-1], "rncv-profile: error: unrecognized arguments: --a\\n\\x1b\\u2028b")

    def test_examples_of_the_repository(self):
        for folder in sorted(path for path in (TOP / "examples").iterdir() if path.name != "broken"):
            with self.subTest(folder.name):
                self.assertEqual(self.profile(*sorted(folder.glob("*.rnc"))), ("", "", 0))


class Watching(InFolder):
    """The program with --watch, which is given half a minute for each line."""

    def start(self, *words):
        """Starts the program; `lines` gets what it prints on both streams. Ctrl-C ends it even if these tests run in the background."""
        self.lines = queue.Queue()
        self.program = subprocess.Popen([str(HERE / "rncv-profile"), *words], cwd=self.folder, stdout=subprocess.PIPE, stderr=subprocess.STDOUT,
                                        preexec_fn=lambda: signal.signal(signal.SIGINT, signal.SIG_DFL))
        reader = threading.Thread(target=lambda: [self.lines.put(line.decode()) for line in self.program.stdout], daemon=True)
        reader.start()
        self.addCleanup(self.program.stdout.close)
        self.addCleanup(reader.join, 30)
        self.addCleanup(self.program.wait, 30)
        self.addCleanup(self.program.kill)

    def write(self, name, data):
        """Writes a file at once, so that the program never reads a part of it."""
        super().write(f"{name}.new", data)
        os.replace(self.folder / f"{name}.new", self.folder / name)

    def line(self):
        return self.lines.get(timeout=30)

    def is_quiet(self, seconds=2):
        """Wants that the program prints nothing in so many seconds."""
        with self.assertRaises(queue.Empty):
            self.lines.get(timeout=seconds)

    def test_a_copy_after_each_change(self):
        self.write("s.rnc", b'include "parts/b.rnc"\nstart = element a { b, xsd:date }')
        self.write("parts/b.rnc", b"b = attribute b { xsd:token }")
        self.start("--watch", "--write", "copy", "s.rnc")
        self.assertEqual(self.line(), "written: copy/s.rnc copy/b.rnc copy/s.profile.txt, 2 findings, 1 datatype loosened\n")
        self.write("parts/b.rnc", b"b = attribute b { xsd:int }")
        self.assertEqual(self.line(), "written: copy/s.rnc copy/b.rnc copy/s.profile.txt, 3 findings, 1 datatype loosened, 1 datatype tightened\n")
        self.assertIn("tightened", (self.folder / "copy/b.rnc").read_text())
        self.write("s.rnc", b"start = element a { xsd:token }\n")
        self.assertEqual(self.line(), "written: copy/s.rnc, 0 findings\n")
        self.assertEqual(sorted(os.listdir(self.folder / "copy")), ["s.rnc"])
        self.write("parts/b.rnc", b"b = attribute c { xsd:int }")
        self.is_quiet()
        self.program.send_signal(signal.SIGINT)
        self.assertEqual(self.program.wait(30), 130)
        self.is_quiet(0)

    def test_a_file_that_is_broken_for_a_moment(self):
        self.write("s.rnc", b'include "b.rnc"\nstart = element a { b }\n')
        self.write("b.rnc", b"b = empty\n")
        self.start("--watch", "--write", "copy", "s.rnc")
        self.assertEqual(self.line(), "written: copy/s.rnc copy/b.rnc, 0 findings\n")
        (self.folder / "b.rnc").unlink()
        self.assertEqual(self.line(), "s.rnc:1:9: cannot read 'b.rnc': No such file or directory; the copies stay as they are\n")
        self.write("s.rnc", b'include "b.rnc"\nstart = element c { b }\n')
        self.is_quiet()
        self.assertEqual((self.folder / "copy/b.rnc").read_bytes(), b"b = empty\n")
        self.write("b.rnc", b'b = "open')
        self.assertEqual(self.line(), "written: copy/s.rnc copy/b.rnc, 1 finding, b.rnc:1:5: no token begins here: the file is not read further\n")
        self.write("b.rnc", b'b = "open"')
        self.assertEqual(self.line(), "written: copy/s.rnc copy/b.rnc, 0 findings\n")
        self.assertEqual((self.folder / "copy/s.rnc").read_bytes(), b'include "b.rnc"\nstart = element c { b }\n')

    def test_a_schema_that_is_not_there_yet(self):
        self.start("--watch", "--write", "copy", "s.rnc")
        self.assertEqual(self.line(), "s.rnc: cannot read 's.rnc': No such file or directory; the copies stay as they are\n")
        self.write("s.rnc", b"element a { empty }\n")
        self.assertEqual(self.line(), "written: copy/s.rnc, 0 findings\n")

    def test_what_is_the_same_is_not_written_again(self):
        self.write("s.rnc", b'include "b.rnc"\nstart = element a { b }\n')
        self.write("b.rnc", b"b = empty\n")
        self.start("--watch", "--write", "copy", "s.rnc")
        self.line()
        before = os.stat(self.folder / "copy/s.rnc")
        self.write("b.rnc", b"b = text\n")
        self.line()
        after = os.stat(self.folder / "copy/s.rnc")
        self.assertEqual((after.st_ino, after.st_mtime_ns), (before.st_ino, before.st_mtime_ns))
        self.assertEqual((self.folder / "copy/b.rnc").read_bytes(), b"b = text\n")

    def test_command_lines_that_cannot_work(self):
        self.write("s.rnc", b"xsd:date")
        out, errors, status = self.profile("--watch", "s.rnc")
        self.assertEqual((out, errors.splitlines()[-1], status), ("", "rncv-profile: error: --watch needs --write DIR", 4))
        self.assertEqual(self.profile("--watch", "--write", ".", "s.rnc"), (
            "", "rncv-profile: s.rnc is a file of the schema; copies go to another directory\n", 4))
        self.write("file", b"")
        self.assertEqual(self.profile("--watch", "--write", "file", "s.rnc")[2], 4)


class Tokens(unittest.TestCase):
    """Bytes, escapes and tokens, beyond what the findings show."""

    def test_literals(self):
        found, _ = tokens("\"a\" '' \"\"\"x\n\"y\"\"\" ''''''")
        self.assertEqual([token.text for token in found], ["a", "", 'x\n"y', ""])

    def test_escapes_count_as_characters(self):
        found, escapes = tokens(r"\x{65}mpty # \x{A} x" + "\n" + r"\\x{61}")
        self.assertEqual([(token.kind, token.text, token.start, token.end) for token in found], [("word", "empty", 0, 10), ("quoted", "a", 21, 28)])
        self.assertEqual(len(escapes), 3)

    def test_an_escaped_line_feed_ends_no_line(self):
        self.assertEqual(tokens(r'"a\x{A}b"')[0][0].text, "a\nb")
        with self.assertRaises(NoToken):
            tokens(r"a \x{A} b")

    def test_longest_token(self):
        kinds = [token.kind for token in tokens(r"p:* p:a p * \element |= >>")[0]]
        self.assertEqual(kinds, ["nsname", "cname", "word", "sign", "quoted", "sign", "sign"])


class Sentences(unittest.TestCase):
    """The texts of `rnc_grammar_cases` and `parts_cases`, with the trees and clauses that belong to them."""

    @staticmethod
    def rows(crate, *names):
        """The bytes of each row without its answer, and the answer."""
        data = TOP / "crates" / crate / "data"
        lines = [line for name in names for line in (data / name).read_text(encoding="utf-8").split("\n") if line and line[0] != "#"]
        parted = [line.rpartition("\t= ") for line in lines]
        return [(unquote_to_bytes(row), unquote(answer)) for row, _, answer in parted]

    def test_sentences_have_the_datatypes_and_files_of_their_trees(self):
        served = 0
        for data, answer in self.rows("rnc_grammar_cases", "worked.txt", "sentences.txt"):
            if answer.startswith("clause"):
                continue
            reader = Reader(tokens(data.decode())[0]).read()
            tree = answer.split(" is a grammar of")[0]
            self.assertEqual(reader.findings, [], data)
            types = re.findall(r'DatatypeName \{ library: "([^"]+)", name: "([^"]+)" \}', tree)
            self.assertEqual([(use.library, use.name) for use, _, _ in reader.uses if use.library], types, data)
            names = re.findall(r'Mention \{ href: "((?:[^"\\]|\\.)*)"', tree)
            self.assertEqual([mention.href.replace('"', '\\"') for mention in reader.mentions], names, data)
            self.assertEqual((reader.lists, reader.excepts), ("List(" in tree, "except: Some" in tree), data)
            served += 1
        self.assertGreater(served, 600)

    def test_no_tokens_are_too_odd(self):
        words = [data.decode().split(" ") for data, _ in self.rows("rnc_grammar_cases", "sentences.txt")]
        chance = random.Random(1)
        for _ in range(2000):
            text = " ".join(chance.choice([*chance.choice(words), ">>", "[", "]", "a:b"]) for _ in range(chance.randrange(20)))
            try:
                Reader(tokens(text)[0]).read().judge_types(Traits())
            except NoToken:
                pass

    def test_texts_break_the_same_clauses(self):
        for row, answer in self.rows("parts_cases", "texts.txt"):
            call, _, data = row.partition(b"\t")
            reading = decoded(data)
            wanted = (re.match(r"([345]) at \d+$", answer) or "  ")[1].strip()
            if b">>" not in data and "mark" not in reading.reported:
                self.assertEqual(self.clause(reading, call == b"cut"), wanted, row)

    @staticmethod
    def clause(reading, cuts):
        """The number of the clause that a text alone breaks; S5 only if the text is cut into tokens."""
        if reading.reported:
            return "3"
        try:
            return "4" if any(escape.shorter for escape in tokens(reading.text)[1]) else ""
        except NoToken as fault:
            return "4" if "no token" not in fault.what else "5" if cuts else ""


if __name__ == "__main__":
    unittest.main(argv=sys.argv[:1], verbosity=2)
