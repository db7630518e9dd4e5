"""Worked cases: texts with the tree or the broken clause that the rules give."""
import trees as t

X, Y, Z = t.ref("x"), t.ref("y"), t.ref("z")
A, B = t.name(None, "a"), t.name(None, "b")
DATE, INTEGER = t.datatype(t.XSD, "date"), t.datatype(t.XSD, "integer")

PATTERNS = {
    # patterns of one or two words
    "x": X,
    "\\start": t.ref("start"),
    "parent x": t.parent("x"),
    "parent \\text": t.parent("text"),
    "empty": t.EMPTY,
    "text": t.TEXT,
    "notAllowed": t.NOT_ALLOWED,
    # patterns with braces
    "element element { empty }": t.element(t.name(None, "element"), t.EMPTY),
    "attribute a { text }": t.attribute(t.name("", "a"), t.TEXT),
    "list { x }": t.list_of(X),
    "mixed { x }": t.mixed(X),
    "grammar { }": t.grammar(),
    # repetitions
    "x ?": t.optional(X),
    "x *": t.zero_or_more(X),
    "x +": t.one_or_more(X),
    "( x + ) ?": t.optional(t.one_or_more(X)),
    # connectors
    "x , y": t.group(X, Y),
    "x & y": t.interleave(X, Y),
    "x | y": t.choice(X, Y),
    "( x ) , ( ( y ) )": t.group(X, Y),
    "( ( x , y ) )": t.group(X, Y),
    # parentheses leave no node
    "( x )": X,
    "( ( x ) )": X,
    "( x , y ) , z": t.group(t.group(X, Y), Z),
    "x , ( y | z )": t.group(X, t.choice(Y, Z)),
    "( element ( ( a ) ) { ( x ) } )": t.element(A, X),
    # values, with the segments of their literals joined
    "\"a\" ~ 'b' ~ \"\"\"c\"\"\"": t.token("abc"),
    "token 'a'": t.token("a"),
    "''": t.token(""),
    "string 'a' ~ 'b'": t.value(t.STRING, "ab"),
    "xsd:date 'a'": t.value(DATE, "a"),
    # datatypes with parameters
    "string": t.data(t.STRING),
    "token { }": t.data(t.TOKEN),
    "xsd:integer { minInclusive = '1' list = '2' ~ '3' }": t.data(INTEGER, ("minInclusive", "1"), ("list", "23")),
    # datatypes with an except
    "xsd:date { } - x": t.data(DATE, excepted=X),
    # name classes of an element
    "element * { text }": t.element(t.ANY, t.TEXT),
    "element ( a | b ) { text }": t.element(t.classes(A, B), t.TEXT),
    "element ( a | b ) | list { text }": t.element(t.classes(t.classes(A, B), t.name(None, "list")), t.TEXT),
    'namespace p = "u" element * - ( a | p:b ) { text }': t.element(t.any_except(t.classes(A, t.name("u", "b"))), t.TEXT),
    # name classes of an attribute
    "attribute a | b { text }": t.attribute(t.classes(t.name("", "a"), t.name("", "b")), t.TEXT),
    "namespace p = 'u' attribute p:* { text }": t.attribute(t.every("u"), t.TEXT),
    "namespace p = 'u' attribute p:* - a { text }": t.attribute(t.every_except("u", t.name("", "a")), t.TEXT),
    # the namespaces of names without a prefix
    "default namespace p = inherit element p:a { attribute b { text } }": t.element(A, t.attribute(t.name("", "b"), t.TEXT)),
    "default namespace = 'u' element a { attribute b { text } }": t.element(t.name("u", "a"), t.attribute(t.name("", "b"), t.TEXT)),
    "default namespace p = 'u' element a | p:b { text }": t.element(t.classes(t.name("u", "a"), t.name("u", "b")), t.TEXT),
    "default namespace p = 'u' attribute * - ( a | p:b ) { text }": t.attribute(
        t.any_except(t.classes(t.name("", "a"), t.name("u", "b"))), t.TEXT
    ),
    # two mentions, and their places
    "external 'b' , external 'c'": t.group(t.external(t.mention("b", None, 1)), t.external(t.mention("c", None, 4))),
    # mentions in an element and in a nested grammar
    "element a { external 'b' , grammar { div { include 'c' } } }": t.element(
        A, t.group(t.external(t.mention("b", None, 4)), t.grammar(t.div(t.include(t.mention("c", None, 11)))))
    ),
    # patterns that are not grammars
    "grammar { } ?": t.optional(t.grammar()),
    "grammar { } , x": t.group(t.grammar(), X),
    "( grammar { } | x )": t.choice(t.grammar(), X),
    "list { grammar { } }": t.list_of(t.grammar()),
    "element a { grammar { } }": t.element(A, t.grammar()),
    # patterns that are grammars
    "( grammar { } )": t.grammar(),
    "grammar { x = y }": t.grammar(t.define("x", "Plain", Y)),
    "( grammar { x = y } )": t.grammar(t.define("x", "Plain", Y)),
    "( ( grammar { x = y } ) )": t.grammar(t.define("x", "Plain", Y)),
    # annotations leave no node, and nothing in them is judged or mentioned
    '[ a:documentation [ "x" ] ] element a { [ b ] empty }': t.element(A, t.EMPTY),
    '[ external "q.rnc" ] element a { empty }': t.element(A, t.EMPTY),
    '[ p:q x "y" = , ~ ] element a { empty }': t.element(A, t.EMPTY),
    "element [ x ] a { xsd:integer { [ x ] minInclusive = '1' } }": t.element(A, t.data(INTEGER, ("minInclusive", "1"))),
    'element a { [ x ] string - "y" }': t.element(A, t.data(t.STRING, excepted=t.token("y"))),
    "element [ x ] * - a { text }": t.element(t.any_except(A), t.TEXT),
    "element [ x ] * - [ y ] ( [ z ] a | [ ] b ) { text }": t.element(t.any_except(t.classes(A, B)), t.TEXT),
    "namespace p = 'u' attribute [ q:r ] p:* - [ ] a { text }": t.attribute(t.every_except("u", t.name("", "a")), t.TEXT),
    "[ ] x": X,
    "[ [ ] [ x [ ] y ] ] x": X,
    "[ x ] ( [ y ] x )": X,
    "[ x ] x , [ y ] y ? , ( [ z ] z )": t.group(X, t.optional(Y), Z),
    "[ x ] string { [ y ] a = '1' [ ] b = '2' list = '3' } - [ z ] 'b'": t.data(
        t.STRING, ("a", "1"), ("b", "2"), ("list", "3"), excepted=t.token("b")
    ),
    "[ namespace p = 'u' ] xsd:date { } - x": t.data(DATE, excepted=X),
    " ".join([*["["] * 1_000, *["]"] * 1_000, "x"]): X,
    # declarations that break no rule
    'namespace xml = "http://www.w3.org/XML/1998/" ~ "namespace" element xml:a { empty }': t.element(t.name(t.XML, "a"), t.EMPTY),
    f'default namespace xml = "{t.XML}" empty': t.EMPTY,
    f'default namespace = "{t.XML}" empty': t.EMPTY,
    f'datatypes xsd = "{t.XSD}" empty': t.EMPTY,
    'datatypes xml = "u" datatypes xmlns = "u" empty': t.EMPTY,
    "namespace xsd = inherit empty": t.EMPTY,
    "default namespace = inherit empty": t.EMPTY,
    'namespace p = "u" namespace q = "u" datatypes p = "u" empty': t.EMPTY,
}

# an empty element `a`, with its namespace
ELEMENTS = {
    'namespace p = "u" element p:a { empty }': "u",
    "namespace p = \"u\" ~ 'v' element p:a { empty }": "uv",
    'namespace p = "" element p:a { empty }': "",
    "namespace p = inherit element p:a { empty }": None,
    "namespace list = 'u' element list:a { empty }": "u",
    "namespace \\p = 'u' namespace q = 'v' element p:a { empty }": "u",
    "datatypes p = 'v' namespace p = 'u' element p:a { empty }": "u",
    "element xml:a { empty }": t.XML,
    f'namespace q = "{t.XML}" element q:a {{ empty }}': t.XML,
}

# a datatype `t`, with its library
DATATYPES = {
    "xsd:t": t.XSD,
    "datatypes d = 'u' ~ 'v' d:t": "uv",
    "namespace d = 'v' datatypes d = 'u' datatypes e = 'w' d:t": "u",
}

# a mention of the file `b`, with the namespace that `b` inherits and the place of the mention
EXTERNALS = {
    'external "b"': (None, 1),
    'default namespace = "u" external "b"': ("u", 5),
    'namespace p = "u" external "b" inherit = p': ("u", 5),
    'default namespace p = "u" external "b" inherit = p': ("u", 6),
    'default namespace = "u" namespace p = inherit external "b" inherit = p': (None, 9),
    "( external 'b' inherit = xml )": (t.XML, 2),
    '[ external "q" ] external "b"': (None, 5),
}

GRAMMARS = {
    "": [],
    "x = empty": [t.define("x", "Plain", t.EMPTY)],
    "start = x x = y": [t.start("Plain", X), t.define("x", "Plain", Y)],
    "div { }": [t.div()],
    "div { start = x } \\start = y": [t.div(t.start("Plain", X)), t.define("start", "Plain", Y)],
    "start = x": [t.start("Plain", X)],
    "start |= x": [t.start("Choice", X)],
    "start &= x": [t.start("Interleave", X)],
    "x = y": [t.define("x", "Plain", Y)],
    "x |= y": [t.define("x", "Choice", Y)],
    "x &= y": [t.define("x", "Interleave", Y)],
    'a = string - "x"': [t.define("a", "Plain", t.data(t.STRING, excepted=t.token("x")))],
    'a = ( string - ( "x" | "y" ) ) | "z"': [
        t.define("a", "Plain", t.choice(t.data(t.STRING, excepted=t.choice(t.token("x"), t.token("y"))), t.token("z")))
    ],
    'include "b"': [t.include(t.mention("b", None, 1))],
    "namespace p = 'u' include 'b' ~ 'c' inherit = p { }": [t.include(t.mention("bc", "u", 5))],
    "[ x ] start = [ y ] text": [t.start("Plain", t.TEXT)],
    "[ x ] a = empty": [t.define("a", "Plain", t.EMPTY)],
    "[ x ] div { [ y ] start = text }": [t.div(t.start("Plain", t.TEXT))],
    '[ x ] include "b" { [ y ] start = text }': [t.include(t.mention("b", None, 4), t.start("Plain", t.TEXT))],
    '[ include "c" ] start = x [ y ] z = x [ ] y &= z': [t.start("Plain", X), t.define("z", "Plain", X), t.define("y", "Interleave", Z)],
    "x = string [ b ] y = z": [t.define("x", "Plain", t.data(t.STRING)), t.define("y", "Plain", Z)],
    "include 'b' { x = external 'c' } y = external 'b'": [
        t.include(t.mention("b", None, 1), t.define("x", "Plain", t.external(t.mention("c", None, 6)))),
        t.define("y", "Plain", t.external(t.mention("b", None, 11))),
    ],
    "include 'b' { div { start |= x } y = z }": [
        t.include(t.mention("b", None, 1), t.div(t.start("Choice", X)), t.define("y", "Plain", Z))
    ],
}

# tokens that are not a sentence, with any declarations, each with the place of the fault
NO_SENTENCES = {
    "element a { foo | bar, baz }": 7,
    "element a { empty": 5,
    "x = empty y": 5,
    "element a { }": 4,
    "element { empty }": 2,
    'a = string - "x" | "y"': 6,
    "element a - b { text }": 3,
    'xsd:integer { minInclusive = "1" "2" }': 6,
    'include "b" { include "c" }': 4,
    'include "b" { div { include "c" } }': 6,
    "x y": 2,
    "grammar { x }": 4,
    "element * - a | b { text }": 5,
    'string "x" - "y"': 3,
    '( string - "x" ) - "y"': 6,
    "empty ? *": 3,
    '"a" ~': 3,
    "parent text": 2,
    'default x = "u"': 2,
    "datatypes d = inherit": 4,
    'empty namespace p = "u"': 2,
    'namespace p = "u" }': 5,
    "}": 1,
    "start empty": 2,
    "start": 2,
    'external "b" inherit p': 4,
    "x , y & z": 4,
    "( x": 3,
    "( x }": 3,
    'namespace p = "u" namespace p = "u" empty empty': 10,
    "element p:a { empty": 5,
    # annotations at a wrong place, with wrong content, or without an end
    "element a { empty [ x ] }": 5,
    "[ x ] [ y ] element a { empty }": 4,
    "element a { [ [ ] empty }": 8,
    "element a { empty ]": 5,
    '[ x ] namespace p = "u" empty': 4,
    "element a { [ { ] empty }": 5,
    "[ ( ) ] x": 2,
    "[ x } ] x": 3,
    "[": 2,
    "[ x ]": 4,
    "]": 1,
    "a [ x ] = empty": 2,
    "x [ y ] | z": 2,
    "x ? [ y ]": 3,
    "x , [ y ] [ z ] x": 6,
    "start = x [ y ]": 7,
    "grammar { [ x ] }": 6,
    "string { [ x ] }": 6,
    "include 'b' { [ x ] include 'c' }": 7,
    "namespace [ x ] p = 'u' x": 2,
    "namespace p = [ x ] 'u' x": 4,
    "datatypes [ x ] p = 'u' x": 2,
    "parent [ x ] y": 2,
    "string [ x ] 'a'": 2,
    "list [ x ] { x }": 2,
    "element a [ x ] { empty }": 3,
    "element [ x ] { empty }": 5,
    "element [ x ] [ y ] a { empty }": 5,
    "xsd:date { a [ x ] = 'b' }": 4,
}

# files whose declarations or prefixes break a rule
BROKEN_DECLARATIONS = [
    'namespace p = "u" namespace p = "u" empty',
    'default namespace = "u" default namespace p = "v" empty',
    'default namespace p = "u" namespace p = "u" empty',
    "default namespace = inherit default namespace = inherit empty",
    'datatypes d = "u" datatypes d = "u" empty',
    "namespace xml = inherit empty",
    'namespace xml = "u" empty',
    "default namespace xml = inherit empty",
    'namespace xmlns = "u" empty',
    "default namespace xmlns = inherit empty",
    'datatypes xsd = "u" empty',
    "element p:a { empty }",
    "element p:* { empty }",
    "p:t",
    'p:t "a"',
    'external "b" inherit = p',
    'datatypes d = "u" element d:a { empty }',
    'namespace p = "u" p:t',
    "a = element q:* - p:b { empty }",
    'div { include "b" inherit = p { start = empty } }',
    'namespace p = "u" element p:a { attribute q:b { text } }',
]


def enclosed(opening, text, closing, count):
    return " ".join([*[opening] * count, *text.split(), *[closing] * count])


def nested(wrap, body, count):
    for _ in range(count):
        body = wrap(body)
    return body


# nested brackets, 128 and 129 deep, and brackets that are never closed or were never opened
NESTED = {
    enclosed("(", "empty", ")", 128): t.pattern_file(t.EMPTY),
    enclosed("list {", "empty", "}", 128): t.pattern_file(nested(t.list_of, t.EMPTY, 128)),
    enclosed("element a {", "empty", "}", 128): t.pattern_file(nested(lambda body: t.element(A, body), t.EMPTY, 128)),
    enclosed("div {", "", "}", 128): t.grammar_file(nested(t.div, t.div(), 127)),
    enclosed("(", "empty", ")", 129): "clause 7",
    enclosed("list {", "empty", "}", 129): "clause 7",
    enclosed("element a {", "empty", "}", 129): "clause 7",
    enclosed("div {", "", "}", 129): "clause 7",
    " ".join(["("] * 129): "clause 7",
    " ".join(["x", "x", *["("] * 129]): "clause 7",
    " ".join(["("] * 128): "clause 6 at token 129",
    enclosed("(", "}", ")", 128): "clause 6 at token 129",
    " ".join([*[")"] * 129, *["("] * 129]): "clause 6 at token 1",
    " ".join(["[", *["{"] * 129]): "clause 7",
    " ".join(["["] * 1_000): "clause 6 at token 1001",
}

MANY = 1_000


def many_prefixes(mentioned):
    """A schema that declares many prefixes and uses `mentioned` of them."""
    declared = " ".join(f"namespace p{it} = 'u{it}'" for it in range(MANY))
    return f"{declared} element {' | '.join(f'p{it}:a' for it in range(mentioned))} {{ empty }}"


def cases():
    """All texts, each with what must be printed for it."""
    yield from ((text, t.pattern_file(pattern)) for text, pattern in PATTERNS.items())
    yield from ((text, t.pattern_file(t.element(t.name(uri, "a"), t.EMPTY))) for text, uri in ELEMENTS.items())
    yield from ((text, t.pattern_file(t.data(t.datatype(library, "t")))) for text, library in DATATYPES.items())
    yield from ((text, t.pattern_file(t.external(t.mention("b", *it)))) for text, it in EXTERNALS.items())
    yield from ((text, t.grammar_file(*components)) for text, components in GRAMMARS.items())
    yield from ((text, f"clause 6 at token {place}") for text, place in NO_SENTENCES.items())
    yield from ((text, "clause 8") for text in BROKEN_DECLARATIONS)
    yield from NESTED.items()
    yield many_prefixes(MANY), t.pattern_file(t.element(t.classes(*(t.name(f"u{it}", "a") for it in range(MANY))), t.EMPTY))
    yield many_prefixes(MANY + 1), "clause 8"
