"""The schemas by which random XML documents are judged, each in compact syntax and in XML syntax. A name ends in `.rnc`, its other form in `.rng`."""

# Every well-formed document is valid.
ANY = """start = any
any = element * { attribute * { text }*, (text | any)* }
"""
# A difference in what an attribute or a text is, or whether an attribute is there, changes many answers.
STRICT = """namespace p = "u"
start = element a { content } | element b { content }
content = attributes, (text | part)*
part = element a { content } | element b { attributes, text } | element c { attributes, ("" | "x" | "v" | "v w" | "1") } | element p:d { attributes, part* }
  | element e { empty }
attributes = attribute x { "" | "v" | "d" | "v w" | "1" | "x" }?, attribute y { text }?, attribute z { string "v" | string "v w" | string "" }?,
  attribute p:x { text }?, attribute id { xsd:token { minLength = "1" } }?, attribute xml:lang { text }?, attribute xml:space { "v" }?
"""
# The namespace of a name matters, and so does a default.
SPACES = """namespace u = "u"
namespace v = "v"
start = none | first
none = element * - (u:* | v:*) { others, attribute x { text }?, (text | none | first)* }
first = element u:* { others, attribute u:x { text }?, attribute x { text }?, (text | first | second)* }
second = element v:* { others, attribute x { text }, (text | first)* }
others = attribute * - (u:* | v:* | x) { text }*
"""
# A namespace has U+007F, and so have values that name others.
DELETES = SPACES.replace('namespace v = "v"', 'namespace v = "u\\x{7F}"').replace("attribute x { text }?", 'attribute x { text | "\\x{7F}" }?', 1)
COMPACT = {"any.rnc": ANY, "strict.rnc": STRICT, "spaces.rnc": SPACES, "deletes.rnc": DELETES}

RELAX = '<grammar xmlns="http://relaxng.org/ns/structure/1.0"><start><ref name="any"/></start>'
XML = {"any.rng": RELAX + '<define name="any"><element><anyName/><zeroOrMore><attribute><anyName/></attribute></zeroOrMore>'
                          '<zeroOrMore><choice><text/><ref name="any"/></choice></zeroOrMore></element></define></grammar>\n'}
