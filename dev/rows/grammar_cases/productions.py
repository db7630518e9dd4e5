"""The productions of the compact syntax, and a program that tries them wherever they may begin."""

# A quoted word is a keyword or a sign. Words in capitals are kinds of tokens. OTHER is any token that is not a bracket.
GRAMMAR = """
file = declarations pattern | declarations contents
declarations = | declaration declarations
declaration = 'namespace' WORD '=' uri | 'default' 'namespace' '=' uri | 'default' 'namespace' WORD '=' uri | 'datatypes' WORD '=' literal
uri = literal | 'inherit'
pattern = particle | particle groups | particle interleaves | particle choices | dataexcept | annotation dataexcept
dataexcept = typename '-' primary | typename parameters '-' primary
groups = ',' particle | ',' particle groups
interleaves = '&' particle | '&' particle interleaves
choices = '|' particle | '|' particle choices
particle = primary | primary '?' | primary '*' | primary '+'
primary = bareprimary | annotation bareprimary
bareprimary = 'element' class '{' pattern '}' | 'attribute' class '{' pattern '}' | 'list' '{' pattern '}' | 'mixed' '{' pattern '}'
bareprimary = IDENTIFIER | 'parent' IDENTIFIER | 'empty' | 'text' | 'notAllowed' | literal | typename literal | typename | typename parameters
bareprimary = 'external' literal | 'external' literal inherit | 'grammar' '{' contents '}' | '(' pattern ')'
typename = CNAME | 'string' | 'token'
parameters = '{' parameterlist '}'
parameterlist = | parameter parameterlist | annotation parameter parameterlist
parameter = WORD '=' literal
inherit = 'inherit' '=' WORD
contents = | content contents
content = barecontent | annotation barecontent
barecontent = start | define | 'div' '{' contents '}' | 'include' literal | 'include' literal inherit
barecontent = 'include' literal '{' overrides '}' | 'include' literal inherit '{' overrides '}'
overrides = | override overrides
override = bareoverride | annotation bareoverride
bareoverride = start | define | 'div' '{' overrides '}'
start = 'start' method pattern
define = IDENTIFIER method pattern
method = '=' | '|=' | '&='
class = basic | basic classes | classexcept | annotation classexcept
classexcept = NSNAME '-' basic | '*' '-' basic
classes = '|' basic | '|' basic classes
basic = barebasic | annotation barebasic
barebasic = WORD | CNAME | NSNAME | '*' | '(' class ')'
literal = SEGMENT | SEGMENT '~' literal
annotation = '[' inannotation ']'
inannotation = | annotation inannotation | OTHER inannotation
"""

KEYWORDS = set(
    "attribute default datatypes div element empty external grammar include inherit list mixed namespace notAllowed parent start string text token".split()
)
SIGNS = set("= |= &= , | & ? * + - { } ( ) [ ] ~".split())
BRACKETS = set("[ ] { } ( )".split())


def read_productions():
    rules = {}
    for line in GRAMMAR.strip().split("\n"):
        left, _, right = line.partition(" = ")
        rules.setdefault(left.strip(), []).extend(
            [it for it in alternative.split()] for alternative in split_alternatives(right if right else "")
        )
    return rules


def split_alternatives(text):
    """The parts between bars that are outside quotes."""
    parts, current = [], []
    for word in text.split():
        if word == "|":
            parts.append(" ".join(current))
            current = []
        else:
            current.append(word)
    return [*parts, " ".join(current)]


RULES = read_productions()


def kind(word):
    """The kind of a written token."""
    if word in SIGNS:
        return "SIGN"
    if word in KEYWORDS:
        return "KEYWORD"
    if word[0] in "\"'":
        return "SEGMENT"
    if word[0] == "\\":
        return "IDENTIFIER"
    return "NSNAME" if word.endswith(":*") else "CNAME" if ":" in word else "IDENTIFIER"


def allows(symbol, word):
    if symbol[0] == "'":
        return word == symbol[1:-1]
    if symbol == "OTHER":
        return word not in BRACKETS
    return kind(word) == symbol or symbol == "WORD" and kind(word) in ("IDENTIFIER", "KEYWORD")


class Follower:
    """Where each rule that begins at a place of the tokens may end. No rule begins with itself, so the search ends."""

    def __init__(self, words):
        self.words, self.known, self.furthest = words, {}, 0

    def ends(self, rule, place):
        if (rule, place) not in self.known:
            self.known[rule, place] = {end for production in RULES[rule] for end in self.through(production, place)}
        return self.known[rule, place]

    def through(self, production, place):
        places = {place}
        for symbol in production:
            places = {end for it in places for end in self.symbol(symbol, it)}
        return places

    def symbol(self, symbol, place):
        if symbol in RULES:
            return self.ends(symbol, place)
        if place < len(self.words) and allows(symbol, self.words[place]):
            self.furthest = max(self.furthest, place + 1)
            return {place + 1}
        return set()


def judged(words):
    """`sentence`, or the place of the first token such that no sentence begins with the tokens up to and including it."""
    follower = Follower(words)
    if len(words) in follower.ends("file", 0):
        return "sentence"
    return f"clause 6 at token {follower.furthest + 1}"
