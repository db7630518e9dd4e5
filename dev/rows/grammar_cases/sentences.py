"""Random sentences of the compact syntax, each made together with its tree. Annotations may be wherever one is allowed, and do not change the tree."""
import random

import trees as t


class Prefix:
    """A prefix: the word that declares it, a name that has it, and its namespace."""

    def __init__(self, word, spelling, local, uri):
        self.word, self.spelling, self.local, self.uri = word, spelling, local, uri


XML = Prefix("xml", "xml", "lang", t.XML)
XSD = Prefix("xsd", "xsd", "integer", t.XSD)


# what an annotation may contain besides other annotations: names of other namespaces, and words and signs that have a meaning elsewhere
CONTENT = "x \\y a:documentation xsd:* 'a' \"\"\"b\"\"\" = |= &= , | & ? * + - ~ external include inherit namespace start text".split()


class Sentence:
    """The words of a sentence so far, and its declarations. One in `annotated` places has an annotation; 0 means no annotations."""

    def __init__(self, seed, annotated=0):
        self.random, self.words = random.Random(seed), []
        self.annotated, self.annotations = annotated, random.Random(seed)
        self.default, self.prefixes, self.libraries = None, [XML], [XSD]

    def one_in(self, bound):
        return self.random.randrange(bound) == 0

    def put(self, *words):
        self.words += words

    def either(self, *words):
        """Puts one of these words, and returns its meaning."""
        word, says = self.random.choice(words)
        self.put(word)
        return says

    def annotation(self):
        """Puts an annotation, or nothing."""
        if self.annotated and self.annotations.randrange(self.annotated) == 0:
            self.brackets(2)

    def brackets(self, depth):
        self.put("[")
        for _ in range(self.annotations.randrange(4)):
            if depth and self.annotations.randrange(3) == 0:
                self.brackets(depth - 1)
            else:
                self.put(self.annotations.choice(CONTENT))
        self.put("]")

    def identifier(self):
        return self.either(("x", "x"), ("y", "y"), ("\\y", "y"), ("\\start", "start"))

    def word(self):
        if self.one_in(2):
            return self.either(("element", "element"), ("inherit", "inherit"), ("start", "start"))
        return self.identifier()

    def segment(self):
        return self.either(('"a"', "a"), ("'b'", "b"), ("''", ""), ("'''c\"d'''", 'c"d'))

    def literal(self):
        text = self.segment()
        while self.one_in(5):
            self.put("~")
            text += self.segment()
        return text

    # declarations

    def given_uri(self):
        if self.one_in(4):
            self.put("'u'", "~", '"""v"""')
            return "uv"
        return self.either(("''", ""), ("'u'", "u"), (f"'{t.XML}'", t.XML))

    def uri(self):
        if self.one_in(3):
            self.put("inherit")
            return None
        return self.given_uri()

    def namespace_declaration(self, word, spelling, local):
        self.put("namespace", word, "=")
        self.prefixes.append(Prefix(word, spelling, local, self.uri()))

    def default_declaration(self):
        self.put("default", "namespace")
        if self.one_in(2):
            self.put("=")
            self.default = self.uri()
        else:
            self.put("namespace", "=")
            self.default = self.uri()
            self.prefixes.append(Prefix("namespace", "namespace", "d", self.default))

    def declarations(self):
        if self.one_in(3):
            self.put("datatypes", "p", "=")
            self.libraries.append(Prefix("p", "p", "type", self.given_uri()))
        if self.one_in(8):
            self.put("namespace", "xml", "=", f'"{t.XML}"')
        for word, spelling, local in (("p", "p", "a"), ("\\q", "q", "b"), ("list", "list", "c")):
            if self.one_in(4):
                self.namespace_declaration(word, spelling, local)
        if self.one_in(3):
            self.default_declaration()
        if self.one_in(8):
            self.put("datatypes", "xsd", "=", f'"""{t.XSD}"""')

    def prefix(self):
        return self.random.choice(self.prefixes)

    # names, datatypes, mentions

    def wide(self):
        """Puts `*` or `p:*`, and returns whether it has a prefix, and its namespace."""
        if self.one_in(2):
            self.put("*")
            return False, None
        prefix = self.prefix()
        self.put(f"{prefix.spelling}:*")
        return True, prefix.uri

    def basic(self, depth, default):
        self.annotation()
        if depth == 0 or self.one_in(2):
            if self.one_in(3):
                prefix = self.prefix()
                self.put(f"{prefix.spelling}:{prefix.local}")
                return t.name(prefix.uri, prefix.local)
            return t.name(default, self.word())
        if self.one_in(2):
            has_prefix, uri = self.wide()
            return t.every(uri) if has_prefix else t.ANY
        self.put("(")
        inner = self.name_class(depth - 1, default)
        self.put(")")
        return inner

    def name_class(self, depth, default):
        match self.random.randrange(6):
            case 0:
                members = [self.basic(depth, default)]
                for _ in range(self.random.randrange(1, 3)):
                    self.put("|")
                    members.append(self.basic(depth, default))
                return t.classes(*members)
            case 1:
                self.annotation()
                has_prefix, uri = self.wide()
                self.put("-")
                inner = self.basic(depth, default)
                return t.every_except(uri, inner) if has_prefix else t.any_except(inner)
            case _:
                return self.basic(depth, default)

    def type_name(self):
        match self.random.randrange(3):
            case 0:
                self.put("string")
                return t.STRING
            case 1:
                self.put("token")
                return t.TOKEN
            case _:
                library = self.random.choice(self.libraries)
                self.put(f"{library.spelling}:{library.local}")
                return t.datatype(library.uri, library.local)

    def parameters(self):
        if self.one_in(2):
            return []
        self.put("{")
        pairs = []
        for _ in range(self.random.randrange(3)):
            self.annotation()
            says = self.word()
            self.put("=")
            pairs.append((says, self.literal()))
        self.put("}")
        return pairs

    def mention(self, keyword):
        self.put(keyword)
        place, href, uri = len(self.words), self.literal(), self.default
        if self.one_in(2):
            prefix = self.prefix()
            self.put("inherit", "=", prefix.word)
            uri = prefix.uri
        return t.mention(href, uri, place)

    # patterns

    def atom(self):
        match self.random.randrange(8):
            case 0:
                return t.external(self.mention("external"))
            case 1:
                return t.token(self.literal())
            case 2:
                return t.value(self.type_name(), self.literal())
            case 3:
                return t.data(self.type_name(), *self.parameters())
            case 4:
                self.put("parent")
                return t.parent(self.identifier())
            case 5:
                return t.ref(self.identifier())
            case _:
                return self.either(("empty", t.EMPTY), ("text", t.TEXT), ("notAllowed", t.NOT_ALLOWED))

    def annotated_atom(self):
        self.annotation()
        return self.atom()

    def enclosed(self, depth, opening, closing):
        self.put(opening)
        body = self.pattern(depth - 1) if depth else self.annotated_atom()
        self.put(closing)
        return body

    def contents(self, depth, is_override):
        self.put("{")
        inner = self.components(depth - 1, is_override) if depth else []
        self.put("}")
        return inner

    def primary(self, depth):
        self.annotation()
        if self.one_in(2):
            return self.atom()
        if self.one_in(8):
            return self.enclosed(depth, "(", ")")
        keyword = self.random.choice(["list", "mixed", "grammar", "attribute", "attribute", "element", "element"])
        self.put(keyword)
        match keyword:
            case "grammar":
                return t.grammar(*self.contents(depth, False))
            case "attribute":
                inner = self.name_class(2, "")
                return t.attribute(inner, self.enclosed(depth, "{", "}"))
            case "element":
                inner = self.name_class(2, self.default)
                return t.element(inner, self.enclosed(depth, "{", "}"))
            case _:
                return (t.list_of if keyword == "list" else t.mixed)(self.enclosed(depth, "{", "}"))

    def particle(self, depth):
        primary, sign = self.primary(depth), self.random.choice("?*+    ")
        if sign == " ":
            return primary
        self.put(sign)
        return {"?": t.optional, "*": t.zero_or_more, "+": t.one_or_more}[sign](primary)

    def pattern(self, depth):
        match self.random.randrange(10):
            case 0 | 1 | 2:
                connector, joined = self.random.choice([(",", t.group), ("&", t.interleave), ("|", t.choice)])
                members = [self.particle(depth)]
                for _ in range(self.random.randrange(1, 3)):
                    self.put(connector)
                    members.append(self.particle(depth))
                return joined(*members)
            case 3:
                self.annotation()
                type_name, parameters = self.type_name(), self.parameters()
                self.put("-")
                return t.data(type_name, *parameters, excepted=self.primary(depth))
            case _:
                return self.particle(depth)

    # components

    def component(self, depth, is_override):
        self.annotation()
        match self.random.randrange(6):
            case 0:
                self.put("div")
                return t.div(*self.contents(depth, is_override))
            case 1 | 2 if not is_override:
                mentioned = self.mention("include")
                return t.include(mentioned, *([] if self.one_in(3) else self.contents(depth, True)))
            case 3:
                self.put("start")
                return t.start(self.method(), self.pattern(depth))
            case _:
                return t.define(self.identifier(), self.method(), self.pattern(depth))

    def method(self):
        return self.either(("=", "Plain"), ("|=", "Choice"), ("&=", "Interleave"))

    def components(self, depth, is_override):
        return [self.component(depth, is_override) for _ in range(self.random.randrange(4))]

    def file(self, depth):
        self.declarations()
        if self.one_in(2):
            return t.pattern_file(self.pattern(depth))
        return t.grammar_file(*self.components(depth, False))
