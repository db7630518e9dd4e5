"""Writes a schema of `schemas.py` as files of the compact syntax. One tree has many written forms, and all of them mean the same.

`Clothes` chooses the form. A pattern may be a definition, in an included or external file, in a nested grammar, overridden, or joined by `|=`. There may
be prefixes, comments, annotations, escapes and parentheses. The same seed and features give the same files.
"""
import random

from schemas import XML

XSD = "http://www.w3.org/2001/XMLSchema-datatypes"
# The features do not change the simple form. Only `order` does.
FEATURES = ("definitions", "external", "nested", "include", "override", "combine", "div", "unused", "prefixes", "comments", "annotations", "escapes",
            "parentheses", "segments", "names", "undefined")
ORDER = "order"
# With this feature an overridden component refers to an undefined name. jing refuses this.
UNDEFINED = "undefined"
# This character marks a place for blanks, comments and line ends.
GAP = "\x01"
KEYWORDS = set("attribute default datatypes div element empty external grammar include inherit list mixed namespace notAllowed parent start string text "
               "token".split())
GAPS = [" ", " ", " ", "\n", "\t", "\r\n", " # a } comment { \"\n", "\r"]
NOTES = ['[ z:a = "1" ]', "[ z:b [ ] ]", '[ z:b [ "some text" z:c [ z:d = "]" ] ] ]', "[ z:a = '1' z:d = \"\"\"x\ny\"\"\" ]", "[ ]"]
PREFIXES = ["p", "q", "text", "n.1", "element", "\u00e9"]
DEFINED = ["x", "y", "start", "text", "element", "a", "include", "z.1", "\u00e9", "grammar"]


def words(*parts):
    return GAP.join(it for it in parts if it)


class Clothes:
    """Makes random choices. Each choice depends on the seed and its subject only, so a change in one part of a schema does not change the others."""

    def __init__(self, seed, features):
        self.seed, self.features = seed, frozenset(features)

    def chance(self, *about):
        return random.Random(f"{self.seed}/{about!r}")

    def is_so(self, feature, often, *about):
        return feature in self.features and self.chance(feature, *about).random() < often

    def shuffled(self, members, *about):
        members = list(members)
        if ORDER in self.features:
            self.chance(ORDER, *about).shuffle(members)
        return members


class File:
    """A file that is being written: its namespaces and its text."""

    def __init__(self, clothes, name, inherited):
        self.clothes, self.name, self.inherited = clothes, name, inherited
        chance = clothes.chance("default", name)
        self.default, self.declared, self.lines = inherited, {"xml": XML}, []
        if clothes.is_so("prefixes", 0.5, name):
            self.default = chance.choice(["", "urn:a", "urn:b", inherited])
            uri = "inherit" if self.default == inherited and chance.random() < 0.5 else self.literal(self.default)
            prefix = chance.choice(["", "", "d"])
            self.declared.update({prefix: self.default} if prefix else {})
            self.lines.append(words("default", "namespace", prefix, "=", uri))
        self.types = "xsd"
        if clothes.is_so("names", 0.3, "types", name):
            self.types = "t"
            self.lines.append(words("datatypes", "t", "=", self.literal(XSD)))

    def prefix(self, uri):
        """A prefix for the uri. Declares one if there is none."""
        found = [it for it, other in self.declared.items() if other == uri]
        if found:
            return found[0]
        known = PREFIXES if "names" in self.clothes.features else [f"n{i}" for i in range(9)]
        prefix = next(it for it in [*known, *(f"m{i}" for i in range(99))] if it not in self.declared)
        self.declared[prefix] = uri
        is_inherited = uri == self.inherited and self.clothes.is_so("prefixes", 0.5, "inherit", self.name)
        self.lines.append(words("namespace", prefix, "=", "inherit" if is_inherited else self.literal(uri)))
        return prefix

    def note_prefix(self):
        if "z" not in self.declared:
            self.declared["z"] = "urn:z"
            self.lines.append(words("namespace", "z", "=", '"urn:z"'))

    def annotated(self, text, *about):
        if not self.clothes.is_so("annotations", 0.2, text, *about):
            return text
        self.note_prefix()
        return words(self.clothes.chance("note", text).choice(NOTES), text)

    def literal(self, text):
        chance = self.clothes.chance("literal", text, self.name)
        escaped = "escapes" in self.clothes.features
        segments = [text]
        if len(text) > 1 and self.clothes.is_so("segments", 0.3, text):
            cut = chance.randrange(1, len(text))
            segments = [text[:cut], text[cut:]]
        return words(*(GAP.join(["~"] * (at > 0) + [segment(it, chance, escaped)]) for at, it in enumerate(segments)))

    def qualified(self, name, is_attribute=False):
        """The written form of an expanded name."""
        uri, local = name
        plain = uri == "" if is_attribute else uri == self.default
        chance = self.clothes.chance("name", name, self.name)
        if plain and not self.clothes.is_so("prefixes", 0.3, "prefix", name):
            return spelled(local, chance, self.clothes)
        return f"{self.prefix(uri)}:{spelled(local, chance, self.clothes)}"

    def written(self):
        chance = self.clothes.chance("gaps", self.name)
        text = words(*self.lines, GAP)
        gaps = GAPS if "comments" in self.clothes.features else [" "]
        return "".join(chance.choice(gaps) if it == GAP else it for it in text).strip(" ") + "\n"


def segment(text, chance, escaped):
    """A text between quotes. Characters that cannot be written directly are escaped."""
    quote = "'" if '"' in text else '"'
    written = ""
    for it in text:
        hidden = it in "\r\n" or it == quote or escaped and chance.random() < 0.2
        written += f"\\x{{{ord(it):{chance.choice('xX')}}}}" if hidden else it
    if escaped and chance.random() < 0.2 and not written.endswith('"') and '"""' not in written:
        return f'"""{written}"""'
    return quote + written + quote


def spelled(name, chance, clothes):
    """A name, perhaps with an escape in it."""
    if clothes.is_so("escapes", 0.1, name):
        at = chance.randrange(len(name))
        return f"{name[:at]}\\x{{{ord(name[at]):x}}}{name[at + 1:]}"
    return name


class Part:
    """A part of a grammar in one file: the grammar's braces, or an included file."""

    def __init__(self, file, around=None):
        self.file, self.around = file, around
        self.components, self.included, self.overriding, self.mention = [], [], [], ""


class Grammar:
    """A grammar that is being written: its definitions, and the parts that have them."""

    def __init__(self, writer, file, parent=None):
        self.writer, self.clothes, self.parent = writer, writer.clothes, parent
        self.top = Part(file)
        self.parts, self.names, self.used = [self.top], {}, set()
        self.number = len(writer.grammars)
        writer.grammars.append(self)

    def fresh(self, *about):
        if "names" in self.clothes.features:
            for _ in range(4):
                name = self.clothes.chance("fresh", len(self.used), *about).choice(DEFINED)
                if name not in self.used:
                    break
            else:
                name = f"{name}{len(self.used)}"
        else:
            name = f"x{len(self.used)}"
        while name in self.used:
            name += "_"
        self.used.add(name)
        return name

    def part_for(self, *about):
        """The part for a definition. It may be a new file."""
        chance = self.clothes.chance("part", *about)
        if self.clothes.is_so("include", 0.4, *about) and len(self.parts) < 4 and self.writer.has_room():
            around = chance.choice(self.parts)
            mention, file = self.writer.mention(around.file, "include", *about)
            part = Part(file, around)
            part.mention = mention
            around.included.append(part)
            self.parts.append(part)
            return part
        return chance.choice(self.parts) if "include" in self.clothes.features else self.top

    def define(self, name, pattern, *about):
        """Puts a definition of this written name into a part. (`start` is not quoted.)"""
        part = self.part_for(name, *about)
        target, file = part.components, part.file
        if part.around and self.clothes.is_so("override", 0.5, name, *about):
            junk = ["none.such", "element j { j }"] if UNDEFINED in self.clothes.features else ["empty", "notAllowed", "text", "element j { empty }"]
            target.append([words(name, "=", self.clothes.chance("junk", name).choice(junk).replace(" ", GAP))])
            target, file = part.overriding, part.around.file
        kind = pattern[0]
        if kind in ("choice", "interleave") and self.clothes.is_so("combine", 0.7, name, *about):
            sign = "|=" if kind == "choice" else "&="
            members = self.clothes.shuffled(pattern[1], "combine", name)
            plain = self.clothes.chance("sign", name).randrange(len(members) + 1)
            found = [words(name, "=" if at == plain else sign, self.writer.pattern(it, self, file)) for at, it in enumerate(members)]
        else:
            found = [words(name, "=", self.writer.pattern(pattern, self, file, is_whole=True))]
        target.append([self.in_div(file.annotated(it)) for it in found])

    def in_div(self, component):
        return words("div", "{", component, "}") if self.clothes.is_so("div", 0.15, component) else component

    def ref(self, name):
        """The text that refers to a definition of the schema in this grammar."""
        if self.parent is None:
            if name not in self.names:
                self.names[name] = quoted(self.fresh(name))
                self.define(self.names[name], self.writer.schema.definitions[name], name)
            return self.names[name]
        outer = self.parent.ref(name)
        if not outer.startswith("parent"):
            return words("parent", outer)
        if name not in self.parent.names:
            self.parent.names[name] = quoted(self.parent.fresh(name))
            self.parent.top.components.append([words(self.parent.names[name], "=", outer)])
        return words("parent", self.parent.names[name])

    def hoisted(self, pattern):
        name = quoted(self.fresh(pattern))
        self.define(name, pattern, pattern)
        return name

    def written(self):
        """Writes the components of the included files into these files, and returns the other components."""
        for part in reversed(self.parts[1:]):
            part.file.lines.append(self.of_part(part))
        return self.of_part(self.top)

    def of_part(self, part):
        found = list(part.components)
        for it in part.included:
            over = self.clothes.shuffled(it.overriding, "over")
            braces = words("{", *(line for lines in over for line in lines), "}") if over else ""
            found.append([words(it.mention, braces)])
        if self.clothes.is_so("unused", 0.3, self.number, part.file.name):
            found.append([words(quoted(self.fresh("unused")), "=", "element", "u", "{", "text", "}")])
        return words(*(line for lines in self.clothes.shuffled(found, part.file.name) for line in lines))


def quoted(name):
    return "\\" + name if name in KEYWORDS else name


class Writer:
    """Writes one schema."""

    def __init__(self, schema, clothes):
        self.schema, self.clothes = schema, clothes
        self.files, self.grammars, self.kept = [], [], {}

    def has_room(self):
        return len(self.files) < 12

    def file(self, inherited):
        name = "s.rnc" if not self.files else f"f{len(self.files)}.rnc"
        if self.files and self.clothes.is_so("names", 0.3, name):
            name = f"f-{len(self.files)}.rnc"
        self.files.append(File(self.clothes, name, inherited))
        return self.files[-1]

    def mention(self, file, word, *about):
        """A mention of a new file."""
        inherit, uri = "", file.default
        if self.clothes.is_so("prefixes", 0.5, "mention", *about):
            uri = self.clothes.chance("uri", *about).choice(["", "urn:a", "urn:b"])
            inherit = words("inherit", "=", file.prefix(uri))
        new = self.file(uri)
        return words(word, file.literal(new.name), inherit), new

    def write(self):
        """The files, each a name and its text, the main one first."""
        main = self.file("")
        if not self.schema.definitions and not self.clothes.features & {"definitions", "include", "unused"}:
            main.lines.append(self.pattern(self.schema.start, Grammar(self, main), main, is_whole=True))
        else:
            main.lines.append(self.grammar(self.schema.start, main, None))
        return [(it.name, it.written()) for it in self.files]

    def grammar(self, pattern, file, parent):
        grammar = Grammar(self, file, parent)
        grammar.define("start", pattern, "start", grammar.number)
        return grammar.written()

    # ---- patterns

    def pattern(self, pattern, grammar, file, is_whole=False):
        """The text of a pattern. If it is not whole, it is a primary pattern, or one with a sign after it."""
        about = (pattern, grammar.number)
        if not is_whole:
            if self.clothes.is_so("definitions", 0.15, *about):
                return grammar.hoisted(pattern)
            if self.clothes.is_so("nested", 0.1, *about) and len(self.grammars) < 8:
                return words("grammar", "{", self.grammar(pattern, file, grammar), "}")
            if self.clothes.is_so("external", 0.1, *about) and self.has_room():
                return self.external(pattern, grammar, file)
        text, is_particle = self.bare(pattern, grammar, file)
        if not is_whole and not is_particle or self.clothes.is_so("parentheses", 0.1, *about):
            return words("(", text, ")")
        return text

    def external(self, pattern, grammar, file):
        """Puts the pattern into a new file, alone or in a grammar, and returns the mention."""
        mention, new = self.mention(file, "external", pattern, grammar.number)
        if self.clothes.is_so("nested", 0.5, "external", pattern):
            text = self.grammar(pattern, new, grammar)
            whole = self.clothes.is_so("nested", 0.5, "whole", pattern)
            new.lines.append(words("grammar", "{", text, "}") if whole else text)
        else:
            new.lines.append(self.pattern(pattern, grammar, new, is_whole=True))
        return mention

    def primary(self, pattern, grammar, file):
        """The text of a pattern before a sign. A pattern that ends with a sign gets parentheses."""
        text = self.pattern(pattern, grammar, file)
        return words("(", text, ")") if text[-1] in "?*+" else text

    def bare(self, pattern, grammar, file):
        """The text of a pattern, and whether it is a particle."""
        kind = pattern[0]
        if kind in ("choice", "group", "interleave"):
            return self.members(pattern, grammar, file)
        if kind in ("plus", "star", "optional"):
            return self.primary(pattern[1], grammar, file) + {"plus": "+", "star": "*", "optional": "?"}[kind], True
        if kind in ("list", "mixed"):
            return words(kind, "{", self.pattern(pattern[1], grammar, file, is_whole=True), "}"), True
        if kind in ("element", "attribute"):
            names = self.name_class(pattern[1], file, kind == "attribute")
            text = words(kind, names, "{", self.pattern(pattern[2], grammar, file, is_whole=True), "}")
            return file.annotated(text, grammar.number), True
        if kind == "ref":
            return grammar.ref(pattern[1]), True
        if kind == "data":
            return self.data(pattern, grammar, file)
        if kind == "value":
            return words(self.type_name(pattern[1], file) if pattern[1] else "", file.literal(pattern[2])), True
        return kind, True

    def members(self, pattern, grammar, file):
        kind, members = pattern
        if kind != "group":
            members = self.clothes.shuffled(members, pattern)
        sign = {"choice": "|", "group": ",", "interleave": "&"}[kind]
        if len(members) == 1:
            return self.bare(members[0], grammar, file)
        texts = [self.pattern(it, grammar, file) for it in members]
        return words(texts[0], *(words(sign, it) for it in texts[1:])), False

    def type_name(self, name, file):
        return name.replace("xsd:", file.types + ":")

    def data(self, pattern, grammar, file):
        _, name, params, left_out = pattern
        text = self.type_name(name, file)
        if params:
            text = words(text, "{", *(file.annotated(words(it, "=", file.literal(limit))) for it, limit in params), "}")
        if left_out is None:
            return text, True
        return words(text, "-", self.as_primary(left_out, grammar, file)), False

    def as_primary(self, pattern, grammar, file):
        text, is_particle = self.bare(pattern, grammar, file)
        return text if is_particle else words("(", text, ")")

    # ---- name classes

    def name_class(self, name_class, file, is_attribute):
        kind = name_class[0]
        if kind == "alternatives":
            members = self.clothes.shuffled(name_class[1], name_class)
            return words(*(words("|" if at else "", self.basic(it, file, is_attribute)) for at, it in enumerate(members)))
        if kind == "name":
            return file.qualified(name_class[1:], is_attribute)
        front = "*" if kind == "any" else file.prefix(name_class[1]) + ":*"
        left_out = name_class[-1]
        return words(front, "-", self.basic(left_out, file, is_attribute)) if left_out else front

    def basic(self, name_class, file, is_attribute):
        text = self.name_class(name_class, file, is_attribute)
        is_basic = name_class[0] == "name" or name_class[0] != "alternatives" and not name_class[-1]
        is_basic = is_basic or name_class[0] == "alternatives" and len(name_class[1]) == 1 and is_simple(name_class[1][0])
        return text if is_basic else words("(", text, ")")


def is_simple(name_class):
    return name_class[0] == "name" or name_class[0] in ("any", "namespace") and not name_class[-1]


def written(schema, seed=0, features=()):
    """The files of a schema, written with this seed and these features."""
    return Writer(schema, Clothes(seed, features)).write()
