"""Random schemas as trees. The matcher uses them, and `writing.py` writes them in many ways.

A pattern is a tuple: ("empty",), ("text",), ("notAllowed",), ("choice" or "group" or "interleave", members), ("plus" or "star" or "optional" or "mixed"
or "list", body), ("data", type, params, except or None), ("value", type or None, text), ("element" or "attribute", class, body), ("ref", name).
A name class is ("name", uri, local), ("namespace", uri, except or None), ("any", except or None) or ("alternatives", classes).
"""
import random

EMPTY, TEXT, NOT_ALLOWED = ("empty",), ("text",), ("notAllowed",)
XML = "http://www.w3.org/XML/1998/namespace"
NAMESPACES = ["", "urn:a", "urn:b", "urn:a/x"]
LOCALS = ["a", "b", "c", "d", "e", "text", "\u00e9"]
ATTRIBUTES = ["x", "y", "z", "w", "list"]
TEXTS = ["", "t", " ", "1", "x y", "1 2", "\u00e9", " t ", "a\tb", "true", "-7", "n\no", "007", "\r", "\\n", "0", "t t t", "\u00a0"]
WORDS = ["t", "x", "1", "\u00e9t", "1.0", "true"]
PARAMS = {"xsd:integer": [("minInclusive", "-5 0 1 10"), ("maxInclusive", "0 1 7 +9")]}
LENGTHS = [("minLength", "0 1 2"), ("maxLength", "0 1 3 5")]
LENGTHY = ("xsd:string", "xsd:token", "xsd:NCName", "xsd:NMTOKEN")
TYPES = ["string", "token", "xsd:string", "xsd:token", "xsd:NCName", "xsd:NMTOKEN", "xsd:boolean", "xsd:integer"]


class Schema:
    """A start and definitions. A ref may name each definition. A ring of refs goes through an element."""

    def __init__(self, start, definitions):
        self.start, self.definitions = start, definitions

    def size(self):
        return sum(map(count, [self.start, *self.definitions.values()]))


def children(pattern):
    """The patterns in a pattern."""
    kind = pattern[0]
    if kind in ("choice", "group", "interleave"):
        return list(pattern[1])
    if kind in ("plus", "star", "optional", "mixed", "list"):
        return [pattern[1]]
    if kind in ("element", "attribute"):
        return [pattern[2]]
    return [pattern[3]] if kind == "data" and pattern[3] else []


def with_children(pattern, new):
    """The pattern with its children replaced by `new`, which has the same number."""
    kind = pattern[0]
    if kind in ("choice", "group", "interleave"):
        return (kind, tuple(new))
    if kind in ("plus", "star", "optional", "mixed", "list"):
        return (kind, new[0])
    if kind in ("element", "attribute"):
        return (kind, pattern[1], new[0])
    return (*pattern[:3], new[0]) if kind == "data" and pattern[3] else pattern


def count(pattern):
    return 1 + sum(map(count, children(pattern)))


def refs(pattern):
    """The names of the refs in a pattern."""
    found = {pattern[1]} if pattern[0] == "ref" else set()
    return found.union(*map(refs, children(pattern)))


class Place:
    """A place for a pattern: what the pattern may contain so that the schema obeys section 7."""

    def __init__(self, elements, attributes, depth, rest=True, text=True, repeated=False):
        self.elements, self.attributes, self.depth = elements, attributes, depth
        self.rest, self.text, self.repeated = rest, text, repeated

    def but(self, **changes):
        return Place(**{**vars(self), **changes})


class Maker:
    """Makes one schema from a random source. A wild one ignores section 7."""

    def __init__(self, chance, wild=False):
        self.chance, self.wild = chance, wild
        spaces = chance.sample(NAMESPACES, chance.choice([1, 1, 2, 3]))
        self.elements = [("name", chance.choice(spaces), it) for it in chance.sample(LOCALS, chance.randrange(2, 6))]
        self.attributes = [("name", chance.choice(["", "", "", XML, *spaces]), it) for it in ATTRIBUTES]
        self.spaces = spaces
        self.classes, self.left = {}, chance.choice([2, 4, 8, 16])

    def schema(self):
        for number in range(self.chance.choice([0, 1, 2, 4])):
            self.classes[f"D{number}"] = self.chance.choice(self.elements)
        start = self.root()
        place = Place(self.elements, self.attributes, 2)
        definitions = {name: ("element", it, self.content(place)) for name, it in self.classes.items()}
        return without_unused(Schema(start, definitions))

    def root(self):
        place = Place(self.elements, self.attributes, 3)
        if self.wild and self.chance.random() < 0.1:
            return self.content(place)
        one = self.element(place)
        return ("choice", (one, self.element(place))) if self.chance.random() < 0.15 else one

    # ---- dense schemas: few elements and attributes, in deep content models that match in many ways

    def dense(self):
        names = self.elements[:4]
        definitions = {f"D{at}": ("element", it, self.chance.choice([EMPTY, EMPTY, TEXT, self.value()])) for at, it in enumerate(names)}
        content = self.ways(list(definitions), self.chance.randrange(2, 6))
        if self.chance.random() < 0.3:
            content = ("mixed", content)
        if self.chance.random() < 0.5:
            content = (self.chance.choice(["group", "interleave"]), (self.attribute_ways(self.attributes[:4]), content))
        return without_unused(Schema(("element", self.chance.choice(self.elements), content), definitions))

    def ways(self, names, depth):
        pick = self.chance.random()
        if depth == 0 or pick < 0.1:
            return ("ref", self.chance.choice(names)) if self.chance.random() < 0.95 else EMPTY
        if pick < 0.45:
            return (self.chance.choice(["plus", "star", "optional"]), self.ways(names, depth - 1))
        if pick < 0.6 and len(names) > 1:
            cut = self.chance.randrange(1, len(names))
            mixed = self.chance.sample(names, len(names))
            return ("interleave", (self.ways(mixed[:cut], depth - 1), self.ways(mixed[cut:], depth - 1)))
        return (self.chance.choice(["group", "choice"]), tuple(self.ways(names, depth - 1) for _ in range(self.chance.choice([2, 2, 3, 4]))))

    def attribute_ways(self, names):
        """Attributes with these names in all kinds of patterns. The members of a group or an interleave have different names."""
        pick = self.chance.random()
        if len(names) == 1 or pick < 0.2:
            made = self.attribute(self.chance.choice(names))
            return (self.chance.choice(["star", "optional"]), made) if self.chance.random() < 0.3 else made
        if pick < 0.3:
            return ("star", ("choice", (self.attribute(names[0]), ("attribute", ("any", ("alternatives", tuple(self.attributes))), TEXT))))
        if pick < 0.5:
            return ("choice", (self.attribute_ways(names), self.attribute_ways(names)))
        if pick < 0.6:
            return ("optional", self.attribute_ways(names))
        cut = self.chance.randrange(1, len(names))
        return (self.chance.choice(["group", "interleave"]), (self.attribute_ways(names[:cut]), self.attribute_ways(names[cut:])))

    # ---- elements

    def name_class(self, place):
        """A class within the names of the place."""
        pick = self.chance.random()
        if pick < 0.75:
            return self.chance.choice(place.elements)
        if pick < 0.85 or not place.rest:
            return ("alternatives", tuple(self.chance.sample(place.elements, min(len(place.elements), self.chance.randrange(2, 4)))))
        others = [it for it in self.elements if it not in place.elements]
        if pick < 0.95:
            return ("any", self.except_of(others))
        return self.namespace_class(others)

    def except_of(self, others, in_namespace=False):
        """A class for an except. It contains at least these names."""
        more = [self.chance.choice(self.elements)] if self.chance.random() < 0.5 else []
        if not in_namespace and self.chance.random() < 0.3:
            more.append(("namespace", self.chance.choice(NAMESPACES), None))
        found = tuple(dict.fromkeys(others + more))
        return None if not found else found[0] if len(found) == 1 else ("alternatives", found)

    def namespace_class(self, others):
        space = self.chance.choice(self.spaces)
        left_out = [it for it in others if it[1] == space]
        left_out = tuple(left_out + [("name", space, it) for it in self.chance.sample(LOCALS, self.chance.choice([0, 0, 1, 2]))])
        left_out = tuple(dict.fromkeys(left_out))
        return ("namespace", space, None if not left_out else left_out[0] if len(left_out) == 1 else ("alternatives", left_out))

    def element(self, place):
        known = [name for name, it in self.classes.items() if it in place.elements]
        if known and self.chance.random() < 0.4:
            return ("ref", self.chance.choice(known))
        inner = Place(self.elements, self.attributes, place.depth - 1)
        return ("element", self.name_class(place) if place.elements else ("any", None), self.content(inner))

    # ---- contents

    def content(self, place):
        """The content of an element: attributes and the rest."""
        self.left -= 1
        owned, others = self.parted(place.attributes)
        members = self.own_attributes(owned if self.left > 0 else owned[:1])
        pick = self.chance.random()
        if place.depth <= 0 or self.left <= 0 or pick < 0.3:
            rest = self.leaf()
        elif pick < 0.4:
            rest = ("choice", (self.leaf(), self.particle(place.but(attributes=others))))
        elif pick < 0.5:
            rest = ("mixed", self.particle(place.but(attributes=others, text=False)))
        else:
            rest = self.particle(place.but(attributes=others))
        members.insert(self.chance.randrange(len(members) + 1), rest)
        return members[0] if len(members) == 1 else (self.chance.choice(["group", "group", "interleave"]), tuple(members))

    def parted(self, names):
        """Some of the names, and the others."""
        owned = [it for it in names if self.chance.random() < 0.25]
        return owned, [it for it in names if it not in owned or self.wild]

    def own_attributes(self, names):
        found = [self.attribute(it) for it in names[:3]]
        if self.chance.random() < 0.08:
            left_out = self.attributes[0] if self.wild else ("alternatives", tuple(self.attributes))
            any_name = ("attribute", ("any", left_out), self.attribute_value())
            found.append((self.chance.choice(["star", "plus"]), any_name))
        if len(found) > 1 and self.chance.random() < 0.2:
            found[:2] = [("choice", tuple(found[:2]))]
        return found

    def attribute(self, name):
        made = ("attribute", name, self.attribute_value())
        pick = self.chance.random()
        return ("optional", made) if pick < 0.4 else (self.chance.choice(["star", "plus"]), made) if pick < 0.5 else made

    def attribute_value(self):
        return self.chance.choice([TEXT, TEXT, EMPTY]) if self.chance.random() < 0.4 else self.value()

    def leaf(self):
        pick = self.chance.random()
        return EMPTY if pick < 0.3 else TEXT if pick < 0.6 else NOT_ALLOWED if pick < 0.63 else self.value()

    def particle(self, place):
        """Elements, with text beside them if the place allows it."""
        self.left -= 1
        pick = self.chance.random()
        if self.left <= 0 or pick < 0.3:
            return self.element(place)
        if pick < 0.5:
            inner = place.but(attributes=place.attributes if self.wild else [], repeated=True)
            return (self.chance.choice(["star", "plus", "optional", "star"]), self.particle(inner))
        if pick < 0.6:
            return self.interleave(place)
        if pick < 0.65 and place.text:
            return ("choice", (TEXT, self.particle(place)))
        if pick < 0.7:
            return self.chance.choice([("optional", self.particle(place)), EMPTY, ("group", (self.particle(place), EMPTY))])
        return self.members(place)

    def members(self, place):
        kind = self.chance.choice(["group", "group", "choice"])
        names, found = place.attributes, []
        for _ in range(self.chance.choice([2, 2, 3, 4])):
            if names and not place.repeated and self.chance.random() < 0.15:
                found.append(self.attribute(names[0]))
                names = names if self.wild else names[1:]
            else:
                found.append(self.particle(place.but(attributes=[])))
        return (kind, tuple(found))

    def interleave(self, place):
        """Members with different names. One of them may contain text."""
        names = list(place.elements)
        self.chance.shuffle(names)
        cut = self.chance.randrange(1, len(names)) if len(names) > 1 else 1
        sides = [names[:cut], names[cut:]]
        if self.wild:
            sides = [place.elements] * 2
        found = [self.particle(place.but(elements=side, rest=place.rest and at == 0, text=place.text and at == 1, attributes=[]))
                 for at, side in enumerate(sides) if side]
        return ("interleave", tuple(found)) if len(found) > 1 else found[0]

    # ---- texts

    def value(self):
        pick = self.chance.random()
        if pick < 0.4:
            return self.data()
        if pick < 0.65:
            return self.one_value()
        if pick < 0.85:
            return ("list", self.pieces(2))
        return ("choice", tuple(self.value() for _ in range(2)))

    def one_value(self):
        datatype = self.chance.choice([None, None, *TYPES])
        texts = {"xsd:integer": ["1", "-7", "007", " 1 "], "xsd:boolean": ["true", "0", " 1"], "xsd:NCName": ["t", " x"],
                 "xsd:NMTOKEN": ["t", "1.0 ", "1"]}.get(datatype, TEXTS)
        return ("value", datatype, self.chance.choice(texts))

    def data(self):
        datatype = self.chance.choice(TYPES)
        known = PARAMS.get(datatype, LENGTHS if datatype in LENGTHY else [])
        params = tuple((name, self.chance.choice(texts.split())) for name, texts in known if self.chance.random() < 0.3)
        left_out = None
        if self.chance.random() < 0.3:
            left_out = self.one_value() if self.chance.random() < 0.6 else ("choice", (self.one_value(), self.data()))
        return ("data", datatype, params, left_out)

    def pieces(self, depth):
        pick = self.chance.random()
        if depth == 0 or pick < 0.4:
            return self.chance.choice([self.one_value(), self.data(), self.data(), EMPTY])
        if pick < 0.7:
            return (self.chance.choice(["star", "plus", "optional"]), self.pieces(depth - 1))
        return (self.chance.choice(["group", "choice"]), tuple(self.pieces(depth - 1) for _ in range(self.chance.choice([2, 3]))))


def without_unused(schema):
    """The schema without the unused definitions."""
    found, waiting = set(), list(refs(schema.start))
    while waiting:
        name = waiting.pop()
        if name not in found:
            found.add(name)
            waiting += refs(schema.definitions[name])
    return Schema(schema.start, {name: it for name, it in schema.definitions.items() if name in found})


def made(seed):
    """The schema for a seed: a dense one, a wild one, or neither."""
    chance = random.Random(seed)
    pick = chance.random()
    maker = Maker(chance, wild=pick < 0.12)
    return maker.dense() if pick > 0.7 else maker.schema()
