"""Random schemas and documents for `reasons_run.py`. The documents are invalid for all kinds of reasons."""
import documents
import matching
import reasons
import schemas
from run import raw_changed
from schemas import NOT_ALLOWED, TEXT, Schema, children, with_children

VARIED = 0.4


def schema(name, chance):
    """The schema of a case. Some have patterns besides that `schemas.py` hardly makes."""
    made = schemas.made(name)
    if chance.random() >= VARIED:
        return made
    return schemas.without_unused(Schema(varied(made.start, chance), {it: varied(body, chance) for it, body in made.definitions.items()}))


def varied(pattern, chance):
    """The pattern with texts in some groups, integers in the place of content, attributes of one of two names, and some that are not allowed. Section 7 may be
    broken."""
    pattern = with_children(pattern, [varied(it, chance) for it in children(pattern)])
    if pattern[0] == "group" and chance.random() < 0.2:
        at = chance.randrange(len(pattern[1]) + 1)
        return (pattern[0], (*pattern[1][:at], TEXT, *pattern[1][at:]))
    if pattern[0] == "element" and chance.random() < 0.1:
        return (*pattern[:2], ("choice", (("data", "xsd:integer", (), None), pattern[2])))
    if pattern[0] == "attribute" and pattern[1][0] == "name" and chance.random() < 0.15:
        other = ("name", pattern[1][1], chance.choice([pattern[1][2] + "2", "v"]))
        either = ("attribute", ("alternatives", (pattern[1], other)), pattern[2])
        return either if chance.random() < 0.6 else ("choice", (pattern, either))
    if pattern[0] in ("attribute", "list") and chance.random() < 0.02:
        return (*pattern[:-1], NOT_ALLOWED)
    return pattern


class Changing:
    """Makes documents for a schema: valid ones, and changed ones."""

    def __init__(self, schema, chance):
        self.chance = chance
        self.patterns = matching.Patterns(schema)
        self.sampler = documents.Sampler(self.patterns, chance)
        self.start = self.patterns.of(schema.start)
        self.elements = [self.patterns.of(it) for it in reasons.patterns_of(schema, "element")]
        self.attributes = [self.patterns.of(it) for it in reasons.patterns_of(schema, "attribute")]

    def attribute(self):
        """An attribute of the schema, with any value or with one that its pattern takes, or another attribute."""
        node = self.chance.choice(self.attributes) if self.attributes else None
        if node is None or self.chance.random() < 0.1:
            return ("", "other"), "1"
        is_good = self.chance.random() < 0.7 and self.sampler.can(node, 0)
        return self.sampler.name(node.parts[0]), self.sampler.value(node) if is_good else self.chance.choice(documents.CANDIDATES)

    def change_attributes(self, root):
        """Adds attributes to a tag and removes some."""
        element, kept = self.chance.choice(list(documents.elements(root))), self.chance.choice([0.3, 0.8, 1])
        found = [it for it in element[1] if self.chance.random() < kept] + [self.attribute() for _ in range(self.chance.choice([0, 1, 1, 2, 3]))]
        element[1][:] = dict(found).items()

    def change_content(self, root):
        """Adds an element of the schema somewhere, perhaps with a text before it, or in the place of something."""
        other = self.sampler.root(self.chance.choice(self.elements), 3) if self.elements else None
        items = self.chance.choice(list(documents.elements(root)))[2]
        at = self.chance.randrange(len(items) + 1)
        added = [self.chance.choice(documents.CANDIDATES)] if self.chance.random() < 0.3 else []
        items[at:at + self.chance.randrange(2)] = added + ([documents.copied(other)] if other else [])

    def changed(self, root):
        pick = self.chance.random()
        if pick < 0.4:
            return documents.changed(root, self.chance)
        root = documents.copied(root)
        (self.change_attributes if pick < 0.75 else self.change_content)(root)
        return documents.as_tuples(root)

    def documents(self, count):
        """The lines of so many documents, without those that are there already or malformed."""
        roots = [it for it in (self.sampler.root(self.start) for _ in range(4)) if it is not None] or [(("", "a"), [], [])]
        seen = set()
        for number in range(count):
            root = roots[number] if number < len(roots) else self.changed(self.chance.choice(roots))
            lines = documents.lines_of(root, self.chance)
            lines = raw_changed(lines, self.chance) if number % 10 == 9 else lines
            text = documents.as_bytes(lines)
            if text not in seen and documents.tree_of(lines) is not None:
                seen.add(text)
                yield lines
