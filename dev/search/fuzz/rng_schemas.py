"""Random schemas in the XML syntax of RELAX NG, and mutants of them. A schema is a list of files, a file is a tree of `Node`."""
from xml.parsers import expat
from xml.sax.saxutils import escape, quoteattr

NS = "http://relaxng.org/ns/structure/1.0"
XSD = "http://www.w3.org/2001/XMLSchema-datatypes"
NAMES = ("a", "b", "element", "start", "x", "e\u00e9", "text")
URIS = ("", "u", "v", "urn:w x", 'q"', "http://www.w3.org/XML/1998/namespace")
PREFIXES = {"p": "u", "q": "v", "ns1": "urn:w x"}
TEXTS = ("", "a", " a  b ", 'q"q', "'", "\"\"'", "\\x{41}", "\\", "a\nb", "\t", "#", "\u00e9\U00010000", "]]>")
KINDS = ("element attribute group interleave choice optional zeroOrMore oneOrMore list mixed ref parentRef empty value data notAllowed text externalRef "
         "grammar start define div include name anyName nsName except param").split()
ATTRIBUTES = ("name", "type", "combine", "href", "ns", "datatypeLibrary", "xml:base", "other")


class Node:
    """An element. Its children are nodes and texts."""

    def __init__(self, name, attributes=None, children=()):
        self.name, self.attributes, self.children = name, dict(attributes or {}), list(children)

    def text(self):
        attributes = "".join(f" {name}={quoteattr(value, {chr(10): '&#10;', chr(9): '&#9;'})}" for name, value in self.attributes.items())
        inner = "".join(it if isinstance(it, Raw) else escape(it) if isinstance(it, str) else it.text() for it in self.children)
        return f"<{self.name}{attributes}>{inner}</{self.name}>" if inner else f"<{self.name}{attributes}/>"

    def all(self):
        yield self
        for child in self.children:
            if isinstance(child, Node):
                yield from child.all()

    def copy(self):
        return Node(self.name, self.attributes, [it.copy() if isinstance(it, Node) else it for it in self.children])


class Raw(str):
    """A comment or an instruction."""


def parsed(data):
    """The tree of a file."""
    parser, root = expat.ParserCreate(), Node("")
    stack = [root]

    def start(name, attributes):
        node = Node(name, attributes)
        stack[-1].children.append(node)
        stack.append(node)

    parser.buffer_text = True
    parser.StartElementHandler, parser.EndElementHandler = start, lambda name: stack.pop()
    parser.CharacterDataHandler = lambda text: stack[-1].children.append(text) if len(stack) > 1 else None
    parser.Parse(data, True)
    return root.children[0]


class Maker:
    """Makes schemas of several files."""

    def __init__(self, random):
        self.random = random
        self.files = {}
        self.serial = 0

    def some(self, most, made):
        return [made() for _ in range(self.random.randint(1, most))]

    def is_rare(self, chance):
        return self.random.random() < chance

    def dressed(self, node):
        """The node, perhaps with attributes that any element may have, and with what is left out."""
        random = self.random
        if self.is_rare(0.12):
            node.attributes["ns"] = random.choice(URIS)
        if self.is_rare(0.04):
            node.attributes["datatypeLibrary"] = random.choice(("", XSD))
        if self.is_rare(0.04):
            node.attributes["f:other"] = "x"
        if node.name in ("value", "param", "name"):
            return node
        if self.is_rare(0.08):
            node.children.insert(random.randint(0, len(node.children)), random.choice((
                Raw("<!-- <text/> -->"), Raw("<?text ?>"), " \n ", Node("f:note", {}, ["text", Node("text")]), Node("plain", {"xmlns": ""}, [Node("start")]))))
        return node

    def name(self):
        """A name that is used nowhere else, so that few restrictions are broken; or, rarely, any name."""
        self.serial += 1
        name = self.random.choice(NAMES) if self.is_rare(0.2) else f"n{self.serial}"
        prefix = self.random.choice(list(PREFIXES)) + ":" if self.is_rare(0.15) else "xml:" if self.is_rare(0.02) else ""
        return self.random.choice(("", "", "", " ")) + prefix + name

    def name_class(self, depth, within=""):
        kinds = ["name"] * 3 + (["choice"] if depth else []) + (["nsName"] if within == "" else []) + ([] if within else ["anyName"])
        kind = self.random.choice(kinds)
        if kind == "name":
            return self.dressed(Node("name", {}, [self.name()]))
        if kind == "choice":
            return self.dressed(Node("choice", {}, self.some(3, lambda: self.name_class(depth - 1, within))))
        excepts = [self.dressed(Node("except", {}, self.some(2, lambda: self.name_class(depth - 1, kind))))] if depth and self.is_rare(0.5) else []
        return self.dressed(Node(kind, {}, excepts))

    def named(self, kind, body):
        attributes = {"name": self.name()} if self.is_rare(0.7) else {}
        first = [] if attributes else [self.name_class(2)]
        return Node(kind, attributes, first + body)

    def data(self):
        random = self.random
        kind = random.choice(("string", "token", "xsd", "except"))
        if kind == "xsd":
            name, params = random.choice((("integer", ("minInclusive", "1")), ("NCName", ("minLength", "2")), ("string", ("maxLength", "7")), ("anyURI", None)))
            children = [self.dressed(Node("param", {"name": params[0]}, [params[1]]))] if params and self.is_rare(0.5) else []
            return Node("data", {"type": name, "datatypeLibrary": XSD}, children)
        excepts = [self.dressed(Node("except", {}, self.some(2, self.value)))] if kind == "except" else []
        return Node("data", {"type": "string" if kind == "except" else kind, "datatypeLibrary": ""}, excepts)

    def value(self):
        random = self.random
        kind = random.choice(("", "", "string", "token", "QName"))
        if kind == "QName":
            prefix = random.choice(("", "p:", "q:"))
            declared = {f"xmlns:{prefix[0]}": "u2"} if prefix and self.is_rare(0.3) else {}
            return self.dressed(Node("value", {"type": "QName", "datatypeLibrary": XSD, **declared}, [prefix + random.choice(NAMES)]))
        return self.dressed(Node("value", {"type": kind, "datatypeLibrary": ""} if kind else {}, [random.choice(TEXTS)]))

    def pattern(self, depth, names=()):
        random = self.random
        leaves = ["empty", "text", "notAllowed", "ref", "ref", "value", "data", "parentRef" if self.is_rare(0.1) else "text"]
        inner = ["element", "attribute", "group", "interleave", "choice", "optional", "zeroOrMore", "oneOrMore", "list", "mixed", "externalRef", "grammar"]
        kind = random.choice(leaves if depth <= 0 or self.is_rare(0.2) else inner)

        def patterns(most=3):
            return self.some(most, lambda: self.pattern(depth - 1, names))
        if kind in ("ref", "parentRef"):
            node = Node(kind, {"name": random.choice(names)}) if names else Node("text")
        elif kind in ("value", "data"):
            node = self.value() if kind == "value" else self.data()
        elif kind == "element":
            node = self.named(kind, patterns())
        elif kind == "attribute":
            node = self.named(kind, [self.dressed(Node(random.choice(("text", "empty")))) if self.is_rare(0.5) else self.value()][:random.randint(0, 1)])
        elif kind == "list":
            node = Node(kind, {}, self.some(3, lambda: self.data() if self.is_rare(0.5) else self.value()))
        elif kind == "externalRef":
            node = Node(kind, {"href": self.file(lambda: self.pattern(depth - 1))})
        elif kind == "grammar":
            node = self.grammar(depth - 1)
        else:
            node = Node(kind, {}, patterns() if kind in inner else [])
        return self.dressed(node)

    def file(self, made):
        """The href of a file that is made, or of one that is there."""
        made_before = [name for name in self.files if name != "main.rng"]
        if made_before and self.is_rare(0.3):
            return self.random.choice(made_before)
        name = f"f{len(self.files)}.rng"
        self.files[name] = None
        self.files[name] = self.rooted(made())
        return name

    def rooted(self, node):
        """The root of a file has the declarations."""
        node.attributes.update({"xmlns": NS, "xmlns:f": "urn:foreign", **{f"xmlns:{prefix}": uri for prefix, uri in PREFIXES.items()}})
        if self.is_rare(0.3):
            node.attributes["ns"] = self.random.choice(URIS)
        return node

    def define(self, depth, name, names):
        combine = {"combine": self.random.choice(("choice", " interleave "))} if self.is_rare(0.2) else {}
        body = [self.pattern(depth - 1, names)]
        # a reference to itself has to be in an element
        return self.dressed(Node("define", {"name": name, **combine}, [self.dressed(Node("element", {"name": self.name()}, body))]))

    def grammar(self, depth):
        names = self.random.sample(NAMES, 2)
        start = self.dressed(Node("start", {}, [self.dressed(Node("ref", {"name": names[0]}))]))
        parts = [self.define(depth, name, names) for name in names]
        if depth > 0 and self.is_rare(0.4):
            taken = []
            other = self.file(lambda: self.grammar(depth - 1))
            overrides = [self.dressed(Node("start", {}, [Node("text")])) for _ in range(self.is_rare(0.5))]
            include = self.dressed(Node("include", {"href": other}, overrides))
            parts.append(include)
            taken.append(include)
            if self.is_rare(0.7):
                start.attributes["combine"] = "choice"
        parts.append(start)
        if self.is_rare(0.3):
            parts = [self.dressed(Node("div", {}, parts[:2]))] + parts[2:]
        return self.dressed(Node("grammar", {}, parts))

    def schema(self):
        """The files, the main one first."""
        self.files = {"main.rng": None}
        main = self.grammar(3) if self.is_rare(0.7) else self.named("element", [self.pattern(3)])
        self.files["main.rng"] = self.rooted(main)
        return self.files


def mutate(random, tree):
    """Changes one thing in the tree."""
    nodes = list(tree.all())
    node = random.choice(nodes)
    change = random.randint(0, 8)
    if change == 0:
        node.name = random.choice(KINDS)
    elif change == 1 and node.attributes:
        del node.attributes[random.choice([*node.attributes])]
    elif change == 2:
        node.attributes[random.choice(ATTRIBUTES)] = random.choice((*NAMES, "p:a", "r:a", "", "urn:x", "choice", "a#b", " a ", "%41", XSD, "f1.rng"))
    elif change == 3 and node.children:
        del node.children[random.randrange(len(node.children))]
    elif change == 4 and node.children:
        node.children.insert(random.randrange(len(node.children)), random.choice((random.choice(nodes).copy(), "x", " ", Node(random.choice(KINDS)))))
    elif change == 5:
        node.children.append(random.choice((random.choice(nodes).copy(), "x", "\n", Node(random.choice(KINDS), {"name": "a"}))))
    elif change == 6 and len(node.children) > 1:
        random.shuffle(node.children)
    elif change == 7:
        child = random.choice(nodes).copy()
        declared = {name: value for name, value in node.attributes.items() if name.startswith("xmlns")}
        node.name, node.attributes, node.children = child.name, {**child.attributes, **declared}, child.children
    elif change == 8:
        node.attributes[random.choice(("xmlns:p", "xmlns:q", "xmlns:r", "xmlns"))] = random.choice(("u", "v", NS, "w"))
