"""The grammars of the schemas that are open, with the files that they reach, and to which of them a name belongs (RELAX NG Specification 4.6 to 4.18).

A grammar of one file is a node: the file's key, and the number of the grammar in the file. Its components may be in several nodes: an `include` adds those
of another file to it. A file that is a pattern has the names of the grammar that mentions it."""
from __future__ import annotations

import itertools
from typing import Callable, Dict, Iterable, Iterator, List, NamedTuple, Optional, Set, Tuple

from rncv_lsp.documents import Document
from rncv_lsp.rnc_outline import DEFINE, EXTERNAL, INCLUDE, PARENT, REFERENCE, START, Name
from rncv_lsp.rnc_parts import Outline
from rncv_lsp.schema_files import Disk, FileView, SchemaFile, opened, ways
from rncv_lsp.schema_words import FILE_BYTES
from rncv_lsp.texts import Text

MOST_FILES, MOST_MENTIONS = 256, 1_024
Node = Tuple[str, int]


class Place(NamedTuple):
    """A name in a file, which has this key."""

    key: str
    name: Name

    @property
    def node(self) -> Node:
        """The grammar around the name."""
        return self.key, self.name.scope


class Outlines:
    """The outlines of files. One is read again if its text changes."""

    def __init__(self) -> None:
        self._known: Dict[str, Outline] = {}

    def begin(self, file: SchemaFile) -> Outline:
        """The outline of a file, which is only begun if there is none. Any thread may ask for it, and read it step by step."""
        return self._known.setdefault(file.key, Outline(lines_of(file), None, True))

    def of(self, file: SchemaFile) -> Outline:
        """The outline of a file, to the thread that answers."""
        known = self.begin(file)
        while known.advance():
            pass
        if known.lines is not file.lines or not known.is_whole:
            known = Outline(lines_of(file), known if known.is_whole else None)
            self._known[file.key] = known
        return known

    def keep(self, keys: Iterable[str]) -> None:
        """Forgets all but these."""
        wanted = set(keys)
        self._known = {key: known for key, known in self._known.items() if key in wanted}


def lines_of(file: SchemaFile) -> Text:
    """The text of a file. One that is too long for a schema is taken as empty."""
    return file.lines if len(file.content) <= FILE_BYTES else Text()


class Grammars:
    """The files that the open schemas reach, and their grammars."""

    def __init__(self, documents: List[Document], disk: Disk, outlines: Outlines) -> None:
        self._view, self._outlines = FileView(documents, disk), outlines
        self.files: Dict[str, SchemaFile] = {}
        self.outlines: Dict[str, Outline] = {}
        # The nodes whose components a node has, each with the words of the `include` that says so; the nodes that have those of a node; the nodes
        # around a node.
        self._below: Dict[Node, List[Tuple[Node, Optional[str]]]] = {}
        self._above: Dict[Node, List[Node]] = {}
        self._around: Dict[Node, List[Node]] = {}
        self._mentions: List[Tuple[Place, str]] = []
        self._collect([opened(document) for document in documents if document.is_schema])
        for place, key in self._mentions:
            self._link(place, key)
        disk.keep(self._view.states)
        outlines.keep(self.files)

    def _collect(self, waiting: List[SchemaFile]) -> None:
        """Finds the files that these reach."""
        while waiting and len(self.files) < MOST_FILES:
            file = waiting.pop(0)
            if file.key not in self.files:
                self.files[file.key], self.outlines[file.key] = file, self._outlines.of(file)
                waiting += self._mentioned(file)

    def _mentioned(self, file: SchemaFile) -> Iterator[SchemaFile]:
        """The files that a file mentions."""
        for name, found in mentioned_in(file, self.outlines[file.key], self._view):
            self._mentions.append((Place(file.key, name), found.key))
            yield found

    def _link(self, place: Place, key: str) -> None:
        """Links the grammars of a file and of one that it mentions."""
        if key not in self.outlines:
            return
        node, outline = place.node, self.outlines[key]
        if place.name.role == EXTERNAL and outline.is_grammar:
            self._around.setdefault((key, 0), []).append(node)
            return
        # what is included may be a pattern `grammar { .. }`, which is the first grammar in its file
        is_inside = place.name.role == INCLUDE and not outline.is_grammar and 1 in outline.enclosing
        target = key, int(is_inside)
        self._below.setdefault(node, []).append((target, place.name.text if place.name.role == INCLUDE else None))
        self._above.setdefault(target, []).append(node)

    def mentioned(self, place: Place) -> Optional[SchemaFile]:
        """The file that a mention means."""
        return file_meant(self.files[place.key], place.name.text, self._view)

    def mentions_of(self, key: str) -> List[Place]:
        """The mentions of a file."""
        return [place for place, target in self._mentions if target == key]

    def wholes(self, node: Node) -> List[Node]:
        """The nodes that have the components of a node: itself first."""
        return reached(node, lambda each: self._above.get(each, ()))

    def pieces(self, node: Node) -> List[Node]:
        """The nodes whose components a node has: itself first."""
        return reached(node, lambda each: [target for target, _ in self._below.get(each, ())])

    def parents(self, node: Node) -> List[Node]:
        """The grammars around a node's grammar."""
        found: Dict[Node, None] = {}
        for key, scope in self.wholes(node):
            inside = self.outlines[key].enclosing.get(scope)
            for each in [(key, inside)] if inside is not None else self._around.get((key, scope), []):
                found[each] = None
        return list(found)

    def nodes_of(self, place: Place) -> List[Node]:
        """The grammars to which a name belongs: those around it for `parent`."""
        return self.parents(place.node) if place.name.role == PARENT else [place.node]

    def definitions_in(self, node: Node, text: str) -> List[Place]:
        """The definitions of a name in a grammar, without those that the braces of an `include` replace."""
        waiting, seen, found = [node], set(), []  # type: List[Node], Set[Node], List[Place]
        while waiting:
            node = waiting.pop(0)
            if node in seen:
                continue
            seen.add(node)
            here = [name for name in self.outlines[node[0]].with_text(text) if name.role in (DEFINE, START) and name.scope == node[1]]
            found += [Place(node[0], name) for name in here]
            replaced = {name.detail for name in here if name.detail is not None}
            waiting += [target for target, words in self._below.get(node, ()) if words is None or words not in replaced]
        return found

    def definitions(self, place: Place) -> List[Place]:
        """The definitions of a name in all the grammars to which it may belong."""
        wholes = [whole for node in self.nodes_of(place) for whole in self.wholes(node)]
        found = [each for whole in dict.fromkeys(wholes) for each in self.definitions_in(whole, place.name.text)]
        return list(dict.fromkeys(found))

    def targets(self, node: Node, words: str) -> List[Node]:
        """The grammars that an `include` with these words adds to a node."""
        return [target for target, each in self._below.get(node, ()) if each == words]

    def replaced(self, place: Place) -> List[Place]:
        """The definitions that a definition in the braces of an `include` replaces."""
        targets = self.targets(place.node, place.name.detail or "")
        return [each for target in targets for each in self.definitions_in(target, place.name.text)]

    def group(self, place: Place) -> List[Place]:
        """All places of a name: in its grammar, in all the files that share the name with it, and behind `parent`."""
        text = place.name.text
        every = [Place(key, name) for key, outline in self.outlines.items() for name in outline.with_text(text)]
        places = [(each, self.nodes_of(each)) for each in every if each.name.role in (DEFINE, START, REFERENCE, PARENT)]
        used = {node for _, nodes in places for node in nodes}
        found: Set[Node] = set()
        waiting = self.nodes_of(place)
        while waiting:
            node = waiting.pop()
            if node not in found:
                found.add(node)
                waiting += [each for each in self._sharing(node) if each in used]
                waiting += [each for _, nodes in places if len(nodes) > 1 and node in nodes for each in nodes]
        return [each for each, nodes in places if any(node in found for node in nodes)]

    def _sharing(self, node: Node) -> List[Node]:
        """The nodes that are in a grammar with a node."""
        return list(dict.fromkeys(each for whole in self.wholes(node) for each in self.pieces(whole)))

    def defines(self, node: Node, text: str) -> bool:
        """Whether a grammar has a definition of a name, be it replaced or not."""
        pieces = set(self.pieces(node))
        return any(name.role == DEFINE and (key, name.scope) in pieces for key in {key for key, _ in pieces} for name in self.outlines[key].with_text(text))

    def visible(self, nodes: Iterable[Node]) -> List[str]:
        """The names that are defined in the grammars of these nodes."""
        scopes: Dict[str, Set[int]] = {}
        for key, scope in (each for node in nodes for each in self._sharing(node)):
            scopes.setdefault(key, set()).add(scope)
        return list(dict.fromkeys(text for key in scopes for text in self.outlines[key].defined(scopes[key])))


def file_meant(file: SchemaFile, words: str, view: FileView) -> Optional[SchemaFile]:
    """The file that words mean in a file."""
    return next((found for found in map(view.find, ways(words, file.path)) if found is not None), None)


def mentioned_in(file: SchemaFile, outline: Outline, view: FileView) -> Iterator[Tuple[Name, SchemaFile]]:
    """The mentions in a file, and the files that they mean."""
    for name in itertools.islice(outline.with_role(INCLUDE, EXTERNAL), MOST_MENTIONS):
        found = file_meant(file, name.text, view)
        if found is not None:
            yield name, found


def reached(node: Node, steps: Callable[[Node], Iterable[Node]]) -> List[Node]:
    """The nodes that are reached from a node in any number of steps, the node first."""
    found, waiting = {node: None}, [node]
    while waiting:
        for each in steps(waiting.pop(0)):
            if each not in found:
                found[each] = None
                waiting.append(each)
    return list(found)
