"""Where the files of a schema declare elements and attributes, with their documentation. It is read from the tokens, so the schema need not be good."""
from __future__ import annotations

import dataclasses
import re
from typing import Dict, Iterator, List, Optional, Sequence, Set, Tuple

from rncv_lsp.outside import Token
from rncv_lsp.schema_files import SchemaFile, SchemaSet
from rncv_lsp.schema_words import tokens_of
from rncv_lsp.simple_form import XML_NAMESPACE, Name

KEYWORDS = ("attribute", "default", "datatypes", "div", "element", "empty", "external", "grammar", "include", "inherit", "list", "mixed", "namespace",
            "notAllowed", "parent", "start", "string", "text", "token")
ASSIGNS = ("=", "|=", "&=")
COMMENT = re.compile(r"^[ \t]*##+[ \t]?(.*)$", re.M)


@dataclasses.dataclass(eq=False)
class Body:
    """What is written in the braces of an element, or behind the name of a definition: references to definitions, and what is declared there."""

    references: Set[str] = dataclasses.field(default_factory=set)
    declared: List["Declaration"] = dataclasses.field(default_factory=list)


@dataclasses.dataclass(eq=False)
class Declaration:
    """A pattern `element` or `attribute` of a file, from `start` to `end`, with its first name from `name_start` to `name_end`. A URI in its names is None if
    it is not known."""

    kind: str
    names: List[Tuple[Optional[str], str]]
    file: SchemaFile
    start: int
    end: int
    name_start: int
    name_end: int
    documentation: str
    body: Body

    def has(self, name: Name) -> bool:
        """Whether it may declare the name."""
        return any(local == name[1] and uri in (None, name[0]) for uri, local in self.names)

    @property
    def source(self) -> str:
        """The pattern as it is written."""
        return self.file.lines.slice(self.start, self.end)


class Declarations:
    """The declarations of a schema."""

    def __init__(self, schema: Optional[SchemaSet] = None) -> None:
        self._by_local: Dict[Tuple[str, str], List[Declaration]] = {}
        self._inside: Dict[Name, Set[Declaration]] = {}
        self.prefixes: Dict[str, str] = {}
        self._definitions: Dict[str, List[Body]] = {}
        for file in {file.key: file for file in schema.files.values()}.values() if schema is not None else ():
            reader = FileReader(file, "" if file.key == schema.main.key else None)
            reader.read()
            self._add(reader)

    def _add(self, reader: FileReader) -> None:
        """Adds what was read of a file."""
        self.prefixes.update({uri: prefix for prefix, uri in reader.prefixes.items() if uri not in self.prefixes})
        for name, body in reader.definitions:
            self._definitions.setdefault(name, []).append(body)
        for each, local in [(each, local) for each in reader.found for local in dict.fromkeys(local for _, local in each.names)]:
            self._by_local.setdefault((each.kind, local), []).append(each)

    def element(self, name: Name, parent: Optional[Name] = None) -> List[Declaration]:
        """The declarations of elements with this name: those that are in elements of the parent's name, or else all."""
        found = [each for each in self._by_local.get(("element", name[1]), ()) if each.has(name)]
        near = self._within(parent) if parent is not None and len(found) > 1 else set()
        return [each for each in found if each in near] or found

    def attribute(self, name: Name, element: Name) -> List[Declaration]:
        """The declarations of attributes with this name: those of elements of the other name, or else all."""
        found = [each for each in self._by_local.get(("attribute", name[1]), ()) if each.has(name)]
        near = self._within(element) if len(found) > 1 else set()
        return [each for each in found if each in near] or found

    def _within(self, element: Name) -> Set[Declaration]:
        """What is declared in elements of this name, also by the definitions to which they refer."""
        if element not in self._inside:
            self._inside[element] = self._reached([each.body for each in self._by_local.get(("element", element[1]), ()) if each.has(element)])
        return self._inside[element]

    def _reached(self, waiting: List[Body]) -> Set[Declaration]:
        """What is declared in these, and in the definitions to which they refer."""
        seen: List[Body] = []
        names: Set[str] = set()
        while waiting:
            body = waiting.pop()
            seen.append(body)
            fresh = body.references - names
            names |= fresh
            waiting += [each for name in fresh for each in self._definitions.get(name, ())]
        return {declared for body in seen for declared in body.declared}


class FileReader:
    """Reads the tokens of a file, once from the first to the last. `default` is the default namespace, if the file has no declaration of it."""

    def __init__(self, file: SchemaFile, default: Optional[str]) -> None:
        self.found: List[Declaration] = []
        self.definitions: List[Tuple[str, Body]] = []
        self.prefixes: Dict[str, str] = {"xml": XML_NAMESPACE}
        self._file, self._text, self._default = file, file.lines.text, default
        self._tokens: Sequence[Token] = tokens_of(self._text)
        # For each open brace: whether it has components of a grammar, the body, and the declaration.
        self._open: List[Tuple[bool, Body, Optional[Declaration]]] = [(True, Body(), None)]
        self._is_including = False

    def read(self) -> None:
        """Reads the file."""
        at = 0
        while at < len(self._tokens):
            at = self._take(at, self._tokens[at])
        for _, _, declaration in self._open[1:]:
            if declaration is not None:
                declaration.end = len(self._text)

    def _take(self, at: int, token: Token) -> int:
        """Takes a token and what belongs to it. Returns the index of the next one."""
        if token.is_sign("["):
            return self._behind_brackets(at)
        if token.is_sign("{"):
            before = self._tokens[at - 1] if at > 0 else None
            is_grammar = self._is_including or (before is not None and before.is_keyword("grammar", "div"))
            self._is_including = False
            self._open.append((is_grammar, self._open[-1][1], None))
        elif token.is_sign("}") and len(self._open) > 1:
            declaration = self._open.pop()[2]
            if declaration is not None:
                declaration.end = token.end
        elif token.is_keyword("namespace", "datatypes"):
            return self._declared(at)
        elif token.is_keyword("element", "attribute"):
            return self._declaration(at, token.text)
        elif token.kind in ("word", "quoted"):
            self._word(at, token)
        return at + 1

    def _behind_brackets(self, at: int) -> int:
        """The index behind an annotation."""
        depth = 0
        for index in range(at, len(self._tokens)):
            depth += self._tokens[index].is_sign("[") - self._tokens[index].is_sign("]")
            if depth == 0:
                return index + 1
        return len(self._tokens)

    def _declared(self, at: int) -> int:
        """Takes the declaration of a prefix or of the default namespace."""
        sign = next((index for index in range(at, min(at + 3, len(self._tokens))) if self._tokens[index].is_sign("=")), None)
        if sign is None or sign + 1 == len(self._tokens):
            return at + 1
        literals, end = [], sign + 1
        while end < len(self._tokens) and (self._tokens[end].kind == "literal" or self._tokens[end].is_sign("~")):
            literals.append(self._tokens[end].text if self._tokens[end].kind == "literal" else "")
            end += 1
        uri = "".join(literals) if literals else None
        if self._tokens[at].is_keyword("namespace"):
            if at > 0 and self._tokens[at - 1].is_keyword("default"):
                self._default = uri
            if sign == at + 2 and uri is not None:
                self.prefixes[self._tokens[at + 1].text] = uri
        return max(end, sign + 2)

    def _declaration(self, at: int, kind: str) -> int:
        """Takes an element or an attribute up to its brace."""
        brace = at + 1
        while brace < len(self._tokens) and not self._tokens[brace].is_sign("{", "}", "=", "|=", "&="):
            brace += 1
        if brace == len(self._tokens) or not self._tokens[brace].is_sign("{"):
            return at + 1
        end = next((index for index in range(at + 1, brace) if self._tokens[index].is_sign("-")), brace)
        names = [token for token in self._tokens[at + 1:end] if token.kind in ("word", "quoted", "cname")]
        first = names[0] if names else self._tokens[at + 1]
        start = self._tokens[at].start
        declaration = Declaration(kind, [self._name_of(token, kind) for token in names], self._file, start, start, first.start, first.end,
                                  "\n".join(self._documentation(at)), Body())
        self._open[-1][1].declared.append(declaration)
        self.found.append(declaration)
        self._open.append((False, declaration.body, declaration))
        return brace + 1

    def _name_of(self, token: Token, kind: str) -> Tuple[Optional[str], str]:
        """The URI, if it is known, and the local name."""
        if token.kind == "cname":
            prefix, _, local = token.text.partition(":")
            return self.prefixes.get(prefix), local
        return "" if kind == "attribute" else self._default, token.text

    def _word(self, at: int, token: Token) -> None:
        """Takes a name that begins a definition or refers to one, or a keyword."""
        is_grammar, body, declaration = self._open[-1]
        is_assigned = at + 1 < len(self._tokens) and self._tokens[at + 1].is_sign(*ASSIGNS)
        if token.is_keyword("include"):
            self._is_including = True
        elif is_assigned and is_grammar and not token.is_keyword("inherit"):
            self._is_including = False
            body = Body()
            self.definitions.append((token.text, body))
            self._open[-1] = is_grammar, body, declaration
        elif not is_assigned and not token.is_keyword(*KEYWORDS):
            body.references.add(token.text)

    def _documentation(self, at: int) -> List[str]:
        """The documentation before a pattern, or before the definition that begins with it: comments `##`, and annotations."""
        lines: List[str] = []
        while at >= 0:
            end = self._tokens[at - 1].end if at > 0 else 0
            lines[:0] = [found[1].rstrip() for found in COMMENT.finditer(self._text[end:self._tokens[at].start])]
            before = self._tokens[at - 1] if at > 0 else None
            if before is not None and before.is_sign("]"):
                begin = self._before_brackets(at - 1)
                lines[:0] = documented(self._tokens[begin:at])
                at = begin
            elif before is not None and before.is_sign(*ASSIGNS) and at > 1 and self._tokens[at - 2].kind in ("word", "quoted"):
                at -= 2
            else:
                break
        return lines

    def _before_brackets(self, at: int) -> int:
        """The index of the bracket that this one closes; 0 if there is none."""
        depth = 0
        for index in range(at, -1, -1):
            depth += self._tokens[index].is_sign("]") - self._tokens[index].is_sign("[")
            if depth == 0:
                return index
        return 0


def documented(annotation: Sequence[Token]) -> List[str]:
    """The lines of documentation in an annotation."""
    depth, inside, texts = 0, 0, []
    for before, token in zip((None, *annotation), annotation):
        if token.is_sign("["):
            depth += 1
            if not inside and before is not None and before.text.rpartition(":")[2] == "documentation":
                inside = depth
        elif token.is_sign("]"):
            inside = 0 if inside == depth else inside
            depth -= 1
        elif token.kind == "literal" and inside == depth > 0:
            texts[-1:] = [texts[-1] + token.text] if before.is_sign("~") and texts else [*texts[-1:], token.text]
    return [line.strip() for text in texts for line in text.strip().splitlines()]
