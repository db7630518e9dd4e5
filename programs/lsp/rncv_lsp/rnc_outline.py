"""What the names in a part of a schema are: definitions, references, prefixes, files. The reader takes any tokens, and goes on behind what is no schema."""
from __future__ import annotations

import contextlib
from typing import Callable, Dict, List, NamedTuple, Optional, Set, Tuple, Union

from rncv_lsp.outside import KEYWORDS
from rncv_lsp.rnc_states import CLASS, CONTENT, PARAMS, PATTERN, ROUND, SQUARE, Frame, State, Used, relative
from rncv_lsp.rnc_tokens import CNAME, DOC, LITERAL, NOTHING, NSNAME, OPEN, SIGN, WORD, Lexed, Token, literal_words

# What a name is. START has the text of the keyword, which no definition has as its name.
DEFINE, START, REFERENCE, PARENT, INCLUDE, EXTERNAL = "define", "start", "reference", "parent", "include", "external"
SPACE, SPACE_USE, LIBRARY, LIBRARY_USE, DATATYPE, ELEMENT, ATTRIBUTE = "space", "space use", "library", "library use", "datatype", "element", "attribute"
ASSIGNMENTS = ("=", "|=", "&=")
NOT_ANNOTATION = frozenset("{}()|&,?*+-") | {">>", "|=", "&="}
START_NAME = "start ="
# A reader gets so many of the inner frames at first.
SOME_FRAMES = 16


class Name(NamedTuple):
    """A name at a place. `detail` is the file whose components a definition replaces, the namespace or library that a prefix stands for, or the prefix that a
    file inherits. None for a namespace: it is inherited. In a part of a text `scope` and `detail` count from what is around it (rnc_states.py)."""

    role: str
    text: str
    start: int
    end: int
    scope: int
    detail: Union[str, int, None] = None


class Opened(NamedTuple):
    """The beginning of a part of the outline: a definition, `start`, `grammar`, `div`, `include`, or an element that is in no definition."""

    kind: str
    text: str
    start: int
    name_start: int
    name_end: int
    detail: str


class Facts(NamedTuple):
    """What a part of a text says behind a state. The events of the outline are its parts, and where the last open one ends. `scopes` has the grammars that
    begin in it, each with the one around it, and `owners` those that have components in it; `used` is what counts of the state. The last state has the inner
    frames alone."""

    names: List[Name]
    events: List[Union[Opened, int]]
    scopes: List[Tuple[int, int]]
    owners: Set[int]
    used: Used
    after: State


class TooFew(Exception):
    """A part closes more frames than the reader was given."""


class Reader:
    """Reads the tokens of a part of a text."""

    def __init__(self, text: str, tokens: List[Token], state: State = State()) -> None:
        self.text, self.tokens, self.at = text, tokens, 0
        self.stack = list(state.frames)
        self.is_in_definition, self.scopes = state.is_in_definition, state.scopes
        # Whether a pattern or a name must come next; where the documentation and annotations of the next component begin; where the last one ends.
        self.expects, self.lead, self.last_end = state.expects, -state.lead if state.lead else None, -state.last
        self.facts = Facts([], [], [], set(), Used(state.frames, False), state)
        # How many frames there were at least, and whether one more was to be closed.
        self.lowest, self.is_at_end = len(self.stack), False
        # The index of the first name of the class that was read last.
        self.class_start = 0

    def run(self) -> Facts:
        """Reads all tokens."""
        while self.at < len(self.tokens):
            token, before = self.tokens[self.at], self.at
            if token.kind == DOC:
                self._lead(token)
                self.at += 1
                continue
            is_annotation = self.stack[-1].kind == SQUARE or (token.kind == SIGN and token.text == "[")
            if is_annotation:
                self._annotation(token)
            else:
                FRAME_ACTIONS[self.stack[-1].kind](self, token)
                self.lead = self.lead if self.at == before else None
            if self.lead is None and self.at > before:
                self.last_end = self.tokens[self.at - 1].end
        outer = self.lowest - 1
        after = self._state()
        used = Used(self.facts.used.frames[outer:], self.is_at_end)
        return self.facts._replace(used=used, after=after._replace(frames=after.frames[outer:]))

    def _state(self) -> State:
        """Where the reader is."""
        length = len(self.text)
        lead = 0 if self.lead is None else length - self.lead
        return State(tuple(self.stack), self.is_in_definition, self.scopes, self.expects, lead, length - self.last_end)

    def _lead(self, token: Token) -> None:
        """Takes the first token of the documentation or of an annotation. Between components it belongs to the next one."""
        if self.lead is None and not self.expects and self.stack[-1].kind == CONTENT:
            self._end_definition()
            self.lead = token.start

    def _next(self, count: int = 1) -> Token:
        """The token that many places further."""
        at = self.at + count
        return self.tokens[at] if at < len(self.tokens) else NOTHING

    def _add(self, role: str, token: Token, text: Optional[str] = None, detail: Optional[str] = None) -> None:
        """Adds a name that is a whole token."""
        self.facts.names.append(Name(role, token.text if text is None else text, token.start, token.end, self.stack[-1].scope, detail))

    def _add_prefix(self, role: str, token: Token) -> None:
        """Adds the prefix of a name. An escape may be what is written for the colon."""
        colon = self.text.find(":", token.start, token.end)
        end = colon if colon >= 0 else token.end
        self.facts.names.append(Name(role, token.text.partition(":")[0], token.start, end, self.stack[-1].scope))

    def _push(self, kind: str, words: Optional[str] = None, scope: Optional[int] = None) -> None:
        """Opens a frame."""
        self.stack.append(Frame(kind, self.stack[-1].scope if scope is None else scope, words, self.is_in_definition))
        self.expects = kind != CONTENT
        if kind == CONTENT:
            self.is_in_definition = False

    def _drop(self) -> None:
        """Takes the last frame away."""
        self.stack.pop()
        self.lowest = min(self.lowest, len(self.stack))
        if not self.stack:
            raise TooFew

    def _pop(self, end: int) -> None:
        """Closes a frame, and what is open in it."""
        frame = self.stack[-1]
        if frame.kind == CONTENT:
            self._end_definition()
            self.is_in_definition = frame.is_in_definition
        if frame.kind == CONTENT or frame.is_part:
            self.facts.events.append(end)
        self._drop()
        self.expects = False

    def _to_content(self) -> None:
        """Closes what cannot have a component in it, and the definition before."""
        while self.stack[-1].kind != CONTENT:
            self._pop(self.last_end)
        self._end_definition()
        self.expects = False

    def _end_definition(self) -> None:
        """Ends the open definition, if there is one."""
        if self.is_in_definition:
            self.facts.events.append(self.last_end)
            self.is_in_definition = False

    def _open_part(self, kind: str, token: Token, text: str, detail: str = "") -> None:
        """Opens a part of the outline."""
        self.facts.events.append(Opened(kind, text, self.lead if self.lead is not None else self.tokens[self.at].start, token.start, token.end, detail))
        if kind != "grammar":
            self.facts.owners.add(self.stack[-1].scope)

    def _assigns(self, token: Token) -> bool:
        """Whether a definition begins here."""
        following = self._next()
        if following.kind != SIGN or following.text not in ASSIGNMENTS:
            return False
        return token.is_identifier or (token.kind == WORD and token.text == "start")

    def _has_value(self) -> bool:
        """Whether a literal follows a name and `=`, or is not there yet: then the end or another name with `=` follows."""
        value, sign = self._next(2), self._next(3)
        is_next = sign.kind == SIGN and sign.text in ASSIGNMENTS
        return self._next().text == "=" and (value.kind in (LITERAL, OPEN) or is_next or (value.kind == SIGN and value.text in ("}", "]", "")))

    def _definition(self, token: Token) -> None:
        """Takes the name of a definition, and what stands behind it."""
        self._to_content()
        is_start = token.kind == WORD and token.text == "start"
        body = self._body(self.at + 2)
        sign = self._next().text
        self._open_part(START if is_start else DEFINE, token, token.text, body if sign == "=" else f"{sign} {body}".strip())
        self._add(START if is_start else DEFINE, token, START_NAME if is_start else None, self.stack[-1].words)
        self.is_in_definition = self.expects = True
        self.at += 2

    def _body(self, at: int) -> str:
        """What kind of pattern begins here: a keyword, with the name for an element and an attribute."""
        while at < len(self.tokens) and self.tokens[at].kind == DOC:
            at += 1
        first, second = (self.tokens[at:at + 2] + [NOTHING, NOTHING])[:2]
        if first.kind != WORD or first.text not in KEYWORDS:
            return ""
        is_named = first.text in ("element", "attribute") and (second.kind in (CNAME, NSNAME) or second.is_name or second.text == "*")
        return f"{first.text} {second.text}" if is_named else first.text

    def _annotation(self, token: Token) -> None:
        """Takes a token of an annotation. What cannot be in one ends it."""
        is_open = self.stack[-1].kind == SQUARE
        if is_open and ((token.kind == SIGN and token.text in NOT_ANNOTATION) or (self._assigns(token) and not self._has_value())):
            self._leave_annotations()
            return
        if token.kind == SIGN and token.text == "[":
            self._lead(token)
            self.stack.append(Frame(SQUARE, self.stack[-1].scope))
        elif token.kind == SIGN and token.text == "]":
            self._drop()
        elif token.kind == CNAME:
            self._add_prefix(SPACE_USE, token)
        self.at += 1

    def _leave_annotations(self) -> None:
        """Closes the annotations that are open."""
        while self.stack[-1].kind == SQUARE:
            self._drop()

    def _class(self, token: Token) -> None:
        """Takes a token between `element` or `attribute` and its brace. What is none of a class of names ends it."""
        if self._assigns(token):
            self._definition(token)
        elif token.kind == SIGN:
            self._class_sign(token)
        elif token.kind == NSNAME or (self.expects and (token.is_name or token.kind == CNAME)):
            if token.kind in (NSNAME, CNAME):
                self._add_prefix(SPACE_USE, token)
            self._add(self.stack[-1].words or ELEMENT, token)
            self.expects = False
            self.at += 1
        else:
            self._pop(self.last_end)

    def _class_sign(self, token: Token) -> None:
        """Takes a sign of a class of names."""
        if token.text == "{":
            self._element()
        elif token.text in ("|", "-", "("):
            self.expects = True
        elif token.text == ">>":
            self._following(token)
            return
        elif token.text not in (")", "*"):
            self._pop(self.last_end)
            return
        else:
            self.expects = False
        self.at += 1

    def _element(self) -> None:
        """Opens the braces of an element or attribute. An element that is in no definition is in the outline of a file that is a pattern."""
        self._drop()
        self._push(PATTERN)
        name = next((name for name in self.facts.names[self.class_start:] if name.role == ELEMENT), None)
        if name is not None and not self.is_in_definition:
            self.facts.events.append(Opened(ELEMENT, name.text, name.start, name.start, name.end, ""))
            self.stack[-1] = self.stack[-1]._replace(is_part=True)

    def _params(self, token: Token) -> None:
        """Takes a token in the braces of a datatype."""
        if token.is_name and self._has_value():
            self.at += 2
        elif self._assigns(token):
            self._definition(token)
        elif token.kind == SIGN and token.text == "}":
            self._pop(token.end)
            self.at += 1
        elif token.kind == WORD and token.text in KEYWORDS and self._next().text != "=":
            self._pop(self.last_end)
        else:
            self.at += 1

    def _ground(self, token: Token) -> None:
        """Takes a token of patterns or components."""
        if token.kind == SIGN:
            SIGN_ACTIONS.get(token.text, Reader._skip)(self, token)
        elif self._assigns(token):
            self._definition(token)
        elif token.kind == WORD and token.text in KEYWORDS:
            KEYWORD_ACTIONS.get(token.text, Reader._operand)(self, token)
        elif not self.expects and self._next().text == "[" and (token.is_identifier or token.kind == CNAME):
            self._annotation_element(token)
        elif token.kind == CNAME:
            self._add_prefix(LIBRARY_USE, token)
            self._datatype(token)
        else:
            if token.is_identifier:
                self._add(REFERENCE, token)
            self._operand(token)

    def _skip(self, token: Token) -> None:
        """Takes a token that says nothing."""
        self.at += 1

    def _operand(self, token: Token) -> None:
        """Takes a token that is a pattern."""
        self.expects = False
        self.at += 1

    def _operator(self, token: Token) -> None:
        """Takes a sign behind which a pattern comes."""
        self.expects = True
        self.at += 1

    def _annotation_element(self, token: Token) -> None:
        """Takes the name of an annotation between components, and its bracket."""
        if self.stack[-1].kind == CONTENT:
            self._end_definition()
        if token.kind == CNAME:
            self._add_prefix(SPACE_USE, token)
        self.stack.append(Frame(SQUARE, self.stack[-1].scope))
        self.at += 2

    def _following(self, token: Token) -> None:
        """Takes `>>`, the name of the annotation behind it, and its bracket."""
        name = self._next()
        self.at += 1
        if name.kind == CNAME or name.is_name:
            if name.kind == CNAME:
                self._add_prefix(SPACE_USE, name)
            self.at += 1
            if self._next(0).text == "[":
                self.stack.append(Frame(SQUARE, self.stack[-1].scope))
                self.at += 1

    def _open_brace(self, token: Token) -> None:
        """Takes a brace or a parenthesis with a pattern behind it."""
        self._push(PATTERN if token.text == "{" else ROUND)
        self.at += 1

    def _close_brace(self, token: Token) -> None:
        """Takes the brace at the end of what is open. Without anything open it says nothing."""
        while self.stack[-1].kind in (ROUND, CLASS):
            self._pop(self.last_end)
        if len(self.stack) > 1:
            self._pop(token.end)
        else:
            self.is_at_end = True
        self.at += 1

    def _close_round(self, token: Token) -> None:
        """Takes a parenthesis at the end of a pattern."""
        if self.stack[-1].kind == ROUND:
            self._pop(token.end)
        self.at += 1

    def _named(self, token: Token) -> None:
        """Takes `element` or `attribute`."""
        self._push(CLASS, ELEMENT if token.text == "element" else ATTRIBUTE)
        self.class_start = len(self.facts.names)
        self.at += 1

    def _datatype(self, token: Token) -> None:
        """Takes the name of a datatype, and the brace of its parameters."""
        self._add(DATATYPE, token)
        self._operand(token)
        if self._next(0).text == "{":
            self._push(PARAMS, token.text)
            self.at += 1

    def _grammar(self, token: Token) -> None:
        """Takes `grammar` or `div`, and its brace."""
        is_grammar = token.text == "grammar"
        if self._next().text != "{":
            self._operand(token)
            return
        if not is_grammar:
            self._to_content()
        self._open_part(token.text, token, token.text)
        frame = self.stack[-1]
        if is_grammar:
            self.facts.scopes.append((self.scopes, frame.scope))
        self._push(CONTENT, None if is_grammar else frame.words, self.scopes if is_grammar else None)
        self.scopes += is_grammar
        self.at += 2

    def _parent(self, token: Token) -> None:
        """Takes `parent` and the name behind it."""
        name = self._next()
        self.at += 1
        if name.is_identifier and not (self._next().kind == SIGN and self._next().text in ASSIGNMENTS):
            self._add(PARENT, name)
            self.at += 1
        self.expects = False

    def _mention(self, token: Token) -> None:
        """Takes `include` or `external`, its file, the namespace that it inherits, and the brace of what is replaced."""
        is_include = token.text == "include"
        if is_include:
            self._to_content()
        words, place, inherited = self._literal(), self._next(), None
        first, self.at = self.at, self._after_literal()
        if self._next(0)[:2] == (WORD, "inherit") and self._next(1).text == "=" and self._next(2).is_name:
            inherited = self._next(2)
            self.at += 3
        self.expects = False
        if words is None:
            return
        end = self.tokens[self.at - (4 if inherited else 1)].end
        self._add(INCLUDE if is_include else EXTERNAL, place._replace(end=end), words, inherited.text if inherited else None)
        if inherited:
            self._add(SPACE_USE, inherited)
        if is_include:
            self._include_body(Token(WORD, words, self.tokens[first].start, end))

    def _include_body(self, whole: Token) -> None:
        """Opens an `include` in the outline, and its braces if there are some."""
        event = Opened(INCLUDE, whole.text, self.lead if self.lead is not None else whole.start, whole.start, whole.end, "")
        self.facts.events.append(event)
        self.facts.owners.add(self.stack[-1].scope)
        if self._next(0).text == "{":
            self._push(CONTENT, whole.text)
            self.at += 1
        else:
            self.facts.events.append(self.tokens[self.at - 1].end)

    def _literal(self) -> Optional[str]:
        """The literal behind this token, with its joined parts; None if there is none."""
        end = self._after_literal()
        parts = self.tokens[self.at + 1:end:2]
        return "".join(map(literal_words, parts)) if parts else None

    def _after_literal(self) -> int:
        """The index behind the literal that is behind this token."""
        at = self.at + 1
        while at < len(self.tokens) and self.tokens[at].kind == LITERAL:
            at += 1
            if not (at + 1 < len(self.tokens) and self.tokens[at].text == "~" and self.tokens[at + 1].kind == LITERAL):
                break
            at += 1
        return at

    def _declaration(self, token: Token) -> None:
        """Takes `namespace`, `default namespace` or `datatypes`, the prefix and what it stands for."""
        self._to_content()
        is_default = token.text == "default" and self._next().text == "namespace"
        self.at += is_default
        keyword, prefix = self._next(0), self._next()
        self.at += prefix.is_name
        if self._next().text != "=":
            self.at += 1
            return
        self.at += 1
        is_inherited = self._next()[:2] == (WORD, "inherit")
        value = None if is_inherited else self._literal() or ""
        if is_default:
            self._add(SPACE, keyword, "", value)
        if prefix.is_name:
            self._add(LIBRARY if token.text == "datatypes" else SPACE, prefix, None, value)
        self.at = self.at + 2 if is_inherited else self._after_literal()


Action = Callable[[Reader, Token], None]
FRAME_ACTIONS: Dict[str, Action] = {
    CONTENT: Reader._ground, PATTERN: Reader._ground, ROUND: Reader._ground, PARAMS: Reader._params, CLASS: Reader._class}
SIGN_ACTIONS: Dict[str, Action] = {
    "{": Reader._open_brace, "(": Reader._open_brace, "}": Reader._close_brace, ")": Reader._close_round, ">>": Reader._following,
    **{sign: Reader._operator for sign in (",", "|", "&", "-")}}
KEYWORD_ACTIONS: Dict[str, Action] = {
    "element": Reader._named, "attribute": Reader._named, "grammar": Reader._grammar, "div": Reader._grammar, "include": Reader._mention,
    "external": Reader._mention, "parent": Reader._parent, "string": Reader._datatype, "token": Reader._datatype,
    "namespace": Reader._declaration, "default": Reader._declaration, "datatypes": Reader._declaration}


def read(text: str, found: Lexed, state: State) -> Facts:
    """What a part of a text says behind a state, in any file that has the same around it. Few parts close many frames."""
    count = SOME_FRAMES
    while True:
        with contextlib.suppress(TooFew):
            facts = Reader(text, found.tokens, relative(state, count)).run()
            if count >= len(state.frames) or not facts.used.is_whole:
                return facts
        count *= 4
