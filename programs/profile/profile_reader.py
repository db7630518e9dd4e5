"""Reads the tokens of a schema file and finds what is outside the profile. Nothing here is proved.

This is not a full parser. It knows whether a word is in a name class, where a pattern must come, or where a component may begin. That is enough.
"""
import dataclasses
import itertools

from compact_tokens import KEYWORDS
from profile_larger import judged_larger
from profile_types import BOTH, MORE, SAME, TURNED, XSD, Param, TypeUse, Within, judged

NESTING = 128
LIBRARIES = {"xsd": XSD}


@dataclasses.dataclass(frozen=True)
class Finding:
    """What is outside the profile, and its offset; what the copy has instead (empty: it is not brought over), and what the copy then accepts. `is_marked`
    says that `rncv-xml` makes up for that."""
    at: int
    what: str
    change: str = ""
    effect: str = SAME
    is_marked: bool = False


@dataclasses.dataclass(frozen=True)
class Edit:
    """A part of the file's text, and the text that the copy has instead."""
    start: int
    end: int
    text: str


@dataclasses.dataclass(frozen=True)
class Mention:
    """An `include` or `external`: the text of its literal, and the literal's offsets."""
    href: str
    start: int
    end: int


@dataclasses.dataclass(frozen=True)
class Traits:
    """Whether a schema's files have a list, an except of a datatype, or a reference in such an except."""
    lists: bool = False
    excepts: bool = False
    except_refs: bool = False

    def with_those_of(self, other):
        return Traits(self.lists or other.lists, self.excepts or other.excepts, self.except_refs or other.except_refs)


class Reader:
    """One pass over the tokens. `uses` are the datatypes, each with its last token's end and the excepts around it."""

    def __init__(self, tokens):
        self.tokens = tokens
        self.next = 0
        self.due = False            # a pattern or name class must come next
        self.in_class = False       # after `element` or `attribute`, before the brace
        self.opens = "pattern"      # what the next brace contains
        self.open = []              # for each open bracket: what it contains, and the excepts of datatypes around that
        self.except_due = False
        self.around = Within()      # the excepts around the keyword whose brace comes next
        self.libraries = dict(LIBRARIES)
        self.findings, self.edits, self.mentions, self.uses = [], [], [], []
        self.lists = self.excepts = self.except_refs = False

    def at(self, offset=0):
        """The token so many places after the next one, or None."""
        index = self.next + offset
        return self.tokens[index] if index < len(self.tokens) else None

    def sees(self, *signs, offset=0):
        token = self.at(offset)
        return token is not None and token.is_sign(*signs)

    def read(self):
        self.nesting()
        self.declarations()
        while self.at():
            self.step()
        return self

    def nesting(self):
        """Finds the first brace or parenthesis that is too deep."""
        depths = itertools.accumulate(token.is_sign("{", "(") - token.is_sign("}", ")") for token in self.tokens)
        deep = next((token for token, depth in zip(self.tokens, depths) if depth > NESTING), None)
        if deep:
            self.findings.append(Finding(deep.start, f"braces and parentheses nest more than {NESTING} deep"))

    def step(self):
        """Reads what begins at the next token."""
        token = self.at()
        if token.is_sign("["):
            self.annotation()
        elif token.is_sign(">>"):
            self.following()
        elif token.kind == "sign":
            self.next += 1
            self.sign(token)
        elif self.is_annotation_element(token):
            self.drop(token, self.group_end(1), "an annotation element among components is not served")
        elif self.in_class:
            self.next += 1
            self.due = False
        else:
            self.operand(token)

    def group_end(self, offset):
        """The index after the group in square brackets that opens so many tokens after the next one."""
        index, depth = self.next + offset, 0
        while index < len(self.tokens):
            depth += self.tokens[index].is_sign("[") - self.tokens[index].is_sign("]")
            index += 1
            if depth == 0:
                break
        return index

    def drop(self, token, end, what):
        """The copy omits what begins at the token and ends before the index."""
        self.findings.append(Finding(token.start, what, "nothing there"))
        self.edits.append(Edit(token.start, self.tokens[end - 1].end, ""))
        self.next = end

    def annotation(self):
        """Reads an annotation. It stays, unless another one or a declaration follows."""
        token, end = self.at(), self.group_end(0)
        follows = self.tokens[end] if end < len(self.tokens) else None
        if follows and follows.is_sign("["):
            self.drop(token, end, "two annotations in a row are not served")
        elif follows and follows.is_keyword("namespace", "default", "datatypes"):
            self.drop(token, end, "an annotation before a declaration is not served")
            self.declarations()
        else:
            self.next = end

    def following(self):
        """Reads and drops `>> name [ .. ]`."""
        token = self.at()
        self.drop(token, self.group_end(2) if self.sees("[", offset=2) else self.next + 1, "annotations that follow (>>) are not served")

    def is_annotation_element(self, token):
        return token.kind in ("cname", "quoted", "word") and not (self.due or self.in_class) and self.sees("[", offset=1) and (
            token.kind != "word" or token.text not in KEYWORDS)

    def sign(self, token):
        if token.is_sign("{", "("):
            self.bracket(token)
        elif token.is_sign("}", ")"):
            self.open = self.open[:-1]
            self.due = False
        elif token.is_sign("=", "|=", "&=", ",", "|", "&", "-"):
            self.due = True
            self.except_due = token.text == "-" and not self.in_class
            self.excepts |= self.except_due
        else:
            self.due = False

    def bracket(self, token):
        """An opening brace or parenthesis."""
        holds = self.opens if token.text == "{" else "class" if self.in_class else "pattern"
        self.in_class = self.in_class and token.text == "("
        self.open.append((holds, self.around if token.text == "{" else self.takes_except()))
        self.due = holds != "components"

    def takes_except(self):
        """The excepts of datatypes around the next token: those around the bracket that it is in, and one more if it is the first token of one."""
        around = self.open[-1][1] if self.open else Within()
        if self.except_due:
            around = Within(not around.odd, bool(self.uses) and self.uses[-1][0].is_integer())
            self.except_refs |= self.at().is_keyword("external")
        self.except_due = False
        return around

    def operand(self, token):
        """A word, a CName or a literal outside name classes."""
        within = self.around = self.takes_except()
        self.due = False
        if token.kind == "cname" or token.is_keyword("string", "token"):
            self.type_use(token, within)
            return
        self.next += 1
        if token.is_keyword("element", "attribute"):
            self.in_class = self.due = True
            self.opens = "pattern"
        elif token.is_keyword("list", "mixed"):
            self.opens = "pattern"
            self.lists |= token.text == "list"
        elif token.is_keyword("grammar", "div"):
            self.opens = "components"
        elif token.is_keyword("include", "external"):
            self.mention(token)
        elif token.is_keyword("parent"):
            self.due = True
        elif token.kind != "literal" and not (token.kind == "word" and token.text in KEYWORDS):
            self.except_refs |= within != Within()

    def literal(self):
        """The text of a literal with its joined segments, and its end; None if no literal is here."""
        token = self.at()
        if token is None or token.kind != "literal":
            return None, 0
        text, end = token.text, token.end
        self.next += 1
        while self.sees("~") and self.at(1) and self.at(1).kind == "literal":
            text, end = text + self.at(1).text, self.at(1).end
            self.next += 2
        return text, end

    def mention(self, keyword):
        """The file that an `include` or `external` names, and its `inherit = p`."""
        start = self.at()
        href, end = self.literal()
        if href is not None:
            self.mentions.append(Mention(href, start.start, end))
        if self.at() and self.at().is_keyword("inherit") and self.sees("=", offset=1):
            self.next += 3
        self.opens = "components" if keyword.text == "include" else "pattern"

    def declarations(self):
        """Reads the declarations here, and keeps the prefix and the library of each `datatypes`."""
        while self.at() and self.at().is_keyword("namespace", "default", "datatypes"):
            keyword, names = self.at(), []
            self.next += 1
            while self.at() and self.at().kind in ("word", "quoted"):
                names.append(self.at().text)
                self.next += 1
            self.next += self.sees("=")
            uri, _ = self.literal()
            if uri is None:
                self.next += 1
            elif keyword.text == "datatypes" and names:
                self.libraries[names[-1]] = uri

    def type_use(self, token, within):
        """A datatype with its parameters, or with a value."""
        prefix, _, name = token.text.rpartition(":")
        library = self.libraries.get(prefix) if prefix else ""
        self.next += 1
        end, params, value = token.end, [], None
        if self.sees("{"):
            params, end = self.params()
        elif self.at() and self.at().kind == "literal":
            value, _ = self.literal()
        if library is not None:
            self.uses.append((TypeUse(library, name, token.start, tuple(params), value, self.sees("-"), within), end, within))

    def params(self):
        """The parameters in braces, and where the braces end. Skips annotations between them."""
        params, end = [], self.at().end
        self.next += 1
        while self.at() and not self.sees("}"):
            token = self.at()
            if token.is_sign("["):
                self.annotation()
            elif token.kind in ("word", "quoted") and self.sees("=", offset=1):
                self.next += 2
                value, _ = self.literal()
                params.append(Param(token.text, value or "", token.start))
            else:
                self.next += 1
        if self.at():
            end = self.at().end
            self.next += 1
        return params, end

    def traits(self):
        return Traits(self.lists, self.excepts, self.except_refs)

    def judge_types(self, traits, is_copy=False, is_larger=False):
        """Finds the datatypes that are not served, when the traits of all files are known; `is_larger` says that those of the larger set are. In an except more
        becomes less, and in one of that more again. In a copy, its mark says what `integer` does not serve."""
        for use, end, within in self.uses:
            reports_digits = not is_copy and (within.odd and not within.integers or traits.except_refs)
            text, reported = judged_larger(use) if is_larger else judged(use, not (traits.lists or traits.excepts), reports_digits, is_copy)
            for each in reported:
                effect = TURNED[each.effect] if within.odd and each.effect else each.effect
                effect = BOTH if traits.except_refs and effect not in ("", SAME) else effect
                self.findings.append(Finding(each.at, each.what, each.change, effect, each.is_marked and effect == MORE))
            if text:
                self.edits.append(Edit(use.at, end, text))
