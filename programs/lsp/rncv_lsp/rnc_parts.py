"""The outline of a file that changes: it is read in parts, and after a change only the parts that have changed are read again."""
from __future__ import annotations

import bisect
import functools
import itertools
import re
import threading
from typing import Container, Dict, Iterator, List, NamedTuple, Optional, Tuple

from rncv_lsp.outside import KEYWORDS
from rncv_lsp.rnc_outline import DEFINE, LIBRARY, SPACE, Name, Opened, read
from rncv_lsp.rnc_part import Known, Part, Scan, is_settled, scan_of
from rncv_lsp.rnc_states import State
from rncv_lsp.rnc_tokens import Lexed, go_on, lexed
from rncv_lsp.texts import Piece, Text

# A line end in front of a definition, an element or an attribute.
BOUNDARY = re.compile(r"(?:\r\n|\r|\n)(?=[ \t]*(?:(?:element|attribute)[ \t]|(\\?[^\W\d][-.\w]*)[ \t]*[|&]?=))")
# An escape of a quote: with one a file is not cut, since only its tokens show where a literal ends.
QUOTE = re.compile(r"\\x+\{0*2[27]\}")
# Parts begin at least so many characters from one another, but for the first one in a piece of the text.
PART_LENGTH = 1_024


class Component(NamedTuple):
    """A part of the outline, and where it ends. `around` is the index of the one around it, or -1; `depth` is 1 for one that is in no other."""

    opened: Opened
    end: int
    around: int
    depth: int


def places_in(piece: Piece) -> List[int]:
    """Where parts may begin in a piece: in front of the first definition or element, and of others that are far enough from the last one."""
    found: List[int] = []
    for match in BOUNDARY.finditer(piece.text):
        is_far = not found or match.end() >= found[-1] + PART_LENGTH
        if is_far and (match[1] in (None, "start") or match[1] not in KEYWORDS):
            found.append(match.end())
    return found


class Same(NamedTuple):
    """What a text has of the one before: so many parts at its beginning, up to a place, and others up to its end, which now begin at these places."""

    count: int
    place: int
    starts: List[int]


def same_parts(before: Outline, lines: Text) -> Same:
    """What a text has of the one before. The last part before what differs is left out, since what follows it counts for where it ends; and so is each part
    behind one where a literal has no end. A part begins behind a line end, which has to be the same too."""
    first, last = before.lines.shared(lines)
    upto = max(bisect.bisect_right(before.starts, first) - 2, 0)
    count = next((index for index, part in enumerate(before.parts[:upto]) if part.scan.open), upto)
    place, by = before.starts[count] if count else 0, lines.length - before.lines.length
    later = bisect.bisect_right(before.starts, max(before.lines.length - last, place - by))
    return Same(count, place, [start + by for start in before.starts[later:]])


class Outline:
    """The names of a file, its parts, and the state before each. One that is only begun is read step by step, by any thread, before anything is asked."""

    def __init__(self, lines: Text, before: Optional[Outline] = None, is_begun: bool = False) -> None:
        self.lines = lines
        self.starts: List[int] = []
        self.parts: List[Part] = []
        self.states: List[State] = []
        # The grammars around a part, by its number, where it closes some. Where parts may begin in the pieces of the text; the outline before, which is whole;
        # what is known of parts; and the tokens that were found last, by their place and text.
        self._around: Dict[int, List[int]] = {}
        self._places: Dict[Piece, List[int]] = {}
        self._old: Optional[Outline] = before
        self._known = before._known if before is not None else Known()
        self._fresh: Tuple[int, str, Lexed] = 0, "", lexed("")
        self.is_whole = False
        self._lock, self._steps = threading.Lock(), self._read()
        while not is_begun and self.advance():
            pass

    def advance(self) -> bool:
        """Reads the next part. False: all are read, or a fault has ended the reading."""
        with self._lock:
            return next(self._steps, False)

    def _boundaries(self) -> List[int]:
        """Where parts may begin."""
        found, begin = [], 0  # type: List[int], int
        for piece in self.lines.pieces:
            places = self._old._places.get(piece) if self._old is not None else None
            places = self._places[piece] = places_in(piece) if places is None else places
            found += [begin + place for place in places]
            begin += piece.length
        return found

    def _read(self) -> Iterator[bool]:
        """Reads the text, and stops behind each part. Parts of the text before are taken at its beginning, and behind the same state at its end."""
        is_cut = not QUOTE.search(self.lines.text)
        same = same_parts(self._old, self.lines) if self._old is not None and is_cut else Same(0, 0, [])
        parts, states = (self._old.parts, self._old.states) if self._old is not None else ([], [])
        self.parts, self.states = parts[:same.count], states[:same.count]
        self.starts = self._old.starts[:same.count] if self._old is not None else []
        places = self._places_behind(same, self._boundaries() if is_cut else [])
        index, last = 0, len(places) - 1
        state = self.parts[-1].after(self.states[-1]) if self.parts else State()
        while index < last:
            known = index - last if index >= last - len(same.starts) else 0  # counted from the end of the parts
            if known and states[known] == state:
                self._add(places[index:last], parts[known:], states[known:])
                break
            end, part = self._next_part(places, index, state, parts[known] if known else None)
            self._add([places[index]], [part], [state])
            index, state = end, part.after(state)
            yield True
        self._known.move(parts[same.count:], self.parts[same.count:])
        self._old, self.is_whole = None, True

    def _places_behind(self, same: Same, places: List[int]) -> List[int]:
        """Where parts may begin behind those of the text before, up to its end."""
        begin, until = same.place, same.starts[0] if same.starts else self.lines.length
        return [begin, *(place for place in places if begin < place < until), *same.starts, self.lines.length]

    def _add(self, starts: List[int], parts: List[Part], states: List[State]) -> None:
        """Adds parts."""
        self.starts += starts
        self.parts += parts
        self.states += states

    def _next_part(self, places: List[int], index: int, state: State, before: Optional[Part]) -> Tuple[int, Part]:
        """The part that begins at a place, and the index of the place where it ends. The text there may be that of a part before the change."""
        if before is not None and before.is_behind(state):
            return index + 1, before
        end, words, scan = self._end_of_part(places, index)
        part = self._known.part(words, state)
        if part is None:
            part = Part(words, state, scan, read(words, self._tokens(places[index], words), state))
            self._known.add(part)
        return end, part

    def _end_of_part(self, places: List[int], index: int) -> Tuple[int, str, Scan]:
        """The index of the place where a part ends, its text and its tokens: the next one where it is settled, and no literal is open."""
        text, begin, end, last = self.lines.text, places[index], index + 1, len(places) - 1
        words = text[begin:places[end]]
        known = self._known.scan(words)
        if known is not None and (end == last or (known.is_settled and not any(self.has_end(begin + at) for at in known.open))):
            return end, words, known
        found, length = self._tokens(begin, words), len(words)
        while end < last:
            at = found.open[-1] if found.open else 0
            until = self._end_of_literal(begin + at) if found.open else -1
            if until < 0 and is_settled(found):
                break
            at, end = at if until >= 0 else length, max(end + 1, bisect.bisect_left(places, until))
            length = places[end] - begin
            go_on(found, at, text[begin + at:begin + length], lambda place: self.has_end(begin + place))
        self._fresh = begin, text[begin:begin + length], found
        return end, self._fresh[1], scan_of(found, self._fresh[1])

    def _end_of_literal(self, place: int) -> int:
        """Where the literal ends that begins with three quotes at a place; -1 if it has no end."""
        text = self.lines.text
        end = text.find(text[place:place + 3], place + 3)
        return end + 3 if end >= 0 else -1

    def has_end(self, place: int) -> bool:
        """Whether the literal has an end that begins with three quotes at a place."""
        return self._end_of_literal(place) >= 0

    def _tokens(self, begin: int, words: str) -> Lexed:
        """The tokens of the text that begins at a place."""
        if self._fresh[:2] != (begin, words):
            self._fresh = begin, words, lexed(words, lambda place: self.has_end(begin + place))
        return self._fresh[2]

    def placed(self) -> Iterator[Tuple[int, Part]]:
        """The parts, and where they begin."""
        return zip(self.starts, self.parts)

    @functools.cached_property
    def aboves(self) -> List[int]:
        """The lines in which the parts begin, counted from 0."""
        return [0, *itertools.accumulate(part.line_count for part in self.parts[:-1])]

    def with_text(self, text: str) -> Iterator[Name]:
        """The names with a text, at their places in the file."""
        for number, part in enumerate(self.parts):
            for name in part.by_text.get(text, ()):
                yield self._placed_name(number, name)

    def with_role(self, *roles: str) -> Iterator[Name]:
        """The names with one of these roles, at their places in the file, those of each part in the order of the roles."""
        for number, part in enumerate(self.parts):
            for role in roles:
                for name in part.by_role.get(role, ()):
                    yield self._placed_name(number, name)

    def _placed_name(self, number: int, name: Name) -> Name:
        """A name of the part with this number, as it is in the file."""
        begin = self.starts[number]
        role, text, start, end, scope, detail = name
        return Name(role, text, start + begin, end + begin, self._scope(number, scope), self.states[number].words(detail))

    def _scope(self, number: int, scope: int) -> int:
        """The grammar of the file that the part with this number means."""
        state = self.states[number]
        if scope > 0:
            return state.scope(scope)
        if number not in self._around and scope < 0:
            self._around[number] = list(state.scopes_around())
        return self._around[number][-scope] if scope < 0 else state.frames[-1].scope

    def defined(self, scopes: Container[int]) -> List[str]:
        """The names of the definitions in these grammars of the file. Their places are not counted, which takes most of the time of many names."""
        found: List[str] = []
        for number, part in enumerate(self.parts):
            wanted = [scope for scope in part.defined if self._scope(number, scope) in scopes]
            if len(wanted) == 1:
                found += part.defined[wanted[0]]
            elif wanted:
                found += [name.text for name in part.by_role[DEFINE] if name.scope in wanted]
        return found

    def at(self, offset: int) -> List[Name]:
        """The names at an offset, the shortest first. A name ends behind its last character, unless another one begins there."""
        index = max(0, bisect.bisect_right(self.starts, offset) - 1)
        if index >= len(self.parts):
            return []
        begin, part = self.starts[index], self.parts[index]
        upto = bisect.bisect_right(part.starts, offset - begin)
        near = [self._placed_name(index, name) for name in part.facts.names[max(0, upto - 8):upto]]
        inside = [name for name in near if name.start <= offset < name.end]
        return sorted(inside or [name for name in near if offset == name.end], key=lambda name: name.end - name.start)

    @functools.cached_property
    def components(self) -> List[Component]:
        """The parts of the outline, in the order of their beginnings."""
        found: List[Tuple[Opened, int, int]] = []
        ends: List[int] = []
        path: List[int] = []
        for begin, part in self.placed():
            for event in part.facts.events:
                if not isinstance(event, int):
                    kind, text, start, name_start, name_end, detail = event
                    opened = Opened(kind, text, start + begin, name_start + begin, name_end + begin, detail)
                    found.append((opened, path[-1] if path else -1, len(path) + 1))
                    path.append(len(ends))
                    ends.append(self.lines.length)
                elif path:
                    ends[path.pop()] = event + begin
        return [Component(opened, max(end, opened.name_end), around, depth) for (opened, around, depth), end in zip(found, ends)]

    @functools.cached_property
    def late_ends(self) -> Dict[Tuple[int, int], int]:
        """Where the components end that are open behind the part in which they begin, by the number of the part and their index there."""
        path: List[Tuple[int, int]] = []
        found: Dict[Tuple[int, int], int] = {}
        for number, (begin, part) in enumerate(self.placed()):
            for end in part.spans.outer:
                if path:
                    found[path.pop()] = begin + end
            path += [(number, index) for index in part.spans.open]
        for number, index in path:
            found[number, index] = self.lines.length
        return {(number, index): max(end, self.starts[number] + self.parts[number].opened[index].name_end) for (number, index), end in found.items()}

    def spans_in(self, number: int) -> Iterator[Tuple[Opened, int]]:
        """The components that begin in a part, and where each ends. Both count from the beginning of the part."""
        part, begin = self.parts[number], self.starts[number]
        for index, (opened, end) in enumerate(zip(part.opened, part.spans.ends)):
            yield opened, end if end >= 0 else self.late_ends[number, index] - begin

    def component(self, name_start: int) -> Optional[Tuple[int, int]]:
        """Where a component begins and ends whose name is at a place: with its documentation."""
        number = max(0, bisect.bisect_right(self.starts, name_start) - 1)
        for opened, end in self.spans_in(number) if self.parts else ():
            if opened.name_start == name_start - self.starts[number]:
                return opened.start + self.starts[number], end + self.starts[number]
        return None

    @functools.cached_property
    def enclosing(self) -> Dict[int, int]:
        """The grammar around each grammar of the file, by their numbers."""
        return {self._scope(number, inner): self._scope(number, outer) for number, part in enumerate(self.parts) for inner, outer in part.facts.scopes}

    @functools.cached_property
    def is_grammar(self) -> bool:
        """Whether the file has components. Otherwise it is a pattern, whose names belong to the grammar that mentions it."""
        return any(self._scope(number, owner) == 0 for number, part in enumerate(self.parts) for owner in part.facts.owners)

    @functools.cached_property
    def spaces(self) -> Dict[str, Optional[str]]:
        """The namespaces of the prefixes, and the default one under the empty prefix."""
        return {name.text: name.detail for name in self.with_role(SPACE)}

    @functools.cached_property
    def libraries(self) -> Dict[str, Optional[str]]:
        """The libraries of datatypes of the prefixes."""
        return {name.text: name.detail for name in self.with_role(LIBRARY)}
