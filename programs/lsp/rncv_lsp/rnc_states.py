"""Where the reader of a schema is between two parts of a text. What a part says depends on the inner frames before it, and tells grammars and files by how far
around the part they are. So it holds wherever the same is open: deeper in other braces, or behind another grammar."""
from __future__ import annotations

import itertools
from typing import Iterator, NamedTuple, Optional, Tuple, Union

# What a frame of the reader is for: components of a grammar, patterns in braces or parentheses, parameters, a class of names, an annotation.
CONTENT, PATTERN, ROUND, PARAMS, CLASS, SQUARE = "content", "pattern", "round", "params", "class", "square"


class Frame(NamedTuple):
    """What is open. `words` is the file of an `include`, a datatype, or the role of names; or the number of a frame around the part, counted from the
    innermost one, that has the file. `is_in_definition`: a definition around it is open. `is_part`: it is in the outline."""

    kind: str
    scope: int = 0
    words: Union[str, int, None] = None
    is_in_definition: bool = False
    is_part: bool = False


class State(NamedTuple):
    """Where the reader is between two parts of a text, how many grammars it has seen, and whether a pattern must come next. `lead` says how long before the
    end of the part the documentation and annotations of the next component begin, or 0 if there are none, and `last` where the last token before them ends."""

    frames: Tuple[Frame, ...] = (Frame(CONTENT),)
    is_in_definition: bool = False
    scopes: int = 1
    expects: bool = False
    lead: int = 0
    last: int = 0

    def scopes_around(self) -> Iterator[int]:
        """The grammars that are open, the innermost first."""
        last = -1
        for frame in reversed(self.frames):
            if frame.scope != last:
                last = frame.scope
                yield last

    def scope(self, number: int) -> int:
        """The number in the file of a grammar that has this number for the part behind the state: from 1 those that begin in the part, 0 the innermost one
        around it, and -1 the one around that."""
        return self.scopes + number - 1 if number > 0 else next(itertools.islice(self.scopes_around(), -number, None))

    def words(self, words: Union[str, int, None]) -> Optional[str]:
        """The words that are meant for the part behind the state."""
        return self.frames[-1 - words].words if isinstance(words, int) else words  # type: ignore[return-value]


def relative(state: State, count: int) -> State:
    """A state as a part behind it sees it, with at most so many of the inner frames."""
    frames, number, scope = [], 0, state.frames[-1].scope
    for height, frame in enumerate(reversed(state.frames[-count:])):
        number, scope = number - (frame.scope != scope), frame.scope
        frames.append(frame._replace(scope=number, words=height if frame.kind == CONTENT else frame.words))
    return state._replace(frames=tuple(reversed(frames)), scopes=1)


class Used(NamedTuple):
    """What counts of a state for the part behind it: its inner frames, of which the outermost is not closed in the part, and whether there are no others."""

    frames: Tuple[Frame, ...]
    is_whole: bool

    def is_in(self, state: State) -> bool:
        """Whether a state has these frames."""
        count, more = len(self.frames), len(state.frames) - len(self.frames)
        if more < 0 or (self.is_whole and more > 0):
            return False
        number, scope = 0, state.frames[-1].scope
        for height in range(1, count + 1):
            mine, frame = self.frames[-height], state.frames[-height]
            number, scope = number - (frame.scope != scope), frame.scope
            if mine.kind != frame.kind or mine.scope != number or (frame.kind != CONTENT and mine.words != frame.words):
                return False
            if height < count and mine[3:] != frame[3:]:
                return False
        return True

    def behind(self, after: State, state: State) -> State:
        """The state behind a part that has this state before it, if for the part the inner frames behind it are these."""
        outer, inner = state.frames[:len(state.frames) - len(self.frames) + 1], after.frames[1:]
        scopes = {scope: state.scope(scope) for scope in {frame.scope for frame in inner}}
        placed = tuple(frame._replace(scope=scopes[frame.scope], words=state.words(frame.words)) for frame in inner)
        return after._replace(frames=outer + placed, scopes=state.scopes + after.scopes - 1)
