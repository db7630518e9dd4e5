"""Makes a trial with a fault smaller, while it still shows the fault."""
import random
import time

import documents
from matching import in_class
from schemas import EMPTY, NAMESPACES, NOT_ALLOWED, TEXT, Schema, children, count, with_children, without_unused

SECONDS = 60


def reduced(trial, fails):
    """The smallest trial with the fault that is found within a minute."""
    end = time.monotonic() + SECONDS
    size = None
    while size != size_of(trial) and time.monotonic() < end:
        size = size_of(trial)
        for variants in (fewer_features, inner_elements, fewer_namespaces, fewer_lines, fewer_patterns, simpler_names):
            trial = first_that_fails(trial, variants, fails, end)
    return trial


def size_of(trial):
    return len(trial.features), len(trial.lines), trial.schema.size(), len(repr(vars(trial.schema))), sum(map(len, trial.lines))


def first_that_fails(trial, variants, fails, end):
    """Replaces the trial by a smaller variant that fails too, as often as there is one."""
    found = True
    while found and time.monotonic() < end:
        found = next((it for it in variants(trial) if size_of(it) < size_of(trial) and time.monotonic() < end and fails(it)), None)
        trial = found or trial
    return trial


def fewer_features(trial):
    yield trial.but(features=())
    for name in trial.features:
        yield trial.but(features=tuple(it for it in trial.features if it != name))


def lines_of(root):
    return documents.lines_of(root, random.Random(1))


def below(pattern):
    """All patterns in a pattern."""
    for it in children(pattern):
        yield it
        yield from below(it)


def inner_elements(trial):
    """Uses an element of the schema as the start, and an element of the document as the root."""
    root = documents.tree_of(trial.lines)
    patterns = [it for body in (trial.schema.start, *trial.schema.definitions.values()) for it in (body, *below(body)) if it[0] == "element"]
    for element in list(documents.elements(root))[1:] if root else []:
        for pattern in patterns:
            if in_class(pattern[1], element[0]):
                yield trial.but(schema=without_unused(Schema(pattern, trial.schema.definitions)), lines=lines_of(element))


def fewer_namespaces(trial):
    """Replaces a namespace by the empty one, in the schema and in the document."""
    root = documents.tree_of(trial.lines)
    if root is None:
        return
    for uri in NAMESPACES[1:]:
        schema = Schema(without(trial.schema.start, uri), {name: without(it, uri) for name, it in trial.schema.definitions.items()})
        yield trial.but(schema=schema, lines=lines_of(without(root, uri)))


def without(value, uri):
    """A pattern or an element in which the empty uri replaces this one."""
    if isinstance(value, (tuple, list)):
        return type(value)(without(it, uri) for it in value)
    return "" if value == uri else value


def fewer_lines(trial):
    """Removes consecutive lines, a whole element, or only the start and the end line of an element."""
    lines = trial.lines
    size = len(lines) // 2
    while size > 0:
        for at in range(0, len(lines) - size + 1, size):
            yield trial.but(lines=lines[:at] + lines[at + size:])
        size //= 2
    for start, line in enumerate(lines):
        if line[:1] == "(":
            for end in (it for it in range(start + 1, len(lines)) if lines[it] == ")" + line[1:]):
                yield trial.but(lines=lines[:start] + lines[end + 1:])
                yield trial.but(lines=lines[:start] + lines[start + 1:end] + lines[end + 1:])


def fewer_patterns(trial):
    schema = trial.schema
    for pattern in smaller(schema.start):
        yield trial.but(schema=without_unused(Schema(pattern, schema.definitions)))
    for name, body in schema.definitions.items():
        for pattern in smaller(body):
            yield trial.but(schema=without_unused(Schema(schema.start, {**schema.definitions, name: pattern})))
        if schema.start == ("ref", name):
            yield trial.but(schema=without_unused(Schema(body, schema.definitions)))


def smaller(pattern):
    """Patterns in which a part is removed, or replaced by a simpler one."""
    inner = children(pattern)
    yield from inner
    if count(pattern) > 1:
        yield from (it for it in (EMPTY, TEXT, NOT_ALLOWED))
    if pattern[0] == "ref":
        yield EMPTY
    if pattern[0] in ("choice", "group", "interleave") and len(inner) > 2:
        yield from ((pattern[0], tuple(inner[:at] + inner[at + 1:])) for at in range(len(inner)))
    if pattern[0] == "data":
        yield from [("data", pattern[1], (), pattern[3]), (*pattern[:3], None)]
    for at, it in enumerate(inner):
        for other in smaller(it):
            yield with_children(pattern, inner[:at] + [other] + inner[at + 1:])


def simpler_names(trial):
    """Uses a simpler name class at one place, or a shorter text in one line."""
    schema = trial.schema
    for pattern in renamed(schema.start):
        yield trial.but(schema=Schema(pattern, schema.definitions))
    for name, body in schema.definitions.items():
        for pattern in renamed(body):
            yield trial.but(schema=Schema(schema.start, {**schema.definitions, name: pattern}))
    for at, line in enumerate(trial.lines):
        if line[0] == "-" and len(line) > 1:
            yield trial.but(lines=trial.lines[:at] + [line[:2] if len(line) > 2 else "-"] + trial.lines[at + 1:])


def renamed(pattern):
    if pattern[0] in ("element", "attribute"):
        name_class = pattern[1]
        simpler = list(name_class[1]) if name_class[0] == "alternatives" else [("any", None)] if name_class[-1] and name_class[0] != "name" else []
        yield from ((pattern[0], it, pattern[2]) for it in simpler)
    inner = children(pattern)
    for at, it in enumerate(inner):
        for other in renamed(it):
            yield with_children(pattern, inner[:at] + [other] + inner[at + 1:])


def reduced_parts(parts, fails, end):
    """The shortest list of parts with the fault that is found until `end`. It removes runs of parts, long ones first, and then two parts that are apart."""
    size = len(parts) // 2
    while size > 0 and time.monotonic() < end:
        at, before = 0, len(parts)
        while at + size <= len(parts) and time.monotonic() < end:
            fewer = parts[:at] + parts[at + size:]
            if fails(fewer):
                parts = fewer
            else:
                at += size if size > 8 else 1
        if size > 8:
            size //= 2
        elif len(parts) == before:
            size -= 1
    return without_pairs(parts, fails, end) if len(parts) < 60 else parts


def without_pairs(parts, fails, end):
    """Removes two parts at once, such as the tags of an element."""
    first = 0
    while first < len(parts):
        for second in range(first + 2, len(parts)):
            fewer = parts[:first] + parts[first + 1:second] + parts[second + 1:]
            if time.monotonic() < end and fails(fewer):
                parts = fewer
                break
        else:
            first += 1
    return parts


def reduced_bytes(data, splits, fails, seconds=SECONDS):
    """The smallest bytes with the fault that are found in time. Each of `splits` gives the parts of bytes: large parts are removed first."""
    end = time.monotonic() + seconds
    for split in splits:
        data = b"".join(reduced_parts(split(data), lambda parts: fails(b"".join(parts)), end))
    return data
