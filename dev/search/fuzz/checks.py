"""What must hold for every schema and document. Each check returns what is wrong, or None."""
import random

import documents
import matching
from schemas import NAMESPACES, children
from writing import FEATURES, ORDER, UNDEFINED, written


class Trial:
    """A schema, the seed and features of its written form, a document, and the document that it was made from."""

    def __init__(self, schema, seed, features, lines, source):
        self.schema, self.seed, self.features, self.lines, self.source = schema, seed, tuple(features), list(lines), source

    def but(self, **changes):
        return Trial(**{**vars(self), **changes})

    @property
    def plain(self):
        return written(self.schema)

    @property
    def dressed(self):
        return written(self.schema, self.seed, self.features)

    @property
    def document(self):
        return documents.as_bytes(self.lines)


class Bench:
    """The programs that the checks use, and the counts."""

    def __init__(self, program, jing=None, library=None):
        self.program, self.jing, self.library = program, jing, library
        self.counts = dict.fromkeys(["schemas", "refused", "valid", "invalid", "reported at once", "malformed", "continuations", "by jing"], 0)


def check_answers(bench, trial):
    """Each run ends soon, with one of the answers."""
    for files in (trial.plain, trial.dressed):
        for command in ("check", "simple", "valid"):
            fault = bench.program.run(command, files, trial.document if command == "valid" else b"").fault
            if fault:
                return fault
    return None


ODD = ["{", "}", "(", ")", "[", "]", "|", "&", ",", "=", "?", "*", "-", "~", '"', "'", "#", "\\", "\\x{61}", "\\x{0}", ">>", "start", "grammar", "parent x", "x",
       "include", "external", "mixed", "text", "\x00", "\x01", "\u00e9", "inherit", "xsd:", "p:*", "list", "empty", "div", "\n"]


def broken(text, chance):
    """The bytes of a text with a part removed, doubled or inserted, perhaps with a byte that is not UTF-8."""
    at, length = chance.randrange(len(text) + 1), chance.choice([0, 1, 1, 2, 5, 20])
    put = chance.choice([chance.choice(ODD), "", text[at:at + length] * 2])
    changed_text = (text[:at] + put + text[at + length:]).encode()
    if chance.random() < 0.05:
        at = chance.randrange(len(changed_text) + 1)
        changed_text = changed_text[:at] + bytes([chance.choice([0x80, 0xC3, 0xED, 0xF5, 0xFF])]) + changed_text[at:]
    return changed_text


def check_broken(bench, trial):
    """Broken schemas and documents get an answer, all commands refuse a schema in the same way, and pieces do not change the answer."""
    chance = random.Random(f"{trial.seed}/{trial.lines!r}")
    files, document = trial.dressed, broken("".join(it + "\n" for it in trial.lines), chance)
    if chance.random() < 0.7:
        at = chance.randrange(len(files))
        files[at] = (files[at][0], broken(files[at][1], chance))
    answers = {command: bench.program.run(command, files, document if command == "valid" else b"") for command in ("check", "simple", "valid")}
    for answer in answers.values():
        if answer.fault:
            return f"{answer.fault}: {files!r} {document!r}"
    if len({answer.kind == "refused" and answer.line for answer in answers.values()}) > 1:
        return f"{[it.line[:80] for it in answers.values()]}: {files!r}"
    said = bench.program.run("valid", files, document, piece=1).line
    return None if said == answers["valid"].line else f"`{answers['valid'].line}`, and in pieces of a byte `{said}`: {files!r} {document!r}"


def check_matcher(bench, trial):
    """The plain matcher agrees."""
    said = bench.program.run("valid", trial.plain, trial.document)
    if said.kind == "refused":
        return None
    wanted = documents.verdict(matching.Patterns(trial.schema), trial.lines)
    return None if said.kind == wanted else f"`{said.line}`, and the plain matcher says {wanted}"


def check_jing(bench, trial):
    """jing agrees on the schema in this written form, and on the document."""
    if bench.jing is None:
        return None
    trial = trial.but(features=[it for it in trial.features if it != UNDEFINED])
    said = bench.program.run("valid", trial.dressed, trial.document)
    if said.line in ("refused S2", "refused S7", "refused S9", "refused S17"):
        return None
    peer = bench.jing.schema(trial.dressed)
    if peer.startswith("refused invalid parameter"):
        # jing refuses a lower bound above the upper one; by the standard, such a type allows nothing
        return None
    if peer.startswith("refused") != (said.kind == "refused"):
        return f"`{said.line}`, and jing says of the schema: {peer}"
    if said.kind not in ("valid", "invalid"):
        return None
    bench.counts["by jing"] += 1
    peer = bench.jing.document(documents.as_xml(trial.lines))
    return None if peer.split(" ")[0] == said.kind else f"`{said.line}`, and jing says: {peer}"


def check_simple(bench, trial):
    """The simple form of the simple form is itself, and it gives the same answer as the schema."""
    form = bench.program.run("simple", trial.dressed)
    if form.status != 0 or len(form.printed) > 1_048_576:
        return None
    files = [("simple.rnc", form.printed)]
    if bench.program.run("simple", files).printed != form.printed:
        return "the simple form of the simple form is different"
    one, other = (bench.program.run("valid", it, trial.document).line for it in (trial.dressed, files))
    return None if one == other else f"`{one}` by the schema, `{other}` by its simple form"


def check_clothes(bench, trial):
    """A schema gives the same answers with other names, with comments, spread over files and grammars, and in another order."""
    plain = bench.program.run("check", trial.plain).line
    dressed = bench.program.run("check", trial.dressed).line
    if plain != dressed:
        return f"`{plain}`, and in another written form `{dressed}`"
    forms = [bench.program.run("simple", it).printed for it in (trial.plain, trial.dressed)]
    if ORDER not in trial.features and forms[0] != forms[1]:
        return "the simple form is different in another written form"
    one, other = (bench.program.run("valid", it, trial.document).line for it in (trial.plain, trial.dressed))
    return None if one == other else f"`{one}`, and in another written form `{other}`"


def check_order(bench, trial):
    return check_clothes(bench, trial.but(features=tuple(it for it in trial.features if it != ORDER) + (ORDER,)))


def check_pieces(bench, trial):
    """The document in pieces gives the same answer."""
    whole = bench.program.run("valid", trial.dressed, trial.document).line
    for size in (1, 2, 3, 4096):
        said = in_pieces(bench, trial, size)
        if said not in (None, whole):
            return f"`{whole}`, and in pieces of {size} bytes `{said}`"
    return None


def in_pieces(bench, trial, size):
    if bench.library is None:
        return bench.program.run("valid", trial.dressed, trial.document, piece=size).line
    try:
        compiled = bench.library.compile({name: text.encode() for name, text in trial.dressed})
    except bench.library.SchemaError:
        return None
    with compiled as validator:
        return str(validator.validate(trial.document[at:at + size] for at in range(0, len(trial.document), size)))


def reported_line(said):
    return int(said.line.split()[-1])


def check_continuations(bench, trial):
    """After `invalid line N` no other continuation of the first N lines is valid."""
    said = bench.program.run("valid", trial.plain, trial.document)
    if said.kind != "invalid":
        return None
    prefix = trial.lines[:reported_line(said)]
    for lines in continuations(trial, prefix):
        bench.counts["continuations"] += 1
        if bench.program.run("valid", trial.plain, documents.as_bytes(lines)).line == "valid":
            return f"`{said.line}`, but a document with these lines is valid: {lines[len(prefix):]}"
    return None


def check_known(bench, trial):
    """A start tag with a name that no element may have is reported at the first line after the tag, or earlier."""
    said = bench.program.run("valid", trial.plain, trial.document)
    if said.kind != "invalid":
        return None
    line = unknown_line(trial)
    return f"`{said.line}`, but the start tag before line {line} has an unknown name" if line and reported_line(said) > line else None


def unknown_line(trial):
    """The first line after the first start tag with a name that no element of the schema has."""
    classes = [it[1] for it in all_patterns(trial.schema) if it[0] == "element"]
    reader = documents.LineReader(Watching(classes))
    for number, line in enumerate(trial.lines, 1):
        try:
            reader.take(line)
        except documents.Malformed:
            return None
        if reader.judging.is_unknown:
            return number
    return None


class Watching:
    """Replaces `Judging`, and looks only at names."""

    def __init__(self, classes):
        self.classes, self.is_unknown = classes, False

    def open(self, name, attributes):
        self.is_unknown = not any(matching.in_class(it, name) for it in self.classes)

    def close_tag(self):
        pass

    def text(self, text):
        pass

    def end(self):
        pass


def all_patterns(schema):
    waiting = [schema.start, *schema.definitions.values()]
    while waiting:
        it = waiting.pop()
        yield it
        waiting += children(it)


# ---- continuations

def continuations(trial, prefix):
    """Some documents that begin with these lines."""
    chance = random.Random(repr(prefix))
    found = [prefix + trial.source[at:] for at in range(len(trial.source) + 1)]
    found = [it for it in found if is_document(it)]
    chance.shuffle(found)
    yield from found[:6]
    for number in range(5):
        lines = completed(trial.schema, prefix, chance, number > 2)
        if lines:
            yield lines
    for _ in range(2):
        lines = by_chance(trial, prefix, chance)
        if lines:
            yield lines


class Ignoring(Watching):
    def __init__(self):
        super().__init__([])


def read(prefix, judging):
    """A reader that has read the lines; None if they are malformed."""
    reader = documents.LineReader(judging)
    try:
        for line in prefix:
            reader.take(line)
    except documents.Malformed:
        return None
    return reader


def is_document(lines):
    reader = read(lines, Ignoring())
    return reader is not None and reader.is_done


def by_chance(trial, prefix, chance):
    """The prefix, some text lines of the source, and the end tags of all open elements."""
    lines = prefix + [it for it in trial.source if it[0] == "-" and chance.random() < 0.3]
    reader = read(lines, Ignoring())
    if reader is None or reader.is_done:
        return None
    opened = reader.opened + ([reader.tag[0]] if reader.tag else [])
    lines = lines + [")" + it for it in reversed(opened)]
    return lines if is_document(lines) else None


def completed(schema, prefix, chance, with_text):
    """The prefix, completed to a document that is valid by the plain matcher; None if it finds none."""
    patterns = matching.Patterns(schema)
    reader = read(prefix, matching.Judging(patterns))
    if reader is None or reader.is_done:
        return None
    sampler, added = documents.Sampler(patterns, chance), []
    judging = reader.judging
    if reader.tag:
        added = missing_declarations(reader, chance)
        reader.tag[1].extend((it[1:].split(" ")[0], it.split(" ")[1]) for it in added)
        try:
            judging.open(*reader.begin_tag())
        except documents.Malformed:
            return None
    elif with_text and reader.opened:
        added.append("-" + chance.choice(["1", "t", " ", "true"]))
        judging.text(added[0][1:])
    left = judging.left if reader.tag else after_text(judging)
    while reader.opened or not prefix:
        if not sampler.can(left, 4):
            return None
        if not reader.opened:
            root = sampler.root(left)
            return documents.lines_of(root, chance) if root else None
        left, lines = one_more(left, sampler, reader, chance)
        if left is None:
            return None
        added += lines
    return prefix + added


def missing_declarations(reader, chance):
    """Declarations for the prefixes of a tag that are not declared yet."""
    name, attributes = reader.tag
    used = [it.split(":")[0] for it in (name, *(it for it, _ in attributes)) if ":" in it]
    known = {"xmlns", *reader.scopes[-1], *(it[6:] for it, _ in attributes if it.startswith("xmlns:"))}
    return [f"Axmlns:{it} {chance.choice(NAMESPACES[1:])}" for it in dict.fromkeys(used) if it not in known]


def after_text(judging):
    """What is left after the pending text, which may be the whole content or come beside elements."""
    taken = judging.patterns.derived(matching.Patterns.string, judging.left, judging.pending)
    return judging.patterns.choice([judging.left, taken]) if matching.is_blank(judging.pending) else taken


def one_more(left, sampler, reader, chance):
    """Fills and closes the innermost element. Returns what is left after it, and the lines."""
    ways = [it for it in (left.parts if left.kind == "choice" else [left]) if sampler.can(it, 4)]
    way = chance.choice(ways)
    if way.kind != "after":
        return None, []
    attributes, items = sampler.content(way.parts[0], 4)
    if any(uri for (uri, _), _ in attributes) or attributes and not reader.tag:
        return None, []
    writer = documents.LineWriter(chance)
    writer.lines += [f"A{name[1]} {documents.escaped(value)}" for name, value in attributes]
    for it in items:
        writer.text(it) if isinstance(it, str) else writer.element(documents.tidied(it), reader.scopes[-1])
    writer.lines.append(")" + reader.opened.pop())
    reader.scopes.pop()
    reader.tag = None
    return way.parts[1], writer.lines


CHECKS = {"answers": check_answers, "broken": check_broken, "matcher": check_matcher, "simple": check_simple, "clothes": check_clothes, "order": check_order,
          "pieces": check_pieces, "continuations": check_continuations, "known": check_known, "jing": check_jing}
ALL_FEATURES = FEATURES
