"""Reads the files of a schema and the files that they mention, compares them with the profile, and writes copies. Nothing here is proved."""
import os
import re
import urllib.parse

from compact_tokens import LINE_END, NoToken, Places, decoded, tokens
from profile_reader import Edit, Finding, Reader, Traits
from profile_types import BOTH, LESS, MORE, SAME

SIZE, COUNT = 1_048_576, 64
MOST_BYTES = 16_777_216  # of a file that is read at all: a device may have no end
MARK = re.compile(r"^# rncv-profile: [0-9]+ (?:datatypes?|ID-types?) (?:loosened|tightened|marked), see ", re.M)
UNSURE = "the same if they were ISO 8859-1"


class OutsideCopy(Exception):
    """A copy would replace a file of the schema."""


class SchemaFile:
    """A file of a schema: its text and what is found in it. `path` is its name in messages, `name` is the name of its copy."""

    def __init__(self, path, data):
        self.path, self.name = path, os.path.basename(path)
        encoding = decoded(data)
        self.text, self.places = encoding.text, Places(encoding.text)
        self.findings, self.edits, self.mentions, self.reader = [], [], [], None
        self.is_cut_short = False
        if encoding.reported:
            self.findings.append(Finding(encoding.at, encoding.reported, encoding.change, SAME if encoding.sure else UNSURE))
        if len(data) > SIZE:
            self.findings.append(Finding(0, f"the file has more than {SIZE:,} bytes"))
        if self.text.lstrip().startswith("<"):
            self.findings.append(Finding(0, "the XML syntax of RELAX NG is not served (trang writes the compact one)"))
        else:
            self.read()

    def read(self):
        """Finds what single tokens show. Datatypes are judged later, when all files are read."""
        try:
            found, escapes = tokens(self.text)
        except NoToken as fault:
            self.findings.append(Finding(fault.offset, f"{fault.what}: the file is not read further"))
            self.is_cut_short = True
            return
        for escape in escapes:
            if escape.shorter:
                self.findings.append(Finding(escape.start, "an escape with more than one x or more than 6 digits is not served", escape.shorter))
                self.edits.append(Edit(escape.start, escape.end, escape.shorter))
        self.reader = Reader(found).read()
        self.mentions = self.reader.mentions

    def resolve(self, href):
        """The path of a mention, relative to this file; None for a file that would have to be fetched."""
        try:
            parts = urllib.parse.urlsplit(href)
        except ValueError:
            return None
        if parts.scheme not in ("", "file") or parts.netloc not in ("", "localhost"):
            return None
        return os.path.normpath(os.path.join(os.path.dirname(self.path), urllib.parse.unquote(parts.path)))

    def collect(self):
        """Adds what the reader found."""
        if self.reader:
            self.findings += self.reader.findings
            self.edits += self.reader.edits

    def copy(self):
        """The text with its edits. An edit inside another edit is ignored."""
        parts, last = [], 0
        for edit in sorted(self.edits, key=lambda edit: (edit.start, -edit.end)):
            if edit.start >= last:
                before = self.text[last:edit.start]
                parts += [before, edit.text] if edit.text else self.gap(before, edit)
                last = edit.end
        return "".join([*parts, self.text[last:]])

    def gap(self, before, edit):
        """The text before an omitted part, without blanks at a line's end, and its replacement: the line ends of the part, or a blank between tokens."""
        after = self.text[edit.end:edit.end + 1]
        ends = "\n" * len(LINE_END.findall(self.text[edit.start:edit.end]))
        return [before.rstrip(" \t") if after in ("", "\r", "\n") else before, ends or (" " if after.strip() else "")]


def quoted(name):
    """A literal of the compact syntax. No file has a name with all four kinds of quotes."""
    return next((quote + name + quote for quote in ('"', "'", '"""', "'''") if quote not in name), f'"{name}"')


def content(path):
    """The bytes of a file."""
    with open(path, "rb") as file:
        data = file.read(MOST_BYTES + 1)
    if len(data) > MOST_BYTES:
        raise ValueError(f"it has more than {MOST_BYTES:,} bytes")
    return data


def load(schemas):
    """The files by path, in the order of their first mention, and a line for each file that cannot be read."""
    files, missing = {}, []
    waiting = [(os.path.normpath(schema), schema) for schema in reversed(schemas)]
    asked = set()
    while waiting:
        path, place = waiting.pop()
        if path in asked:
            continue
        asked.add(path)
        try:
            file = files[path] = SchemaFile(path, content(path))
        except (OSError, ValueError) as fault:
            missing.append(f"{place}: cannot read {path!r}: {getattr(fault, 'strerror', fault)}")
            continue
        for mention in reversed(file.mentions):
            target = file.resolve(mention.href)
            if target is not None:
                waiting.append((target, ":".join(map(str, (path, *file.places.of(mention.start))))))
    return files, missing


def flat_names(paths):
    """A name without directories for each path. A number makes equal names different."""
    names, taken = {}, set()
    for path in paths:
        stem, end = os.path.splitext(os.path.basename(path))
        name, number = stem + end, 1
        while name in taken:
            number += 1
            name = f"{stem}-{number}{end}"
        taken.add(name)
        names[path] = name
    return names


def judge_mentions(file, names):
    """Finds the mentions that are not, byte for byte, the flat name of their file."""
    for mention in file.mentions:
        target = file.resolve(mention.href)
        if target is None:
            file.findings.append(Finding(mention.start, f"the file {mention.href} would have to be fetched"))
        elif mention.href != names.get(target, mention.href):
            text = quoted(names[target])
            file.findings.append(Finding(mention.start, f"files are named without directories and escapes, not as {mention.href}", text))
            file.edits.append(Edit(mention.start, mention.end, text))


def read_all(schemas, is_larger=False):
    """All files of a schema with what is found in them, and a line for each file that cannot be read. `is_larger` says that the larger set of datatypes is
    served."""
    files, missing = load(schemas)
    names = flat_names(files)
    traits = Traits()
    for file in files.values():
        traits = traits.with_those_of(file.reader.traits()) if file.reader else traits
    for file in files.values():
        file.name = names[file.path]
        if file.reader:
            file.reader.judge_types(traits, MARK.search(file.text) is not None, is_larger)
        file.collect()
        judge_mentions(file, names)
    if len(files) > COUNT:
        next(iter(files.values())).findings.append(Finding(0, f"the schema has more than {COUNT} files"))
    return list(files.values()), missing


# The words for copies that accept more documents than the original, for those that accept fewer, and for those in which datatypes of IDs are marked, so that
# `rncv-xml` makes up for what they accept. It looks for these words in the copies.
MARKS = {"loosened": (MORE, BOTH), "tightened": (LESS, BOTH), "marked": (MORE,)}


def changed(file, mark):
    """The findings for which the copy accepts more than the original, or less, or in which it has a marked datatype."""
    return [finding for finding in file.findings if finding.change and finding.effect in MARKS[mark] and finding.is_marked == (mark == "marked")]


def counted(count, mark):
    """So many datatypes that are loosened, tightened or marked, in words."""
    return f"{count} {'ID-type' if mark == 'marked' else 'datatype'}{'' if count == 1 else 's'} {mark}"


def marked(file, profile):
    """The copy's text. A comment at its end says if it accepts more than the original, and another one if it accepts less."""
    text = file.copy()
    for mark in MARKS:
        count = len(changed(file, mark))
        gap = "" if text == "" or text.endswith("\n") else "\n"
        text += f"{gap}# rncv-profile: {counted(count, mark)}, see {profile}\n" if count else ""
    return text


def change_of(finding):
    """What the copy has instead, and what it then accepts, in words."""
    return f"the copy has {finding.change}, and accepts {finding.effect}{' (rncv-xml checks the IDs)' if finding.is_marked else ''}"


def profile_lines(files):
    """A line for each finding for which a copy accepts more than the original, or less."""
    for file in files:
        for finding in sorted(file.findings, key=lambda finding: finding.at):
            if finding.change and finding.effect in (MORE, LESS, BOTH):
                row, column = file.places.of(finding.at)
                yield f"{file.path}:{row}:{column}: {finding.what}; {change_of(finding)}\n"


def write_whole(pairs):
    """Writes files so that nobody reads a part of one: each beside its place first, and then all are renamed. A file that has its bytes stays as it is."""
    beside = []
    try:
        for number, (target, data) in enumerate(pairs):
            if not target.is_symlink() and target.is_file() and target.read_bytes() == data:
                continue
            new = target.with_name(f".rncv-profile.{os.getpid()}.{number}")
            beside.append((new, target))
            new.write_bytes(data)
        while beside:
            os.replace(*beside[0])
            beside.pop(0)
    finally:
        for new, _ in beside:
            new.unlink(missing_ok=True)


def copied(files, folder):
    """Writes the copies and returns their paths, the main file first. Does not overwrite any file of the schema. If a copy accepts more than the
    original, or less, a file beside the copies says so, and its path is the last one."""
    folder.mkdir(parents=True, exist_ok=True)
    profile = os.path.splitext(files[0].name)[0] + ".profile.txt"
    lines = "".join(profile_lines(files))
    targets = [folder / file.name for file in files] + [folder / profile] * bool(lines)
    for target in targets:
        if target.exists() and any(os.path.samefile(target, file.path) for file in files):
            raise OutsideCopy(f"{target} is a file of the schema; copies go to another directory")
    texts = [marked(file, profile) for file in files] + [lines] * bool(lines)
    write_whole([(target, text.encode("utf-8", "replace")) for target, text in zip(targets, texts)])
    return [str(target) for target in targets]
