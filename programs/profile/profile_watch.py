"""Makes the copies of a schema again after each change of its files. Nothing here is proved."""
import os
import time

from profile_files import MARKS, OutsideCopy, changed, copied, counted, read_all
from program_ends import put_line, report_line, what

PAUSE = 0.5  # seconds between two looks at the files


def stamp(path):
    """What differs after a change of a file; None if there is no file."""
    try:
        found = os.stat(path)
    except (OSError, ValueError):
        return None
    return found.st_mtime_ns, found.st_size, found.st_ino


def paths_of(schemas, files):
    """The paths of all files that were read, and of those that are mentioned and were not there."""
    targets = (file.resolve(mention.href) for file in files for mention in file.mentions)
    return {*map(os.path.normpath, schemas), *(file.path for file in files), *(target for target in targets if target is not None)}


def summary(names, files):
    """The line that says what was written, and how far the copies are from the files."""
    marks = (counted(count, mark) for mark in MARKS for count in [sum(len(changed(file, mark)) for file in files)] if count)
    findings = sum(len(file.findings) for file in files)
    broken = (f"{file.path}:{row}:{column}: {finding.what}" for file in files if file.is_cut_short for finding in file.findings[-1:]
              for row, column in [file.places.of(finding.at)])
    return ", ".join((" ".join(("written:", *names)), f"{findings} finding{'' if findings == 1 else 's'}", *marks, *broken))


class Watch:
    """The copies of a schema in a folder. A file that cannot be read leaves the copies as they are, and is reported once."""

    def __init__(self, schemas, folder, is_larger=False):
        self.schemas, self.folder, self.is_larger = schemas, folder, is_larger
        self.stamps, self.reported, self.written = {}, None, set()

    def is_changed(self):
        return any(stamp(path) != before for path, before in self.stamps.items())

    def report(self, lines):
        """Reports what is wrong, unless that was the last report."""
        if lines != self.reported:
            for line in lines:
                report_line(line)
        self.reported = lines

    def copy(self):
        """Makes the copies. A file's stamp is taken before the file is read, so that a change in between is seen as one."""
        before = {path: stamp(path) for path in self.stamps}
        files, missing = read_all(self.schemas, self.is_larger)
        self.stamps = {path: before[path] if path in before else stamp(path) for path in paths_of(self.schemas, files)}
        if any(path not in before for path in self.stamps):
            return False
        if missing:
            self.report([f"{line}; the copies stay as they are" for line in missing])
            return True
        try:
            names = copied(files, self.folder)
        except (OSError, OutsideCopy) as fault:
            if not self.written:
                raise
            self.report([f"rncv-profile: {what(fault) if isinstance(fault, OSError) else fault}; the copies are not complete"])
            return True
        self.reported = None
        self.forget(names)
        put_line(summary(names, files))
        return True

    def forget(self, names):
        """Removes the files that this run wrote, except these."""
        for path in self.written - set(names):
            try:
                os.unlink(path)
            except OSError:
                pass
        self.written = set(names)

    def run(self):
        """Goes on until Ctrl-C. Paths that are met for the first time are read twice, since their stamps come after the first reading."""
        while True:
            while not self.copy():
                pass
            while not self.is_changed():
                time.sleep(PAUSE)
