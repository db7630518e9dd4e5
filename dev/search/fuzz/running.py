"""Runs the program under test, and jing if it is installed."""
import os
import pathlib
import re
import shutil
import subprocess
import sys
import threading

HERE = pathlib.Path(__file__).resolve().parent
SECONDS, MEGABYTES = 10, 200
ANSWERS = [(re.compile(rb"(valid|schema ok)\n\Z"), 0), (re.compile(rb"invalid line [0-9]+\n\Z"), 1), (re.compile(rb"malformed P([1-9]|1[0-3]) line [0-9]+\n\Z"), 2),
           (re.compile(rb"refused S[0-9]+( file [^\n]*)?\n\Z"), 3)]
SIMPLE = re.compile(rb"(namespace n[0-9]+ = .*\n)*(start = .*\n)([a-z0-9]+ = .*\n)*\Z")


class Outcome:
    """What a run printed, and what is wrong with it, if anything."""

    def __init__(self, command, printed, status, seconds, megabytes):
        self.printed, self.status = printed, status
        self.fault = fault_of(command, printed, status, seconds, megabytes)

    @property
    def line(self):
        return self.printed.decode("utf-8", "replace").strip()

    @property
    def kind(self):
        return self.line.split(" ")[0]


def fault_of(command, printed, status, seconds, megabytes):
    if status < 0:
        return f"{command} ends by signal {-status}"
    if seconds > SECONDS:
        return f"{command} takes {seconds:.0f} s"
    if megabytes > MEGABYTES:
        return f"{command} takes {megabytes:.0f} MB"
    if command == "simple" and status == 0 and SIMPLE.match(printed):
        return None
    if any(form.match(printed) and status == wanted for form, wanted in ANSWERS):
        return None
    return f"{command} ends with {status} and prints {printed[:300]!r}"


class Program:
    """The program under test. Its answers are kept until `forget`."""

    def __init__(self, path, room):
        self.path, self.room, self.kept, self.runs = str(path), pathlib.Path(room), {}, 0

    def forget(self):
        self.kept.clear()

    def run(self, command, files, document=b"", piece=None):
        """Runs it on files, each a name and a text, and on a document in pieces of `piece` bytes."""
        key = (command, tuple(files), document, piece)
        if key not in self.kept:
            folder = self.room / "schema"
            write_files(folder, files)
            self.kept[key] = self.once(command, [name for name, _ in files], folder, document, piece)
        return self.kept[key]

    def once(self, command, names, folder, document, piece):
        self.runs += 1
        child = subprocess.Popen([self.path, command, *names], cwd=folder, stdin=subprocess.PIPE, stdout=subprocess.PIPE, stderr=subprocess.STDOUT)
        alarm = threading.Timer(SECONDS + 1, child.kill)
        alarm.start()
        writer = threading.Thread(target=feed, args=(child.stdin, document, piece))
        writer.start()
        printed = child.stdout.read()
        _, status, used = os.wait4(child.pid, 0)
        alarm.cancel()
        writer.join()
        child.stdout.close()
        child.returncode = os.waitstatus_to_exitcode(status)
        return Outcome(command, printed, child.returncode, used.ru_utime + used.ru_stime, used.ru_maxrss / 1024)


def feed(stdin, document, piece):
    try:
        with stdin:
            for at in range(0, len(document), piece or len(document) or 1):
                stdin.write(document[at:at + (piece or len(document))])
                stdin.flush()
    except BrokenPipeError:
        pass


def write_files(folder, files):
    shutil.rmtree(folder, ignore_errors=True)
    folder.mkdir()
    for name, text in files:
        (folder / name).write_bytes(text if isinstance(text, bytes) else text.encode())


class Jing:
    """jing in one Java machine."""

    def __init__(self, room):
        self.room = pathlib.Path(room)
        installed = subprocess.run(["dpkg", "-L", "libjing-java"], stdout=subprocess.PIPE, text=True, check=True).stdout.split()
        jar = next(it for it in installed if it.endswith("/jing.jar"))
        subprocess.run(["javac", "-nowarn", "-XDsuppressNotes", "-cp", jar, "-d", str(room), str(HERE / "JingJudge.java")], check=True)
        words = ["java", "-Xss64m", "-Xmx256m", "-XX:+UseSerialGC", "-XX:TieredStopAtLevel=1", "-cp", os.pathsep.join([str(room), jar]), "JingJudge"]
        self.java = subprocess.Popen(words, stdin=subprocess.PIPE, stdout=subprocess.PIPE, stderr=subprocess.DEVNULL, text=True, encoding="utf-8")

    def ask(self, word, path):
        self.java.stdin.write(f"{word} {path}\n")
        self.java.stdin.flush()
        return self.java.stdout.readline().strip()

    def schema(self, files):
        write_files(self.room / "jing-schema", files)
        return self.ask("schema", self.room / "jing-schema" / files[0][0])

    def document(self, text):
        (self.room / "document.xml").write_text(text, encoding="utf-8", newline="")
        return self.ask("document", self.room / "document.xml")

    def close(self):
        self.java.stdin.close()
        self.java.wait()


def jing(room):
    """jing, or None if it or a Java compiler is not installed."""
    if not shutil.which("javac") or not shutil.which("dpkg"):
        return None
    try:
        return Jing(room)
    except (subprocess.CalledProcessError, StopIteration):
        return None


def library():
    """The Python module for the C library that RNCV_LIBRARY names, or None."""
    if not os.environ.get("RNCV_LIBRARY"):
        return None
    sys.path.insert(0, str(HERE.parents[2] / "programs/python"))
    import rncv
    return rncv
