"""What the timers share: a run of a program and a call, measured; jing in one running Java machine; a program built in a copy of the crates; tables."""
import collections
import contextlib
import os
import pathlib
import re
import shutil
import signal
import subprocess
import sys
import tempfile
import threading
import time

HERE = pathlib.Path(__file__).resolve().parent
TOP = HERE.parents[1]
PROGRAM = TOP / "crates/rncv/out/rncv"
GNU_TIME = "/usr/bin/time"

# What a run printed, its exit status (None if it was stopped), milliseconds on the clock and of a processor, and the greatest memory in MiB.
Run = collections.namedtuple("Run", "printed status clock processor memory")
# Milliseconds that jing took: to compile the schema and to judge the documents first, each time anew; to judge them again; and whether all were valid.
Loop = collections.namedtuple("Loop", "schemas firsts laters is_valid")


class Table:
    """A table of Markdown, a row at a time."""

    def __init__(self, *columns):
        print("| " + " | ".join(columns) + " |\n|" + "---|" * len(columns))

    def row(self, *cells):
        print("| " + " | ".join(map(str, cells)) + " |", flush=True)


def on_processors(processors):
    """What a new process calls to run on these processors alone; None: on all."""
    return (lambda: os.sched_setaffinity(0, processors)) if processors else None


def ended(child, seconds):
    """The exit status of a child and what it used; it is stopped after some seconds. The status is then None."""
    stopped = []

    def stop():
        stopped.append(True)
        os.killpg(child.pid, signal.SIGKILL)

    timer = threading.Timer(seconds, stop) if seconds else None
    if timer:
        timer.start()
    _, status, used = os.wait4(child.pid, 0)
    if timer:
        timer.cancel()
    child.returncode = os.waitstatus_to_exitcode(status)
    return None if stopped else child.returncode, used


def took(words, stdin=None, pieces=(), cwd=None, seconds=None, processors=None, has_memory=True):
    """Runs a program: its standard input is the file `stdin`, or these pieces of bytes. GNU time tells its memory, and takes some milliseconds itself. Without
    it, or if the memory is of no interest, the memory of the caller counts too."""
    with tempfile.TemporaryFile() as printed, tempfile.NamedTemporaryFile() as measured, open(stdin or os.devnull, "rb") as given:
        around = [GNU_TIME, "-q", "-f", "%M", "-o", measured.name] if has_memory and os.access(GNU_TIME, os.X_OK) else []
        begun = time.perf_counter()
        child = subprocess.Popen([*around, *map(str, words)], stdin=subprocess.PIPE if pieces else given, stdout=printed, stderr=subprocess.DEVNULL, cwd=cwd,
                                 start_new_session=True, preexec_fn=on_processors(processors))
        if pieces:
            # a program that wants no more ends before that; its answer says why
            with contextlib.suppress(BrokenPipeError), child.stdin:
                for piece in pieces:
                    child.stdin.write(piece)
        status, used = ended(child, seconds)
        clock = time.perf_counter() - begun
        printed.seek(0)
        memory = measured.read().split()
        return Run(printed.read().decode("utf-8", "replace").strip(), status, 1000 * clock, 1000 * (used.ru_utime + used.ru_stime),
                   (int(memory[-1]) if memory else used.ru_maxrss) / 1024)


def answer(run, seconds=None):
    """What a run printed, or how it ended if it printed nothing."""
    return f"given up after {seconds:g} s" if run.status is None else run.printed or f"status {run.status}"


def wanted(run, what):
    """The run, if its exit status is 0; else this program ends."""
    if run.status != 0:
        sys.exit(f"{pathlib.Path(sys.argv[0]).name}: {what}: status {run.status} {run.printed[-200:]}")
    return run


def spent(call):
    """What a call returns, and the milliseconds on the clock and of a processor that it took."""
    clock, processor = time.perf_counter(), time.process_time()
    found = call()
    return found, (time.perf_counter() - clock) * 1000, (time.process_time() - processor) * 1000


class Jing:
    """jing in one running Java machine. It needs the packages jing, libjing-java and a JDK; JING_JAR may name the file jing.jar."""

    def __init__(self, folder, jar=None, options=()):
        self.options = options
        jar = jar or os.environ.get("JING_JAR") or self.installed()
        self.classes = f"{folder}{os.pathsep}{jar}" if jar and shutil.which("javac") else None
        if self.classes:
            subprocess.run(["javac", "-cp", str(jar), "-d", str(folder), str(HERE / "JingLoop.java")], check=True)

    @staticmethod
    def installed():
        """The jar of the package libjing-java, if it is installed."""
        listed = subprocess.run(["dpkg", "-L", "libjing-java"], capture_output=True, text=True, check=False).stdout if shutil.which("dpkg") else ""
        return next((path for path in listed.split() if path.endswith("/jing.jar")), None)

    def loop(self, schema, documents, anew=1, rounds=0, seconds=None, processors=None):
        """The times of a Loop: the schema is compiled and the documents are judged `anew` times, and then `rounds` times more; None if it was stopped."""
        words = ["java", *self.options, "-cp", self.classes, "JingLoop", str(schema), str(anew), str(rounds), *map(str, documents)]
        try:
            run = subprocess.run(words, capture_output=True, text=True, check=False, timeout=seconds, preexec_fn=on_processors(processors))
        except subprocess.TimeoutExpired:
            return None
        if run.returncode != 0:
            sys.exit(f"jing: {run.stdout[-500:]}{run.stderr[-500:]}")
        *lines, verdict = run.stdout.split("\n")[:-1]
        times = [list(map(float, line.split())) for line in lines]
        return Loop([pair[0] for pair in times if len(pair) == 2], [pair[1] for pair in times if len(pair) == 2],
                    [pair[0] for pair in times if len(pair) == 1], verdict == "valid")


def below(uses):
    """The crates of the repository that these words of crates.txt stand for, and all that they use, each with its line there."""
    lines = {re.match(r"\w+", line)[0]: line for line in (TOP / "crates.txt").read_text(encoding="utf-8").splitlines() if re.match(r"\w", line)}
    found, left = {}, uses.split()
    while left:
        name = left.pop()
        if name in lines and name not in found:
            found[name] = lines[name]
            left += lines[name].partition(":")[2].split()
    return found


def built(folder, name, text, uses):
    """The program `name` with this source, built beside a copy of the crates that it uses."""
    lines = below(uses)
    for crate in lines:
        shutil.copytree(TOP / "crates" / crate, folder / "crates" / crate, symlinks=True)
    shutil.copy(TOP / "HANDLES", folder)
    (folder / "crates.txt").write_text("".join(f"{line}\n" for line in [*lines.values(), f"{name}: {uses}"]), encoding="utf-8")
    program = folder / "crates" / name
    (program / "src").mkdir(parents=True)
    shutil.copy(text, program / "src" / "main.rt")
    subprocess.run(["rt", "run"], cwd=program, stdin=subprocess.DEVNULL, stdout=subprocess.DEVNULL, check=False)
    if not (program / "out" / name).is_file():
        sys.exit(f"{name}: the program was not built: `rt run` says why in a copy of it")
    return program / "out" / name
