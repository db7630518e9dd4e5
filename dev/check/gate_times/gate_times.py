"""Measures what the gate costs. run.sh says how to call it.

It reads the processor time of each process of the prover from /proc, four times a second. The arguments and the folder of a process show which crate it
checks, and whether it checks the crate's proofs, its tests or a must-fail edit.

Crates that have not changed show the speed of the machine. reference.txt beside this file has the minutes of their proofs in an earlier table, and a
checksum of what was proved. It also says how much slower the processor of that table is than the one for which the budget was set.
"""
import hashlib
import json
import os
import re
import shutil
import subprocess
import sys
import tempfile
import threading
import time
from collections import defaultdict

ROOT = os.path.abspath(f"{os.path.dirname(__file__)}/../../..")
TICK = os.sysconf("SC_CLK_TCK")


def crates():
    """The crates of crates.txt, each with the crates of the repository that it uses, the lowest crate first."""
    uses = {}
    with open(f"{ROOT}/crates.txt", encoding="utf-8") as lines:
        for line in lines:
            head, _, tail = line.partition("#")[0].partition(":")
            if head.split():
                uses[head.split()[0]] = tail.split()
    below = lambda it, seen: {it} | {x for dep in uses[it] if dep in uses for x in below(dep, seen)}
    return {it: [dep for dep in uses[it] if dep in uses] for it in sorted(uses, key=lambda it: (len(below(it, ())), it))}


class Watch:
    """Samples the prover's processes."""

    def __init__(self):
        self.processes, self.ends = {}, threading.Event()
        self.thread = threading.Thread(target=self.go)
        self.thread.start()

    def go(self):
        while not self.ends.wait(0.25):
            for pid in filter(str.isdigit, os.listdir("/proc")):
                try:
                    self.look(pid)
                except (OSError, ValueError, IndexError):
                    pass

    def look(self, pid):
        if not os.readlink(f"/proc/{pid}/exe").endswith("/bin/rattle"):
            return
        with open(f"/proc/{pid}/stat", encoding="utf-8", errors="replace") as it:
            fields = it.read().rpartition(")")[2].split()
        key = pid, fields[19]
        if key not in self.processes:
            with open(f"/proc/{pid}/cmdline", encoding="utf-8", errors="replace") as it:
                words = it.read().split("\0")
            self.processes[key] = {"words": words, "folder": os.readlink(f"/proc/{pid}/cwd"), "parent": fields[1], "start": time.time()}
        self.processes[key] |= {"took": (int(fields[11]) + int(fields[12])) / TICK, "end": time.time()}

    def stop(self, gate):
        self.ends.set()
        self.thread.join()
        by_pid = {pid: it for (pid, _), it in self.processes.items()}
        for it in self.processes.values():
            # a child process of the prover that does a part of the work may have no crate among its arguments
            top = it
            while "--crate-name" not in top["words"] and top["parent"] in by_pid and by_pid[top["parent"]] is not top:
                top = by_pid[top["parent"]]
            words = top["words"]
            # (checks and edits of another checkout that run at the same time do not belong to this gate; `rt` is the parent of the check of an edit)
            is_own = top["folder"].startswith(f"{ROOT}/") or "/rt-edit-" in top["folder"] and top["parent"] == str(gate)
            it["crate"] = words[words.index("--crate-name") + 1] if is_own and "--crate-name" in words else ""
            it["part"] = "edits" if "/rt-edit-" in it["folder"] else "tests" if "--test" in words else "proofs"
        return [it for it in self.processes.values() if it["crate"]]


def from_nothing():
    """The command `rt ci` that uses nothing from an earlier run. A kit that keeps results has a flag for that. An older kit always proves all."""
    usage = subprocess.run(["rt", "--help"], stdout=subprocess.PIPE, stderr=subprocess.STDOUT, text=True, errors="replace").stdout
    return ["rt", "ci", *(["--anew"] if "--anew" in usage else [])]


def gate():
    command = from_nothing()
    os.makedirs(f"{ROOT}/out", exist_ok=True)
    watch, start = Watch(), time.time()
    with open(f"{ROOT}/out/gate.log", "w", encoding="utf-8") as log:
        ran = subprocess.Popen(command, cwd=ROOT, stdout=subprocess.PIPE, stderr=subprocess.STDOUT, text=True, errors="replace")
        last = ""
        for last in ran.stdout:
            log.write(f"{time.time() - start:7.0f} {last}")
            log.flush()
    ran.wait()
    clock, seen = time.time() - start, watch.stop(ran.pid)
    with open(f"{ROOT}/out/gate.json", "w", encoding="utf-8") as samples:
        json.dump(sorted(seen, key=lambda it: it["start"]), samples)
    print(f"`{' '.join(command)}`: {last.strip()}; {clock / 60:.0f} minutes on the clock with {len(os.sched_getaffinity(0))} processors")
    table(seen)


def table(seen):
    took, spans, edits = defaultdict(float), {}, defaultdict(lambda: defaultdict(float))
    for it in seen:
        key = it["crate"], it["part"]
        took[key] += it["took"]
        first, last = spans.get(key, (it["start"], it["end"]))
        spans[key] = min(first, it["start"]), max(last, it["end"])
        if it["part"] == "edits":
            edits[it["crate"]][it["folder"]] += it["took"]
    print("\n| Crate | Proofs | Tests | Check before the edits | Edits | An edit, seconds | Sum, if more |\n|---|---|---|---|---|---|---|")
    minutes = lambda seconds: f"{seconds / 60:.1f}" if seconds else ""
    total = [0.0] * 4
    for crate in crates():
        # the check of the first edit is from nothing; if there are two edits or more, the last check is of the crate itself
        each = [*edits[crate].values()]
        first, more = each[:1], each[1:-1] if len(each) > 2 else []
        row = [took[crate, "proofs"], took[crate, "tests"], sum(first), sum(each[1:])]
        total = [a + b for a, b in zip(total, row)]
        one = f"{sum(more) / len(more):.0f}" if more else ""
        whole = minutes(sum(row)) if any(row[1:]) else ""
        print(f"| `{crate}` | {' | '.join(map(minutes, row))} | {one} | {whole} |")
    print(f"| all | {' | '.join(map(minutes, total))} | | {minutes(sum(total))} |")
    compare(sum(total), took)
    way, length = longest({key: end - start for key, (start, end) in spans.items()})
    for crate in crates():
        names = sorted(it.removesuffix(".edit") for it in os.listdir(f"{ROOT}/crates/{crate}/must-fail")) if edits[crate] else []
        # (a crate's edits are tried in the order of their names; the first check is also the check of the whole crate)
        dear = sorted(zip([*edits[crate].values()][1:], names[1:]), reverse=True)[:3]
        if dear:
            print(f"\nThe costliest edits of `{crate}`: " + ", ".join(f"`{name}` {seconds:.0f}" for seconds, name in dear), end="")
    print(f"\n\nThe longest way: {minutes(length)} minutes on the clock, {', '.join(way)}")


def code_of(path):
    """The text of a file without blank lines and comment lines. These cost nothing to prove."""
    mark = b"--" if path.endswith(".antt") else b"//"
    with open(path, "rb") as it:
        lines = [line.rstrip() for line in it.read().split(b"\n")]
    return b"\n".join(line for line in lines if line and not line.lstrip().startswith(mark))


def checksum(crate):
    """A checksum of the sources, specifications and proofs of a crate."""
    summed = hashlib.sha256()
    for folder in ("src", "specs", "proofs"):
        for path, folders, files in os.walk(f"{ROOT}/crates/{crate}/{folder}"):
            folders.sort()
            for name in sorted(files):
                file = f"{path}/{name}"
                summed.update(os.path.relpath(file, f"{ROOT}/crates").encode() + b"\0" + code_of(file) + b"\0")
    return summed.hexdigest()[:16]


def compare(total, took):
    """Prints how much longer this machine took for unchanged crates, and the total in the measure of the budget."""
    with open(f"{os.path.dirname(os.path.abspath(__file__))}/reference.txt", encoding="utf-8") as lines:
        rows = [line.split() for line in lines if line.strip() and not line.startswith("#")]
    factor = float(rows[0][1])
    then = {crate: (float(minutes), summed) for crate, minutes, summed in rows[1:]}
    # (a check loads only the statements of the crates below, so a change there costs this crate little)
    same = [(crate, then[crate][0]) for crate in crates() if crate in then and then[crate][1] == checksum(crate)]
    before, now = sum(minutes for _, minutes in same), sum(took[crate, "proofs"] for crate, _ in same) / 60
    print(f"\nUnchanged: {len(same)} crates, whose proofs took {before:.1f} minutes and now take {now:.1f}: {now / before:.2f} times as long.")
    print(f"By the budget's measure: {total / 60:.1f} / ({factor} * {now / before:.2f}) = {total / 60 / factor / (now / before):.0f} minutes.")


def longest(clock):
    """The longest chain of parts that wait for each other, and how long it took on the clock."""
    ways = {}
    for crate, uses in crates().items():
        before = max((ways[dep, "proofs"] for dep in uses), key=lambda it: it[1], default=([], 0))
        for part in ("proofs", "tests"):
            ways[crate, part] = [*before[0], f"{crate} ({part})"], before[1] + clock.get((crate, part), 0)
        both = max(ways[crate, "proofs"], ways[crate, "tests"], key=lambda it: it[1])
        ways[crate, "edits"] = [*both[0], f"{crate} (edits)"], both[1] + clock.get((crate, "edits"), 0)
    return max(ways.values(), key=lambda it: it[1])


def functions():
    with tempfile.TemporaryDirectory(prefix="gate-times-") as room:
        for part in ("crates", "crates.txt", "HANDLES"):
            copy = shutil.copytree if os.path.isdir(f"{ROOT}/{part}") else shutil.copy
            kwargs = {"ignore": shutil.ignore_patterns("out")} if copy is shutil.copytree else {}
            copy(f"{ROOT}/{part}", f"{room}/{part}", **kwargs)
        for crate in crates():
            dearest(crate, f"{room}/crates/{crate}")


def dearest(crate, folder):
    """Prints the ten functions whose checks took longest, by the times at which the checks are reported as ended."""
    ran = subprocess.Popen(["rt", "check", "--jobs", "1"], cwd=folder, stdout=subprocess.PIPE, stderr=subprocess.STDOUT, text=True, errors="replace")
    ended, before, start, last = [], None, time.time(), ""
    for last in ran.stdout:
        reported, now = re.match(r"checked (\S+), \d+ of \d+$", last), time.time()
        if last.startswith("so far:") or reported:
            if reported and before is not None:
                ended.append((now - before, reported[1].removeprefix(f"{crate}::")))
            before = now
    ran.wait()
    verdict = "" if last.startswith("logic=proved") else f" ({last.strip()[:60]})"
    named = "; ".join(f"`{name}` {seconds:.0f}" for seconds, name in sorted(ended, reverse=True)[:10])
    print(f"- `{crate}`: {len(ended)} checked in {time.time() - start:.0f} s{verdict}: {named}", flush=True)


if __name__ == "__main__":
    functions() if sys.argv[1:] == ["functions"] else gate()
