"""Threads that judge documents, and get ready what may be asked about them. Only the last job for each document counts."""
from __future__ import annotations

import gc
import threading
from typing import Callable, Dict, Set

Job = Callable[[], None]
THREADS = 3
STACK_BYTES = 67_108_864
# After so many looks for new objects in cycles older ones are looked at too.
MOST_LOOKS = 20


def start_thread(action: Job, name: str) -> None:
    """Starts a thread that does not keep the process alive, with a stack for schemas that nest deeply (docs/use/LIBRARY.md)."""
    before = threading.stack_size(STACK_BYTES)
    try:
        threading.Thread(target=action, name=name, daemon=True).start()
    finally:
        threading.stack_size(before)


class Idle:
    """Whether the thread that reads messages has nothing to do. It does what it has to do within this object, and other threads wait for its end."""

    def __init__(self) -> None:
        self._is_idle = threading.Event()
        self._is_idle.set()
        self._thread = 0

    def __enter__(self) -> None:
        self._thread = threading.get_ident()
        self._is_idle.clear()

    def __exit__(self, *why: object) -> None:
        self._is_idle.set()

    def wait(self) -> None:
        """Waits until it has nothing to do. A thread that waits must have no lock that it may want. It does not wait for itself."""
        if threading.get_ident() != self._thread:
            self._is_idle.wait()


IDLE = Idle()


def look_for_cycles() -> None:
    """Looks for new objects in cycles now, so that the interpreter seldom does so within an answer; at times for those that are not so new, too."""
    IDLE.wait()
    gc.collect(int(gc.get_count()[1] > MOST_LOOKS))


def keep_objects() -> None:
    """Says that the objects that are there now will stay for long, so that no look for cycles goes through them."""
    gc.freeze()


class Jobs:
    """Runs jobs: at most one for each name at a time, and waiting jobs in their order."""

    def __init__(self, report: Callable[[BaseException], None]) -> None:
        self._report = report
        self._changed = threading.Condition()
        self._waiting: Dict[str, Job] = {}
        self._running: Set[str] = set()
        self._threads = 0

    def put(self, name: str, job: Job) -> None:
        """Takes a job, and drops a job of the same name that still waits."""
        with self._changed:
            self._waiting[name] = job
            self._changed.notify()
            is_new = self._threads < min(THREADS, len(self._waiting) + len(self._running))
            self._threads += is_new
        if is_new:
            start_thread(self._work, "jobs")

    def _next(self) -> "tuple[str, Job]":
        """Waits for a job whose name is not running, and takes it."""
        with self._changed:
            while True:
                name = next((name for name in self._waiting if name not in self._running), None)
                if name is not None:
                    self._running.add(name)
                    return name, self._waiting.pop(name)
                self._changed.wait()

    def _work(self) -> None:
        """Runs one job after another."""
        while True:
            name, job = self._next()
            try:
                job()
            except Exception as error:  # whatever happens, the thread continues
                self._report(error)
            with self._changed:
                self._running.discard(name)
                self._changed.notify()
