"""Judges what has changed: schemas in one thread, each XML document in a job. It looks at all open documents each time, and keeps known results."""
from __future__ import annotations

import dataclasses
import threading
import time
from typing import Any, Callable, Dict, List, Optional, Set, Tuple

from rncv_lsp import DATATYPES, USUAL_FAULTS
from rncv_lsp.documents import Document, Documents, uri_of
from rncv_lsp.findings import INFORMATION, Finding, diagnostic
from rncv_lsp.jobs import IDLE, Job, Jobs, look_for_cycles, start_thread
from rncv_lsp.outside import rncv
from rncv_lsp.publishing import Publisher
from rncv_lsp.rpc import Connection, described
from rncv_lsp.schema_files import Disk, FileView, SchemaFile, SchemaSet, collected, main_files, opened, state_of
from rncv_lsp.schemas import Outcome, Schemas, findings_of, refusal
from rncv_lsp.settings import Settings
from rncv_lsp.texts import Text
from rncv_lsp.xml_judging import judged, well_formed
from rncv_lsp.xml_model import Named, not_served, schema_named
from rncv_lsp.xml_source import Cancelled, GivenUp

# How long the server waits for more messages before it judges: longer for a large document, of so many characters in a second more. How long that may take
# in all, as a multiple. How often it checks whether the files that it used have changed.
SETTLE_SECONDS, SETTLE_LENGTH, MOST_SETTLE_SECONDS, MOST_SETTLES, POLL_SECONDS = 0.03, 20_000_000, 0.5, 10, 1.0
# Hints take five times as long as the first fault. In a document of more characters the first fault does not wait for them.
LONG_LENGTH = 262_144


@dataclasses.dataclass(frozen=True)
class Task:
    """An XML document to judge: by a schema, or only whether it is well formed. `findings` are about how the document names its schema, and `schema` has the
    files of that, even if they are refused. `most_faults` are told of it at most."""

    document: Document
    outcome: Optional[Outcome] = None
    findings: Tuple[Finding, ...] = ()
    clauses_url: str = ""
    schema: Optional[SchemaSet] = None
    most_faults: int = USUAL_FAULTS

    def is_like(self, other: Optional["Task"]) -> bool:
        """Whether the other task has the same answer."""
        if other is None or self.document is not other.document or self.outcome is not other.outcome:
            return False
        return (self.findings, self.clauses_url, self.most_faults) == (other.findings, other.clauses_url, other.most_faults)


class Coordinator:
    """Judges the open documents, and publishes what is found. In the thread that has judged a document `prepare` gets ready what may be asked about it."""

    def __init__(self, documents: Documents, connection: Connection, datatypes: str = DATATYPES[0], most_faults: int = USUAL_FAULTS) -> None:
        self.settings, self.roots = Settings(), ()  # type: Settings, Tuple[str, ...]
        self._datatypes, self._most_faults = datatypes, most_faults
        self._documents, self._connection = documents, connection
        self._publisher = Publisher(connection)
        self._jobs = Jobs(lambda error: connection.log(1, described(error)))
        self._disk, self._schemas = Disk(), Schemas()
        self._changed = threading.Event()
        self._changed_at, self._settle = 0.0, SETTLE_SECONDS
        self._reported: Set[str] = set()
        self._states: Dict[str, Any] = {}
        self._tasks: Dict[str, Task] = {}
        self._sets: Dict[str, Optional[SchemaSet]] = {}
        self._validators: Dict[str, Tuple[str, rncv.Validator]] = {}
        self.prepare: Callable[[Task], None] = lambda task: None

    def start(self) -> None:
        """Starts to judge."""
        start_thread(self._work, "coordinator")

    def touch(self, document: Optional[Document] = None) -> None:
        """Records that something has changed: this document, or something else. The caller never waits."""
        if document is not None:
            self._settle = max(self._settle, min(SETTLE_SECONDS + document.lines.length / SETTLE_LENGTH, MOST_SETTLE_SECONDS))
        self._changed_at = time.monotonic()
        self._changed.set()

    def run_beside(self, name: str, job: Job) -> None:
        """Runs a job beside the judging, and drops one of the same name that still waits."""
        self._jobs.put(name, job)

    def task_of(self, uri: str) -> Optional[Task]:
        """The last task for a document; None if there was none yet."""
        return self._tasks.get(uri)

    def schema_of(self, uri: str) -> Optional[SchemaSet]:
        """The files of a document's schema as they were last, if there are any."""
        return self._sets.get(uri)

    def _work(self) -> None:
        """Judges again and again."""
        while True:
            self._wait()
            IDLE.wait()
            try:
                self._go_over()
            except Exception as error:  # whatever happens, the server continues
                self._connection.log(1, described(error))
            look_for_cycles()

    def _wait(self) -> None:
        """Waits until something has changed, and then until no more messages come."""
        while not self._changed.wait(POLL_SECONDS if self._states else None):
            if any(state_of(path) != state for path, state in self._states.items()):
                self.touch()
        limit = time.monotonic() + MOST_SETTLES * self._settle
        while (left := min(self._changed_at + self._settle, limit) - time.monotonic()) > 0:
            time.sleep(left)
        self._settle = SETTLE_SECONDS
        self._changed.clear()

    def _go_over(self) -> None:
        """Judges the open documents as they are now."""
        documents = self._documents.snapshot()
        view = FileView(documents, self._disk)
        named = {document.uri: schema_named(document, self.settings, self.roots) for document in documents if document.is_xml}
        mains = {each.path: view.find(each.path) for each in named.values() if each is not None and each.path is not None}
        sets = {file.key: collected(file, view) for file in mains.values() if file is not None}
        reached = [key for schema in sets.values() for key in schema.keys]
        candidates = [opened(document) for document in documents if document.is_schema]
        sets.update({file.key: collected(file, view) for file in candidates if file.key not in sets})
        judged_ones = [*dict.fromkeys(file.key for file in mains.values() if file is not None)]
        judged_ones += [file.key for file in main_files(candidates, sets, reached)]
        outcomes = {key: self._outcome(sets[key]) for key in judged_ones}
        self._publish_schemas([(sets[key], outcomes[key]) for key in judged_ones], documents)
        for document in documents:
            each = named.get(document.uri)
            if each is not None:
                file = mains[each.path] if each.path is not None else None
                self._put(task_of(document, each, sets[file.key] if file else None, outcomes))
            elif document.uri in named:
                self._put(Task(document, findings=not_served(document, view)))
        self._forget(named, outcomes, view)

    def _outcome(self, schema: SchemaSet) -> Outcome:
        """The result of compiling a schema; an empty result if there is no library or no memory."""
        try:
            return self._schemas.outcome(schema, self.settings.datatypes or self._datatypes)
        except rncv.LibraryError as error:
            self._report_once(f"rncv-lsp: cannot read schemas: {error}")
        except MemoryError as error:
            self._connection.log(1, described(error))
        return Outcome("")

    def _report_once(self, what: str) -> None:
        """Shows the user that a library is missing."""
        if what not in self._reported:
            self._reported.add(what)
            self._connection.notify("window/showMessage", {"type": 1, "message": what})

    def _publish_schemas(self, schemas: List[Tuple[SchemaSet, Outcome]], documents: List[Document]) -> None:
        """Publishes what is found in the files of schemas. An open file always gets a list, even an empty one."""
        found: Dict[str, Dict[str, List[Dict[str, Any]]]] = {}
        for schema, outcome in schemas:
            each = {file.document.uri: [] for file in schema.files.values() if file.document}  # type: Dict[str, List[Dict[str, Any]]]
            for file, finding in findings_of(schema, outcome):
                each.setdefault(uri_of_file(file), []).append(self._diagnostic(file.lines, finding))
            found[f"schema:{schema.main.key}"] = each
        self._publisher.set_all("schema:", found, {document.uri: document.version for document in documents})

    def _diagnostic(self, lines: Text, finding: Finding) -> Dict[str, Any]:
        """A finding as the client wants it."""
        return diagnostic(lines, finding, self._documents.encoding, self.settings.clauses_url)

    def _put(self, task: Task) -> None:
        """Starts to judge a document, unless that was done for an equal task."""
        most_faults = self.settings.most_faults or self._most_faults
        uri, task = task.document.uri, dataclasses.replace(task, clauses_url=self.settings.clauses_url, most_faults=most_faults)
        self._sets[uri] = task.schema
        if not task.is_like(self._tasks.get(uri)):
            self._tasks[uri] = task
            self._jobs.put(uri, lambda: self._judge(task))

    def _judge(self, task: Task) -> None:
        """Judges a document, in a thread of the jobs."""
        document = task.document

        def is_cancelled() -> bool:
            """Whether the answer is no longer wanted."""
            return self._tasks.get(document.uri) is not task or not self._documents.is_current(document)

        try:
            for step in steps_of(task):
                found = self._found(step, is_cancelled)
                reported_of = [self._diagnostic(document.lines, finding) for finding in (*task.findings, *found)]
                self._publisher.set_one(f"xml:{document.uri}", document.uri, reported_of, lambda: None if is_cancelled() else document.version)
                if not any(finding.code == "invalid" for finding in found):
                    break
        except GivenUp:
            return
        self.prepare(task)

    def _found(self, task: Task, is_cancelled: Cancelled) -> List[Finding]:
        """What is found in a document. Without the library for XML it is only judged whether the document is well formed."""
        if task.outcome is not None and task.outcome.validator is not None:
            try:
                return judged(task.document, self._validator(task.document.uri, task.outcome), task.outcome, is_cancelled, task.most_faults)
            except rncv.LibraryError as error:
                self._report_once(f"rncv-lsp: cannot judge XML by schemas: {error}")
        return well_formed(task.document, is_cancelled)

    def _validator(self, uri: str, outcome: Outcome) -> rncv.Validator:
        """The validator of a document. It is kept while the document's schema stays the same."""
        known = self._validators.get(uri)
        if known is None or known[0] != outcome.name:
            known = outcome.name, outcome.validator.share()
            self._validators[uri] = known
        return known[1]

    def _forget(self, named: Dict[str, Optional[Named]], outcomes: Dict[str, Outcome], view: FileView) -> None:
        """Forgets what belongs to closed documents, and to schemas that are not used. `named` has the open documents in XML."""
        for uri in [uri for uri in self._tasks if uri not in named]:
            del self._tasks[uri]
            self._sets.pop(uri, None)
            self._validators.pop(uri, None)
        self._publisher.drop(lambda name: name.startswith("xml:") and name[4:] not in named)
        self._schemas.keep([outcome.name for outcome in outcomes.values()])
        self._disk.keep(view.states)
        self._states = view.states


def uri_of_file(file: SchemaFile) -> str:
    """The URI under which a file's diagnostics are sent: the client's URI, if the file is open."""
    return file.document.uri if file.document else uri_of(file.path)


def steps_of(task: Task) -> List[Task]:
    """What is judged and published one after the other: in a long document the first fault alone, and then all."""
    is_once = task.most_faults == 1 or task.document.lines.length <= LONG_LENGTH
    return [task] if is_once else [dataclasses.replace(task, most_faults=1), task]


def task_of(document: Document, named: Named, schema: Optional[SchemaSet], outcomes: Dict[str, Outcome]) -> Task:
    """The task for a document that names this schema."""
    if named.path is None:
        return Task(document, None, (Finding(named.start, named.end, f"the schema {named.words} is not fetched", "schema", severity=INFORMATION),))
    if schema is None:
        return Task(document, None, (Finding(named.start, named.end, f"there is no schema {named.path}", "schema"),))
    outcome = outcomes[schema.main.key]
    what = refusal(schema, outcome)
    if what is not None:
        return Task(document, None, (Finding(named.start, named.end, what, "schema"),), schema=schema)
    return Task(document, outcome if outcome.validator is not None else None, schema=schema)
