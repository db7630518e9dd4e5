"""The language server: its answers, and what it does when documents and settings change."""
from __future__ import annotations

import os
from typing import Any, BinaryIO, List, Optional

from rncv_lsp import DATATYPES, USUAL_FAULTS
from rncv_lsp.coordinator import Coordinator
from rncv_lsp.documents import Documents, new_document, path_of
from rncv_lsp.framing import FramingFault, MessageReader
from rncv_lsp.jobs import IDLE
from rncv_lsp.parts import joined_capabilities, joined_requests
from rncv_lsp.rnc_requests import SchemaRequests
from rncv_lsp.rpc import INTERNAL_ERROR, INVALID_REQUEST, NOT_INITIALIZED, PARSE_ERROR, Connection, Dispatcher, RpcFault, member, within
from rncv_lsp.settings import settings_of
from rncv_lsp.texts import CODECS
from rncv_lsp.versions import shown_version
from rncv_lsp.xml_answers import XmlAnswers

INCREMENTAL = 2


class Exit(BaseException):
    """The client wants the server to end."""


class Server:
    """One client's server. `run` reads its messages until it ends."""

    def __init__(self, source: BinaryIO, sink: BinaryIO, datatypes: str = DATATYPES[0], most_faults: int = USUAL_FAULTS) -> None:
        self._reader = MessageReader(source)
        self._connection = Connection(sink)
        self._documents = Documents()
        self._coordinator = Coordinator(self._documents, self._connection, datatypes, most_faults)
        self._answers = XmlAnswers(self._documents, self._coordinator)
        self._schemas = SchemaRequests(self._documents, lambda: self._coordinator.settings.datatypes or datatypes)
        self._parts = (self._schemas, self._answers)
        self._state = "new"
        self._asks_settings = False
        self._dispatcher = Dispatcher(self._connection, self._allow)
        self._dispatcher.requests.update({"initialize": self._initialize, "shutdown": self._shutdown})
        self._dispatcher.requests.update(joined_requests(part.requests for part in self._parts))
        self._dispatcher.notifications.update({
            "initialized": self._initialized,
            "exit": self._exit,
            "textDocument/didOpen": self._opened,
            "textDocument/didChange": self._changed,
            "textDocument/didClose": self._closed,
            "textDocument/didSave": lambda params: self._coordinator.touch(),
            "workspace/didChangeWatchedFiles": lambda params: self._coordinator.touch(),
            "workspace/didChangeConfiguration": self._configured,
            "workspace/didChangeWorkspaceFolders": self._folders_changed,
        })

    def run(self) -> int:
        """Reads messages until the client sends `exit` or is gone. Returns the exit status: 0 after a request `shutdown`, else 1."""
        try:
            while self._take_next():
                pass
        except Exit:
            pass
        return 0 if self._state == "down" else 1

    def _take_next(self) -> bool:
        """Takes the next message. False: the input has ended."""
        try:
            data = self._reader.read()
            if data is not None:
                with IDLE:
                    self._reader.is_lost = not self._dispatcher.take(data)
            return data is not None
        except FramingFault as fault:
            self._dispatcher.refuse(RpcFault(PARSE_ERROR, str(fault)))
        except MemoryError:
            self._dispatcher.refuse(RpcFault(INTERNAL_ERROR, "out of memory"))
        return True

    def _allow(self, method: str, is_request: bool) -> bool:
        """Whether a notification is accepted now. Raises RpcFault for a request that is not accepted."""
        is_ready = self._state == "ready"
        if is_request and method == "initialize":
            if self._state != "new":
                raise RpcFault(INVALID_REQUEST, "the server was already initialized")
        elif is_request and not is_ready:
            is_new = self._state == "new"
            raise RpcFault(NOT_INITIALIZED if is_new else INVALID_REQUEST, "the server is not initialized" if is_new else "the server is shut down")
        return is_ready or method == "exit"

    def _initialize(self, params: Any) -> Any:
        """Agrees on what both sides can do."""
        offered = within(params, "capabilities", "general", "positionEncodings")
        known = [each for each in offered if isinstance(each, str) and each in CODECS] if isinstance(offered, list) else []
        self._documents.encoding = known[0] if known else "utf-16"
        self._asks_settings = within(params, "capabilities", "workspace", "configuration") is True
        self._coordinator.roots = tuple(folders_of(params))
        self._set(within(params, "initializationOptions"))
        self._coordinator.start()
        self._state = "ready"
        return {
            "capabilities": {
                "positionEncoding": self._documents.encoding,
                "textDocumentSync": {"openClose": True, "change": INCREMENTAL, "save": {"includeText": False}},
                **joined_capabilities([part.initialize(params) for part in self._parts]),
                "workspace": {"workspaceFolders": {"supported": True, "changeNotifications": True}},
            },
            "serverInfo": {"name": "rncv-lsp", "version": shown_version()},
        }

    def _initialized(self, params: Any) -> None:
        """The client accepts requests."""
        self._ask_settings()
        self._schemas.register(self._connection)

    def _shutdown(self, params: Any) -> None:
        """Accepts no more documents."""
        self._state = "down"

    def _exit(self, params: Any) -> None:
        """Ends the server."""
        raise Exit

    def _opened(self, params: Any) -> None:
        """A document is open."""
        document = new_document(member(params, "textDocument", dict))
        self._documents.open(document)
        self._coordinator.touch(document)
        if document.is_schema:
            self._schemas.begin(document)
            self._coordinator.run_beside("schemas", self._schemas.prepare)

    def _changed(self, params: Any) -> None:
        """A document has changed."""
        document = self._documents.change(member(params, "textDocument", dict), member(params, "contentChanges", list))
        self._answers.changed(document)
        self._coordinator.touch(document)

    def _closed(self, params: Any) -> None:
        """A document is closed."""
        uri = member(member(params, "textDocument", dict), "uri", str)
        self._documents.close(uri)
        self._answers.forget(uri)
        self._schemas.close()
        self._coordinator.touch()

    def _configured(self, params: Any) -> None:
        """Takes new settings. If the client sends none, asks for them, if the client supports that."""
        section = within(params, "settings", "rncv")
        if section is not None:
            self._set(section)
        else:
            self._ask_settings()

    def _ask_settings(self) -> None:
        """Asks the client for its settings, if it supports that."""
        if self._asks_settings:
            self._connection.ask("workspace/configuration", {"items": [{"section": "rncv"}]}, self._settings_reported)

    def _settings_reported(self, result: Any) -> None:
        """Takes the settings in the client's answer, if there are any."""
        if isinstance(result, list) and result and isinstance(result[0], dict) and result[0]:
            self._set(result[0])

    def _set(self, value: Any) -> None:
        """Takes settings. What is wrong with them goes to the client's log."""
        self._coordinator.settings, faults = settings_of(value)
        for fault in faults:
            self._connection.log(2, fault)
        self._coordinator.touch()

    def _folders_changed(self, params: Any) -> None:
        """Takes a change of the workspace's folders."""
        event = member(params, "event", dict)
        gone = set(folders_in(event.get("removed")))
        kept = [root for root in self._coordinator.roots if root not in gone]
        self._coordinator.roots = tuple(dict.fromkeys([*kept, *folders_in(event.get("added"))]))
        self._coordinator.touch()


def folders_in(listed: Any) -> List[str]:
    """The paths of folders of a workspace."""
    uris = [folder.get("uri") for folder in listed if isinstance(folder, dict)] if isinstance(listed, list) else []
    paths = [path_of(uri) for uri in uris if isinstance(uri, str)]
    return [os.path.normpath(path) for path in paths if path]


def folders_of(params: Any) -> List[str]:
    """The paths of the workspace's folders when a client starts."""
    listed = folders_in(within(params, "workspaceFolders"))
    root, path = within(params, "rootUri"), within(params, "rootPath")
    alone: Optional[str] = path_of(root) if isinstance(root, str) else path if isinstance(path, str) else None
    return listed or ([os.path.normpath(alone)] if alone else [])
