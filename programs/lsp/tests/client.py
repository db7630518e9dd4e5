"""A scripted client: it starts the server as a process, and uses its standard streams."""
from __future__ import annotations

import json
import os
import pathlib
import queue
import subprocess
import sys
import tempfile
import threading
import time
import unittest
from typing import Any, Callable, Dict, List, Optional, Set, Tuple

TOP = pathlib.Path(__file__).resolve().parents[3]
SERVER = TOP / "programs/lsp/rncv-lsp"
sys.path.insert(0, str(TOP / "programs/python"))
import rncv  # noqa: E402

NO_XML_LIBRARY = "no library for XML beside librncv (programs/xml/library.sh builds it)"
# How long to wait for the server. A busy machine may take long.
SECONDS = 120.0
SCHEMA = "start = element list { element item { attribute at { xsd:integer }, text }* }\n"


def has_xml_library() -> bool:
    """Whether there is a library for XML."""
    try:
        rncv._xml_library()
    except rncv.LibraryError:
        return False
    return True


def framed(message: Any) -> bytes:
    """The bytes of a message. A text is sent as it is, even if it is not JSON."""
    data = (message if isinstance(message, str) else json.dumps(message)).encode("utf-8")
    return b"Content-Length: %d\r\n\r\n" % len(data) + data


class Client:
    """A client and its server."""

    def __init__(self, *words: str, **environment: str) -> None:
        self.process = subprocess.Popen([sys.executable, str(SERVER), "--stdio", *words], stdin=subprocess.PIPE, stdout=subprocess.PIPE, stderr=subprocess.PIPE,
                                        env={**os.environ, **environment})
        self._messages: "queue.Queue[Tuple[Optional[Dict[str, Any]], float]]" = queue.Queue()
        # When all bytes of the message that was taken last were there.
        self.arrived = 0.0
        self.diagnostics: Dict[str, List[Dict[str, Any]]] = {}
        self.versions: Dict[str, Optional[int]] = {}
        self.published: List[str] = []
        self.other: List[Dict[str, Any]] = []
        self.opened: Set[str] = set()
        self.settings: Any = None
        self._next = 0
        threading.Thread(target=self._read, daemon=True).start()

    def _read(self) -> None:
        output = self.process.stdout
        while True:
            length = None
            while line := output.readline().strip():
                name, _, value = line.partition(b":")
                length = int(value) if name == b"Content-Length" else length
            if length is None:
                self._messages.put((None, 0.0))
                return
            data = output.read(length)
            arrived = time.perf_counter()
            self._messages.put((json.loads(data), arrived))

    def write(self, data: bytes) -> None:
        """Writes bytes as they are."""
        self.process.stdin.write(data)
        self.process.stdin.flush()

    def notify(self, method: str, **params: Any) -> None:
        """Sends a notification."""
        self.write(framed({"jsonrpc": "2.0", "method": method, "params": params}))

    def take(self, limit: float = SECONDS) -> Any:
        """Takes a message from the server, keeps diagnostics, and answers requests."""
        try:
            message, self.arrived = self._messages.get(timeout=limit)
        except queue.Empty:
            raise AssertionError(f"the server says nothing more; diagnostics: {self.diagnostics}; else: {self.other}") from None
        if message is None:
            raise AssertionError(f"the server has ended: {self.process.stderr.read().decode()}")
        if isinstance(message, dict) and message.get("method") == "textDocument/publishDiagnostics":
            params = message["params"]
            self.diagnostics[params["uri"]], self.versions[params["uri"]] = params["diagnostics"], params.get("version")
            self.published.append(params["uri"])
        elif isinstance(message, dict) and message.get("method") == "workspace/configuration":
            self.write(framed({"jsonrpc": "2.0", "id": message["id"], "result": [self.settings]}))
        else:
            self.other.append(message)
        return message

    def request(self, method: str, params: Any = None) -> Dict[str, Any]:
        """Sends a request, and waits for its answer."""
        self._next += 1
        self.write(framed({"jsonrpc": "2.0", "id": self._next, "method": method, "params": params}))
        return self.answer(self._next)

    def answer(self, identity: Any) -> Dict[str, Any]:
        """Waits for the answer with this identity."""
        return self.until(lambda message: isinstance(message, dict) and "method" not in message and message.get("id") == identity)

    def next_answer(self) -> Any:
        """Waits for the next answer, or the next batch of answers. What the server says by itself may come before it."""
        return self.until(lambda message: not (isinstance(message, dict) and "method" in message))

    def until(self, is_it: Callable[[Any], bool]) -> Any:
        """Waits for a message that satisfies `is_it`."""
        limit = time.monotonic() + SECONDS
        while time.monotonic() < limit:
            message = self.take()
            if is_it(message):
                return message
        raise AssertionError(f"no such message; diagnostics: {self.diagnostics}")

    def initialize(self, options: Any = None, folder: Optional[pathlib.Path] = None, **capabilities: Any) -> Dict[str, Any]:
        """Initializes the server, and returns its result."""
        params = {"processId": None, "rootUri": folder.as_uri() if folder else None, "capabilities": capabilities, "initializationOptions": options}
        result = self.request("initialize", params)["result"]
        self.notify("initialized")
        return result

    def open(self, uri: str, text: str, language: str = "", version: int = 1) -> None:
        """Opens a document."""
        self.opened.add(uri)
        self.notify("textDocument/didOpen", textDocument={"uri": uri, "languageId": language, "version": version, "text": text})

    def change(self, uri: str, version: int, *changes: Any) -> None:
        """Changes a document: by whole texts, or by ranges of four numbers with texts."""
        reported = [{"text": change} if isinstance(change, str) else edit(*change) for change in changes]
        self.notify("textDocument/didChange", textDocument={"uri": uri, "version": version}, contentChanges=reported)

    def close(self, uri: str) -> None:
        """Closes a document."""
        self.opened.discard(uri)
        self.notify("textDocument/didClose", textDocument={"uri": uri})

    def found(self, uri: str, version: Optional[int] = 1) -> List[Dict[str, Any]]:
        """Waits for the diagnostics of a document in this version."""
        while uri not in self.versions or self.versions[uri] != version:
            self.take()
        return self.diagnostics[uri]

    def codes(self, uri: str, wanted: List[str]) -> List[Dict[str, Any]]:
        """Waits until the diagnostics of a document have these codes."""
        limit = time.monotonic() + SECONDS
        while [each.get("code") for each in self.diagnostics.get(uri, [{}])] != wanted:
            if time.monotonic() > limit:
                raise AssertionError(f"not {wanted}: {self.diagnostics}")
            self.take()
        return self.diagnostics[uri]

    def stop(self) -> int:
        """Ends the server as a client should, and returns its status."""
        self.request("shutdown")
        self.notify("exit")
        return self.ended()

    def ended(self) -> int:
        """Waits for the server's end, and returns its status."""
        return self.process.wait(timeout=SECONDS)

    def kill(self) -> None:
        """Ends the server in any case."""
        self.process.kill()
        self.process.wait()
        for stream in (self.process.stdin, self.process.stdout, self.process.stderr):
            try:
                stream.close()
            except OSError:
                pass


def edit(line: int, character: int, to_line: int, to_character: int, text: str) -> Dict[str, Any]:
    """A change of a range."""
    return {"range": {"start": {"line": line, "character": character}, "end": {"line": to_line, "character": to_character}}, "text": text}


def span(reported: Dict[str, Any]) -> "tuple[int, int, int, int]":
    """The range of a diagnostic, as four numbers."""
    ends = reported["range"]["start"], reported["range"]["end"]
    return ends[0]["line"], ends[0]["character"], ends[1]["line"], ends[1]["character"]


class WithServer(unittest.TestCase):
    """An initialized server, and a fresh folder. If `SHARED` is set, all tests of a class use one server, one after another."""

    OPTIONS: Any = None
    CAPABILITIES: Dict[str, Any] = {}
    SHARED = False
    shared: Optional[Client] = None

    @classmethod
    def setUpClass(cls) -> None:
        if cls.SHARED:
            cls.shared = Client()
            cls.addClassCleanup(cls.shared.kill)
            cls.initialized = cls.shared.initialize(cls.OPTIONS, None, **cls.CAPABILITIES)

    def setUp(self) -> None:
        room = tempfile.TemporaryDirectory()
        self.addCleanup(room.cleanup)
        self.folder = pathlib.Path(room.name).resolve()
        if self.shared is not None:
            self.client = self.shared
            self.client.other.clear()
        else:
            self.client = self.started()
            self.initialized = self.client.initialize(self.OPTIONS, self.folder, **self.CAPABILITIES)

    def tearDown(self) -> None:
        internal = [message for message in self.client.other if "internal error" in str(message)]
        self.assertEqual(internal, [])
        for uri in list(self.client.opened) if self.shared is not None else ():
            self.client.close(uri)

    def started(self, *words: str, **environment: str) -> Client:
        """A server."""
        client = Client(*words, **environment)
        self.addCleanup(client.kill)
        return client

    def uri(self, name: str) -> str:
        """The URI of a file of the folder."""
        return (self.folder / name).as_uri()

    def write(self, name: str, text: str) -> str:
        """Writes a file, and returns its URI."""
        path = self.folder / name
        path.parent.mkdir(parents=True, exist_ok=True)
        path.write_bytes(text.encode("utf-8"))
        return path.as_uri()
