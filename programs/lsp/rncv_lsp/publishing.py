"""Sends diagnostics: for each document, all that the judges have found in it, and nothing twice."""
from __future__ import annotations

import json
import threading
from typing import Any, Callable, Dict, Iterable, List, Mapping, Optional, Tuple

from rncv_lsp.rpc import Connection

Diagnostics = List[Dict[str, Any]]


class Publisher:
    """Keeps what each judge found in which document. It may be called from any thread."""

    def __init__(self, connection: Connection) -> None:
        self._connection = connection
        self._lock = threading.Lock()
        self._found: Dict[str, Dict[str, Diagnostics]] = {}
        self._versions: Dict[str, Optional[int]] = {}
        self._sent: Dict[str, Tuple[Optional[int], str]] = {}

    def set_all(self, prefix: str, found: Mapping[str, Dict[str, Diagnostics]], versions: Mapping[str, int]) -> None:
        """Takes all that the judges whose names begin with the prefix have found, and forgets everything older from such judges. The versions are those of
        the open documents. No version is sent for other documents."""
        with self._lock:
            self._versions = dict(versions)
            before = {name: each for name, each in self._found.items() if name.startswith(prefix)}
            self._found = {name: each for name, each in self._found.items() if name not in before}
            self._found.update(found)
            self._send(uri for each in (*before.values(), *found.values()) for uri in each)

    def set_one(self, name: str, uri: str, found: Diagnostics, is_wanted: Callable[[], Optional[int]]) -> None:
        """Takes what one judge found in one document. `is_wanted` returns the document's version, or None if the finding is no longer wanted."""
        with self._lock:
            version = is_wanted()
            if version is None:
                return
            self._versions[uri] = version
            self._found[name] = {uri: found}
            self._send([uri])

    def drop(self, names: Callable[[str], bool]) -> None:
        """Forgets what the judges with such names have found."""
        with self._lock:
            gone = [name for name in self._found if names(name)]
            uris = [uri for name in gone for uri in self._found.pop(name)]
            self._send(uris)

    def _send(self, uris: Iterable[str]) -> None:
        """Sends what is found in these documents, if it differs from what was sent."""
        for uri in dict.fromkeys(uris):
            texts: Dict[str, Any] = {}
            for each in self._found.values():
                for reported in each.get(uri, []):
                    texts[json.dumps(reported, sort_keys=True)] = reported
            version = self._versions.get(uri)
            state = version, "\n".join(texts)
            if self._sent.get(uri) == state or (not texts and version is None and uri not in self._sent):
                continue
            self._sent[uri] = state
            params = {"uri": uri, "diagnostics": list(texts.values())}
            self._connection.notify("textDocument/publishDiagnostics", params if version is None else {**params, "version": version})
            if not texts and version is None:
                del self._sent[uri]
