"""JSON-RPC 2.0: requests, notifications and answers, on streams of bytes."""
from __future__ import annotations

import json
import math
import threading
from typing import Any, BinaryIO, Callable, Dict, List, NoReturn, Optional

from rncv_lsp.framing import write_message

PARSE_ERROR, INVALID_REQUEST, METHOD_NOT_FOUND, INVALID_PARAMS, INTERNAL_ERROR = -32700, -32600, -32601, -32602, -32603
NOT_INITIALIZED = -32002
MOST_DIGITS = 300

Handler = Callable[[Any], Any]


class Written(str):
    """A result that is JSON already, in ASCII. What has thousands of parts is written faster so."""


class RpcFault(Exception):
    """A request that gets an error as its answer, or a notification that is not accepted."""

    def __init__(self, code: int, what: str) -> None:
        super().__init__(what)
        self.code, self.what = code, what


def member(value: Any, name: str, kind: Any) -> Any:
    """A member of an object. Raises RpcFault if it does not have this kind."""
    found = value.get(name) if isinstance(value, dict) else None
    if not isinstance(found, kind) or isinstance(found, bool):
        raise RpcFault(INVALID_PARAMS, f"the parameters have no valid {name!r}")
    return found


def within(value: Any, *names: str) -> Any:
    """The member at this path of names; None if one is missing."""
    for name in names:
        value = value.get(name) if isinstance(value, dict) else None
    return value


def error_answer(identity: Any, fault: RpcFault) -> Dict[str, Any]:
    """The answer to a request that failed."""
    return {"jsonrpc": "2.0", "id": identity, "error": {"code": fault.code, "message": fault.what}}


def no_constant(name: str) -> NoReturn:
    """Refuses NaN and Infinity, which Python reads and JSON does not have."""
    raise ValueError(name)


def whole_number(words: str) -> int:
    """A number without a fraction. Long ones are refused, since to read them takes long."""
    if len(words) > MOST_DIGITS:
        raise ValueError("a number with too many digits")
    return int(words)


def number(words: str) -> float:
    """Another number. One that is too large is refused: Python reads it as Infinity, and JSON has no form of that."""
    found = float(words)
    if math.isinf(found):
        raise ValueError("a number that is too large")
    return found


DECODER = json.JSONDecoder(parse_constant=no_constant, parse_int=whole_number, parse_float=number)


def parsed(data: bytes) -> Any:
    """The value of a message."""
    try:
        return DECODER.decode(data.decode("utf-8"))
    except (ValueError, RecursionError):
        raise RpcFault(PARSE_ERROR, "the message is not JSON in UTF-8, or has a number that is too large") from None


def written(message: Any) -> str:
    """The JSON of a message, or of a list of them."""
    if isinstance(message, list):
        return f"[{','.join(map(written, message))}]"
    result = message.get("result")
    if isinstance(result, Written):
        return f'{{"jsonrpc":"2.0","id":{json.dumps(message["id"], allow_nan=False)},"result":{result}}}'
    return json.dumps(message, separators=(",", ":"), allow_nan=False)


class Connection:
    """The connection to the other side. It takes messages one at a time, from any thread."""

    def __init__(self, sink: BinaryIO) -> None:
        self._sink = sink
        self._lock = threading.Lock()
        self._waiting: Dict[int, Handler] = {}
        self._next = 1
        self._is_closed = False

    def send(self, message: Any) -> None:
        """Sends a message, or a list of them. Drops it if the other side is gone; the end of the input will show that."""
        data = written(message).encode("ascii")
        with self._lock:
            try:
                if not self._is_closed:
                    write_message(self._sink, data)
            except (OSError, ValueError):
                self._is_closed = True

    def notify(self, method: str, params: Any) -> None:
        """Sends a notification."""
        self.send({"jsonrpc": "2.0", "method": method, "params": params})

    def ask(self, method: str, params: Any, then: Handler) -> None:
        """Sends a request. `then` gets its result, if there is one."""
        with self._lock:
            identity, self._next = self._next, self._next + 1
            self._waiting[identity] = then
        self.send({"jsonrpc": "2.0", "id": identity, "method": method, "params": params})

    def answered(self, message: Dict[str, Any]) -> None:
        """Takes an answer from the other side."""
        identity = message.get("id")
        then = self._waiting.pop(identity, None) if isinstance(identity, int) else None
        if then is not None and "result" in message:
            then(message["result"])

    def log(self, kind: int, text: str) -> None:
        """Writes to the client's log: an error (1), a warning (2) or an information (3)."""
        self.notify("window/logMessage", {"type": kind, "message": f"rncv-lsp: {text}"})


class Dispatcher:
    """Passes each message to the handler of its method. `allow` may raise for a request, or return False for a notification to drop."""

    def __init__(self, connection: Connection, allow: Callable[[str, bool], bool]) -> None:
        self._connection, self._allow = connection, allow
        self.requests: Dict[str, Handler] = {}
        self.notifications: Dict[str, Handler] = {}

    def take(self, data: bytes) -> bool:
        """Takes the bytes of a message, or of a batch, and sends the answers to it. False: the bytes are not JSON."""
        try:
            value = parsed(data)
        except RpcFault as fault:
            self.refuse(fault)
            return False
        if isinstance(value, list) and value:
            self._take_batch(value)
            return True
        answer = self._answer(value)
        if answer is not None:
            self._connection.send(answer)
        return True

    def _take_batch(self, values: List[Any]) -> None:
        """Takes the messages of a batch. Messages before one that ends the server are answered too."""
        answers: List[Any] = []
        try:
            for value in values:
                answer = self._answer(value)
                answers += [] if answer is None else [answer]
        finally:
            if answers:
                self._connection.send(answers)

    def refuse(self, fault: RpcFault) -> None:
        """Reports that something was not a message."""
        self._connection.send(error_answer(None, fault))

    def _answer(self, message: Any) -> Optional[Dict[str, Any]]:
        """The answer to one message; None for a notification or an answer."""
        if not isinstance(message, dict):
            return error_answer(None, RpcFault(INVALID_REQUEST, "the message is not an object"))
        method, identity = message.get("method"), message.get("id")
        if method is None and ("result" in message or "error" in message):
            self._guarded(lambda: self._connection.answered(message))
            return None
        is_named = isinstance(method, str)
        if "id" not in message and is_named:
            self._guarded(lambda: self._notified(method, message.get("params")))
            return None
        if not is_named or isinstance(identity, bool) or not isinstance(identity, (int, float, str, type(None))):
            return error_answer(None, RpcFault(INVALID_REQUEST, "the message is not a request"))
        return self._requested(message)

    def _requested(self, message: Dict[str, Any]) -> Dict[str, Any]:
        """The answer to a request."""
        identity, method = message["id"], message["method"]
        try:
            self._allow(method, True)
            handler = self.requests.get(method)
            if handler is None:
                raise RpcFault(METHOD_NOT_FOUND, f"no such method: {method}")
            return {"jsonrpc": "2.0", "id": identity, "result": handler(message.get("params"))}
        except RpcFault as fault:
            return error_answer(identity, fault)
        except Exception as error:  # whatever happens, the server continues
            self._connection.log(1, described(error))
            return error_answer(identity, RpcFault(INTERNAL_ERROR, described(error)))

    def _notified(self, method: str, params: Any) -> None:
        """Takes a notification. Ignores an unknown one."""
        handler = self.notifications.get(method)
        if self._allow(method, False) and handler is not None:
            handler(params)

    def _guarded(self, action: Callable[[], None]) -> None:
        """Runs an action that has no answer. A fault goes to the client's log."""
        try:
            action()
        except RpcFault as fault:
            self._connection.log(2, fault.what)
        except Exception as error:  # whatever happens, the server continues
            self._connection.log(1, described(error))


def described(error: BaseException) -> str:
    """One line about an error that the server did not expect."""
    return f"internal error: {type(error).__name__}: {error}"
