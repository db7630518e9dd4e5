"""Parts of the server that answer requests, each about its own kind of documents. They may have methods in common."""
from __future__ import annotations

from typing import Any, Dict, Iterable, List

from rncv_lsp.rpc import Handler


def joined_requests(parts: Iterable[Dict[str, Handler]]) -> Dict[str, Handler]:
    """The handlers of all parts. If several have a method, the first answer counts that is not None."""
    found: Dict[str, List[Handler]] = {}
    for method, handler in ((method, handler) for part in parts for method, handler in part.items()):
        found.setdefault(method, []).append(handler)
    return {method: handlers[0] if len(handlers) == 1 else first_of(handlers) for method, handlers in found.items()}


def first_of(handlers: List[Handler]) -> Handler:
    """A handler that gives the first answer of these."""

    def answer(params: Any) -> Any:
        """The answer."""
        return next((answer for handler in handlers if (answer := handler(params)) is not None), None)

    return answer


def joined_capabilities(parts: Iterable[Dict[str, Any]]) -> Dict[str, Any]:
    """What all parts can do. Where several have options, such as characters behind which a client asks, the lists are joined."""
    joined: Dict[str, Any] = {}
    for name, value in ((name, value) for part in parts for name, value in part.items()):
        before = joined.get(name)
        is_both = isinstance(before, dict) and isinstance(value, dict)
        joined[name] = joined_options(before, value) if is_both else value
    return joined


def joined_options(one: Dict[str, Any], other: Dict[str, Any]) -> Dict[str, Any]:
    """The options of both."""
    lists = {name: [*dict.fromkeys([*one[name], *other[name]])] for name in one if isinstance(one[name], list) and isinstance(other.get(name), list)}
    return {**one, **other, **lists}
