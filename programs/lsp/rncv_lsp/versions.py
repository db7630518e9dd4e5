"""The version that the server shows."""
from __future__ import annotations

from rncv_lsp import __version__


def shown_version() -> str:
    """The version; a mark is behind it if the library was built without proofs. Without a library nothing is judged, and the mark is left out."""
    try:
        from rncv_lsp.outside import rncv
        found = rncv.version().partition(" ")
    except (ImportError, OSError):
        return __version__
    return __version__ + found[1] + found[2]
