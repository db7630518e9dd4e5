"""What the server imports from other folders of the repository: the package `rncv`, and tokens of the compact syntax."""
import pathlib
import sys

PROGRAMS = pathlib.Path(__file__).resolve().parents[2]
for folder in ("python", "profile", "schema"):  # the last is where `make install` puts `profile`
    sys.path.append(str(PROGRAMS / folder))

import rncv  # noqa: E402
from compact_tokens import ESCAPE, KEYWORDS, NCNAME, TOKEN, NoToken, Token, character, meaning, tokens  # noqa: E402

__all__ = ["ESCAPE", "KEYWORDS", "NCNAME", "NoToken", "TOKEN", "Token", "character", "meaning", "rncv", "tokens"]
