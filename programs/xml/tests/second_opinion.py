"""The second opinion about what `rncv-xml` says: the PYX of `xml2pyx`, judged by `rncv`."""
import re
import subprocess

from testing import RNCV, XML2PYX

# Clauses about PYX alone, and its limits. A document that breaks one has no second opinion.
OF_PYX = {"P10"}


def by_pyx(schema, document, folder, files=()):
    """`valid`, `invalid`, or the clause that the document breaks; None: it has no PYX, or is over a limit of PYX."""
    pyx = subprocess.run([XML2PYX, document], cwd=folder, capture_output=True, check=False)
    if pyx.returncode != 0:
        return None
    run = subprocess.run([RNCV, "valid", schema, *files], cwd=folder, input=pyx.stdout, capture_output=True, check=False)
    found = re.match(r"(?:malformed )?(valid|invalid|P\d+)\b", run.stdout.decode("utf-8", "replace"))
    return None if not found or found[1] in OF_PYX else found[1]


def is_same(verdict, clause, opinion):
    """Whether the verdict of `rncv-xml`, and the clause that it says, is the second opinion. None is any."""
    if opinion is None:
        return True
    return verdict == opinion if opinion in ("valid", "invalid") else verdict == "malformed" and clause == opinion
