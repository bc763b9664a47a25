"""The code and the upgrade of a document, by docs/document.md alone: those of the reader of tools/virraupez, which was written from
the page and knows nothing of the programs.

code(document) gives the number of the refusal of the bytes, or 0 where they say a plan. upgrade(document) then gives the text of the
document of version 2."""
import pathlib
import sys

sys.path.insert(0, str(pathlib.Path(__file__).resolve().parent.parent / "tools"))
from virraupez.grammar import ENTITIES, SCRIPTS, hyphenated, identifier
from virraupez.refusals import code
from virraupez.upgrades import text_of

__all__ = ["ENTITIES", "SCRIPTS", "Refused", "code", "demand", "hyphenated", "identifier", "upgrade"]


class Refused(Exception):
    """A code."""


def upgrade(document):
    return text_of(document).encode()


def demand(holds, code):
    if not holds:
        raise Refused(code)
