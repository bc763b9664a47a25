"""All faults of a document, and the code that the program refuses it with: the least."""
from __future__ import annotations

from . import TYPE_CHECKING, declarations, faults, json_text, scripts

if TYPE_CHECKING:
    from typing import Any, Iterator

    from .declarations import Declared
    from .faults import Fault

PARTS = (faults.version, faults.names, faults.limits, scripts.faults, faults.clock, faults.identifiers)


def of(document: Any, declared: Declared) -> Iterator[Fault]:
    """The faults of the codes 2 to 9 of a value that JSON's reader gave, and of what it declares."""
    for fault in faults.shape(document, "document"):
        declared.is_whole = False
        yield faults.with_moment(fault, declared)
    for part in PARTS:
        yield from part(declared)


def code(given: bytes) -> int:
    """The code of a document's bytes, or 0 where they say a plan."""
    try:
        document = json_text.read(given.decode())
    except (UnicodeDecodeError, json_text.NotJson):
        return 1
    return min((fault.code for fault in of(document, declarations.Declared(document))), default=0)
