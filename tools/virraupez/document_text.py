"""The text of a document: its JSON as a person reads it, and in one line."""
from __future__ import annotations

import functools
import json

from . import TYPE_CHECKING

if TYPE_CHECKING:
    from typing import Any, Iterable, List, Tuple

WIDTH = 120
ENCODE = json.JSONEncoder(separators=(",", ":"), default=lambda _: None).encode
# Texts of a document are names, few and often.
QUOTED = functools.lru_cache(maxsize=4096)(ENCODE)


def layout(value: Any, indent: int = 0) -> str:
    """JSON that a person reads: what fits stands in one line."""
    if not isinstance(value, (list, dict)) or len(value) < WIDTH:
        flat = flat_text(value)
        if len(flat) + indent <= WIDTH or not isinstance(value, (list, dict)):
            return flat
    if isinstance(value, dict):
        parts = [(f"{QUOTED(name)}:{layout(part, indent + 1)}", isinstance(part, (list, dict))) for name, part in value.items()]
        return "{" + joined(parts, indent) + "}"
    if all(type(part) is int for part in value):
        return "[" + joined([(str(part), False) for part in value], indent) + "]"
    return "[" + joined([(layout(part, indent + 1), True) for part in value], indent) + "]"


def flat_text(value: Any) -> str:
    """A value in one line. An object of numbers and texts, as all that is fed, takes less than the encoder's time for it."""
    if type(value) is int:
        return str(value)
    if type(value) is str:
        return QUOTED(value)
    if type(value) is dict:
        return "{" + ",".join([f"{QUOTED(name)}:{flat_text(part)}" for name, part in value.items()]) + "}"
    return ENCODE(value)


def joined(parts: Iterable[Tuple[str, bool]], indent: int) -> str:
    """Parts with commas: each that is a list or an object begins a line, and others where a line is full."""
    texts: List[str] = []
    width = 0
    for part, begins in parts:
        if texts:
            texts.append(",")
            if begins or width + len(part) + 1 > WIDTH - indent:
                texts.append("\n" + " " * (indent + 1))
                width = 0
        texts.append(part)
        width += len(part) + 1
    return "".join(texts)
