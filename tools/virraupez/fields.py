"""The fields of transcript lines by their names: each line as an object, with its round, its moment and its callback."""
from __future__ import annotations

from . import TYPE_CHECKING, flow, grammar, transcript

if TYPE_CHECKING:
    from typing import Dict, Iterator, Optional, Tuple

    from .fit import Own
    from .flow import Flow, Origin
    from .shapes import Document, Fields

    # A node, and a callback group of it.
    Owner = Tuple[str, Optional[str]]

# The names of a line's words after its first. All are numbers but those of TEXTS.
NAMES = {
    "round": ("round", "moment"),
    "expire": ("name", "id"),
    "run": ("name", "kind", "in", "aux", "id"),
    "drop": ("name", "kind", "value"),
    "pub": ("name", "value"),
    "call": ("name", "number", "value"),
    "reply": ("name", "value"),
    "goal": ("name", "id", "value"),
    "cancel": ("name", "id", "stamp"),
    "log": ("name", "value"),
    "feedback": ("name", "id", "value"),
    "decide": ("name", "id", "decision"),
    "state": ("name", "id", "status"),
    "code": ("name", "code", "goals"),
    "ask": ("name", "id"),
    "result": ("name", "id", "status", "value"),
    "pending": ("name", "number"),
    "end": ("rounds",),
}
TEXTS = ("name", "kind", "id")
# The lines that no callback writes.
OUTSIDE = ("round", "expire", "pending", "end")


class Place:
    """Where in a run one is: the round and the moment, the line of the callback that runs, and what that took."""

    callback: Optional[int]
    flow: Optional[Flow]
    owners: Dict[str, Owner]

    def __init__(self, document: Optional[Document] = None) -> None:
        self.round, self.moment, self.callback = 0, 0, None
        self.flow, self.owners = None, {}
        if document is not None:
            self.flow, self.owners = flow.Flow(document), owners(document)

    def take(self, number: int, line: str) -> Fields:
        """Takes a line, and gives its object."""
        words = line.split(" ")
        if self.flow:
            self.flow.take(number, words)
        if words[0] == "round":
            self.round, self.moment = int(words[1]), int(words[2])
        if words[0] in OUTSIDE:
            self.callback = None
        elif words[0] == "run":
            self.callback = number
        made = {"line": number, "word": words[0], "round": self.round, "moment": self.moment}
        if self.callback is not None:
            made["callback"] = self.callback
        for name, word in zip(NAMES[words[0]], words[1:]):
            made[name] = word if name in TEXTS else int(word)
        if words[1] in self.owners and words[0] not in ("round", "end"):
            made["node"], made["group"] = self.owners[words[1]]
        if self.flow and words[0] == "run":
            made.update(taken(self.flow.run.cause if self.flow.run else None))
        return made


def taken(cause: Optional[Origin]) -> Fields:
    """What a callback took: the line that sent it, or what was fed."""
    if cause is None:
        return {}
    fed = cause.text.startswith("fed: ")
    return {"fed": cause.text[5:]} if fed else {"took": cause.line}


def owners(document: Document) -> Dict[str, Owner]:
    """The node and the callback group of each entity; the default group has no name."""
    found: Dict[str, Owner] = {}
    for node in document.get("nodes", []):
        for kind in grammar.ENTITIES:
            found.update((it["name"], (node["name"], it.get("group"))) for it in node.get(kind, []))
    return found


def objects(name: str, own: Optional[Own], document: Optional[Document]) -> Iterator[Fields]:
    """The lines of a transcript as objects."""
    place = Place(document)
    for number, line in enumerate(transcript.lines(name, own), 1):
        yield place.take(number, line)


