"""What a line of a run comes from: the callbacks that led to it with what they took, and the drops of what came of it. A line is known
by its first words, without its numbers: `run motor message`, `pub cmd_vel`."""
from __future__ import annotations

import collections

from . import TYPE_CHECKING, flow

if TYPE_CHECKING:
    from typing import Dict, List, Optional, OrderedDict

    from .shapes import Document, Words

# The lines that are about no entity.
OUTSIDE = ("round", "end")


def name_of(words: Words) -> str:
    """The first words of a line, by which it is known in another run."""
    return " ".join(words[: 3 if words[0] in ("run", "drop") else 2])


def names(text: str) -> Dict[str, None]:
    """The first words of all lines of a transcript, each once, but for those that say where in a run one is."""
    lines = (line.split(" ") for line in text.split("\n")[:-1])
    return dict.fromkeys(name_of(words) for words in lines if words[0] not in OUTSIDE)


class Ancestry:
    """A run with what each callback took, and which item each drop lost."""

    callback: Dict[int, int]
    took: Dict[int, Optional[flow.Origin]]
    lost: Dict[int, Optional[flow.Origin]]

    def __init__(self, document: Document, text: str) -> None:
        self.lines = [line.split(" ") for line in text.split("\n")[:-1]]
        # The callback of each line, what each callback took, and the lost items of drops, by the numbers of lines.
        self.callback, self.took, self.lost = {}, {}, {}
        follower, running = flow.Flow(document), None
        for number, words in enumerate(self.lines, 1):
            follower.take(number, words)
            if words[0] in (*OUTSIDE, "expire", "pending"):
                running = None
            elif words[0] == "run":
                running, self.took[number] = number, follower.run.cause if follower.run else None
            elif words[0] == "drop":
                self.lost[number] = follower.dropped()
            if running:
                self.callback[number] = running

    def of(self, number: int) -> List[str]:
        """The first words of what a line comes from, itself among them, and of the drops of what came of it."""
        if self.lines[number - 1][0] in OUTSIDE:
            return []
        found: OrderedDict[str, None] = collections.OrderedDict()
        at: Optional[int] = number
        while at is not None:
            found[name_of(self.lines[at - 1])] = None
            running = self.callback.get(at)
            if running is None:
                break
            found[name_of(self.lines[running - 1])] = None
            origin = self.took.get(running)
            at = origin.line if origin and not origin.text.startswith("fed: ") else None
        found.update((name_of(self.lines[drop - 1]), None) for drop in self.drops(number))
        return list(found)

    def drops(self, number: int) -> List[int]:
        """The drops of what a line sent, and of what came of that."""
        came = {number}
        for at in range(number + 1, len(self.lines) + 1):
            origin = self.took.get(self.callback.get(at, 0))
            if origin and origin.line in came and not origin.text.startswith("fed: "):
                came.add(at)
        return [drop for drop, item in self.lost.items() if item and item.line in came and not item.text.startswith("fed: ")]
