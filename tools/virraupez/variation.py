"""What may vary in a document: when an entry of the feed comes and whether it does, how long a timer's period is, and when the
executor looks at the world. A choice has options, one of which may be what the document says; a draft is a document in which
options were taken."""
from __future__ import annotations

import bisect

from . import TYPE_CHECKING

if TYPE_CHECKING:
    from typing import Dict, Iterable, List, Optional, Sequence, Set, Tuple

    from .shapes import Document, Fields

    # A moment, and which of the rounds at that moment.
    Time = Tuple[int, int]


class Draft:
    """A document that is being varied. Each entry of the feed has a time: a moment, and which of the rounds at that moment."""

    missed: Set[int]
    dropped: Set[int]
    doubled: Set[int]
    periods: Dict[Tuple[int, int], int]

    def __init__(self, document: Document, times: Sequence[Time]) -> None:
        self.document, self.times, self.missed = document, list(times), set()
        self.entries = list(document.get("feed", []))
        self.at = [times[entry["round"] - 1] for entry in self.entries]
        self.dropped, self.doubled, self.periods = set(), set(), {}

    def value(self) -> Document:
        """The document. An entry comes in the first round at its time or later, and in the last round if there is none."""
        times = sorted(it for number, it in enumerate(self.times) if number not in self.missed)
        feed = []
        for place, entry in enumerate(self.entries):
            if place not in self.dropped:
                number = min(bisect.bisect_left(times, self.at[place]) + 1, len(times))
                feed += [{**entry, "round": number}] * (2 if place in self.doubled else 1)
        made: Document = {**self.document, "moments": [moment for moment, _ in times], "feed": feed}
        for (node, timer), period in self.periods.items():
            made["nodes"] = replaced(made["nodes"], node, {"timers": replaced(made["nodes"][node]["timers"], timer, {"period": period})})
        return made


def replaced(items: List[Fields], at: int, fields: Fields) -> List[Fields]:
    """A list with other fields of one of its objects."""
    return [*items[:at], {**items[at], **fields}, *items[at + 1 :]]


def times_of(moments: Sequence[int]) -> List[Time]:
    """The time of each round: its moment, and how many rounds at that moment come before it."""
    times: List[Time] = []
    for moment in moments:
        again = times and times[-1][0] == moment
        times.append((moment, times[-1][1] + 1 if again else 0))
    return times


class Choice:
    """A thing that may vary: its name, its options, and the place of the document's own among them, or None."""

    own: Optional[int]

    word = "at"

    def __init__(self, name: str, options: Sequence[int], own: int) -> None:
        self.name, self.options, self.value = name, options, own
        self.own = options.index(own) if own in options else None

    def change(self, at: int) -> str:
        """What an option changes, in words."""
        return f"{self.name} {self.word} {self.options[at]}, and not {self.value}"

    def distance(self, at: int) -> int:
        """How far an option is from what the document says."""
        return abs(self.options[at] - self.value)

    def ranges(self, places: Iterable[int]) -> List[str]:
        """Some of the options, in words: those that follow one another are a range."""
        parts: List[List[int]] = []
        for at in sorted(places):
            if parts and parts[-1][1] == at - 1:
                parts[-1][1] = at
            else:
                parts.append([at, at])
        found = [self.shown(*it) for it in parts]
        return [f"{self.word} {found[0]}", *found[1:]]

    def apply(self, draft: Draft, at: int) -> None:
        """Takes an option in a draft."""

    def shown(self, first: int, last: int) -> str:
        return str(self.options[first]) if first == last else f"{self.options[first]}..{self.options[last]}"


class Move(Choice):
    """An entry of the feed comes at one of some moments."""

    def __init__(self, place: int, name: str, moments: Sequence[int], own: int) -> None:
        super().__init__(name, moments, own)
        self.place = place

    def apply(self, draft: Draft, at: int) -> None:
        draft.at[self.place] = self.options[at], 0


class Period(Choice):
    """A timer has one of some periods."""

    word = "has a period of"

    def __init__(self, node: int, timer: int, name: str, periods: Sequence[int], own: int) -> None:
        super().__init__(name, periods, own)
        self.node, self.timer = node, timer

    def apply(self, draft: Draft, at: int) -> None:
        draft.periods[self.node, self.timer] = self.options[at]


class Shift(Choice):
    """A round comes at one of some moments."""

    def __init__(self, number: int, moments: Sequence[int], own: int) -> None:
        super().__init__(f"round {number}", moments, own)
        self.number = number

    def apply(self, draft: Draft, at: int) -> None:
        draft.times[self.number - 1] = self.options[at], 0


class Choose(Choice):
    """A thing that happens or doesn't. What the document says is that it doesn't."""

    happens = ""

    def __init__(self, place: int, name: str) -> None:
        super().__init__(name, (False, True), False)
        self.place = place

    def change(self, _at: int) -> str:
        return f"{self.name} {self.happens}"

    def ranges(self, _places: Iterable[int]) -> List[str]:
        return [self.happens]


class Swap(Choose):
    happens = "are exchanged"

    def __init__(self, place: int, other: int, name: str) -> None:
        super().__init__(place, name)
        self.other = other

    def apply(self, draft: Draft, _at: int) -> None:
        one, other = self.place, self.other
        draft.entries[one], draft.entries[other] = draft.entries[other], draft.entries[one]


class Drop(Choose):
    happens = "is dropped"

    def apply(self, draft: Draft, _at: int) -> None:
        draft.dropped.add(self.place)


class Twice(Choose):
    happens = "comes twice"

    def apply(self, draft: Draft, _at: int) -> None:
        draft.doubled.add(self.place)


class Miss(Choose):
    happens = "is missed"

    def apply(self, draft: Draft, _at: int) -> None:
        draft.missed.add(self.place)


# The order in which options are taken, whatever the order of the words is.
KINDS = (Swap, Move, Drop, Twice, Shift, Miss, Period)


