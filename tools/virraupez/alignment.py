"""The rounds of two transcripts side by side. Rounds belong together by their moments, whatever their numbers are, so that a round
that one of the two has alone is one difference and not one of all that follow."""
from __future__ import annotations

import collections
import difflib
import itertools
import re

from . import TYPE_CHECKING

if TYPE_CHECKING:
    from typing import Deque, Iterable, Iterator, List, Optional, Sequence, Tuple

    Pair = Tuple[Optional["Round"], Optional["Round"]]
    Change = Tuple[Tuple[int, int], Tuple[int, int]]

# How many rounds of one moment are looked through for one that is the same, how many lines of a round are matched, and with how many
# lines that are the same each of them on average: to match lines that repeat takes time as the square of them.
AHEAD, MATCHED, ALIKE = 16, 400, 16


class Round:
    """A round: its number and moment, the number of its first line, and its text. What stands after the last round is one too, with
    the number None: the calls that are pending."""

    number: Optional[int]
    moment: float

    def __init__(self, text: str, at: int) -> None:
        self.at, self.text = at, text
        head, _, self.rest = text.partition("\n")
        words = head.split(" ")
        is_round = words[0] == "round"
        self.number, self.moment = (int(words[1]), int(words[2])) if is_round else (None, float("inf"))
        self.rest = self.rest if is_round else text

    def __eq__(self, other: object) -> bool:
        """Whether all but the number is the same."""
        return isinstance(other, Round) and self.moment == other.moment and self.rest == other.rest

    @property
    def begin(self) -> int:
        """The number of its first line behind the line `round`."""
        return self.at + bool(self.number)

    def lines(self) -> List[str]:
        """Its lines, but for the line `round`."""
        return self.rest.split("\n")[:-1]

    def when(self) -> str:
        return f"round {self.number} at moment {self.moment}" if self.number else "the calls that are pending"


def rounds(blocks: Iterable[str]) -> Iterator[Round]:
    """The rounds of a transcript, by blocks of its lines."""
    rest, at = "", 1
    for block in blocks:
        first, *others = (rest + block).split("\nround ")
        *parts, rest = [first, *(f"round {it}" for it in others)]
        for part in parts:
            yield Round(f"{part}\n", at)
            at += part.count("\n") + 1
    pending = re.search("^(?:pending|end) ", rest, re.M)
    end = pending.start() if pending else len(rest)
    last, rest = rest[:end], rest[end:]
    if last:
        yield Round(last, at)
    if rest.startswith("pending "):
        yield Round(rest[: rest.rindex("end ")], at + last.count("\n"))


class Ahead:
    """Rounds with those that come next."""

    next: Deque[Round]

    def __init__(self, rounds: Iterator[Round]) -> None:
        self.rounds, self.next = rounds, collections.deque()

    def first(self) -> Optional[Round]:
        return self.at(0)

    def at(self, place: int) -> Optional[Round]:
        """The round at a place from here, if there is one."""
        while len(self.next) <= place:
            made = next(self.rounds, None)
            if made is None:
                return None
            self.next.append(made)
        return self.next[place]

    def take(self) -> Round:
        return self.next.popleft()

    def place_of(self, other: Round) -> Optional[int]:
        """How many rounds of one moment come before one that is the same as another, if one is."""
        for place in range(1, AHEAD):
            found = self.at(place)
            if found is None or found.moment != other.moment:
                return None
            if found == other:
                return place
        return None


def pairs(one: Iterator[Round], other: Iterator[Round]) -> Iterator[Pair]:
    """The rounds of two transcripts: those that belong together, and those that one has alone, beside None."""
    ours, theirs = Ahead(one), Ahead(other)
    while True:
        here, there = ours.first(), theirs.first()
        if here is None and there is None:
            return
        if there is None or here is not None and here.moment < there.moment:
            yield ours.take(), None
        elif here is None or there.moment < here.moment:
            yield None, theirs.take()
        elif here == there:
            yield ours.take(), theirs.take()
        else:
            yield from parted(ours, theirs, ours.place_of(there), theirs.place_of(here))


def parted(one: Ahead, other: Ahead, here: Optional[int], there: Optional[int]) -> Iterator[Pair]:
    """The next rounds of one moment that aren't the same: what one has alone before they are the same again, or one of each. Here and
    there are how many rounds each has before one that is the other's next, if it has that."""
    if here is not None and (there is None or here <= there):
        for _ in range(here):
            yield one.take(), None
    elif there is not None:
        for _ in range(there):
            yield None, other.take()
    else:
        yield one.take(), other.take()


def middle(one: Sequence[str], other: Sequence[str]) -> Tuple[int, int]:
    """The places between which two lists of lines differ: where they begin to, and how many lines are the same at their ends."""
    before = sum(1 for _ in itertools.takewhile(lambda it: it[0] == it[1], zip(one, other)))
    most = min(len(one), len(other)) - before
    behind = sum(1 for _ in itertools.takewhile(lambda it: it[0] == it[1], zip(itertools.islice(reversed(one), most), reversed(other))))
    return before, behind


def alike(one: Sequence[str], other: Sequence[str]) -> int:
    """How many pairs of lines of both are the same."""
    counts = collections.Counter(other)
    return sum(count * counts[line] for line, count in collections.Counter(one).items())


def changes(one: Sequence[str], other: Sequence[str]) -> List[Change]:
    """The places of two lists of lines at which they differ: as (begin, end) of each, in order."""
    before, behind = middle(one, other)
    ours, theirs = one[before : len(one) - behind], other[before : len(other) - behind]
    if len(ours) > MATCHED or len(theirs) > MATCHED or alike(ours, theirs) > ALIKE * (len(ours) + len(theirs)):
        return [((before, before + len(ours)), (before, before + len(theirs)))]
    found = difflib.SequenceMatcher(None, ours, theirs, autojunk=False).get_opcodes()
    return [((before + a, before + b), (before + c, before + d)) for how, a, b, c, d in found if how != "equal"]


