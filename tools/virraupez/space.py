"""The variations of a document that a search tries: what its words say may vary, and which variation each run has."""
from __future__ import annotations

import bisect
import hashlib
import itertools
import re
import struct

from . import TYPE_CHECKING, command, fit, grammar, hints, variation

if TYPE_CHECKING:
    from typing import Callable, Dict, Iterable, Iterator, List, Sequence, Set, Tuple

    from .shapes import Document, Fields

    # Choices with options that aren't the document's own, by their places.
    Variation = List[Tuple[int, int]]

ENTRY = re.compile(r"feed\[([0-9]{1,9})\]")
RANGE = re.compile(r"(-?[0-9]{1,20})(?:\.\.(-?[0-9]{1,20}))?")
AROUND = re.compile(r"(?:±|\+-|\+/-)([0-9]{1,20})")
# How many options all choices together may have.
OPTIONS = 2000000
TOO_MANY = f"all that may vary has more than {OPTIONS} options"


class Space:
    """All variations of a document that some words allow. Each of the words is a list: its option, and what that takes."""

    moments: List[int]
    feed: List[Fields]
    choices: List[variation.Choice]
    known: Set[Tuple[type, str]]

    def __init__(self, document: Document, words: Sequence[Sequence[str]]) -> None:
        self.document, self.moments = document, document.get("moments", [])
        self.times, self.feed = variation.times_of(self.moments), document.get("feed", [])
        self.choices, self.known, self.left = [], set(), OPTIONS
        for option, *rest in words:
            try:
                for choice in MAKERS[option](self, *rest):
                    self.add(choice)
            except Wrong as wrong:
                raise command.Trouble(f"--{option} {' '.join(rest)}: {wrong}") from None
        if not self.choices:
            raise command.Trouble("nothing varies: " + ", ".join(f"--{option}" for option in MAKERS) + " say what may")
        self.choices.sort(key=lambda it: variation.KINDS.index(type(it)))
        self.always = [at for at, it in enumerate(self.choices) if it.own is None]
        self.size = 1
        for choice in self.choices:
            self.size *= len(choice.options)

    def add(self, choice: variation.Choice) -> None:
        key = type(choice), choice.name
        if key in self.known:
            raise Wrong(f"{choice.name} varies twice")
        self.known.add(key)
        self.left -= len(choice.options)
        if self.left < 0:
            raise Wrong(TOO_MANY)
        if list(choice.options[:2]) != [choice.value]:
            self.choices.append(choice)

    # ---- what may vary

    def move(self, what: str, between: str) -> Iterator[variation.Move]:
        low, high = read_range(between)
        for place in self.places(what):
            own = self.moments[self.feed[place]["round"] - 1]
            yield variation.Move(place, self.name(place), self.moments_of(low, high), own)

    def jitter(self, what: str, between: str) -> Iterator[variation.Move]:
        low, high = read_range(between)
        for place in self.places(what):
            own = self.moments[self.feed[place]["round"] - 1]
            yield variation.Move(place, self.name(place), self.moments_of(own + low, own + high), own)

    def drop(self, what: str) -> List[variation.Drop]:
        return [variation.Drop(place, self.name(place)) for place in self.places(what)]

    def twice(self, what: str) -> List[variation.Twice]:
        return [variation.Twice(place, self.name(place)) for place in self.places(what)]

    def swap(self, what: str) -> List[variation.Swap]:
        places = self.places(what)
        if ENTRY.fullmatch(what):
            places = places + [places[0] + 1]
        if len(places) < 2 or places[-1] >= len(self.feed):
            raise Wrong("no entry follows with which it could be exchanged")
        return [variation.Swap(one, other, f"{self.name(one)} and {self.name(other)}") for one, other in zip(places, places[1:])]

    def period(self, timer: str, between: str) -> List[variation.Period]:
        low, high = read_range(between)
        if low < 1:
            raise Wrong("a period is at least 1 tick")
        for node, it in enumerate(self.document.get("nodes", [])):
            for at, held in enumerate(it.get("timers", [])):
                if held["name"] == timer:
                    return [variation.Period(node, at, f"timer {timer}", ticks(low, high), held["period"])]
        raise Wrong(f"no timer has this name{near(timer, self.names_of('timers'))}")

    def shift(self, between: str, around: str) -> Iterator[variation.Shift]:
        low, high = read_range(around)
        for number in self.rounds(between):
            own = self.moments[number - 1]
            yield variation.Shift(number, ticks(max(own + low, 0), max(own + high, 0)), own)

    def miss(self, between: str) -> List[variation.Miss]:
        numbers = [number for number in self.rounds(between) if number < len(self.moments)]
        return [variation.Miss(number - 1, f"round {number} at {self.moments[number - 1]}") for number in numbers]

    # ---- what words are of

    def places(self, what: str) -> List[int]:
        """The places in the feed of an entry, or of all that is fed to a topic or a server."""
        one = ENTRY.fullmatch(what)
        if one and int(one[1]) < len(self.feed):
            return [int(one[1])]
        if one:
            raise Wrong(f"the feed has {len(self.feed)} {'entry' if len(self.feed) == 1 else 'entries'}, counted from 0")
        found = [place for place, entry in enumerate(self.feed) if what in (entry.get("topic"), entry.get("action"))]
        if not found and not self.feed:
            raise Wrong("the document feeds nothing")
        if not found:
            fed = {entry.get("topic", entry.get("action")) for entry in self.feed}
            is_declared = what in self.names_of("topics", "actions")
            raise Wrong("nothing is fed to it" if is_declared else f"no topic or action server to which something is fed{near(what, sorted(fed))}")
        return found

    def rounds(self, between: str) -> List[int]:
        low, high = read_range(between)
        found = [number for number, moment in enumerate(self.moments, 1) if low <= moment <= high]
        if not found:
            raise Wrong(f"there is no round at {between}")
        return found

    def moments_of(self, low: int, high: int) -> List[int]:
        """The moments of the rounds in which an entry comes if its own moment is in a range."""
        first, last = bisect.bisect_left(self.moments, low), bisect.bisect_left(self.moments, high)
        found = list(dict.fromkeys(self.moments[first : last + 1]))
        if not found:
            raise Wrong(f"there is no round at or after {low}")
        return found

    def names_of(self, *kinds: str) -> List[str]:
        return [name for name, kind in fit.Own("", self.document).kinds.items() if kind in kinds]

    def name(self, place: int) -> str:
        entry = self.feed[place]
        of = entry.get("topic") or entry.get("action")
        return f"feed[{place}] ({of} {entry['value']})" if "value" in entry and "cancel" not in entry else f"feed[{place}] (cancel {of})"

    # ---- variations, as the choices and options that aren't the document's own

    def numbered(self, number: int) -> Variation:
        """A variation by its number among all."""
        taken = []
        for at in range(len(self.choices) - 1, -1, -1):
            number, option = divmod(number, len(self.choices[at].options))
            if option != self.choices[at].own:
                taken.append((at, option))
        return taken[::-1]

    def drawn(self, seed: int, number: int) -> Variation:
        """The variation of a number among those that are drawn by chance: it has one change, two, some, or many."""
        chance = numbers(f"{seed} {number}")
        how = next(chance) % 4
        if how < 3:
            count = (1, 2, 3 + next(chance) % 6)[how]
            places = {next(chance) % len(self.choices) for _ in range(count)}
        else:
            percent = 1 + next(chance) % 100
            places = {at for at in range(len(self.choices)) if next(chance) % 100 < percent} or {next(chance) % len(self.choices)}
        return [(at, self.other(at, next(chance))) for at in sorted(places.union(self.always))]

    def other(self, at: int, number: int) -> int:
        """One of the options of a choice that the document hasn't."""
        choice = self.choices[at]
        if choice.own is None:
            return number % len(choice.options)
        option = number % (len(choice.options) - 1)
        return option + (option >= choice.own)

    def value(self, taken: Variation) -> Document:
        """The document of a variation."""
        draft = variation.Draft(self.document, self.times)
        for at, option in taken:
            self.choices[at].apply(draft, option)
        return draft.value()

    def changes(self, taken: Variation) -> List[str]:
        return [self.choices[at].change(option) for at, option in taken]

    def cost(self, taken: Variation) -> Tuple[int, int]:
        """How many changes a variation has, and how far they go."""
        return len(taken), sum(self.choices[at].distance(option) for at, option in taken)


# The options that say what may vary, with what each makes.
MAKERS: Dict[str, Callable[..., Iterable[variation.Choice]]] = {name: getattr(Space, name) for name in ("move", "jitter", "drop", "twice", "swap", "period", "shift", "miss")}


class Wrong(Exception):
    """What is wrong with a word."""


def near(word: str, names: Iterable[str]) -> str:
    hint = hints.meant(word, names)
    return f"; {hint}" if hint else ""


def read_range(text: str) -> Tuple[int, int]:
    """The ends of A..B, of ±N, or of one number."""
    around, found = AROUND.fullmatch(text), RANGE.fullmatch(text)
    if around:
        return -int(around[1]), int(around[1])
    low, high = (int(found[1]), int(found[2] or found[1])) if found else (1, 0)
    if low > high:
        raise Wrong(f"{text[:40]!r} is no range: A..B, ±N or one number is")
    return low, high


def ticks(low: int, high: int) -> range:
    """Periods or moments from one number of ticks to another. Of a longer range Python can't even say how long it is."""
    if high > grammar.LATEST:
        raise Wrong(f"{high} is too great: a document has periods and moments of at most {grammar.LATEST} ticks")
    if high - low >= OPTIONS:
        raise Wrong(TOO_MANY)
    return range(low, high + 1)


def numbers(text: str) -> Iterator[int]:
    """Numbers of 64 bits that a text decides, the same on every machine."""
    for block in itertools.count():
        yield from struct.unpack(">4Q", hashlib.sha256(f"{text} {block}".encode()).digest())


