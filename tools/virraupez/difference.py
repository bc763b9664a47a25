"""Where two transcripts differ, what is known of the causes, and how the lines of each entity differ."""
from __future__ import annotations

import collections
import copy
import functools
import itertools

from . import TYPE_CHECKING, alignment, command, transcript

if TYPE_CHECKING:
    from typing import Callable, Container, Counter, Dict, Iterable, Iterator, List, Optional, Sequence, Set, Tuple

    from .alignment import Round
    from .fit import Own
    from .flow import Flow, Origin
    from .shapes import Paint

    # A line with its sign.
    Marked = Tuple[str, str]

# How many differences are told where not all are asked for, how many lines of each, and how many lines before it.
TOLD, SHOWN, BEFORE = 5, 20, 3


class Side:
    """One of two transcripts, with what is followed of it."""

    own: Counter[Tuple[str, str]]

    def __init__(self, name: str, flow: Optional[Flow]) -> None:
        self.name, self.flow = name, flow
        # How many lines each entity has of each word that the other side hasn't.
        self.own = collections.Counter()


class Place:
    """A difference: what stands at the place of each side, and what is told of it."""

    def __init__(self, head: Callable[[], Tuple[str, str]], lines: List[Marked], causes: List[str]) -> None:
        self.head, self.lines, self.causes = head, lines, causes


class Difference:
    """The differences of two transcripts."""

    places: List[Place]
    moved: Set[Tuple[str, str]]
    alone: Optional[Tuple[int, Round, List[Round]]]
    trouble: Optional[command.Trouble]

    def __init__(self, names: Sequence[str], flows: List[Flow], most: int = TOLD) -> None:
        """Flows of none, of both or of each of the transcripts."""
        both: List[Optional[Flow]] = [*flows, *flows, None, None]
        self.sides = [Side(name, flow) for name, flow in zip(names, both)]
        self.is_shared, self.most = len(flows) == 1, most
        self.places, self.count, self.rounds, self.number = [], 0, 0, 0
        self.moved, self.alone, self.trouble = set(), None, None

    @property
    def differ(self) -> bool:
        return self.count > 0

    def read(self, own: Sequence[Optional[Own]]) -> None:
        """Reads both files, each of which must be one of its document if that is given."""
        self.take([transcript.blocks(side.name, it) for side, it in zip(self.sides, own)])

    def take(self, both: Sequence[Iterable[str]]) -> None:
        """Takes both, by blocks of their lines, to their ends. One that is cut off leaves what was found before."""
        try:
            for one, other in alignment.pairs(*map(alignment.rounds, both)):
                if one is not None and other is not None:
                    (self.common if one == other else self.two)(one, other)
                elif one is not None:
                    self.one_alone(0, one)
                elif other is not None:
                    self.one_alone(1, other)
        except command.Trouble as trouble:
            self.trouble = trouble

    # ---- rounds

    def common(self, one: Round, other: Round) -> None:
        """Takes a round that both have."""
        self.alone = None
        if self.sides[0].flow and self.is_followed():
            self.follow(0, one)
            if not self.is_shared:
                self.follow(1, other)
        self.rounds, self.number = self.rounds + bool(one.number), one.begin + one.rest.count("\n")

    def is_followed(self) -> bool:
        return len(self.places) < self.most

    def follow(self, at: int, taken: Round, places: Container[int] = ()) -> Dict[int, List[str]]:
        """Follows the lines of a round, and gives what is known of some of its lines, by their places."""
        flow, found, running = self.sides[at].flow, {}, None
        if flow and taken.number:
            flow.take(taken.at, ["round", str(taken.number), str(taken.moment)])
        for place, line in enumerate(taken.lines()):
            words, number = line.split(" "), taken.begin + place
            if words[0] == "run":
                running = number, line
            if flow:
                flow.take(number, words)
            if place in places:
                found[place] = list(cause(flow, number, line, running))
        return found

    def part(self) -> None:
        """Lets each side go its own way from the first difference on."""
        self.count += 1
        if self.is_shared:
            self.is_shared = False
            self.sides[1].flow = copy.deepcopy(self.sides[0].flow)

    def one_alone(self, at: int, taken: Round) -> None:
        """Takes a round that one of the two has alone. Those that follow one another are one difference."""
        self.sides[at].own.update(map(key, taken.lines()))
        if self.alone is None or self.alone[0] != at:
            self.part()
            last = [taken]
            self.alone = at, taken, last
            if self.is_followed():
                head = [f"round {taken.number} {taken.moment}"] if taken.number else []
                self.places.append(Place(functools.partial(self.head_alone, at, taken, last), self.marked("-+"[at], head + taken.lines()), []))
        self.alone[2][0] = taken
        if self.sides[at].flow and self.is_followed():
            self.follow(at, taken)

    def head_alone(self, at: int, first: Round, last: List[Round]) -> Tuple[str, str]:
        rest = f" to {last[0].when()}" if last[0] is not first else ""
        return command.place(self.sides[at].name, first.at), f"only here: {first.when()}{rest}"

    def two(self, one: Round, other: Round) -> None:
        """Takes two rounds of one moment that aren't the same."""
        self.alone = None
        ours, theirs = one.lines(), other.lines()
        self.count_lines(ours, theirs)
        self.part()
        if self.is_followed():
            self.tell(one, other, ours, theirs)

    def count_lines(self, ours: List[str], theirs: List[str]) -> None:
        """Counts the lines that differ, or notes whose are in another order."""
        both = collections.Counter(ours), collections.Counter(theirs)
        for side, own, other in zip(self.sides, both, reversed(both)):
            for line, count in (own - other).items():
                side.own[key(line)] += count
        if both[0] == both[1]:
            before, behind = alignment.middle(ours, theirs)
            self.moved.update(map(key, ours[before : len(ours) - behind]))

    def tell(self, one: Round, other: Round, ours: List[str], theirs: List[str]) -> None:
        """Notes what is told of two rounds, and follows both."""
        found = alignment.changes(ours, theirs)
        (a, b), (c, d) = found[0]
        lines, last = [("", it) for it in ours[max(a - BEFORE, 0) : a]], a
        for (begin, end), (start, stop) in found:
            between = ours[last:begin]
            lines += [("", it) for it in between] if len(between) <= BEFORE else [("", "..")]
            lines += self.marked("-", ours[begin:end]) + self.marked("+", theirs[start:stop])
            last = end
        causes = [self.follow(0, one, {a} if a < b else ()), self.follow(1, other, {c} if c < d else ())]
        places = [(side.name, found) for side, it in zip(self.sides, causes) for found in it.values()]
        where = other.when() if one.number == other.number else f"{other.when()}, {one.when().split(' at ')[0]} of {self.sides[0].name}"
        head = command.place(self.sides[1].name, other.begin + c), f"differs from {self.sides[0].name}:{one.begin + a}, in {where}"
        self.places.append(Place(lambda: head, lines, told_causes(places)))

    def marked(self, sign: str, lines: Iterable[str]) -> List[Marked]:
        return [(sign, line) for line in lines]

    # ---- what is told

    def lines(self, paint: Paint = lambda _colour, text: text) -> Iterator[str]:
        if not self.differ:
            if not self.trouble:
                yield f"the same: {numbered(max(self.number, 1), 'line')}, {numbered(self.rounds, 'round')}"
            return
        for place in self.places:
            at, says = place.head()
            yield paint("place", at) + says
            for sign, line in place.lines[:SHOWN]:
                yield paint({"-": "less", "+": "more"}[sign], f"  {sign} {line}") if sign else f"    {line}"
            if len(place.lines) > SHOWN:
                yield f"    and {numbered(len(place.lines) - SHOWN, 'line')} more"
            yield from place.causes
        yield numbered(self.count, "difference") + (f", of which {len(self.places)} are told" if self.count > len(self.places) else "")
        if not self.trouble:
            yield from self.summary()

    def summary(self) -> Iterator[str]:
        """The entities and topics whose lines differ, with how many of each word."""
        one, other = (side.own for side in self.sides)
        for entity, group in itertools.groupby(sorted({*one, *other, *self.moved}), key=lambda it: it[0]):
            parts = [f"{word} {counted(one[entity, word], other[entity, word])}" for _, word in group]
            yield f"lines of {entity}: {', '.join(parts)}"


def key(line: str) -> Tuple[str, str]:
    """The entity of a line, and its word."""
    word, entity, _ = line.split(" ", 2)
    return entity, word


def told_causes(places: Sequence[Tuple[str, List[str]]]) -> List[str]:
    """What is told of the causes of each side, once if they are the same."""
    if len(places) == 2 and places[0][1] == places[1][1]:
        return [f"  {line}" for line in places[0][1]]
    if len(places) == 1:
        return [f"  {line}" for line in places[0][1]]
    return [line for name, told in places for line in (f"  {name}:", *(f"    {it}" for it in told))]


def cause(flow: Optional[Flow], number: int, line: str, running: Optional[Tuple[int, str]]) -> Iterator[str]:
    """The callback whose line it is, and what that took."""
    word = line.split(" ", 1)[0]
    if word in OUTSIDE:
        yield "in no callback: " + OUTSIDE[word]
        return
    if word == "run":
        running = number, line
    if running is None:
        yield "in no callback: what is fed displaces it"
        return
    begun, of = running
    yield f"in the callback of line {begun}: {of}"
    yield from took(flow, of)


OUTSIDE = {"pending": "calls without a reply, at the end", "expire": "a result expires"}


def numbered(count: int, noun: str) -> str:
    return f"{count} {noun}" if count == 1 else f"{count} {noun}s"


def counted(one: int, other: int) -> str:
    """How many lines of B are others, and how many more or fewer they are than A's."""
    same, rest = min(one, other), other - one
    others = [f"{same} {'other' if same == 1 else 'others'}"] if same else []
    more = [f"{abs(rest)} {'more' if rest > 0 else 'fewer'}"] if rest else []
    return " and ".join(others + more) or "in another order"


def took(flow: Optional[Flow], line: str) -> Iterator[str]:
    """What a callback took, by its document."""
    kind = line.split(" ")[2]
    if kind == "timer":
        yield "  it is a timer's: nothing was sent to it"
    elif flow is None:
        yield "  what it took isn't told without its document"
    elif flow.run is None or flow.run.cause is None:
        yield "  what it took isn't known: the transcript doesn't fit the document there"
    else:
        yield from sent(flow.run.cause, kind)


def sent(origin: Origin, kind: str) -> Iterator[str]:
    verb = "it works on" if kind == "poll" else "it took"
    if origin.text.startswith("fed: "):
        yield f"  {verb} what round {origin.round} was fed: {origin.text[5:]}"
        return
    yield f"  {verb} line {origin.line}, of round {origin.round}: {origin.text}"
    if origin.sender:
        yield f"  which the callback of line {origin.sender.line} sent: {' '.join(origin.sender.words)}"


