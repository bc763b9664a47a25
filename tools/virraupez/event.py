"""What rules are about: lines of some patterns (`P or Q`), of the callbacks of some entity or node (`by motor`), and the time in which
there is none (`no P for 500 ticks`); and the conditions on numbers that lines have (`where W <= V + 10`)."""
from __future__ import annotations

import collections
import operator
import re

from . import TYPE_CHECKING, transcript
from .pattern import DECIMAL, VARIABLE, Pattern, Wrong, meant, place_of

if TYPE_CHECKING:
    from typing import Callable, Container, Counter, Dict, List, Optional, Sequence, Set, Tuple

    from .fit import Kinds
    from .pattern import Token
    from .shapes import Found, Now

# The places of rounds and ticks in the pair that says where in a run one is.
ROUNDS, TICKS = 0, 1
UNITS = {"round": ROUNDS, "rounds": ROUNDS, "tick": TICKS, "ticks": TICKS}
COMPARED: Dict[str, Callable[[int, int], bool]] = {"<": operator.lt, "<=": operator.le, ">": operator.gt, ">=": operator.ge, "=": operator.eq, "!=": operator.ne}


class Event:
    """Lines of one of some patterns."""

    def __init__(self, words: List[Token], patterns: List[Pattern]) -> None:
        self.words, self.patterns = words, patterns
        # The variables that each of the patterns has.
        self.variables = set.intersection(*({name for _, name in it.variables} for it in patterns))

    def found(self, words: Sequence[str], by: Container[Optional[str]]) -> Optional[Found]:
        """What the variables stand for on a line, by the names of whose callback it is; None if it is no line of it."""
        for of in self.patterns:
            if of.matches(words) and (of.by is None or of.by in by):
                found = of.bound(words)
                if found is not None:
                    return found
        return None

    def firsts(self) -> Set[str]:
        return set().union(*(it.firsts() for it in self.patterns))

    def is_every(self, first: str) -> bool:
        return any(it.is_every(first) for it in self.patterns)

    def is_first_round(self) -> bool:
        return all(it.is_first_round() for it in self.patterns)

    def has_first_round(self) -> bool:
        return any(it.has_first_round() for it in self.patterns)

    def begins(self) -> Set[Tuple[str, str]]:
        return {it for of in self.patterns for it in of.begins()}

    def uses(self) -> Counter[str]:
        """How often each variable is used, at most, on a line."""
        counts: Counter[str] = collections.Counter()
        for of in self.patterns:
            counts |= collections.Counter(name for _, name in of.variables)
        return counts


def read(words: List[Token], column: int, declared: Optional[Kinds] = None) -> Event:
    """An event by its words: patterns with `or` between them."""
    patterns, rest = [], words
    while True:
        cut = place_of("or", rest) if "or" in rest else len(rest)
        patterns.append(of_callback(rest[:cut], rest[cut].column if cut < len(rest) else column, declared))
        if cut == len(rest):
            return Event(words, patterns)
        rest = rest[cut + 1 :]


def of_callback(words: List[Token], column: int, declared: Optional[Kinds]) -> Pattern:
    """A pattern, of the lines of some entity's or node's callbacks alone if `by` names one."""
    if "by" not in words:
        return Pattern(words, column, declared)
    at = place_of("by", words)
    if at + 2 != len(words):
        raise Wrong(words[at].column, "`by` takes the name of an entity or a node, at the end of a pattern")
    made, name = Pattern(words[:at], words[at].column, declared), words[at + 1]
    made.by = name.lstrip("=")
    owners = getattr(declared, "owners", None)
    known = {*owners, *owners.values()} if owners is not None else {made.by}
    if made.by not in known:
        raise Wrong(name.column, f"the document declares no entity and no node {made.by!r}{meant(made.by, sorted(known))}")
    if made.firsts() <= {"round", "expire", "pending", "end"}:
        raise Wrong(words[at].column, "no callback writes such a line")
    return made


# ---- the time without a line


class Silence:
    """A time without a line of an event: of so many rounds or ticks, from the begin of the run or from the last line on."""

    last: Optional[int]

    def __init__(self, event: Event, length: int, unit: int) -> None:
        self.event, self.length, self.unit = event, length, unit
        self.words, self.patterns, self.found, self.begins = event.words, event.patterns, event.found, event.begins
        self.begin()

    def begin(self) -> None:
        self.last, self.is_over = None, False

    def ends(self, now: Now) -> None:
        """Takes a line of the event."""
        self.last, self.is_over = now[self.unit], False

    def comes(self, now: Now) -> bool:
        """Whether the time is over in a round that begins, for the first time since the last line."""
        if self.last is None:
            self.last = now[self.unit]
        if self.is_over or now[self.unit] - self.last < self.length:
            return False
        self.is_over = True
        return True


# ---- conditions


class Condition:
    """A comparison of numbers: a variable or a number, or a variable and a number that is added or taken away."""

    def __init__(self, words: List[Token]) -> None:
        self.words = words
        text = " ".join(words)
        found = re.fullmatch(r"(\S+)(?: ([+-]) (\S+))? (<|<=|>|>=|=|!=) (\S+)(?: ([+-]) (\S+))?", text)
        if not found:
            raise Wrong(words[0].column, "a condition compares two numbers: V <= W, V > W + 10, V - W != 3")
        one, sign, more, self.compare, other, other_sign, other_more = found.groups()
        self.sides = [self.side(*it) for it in ((one, sign, more), (other, other_sign, other_more))]

    def side(self, *parts: str) -> List[Tuple[int, str]]:
        """A sum as variables and numbers, each with its sign."""
        one, sign, more = parts
        terms = [(1, one)] + ([(1 if sign == "+" else -1, more)] if sign else [])
        for _, term in terms:
            if not VARIABLE.fullmatch(term) and not DECIMAL.fullmatch(term):
                at = next(it for it in self.words if it == term)
                raise Wrong(at.column, f"{term!r} is no variable and no number")
        return terms

    def variables(self) -> List[str]:
        return [term for side in self.sides for _, term in side if VARIABLE.fullmatch(term)]

    def holds(self, found: Found) -> bool:
        one, other = (sum(sign * int(found.get(term, term)) for sign, term in side) for side in self.sides)
        return COMPARED[self.compare](one, other)

    def demand(self, events: Sequence[Event]) -> None:
        """Refuses a variable that no event has, or that is no number."""
        for name in self.variables():
            places = [(of, at) for event in events for of in event.patterns for at, it in of.variables if it == name]
            column = next(it.column for it in self.words if it == name)
            if not any(name in event.variables for event in events):
                raise Wrong(column, f"{name} is no variable of the rule{meant(name, sorted(set().union(*(it.variables for it in events))))}")
            if not all(at and all(isinstance(form, transcript.Number) for form in of.forms_at(at)) for of, at in places):
                raise Wrong(column, f"{name} is no number")
