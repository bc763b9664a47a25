"""Rules that a transcript is held to (docs/holds.md). `rulebook` reads them from a text, and `checker` gives them the lines."""
from __future__ import annotations

import collections
from typing import NamedTuple

from . import TYPE_CHECKING
from .event import ROUNDS, Event, Silence

if TYPE_CHECKING:
    from typing import Counter, Deque, Dict, List, Optional, OrderedDict, Sequence, Tuple, Union

    from .fit import Own
    from .rulebook import All
    from .shapes import About, By, Found, Now

    Of = Union[Event, Silence]

# What becomes of a rule: it may hold only because there is nothing that it is about.
HOLDS, FAILS, UNDECIDED, NOTHING = "holds", "fails", "undecided", "holds of nothing"


class Finding:
    """A line that decides a rule: its number and text, its round and moment, and what is said of it."""

    def __init__(self, number: int, line: str, now: Now, says: str = "") -> None:
        self.number, self.line, self.says = number, line, says
        self.round, self.moment = now


class Rule:
    """A rule with the first line that breaks it, if any did, or the line of which the end leaves open whether it does."""

    events: Tuple[Of, ...]
    condition: Optional[All]
    failure: Optional[Finding]
    open_end: Optional[Finding]
    number: int
    column: int
    text: str
    place: str
    label: str

    def __init__(self, *events: Of) -> None:
        self.events, self.condition = events, None
        self.begin()

    def begin(self) -> None:
        """Forgets all lines, so that another transcript may be taken."""
        self.failure, self.open_end = None, None

    def fail(self, number: int, line: str, now: Now, says: str = "") -> None:
        if self.failure is None:
            self.failure = Finding(number, line, now, says)

    def about(self, words: Sequence[str], by: By) -> Optional[About]:
        """What the variables of each of its events stand for on a line of some callback, None for an event that it is no line of; None
        if it is a line of none of them."""
        found = [it.found(words, by) for it in self.events]
        return None if found.count(None) == len(found) else found

    def line(self, number: int, line: str, about: About, now: Now) -> None:
        """Takes a line that it is about."""

    def round(self, number: int, line: str, now: Now) -> None:
        """Takes the begin of a round. Only rules on the time without a line are given it."""

    def end(self, number: int, now: Now) -> None:
        """Takes the end of the transcript."""

    def unmet(self) -> Optional[Of]:
        """The event that there is no line of, so that the rule holds of nothing; None if it holds of something."""
        return None

    def outcome(self, own: Optional[Own] = None) -> str:
        """What became of the rule, beside what a document's scripts may write, if that is given."""
        if self.failure or self.open_end:
            return FAILS if self.failure else UNDECIDED
        first = self.events[0]
        return NOTHING if self.unmet() or own and not isinstance(first, Silence) and not own.may_write(first) else HOLDS

    def allows(self, *found: Optional[Found]) -> bool:
        """Whether the rule's condition holds of what variables stand for."""
        return self.condition is None or self.condition.holds({name: it for each in found if each for name, it in each.items()})


class Never(Rule):
    """No line of an event."""

    def line(self, number: int, line: str, about: About, now: Now) -> None:
        if self.allows(*about):
            self.fail(number, line, now)


class NeverSilent(Rule):
    """No time without a line of an event."""

    def __init__(self, silence: Silence) -> None:
        self.silence = silence
        super().__init__(silence)

    def begin(self) -> None:
        super().begin()
        self.silence.begin()

    def line(self, number: int, line: str, about: About, now: Now) -> None:
        self.silence.ends(now)

    def round(self, number: int, line: str, now: Now) -> None:
        if self.silence.comes(now):
            self.fail(number, line, now, "there was none in this time")


class Keyed(Rule):
    """A rule on lines that belong together if they have the same words for the variables that its first two events share."""

    def __init__(self, first: Of, second: Of, *more: Of) -> None:
        self.shared = sorted(first.variables & second.variables) if isinstance(first, Event) and isinstance(second, Event) else []
        super().__init__(first, second, *more)

    def key(self, found: Found) -> Tuple[str, ...]:
        return tuple(found[name] for name in self.shared)


class Order(Keyed):
    """No line of an event before, or after, a line of another that belongs to it; after it up to one of a third, if that is given."""

    seen: Dict[Tuple[str, ...], Found]
    was: bool

    def __init__(self, fails_after: bool, *events: Event) -> None:
        self.fails_after = fails_after
        super().__init__(*events)

    def begin(self) -> None:
        super().begin()
        self.seen, self.was = {}, False

    def line(self, number: int, line: str, about: About, now: Now) -> None:
        first, second, *third = about
        if first is not None:
            held = self.seen.get(self.key(first))
            if (held is not None) == self.fails_after and self.allows(held or {}, first):
                self.fail(number, line, now, "" if self.fails_after else "before any of the others")
        if third and third[0] is not None:
            gone = [key for key, held in self.seen.items() if all(held.get(name, it) == it for name, it in third[0].items())]
            for key in gone:
                del self.seen[key]
        if second is not None:
            self.was = True
            self.seen.setdefault(self.key(second), second)

    def unmet(self) -> Optional[Of]:
        return None if self.was else self.events[1]


class Count(Rule):
    """So many lines of an event, in the whole run or in each window of some rounds or ticks."""

    count: int
    last: Deque[int]

    def __init__(self, event: Event, least: int, most: Optional[int], window: Optional[int] = None, unit: int = ROUNDS) -> None:
        self.least, self.most, self.window, self.unit = least, most, window, unit
        super().__init__(event)

    def begin(self) -> None:
        super().begin()
        self.count, self.last = 0, collections.deque()

    def line(self, number: int, line: str, about: About, now: Now) -> None:
        if not self.allows(*about):
            return
        self.count += 1
        count = self.count
        if self.most is None:
            return
        if self.window is not None:
            self.last.append(now[self.unit])
            count = self.most + 1 if len(self.last) > self.most and now[self.unit] - self.last.popleft() < self.window else 0
        if count > self.most:
            self.fail(number, line, now, f"number {count} of these lines")

    def end(self, number: int, now: Now) -> None:
        if self.count < self.least:
            self.fail(number, "the end", now, f"there are {self.count} of these lines")


class AtOnce(Keyed):
    """No more than so many lines of an event of which none has had its line of another."""

    open: Counter[Tuple[str, ...]]
    was: bool

    def __init__(self, most: int, *events: Event) -> None:
        self.most = most
        super().__init__(*events)

    def begin(self) -> None:
        super().begin()
        self.open, self.was = collections.Counter(), False

    def line(self, number: int, line: str, about: About, now: Now) -> None:
        first, second = about
        if second is not None:
            key = self.key(second)
            self.open[key] -= 1
            if self.open[key] <= 0:
                del self.open[key]
        if first is not None:
            self.was = True
            # What has a name of its own is open once, however often its line comes.
            self.open[self.key(first)] = 1 if self.shared else self.open[()] + 1
            count = sum(self.open.values())
            if count > self.most:
                self.fail(number, line, now, f"{count} are open")

    def unmet(self) -> Optional[Of]:
        return None if self.was else self.events[0]


class OnlyIf(Keyed):
    """Each line of an event comes after one of another that belongs to it, and not too long after the last of them."""

    seen: Dict[Tuple[str, ...], Tuple[Now, Found]]
    was: bool

    def __init__(self, within: Optional[int], unit: int, *events: Event) -> None:
        self.within, self.unit = within, unit
        super().__init__(*events)

    def begin(self) -> None:
        super().begin()
        self.seen, self.was = {}, False

    def line(self, number: int, line: str, about: About, now: Now) -> None:
        first, second = about
        if first is not None:
            self.was = True
            last, held = self.seen.get(self.key(first), (None, None))
            if last is None or not self.allows(held, first):
                self.fail(number, line, now, "none of the others came before" if last is None else "the last of the others isn't so")
            elif self.within is not None and now[self.unit] - last[self.unit] > self.within:
                self.fail(number, line, now, f"the last of the others came in round {last[0]} at moment {last[1]}")
        if second is not None:
            self.seen[self.key(second)] = now, second

    def unmet(self) -> Optional[Of]:
        return None if self.was else self.events[0]


class Waiting(NamedTuple):
    """A line that waits for an answer: its number and text, when it came, and what its variables stand for."""

    number: int
    line: str
    begun: Now
    found: Found


class Then(Keyed):
    """After every line of an event comes one of another that belongs to it. How is `one` if each line needs one of its own, `next` if
    the next one of the other has to do, and empty if one answers all that wait."""

    is_met: bool
    open: Dict[Tuple[str, ...], List[Waiting]]
    oldest: OrderedDict[int, Waiting]

    def __init__(self, how: str, within: Optional[int], unit: int, *events: Of, later: Optional[Tuple[int, int]] = None) -> None:
        """Later is a number of rounds or ticks, with their unit, that must be over before the answer."""
        self.how, self.within, self.unit, self.later = how, within, unit, later
        super().__init__(*events)

    def begin(self) -> None:
        super().begin()
        # Those that wait, by what they have in common with their answer, and the same by their numbers, the oldest first.
        self.is_met, self.open, self.oldest = False, {}, collections.OrderedDict()
        if isinstance(self.events[0], Silence):
            self.events[0].begin()

    def line(self, number: int, line: str, about: About, now: Now) -> None:
        self.overdue(now)
        first, second = about
        if second is not None:
            self.answer(number, line, second, now)
        if first is not None and isinstance(self.events[0], Silence):
            self.events[0].ends(now)
        elif first is not None:
            self.wait(number, line, first, now)

    def wait(self, number: int, line: str, found: Found, now: Now) -> None:
        self.is_met = True
        waiting = self.open.setdefault(self.key(found), [])
        # If one answer is for all that wait, only the first of them is kept, which waits longest.
        if not waiting or self.how or self.condition or self.later:
            waiting.append(Waiting(number, line, now, found))
            self.oldest[number] = waiting[-1]

    def answer(self, number: int, line: str, found: Found, now: Now) -> None:
        key = self.key(found)
        waiting = self.open.pop(key, [])
        if self.how == "one" and not waiting:
            self.fail(number, line, now, "it answers none of the others")
        asked = 1 if self.how == "one" else len(waiting)
        left = [it for it in waiting[:asked] if not self.answers(it, number, line, found, now)] + waiting[asked:]
        if left:
            self.open[key] = left

    def answers(self, it: Waiting, number: int, line: str, found: Found, now: Now) -> bool:
        """Whether a line is the answer to one that waits, which waits no longer then."""
        is_answer = self.allows(it.found, found)
        if is_answer and self.later and now[self.later[1]] - it.begun[self.later[1]] <= self.later[0]:
            self.fail(number, line, now, f"too early after line {it.number}")
        if not is_answer and self.how == "next":
            self.fail(number, line, now, f"it is the next after line {it.number}: {it.line}")
        if is_answer:
            del self.oldest[it.number]
        return is_answer

    def overdue(self, now: Now) -> None:
        """Fails if the time of the oldest line is over."""
        if self.within is not None and self.oldest:
            number, line, begun, _ = next(iter(self.oldest.values()))
            if now[self.unit] - begun[self.unit] > self.within:
                self.fail(number, line, begun, "nothing followed in time")

    def round(self, number: int, line: str, now: Now) -> None:
        self.overdue(now)
        first = self.events[0]
        if isinstance(first, Silence) and first.comes(now):
            self.wait(number, line, {}, now)

    def end(self, number: int, now: Now) -> None:
        self.overdue(now)
        # The next one need not come, unless a time is given.
        if self.failure or not self.oldest or self.how == "next" and self.within is None:
            return
        number, line, begun, _ = next(iter(self.oldest.values()))
        # A further round could stand at the last moment, but none has the number of the last.
        if self.within is None or self.unit == ROUNDS and now[ROUNDS] - begun[ROUNDS] >= self.within:
            self.fail(number, line, begun, "nothing followed before the end")
        else:
            self.open_end = Finding(number, line, begun, f"the run ends in round {now[0]} at moment {now[1]}, before the time is over")

    def unmet(self) -> Optional[Of]:
        return None if self.is_met else self.events[0]


