"""Entries of a feed that are made of the messages of a bag."""
from __future__ import annotations

import bisect
import decimal
import math
import operator

from . import TYPE_CHECKING, cdr, command, difference, grammar

if TYPE_CHECKING:
    from typing import Any, Callable, Dict, Iterator, List, Optional, Sequence, Set, Tuple

    from .bag import AnyBag
    from .shapes import Document, Fields

    Moment = Callable[[int], int]
    Taker = Callable[[Any, Moment], List[Fields]]

# The statuses of goals in action_msgs/msg/GoalStatus, and the kinds of service_msgs/msg/ServiceEventInfo that have a request.
CANCELING, REQUESTS = 3, (0, 1)


class Source:
    """What entries are made of: its name in the bag and in the document, and the field that is a value, with what it is multiplied
    by. It takes the messages of some topics of the bag."""

    KIND: str

    def __init__(self, name: str, own: str, field: Optional[str]) -> None:
        self.name, self.own, self.field, self.scale = name, own, field, decimal.Decimal(1)
        self.lost, self.count = 0, 0
        # How many numbers other than 0 became 0, and the least of them.
        self.zeros, self.least = 0, decimal.Decimal("Infinity")

    def number(self, value: Any, path: str) -> Optional[int]:
        """The number at a path of a message, as a document has it; None if it is no finite one."""
        number = cdr.taken(value, path)
        if not math.isfinite(number):
            self.lost += 1
            return None
        value = (decimal.Decimal(number) * self.scale).to_integral_value(decimal.ROUND_HALF_EVEN)
        if not -(2**63) <= value < 2**63:
            raise cdr.Unreadable(f"{value:.3e} has more than 64 bits")
        if number and not value:
            self.zeros, self.least = self.zeros + 1, min(self.least, abs(decimal.Decimal(number)))
        return int(value)

    def topics(self, bag: AnyBag) -> Dict[str, Taker]:
        """The topics of a bag whose messages it takes, each with what takes one."""
        raise NotImplementedError

    def remarks(self) -> Iterator[str]:
        if not self.count:
            yield f"{self.name} has no message"
        if self.lost:
            yield f"{self.name}: {difference.numbered(self.lost, 'value')} left out: no finite number"
        if self.zeros:
            scale = decimal.Decimal(1).scaleb(-self.least.adjusted())
            became = f"{difference.numbered(self.zeros, 'value')} became 0, the least of which is {float(self.least):.3g}"
            yield f"{self.name}: {self.field}: {became}; --scale {scale:f} keeps a digit of each"


class Topic(Source):
    """A topic, whose messages are values."""

    KIND = "topics"

    def __init__(self, name: str, own: str) -> None:
        super().__init__(name, own, "data")

    def topics(self, _bag: AnyBag) -> Dict[str, Taker]:
        return {self.name: self.value}

    def value(self, message: Any, _moment: Moment) -> List[Fields]:
        value = self.number(message, "data" if self.field is None else self.field)
        return [] if value is None else [{"topic": self.own, "value": value}]


class Action(Source):
    """An action, whose goals and cancel requests are in events of its services. If a bag has none, its statuses say which goals there
    were, and which were to be canceled; they don't say the values of goals."""

    goals: Set[str]
    canceled: Set[Any]

    KIND = "actions"

    def __init__(self, name: str, own: str) -> None:
        super().__init__(name, own, None)
        self.goals, self.canceled, self.is_guessed = set(), set(), False

    def topics(self, bag: AnyBag) -> Dict[str, Taker]:
        of_goals, of_cancels, of_status = (f"{self.name}/_action/{it}" for it in ("send_goal/_service_event", "cancel_goal/_service_event", "status"))
        takers: Dict[str, Taker] = {name: take for name, take in ((of_goals, self.goal), (of_cancels, self.cancel)) if name in bag.topics and bag.topics[name].messages}
        if len(takers) < 2 and of_status in bag.topics:
            takers[of_status] = lambda message, _moment: self.status(message, of_goals not in takers, of_cancels not in takers)
        if not takers:
            raise command.Trouble(f"{bag.name}: no action {self.name}: there is no topic {of_status}, and no events of its services")
        return takers

    def goal(self, message: Any, _moment: Moment) -> List[Fields]:
        for request in requests(message):
            name = identifier(request["goal_id"])
            if name not in self.goals:
                self.goals.add(name)
                value = self.number(request["goal"], self.field) if self.field else 0
                return [] if value is None else [{"action": self.own, "goal": name, "value": value}]
        return []

    def cancel(self, message: Any, moment: Moment) -> List[Fields]:
        for request in requests(message):
            info = message["info"]
            event = bytes(info["client_gid"]), info["sequence_number"]
            if event not in self.canceled:
                self.canceled.add(event)
                of = request["goal_info"]
                stamp = of["stamp"]["sec"] * 10**9 + of["stamp"]["nanosec"]
                return [{"action": self.own, "cancel": identifier(of["goal_id"]), **({"stamp": max(moment(stamp), 1)} if stamp else {})}]
        return []

    def status(self, message: Any, has_goals: bool, has_cancels: bool) -> List[Fields]:
        made = []
        for it in message["status_list"]:
            name = identifier(it["goal_info"]["goal_id"])
            if has_goals and name not in self.goals:
                self.goals.add(name)
                self.is_guessed = True
                made.append({"action": self.own, "goal": name, "value": 0})
            if has_cancels and it["status"] == CANCELING and name not in self.canceled:
                self.canceled.add(name)
                made.append({"action": self.own, "cancel": name})
        return made

    def remarks(self) -> Iterator[str]:
        yield from super().remarks()
        if self.is_guessed:
            yield f"{self.name}: goals are those of its statuses, which don't say their values: each has the value 0"


def requests(event: Any) -> Sequence[Any]:
    """The request of an event of a service, if it says one."""
    if event["info"]["event_type"] not in REQUESTS:
        return []
    if not event["request"]:
        raise cdr.Unreadable("its event has no contents: introspection of the service must be set to contents")
    found: Sequence[Any] = event["request"]
    return found


def identifier(goal: Any) -> str:
    return grammar.hyphenated(int.from_bytes(bytes(goal["uuid"]), "big"))


def entries(bag: AnyBag, sources: Sequence[Source], tick: int, begin: int) -> Tuple[List[Fields], List[str]]:
    """The entries of sources, each with the moment `at` which it comes; and remarks on them. A message comes at the first tick at or
    after its time."""

    def moment(time: int) -> int:
        return begin + -(-(time - (bag.first or 0)) // tick)

    takers: Dict[str, List[Tuple[Source, Taker]]] = {}
    for source in sources:
        for name, take in source.topics(bag).items():
            takers.setdefault(name, []).append((source, take))
    made, counts = [], dict.fromkeys(takers, 0)
    for time, name, given in bag.messages(list(takers)):
        counts[name] += 1
        try:
            message = cdr.Message(bag.types, given).value(cdr.plain(bag.topics[name].type))
            for source, take in takers[name]:
                source.count += 1
                made += [{**it, "at": moment(time)} for it in take(message, moment)]
        except cdr.Unreadable as wrong:
            raise command.Trouble(f"{bag.name}: message {counts[name]} of {name}, of the type {bag.topics[name].type}, can't be read: {wrong}") from None
    return made, list(dict.fromkeys(it for source in sources for it in source.remarks()))


def into(document: Document, found: List[Fields]) -> Tuple[Document, List[str]]:
    """A document with entries after its own, each in the first round at its moment or after it; and remarks on that."""
    moments = document.get("moments", [])
    kept = [it for it in found if moments and it["at"] <= moments[-1]]
    feed = list(document.get("feed", []))
    feed += [{"round": bisect.bisect_left(moments, it["at"]) + 1, **{name: value for name, value in it.items() if name != "at"}} for it in kept]
    if len(feed) > grammar.ENTRIES:
        raise command.Trouble(f"these are {len(feed)} entries: a document has at most {grammar.ENTRIES}")
    feed.sort(key=operator.itemgetter("round"))
    late = len(found) - len(kept)
    return {**document, "feed": feed}, [f"{difference.numbered(late, 'message')} left out: after the last moment"] if late else []


