"""What a run has that changes over rounds: values of topics, lengths of queues, calls that wait, feedback, and goals by state. Each is
a list of steps, a column of the scene with what holds from it on. It is read line by line, with the flow of items."""
from __future__ import annotations

import collections
from typing import NamedTuple

from . import TYPE_CHECKING, command, grammar

if TYPE_CHECKING:
    from typing import Callable, Container, Counter, Dict, Iterable, Iterator, List, Optional, Set, Tuple, Union

    from .flow import Flow, Origin
    from .shapes import Document, Words

    # A number, or, of goals, how many have each state.
    Value = Union[int, Tuple[int, ...]]

# The queues of an entity, by its kind.
QUEUES = {
    "subscriptions": ("message",),
    "services": ("request",),
    "clients": ("reply",),
    "actions": ("goal", "cancel", "ask"),
    "action_clients": ("response", "code", "feedback", "result"),
}
STATES = ("1", "2", "3", "4", "5", "6")


class Steps:
    """Columns with what holds from each one on. Of what comes before column 0 the last is kept, at column -1."""

    columns: List[int]
    values: List[Value]

    def __init__(self, *first: Value) -> None:
        self.columns, self.values = [-1] * len(first), list(first)

    def put(self, column: int, value: Value) -> int:
        """Takes a value, and gives the place at which it is kept."""
        if column < 0:
            self.columns, self.values = [-1], [value]
        else:
            self.columns.append(column)
            self.values.append(value)
        return len(self.values) - 1

    def change(self, column: int, value: Value) -> None:
        """Takes a value if it is another one than the last."""
        if self.values[-1] != value:
            self.put(column, value)


class Topic(Steps):
    """The values of a topic, and which of them a full queue lost, as the place of each with the subscription."""

    lost: List[Tuple[int, str]]
    places: Dict[int, List[int]]
    taken: Counter[Tuple[int, int, str]]

    def __init__(self) -> None:
        super().__init__()
        self.lost, self.places, self.taken = [], {}, collections.Counter()

    def publish(self, line: int, column: int, value: int) -> None:
        self.places.setdefault(line, []).append(self.put(column, value))

    def lose(self, entity: str, line: int, value: int) -> None:
        """A subscription has lost a value of a line. Of equal values that one round was fed it loses the first first."""
        places = [at for at in self.places.get(line, ()) if at < len(self.values) and self.values[at] == value]
        at = self.taken[line, value, entity]
        self.taken[line, value, entity] += 1
        if at < len(places) and self.columns[places[at]] >= 0:
            self.lost.append((places[at], entity))


class Queue(Steps):
    """How many items a queue has as a round begins, after feeding; how many it can have; and the columns in which it lost items."""

    lost: List[int]

    def __init__(self, depth: int) -> None:
        super().__init__(0)
        self.depth, self.lost = depth, []


class Series:
    """All series of a run, or those of some names."""

    feedback: Dict[str, Dict[str, Steps]]
    counts: Counter[Union[str, Tuple[str, str]]]
    of_goals: Dict[Tuple[str, str], str]
    filled: Set[Tuple[str, str]]
    touched: Set[str]

    def __init__(self, document: Document, followed: Flow, names: Optional[Container[str]] = None) -> None:
        self.flow, self.column = followed, -1
        self.kinds = {name: kind for name, kind in kinds_of(document).items() if names is None or name in names}

        def of(kind: str) -> List[str]:
            return [name for name, its in self.kinds.items() if its == kind]

        depths = followed.wiring.depths
        self.topics = {name: Topic() for name in of("topics")}
        self.topic_of = {it["name"]: it["topic"] for node in document.get("nodes", []) for it in node.get("subscriptions", [])}
        self.queues = {(name, kind): Queue(depths.get(name, 10)) for name, its in self.kinds.items() for kind in QUEUES.get(its, ())}
        self.waiting = {name: Steps(0) for name in of("clients")}
        self.states = {name: Steps((0,) * len(STATES)) for name in of("actions")}
        self.feedback = {name: {} for name in of("actions")}
        self.counts, self.of_goals, self.filled = collections.Counter(), {}, set()
        # The clients and the servers of which something has changed in this round.
        self.touched = set()

    # ---- lines

    def take(self, number: int, words: Words, column: int) -> None:
        """Takes a line that the flow has taken."""
        if words[0] == "round":
            self.finish()
            self.column = column
            self.begin(number)
        follow = FOLLOWED.get(words[0])
        if follow:
            follow(self, number, words)

    def begin(self, number: int) -> None:
        """What a round is fed, and what each queue had before one item of it was taken."""
        for entry in self.flow.wiring.fed.get(self.flow.round, ()):
            if entry.get("topic") in self.topics:
                self.topics[entry["topic"]].publish(number, self.column, entry["value"])
        here = set(self.flow.taken) | self.flow.filled
        for key in here | self.filled:
            if key in self.queues:
                self.queues[key].change(self.column, len(self.flow.queues[key]) + (key in self.flow.taken))
        self.filled = here

    def finish(self) -> None:
        """What holds as a round ends."""
        for name in self.touched:
            if name in self.waiting:
                self.waiting[name].change(self.column, self.counts[name])
            elif name in self.states:
                self.states[name].change(self.column, tuple(self.counts[name, state] for state in STATES))
        self.touched.clear()

    def drop(self, words: Words, item: Optional[Origin]) -> None:
        """Takes a line `drop`, with the item that it is about."""
        queue, topic = self.queues.get((words[1], words[2])), self.topics.get(self.topic_of.get(words[1], ""))
        if queue and self.column >= 0:
            queue.lost.append(self.column)
        if topic and item:
            topic.lose(words[1], item.line, int(words[3]))

    def on_pub(self, number: int, words: Words) -> None:
        if words[1] in self.topics:
            self.topics[words[1]].publish(number, self.column, int(words[2]))

    def on_call(self, _number: int, words: Words) -> None:
        self.count(words[1], words[1], 1)

    def on_run(self, _number: int, words: Words) -> None:
        if words[2] == "reply":
            self.count(words[1], words[1], -1)

    def on_state(self, number: int, words: Words) -> None:
        self.on_expire(number, words)
        self.of_goals[words[1], words[2]] = words[3]
        self.count(words[1], (words[1], words[3]), 1)

    def on_expire(self, _number: int, words: Words) -> None:
        before = self.of_goals.pop((words[1], words[2]), None)
        if before:
            self.count(words[1], (words[1], before), -1)

    def count(self, name: str, key: Union[str, Tuple[str, str]], by: int) -> None:
        self.counts[key] += by
        self.touched.add(name)

    def on_feedback(self, _number: int, words: Words) -> None:
        if words[1] in self.feedback:
            self.feedback[words[1]].setdefault(words[2], Steps()).put(self.column, int(words[3]))

    # ---- panels

    def panels(self) -> Iterator[Tuple[str, str, List[Panel]]]:
        """What is plotted of each name, in the order of the document: a panel has a title, a kind, and its series."""
        self.finish()
        for name, kind in self.kinds.items():
            yield name, kind, list(self.panels_of(name, kind))

    def of(self, names: Iterable[str]) -> List[Tuple[str, Panel]]:
        """The panels of some names in their order, each with its name, but those of queues and calls that never wait."""
        known = {name: panels for name, _, panels in self.panels()}
        return [(name, it) for name in names for it in known[name] if it.kind not in ("queue", "waiting") or is_ever(it.of)]

    def panels_of(self, name: str, kind: str) -> Iterator[Panel]:
        if kind == "topics":
            yield Panel("values", "values", self.topics[name])
        if kind == "actions":
            yield Panel("goals by state", "states", self.states[name])
            yield Panel("feedback", "feedback", self.feedback[name])
        if kind == "clients":
            yield Panel("calls that wait", "waiting", self.waiting[name])
        for queued in QUEUES.get(kind, ()):
            yield Panel(f"queue of {queued} items", "queue", self.queues[name, queued])


# The words of lines that are followed.
FOLLOWED: Dict[str, Callable[[Series, int, Words], None]] = {name[3:]: follow for name, follow in vars(Series).items() if name.startswith("on_")}


class Panel(NamedTuple):
    """What is plotted of a name: steps, or, of feedback, those of each goal."""

    title: str
    kind: str
    of: Union[Steps, Dict[str, Steps]]


def is_ever(of: Union[Steps, Dict[str, Steps]]) -> bool:
    """Whether a queue has ever an item, or calls ever wait."""
    return isinstance(of, Steps) and any(of.values) or isinstance(of, Queue) and bool(of.lost)


def kinds_of(document: Document) -> Dict[str, str]:
    """The kind of each name that has something to plot: topics, and then the entities but timers, in the order of the document."""
    kinds = {topic: "topics" for topic in document.get("topics", [])}
    for node in document.get("nodes", []):
        kinds.update({it["name"]: kind for kind in grammar.ENTITIES if kind in QUEUES for it in node.get(kind, [])})
    return kinds


def asked(text: str, document: Document) -> List[str]:
    """The names that a person asks for, with commas between."""
    names, known = [it for it in text.split(",") if it], kinds_of(document)
    for name in names:
        if name not in known:
            raise command.Trouble(f"--plot: {name} is no topic of the document, and no entity but a timer")
    return names


