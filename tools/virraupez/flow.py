"""Who sent what each callback takes. The document says where items are pushed, and the transcript what was pushed and taken:
so each queue is followed by the rules of docs/rules.md ("Queues", "A round"), without running a script.

A transcript that another executor wrote, which diff and view may be given, may not fit; what is taken then has no known origin, and
nothing else happens."""
from __future__ import annotations

import collections
import json
from typing import NamedTuple

from . import TYPE_CHECKING, command, grammar, report

if TYPE_CHECKING:
    from typing import Callable, DefaultDict, Deque, Dict, List, Optional, Set, Tuple

    from .shapes import Document, Fields, Words

    # An entity, and a kind of its callbacks.
    Queue = Tuple[str, str]


class Origin(NamedTuple):
    """Where an item comes from: the line that sent it, or the round that was fed it, its text, and the callback and the client that
    sent it, if one did."""

    line: int
    round: int
    text: str
    sender: Optional[Run]
    client: Optional[str]


class Run(NamedTuple):
    """A callback that runs: its line and round, whose it is, its kind, the words of the line, and what it took."""

    line: int
    round: int
    entity: str
    kind: str
    words: Words
    cause: Optional[Origin]


def read_document(name: str) -> Document:
    """A lawful document, by its file's name."""
    with command.source(name) as stream:
        text = stream.read(grammar.MOST_BYTES + 1)
    told = report.Report(text, 1)
    if told.code:
        first = told.entries[0]
        raise command.Trouble(f"{command.place(name, first.line, first.column)}refused {report.named(told.code)}: explain tells why")
    return parsed(text)


def parsed(given: bytes) -> Document:
    """The value of a lawful document's bytes."""
    found: Document = json.loads(given)
    return found


def fed_text(entry: Fields) -> str:
    """What is told of an entry of the feed."""
    if "topic" in entry:
        return f"fed: {entry['topic']} {entry['value']}"
    kind = "goal" if "goal" in entry else "cancel"
    return f"fed: {kind} {entry['action']} {entry[kind]}"


class Wiring:
    """Where a document's items go."""

    listeners: Dict[str, List[str]]
    server_of: Dict[str, str]
    depths: Dict[str, int]
    fed: DefaultDict[int, List[Fields]]

    def __init__(self, document: Document) -> None:
        self.listeners = {topic: [] for topic in document.get("topics", [])}
        self.server_of, self.depths, self.fed = {}, {}, collections.defaultdict(list)
        for node in document.get("nodes", []):
            for it in node.get("subscriptions", []):
                self.listeners[it["topic"]].append(it["name"])
            self.server_of.update({it["name"]: it["service"] for it in node.get("clients", [])})
            self.server_of.update({it["name"]: it["action"] for it in node.get("action_clients", [])})
            for kind in ("subscriptions", "services", "clients", "actions", "action_clients"):
                self.depths.update({it["name"]: it.get("depth", 10) for it in node.get(kind, [])})
        for entry in document.get("feed", []):
            self.fed[entry["round"]].append(entry)


class Flow:
    """The queues of a run, from line to line."""

    queues: Dict[Queue, Deque[Origin]]
    filled: Set[Queue]
    taken: Dict[Queue, Origin]
    displaced: Deque[Origin]
    goals: Dict[Tuple[str, str], Origin]
    noted: DefaultDict[Tuple[str, str], Deque[Optional[str]]]
    run: Optional[Run]
    sender: Optional[Run]

    def __init__(self, document: Document) -> None:
        self.wiring = Wiring(document)
        self.queues, self.filled = {}, set()
        self.taken, self.displaced = {}, collections.deque()
        self.goals, self.noted = {}, collections.defaultdict(collections.deque)
        self.round, self.moment, self.run, self.sender = 0, 0, None, None

    def take(self, number: int, words: Words) -> None:
        """Follows a line. What it is about is then told by `run`, the callback that runs, and its `cause`."""
        follow = FOLLOWED.get(words[0])
        if follow:
            follow(self, number, words)

    def origin(self, number: int, words: Words, client: Optional[str] = None) -> Origin:
        return Origin(number, self.round, " ".join(words), self.sender, client)

    def push(self, entity: Optional[str], kind: str, item: Origin) -> None:
        """Pushes an item to a queue, which may displace its oldest."""
        if entity is None:
            return
        queue = self.queues.setdefault((entity, kind), collections.deque())
        queue.append(item)
        self.filled.add((entity, kind))
        if len(queue) > self.wiring.depths.get(entity, 10):
            self.displaced.append(queue.popleft())

    # ---- lines

    def on_round(self, number: int, words: Words) -> None:
        self.round, self.moment, self.run, self.sender = int(words[1]), int(words[2]), None, None
        self.displaced.clear()
        for entry in self.wiring.fed.get(self.round, ()):
            self.feed(number, entry)
        self.taken = {key: self.queues[key].popleft() for key in self.filled}
        self.filled = {key for key in self.filled if self.queues[key]}

    def feed(self, number: int, entry: Fields) -> None:
        item = Origin(number, self.round, fed_text(entry), None, None)
        if "topic" in entry:
            for subscription in self.wiring.listeners[entry["topic"]]:
                self.push(subscription, "message", item)
        else:
            self.push(entry["action"], "goal" if "goal" in entry else "cancel", item)

    def on_run(self, number: int, words: Words) -> None:
        entity, kind = words[1], words[2]
        cause = self.goals.get((entity, words[5])) if kind == "poll" and len(words) == 6 else self.taken.pop((entity, kind), None)
        # What is sent keeps its sender without what that took, so that what is kept is bounded.
        self.sender = Run(number, self.round, entity, kind, words, None)
        self.run = Run(number, self.round, entity, kind, words, cause)
        self.displaced.clear()
        if kind == "ask" and cause:
            self.noted[entity, words[5]].append(cause.client)

    def on_pub(self, number: int, words: Words) -> None:
        item = self.origin(number, words)
        for subscription in self.wiring.listeners.get(words[1], ()):
            self.push(subscription, "message", item)

    def send(self, number: int, words: Words, kind: str) -> None:
        """A client's item to its server."""
        self.push(self.wiring.server_of.get(words[1]), kind, self.origin(number, words, words[1]))

    def on_call(self, number: int, words: Words) -> None:
        self.send(number, words, "request")

    def on_goal(self, number: int, words: Words) -> None:
        self.send(number, words, "goal")

    def on_cancel(self, number: int, words: Words) -> None:
        self.send(number, words, "cancel")

    def on_ask(self, number: int, words: Words) -> None:
        self.send(number, words, "ask")

    def client(self) -> Optional[str]:
        """The client of the request that the callback took."""
        return self.run.cause.client if self.run and self.run.cause else None

    def on_reply(self, number: int, words: Words) -> None:
        self.push(self.client(), "reply", self.origin(number, words))

    def on_decide(self, number: int, words: Words) -> None:
        if words[3] != "1":
            self.goals[words[1], words[2]] = self.origin(number, words, self.client())
        self.push(self.client(), "response", self.origin(number, words))

    def on_code(self, number: int, words: Words) -> None:
        self.push(self.client(), "code", self.origin(number, words))

    def on_feedback(self, number: int, words: Words) -> None:
        goal = self.goals.get((words[1], words[2]))
        self.push(goal.client if goal else None, "feedback", self.origin(number, words))

    def on_result(self, number: int, words: Words) -> None:
        noted = self.noted.get((words[1], words[2]))
        if noted:
            self.push(noted.popleft(), "result", self.origin(number, words))
        if not noted:
            self.noted.pop((words[1], words[2]), None)

    def on_expire(self, _number: int, words: Words) -> None:
        self.goals.pop((words[1], words[2]), None)

    def dropped(self) -> Optional[Origin]:
        """The item of the line `drop` that was followed last."""
        return self.displaced.popleft() if self.displaced else None


# The words of lines that are followed.
FOLLOWED: Dict[str, Callable[[Flow, int, Words], None]] = {name[3:]: follow for name, follow in vars(Flow).items() if name.startswith("on_")}


