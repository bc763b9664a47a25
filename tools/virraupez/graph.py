"""Who talks to whom in a document: nodes with their callback groups and entities, topics, services and actions, and the edges between
them, with what a run sent, took and lost on each."""
from __future__ import annotations

import collections

from . import TYPE_CHECKING, grammar

if TYPE_CHECKING:
    from typing import Counter, Dict, Iterable, Iterator, List, Optional, Tuple

    from .shapes import Document, Fields, Point, Words

OUTSIDE = "outside"
# The kinds of entities that a node has a service or an action of, or asks one by, with the field that names it.
SERVERS = {"services": "service", "actions": "action"}
CLIENTS = {"clients": "service", "action_clients": "action"}
# What an entity takes from its queues and what it sends, with the words for one and for more.
TAKEN = {"subscriptions": ("message",), "services": ("request",), "actions": ("goal", "cancel", "ask")}
SENT = {"clients": ("call",), "action_clients": ("goal", "cancel")}


class Shape:
    """A node, a topic, a service, an action, or what feeds from outside: its lines of text, its measures, and where its middle is."""

    names: List[str]

    LINE, SIGN, PAD = 14, 7.2, 9

    def __init__(self, kind: str, name: str, lines: Iterable[str] = ()) -> None:
        self.kind, self.name, self.lines = kind, name, [name, *lines]
        self.wide = max(len(line) for line in self.lines) * self.SIGN + 2 * self.PAD
        self.high = len(self.lines) * self.LINE + self.PAD
        self.x = self.y = 0.0
        # The entities whose rows are this shape's.
        self.names = []

    @property
    def key(self) -> str:
        return f"{self.kind} {self.name}"


class Edge:
    """What goes from a shape to another: lines of words, and how many items were lost. A path is a place and then curves, of three
    places each."""

    path: List[Point]
    at: Point

    LINE, SIGN = 12, 6.0

    def __init__(self, begin: Shape, end: Shape, words: Iterable[str], lost: int = 0) -> None:
        self.begin, self.end, self.words, self.lost = begin, end, [it for it in words if it], lost
        self.wide = max((len(it) for it in self.words), default=0) * self.SIGN
        self.high = len(self.words) * self.LINE
        self.path, self.at = [], (0.0, 0.0)


class Counts:
    """How many lines of each kind a run has, by the entity. What is published is counted by the callback's entity and the topic."""

    of: Counter[Tuple[Optional[str], ...]]
    running: Optional[str]

    def __init__(self, lines: Optional[Iterable[str]] = None) -> None:
        self.of, self.running, self.is_run = collections.Counter(), None, lines is not None
        for line in lines or ():
            self.take(line.split(" ", 3))

    def take(self, words: Words) -> None:
        if words[0] == "run":
            self.running = words[1]
        if words[0] in ("run", "drop"):
            self.of[words[0], words[1], words[2]] += 1
            self.of[words[0], words[1]] += 1
        elif words[0] == "pub":
            self.of["pub", self.running, words[1]] += 1
        elif words[0] in ("call", "goal", "cancel"):
            self.of[words[0], words[1]] += 1

    def says(self, *parts: Tuple[Tuple[str, ...], str, str]) -> List[str]:
        """Numbers with what they count, each as (key, one, more). Those that are 0 aren't said, and without a run none is."""
        return [f"{self.of[key]} {one if self.of[key] == 1 else more}" for key, one, more in parts if self.of[key]] if self.is_run else []


class Graph:
    """The graph of a document, with what a run did."""

    shapes: Dict[str, Shape]
    edges: List[Edge]

    def __init__(self, document: Document, counts: Counts) -> None:
        self.document, self.counts, self.shapes, self.edges = document, counts, {}, []
        nodes = document.get("nodes", [])
        for node in nodes:
            shape = self.add(Shape("node", node["name"], node_lines(node)))
            shape.names = [it["name"] for kind in grammar.ENTITIES for it in node.get(kind, [])]
        for topic in document.get("topics", []):
            self.add(Shape("topic", topic))
        for kind, ends in SERVERS.items():
            for name in (it["name"] for node in nodes for it in node.get(kind, [])):
                self.add(Shape(ends, name))
        for node in nodes:
            self.connect(node)
        self.feeds()

    def add(self, shape: Shape) -> Shape:
        self.shapes[shape.key] = shape
        return shape

    def edge(self, begin: str, end: str, names: List[str], words: Iterable[str], lost: int = 0) -> None:
        self.edges.append(Edge(self.shapes[begin], self.shapes[end], words, lost))
        for key in (begin, end):
            if not key.startswith("node "):
                self.shapes[key].names += names

    # ---- edges

    def connect(self, node: Fields) -> None:
        """The edges of a node."""
        own = f"node {node['name']}"
        for topic, names in publications(node).items():
            self.edge(own, f"topic {topic}", names, self.sent_to(topic, names))
        for it in node.get("subscriptions", []):
            self.edge(f"topic {it['topic']}", own, [it["name"]], self.queued(it, "subscriptions"), self.lost(it))
        for kind, ends in SERVERS.items():
            for it in node.get(kind, []):
                self.edge(f"{ends} {it['name']}", own, [it["name"]], self.queued(it, kind), self.lost(it))
        for kind, ends in CLIENTS.items():
            for it in node.get(kind, []):
                sent = self.counts.says(*((("drop", it["name"]), "lost", "lost"), *(((word, it["name"]), word, f"{word}s") for word in SENT[kind])))
                self.edge(own, f"{ends} {it[ends]}", [it["name"]], [it["name"], f"depth {it.get('depth', 10)}", *sent], self.lost(it))

    def lost(self, it: Fields) -> int:
        return self.counts.of["drop", it["name"]]

    def queued(self, it: Fields, kind: str) -> List[str]:
        """What is said of a queue: its entity, its depth, and how many items it gave and lost."""
        took = ((("run", it["name"], word), word, f"{word}s") for word in TAKEN[kind])
        head = [it["name"]] if kind == "subscriptions" else []
        return [*head, f"depth {it.get('depth', 10)}", *self.counts.says(*took, (("drop", it["name"]), "lost", "lost"))]

    def sent_to(self, topic: str, names: List[str]) -> List[str]:
        return [f"{name}{''.join(f': {it}' for it in self.counts.says((('pub', name, topic), 'sent', 'sent')))}" for name in names]

    def feeds(self) -> None:
        fed = collections.Counter(f"topic {it['topic']}" if "topic" in it else f"action {it['action']}" for it in self.document.get("feed", []))
        if fed:
            self.add(Shape(OUTSIDE, OUTSIDE))
        for key, count in fed.items():
            self.edge(f"{OUTSIDE} {OUTSIDE}", key, [], [f"{count} fed"])


def node_lines(node: Fields) -> Iterator[str]:
    """The callback groups of a node with their entities, as lines."""
    kinds = {None: "default group", **{it["name"]: f"{it['name']} ({it['kind']})" for it in node.get("groups", [])}}
    for group, says in kinds.items():
        names = [it["name"] for kind in grammar.ENTITIES for it in node.get(kind, []) if it.get("group") == group]
        if names:
            yield says
            yield from (f"  {name}" for name in names)


def publications(node: Fields) -> Dict[str, List[str]]:
    """The topics that a node's scripts publish to, with the entities whose scripts do."""
    found: Dict[str, List[str]] = {}
    for kind, scripts in grammar.SCRIPTS.items():
        for it in node.get(kind, []):
            for topic in dict.fromkeys(words[1] for name in scripts for words in it.get(name, []) if words[0] == "pub"):
                found.setdefault(topic, []).append(it["name"])
    return found
