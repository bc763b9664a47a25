"""A run as trace events (the Trace Event Format of Chrome, which Perfetto reads): a process a node, a thread a callback group, a slice a
callback, flows from who sent an item to who took it, a span a state of a goal, and a counter a topic.

Callbacks take no time in a run. So that one sees their order, those of a round share the tick that begins at its moment."""
from __future__ import annotations

import collections
import itertools

from . import TYPE_CHECKING, fields, flow, scene, transcript

if TYPE_CHECKING:
    from typing import Dict, Iterable, Iterator, List, Optional, Tuple, Union

    from .shapes import Document, Fields, Words

# The process for what comes from outside. Nodes are numbered from 1.
OUTSIDE = 0


class Trace:
    """The events of a run of a document, whose ticks have a length in microseconds."""

    moments: List[int]
    slices: Dict[Union[int, Tuple[int, str]], Fields]
    states: Dict[Tuple[str, str], Fields]
    begun: float

    def __init__(self, document: Document, tick: float) -> None:
        self.flow, self.tick, self.moments = flow.Flow(document), tick, document.get("moments", [])
        self.counts = collections.Counter(self.moments)
        self.rows, self.row_of = scene.rows_of(document)
        nodes = list(dict.fromkeys(node for node, _, _ in self.rows))
        self.threads = [(nodes.index(node) + 1, at + 1) for at, (node, _, _) in enumerate(self.rows)]
        self.begun, self.again, self.flows = 0, 0, 0
        # When and on which track each callback began, by its line, and each entry of the feed, by its round's line and its text.
        self.slices, self.states = {}, {}

    def head(self) -> Iterator[Fields]:
        """The names of processes and threads."""
        yield named("process_name", OUTSIDE, 0, "outside")
        yield named("thread_name", OUTSIDE, 1, "feed")
        for (process, thread), (node, group, kind) in zip(self.threads, self.rows):
            yield named("process_name", process, 0, node)
            yield named("thread_name", process, thread, f"{group or 'default group'} ({kind})")

    def events(self, lines: Iterable[str]) -> Iterator[Fields]:
        """The events of the lines of a transcript. Nothing is written before its first lines were read."""
        held: List[str] = []
        first, rest = 1, iter(lines)
        rest = itertools.chain([next(rest)], rest)
        yield from self.head()
        for number, line in enumerate(rest, 1):
            if line.startswith("round ") and held:
                yield from self.round(held, first)
                held, first = [], number
            held.append(line)
        yield from self.round(held, first)
        yield from self.ends()

    # ---- a round

    def round(self, lines: List[str], first: int) -> Iterator[Fields]:
        """The events of the lines of a round."""
        words = [line.split(" ") for line in lines]
        width = self.begin(words[0]) / (1 + sum(it[0] == "run" for it in words))
        at, made = self.begun, None
        for number, it in enumerate(words, first):
            self.flow.take(number, it)
            if it[0] == "round":
                yield from self.fed(number, int(it[1]), width)
            elif it[0] == "run":
                at += width
                made = self.slice(number, it, at, width)
                yield made
                if it[2] != "poll":
                    yield from self.arrows(self.flow.run.cause if self.flow.run else None, made)
            yield from self.other(it, round(at, 3))

    def begin(self, words: Words) -> float:
        """Begins a round, and gives its length. Rounds of one moment share its tick."""
        if words[0] != "round":
            return self.tick
        number, moment = int(words[1]), int(words[2])
        same = self.counts[moment]
        self.again = self.again + 1 if number > 1 and self.moments[number - 2] == moment else 0
        self.begun = (moment + self.again / same) * self.tick
        return self.tick / same

    def slice(self, number: int, words: Words, begun: float, width: float) -> Fields:
        """The slice of a callback."""
        process, thread = self.threads[self.row_of[words[1]]]
        made = {"ph": "X", "name": f"{words[1]} {words[2]}", "cat": words[2], **span(begun, begun + width), "pid": process, "tid": thread}
        self.slices[number] = made
        told = dict(zip(fields.NAMES["run"][2:], words[3:]))
        return {**made, "args": {"line": number, "round": self.flow.round, "moment": self.flow.moment, **told}}

    def arrows(self, cause: Optional[flow.Origin], taker: Fields) -> Iterator[Fields]:
        """The events of a flow: from the slice that sent an item, or from the feed, to the one that took it."""
        if cause is None:
            return
        sender = self.slices.get(cause.sender.line if cause.sender else (cause.line, cause.text))
        if sender:
            self.flows += 1
            common = {"cat": "sent", "name": " ".join(cause.text.split(" ")[:2]), "id": self.flows}
            yield {"ph": "s", **common, **where(sender)}
            yield {"ph": "f", "bp": "e", **common, **where(taker)}

    def fed(self, line: int, number: int, width: float) -> Iterator[Fields]:
        """The slices of what a round is fed."""
        entries = self.flow.wiring.fed.get(number, ())
        for at, entry in enumerate(entries):
            begin, end = (self.begun + width * it / len(entries) for it in (at, at + 1))
            text = flow.fed_text(entry)
            made = {"ph": "X", "name": text[5:], "cat": "fed", **span(begin, end), "pid": OUTSIDE, "tid": 1}
            self.slices[line, text] = made
            yield {**made, "args": {"round": number}}

    # ---- other lines

    def other(self, words: Words, at: float) -> Iterator[Fields]:
        """The events of a line that is no callback."""
        follow = getattr(self, f"on_{words[0]}", None)
        if follow:
            yield from follow(words, at)

    def on_pub(self, words: Words, at: float) -> Iterator[Fields]:
        yield {"ph": "C", "name": words[1], "ts": at, "pid": OUTSIDE, "args": {"value": int(words[2])}}

    def on_drop(self, words: Words, at: float) -> Iterator[Fields]:
        process, thread = self.threads[self.row_of[words[1]]]
        yield {"ph": "i", "s": "t", "name": f"drop {words[1]} {words[2]}", "cat": "drop", "ts": at, "pid": process, "tid": thread, "args": {"value": words[3]}}

    def on_state(self, words: Words, at: float) -> Iterator[Fields]:
        yield from self.on_expire(words, at)
        process = self.threads[self.row_of[words[1]]][0]
        name = transcript.STATES[words[3]]
        self.states[words[1], words[2]] = made = {"cat": f"goals of {words[1]}", "name": name, "id": words[2], "pid": process, "tid": 0}
        yield {"ph": "b", **made, "ts": at}

    def on_feedback(self, words: Words, at: float) -> Iterator[Fields]:
        held = self.states.get((words[1], words[2]))
        if held:
            yield {"ph": "n", **held, "name": "feedback", "ts": at, "args": {"value": words[3]}}

    def on_expire(self, words: Words, at: float) -> Iterator[Fields]:
        held = self.states.pop((words[1], words[2]), None)
        if held:
            yield {"ph": "e", **held, "ts": at}

    def ends(self) -> Iterator[Fields]:
        """The ends of the states that goals have at the end."""
        for held in self.states.values():
            yield {"ph": "e", **held, "ts": round(self.begun + self.tick, 3)}


def span(begun: float, ended: float) -> Fields:
    """The begin of a slice and its length, to the nanosecond. It ends where the next one begins, and not a nanosecond after that."""
    first = round(begun, 3)
    return {"ts": first, "dur": round(round(ended, 3) - first, 3)}


def where(made: Fields) -> Fields:
    """The begin of a slice and its track."""
    return {name: made[name] for name in ("ts", "pid", "tid")}


def named(what: str, process: int, thread: int, name: str) -> Fields:
    return {"ph": "M", "name": what, "pid": process, "tid": thread, "args": {"name": name}}
