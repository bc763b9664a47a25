"""What an executor of ROS 2 did: the callbacks that it ran, in rounds. A round begins after the executor has waited for work.

It is read from a trace of ros2_tracing, in CTF, by bt2 of Babeltrace 2; or from a table with the columns time, kind and name."""
from __future__ import annotations

import collections
import csv
import io
import os
from typing import NamedTuple

from . import TYPE_CHECKING, command, grammar, transcript

if TYPE_CHECKING:
    from typing import Any, Callable, DefaultDict, Deque, Dict, Iterable, Iterator, List, Mapping, Optional, Sequence, Tuple

WAIT, COLUMNS = "wait", ("time", "kind", "name")
KINDS = ("timer", "message", "request", "reply")


class Event(NamedTuple):
    """A callback's start, in nanoseconds; or that an executor waits for work, which has the kind WAIT."""

    time: int
    kind: str
    name: str


class Round(NamedTuple):
    """A round, with the names and the kinds of its callbacks."""

    moment: int
    callbacks: List[Tuple[str, str]]


def read(name: str, thread: Optional[int] = None) -> List[Event]:
    """The events of a folder in CTF, or of a table."""
    return list(of_trace(name, thread)) if name != command.STANDARD and os.path.isdir(name) else list(of_table(name))


# ---- a table


def of_table(name: str) -> Iterator[Event]:
    rows = csv.DictReader(io.StringIO(command.text_of(name)), skipinitialspace=True)
    if not set(COLUMNS) <= set(rows.fieldnames or ()):
        raise command.Trouble(f"{command.place(name, 1)}no table of callbacks: its first line has the columns {', '.join(COLUMNS)}")
    for row in rows:
        time, kind, entity = (row[it] or "" for it in COLUMNS)
        if not grammar.is_number(time) or kind not in (*KINDS, WAIT):
            raise command.Trouble(f"{command.place(name, rows.line_num)}a time in nanoseconds and one of {', '.join((WAIT, *KINDS))} are wanted, and not {time[:40]!r} and {kind[:40]!r}")
        yield Event(int(time), kind, entity)


# ---- a trace of ros2_tracing


class Graph:
    """What callbacks are of, as the tracepoints of an executor's start say it: by the numbers of handles and callbacks."""

    of: Dict[int, Optional[str]]
    callbacks: Dict[int, Tuple[str, Optional[str]]]
    symbols: Dict[int, str]

    def __init__(self) -> None:
        self.of, self.callbacks, self.symbols = {}, {}, {}

    def take(self, name: str, field: Callable[[str], Any]) -> None:
        """Takes a tracepoint, whose fields a function gives."""
        if name == "rcl_subscription_init":
            self.of[int(field("subscription_handle"))] = str(field("topic_name"))
        elif name == "rclcpp_subscription_init":
            self.of[int(field("subscription"))] = self.of.get(int(field("subscription_handle")))
        elif name == "rcl_service_init":
            self.of[int(field("service_handle"))] = str(field("service_name"))
        elif name in CALLBACKS:
            kind, handle = CALLBACKS[name]
            self.callbacks[int(field("callback"))] = kind, self.of.get(int(field(handle)))
        elif name == "rclcpp_callback_register":
            self.symbols[int(field("callback"))] = str(field("symbol"))

    def event(self, time: int, callback: int) -> Event:
        """The start of a callback: a subscription and a service are named by their topic or service, a timer by its function."""
        kind, name = self.callbacks.get(callback, ("callback", None))
        symbol = self.symbols.get(callback)
        return Event(time, kind, name or ("?" if symbol is None else symbol))


CALLBACKS = {
    "rclcpp_timer_callback_added": ("timer", "timer_handle"),
    "rclcpp_subscription_callback_added": ("message", "subscription"),
    "rclcpp_service_callback_added": ("request", "service_handle"),
}


def of_trace(name: str, thread: Optional[int]) -> Iterator[Event]:
    try:
        import bt2
    except ImportError:
        raise command.Trouble("a trace in CTF is read by Babeltrace 2: this Python has no module bt2 (python3-bt2 in Debian)") from None
    graph, threads = Graph(), set()
    try:
        for message in bt2.TraceCollectionMessageIterator(name):
            if type(message) is not bt2._EventMessageConst or not message.event.name.startswith("ros2:"):
                continue
            point, of, time = message.event.name[5:], message.event, message.default_clock_snapshot.value
            graph.take(point, of.payload_field.__getitem__)
            context = of.common_context_field
            own = int(context["vtid"]) if context is not None and "vtid" in context else 0
            if point in ("rclcpp_executor_wait_for_work", "callback_start"):
                threads.add(own)
                if thread in (None, own):
                    yield Event(time, WAIT, "") if point != "callback_start" else graph.event(time, int(of.payload_field["callback"]))
    except (bt2._Error, RuntimeError, ValueError) as wrong:
        raise command.Trouble(f"{command.printable(name)}: {str(wrong).splitlines()[0]}") from None
    if thread is None and len(threads) > 1:
        raise command.Trouble(f"{command.printable(name)}: several threads run callbacks: --thread takes one of {', '.join(map(str, sorted(threads)))}")


# ---- rounds


def rounds(events: Sequence[Event], names: Mapping[str, str], tick: int, begin: int) -> List[Round]:
    """The rounds of events. A moment is the tick that is nearest to the first callback of its round; the first round is at begin."""
    unnamed = sorted({it.name for it in events if it.kind != WAIT and not grammar.NAME.fullmatch(names.get(it.name, it.name))})
    if unnamed:
        raise command.Trouble(*(f"{it}: --name '{it}=ENTITY' says which entity of the document that is" for it in unnamed))
    found, first, is_new = [], None, True
    for it in events:
        if it.kind == WAIT:
            is_new = True
            continue
        first = it.time if first is None else first
        if is_new:
            found.append(Round(begin + (2 * (it.time - first) + tick) // (2 * tick), []))
        is_new = False
        found[-1].callbacks.append((names.get(it.name, it.name), it.kind))
    return found


def lines(found: Iterable[Round]) -> Iterator[str]:
    """What was run, in the words of a transcript."""
    for number, it in enumerate(found, 1):
        yield f"round {number} {it.moment}"
        yield from (f"run {name} {kind}" for name, kind in it.callbacks)


class Like:
    """A transcript whose callbacks are put where they were observed, so that diff says where the two part."""

    heads: List[List[str]]
    blocks: DefaultDict[Tuple[str, str], Deque[List[str]]]
    pending: List[str]

    def __init__(self, name: str) -> None:
        self.heads, self.blocks, self.pending = [], collections.defaultdict(collections.deque), []
        to: List[str] = []
        for line in transcript.lines(name):
            words = line.split(" ")
            if words[0] == "round":
                to = []
                self.heads.append(to)
            elif words[0] == "run":
                to = [line]
                self.blocks[words[1], words[2]].append(to)
            elif words[0] == "pending":
                self.pending.append(line)
            elif words[0] != "end":
                to.append(line)

    def lines(self, found: Sequence[Round]) -> Iterator[str]:
        """Its callbacks in observed rounds, each with what it did. One that it hasn't has the values 0."""
        for number, it in enumerate(found, 1):
            yield f"round {number} {it.moment}"
            yield from self.heads[number - 1] if number <= len(self.heads) else ()
            for name, kind in it.callbacks:
                blocks = self.blocks[name, kind]
                yield from blocks.popleft() if blocks else [f"run {name} {kind} 0 0"]
        yield from self.pending
        yield f"end {len(found)}"
