"""What a picture of a run shows: callbacks in rows of callback groups and columns of rounds, what was sent from which callback
to which, and goals with their states. It is read from a transcript as a stream, and holds the rounds that are shown alone."""
from __future__ import annotations

from . import TYPE_CHECKING, flow, grammar, series, transcript

if TYPE_CHECKING:
    from typing import Collection, Dict, Iterable, List, Optional, Tuple

    from .fit import Own
    from .flow import Origin
    from .series import Series
    from .shapes import Document, Words

    # A node, a callback group of it, and the group's kind.
    Row = Tuple[str, Optional[str], str]

# How many rounds are shown where none are asked for, and how many lines a tooltip has.
ROUNDS = 1000
TOLD = 24


class Box:
    """A callback, or an item that was dropped: its place, what stands on it, and its lines."""

    def __init__(self, row: int, column: int, words: Words, line: str, number: int) -> None:
        self.row, self.column, self.number, self.at = row, column, number, 0
        self.entity, self.kind, self.value = words[1], words[2], words[3]
        self.lines, self.more, self.is_drop = [line], 0, words[0] == "drop"

    def add(self, line: str) -> None:
        if len(self.lines) < TOLD:
            self.lines.append(line)
        else:
            self.more += 1


class Goal:
    """A goal with its states: columns, the place among the changes of its column, and status numbers."""

    changes: List[Tuple[int, str]]
    feedback: List[Tuple[int, str]]
    expired: Optional[int]
    lane: int

    def __init__(self, server: str, identifier: str) -> None:
        self.server, self.identifier = server, identifier
        self.changes, self.feedback, self.expired = [], [], None

    def name(self) -> str:
        """The number of an action client, from 1, and that of its goal, or the end of the identifier."""
        number = grammar.identifier(self.identifier) if grammar.IDENTIFIER.fullmatch(self.identifier) else 0
        client, own = divmod(number, 2**64)
        return f"{client}.{own}" if 0 < client <= grammar.ENTITIES_AT_MOST else f"…{self.identifier[-4:]}"


class Scene:
    series: Optional[Series]
    columns: List[Tuple[str, str]]
    boxes: Dict[int, Box]
    links: List[Tuple[Origin, Box]]
    goals: Dict[Goal, None]
    open: Dict[Tuple[str, str], Goal]
    box: Optional[Box]
    before: List[Goal]
    pending: List[Tuple[Optional[int], str, str]]

    def __init__(self, document: Document, first: int, last: int, plotted: Optional[Collection[str]] = ()) -> None:
        self.first, self.last, self.flow = first, last, flow.Flow(document)
        # The series of some names, or, with None, of all; there are none without names.
        self.series = series.Series(document, self.flow, plotted) if plotted is None or plotted else None
        self.rows, self.row_of = rows_of(document)
        self.columns, self.boxes, self.links = [], {}, []
        # Goals that came in the rounds that are shown, as an ordered set, and those that are held.
        self.goals, self.open = {}, {}
        self.box, self.before, self.pending, self.rounds = None, [], [], 0

    def column(self) -> int:
        return self.flow.round - self.first

    def is_shown(self) -> bool:
        return self.first <= self.flow.round <= self.last

    def read(self, name: str, own: Own) -> None:
        """Reads a transcript that must be one of a document."""
        self.take(transcript.lines(name, own))

    def take(self, lines: Iterable[str]) -> None:
        for number, line in enumerate(lines, 1):
            words = line.split(" ")
            self.flow.take(number, words)
            if words[0] == "round":
                self.rounds, self.box = self.rounds + 1, None
                if self.is_shown():
                    self.before = self.before if self.columns else list(self.open.values())
                    self.columns.append((words[1], words[2]))
            elif words[0] in ("state", "feedback", "expire"):
                self.goal_line(words)
            if self.series and self.flow.round <= self.last:
                self.series.take(number, words, self.column())
            if self.is_shown():
                self.line(number, line, words)

    def line(self, number: int, line: str, words: Words) -> None:
        if words[0] == "run":
            self.box = self.add_box(number, line, words)
            cause = self.flow.run.cause if self.flow.run else None
            if self.box and cause and words[2] != "poll":
                self.links.append((cause, self.box))
        elif words[0] == "drop":
            item, box = self.flow.dropped(), self.add_box(number, line, words)
            if self.series:
                self.series.drop(words, item)
            if box and item:
                self.links.append((item, box))
        elif words[0] == "pending":
            self.pending.append((self.row_of.get(words[1]), words[1], words[2]))
        elif self.box and words[0] not in ("round", "end", "expire"):
            self.box.add(line)

    def add_box(self, number: int, line: str, words: Words) -> Optional[Box]:
        row = self.row_of.get(words[1])
        if row is None:
            return None
        box = self.boxes[number] = Box(row, self.column(), words, line, number)
        return box

    # ---- goals

    def goal_line(self, words: Words) -> None:
        """A state, feedback or the expiry of a goal. Goals are followed also before the rounds that are shown."""
        key = words[1], words[2]
        goal = self.open.get(key)
        if words[0] == "state" and words[3] == "1" or goal is None:
            goal = self.open[key] = Goal(*key)
        if words[0] == "state":
            if self.column() < 0:
                goal.changes.clear()
            if self.flow.round <= self.last:
                goal.changes.append((self.column(), words[3]))
        elif words[0] == "feedback" and self.is_shown():
            goal.feedback.append((self.column(), words[3]))
        elif words[0] == "expire":
            goal.expired = self.column()
            self.open.pop(key)
        if self.is_shown():
            self.goals.setdefault(goal)

    def shown_goals(self) -> List[Goal]:
        """The goals with a state in the rounds that are shown: those that were there before, and then those that came."""
        before = set(self.before)
        return [goal for goal in [*self.before, *(it for it in self.goals if it not in before)] if goal.changes]


def rows_of(document: Document) -> Tuple[List[Row], Dict[str, int]]:
    """The rows, a callback group each that has an entity, and the row of each entity."""
    rows: List[Row] = []
    row_of: Dict[str, int] = {}
    for node in document.get("nodes", []):
        groups = [None, *(group["name"] for group in node.get("groups", []))]
        kinds = {group["name"]: group["kind"] for group in node.get("groups", [])}
        for group in groups:
            names = [it["name"] for kind in grammar.ENTITIES for it in node.get(kind, []) if it.get("group") == group]
            if names:
                row_of.update((name, len(rows)) for name in names)
                rows.append((node["name"], group, kinds.get(group, "exclusive")))
    return rows, row_of


