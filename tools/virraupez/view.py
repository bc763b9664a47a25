"""A page that shows a run in a browser: all that is drawn, as JSON in one HTML file, with the style and the program of page/. A
second run is shown below the first; their rounds are matched by their moments as diff matches them."""
from __future__ import annotations

import json
import pathlib

from . import TYPE_CHECKING, alignment, diagram, grammar, graph, picture, scene, series, transcript

if TYPE_CHECKING:
    from typing import Any, Dict, Iterable, Iterator, List, Optional, Sequence, Tuple, Union

    from .alignment import Round
    from .checker import Check
    from .flow import Origin
    from .rules import Rule
    from .scene import Box, Goal
    from .series import Panel, Steps
    from .shapes import Document, Fields

    # The number of the line that decides a rule, the rule, and what is said of it.
    Decided = Tuple[int, str, str]

PAGE = pathlib.Path(__file__).resolve().parent / "page"
# The program of the page, in parts that follow one another.
SCRIPTS = ("run.js", "axis.js", "draw.js", "goals.js", "plot.js", "graph.js", "strip.js", "lines.js", "search.js", "use.js")
# The families of boxes by their numbers: those of kinds, and what is lost.
FAMILIES = [family for family, _ in picture.LEGEND]
# The greatest whole number that a browser holds exactly.
EXACT = 2**53
# In how many rounds that differ the lines that differ are marked.
MARKED = 2000


class Run:
    """A run that is shown: its rows, rounds, lines, boxes, links and goals."""

    columns: Dict[Optional[int], int]
    broken: List[Decided]

    def __init__(self, name: str, text: str, document: Document, first: int, last: int, check: Optional[Check] = None) -> None:
        self.name, self.first, self.last = name, first, last
        self.broken = broken(check, text) if check else []
        self.scene = scene.Scene(document, first, last, None)
        lines = text.split("\n")[:-1]
        self.scene.take(lines)
        self.graph = graph.Graph(document, graph.Counts(lines))
        self.rounds = [it for it in alignment.rounds([text]) if self.is_shown(it)]
        self.columns = {}

    def is_shown(self, taken: Round) -> bool:
        return taken.number is None and self.scene.rounds <= self.last or taken.number is not None and self.first <= taken.number <= self.last

    def place(self, column: int, taken: Round) -> None:
        """Places a round in a column. What comes after the last round has the number None."""
        self.columns[taken.number] = column

    def has(self, number: int) -> bool:
        """Whether a line is shown."""
        last = self.rounds[-1]
        return self.rounds[0].at <= number <= last.at + bool(last.number) + last.rest.count("\n") - 1

    def data(self) -> Fields:
        """What the page draws of it."""
        stand = [self.columns[number] for number in range(self.first, self.first + len(self.scene.columns))]
        boxes = list(self.scene.boxes.values())
        at = {box.number: place for place, box in enumerate(boxes)}
        depth: Dict[Tuple[int, int], int] = {}
        for box in boxes:
            key = box.row, box.column
            box.at = depth[key] = depth.get(key, -1) + 1
        deepest = [0] * len(self.scene.rows)
        for (row, _), count in depth.items():
            deepest[row] = max(deepest[row], count + 1)
        return {
            "name": self.name,
            "rows": [[*row, count, names] for row, count, names in zip(self.scene.rows, deepest, names_of(self.scene.row_of))],
            "rounds": [[self.columns[it.number], it.number, None if it.number is None else exact(it.moment), it.at] for it in self.rounds],
            "text": "".join(head(it) + it.rest for it in self.rounds),
            "boxes": [number for box in boxes for number in (stand[box.column], box.row, box.at, box.number, family(box))],
            "links": [number for origin, box in self.scene.links for number in (at[box.number], sender(origin, at))],
            "plots": [[name, kind, [panel_data(it, stand) for it in panels]] for name, kind, panels in (self.scene.series.panels() if self.scene.series else ())],
            "goals": [goal_data(goal, stand) for goal in lanes(self.scene.shown_goals(), len(stand))],
        }


def head(taken: Round) -> str:
    return "" if taken.number is None else f"round {taken.number} {taken.moment}\n"


def exact(number: float) -> Union[float, str]:
    """A number as a page can have it: as a text if a browser would round it."""
    return number if abs(number) < EXACT else str(number)


def family(box: Box) -> int:
    return FAMILIES.index("lost" if box.is_drop else picture.FAMILIES.get(box.kind, "time"))


def names_of(row_of: Dict[str, int]) -> List[List[str]]:
    """The names of the entities of each row."""
    names: Dict[int, List[str]] = {}
    for name, row in row_of.items():
        names.setdefault(row, []).append(name)
    return [names[row] for row in sorted(names)]


def broken(check: Check, text: str) -> List[Decided]:
    """The rules that a transcript breaks or leaves undecided: the number of the line that decides each, its text, and what is said of it."""
    check.begin()
    check.block(text)
    check.end()
    decided = [(rule, it) for rule in check.rules for it in [rule.failure or rule.open_end] if it]
    return [(it.number, rule.text, f"{'fails' if rule.failure else 'is undecided'} in round {it.round}{f' ({it.says})' if it.says else ''}") for rule, it in decided]


def links(page: str, rules: Iterable[Rule]) -> Iterator[str]:
    """The links of a page to the lines that decide rules."""
    for rule in rules:
        it = rule.failure or rule.open_end
        if it:
            yield f"  {page}#line={it.number} shows the line that decides {rule.text}"


def sender(origin: Origin, at: Dict[int, int]) -> int:
    """The box that sent an item: its place, -1 for the feed, and -2 for one that isn't shown."""
    if origin.text.startswith("fed: "):
        return -1
    return at.get(origin.sender.line, -2) if origin.sender else -2


def lanes(goals: List[Goal], count: int) -> List[Goal]:
    """Goals, each with a lane of its server that no other goal has at the same time."""
    ends: Dict[str, List[int]] = {}
    for goal in goals:
        own = ends.setdefault(goal.server, [])
        begin, end = goal.changes[0][0], goal.expired if goal.expired is not None else count
        goal.lane = next((at for at, last in enumerate(own) if last < begin), len(own))
        own[goal.lane : goal.lane + 1] = [end]
    return goals


def goal_data(goal: Goal, stand: List[int]) -> List[Any]:
    """A goal: its server, lane, name and identifier, its states with their columns, its feedback, and the column of its expiry."""

    def column(at: int) -> int:
        return -1 if at < 0 else stand[at]

    states = [[column(at), int(status)] for at, status in goal.changes]
    # It may expire after the rounds that are shown.
    expired = column(goal.expired) if goal.expired is not None and goal.expired < len(stand) else None
    return [goal.server, goal.lane, goal.name(), goal.identifier, states, [[column(at), int(it)] for at, it in goal.feedback], expired]


# ---- plots


def panel_data(panel: Panel, stand: List[int]) -> List[Any]:
    """A panel: its title, its kind, and what is plotted. Each column is given as its distance from the one before."""
    of = panel.of
    data: Fields = {}
    if isinstance(of, dict):
        data = {"goals": [[goal, *steps_data(it, stand)] for goal, it in of.items()]}
    else:
        columns, values = steps_data(of, stand)
        data = {"columns": columns, "values": values}
    if isinstance(of, series.Topic):
        data["lost"] = of.lost
    elif isinstance(of, series.Queue):
        data.update(depth=of.depth, lost=[stand[at] for at in of.lost])
    return [panel.title, panel.kind, data]


def steps_data(steps: Steps, stand: List[int]) -> Tuple[List[int], List[Any]]:
    before, columns = 0, []
    for at in steps.columns:
        column = -1 if at < 0 else stand[at]
        columns.append(column - before)
        before = column
    return columns, [exact(it) if isinstance(it, int) else it for it in steps.values]


# ---- one run, or two


def matched(runs: Sequence[Run]) -> Tuple[int, List[List[Any]]]:
    """Places the rounds of one run or of two in columns, and gives how many there are, and what differs: columns with the places of
    lines that differ, as (begin, end) of each run."""
    if len(runs) == 1:
        for column, taken in enumerate(runs[0].rounds):
            runs[0].place(column, taken)
        return len(runs[0].rounds), []
    differ: List[List[Any]] = []
    column = -1
    for column, (one, other) in enumerate(alignment.pairs(*(iter(run.rounds) for run in runs))):
        for run, own in zip(runs, (one, other)):
            if own is not None:
                run.place(column, own)
        if one is None or other is None:
            differ.append([column, None])
        elif not one == other:
            differ.append([column, alignment.changes(one.lines(), other.lines()) if len(differ) < MARKED else None])
    return column + 1, differ


def page(runs: Sequence[Run], title: str, tick: Optional[int] = None, rules: Optional[int] = None, plotted: Optional[List[str]] = None) -> str:
    """The HTML of one run, or of two. A tick has a length in nanoseconds, if it is known, the runs are held to so many rules, and plots
    of some names are open."""
    count, differ = matched(runs)
    data = {
        "title": title,
        "columns": count,
        "differ": differ,
        "tick": tick,
        "rules": rules,
        "plotted": plotted,
        "shapes": {key: it.names for key, it in runs[0].graph.shapes.items()},
        "broken": [[at, number if run.has(number) else None, *said] for at, run in enumerate(runs) for number, *said in sorted(run.broken)],
        "states": transcript.STATES,
        "entities": grammar.ENTITIES_AT_MOST,
        "legend": picture.LEGEND,
        "runs": [run.data() for run in runs],
    }
    # A closing tag in the text would end the script.
    text = json.dumps(data, separators=(",", ":")).replace("<", "\\u003c")
    parts = {"TITLE": picture.escape(title), "STYLE": (PAGE / "view.css").read_text(), "GRAPH": diagram.svg(runs[0].graph, ""), "DATA": text, "PROGRAM": "".join((PAGE / name).read_text() for name in SCRIPTS)}
    made = (PAGE / "view.html").read_text()
    for name, part in parts.items():
        before, after = made.split(f"<!--{name}-->")
        made = before + part + after
    return made


