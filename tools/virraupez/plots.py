"""Plots under a picture, on its axis: the series of names as steps, with a cross at what a queue lost, and goals by state one over the
other."""
from __future__ import annotations

import collections

from . import TYPE_CHECKING
from .series import Queue, Steps, Topic

if TYPE_CHECKING:
    from typing import Counter, Iterable, List, Tuple

    from .picture import Picture
    from .series import Panel, Value

HIGH = {"values": 66, "feedback": 66, "states": 66, "queue": 46, "waiting": 46}
FAMILIES = {"values": "topic", "feedback": "action", "states": "action", "queue": "time", "waiting": "service"}
STYLE = ".plot { fill: none; stroke-width: 1.5; }\n"
# What is free above and below the steps of a panel.
PAD = 9


class Plot:
    """A panel of a name, with its place and its scale."""

    series: List[Steps]

    def __init__(self, name: str, panel: Panel, top: float) -> None:
        self.name, self.panel, self.top, self.high = name, panel, top, HIGH[panel.kind]
        self.series = list(panel.of.values()) if isinstance(panel.of, dict) else [panel.of]
        values = [total(it) for steps in self.series for it in steps.values] or [0]
        self.low, self.most = min(values), max(values)
        if panel.kind not in ("values", "feedback"):
            self.low = min(self.low, 0)
        if isinstance(panel.of, Queue):
            self.most = min(panel.of.depth, max(2 * self.most, 2))

    def y(self, value: float) -> float:
        part = (value - self.low) / (self.most - self.low) if self.most > self.low else 0.5
        return self.top + self.high - PAD - part * (self.high - 2 * PAD)

    # ---- drawing

    def draw(self, picture: Picture) -> None:
        picture.add(f'<line class="rule" x1="0" x2="{picture.width}" y1="{self.top}" y2="{self.top}"/>')
        picture.words(10, self.top + 14, self.name, "head")
        picture.words(10, self.top + 26, self.panel.title, "small")
        of = self.panel.of
        if isinstance(of, Queue):
            picture.words(10, self.top + 38, f"depth {of.depth}", "small")
        if self.panel.kind == "states" and isinstance(of, Steps):
            self.draw_states(picture, of)
            return
        for value in {self.low, self.most}:
            picture.words(picture.scale.left - 6, self.y(value) + 3, str(value), "small", ' text-anchor="end"')
        for steps in self.series:
            self.draw_steps(picture, steps)
        self.draw_lost(picture)

    def draw_steps(self, picture: Picture, steps: Steps) -> None:
        if not steps.columns:
            return
        path = "".join(f"H{x:g}V{self.y(total(value)):g}" for x, value in zip(places(picture, steps), steps.values))
        # The path begins at its first step.
        begin = f"M{places(picture, steps)[0]:g},{self.y(total(steps.values[0])):g}"
        end = picture.x(len(picture.scene.columns))
        picture.add(f'<path class="plot {FAMILIES[self.panel.kind]}" d="{begin}{path}H{end:g}"><title>{self.name}, {self.panel.title}</title></path>')

    def draw_states(self, picture: Picture, steps: Steps) -> None:
        scale, ends = (self.high - PAD) / max(self.most, 1), [*steps.columns[1:], len(picture.scene.columns)]
        for column, end, counts in zip(steps.columns, ends, steps.values):
            y, x = self.top + self.high - 2, picture.x(max(column, 0))
            for state, count in enumerate(counts if isinstance(counts, tuple) else (counts,), 1):
                y -= count * scale
                if count:
                    picture.add(f'<rect class="s{state}" x="{x:g}" y="{y:g}" width="{picture.x(end) - x:g}" height="{count * scale:g}"><title>{count}</title></rect>')

    def draw_lost(self, picture: Picture) -> None:
        """A cross at each value that a queue lost."""
        of = self.panel.of
        if isinstance(of, Topic):
            all_places = places(picture, of)
            lost = [(all_places[at], total(of.values[at])) for at in sorted({at for at, _ in of.lost})]
        else:
            lost = [(picture.x(at), self.most) for at in sorted(set(of.lost if isinstance(of, Queue) else ()))]
        for x, value in lost:
            picture.add(f'<path class="lost" fill="none" stroke-width="2" d="M{x - 4:g},{self.y(value) - 4:g} l8,8 m0,-8 l-8,8"/>')


def total(value: Value) -> int:
    return value if isinstance(value, int) else sum(value)


def places(picture: Picture, steps: Steps) -> List[float]:
    """Where steps begin. Those of one column share its width."""
    count, found = collections.Counter(steps.columns), []
    seen: Counter[int] = collections.Counter()
    for column in steps.columns:
        part = 0 if column < 0 else seen[column] / count[column]
        seen[column] += 1
        found.append(picture.x(max(column, 0) + part))
    return found


def stacked(panels: Iterable[Tuple[str, Panel]], top: float) -> Tuple[List[Plot], float]:
    """The plots of panels, each with its name, one below the other, and where they end."""
    made = []
    for name, panel in panels:
        made.append(Plot(name, panel, top))
        top += made[-1].high
    return made, top
