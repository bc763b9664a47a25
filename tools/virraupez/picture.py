"""The picture of a scene as SVG: colours that colour-blind people tell apart, for light and for dark, with a shape or a word
beside each."""
from __future__ import annotations

from xml.sax import saxutils

from . import TYPE_CHECKING, plots, transcript

if TYPE_CHECKING:
    from typing import Dict, Iterable, List, Optional, Tuple

    from .flow import Origin
    from .scene import Box, Goal, Scene
    from .series import Panel
    from .shapes import Point

# The families of kinds, by which callbacks and lines are coloured.
FAMILIES = {
    "timer": "time",
    "message": "topic",
    "request": "service",
    "reply": "service",
    **dict.fromkeys(("goal", "cancel", "ask", "poll", "response", "code", "feedback", "result"), "action"),
}
LEGEND = (("time", "timer"), ("topic", "message"), ("service", "request, reply"), ("action", "action"), ("lost", "dropped"))
STYLE = """
svg { background: #ffffff; font-family: Verdana, "DejaVu Sans", sans-serif; }
text { fill: #1a1a1a; font-size: 11px; } .small { font-size: 9px; fill: #4d4d4d; } .head { font-weight: bold; }
.stripe { fill: #f2f2f2; } .rule { stroke: #d0d0d0; } .box { fill: #ffffff; stroke-width: 1.5; }
.time { stroke: #6b6b6b; } .topic { stroke: #0072b2; } .service { stroke: #009e73; } .action { stroke: #a35f8a; } .lost { stroke: #d00000; }
.link { fill: none; stroke-width: 1.2; stroke-opacity: 0.75; } .link.lost { stroke-dasharray: 4 2; } .fed { stroke-dasharray: 1 2; }
.lost-text { fill: #b00000; font-weight: bold; }
.s1 { fill: #bfe3f7; } .s2 { fill: #56b4e9; } .s3 { fill: #f0c042; } .s4 { fill: #35b58d; } .s5 { fill: #d9a3c3; } .s6 { fill: #e08a5a; }
.bar { stroke: #1a1a1a; stroke-width: 0.6; } .on { fill: #1a1a1a; } .dot { fill: #1a1a1a; stroke: #ffffff; }
@media (prefers-color-scheme: dark) {
svg { background: #16181c; } text { fill: #ececec; } .small { fill: #b5b5b5; } .stripe { fill: #1f2227; } .rule { stroke: #3c4048; }
.box { fill: #16181c; } .time { stroke: #a8a8a8; } .topic { stroke: #56b4e9; } .service { stroke: #2fc79a; } .action { stroke: #d58fb9; } .lost { stroke: #ff5a4d; }
.lost-text { fill: #ff8278; } .on { fill: #101010; } .bar { stroke: #ececec; } .dot { fill: #101010; stroke: #ececec; }
}
"""
# What the legend takes.
LEAST_WIDTH = 1100
MARKS = {"4": "✓", "5": "■", "6": "✗"}


class Scale:
    """The measures of a picture: with words on its boxes, or, for many rounds, without."""

    def __init__(self, rounds: int) -> None:
        self.wordy = rounds <= 60
        self.column, self.box, self.high, self.gap = (124, 100, 28, 5) if self.wordy else (16, 10, 9, 2)
        self.left, self.top, self.bar = 150, 64, 18


class Picture:
    parts: List[str]

    def __init__(self, scene: Scene, plotted: Iterable[Tuple[str, Panel]] = ()) -> None:
        self.scene, self.scale, self.parts = scene, Scale(len(scene.columns)), []
        self.tops, self.bottom = self.stack()
        self.lanes = self.lanes_of(scene.shown_goals())
        self.goal_top = self.bottom + 28
        self.width = max(self.scale.left + self.scale.column * len(scene.columns) + 40, LEAST_WIDTH)
        self.plots, bottom = plots.stacked(plotted, self.goal_top + len(self.lanes) * (self.scale.bar + 6) + 8)
        self.height = bottom + 38

    def stack(self) -> Tuple[List[int], int]:
        """The top of each row, where the callbacks of a round stand one below the other, and the bottom of all."""
        counts: Dict[Tuple[int, int], int] = {}
        for box in self.scene.boxes.values():
            place = box.row, box.column
            box.at = counts.get(place, 0)
            counts[place] = box.at + 1
        tops, top = [], self.scale.top
        for row in range(len(self.scene.rows)):
            most = max([count for (at, _), count in counts.items() if at == row], default=1)
            tops.append(top)
            top += max(most * (self.scale.high + self.scale.gap) + self.scale.gap, 32)
        return tops, top

    # ---- places

    def x(self, column: float) -> float:
        return self.scale.left + column * self.scale.column

    def place(self, box: Box) -> Point:
        """The left upper corner of a box."""
        inset = (self.scale.column - self.scale.box) // 2
        return self.x(box.column) + inset, self.tops[box.row] + self.scale.gap + box.at * (self.scale.high + self.scale.gap)

    def change_x(self, goal: Goal, place: int) -> float:
        """Where a goal's change of state stands in its column, which it shares with the other changes of that round."""
        column = goal.changes[place][0]
        if column < 0:
            return self.scale.left
        same = [at for at, change in enumerate(goal.changes) if change[0] == column]
        return self.x(column) + self.scale.column * (same.index(place) + 1) / (len(same) + 1)

    # ---- parts

    def add(self, text: str) -> None:
        self.parts.append(text)

    def words(self, x: float, y: float, text: str, style: str = "", more: str = "") -> None:
        self.add(f'<text x="{x:g}" y="{y:g}"{attribute("class", style)}{more}>{escape(text)}</text>')

    def svg(self) -> str:
        first, last = self.scene.columns[0][0], self.scene.columns[-1][0]
        self.add(f'<svg xmlns="http://www.w3.org/2000/svg" viewBox="0 0 {self.width} {self.height}" width="{self.width}" height="{self.height}" role="img">')
        self.add(f"<title>Rounds {first} to {last} of a run</title>\n<style>{STYLE}{plots.STYLE if self.plots else ''}</style>")
        self.grid()
        for row, (node, group, kind) in enumerate(self.scene.rows):
            self.row(row, node, group, kind)
        for origin, box in self.scene.links:
            self.link(origin, box)
        for box in self.scene.boxes.values():
            self.box(box)
        self.pending()
        for at, (server, goals) in enumerate(self.lanes):
            y = self.goal_top + at * (self.scale.bar + 6)
            if at == 0 or self.lanes[at - 1][0] != server:
                self.words(10, y + 13, f"goals of {clip(server, 14)}", "head")
            for goal in goals:
                self.goal(goal, y)
        for plot in self.plots:
            plot.draw(self)
        self.legend()
        self.add("</svg>")
        return "\n".join(self.parts) + "\n"

    def grid(self) -> None:
        """The stripes and the heads of the columns. A head may be wider than its column, so all stripes come before."""
        every = 1 if self.scale.wordy else 10
        for at in range(len(self.scene.columns)):
            if at // every % 2:
                self.add(f'<rect class="stripe" x="{self.x(at)}" y="24" width="{self.scale.column}" height="{self.height - 60}"/>')
        for at in range(0, len(self.scene.columns), every):
            number, moment = self.scene.columns[at]
            middle = self.x(at) + (self.scale.column / 2 if self.scale.wordy else 0)
            anchor = ' text-anchor="middle"' if self.scale.wordy else ""
            self.words(middle, 38, f"round {number}" if self.scale.wordy or at == 0 else number, "head", anchor)
            self.words(middle, 52, f"at {moment}" if self.scale.wordy or at == 0 else moment, "small", anchor)

    def row(self, row: int, node: str, group: Optional[str], kind: str) -> None:
        top = self.tops[row]
        self.add(f'<line class="rule" x1="0" x2="{self.width}" y1="{top}" y2="{top}"/>')
        self.add(f"<g><title>{escape(node)}: {'the group ' + escape(group) if group else 'its default group'}, {kind}</title>")
        self.words(10, top + 14, clip(node, 20), "head")
        self.words(10, top + 26, clip(f"{group} ({kind})" if group else "default group", 24), "small")
        self.add("</g>")

    def box(self, box: Box) -> None:
        x, y = self.place(box)
        family = "lost" if box.is_drop else FAMILIES.get(box.kind, "time")
        more = f"\nand {box.more} more lines" if box.more else ""
        shown = escape("\n".join(box.lines) + more)
        self.add(f'<g><title>{shown}</title><rect class="box {family}" x="{x}" y="{y}" width="{self.scale.box}" height="{self.scale.high}" rx="3"/>')
        if box.is_drop:
            self.cross(x, y)
        if self.scale.wordy:
            inset = 20 if box.is_drop else 6
            self.words(x + inset, y + 12, clip(box.entity, 12 if box.is_drop else 14), "lost-text" if box.is_drop else "")
            says = f"lost {box.value}" if box.is_drop else f"{box.kind} {box.value}"
            self.words(x + inset, y + 23, clip(says, 16), "small")
        self.add("</g>")

    def cross(self, x: float, y: float) -> None:
        """The sign of an item that was dropped."""
        size = 8 if self.scale.wordy else self.scale.high - 4
        left, top = (x + 6, y + 10) if self.scale.wordy else (x + 3, y + 2)
        self.add(f'<path class="lost" fill="none" stroke-width="2" d="M{left},{top} l{size},{size} m0,-{size} l-{size},{size}"/>')

    def link(self, origin: Origin, box: Box) -> None:
        """A line from what sent an item to what took or lost it; what is fed comes from the top of its round."""
        x, y = self.place(box)
        y += self.scale.high / 2
        sender = self.scene.boxes.get(origin.sender.line) if origin.sender else None
        family = "lost" if box.is_drop else FAMILIES.get(box.kind, "time")
        tip = " m-4,-3 l4,3 l-4,3" if self.scale.wordy else ""
        if origin.text.startswith("fed: "):
            fed = self.x(max(origin.round - self.scene.first, 0)) + 5
            path, family = f"M{fed:g},56 C{fed:g},{y:g} {fed:g},{y:g} {x:g},{y:g}", f"{family} fed"
        elif sender and sender.column == box.column:
            bend, begin, tip = self.scale.column / 6, self.side(sender), ""
            path = f"M{begin[0]:g},{begin[1]:g} c{bend:g},0 {bend:g},{y - begin[1]:g} 0,{y - begin[1]:g}"
        else:
            from_x, from_y = self.side(sender) if sender else (self.scale.left, y)
            bend = (x - from_x) / 2
            path = f"M{from_x:g},{from_y:g} C{from_x + bend:g},{from_y:g} {x - bend:g},{y:g} {x:g},{y:g}"
        self.add(f'<path class="link {family}" d="{path}{tip}"><title>{escape(origin.text)}</title></path>')

    def side(self, box: Box) -> Point:
        """The middle of a box's right side, where lines begin."""
        x, y = self.place(box)
        return x + self.scale.box, y + self.scale.high / 2

    def pending(self) -> None:
        for row, name, count in self.scene.pending:
            if row is not None:
                said = f"{name}: {count} pending"
                x = self.x(len(self.scene.columns)) - 4
                self.words(x, self.tops[row] + 14, said, "lost-text", ' text-anchor="end"')

    # ---- goals

    def lanes_of(self, goals: Iterable[Goal]) -> List[Tuple[str, List[Goal]]]:
        """The goals of each server in as few lanes as have room for their bars, each with its name before it."""
        lanes: Dict[str, List[List[Goal]]] = {}
        ends: Dict[str, List[float]] = {}
        for goal in goals:
            begin, end = self.change_x(goal, 0) - 8 * len(goal.name()) - 10, self.end_x(goal, len(goal.changes) - 1)
            own, over = lanes.setdefault(goal.server, []), ends.setdefault(goal.server, [])
            at = next((at for at, it in enumerate(over) if it <= begin), len(own))
            if at == len(own):
                own.append([])
            own[at].append(goal)
            over[at : at + 1] = [end]
        return [(server, lane) for server, own in lanes.items() for lane in own]

    def goal(self, goal: Goal, y: float) -> None:
        self.add(f"<g><title>goal {escape(goal.identifier)} of {escape(goal.server)}</title>")
        self.words(self.change_x(goal, 0) - 4, y + 12, goal.name(), "small", ' text-anchor="end"')
        for at, (_, status) in enumerate(goal.changes):
            self.state(goal, at, status, y)
        for column, value in goal.feedback:
            x, size = self.x(column) + self.scale.column / 2, 3 if self.scale.wordy else 2
            self.add(f'<circle class="dot" cx="{x:g}" cy="{y + 14:g}" r="{size}"><title>feedback {value}</title></circle>')
        self.add("</g>")

    def state(self, goal: Goal, at: int, status: str, y: float) -> None:
        """The part of a goal's bar for one of its states; one that ended is half as high."""
        begin, end, ended = self.change_x(goal, at), self.end_x(goal, at), status in MARKS
        high, top = (self.scale.bar * 0.6, y + self.scale.bar * 0.2) if ended else (self.scale.bar, y)
        name = transcript.STATES.get(status, status)
        self.add(f'<rect class="bar s{status}" x="{begin:g}" y="{top:g}" width="{max(end - begin, 2):g}" height="{high:g}"><title>{name}</title></rect>')
        if ended:
            self.words(begin + 2, y + 13, MARKS[status], "on")
        if end - begin > 7 * len(name) + 18:
            self.words(begin + (14 if ended else 5), y + (12 if ended else 9), name.lower(), "on", ' style="font-size:9px"')

    def end_x(self, goal: Goal, at: int) -> float:
        """Where a state ends: at the next one, at its expiry, or at the picture's end."""
        if at + 1 < len(goal.changes):
            return self.change_x(goal, at + 1)
        last = self.x(len(self.scene.columns))
        return min(self.x(goal.expired), last) if goal.expired is not None else last

    def legend(self) -> None:
        y, x = self.height - 14, 10
        for family, says in LEGEND:
            self.add(f'<rect class="box {family}" x="{x}" y="{y - 9}" width="12" height="10" rx="2"/>')
            self.words(x + 17, y, says, "small")
            x += 30 + 6 * len(says)
        if self.lanes:
            for status, name in transcript.STATES.items():
                self.add(f'<rect class="bar s{status}" x="{x}" y="{y - 9}" width="12" height="10"/>')
                said = name.lower() + (f" {MARKS[status]}" if status in MARKS else "")
                self.words(x + 17, y, said, "small")
                x += 30 + 6 * len(said)
            self.add(f'<circle class="dot" cx="{x + 6}" cy="{y - 4}" r="4"/>')
            self.words(x + 17, y, "feedback", "small")
            x += 85
        if any(origin.text.startswith("fed: ") for origin, _ in self.scene.links):
            self.add(f'<path class="link topic fed" d="M{x},{y - 4} l24,0"/>')
            self.words(x + 30, y, "what is fed", "small")


def escape(text: str) -> str:
    """A text as XML may have it."""
    return saxutils.escape("".join(sign if sign.isprintable() or sign == "\n" else "?" for sign in text))


def attribute(name: str, value: str) -> str:
    return f' {name}="{value}"' if value else ""


def clip(text: str, most: int) -> str:
    return text if len(text) <= most else text[: most - 1] + "…"
