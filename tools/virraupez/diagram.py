"""A graph of who talks to whom as SVG: a box for a node, with its callback groups, a rounded one for a topic, a service or an action, and an arrow for
what goes from one to the other."""
from __future__ import annotations

from . import TYPE_CHECKING, layout, picture

if TYPE_CHECKING:
    from typing import Sequence

    from .graph import Edge, Graph, Shape
    from .shapes import Point

STYLE = """
.graph text { paint-order: stroke; stroke: #ffffff; stroke-width: 3px; } .graph .words { font-size: 9.5px; } .graph .name { font-weight: bold; }
.shape rect { stroke-width: 1.5; } .edge path { fill: none; stroke-width: 1.3; } .edge.lost path { stroke-width: 2.2; }
@media (prefers-color-scheme: dark) { .graph text { stroke: #16181c; } }
"""
# The family of a shape's colours.
FAMILIES = {"node": "time", "topic": "topic", "service": "service", "action": "action", "outside": "time"}


def svg(graph: Graph, style: str = picture.STYLE + STYLE) -> str:
    """The SVG of a graph. A page has a style of its own, and gives none."""
    wide, high = layout.place(graph)
    wide, high = max(wide, 1), max(high, 1)
    space = ' xmlns="http://www.w3.org/2000/svg"' if style else ""
    parts = [f'<svg{space} class="graph" viewBox="0 0 {wide:.0f} {high:.0f}" width="{wide:.0f}" height="{high:.0f}">']
    parts.append("<title>Who talks to whom</title>")
    if style:
        parts.append(f"<style>{style}</style>")
    parts += [drawn_edge(it) for it in graph.edges]
    parts += [drawn_shape(it) for it in graph.shapes.values()]
    return "\n".join([*parts, "</svg>"]) + "\n"


def drawn_shape(it: Shape) -> str:
    left, top = it.x - it.wide / 2, it.y - it.high / 2
    round_by = 2 if it.kind == "node" else min(it.high / 2, 14)
    dash = ' stroke-dasharray="3 3"' if it.kind == "outside" else ""
    parts = [f'<g class="shape" data-key="{it.key}"><title>{it.kind if it.kind != it.name else "what is fed from"} {it.name}</title>']
    parts.append(f'<rect class="box {FAMILIES[it.kind]}" x="{left:.1f}" y="{top:.1f}" width="{it.wide:.1f}" height="{it.high:.1f}" rx="{round_by:g}"{dash}/>')
    for at, line in enumerate(it.lines):
        indent = len(line) - len(line.lstrip())
        style = "name" if at == 0 else "small" if not indent else ""
        anchor, x = ("middle", it.x) if at == 0 else ("start", left + it.PAD + 4 * indent)
        parts.append(f'<text class="{style}" x="{x:.1f}" y="{top + it.LINE * (at + 1):.1f}" text-anchor="{anchor}">{line.strip()}</text>')
    return "".join([*parts, "</g>"])


def drawn_edge(it: Edge) -> str:
    family = FAMILIES[it.end.kind if it.end.kind != "node" else it.begin.kind]
    (x, y), *rest = it.path
    path = f"M{x:.1f},{y:.1f}" + "".join("C" + " ".join(f"{a:.1f},{b:.1f}" for a, b in rest[at : at + 3]) for at in range(0, len(rest), 3))
    says = f"from {it.begin.name} to {it.end.name}" + "".join(f", {words}" for words in it.words)
    parts = [f'<g class="edge{" lost" if it.lost else ""}"><title>{says}</title><path class="{"lost" if it.lost else family}" d="{path}{tip(it.path)}"/>']
    top = it.at[1] - it.high / 2
    for at, words in enumerate(it.words):
        style = "words lost-text" if words.endswith(" lost") else "words"
        parts.append(f'<text class="{style}" x="{it.at[0]:.1f}" y="{top + it.LINE * (at + 0.8):.1f}" text-anchor="middle">{words}</text>')
    return "".join([*parts, "</g>"])


def tip(path: Sequence[Point]) -> str:
    """The head of an arrow, along the last curve."""
    (x, y), before = path[-1], next((it for it in reversed(path) if it != path[-1]), path[-1])
    length = ((x - before[0]) ** 2 + (y - before[1]) ** 2) ** 0.5 or 1
    along = ((x - before[0]) / length, (y - before[1]) / length)
    sides = [(x - 7 * along[0] + side * 3.5 * along[1], y - 7 * along[1] - side * 3.5 * along[0]) for side in (1, -1)]
    return "".join(f" M{a:.1f},{b:.1f} L{x:.1f},{y:.1f}" for a, b in sides)
