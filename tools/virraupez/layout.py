"""Where the shapes of a graph are, and where its edges go: by `dot` of Graphviz, if it is installed and the graph isn't large, or else
in layers."""
from __future__ import annotations

import json
import operator
import subprocess

from . import TYPE_CHECKING

if TYPE_CHECKING:
    from typing import Collection, Dict, Iterator, List, Optional, Set, Tuple, Union

    from .graph import Edge, Graph, Shape
    from .shapes import Point

    Size = Tuple[float, float]
    Stop = Union[Shape, "Bend"]
    Ports = Dict[Tuple[Edge, str], float]

# dot's inches, how long it may take, and for how many edges it is asked at most: for twice as many it takes longer than a person waits.
INCH, SECONDS, EDGES = 72.0, 10, 120
# What is between shapes of a layer, between layers at least, and around all, in pixels.
BETWEEN, APART, AROUND = 26, 70, 12
SWEEPS = 6


def place(graph: Graph) -> Size:
    """Places a graph, and gives its width and its height."""
    return by_dot(graph) or by_layers(graph)


# ---- dot


def by_dot(graph: Graph) -> Optional[Size]:
    """The measures of a graph that dot has placed; None if it isn't installed, fails, or would take long."""
    if len(graph.edges) > EDGES:
        return None
    try:
        ran = subprocess.run(["dot", "-Tjson0"], input=dot_text(graph).encode(), stdout=subprocess.PIPE, stderr=subprocess.DEVNULL, timeout=SECONDS)
        placed = json.loads(ran.stdout) if ran.returncode == 0 else {}
    except (OSError, ValueError, subprocess.TimeoutExpired):
        return None
    if "bb" not in placed:
        return None
    wide, high = (float(it) for it in placed["bb"].split(",")[2:])

    def point(text: str) -> Point:
        *_, x, y = text.split(",")
        return float(x) + AROUND, high - float(y) + AROUND

    shapes = list(graph.shapes.values())
    for it in placed.get("objects", []):
        shape = shapes[int(it["name"])]
        shape.x, shape.y = point(it["pos"])
    for it in placed.get("edges", []):
        edge = graph.edges[int(it["number"])]
        first, *rest = it["pos"].split(" ")
        # The tip of the arrow comes first.
        edge.path = [*map(point, rest), point(first), point(first), point(first)]
        edge.at = point(it["lp"]) if "lp" in it else middle(edge)
    return wide + 2 * AROUND, high + 2 * AROUND


def dot_text(graph: Graph) -> str:
    number = {key: at for at, key in enumerate(graph.shapes)}
    lines = ["digraph {", "rankdir=LR; nodesep=0.3; ranksep=0.5;"]
    for key, it in graph.shapes.items():
        lines.append(f'{number[key]} [label="" shape=box fixedsize=true width={it.wide / INCH:.3f} height={it.high / INCH:.3f}];')
    for at, edge in enumerate(graph.edges):
        # A table of the words' size keeps room for them.
        label = f'label=<<table border="0" fixedsize="true" width="{edge.wide + 6:.0f}" height="{edge.high + 4:.0f}"><tr><td></td></tr></table>>' if edge.words else ""
        lines.append(f"{number[edge.begin.key]} -> {number[edge.end.key]} [number={at} {label}];")
    return "\n".join([*lines, "}"])


# ---- layers


class Bend:
    """A place in a layer through which an edge goes that passes over it."""

    x: float
    y: float

    wide = 0.0

    def __init__(self, edge: Edge) -> None:
        self.x = self.y = 0.0
        self.high = float(edge.high)


def by_layers(graph: Graph) -> Size:
    """Places shapes in layers from left to right, so that most edges lead to the right, and gives the measures."""
    layer = layers_of(graph)
    stops: Dict[Edge, List[Stop]] = {edge: [edge.begin, *bends(layer, edge), edge.end] for edge in graph.edges}
    layers = ordered(stops.values(), layer)
    # A shape takes as much height as the words of its edges.
    tall: Dict[Stop, float] = {it: it.high + BETWEEN for it in layer}
    for edge in graph.edges:
        tall.update({it: max(tall[it], edge.high + BETWEEN) for it in (edge.begin, edge.end)})
    high = max((sum(tall[it] for it in its) for its in layers), default=0)
    widest: Dict[Stop, float] = {}
    for edge in graph.edges:
        widest.update({it: max(widest.get(it, 0), edge.wide + 24) for it in (edge.begin, edge.end)})
    x: float = AROUND
    for at, its in enumerate(layers):
        wide = max(it.wide for it in its)
        y = AROUND + (high - sum(tall[it] for it in its)) / 2
        for it in its:
            it.x, it.y = x + wide / 2, y + tall[it] / 2
            y += tall[it]
        words = [widest[it] for it in its if it in widest]
        x += wide + (max([APART, *words]) if at + 1 < len(layers) else 0)
    ports = ports_of(stops)
    for edge, through in stops.items():
        lead(edge, through, ports)
    return x + AROUND, high + AROUND + 20


def layers_of(graph: Graph) -> Dict[Stop, int]:
    """The layer of each shape: after those that lead to it, but for edges that close a circle."""
    after: Dict[Stop, List[Stop]] = {}
    state: Dict[Stop, str] = {}
    order: List[Stop] = []
    forward: Set[Tuple[Stop, Stop]] = set()
    for edge in graph.edges:
        after.setdefault(edge.begin, []).append(edge.end)
    for root in graph.shapes.values():
        path: List[Tuple[Stop, Iterator[Stop]]] = [] if root in state else [(root, iter(after.get(root, ())))]
        state.setdefault(root, "open")
        while path:
            shape, rest = path[-1]
            following = next(rest, None)
            if following is None:
                state[shape] = "done"
                order.append(shape)
                path.pop()
            elif state.get(following) != "open":
                forward.add((shape, following))
                if following not in state:
                    state[following] = "open"
                    path.append((following, iter(after.get(following, ()))))
    layer: Dict[Stop, int] = {}
    for shape in reversed(order):
        layer[shape] = max((layer[one] + 1 for one, other in forward if other is shape), default=0)
    return layer


def bends(layer: Dict[Stop, int], edge: Edge) -> List[Bend]:
    """The bends of an edge in the layers that it passes over."""
    made = [(at, Bend(edge)) for at in range(layer[edge.begin] + 1, layer[edge.end])]
    layer.update((it, at) for at, it in made)
    return [it for _, it in made]


def ordered(stops: Collection[List[Stop]], layer: Dict[Stop, int]) -> List[List[Stop]]:
    """The layers, each in an order in which few edges cross: a shape is near the middle of those that it is connected with."""
    layers = [[it for it in layer if layer[it] == at] for at in range(max(layer.values(), default=-1) + 1)]
    near: Dict[Stop, List[Stop]] = {}
    for one, other in (pair for its in stops for pair in zip(its, its[1:])):
        near.setdefault(one, []).append(other)
        near.setdefault(other, []).append(one)
    at: Dict[Stop, float] = {it: place / len(its) for its in layers for place, it in enumerate(its)}
    for _ in range(SWEEPS):
        for its in layers:
            its.sort(key=lambda it: sum(at[other] for other in near.get(it, [it])) / len(near.get(it, [it])))
            at.update((it, place / len(its)) for place, it in enumerate(its))
    return layers


def ports_of(stops: Dict[Edge, List[Stop]]) -> Ports:
    """The heights at which edges leave and reach shapes: on each side one below the other, in the order of where they lead."""
    sides: Dict[Tuple[Stop, bool], List[Tuple[float, int, Edge, str]]] = {}
    ports: Ports = {}
    for edge, through in stops.items():
        forward = edge.end.x > edge.begin.x
        sides.setdefault((edge.begin, forward), []).append((through[1].y, len(ports), edge, "begin"))
        sides.setdefault((edge.end, not forward), []).append((through[-2].y, len(ports), edge, "end"))
        ports[edge, "begin"] = ports[edge, "end"] = 0.0
    for (shape, _), its in sides.items():
        for at, (*_, edge, end) in enumerate(sorted(its, key=operator.itemgetter(0, 1)), 1):
            ports[edge, end] = shape.y - shape.high / 2 + shape.high * at / (len(its) + 1)
    return ports


def lead(edge: Edge, stops: List[Stop], ports: Ports) -> None:
    """The curves of an edge from a side of a shape to a side of another, through its bends."""
    begin, end, to = edge.begin, edge.end, 1 if edge.end.x > edge.begin.x else -1
    places = [(begin.x + to * begin.wide / 2, ports[edge, "begin"]), *((it.x, it.y) for it in stops[1:-1]), (end.x - to * end.wide / 2, ports[edge, "end"])]
    edge.path = places[:1]
    for (from_x, from_y), (to_x, to_y) in zip(places, places[1:]):
        half = (to_x - from_x) / 2
        edge.path += [(from_x + half, from_y), (to_x - half, to_y), (to_x, to_y)]
    edge.at = middle(edge)


def middle(edge: Edge) -> Point:
    """The middle of a path: that of its middle curve."""
    at = 3 * ((len(edge.path) - 1) // 3 // 2)
    places = edge.path[at : at + 4]
    x, y = ((places[0][it] + 3 * places[1][it] + 3 * places[2][it] + places[3][it]) / 8 for it in (0, 1))
    return x, y


