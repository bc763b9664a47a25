"""picture: draws a run as SVG: a column a round, a row a callback group with its callbacks, lines from who sent an item to who
took it, and a bar a goal. With --graph it draws who talks to whom, of a document alone or with what a run did. docs/tools.md says
how to read them."""
from __future__ import annotations

import argparse
from typing import NamedTuple

from .. import TYPE_CHECKING, command, diagram, fit, flow, grammar, graph, picture, scene, series, transcript

if TYPE_CHECKING:
    from typing import Optional

STATUS = "The status is 0, and 2 if there is nothing to draw: a file is wrong, cut off or another run's, or hasn't these rounds."


def rounds_of(text: str) -> Rounds:
    """The first and the last round of A-B, A- or A."""
    first, between, last = text.partition("-")
    if not grammar.is_number(first) or last and not grammar.is_number(last) or int(first) < 1 or last and int(last) < int(first):
        raise argparse.ArgumentTypeError(f"rounds are A-B, A- or A, counted from 1, and not {text[:40]!r}")
    return Rounds(int(first), int(last) if last else int(first) + scene.ROUNDS - 1 if between else int(first), is_open=bool(between) and not last)


class Rounds(NamedTuple):
    """The first and the last round that are asked for. If they are open, there may be fewer."""

    first: int
    last: int
    is_open: bool

    def demand(self, count: int) -> None:
        """Demands that a run of so many rounds has them."""
        if self.first > count or self.last > count and not self.is_open:
            raise command.Trouble(f"there are no rounds {self.first} to {self.last}: the transcript has {count}")


def parser(prog: Optional[str] = None) -> command.Parser:
    made = command.parser(__doc__, STATUS, prog)
    made.add_argument("document", metavar="DOCUMENT", nargs="?", help="a document; - is standard input")
    made.add_argument("transcript", metavar="TRANSCRIPT", nargs="?", help="its transcript; - is standard input. --graph needs none")
    command.name_document(made)
    shown = f"the rounds to draw, as A-B, A- or A; the first {scene.ROUNDS} if none are given"
    made.add_argument("--rounds", metavar="A-B", type=rounds_of, default=Rounds(1, scene.ROUNDS, True), help=shown)
    made.add_argument("--plot", metavar="NAME,..", default="", help="plot values of topics, and queues, calls and goals of entities, below the rows")
    made.add_argument("--graph", action="store_true", help="draw nodes, topics, services and actions, and what goes from one to the other")
    return made


def run(asked: argparse.Namespace, out: command.Output) -> int:
    command.place_files(asked, "document", "transcript")
    document = flow.read_document(asked.document)
    if asked.graph:
        lines = transcript.lines(asked.transcript, fit.Own(asked.document, document)) if asked.transcript else None
        out.write(diagram.svg(graph.Graph(document, graph.Counts(lines))))
        return command.FINE
    if not asked.transcript:
        raise command.Trouble("a transcript is wanted after the document; --graph needs none")
    plotted = series.asked(asked.plot, document)
    shown = scene.Scene(document, asked.rounds.first, asked.rounds.last, plotted)
    shown.read(asked.transcript, fit.Own(asked.document, document))
    asked.rounds.demand(shown.rounds)
    if shown.rounds > asked.rounds.last and asked.rounds[:2] == (1, scene.ROUNDS):
        command.note(f"picture: the first {scene.ROUNDS} of {shown.rounds} rounds are drawn; --rounds draws others")
    out.write(picture.Picture(shown, shown.series.of(plotted) if shown.series else ()).svg())
    return command.FINE
