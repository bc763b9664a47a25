"""view: writes a page that shows a run in a browser, one HTML file that needs no network: callback groups in rows, rounds in columns,
goals as bars, messages as lines, and the lines of a round next to them. One can search, zoom, and go from round to round by keys.

A second transcript is shown below the first, and their first difference is marked. docs/tools.md says what the keys do."""
from __future__ import annotations

from .. import TYPE_CHECKING, checker, command, fit, flow, grammar, rulebook, series, ticks, transcript, view
from . import picture

if TYPE_CHECKING:
    import argparse
    from typing import Optional

    from ..fit import Own

STATUS = "The status is 0, and 2 if a file is wrong, cut off or another run's, or hasn't these rounds."
# Beyond this many lines a browser takes more than some seconds to open the page.
MANY = 2000000


def parser(prog: Optional[str] = None) -> command.Parser:
    made = command.parser(__doc__, STATUS, prog)
    made.add_argument("document", metavar="DOCUMENT", nargs="?", help="a document; - is standard input")
    made.add_argument("transcript", metavar="TRANSCRIPT", nargs="?", help="its transcript; - is standard input")
    made.add_argument("other", metavar="OTHER", nargs="?", help="a second transcript, which is compared with the first")
    command.name_document(made, "the document, in place of the first file; given twice or after three files, the last is that of OTHER")
    made.add_argument("--tick", metavar="TIME", type=ticks.nanoseconds, help="how long a tick is, as 20ms: moments are shown as times")
    made.add_argument("--plot", metavar="NAME,..", help="topics and entities whose plots are open; some topics if none are given")
    made.add_argument("--rules", metavar="RULES", help="a file of rules, as holds has them: the page opens at the first line that breaks one")
    made.add_argument("--rounds", metavar="A-B", type=picture.rounds_of, default=picture.Rounds(1, grammar.MOMENTS, True), help="the rounds to show, as A-B, A- or A; all if none are given")
    return made


def text_of(name: str, own: Own) -> str:
    """The text of a transcript, checked."""
    return "".join(transcript.blocks(name, own))


def run(asked: argparse.Namespace, out: command.Output) -> int:
    second = asked.named.pop() if asked.named and (asked.other or asked.named[1:]) else None
    command.place_files(asked, "document", "transcript", "other", least=2)
    document = flow.read_document(asked.document)
    own = fit.Own(asked.document, document)
    check = checker.Check(rulebook.read(command.text_of(asked.rules), asked.rules, own.kinds)) if asked.rules else None
    plotted = None if asked.plot is None else series.asked(asked.plot, document)
    runs = [view.Run(asked.transcript, text_of(asked.transcript, own), document, asked.rounds.first, asked.rounds.last, check)]
    if asked.other:
        other = flow.read_document(second) if second else document
        # Another executor's run of the same document may be compared with the document's own.
        own = fit.Own(second or asked.document, other, is_strict=bool(second))
        runs.append(view.Run(asked.other, text_of(asked.other, own), other, asked.rounds.first, asked.rounds.last, check))
        if own.strayed:
            command.note(f"view: {asked.other} isn't a run of {command.shown(own.name)}: its line {own.strayed[0]} doesn't follow")
    elif second:
        raise command.Trouble("--document is the document of a second transcript, and there is none")
    asked.rounds.demand(max(it.scene.rounds for it in runs))
    lines = sum(it.rest.count("\n") for run in runs for it in run.rounds)
    if lines > MANY:
        command.note(f"view: {lines} lines take a browser long to open; --rounds A-B shows a part of them")
    out.write(view.page(runs, " and ".join(command.shown(it.name) for it in runs), asked.tick, len(check.rules) if check else None, plotted))
    return command.FINE
