"""diff: tells where two transcripts differ, the callback that wrote what differs, and how the lines of each entity differ. With
its document it tells also what the callback took: the publication, call or goal of an earlier round.

Rounds are matched by their moments: a round that one of the two has alone is one difference."""
from __future__ import annotations

import sys

from .. import TYPE_CHECKING, command, difference, fit, flow, grammar

if TYPE_CHECKING:
    import argparse
    from typing import List, Optional

STATUS = """The status is 0 if they are the same, 1 if they differ, and 2 if one can't be read or is cut off, or isn't a run of its
document. Of one document for both, at least one must be a run."""


def parser(prog: Optional[str] = None) -> command.Parser:
    made = command.parser(__doc__, STATUS, prog)
    made.add_argument("document", metavar="DOCUMENT", nargs="?", help="the document of both; - is standard input")
    made.add_argument("one", metavar="A", help="a transcript; - is standard input")
    made.add_argument("other", metavar="B", help="another")
    command.name_document(made, "the document of both; given twice, that of A and that of B")
    made.add_argument("--all", action="store_true", help=f"tell all differences, and not only the first {difference.TOLD}")
    return made


def run(asked: argparse.Namespace, out: command.Output) -> int:
    named = [*filter(None, [asked.document]), *asked.named]
    if len(named) > 2:
        raise command.Trouble("at most two documents")
    documents = [flow.read_document(name) for name in named]
    # Of one document two different transcripts can't both be the run, and one may be another executor's.
    is_shared = len(documents) == 1
    own = [fit.Own(name, document, not is_shared) for name, document in zip(named * 2, documents * 2)][:2]
    flows = list(map(flow.Flow, documents))
    found = difference.Difference((asked.one, asked.other), flows, sys.maxsize if asked.all else difference.TOLD)
    known: List[Optional[fit.Own]] = [*own, None, None]
    found.read(known[:2])
    if is_shared and not found.trouble and own[0].strayed and own[1].strayed:
        found.trouble = command.Trouble(*(command.place(side.name, it.strayed[0]) + it.stray() for side, it in zip(found.sides, own) if it.strayed))
    for line in found.lines(out.paint):
        out.line(line)
    for side, it in zip(found.sides, own):
        if is_shared and it.strayed:
            out.line(f"{side.name} isn't a run of {command.shown(it.name)}: its line {it.strayed[0]} doesn't follow")
    orders = list(map(grammar.order_of, documents))
    if found.differ and len(set(orders)) == 2:
        out.line("ready callbacks run " + ", ".join(f"by {order} in {command.shown(name)}" for order, name in zip(orders, named)))
    if found.trouble:
        out.keep()
        raise found.trouble
    return command.FOUND if found.differ else command.FINE
