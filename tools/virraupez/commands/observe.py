"""observe: reads what an executor of ROS 2 did, to compare it with a run: which callbacks it ran in which round, as

  ./virraupez observe trace --name '/scan=scan' --document robot.json -o seen.json
  ./virraupez run seen.json -o seen.txt
  ./virraupez observe trace --name '/scan=scan' --transcript seen.txt -o observed.txt
  ./virraupez diff seen.txt observed.txt

TRACE is a folder of ros2_tracing, which needs Python's module bt2, or a table with the columns time, kind and name. Without --document
and --transcript the rounds and their callbacks are written. docs/observe.md has more."""
from __future__ import annotations

import argparse

from .. import TYPE_CHECKING, command, document_text, flow, grammar, observation, ticks

if TYPE_CHECKING:
    from typing import Any, Optional

STATUS = "The status is 0, and 2 if the trace or another file can't be read, or an entity isn't named."


class Named(argparse.Action):
    """Adds the name of an entity."""

    def __call__(self, parser: argparse.ArgumentParser, asked: argparse.Namespace, value: Any, option: Optional[str] = None) -> None:
        what, _, name = value.rpartition("=")
        if not what or not grammar.NAME.fullmatch(name):
            parser.error(f"argument {option}: WHAT=ENTITY is wanted, and not {value[:60]!r}")
        asked.names = {**asked.names, what: name}


def parser(prog: Optional[str] = None) -> command.Parser:
    given = command.parser(__doc__, STATUS, prog)
    given.add_argument("trace", metavar="TRACE", help="the folder of a trace, or a table as CSV; - is standard input")
    given.add_argument("--name", metavar="WHAT=ENTITY", dest="names", action=Named, default={}, help="which entity of the document a topic, a service or the function of a timer is")
    given.add_argument("--tick", metavar="TIME", type=ticks.nanoseconds, default=1000000, help="how long a tick is, as 20ms; 1ms if it isn't given")
    given.add_argument("--begin", metavar="MOMENT", type=ticks.moment, default=0, help="the moment of the first round; 0 if it isn't given")
    given.add_argument("--thread", metavar="ID", type=int, help="the thread whose callbacks are read, if several run some")
    what = given.add_mutually_exclusive_group()
    what.add_argument("--document", metavar="DOCUMENT", help="write this document with the moments that were observed")
    what.add_argument("--transcript", metavar="TRANSCRIPT", help="write this transcript with its callbacks where they were observed, for diff")
    return given


def run(asked: argparse.Namespace, out: command.Output) -> int:
    found = observation.rounds(observation.read(asked.trace, asked.thread), asked.names, asked.tick, asked.begin)
    if not found:
        raise command.Trouble(f"{command.shown(asked.trace)}: no callback was run")
    if asked.document:
        document = {**flow.read_document(asked.document), "moments": [it.moment for it in found]}
        out.write(document_text.layout(document) + "\n")
        return command.FINE
    for line in observation.Like(asked.transcript).lines(found) if asked.transcript else observation.lines(found):
        out.line(line)
    return command.FINE
