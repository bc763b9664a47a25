"""trace: writes a run as trace events, which Perfetto and Chrome read. A node is a process, a callback group a thread, a callback a
slice. Arrows lead from who sent an item to who took it, the states of goals are spans, and topics are counters.

Callbacks take no time in a run; those of a round share the tick that begins at its moment, in their order. docs/tools.md has more."""
from __future__ import annotations

import json

from .. import TYPE_CHECKING, command, fit, flow, foxglove, ticks, trace, transcript

if TYPE_CHECKING:
    import argparse
    from typing import Optional

STATUS = "The status is 0, and 2 if the transcript can't be read, is cut off, or isn't one of the document."


def parser(prog: Optional[str] = None) -> command.Parser:
    made = command.parser(__doc__, STATUS, prog)
    made.add_argument("document", metavar="DOCUMENT", nargs="?", help="a document; - is standard input")
    made.add_argument("transcript", metavar="TRANSCRIPT", nargs="?", help="its transcript; - is standard input")
    command.name_document(made)
    made.add_argument("--tick", metavar="TIME", type=ticks.nanoseconds, default=1000000, help="how long a tick is, as 20ms; 1ms if it isn't given")
    made.add_argument("--foxglove", action="store_true", help="write MCAP with messages in JSON, which Foxglove reads")
    return made


def run(asked: argparse.Namespace, out: command.Output) -> int:
    command.place_files(asked, "document", "transcript", least=2)
    document = flow.read_document(asked.document)
    if asked.foxglove:
        for part in foxglove.Recording(document, asked.tick).parts(transcript.lines(asked.transcript, fit.Own(asked.document, document))):
            out.write_bytes(part)
        return command.FINE
    made, between = trace.Trace(document, asked.tick / 1000), '{"displayTimeUnit":"ms","traceEvents":[\n'
    encode = json.JSONEncoder(separators=(",", ":")).encode
    for event in made.events(transcript.lines(asked.transcript, fit.Own(asked.document, document))):
        out.write(between + encode(event))
        between = ",\n"
    out.write("\n]}\n")
    return command.FINE
