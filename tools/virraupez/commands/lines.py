"""lines: writes each line of a transcript with its round and its moment, for grep. With --json each line is an object with its fields,
for jq and pandas, as

  ./virraupez lines run.txt --json | jq 'select(.word == "pub" and .value > 20)'

With its document an object has the node and the callback group too, and each callback the line that sent what it took. docs/tools.md
has the fields."""
from __future__ import annotations

import json

from .. import TYPE_CHECKING, command, fields, fit, flow, transcript

if TYPE_CHECKING:
    import argparse
    from typing import Optional

STATUS = "The status is 0, and 2 if the transcript can't be read, is cut off, or isn't one of the document."


def parser(prog: Optional[str] = None) -> command.Parser:
    made = command.parser(__doc__, STATUS, prog)
    made.add_argument("document", metavar="DOCUMENT", nargs="?", help="the document of the transcript; - is standard input")
    made.add_argument("transcript", metavar="TRANSCRIPT", help="a transcript; - is standard input")
    command.name_document(made)
    made.add_argument("--json", action="store_true", help="write an object for each line")
    return made


def run(asked: argparse.Namespace, out: command.Output) -> int:
    command.place_files(asked, "document", least=0)
    document = flow.read_document(asked.document) if asked.document else None
    own = fit.Own(asked.document, document) if document else None
    if asked.json:
        encode = json.JSONEncoder(separators=(",", ":")).encode
        for made in fields.objects(asked.transcript, own, document):
            out.line(encode(made))
        return command.FINE
    moment = number = "0"
    for line in transcript.lines(asked.transcript, own):
        if line.startswith("round "):
            _, number, moment = line.split(" ")
        out.line(f"{number}\t{moment}\t{line}")
    return command.FINE
