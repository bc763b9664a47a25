"""explain: tells where documents are wrong, what stands there and what is wanted.

Where the program refuses a document, the first line begins 'FILE:LINE:COLUMN: refused CODE (Name): PATH'. Faults of greater
codes come after it, and then warnings: what no code refuses and nobody means. A document that the program runs is told
'not refused', with its warnings. docs/explain.md has more."""
from __future__ import annotations

import gc
import json
import sys

from .. import TYPE_CHECKING, command, cuts, faults, grammar, listing, report, sarif

if TYPE_CHECKING:
    import argparse
    from typing import Iterator, List, Optional

    from ..shapes import Document

STATUS = """The status is 0 if no document is refused, 1 if one is, and 2 if one can't be read. With --warnings-are-errors it is 1 for a
warning too."""


def parser(prog: Optional[str] = None) -> command.Parser:
    made = command.parser(__doc__, STATUS, prog)
    made.add_argument("documents", metavar="DOCUMENT", nargs="+", help="a document; - is standard input")
    form = made.add_mutually_exclusive_group()
    form.add_argument("--json", action="store_true", help="tell it as JSON for editors, one object for each document")
    form.add_argument("--sarif", action="store_true", help="tell it as SARIF for code scanning, one log for all documents")
    form.add_argument("--scripts", action="store_true", help="show each script of a document that isn't refused, with labels in place of skips")
    made.add_argument("--warnings-are-errors", action="store_true", help="let a document with a warning have the status 1, as a refused one has")
    made.add_argument("--all", action="store_true", help=f"tell every place, and not only the first {report.TOLD} of each code")
    return made


def given_by(name: str) -> bytes:
    """The bytes of a document, by its name."""
    with command.source(name) as stream:
        given = stream.read(grammar.MOST_BYTES + 1)
    if len(given) > grammar.MOST_BYTES:
        raise command.Trouble(f"{command.shown(name)}: more than {grammar.MOST_BYTES} bytes; the program reads no longer document")
    return given


def scripts(document: Document) -> Iterator[str]:
    """The lines of each script of a document, below the place and the name of what it is of."""
    for path in cuts.scripts(document):
        yield f"{faults.path_text(path)} of {cuts.part(document, path[:-1])['name']}:"
        instructions = cuts.part(document, path)
        yield from listing.lines_of(instructions) or map(json.dumps, instructions)


def run(asked: argparse.Namespace, out: command.Output) -> int:
    gc.disable()  # a document is read into no cycles, and looking for them takes a third of the time
    status, all_told = command.FINE, []
    wrong: List[str] = []
    for name in asked.documents:
        try:
            given = given_by(name)
            told = report.Report(given, sys.maxsize if asked.all else report.TOLD)
        except command.Trouble as trouble:
            wrong += trouble.lines
            continue
        if asked.sarif:
            all_told.append((name, told))
        elif asked.json:
            out.line(report.as_json(told, name))
        else:
            for line in report.lines(told, command.printable(name), out.paint):
                out.line(line)
        if asked.scripts and not told.code:
            for line in scripts(json.loads(given)):
                out.line(line)
        is_wrong = told.code or asked.warnings_are_errors and told.counts
        status = max(status, command.FOUND if is_wrong else command.FINE)
    if asked.sarif:
        out.line(sarif.text(all_told))
    if wrong:
        out.keep()
        raise command.Trouble(*wrong)
    return status
