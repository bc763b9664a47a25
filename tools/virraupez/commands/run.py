"""run: runs a document and writes its transcript. The proved program does that, as ./exec_run finds it: it was built here, or is the
one of release/. If neither is that of the sources, it is proved and built first, which takes some 20 minutes. If the document is
refused, the places of its faults are told, as explain tells them.

The proved program is for Linux on x86-64. With --reference an executor in Python runs the document, on any machine. It is
written apart from the program, by docs/rules.md alone. Nothing of it is proved; tests compare both byte by byte.

With --definitions the definitions of which the theorem speaks are read from docs/HEADLINE.md, as the page prints them, and
computed. --trace shows what they say of one round, step by step, with the line of each on the page. --ask computes an expression,
in which `plan` is the document's plan."""
from __future__ import annotations

import io
import os

from .. import TYPE_CHECKING, command, grammar, runs

if TYPE_CHECKING:
    import argparse
    from typing import Iterator, Optional

STATUS = "The status is 0, 1 if the document is refused, and 2 if it can't be run."
CHUNK = 1 << 20
# A document of more bytes is run without a look at what explain would warn of, which takes longer.
WARNED = 1 << 18


def parser(prog: Optional[str] = None) -> command.Parser:
    made = command.parser(__doc__, STATUS, prog)
    made.add_argument("document", metavar="DOCUMENT", nargs="?", help="a document; - is standard input. --ask does without it")
    workers = "how many workers run the callbacks of a round at most, 1 to 64; 1 if it isn't given. The transcript is the same"
    made.add_argument("--workers", metavar="N", type=lambda text: command.number(text, 64), default=1, help=workers)
    quantum = "how many callbacks a worker runs at a time at most, 1 to 1024; 1 if it isn't given. The transcript is the same"
    made.add_argument("--quantum", metavar="N", type=lambda text: command.number(text, 1024), default=1, help=quantum)
    made.add_argument("--reference", action="store_true", help="run it by the executor in Python, of which nothing is proved")
    made.add_argument("--definitions", action="store_true", help="compute its transcript by the definitions of docs/HEADLINE.md")
    made.add_argument("--trace", metavar="ROUND", type=lambda text: command.number(text, 65536), help="show what the definitions say of this round, step by step")
    made.add_argument("--ask", metavar="EXPRESSION", help="compute an expression by the definitions, as 'length plan.moments'")
    return made


def run(asked: argparse.Namespace, out: command.Output) -> int:
    if asked.document is None:
        if asked.ask is None:
            raise command.Trouble("this word is required: DOCUMENT, or --ask EXPRESSION")
        by_definitions(asked, None, out)
        return command.FINE
    with command.source(asked.document) as stream:
        given = stream.read(grammar.MOST_BYTES + 1)
    if len(given) > grammar.MOST_BYTES:
        raise command.Trouble(f"{command.shown(asked.document)}: more than {grammar.MOST_BYTES} bytes; the program reads no longer document")
    if asked.definitions or asked.trace or asked.ask is not None:
        refused = by_definitions(asked, given, out)
    else:
        refused = by_reference(given, out) if asked.reference else by_program(asked, given, out)
    if not refused and len(given) <= WARNED:
        out.flush()
        command.note(*warning(asked.document, given))
    if refused:
        tell_faults(asked.document, given)
        if asked.output != command.STANDARD and os.path.isfile(asked.output):
            command.note(f"run: {command.shown(asked.output)} stays, and is no transcript of this document")
    return command.FOUND if refused else command.FINE


def warning(name: str, given: bytes) -> Iterator[str]:
    """One line if explain would warn of a document: how often, and of what first."""
    from .. import faults, report

    told = report.Report(given, 1)
    for entry in told.entries:
        yield f"{command.place(name, entry.line, entry.column)}{report.warned(told)}, the first of {report.shown(faults.path_text(entry.path))}: {report.shown(entry.wanted)}"


def tell_faults(name: str, given: bytes) -> None:
    """Tells the places of a document's faults on standard error."""
    from .. import report

    told = report.Report(given)
    if told.code:
        command.note(*report.lines(told, command.printable(name)))


# ---- the proved program


def by_program(asked: argparse.Namespace, given: bytes, out: command.Output) -> bool:
    """Runs a document by the proved program; True if it was refused."""
    program = runs.Executor().start(str(asked.workers), str(asked.quantum), env=runs.launching())
    try:
        assert program.stdin and isinstance(program.stdout, io.BufferedReader), "both are pipes"
        stdout = program.stdout
        runs.feed(program.stdin, given)
        for chunk in iter(lambda: stdout.read1(CHUNK), b""):
            out.write(chunk.decode("ascii"))
        status = program.wait()
    finally:
        # If nobody takes the transcript, the program ends without a word of its own.
        program.kill()
        program.wait()
    if status not in (0, runs.REFUSED):
        raise command.Trouble(f"the program ended with the status {status}: there is no transcript")
    return status == runs.REFUSED


# ---- the executor in Python


def by_reference(given: bytes, out: command.Output) -> bool:
    """Runs a document by cases/executor.py; True if it was refused."""
    try:
        text = runs.Reference().transcript(given)
    except runs.Refused as refused:
        command.note(f"refused {refused}")
        return True
    command.note("run: this is the transcript of the executor in Python, and not of the proved program")
    out.write(text)
    return False


# ---- the definitions


def by_definitions(asked: argparse.Namespace, given: Optional[bytes], out: command.Output) -> bool:
    """Answers what is asked of the definitions; True if the document was refused."""
    from ..definitions import program

    try:
        out.write(program.answer(given, asked.trace, asked.ask))
    except program.Refused as refused:
        command.note(f"refused {refused}")
        return True
    if not asked.trace and asked.ask is None:
        command.note("run: this is what the definitions of docs/HEADLINE.md give, computed in Python, and not the proved program's transcript")
    return False
