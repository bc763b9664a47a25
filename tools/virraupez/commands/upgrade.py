"""upgrade: brings documents to version 2. An upgrade says the same plan as its document and has the same transcript. It names the order
of ready callbacks, and leaves out fields that are ignored, each of which is told. One that is misspelt is among them, so a document
with such fields is upgraded only with --drop-unknown. The proved program writes the upgrade, as ./exec_upgrade finds it. If a document
is refused, the places of its faults are told, as explain tells them, and the others are upgraded.

It is written in the text of its document, whose lines, spaces and order of fields stay, so that both can be compared line by line.
With -i each document is replaced by its upgrade, by a new file of the same name and mode. docs/tools.md has more."""
from __future__ import annotations

import json
import sys

from .. import TYPE_CHECKING, command, difference, grammar, json_text, refusals, replacement, report, runs, upgrades
from . import explain

if TYPE_CHECKING:
    import argparse
    from typing import List, Optional

STATUS = """The status is 0, 1 if a document is refused or fields of it would go, and 2 if one can't be read or replaced, or no program
runs."""


def parser(prog: Optional[str] = None) -> command.Parser:
    made = command.parser(__doc__, STATUS, prog)
    made.add_argument("documents", metavar="DOCUMENT", nargs="+", help="a document; - is standard input")
    made.add_argument("-i", "--in-place", action="store_true", help="replace each document by its upgrade, and write nothing to standard output")
    made.add_argument("--compact", action="store_true", help="write each upgrade in one line, as the program does: no spaces, the fields sorted by their names")
    made.add_argument("--drop-unknown", action="store_true", help="let the fields go that are ignored")
    made.add_argument("--reference", action="store_true", help="upgrade by a reader in Python, of which nothing is proved")
    return made


def run(asked: argparse.Namespace, out: command.Output) -> int:
    if asked.in_place and asked.output != command.STANDARD:
        raise command.Trouble("-i replaces the documents themselves: there is nothing for -o")
    if asked.in_place and command.STANDARD in asked.documents:
        raise command.Trouble("-i replaces files, and - is standard input")
    text_of = by_reference if asked.reference else runs.Upgrader().text
    status = command.FINE
    wrong: List[str] = []
    for name in asked.documents:
        try:
            given = explain.given_by(name)
            made = text_of(given)
            if tell_lost(name, given, asked) and not asked.drop_unknown:
                status = command.FOUND
                continue
            text = shown(given, made, asked.compact)
            if asked.in_place and text != given.decode():
                replace(name, text)
        except runs.Refused as refused:
            tell_refusal(name, given, refused)
            status = command.FOUND
        except command.Trouble as trouble:
            wrong += trouble.lines
        else:
            out.write("" if asked.in_place else text if text.endswith("\n") else f"{text}\n")
    if asked.reference:
        command.note("upgrade: this is made by the reader in Python, and not by the proved program")
    if wrong:
        out.keep()
        raise command.Trouble(*wrong)
    return status


def by_reference(given: bytes) -> str:
    """The text of an upgrade, by the tools' own reader."""
    code = refusals.code(given)
    if code:
        raise runs.Refused(str(code))
    return upgrades.text_of(given)


def shown(given: bytes, text: str, is_compact: bool) -> str:
    """An upgrade in one line, or in the text of its document."""
    return f"{text}\n" if is_compact else upgrades.edited(given.decode(), json.loads(text))


def tell_lost(name: str, given: bytes, asked: argparse.Namespace) -> int:
    """Tells each field that an upgrade leaves out, with its place, and gives how many there are."""
    lost = report.Report(given, sys.maxsize, report.ignored)
    for entry in lost.entries:
        head, *more = report.entry_lines(entry, 0, f"{command.printable(name)}:", report.unpainted)
        command.note(head.replace(" warning: ", " goes: ", 1), *more)
    count = len(lost.entries)
    if asked.compact and grammar.SCHEMA in json_text.read(given.decode()):
        command.note(f"{command.shown(name)}: goes: {grammar.SCHEMA}, which --compact leaves out")
        count += 1
    if count and not asked.drop_unknown:
        command.note(f"upgrade: {command.shown(name)} isn't upgraded: --drop-unknown lets {difference.numbered(count, 'field')} go")
    return count


def tell_refusal(name: str, given: bytes, refused: runs.Refused) -> None:
    """Tells the places of a document's faults on standard error, or the code alone if there is no place, as for want of memory."""
    told = report.Report(given)
    command.note(*(report.lines(told, command.printable(name)) if told.code else [f"{command.shown(name)}: refused {refused}"]))


def replace(name: str, text: str) -> None:
    """Gives a document's name to a new file with its upgrade. A symbolic link stays, and leads to the new file."""
    if not replacement.is_plain(name):
        raise command.Trouble(f"{command.shown(name)}: no plain file, which alone can be replaced")
    with command.Output(name, is_read=True) as out:
        out.write(text)
