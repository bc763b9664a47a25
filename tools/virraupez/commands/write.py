"""write: runs a Python program that writes a document, by `import virraupez`, the module with which documents are written without
counting. What the program writes goes to standard output once its document is there. One that the executor would refuse isn't
written: what is wrong is told at the program's lines, as explain tells it.

Words after the program's name are its own; those that begin with - come after a --. With --script, FILE is a script with labels,
and its instructions are written as a document has them. With --back, FILE is a document, and a program that writes it is written;
with both it is a list of instructions, and a script with labels is. docs/write.md has all of that."""
from __future__ import annotations

import gc
import json

from .. import TYPE_CHECKING, assembler, command, cuts, flow, grammar, listing, program, upgrades

if TYPE_CHECKING:
    import argparse
    from typing import Iterable, Optional

    from ..shapes import Document

STATUS = "The status is 0, 1 if the program or the script is wrong, and 2 if a file can't be read. A program that ends itself with another status has that."


def parser(prog: Optional[str] = None) -> command.Parser:
    made = command.parser(__doc__, STATUS, prog)
    made.add_argument("--script", action="store_true", help="assemble a script with labels")
    made.add_argument("--back", action="store_true", help="write a program of a document, or with --script a script of instructions")
    made.add_argument("file", metavar="FILE", help="a Python program, or a script; - is standard input")
    made.add_argument("words", metavar="WORD", nargs="*", help="words for the program, in its sys.argv")
    # So -o may stand between the words too.
    setattr(made, "parse_args", made.parse_intermixed_args)
    return made


def run(asked: argparse.Namespace, out: command.Output) -> int:
    try:
        if asked.back:
            out.write("".join(f"{line}\n" for line in way_back(asked)))
        elif asked.script:
            out.line(instructions(asked.file))
        else:
            gc.disable()  # a document is made of no cycles, and looking for them takes a third of the time
            return written(program.output(asked.file, asked.words), asked.output, out)
    except program.Stopped as stopped:
        command.note(*stopped.lines)
        return stopped.status
    return command.FINE


def written(text: str, to: str, out: command.Output) -> int:
    """Writes what a program wrote. If that is nothing, its documents went to streams of its own, and so to no file of -o."""
    if text:
        out.write(text)
        return command.FINE
    command.note("write: the program wrote to files of its own, and nothing to standard output")
    return command.FINE if to == command.STANDARD else command.FOUND


def way_back(asked: argparse.Namespace) -> Iterable[str]:
    """The lines of a program that writes a document, or of a script."""
    if asked.script:
        try:
            made = listing.lines_of(json.loads(command.text_of(asked.file)))
        except (ValueError, LookupError, TypeError):
            made = None
        if made is None:
            raise program.Stopped(command.FOUND, command.place(asked.file, 1) + "no list of instructions that a script with labels can say")
        return made
    document = flow.read_document(asked.file)
    tell_changes(asked.file, document)
    return listing.program_of(document)


def tell_changes(name: str, document: Document) -> None:
    """Says what the document will have in another way if it is written again."""
    rounds = [it["round"] for it in document.get("feed", [])]
    if rounds != sorted(rounds):
        command.note(f"write: {command.shown(name)}: the feed will be sorted by its rounds")
    if document["version"] == grammar.SINCE["order"] and "order" not in document:
        command.note(f"write: {command.shown(name)}: the order will be named: kind")
    if any(upgrades.kept(document, "document").get(field) != it for field, it in document.items()):
        command.note(f"write: {command.shown(name)}: fields that are ignored go; explain names them")
    if cuts.tidy(document) != document:
        command.note(f"write: {command.shown(name)}: empty lists go")


def instructions(file: str) -> str:
    """The instructions of a script, as a document has them."""
    text = command.text_of(file)
    made = assembler.Assembled(text)
    if made.faults:
        lines = text.split("\n")
        places = [command.place(file, it.line, max(lines[it.line - 1].find(it.part), 0) + 1) for it in made.faults]
        raise program.Stopped(command.FOUND, *(place + it.wrong for place, it in zip(places, made.faults)))
    return "[" + ",\n ".join(json.dumps(it, separators=(",", ":")) for it in made.instructions) + "]"
