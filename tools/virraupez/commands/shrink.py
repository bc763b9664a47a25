"""shrink: writes the smallest document that still breaks a rule. It leaves out entries of the feed, rounds, nodes, entities,
instructions and fields, and makes numbers smaller, as long as the rule breaks in the same way. Each step is a document that is
accepted.

The rule is the first of the file that the document breaks, or that of --rule. If an answer comes too late, it comes too late in
the smallest document too. With --unless, another timing of the smallest document still keeps the rule. docs/search.md has more."""
from __future__ import annotations

import json
import re

from .. import TYPE_CHECKING, ancestry, command, document_text, fit, flow, judge, pattern, rules, runs, shrinking
from . import search

if TYPE_CHECKING:
    import argparse
    from typing import List, Optional

    from ..fit import Kinds
    from ..shapes import Document, Runner

STATUS = """The status is 0, and 2 if the document breaks no rule or something is wrong. It is 130 after Ctrl-C, and what is smallest so far is
written."""

# How many kinds of lines are named that the run no longer has.
GONE = 6


def parser(prog: Optional[str] = None) -> command.Parser:
    made = command.parser(__doc__, STATUS, prog)
    made.add_argument("document", metavar="DOCUMENT", nargs="?", help="a document that breaks a rule; - is standard input")
    command.name_document(made)
    made.add_argument("--rules", metavar="RULES", required=True, help="a file of rules, as holds has them")
    made.add_argument("--rule", metavar="LINE", type=command.number, help="the line of the rule, if the document breaks several")
    made.add_argument("--unless", metavar="DOCUMENT", help="a document with another timing that keeps the rule: it is cut in the same way, and must keep it")
    made.add_argument("--keep", metavar="PATTERN", action="append", default=[], help="a line that the run must keep, as 'state navigate _ CANCELED'")
    made.add_argument("--reference", action="store_true", help="run by the executor in Python, of which nothing is proved")
    return made


def run(asked: argparse.Namespace, out: command.Output) -> int:
    command.place_files(asked, "document")
    document, program = flow.read_document(asked.document), judge.executor(asked.reference)
    declared = fit.Own(asked.document, document).kinds
    rule = broken(asked, document, judge.Judge(program, judge.read(asked.rules, command.text_of(asked.rules), [], declared, asked.rule)))
    way = shrinking.Way(rule, [kept(it, declared) for it in asked.keep])
    good = other_timing(asked, document, judge.Judge(program, [rule])) if asked.unless else None
    shrinker = shrinking.Shrinker(program, document, way, good)
    if shrinker.wanted is None:
        raise command.Trouble("the run has no line of --keep")
    command.PROGRESS.says = lambda: f"{shrinker.runs} runs, {', '.join(changed(document, shrinker.document)) or 'nothing is smaller yet'}"
    status = command.FINE
    try:
        shrinker.shrink()
    except KeyboardInterrupt:
        status = search.INTERRUPTED
    out.write(document_text.layout(shrinker.document) + "\n")
    out.flush()
    tell(rule, shrinker, document, list(gone(program, document, shrinker.document)))
    return status


def broken(asked: argparse.Namespace, document: Document, judging: judge.Judge) -> rules.Rule:
    """The rule that the document breaks."""
    try:
        judging.run(document)
    except runs.Refused as refused:
        raise command.Trouble(f"{command.shown(asked.document)}: refused {refused}") from None
    found = [rule for rule in judging.rules if rule.failure]
    if not found:
        which = f"doesn't break the rule of line {asked.rule}" if asked.rule else "breaks no rule"
        raise command.Trouble(f"{command.shown(asked.document)} {which}: there is nothing to shrink")
    return found[0]


def other_timing(asked: argparse.Namespace, document: Document, judging: judge.Judge) -> Document:
    """The document of --unless, which keeps the rule."""
    good = flow.read_document(asked.unless)
    if not shrinking.differ_in_timing(document, good):
        raise command.Trouble(f"{command.shown(asked.unless)}: its nodes or its order are others: --unless is the same robot with another timing")
    judging.run(good)
    if judging.rules[0].failure:
        raise command.Trouble(f"{command.shown(asked.unless)} breaks the rule too: {judge.said(judging.rules[0].failure)}")
    if judging.rules[0].open_end:
        raise command.Trouble(f"{command.shown(asked.unless)} leaves the rule undecided: {judge.said(judging.rules[0].open_end)}")
    return good


def kept(text: str, declared: Kinds) -> rules.Rule:
    """The rule that a line stays."""
    try:
        rule = rules.Count(judge.event_of(text, declared), 1, None)
    except pattern.Wrong as wrong:
        raise command.Trouble(f"--keep {text!r}, at its character {wrong.column}: {wrong}") from None
    return rule


def gone(program: Runner, before: Document, after: Document) -> List[str]:
    """The first words of the lines that the run no longer has, drops first."""
    one, other = (ancestry.names(program.transcript(json.dumps(it).encode())) for it in (before, after))
    return sorted((name for name in one if name not in other), key=lambda name: not name.startswith("drop "))


def tell(rule: rules.Rule, shrinker: shrinking.Shrinker, document: Document, lost: List[str]) -> None:
    """Tells on standard error what became smaller, how the document breaks its rule now, and what its run no longer has."""
    sizes = [len(document_text.layout(it)) + 1 for it in (document, shrinker.document)]
    parts = changed(document, shrinker.document)
    command.note(
        f"{rule.place}breaks: {rule.text}",
        f"  {shrinker.found}",
        f"shrink: {sizes[0]} bytes became {sizes[1]}, in {shrinker.runs} runs" + f": {', '.join(parts)}" * bool(parts),
    )
    if lost:
        more = f" and {len(lost) - GONE} more" if len(lost) > GONE else ""
        command.note(f"shrink: the run no longer has {', '.join(lost[:GONE])}{more}; --keep keeps a line")


def changed(before: Document, after: Document) -> List[str]:
    """What became less, of each kind of part."""
    one, other = shrinking.sizes(before), shrinking.sizes(after)
    return [f"{count} {name if count != 1 else re.sub('s$', '', name.replace('ies', 'y'))} became {other[name]}" for name, count in one.items() if other[name] != count]
