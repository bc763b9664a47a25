"""check: runs documents and says of each whether it is as it should be: by rules, by its golden transcript, and by a search, as

  ./virraupez check nav.json --rules nav.rules --golden nav.txt --search '--jitter battery ±2 --runs 500'

It runs the documents themselves, so no verdict is of an old run. A rule that isn't decided, and one that is about nothing in all
documents, doesn't pass. With --update golden transcripts are renewed, and what changed is shown. docs/check.md has more."""
from __future__ import annotations

import os
import pathlib
import shlex

from .. import TYPE_CHECKING, checker, command, fit, flow, judge, junit, report, rulebook, rules, runs, verdict
from . import explain, holds, search

if TYPE_CHECKING:
    import argparse
    from typing import List, Optional

    from ..shapes import Document, Runner

STATUS = """There is one verdict a document, in a line: 'DOCUMENT: passes: ..' or 'DOCUMENT: fails: ..'. The status is 0 if all pass, 1 if
one fails, and 2 if a file is wrong or can't be read, or a document can't be run."""


def parser(prog: Optional[str] = None) -> command.Parser:
    made = command.parser(__doc__, STATUS, prog)
    made.add_argument("documents", metavar="DOCUMENT", nargs="*", default=[], help="a document; - is standard input")
    command.name_document(made, "a document, before the others")
    made.add_argument("--rules", metavar="RULES", help="a file of rules, as holds has them")
    made.add_argument("--golden", metavar="TRANSCRIPT", help="the transcript that the run must have, or a folder that has NAME.txt for each NAME.json")
    made.add_argument("--update", action="store_true", help="renew golden transcripts that differ, and show what changed")
    made.add_argument("--search", metavar="WORDS", help="search each document too, with these words of search, as '--jitter battery ±2'")
    made.add_argument("--accept-undecided", dest="accepted", action="append_const", const=rules.UNDECIDED, default=[], help="let undecided rules pass")
    made.add_argument("--accept-nothing", dest="accepted", action="append_const", const=rules.NOTHING, help="let rules pass that are about nothing in all documents")
    junit.option(made)
    made.add_argument("--reference", action="store_true", help="run by the executor in Python, of which nothing is proved")
    return made


def run(asked: argparse.Namespace, out: command.Output) -> int:
    command.join_documents(asked)
    demand_words(asked)
    text = command.text_of(asked.rules) if asked.rules else ""
    program, wrong, verdicts = judge.executor(asked.reference), [], []
    for name in asked.documents:
        made = verdict.Verdict(name, asked.accepted)
        try:
            judged(asked, name, program, text, made)
        except command.Trouble as trouble:
            # What is wrong with rules beside one of several documents doesn't name it.
            beside = f" (beside {command.shown(name)})" if asked.rules and len(asked.documents) > 1 else ""
            wrong += [line + beside * line.startswith(f"{asked.rules}:") for line in trouble.lines]
            continue
        verdicts.append(made)
    verdict.compare(verdicts)
    for made in verdicts:
        for line in (line for case in made.cases for line in case.lines):
            out.line(line)
        out.line(out.paint("fine" if made.passes else "fault", made.line()))
    junit.write(asked, [(made.name, [as_case(made, it) for it in made.cases]) for made in verdicts])
    if wrong:
        out.keep()
        raise command.Trouble(*wrong)
    return command.FINE if all(it.passes for it in verdicts) else command.FOUND


def as_case(made: verdict.Verdict, case: verdict.Case) -> junit.Case:
    name = case.name if case.of == verdict.RULE else f"{case.of}: {case.name}"
    return junit.Case(name, "", 0, case.outcome, [] if made.is_fine(case) else case.lines or [case.outcome])


def demand_words(asked: argparse.Namespace) -> None:
    if not asked.rules and not asked.golden:
        raise command.Trouble("nothing to check: --rules gives a file of rules, and --golden the transcript that the run must have")
    if asked.update and not asked.golden:
        raise command.Trouble("--update renews golden transcripts, and --golden names none")
    if asked.golden and len(asked.documents) > 1 and not os.path.isdir(asked.golden):
        raise command.Trouble(f"--golden {asked.golden}: of several documents it is a folder, which has NAME.txt for each NAME.json")
    if asked.search is not None and (not asked.rules or command.STANDARD in (*asked.documents, asked.rules)):
        raise command.Trouble("--search needs --rules, and files that can be read again")


# ---- cases


def judged(asked: argparse.Namespace, name: str, program: Runner, text: str, made: verdict.Verdict) -> None:
    """Adds the cases of a document to its verdict."""
    given = explain.given_by(name)
    told = report.Report(given)
    if told.code:
        made.add(verdict.RUN, f"refused {report.named(told.code)}", rules.FAILS, list(report.lines(told, command.printable(name))))
        return
    document = flow.parsed(given)
    own = fit.Own(name, document)
    check = checker.Check(rulebook.read(text, asked.rules, own.kinds) if asked.rules else [])
    ran = transcript_of(name, program, given)
    check.block(ran)
    check.end()
    for rule in check.rules:
        outcome = rule.outcome(own)
        made.add(verdict.RULE, rule.text, outcome, holds.told_of(asked.rules, f"run of {command.shown(name)}", rule, own))
    if asked.golden:
        add_golden(asked, name, document, ran, made)
    if asked.search is not None:
        add_search(asked, name, made)


def transcript_of(name: str, program: Runner, given: bytes) -> str:
    try:
        return program.transcript(given)
    except runs.Refused as refused:
        raise command.Trouble(f"{command.shown(name)}: refused {refused}") from None


def add_golden(asked: argparse.Namespace, name: str, document: Document, ran: str, made: verdict.Verdict) -> None:
    """Compares a run with its golden transcript, which is renewed if that is asked for."""
    golden = asked.golden
    if os.path.isdir(golden):
        golden = os.path.join(golden, pathlib.Path("standard_input" if name == command.STANDARD else name).stem + ".txt")
    if asked.update and not os.path.exists(golden):
        lines = [f"{golden}: new"]
    else:
        lines = verdict.differences(document, name, golden, ran)
    if lines and asked.update:
        with command.Output(golden, is_read=True) as to:
            to.write(ran)
    outcome = verdict.PASSES if not lines else verdict.RENEWED if asked.update else rules.FAILS
    made.add(verdict.GOLDEN, golden, outcome, lines)


class Lines:
    """The lines that a command writes, kept."""

    lines: List[str]

    def __init__(self) -> None:
        self.lines = []

    def line(self, text: str = "") -> None:
        self.lines.append(text)

    def flush(self) -> None:
        """All is kept."""

    keep = flush

    def paint(self, _colour: str, text: str) -> str:
        return text


def add_search(asked: argparse.Namespace, name: str, made: verdict.Verdict) -> None:
    """Searches a document with the words that are given."""
    accepted = [f"--accept-{'undecided' if it == rules.UNDECIDED else 'nothing'}" for it in asked.accepted]
    words = [name, "--rules", asked.rules, *accepted, *["--reference"] * asked.reference, *shlex.split(asked.search)]
    found = Lines()
    status = search.run(search.parser("virraupez check --search").parse_args(words), found)
    *lines, last = found.lines
    made.add(verdict.SEARCH, f"search: {last}", verdict.PASSES if status == command.FINE else rules.FAILS, lines)
