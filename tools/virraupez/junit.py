"""JUnit XML of what came of rules, runs and searches, as CI systems read it: a suite for each document or transcript, and a case for
each rule and each other check, also for those that pass."""
from __future__ import annotations

import re
from typing import NamedTuple
from xml.sax import saxutils

from . import TYPE_CHECKING, command

if TYPE_CHECKING:
    import argparse
    from typing import List, Sequence, Tuple

    from .rules import Rule

    # The name of a document or a transcript, with its cases.
    Suite = Tuple[str, List["Case"]]

# What XML 1.0 has no way to write.
NO_SIGN = re.compile("[^\t\n\r\x20-\ud7ff\ue000-\ufffd\U00010000-\U0010ffff]")


class Case(NamedTuple):
    """A check: its name, the file and the line where it is written, what became of it, and the lines that say why it doesn't pass."""

    name: str
    file: str
    line: int
    outcome: str
    lines: List[str]


def option(made: command.Parser) -> None:
    made.add_argument("--junit", metavar="FILE", help="write JUnit XML to FILE too, with a case for each rule, also for those that hold")


def of_rule(rule: Rule, file: str, outcome: str, lines: List[str]) -> Case:
    """The case of a rule. One that no file has is numbered 0."""
    return Case(rule.text, file if rule.number else "", rule.number, outcome, lines)


def write(asked: argparse.Namespace, suites: List[Suite]) -> None:
    """Writes suites, each a name with its cases, to the file that is asked for, if one is."""
    if asked.junit:
        with command.Output(asked.junit) as out:
            out.write(text(suites))


def text(suites: List[Suite]) -> str:
    cases = [case for _, of in suites for case in of]
    parts = [f'<testsuites name="virraupez" {numbers(cases)}>']
    for name, of in suites:
        parts += [f"<testsuite name={attribute(command.shown(name))} {numbers(of)}>", *map(element, of), "</testsuite>"]
    return "\n".join(['<?xml version="1.0" encoding="UTF-8"?>', *parts, "</testsuites>", ""])


def numbers(cases: Sequence[Case]) -> str:
    return f'tests="{len(cases)}" failures="{sum(bool(it.lines) for it in cases)}" errors="0"'


def element(case: Case) -> str:
    """A case; one that passes has no lines."""
    place = f" file={attribute(case.file)}" if case.file else ""
    place += f' line="{case.line}"' if case.line else ""
    head = f'<testcase classname="virraupez" name={attribute(case.name)}{place}'
    if not case.lines:
        return f"{head}/>"
    why = saxutils.escape(clean("\n".join(case.lines)))
    return f"{head}><failure type={attribute(case.outcome)} message={attribute(case.lines[0])}>{why}</failure></testcase>"


def clean(text: str) -> str:
    return NO_SIGN.sub("\ufffd", text)


def attribute(text: str) -> str:
    return saxutils.quoteattr(clean(text))


