"""Runs of documents that are held to rules, many of them: which rules each one breaks, and by which line."""
from __future__ import annotations

import json

from . import TYPE_CHECKING, checker, command, event, pattern, rulebook, rules, runs

if TYPE_CHECKING:
    from typing import List, Optional, Sequence

    from .event import Event
    from .fit import Kinds
    from .rules import Finding, Of, Rule
    from .shapes import About, Document, Now, Runner


class Same(rules.Rule):
    """The lines of an event are those of another run, in their order. Lines have no moments, so that they may come at others."""

    lines: Optional[List[str]]
    taken: List[str]

    def __init__(self, of: Event) -> None:
        super().__init__(of)
        # Those of the other run, once they are known, and those of this one.
        self.lines = None

    def begin(self) -> None:
        super().begin()
        self.taken = []

    def line(self, number: int, line: str, about: About, now: Now) -> None:
        if self.lines is not None and self.lines[len(self.taken) : len(self.taken) + 1] != [line]:
            self.fail(number, line, now, f"the document's own run has {self.wanted()}")
        self.taken.append(line)

    def wanted(self) -> str:
        lines = self.lines or []
        return lines[len(self.taken)] if len(self.taken) < len(lines) else "no more of these lines"

    def end(self, number: int, now: Now) -> None:
        if self.lines is not None and len(self.taken) < len(self.lines):
            self.fail(number, "the end", now, f"the document's own run has {self.wanted()}")

    def unmet(self) -> Optional[Of]:
        return None if self.lines or self.taken else self.events[0]


def event_of(text: str, declared: Optional[Kinds]) -> Event:
    """The event of a text that is no rule, but only lines."""
    of = event.read(pattern.tokens(text), 1, declared)
    rulebook.demand_variables([of], [])
    return of


def robust(text: str, number: int, declared: Optional[Kinds]) -> Same:
    """The rule that the lines of a pattern stay the same, whatever varies."""
    try:
        rule = Same(event_of(text, declared))
    except pattern.Wrong as wrong:
        raise command.Trouble(f"--robust {text!r}, at its character {wrong.column}: {wrong}") from None
    rule.number = 0
    rule.place, rule.text, rule.label = f"--robust {number}: ", f"robust {text}", f"robust_{number}"
    return rule


def read(name: Optional[str], text: str, patterns: Sequence[str], declared: Optional[Kinds], only: Optional[int] = None) -> List[Rule]:
    """The rules of a text, whose file has a name, or that of one line, and those of the patterns of --robust. Each has a place and a
    label."""
    found = rulebook.read(text, name, declared, only) if name else []
    for rule in found:
        rule.place, rule.label = command.place(name, rule.number, rule.column), f"rule_{rule.number}"
    return found + [robust(it, number, declared) for number, it in enumerate(patterns, 1)]


def executor(by_reference: bool) -> Runner:
    if by_reference:
        return runs.Reference()
    return runs.Server()


class Judge:
    """Runs documents, and holds each run to rules."""

    def __init__(self, program: Runner, found: List[Rule]) -> None:
        self.program, self.rules, self.check = program, found, checker.Check(found)

    def run(self, document: Document) -> str:
        """Runs a document; the rules know then what they say of it. Gives its transcript."""
        text = self.program.transcript(json.dumps(document).encode())
        self.check.begin()
        self.check.block(text)
        self.check.end()
        return text

    def keep(self) -> None:
        """Keeps the lines of the last run that must stay the same."""
        for rule in self.rules:
            if isinstance(rule, Same):
                rule.lines = rule.taken


def lacking(rule: Rule) -> str:
    """What there isn't, so that a rule holds of nothing."""
    unmet = rule.unmet()
    return f"no line is {' '.join(unmet.words)}" if unmet else f"no script writes a line {' '.join(rule.events[0].words[:2])}"


def said(finding: Finding) -> str:
    """The line that decides a rule, with its place in the run."""
    says = f" ({finding.says})" if finding.says else ""
    return f"line {finding.number}, in round {finding.round} at moment {finding.moment}: {finding.line}{says}"
