"""holds: checks transcripts by rules, for a CI. RULES is a file with a rule a line, as

  never drop base_cmd message _
  every state navigate ID EXECUTING then state navigate ID SUCCEEDED|CANCELED|ABORTED within 20 rounds
  at end no pending

Of each rule that doesn't hold the first line that breaks it is told, with its round. docs/holds.md has all rules."""
from __future__ import annotations

from .. import TYPE_CHECKING, checker, command, fit, judge, junit, report, rulebook, rules, transcript, view

if TYPE_CHECKING:
    import argparse
    from typing import Iterator, List, Optional

    from ..fit import Own
    from ..rules import Finding, Rule
    from ..shapes import Paint

STATUS = """The last line is 'N hold, M fail, K undecided'. The status is 0 if all hold, 1 if one fails or is undecided, and 2 if the rules or
a transcript are wrong."""


def parser(prog: Optional[str] = None) -> command.Parser:
    made = command.parser(__doc__, STATUS, prog)
    made.add_argument("files", metavar="TRANSCRIPT", nargs="+", help="transcripts, behind the file of rules unless --rules names it; - is standard input")
    made.add_argument("--rules", metavar="RULES", help="the file of rules")
    made.add_argument("--rule", metavar="LINE", type=command.number, help="the line of the rule, if only one is asked for; the others may be of another document")
    made.add_argument("--document", metavar="DOCUMENT", help="the document of the transcripts, by whose names the rules are checked")
    made.add_argument("--view", metavar="PAGE", help="the page that view wrote of the transcript: links lead to the lines that decide rules")
    made.add_argument("--accept-undecided", action="store_true", help="let undecided rules pass: the status is 1 only if one fails")
    junit.option(made)
    return made


def run(asked: argparse.Namespace, out: command.Output) -> int:
    file, *names = [asked.rules, *asked.files] if asked.rules else asked.files
    if not names:
        raise command.Trouble("no transcript is named: the rules come before the transcripts")
    if asked.view and len(names) > 1:
        raise command.Trouble("--view is the page of one transcript")
    text, own = command.text_of(file), fit.read(asked.document) if asked.document else None
    status, suites = command.FINE, []
    wrong: List[str] = []
    for name in names:
        check = checker.Check(rulebook.read(text, file, own.kinds if own else None, asked.rule))
        try:
            for block in transcript.blocks(name, own):
                check.block(block)
        except command.Trouble as trouble:
            wrong += trouble.lines
            continue
        check.end()
        suites.append((name, [case(asked, file, name, rule, own) for rule in check.rules]))
        for line in told(file, name, check, own, out.paint):
            out.line(line)
        for line in view.links(asked.view, check.rules) if asked.view else ():
            out.line(line)
        status = max(status, verdict(out, check, f"{name}: " if len(names) > 1 else "", asked.accept_undecided))
    junit.write(asked, suites)
    if wrong:
        out.keep()
        raise command.Trouble(*wrong)
    return status


def case(asked: argparse.Namespace, file: str, name: str, rule: Rule, own: Optional[Own]) -> junit.Case:
    """The case of a rule. One that is about nothing passes, and one that is undecided may."""
    outcome = rule.outcome(own)
    passes = outcome in (rules.HOLDS, rules.NOTHING) or outcome == rules.UNDECIDED and asked.accept_undecided
    return junit.of_rule(rule, file, outcome, [] if passes else told_of(file, name, rule, own))


COLOURS = {rules.FAILS: "fault", rules.UNDECIDED: "warning", rules.NOTHING: "hint"}


def told(file: str, name: str, check: checker.Check, own: Optional[Own], paint: Paint) -> Iterator[str]:
    """What is told of each rule that doesn't hold, or holds of nothing."""
    for rule in check.rules:
        yield from told_of(file, name, rule, own, paint)


def told_of(file: str, name: str, rule: Rule, own: Optional[Own], paint: Paint = report.unpainted) -> List[str]:
    """The lines that say why a rule doesn't hold, or holds of nothing."""
    outcome = rule.outcome(own)
    if outcome == rules.HOLDS:
        return []
    head = f"{paint('place', command.place(file, rule.number, rule.column))}{paint(COLOURS[outcome], outcome)}: {rule.text}"
    return [head, reason(rule, name, own)]


def reason(rule: Rule, name: str, own: Optional[Own]) -> str:
    """The line that decides a rule, or what there isn't."""
    it = rule.failure or rule.open_end
    if it:
        return line_of(name, it)
    return f"  {name if rule.unmet() or own is None else command.shown(own.name)}: {judge.lacking(rule)}"


def line_of(name: str, it: Finding) -> str:
    says = f" ({it.says})" if it.says else ""
    return f"  {command.place(name, it.number)}in round {it.round} at moment {it.moment}: {it.line}{says}"


def verdict(out: command.Output, check: checker.Check, head: str, accepts: bool) -> int:
    """Tells how many rules hold, and gives the status."""
    fail, undecided = (sum(bool(getattr(rule, it)) for rule in check.rules) for it in ("failure", "open_end"))
    says = f"{len(check.rules) - fail - undecided} hold, {fail} fail, {undecided} undecided"
    out.line(head + (out.paint("fault", says) if fail else out.paint("warning", says) if undecided else out.paint("fine", says)))
    return command.FOUND if fail or undecided and not accepts else command.FINE
