"""The report of a search: which rules break in how many runs, the least change that breaks each, and where it breaks."""
from __future__ import annotations

import fractions

from . import TYPE_CHECKING, judge, junit, report, rules, searching
from .difference import numbered

if TYPE_CHECKING:
    from typing import Container, Dict, Iterator, Sequence, Tuple

    from .rules import Rule
    from .searching import Found, Search, Tally
    from .shapes import Paint

    Silent = Sequence[Tuple[int, str]]

# How many changes of a run are reported, how many choices of a rule, and how many ranges of a choice.
CHANGES, CHOICES, RANGES = 8, 4, 12
# A choice that less than a fifth of these runs have changed is hardly a cause.
SELDOM = 5


def lines(tally: Tally, paint: Paint, end: str = "", accepted: Container[str] = ()) -> Iterator[str]:
    """The table of a search. The end says why not all was run, if so. Accepted is what a rule may be in all runs."""
    for at, rule in enumerate(tally.search.rules):
        yield from broken(tally, at, rule, paint)
    if tally.first is None or tally.search.is_all:
        yield from remarks(tally, paint)
    silent = list(tally.silent(accepted))
    yield paint("fine" if tally.first is None and not silent and not end else "fault", summary(tally, silent, end))


def broken(tally: Tally, at: int, rule: Rule, paint: Paint) -> Iterator[str]:
    """What is reported of a rule that a run broke."""
    if tally.own and at in dict(tally.own.breaks):
        yield head(rule, paint, "breaks without a change")
        yield f"  {dict(tally.own.breaks)[at]}"
    if at in tally.found and tally.found[at].least.number:
        yield from of_rule(tally, at, paint)


def cases(tally: Tally, accepted: Container[str]) -> Iterator[junit.Case]:
    """The case of each rule for JUnit: one that a run broke, or of which the runs say nothing, doesn't pass."""
    silent = dict(tally.silent(accepted))
    for at, rule in enumerate(tally.search.rules):
        lines = list(broken(tally, at, rule, report.unpainted))
        outcome = rules.FAILS if lines else silent.get(at, rules.HOLDS)
        lines += [f"{rule.place}{outcome}: {rule.text}"] * (at in silent and not lines)
        yield junit.of_rule(rule, tally.search.plan["rules"] or "", outcome, lines)


def head(rule: Rule, paint: Paint, says: str, colour: str = "fault") -> str:
    return f"{paint('place', rule.place)}{paint(colour, says)}: {rule.text}"


def of_rule(tally: Tally, at: int, paint: Paint) -> Iterator[str]:
    """The report of a rule that a variation broke."""
    search, found = tally.search, tally.found[at]
    count = f"breaks in {found.count} of {numbered(tally.runs, 'run')}" if tally.is_counted else f"breaks in {numbered(found.count, 'run')}"
    count = count if search.is_all else "breaks"
    yield head(search.rules[at], paint, count)
    if found.least.taken:
        changes = search.space.changes(found.least.taken)
        which = "least change, run" if search.is_all else "change, run"
        if found.of and found.of > len(changes):
            which = f"{len(changes)} of the {found.of} changes of run"
        yield f"  {which} {found.least.number}: {changes[0]}"
        yield from (f"    and {change}" for change in changes[1:CHANGES])
        if len(changes) > CHANGES:
            yield f"    and {len(changes) - CHANGES} changes more"
        yield f"  {found.says}"
    if search.is_all:
        yield from where(tally, found)


def where(tally: Tally, found: Found) -> Iterator[str]:
    """The options with which a rule breaks, of the choices that are likely causes."""
    often = likely(tally, found) if tally.is_counted else {}
    choices = sorted(often, key=lambda it: (-often[it], it))
    for at in choices[:CHOICES]:
        choice = tally.search.space.choices[at]
        parts = choice.ranges(found.options[at])
        more = f" and {len(parts) - RANGES} ranges more" if len(parts) > RANGES else ""
        yield f"  in {found.counts[at]} of these: {choice.name} {', '.join(parts[:RANGES])}{more}"
    if len(choices) > CHOICES:
        yield f"  and {len(choices) - CHOICES} choices more"


def likely(tally: Tally, found: Found) -> Dict[int, fractions.Fraction]:
    """The choices that runs which break a rule have changed more often than all runs have, with how many times as often; and those
    that every run changes, if not all of their options break the rule."""
    choices = tally.search.space.choices
    often = {at: fractions.Fraction(count * tally.runs, found.count * tally.changed[at]) for at, count in found.counts.items()}
    for at in list(often):
        is_some = choices[at].own is None and len(found.options[at]) < len(choices[at].options)
        if not is_some and (often[at] <= 1 or SELDOM * found.counts[at] < found.count):
            del often[at]
    return often


def remarks(tally: Tally, paint: Paint) -> Iterator[str]:
    """Rules that were about nothing in all runs, and those that the end of a run left open."""
    for at, rule in enumerate(tally.search.rules):
        if tally.runs and tally.unmet[at] == tally.runs:
            rule.begin()
            yield head(rule, paint, f"{rules.NOTHING} in {numbered(tally.runs, 'run')}", "hint")
            yield f"  {judge.lacking(rule)}"
        if tally.undecided[at]:
            yield head(rule, paint, f"undecided in {tally.undecided[at]} of {numbered(tally.runs, 'run')}", "warning")


def summary(tally: Tally, silent: Silent, end: str) -> str:
    made = tally.search
    kind = "all there are" if made.is_whole else f"drawn with the seed {made.plan['seed']}"
    runs = f"{numbered(tally.runs, 'run')}, {kind}" if tally.runs == made.runs else f"{tally.runs} of {numbered(made.runs, 'run')}"
    if not tally.is_counted:
        runs = f"some of {numbered(made.runs, 'run')}"
    if tally.first is not None and not made.is_all:
        which = f"run {tally.first} of {made.runs}" if tally.first else "the document's own run"
        return f"{which} breaks a rule; --all counts all{end}"
    broken = f"{tally.broken} {'breaks' if tally.broken == 1 else 'break'} a rule" if tally.broken else "no rule breaks"
    return f"{runs}: {broken}{open_ends(made, silent)}{end}"


def open_ends(made: Search, silent: Silent) -> str:
    """What the last line says of rules of which the runs say nothing."""
    told = ""
    for why in (searching.UNDECIDED, searching.NOTHING):
        names = [made.rules[at].place.rstrip(": ") for at, it in silent if it == why]
        if names:
            more = f" and {len(names) - CHOICES} more" if len(names) > CHOICES else ""
            told += f"; {why}: {', '.join(names[:CHOICES])}{more}"
    return told


