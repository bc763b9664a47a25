"""The text of rules (docs/holds.md): a rule a line, read beside the forms of transcript lines and the names of a document.

A rule that holds of every transcript, whatever happens in it, is a fault of the rules."""
from __future__ import annotations

import collections
import itertools
import re

from . import TYPE_CHECKING, command, event, pattern, rules, transcript
from .event import ROUNDS, UNITS, Condition, Silence
from .pattern import Wrong

if TYPE_CHECKING:
    from typing import Counter, Iterable, List, Optional, OrderedDict, Sequence, Tuple

    from .event import Event
    from .fit import Kinds
    from .pattern import Pattern, Token
    from .rules import Rule
    from .shapes import Found

    # A place in a pattern.
    Spot = Tuple[Pattern, int]

# The rules' forms, as a person writes them.
FORMS = (
    "never P [before Q | after Q [until R]]",
    "never no P for N rounds|ticks",
    "some P",
    "every P then [next|one] Q [later than N rounds|ticks] [within N rounds|ticks]",
    "every no P for N rounds|ticks then Q [within N rounds|ticks]",
    "every P only if before Q [within N rounds|ticks]",
    "count P is|at least|at most N",
    "count P at most N in M rounds|ticks",
    "at most N at once P until Q",
    "at end no pending [P]",
)


# ---- what a rule must not be


def demand_variables(events: Sequence[Event], conditions: Sequence[Condition]) -> None:
    """Refuses variables that are used once, as one that is misspelt, and those that can't be the same word."""
    uses: Counter[str] = collections.Counter()
    places: OrderedDict[str, List[Tuple[int, Spot]]] = collections.OrderedDict()
    for number, it in enumerate(events):
        uses.update(it.uses())
        for of in it.patterns:
            for at, word in of.variables:
                places.setdefault(word, []).append((number, (of, at)))
    uses.update(name for it in conditions for name in it.variables())
    for name, found in places.items():
        if uses[name] == 1:
            _, (of, at) = found[0]
            raise Wrong(of.words[at].column, f"{name} is a variable that is used once: `_` is any word{hint_of(of, at, name, places)}")
        for (number, one), (other_number, other) in itertools.combinations(found, 2):
            if (number != other_number or one[0] is other[0]) and not can_meet(one, other):
                says = f"no word is {says_of(*one)} and {says_of(*other)}, and {name} would be both"
                raise Wrong(other[0].words[other[1]].column, says)


def hint_of(of: Pattern, at: int, name: str, places: Iterable[str]) -> str:
    """What a variable that is used once may be meant for: the name of one of a few, another variable, or the name itself."""
    words = [words_of(form) for form in of.forms_at(at)]
    if all(words):
        return pattern.meant(name, transcript.WORDS if at == 0 else [it for few in words for it in few])
    near = pattern.meant(name, [it for it in places if it != name])
    return near or (f"; ={name} is the word itself" if any(isinstance(form, transcript.Name) for form in of.forms_at(at)) else "")


def words_of(form: transcript.Form) -> List[str]:
    """The words of a form, if they are few: a kind, or the names of numbers."""
    return [form.word] if isinstance(form, transcript.Kind) else list(form.names) if isinstance(form, transcript.Number) else []


def can_meet(one: Spot, other: Spot) -> bool:
    """Whether a word may stand at both of two places, each of a pattern."""
    if one[1] == 0 or other[1] == 0:
        return one[1] == other[1] and bool(one[0].firsts() & other[0].firsts())
    return any(form.meets(it) for form in one[0].forms_at(one[1]) for it in other[0].forms_at(other[1]))


def says_of(of: Pattern, at: int) -> str:
    return "the first word of a line" if at == 0 else of.forms_at(at)[0].says


def rank(first: str) -> int:
    """Where a line stands: those of rounds before the calls that are pending, and these before the end."""
    return {"pending": 1, "end": 2}.get(first, 0)


def demand_order(one: Event, two: Event, fails_after: bool, column: int) -> None:
    """Refuses `never P after Q` if no line of P stands after one of Q, and `before` if none stands before."""
    of, other = one.firsts(), two.firsts()
    if fails_after:
        is_kept = max(map(rank, of)) < min(map(rank, other)) or other == {"end"} or one.is_first_round()
    else:
        is_kept = "end" not in of and two.has_first_round() and not two.variables
    if is_kept:
        how = "after" if fails_after else "before"
        says = f"no line `{one.words[0]}` comes {how} a line `{two.words[0]}`"
        raise Wrong(column, f"this holds whatever happens: {says}{'' if fails_after else ', with which a run begins'}")


def demand_end(of: Event, column: int) -> None:
    """Refuses a rule that is kept by the line `end`, which every transcript has."""
    if of.is_every("end"):
        raise Wrong(column, "this holds whatever happens: every transcript ends with one line `end`")


# ---- reading


class Reader:
    """Reads a rule, beside the names that a document declares."""

    conditions: List[Condition]

    def __init__(self, words: List[Token], declared: Optional[Kinds] = None) -> None:
        self.declared, self.behind = declared, words[-1].column + len(words[-1])
        self.conditions = []
        if "where" in words:
            at = pattern.place_of("where", words)
            self.conditions = [Condition(it) for it in parted(words[at + 1 :], "and", self.behind)]
            words = words[:at]
        self.words = words

    def rule(self) -> Rule:
        """The rule by its words."""
        head, rest = self.words[0], self.words[1:]
        made = self.of_head(head, rest)
        events = [it.event if isinstance(it, Silence) else it for it in made.events]
        for it in self.conditions:
            it.demand(events)
        demand_variables(events, self.conditions)
        made.condition = All(self.conditions) if self.conditions else None
        return made

    def of_head(self, head: Token, rest: List[Token]) -> Rule:
        if head == "never":
            return self.never(rest)
        if head == "some":
            of = self.event(rest)
            demand_end(of, head.column)
            return rules.Count(of, 1, None)
        if head == "every":
            return self.every(head, rest)
        if head == "count":
            return self.count(head, rest)
        if self.words[:3] == ["at", "end", "no"]:
            return self.at_end(self.words[3:])
        if self.words[:2] == ["at", "most"]:
            return self.at_once(head, self.words[2:])
        raise Wrong(head.column, "no rule; there are: " + "; ".join(FORMS))

    def event(self, words: List[Token], column: Optional[int] = None) -> Event:
        return event.read(words, column or self.behind, self.declared)

    def never(self, rest: List[Token]) -> Rule:
        if rest[:1] == ["no"]:
            return rules.NeverSilent(self.silence(rest))
        for word in ("before", "after"):
            if word in rest:
                at = pattern.place_of(word, rest)
                other, *until = parted(rest[at + 1 :], "until", self.behind)
                events = [self.event(rest[:at], rest[at].column), self.event(other), *map(self.event, until)]
                if len(until) > 1 or until and word == "before":
                    raise Wrong(rest[at].column, "`until` stands once, behind `after`")
                demand_order(events[0], events[1], word == "after", rest[at].column)
                return rules.Order(word == "after", *events)
        return rules.Never(self.event(rest))

    def silence(self, words: List[Token]) -> Silence:
        """The time without a line: `no P for N ticks`."""
        if "for" not in words:
            raise Wrong(words[0].column, "`no` takes a time: no P for N rounds|ticks")
        at = pattern.place_of("for", words)
        length, unit = self.length(words[at], words[at + 1 :])
        return Silence(self.event(words[1:at], words[at].column), length, unit)

    def at_end(self, rest: List[Token]) -> Rule:
        of = self.event(rest)
        if of.firsts() != {"pending"}:
            raise Wrong(rest[0].column, "only lines `pending` stand at the end; `never` is of all lines")
        return rules.Never(of)

    def at_once(self, head: Token, rest: List[Token]) -> Rule:
        if len(rest) < 3 or not pattern.DECIMAL.fullmatch(rest[0]) or int(rest[0]) < 0 or rest[1:3] != ["at", "once"] or "until" not in rest:
            raise Wrong(head.column, "at most N at once P until Q: N is a number, from P on a line is open, and Q ends it")
        first, second = (self.event(it) for it in parted(rest[3:], "until", self.behind))
        return rules.AtOnce(int(rest[0]), first, second)

    def every(self, head: Token, rest: List[Token]) -> Rule:
        if "then" not in rest and "only" not in rest:
            raise Wrong(head.column, "every needs a then: " + FORMS[3])
        at = next(place for place, it in enumerate(rest) if it in ("then", "only"))
        first, second = rest[:at], rest[at + 1 :]
        within, unit, second = self.limit("within", second)
        if rest[at] == "only":
            if second[:2] != ["if", "before"]:
                raise Wrong(rest[at].column, FORMS[5])
            return rules.OnlyIf(within, unit, self.event(first, rest[at].column), self.event(second[2:]))
        later, later_unit, second = self.limit("later", second)
        within, unit, second = (within, unit, second) if within is not None else self.limit("within", second)
        how = second.pop(0) if second[:1] in (["next"], ["one"]) else ""
        one: rules.Of = self.silence(first) if first[:1] == ["no"] else self.event(first, rest[at].column)
        other = self.event(second)
        demand_end(other, rest[at].column)
        return rules.Then(how, within, unit, one, other, later=None if later is None else (later, later_unit))

    def limit(self, word: str, words: List[Token]) -> Tuple[Optional[int], int, List[Token]]:
        """How long a rule waits, and in what, if a word says so; and the words before that."""
        if word not in words:
            return None, ROUNDS, words
        at = pattern.place_of(word, words)
        begin = at + 1 + (words[at + 1 : at + 2] == ["than"])
        number, unit = self.length(words[at], words[begin : begin + 2] if word == "later" else words[begin:])
        self.behind = words[at].column
        return number, unit, words[:at] + words[begin + 2 :]

    def length(self, word: Token, rest: List[Token]) -> Tuple[int, int]:
        """A number of rounds or ticks."""
        if len(rest) != 2 or not pattern.DECIMAL.fullmatch(rest[0]) or int(rest[0]) < 0 or rest[1] not in UNITS:
            raise Wrong(word.column, f"{word} takes a number of rounds or of ticks, at the end of the rule")
        return int(rest[0]), UNITS[rest[1]]

    def count(self, head: Token, rest: List[Token]) -> Rule:
        text, of, window, unit = " ".join(rest), len(rest), None, ROUNDS
        if rest[-3:-2] == ["in"]:
            (window, unit), of = self.length(rest[-3], rest[-2:]), of - 3
            text = " ".join(rest[:-3])
        found = re.search("(?:^| )(is|at least|at most) (0|[1-9][0-9]{0,17})$", text)
        if not found or window is not None and found[1] != "at most":
            raise Wrong(head.column, "a count ends with is N, at least N or at most N, and N is a number; at most N in M ticks is of each M ticks")
        of -= len(found[0].split())
        count, how = int(found[2]), found[1]
        made = self.event(rest[:of], rest[of].column)
        if how == "at least" and count == 0:
            raise Wrong(rest[of].column, "this holds whatever happens: there are never fewer than 0 lines")
        if how != "at most" and count == 1 or how == "at most" and count:
            demand_end(made, head.column)
        return rules.Count(made, 0 if how == "at most" else count, None if how == "at least" else count, window, unit)


class All:
    """Several conditions, of which each must hold."""

    def __init__(self, conditions: List[Condition]) -> None:
        self.conditions = conditions

    def holds(self, found: Found) -> bool:
        return all(it.holds(found) for it in self.conditions)


def parted(words: List[Token], between: str, column: int) -> List[List[Token]]:
    """The parts of some words between those that are a given one."""
    parts = [list(group) for is_between, group in itertools.groupby(words, lambda it: it == between) if not is_between]
    if not parts or words[0] == between or words[-1] == between:
        raise Wrong(column, "a pattern is missing" if between != "and" else "a condition is missing: where V <= 5")
    return parts


def read(text: str, name: str = "the rules", declared: Optional[Kinds] = None, only: Optional[int] = None) -> List[Rule]:
    """The rules of a text: a rule a line; # begins a remark. All faults are told at once. Only may be the number of a line: the others
    aren't read then, and may be of another document."""
    lines = text.split("\n")
    if transcript.is_line(lines[0]) and lines[0].startswith(("round ", "end ")):
        raise command.Trouble(f"{command.shown(name)}: this is a transcript, and no file of rules: the rules come before the transcripts")
    found, wrong = [], []
    for number, line in enumerate(lines, 1):
        words = pattern.tokens(line)
        if not words or only not in (None, number):
            continue
        try:
            rule = Reader(words, declared).rule()
            rule.number, rule.column, rule.text = number, words[0].column, " ".join(words)
            found.append(rule)
        except Wrong as fault:
            wrong.append(f"{command.place(name, number, fault.column)}{fault}")
    if wrong:
        raise command.Trouble(*wrong)
    if not found and only is not None:
        raise command.Trouble(f"{command.shown(name)} has no rule in line {only}")
    if not found:
        raise command.Trouble(f"{command.shown(name)}: no rule in it, so that nothing would be checked")
    return found


