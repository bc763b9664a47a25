"""The check of a transcript by rules, line by line."""
from __future__ import annotations

import collections
import re

from . import TYPE_CHECKING, pattern, transcript
from .event import Silence

if TYPE_CHECKING:
    from typing import Dict, List, Mapping, Sequence, Tuple

    from .pattern import Pattern
    from .rules import Rule
    from .shapes import About, By, Now

ROUND = "\nround "
# How many lines are known at most.
KNOWN = 10000
# Of more words than these the lines of a first word are all looked at: a regular expression tries one word after the other.
WORDS = 32
# The lines by which a rule knows whose callback runs.
OF_CALLBACKS = ("round", "run", "pending", "end")


class Check:
    """Rules beside a transcript that is read by blocks of lines. Only lines that a pattern of a rule may match are looked at."""

    of_any: Dict[str, List[Rule]]
    of_name: Dict[str, Dict[str, List[Rule]]]
    known: Dict[Tuple[str, By], List[Tuple[Rule, About]]]
    owners: Mapping[str, str]
    now: Now
    by: By
    number: int

    def __init__(self, rules: List[Rule]) -> None:
        self.rules = rules
        # The rules that lines of a first word may concern: of any name, and of each name that some pattern has.
        self.of_any = {word: [] for word in transcript.WORDS}
        self.of_name = {word: {} for word in transcript.WORDS}
        self.list_by_begins()
        # What lines of a callback say to rules: the runs of a search have many lines that are the same.
        self.known = {}
        self.timed = [rule for rule in rules if isinstance(rule.events[0], Silence)]
        # Whose callback writes a line must be known if a rule asks.
        asking = [of for of in self.patterns() if of.by]
        self.is_by, self.owners = bool(asking), getattr(asking[0].declared, "owners", {}) if asking else {}
        self.concerned = re.compile(f"\n{pattern.grouped(self.expressions()) if rules else '(?!)'}(?!\\S).*").finditer
        self.begin()

    def patterns(self) -> List[Pattern]:
        return [of for rule in self.rules for it in rule.events for of in it.patterns]

    def list_by_begins(self) -> None:
        """Lists the rules by the first two words of the lines that may concern them."""
        for rule in self.rules:
            begins = set().union(*(it.begins() for it in rule.events))
            for first in {first for first, _ in begins}:
                names = {name for of, name in begins if of == first}
                if "_" in names or first in ("round", "end"):
                    self.of_any[first].append(rule)
                else:
                    for name in names:
                        self.of_name[first].setdefault(name, []).append(rule)
        for first, named in self.of_name.items():
            for name, found in named.items():
                named[name] = sorted(found + self.of_any[first], key=self.rules.index) if self.of_any[first] else found

    def expressions(self) -> List[str]:
        """The regular expressions of the lines that are looked at."""
        found = collections.defaultdict(set)
        for of in self.patterns():
            for first in of.firsts():
                found[first].add(of.expression(first))
        found.update((word, {word}) for word in (OF_CALLBACKS if self.is_by else ("round",) if self.timed else ()))
        texts = ((word, pattern.grouped(it)) for word, it in found.items())
        return [text if text.count("|") < WORDS else word for word, text in texts]

    def begin(self) -> None:
        """Forgets all lines, so that another transcript may be taken."""
        self.now, self.by, self.number = (0, 0), (), 0
        for rule in self.rules:
            rule.begin()

    def block(self, block: str) -> None:
        """Takes a block of whole lines."""
        text, number, at = "\n" + block, self.number, 0
        for found in self.concerned(text):
            begin = found.start() + 1
            number += text.count("\n", at, begin)
            # The round's own line may be the one that was found.
            self.passed(text, at, begin + len(ROUND))
            self.line(number, found.group()[1:])
            at = begin
        self.passed(text, at, len(text))
        self.number += block.count("\n")

    def passed(self, text: str, begin: int, end: int) -> None:
        """Passes over a part of a text: the last round in it is now."""
        at = text.rfind(ROUND, begin, end)
        if at >= 0:
            _, number, moment = text[at + 1 : text.index("\n", at + 1)].split(" ")
            self.now = int(number), int(moment)

    def line(self, number: int, line: str) -> None:
        if self.timed and line.startswith(ROUND[1:]):
            for rule in self.timed:
                if rule.failure is None:
                    rule.round(number, line, self.now)
        if self.is_by:
            self.by = self.whose(line.split(" ", 2))
        found = self.known.get((line, self.by))
        for rule, about in self.read(line) if found is None else found:
            if rule.failure is None:
                rule.line(number, line, about, self.now)

    def whose(self, words: Sequence[str]) -> By:
        """The names of the entity whose callback a line is of, and of its node; none of a line outside of callbacks."""
        if words[0] not in OF_CALLBACKS:
            return self.by
        return (words[1], self.owners.get(words[1])) if words[0] == "run" else ()

    def read(self, line: str) -> List[Tuple[Rule, About]]:
        """Reads a line: the rules that it concerns, with what it says to them."""
        words = line.split(" ")
        if len(self.known) >= KNOWN:
            self.known.clear()
        asked = self.of_name[words[0]].get(words[1], self.of_any[words[0]])
        found = [(rule, about) for rule in asked for about in [rule.about(words, self.by)] if about is not None]
        self.known[line, self.by] = found
        return found

    def end(self) -> None:
        for rule in self.rules:
            if rule.failure is None:
                rule.end(self.number, self.now)
