"""A search for the variations of a document whose runs break a rule: which runs there are, and what came of them."""
from __future__ import annotations

import collections
from typing import NamedTuple

from . import TYPE_CHECKING, command, crew, fit, judge, rules, runs, space

if TYPE_CHECKING:
    from typing import Callable, Container, Counter, DefaultDict, Dict, Iterable, Iterator, List, Optional, Sequence, Set, Tuple

    from .judge import Judge
    from .shapes import Fields
    from .space import Variation

# How many runs a process is given at a time.
CHUNK = 16
# How many runs look for the fewest changes that break a rule.
REDUCING = 60

COUNTED = ("unmet", "undecided", "changed")
# Why runs say nothing of a rule.
UNDECIDED, NOTHING = "undecided in all of them", "of nothing in all of them"


class Broken(NamedTuple):
    """A run that broke rules: its number, what varies in it, and the places of the rules with the lines that decide them."""

    number: int
    taken: Variation
    breaks: List[Tuple[int, str]]


class Part(NamedTuple):
    """What came of some runs: how many there were, in how many a rule was of nothing or undecided, in how many a choice had another
    option than the document, and those that broke a rule."""

    runs: int
    unmet: Counter[int]
    undecided: Counter[int]
    changed: Counter[int]
    breaks: Sequence[Broken]


class Search:
    """A search, as its plan says it. A plan is made of texts, numbers and lists, as JSON has them."""

    def __init__(self, plan: Fields) -> None:
        self.plan, self.document, self.is_all = plan, plan["document"], plan["all"]
        self.space = space.Space(self.document, plan["vary"])
        self.own_names = fit.Own(plan["name"], self.document)
        self.rules = judge.read(plan["rules"], plan["text"], plan["robust"], self.own_names.kinds, plan["rule"])
        self.is_whole = self.space.size <= plan["runs"]
        self.runs = self.space.size if self.is_whole else plan["runs"]

    def taken(self, number: int) -> Variation:
        """What varies in a run, by its number from 1 on. The run 0 is the document's own."""
        if not number:
            return []
        return self.space.numbered(number - 1) if self.is_whole else self.space.drawn(self.plan["seed"], number)

    def own(self, judging: Judge) -> None:
        """Runs the document without a change: a judge knows then which lines must stay the same."""
        self.run(judging, 0, [])
        judging.keep()

    def run(self, judging: Judge, number: int, taken: Variation) -> str:
        """Runs a variation, and gives its transcript."""
        try:
            return judging.run(self.space.value(taken) if taken else self.document)
        except runs.Refused as refused:
            changes = "; ".join(self.space.changes(taken)) or "without a change"
            raise command.Trouble(f"run {number} is refused with {refused}: {changes}") from None

    def part(self, judging: Judge, numbers: Iterable[int]) -> Part:
        """Runs some variations, and gives what came of them. Unless all are asked for it ends with the first that breaks a rule."""
        unmet: Counter[int] = collections.Counter()
        undecided: Counter[int] = collections.Counter()
        changed: Counter[int] = collections.Counter()
        breaks, count = [], 0
        for number in numbers:
            taken = self.taken(number)
            self.run(judging, number, taken)
            count += 1
            outcomes = [rule.outcome(self.own_names) for rule in self.rules]
            unmet.update(at for at, it in enumerate(outcomes) if it == rules.NOTHING)
            undecided.update(at for at, it in enumerate(outcomes) if it == rules.UNDECIDED)
            changed.update(at for at, _ in taken)
            found = [(at, judge.said(rule.failure)) for at, rule in enumerate(self.rules) if rule.failure]
            if found:
                breaks.append(Broken(number, taken, found))
                if not self.is_all:
                    break
        return Part(count, unmet, undecided, changed, breaks)

    def parts(self, judging: Judge, shard: int, of: int, processes: int) -> Iterator[Part]:
        """What comes of the runs of a shard, chunk by chunk in their order, after that of the document's own run."""
        self.own(judging)
        first = self.part(judging, [0])._replace(runs=0, unmet=collections.Counter(), undecided=collections.Counter())
        yield first
        if first.breaks and not self.is_all:
            return
        numbers = range(shard, self.runs + 1, of)
        begins = range(0, len(numbers), CHUNK)
        chunks = (numbers[at : at + CHUNK] for at in begins)
        # More processes than there are chunks would have nothing to do.
        for part in crew.outcomes(lambda: lambda chunk: self.part(judging, chunk), chunks, min(processes, len(begins)) or 1):
            yield part
            if part.breaks and not self.is_all:
                return


def reduce(tally: Tally, judging: Judge) -> None:
    """Finds for each rule that the first run broke as few of its changes as break it too. It takes a few dozen runs."""
    made, left = tally.search, iter(range(REDUCING))
    for at, found in sorted(tally.found.items()):
        number, taken = found.least.number, found.least.taken

        def still(some: Variation) -> bool:
            if next(left, None) is None:
                return False
            try:
                made.run(judging, number, some)
            except command.Trouble:
                return False
            failure = made.rules[at].failure
            if failure:
                found.least, found.says = Broken(number, some, found.least.breaks), judge.said(failure)
            return bool(failure)

        fewest(taken, made.space.always, still)
        found.of = len(taken)


def fewest(taken: Variation, always: Container[int], still: Callable[[Variation], bool]) -> None:
    """Leaves changes out as long as what is left still does it: halves first, and then ever smaller parts. Some are always there."""
    kept = [it for it in taken if it[0] not in always]
    size = len(kept) // 2
    while size:
        end = len(kept)
        while end > 0 and len(kept) > 1:
            rest = kept[: max(end - size, 0)] + kept[end:]
            if rest and still(sorted(rest + [it for it in taken if it[0] in always])):
                kept = rest
            end -= size
        size //= 2


class Found:
    """What was found of a rule: how many runs broke it, the least change that did, and which options the changes had. The least may
    be some of the changes of a run, of which there were `of`."""

    least: Broken
    of: Optional[int]
    options: DefaultDict[int, Set[int]]
    counts: Counter[int]
    cost: Optional[Tuple[int, ...]]

    def __init__(self, least: Broken) -> None:
        self.count, self.least, self.says, self.of = 0, least, "", None
        self.options, self.counts = collections.defaultdict(set), collections.Counter()
        self.cost = None

    def take(self, broken: Broken, cost: Tuple[int, ...], says: str) -> None:
        self.count += 1
        if self.cost is None or cost < self.cost:
            self.cost, self.least, self.says = cost, broken, says
        for choice, option in broken.taken:
            self.options[choice].add(option)
            self.counts[choice] += 1


class Tally:
    """What came of the runs of a search. The order in which it is taken changes nothing."""

    unmet: Counter[int]
    undecided: Counter[int]
    changed: Counter[int]
    broken: int
    first: Optional[int]
    found: Dict[int, Found]
    own: Optional[Broken]

    def __init__(self, search: Search) -> None:
        self.search, self.runs = search, 0
        # Whether it is known how many runs there were: a shard that is cut off doesn't say.
        self.is_counted = True
        self.unmet, self.undecided, self.changed = collections.Counter(), collections.Counter(), collections.Counter()
        self.begin()

    def begin(self) -> None:
        self.broken, self.first, self.found, self.own = 0, None, {}, None

    def add(self, part: Part) -> None:
        """Takes what came of some runs."""
        self.runs += part.runs
        for name in COUNTED:
            getattr(self, name).update(getattr(part, name))
        for broken in part.breaks:
            self.take(broken)

    def silent(self, accepted: Container[str] = ()) -> Iterator[Tuple[int, str]]:
        """The places of the rules of which the runs say nothing, each with why: no run decides it (UNDECIDED), or all have nothing that
        it is about (NOTHING). What is accepted isn't among them."""
        for at in range(len(self.search.rules)):
            why = UNDECIDED if self.undecided[at] else NOTHING
            if self.runs and self.undecided[at] + self.unmet[at] == self.runs and why not in accepted:
                yield at, why

    def take(self, broken: Broken) -> None:
        """Takes a run that broke rules. If not all are asked for the first of them counts alone."""
        if not broken.number and self.own is not None:
            return
        if not self.search.is_all and self.first is not None:
            if broken.number >= self.first:
                return
            self.begin()
        self.own = self.own if broken.number else broken
        self.broken += bool(broken.number)
        self.first = broken.number if self.first is None else min(self.first, broken.number)
        cost = (*self.search.space.cost(broken.taken), broken.number)
        for at, says in broken.breaks:
            if broken.number or not self.search.is_all:
                self.found.setdefault(at, Found(broken)).take(broken, cost, says)
