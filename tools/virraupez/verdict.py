"""The verdict on a document: what came of its run, of each rule, of its golden transcript and of a search, a case each."""
from __future__ import annotations

import collections
import io
from typing import NamedTuple

from . import TYPE_CHECKING, command, difference, flow, rules, transcript

if TYPE_CHECKING:
    from typing import FrozenSet, Iterator, List, Sequence

    from .shapes import Document

RUN, RULE, GOLDEN, SEARCH = "run", "rule", "golden", "search"
PASSES, RENEWED = "passes", "renewed"


class Case(NamedTuple):
    """What a case is of, what it is called, what became of it, and the lines that say why."""

    of: str
    name: str
    outcome: str
    lines: List[str]


class Verdict:
    """The cases of a document. Accepted are outcomes of rules that pass beside those that hold."""

    cases: List[Case]
    idle: FrozenSet[str]

    def __init__(self, name: str, accepted: Sequence[str] = ()) -> None:
        self.name, self.cases, self.accepted = name, [], accepted
        # The rules that are about nothing in all documents, by their names.
        self.idle = frozenset()

    def add(self, of: str, name: str, outcome: str, lines: List[str]) -> None:
        self.cases.append(Case(of, name, outcome, lines))

    def is_fine(self, case: Case) -> bool:
        is_of_something = case.outcome == rules.NOTHING and case.name not in self.idle
        return case.outcome in (PASSES, RENEWED, rules.HOLDS, *self.accepted) or is_of_something

    @property
    def passes(self) -> bool:
        return all(map(self.is_fine, self.cases))

    def line(self) -> str:
        """The verdict in one line."""
        return f"{command.shown(self.name)}: {'passes' if self.passes else 'fails'}: {', '.join(self.parts())}"

    def parts(self) -> Iterator[str]:
        found = collections.Counter(it.outcome for it in self.cases if it.of == RULE)
        if found:
            more = f", {found[rules.NOTHING]} about nothing" if found[rules.NOTHING] else ""
            yield f"{found[rules.HOLDS]} hold, {found[rules.FAILS]} fail, {found[rules.UNDECIDED]} undecided{more}"
        for it in self.cases:
            if it.of == GOLDEN:
                yield {PASSES: f"the same as {it.name}", RENEWED: f"{it.name} is renewed"}.get(it.outcome, f"differs from {it.name}")
            elif it.of != RULE:
                yield it.name


def compare(verdicts: Sequence[Verdict]) -> None:
    """Finds the rules that are about nothing in all documents that were run."""
    found = [{it.name: it.outcome for it in verdict.cases if it.of == RULE} for verdict in verdicts]
    found = [it for it in found if it]
    idle = frozenset(name for name in (found[0] if found else ()) if all(it.get(name) == rules.NOTHING for it in found))
    for verdict in verdicts:
        verdict.idle = idle


def differences(document: Document, name: str, golden: str, text: str) -> List[str]:
    """The lines that say how a run differs from its golden transcript; none if it doesn't."""
    found = difference.Difference((golden, f"run of {command.shown(name)}"), [flow.Flow(document)])
    found.take([transcript.blocks(golden), transcript.checked(io.StringIO(text), name)])
    if found.trouble:
        raise found.trouble
    return list(found.lines()) if found.differ else []
