"""Runs, rules and searches for programs in Python (docs/python.md).

A document is a Document, JSON's values, or its text; rules and transcripts are texts. A pathlib.Path is the file of one."""
from __future__ import annotations

import dataclasses
import functools
import json
import pathlib
from typing import Any, Dict, Iterator, List, Mapping, Optional, Sequence, Tuple, Union

from . import TYPE_CHECKING, build, checker, command, fit, grammar, judge, report, rulebook, rules, runs, searching, transcript

if TYPE_CHECKING:
    from typing import Iterator

DocumentLike = Union[build.Document, Mapping[str, Any], str, bytes, pathlib.Path]
Text = Union[str, pathlib.Path]
# What a search may vary, as the words of the command have it: ("jitter", "battery", "±2").
Words = Sequence[Sequence[str]]
DOCUMENT, RULES, TRANSCRIPT = "the document", "the rules", "the transcript"


class Refused(ValueError):
    """What is said of a document that is refused: its code, and the places of its faults."""

    def __init__(self, code: int, places: str) -> None:
        super().__init__(places or f"refused {code}")
        self.code = code


@dataclasses.dataclass(frozen=True)
class Transcript:
    """The transcript of a document. Two are equal if their texts are. A notebook shows its picture."""

    text: str
    document: Mapping[str, Any] = dataclasses.field(compare=False, repr=False, default_factory=dict)

    def __str__(self) -> str:
        return self.text

    @property
    def lines(self) -> List[str]:
        return self.text.splitlines()

    def picture(self) -> str:
        """The picture of its first rounds, as SVG."""
        from . import picture, scene

        made = scene.Scene(dict(self.document), 1, scene.ROUNDS)
        made.take(self.lines)
        return picture.Picture(made).svg()

    def _repr_svg_(self) -> Optional[str]:
        return self.picture() if self.document.get("moments") else None


@dataclasses.dataclass(frozen=True)
class Rule:
    """What became of a rule: `holds`, `fails`, `undecided` or `holds of nothing`, and the line that decides it, numbered from 1."""

    text: str
    outcome: str
    line: Optional[int] = None
    says: str = ""


@dataclasses.dataclass(frozen=True)
class Verdict:
    """What became of rules. It is true if each of them holds, also one that holds of nothing."""

    rules: Tuple[Rule, ...]

    def __bool__(self) -> bool:
        return all(it.outcome in (rules.HOLDS, rules.NOTHING) for it in self.rules)

    def __str__(self) -> str:
        return "\n".join(f"{it.outcome}: {it.text}{f' ({it.says})' if it.says else ''}" for it in self.rules)


@dataclasses.dataclass(frozen=True)
class Break:
    """A rule that runs of a search break: in how many, by which changes at least, and the document that has these."""

    rule: str
    count: int
    run: int
    changes: Tuple[str, ...]
    says: str
    document: Mapping[str, Any] = dataclasses.field(repr=False)


@dataclasses.dataclass(frozen=True)
class Search:
    """What a search found. It is true if no run breaks a rule."""

    runs: int
    is_whole: bool
    breaks: Tuple[Break, ...]
    report: str

    def __bool__(self) -> bool:
        return not self.breaks

    def __str__(self) -> str:
        return self.report


class Executor:
    """Runs documents one after another. Which program does it is asked once. With `reference` the executor in Python runs them,
    of which nothing is proved."""

    def __init__(self, reference: bool = False) -> None:
        self.program = judge.executor(reference)

    def run(self, document: DocumentLike) -> Transcript:
        given = bytes_of(document)
        try:
            text = self.program.transcript(given)
        except runs.Refused as refused:
            raise refusal(given, int(str(refused))) from None
        return Transcript(text, json.loads(given))


def run(document: DocumentLike, *, reference: bool = False) -> Transcript:
    """Runs a document."""
    return executor(reference).run(document)


@functools.lru_cache(None)
def executor(reference: bool) -> Executor:
    return Executor(reference)


def holds(text: Text, of: Union[Transcript, Text]) -> Verdict:
    """Holds a transcript to rules. The names of one that `run` gave are those of its document."""
    own = fit.Own(DOCUMENT, dict(of.document)) if isinstance(of, Transcript) and of.document else None
    check = checker.Check(rulebook.read(text_of(text), name_of(text, RULES), own.kinds if own else None))
    given = of.text if isinstance(of, Transcript) else text_of(of)
    for block in transcript.checked(Stream(given), name_of(of, TRANSCRIPT)):
        check.block(block)
    check.end()
    return Verdict(tuple(map(outcome, check.rules)))


def outcome(rule: rules.Rule) -> Rule:
    found = rule.failure or rule.open_end
    return Rule(rule.text, rule.outcome(), found.number if found else None, judge.said(found) if found else "")


def search(document: DocumentLike, text: Text, vary: Words, *, runs: int = 10000, seed: int = 1, all: bool = False, processes: int = 1, reference: bool = False) -> Search:
    """Runs variations of a document, and holds each run to rules. Unless all are asked for, it ends with the first that breaks one."""
    from . import table

    value = json.loads(lawful(document))
    ruled: Dict[str, Any] = {"rules": name_of(text, RULES), "text": text_of(text), "rule": None, "robust": []}
    plan = {"name": DOCUMENT, "document": value, **ruled, "vary": [list(it) for it in vary], "runs": runs, "seed": seed, "all": all}
    made = searching.Search(plan)
    tally, judging = searching.Tally(made), judge.Judge(judge.executor(reference), made.rules)
    for part in made.parts(judging, 1, 1, processes):
        tally.add(part)
    if tally.first and not all:
        searching.reduce(tally, judging)
    return Search(tally.runs, made.is_whole, tuple(breaks(made, tally)), "\n".join(table.lines(tally, report.unpainted)))


def breaks(made: searching.Search, tally: searching.Tally) -> Iterator[Break]:
    if tally.own:
        for at, says in tally.own.breaks:
            yield Break(made.rules[at].text, 1, 0, (), says, made.document)
    for at, found in sorted(tally.found.items()):
        least = found.least
        if least.number:
            yield Break(made.rules[at].text, found.count, least.number, tuple(made.space.changes(least.taken)), found.says, made.space.value(least.taken))


# ---- what is given


class Stream:
    """A text that is read by parts."""

    def __init__(self, text: str) -> None:
        self.text, self.at = text, 0

    def read(self, count: int) -> str:
        self.at += count
        return self.text[self.at - count : self.at]


def bytes_of(document: DocumentLike) -> bytes:
    if isinstance(document, build.Document):
        return json.dumps(document.value()).encode()
    if isinstance(document, pathlib.Path):
        return document.read_bytes()
    if isinstance(document, (bytes, str)):
        return document if isinstance(document, bytes) else document.encode()
    return json.dumps(document).encode()


def lawful(document: DocumentLike) -> bytes:
    """The bytes of a document, if it isn't refused."""
    given = bytes_of(document)
    told = report.Report(given)
    if told.code:
        raise refusal(given, told.code)
    return given


def refusal(given: bytes, code: int) -> Refused:
    told = report.Report(given)
    return Refused(code, "\n".join(report.lines(told, DOCUMENT)) if told.code else f"refused {code}{f' ({grammar.CODES[code]})' if code in grammar.CODES else ''}")


def text_of(given: Text) -> str:
    return given.read_text("utf-8") if isinstance(given, pathlib.Path) else given


def name_of(given: Any, name: str) -> str:
    return command.printable(given) if isinstance(given, pathlib.Path) else name
