"""Shrinks a document that breaks a rule, by delta debugging: of all that it has, ever smaller parts are left out, as long as it is
accepted and its run breaks the rule in the same way."""
from __future__ import annotations

import difflib
import re

from . import TYPE_CHECKING, ancestry, cuts, document_text, grammar, judge, rules, runs
from .event import ROUNDS, Event

if TYPE_CHECKING:
    from typing import Any, Callable, Dict, List, Optional, Set, Tuple, Union

    from .shapes import Document, Fields, Path, Runner, Script

    Broken = Tuple[List[Union[int, str]], str, List[bool]]


class Way:
    """In which way a run breaks a rule: by a line of which words, and whether an answer comes that is too late, or none."""

    late: List[rules.Rule]

    def __init__(self, rule: rules.Rule, keep: List[rules.Rule]) -> None:
        self.rule = rule
        self.late = [late_of(rule)] if isinstance(rule, rules.Then) and rule.within is not None and isinstance(rule.events[0], Event) else []
        self.rules, self.keep = [rule, *self.late, *keep], keep

    def of_last_run(self) -> Optional[Broken]:
        """The way of the run that was held to the rules last; None if it holds, or if a line that must stay isn't there."""
        found = self.rule.failure
        if found is None or any(it.failure for it in self.keep):
            return None
        return list(map(kept_of, found.line.split(" "))), re.sub("[0-9]+", "", found.says), [bool(it.failure) for it in self.late]


def kept_of(word: str) -> Union[int, str]:
    """What stays of a word of the line that breaks the rule: of a number whether it is 0, or below, and nothing of an identifier."""
    if re.fullmatch("-?[0-9]+", word):
        return min(max(int(word), -1), 1)
    return "" if re.fullmatch("[0-9a-f-]{36}", word) else word


def late_of(rule: rules.Then) -> rules.Then:
    """The rule that an answer comes, be it too late."""
    made = rules.Then(rule.how, None, ROUNDS, *rule.events)
    made.condition = rule.condition
    return made


class Shrinker:
    """A document that becomes smaller and smaller; and, if one is given, another that differs in its timing alone and doesn't break the
    rule. It loses the same parts, and still doesn't break the rule, so that it is the timing that does."""

    kept: List[str]
    tried: Set[str]
    found: Optional[str]

    def __init__(self, program: Runner, document: Document, way: Way, good: Optional[Document] = None) -> None:
        self.judging, self.way, self.document, self.good, self.runs = judge.Judge(program, way.rules), way, document, good, 0
        self.text = self.judging.run(document)
        self.lines = self.text.count("\n")
        self.wanted = way.of_last_run()
        failure = way.rule.failure if self.wanted else None
        self.found = judge.said(failure) if failure else None
        # Unless lines are named that the run must keep, it keeps what the line comes from that breaks the rule.
        self.kept = [] if way.keep or failure is None else ancestry.Ancestry(document, self.text).of(failure.number)
        self.tried = set()

    def accepts(self, document: Document, good: Optional[Document], most: Optional[int] = None) -> bool:
        """Takes a smaller document if its run breaks the rule in the same way, and has no more lines than are asked for."""
        text = document_text.flat_text([document, good])
        if text in self.tried:
            return False
        self.tried.add(text)
        lines = self.lines_of(document)
        if lines is None or self.way.of_last_run() != self.wanted or most is not None and lines > most:
            return False
        if any(f"\n{name} " not in self.text for name in self.kept):
            return False
        found = judge.said(self.way.rule.failure) if self.way.rule.failure else None
        if good is not None and (self.lines_of(good) is None or self.way.rule.failure or self.way.rule.open_end):
            return False
        self.document, self.good, self.lines, self.found = document, good, lines, found
        return True

    def lines_of(self, document: Document) -> Optional[int]:
        """Runs a document, and gives how many lines its transcript has; None if it is refused."""
        self.runs += 1
        try:
            self.text = self.judging.run(document)
        except runs.Refused:
            return None
        return self.text.count("\n")

    def shrink(self) -> None:
        """Leaves out whatever can be left out, until nothing can."""
        while True:
            before = self.document
            for step in (self.rounds, self.entries, self.nodes, self.names, self.groups, self.instructions, self.fields, self.gaps, self.moments, self.values):
                step()
            if self.document == before:
                self.document = cuts.tidy(self.document)
                return

    def fewest(self, count: int, smaller: Callable[[Document, Set[int]], Document], same: Optional[Dict[int, int]] = None) -> None:
        """Leaves out parts, by their places: all, and then halves, quarters and so on of what is left, from the end on. The places in
        the good document are the same, unless they are given."""
        base, good, kept, size = self.document, self.good, list(range(count)), count
        while size:
            at = len(kept)
            while at > 0:
                rest = kept[: max(at - size, 0)] + kept[at:]
                gone = set(range(count)).difference(rest)
                if self.accepts(smaller(base, gone), good and smaller(good, gone if same is None else {same[it] for it in gone if it in same})):
                    kept = rest
                at -= size
            size = min(size, len(kept)) // 2 if size > 1 else 0

    def same(self, name: str, key: Callable[[Any], Any] = lambda it: it) -> Dict[int, int]:
        """The places in a list of the good document, by those in this one's."""
        one, other = ([key(it) for it in document.get(name, [])] for document in (self.document, self.good or {}))
        if len(one) == len(other):
            return {at: at for at in range(len(one))}
        blocks = difflib.SequenceMatcher(None, one, other, autojunk=False).get_matching_blocks()
        return {block.a + at: block.b + at for block in blocks for at in range(block.size)}

    def same_path(self, path: Path, entries: Dict[int, int]) -> Optional[Path]:
        """The path of a part in the good document; None if it isn't there."""
        if path[0] != "feed":
            return path
        at = path[1]
        return ("feed", entries[at], *path[2:]) if isinstance(at, int) and at in entries else None

    # ---- steps

    def rounds(self) -> None:
        self.fewest(len(self.document.get("moments", [])), cuts.without_rounds, self.same("moments"))

    def entries(self) -> None:
        self.fewest(len(self.document.get("feed", [])), cuts.without_entries, self.same("feed", said_of))

    def nodes(self) -> None:
        self.fewest(len(self.document.get("nodes", [])), cuts.without_nodes)

    def names(self) -> None:
        names = [*self.document.get("topics", []), *(it for node in self.document.get("nodes", []) for it in cuts.names_of_node(node))]
        self.fewest(len(names), lambda base, gone: cuts.without_names(base, [names[at] for at in gone]))

    def groups(self) -> None:
        for at, node in enumerate(self.document.get("nodes", [])):
            for group in node.get("groups", []):
                good = self.good and cuts.without_group(self.good, at, group["name"])
                self.accepts(cuts.without_group(self.document, at, group["name"]), good)

    def instructions(self) -> None:
        for path in list(cuts.scripts(self.document)):
            script: Script = cuts.part(self.document, path)

            def smaller(base: Document, gone: Set[int]) -> Document:
                made: Document = cuts.with_part(base, path, cuts.cut(script, gone))
                return made

            self.fewest(len(script), smaller)

    def fields(self) -> None:
        """Leaves out fields that may be missing, but for those of the feed in the good document."""
        paths = list(cuts.fields(self.document))
        common = {at: at for at, path in enumerate(paths) if path[0] != "feed"}
        self.fewest(len(paths), lambda base, gone: cuts.without_fields(base, [paths[at] for at in gone]), common)

    def gaps(self) -> None:
        self.fewest(len(self.document.get("moments", [])), cuts.without_gaps, self.same("moments"))

    def moments(self) -> None:
        """Lets all rounds come earlier: as much as can be, a half of it, and so on. The run gets no longer by that."""
        first = ticks = min((it["moments"][0] for it in (self.document, self.good) if it and it.get("moments")), default=0)
        while ticks:
            if self.accepts(cuts.earlier(self.document, ticks), self.good and cuts.earlier(self.good, ticks), self.lines):
                first = ticks = first - ticks
            else:
                ticks //= 2

    def values(self) -> None:
        """Makes numbers smaller: 0, 1, or ever a half. The run gets no longer by that, as it would by a timer of period 1."""
        entries = self.same("feed", said_of)
        for path in list(cuts.values(self.document)):
            value, is_smaller = cuts.part(self.document, path), True
            while is_smaller and value:
                half = value // 2 if value > 0 else -(-value // 2)
                smaller = dict.fromkeys(it for it in (0, 1, half) if abs(it) < abs(value))
                value = next((it for it in smaller if self.takes(path, it, self.same_path(path, entries))), None)
                is_smaller = value is not None

    def takes(self, path: Path, value: int, same: Optional[Path]) -> bool:
        """Takes a smaller number. One that is another in the good document stays there."""
        good = self.good
        if good and same and cuts.part(good, same) == cuts.part(self.document, path):
            good = cuts.with_part(good, same, value)
        return self.accepts(cuts.with_part(self.document, path, value), good, self.lines)


def said_of(entry: Fields) -> Tuple[Tuple[str, Any], ...]:
    """What an entry says, whenever it comes."""
    return tuple(sorted((name, it) for name, it in entry.items() if name != "round" and isinstance(it, (int, str))))


def differ_in_timing(one: Document, other: Document) -> bool:
    """Whether two documents differ in their timing alone: in moments, what is fed, and periods."""
    same = grammar.order_of(one) == grammar.order_of(other)
    return same and [without_timing(it) for it in one.get("nodes", [])] == [without_timing(it) for it in other.get("nodes", [])]


def without_timing(node: Fields) -> Fields:
    return {**node, "timers": [{**it, "period": None} for it in node.get("timers", [])]}


def sizes(document: Document) -> Dict[str, int]:
    """How many parts of each kind a document has."""
    nodes = document.get("nodes", [])
    scripts = [cuts.part(document, path) for path in cuts.scripts(document)]
    return {
        "nodes": len(nodes),
        "entities": sum(len(cuts.names_of_node(node)) for node in nodes),
        "instructions": sum(map(len, scripts)),
        "rounds": len(document.get("moments", [])),
        "entries": len(document.get("feed", [])),
    }


