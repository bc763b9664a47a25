"""The value of a document that a program described, with the call that said each part of it."""
from __future__ import annotations

import bisect

from . import TYPE_CHECKING, grammar, program_faults

if TYPE_CHECKING:
    from typing import Any, Collection, Dict, List, Sequence, Set, Tuple

    from . import build
    from .assembler import Assembled
    from .origin import Call
    from .shapes import Fields, Path

# The round of what is fed at a moment behind which there is none.
NONE = object()


class Description:
    """A document's value, what is wrong with the calls that described it, and which call said what."""

    timed: List[Tuple[Call, Collection[int]]]
    wrong: List[program_faults.Entry]
    moments: List[int]
    value: Fields

    def __init__(self, document: build.Document) -> None:
        self.document, self.timed = document, []
        self.wrong = [*document.wrong, *(it for node in document.nodes for it in node.wrong)]
        self.moments = self.all_moments()
        fed = [(call, {"round": self.round_of(call, **when), **fields}) for call, when, fields in document.fed]
        fed = sorted((it for it in fed if it[1]["round"] != NONE), key=lambda it: it[1]["round"] if grammar.is_count(it[1]["round"]) else 0)
        self.fed = [call for call, _ in fed]
        parts = {"topics": document.topics, "nodes": [node.fields for node in document.nodes], "moments": self.moments, "feed": [it for _, it in fed]}
        head: Fields = {"version": grammar.VERSIONS[0]} if document.order is None else {"version": grammar.SINCE["order"], "order": document.order}
        self.value = {**head, **{name: part for name, part in parts.items() if part}}

    def all_moments(self) -> List[int]:
        """All moments in order: those that were computed once each, if they weren't written. Others than numbers stay as they
        stand, for explain to tell."""
        written: List[int] = []
        computed: Set[int] = set()
        for call, moments in self.document.timed:
            found = self.computed(call, moments()) if callable(moments) else moments
            self.timed.append((call, found))
            computed.update(found) if callable(moments) else written.extend(found)
        found = written + list(computed.difference(written))
        self.ordered = all(type(it) is int for it in found)
        return sorted(found) if self.ordered else written

    def computed(self, call: Call, ranges: Sequence[range]) -> Set[int]:
        """The moments of ranges, once each, or none if they are more than a document may have."""
        count = max(map(len, ranges), default=0)
        if count > grammar.MOMENTS:
            self.wrong.append(program_faults.of_call(call, f"these are {count} moments: a document has at most {grammar.MOMENTS}", "until"))
            return set()
        return set().union(*ranges)

    def round_of(self, call: Call, round: Any = None, at: Any = None) -> Any:
        """The round of what is fed at a moment, or at a round."""
        if at is None:
            return round
        found = bisect.bisect_left(self.moments, at) if grammar.is_count(at) and self.ordered else len(self.moments)
        if found < len(self.moments):
            return found + 1
        self.wrong.append(program_faults.of_call(call, f"there is no moment at or after {at}", "at"))
        return NONE

    def said(self, path: Path) -> Tuple[Call, Dict[str, Assembled], Path]:
        """The call that said a part of the document, its scripts by their fields, and the rest of the part's path."""
        document, number = self.document, path[1] if len(path) > 1 else None
        if not isinstance(number, int):
            return document.call, {}, path
        if path[0] == "topics":
            return document.named[number], {}, ("topics", number)
        if path[0] == "feed":
            return self.fed[number], {}, path[2:]
        if path[0] == "moments":
            return next(call for call, found in self.timed if self.moments[number] in found), {}, ()
        node = document.nodes[number]
        return (*node.said[path[2:4]], path[4:]) if path[2:4] in node.said else (node.call, {}, path[2:])
