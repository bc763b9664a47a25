"""A search in parts: a shard runs every N-th variation and writes a line of JSON for each run that breaks a rule. Joined, shards
give what one search gives."""
from __future__ import annotations

import collections
import json

from . import TYPE_CHECKING, command, searching

if TYPE_CHECKING:
    from typing import Any, Counter, Dict, Iterator, Optional, Sequence, Tuple

    from .shapes import Fields, Out


class Lines:
    """Writes what a shard finds, a line of JSON for each run that breaks a rule, between a line that says what is searched and one
    that says how much of it was run."""

    counts: Dict[str, Counter[int]]

    def __init__(self, made: searching.Search, shard: Tuple[int, int], by: Dict[str, str], out: Out) -> None:
        self.out, self.changes = out, made.space.changes
        self.runs, self.broken, self.counts = 0, 0, {name: collections.Counter() for name in searching.COUNTED}
        self.line({"search": made.plan, "by": by, "shard": shard[0], "of": shard[1]})

    def line(self, value: Fields) -> None:
        self.out.line(json.dumps(value, separators=(",", ":")))

    def add(self, part: searching.Part) -> None:
        self.runs += part.runs
        for name, counts in self.counts.items():
            counts.update(getattr(part, name))
        self.broken += len(part.breaks)
        for it in part.breaks:
            self.line({"run": it.number, "taken": it.taken, "changes": self.changes(it.taken), "breaks": it.breaks})
        if part.breaks:
            self.out.flush()

    def end(self, is_whole: bool) -> None:
        self.line({"runs": self.runs, "broken": self.broken, **self.counts, "whole": is_whole})


class Joined:
    """What shards wrote, as one search."""

    plan: Optional[Fields]
    # By what the shards were run, and what they found, once there is a plan.
    by: Dict[str, str]
    tally: searching.Tally
    seen: Dict[int, bool]
    open: Optional[int]

    def __init__(self) -> None:
        self.plan, self.of, self.seen, self.open, self.broken = None, 0, {}, None, 0

    def take(self, name: str, number: int, line: str) -> None:
        """Takes a line of a file. A line without its end is the last of a shard that was stopped, and says nothing."""
        try:
            self.value(json.loads(line))
        except (ValueError, LookupError, TypeError, AttributeError, RecursionError):
            if not line.endswith("\n"):
                return
            raise command.Trouble(f"{command.place(name, number)}no line of a shard: {line[:60].rstrip()!r}") from None
        except Wrong as wrong:
            raise command.Trouble(f"{command.place(name, number)}{wrong}") from None

    def value(self, value: Any) -> None:
        if "search" in value:
            self.begin(value["search"], value["by"], value["shard"], value["of"])
        elif self.open is None:
            raise Wrong("a line before the first line of its shard")
        elif "run" in value:
            self.broken += 1
            taken = [(at, option) for at, option in value["taken"]]
            self.tally.take(searching.Broken(value["run"], taken, [(at, says) for at, says in value["breaks"]]))
        else:
            if value["broken"] != self.broken:
                raise Wrong(f"the shard {self.open} found {value['broken']} runs that break a rule, and {self.broken} are there")
            unmet, undecided, changed = (collections.Counter({int(at): count for at, count in value[it].items()}) for it in searching.COUNTED)
            self.tally.add(searching.Part(value["runs"], unmet, undecided, changed, ()))
            self.seen[self.open], self.open = value["whole"], None

    def begin(self, plan: Fields, by: Dict[str, str], shard: int, of: int) -> None:
        if self.plan is None:
            self.plan, self.by, self.of = plan, by, of
            self.tally = searching.Tally(searching.Search(plan))
        if plan != self.plan or of != self.of:
            raise Wrong("a shard of another search: its document, rules, words or number of shards differ")
        if by != self.by:
            raise Wrong(f"a shard that was run by {described(by)}, and those before it by {described(self.by)}")
        if shard in self.seen:
            raise Wrong(f"the shard {shard} of {of} is there twice")
        self.end()
        self.seen[shard], self.open, self.broken = False, shard, 0

    def end(self) -> None:
        """Ends a shard. One without its last line doesn't say how much of it was run."""
        if self.open is not None:
            self.tally.is_counted, self.open = False, None

    def missing(self) -> Iterator[str]:
        """What isn't there of a search, a line each."""
        absent = [it for it in range(1, self.of + 1) if it not in self.seen]
        if absent:
            names = ", ".join(map(str, absent[:20])) + (" .." if len(absent) > 20 else "")
            yield f"{'this shard' if len(absent) == 1 else 'these shards'} of {self.of} {'is' if len(absent) == 1 else 'are'} missing: {names}"
        cut = [it for it, is_whole in sorted(self.seen.items()) if not is_whole]
        if cut:
            yield f"the shard{'s' * (len(cut) > 1)} {', '.join(map(str, cut[:20]))} of {self.of} ended before all its runs were made"


def described(by: Dict[str, str]) -> str:
    """What ran a shard: the version of the command, and the program's sum, or the executor in Python."""
    return f"{by['program'][:80]} of version {by['version'][:20]}"


class Wrong(Exception):
    """What is wrong with a line of a shard."""


def join(names: Sequence[str]) -> Joined:
    """Joins files of shards."""
    joined = Joined()
    for name in names:
        with command.source(name) as stream:
            for number, line in enumerate(stream, 1):
                joined.take(name, number, line.decode("utf-8", "replace"))
    joined.end()
    if joined.plan is None:
        raise command.Trouble("no shard in " + ", ".join(map(command.shown, names)))
    return joined
