"""The folder of --save: documents and transcripts of runs that break a rule."""
from __future__ import annotations

import os
import re

from . import TYPE_CHECKING, command, document_text
from .difference import numbered

if TYPE_CHECKING:
    from typing import Optional, Set

    from .judge import Judge
    from .searching import Broken, Part, Search, Tally

# How many runs are saved, apart from the least of each rule.
SAVED = 100
# The names of files that a search saves.
SAVES = re.compile(r"(?:run|rule|robust)_[0-9]+\.(?:json|txt)").fullmatch


class Folder:
    """A folder in which a search saves runs: the first that break a rule, by their numbers, and the least of each rule."""

    before: Set[str]
    written: Set[str]

    def __init__(self, name: Optional[str], search: Search, judging: Judge) -> None:
        self.name, self.search, self.judging, self.count, self.written = name, search, judging, 0, set()
        self.before = set()
        if name is not None:
            os.makedirs(name, exist_ok=True)
            self.before = {it for it in os.listdir(name) if SAVES(it)}

    def add(self, part: Part) -> None:
        """Saves the runs of a part that break a rule."""
        for broken in part.breaks if self.name else ():
            if self.count < SAVED:
                self.count += 1
                self.write(f"run_{broken.number}", broken)

    def end(self, tally: Tally) -> None:
        """Saves the least change of each rule, and says what is in the folder."""
        if not self.name:
            return
        for at, found in sorted(tally.found.items()):
            self.write(self.search.rules[at].label, found.least)
        has = []
        if self.count:
            more = f", the first of {tally.broken}" if tally.broken > self.count else ""
            has.append(f"{self.count} run{'s that break' if self.count > 1 else ' that breaks'} a rule{more}")
        if tally.found:
            has.append("the least change of each rule: " + ", ".join(f"{self.search.rules[at].label}.json" for at in sorted(tally.found)))
        if has:
            command.note(f"search: {command.printable(self.name)} has {', and '.join(has)}")
        old = sorted(self.before - self.written)
        if old:
            command.note(f"search: {command.printable(self.name)} has {numbered(len(old), 'file')} of an earlier search too: {', '.join(old[:4])}{' ..' * (len(old) > 4)}")

    def write(self, name: str, broken: Broken) -> None:
        """Writes the document and the transcript of a run."""
        document = self.search.space.value(broken.taken) if broken.taken else self.search.document
        text = self.search.run(self.judging, broken.number, broken.taken)
        for ending, held in (("json", document_text.layout(document) + "\n"), ("txt", text)):
            self.written.add(f"{name}.{ending}")
            with command.Output(os.path.join(self.name or "", f"{name}.{ending}")) as out:
                out.write(held)
