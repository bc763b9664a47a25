"""What is told of a document that a Python program makes: its faults and warnings, each at the place of the program that said
what is wrong."""
from __future__ import annotations

import json

from . import TYPE_CHECKING, faults, grammar, json_text, report

if TYPE_CHECKING:
    from typing import Any, Dict, Iterable, List, Optional, Tuple

    from . import assembler
    from .description import Description
    from .faults import Fault
    from .origin import Call, Position
    from .shapes import Key, Path

NOUNS = {**grammar.ENTITIES, "groups": "group"}
# The argument that gives a field, if it has another name.
ARGUMENTS = {"cancel": "goal"}
# How many faults or warnings of a place are told.
AT_A_PLACE = 3


class Entry:
    """A fault or a warning: its file, line and column, a line that says what it is, and lines that say more."""

    def __init__(self, file: str, place: Position, says: str, more: Iterable[str] = ()) -> None:
        self.file, (self.line, self.column), self.says, self.more = file, place, says, list(more)

    def __str__(self) -> str:
        return "\n".join([f"{self.file}:{self.line}:{self.column}: {self.says}", *self.more])


def of_call(call: Call, says: str, argument: Optional[str] = None) -> Entry:
    """What is wrong with a call."""
    return Entry(call.file, call.place(argument), says, call.led_by())


def of_script(call: Call, argument: str, entity: str, script: str, wrong: assembler.Fault) -> Entry:
    """What is wrong with a line of a script."""
    place = call.script_place(argument, script, wrong.line, wrong.part)
    return Entry(call.file, place, f"{argument} of {entity}: {wrong.wrong}", call.led_by())


def lines(entries: Iterable[Entry], more: Iterable[str] = ()) -> List[str]:
    """The lines of entries in the order of their places: of each place the first, since a loop says a thing many times, and how
    many more there are."""
    by_place: Dict[Tuple[str, int, int], List[Entry]] = {}
    for entry in entries:
        by_place.setdefault((entry.file, entry.line, entry.column), []).append(entry)
    told: List[str] = []
    for (file, line, column), here in sorted(by_place.items()):
        told += map(str, here[:AT_A_PLACE])
        if len(here) > AT_A_PLACE:
            told.append(f"{file}:{line}:{column}: and {len(here) - AT_A_PLACE} more at this place")
    return [*told, *more]


class Checked:
    """The faults and the warnings of a document that was made, by its text."""

    faults: List[Entry]
    warnings: List[Entry]
    counts: Dict[int, int]

    def __init__(self, made: Description, text: str) -> None:
        self.made, self.faults, self.warnings, self.counts = made, [], [], {}
        for fault in report.every(read(text)):
            self.counts[fault.code] = self.counts.get(fault.code, 0) + 1
            if self.counts[fault.code] <= report.TOLD:
                (self.faults if fault.code else self.warnings).append(self.entry(fault))

    def lines(self) -> List[str]:
        # With a part of the program missing, much would be warned of that isn't there yet.
        entries = [*self.made.wrong, *self.faults] if self.made.wrong else [*self.faults, *self.warnings]
        more = [(code, count - report.TOLD) for code, count in sorted(self.counts.items()) if code or not self.made.wrong]
        named = {code: f"places of {report.named(code)}" if code else "warnings" for code, _ in more}
        return lines(entries, [f"and {count} more {named[code]}" for code, count in more if count > 0])

    def entry(self, fault: Fault) -> Entry:
        stands = "nothing" if fault.missing else report.clip(json.dumps(at(self.made.value, fault.path), default=repr))
        call, place = self.place(fault.path)
        told = report.Entry(fault, *place, 1, stands)
        _, *more = report.entry_lines(told, fault.code, "", report.unpainted)
        kind = f"refused {report.named(fault.code)}" if fault.code else "warning"
        return Entry(call.file, place, report.shown(f"{kind}: {self.name(told.path)}"), more + call.led_by())

    def place(self, path: Path) -> Tuple[Call, Position]:
        """The call that said a part of the document, and the line and the column of that part."""
        call, scripts, rest = self.made.said(path)
        field, index = str(rest[0]) if rest else "", rest[1] if len(rest) > 1 else None
        if field in scripts and isinstance(index, int):
            made, part = scripts[field], str(at(self.made.value, path)) if len(rest) > 2 else ""
            return call, call.script_place(field, made.text, made.lines[index], part)
        return call, call.place(ARGUMENTS.get(field, field), index if isinstance(index, int) else None)

    def name(self, path: Path) -> str:
        """What a person calls a part of a document: an entity by its kind and its name, with the field."""
        owner = faults.path_text(path)
        rest: Path = ()
        if path[:1] == ("nodes",) and len(path) > 1:
            length = 4 if len(path) > 3 else 2
            noun = NOUNS[str(path[2])] if length == 4 else "node"
            owner, rest = f"{noun} {at(self.made.value, path[:length]).get('name')}", path[length:]
        elif path[:1] == ("topics",) and len(path) > 1:
            owner = f"topic {at(self.made.value, path)}"
        elif path[:1] == ("feed",) and len(path) > 1:
            entry = at(self.made.value, path[:2])
            owner, rest = f"what is fed to {entry.get('topic', entry.get('action'))}", path[2:]
        return f"{owner}: {rest[0]}" if rest else owner


def at(value: Any, path: Iterable[Key]) -> Any:
    for key in path:
        value = value[key]
    return value


def read(text: str) -> Any:
    """The value of a text that `json` wrote, with numbers as the program's reader has them: others than those of 64 bits have
    no value there."""
    fraction = lambda _: json_text.FRACTION
    integer = lambda digits: int(digits) if len(digits) < 19 or -(2**63) <= int(digits) < 2**64 else json_text.FRACTION
    return json.loads(text, parse_float=fraction, parse_constant=fraction, parse_int=integer)
