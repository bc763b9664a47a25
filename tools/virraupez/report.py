"""What is told of a document: its code, the places of its faults and of its warnings, as texts and as JSON."""
from __future__ import annotations

import json

from . import TYPE_CHECKING, advice, declarations, faults, grammar, hints, json_text, refusals

if TYPE_CHECKING:
    from typing import Any, Callable, Dict, Iterable, Iterator, List, Optional

    from .faults import Fault
    from .json_text import Place
    from .shapes import Document, Paint

    Finder = Callable[[Any], Iterable[Fault]]

# How many places of a code are told, unless all are asked for.
TOLD = 20
CLIPPED = 60


class Entry:
    """A fault or a warning with its place in the text."""

    def __init__(self, fault: Fault, line: int, column: int, length: int, stands: str) -> None:
        self.code, self.path, self.kind, self.wanted = fault.code, fault.path, fault.kind, fault.wanted
        self.line, self.column, self.length, self.stands = line, column, length, stands
        self.hint = hints.hint(fault, stands)
        if fault.missing:
            self.path = (*fault.path, fault.missing)


class Report:
    """A document's code, 0 where it isn't refused, with entries, and how many more places of each code there are."""

    entries: List[Entry]
    counts: Dict[int, int]
    code: int

    def __init__(self, given: bytes, most: int = TOLD, of: Optional[Finder] = None) -> None:
        """Of is what gives the faults and warnings of a document's value: all, unless it is given."""
        self.most, self.entries, self.counts, self.rounds = most, [], {}, 0
        self.of = of or every
        hints.Left.begin()
        try:
            text = given.decode()
            document = json_text.read(text)
        except UnicodeDecodeError as wrong:
            self.add_bytes(given, wrong)
        except json_text.NotJson as wrong:
            self.add_json(text, wrong)
        else:
            self.add_all(text, document)
        self.code = min((code for code in self.counts if code), default=0)

    def add_bytes(self, given: bytes, wrong: UnicodeDecodeError) -> None:
        begin, hint = given[: wrong.start].decode(), "save the document as UTF-8"
        if given[:2] in (b"\xff\xfe", b"\xfe\xff"):
            hint = "this is UTF-16: save the document as UTF-8"
        stands = f"the byte 0x{given[wrong.start]:02x}"
        self.note(faults.Fault(1, (), "text in UTF-8", hint), *json_text.line_column(begin, len(begin)), 1, stands)

    def add_json(self, text: str, wrong: json_text.NotJson) -> None:
        at, hint = wrong.at, wrong.hint
        stands = clip(text[at : at + CLIPPED].split("\n")[0]) if at < len(text) else "the end of the document"
        if text[at : at + 1] == "\ufeff":
            stands, hint = "a byte order mark", "save the document as UTF-8 without it"
        self.note(faults.Fault(1, tuple(wrong.path), wrong.wanted, hint), *json_text.line_column(text, at), 1, stands or "the end of the line")

    def note(self, fault: Fault, line: int, column: int, length: int, stands: str) -> None:
        self.counts[fault.code] = self.counts.get(fault.code, 0) + 1
        self.entries.append(Entry(fault, line, column, length, stands))

    def add_all(self, text: str, document: Any) -> None:
        kept = []
        for fault in self.of(document):
            count = self.counts[fault.code] = self.counts.get(fault.code, 0) + 1
            if count <= self.most:
                kept.append(fault)
        places = json_text.places(text, [fault.path for fault in kept])
        begins = [begin_of(fault, places[fault.path]) for fault in kept]
        line, start, before = 1, 0, 0
        for at, fault in sorted(zip(begins, kept), key=lambda it: it[0]):
            line += text.count("\n", before, at)
            start, before = text.rfind("\n", 0, at) + 1, at
            end = name_end(text, at) if fault.at == faults.NAME else places[fault.path].end
            stands = "nothing" if fault.missing else clip(text[at : min(end, at + 4 * CLIPPED)])
            self.entries.append(Entry(fault, line, at - start + 1, 1 if fault.missing else end - at, stands))
        self.entries.sort(key=lambda it: it.code or 11)
        if isinstance(document, dict) and isinstance(document.get("moments"), list):
            self.rounds = len(document["moments"])

    def more(self, code: int) -> int:
        """How many places of a code aren't among the entries."""
        return self.counts.get(code, 0) - sum(it.code == code for it in self.entries)


def every(document: Any) -> Iterator[Fault]:
    """All faults and warnings of a document."""
    declared = declarations.Declared(document)
    yield from refusals.of(document, declared)
    if isinstance(document, dict):
        yield from advice.warnings(document, declared)


def ignored(document: Document) -> Iterator[Fault]:
    """The warnings of the fields of a document that an upgrade leaves out or changes."""
    for warning in advice.fields_of(document, "document"):
        if warning.path != ("order",) or document["order"] != grammar.ORDERS[0]:
            yield warning


def begin_of(fault: Fault, place: Place) -> int:
    return place.name if fault.at == faults.NAME else place.begin


def name_end(text: str, at: int) -> int:
    return json_text.string_end(text, at) if text[at] == '"' else at + 1


def clip(text: str) -> str:
    text = " ".join(text.split())
    return text if len(text) <= CLIPPED else text[: CLIPPED - 1] + "…"


def shown(text: str) -> str:
    """A text as a terminal may have it: names of a document may hold any character."""
    return "".join(sign if sign.isprintable() else f"\\u{ord(sign):04x}" for sign in text)


# ---- as texts


def named(code: int) -> str:
    return f"{code} ({grammar.CODES[code]})"


def unpainted(_colour: str, text: str) -> str:
    return text


def lines(report: Report, name: str = "", paint: Paint = unpainted) -> Iterator[str]:
    """The lines that tell a report. Each that has a place begins with the document's name, if it is given, and the place."""
    head = f"{name}:" if name else ""
    if not report.code:
        rounds = f"{report.rounds} {'round' if report.rounds == 1 else 'rounds'}"
        yield f"{head}{' ' * bool(head)}{paint('fine', 'not refused')}: {rounds}, {warned(report)}"
    last = None
    for entry in [*report.entries, None]:
        code = entry.code if entry else None
        if last is not None and code != last and report.more(last):
            yield f"{head}{' ' * bool(head)}and {report.more(last)} more {'places of ' + named(last) if last else 'warnings'}"
        last = code
        if entry:
            yield from entry_lines(entry, report.code, head, paint)


def warned(report: Report) -> str:
    count = report.counts.get(0, 0)
    return "no warning" if not count else "1 warning" if count == 1 else f"{count} warnings"


def entry_lines(entry: Entry, code: int, head: str, paint: Paint) -> Iterator[str]:
    """The lines that tell a fault or a warning of a document with a code."""
    what = "warning" if not entry.code else f"refused {named(entry.code)}" if entry.code == code else f"behind it {named(entry.code)}"
    at = f"{head}{entry.line}:{entry.column}:"
    yield f"{paint('place', at)} {paint('fault' if entry.code else 'warning', what)}: {shown(faults.path_text(entry.path))}"
    if entry.code:
        yield f"  stands: {shown(entry.stands)}"
        yield f"  wanted: {shown(entry.wanted)}" + (f" ({entry.kind})" if entry.kind else "")
    else:
        yield f"  {shown(entry.wanted)}"
    if entry.hint:
        yield paint("hint", f"  hint: {shown(entry.hint)}")


# ---- as JSON


def as_json(report: Report, file: str = "") -> str:
    """A report as JSON, for editors: lines and columns are counted from 1, columns and lengths in characters."""
    entries = [
        {
            "code": it.code,
            "name": grammar.CODES.get(it.code, "Warning"),
            "fault": it.kind,
            "line": it.line,
            "column": it.column,
            "length": it.length,
            "path": list(it.path),
            "stands": it.stands,
            "wanted" if it.code else "says": it.wanted,
            "hint": it.hint,
        }
        for it in report.entries
    ]
    told = {"file": file, "code": report.code, "name": grammar.CODES.get(report.code), "places": [it for it in entries if it["code"]]}
    told["warnings"] = [it for it in entries if not it["code"]]
    told["more"] = {str(code): report.more(code) for code in sorted(report.counts) if report.more(code)}
    return json.dumps(told, indent=1)


