"""SARIF 2.1.0 of what explain finds, as code scanning and editors read it (OASIS, Static Analysis Results Interchange Format)."""
from __future__ import annotations

import json
import urllib.parse

from . import TYPE_CHECKING, command, faults, grammar, installation

if TYPE_CHECKING:
    from typing import Iterable, Tuple

    from .report import Entry, Report
    from .shapes import Fields

SCHEMA = "https://json.schemastore.org/sarif-2.1.0.json"
WARNING = "Warning"


def text(told: Iterable[Tuple[str, Report]]) -> str:
    """The log of reports, each with the name of its document."""
    results = [result(name, entry) for name, report in told for entry in report.entries]
    rules = [{"id": name, "shortDescription": {"text": f"refused {code}"}} for code, name in grammar.CODES.items()]
    rules.append({"id": WARNING, "shortDescription": {"text": "not refused, and probably a mistake"}})
    driver = {"name": "virraupez explain", "version": installation.version(), "rules": rules}
    run = {"tool": {"driver": driver}, "columnKind": "unicodeCodePoints", "results": results}
    return json.dumps({"$schema": SCHEMA, "version": "2.1.0", "runs": [run]}, indent=1)


def result(name: str, entry: Entry) -> Fields:
    says = [f"{faults.path_text(entry.path)}: {entry.wanted}"]
    if entry.code:
        says = [f"{faults.path_text(entry.path)}: {entry.stands}", f"wanted: {entry.wanted}"]
    says += [f"hint: {entry.hint}"] * bool(entry.hint)
    file = urllib.parse.quote("stdin" if name == command.STANDARD else name, errors="surrogateescape")
    region = {"startLine": entry.line, "startColumn": entry.column}
    return {
        "ruleId": grammar.CODES.get(entry.code, WARNING),
        "level": "error" if entry.code else "warning",
        "message": {"text": "\n".join(says)},
        "locations": [{"physicalLocation": {"artifactLocation": {"uri": file}, "region": region}}],
    }
