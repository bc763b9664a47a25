"""schema: writes the JSON Schema of documents, docs/document.schema.json. With --strict it is docs/document.strict.schema.json,
which takes no unknown fields. Both are made from the tables of the grammar that explain reads documents by."""
from __future__ import annotations

import json

from .. import TYPE_CHECKING, command, schema

if TYPE_CHECKING:
    import argparse
    from typing import Any, Optional


def parser(prog: Optional[str] = None) -> command.Parser:
    made = command.parser(__doc__, "The status is 0, and 2 if the schema can't be written.", prog)
    made.add_argument("--strict", action="store_true", help="the schema that takes no unknown fields")
    return made


def run(asked: argparse.Namespace, out: command.Output) -> int:
    out.line(text(schema.schema(asked.strict)))
    return command.FINE


def text(value: Any, indent: int = 0) -> str:
    """JSON with what fits in one line."""
    flat = json.dumps(value)
    if len(flat) + indent <= 140 or not isinstance(value, (dict, list)):
        return flat
    between = ",\n" + " " * (indent + 2)
    parts = [f"{json.dumps(name)}: {text(part, indent + 2)}" for name, part in value.items()] if isinstance(value, dict) else [text(it, indent + 2) for it in value]
    begin, end = ("{", "}") if isinstance(value, dict) else ("[", "]")
    return begin + between[1:] + between.join(parts) + "\n" + " " * indent + end
