"""Scripts as lines with labels, and documents as Python programs: the way back from what `assembler` and `build` make."""
from __future__ import annotations

import json

from . import TYPE_CHECKING, assembler, grammar

if TYPE_CHECKING:
    from typing import Dict, Iterator, List, Optional

    from .shapes import Document, Fields, Instruction, Script

INDENT = "    "
INFIX = {"add": "+", "sub": "-", "mul": "*", "lt": "<", "eq": "=="}


# ---- scripts


def lines_of(instructions: Script) -> Optional[List[str]]:
    """The lines of a script, or none if its instructions can't be written so."""
    labels = labels_of(instructions)
    made = []
    for at, instruction in enumerate(instructions):
        made += [f"{labels[at]}:"] if at in labels else []
        made.append(INDENT + line_of(instruction, at, labels))
    assembled = assembler.Assembled("\n".join(made))
    return made if not assembled.faults and assembled.instructions == instructions else None


def labels_of(instructions: Script) -> Dict[int, str]:
    """The labels of the places to which skips lead."""
    places = sorted({at + 1 + it[2] for at, it in enumerate(instructions) if it[0] == "skip"})
    return {place: assembler.END if place == len(instructions) else f"L{number}" for number, place in enumerate(places, 1)}


def line_of(instruction: Instruction, at: int, labels: Dict[int, str]) -> str:
    word, *items = instruction
    if word == "skip":
        condition = "" if items[0] == 1 else f"if {items[0]} "
        return f"{condition}goto {labels[at + 1 + items[1]]}"
    if word != "set":
        return " ".join(map(str, instruction))
    to, operation, one, other = items
    if operation == "add" and other == 0:
        return f"{to} = {one}"
    return f"{to} = {one} {INFIX[operation]} {other}" if operation in INFIX else f"{to} = {operation}({one}, {other})"


def script_of(instructions: Script, indent: str = "") -> str:
    """A script as an argument of a call: its lines as a text, or the list of its instructions."""
    made = lines_of(instructions) if instructions else None
    if made is None:
        return json.dumps(instructions)
    return '"""\n' + "".join(f"{indent}{INDENT}{line}\n" for line in made) + f'{indent}"""'


# ---- documents


def program_of(document: Document) -> Iterator[str]:
    """The lines of a Python program that writes a lawful document."""
    order = f", order={grammar.order_of(document)!r}" if document["version"] == grammar.SINCE["order"] else ""
    yield "import virraupez\n"
    yield f"robot = virraupez.Document(topics={document.get('topics', [])!r}{order})"
    for number, node in enumerate(document.get("nodes", []), 1):
        yield f"\nnode{number} = robot.node({node['name']!r})"
        yield from (f"node{number}.{it['kind']}({it['name']!r})" for it in node.get("groups", []))
        for kind, noun in grammar.ENTITIES.items():
            yield from (call_of(f"node{number}.{METHODS.get(noun, noun)}", kind, it) for it in node.get(kind, []))
    yield ""
    if document.get("moments"):
        yield moments_of(document["moments"])
    yield from map(fed_of, document.get("feed", []))
    yield "robot.write()"


METHODS = {"action server": "action", "action client": "action_client"}


def call_of(method: str, kind: str, entity: Fields) -> str:
    """The call that declares an entity."""
    words = [repr(entity["name"])]
    if kind == "actions" and "on_goal" not in entity:
        words.append("on_goal=None")
    if kind == "actions" and "script" not in entity:
        words.append("script=None")
    for name in grammar.OBJECTS[grammar.ENTITIES[kind]]:
        if name in entity and name != "name":
            words.append(f"{name}={script_of(entity[name]) if name in grammar.SCRIPTS[kind] else repr(entity[name])}")
    return f"{method}({', '.join(words)})"


def moments_of(moments: List[int]) -> str:
    """The call that gives the moments: by their distance if that is always the same."""
    steps = {after - before for before, after in zip(moments, moments[1:])}
    if len(steps) == 1 and min(steps) > 0 and len(moments) > 3:
        begin = f", begin={moments[0]}" if moments[0] else ""
        return f"robot.every({min(steps)}, until={moments[-1]}{begin})"
    return f"robot.moments({', '.join(map(str, moments))})"


def fed_of(entry: Fields) -> str:
    at = f"round={entry['round']}"
    if "topic" in entry:
        return f"robot.message({entry['topic']!r}, {entry['value']}, {at})"
    if "goal" in entry:
        return f"robot.goal({entry['action']!r}, {entry['goal']!r}, {entry['value']}, {at})"
    stamp = f", stamp={entry['stamp']}" if "stamp" in entry else ""
    return f"robot.cancel({entry['action']!r}, {entry['cancel']!r}{stamp}, {at})"
