"""The faults of scripts, by docs/document.md ("Scripts"): of each instruction the first in the order of the page's table."""
from __future__ import annotations

import re

from . import grammar as g
from . import TYPE_CHECKING, repairs
from .faults import Fault, unknown

if TYPE_CHECKING:
    from typing import Collection, Dict, Iterator, Mapping, Optional, Tuple

    from .declarations import Declared, Entity, Node
    from .shapes import Instruction, Item, Path

# What an item of each form takes, as a person reads it.
WANTED = {
    "D": "a destination: r0 to r7 or g0 to g7",
    "O": "an operation: " + ", ".join(g.OPERATIONS),
    "A": "an operand: a value, r0 to r7, g0 to g7, in, aux or now",
    "n": "a written number of instructions, at least 1",
}
NAMED: Dict[str, Tuple[str, bool]] = {"T": ("topics", False), "C": ("clients", True), "K": ("action_clients", True), "X": ("actions", True)}
# How each instruction is spelled.
SPELLED = {
    "set": '["set", D, O, A, B]',
    "skip": '["skip", A, n]',
    "pub": '["pub", TOPIC, A]',
    "call": '["call", CLIENT, A]',
    "goal": '["goal", CLIENT, A]',
    "cancel": '["cancel", CLIENT, "all"], ["cancel", CLIENT, "before", STAMP], ["cancel", CLIENT, "goal", NUMBER] '
    'or ["cancel", CLIENT, "goal-before", NUMBER, STAMP]',
    "execute": '["execute", SERVER]',
    "yield": '["yield"]',
    **{word: f'["{word}", A]' for word in ("log", "reply", "decide", "feedback", "wait", "succeed", "abort", "canceled")},
}


def faults(declared: Declared) -> Iterator[Fault]:
    """Faults of all scripts: those of the code 6 and those of the code 7."""
    own: Dict[Node, Dict[str, Dict[str, None]]] = {}
    for entity in declared.entities:
        if entity.name is not None:
            own.setdefault(entity.node, {}).setdefault(entity.kind, {}).setdefault(entity.name, None)
    for entity in declared.entities:
        group = entity.field("group", "text")
        reentrant = group is not None and entity.node.kinds.get(group) == "reentrant"
        for name, role, instructions, length in entity.scripts():
            of_node: Dict[str, Dict[str, None]] = own.get(entity.node, {})
            names: Dict[str, Collection[str]] = {**of_node, "topics": declared.named["topics"]}
            for at, instruction in instructions:
                path = entity.path + (name, at)
                fault = spelling(instruction, path) or naming(declared, entity, instruction, path, names) or legality(instruction, role, at, length, path)
                if fault:
                    yield fault
                elif reentrant:
                    yield from variables(instruction, group, path)


def spelling(instruction: Instruction, path: Path) -> Optional[Fault]:
    """The fault of an instruction's word, its number of items or their forms."""
    word = instruction[0] if instruction else None
    if word is None:
        return Fault(6, path, "an instruction's word and its items", "leave an empty instruction out", kind="Instruction")
    if not g.is_text(word) or word not in SPELLED:
        hint = repairs.of_other_word(instruction, g.SCRIPTS[str(path[2])][str(path[4])]) if g.is_text(word) else ""
        return Fault(6, path + (0,), "an instruction's word: " + ", ".join(SPELLED), hint, SPELLED, kind="Instruction")
    if word == "cancel" and len(instruction) >= 3 and instruction[2] not in g.CANCELS:
        return Fault(6, path + (2,), "a form of cancel: " + ", ".join(g.CANCELS), names=g.CANCELS, kind="Operand")
    of = g.forms_of(instruction)
    if of is None:
        return Fault(6, path, SPELLED[word], f"it has {len(instruction)} items", kind="Count")
    return operand(path, word, *of)


def operand(path: Path, word: str, forms: str, items: Instruction) -> Optional[Fault]:
    """The fault of the first item that isn't what its place takes."""
    places = [1, *range(3, 3 + len(items) - 1)] if word == "cancel" else range(1, 1 + len(items))
    for place, form, item in zip(places, forms, items):
        if form in NAMED:
            if not g.is_text(item):
                return Fault(6, path + (place,), "a name, in double quotes", kind="Operand")
        elif not is_item(form, item):
            names = {"D": g.CELLS, "O": g.OPERATIONS, "A": g.OPERANDS, "n": ()}[form]
            hint = operand_hint(form, item) if form != "O" else repairs.of_operation([word, *items])
            return Fault(6, path + (place,), WANTED[form], hint, names, form, kind="Operand")
    return None


def is_item(form: str, item: Item) -> bool:
    if form == "n":
        return isinstance(item, int) and item >= 1
    if form == "A":
        return not g.is_text(item) or item in g.OPERANDS
    return item in (g.CELLS if form == "D" else g.OPERATIONS)


def operand_hint(form: str, item: Item) -> str:
    if form == "D" and item in ("in", "aux", "now"):
        return f"{item} can only be read"
    if form in "An" and g.is_text(item) and g.is_number(item[item.startswith("-") :]):
        return f"write {item} without quotes"
    if form == "n" and item in g.OPERANDS:
        return "the length of a skip is written, and can't be computed"
    bank = re.fullmatch("([rg])[0-9]+", item) if form in "DA" and g.is_text(item) else None
    return f"there are {bank[1]}0 to {bank[1]}7" if bank else ""


def naming(declared: Declared, entity: Entity, instruction: Instruction, path: Path, names: Mapping[str, Collection[str]]) -> Optional[Fault]:
    """The fault of a name that nothing has, or something of another kind or node."""
    forms, items = g.forms_of(instruction) or ("", [])
    if forms[:1] not in NAMED:
        return None
    kind, own = NAMED[forms[0]]
    among = names.get(kind, {})
    if items[0] in among:
        return None
    return unknown(declared, 6, path + (1,), items[0], kind, among, f" of the script's own node {entity.node.name}" if own else "")


def legality(instruction: Instruction, role: str, at: int, length: int, path: Path) -> Optional[Fault]:
    """The fault of a skip beyond the end, or of an instruction out of place."""
    word = instruction[0]
    if word == "skip" and at + 1 + instruction[2] > length:
        behind = length - at - 1
        wanted = f"at most {behind}: as many instructions stand behind it" if behind else "an instruction behind it that can be passed over"
        return Fault(6, path + (2,), wanted, f"write {behind}: the script ends behind them" if behind else "", kind="Skip")
    if g.ONLY.get(word, role) != role:
        return Fault(6, path + (0,), f"an instruction of {g.PLACES[role]}", f"`{word}` stands in {g.PLACES[g.ONLY[word]]} alone", kind="Place")
    return None


def variables(instruction: Instruction, group: str, path: Path) -> Iterator[Fault]:
    """Faults of group variables in a reentrant group."""
    forms, _ = g.forms_of(instruction) or ("", [])
    places = [1, *range(3, len(instruction))] if instruction[0] == "cancel" else range(1, len(instruction))
    for form, place in zip(forms, places):
        if form in "DA" and instruction[place] in g.VARIABLES:
            hint = f"the group {group} is reentrant, and has no variables; make it exclusive, or use a register"
            yield Fault(7, path + (place,), "no group variable", hint)
