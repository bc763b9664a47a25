"""The grammar of documents, as the tables of docs/document.md have it: objects with their fields, instructions, limits, codes."""
from __future__ import annotations

import re

from . import TYPE_CHECKING

if TYPE_CHECKING:
    from typing import Callable, Dict, List, Optional, Tuple
    from typing_extensions import TypeGuard

    from .shapes import Document, Fields, Form, Instruction

MOST_BYTES = 16777216
VERSIONS, ORDERS = (1, 2), ("kind", "arrival")
LATEST, DEPTH, INSTRUCTIONS = 2**62, 1024, 256
TOPICS, NODES, GROUPS, ENTITIES_AT_MOST, MOMENTS, ENTRIES = 256, 64, 256, 512, 65536, 65536
CODES = {
    1: "NotJson",
    2: "Shape",
    3: "Version",
    4: "Name",
    5: "Limit",
    6: "Script",
    7: "GroupVariable",
    8: "Clock",
    9: "Id",
    10: "Memory",
}

# ---- objects


def is_count(value: object) -> TypeGuard[int]:
    return type(value) is int and value >= 0


def is_value(value: object) -> TypeGuard[int]:
    return type(value) is int and value < 2**63


def is_text(value: object) -> TypeGuard[str]:
    return isinstance(value, str)


def is_number(text: str) -> bool:
    """Whether a text is a number in decimal digits, of no more than 64 bits need. isdigit alone takes ² too, which int doesn't
    read, and int reads no text of thousands of digits."""
    return text.isascii() and text.isdigit() and len(text) <= 20


def is_kind(value: object) -> bool:
    return value in ("exclusive", "reentrant") if is_text(value) else False


def is_order(value: object) -> bool:
    return value in ORDERS if is_text(value) else False


def is_word(value: object) -> bool:
    return isinstance(value, str) or is_value(value)


def is_instruction(value: object) -> bool:
    if not isinstance(value, list):
        return False
    # A list of millions of numbers is asked of as a whole.
    types = set(map(type, value))
    return types == {int} and max(value) < 2**63 or types <= {str, int} and all(map(is_word, value))


# Forms of single values: the test, and how a person reads what is wanted.
SINGLE: Dict[str, Tuple[Callable[[object], bool], str]] = {
    "count": (is_count, "an integer from 0 to 18446744073709551615"),
    "value": (is_value, "an integer from -9223372036854775808 to 9223372036854775807"),
    "text": (is_text, "a text in double quotes"),
    "kind": (is_kind, '"exclusive" or "reentrant"'),
    "order": (is_order, '"kind" or "arrival"'),
    "word": (is_word, "a text or an integer of 64 bits"),
}
SCRIPT: List[Form] = [["word"]]
ENTITY: Dict[str, Form] = {"name": "text", "group": "text"}
# Each object's fields with their forms: one of SINGLE, another object, or a list of one.
OBJECTS: Dict[str, Dict[str, Form]] = {
    "document": {"version": "count", "order": "order", "topics": ["text"], "nodes": ["node"], "moments": ["count"], "feed": ["entry"]},
    "node": {
        "name": "text",
        "groups": ["group"],
        "timers": ["timer"],
        "subscriptions": ["subscription"],
        "services": ["service"],
        "clients": ["client"],
        "actions": ["action server"],
        "action_clients": ["action client"],
    },
    "group": {"name": "text", "kind": "kind"},
    "timer": {**ENTITY, "period": "count", "script": SCRIPT},
    "subscription": {**ENTITY, "topic": "text", "depth": "count", "script": SCRIPT},
    "service": {**ENTITY, "depth": "count", "script": SCRIPT},
    "client": {**ENTITY, "service": "text", "depth": "count", "script": SCRIPT},
    "action server": {**ENTITY, "depth": "count", "result_timeout": "count", "on_goal": SCRIPT, "on_cancel": SCRIPT, "script": SCRIPT},
    "action client": {
        **ENTITY,
        "action": "text",
        "depth": "count",
        "on_response": SCRIPT,
        "on_code": SCRIPT,
        "on_feedback": SCRIPT,
        "on_result": SCRIPT,
    },
    "message": {"round": "count", "topic": "text", "value": "value"},
    "goal request": {"round": "count", "action": "text", "goal": "text", "value": "value"},
    "cancel request": {"round": "count", "action": "text", "cancel": "text", "stamp": "count"},
}
REQUIRED: Dict[str, Tuple[str, ...]] = {
    "document": ("version",),
    "node": ("name",),
    "group": ("name", "kind"),
    "timer": ("name", "period"),
    "subscription": ("name", "topic"),
    "service": ("name",),
    "client": ("name", "service"),
    "action server": ("name",),
    "action client": ("name", "action"),
    "message": ("round", "topic", "value"),
    "goal request": ("round", "action", "goal", "value"),
    "cancel request": ("round", "action", "cancel"),
}
# The field of a document that names its schema for editors. The program ignores it, and the tools keep it.
SCHEMA = "$schema"
# The fields of a document that version 1 hasn't, with the version that has them.
SINCE = {"order": 2}
# The field by which each form of an entry is known.
FED = {"topic": "message", "goal": "goal request", "cancel": "cancel request"}
# Each list of entities with its object, in the order of their numbers.
ENTITIES = {
    "timers": "timer",
    "subscriptions": "subscription",
    "services": "service",
    "clients": "client",
    "actions": "action server",
    "action_clients": "action client",
}
# Each kind's scripts, with what may stand in them beside what all scripts have.
SCRIPTS = {
    "timers": {"script": "callback"},
    "subscriptions": {"script": "callback"},
    "services": {"script": "service"},
    "clients": {"script": "callback"},
    "actions": {"on_goal": "handler", "on_cancel": "handler", "script": "goal"},
    "action_clients": {"on_response": "callback", "on_code": "callback", "on_feedback": "callback", "on_result": "callback"},
}
# What an entity refers to: its field, and whose names count.
REFERS = {"subscriptions": ("topic", "topics"), "clients": ("service", "services"), "action_clients": ("action", "actions")}


def forms_in(owner: str, fields: Fields) -> Dict[str, Form]:
    """The fields that an object may have, with their forms: those of a document by its version."""
    if owner != "document":
        return OBJECTS[owner]
    return {name: form for name, form in OBJECTS[owner].items() if name not in SINCE or fields.get("version") == SINCE[name]}


def order_of(document: Document) -> str:
    """The order of ready callbacks that a lawful document says."""
    return document.get("order", ORDERS[0]) if document["version"] == SINCE["order"] else ORDERS[0]


# ---- scripts

# What the items behind an instruction's word are: D a destination, O an operation, A an operand, n a length, T a topic, C a
# client, K an action client, X a server.
WORDS = {
    "set": "DOAA",
    "skip": "An",
    "pub": "TA",
    "call": "CA",
    "goal": "KA",
    "execute": "X",
    "log": "A",
    "reply": "A",
    "decide": "A",
    "feedback": "A",
    "wait": "A",
    "yield": "",
    "succeed": "A",
    "abort": "A",
    "canceled": "A",
}
CANCELS = {"all": "", "before": "A", "goal": "A", "goal-before": "AA"}
ENDINGS = ("succeed", "abort", "canceled")
OPERATIONS = ("add", "sub", "mul", "min", "max", "lt", "eq")
# The scripts in which an instruction may stand, where it may not in all.
ONLY = {"reply": "service", "decide": "handler", **dict.fromkeys(("feedback", "wait", "yield", *ENDINGS), "goal")}
PLACES = {
    "callback": "a callback's script",
    "service": "a service's `script`",
    "handler": "a server's `on_goal` and `on_cancel`",
    "goal": "a server's `script`",
}
OPERANDS = ("r0", "r1", "r2", "r3", "r4", "r5", "r6", "r7", "g0", "g1", "g2", "g3", "g4", "g5", "g6", "g7", "in", "aux", "now")
CELLS = OPERANDS[:16]
VARIABLES = OPERANDS[8:16]

# ---- texts

NAME = re.compile("[A-Za-z0-9_/]{1,64}")
DIGIT = "[0-9A-Fa-f]"
HYPHENATED = f"{DIGIT}{{8}}-{DIGIT}{{4}}-{DIGIT}{{4}}-{DIGIT}{{4}}-{DIGIT}{{12}}"
IDENTIFIER = re.compile(f"{DIGIT}{{32}}|{HYPHENATED}|{{{HYPHENATED}}}|[Uu][Rr][Nn]:[Uu][Uu][Ii][Dd]:{HYPHENATED}")


def identifier(text: str) -> int:
    """The number of an identifier's text."""
    return int(re.sub("^urn:uuid:|[{}-]", "", text, flags=re.I), 16)


def hyphenated(number: int) -> str:
    """An identifier as a transcript has it."""
    text = f"{number:032x}"
    return f"{text[:8]}-{text[8:12]}-{text[12:16]}-{text[16:20]}-{text[20:]}"


def forms_of(instruction: Instruction) -> Optional[Tuple[str, Instruction]]:
    """The forms of an instruction's items, and the items; None where its word is none or it has another number of items."""
    word, items = instruction[0] if instruction else None, instruction[1:]
    if word == "cancel":
        form = items[1] if len(items) > 1 else None
        forms = CANCELS.get(form) if is_text(form) else None
        items = [items[0], *items[2:]] if forms is not None else items
        forms = "K" + forms if forms is not None else None
    else:
        forms = WORDS.get(word) if is_text(word) else None
    return (forms, items) if forms is not None and len(forms) == len(items) else None
