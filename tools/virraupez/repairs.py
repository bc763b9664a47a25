"""What to write in place of what is wrong. Whoever follows one of these hints has one fault less, and no new meaning.

Each begins with what to do at the place of the fault: `write X` is X in place of what stands there, `rename A to B` is of a field,
`add X` is a field of the object, and `in place of the instruction write X` is of the whole instruction."""
from __future__ import annotations

import bisect
import json
import re

from . import TYPE_CHECKING, assembler, ticks
from . import grammar as g

if TYPE_CHECKING:
    from typing import Any, Dict, List, Optional, Tuple

    from .shapes import Fields, Form, Instruction, Key, Path, Script

# What users write in place of a field that is required.
ALIASES = {
    "round": ("at", "time", "moment", "when", "t", "tick"),
    "period": ("rate", "frequency", "interval", "every", "period_ms", "ticks"),
    "topic": ("topic_name", "subscribes", "subscribe", "to"),
    "service": ("service_name", "srv", "server", "srv_name"),
    "action": ("server", "action_name", "action_server", "name_of_action"),
    "value": ("data", "msg", "message", "payload", "request"),
    "name": ("id", "node", "label", "title"),
    "kind": ("type", "group_type"),
}
# The fields whose false may be left out, with what the document has then.
WITHOUT: Dict[Key, str] = {"result_timeout": "results are kept without end", "group": "the node's default group", "on_result": "the client asks for no results"}
NAMED = {"T": "a topic", "C": "a service client of the node", "K": "an action client of the node", "X": "a server of the node"}
LEAST: Dict[Key, int] = {"period": 1, "depth": 1, "round": 1, "version": 1}


# What is longer is told by what it is made of.
LONGEST = 300


def written(value: Any) -> str:
    """A value as JSON; nothing if it is long, or has a number that no field takes."""
    try:
        text = json.dumps(value, ensure_ascii=False)
    except TypeError:
        return ""
    return text if len(text) <= LONGEST else ""


def write(value: Any, says: str = "", otherwise: str = "") -> str:
    text = written(value)
    return f"write {text}" + (f": {says}" if says else "") if text else otherwise


# ---- values of another form


def of_value(value: Any, form: Form, path: Path, owner: Optional[str] = None) -> str:
    """A hint for a value of another form; nothing if a general one will do."""
    field = path[-1] if path else ""
    if value is None:
        return of_null(field, owner)
    if form == g.SCRIPT:
        return of_script(value, field)
    if form == ["word"]:
        return of_instruction(value)
    if isinstance(form, list):
        return of_list(value, form[0], field)
    if isinstance(value, bool):
        return of_truth(value, form, field, owner)
    return of_single(value, form, field)


def of_null(field: Key, owner: Optional[str]) -> str:
    if isinstance(field, int):
        return "leave it out"
    if field in g.REQUIRED.get(owner or "", ()):
        return f"{article(owner or '')} needs it" if field != "version" else write(1, "2 is the version that has the field `order`")
    return "leave the field out"


def of_truth(value: Any, form: str, field: Key, owner: Optional[str]) -> str:
    """A hint for true and false, which nothing in a document is."""
    if form in ("count", "value"):
        if not value and field not in g.REQUIRED.get(owner or "", ()) and isinstance(field, str):
            return "leave the field out" + (f": {WITHOUT[field]}" if field in WITHOUT else "")
        return write(max(int(value), LEAST.get(field, 0))) if field != "result_timeout" else ""
    if field == "group":
        return "leave the field out: " + WITHOUT[field]
    return ""


def of_single(value: Any, form: str, field: Key) -> str:
    if form == "text":
        if type(value) is int and field in ("goal", "cancel") and value >= 0:
            return write(g.hyphenated(value), "an identifier has 32 digits")
        if isinstance(value, dict) and g.is_text(value.get("name")):
            return write(value["name"], "a name alone stands there")
        return ""
    if form in ("count", "value") and g.is_text(value):
        number = re.fullmatch(r"\s*(-?(?:0|[1-9][0-9]{0,17}))\s*([a-zA-Z]+|%)\s*", value)
        found, says = ticks.unitless(int(number[1]), number[2]) if number else (None, "")
        return write(found, says) if found is not None else ""
    if form in g.OBJECTS and g.is_text(value) and g.REQUIRED[form] == ("name",):
        return write({"name": value})
    return ""


def of_list(value: Any, form: Form, field: Key) -> str:
    """A hint for what stands in place of a list of some things."""
    if field == "moments":
        return write(moments(value) or [0, 10, 20], "each moment at which the executor looks at the world, in ticks")
    if value in ("", {}) or value is False:
        return "leave the field out"
    if isinstance(value, dict) and not {"name", "round"} & set(value):
        if form == "text":
            return write(list(value), "the names alone, in a list", "put the names in a list")
        if all(isinstance(it, dict) for it in value.values()):
            named = [{"name": name, **it} for name, it in value.items()]
            return write(named, "a list, of which each has its name", 'put them in a list, each with its field "name"')
    if isinstance(value, dict) and form != "text" or g.is_text(value) and form == "text":
        return write([value], "a list, be it of one", "put it in a list: [ ]")
    return ""


def moments(value: Any) -> List[int]:
    """The moments that something else than a list is meant for."""
    if g.is_text(value):
        return sorted(int(it) for it in re.findall("(?<![0-9.])[0-9]{1,18}(?![0-9.])", value[:LONGEST]))
    if isinstance(value, dict):
        every, until, begin = (next((value[it] for it in names if g.is_count(value.get(it))), None) for names in RANGE)
        return list(range(begin or 0, until + 1, every)) if every and until is not None and until // every <= 60 else []
    return [value] if g.is_count(value) else []


RANGE = (("every", "step", "period", "by"), ("until", "to", "end", "stop"), ("from", "begin", "start"))


# ---- scripts and instructions


def of_script(value: Any, field: Key) -> str:
    """A hint for what stands in place of a script."""
    if g.is_text(value):
        made = assembled(value)
        return write(made, "a list of instructions", LISTED) if made is not None else LISTED
    if value is True and field in ("on_goal", "on_cancel"):
        return write([["decide", 2]], "2 accepts")
    if value is True and field == "on_result":
        return write([], "the client asks for results")
    if isinstance(value, bool):
        return "leave the field out" + (f": {WITHOUT[field]}" if field in WITHOUT else "")
    return LISTED


LISTED = 'a script is a list of instructions, as [["log", "in"]]'


def flat(script: List[Any]) -> Optional[Script]:
    """The instructions that a list of words is meant for; None if it is a list of instructions, or isn't understood."""
    if not 0 < len(script) <= g.INSTRUCTIONS or not all(map(g.is_word, script)):
        return None
    if g.is_text(script[0]) and script[0] in (*g.WORDS, "cancel"):
        return [script]
    return assembled("\n".join(map(str, script)))


def of_instruction(value: Any) -> str:
    """A hint for what stands in place of one instruction among others."""
    if not g.is_text(value):
        return ""
    made = assembled(value)
    return write(made[0], "an instruction is a list") if made and len(made) == 1 else 'an instruction is a list, as ["log", "in"]'


def assembled(text: str) -> Optional[Script]:
    """The instructions of a text that is a script with labels, or None."""
    try:
        return assembler.script(text[: 10 * LONGEST]) or None
    except assembler.ScriptError:
        return None


def of_word(instruction: Instruction, at: int) -> str:
    """A hint for an item of an instruction that is neither a text nor an integer."""
    word, value = instruction[0], instruction[at]
    forms = forms_of(instruction)
    form = forms[at - 1] if forms is not None and 0 < at <= len(forms) else None
    if value is None and forms is not None and at > len(forms):
        return "leave it out"
    if isinstance(value, dict) and g.is_text(value.get("name")):
        return write(value["name"])
    if isinstance(value, list):
        single = len(value) == 1 and g.is_word(value[0])
        return write(value[0]) if single else 'an item is a text or a number: compute it before, by ["set", D, O, A, B]'
    if form in NAMED:
        return f"the name of {NAMED[form]} stands there, in double quotes"
    if word == "decide" and isinstance(value, bool):
        return write(2 if value else 1, DECISIONS)
    if word == "decide" and value is None:
        return DECISIONS
    if form == "n" and (value is None or isinstance(value, bool)):
        return write(1, "how many instructions are passed over")
    if form in ("A", None) and isinstance(value, bool):
        return write(int(value))
    return "write 0, or another operand" if value is None and form == "A" else ""


DECISIONS = "2 accepts, 1 rejects or refuses"


def forms_of(instruction: Instruction) -> Optional[str]:
    """The forms of an instruction's items by its word, as many as there are."""
    word = instruction[0]
    if word == "cancel" and len(instruction) > 2 and g.is_text(instruction[2]):
        return "KF" + g.CANCELS[instruction[2]] if instruction[2] in g.CANCELS else None
    return g.WORDS.get(word) if g.is_text(word) else None


# ---- words that users of other systems write


def instead(*instructions: Instruction) -> str:
    return "in place of the instruction write " + ", ".join(map(written, instructions))


def of_other_word(instruction: Instruction, role: str) -> str:
    """The instruction that is meant by one with another word, if it is plain."""
    word, items = instruction[0].lower(), instruction[1:]
    made = None
    if word in g.OPERATIONS and len(items) in (2, 3):
        made = ["set", items[0], word, *(items if len(items) == 2 else items[1:])]
    elif word in ("mov", "let", "assign") and len(items) == 2:
        made = ["set", items[0], "add", items[1], 0]
    elif word in RENAMED:
        made = [RENAMED[word], *items]
    elif word in DECIDED and role == "handler":
        made = ["decide", DECIDED[word]]
    elif word in ("return", "respond") and len(items) == 1:
        made = [{"service": "reply", "handler": "decide", "goal": "succeed"}.get(role, ""), *items]
    return instead(made) if made and g.forms_of(made) and g.ONLY.get(made[0], role) == role else ""


RENAMED = {
    **dict.fromkeys(("publish", "emit"), "pub"),
    **dict.fromkeys(("print", "info", "rclcpp_info", "echo"), "log"),
    **dict.fromkeys(("send_goal", "async_send_goal", "send"), "goal"),
    **dict.fromkeys(("sleep", "delay"), "wait"),
    **dict.fromkeys(("send_request", "async_send_request", "request"), "call"),
    **dict.fromkeys(("success", "succeeded"), "succeed"),
    **dict.fromkeys(("aborted", "fail"), "abort"),
    **dict.fromkeys(("cancelled",), "canceled"),
    **dict.fromkeys(("publish_feedback",), "feedback"),
}
DECIDED = {"accept": 2, "reject": 1, "defer": 3}
# Signs of operations: the operation, whether its operands are exchanged, and whether its truth is.
EXCHANGED = {">": ("lt", True, False), "gt": ("lt", True, False), "<=": ("lt", True, True), "le": ("lt", True, True), ">=": ("lt", False, True), "ge": ("lt", False, True)}
NEGATED = {**EXCHANGED, "!=": ("eq", False, True), "ne": ("eq", False, True)}


def of_operation(instruction: Instruction) -> str:
    """A hint for an operation that there is in another form."""
    _, to, word, one, other = instruction
    word = str(word).lower()
    if word in NEGATED:
        operation, exchanged, negated = NEGATED[word]
        made = [["set", to, operation, *((other, one) if exchanged else (one, other))]]
        return instead(*made, *[["set", to, "eq", to, 0]] * negated) + "; a skip over it counts one more" * negated
    return {"=": "add, with 0", "mov": "add, with 0"}.get(word, "")


# ---- fields


def article(noun: str) -> str:
    return f"{'an' if noun[0] in 'aeiou' else 'a'} {noun}"


def version_with(order: object) -> int:
    """The version that a document is meant to have, by its order."""
    return g.SINCE["order"] if g.is_order(order) else g.VERSIONS[0]


def of_missing(name: str, owner: str, fields: Fields) -> str:
    """A hint for a field that is missing, by those that the object has."""
    if name == "version":
        return f'add "version": {version_with(fields.get("order"))}'
    other = next((it for it in ALIASES.get(name, ()) if it in fields and it not in g.OBJECTS[owner]), None)
    if other is None:
        return ""
    if name == "round":
        return f"`{other}` is no field: an entry has the number of its `round`, counted from 1"
    return f"rename `{other}` to `{name}`"


def of_entry(fields: Fields) -> str:
    """A hint for an entry of the feed that is none of the three: what it has beside tells which is meant."""
    if "action" not in fields:
        other = next((it for it in ALIASES["topic"] if it in fields), None)
        return f"rename `{other}` to `topic`" if other else ""
    name = "goal" if "value" in fields else "cancel"
    other = next((it for it in ("uuid", "id", "goal_id", "goal_uuid") if it in fields), None)
    if other:
        return f"rename `{other}` to `{name}`"
    if name == "goal":
        return f'add "goal": "{g.hyphenated(1)}", the identifier of the goal'
    return f'add "cancel": "{g.hyphenated(0)}", which cancels all goals'


def of_moment(moment: int, moments: List[int], highest: List[int]) -> Tuple[Optional[int], str]:
    """The round of a moment: the first one at or after it, as a number from 1, and a hint that says so. The highest of all moments up
    to each are known."""
    found = bisect.bisect_left(highest, moment) + 1
    if found > len(moments):
        return None, ""
    how = "is the moment of" if moments[found - 1] == moment else "is before the moment of"
    return found, f"{moment} {how} round {found}"
