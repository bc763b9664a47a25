"""What may help where something is wrong: the nearest of some names, what users of other systems call a thing, and how a
value of another form is written."""
from __future__ import annotations

import difflib

from . import grammar as g
from . import TYPE_CHECKING, json_text

if TYPE_CHECKING:
    from typing import Dict, Iterable, Optional, Tuple

    from .faults import Fault
    from .shapes import Form

# What is often written, with the fields that this grammar has for it.
FIELDS: Dict[str, Tuple[str, ...]] = {
    **dict.fromkeys(("callback", "on_timer", "on_message", "on_request", "execute", "instructions", "code"), ("script",)),
    **dict.fromkeys(("handle_goal", "goal_callback", "on_goal_request"), ("on_goal",)),
    **dict.fromkeys(("handle_cancel", "cancel_callback", "on_cancel_request"), ("on_cancel",)),
    **dict.fromkeys(("goal_response_callback", "on_goal_response"), ("on_response",)),
    **dict.fromkeys(("feedback_callback",), ("on_feedback",)),
    **dict.fromkeys(("result_callback",), ("on_result",)),
    **dict.fromkeys(("queue_size", "queue", "qos", "history", "queue_depth"), ("depth",)),
    **dict.fromkeys(("callback_group",), ("group",)),
    **dict.fromkeys(("callback_groups",), ("groups",)),
    "type": ("kind",),
    "period_ms": ("period",),
    "timeout": ("result_timeout",),
    **dict.fromkeys(("data", "msg", "message"), ("value",)),
    "times": ("moments",),
    "action_servers": ("actions",),
    "service_servers": ("services",),
    "subscribers": ("subscriptions",),
    "service_clients": ("clients",),
    "inputs": ("feed",),
    **dict.fromkeys(("uuid", "id"), ("goal", "cancel")),
}
# What is often written and needs no field here.
PUBLISHES = 'nothing is declared for it: any script publishes with ["pub", TOPIC, VALUE]'
REMARKS = {
    "publishers": PUBLISHES,
    "publisher": PUBLISHES,
    **dict.fromkeys(("rate", "frequency", "hz"), "a timer has a `period`, in ticks"),
    **dict.fromkeys(("at", "time", "moment", "when"), "an entry has its `round`, counted from 1, and no moment"),
}
WORDS = {
    "publish": '["pub", TOPIC, VALUE]',
    "print": '["log", VALUE]',
    "send_goal": '["goal", CLIENT, VALUE]',
    "send": '["pub", TOPIC, VALUE] or ["goal", CLIENT, VALUE]',
    "if": '["skip", A, n] passes the next n over where A is not 0',
    "goto": '["skip", 1, n] passes the next n over',
    "jump": '["skip", 1, n] passes the next n over',
    "sleep": '["wait", TICKS], in a goal\'s script',
    "accept": '["decide", 2]',
    "reject": '["decide", 1]',
    "defer": '["decide", 3]',
    "return": '["reply", VALUE], ["decide", N] or an ending',
    "respond": '["reply", VALUE]',
    "cancelled": '["canceled", VALUE]',
    "mov": '["set", D, "add", A, 0]',
    "else": "a skip behind the first part passes the second over",
    "loop": "a script never goes back: a goal's script begins at its top again in the next round",
    "while": "a script never goes back: a goal's script begins at its top again in the next round",
    **{word: f'["set", D, "{word}", A, B]' for word in ("add", "sub", "mul", "min", "max", "lt", "eq")},
}
OPERATIONS = {
    **{"+": "add", "-": "sub", "*": "mul", "<": "lt", "==": "eq", "plus": "add", "minus": "sub", "times": "mul", "less": "lt", "equal": "eq"},
    **{"&": "mul", "&&": "mul", "and": "mul", "|": "max", "||": "max", "or": "max"},
    **dict.fromkeys(("/", "div", "mod", "%"), ""),
}
KINDS = {
    "mutuallyexclusive": "exclusive",
    "mutually_exclusive": "exclusive",
    "mutually exclusive": "exclusive",
    "mutuallyexclusivecallbackgroup": "exclusive",
    "mutually_exclusive_callback_group": "exclusive",
    "reentrantcallbackgroup": "reentrant",
    "reentrant_callback_group": "reentrant",
    "re-entrant": "reentrant",
    "parallel": "reentrant",
}
ORDERS = {
    **dict.fromkeys(("arrivals", "fifo", "events", "eventsexecutor", "events_executor"), "arrival"),
    **dict.fromkeys(("kinds", "waitset", "wait_set", "singlethreadedexecutor", "single_threaded_executor"), "kind"),
}
# The texts that a form has, with what is often written for them.
TEXTS = {"kind": (("exclusive", "reentrant"), KINDS), "order": (g.ORDERS, ORDERS)}
# A word that is compared with more names than these takes too long, and so do names of more characters in all the work on a document.
NAMES, CHARACTERS = 2000, 100000


class Left:
    """How many characters of names may still be compared."""

    characters = CHARACTERS

    @staticmethod
    def begin() -> None:
        """Begins the work on a document."""
        Left.characters = CHARACTERS


def nearest(word: str, names: Iterable[str], least: float = 0.6) -> Optional[str]:
    """The name that is nearest to a word, or None if none is near or too much was compared."""
    among: Dict[str, str] = {}
    for name in names:
        if len(among) == NAMES or Left.characters <= 0:
            break
        Left.characters -= len(str(name))
        among.setdefault(str(name).lower(), name)
    found = difflib.get_close_matches(word.lower()[:80], among, 1, least)
    return among[found[0]] if found else None


def meant(word: str, names: Iterable[str]) -> str:
    """A hint for a word that is none of some names."""
    near = nearest(word, names)
    return f"did you mean {near}?" if near is not None else ""


# ---- of a fault


def hint(fault: Fault, stands: str) -> str:
    """A hint for a fault, by what stands at its place."""
    own = fault.hint() if callable(fault.hint) else fault.hint
    word = stands.strip('"')
    if own or fault.missing:
        near = nearest(fault.missing, fault.names) if fault.missing and fault.code and not own else None
        return f"rename `{near}` to `{fault.missing}`" if near else own
    if fault.kind == "Instruction" and word.lower() in WORDS:
        return f"{WORDS[word.lower()]} stands for it here"
    if fault.form == "O" and word.lower() in OPERATIONS:
        return OPERATIONS[word.lower()] and f'write "{OPERATIONS[word.lower()]}"' or "no operation divides"
    if fault.code == 2:
        return of_form(fault, stands, word)
    return meant(word if fault.at == "value" else str(fault.path[-1]), fault.names) if fault.names else ""


def of_form(fault: Fault, stands: str, bare: str) -> str:
    """A hint for a number in quotes, one that isn't whole, and what stands in place of a text."""
    is_number = fault.form in ("count", "value", "word")
    if isinstance(fault.form, str) and fault.form in TEXTS and stands[:1] == '"':
        texts, others = TEXTS[fault.form]
        text = bare.lower() if bare.lower() in texts else others.get(bare.lower())
        return f'write "{text}"' if text else meant(bare, texts)
    if json_text.INTEGER(bare + " ") and not bare.lstrip("-").strip("0123456789"):
        return of_integer(stands, bare, is_number, fault.form)
    number = json_text.DECIMAL(bare + " ")
    return of_fraction(float(bare)) if is_number and number and number.end() == len(bare) else ""


def of_integer(stands: str, bare: str, is_number: bool, form: Optional[Form]) -> str:
    if stands != bare:
        return f"write {bare} without quotes" if is_number else ""
    if form == "text":
        return f'write "{bare}"'
    return "" if not is_number else "write 0" if bare == "-0" else "numbers end at 64 bits" if len(bare) > 18 else ""


def of_fraction(number: float) -> str:
    if number == int(number) and abs(number) < 2**53:
        return f"write {int(number)}"
    return "numbers are integers: choose a smaller unit for the tick, or for the value"
