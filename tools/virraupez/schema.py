"""The JSON Schema of documents (draft 7), made from the tables of the grammar, so that both have the same fields and forms."""
from __future__ import annotations

from . import TYPE_CHECKING
from . import grammar as g

if TYPE_CHECKING:
    from typing import Any, Dict, Iterable, List, Tuple

    from .shapes import Fields, Form

ABOUT = (
    "The forms and the limits of docs/document.md, as far as a schema can say them. What it can't say: that names stand once, that "
    "references are declared, that scripts name what is there and skip no further than their end, that those of a reentrant group "
    "name no group variable, that moments ascend, that rounds are those of the moments, and the sums over nodes (256 groups, 512 "
    "entities). A schema takes 1.0 and -0 for integers; the reader doesn't. Where `$` matches before a last line feed, as in Python, "
    "a schema takes a name that ends in one. ./virraupez explain tells all of that."
)
LOOSE = " Fields that aren't named here are ignored."
STRICT = " This one takes no field that isn't named, so that an editor shows typos."
# What each object is.
OBJECTS = {
    "node": "A node, with its callback groups and its entities.",
    "group": "A callback group of the node. Callbacks of a mutually exclusive one share the variables g0 to g7, and never run in parallel.",
    "timer": "A timer, whose callback runs once in each round in which it is due.",
    "subscription": "A subscription to a topic, which keeps the last messages, as many as its depth, and takes one a round.",
    "service": "A service, which takes one request a round and replies to its client.",
    "client": "A client of a service. Scripts of its node call through it.",
    "action server": "An action server, with its handlers and the script that is the work of each of its goals.",
    "action client": "A client of an action server. Scripts of its node send goals and cancel requests through it.",
    "message": "A message from outside.",
    "goal request": "A goal request from outside, which has no client: nobody is answered.",
    "cancel request": "A cancel request from outside, which has no client: nobody is answered.",
}
NAME = "One of the names of the document: 1 to 64 characters of A-Z a-z 0-9 _ /"
GROUP = "A callback group of the same node. Where it is missing, the node's default group, which is mutually exclusive."
# Each field: what it says, its default where it has one, and an example where a form alone doesn't show it.
FIELDS: Dict[str, Tuple[str, Any, Any]] = {
    "version": ("The version of the grammar: 1, or 2, which has `order`.", None, 1),
    "order": ("The order in which the ready callbacks of a round run: by `kind`, or, after the timers, by the `arrival` of what they take. Version 2 has it.", "kind", "arrival"),
    "topics": ("The topics, for all nodes.", [], ["scan", "cmd_vel"]),
    "nodes": ("The nodes.", [], None),
    "moments": ("When the executor looks at the world: one round each, in ticks, none below the one before it.", [], [10, 20, 30]),
    "feed": ("What comes from outside, each at the begin of a round.", [], None),
    "name": (NAME + ".", None, "camera"),
    "groups": ("The callback groups that entities of this node may name.", [], None),
    "timers": ("The timers of the node.", [], None),
    "subscriptions": ("The subscriptions of the node.", [], None),
    "services": ("The services of the node.", [], None),
    "clients": ("The service clients of the node.", [], None),
    "actions": ("The action servers of the node.", [], None),
    "action_clients": ("The action clients of the node.", [], None),
    "kind": ("`exclusive` (mutually exclusive, with variables) or `reentrant` (without).", None, "exclusive"),
    "group": (GROUP, None, None),
    "period": ("How many ticks are between two calls; the first is one period after 0.", None, 10),
    "script": ("The instructions of its callback.", [], None),
    "topic": ("A topic of the document.", None, None),
    "depth": ("How many items each of its queues keeps; the oldest is dropped.", 10, 1),
    "service": ("A service of whatever node.", None, None),
    "result_timeout": ("For how many ticks the result of a goal that ended is kept; without it, without end.", None, 100),
    "on_goal": ("Decides on a goal request; without a decision it is rejected.", [], [["decide", 2]]),
    "on_cancel": ("Decides on each goal that a cancel request is for; without a decision it is refused.", [], [["decide", 2]]),
    "action": ("An action server of whatever node.", None, None),
    "on_response": ("Runs with the answer to a goal request: in is 1 where it was accepted, aux the goal's number.", [], None),
    "on_code": ("Runs with the answer to a cancel request: in is the return code, aux how many goals moved.", [], None),
    "on_feedback": ("Runs with feedback: in is its value, aux the goal's number.", [], None),
    "on_result": ("Runs with a result: in is its value, aux the goal's status. The client asks for results where this is there, be it empty.", None, None),
    "round": ("The round, counted from 1.", None, 1),
    "value": ("The message, or the goal's value.", None, 7),
    "goal": ("The goal's identifier, which isn't zeros alone.", None, "00000000-0000-0000-0000-000000000001"),
    "cancel": ("The identifier of the goal that is to be canceled, or zeros alone.", None, "00000000-0000-0000-0000-000000000000"),
    "stamp": ("Cancels goals that were accepted up to this moment; 0 is none.", 0, None),
}
GOAL_SCRIPT: Tuple[str, Any, Any] = ("The work of a goal. Each round runs it on, from behind its last wait or yield, or from its top where it fell off its end.", [], None)
# Each instruction: what it does.
SAYS = {
    "set": '["set", D, O, A, B]: D becomes A O B',
    "skip": '["skip", A, n]: where A isn\'t 0, the next n instructions are passed over',
    "pub": '["pub", TOPIC, A]: A is published',
    "call": '["call", CLIENT, A]: the client calls with A',
    "goal": '["goal", CLIENT, A]: the client sends a goal request of A',
    "execute": '["execute", SERVER]: the server executes the oldest goal that it accepted and deferred',
    "log": '["log", A]: the line log with A',
    "reply": '["reply", A]: the reply becomes A',
    "decide": '["decide", A]: 1 rejects or refuses, 2 accepts, 3 accepts a goal and defers it',
    "feedback": '["feedback", A]: the goal gives feedback A',
    "wait": '["wait", A]: the goal pends for A ticks',
    "yield": '["yield"]: the goal pends until the next round',
    "succeed": '["succeed", A]: the goal ends as SUCCEEDED with A',
    "abort": '["abort", A]: the goal ends as ABORTED with A',
    "canceled": '["canceled", A]: the goal ends as CANCELED with A, where it is being canceled',
}
CANCELS = {
    "all": '["cancel", CLIENT, "all"]: a cancel request for all goals',
    "before": '["cancel", CLIENT, "before", STAMP]: a cancel request for the goals accepted up to a stamp',
    "goal": '["cancel", CLIENT, "goal", NUMBER]: a cancel request for one of the client\'s goals',
    "goal-before": '["cancel", CLIENT, "goal-before", NUMBER, STAMP]: for that goal and those up to a stamp',
}
LONGEST = {"topics": g.TOPICS, "nodes": g.NODES, "moments": g.MOMENTS, "feed": g.ENTRIES, "groups": g.GROUPS}
HEX = g.DIGIT
IDENTIFIER = (
    f"^({HEX}{{32}}|{HEX}{{8}}(-{HEX}{{4}}){{3}}-{HEX}{{12}}|\\{{{HEX}{{8}}(-{HEX}{{4}}){{3}}-{HEX}{{12}}\\}}"
    f"|[Uu][Rr][Nn]:[Uu][Uu][Ii][Dd]:{HEX}{{8}}(-{HEX}{{4}}){{3}}-{HEX}{{12}})$"
)


def ref(name: str) -> Fields:
    return {"$ref": "#/definitions/" + name.replace(" ", "_")}


def of_range(least: int, most: int) -> Fields:
    return {"type": "integer", "minimum": least, "maximum": most}


# ---- scripts


def chosen(choices: Iterable[Tuple[int, str, Fields]]) -> List[Fields]:
    """The form of an array by a word in it: each of some words with its own form, so that a message is that form's."""
    return [{"if": {"minItems": at + 1, "items": [True] * at + [{"const": word}]}, "then": form} for at, word, form in choices]


def instruction_of(word: str, forms: str, says: str) -> Fields:
    items = [{"const": word}, *(ref(ITEMS[form]) for form in forms)]
    return {"description": says, "minItems": len(items), "maxItems": len(items), "items": items}


ITEMS = {"D": "cell", "O": "operation", "A": "operand", "n": "length", "T": "name", "C": "name", "K": "name", "X": "name"}


def scripts() -> Fields:
    """The definitions of instructions, and of the scripts of each role."""
    made: Fields = {word: instruction_of(word, forms, SAYS[word]) for word, forms in g.WORDS.items()}
    cancels = []
    for form, forms in g.CANCELS.items():
        items = [{"const": "cancel"}, ref("name"), {"const": form}, *(ref("operand") for _ in forms)]
        cancels.append((2, form, {"description": CANCELS[form], "minItems": len(items), "maxItems": len(items), "items": items}))
    items = [{"const": "cancel"}, ref("name"), {"enum": list(g.CANCELS)}]
    made["cancel"] = {"description": "; ".join(CANCELS.values()), "minItems": 3, "items": items, "allOf": chosen(cancels)}
    made = {f"instruction_{word}": form for word, form in made.items()}
    words = [*g.WORDS, "cancel"]
    choices = chosen([(0, word, ref(f"instruction_{word}")) for word in words])
    made["instruction"] = {"type": "array", "minItems": 1, "allOf": choices}
    for role, place in g.PLACES.items():
        lawful = [word for word in words if g.ONLY.get(word, role) == role]
        item = {"allOf": [ref("instruction")], "items": [{"enum": lawful}]}
        made[f"script_of_a_{role}"] = {"description": f"The instructions of {place}.", "type": "array", "maxItems": g.INSTRUCTIONS, "items": item}
    return made


# ---- objects


def form_of(form: Form, name: str, owner: str) -> Fields:
    """The schema of a field's form."""
    if form == g.SCRIPT:
        kind = next(kind for kind, of in g.ENTITIES.items() if of == owner)
        return ref(f"script_of_a_{g.SCRIPTS[kind][name]}")
    if isinstance(form, list):
        own = {"uniqueItems": True} if name == "topics" else {}
        item = ref("name") if form == ["text"] else ref("ticks") if form == ["count"] else ref(str(form[0]))
        return {"type": "array", "maxItems": LONGEST.get(name, g.ENTITIES_AT_MOST), **own, "items": item}
    if name in SPECIAL:
        return SPECIAL[name]
    if form == "kind":
        return {"enum": ["exclusive", "reentrant"]}
    return ref("name" if form == "text" else form)


SPECIAL: Dict[str, Fields] = {
    "version": {"enum": list(g.VERSIONS)},
    # Its form is that of documents of one version (by_version).
    "order": {},
    "period": of_range(1, g.LATEST),
    "depth": of_range(1, g.DEPTH),
    "result_timeout": of_range(0, g.LATEST),
    "stamp": of_range(0, g.LATEST),
    "round": of_range(1, g.MOMENTS),
    "goal": {"allOf": [ref("identifier"), {"pattern": "[1-9A-Fa-f][^:]*$"}]},
    "cancel": ref("identifier"),
}


def field(name: str, form: Form, owner: str) -> Fields:
    says, default, example = GOAL_SCRIPT if (owner, name) == ("action server", "script") else FIELDS[name]
    of = form_of(form, name, owner)
    made: Fields = {"description": says, **({"allOf": [of]} if "$ref" in of else of)}
    if default is not None:
        made["default"] = default
    if example is not None:
        made["examples"] = [example]
    return made


def object_of(owner: str, strict: bool) -> Fields:
    fields = {name: field(name, form, owner) for name, form in g.OBJECTS[owner].items()}
    made: Fields = {"type": "object", "required": list(g.REQUIRED[owner]), "properties": fields}
    if owner != "document":
        made = {"description": OBJECTS[owner], **made}
    else:
        fields[g.SCHEMA] = {"description": "Where this schema is, for editors. It changes nothing."}
        made = {**made, **by_version(strict)}
    return {**made, "additionalProperties": False} if strict else made


def by_version(strict: bool) -> Fields:
    """The form of `order` in documents of the version that has it. In others it is a field that isn't named."""
    has = {"properties": {"version": {"const": g.SINCE["order"]}}, "required": ["version"]}
    made: Fields = {"if": has, "then": {"properties": {"order": {"enum": list(g.ORDERS)}}}}
    return {**made, "else": {"properties": {"order": False}}} if strict else made


def entry() -> Fields:
    """An entry of the feed, chosen by the one of three fields that it has."""
    choices = [{"if": {"required": [name]}, "then": ref(of)} for name, of in g.FED.items()]
    one = {"description": "Exactly one of topic, goal and cancel.", "oneOf": [{"required": [name]} for name in g.FED]}
    return {"description": "What comes from outside in a round: a message, a goal request or a cancel request.", "type": "object", "allOf": [one, *choices]}


def schema(strict: bool = False) -> Fields:
    definitions = {owner.replace(" ", "_"): object_of(owner, strict) for owner in g.OBJECTS if owner != "document"}
    definitions["entry"] = entry()
    definitions.update(scripts())
    definitions["name"] = {"description": NAME + ".", "type": "string", "pattern": "^[A-Za-z0-9_/]{1,64}$"}
    definitions["ticks"] = {"description": "A number of ticks.", **of_range(0, g.LATEST)}
    definitions["value"] = {"description": "A signed integer of 64 bits.", **of_range(-(2**63), 2**63 - 1)}
    definitions["identifier"] = {
        "description": "An RFC 9562 UUID: 32 digits, hyphenated, hyphenated in braces, or hyphenated behind urn:uuid:",
        "type": "string",
        "pattern": IDENTIFIER,
    }
    definitions["cell"] = {"description": "A register or a group variable.", "enum": list(g.CELLS)}
    definitions["operation"] = {"description": "What is computed; lt and eq give 1 or 0.", "enum": list(g.OPERATIONS)}
    definitions["length"] = {"description": "How many instructions are passed over.", **of_range(1, g.INSTRUCTIONS - 1)}
    operands = [ref("value"), {"enum": list(g.OPERANDS)}]
    definitions["operand"] = {"description": "A value, a register, a group variable, in, aux or now.", "anyOf": operands}
    head = {"$schema": "http://json-schema.org/draft-07/schema#", "title": "A document of Virraupez"}
    return {**head, "description": ABOUT + (STRICT if strict else LOOSE), **object_of("document", strict), "definitions": definitions}
