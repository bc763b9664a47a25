"""Warnings of a document: what no code refuses, and what its writer hardly meant. A warning is a fault of the code 0."""
from __future__ import annotations

from . import grammar as g
from . import TYPE_CHECKING, hints
from .faults import NAME, Fault, article, has, plural

if TYPE_CHECKING:
    from typing import Any, Collection, Dict, Iterator, List, Optional, Set, Tuple

    from .declarations import Declared, Entity
    from .shapes import Document, Fields, Form, Instruction, Path

WARNING = 0


def warning(path: Path, text: str, hint: str = "", names: Collection[str] = (), at: str = "value", missing: Optional[str] = None) -> Fault:
    return Fault(WARNING, path, text, hint, names, at=at, missing=missing)


# ---- fields


def form_of(fields: Fields, form: str) -> Optional[str]:
    """The form of an entry, by the one of its three fields that it has, where it is one."""
    if form != "entry":
        return form
    forms = [g.FED[name] for name in g.FED if name in fields]
    return forms[0] if len(forms) == 1 else None


def fields_of(value: Any, form: Form, path: Path = ()) -> Iterator[Fault]:
    """Warnings of fields that are ignored or stand twice, in a value and all that it holds."""
    if isinstance(form, list):
        if isinstance(form[0], str) and form[0] not in g.SINGLE and has(value, form):
            for at, item in enumerate(value):
                yield from fields_of(item, form[0], path + (at,))
        return
    of = form_of(value, form) if isinstance(value, dict) else None
    if of is None or of in g.SINGLE:
        return
    forms = g.forms_in(of, value)
    for name in value:
        if name in forms:
            if isinstance(value[name], (dict, list)):  # most are numbers and texts, which have no fields
                yield from fields_of(value[name], forms[name], path + (name,))
        elif of == "document" and name == g.SCHEMA:
            continue
        elif name not in g.OBJECTS[of]:
            yield unknown_field(name, of, path, value)
        elif g.is_count(value.get("version")) and value["version"] in g.VERSIONS:
            yield later_field(name, value["version"], path)
    for name in sorted(getattr(value, "twice", ())):
        yield warning(path + (name,), f"`{name}` stands more than once in this object, and the last one counts", at=NAME)


def later_field(name: str, version: int, path: Path) -> Fault:
    """The warning of a field that another version has."""
    text = f"a document of version {version} has no field `{name}`: it is ignored"
    return warning(path + (name,), text, f"it is a field of documents of version {g.SINCE[name]}", at=NAME)


def unknown_field(name: str, of: str, path: Path, fields: Fields) -> Fault:
    text = f"{article(of)} has no field `{clipped(name)}`: it is ignored"
    owners = [plural(form) for form, fields in g.OBJECTS.items() if name in fields]
    meant = next((it for it in hints.FIELDS.get(name.lower(), ()) if it in g.OBJECTS[of] and it not in fields), None)
    hint = f"rename `{clipped(name)}` to `{meant}`" if meant else hints.REMARKS.get(name.lower(), "")
    if owners and not meant:
        hint = f"it is a field of {', '.join(owners)}; {article(of)} has {', '.join(g.OBJECTS[of])}"
    near = () if owners else [it for it in g.OBJECTS[of] if it not in fields]
    return warning(path + (name,), text, hint, near, NAME)


def clipped(text: str, most: int = 60) -> str:
    return text if len(text) <= most else text[: most - 1] + "…"


# ---- scripts


def reached(script: List[Instruction]) -> Set[int]:
    """The places of a script that a run can come to; its length is the place behind its end."""
    seen, todo = set(), [0]
    while todo:
        at = todo.pop()
        if at in seen:
            continue
        seen.add(at)
        if at >= len(script) or script[at][0] in g.ENDINGS:
            continue
        word, *items = script[at]
        ahead = at + 1 + (items[1] if word == "skip" else 0)
        jumps = word == "skip" and not (g.is_value(items[0]) and items[0] == 0)
        goes_on = word != "skip" or g.is_text(items[0]) or items[0] == 0
        todo += [ahead] * jumps + [at + 1] * goes_on
    return seen


class Script:
    """A script without a fault, with the places that are reached in it."""

    def __init__(self, entity: Entity, name: str, role: str, instructions: List[Instruction]) -> None:
        self.entity, self.name, self.role, self.path = entity, name, role, entity.path + (name,)
        self.instructions, self.reached = instructions, reached(instructions)

    def words(self, *words: str) -> List[Instruction]:
        """The reached instructions of some words."""
        return [it for at, it in enumerate(self.instructions) if at in self.reached and it[0] in words]


def scripts_of(entity: Entity) -> Iterator[Script]:
    """The scripts of an entity that can be followed."""
    for name, role, instructions, length in entity.scripts():
        items = [item for _, item in instructions]
        skips = [at + 1 + it[2] <= length for at, it in enumerate(items) if g.forms_of(it) and it[0] == "skip" and g.is_value(it[2]) and it[2] >= 1]
        if len(items) == length and all(map(g.forms_of, items)) and len(skips) == sum(it[0] == "skip" for it in items) and all(skips):
            yield Script(entity, name, role, items)


def unreached(script: Script) -> Iterator[Fault]:
    """The first instruction of each run of instructions that is never reached."""
    for at in range(len(script.instructions)):
        if at not in script.reached and (at == 0 or at - 1 in script.reached):
            ended = script.instructions[at - 1][0] in g.ENDINGS
            why = "the goal has ended before it" if ended else "it is always passed over"
            yield warning(script.path + (at,), f"never reached: {why}")


def undecided(script: Script) -> Iterator[Fault]:
    """Warnings of a handler that decides nothing, or what isn't a decision."""
    refuses = "every goal request is rejected" if script.name == "on_goal" else "every cancel request is refused"
    decisions = script.words("decide")
    if script.instructions and not decisions:
        yield warning(script.path, f"no `decide` is reached: {refuses}", '["decide", 2] accepts')
    lawful = {1: "rejects", 2: "accepts", 3: "accepts and defers"} if script.name == "on_goal" else {1: "refuses", 2: "accepts"}
    for at, it in enumerate(script.instructions):
        if it[0] == "decide" and not g.is_text(it[1]) and it[1] not in lawful:
            yield warning(script.path + (at, 1), f"a decision of {it[1]} counts as 1: {refuses.replace('every', 'the')}", ", ".join(f"{number} {does}" for number, does in lawful.items()))


ENDLESS, END_IT = "no ending is reached: its goals never end", "succeed, abort and canceled end a goal"


def endless(script: Script) -> Iterator[Fault]:
    """Warnings of what a script leaves out: an ending, a reply."""
    if script.role == "goal" and not script.words(*g.ENDINGS):
        yield warning(script.path, ENDLESS, END_IT)
    if script.role == "service" and script.instructions and not script.words("reply"):
        yield warning(script.path, "no `reply` is reached: every reply is 0")


# ---- what feeds what


class Traffic:
    """What scripts and the feed send to topics and servers, and through clients."""

    sent: Dict[str, Set[str]]
    scripts: List[Script]
    clients: Dict[Tuple[str, Optional[str]], List[str]]
    named: Set[str]
    asked: Dict[Tuple[str, Optional[str], str], bool]

    def __init__(self, declared: Declared) -> None:
        self.sent, self.scripts, self.clients, self.named = {}, [], {}, set()
        # Whether a client of a service or a server sends to it by a word, once it was asked.
        self.asked = {}
        for entity in declared.entities:
            if entity.refers_to() is not None and entity.name is not None:
                self.clients.setdefault((entity.kind, entity.refers_to()), []).append(entity.name)
            followed = set()
            for script in scripts_of(entity):
                self.scripts.append(script)
                followed.add(script.name)
                for word, *items in script.words("pub", "call", "goal", "cancel"):
                    self.sent.setdefault(word, set()).add(items[0])
            for field in g.SCRIPTS[entity.kind]:
                if field in entity.fields and field not in followed:
                    self.named.update(texts(entity.fields[field]))
        for _, entry in declared.feed:
            kind = form_of(entry, "entry")
            name = entry.get("topic" if kind == "message" else "action")
            if g.is_text(name):
                self.sent.setdefault(f"fed {kind}", set()).add(name)

    def has(self, name: Optional[str], *words: str) -> bool:
        """Whether something is sent to a name by some words. A script with a fault may send to each name in it."""
        return name in self.named or any(name in self.sent.get(word, ()) for word in words)

    def through(self, kind: str, name: Optional[str], word: str) -> bool:
        """Whether a client of a service or a server sends to it."""
        key = kind, name, word
        if key not in self.asked:
            self.asked[key] = any(self.has(client, word) for client in self.clients.get((kind, name), ()))
        return self.asked[key]


def texts(value: Any) -> Iterator[str]:
    """The words of all texts in a value of lists."""
    todo = [[value]]
    while todo:
        for item in todo.pop():
            if isinstance(item, str):
                yield from item.split()
            elif isinstance(item, list):
                todo.append(item)


def unfed(declared: Declared, traffic: Traffic) -> Iterator[Fault]:
    """Warnings of entities that nothing is sent to."""
    subscribed = {it.refers_to() for it in declared.entities if it.kind == "subscriptions"}
    for at, name in declared.topics:
        published = traffic.has(name, "pub", "fed message")
        if not published or name not in subscribed:
            told = "nothing is published to it" if not published else "nobody subscribes to it"
            yield warning(("topics", at), told if published or name in subscribed else f"{told}, and nobody subscribes to it")
    for entity in declared.entities:
        if entity.name is not None and entity.kind != "timers" and not is_fed(traffic, entity):
            yield warning(entity.path, UNFED[entity.kind].format(entity.name, entity.refers_to()))


UNFED = {
    "subscriptions": "nothing is published to {1}: the script of {0} never runs",
    "services": "no client calls {}: its script never runs",
    "clients": "no script calls through {}: its script never runs",
    "actions": "no goal is sent to {}: none of its scripts runs",
    "action_clients": "no script sends through {}: none of its scripts runs",
}


def is_fed(traffic: Traffic, entity: Entity) -> bool:
    """Whether something is sent to an entity; one that refers to nothing counts as fed."""
    if entity.kind == "subscriptions":
        return entity.refers_to() is None or traffic.has(entity.refers_to(), "pub", "fed message")
    if entity.kind == "services":
        return traffic.through("clients", entity.name, "call")
    if entity.kind == "actions":
        return traffic.has(entity.name, "fed goal request") or traffic.through("action_clients", entity.name, "goal")
    return traffic.has(entity.name, "call") if entity.kind == "clients" else traffic.has(entity.name, "goal", "cancel")


def servers(declared: Declared, traffic: Traffic) -> Iterator[Fault]:
    """Warnings of servers without a handler or a script."""
    for entity in declared.entities:
        if entity.kind != "actions":
            continue
        if entity.fields.get("on_goal", []) == []:
            yield warning(entity.path, "there is no `on_goal`: every goal request is rejected", 'add "on_goal": [["decide", 2]], which accepts', missing="on_goal")
        if "script" not in entity.fields:
            yield warning(entity.path, ENDLESS, END_IT, missing="script")
        canceled = traffic.has(entity.name, "fed cancel request") or traffic.through("action_clients", entity.name, "cancel")
        if entity.fields.get("on_cancel", []) == [] and canceled:
            yield warning(entity.path, "there is no `on_cancel`: every cancel request is refused", 'add "on_cancel": [["decide", 2]], which accepts', missing="on_cancel")


def moments(declared: Declared) -> Iterator[Fault]:
    """Warnings of moments at which nothing is due."""
    last = max((moment for _, moment in declared.moments), default=None)
    if not declared.has_moments:
        yield warning((), "there are no `moments`: no round is run", missing="moments")
    if last is None:
        return
    for entity in declared.entities:
        if entity.kind == "timers" and entity.field("period", "count", 0) > last:
            text = f"never due: its first call is at {entity.fields['period']}, and the last moment is {last}"
            yield warning(entity.path + ("period",), text, "let `moments` go further")


def warnings(document: Document, declared: Declared) -> Iterator[Fault]:
    """All warnings of a document that is an object."""
    yield from fields_of(document, "document")
    traffic = Traffic(declared)
    for script in traffic.scripts:
        yield from unreached(script)
        if script.role == "handler":
            yield from undecided(script)
        yield from endless(script)
    for part in (servers, unfed):
        yield from part(declared, traffic)
    yield from moments(declared)
