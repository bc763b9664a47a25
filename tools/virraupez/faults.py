"""The faults of a document but those of its scripts, by docs/document.md, in the order of the page's sections.

They go over a value that json_text has read, and over what it declares. A part of a wrong form counts as a fault of Shape, and
as missing for all greater codes."""
from __future__ import annotations

import functools
import itertools
import json
import re

from . import grammar as g
from . import TYPE_CHECKING, repairs

if TYPE_CHECKING:
    from typing import Any, Callable, Collection, Dict, Iterable, Iterator, List, Optional, Tuple, Union

    from .declarations import Declared, Entity
    from .shapes import Fields, Form, Key, Path

    # What may help, as a text or as a function that gives it.
    Hint = Union[str, Callable[[], str]]

VALUE, NAME = "value", "name"


class Fault:
    """A code with a path; what is wanted there in words; names of which one may be meant; and what may help, as a text or as a
    function that gives it.

    form is that of the grammar's tables that is wanted. at says whether the value at the path is wrong, or its name; a missing
    field has the path of its object, and its name. kind is the name of a script's fault."""

    code: int
    path: Path
    wanted: str
    hint: Hint
    names: Collection[str]
    form: Optional[Form]
    at: str
    missing: Optional[str]
    kind: Optional[str]

    __slots__ = ("code", "path", "wanted", "hint", "names", "form", "at", "missing", "kind")

    def __init__(
        self,
        code: int,
        path: Path,
        wanted: str,
        hint: Hint = "",
        names: Collection[str] = (),
        form: Optional[Form] = None,
        at: str = VALUE,
        missing: Optional[str] = None,
        kind: Optional[str] = None,
    ) -> None:
        self.code, self.path, self.wanted, self.hint = code, path, wanted, hint
        self.names, self.form, self.at, self.missing, self.kind = names, form, at, missing, kind


# ---- 2: forms

# What is wanted in some fields, which is less than their form.
TICKS = f"ticks, an integer from 0 to {g.LATEST}"
WANTED = {
    "version": "1 or 2",
    "period": f"ticks, an integer from 1 to {g.LATEST}",
    "depth": f"an integer from 1 to {g.DEPTH}",
    "round": "the number of a round, an integer from 1",
    "result_timeout": TICKS,
    "stamp": TICKS,
    "moments": TICKS,
}


def wanted_of(form: Form, path: Path = ()) -> str:
    if isinstance(form, list):
        if form == g.SCRIPT:
            return "a script: a list of instructions"
        return "an instruction: a list" if form == ["word"] else f"a list of {plural(form[0]) if isinstance(form[0], str) and form[0] in (*g.OBJECTS, 'entry') else LISTED[path[-1]]}"
    name = next((it for it in reversed(path) if isinstance(it, str)), "")
    return WANTED.get(name, g.SINGLE[form][1]) if form in g.SINGLE else f"{article(form)}: an object"


LISTED: Dict[Key, str] = {"topics": "names", "moments": "moments, in ticks"}


def article(noun: str) -> str:
    return repairs.article(noun)


def plural(noun: str) -> str:
    return "entries" if noun == "entry" else f"{noun}s"


def has(value: object, form: Form) -> bool:
    """Whether a value is of a form, by its outermost part."""
    if isinstance(form, list):
        return isinstance(value, list)
    return g.SINGLE[form][0](value) if form in g.SINGLE else isinstance(value, dict)


def misshapen(value: Any, form: Form, path: Path, owner: Optional[str] = None) -> Fault:
    """The fault of a value of another form."""
    return Fault(2, path, wanted_of(form, path), lambda: repairs.of_value(value, form, path, owner), form=form)


def shape(value: Any, form: Form, path: Path = (), owner: Optional[str] = None) -> Iterator[Fault]:
    """Each fault of a value's form."""
    if not has(value, form):
        yield misshapen(value, form, path, owner)
    elif form == g.SCRIPT and repairs.flat(value):
        made = repairs.flat(value)
        hint = repairs.write(made, "an instruction is a list in the script's list", repairs.LISTED)
        yield Fault(2, path, wanted_of(form), hint, form=form)
    elif isinstance(form, list):
        yield from list_shape(value, form[0], path)
    elif form == "entry":
        yield from entry_shape(value, path)
    elif form in g.OBJECTS:
        yield from object_shape(value, form, path)


def list_shape(items: List[Any], form: Form, path: Path) -> Iterator[Fault]:
    if form == ["word"]:
        for at, item in enumerate(items):
            if not isinstance(item, list):
                yield misshapen(item, form, path + (at,))
            elif not g.is_instruction(item):
                yield from instruction_shape(item, path + (at,))
    elif isinstance(form, str) and form in g.SINGLE:
        test, wanted = g.SINGLE[form][0], wanted_of(form, path)
        for at, item in enumerate(items):
            if not test(item):
                place = path + (at,)
                yield Fault(2, place, wanted, functools.partial(repairs.of_value, item, form, place), form=form)
    else:
        for at, item in enumerate(items):
            yield from shape(item, form, path + (at,))


def instruction_shape(items: List[Any], path: Path) -> Iterator[Fault]:
    test, wanted = g.SINGLE["word"]
    for at, item in enumerate(items):
        if not test(item):
            yield Fault(2, path + (at,), wanted, functools.partial(repairs.of_word, items, at), form="word")


def object_shape(fields: Fields, form: str, path: Path) -> Iterator[Fault]:
    forms = g.forms_in(form, fields)
    for name in g.REQUIRED[form]:
        if name not in fields:
            others = [other for other in fields if other not in forms]
            wanted = f"the field `{name}` of {article(form)}: {wanted_of(forms[name], (name,))}"
            yield Fault(2, path, wanted, repairs.of_missing(name, form, fields), others, missing=name)
    for name, of in forms.items():
        # Most are single values of their form, and a walk into each would take the time of the whole.
        if name in fields and not (isinstance(of, str) and of in g.SINGLE and g.SINGLE[of][0](fields[name])):
            yield from shape(fields[name], of, path + (name,), form)


def entry_shape(fields: Fields, path: Path) -> Iterator[Fault]:
    stand = [name for name in g.FED if name in fields]
    if len(stand) == 1:
        yield from object_shape(fields, g.FED[stand[0]], path)
        return
    told = "there is none" if not stand else "there are " + " and ".join(f"`{name}`" for name in stand)
    hint = "" if stand else repairs.of_entry(fields)
    yield Fault(2, path, f"exactly one of `topic` (a message), `goal` (a goal request) and `cancel` (a cancel request); {told}", hint)
    if "round" not in fields:
        wanted = f"the field `round` of an entry: {wanted_of('count', ('round',))}"
        yield Fault(2, path, wanted, repairs.of_missing("round", "message", fields), missing="round")
    elif not g.is_count(fields["round"]):
        yield misshapen(fields["round"], "count", path + ("round",), "message")


def with_moment(fault: Fault, declared: Declared) -> Fault:
    """The fault of an entry without its round, with the round of the moment that the entry has."""
    if fault.missing == "round":
        fields = declared.entries.get(fault.path, {})
        moment = next((fields[it] for it in repairs.ALIASES["round"] if g.is_count(fields.get(it))), None)
        number, says = repairs.of_moment(moment, *declared.all_moments) if moment is not None else (None, "")
        if number:
            fault.hint = f'add "round": {number}, since {says}'
    return fault


# ---- 4: names


def names(declared: Declared) -> Iterator[Fault]:
    yield from distinct(((node.path + ("name",), node.name) for node in declared.nodes if node.name is not None), "a name that no other node has")
    for node in declared.nodes:
        groups = [(path + ("name",), group["name"]) for path, group in node.groups if g.is_text(group.get("name"))]
        yield from distinct(groups, "a name that no other group of the node has")
    topics = ((("topics", at), name) for at, name in declared.topics)
    entities = ((it.path + ("name",), it.name) for it in declared.entities if it.name is not None)
    yield from distinct(itertools.chain(topics, entities), "a name that no topic and no other entity has")
    for entity in declared.entities:
        yield from references(declared, entity)
    for path, entry in declared.feed:
        field, kind = ("topic", "topics") if "topic" in entry else ("action", "actions")
        if g.is_text(entry.get(field)) and entry[field] not in declared.named[kind]:
            yield unknown(declared, 4, path + (field,), entry[field], kind)


def distinct(named: Iterable[Tuple[Path, str]], wanted: str) -> Iterator[Fault]:
    """Faults of names that are none, or that stood before."""
    first: Dict[str, Path] = {}
    for path, name in named:
        if not g.NAME.fullmatch(name):
            yield Fault(4, path, "a name: 1 to 64 characters of A-Z a-z 0-9 _ /", hint=functools.partial(name_hint, name))
        elif name in first:
            yield Fault(4, path, wanted, hint=functools.partial(doubled_hint, name, first[name]))
        else:
            first[name] = path


def doubled_hint(name: str, path: Path) -> str:
    return f"{name} stands at {path_text(path)} already"


def name_hint(name: str) -> str:
    if len(name) > 64:
        return f"it has {len(name)} characters"
    other = next((sign for sign in name if not g.NAME.fullmatch(sign)), None)
    if other is None:
        return "it is empty"
    return f"write {json.dumps(re.sub('[^A-Za-z0-9_/]', '_', name))}: {other!r} isn't of these"


def references(declared: Declared, entity: Entity) -> Iterator[Fault]:
    if "group" in entity.fields and g.is_text(entity.fields["group"]) and entity.fields["group"] not in entity.node.kinds:
        none = f"the node {entity.node.name} has no `groups`; leave the field out for its default group"
        is_plain = declared.is_whole and not entity.node.kinds and entity.node.is_plain
        hint = none if is_plain else ""
        yield Fault(4, entity.path + ("group",), f"a named group of the node {entity.node.name}", hint, entity.node.kinds)
    name = entity.refers_to()
    if name is not None:
        field, kind = g.REFERS[entity.kind]
        if name not in declared.named[kind]:
            yield unknown(declared, 4, entity.path + (field,), name, kind)


def unknown(declared: Declared, code: int, path: Path, name: str, kind: str, among: Optional[Collection[str]] = None, owner: str = "") -> Fault:
    """The fault of a name that nothing of a kind has."""
    among = declared.named[kind] if among is None else among
    what = declared.what(name)
    noun = "topic" if kind == "topics" else g.ENTITIES[kind]
    hint = f"{name} is {what}" if what else "" if among or not declared.is_whole else f"there is no {noun}{owner}"
    return Fault(code, path, f"the name of {article(noun)}{owner or ' of the document'}", hint, among, kind="UnknownName" if code == 6 else None)


# ---- 5: limits


def limits(declared: Declared) -> Iterator[Fault]:
    groups = [path for node in declared.nodes for path, _ in node.groups]
    counts: Tuple[Tuple[int, int, Callable[[], Path], str], ...] = (
        (len(declared.nodes), g.NODES, lambda: declared.nodes[g.NODES].path, "nodes"),
        (len(declared.topics), g.TOPICS, lambda: ("topics", declared.topics[g.TOPICS][0]), "topics"),
        (len(declared.entities), g.ENTITIES_AT_MOST, lambda: declared.entities[g.ENTITIES_AT_MOST].path, "entities in the document"),
        (len(groups), g.GROUPS, lambda: groups[g.GROUPS], "groups in the document"),
        (len(declared.moments), g.MOMENTS, lambda: ("moments", declared.moments[g.MOMENTS][0]), "moments"),
        (len(declared.feed), g.ENTRIES, lambda: declared.feed[g.ENTRIES][0], "entries"),
    )
    for count, most, path_of, noun in counts:
        if count > most:
            yield Fault(5, path_of(), f"at most {most} {noun}", f"there are {count}")
    for at, moment in declared.moments:
        if moment > g.LATEST:
            yield beyond(("moments", at), f"a moment of at most {g.LATEST}")
    for path, entry in declared.feed:
        if g.is_count(entry.get("stamp")) and entry["stamp"] > g.LATEST and "cancel" in entry:
            yield beyond(path + ("stamp",), f"a stamp of at most {g.LATEST}")
    for entity in declared.entities:
        yield from entity_limits(entity)


def beyond(path: Path, wanted: str, hint: str = "2^62 ticks are the most") -> Fault:
    return Fault(5, path, wanted, hint)


def entity_limits(entity: Entity) -> Iterator[Fault]:
    if entity.kind == "timers" and not 1 <= entity.field("period", "count", 1) <= g.LATEST:
        yield beyond(entity.path + ("period",), f"a period of 1 to {g.LATEST} ticks", "")
    if entity.kind != "timers" and not 1 <= entity.field("depth", "count", 1) <= g.DEPTH:
        yield beyond(entity.path + ("depth",), f"a depth of 1 to {g.DEPTH}", "")
    if entity.kind == "actions" and entity.field("result_timeout", "count", 0) > g.LATEST:
        yield beyond(entity.path + ("result_timeout",), f"at most {g.LATEST} ticks", "without the field results are kept without end")
    for name, _, _, length in entity.scripts():
        if length > g.INSTRUCTIONS:
            path = entity.path + (name, g.INSTRUCTIONS)
            yield beyond(path, f"at most {g.INSTRUCTIONS} instructions", f"the script has {length}; send what is left through a topic")


# ---- 3, 8 and 9: the version, the clock, identifiers


def version(declared: Declared) -> Iterator[Fault]:
    if g.is_count(declared.version) and declared.version not in g.VERSIONS:
        yield Fault(3, ("version",), WANTED["version"], repairs.write(repairs.version_with(declared.order)))


def clock(declared: Declared) -> Iterator[Fault]:
    before = 0
    for at, moment in declared.moments:
        if moment < before:
            yield Fault(8, ("moments", at), f"a moment at or after the one before it, {before}", "moments never go back")
        before = moment
    wanted = f"a round from 1 to {declared.rounds}, the number of moments" if declared.rounds else "no entry: there are no moments, and so no rounds"
    for path, entry in declared.feed:
        if g.is_count(entry.get("round")) and not 1 <= entry["round"] <= declared.rounds:
            yield Fault(8, path + ("round",), wanted, functools.partial(round_hint, entry["round"], declared))


def round_hint(number: int, declared: Declared) -> str:
    """A hint for a number that no round has: it may be a moment."""
    if number == 0:
        return "rounds are counted from 1" if declared.rounds else ""
    found, says = repairs.of_moment(number, *declared.all_moments)
    return f"write {found}, since {says}" if found else ""


def identifiers(declared: Declared) -> Iterator[Fault]:
    for path, entry in declared.feed:
        field = "goal" if "goal" in entry else "cancel"
        if "topic" in entry or not g.is_text(entry.get(field)):
            continue
        text = entry[field]
        if not g.IDENTIFIER.fullmatch(text):
            yield Fault(9, path + (field,), "an identifier: 32 hexadecimal digits, or 8-4-4-4-12 of them with hyphens", identifier_hint(text))
        elif field == "goal" and g.identifier(text) == 0:
            yield Fault(9, path + (field,), "an identifier that isn't zeros alone", "zeros alone name no goal")


def identifier_hint(text: str) -> str:
    bare = text.strip("{}").replace("-", "")
    if re.fullmatch("[0-9a-fA-F]{1,16}", text):
        return f'write "{g.hyphenated(int(text, 16))}"'
    other = next((sign for sign in bare if sign not in "0123456789abcdefABCDEF"), None)
    if other is not None and not text.lower().startswith("urn:uuid:"):
        return f"{other!r} is no hexadecimal digit"
    if len(bare) != 32 and other is None:
        return f"it has {len(bare)} digits"
    return "the hyphens or braces stand elsewhere than an identifier has them"


# ---- paths


def path_text(path: Path) -> str:
    """A path as a person reads it."""
    text = ""
    for key in path:
        if isinstance(key, int):
            text += f"[{key}]"
        else:
            text += ("." if text else "") + key if key.isidentifier() else f"[{key!r}]"
    return text or "document"
