"""Smaller documents: without some of their entries, rounds, entities, instructions or fields. What refers to a part that is gone goes
with it, so that most of what is left is accepted."""
from __future__ import annotations

from . import TYPE_CHECKING, grammar, variation

if TYPE_CHECKING:
    from typing import Any, Iterable, Iterator, List, Sequence, Set, Tuple

    from .shapes import Document, Fields, Key, Path, Script

# The instructions whose first item is a name.
NAMING = ("pub", "call", "goal", "cancel", "execute")


def without_entries(document: Document, gone: Set[int]) -> Document:
    return {**document, "feed": [it for at, it in enumerate(document.get("feed", [])) if at not in gone]}


def without_rounds(document: Document, gone: Set[int]) -> Document:
    """A document without some of its rounds, by their places. What they are fed comes in the next round that is there."""
    draft = variation.Draft(document, variation.times_of(document["moments"]))
    draft.missed.update(gone)
    return draft.value() if len(gone) < len(document["moments"]) else {**document, "moments": [], "feed": []}


def without_gaps(document: Document, gone: Set[int]) -> Document:
    """A document whose rounds come one tick after the round before, for some of them by their places."""
    moments, last, before = [], 0, 0
    for at, moment in enumerate(document["moments"]):
        last += min(moment - before, 1) if at in gone else moment - before
        before = moment
        moments.append(last)
    return {**document, "moments": moments}


def earlier(document: Document, ticks: int) -> Document:
    """A document whose rounds come earlier by some ticks."""
    return {**document, "moments": [moment - ticks for moment in document["moments"]]}


# ---- what has a name


def names_of_node(node: Fields) -> List[str]:
    return [it["name"] for kind in grammar.ENTITIES for it in node.get(kind, [])]


def without_nodes(document: Document, gone: Set[int]) -> Document:
    names = [name for at, node in enumerate(document["nodes"]) if at in gone for name in names_of_node(node)]
    made = without_names(document, names)
    return {**made, "nodes": [node for at, node in enumerate(made["nodes"]) if at not in gone]}


def without_names(document: Document, names: Iterable[str]) -> Document:
    """A document without some topics and entities, and without what refers to them."""
    gone = set(names)
    for node in document.get("nodes", []):
        for kind, (field, _) in grammar.REFERS.items():
            gone.update(it["name"] for it in node.get(kind, []) if it[field] in gone)
    feed = [it for it in document.get("feed", []) if it.get("topic", it.get("action")) not in gone]
    topics = [it for it in document.get("topics", []) if it not in gone]
    return {**document, "topics": topics, "nodes": [node_without(it, gone) for it in document.get("nodes", [])], "feed": feed}


def node_without(node: Fields, gone: Set[str]) -> Fields:
    made = dict(node)
    for kind in grammar.ENTITIES:
        if kind in node:
            made[kind] = [entity_without(it, kind, gone) for it in node[kind] if it["name"] not in gone]
    return made


def entity_without(entity: Fields, kind: str, gone: Set[str]) -> Fields:
    made = dict(entity)
    for name in grammar.SCRIPTS[kind]:
        if name in entity:
            made[name] = cut(entity[name], {at for at, it in enumerate(entity[name]) if it[0] in NAMING and it[1] in gone})
    return made


def without_group(document: Document, at: int, name: str) -> Document:
    """A document in which a group's entities are in the default group of their node."""
    node = dict(document["nodes"][at])
    node["groups"] = [it for it in node["groups"] if it["name"] != name]
    for kind in grammar.ENTITIES:
        if kind in node:
            node[kind] = [{key: it for key, it in entity.items() if key != "group" or it != name} for entity in node[kind]]
    made: Document = with_part(document, ("nodes", at), node)
    return made


# ---- scripts


def cut(script: Script, gone: Set[int]) -> Script:
    """A script without some instructions. A skip passes over those that are left, and goes if there are none."""
    kept, made = [at not in gone for at in range(len(script))], list(script)
    for at in reversed(range(len(script))):
        if kept[at] and script[at][0] == "skip":
            length = sum(kept[at + 1 : at + 1 + script[at][2]])
            made[at], kept[at] = [*script[at][:2], length], length > 0
    return [it for it, is_kept in zip(made, kept) if is_kept]


def scripts(document: Document) -> Iterator[Path]:
    """The paths of all scripts."""
    for at, node in enumerate(document.get("nodes", [])):
        for kind, names in grammar.SCRIPTS.items():
            for place, entity in enumerate(node.get(kind, [])):
                yield from (("nodes", at, kind, place, name) for name in names if name in entity)


# ---- parts by their paths


def part(document: Any, path: Iterable[Key]) -> Any:
    for key in path:
        document = document[key]
    return document


def with_part(value: Any, path: Sequence[Key], made: Any) -> Any:
    """A value with another part at a path; nothing of the value itself is changed."""
    if not path:
        return made
    copy: Any = dict(value) if isinstance(value, dict) else list(value)
    copy[path[0]] = with_part(value[path[0]], path[1:], made)
    return copy


def without_fields(document: Document, paths: Iterable[Path]) -> Document:
    """A document without some of its fields, by their paths."""
    for *owner, name in paths:
        held = part(document, owner)
        document = with_part(document, owner, {key: it for key, it in held.items() if key != name})
    return document


def fields(document: Document) -> Iterator[Path]:
    """The paths of all fields that may be missing, of every object, and of those that the grammar doesn't have."""
    for path, owner in objects(document):
        for name in part(document, path):
            if name not in grammar.REQUIRED[owner] and name not in ("nodes", "topics", "moments", "feed", "groups", *grammar.ENTITIES):
                yield (*path, name)


def objects(document: Document) -> Iterator[Tuple[Path, str]]:
    """The paths of all objects with what each is."""
    yield (), "document"
    for at, node in enumerate(document.get("nodes", [])):
        yield ("nodes", at), "node"
        yield from ((("nodes", at, "groups", place), "group") for place in range(len(node.get("groups", []))))
        for kind, noun in grammar.ENTITIES.items():
            yield from ((("nodes", at, kind, place), noun) for place in range(len(node.get(kind, []))))
    for at, entry in enumerate(document.get("feed", [])):
        yield ("feed", at), next(of for name, of in grammar.FED.items() if name in entry)


def values(document: Document) -> Iterator[Path]:
    """The paths of all numbers but versions, rounds, moments and lengths of skips."""
    for path, _ in objects(document):
        yield from ((*path, name) for name, it in part(document, path).items() if type(it) is int and name not in ("version", "round"))
    for path in scripts(document):
        for at, instruction in enumerate(part(document, path)):
            items = instruction[:2] if instruction[0] == "skip" else instruction
            yield from ((*path, at, place) for place, it in enumerate(items) if type(it) is int)


def tidy(document: Document) -> Document:
    """A document without its empty lists that may be missing."""
    made = {key: it for key, it in document.items() if it or key not in ("topics", "nodes", "moments", "feed")}
    lists = ("groups", *grammar.ENTITIES)
    nodes = [{key: it for key, it in node.items() if it or key not in lists} for node in document.get("nodes", [])]
    return {**made, "nodes": nodes} if nodes else made
