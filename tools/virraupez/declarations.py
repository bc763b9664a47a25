"""What a document declares, as far as it has its forms: its nodes and entities, their names, moments and feed."""
from __future__ import annotations

import functools
import itertools

from . import TYPE_CHECKING
from . import grammar as g
from .faults import article, has

if TYPE_CHECKING:
    from typing import Any, Dict, List, Optional, Tuple

    from .shapes import Fields, Form, Instruction, Path

    # A script: its name, its role, its instructions that are lists of words with their places, and its length.
    Written = Tuple[str, str, List[Tuple[int, Instruction]], int]


def listed(fields: Fields, name: str, form: str) -> List[Tuple[int, Any]]:
    """The items of a list that are of a form, with their places."""
    items, test = fields.get(name), g.SINGLE[form][0] if form in g.SINGLE else lambda item: isinstance(item, dict)
    return [it for it in enumerate(items) if test(it[1])] if isinstance(items, list) else []


class Entity:
    """An entity with its kind, the node that it is of, and its path."""

    name: Optional[str]
    read: Optional[List[Written]]

    def __init__(self, kind: str, node: Node, path: Path, fields: Fields) -> None:
        self.kind, self.node, self.path, self.fields = kind, node, path, fields
        self.name, self.read = self.field("name", "text"), None

    def field(self, name: str, form: Form, default: Any = None) -> Any:
        """A field where it has its form."""
        value = self.fields.get(name)
        return value if name in self.fields and has(value, form) else default

    def refers_to(self) -> Optional[str]:
        """The name of what it refers to, where it has one."""
        field, _ = g.REFERS.get(self.kind, (None, None))
        return self.field(field, "text") if field else None

    def scripts(self) -> List[Written]:
        """Each script that is there, with its name and its role, its instructions that are lists of words, and its length."""
        if self.read is None:
            found = [(name, role, self.field(name, ["word"])) for name, role in g.SCRIPTS[self.kind].items()]
            found = [it for it in found if it[2] is not None]
            self.read = [(name, role, [it for it in enumerate(script) if g.is_instruction(it[1])], len(script)) for name, role, script in found]
        return self.read


class Node:
    name: Optional[str]
    kinds: Dict[str, Any]

    def __init__(self, path: Path, fields: Fields) -> None:
        self.path, self.fields = path, fields
        self.name = fields.get("name") if g.is_text(fields.get("name")) else None
        self.groups = [(path + ("groups", at), group) for at, group in listed(fields, "groups", "group")]
        self.kinds = {it["name"]: it.get("kind") for _, it in self.groups if g.is_text(it.get("name"))}

    @functools.cached_property
    def is_plain(self) -> bool:
        """Whether it has no field that isn't known."""
        return all(name in g.OBJECTS["node"] for name in self.fields)


class Declared:
    """What a document declares, as far as it has its forms."""

    named: Dict[str, Dict[str, Optional[Entity]]]

    def __init__(self, document: Any) -> None:
        document = document if isinstance(document, dict) else {}
        # Whether all has its form. What hasn't counts as missing, and nobody is told then that it isn't there.
        self.is_whole = True
        self.version, self.order = document.get("version"), document.get("order")
        self.topics = listed(document, "topics", "text")
        self.nodes = [Node(("nodes", at), node) for at, node in listed(document, "nodes", "node")]
        self.entities = [
            Entity(kind, node, node.path + (kind, at), fields)
            for node in self.nodes
            for kind in g.ENTITIES
            for at, fields in listed(node.fields, kind, g.ENTITIES[kind])
        ]
        self.moments = listed(document, "moments", "count")
        self.rounds = len(document["moments"]) if isinstance(document.get("moments"), list) else 0
        self.has_moments = document.get("moments", []) != []
        self.feed = [(("feed", at), entry) for at, entry in listed(document, "feed", "entry")]
        self.named = {"topics": {name: None for _, name in self.topics}, **{kind: {} for kind in g.ENTITIES}}
        for entity in self.entities:
            if entity.name is not None:
                self.named[entity.kind].setdefault(entity.name, entity)

    @functools.cached_property
    def entries(self) -> Dict[Path, Fields]:
        """The entries of the feed by their paths."""
        return dict(self.feed)

    @functools.cached_property
    def all_moments(self) -> Tuple[List[int], List[int]]:
        """The moments, and the highest of those up to each."""
        moments = [moment for _, moment in self.moments]
        return moments, list(itertools.accumulate(moments, max))

    def what(self, name: str) -> Optional[str]:
        """What a name is declared as, in words."""
        for kind, names in self.named.items():
            if name in names:
                of = names[name]
                return "a topic" if of is None else f"{article(g.ENTITIES[kind])} of the node {of.node.name}"
        return None


