"""What expressions, patterns and definitions are made of. `at` is the line of the page."""
from __future__ import annotations

import typing

from .. import TYPE_CHECKING

if TYPE_CHECKING:
    from typing import Any, FrozenSet, List, Optional, Set

    # One of the named tuples below. A union of them, each of which has others, is what mypy 1.0 finds no end of.
    Expression = Any
    Pattern = Any


# ---- expressions


class Name(typing.NamedTuple):
    """A variable, a definition, a variant or a name of the library: which, is known by what is bound and defined."""

    name: str
    at: int


class Variant(typing.NamedTuple):
    """`kind.Timer`: a variant of the enum for which the word stands in the file."""

    word: str
    name: str
    at: int


class Number(typing.NamedTuple):
    value: int


class Text(typing.NamedTuple):
    value: str


class Apply(typing.NamedTuple):
    function: Expression
    given: List[Expression]


class Lambda(typing.NamedTuple):
    names: List[str]
    body: Expression


class Let(typing.NamedTuple):
    name: str
    value: Expression
    body: Expression


class If(typing.NamedTuple):
    test: Expression
    yes: Expression
    no: Expression


class Tuple(typing.NamedTuple):
    items: List[Expression]


class Record(typing.NamedTuple):
    """`record { .. }`, or with a base `record base { .. }`, which has other fields from the base."""

    base: Optional[Expression]
    fields: List[typing.Tuple[str, Expression]]


class Field(typing.NamedTuple):
    record: Expression
    name: str


# ---- patterns


class Binds(typing.NamedTuple):
    """A word: a variable, unless it is a variant without fields."""

    name: str
    at: int


class Made(typing.NamedTuple):
    """A variant and the patterns of its fields; the word before its dot is None where there is none."""

    word: Optional[str]
    name: str
    fields: List[Pattern]
    at: int


# ---- definitions


class Equation(typing.NamedTuple):
    patterns: List[Pattern]
    body: Expression
    at: int


class Definition:
    """A definition: its name, its type as words, and its equations."""

    equations: List[Equation]

    def __init__(self, name: str, file: str, at: int, words: List[str]) -> None:
        self.name, self.file, self.at, self.words, self.equations = name, file, at, words, []

    def is_type(self) -> bool:
        """Whether it defines a type, or what a clause states. Nothing of it is computed."""
        return self.words[-2:] == ["Type", "0"]

    def arity(self) -> int:
        """How many arguments its equations name; its type may have more."""
        return len(self.equations[0].patterns)


def free(node: object, bound: FrozenSet[str] = frozenset()) -> Set[str]:
    """The names of an expression that nothing in it binds."""
    if isinstance(node, Name):
        return set() if node.name in bound else {node.name}
    if isinstance(node, Lambda):
        return free(node.body, bound | set(node.names))
    if isinstance(node, Let):
        return free(node.value, bound) | free(node.body, bound | {node.name})
    if isinstance(node, (list, tuple)):
        return set().union(*(free(part, bound) for part in node))
    return set()


