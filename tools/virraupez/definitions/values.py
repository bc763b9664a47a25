"""What definitions compute with, as Python has it. A natural number and an integer are an int, a Bool is a bool, a list is a tuple, a
record a dict, and a function takes one argument. A variant is a tuple that begins with its Tag. `pos`, `suc` and a few others are
shapes: ways to see an int, a bool or a tuple."""
from __future__ import annotations

import textwrap
import typing

from .. import TYPE_CHECKING

if TYPE_CHECKING:
    from typing import Any, Callable, Dict, Tuple

    # What definitions compute with. The toolchain has checked the types of all that is computed with it.
    Value = Any
    Items = Tuple[Value, ...]
    Numbers = Tuple[int, ...]
    Option = Tuple[Value, ...]
    Function = Callable[..., Value]
    Test = Callable[[Value], bool]
    Base = Tuple[Any, ...]
else:
    Base = tuple


class Tag:
    """The name of a variant. There is one of a name, since types keep apart the variants of two enums that have the same name. `alone`
    is the variant without fields."""

    made: Dict[str, Tag]

    made = {}

    def __init__(self, name: str) -> None:
        self.name, self.alone = name, (self,)


def tag(name: str) -> Tag:
    if name not in Tag.made:
        Tag.made[name] = Tag(name)
    return Tag.made[name]


class Pair(Base):
    """What `(a, b)` is."""


class Shape(typing.NamedTuple):
    """A variant that Python has in another way: what tests a value for it, what its fields are there, and what makes it, as Python
    text with {} for the value or its fields."""

    test: str
    fields: Tuple[str, ...]
    made: str


SHAPES = {
    "zero": Shape("{} == 0", (), "0"),
    "suc": Shape("{} > 0", ("{} - 1",), "({} + 1)"),
    "pos": Shape("{} >= 0", ("{}",), "{}"),
    "negsuc": Shape("{} < 0", ("-1 - {}",), "(-1 - {})"),
    "true": Shape("{}", (), "True"),
    "false": Shape("not {}", (), "False"),
    "tt": Shape("True", (), "()"),
    "[]": Shape("not {}", (), "()"),
    "∷": Shape("{}", ("{}[0]", "{}[1:]"), "(({},) + {})"),
    "no_items": Shape("not {}", (), "()"),
    "item": Shape("{}", ("{}[0]", "{}[1:]"), "(({},) + {})"),
}
# The other variants of the library, with how many fields each has.
VARIANTS = {"None": 0, "Some": 1, "Ok": 1, "Err": 1, "null": 0, "boolean": 1, "number": 1, "string": 1, "array": 1, "object": 1}
NONE, SOME = tag("None").alone, tag("Some")


def some(value: Value) -> Option:
    return (SOME, value)


# ---- values as the page writes them

WIDE = 120


def shown(value: Value, margin: int = 0) -> str:
    """A value as an expression, in lines that aren't too long."""
    line, deeper = in_line(value), "\n" + " " * (margin + 2)
    if len(line) + margin <= WIDE or not isinstance(value, (tuple, dict)):
        return line
    if all(isinstance(it, int) for it in value):
        return deeper.join(textwrap.wrap(line, WIDE - margin))
    if isinstance(value, dict):
        return "record {" + "".join(f"{deeper}{name} = {shown(it, margin + 2)};" for name, it in value.items()) + "\n" + " " * margin + "}"
    if value and isinstance(value[0], Tag):
        return value[0].name + "".join(deeper + bracketed(it, shown(it, margin + 3)) for it in value[1:])
    if isinstance(value, Pair):
        return f"({','.join(deeper + shown(it, margin + 2) for it in value)})"
    return deeper.join(bracketed(it, shown(it, margin + 1)) + " ∷" for it in value) + deeper + "[]"


def in_line(value: Value) -> str:
    if isinstance(value, bool):
        return "true" if value else "false"
    if isinstance(value, int):
        return str(value)
    if isinstance(value, dict):
        return f"record {{ {'; '.join(f'{name} = {in_line(it)}' for name, it in value.items())} }}"
    if isinstance(value, Pair):
        return f"({', '.join(map(in_line, value))})"
    if not isinstance(value, tuple):
        return "a function" if callable(value) else type(value).__name__
    if value and isinstance(value[0], Tag):
        return " ".join([value[0].name, *(bracketed(it, in_line(it)) for it in value[1:])])
    if is_text(value):
        return f'codes "{bytes(value).decode()}"'
    return " ∷ ".join([*(bracketed(it, in_line(it)) for it in value), "[]"])


def bracketed(value: Value, text: str) -> str:
    """The text of a value as it is beside others."""
    is_plain = isinstance(value, (int, Pair)) or value == () or isinstance(value, tuple) and len(value) == 1 and isinstance(value[0], Tag)
    return text if is_plain or not isinstance(value, (tuple, dict)) else f"({text})"


def is_text(value: Items) -> bool:
    """Whether a list of numbers is shown as a text: all of it can be printed, and it has a letter, or the length of an identifier."""
    return all(type(it) is int and 32 <= it < 127 and it not in b'"\\' for it in value) and (len(value) == 36 or any(chr(it).isalpha() for it in value))


