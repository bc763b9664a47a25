"""The types that several modules have. What checks types reads this module, and no command does."""
from __future__ import annotations

import argparse
from typing import Any, Callable, Dict, List, Optional, Protocol, Sequence, Tuple, Union


# ---- documents, which a user has written as JSON

# An object, as a node or an entry of the feed, and that of a whole document.
Fields = Dict[str, Any]
Document = Fields
# The place of a part in a document: names of fields and places in lists.
Key = Union[str, int]
Path = Tuple[Key, ...]
# An instruction of a script, as a document has it. An item is a word or a number.
Item = Union[str, int]
Instruction = List[Any]
Script = List[Instruction]
# A form of the grammar's tables: the name of one, or a list of one.
Form = Union[str, List["Form"]]

# ---- transcripts, and what is told of them

# The words of a line.
Words = List[str]
# The round and the moment of a line.
Now = Tuple[int, int]
# What the variables of a rule's event are on a line, and that of each of its events, None for an event that the line isn't of.
Found = Dict[str, str]
About = List[Optional[Found]]
# The names of the entity whose callback a line is of, and of its node.
By = Tuple[Optional[str], ...]
# Gives a text in a colour.
Paint = Callable[[str, str], str]
# A place of a drawing, in pixels.
Point = Tuple[float, float]


class Readable(Protocol):
    """A text that is read by parts."""

    def read(self, count: int, /) -> str:
        ...


class Out(Protocol):
    """What a command writes its lines to."""

    def line(self, text: str = "") -> None:
        ...

    def flush(self) -> None:
        ...

    def keep(self) -> None:
        ...

    def paint(self, colour: str, text: str, /) -> str:
        ...


class Tool(Protocol):
    """A command: a module of `commands`, or what the launcher answers itself."""

    def parser(self, prog: str, /) -> argparse.ArgumentParser:
        ...

    def run(self, asked: argparse.Namespace, out: Any, /) -> int:
        ...


class Runner(Protocol):
    """What runs documents: the proved program, or the executor in Python."""

    def described(self) -> Dict[str, str]:
        ...

    def transcript(self, given: bytes, /) -> str:
        ...
