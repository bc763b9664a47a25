"""The words of all commands, as their parsers have them: what completion and the manual are made of."""
from __future__ import annotations

import re

from . import TYPE_CHECKING, commands

if TYPE_CHECKING:
    import argparse
    from typing import List


class Option:
    """An option or a place of a command's words: its names, what it takes, whether it may be missing or stand often, and its text."""

    def __init__(self, action: argparse.Action) -> None:
        self.names, self.says, self.choices = list(action.option_strings), action.help or "", action.choices or ()
        # Most take something, some take two things, and a flag has a number of 0 for it.
        takes = action.metavar or action.dest
        self.taken = () if action.nargs == 0 else takes if isinstance(takes, tuple) else (takes,)
        self.takes = " ".join(self.taken)
        self.may_miss, self.often = bool(self.names) or action.nargs in ("*", "?"), action.nargs in ("*", "+")

    def synopsis(self) -> str:
        """How it stands among the words of a command."""
        name = self.takes + " .." * self.often
        text = f"{self.names[-1]} {name}".rstrip() if self.names else name
        return f"[{text}]" if self.may_miss else text


class Command:
    """A command: what it does in a sentence and in paragraphs, what its status says, and its options and places."""

    def __init__(self, name: str) -> None:
        parser = commands.tool(name).parser(name)
        self.name, self.status = name, parser.epilog or ""
        self.paragraphs = (parser.description or "").split("\n\n")
        self.says = sentence(self.paragraphs[0])
        words = [Option(action) for action in parser._actions]  # argparse has no public list of them
        self.options = [it for it in words if it.names]
        self.places = [it for it in words if not it.names]

    def synopsis(self) -> str:
        words = [it for it in self.options if "--help" not in it.names] + self.places
        return " ".join([self.name, *(it.synopsis() for it in words)])


def sentence(text: str) -> str:
    """The first clause of a text, as a list of commands has it."""
    first = re.split("[.:,] ", " ".join(text.split()))[0].rstrip(".")
    return first[0].lower() + first[1:]


def all_commands() -> List[Command]:
    return [Command(name) for name in commands.NAMES]
