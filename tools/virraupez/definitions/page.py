"""docs/HEADLINE.md as text: its lines by the file that they come from, and its tables of names. A line is known by its number on the
page, so that a fault names the page and the line."""
from __future__ import annotations

import os
import re
import typing

from .. import TYPE_CHECKING, command, installation

if TYPE_CHECKING:
    from typing import Dict, List, Optional, Tuple

PAGE = "docs/HEADLINE.md"
FILE = re.compile(r"### \[(\S+)\]\(")
NUMBERED = re.compile(r" *(\d+)  (.*)")
LIBRARY, MEANT = "## What it takes from the toolchain", "## Names with more than one meaning"
QUOTED = re.compile(r"`([^`]+)`")


class Unknown(command.Trouble):
    """What the page says and this reader doesn't know, with its place."""

    def __init__(self, line: int, says: str) -> None:
        super().__init__(command.place(PAGE, line) + says)
        self.says = says


class Line(typing.NamedTuple):
    """A line of a file: its number on the page and in the file, and its text."""

    at: int
    number: int
    text: str


class Part(typing.NamedTuple):
    """Lines of one file, in one block of the page."""

    file: str
    lines: List[Line]

    def is_code(self) -> bool:
        return self.file.endswith(".rt")


class Page:
    """The parts of a page, the names that it takes from the toolchain's libraries with their lines, and the files that mean each of
    several definitions of a name: meant[name, file] is where that is defined."""

    parts: List[Part]
    library: Dict[str, int]
    meant: Dict[Tuple[str, Optional[str]], str]

    def __init__(self, text: str) -> None:
        self.parts, self.library, self.meant = [], {}, {}
        section, file, within = "", None, False
        for at, line in enumerate(text.split("\n"), 1):
            heading = FILE.match(line)
            if within:
                within = line != "```"
                if within and file:
                    self.add(at, line)
            elif line == "```text":
                within = True
                if file:
                    self.parts.append(Part(file, []))
            elif line.startswith("#"):
                section, file = line, heading and heading[1]
            elif line.startswith("| `"):
                self.add_row(at, section, re.split(r"(?<!\\)\|", line)[1:-1])

    def add(self, at: int, line: str) -> None:
        """A line of a part. Between two items there is an empty one."""
        numbered = NUMBERED.fullmatch(line)
        if numbered:
            self.parts[-1].lines.append(Line(at, int(numbered[1]), numbered[2]))
        elif line:
            raise Unknown(at, "a line without its number")

    def add_row(self, at: int, section: str, cells: List[str]) -> None:
        if section == LIBRARY:
            self.library.update((name.replace("\\|", "|"), at) for name in QUOTED.findall(cells[1]))
        elif section == MEANT:
            name, place = QUOTED.findall(cells[0])[0], cells[1].strip().strip("`")
            self.meant.update(((name, file.strip()), place) for file in cells[2].split(","))


def read() -> Page:
    """The page that is installation."""
    path = installation.place(PAGE)
    if not os.path.exists(path):
        raise command.Trouble(f"{command.printable(path)}: there is no such page, so there are no definitions to run")
    with open(path, encoding="utf-8") as file:
        return Page(file.read())
