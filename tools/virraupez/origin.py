"""Where a Python program said what stands in its document: its calls of this package with their lines, and the places of their
arguments, and of the lines of scripts, in the program's text."""
from __future__ import annotations

import ast
import functools
import inspect
import linecache
import pathlib
import sys

from . import TYPE_CHECKING

if TYPE_CHECKING:
    from typing import Any, Callable, Dict, List, Optional, Tuple

    # A line and a column, from 1.
    Position = Tuple[int, int]

PACKAGE = str(pathlib.Path(__file__).resolve().parent)


class Call:
    """A call of a method with the place that it has in the program that called it."""

    def __init__(self, method: Callable[..., Any]) -> None:
        frame = sys._getframe(1)
        while frame.f_back and own(frame.f_code.co_filename):
            frame = frame.f_back
        self.method, self.file, self.line, self.callers = method, frame.f_code.co_filename, frame.f_lineno, []
        # The calls that led there, up to what runs the program.
        while frame.f_back and not own(frame.f_back.f_code.co_filename):
            frame = frame.f_back
            self.callers.append((frame.f_code.co_filename, frame.f_lineno))

    def led_by(self) -> List[str]:
        """Lines that say which calls led to this one."""
        return [f"  called from {file}:{line}" for file, line in self.callers]

    def place(self, argument: Optional[str] = None, index: Optional[int] = None) -> Position:
        """The line and the column of the call, of an argument by its name, or of an item of an argument that is a list."""
        call = self.node()
        given = argument_of(call, self.method, argument) if call and argument else None
        if index is not None and isinstance(given, (ast.List, ast.Tuple)) and index < len(given.elts):
            given = given.elts[index]
        node = given or call
        return place_of(self.file, node) if node else (self.line, 1)

    def script_place(self, argument: str, script: str, line: int, part: str = "") -> Position:
        """The line and the column of a part of a line of the script that an argument gives."""
        node = self.node()
        given = argument_of(node, self.method, argument) if node else None
        return in_script(self.file, given, script, line, part) if given else self.place()

    def node(self) -> Optional[ast.Call]:
        """The call in the program's syntax; None where its text isn't there."""
        name = "Document" if self.method.__name__ == "__init__" else self.method.__name__
        calls = [it for it in syntax(self.file)[ast.Call] if it.lineno <= self.line <= it.lineno + rows_of(it) and called(it) == name]
        return min(calls, key=rows_of) if calls else None


@functools.lru_cache(maxsize=None)
def own(file: str) -> bool:
    """Whether a file is one of this package."""
    return str(pathlib.Path(file).resolve().parent) == PACKAGE


@functools.lru_cache(maxsize=None)
def syntax(file: str) -> Dict[type, List[Any]]:
    """The calls and the texts of a program; none if it can't be read."""
    found: Dict[type, List[Any]] = {ast.Call: [], ast.Constant: []}
    try:
        tree = ast.parse("".join(linecache.getlines(file)))
    except SyntaxError:
        return found
    for node in ast.walk(tree):
        if type(node) in found:
            found[type(node)].append(node)
    return found


def called(call: ast.Call) -> Optional[str]:
    """The name of what is called, without that of its owner."""
    return getattr(call.func, "attr", getattr(call.func, "id", None))


def argument_of(call: ast.Call, method: Callable[..., Any], name: str) -> Optional[ast.expr]:
    """An argument of a call by its name; None if it isn't written there."""
    for keyword in call.keywords:
        if keyword.arg == name:
            return keyword.value
    names = [it for it in inspect.signature(method).parameters if it != "self"]
    at = names.index(name) if name in names else len(call.args)
    starred = any(isinstance(it, ast.Starred) for it in call.args[: at + 1])
    return call.args[at] if at < len(call.args) and not starred else None


def rows_of(node: ast.expr) -> int:
    """How many rows a part of a program has after its first."""
    return (node.end_lineno or node.lineno) - node.lineno


def place_of(file: str, node: ast.expr) -> Position:
    """The line and the column of a part of a program, both from 1. Syntax counts bytes in a line, and a column characters."""
    before = linecache.getline(file, node.lineno).encode()[: node.col_offset]
    return node.lineno, len(before.decode(errors="replace")) + 1


# ---- scripts


def in_script(file: str, given: ast.expr, script: str, line: int, part: str) -> Position:
    """The place of a part of a script's line, if the argument that gives the script is a text, or the name of one."""
    if not isinstance(given, (ast.Constant, ast.JoinedStr)):
        given = next((it for it in syntax(file)[ast.Constant] if it.value == script), given)
    row, column = place_of(file, given)
    lines, last = script.split("\n"), row + rows_of(given)
    says = lines[line - 1].split("#", 1)[0].strip()
    # A text in triple quotes has a row for each of its lines; any other text is looked through for the line.
    if last - row == len(lines) - 1:
        column, row, last = column if line == 1 else 1, row + line - 1, row + line - 1
    for at in range(row, last + 1):
        begin = linecache.getline(file, at).find(says, column - 1 if at == row else 0)
        if begin >= 0:
            return at, begin + 1 + max(says.find(part), 0)
    text = linecache.getline(file, row)
    return row, max(column, len(text) - len(text.lstrip()) + 1)


