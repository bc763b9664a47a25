"""The tools, a module each: `parser(prog)` is the parser of its words, `run(asked, out)` does its work."""
from __future__ import annotations

import importlib

from .. import TYPE_CHECKING

if TYPE_CHECKING:
    from typing import Any

    from ..shapes import Tool

# The names of the tools, in the order in which a user meets them.
NAMES = ("run", "explain", "write", "picture", "diff", "holds", "check", "search", "shrink", "lines", "trace", "view", "feed", "observe", "upgrade", "schema", "lsp", "completion", "manual")


def tool(name: str) -> Tool:
    """The module of a tool."""
    found: Any = importlib.import_module(f".{name}", __name__)
    made: Tool = found
    return made
