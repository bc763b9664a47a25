"""Documents of Virraupez that are written and run by a program, and what the tools are made of.

    import virraupez

    robot = virraupez.Document(topics=["ticks"])
    clock = robot.node("clock")
    clock.timer("tick", period=10, script="g0 = g0 + 1\\n pub ticks g0")
    clock.subscription("count", topic="ticks", script="log in")
    robot.when_due(until=40)
    robot.write()

    print(virraupez.run(robot))

docs/write.md and docs/python.md have more."""
from __future__ import annotations

import importlib

# As that of typing, which no command reads at its start: to read it takes as long as a short run.
TYPE_CHECKING = False
if TYPE_CHECKING:
    from typing import Any, List

    # The same names, each with its type.
    from .api import Break as Break
    from .api import Executor as Executor
    from .api import Refused as Refused
    from .api import Rule as Rule
    from .api import Search as Search
    from .api import Transcript as Transcript
    from .api import Verdict as Verdict
    from .api import holds as holds
    from .api import run as run
    from .api import search as search
    from .assembler import ScriptError as ScriptError
    from .assembler import script as script
    from .build import Document as Document
    from .build import DocumentError as DocumentError
    from .build import goal_of as goal_of
    from .command import Trouble as Trouble

# Where each name is. A module is read if one of its names is asked for, so that a command begins at once.
PLACES = {
    **dict.fromkeys(("Document", "DocumentError", "goal_of"), "build"),
    **dict.fromkeys(("ScriptError", "script"), "assembler"),
    **dict.fromkeys(("Break", "Executor", "Refused", "Rule", "Search", "Transcript", "Verdict", "holds", "run", "search"), "api"),
    "Trouble": "command",
}
__all__ = sorted(PLACES)


def __getattr__(name: str) -> Any:
    if name not in PLACES:
        raise AttributeError(f"module {__name__!r} has no attribute {name!r}")
    return getattr(importlib.import_module(f".{PLACES[name]}", __name__), name)


def __dir__() -> List[str]:
    return sorted({*globals(), *PLACES})
