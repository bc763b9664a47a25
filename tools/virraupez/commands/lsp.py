"""lsp: is a language server for editors. It shows the faults and warnings of explain at their places while a document is written, and
what a field means. It speaks the Language Server Protocol on standard input and output, and an editor starts it."""
from __future__ import annotations

import sys

from .. import TYPE_CHECKING, command, language_server

if TYPE_CHECKING:
    import argparse
    from typing import Optional

STATUS = "The status is 0 after the editor has shut the server down, and 1 if it ends otherwise."


def parser(prog: Optional[str] = None) -> command.Parser:
    return command.parser(__doc__, STATUS, prog)


def run(_asked: argparse.Namespace, out: command.Output) -> int:
    return command.FINE if language_server.Server(sys.stdin.buffer, out).serve() else command.FOUND
