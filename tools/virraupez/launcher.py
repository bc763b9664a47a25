"""virraupez: runs robot programs that are documents: nodes, topics, timers, services and actions, whose callbacks run as those of
a ROS 2 executor do. A run is a transcript, which is the same bytes each time, whatever the number of workers.

Each command is a tool of `commands`. Its module is read if it is asked for, and no other, so that a run begins at once."""
from __future__ import annotations

import argparse
import sys

from . import TYPE_CHECKING, command, commands, installation

if TYPE_CHECKING:
    from typing import List, NoReturn

NAME = "virraupez"
ABOUT = __doc__.partition(": ")[2].split("\n\n")[0]
MORE = """A file's name may be - for standard input or output. A fault begins with FILE:LINE:COLUMN, as editors find it. Colours are for
terminals alone, and NO_COLOR turns them off."""
STATUS = "The status is 0 if all is well, 1 if something is wrong or differs, and 2 if the work can't be done."


class Overview:
    """What is asked for if no command is: help, the version, or a command that there isn't."""

    @staticmethod
    def parser(prog: str = NAME) -> command.Parser:
        made = command.Parser(
            prog=prog,
            usage="%(prog)s COMMAND [WORD ..]\n       %(prog)s COMMAND --help",
            description=f"{ABOUT[0].upper()}{ABOUT[1:]}\n\ncommands:\n{rows()}",
            epilog=f"{MORE}\n\n{STATUS}",
            formatter_class=argparse.RawDescriptionHelpFormatter,
        )
        made.add_argument("--version", action=Version, nargs=0, help="write the version and end")
        made.add_argument("command", metavar="COMMAND", type=known, help="one of these commands")
        return made

    @staticmethod
    def run(_asked: argparse.Namespace, _out: command.Output) -> int:
        """Nothing is left to do: the parser has ended with help, the version or a fault."""
        return command.FINE


class Version(argparse.Action):
    """Writes the version, which is that of the file VERSION, and ends."""

    def __call__(self, parser: argparse.ArgumentParser, *_: object) -> None:
        parser.exit(command.main(Telling, [], NAME))


class Telling:
    """The tool that writes the version."""

    @staticmethod
    def parser(prog: str) -> command.Parser:
        return command.parser(f"{prog}: writes its version", "", prog)

    @staticmethod
    def run(_asked: argparse.Namespace, out: command.Output) -> int:
        out.line(f"{NAME} {installation.version()}")
        return command.FINE


def rows() -> str:
    """A row for each command."""
    from . import vocabulary

    return "\n".join(f"  {it.name:12}{it.says}" for it in vocabulary.all_commands())


def known(name: str) -> NoReturn:
    from . import hints

    near = hints.meant(name, commands.NAMES)
    raise argparse.ArgumentTypeError(f"{name[:60]!r} is no command; {near}".rstrip("; "))


def main(words: List[str]) -> int:
    """Runs a command, and gives its status."""
    if words[:1] == ["help"]:
        words = [*words[1:2], "--help"]
    if words and words[0] in commands.NAMES:
        return command.main(commands.tool(words[0]), words[1:], f"{NAME} {words[0]}")
    return command.main(Overview, words, NAME)


def entry() -> int:
    """The command of an installed package."""
    try:
        return main(sys.argv[1:])
    except KeyboardInterrupt:
        return 130
