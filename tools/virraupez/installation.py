"""Where the files are that are shipped with the package: in its folder `shipped` if it is installed, and at the top of the repository
if it is a part of that. Nothing is looked for elsewhere."""
from __future__ import annotations

import os
import subprocess

from . import command

PACKAGE = os.path.dirname(os.path.realpath(__file__))
INSTALLED = os.path.join(PACKAGE, "shipped")
REPOSITORY = os.path.dirname(os.path.dirname(PACKAGE))
# What ./exec_run and its like do before they become the program.
ASKED = 'command . release/program.sh && ask_of "$0" && { is_known || choose; } && printf "%s\\n" "$program"'


def place(name: str) -> str:
    """The path of a shipped file or folder, by its name at the top of the repository."""
    if os.path.isdir(INSTALLED):
        return os.path.join(INSTALLED, name)
    if os.path.basename(os.path.dirname(PACKAGE)) == "tools" and os.path.exists(os.path.join(REPOSITORY, "release/program.sh")):
        return os.path.join(REPOSITORY, name)
    raise command.Trouble(f"{command.printable(PACKAGE)} is neither installed nor a part of the repository: it has no {name} beside it")


def version() -> str:
    with open(place("VERSION"), encoding="ascii") as file:
        return file.read().strip()


def program(name: str) -> str:
    """The path of a proved program: the installed one, or that which the script of its name runs."""
    path = place(name)
    if os.path.dirname(path) == INSTALLED:
        demand_sum(name, path)
        return path
    asked = subprocess.run(["sh", "-c", ASKED, name], stdin=subprocess.DEVNULL, stdout=subprocess.PIPE, cwd=REPOSITORY)
    if asked.returncode:
        raise command.Trouble(f"./{name} has no program to run")
    return os.path.join(REPOSITORY, os.fsdecode(asked.stdout[:-1]))


def demand_sum(name: str, path: str) -> None:
    """Demands that an installed program is the one that was packed."""
    with open(place("about"), encoding="ascii") as facts:
        if f"{name} program {sum_of(path)}\n" not in facts:
            raise command.Trouble(f"{command.printable(path)} isn't the program that was installed: its sum is another one. Install it again")


def sum_of(path: str) -> str:
    import hashlib

    with open(path, "rb") as file:
        return hashlib.sha256(file.read()).hexdigest()
