"""The types of the tools: each function has an annotation for each of its parameters and for its result, and `mypy --strict` finds nothing
wrong in them, if mypy is installed."""
import ast
import os
import pathlib
import subprocess
import sys
import tempfile

import virraupez

from . import tool

FUNCTIONS = (ast.FunctionDef, ast.AsyncFunctionDef)
# A program of a user with its name, and what mypy says of its last line.
USER = "program_of_a_user.py"
PROGRAM = """import virraupez

reveal_type(virraupez.run(virraupez.Document()).lines)
"""
REVEALED = 'Revealed type is "builtins.list[builtins.str]"'


def answers(_program):
    for path in sorted((tool.TOOLS / "virraupez").rglob("*.py")):
        yield f"annotations that {tool.text(path)} lacks", list(bare(ast.parse(path.read_text()))), []
    yield "the names of the package that have types", typed_names(), virraupez.PLACES
    yield from of_mypy()


def typed_names():
    """The names that what checks types finds in the package, with their modules."""
    nodes = ast.walk(ast.parse(pathlib.Path(virraupez.__file__).read_text()))
    return {it.asname: node.module for node in nodes if isinstance(node, ast.ImportFrom) and node.level for it in node.names}


def bare(tree):
    """What has no annotation: a function by its name and its line, with the parameter or with the result."""
    own = {it for node in ast.walk(tree) if isinstance(node, ast.ClassDef) for it in node.body}
    for node in ast.walk(tree):
        if isinstance(node, FUNCTIONS):
            given = node.args
            names = [*given.posonlyargs, *given.args, *given.kwonlyargs, *filter(None, (given.vararg, given.kwarg))]
            # What a method is called of needs none.
            names = names[1:] if node in own and names and names[0].arg in ("self", "cls") else names
            yield from (f"{node.name}, line {node.lineno}: {it.arg}" for it in names if it.annotation is None)
            if node.returns is None:
                yield f"{node.name}, line {node.lineno}: the result"


def of_mypy():
    """What mypy says, of any Python here that has it."""
    pythons = [it for it in (sys.executable, "/usr/bin/python3") if os.path.exists(it) and subprocess.run([it, "-c", "import mypy"], stderr=subprocess.DEVNULL).returncode == 0]
    if not pythons:
        tool.UNDONE.append("the types of the tools weren't checked: mypy isn't installed")
        return
    with tempfile.TemporaryDirectory() as folder:
        (pathlib.Path(folder) / USER).write_text(PROGRAM)
        command = [pythons[0], "-m", "mypy", "--strict", f"--cache-dir={os.devnull}", "tools/virraupez", f"{folder}/{USER}"]
        ran = subprocess.run(command, cwd=tool.TOP, stdout=subprocess.PIPE, stderr=subprocess.STDOUT)
    told = [it for it in ran.stdout.decode().splitlines() if not it.startswith("Success: ")]
    yield "mypy --strict of tools/virraupez", (ran.returncode, [it for it in told if USER not in it]), (0, [])
    yield "the types of a user's program", [it.partition(" note: ")[2] for it in told if USER in it], [REVEALED]
