"""Runs of the tools, for the tests."""
import contextlib
import io
import os
import pathlib
import re
import signal
import subprocess
import sys
import tempfile

from virraupez import command, commands

TOOLS = pathlib.Path(__file__).resolve().parent.parent
TOP = TOOLS.parent
TESTS = TOOLS / "tests"
SECONDS = 60
PLACED = re.compile("[^\\n]+:[0-9]+:[0-9]+: ")
# The built exec_upgrade and the built exec_serve, if the tests are given them.
UPGRADES, SERVES = [], []
# What wasn't tested, since a program isn't installed here.
UNDONE = []


def started(tool):
    """The words that start a command of virraupez, or a tool of the repository's own."""
    return [str(TOP / "virraupez"), tool] if tool in commands.NAMES else [str(TOOLS / tool)]


def run(tool, *words, given=None):
    """The status and the output of a tool, and of standard error behind it; no status where it hadn't ended in time."""
    command = [sys.executable, "-B", *started(tool), *map(str, words)]
    try:
        ran = subprocess.run(command, input=given, stdout=subprocess.PIPE, stderr=subprocess.PIPE, timeout=SECONDS, cwd=TOP)
    except subprocess.TimeoutExpired:
        return None, f"no end after {SECONDS} seconds\n"
    return ran.returncode, ran.stdout.decode() + ran.stderr.decode()


def within(name, *words):
    """The same of a command of virraupez, run in this process: that takes a small part of the time. Its output goes through a file."""
    before = os.getcwd()
    os.chdir(TOP)
    try:
        with tempfile.TemporaryDirectory() as folder, contextlib.redirect_stderr(io.StringIO()) as told:
            to = pathlib.Path(folder) / "to"
            status = command.main(commands.tool(name), [*map(str, words), "-o", str(to)], f"virraupez {name}")
            return status, (to.read_text() if to.exists() else "") + told.getvalue()
    finally:
        os.chdir(before)


def unread(tool, *words, given=None):
    """What a tool must say that can't read what it is given: its status, whether it tells itself or a place, and how many lines it says."""
    status, told = run(tool, *words, given=given)
    return status, bool(PLACED.match(told)) or told.startswith(f"virraupez {tool}: "), told.count("\n")


def heeding():
    """Lets a program that is started heed Ctrl-C, also if what runs the tests does not, as in the background of a shell."""
    signal.signal(signal.SIGINT, signal.default_int_handler)


@contextlib.contextmanager
def file(text):
    """The name of a file with a text, which goes when it was used."""
    with tempfile.NamedTemporaryFile("w", encoding="utf-8") as made:
        made.write(text)
        made.flush()
        yield made.name


def text(path):
    """A file's path as a page has it, from the top of the repository."""
    return path.relative_to(TOP).as_posix()


def difference(found, should):
    """The first line that differs of two texts, where they differ."""
    pairs = zip(found.split("\n") + [None], should.split("\n") + [None])
    return next(((at, one, other) for at, (one, other) in enumerate(pairs, 1) if one != other), None)
