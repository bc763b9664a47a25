"""A copy of the repository's tools and documents in a folder of its own, in which ./exec_run or ./exec_upgrade is the program that is
tested, and what release/program.sh chooses. So what is run there builds nothing, and leaves nothing in the repository. Beside ./exec_run
stands an ./exec_serve: the one that is tested, or one that runs it for each document."""
import contextlib
import pathlib
import shutil
import sys
import tempfile

from . import tool

FOLDERS = ("tools", "docs", "examples")
FILES = ("virraupez", "VERSION", "README.md", "CHANGELOG.md", "CONTRIBUTING.md")
# It answers a document as ./exec_run does, and ends with the status of one that answers nothing.
SERVE = f"""#!{sys.executable}
import os, subprocess, sys
given, out = sys.stdin.buffer, sys.stdout.buffer
while head := given.read(8):
    ran = subprocess.run(["./exec_run", *sys.argv[1:]], input=given.read(int.from_bytes(head, "big")), capture_output=True)
    status = int(ran.stderr.split()[1]) if ran.returncode == 1 else 0
    if ran.returncode not in (0, 1):
        os.kill(os.getpid(), -ran.returncode) if ran.returncode < 0 else sys.exit(ran.returncode)
    text = b"" if status else ran.stdout
    out.write(bytes([status]) + len(text).to_bytes(8, "big") + text)
    out.flush()
"""


def left_out(folder, names):
    """What no copy needs: the tests, with all that stands beside them."""
    return [name for name in names if name in ("tests", "__pycache__") and pathlib.Path(folder).name in ("tools", "virraupez", "commands")]


@contextlib.contextmanager
def of(script, name="exec_run", serve=SERVE):
    """The copy, with a program of the shell as ./exec_run, or another one, and one as ./exec_serve."""
    with tempfile.TemporaryDirectory() as folder:
        top = pathlib.Path(folder) / "virraupez"
        for it in FOLDERS:
            shutil.copytree(tool.TOP / it, top / it, ignore=left_out)
        (top / "cases").mkdir()
        for path in [*(tool.TOP / it for it in FILES), *(tool.TOP / "cases").glob("*.py")]:
            shutil.copy2(path, top / path.relative_to(tool.TOP))
        (top / "release").mkdir()
        (top / "release/program.sh").write_text("ask_of() { program=$1; }\nis_known() { :; }\n")
        written(top / name, f"#!/bin/sh\n{script}\n")
        if name == "exec_run":
            written(top / "exec_serve", serve)
        yield top


def written(path, text):
    path.write_text(text)
    path.chmod(0o755)


def with_program(program, name="exec_run"):
    return of(calling(program), name, *(f"#!/bin/sh\n{calling(it)}\n" for it in tool.SERVES))


def calling(program):
    return f"exec '{program}' \"$@\""
