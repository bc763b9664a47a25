"""Where the package finds what is shipped with it: in its own folder if it is installed, or in the repository, and nowhere else."""
import contextlib
import hashlib
import pathlib
import re
import shutil
import subprocess
import sys
import tempfile

from virraupez import runs

from . import sandbox, tool

# The programs that the commands run here. What is shipped as exec_serve is never run, but asked for its sum.
PROGRAMS = "exec_run", "exec_serve"
STRANGER = "#!/bin/sh\ncat >/dev/null\necho a stranger was here\n"
# What a run reads of the package before the program has its document, and no more: it begins at once.
READ = "command commands commands.run grammar installation launcher runs virraupez".split()
START = "import sys; from virraupez import launcher; sys.exit(launcher.entry())"
LISTING = """import sys
from virraupez import launcher, runs
feed, told = runs.feed, []
def fed(*given):
    told.extend(sorted(it.partition('.')[2] or it for it in sys.modules if it.startswith('virraupez')))
    feed(*given)
runs.feed = fed
launcher.main(['run', 'examples/timer.json'])
print(*told)"""


def answers(program):
    with tempfile.TemporaryDirectory() as folder:
        yield from of_strangers(pathlib.Path(folder))
    with installed(program) as package:
        yield from of_installed(package)
    text = (tool.TOP / "release/program.sh").read_text()
    first, more = re.findall(r"^  tunables=(?:\$tunables)?(\S+)$", text, re.M)
    yield "what a launched program asks of its C library", runs.TUNABLES, first + more
    with sandbox.with_program(program) as top:
        ran = subprocess.run([sys.executable, "-c", LISTING], cwd=top, env={"PYTHONPATH": "tools", "PATH": "/usr/bin:/bin"}, stdout=subprocess.PIPE)
        yield "what a run reads of the package", ran.stdout.decode().splitlines()[-1].split(), READ
        yield "what it keeps of it", (top / "tools/virraupez/__pycache__").is_dir(), True


def started(package, *words):
    """The status of an installed package's command, and what it says."""
    ran = subprocess.run([sys.executable, "-B", "-c", START, *words], cwd=tool.TOP, env={"PYTHONPATH": str(package.parent)}, stdout=subprocess.PIPE, stderr=subprocess.STDOUT)
    return ran.returncode, ran.stdout.decode()


def copied(package):
    shutil.copytree(tool.TOOLS / "virraupez", package, ignore=sandbox.left_out)


def of_strangers(top):
    """A package without its files runs nothing that lies near it."""
    package = top / "lib/virraupez"
    copied(package)
    for place in (top, top / "release", top / "lib"):
        place.mkdir(exist_ok=True)
        for name in PROGRAMS:
            sandbox.written(place / name, STRANGER)
    for name in ("VERSION", "lib/VERSION", "release/program.sh"):
        (top / name).write_text("9.9.9\n")
    for words in (("run", "examples/timer.json"), ("search", "examples/robot.json", "--robust", "log", "--drop", "e_stop"), ("--version",)):
        status, text = started(package, *words)
        yield f"{words} beside strangers: {text}", (status, "neither installed nor a part of the repository" in text, "stranger" in text or "9.9" in text), (2, True, False)


@contextlib.contextmanager
def installed(program):
    """The package with a folder of what is shipped, as an installed one has it."""
    with tempfile.TemporaryDirectory() as folder:
        package = pathlib.Path(folder) / "virraupez"
        copied(package)
        shipped = package / "shipped"
        shipped.mkdir()
        (shipped / "docs").mkdir()
        for name in ("VERSION", "docs/HEADLINE.md"):
            shutil.copy(tool.TOP / name, shipped / name)
        for name in PROGRAMS:
            shutil.copy(program, shipped / name)
        sum_of = hashlib.sha256(pathlib.Path(program).read_bytes()).hexdigest()
        (shipped / "about").write_text("".join(f"{name} program {sum_of}\n" for name in PROGRAMS))
        yield package


def of_installed(package):
    timer = (tool.TOP / "examples/timer.txt").read_text()
    yield "run by an installed program", started(package, "run", "examples/timer.json"), (0, timer)
    yield "run --reference of an installed package", started(package, "run", "--reference", "examples/timer.json")[1].endswith(timer), True
    yield "run --definitions of an installed package", started(package, "run", "--definitions", "examples/timer.json")[1].endswith(timer), True
    yield "the version of an installed package", started(package, "--version"), (0, f"virraupez {(tool.TOP / 'VERSION').read_text()}")
    files = [package / "shipped" / name for name in PROGRAMS]
    held = bytearray(files[0].read_bytes())
    held[len(held) // 2] ^= 1
    for what, given in (("a changed byte", bytes(held)), ("another program", STRANGER.encode())):
        for file in files:
            file.write_bytes(given)
        for words in (("run", "examples/timer.json"), ("search", "examples/robot.json", "--robust", "log", "--drop", "e_stop")):
            status, text = started(package, *words)
            yield f"{words[0]} by an installed program with {what}: {text}", (status, "isn't the program that was installed" in text), (2, True)
