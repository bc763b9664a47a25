"""That no command replaces a file that it reads, by whatever name, nor one of which the new text isn't whole; and what a new file
keeps of the one whose place it takes."""
import contextlib
import os
import pathlib
import shutil
import signal
import subprocess
import sys
import tempfile
import time

from . import tool

# Words of commands, each with the place of the file that -o names too.
ONTO = (
    (("run", "robot.json", "--reference"), 1),
    (("explain", "timer.json", "robot.json"), 2),
    (("write", "robot.py"), 1),
    (("picture", "robot.json", "robot.txt"), 1),
    (("picture", "robot.json", "robot.txt"), 2),
    (("diff", "robot.txt", "timer.txt"), 2),
    (("holds", "robot.rules", "robot.txt"), 1),
    (("holds", "robot.rules", "robot.txt"), 2),
    (("check", "robot.json", "--rules", "robot.rules", "--reference"), 3),
    (("search", "robot.json", "--rules", "robot.rules", "--drop", "e_stop", "--reference"), 3),
    (("shrink", "robot.json", "--rules", "broken.rules", "--reference"), 1),
    (("lines", "robot.txt"), 1),
    (("trace", "robot.json", "robot.txt"), 2),
    (("view", "robot.json", "robot.txt"), 1),
    (("upgrade", "robot.json", "--reference"), 1),
)
WAYS = {"itself": lambda file, other: other, "a symbolic link": lambda file, other: file.symlink_to(other), "a hard link": lambda file, other: os.link(other, file)}
SAYS = "this file is read, and would be replaced: give -o another name"


@contextlib.contextmanager
def folder():
    """A folder with the examples, which is the current one."""
    before = os.getcwd()
    with tempfile.TemporaryDirectory() as made:
        shutil.copytree(tool.TOP / "examples", made, dirs_exist_ok=True)
        (pathlib.Path(made) / "broken.rules").write_text("never pub base_cmd 0\n")
        os.chdir(made)
        try:
            yield pathlib.Path(made)
        finally:
            os.chdir(before)


def started(*words):
    """The status of a command in the current folder, and what it says on standard error."""
    ran = subprocess.run([sys.executable, "-B", tool.TOP / "virraupez", *words], stdout=subprocess.PIPE, stderr=subprocess.PIPE, timeout=tool.SECONDS)
    return ran.returncode, ran.stderr.decode()


def answers(_program):
    with folder() as top:
        yield from of_inputs(top)
        yield from of_parts(top)
        yield from of_what_is_kept(top)
        yield from of_kill(top)


def of_inputs(top):
    names = {path.name for path in top.iterdir()}
    for at, (words, place) in enumerate(ONTO):
        way = list(WAYS)[at % len(WAYS)]
        name = words[place]
        to = name if way == "itself" else "other"
        if to == "other":
            WAYS[way](top / to, top / name)
        before = (top / name).read_bytes()
        status, told = started(*words, "-o", to)
        yield f"{' '.join(words)} -o onto {name}, by {way}: {told}", (status, SAYS in told, (top / name).read_bytes() == before), (2, True, True)
        if to == "other":
            (top / to).unlink()
    status, told = started("search", "robot.json", "--rules", "broken.rules", "--drop", "e_stop", "--reference", "--save", ".")
    os.rename("rule_1.json", "input.json")
    os.symlink("input.json", "rule_1.json")
    status, told = started("search", "input.json", "--rules", "broken.rules", "--drop", "feed[0]", "--reference", "--save", ".")
    yield f"--save onto the document: {told}", (status, SAYS in told), (2, True)
    yield "files that are left", {it.name for it in top.iterdir()} - names - {"input.json", "rule_1.json", "rule_1.txt", "run_0.json", "run_0.txt"}, set()


def of_parts(top):
    """What is written to the end of a transcript that is cut off isn't whole, and the file stays; a report is kept."""
    (top / "cut.txt").write_text((top / "robot.txt").read_text()[:3000])
    for words in (("lines", "cut.txt"), ("lines", "cut.txt", "--json"), ("trace", "robot.json", "cut.txt"), ("picture", "robot.json", "cut.txt")):
        (top / "kept").write_text("kept")
        status, told = started(*words, "-o", "kept")
        yield f"{words} of a transcript that is cut off: {told}", (status, (top / "kept").read_text()), (2, "kept")
    status, told = started("diff", "timer.txt", "cut.txt", "-o", "kept")
    yield f"diff of a transcript that is cut off: {told}", (status, "differs from" in (top / "kept").read_text()), (2, True)
    status, told = started("holds", "robot.rules", "cut.txt", "robot.txt", "-o", "kept")
    yield f"holds of one that is cut off: {told}", (status, (top / "kept").read_text()), (2, "robot.txt: 7 hold, 0 fail, 0 undecided\n")


def of_what_is_kept(top):
    """The mode and, if the system has them, extended attributes stay; other hard links keep the old text, and that is said."""
    file = top / "kept"
    file.write_text("kept")
    file.chmod(0o640)
    with contextlib.suppress(AttributeError, OSError):
        os.setxattr(file, "user.origin", b"drive 7")
    has = attributes(file)
    os.link(file, top / "link")
    status, told = started("lines", "robot.txt", "-o", "kept")
    yield f"what is said of hard links: {told}", (status, told), (0, "kept: 1 other hard links keep the old text\n")
    yield "what the other link has", (top / "link").read_text(), "kept"
    yield "the mode and the attributes", (file.stat().st_mode & 0o777, attributes(file)), (0o640, has)
    status, told = started("lines", "robot.txt", "-o", "new")
    mask = os.umask(0)
    os.umask(mask)
    yield f"the mode of a new file: {told}", (status, (top / "new").stat().st_mode & 0o777), (0, 0o666 & ~mask)


def attributes(file):
    with contextlib.suppress(AttributeError, OSError):
        return {name: os.getxattr(file, name) for name in os.listxattr(file)}
    return {}


def of_kill(top):
    """A kill leaves the file as it is, and none beside it."""
    (top / "kept").write_text("kept")
    (top / "many.json").write_text('{"version":1,"moments":[' + ",".join(map(str, range(60000))) + "]}")
    started("run", "many.json", "--reference", "-o", "many.txt")
    names = {it.name for it in top.iterdir()}
    running = subprocess.Popen([sys.executable, tool.TOP / "virraupez", "lines", "many.txt", "--json", "-o", "kept"], stderr=subprocess.PIPE)
    until = time.monotonic() + tool.SECONDS
    while not written(running.pid, top) and running.poll() is None and time.monotonic() < until:
        time.sleep(0.01)
    running.send_signal(signal.SIGKILL)
    running.communicate()
    yield "a command that is killed", (running.returncode, (top / "kept").read_text(), {it.name for it in top.iterdir()} - names), (-signal.SIGKILL, "kept", set())


def written(process, top):
    """Whether a process has written to a file of a folder that it has open."""
    with contextlib.suppress(OSError):
        for name in os.listdir(f"/proc/{process}/fd"):
            path = f"/proc/{process}/fd/{name}"
            if os.readlink(path).startswith(str(top)) and "many.txt" not in os.readlink(path) and os.stat(path).st_size:
                return True
    return False
