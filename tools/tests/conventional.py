"""What the tools do alike: streams that fail, `-`, -o, colours, several files, and progress."""
import os
import pathlib
import pty
import re
import select
import subprocess
import sys
import tempfile
import threading
import time

from virraupez import command, commands

from . import tool

ROBOT = ("examples/robot.json", "examples/robot.txt")
# Words with which each tool writes something.
WRITING = {
    "explain": ("examples/robot.json",),
    "write": ("examples/robot.py",),
    "picture": ROBOT,
    "diff": ("examples/robot.txt", "examples/timer.txt"),
    "holds": ("examples/robot.rules", "examples/robot.txt"),
    "schema": (),
}
MISTAKE = "tools/tests/mistakes/a_topic_with_a_typo.json"


def into(name, words, stream):
    """The status of a tool whose standard output is a stream, and what it says on standard error."""
    ran = subprocess.run([sys.executable, "-B", *tool.started(name), *words], stdout=stream, stderr=subprocess.PIPE, cwd=tool.TOP, timeout=tool.SECONDS)
    return ran.returncode, ran.stderr.decode()


def answers(_program):
    for name, words in WRITING.items():
        for each in (words, ("--help",)):
            yield from of_streams(name, each)
        yield from of_files(name, words)
    yield from of_several()
    yield from of_names()
    yield from of_colours()
    yield from of_progress()
    yield from of_documents()
    for name in commands.NAMES:
        parser = commands.tool(name).parser(f"virraupez {name}")
        yield f"the words of {name}", ("usage: virraupez " + name in parser.format_help(), bool(parser.epilog)), (True, True)


# Words of commands with a document and other files: by their places, and with the document by --document.
DOCUMENTED = (
    ("picture", ROBOT, ("--rounds", "1-3")),
    ("picture", ROBOT[:1], ("--graph",)),
    ("trace", ROBOT, ()),
    ("view", ROBOT, ("--rules", "examples/robot.rules")),
    ("view", (*ROBOT, ROBOT[1]), ()),
    ("lines", ROBOT, ("--json",)),
    ("diff", (*ROBOT, "tools/tests/differing/e_stop_too_late.txt"), ()),
    ("check", ROBOT[:1], ("--rules", "examples/robot.rules", "--reference")),
    ("search", ROBOT[:1], ("--rules", "examples/robot.rules", "--drop", "e_stop", "--reference")),
    ("shrink", ROBOT[:1], ("--rules", "broken.rules", "--reference")),
)


def of_documents():
    """A document is named by its place before the other files, or by --document, and rules by --rules, by each command that takes them."""
    with tool.file("never pub base_cmd 0\n") as rules:
        for name, (document, *files), more in DOCUMENTED:
            more = [rules if it == "broken.rules" else it for it in more]
            placed, named = (tool.within(name, *words, *more) for words in ((document, *files), ("--document", document, *files)))
            yield f"{name} --document", (placed[0] < 2, named), (True, placed)
            yield f"{name} of no file", tool.within(name, *more)[0], 2
    for words in (("picture", *ROBOT, "--document", ROBOT[0]), ("trace", *ROBOT, "--document", ROBOT[0])):
        status, told = tool.within(*words)
        yield f"{words}: {told}", (status, "too many files are named: examples/robot.json, " in told), (2, True)
    for words in (("--rules", "examples/robot.rules", ROBOT[1]), ("examples/robot.rules", ROBOT[1])):
        yield f"holds {words}", tool.within("holds", *words, "--document", ROBOT[0]), (0, "7 hold, 0 fail, 0 undecided\n")


def of_names():
    """A file's name with characters that control a terminal is told without them, be there such a file or not."""
    for name, shown in (("a\x1b[31mb", "a\\u001b[31mb"), ("a\nb", "a\\u000ab"), ("a\tb", "a\\u0009b")):
        yield f"explain of {name!r}, which isn't there", tool.within("explain", name), (2, f"virraupez explain: {shown}: No such file or directory\n")
        with tempfile.TemporaryDirectory() as folder:
            path = pathlib.Path(folder) / name
            path.write_text('{"version":1}')
            for command_name in ("explain", "run"):
                words = ("--reference",) if command_name == "run" else ()
                told = tool.within(command_name, *words, path)[1]
                yield f"{command_name} of {name!r}: {told!r}", (f"/{shown}:1:1: " in told, "\x1b" in told, "\t" in told), (True, False, False)


def of_streams(name, words):
    """A stream that fails is told in one line, with status 2."""
    read, write = os.pipe()
    os.close(read)
    status, told = into(name, words, write)
    os.close(write)
    yield f"{name} {words} into a broken pipe: {told}", (status, told.count("\n"), "Broken pipe" in told), (2, 1, True)
    with open("/dev/full", "w") as full:
        status, told = into(name, words, full)
    yield f"{name} {words} on a full disk: {told}", (status, told.count("\n"), "No space left" in told), (2, 1, True)


def of_files(name, words):
    """-o writes to a file what standard output would have, and a tool that fails leaves the file as it is."""
    with tempfile.TemporaryDirectory() as folder:
        to = pathlib.Path(folder) / "to"
        status, text = tool.run(name, *words)
        yield f"{name} -o", (tool.run(name, *words, "-o", to), to.read_text()), ((status, ""), text)
        yield f"{name} -o in no folder", tool.unread(name, *words, "-o", pathlib.Path(folder) / "none" / "to"), (2, True, 1)
        if words:
            yield f"{name} -o of no file", (tool.unread(name, *["nowhere"] * len(words), "-o", to)[0], to.read_text()), (2, text)


def of_several():
    """Several documents are told one after the other; the worst of them gives the status."""
    good, nowhere = "examples/timer.json", "nowhere.json"
    status, told = tool.run("explain", good, MISTAKE, good)
    yield "explain of three", (status, told), (1, "".join(tool.run("explain", it)[1] for it in (good, MISTAKE, good)))
    status, told = tool.run("explain", good, nowhere, MISTAKE)
    yield "explain of one that is nowhere", (status, told.count("refused"), told.endswith(f"explain: {nowhere}: No such file or directory\n")), (2, 2, True)
    yield "standard input twice", tool.unread("diff", "-", "-", given=b"end 0\n"), (2, True, 1)


def on_terminal(words, given=None, **more):
    """What a tool writes on a terminal, and its status."""
    master, slave = pty.openpty()
    environment = {**{name: value for name, value in os.environ.items() if name != "NO_COLOR"}, "TERM": "xterm", **more}
    running = subprocess.Popen([sys.executable, "-B", *words], stdin=given, stdout=slave, stderr=slave, cwd=tool.TOP, env=environment)
    os.close(slave)
    told = b""
    while select.select([master], [], [], tool.SECONDS)[0]:
        try:
            part = os.read(master, 65536)
        except OSError:
            break
        if not part:
            break
        told += part
    os.close(master)
    return running.wait(), told.decode()


def of_colours():
    words = [*tool.started("explain"), MISTAKE]
    plain = tool.run("explain", MISTAKE)[1]
    status, told = on_terminal(words)
    yield "colours on a terminal", (status, "\x1b[" in told, re.sub("\x1b\\[[0-9;]*m|\r", "", told)), (1, True, plain)
    yield "no colours by NO_COLOR", on_terminal(words, NO_COLOR="1"), (1, plain.replace("\n", "\r\n"))
    yield "no colours in a file", "\x1b" in plain, False


def of_progress():
    """Progress is told on a terminal once a second is over, and taken away before the answer comes."""
    read, write = os.pipe()

    def feed():
        for part in (b"round 1 5\n", b"end 1\n"):
            os.write(write, part)
            time.sleep(command.Progress.AFTER + 0.7)
        os.close(write)

    threading.Thread(target=feed, daemon=True).start()
    rules = "tools/tests/held/any.rules"
    status, told = on_terminal([*tool.started("holds"), rules, "-"], read, NO_COLOR="1")
    os.close(read)
    yield f"progress on a terminal: {told!r}", (status, "\r\x1b[Kvirraupez holds: 0 MB of standard input, " in told, bool(re.search(" s\r\x1b\\[K[^\r]", told))), (0, True, True)
    yield "no progress in a file", "\x1b" in tool.run("holds", rules, "examples/timer.txt")[1], False
