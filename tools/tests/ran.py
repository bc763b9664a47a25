"""What write tells of programs: what stands beside each of those in `programs`; and that nothing is written if one stops."""
import pathlib
import tempfile

from . import tool

PROGRAMS = tool.TESTS / "programs"
# Words for programs, with the status, and a part of what is written or told.
WORDS = (
    ("with_words.py", ("20", "-5"), 0, '"script":[["log",-5]]}]}],"moments":[10,20]}\n'),
    ("with_words.py", ("--", "40", "--script"), 1, "with_words.py:8:72: script of tick: '--script' is no operand"),
    ("with_words.py", ("40", "--fast"), 2, "unrecognized arguments: --fast"),
    ("with_words.py", (), 1, "with_words.py:8:1: IndexError: list index out of range"),
    ("no_python.py", (), 1, "no_python.py:"),
    ("stops_in_python.py", (), 1, "stops_in_python.py:6:5: JSONDecodeError: Expecting value: line 1 column 1 (char 0)\n  called from "),
    ("ends_itself.py", ("0",), 1, "ends_itself.py:1:1: the program makes no document"),
    ("ends_itself.py", ("5",), 5, ""),
    ("ends_itself.py", (), 1, "usage: ends_itself.py STATUS\n"),
)
# A program that feeds much. It takes 3 seconds, and took more than a test may while its time grew as the square of its messages.
FED = """
import virraupez

robot = virraupez.Document(topics=["x"])
robot.node("n").subscription("s", topic="x", script="log in")
robot.every(1, until=65000, begin=1)
for at in range(1, 65001):
    robot.message("x", at, at=at)
robot.write()
"""


def answers(_program):
    for told in sorted(PROGRAMS.glob("*.told")):
        program = told.with_suffix(".py").relative_to(tool.TOP)
        status, text = tool.run("write", program)
        found = status, text.replace("Node.timer()", "timer()")  # Python 3.10 and later say whose method it is
        yield f"write {program.name}", found, (0 if program.stem == "warned" else 1, told.read_text())
    for name, words, status, part in WORDS:
        found, text = tool.run("write", (PROGRAMS / name).relative_to(tool.TOP), *words)
        yield f"write {name} {words}: {text}", (found, part in text), (status, True)
    yield from of_streams()
    yield from of_much()


def of_streams():
    """A program comes from standard input too, and goes to a file of -o, which stays as it is if the program stops."""
    given = (PROGRAMS / "never_written.py").read_bytes()
    told = (PROGRAMS / "never_written.told").read_text().replace("tools/tests/programs/never_written.py", "-")
    yield "write -", tool.run("write", "-", given=given), (1, told)
    wrote = tool.run("write", "-", "20", "1", given=given + b"import sys\nrobot.moments(int(sys.argv[1]))\nrobot.write()\n")[1]
    yield "write - with words", wrote.split("\n")[0], '{"version":1,"moments":[1,2,20]}'
    wrong = tool.run("write", "-", given=b"import virraupez\nvirraupez.Document('scan').write()\n")
    yield "write of topics that are a text", wrong, (1, "-:2:20: topics is a list of names, as in ['scan']\n")
    with tempfile.TemporaryDirectory() as folder:
        kept = pathlib.Path(folder) / "kept.json"
        kept.write_text("kept")
        yield "write -o of a program that stops", (tool.run("write", "-o", kept, PROGRAMS / "never_written.py")[0], kept.read_text()), (1, "kept")
        elsewhere = given + f"robot.write(open({str(pathlib.Path(folder) / 'own.json')!r}, 'w'))\n".encode()
        says = "write: the program wrote to files of its own, and nothing to standard output\n"
        yield "write of a program with a file of its own", tool.run("write", "-", given=elsewhere), (0, says)
        yield "write -o of a program with a file of its own", (tool.run("write", "-", "-o", kept, given=elsewhere), kept.read_text()), ((1, says), "kept")
        should = (tool.TOP / "examples/robot.json").read_text()
        yield "write -o", (tool.run("write", "-o", kept, "examples/robot.py"), kept.read_text()), ((0, ""), should)


def of_much():
    status, text = tool.run("write", "-", given=FED.encode())
    yield "write of 65,000 messages", (status, text.count('"round"')), (0, 65000)
