"""That a transcript is taken for a document's only if it is the document's run, line by line: by each command that takes both, at
the first line that strays, and whichever line that is."""
import io
import itertools
import json
import tempfile
import pathlib

from virraupez import command, fit, transcript

from . import tool

ROBOT = tool.TOP / "examples/robot.json"
# An edit that breaks the e-stop of the robot, and the first line that its run has no more.
BROKEN = ('[["cancel","navigator","all"]]', "[]")
STRAYS = "examples/robot.txt:71:1: the document's run has `run motor message 4 0` there: {} isn't the document of this transcript\n"
# The commands that take a document and its transcript; D is the document, and T the transcript.
COMMANDS = (
    ("holds", "--document", "D", "examples/robot.rules", "T"),
    ("picture", "D", "T"),
    ("view", "D", "T"),
    ("trace", "D", "T"),
    ("lines", "T", "--document", "D"),
    ("lines", "T", "--json", "--document", "D"),
    ("diff", "T", "T", "--document", "D", "--document", "D"),
)


def answers(_program):
    yield from of_commands()
    yield from of_two()
    yield from of_lines()
    yield from of_all()


def broken(folder):
    """The robot with an e-stop that does nothing: its names and its moments are the same."""
    made = pathlib.Path(folder) / "robot.json"
    made.write_text(ROBOT.read_text().replace(*BROKEN))
    return made


def of_commands():
    with tempfile.TemporaryDirectory() as folder:
        made = broken(folder)
        for name, *words in COMMANDS:
            given = [{"D": made, "T": "examples/robot.txt"}.get(it, it) for it in words]
            status, told = tool.within(name, *given)
            yield f"{name} of an old transcript: {told[-300:]}", (status, told.endswith(STRAYS.format(made))), (2, True)
        old = tool.TOP / "examples/robot.txt"
        both = tool.within("diff", old, old, "--document", made)
        yield f"diff of two that aren't the document's: {both[1][-300:]}", (both[0], both[1].count(STRAYS.format(made)[len("examples/robot.txt") :])), (2, 2)


def of_two():
    """Of two transcripts of one document one may be another executor's, and is told to be."""
    late = "tools/tests/differing/e_stop_too_late.txt"
    says = f"{late} isn't a run of examples/robot.json: its line 70 doesn't follow\n"
    for words in (("examples/robot.txt", late), (late, "examples/robot.txt")):
        status, told = tool.within("diff", *words, "--document", ROBOT.relative_to(tool.TOP))
        yield f"diff of {words}: {told[-300:]}", (status, told.endswith(says)), (1, True)
    status, told = tool.within("view", ROBOT.relative_to(tool.TOP), "examples/robot.txt", late)
    yield f"view of two: {told[-300:]}", (status, told.endswith(f"view: {says}")), (0, True)
    status, told = tool.within("view", ROBOT.relative_to(tool.TOP), "examples/robot.txt", late, "--document", ROBOT.relative_to(tool.TOP))
    yield f"view of two with a document each: {told[-300:]}", (status, f"{late}:70:1: the document's run has `run button message 1 0` there" in told), (2, True)


def of_lines():
    """Each line that is left out, comes twice or has another number strays, and no line before it."""
    document = json.loads(ROBOT.read_text())
    lines = (tool.TOP / "examples/robot.txt").read_text().splitlines(True)
    wrong = []
    for at, line in enumerate(lines):
        for changed in ([], [line, line], [line.replace(" 1", " 2", 1)], [line.replace(" 7", " 6")]):
            other = [*lines[:at], *changed, *lines[at + 1 :]]
            first = next((place for place, (one, two) in enumerate(itertools.zip_longest(lines, other), 1) if one != two), None)
            if place_of(document, "".join(other)) != first:
                wrong.append((at + 1, changed))
    yield "lines that stray", wrong, []


def place_of(document, text):
    """The line at which a text isn't a document's run; None if it is one."""
    try:
        for _ in transcript.checked(io.StringIO(text), "it", fit.Own("robot", document)):
            pass
    except command.Trouble as trouble:
        return int(str(trouble).split(":")[1])
    return None


def of_all():
    """The transcripts of all documents are their runs; what is read by small blocks too."""
    before = transcript.BLOCK
    for path in [*sorted((tool.TOP / "examples").glob("*.txt")), *sorted((tool.TOP / "cases").rglob("*.txt"))]:
        document = json.loads(path.with_suffix(".json").read_text())
        for transcript.BLOCK in (before, 7) if path.parent.name == "examples" else (before,):
            yield f"the run of {path.name} by blocks of {transcript.BLOCK}", place_of(document, path.read_text()), None
    transcript.BLOCK = before
