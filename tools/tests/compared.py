"""What differ tells, what is told of files that are no transcripts, and that what flow follows is what each callback takes."""
import io
import json
import os
import random
import sys
import tempfile
import xml.etree.ElementTree as tree

from virraupez import command, difference, executor, flow, picture, scene, transcript

from . import tool

sys.path.insert(0, str(tool.TOP / "cases"))
import generate

FOLLOWED, SPOILED = 400, 600
def answers(_program):
    yield from of_examples()
    yield from of_orders()
    yield from of_moments()
    yield from of_lines()
    yield from of_words()
    yield from of_spoiled()
    yield from followed()


def of_examples():
    """Each example is the same as itself, and what is told of those that differ stands beside them."""
    for document in sorted((tool.TOP / "examples").glob("*.json")):
        text = document.with_suffix(".txt")
        lines = len(text.read_text().splitlines())
        status, told = tool.run("diff", text, text, "--document", document)
        yield f"differ {text.name} and itself", (status, told.split(",")[0]), (0, f"the same: {lines} line" + "s" * (lines > 1))
    for told in sorted((tool.TESTS / "differing").glob("*.told")):
        one, other = (str(path.relative_to(tool.TOP)) for path in (tool.TOP / "examples/robot.txt", told.with_suffix(".txt")))
        yield f"differ {told.name}", tool.run("diff", one, other, "--document", "examples/robot.json"), (1, told.read_text())


def of_orders():
    """Two runs in other orders differ, and it is told that the orders do."""
    names = [f"cases/{name}" for name in ("order/by_kind_of_two_messages", "arrival/of_two_messages")]
    words = [*(f"{name}.txt" for name in names), *(word for name in names for word in ("--document", f"{name}.json"))]
    status, told = tool.run("diff", *words)
    should = f"ready callbacks run by kind in {names[0]}.json, by arrival in {names[1]}.json"
    yield f"differ of two orders: {told}", (status, told.split("\n")[-2]), (1, should)


def differences(one, other, **more):
    """What is told of two transcripts, by their lines."""
    found = difference.Difference(("A", "B"), [], **more)
    found.take([transcript.checked(io.StringIO("\n".join(it) + "\n"), name) for name, it in (("A", one), ("B", other))])
    return list(found.lines())


def heads(told):
    return [line for line in told if not line.startswith(" ") and not line.startswith("lines of")]


def of_moments():
    """A moment that one of two runs has alone is one difference, wherever it stands."""
    robot = json.loads((tool.TOP / "examples/robot.json").read_text())
    text = executor.lines_of(robot)
    ahead = {**robot, "moments": [1, *robot["moments"]], "feed": [{**it, "round": it["round"] + 1} for it in robot["feed"]]}
    more = executor.lines_of(ahead)
    yield "a moment in front", differences(text, more), ["B:1:1: only here: round 1 at moment 1", "  + round 1 1", "1 difference"]
    yield "a moment in front of the other", heads(differences(more, text)), ["A:1:1: only here: round 1 at moment 1", "1 difference"]
    quiet = {"version": 1, "nodes": [{"name": "n", "timers": [{"name": "t", "period": 10, "script": [["log", "now"]]}]}]}
    run = lambda *moments: executor.lines_of({**quiet, "moments": list(moments)})
    for one, other, told in (
        ((10, 20, 30), (10, 15, 20, 30), ["B:4:1: only here: round 2 at moment 15"]),
        ((10, 20, 30), (10, 20, 30, 31, 32), ["B:10:1: only here: round 4 at moment 31 to round 5 at moment 32"]),
        ((10, 20, 30, 31), (10, 20, 30), ["A:10:1: only here: round 4 at moment 31"]),
        ((10, 20, 30), (10, 20, 20, 30), ["B:7:1: only here: round 3 at moment 20"]),
        ((10, 20, 20, 20, 30), (10, 20, 30), ["A:7:1: only here: round 3 at moment 20 to round 4 at moment 20"]),
        ((10,), (11,), ["A:1:1: only here: round 1 at moment 10", "B:1:1: only here: round 1 at moment 11"]),
        ((), (10,), ["B:1:1: only here: round 1 at moment 10"]),
        ((10, 12, 20), (10, 13, 20), ["A:4:1: only here: round 2 at moment 12", "B:4:1: only here: round 2 at moment 13"]),
    ):
        count = f"{len(told)} difference" + "s" * (len(told) > 1)
        yield f"the moments {one} and {other}", heads(differences(run(*one), run(*other))), [*told, count]
    long = run(*range(0, 3000, 10))
    yield "many differences", heads(differences(long, [it.replace("log t", "log u") for it in long]))[-1], "299 differences, of which 5 are told"
    yield "all of many differences", len(heads(differences(long, [it.replace("log t", "log u") for it in long], most=1000))), 300


LINES = ["round 1 5", "run t timer 5 0", "log t 1", "log t 2", "log t 3", "log t 4", "log t 5", "pub x 6", "round 2 9", "pending c 1", "end 2"]


def of_lines():
    """What is told of lines: those that one has alone or in another order, and the lines between two differences."""
    changed = lambda old, *new: differences(LINES, [line for it in LINES for line in (new if it == old else (it,))])
    head = "B:4:1: differs from A:4, in round 1 at moment 5"
    before, cause = ["    run t timer 5 0", "    log t 1"], ["  in the callback of line 2: run t timer 5 0", "    it is a timer's: nothing was sent to it"]
    rest = ["1 difference", "lines of t: log 1 fewer"]
    yield "a line that is missing", changed("log t 2"), [head, *before, "  - log t 2", *cause, *rest]
    rest = ["1 difference", "lines of t: log 1 more"]
    yield "a line more", changed("log t 2", "log t 7", "log t 2"), [head, *before, "  + log t 7", *cause, *rest]
    rest = ["1 difference", "lines of t: log 1 other"]
    yield "another line", changed("log t 2", "log t 7"), [head, *before, "  - log t 2", "  + log t 7", *cause, *rest]
    swapped = differences(LINES, [*LINES[:3], LINES[4], LINES[3], *LINES[5:]])
    yield "two lines in another order", swapped[-1], "lines of t: log in another order"
    far = [it.replace("log t 1", "log t 8").replace("pub x 6", "pub x 7") for it in LINES]
    told = [it for it in differences(LINES, far) if it[:4] in ("  - ", "  + ", "    ")][1:6]
    yield "two places of one round", told, ["  - log t 1", "  + log t 8", "    ..", "  - pub x 6", "  + pub x 7"]
    other = changed("pending c 1", "pending c 2")
    yield "other calls that are pending", other[0], "B:10:1: differs from A:10, in the calls that are pending"
    yield "no calls that are pending", changed("pending c 1")[:2], ["A:10:1: only here: the calls that are pending", "  - pending c 1"]


def of_words():
    timer = tool.TOP / "examples/timer.txt"
    for name in ("diff", "holds"):
        status, text = tool.run(name, "--help")
        yield f"{name} --help", (status, "TRANSCRIPT" in text or "A B" in text), (0, True)
        yield f"{name} without words", tool.run(name)[0], 2
        yield f"{name} of no file", tool.run(name, "nowhere", timer)[0], 2
    yield "differ of what is no transcript", tool.run("diff", timer, tool.TOP / "README.md")[0], 2
    yield "differ with a document that is refused", tool.run("diff", timer, timer, "--document", tool.TESTS / "mistakes/another_version.json")[0], 2
    yield from of_unread(timer)
    yield from of_cut()


CUT = "tools/tests/differing/cut_off.txt"


def of_cut():
    """A transcript without its end is none: what is missing is told, and no verdict."""
    missing = f"{CUT}:101:1: the line `end` is missing: the transcript is cut off in round 10 at moment 13\n"
    yield "holds of a transcript that is cut off", tool.run("holds", "examples/robot.rules", CUT), (2, missing)
    yield "picture of a transcript that is cut off", tool.run("picture", "examples/robot.json", CUT), (2, missing)
    for name, words in (("holds", ("examples/robot.rules", "-")), ("diff", ("examples/robot.txt", "-")), ("picture", ("examples/robot.json", "-"))):
        status, told = tool.run(name, *words, given=b"")
        yield f"{name} of nothing", (status, told.startswith(f"virraupez {name}: standard input: empty, and no transcript")), (2, True)
        status, told = tool.run(name, *words, given=b"refused 4\n")
        yield f"{name} of a refusal", (status, told.startswith("-:1:1: no transcript: the program refused the document")), (2, True)
        for at, given in enumerate((b"round 1 5\nend 1\nend 1\n", b"round 2 5\nend 1\n", b"round 1 5\nround 2 4\nend 2\n", b"round 1 5\nend 2\n")):
            yield f"{name} of rounds out of order {at}", tool.unread(name, *words, given=given), (2, True, 1)


def of_unread(timer):
    """What can't be read is told in a line, and by a status of its own."""
    for given in (b"round \xb2 5\n", b"round 1 \xb2\n", b"\xff\n", b"round 1 5", b"round 1 " + b"5" * 21 + b"\n", b"x" * 5000):
        yield f"holds of {given[:40]}", tool.unread("holds", "examples/robot.rules", "-", given=given), (2, True, 1)
        yield f"differ of {given[:40]}", tool.unread("diff", timer, "/dev/stdin", given=given), (2, True, 1)
    for words in (("holds", "nowhere", timer), ("holds", tool.TOP, timer), ("diff", timer, "nowhere"), ("diff", timer, tool.TOP)):
        yield f"what {' '.join(map(str, words))} tells", tool.unread(*words), (2, True, 1)
    with tempfile.TemporaryDirectory() as folder:
        # The name of a file may be no text, and is told with what differs.
        name = os.fsdecode(os.fsencode(folder) + b"/\xff")
        with open(name, "w") as other:
            other.write("round 1 0\nend 1\n")
        status, told = tool.run("diff", "examples/empty.txt", name)
        yield "differ of a name that is no text", (status, "udcff" in told), (1, True)


# ---- transcripts that are none

SIGNS = "0123456789 abcdefghijklmnopqrstuvwxyz-_\n\x1b\xb2\xff"


def spoiled(chance, text):
    """A transcript that was changed in a few places."""
    lines = text.split("\n")
    for _ in range(chance.choice((1, 1, 2, 5))):
        at, how = chance.randrange(len(lines)), chance.random()
        if how < 0.3:
            del lines[at]
        elif how < 0.6:
            lines.insert(at, lines[chance.randrange(len(lines))])
        elif how < 0.8:
            words = lines[at].split(" ")
            words[chance.randrange(len(words))] = chance.choice(chance.choice(lines).split(" "))
            lines[at] = " ".join(words)
        else:
            place = chance.randrange(len(lines[at]) + 1)
            lines[at] = lines[at][:place] + chance.choice(SIGNS) + lines[at][place + 1 :]
    return "\n".join(lines)


def told_of(document, text, other):
    """What the tools say of a transcript, in one word."""
    try:
        shown = scene.Scene(document, 1, 30)
        shown.take(line for block in transcript.checked(io.StringIO(other), "it") for line in block.split("\n")[:-1])
        tree.fromstring(picture.Picture(shown).svg() if shown.columns else "<svg/>")
        found = difference.Difference(("one", "other"), [flow.Flow(document)])
        found.take([transcript.checked(io.StringIO(it), "it") for it in (text, other)])
        if found.trouble:
            raise found.trouble
        return "diff" if found.differ and list(found.lines()) else "the same"
    except command.Trouble:
        return "no transcript"


def of_spoiled():
    """Transcripts that are changed by chance are drawn and compared, or told to be none, and nothing else happens."""
    document = json.loads((tool.TOP / "examples/robot.json").read_text())
    text = (tool.TOP / "examples/robot.txt").read_text()
    for seed in range(SPOILED):
        other = spoiled(random.Random(seed), text)
        told = told_of(document, text, other)
        yield f"what is told of the transcript {seed} of those changed by chance: {told}", told == "the same", other == text
    for wrong in ("round ² 4", "round 1 ²", "round 1 " + "4" * 21):
        other = text.replace("round 1 4", wrong, 1)
        yield f"two transcripts with {wrong!r}", (other != text, told_of(document, other, other)), (True, "no transcript")
    yield "a transcript that is itself", told_of(document, text, text), "the same"


# ---- what callbacks take

# Where the value that a callback takes stands in the line of its origin.
TAKEN = {"message": 2, "request": 3, "reply": 2, "goal": 3, "cancel": 3, "poll": None, "response": None, "code": 2, "feedback": 3, "result": 4}


def is_origin(words, origin):
    """Whether an item may be what a callback took, by what stands on both lines."""
    if origin is None or origin.line >= int(words[-1]):
        return False
    kind, text = words[2], origin.text.split(" ")
    if text[0] == "fed:":
        return kind in ("message", "goal", "cancel", "poll") and (kind != "message" or text[2] == words[3])
    identified = kind not in ("goal", "cancel", "ask", "poll", "response", "feedback", "result") or words[5] in text
    place = TAKEN.get(kind)
    return identified and (place is None or text[place] == words[3])


def followed():
    """Flow's origins in drawn documents, whose transcripts are those of the interpreter of the docs."""
    names = list(generate.RULES)
    for seed in range(FOLLOWED):
        turn, place = divmod(seed // 2, len(names))
        name, given = generate.made(seed, None if seed % 2 else names[place], "arrival" if turn % 2 else None)
        document = json.loads(given)
        following, wrong = flow.Flow(document), []
        for number, line in enumerate(executor.lines_of(document), 1):
            words = line.split(" ")
            following.take(number, words)
            if words[0] == "run" and words[2] != "timer" and not is_origin([*words, number], following.run.cause):
                wrong.append((line, following.run.cause))
            if words[0] == "drop" and following.dropped() is None:
                wrong.append((line, "nothing was displaced"))
        yield f"what callbacks take in the document of {name}", wrong[:2], []
