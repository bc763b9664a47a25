"""What picture draws: every callback and drop of every example in a box with its lines, a line to each from what sent it, and a bar
for each goal; and the two pictures of the docs."""
import collections
import sys
import xml.etree.ElementTree as tree

from virraupez import executor, picture, scene

from . import tool

SVG = "{http://www.w3.org/2000/svg}"
KINDS = ("timer", "message", "request, reply", "action", "dropped")
# The words with which the pictures of docs/pictures are drawn that show a part of an example.
PARTS = {"robot": ("--rounds", "1-11")}


def drawn(name, *words):
    status, text = tool.run("picture", f"examples/{name}.json", f"examples/{name}.txt", *words)
    return status, text


def parts(text):
    """How many boxes, lines and goals a picture has, and the first lines of its boxes' tooltips."""
    root = tree.fromstring(text)
    count = collections.Counter()
    told = []
    for group in root.iter(SVG + "g"):
        title, box = group.find(SVG + "title").text, group.find(SVG + "rect")
        if title.startswith("goal "):
            count["goals"] += 1
        elif box is not None and box.get("class", "").startswith("box"):
            told.append(title.split("\n")[0])
    count["links"] = sum(path.get("class", "").startswith("link") and path.find(SVG + "title") is not None for path in root.iter(SVG + "path"))
    count["dots"] = sum(circle.find(SVG + "title") is not None for circle in root.iter(SVG + "circle"))
    return told, count["links"], count["goals"], count["dots"]


def wanted(name):
    """The same, counted in a transcript."""
    lines = (tool.TOP / "examples" / f"{name}.txt").read_text().splitlines()
    words = [line.split(" ") for line in lines]
    told = [line for line, it in zip(lines, words) if it[0] in ("run", "drop")]
    links = sum(it[0] == "drop" or it[0] == "run" and it[2] not in ("timer", "poll") for it in words)
    return told, links, sum(it[0] == "state" and it[3] == "1" for it in words), sum(it[0] == "feedback" for it in words)


def answers(_program):
    for path in sorted((tool.TOP / "examples").glob("*.json")):
        if path.stem == "empty":
            continue
        status, text = drawn(path.stem)
        yield f"the status of picture {path.stem}", status, 0
        if status == 0:
            told, *counts = parts(text)
            should, *numbers = wanted(path.stem)
            yield f"the parts of picture {path.stem}", (sorted(told), counts), (sorted(should), numbers)
    for path in sorted((tool.TOP / "docs/pictures").glob("*.svg")):
        if (tool.TOP / "examples" / f"{path.stem}.json").exists():
            yield f"docs/pictures/{path.name}", drawn(path.stem, *PARTS.get(path.stem, ())), (0, path.read_text())
    yield from of_rounds()
    yield from of_many_rounds()
    yield from of_others()
    yield from of_words()


def of_rounds():
    """A range shows its rounds alone, and the goals that are there."""
    status, text = drawn("robot", "--rounds", "5-6")
    heads = [it.text for it in tree.fromstring(text).iter(SVG + "text") if it.text.startswith("round ")]
    yield "the rounds 5 to 6", (status, heads), (0, ["round 5", "round 6"])
    yield "the goals of rounds 5 to 6", parts(text)[2:], (1, 2)
    status, text = drawn("robot", "--rounds", "21-")
    yield "the callbacks of the last round", (status, parts(text)[0]), (0, ["run laser timer 24 0", "run wheels timer 24 0", "run slow_down reply 3 3"])


def of_many_rounds():
    """The heads of a picture of many rounds are those of its columns, and no stripe is painted over one."""
    document = {"version": 1, "nodes": [{"name": "n", "timers": [{"name": "t", "period": 7}]}], "moments": list(range(1, 7000, 7))}
    for first, last in ((1, 60), (1, 61), (1, 120), (95, 320), (301, 1000)):
        shown = scene.Scene(document, first, last)
        shown.take(iter(executor.lines_of(document)))
        root = tree.fromstring(picture.Picture(shown).svg())
        parts = [it for it in root if it.get("class") == "stripe" or it.tag == SVG + "text" and it.get("y") == "38"]
        stripes = [at for at, it in enumerate(parts) if it.get("class") == "stripe"]
        heads = [(it.text.split(" ")[-1], float(it.get("x"))) for it in parts if it.tag == SVG + "text"]
        wide, every, inset = (124, 1, 62) if last - first < 60 else (16, 10, 0)
        should = [(str(number), 150 + wide * (number - first) + inset) for number in range(first, last + 1, every)]
        yield f"the heads of rounds {first} to {last}", heads, should
        yield f"what is painted over the heads of rounds {first} to {last}", stripes, list(range(len(stripes)))


def of_others():
    """A document whose run this isn't, and a transcript without its end, are told at their places, and nothing is drawn."""
    for name, other, told in (
        ("robot", "timer", "examples/timer.txt:1:1: in the document round 1 is at moment 4: examples/robot.json isn't"),
        ("timer", "two_timers", "examples/two_timers.txt:1:1: in the document round 1 is at moment 0: examples/timer.json isn't"),
        ("cancel_by_stamp", "cancel_by_identifier", "examples/cancel_by_identifier.txt:"),
    ):
        status, text = tool.run("picture", f"examples/{name}.json", f"examples/{other}.txt")
        yield f"picture of {other} with {name}: {text}", (status, text.startswith(told), text.count("\n")), (2, True, 1)
    lines = (tool.TOP / "examples/robot.txt").read_text().splitlines(True)
    for change, told in (
        (lines[:60], "-:61:1: the line `end` is missing"),
        ([*lines[:60], "log ticks"], "-:61:1: the transcript is cut off within a line"),
        ([lines[0], lines[1].replace("laser", "lasr"), *lines[2:]], "-:2:1: the document has no timer lasr"),
        ([lines[0], lines[1].replace("laser timer", "laser message"), *lines[2:]], "-:2:1: the document has no subscription laser"),
        ([it for it in lines if it[:8] != "round 21" and it[:3] != "end"][:175] + ["end 20\n"], ": the document's run has `round 21 24` there"),
    ):
        status, text = tool.run("picture", "examples/robot.json", "-", given="".join(change).encode())
        yield f"picture of a changed transcript: {text}", (status, told in text, text.count("\n")), (2, True, 1)


def of_words():
    status, text = tool.run("picture", "--help")
    yield "picture --help", (status, "--rounds" in text), (0, True)
    for words in ((), ("examples/empty.json", "examples/empty.txt"), ("examples/timer.json", "nowhere"), ("examples/timer.json", "README.md")):
        yield f"picture {words}", tool.run("picture", *words)[0], 2
    yield "rounds that are none", drawn("timer", "--rounds", "9-12")[0], 2
    for rounds, status, says in (
        ("2-3", 0, ""),
        ("4", 0, ""),
        ("3-", 0, ""),
        ("3-5", 2, "there are no rounds 3 to 5: the transcript has 4\n"),
        ("5-", 2, "there are no rounds 5 to 1004: the transcript has 4\n"),
        ("5", 2, "there are no rounds 5 to 5: the transcript has 4\n"),
    ):
        found, text = drawn("timer", "--rounds", rounds)
        yield f"the rounds {rounds} of four: {text[-99:]}", (found, text.endswith(says or "</svg>\n")), (status, True)
    for rounds in ("x", "²", "1-²", "-2", "0", "0-2", "3-2", "1" * 5000):
        status, text = drawn("timer", f"--rounds={rounds}")
        yield f"the rounds {rounds[:40]}, that are no numbers", (status, "rounds are A-B" in text), (2, True)
