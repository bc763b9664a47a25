"""What lines and trace write of every example: an object for each line, from which the line can be written again; and events of which
each callback is a slice, each item that is taken a flow between two slices, and each state of a goal a span."""
import collections
import json
import pathlib
import re
import shutil
import subprocess
import sys
import tempfile

from virraupez import fields, mcap, transcript

from . import documented, drawn, tool

COMMAND = "../virraupez"
# The microseconds of a tick. A third of it is no whole number of nanoseconds.
TICK = 20000
WRONG = (
    (("lines", "nowhere"), "virraupez lines: nowhere: No such file or directory"),
    (("lines", "README.md"), "README.md:1:1: "),
    (("lines", "examples/robot.txt", "--document", "examples/timer.json"), "isn't the document of this transcript"),
    (("trace", "examples/timer.json", "examples/robot.txt"), "isn't the document of this transcript"),
    (("trace", "examples/timer.json", "nowhere"), "virraupez trace: nowhere: No such file or directory"),
    (("trace", "examples/timer.json", "examples/timer.txt", "--tick", "10"), "a time as 10ms, 0.5s or 100us, and not '10'"),
    (("trace", "examples/timer.json", "examples/timer.txt", "--tick", "0ms"), "and not '0ms'"),
    (("trace", "examples/timer.json", "examples/timer.txt", "--tick", "0.1ns"), "and not '0.1ns'"),
)


def answers(_program):
    for path in sorted((tool.TOP / "examples").glob("*.json")):
        yield from of_lines(path.stem)
        yield from of_trace(path.stem)
        yield from of_foxglove(path.stem)
    for words, part in WRONG:
        status, told = tool.within(*words)
        yield f"{words}: {told}", (status, part in told, told.startswith("{")), (2, True, False)
    text = tool.run(COMMAND, "lines", "examples/timer.txt")[1]
    yield "lines for grep", text.split("\n")[4:7], ["3\t35\tround 3 35", "3\t35\trun t timer 35 0", "3\t35\tlog t 35"]
    yield "each form of a line has its names", sorted(fields.NAMES), sorted(transcript.FORMS)
    for word, shapes in transcript.FORMS.items():
        yield f"the names of {word}", len(fields.NAMES[word]), max(map(len, shapes))
    cut = tool.run(COMMAND, "lines", "--json", "-", given=b"round 1 5\n")
    yield f"lines of one that is cut off: {cut}", (cut[0], "the line `end` is missing" in cut[1]), (2, True)
    yield from of_page()


def again(made):
    """The line of an object."""
    return " ".join([made["word"], *(str(made[name]) for name in fields.NAMES[made["word"]] if name in made)])


def of_foxglove(name):
    """The file has each line but those of rounds and the end, as its object, in the order of the lines; and each channel its schema."""
    words = ("trace", f"examples/{name}.json", f"examples/{name}.txt", "--foxglove", "--tick", "20us")
    with tempfile.TemporaryDirectory() as folder:
        path = pathlib.Path(folder) / "it.mcap"
        ran = subprocess.run([sys.executable, "-B", tool.TOP / "virraupez", *words, "-o", path], cwd=tool.TOP, stdout=subprocess.PIPE, stderr=subprocess.STDOUT)
        file = mcap.File(path)
        found = [(time, topic, json.loads(given)) for time, topic, given in file.messages({topic for _, topic, _ in file.channels.values()})]
    objects = map(json.loads, tool.within("lines", "--json", "--document", f"examples/{name}.json", f"examples/{name}.txt")[1].splitlines())
    should = [it for it in objects if it["word"] not in ("round", "end")]
    yield f"the messages of {name}", (ran.returncode, ran.stdout, [it for _, _, it in found]), (0, b"", should)
    yield f"the moments of {name}", [time // TICK for time, _, _ in found], [it["moment"] for it in should]
    topics = {"pub": "/topic/", "state": "/goals/", "log": "/log/"}
    yield f"the topics of {name}", [topic for _, topic, _ in found], [topics[it["word"]] + it["name"] if it["word"] in topics else {"run": "/callbacks", "drop": "/drops"}.get(it["word"], f"/{it['word']}") for it in should]
    fields_of = {topic: set(json.loads(file.schemas[schema][2])["properties"]) for schema, topic, _ in file.channels.values()}
    yield f"the schemas of {name}", [(topic, name) for _, topic, it in found for name in it if name not in fields_of[topic]], []
    kinds = {"integer": int, "string": str}
    types = {topic: json.loads(file.schemas[schema][2])["properties"] for schema, topic, _ in file.channels.values()}
    yield f"the types of {name}", [(topic, name) for _, topic, it in found for name, value in it.items() if value is not None and not isinstance(value, kinds[types[topic][name]["type"]])], []


def of_lines(name):
    lines = (tool.TOP / f"examples/{name}.txt").read_text().splitlines()
    status, text = tool.within("lines", "--json", "--document", f"examples/{name}.json", f"examples/{name}.txt")
    made = [json.loads(line) for line in text.splitlines()]
    yield f"lines --json {name}", (status, list(map(again, made))), (0, lines)
    plain = [json.loads(line) for line in tool.within("lines", "--json", f"examples/{name}.txt")[1].splitlines()]
    more = ("node", "group", "took", "fed")
    yield f"lines --json {name} without the document", plain, [{key: it for key, it in one.items() if key not in more} for one in made]
    known = sum("took" in it or "fed" in it for it in made)
    should = sum(line.startswith("run ") and line.split(" ")[2] not in ("timer", "poll") for line in lines)
    polls = sum(it["word"] == "run" and it["kind"] == "poll" and "took" in it for it in made)
    yield f"what callbacks of {name} took", known - polls, should
    for at, it in enumerate(made, 1):
        if "took" in it:
            sent = made[it["took"] - 1]
            yield f"line {at} of {name} took {sent}", (sent["line"] < at, "callback" in sent), (True, True)
            if it["kind"] in ("message", "request", "feedback"):
                yield f"line {at} of {name} took {sent}", sent["value"], it["in"]


def of_trace(name):
    status, text = tool.within("trace", f"examples/{name}.json", f"examples/{name}.txt", "--tick", f"{TICK // 1000}ms")
    events = json.loads(text)["traceEvents"]
    lines = (tool.TOP / f"examples/{name}.txt").read_text().splitlines()
    every = [it for it in events if it["ph"] == "X"]
    slices = [it for it in every if it["cat"] != "fed"]
    runs = [line for line in lines if line.startswith("run ")]
    yield f"the slices of {name}", (status, [f"run {it['name']} {it['args']['in']} {it['args']['aux']}" for it in slices]), (0, [" ".join(line.split(" ")[:5]) for line in runs])
    _, links, goals, dots = drawn.wanted(name)
    drops = sum(it["ph"] == "i" for it in events)
    begins = [it for it in events if it["ph"] == "s"]
    yield f"the flows of {name}", (len(begins), sum(it["ph"] == "f" for it in events)), (links - drops, links - drops)
    counts = collections.Counter(it["ph"] for it in events)
    yield f"the states, feedback and values of {name}", (counts["b"], counts["e"], counts["n"], counts["C"]), tuple(
        sum(line.startswith(word) for line in lines) for word in ("state ", "state ", "feedback ", "pub ")
    )
    yield f"the times of {name}", fault_of_times(every, begins, [it for it in events if it["ph"] == "f"]), ""


def fault_of_times(slices, begins, ends):
    """What is wrong with the times of events: slices of a track overlap, or a flow begins or ends in no slice, or goes back."""
    last = {}
    for it in slices:
        begin, track = nanoseconds(it["ts"]), (it["pid"], it["tid"])
        if begin < last.get(track, 0):
            return f"{it} begins before the one before it ends"
        if "moment" in it["args"] and not it["args"]["moment"] * TICK <= it["ts"] <= (it["args"]["moment"] + 1) * TICK:
            return f"{it} isn't in its tick"
        last[track] = begin + nanoseconds(it["dur"])
    tracks = {(it["ts"], it["pid"], it["tid"]) for it in slices}
    for begin, end in zip(begins, ends):
        if begin["id"] != end["id"] or end["ts"] < begin["ts"]:
            return f"{begin} doesn't lead to {end}"
        for it in (begin, end):
            if (it["ts"], it["pid"], it["tid"]) not in tracks:
                return f"{it} is in no slice"
    return ""


def nanoseconds(microseconds):
    return round(microseconds * 1000)


def of_page():
    """The commands of "lines" in docs/tools.md, those with jq if it is installed."""
    for block in documented.blocks(documented.Section(documented.TOOLS, "lines"), "text"):
        for part in re.split(r"^\$ ", block, flags=re.M)[1:]:
            command, _, output = part.partition("\n")
            if "jq" in command and not shutil.which("jq"):
                tool.UNDONE.append(f"a command of tools.md wasn't run, since jq isn't installed: {command}")
                continue
            ran = subprocess.run(["bash", "-c", command], stdout=subprocess.PIPE, stderr=subprocess.STDOUT, cwd=tool.TOP)
            yield f"tools.md: {command}", ran.stdout.decode(), output
