"""What is plotted of a run: the page's and the picture's values are those of the transcript, counted here by its lines; and what the page
draws of them in headless Chromium, if that is installed."""
import collections
import itertools
import json
import os
import pathlib
import re
import subprocess
import sys
import tempfile
import xml.etree.ElementTree as tree

from . import browser, tool
from .drawn import SVG
from .viewed import data_of, focus, opened

NAVIGATION = ("examples/navigation.json", "examples/navigation.txt")
# What each half of a step that is drawn has: two places in pixels. They are read back by the scale of the axis and the panel.
DRAWN = """(() => {
  const steps = [], moves = pen.moveTo, lines = pen.lineTo, panel = plots.panels.find((it) => it.name === "%s" && it.kind === "%s");
  const value = (y) => panel.low + (panel.top + panel.high - PAD - y) / (panel.high - 2 * PAD - 2) * (panel.most - panel.low);
  let from = null;
  pen.moveTo = (...to) => { from = to; };
  pen.lineTo = (...to) => { if (from[1] === to[1] && to[0] > from[0]) steps.push([from[0], to[0], value(to[1])]); from = to; };
  for (const its of panel.series) drawSteps(panel, its, 0, data.columns - 1, "#000000");
  pen.moveTo = moves;
  pen.lineTo = lines;
  return steps.map(([begin, end, it]) => [columnAt(begin + 0.6), columnAt(end - 0.6), Math.round(it * 1000) / 1000]);
})()"""


def answers(_program):
    for path in sorted((tool.TOP / "examples").glob("*.json")):
        if path.stem != "empty":
            yield from of_data(path.stem)
    yield from of_pictures()
    for command in ("view", "picture"):
        status, told = tool.within(command, *NAVIGATION, "--plot", "cmd_vel,start")
        yield f"{command} --plot of a timer: {told}", (status, "--plot: start is no topic" in told), (2, True)
    yield from of_pandas()
    yield from browser.opened(of_plots, "plots in Chromium", "no plot was read back from a page")


def of_plots(page, folder):
    """Plots in a page."""
    yield from of_page(page, folder)
    yield from of_use(page)
    yield from of_lost(page, folder)


# ---- what a transcript has


class Counted:
    """A run, counted by its lines: after each round, or as it begins, by the entity or the topic."""

    def __init__(self, name):
        self.document = json.loads((tool.TOP / f"examples/{name}.json").read_text())
        text = (tool.TOP / f"examples/{name}.txt").read_text().rpartition("\nend ")[0]
        self.rounds = [[line.split(" ") for line in part.split("\n")[1:] if not line.startswith("pending ")] for part in ("\n" + text).split("\nround ")[1:]]
        self.fed = collections.defaultdict(list)
        for entry in self.document.get("feed", []):
            self.fed[entry["round"]].append(entry)

    def lines(self, number):
        return self.rounds[number - 1]

    def topic(self, topic):
        """The values of a topic, as rounds with their values."""
        found = []
        for number in range(1, len(self.rounds) + 1):
            values = [it["value"] for it in self.fed[number] if it.get("topic") == topic]
            values += [int(it[2]) for it in self.lines(number) if it[:2] == ["pub", topic]]
            found += [(number, value) for value in values]
        return found

    def queue(self, subscription, topic):
        """How many messages a subscription has as each round begins, after feeding."""
        length, found = 0, []
        for number in range(1, len(self.rounds) + 1):
            length += sum(it.get("topic") == topic for it in self.fed[number])
            before = itertools.takewhile(lambda it: it[0] != "run", self.lines(number))
            lost = sum(it[:2] == ["drop", subscription] for it in before)
            found.append(length - lost)
            length += sum(it[:2] == ["pub", topic] for it in self.lines(number))
            length -= sum(it[0] in ("run", "drop") and it[1] == subscription for it in self.lines(number))
        return found

    def waiting(self, client):
        """How many calls wait as each round ends."""
        by = [sum(it[:2] == ["call", client] for it in lines) - sum(it[:3] == ["run", client, "reply"] for it in lines) for lines in self.rounds]
        return list(itertools.accumulate(by))

    def states(self, server):
        """How many goals have each state as each round ends."""
        goals, found = {}, []
        for lines in self.rounds:
            for it in lines:
                if it[:2] == ["state", server]:
                    goals[it[2]] = int(it[3])
                elif it[:2] == ["expire", server]:
                    goals.pop(it[2])
            found.append([sum(its == state for its in goals.values()) for state in range(1, 7)])
        return found

    def feedback(self, server):
        found = collections.defaultdict(list)
        for number, lines in enumerate(self.rounds, 1):
            for it in lines:
                if it[:2] == ["feedback", server]:
                    found[it[2]].append((number, int(it[3])))
        return dict(found)


def points(columns, values):
    """Steps as rounds with their values."""
    return list(zip((it + 1 for it in itertools.accumulate(columns)), map(number, values)))


def number(value):
    return int(value) if isinstance(value, str) else value


def at_rounds(columns, values, count):
    """What steps have in each round."""
    steps = points(columns, values)
    return [[value for at, value in steps if at <= number][-1] for number in range(1, count + 1)]


def of_data(name):
    status, text = tool.within("view", f"examples/{name}.json", f"examples/{name}.txt")
    counted, count, panels = Counted(name), len(Counted(name).rounds), {}
    for entity, _, its in data_of(text)["runs"][0]["plots"]:
        panels.update({(entity, title): data for title, _, data in its})
    found, should = {}, {}
    for topic in counted.document.get("topics", []):
        it = panels[topic, "values"]
        found[topic], should[topic] = points(it["columns"], it["values"]), counted.topic(topic)
        found[topic, "lost"] = sorted((it["values"][at], by) for at, by in it["lost"])
        listeners = [its["name"] for node in counted.document["nodes"] for its in node.get("subscriptions", []) if its["topic"] == topic]
        should[topic, "lost"] = sorted((int(line[3]), line[1]) for lines in counted.rounds for line in lines if line[0] == "drop" and line[1] in listeners)
    for node in counted.document.get("nodes", []):
        for it in node.get("subscriptions", []):
            its = panels[it["name"], "queue of message items"]
            found[it["name"]] = at_rounds(its["columns"], its["values"], count), its["depth"]
            should[it["name"]] = counted.queue(it["name"], it["topic"]), it.get("depth", 10)
        for it in node.get("clients", []):
            its = panels[it["name"], "calls that wait"]
            found[it["name"]], should[it["name"]] = at_rounds(its["columns"], its["values"], count), counted.waiting(it["name"])
        for it in node.get("actions", []):
            its = panels[it["name"], "goals by state"]
            found[it["name"]], should[it["name"]] = at_rounds(its["columns"], its["values"], count), counted.states(it["name"])
            its = panels[it["name"], "feedback"]
            found[it["name"], "feedback"] = {goal: points(columns, values) for goal, columns, values in its["goals"]}
            should[it["name"], "feedback"] = counted.feedback(it["name"])
    for key, value in should.items():
        yield f"what view {name} plots of {key}", found[key], value


# ---- pictures


def of_pictures():
    """The steps of a picture are the transcript's values, read back by the scale that it has."""
    for name, topic, first, last in (("navigation", "cmd_vel", 51, 110), ("navigation", "scan", 101, 160), ("keep_last", "frames", 1, 5)):
        status, text = tool.run("picture", f"examples/{name}.json", f"examples/{name}.txt", "--rounds", f"{first}-{last}", "--plot", topic)
        root, values = tree.fromstring(text), Counted(name).topic(topic)
        path = next(it.get("d") for it in root.iter(SVG + "path") if it.get("class") == "plot topic")
        ends = sorted((float(it.get("y")) - 3, int(it.text)) for it in root.iter(SVG + "text") if it.get("text-anchor") == "end" and it.get("x") == "144")
        (top, most), (bottom, low) = ends[0], ends[-1]
        scale = (most - low) / (bottom - top) if bottom > top else 0
        found = [(first + (float(x) - 150) // 124, round(low + (bottom - float(y)) * scale)) for x, y in re.findall("H([0-9.]+)V([0-9.]+)", path)]
        before = [(first, value) for number, value in values if number < first][-1:]
        yield f"the steps of {topic} in a picture of {name}", (status, found), (0, before + [it for it in values if first <= it[0] <= last])
    crosses = [it for it in root.iter(SVG + "path") if it.get("class") == "lost" and "l8,8" in it.get("d")]
    boxes = sum(line[0] == "drop" for lines in Counted("keep_last").rounds for line in lines)
    yield "the crosses of what was lost, and those of the boxes", len(crosses), len({1, 2, 3}) + boxes


def of_pandas():
    """The columns of docs/tools.md, if a Python here has pandas."""
    pythons = [it for it in (sys.executable, "/usr/bin/python3") if os.path.exists(it) and subprocess.run([it, "-c", "import pandas"], stderr=subprocess.DEVNULL).returncode == 0]
    if not pythons:
        tool.UNDONE.append("the columns of docs/tools.md weren't made: pandas isn't installed")
        return
    block = re.search("```pandas\n(.*?)```", (tool.TOP / "docs/tools.md").read_text(), re.S)[1]
    with tempfile.TemporaryDirectory() as folder:
        (pathlib.Path(folder) / "run.jsonl").write_text(tool.run("../virraupez", "lines", NAVIGATION[1], "--json")[1])
        block += "\nprint(values.cmd_vel.dropna().astype(int).to_json(), waiting.astype(int).to_json())"
        ran = subprocess.run([pythons[0], "-c", block], stdout=subprocess.PIPE, stderr=subprocess.STDOUT, cwd=folder)
    counted = Counted("navigation")
    moments = {str(at - 1): value for at, value in counted.topic("cmd_vel")}
    waiting = {str(at): count for at, (before, count) in enumerate(zip([0, *counted.waiting("ask_path")], counted.waiting("ask_path"))) if before != count}
    yield "the columns of pandas", ran.stdout.decode(), f"{json.dumps(moments, separators=(',', ':'))} {json.dumps(waiting, separators=(',', ':'))}\n"


# ---- pages


def of_page(page, folder):
    """What a page draws, read back from its lines in pixels, and what it says under the pointer."""
    opened(page, folder, *NAVIGATION, "--plot", "cmd_vel,battery,navigate,motor")
    counted = Counted("navigation")
    yield "the plots that are open", page.value("plots.open"), ["cmd_vel", "battery", "navigate", "motor"]
    for topic in ("cmd_vel", "battery"):
        values = counted.topic(topic)
        page.value("view.isFolded = false; fold(); view.width = 3.5; view.left = 0; draw()")
        drawn = page.value(DRAWN % (topic, "values"))
        found = [(begin + 1, value) for begin, _, value in drawn]
        yield f"the steps of {topic} that are drawn", found, [(at, float(value)) for at, value in values]
        yield f"where the steps of {topic} end", [end + 1 for _, end, _ in drawn][:-1], [at - 1 for at, _ in values[1:]]
    queue = page.value(DRAWN % ("motor", "queue"))
    lengths = counted.queue("motor", "cmd_vel")
    yield "the queue that is drawn", [[int(value)] * (end - max(begin, 0) + 1) for begin, end, value in queue if end >= 0][0:8], [list(its) for _, its in itertools.groupby(lengths)][0:8]
    page.value("zoomAll()")
    page.settle()
    for round_number in (60, 100, 155, 156, 200):
        column = round_number - 1
        at = page.value(f"(() => {{ const at = canvas.getBoundingClientRect(); return [x({column} + 0.5) + at.left, plots.top + 20 + at.top]; }})()")
        page.pointer(*at)
        told = dict(zip(*page.value("['dt', 'dd'].map((name) => [...document.querySelectorAll('#values ' + name)].map((it) => it.textContent))")))
        last = [value for at, value in counted.topic("cmd_vel") if at <= round_number][-1:]
        yield f"cmd_vel under the pointer in round {round_number}", told["cmd_vel, values"], str(last[0]) if last else "nothing yet"
        yield f"the queue under the pointer in round {round_number}", told["motor, queue of message items"], f"{lengths[column]} of 1"
        states = {3: "canceling", 2: "executing", 5: "canceled"}
        yield f"the goals under the pointer in round {round_number}", told["navigate, goals by state"], ", ".join(f"{count} {states[state]}" for state, count in enumerate(counted.states("navigate")[column], 1) if count) or "none"
        yield f"what the tip says in round {round_number}", page.text("#tip").startswith(f"cmd_vel, values: {told['cmd_vel, values']}\nin round {round_number} "), True


def of_use(page):
    """Plots open and close by a click on a name, by a key, and by the list."""
    focus(page)
    page.key("Escape")
    yield "the values of the chosen round", page.value("(plots.cursor = null, choose(155), draw(), document.querySelector('#values h2').textContent)"), "Values in round 156 at moment 155"
    place = "(() => { const at = canvas.getBoundingClientRect(), [top] = runs[0].tops[%d]; return [30 + at.left, top + 32 + 13 * %d + 6 + at.top]; })()"
    page.pointer(*page.value(place % (1, 0)), click=True)
    yield "a click on the name of an entity", page.value("plots.open.includes('watch_scan')"), True
    page.pointer(*page.value(place % (1, 0)), click=True)
    yield "a second click on it", page.value("plots.open.includes('watch_scan')"), False
    page.pointer(*page.value("(() => { const at = canvas.getBoundingClientRect(), panel = plots.panels[0]; return [12 + at.left, panel.top + 10 + at.top]; })()"), click=True)
    yield "a click on the name of a plot closes it", page.value("plots.open"), ["battery", "navigate", "motor"]
    focus(page)
    page.key("ArrowDown")
    page.key("p")
    yield "the key p", (page.text("#lines [aria-current]"), page.value("plots.open")), ("run navigate poll 30 1 1.1", ["battery", "motor"])
    page.value("document.querySelector('#plots summary').click()")
    page.settle()
    names = page.value("[...document.querySelectorAll('#names input')].map((it) => [it.value, it.checked])")
    yield "the list of plots", [name for name, _ in names], ["scan", "battery", "cmd_vel", "plan_path", "watch_scan", "ask_path", "navigate", "motor", "watch_battery", "go"]
    yield "those that are ticked", [name for name, is_open in names if is_open], ["battery", "motor"]
    page.value("document.querySelector('#names input[value=scan]').click()")
    yield "a plot that is ticked", page.value("plots.open"), ["battery", "motor", "scan"]


def of_lost(page, folder):
    """A value that a queue lost has a cross, and the values say who lost it; without --plot the topics that fit are open."""
    opened(page, folder, "examples/keep_last.json", "examples/keep_last.txt")
    yield "the plots that open by themselves", page.value("plots.open"), ["frames"]
    lost = page.value("plots.panels[0].lost.map((it) => [it.value, it.by])")
    lines = (tool.TOP / "examples/keep_last.txt").read_text().splitlines()
    yield "the values with a cross", sorted(lost), sorted([int(line.split(" ")[3]), line.split(" ")[1]] for line in lines if line.startswith("drop "))
