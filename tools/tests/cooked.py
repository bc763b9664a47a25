"""What the recipes of the cookbook do: the transcript of each is held to rules, by `holds`, and a recipe with one of its lines
changed breaks them."""
import json
import pathlib
import re
import sys
import tempfile

import virraupez
from virraupez import executor

from . import tool

PAGE = tool.TOP / "docs/cookbook.md"
SCRIPT = re.compile(r"^```script (\w+)\n(.*?)^```$", re.S | re.M)
ONCE = "if g7 goto end\ng7 = 1\ngoal driver 5"


def around(period=10, apart=1, until=70, **given):
    """A document with one entity of each kind, in which some scripts are others."""
    scripts = {"timer": "log 0", "callback": "log in", "service": "reply in", "reply": "log in", "on_goal": "decide 2", "goal": "succeed in", **given}
    made = virraupez.Document(topics=["x", "y"])
    node = made.node("n")
    node.timer("tick", period=period, script=scripts["timer"])
    node.subscription("listen", topic="x", script=scripts["callback"])
    node.service("plan", script=scripts["service"])
    node.client("planner", service="plan", script=scripts["reply"])
    node.action("drive", on_goal=scripts["on_goal"], on_cancel="decide 2", script=scripts["goal"])
    clients = {name: scripts[name] for name in ("on_response", "on_code", "on_feedback") if name in scripts}
    node.action_client("driver", action="drive", on_result=scripts.get("on_result", "log aux"), **clients)
    made.every(apart, until=until, begin=1)
    return made


def messages(made, *moments, value=0):
    for at in moments:
        made.message("x", value, at=at)


class Recipe:
    """A recipe by its heading: how its scripts are changed for a run, what is fed, rules that hold of the run, and a change of a
    line with which they don't."""

    def __init__(self, heading, rules, change, feed=lambda made: None, period=10, apart=1, edit=("", ""), **scripts):
        self.heading, self.rules, self.change, self.feed = heading, rules, change, feed
        # An edit is what the page says may stand for a part of the recipe; {ROLE} in a script is the script of the recipe.
        self.period, self.apart, self.edit, self.scripts = period, apart, edit, scripts

    def made(self, *change):
        text = PAGE.read_text().split(f"## {self.heading}\n", 1)[1].split("\n## ", 1)[0]
        for old, new in (self.edit, change or self.edit):
            text = text.replace(old, new)
        scripts = dict(SCRIPT.findall(text))
        given = {role: script.format(**scripts) for role, script in self.scripts.items()}
        made = around(**{**scripts, **given}, period=self.period, apart=self.apart)
        self.feed(made)
        return made


def limited(made):
    for value, at in ((9, 9), (10, 10)):
        made.message("x", value, at=at)


def canceled(made):
    made.cancel("drive", at=15)


RECIPES = (
    Recipe("If and else", "count log listen 0 is 1\ncount log listen 1 is 1\nnever log listen 1 before log listen 0", ("in < 10", "in <= 10"), limited),
    Recipe("Something once", "count goal driver is 1\nsome goal driver _ 5", ("g7 = 1", "g6 = 1"), timer="{callback}"),
    Recipe(
        "Every third message",
        "count pub y is 2\nsome pub y 3\nsome pub y 6",
        ("count = 0", "count = 1"),
        lambda made: [made.message("x", at, at=at) for at in range(1, 9)],
    ),
    Recipe(
        "A timer that is canceled or reset",
        "some pub y 1\nsome pub y 11\nsome pub y 25\nsome pub y 35\ncount pub y is 7\nevery run listen then pub y within 10 ticks",
        ("next = now + 10         # a message", "r0 = now + 10 # a message"),
        lambda made: messages(made, 15),
        period=1,
    ),
    Recipe("A loop", "count feedback drive is 5\nsome feedback drive _ 5\nsome state drive _ SUCCEEDED", ("laps < in", "laps <= in"), timer=ONCE),
    Recipe(
        "A loop at N Hz",
        "count feedback drive is 5\nsome feedback drive _ 12\nsome feedback drive _ 22\nsome feedback drive _ 52\nsome state drive _ SUCCEEDED",
        ("wait 9", "wait 10"),
        timer=ONCE,
    ),
    Recipe(
        "A loop at N Hz",
        "count feedback drive is 5\nsome feedback drive _ 21\nsome feedback drive _ 31\nsome feedback drive _ 61",
        ("wait 5", "wait 6"),
        apart=5,
        edit=("wait 9", "wait 5"),
        timer=ONCE,
    ),
    Recipe(
        "A loop at N Hz",
        "every state drive ID CANCELING then state drive ID CANCELED within 1 tick\nsome state drive _ CANCELED",
        ("wait 9\nif aux goto stop", "wait 9"),
        canceled,
        timer=ONCE,
    ),
    Recipe(
        "A goal that hears of its cancellation",
        "some state drive _ CANCELING\nevery state drive ID CANCELING then state drive ID CANCELED within 1 round\nnever state drive _ SUCCEEDED|ABORTED",
        ("wait 10\nif aux goto stop", "wait 10"),
        canceled,
        timer=ONCE,
    ),
    Recipe("A deadline", "some state drive _ ABORTED\ncount feedback drive is 20", ("now + 20", "now + 21"), timer=ONCE),
    Recipe(
        "A service that a goal calls",
        "count call planner is 1\nevery call planner then run planner reply within 2 rounds\nevery run planner reply then state drive _ SUCCEEDED within 0 rounds\n"
        "some result drive _ SUCCEEDED 10",
        ("plan = in", "plan = 1"),
        timer=ONCE,
        service="r0 = in + in\nreply r0",
    ),
    Recipe(
        "Retries",
        "count goal driver is 3\ncount goal driver _ 5 is 3\ncount result drive _ ABORTED 7 is 3\nevery result drive _ ABORTED then run driver result",
        ("tries += 1\ngoal driver wanted", "tries += 1\ngoal driver in"),
        timer="if now > 10 goto end\n{callback}",
        goal="abort 7",
    ),
    Recipe("Retries", "count goal driver is 1\nsome state drive _ SUCCEEDED", ("if aux == 4", "if aux == 5"), timer="if now > 10 goto end\n{callback}", goal="succeed 7"),
    Recipe(
        "One goal at a time",
        "count state drive _ EXECUTING is 6\ncount decide drive _ REJECT is 6\nevery decide drive _ ACCEPT_AND_EXECUTE then state drive _ SUCCEEDED within 3 rounds",
        ("busy = 0 ", "busy = 1 "),
        timer="goal driver 1\ngoal driver 2",
    ),
    Recipe(
        "Preemption",
        "count goal driver is 3\ncount state drive _ ABORTED is 2\ncount state drive _ SUCCEEDED is 1\nevery decide drive _ ACCEPT_AND_EXECUTE then state drive _ SUCCEEDED|ABORTED within 12 rounds\n"
        "never feedback drive ID after state drive ID ABORTED\nsome result drive 00000000-0000-0001-0000-000000000003 SUCCEEDED 9",
        ("if mine < accepted", "if accepted < mine"),
        timer="if now > 20 goto end\nif now > 10 goto twice\ngoal driver 99\ngoto end\ntwice: goal driver 99\ngoal driver 9",
    ),
    Recipe(
        "A gate for goals",
        "count state drive _ ACCEPTED is 2\ncount state drive _ EXECUTING is 1\nnever state drive _ EXECUTING before run listen",
        ("execute drive", "log 1"),
        lambda made: messages(made, 25),
        timer="if now > 20 goto end\ngoal driver 1",
    ),
    Recipe("A state machine", "count pub y is 2\nsome pub y 1\nnever pub y 0 before pub y 1", ("state = 2", "state = 1"), lambda made: messages(made, 5, 6, 7)),
    Recipe("A watchdog", "some pub y -1\nnever pub y -1 before run tick timer 50\ncount pub y is 3", ("heard + 30", "heard + 40"), lambda made: messages(made, 5, 18)),
    Recipe(
        "A watchdog that stops a goal",
        "some state drive _ ABORTED\nnever pub y 5 after pub y 0\nnever state drive _ ABORTED before round 36\nevery round 20 then pub y 0 within 20 ticks",
        ("if r0 > 15", "if r0 > 25"),
        lambda made: messages(made, 2, 10, 20),
        timer=ONCE,
    ),
    Recipe(
        "A watchdog that stops a goal",
        "every state drive ID CANCELING then state drive ID CANCELED within 1 tick\nevery state drive _ CANCELING then pub y 0 within 1 tick\nsome state drive _ CANCELED",
        ("wait 4\nif aux goto stop", "wait 4"),
        lambda made: (messages(made, 2, 10, 20), canceled(made)),
        timer=ONCE,
    ),
)


def held(made, rules):
    """What holds says of a document's transcript: its status, and its words."""
    text = made.text()
    transcript = "".join(f"{line}\n" for line in executor.lines_of(json.loads(text)))
    with tempfile.TemporaryDirectory() as folder:
        names = [pathlib.Path(folder) / name for name in ("document", "rules", "transcript")]
        for name, given in zip(names, (text, rules, transcript)):
            name.write_text(given)
        return tool.run("holds", "--document", *names)


def answers(_program):
    for recipe in RECIPES:
        status, says = held(recipe.made(), recipe.rules)
        yield f"the cookbook's {recipe.heading!r}: {says}", status, 0
        status, says = held(recipe.made(*recipe.change), recipe.rules)
        yield f"the cookbook's {recipe.heading!r} with {recipe.change}: {says}", status, 1
    yield from surprises()
    headings = {heading for heading, text in re.findall(r"^## (.*?)\n(.*?)(?=^## |\Z)", PAGE.read_text(), re.S | re.M) if SCRIPT.search(text)}
    yield "the recipes that are held to rules", {recipe.heading for recipe in RECIPES}, headings


def surprises():
    """What docs/from_rclcpp.md says under "What surprises" of messages and of goals."""
    made = around()
    for value in (1, 2):
        made.message("x", value, at=5)
    status, says = held(made, "every run listen message 1 then run listen message 2 within 1 round\nnever run listen message 2 before round 6\ncount run listen is 2")
    yield f"one message a round: {says}", status, 0
    made = around(period=1, until=1030, timer="goal driver now")
    status, says = held(made, "count decide drive _ ACCEPT_AND_EXECUTE is 1024\ncount decide drive _ REJECT is 5\ncount state drive _ SUCCEEDED is 1024")
    yield f"a server that holds 1,024 goals: {says}", status, 0
