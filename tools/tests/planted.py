"""Ten robots, each with a timing bug that its own run doesn't show: search finds it within 2,000 runs, shrink makes a document of less
than a fifth that breaks the same rule and another timing of which doesn't, and in the robot that is mended search finds nothing."""
import json
import re

import virraupez

from . import sandbox, searched, tool

RUNS, MENDED_RUNS = 2000, 200
FAILS = re.compile("rules:[0-9]+:1: (fails|breaks)")


def surroundings():
    """What is on each robot and has no part in its bug."""
    robot = virraupez.Document(topics=["odometry", "heat", "light", "health"])
    wheels = robot.node("wheels")
    wheels.timer("turn", period=3, script="let way = g0\n way = way + 2\n pub odometry way")
    wheels.subscription("lit", topic="light", depth=2, script="log in")
    heat = robot.node("thermometer")
    heat.timer("measure", period=7, script="let degrees = g0\n degrees = degrees + 1\n degrees = min(degrees, 60)\n pub heat degrees")
    care = robot.node("care")
    care.subscription("way", topic="odometry", depth=3, script="g0 = in\n r0 = in > 60\n if r0 goto far\n pub health g1\n goto end\nfar:\n pub light 1")
    care.subscription("warm", topic="heat", depth=3, script="g1 = in\n r0 = in > 40\n if r0 goto hot\n log in\n goto end\nhot:\n pub light 2")
    care.client("lamp_of_care", service="lamp", script="log in")
    care.timer("shine", period=23, script="call lamp_of_care 3")
    robot.node("lamps").service("lamp", script="g0 = max(in, g0)\n reply g0")
    dock = robot.node("dock")
    dock.action("charge", on_goal="decide 2", on_cancel="decide 2", result_timeout=9, script="if aux goto stop\n r0 = r0 + 1\n feedback r0\n wait 3\n if r0 < 4 goto end\n succeed r0\nstop:\n canceled r0")
    dock.action_client("charger", action="charge", on_response="log in", on_feedback="log in", on_result="log aux")
    dock.timer("plug", period=41, script="goal charger 4")
    robot.node("monitor").subscription("well", topic="health", depth=2, script="log in")
    robot.every(1, until=120, begin=1)
    return robot


def deadline(robot, mended):
    """A deadline is compared by ==, so that it passes by if no round is at its very moment."""
    robot.topic("beat")
    robot.topic("alarm")
    guard = robot.node("guard")
    guard.subscription("hear", topic="beat", depth=1, script="g0 = now + 10\n g1 = 1")
    due = "r0 = now >= g0" if mended else "r0 = now == g0"
    guard.timer("look", period=1, script=f"if not g1 goto end\n {due}\n if not r0 goto end\n g1 = 0\n pub alarm 1")
    for at in range(5, 45, 5):
        robot.message("beat", at, at=at)
    return "every run hear message 40 then pub alarm 1 within 13 ticks", ("--shift", "45..55", "±1")


def lost_cancel(robot, mended):
    """A cancel request that comes before its goal is accepted is lost, and the robot drives on."""
    for topic in ("battery", "cmd"):
        robot.topic(topic)
    stop = "if g7 goto refuse\n decide 2\n goto end\nrefuse:\n decide 1" if mended else "decide 2"
    drive = robot.node("drive")
    drive.subscription("weak", topic="battery", script="r0 = in < 20\n if not r0 goto end\n g7 = 1")
    drive.action("go", on_goal=stop, on_cancel="decide 2", script="if aux goto stop\n pub cmd 5\n goto end\nstop:\n pub cmd 0\n canceled 0")
    pilot = robot.node("pilot")
    pilot.timer("begin", period=30, script="if g0 goto end\n g0 = 1\n goal driver 1")
    pilot.subscription("low", topic="battery", script="r0 = in < 20\n if not r0 goto end\n cancel driver all")
    pilot.action_client("driver", action="go", on_response="log in", on_result="log aux")
    robot.message("battery", 90, at=12)
    robot.message("battery", 15, at=70)
    return "never state go _ EXECUTING after cancel driver", ("--move", "feed[1]", "13..110")


def shallow(robot, mended):
    """A queue of depth 1 loses the press of a button that is released in the same round."""
    robot.topic("button")
    robot.topic("held")
    robot.node("panel").subscription("press", topic="button", depth=10 if mended else 1, script="pub held in")
    robot.node("hold").subscription("holder", topic="held", script="log in")
    for value, at in ((1, 30), (0, 36), (1, 70), (0, 75)):
        robot.message("button", value, at=at)
    return "never drop press", ("--jitter", "button", "±4")


def toggle(robot, mended):
    """A gripper that toggles opens if a message comes twice."""
    robot.topic("squeeze")
    robot.topic("grip")
    robot.node("hand").subscription("finger", topic="squeeze", script="pub grip 1" if mended else "g0 = 1 - g0\n pub grip g0")
    robot.node("palm").subscription("feel", topic="grip", script="log in")
    robot.message("squeeze", 1, at=33)
    return "never pub grip 0", ("--twice", "squeeze", "--jitter", "squeeze", "±9")


def parity(robot, mended):
    """A door is taken for closed after each second message, whatever they say."""
    for topic in ("door", "start", "arm"):
        robot.topic(topic)
    cell = robot.node("cell")
    cell.subscription("watch", topic="door", script="g0 = 1 - g0\n g1 = in\n g0 = in" if mended else "g0 = 1 - g0\n g1 = in")
    cell.subscription("launch", topic="start", script="if g0 goto end\n pub arm g1")
    robot.node("joint").subscription("move", topic="arm", script="log in")
    for value, at in ((1, 20), (0, 28), (1, 50), (0, 66)):
        robot.message("door", value, at=at)
    robot.message("start", 1, at=80)
    return "never pub arm 1", ("--swap", "door", "--drop", "start")


def beats(robot, mended):
    """A watchdog as fast as the beat that it waits for."""
    for topic in ("pulse", "silent"):
        robot.topic(topic)
    robot.node("heart").timer("throb", period=10, script="pub pulse 1")
    watch = robot.node("watch")
    watch.subscription("listen", topic="pulse", script="g0 = g0 + 1")
    most = 1 if mended else 0
    watch.timer("ask", period=10, script=f"r0 = g1 > {most}\n if g0 goto heard\n g1 = g1 + 1\n r1 = now < 15\n if r1 goto end\n if not r0 goto last\n pub silent 1\n goto end\nlast:\n if {1 if mended else 0} goto end\n pub silent 1\n goto end\nheard:\n g0 = 0\n g1 = 0")
    return "never pub silent 1", ("--period", "throb", "8..12", "--period", "measure", "6..8")


def order(robot, mended):
    """An order is sent again before its answer can be there, if the executor misses rounds."""
    shop = robot.node("shop")
    robot.node("store").service("sell", script="g0 = g0 + 1\n reply g0")
    shop.client("buy", service="sell", script="g1 = 1")
    again = "goto end" if mended else "call buy 1"
    shop.timer("want", period=5, script=f"r0 = now < 20\n if r0 goto end\n if g0 goto wait\n g0 = now\n call buy 1\n goto end\nwait:\n if g1 goto end\n {again}")
    return "count call buy at most 1", ("--miss", "18..30")


def busy(robot, mended):
    """A server notes that it is busy in its first poll, so that a goal which comes before that is accepted too."""
    drive = robot.node("drive")
    first = "if g0 goto end\n g0 = 1\n decide 2" if mended else "if g0 goto end\n decide 2"
    drive.action("go", on_goal=first, on_cancel="decide 2", script="if r7 goto on\n r7 = 1\n g0 = 1\n g1 = g1 + 1\n log g1\non:\n r0 = r0 + 1\n if r0 < 6 goto end\n g1 = g1 - 1\n g0 = 0\n succeed r0")
    robot.goal("go", 1, 5, at=20)
    robot.goal("go", 2, 5, at=50)
    robot.goal("go", 3, 5, at=90)
    return "never log go 2", ("--move", "feed[1]", "15..85")


def stale(robot, mended):
    """A scan counts as stale after no more time than is between two of them."""
    for topic in ("scan", "halt"):
        robot.topic(topic)
    eyes = robot.node("eyes")
    eyes.subscription("see", topic="scan", depth=2, script="g0 = now\n g1 = 1")
    eyes.timer("check", period=1, script=f"if not g1 goto end\n r0 = now - g0\n r1 = r0 > {12 if mended else 5}\n if not r1 goto end\n g1 = 0\n pub halt 1")
    robot.node("motor").subscription("brake", topic="halt", script="log in")
    for at in range(10, 120, 5):
        robot.message("scan", at, at=at)
    return "never pub halt 1", ("--jitter", "scan", "±1")


def stop(robot, mended):
    """A goal asks after its wait alone whether it is canceled."""
    robot.topic("enough")
    drive = robot.node("drive")
    top = "if aux goto stop\n " if mended else ""
    drive.action("go", on_goal="decide 2", on_cancel="decide 2", script=f"{top}r0 = r0 + 1\n feedback r0\n wait 4\n if aux goto stop\n goto end\nstop:\n canceled r0")
    pilot = robot.node("pilot")
    pilot.timer("begin", period=15, script="if g0 goto end\n g0 = 1\n goal driver 1")
    pilot.subscription("quit", topic="enough", script="cancel driver goal 1")
    pilot.action_client("driver", action="go", on_response="log in", on_feedback="log in", on_result="log aux")
    robot.message("enough", 1, at=63)
    return "every state go ID CANCELING then state go ID CANCELED within 1 round", ("--jitter", "enough", "±3")


BUGS = (deadline, lost_cancel, shallow, toggle, parity, beats, order, busy, stale, stop)


def answers(program):
    with sandbox.with_program(program) as top:
        for plant in BUGS:
            yield from of_bug(top, plant)


def of_bug(top, plant):
    name = plant.__name__
    for mended in (False, True):
        robot = surroundings()
        rule, words = plant(robot, mended)
        (top / f"{name}{'_mended' * mended}.json").write_text(robot.text())
    (top / f"{name}.rules").write_text(rule + "\n")
    held = searched.started(top, "run", f"{name}.json", "-o", "own.txt"), searched.started(top, "holds", "--document", f"{name}.json", f"{name}.rules", "own.txt")
    yield f"{name}: the document's own run: {held}", (held[0][0], held[1][1].split("\n")[-2]), (0, "1 hold, 0 fail, 0 undecided")
    status, told = searched.started(top, "search", f"{name}.json", "--rules", f"{name}.rules", *words, "--runs", str(RUNS), "--save", name)
    yield f"{name}: search {words}: {told}", (status, bool(FAILS.search(told))), (1, True)
    mended = searched.started(top, "search", f"{name}_mended.json", "--rules", f"{name}.rules", *words, "--runs", str(MENDED_RUNS))
    yield f"{name}: the search of the mended one: {mended}", mended[0], 0
    status, told = searched.started(top, "shrink", f"{name}/rule_1.json", "--rules", f"{name}.rules", "--unless", f"{name}.json", "-o", f"{name}.small.json")
    sizes = [int(it) for it in re.search("([0-9]+) bytes became ([0-9]+)", told).groups()] if status == 0 else (1, 1)
    yield f"{name}: shrink: {told}", (status, 5 * sizes[1] < sizes[0]), (0, True)
    if plant is stale and status == 0:
        # A timer that always halts would break the rule too, but whatever the timing is.
        yield f"{name}: what is left depends on its timing", len(json.loads((top / f"{name}.small.json").read_text()).get("feed", [])), 1
    small = searched.started(top, "run", f"{name}.small.json", "-o", "small.txt"), searched.started(top, "holds", f"{name}.rules", "small.txt")
    yield f"{name}: what is left: {small}", (small[0][0], bool(FAILS.search(small[1][1]))), (0, True)
