#!/usr/bin/env python3
"""Writes warehouse.json: a robot that carries boxes through a door, which a sweeper uses too. It weighs a box before it lifts it, and an
order that fails is tried again. A word plants a bug: race, depth, decide, retry or stale. docs/search.md says what becomes of each."""
import sys

import virraupez

bug = sys.argv[1] if sys.argv[1:] else "none"
if bug not in ("none", "race", "depth", "decide", "retry", "stale"):
    sys.exit("warehouse.py: a bug is wanted: race, depth, decide, retry or stale")

robot = virraupez.Document(topics=["order", "scale", "halt", "lift", "cmd_vel"])

# The desk sends each order as a goal, and one that was aborted again after 30 ticks.
desk = robot.node("desk")
desk.subscription("take_order", topic="order", script="goal carrier in")
desk.timer("again", period=1, script="""
    let due = g0
    let order = g1
    if due == 0 goto end
    if now < due goto end
    due = 0
    goal carrier order
""")
LATER = "g1 = in\n g0 = now + 30"
desk.action_client("carrier", action="carry", on_response="log in", on_result=f"""
    if aux != 6 goto end        # ABORTED
    {"goal carrier in" if bug == "retry" else LATER}
""")

# The fetcher: its callbacks share g0 to g3, so they are of one mutually exclusive group.
fetcher = robot.node("fetcher")
work = fetcher.exclusive("work")
fetcher.subscription("weigh", topic="scale", group=work, script="g1 = in")
fetcher.subscription("watch_halt", topic="halt", group=work, script="g3 = in")
fetcher.client("ask_door", service="door", group=work, script="g2 = 1")
ONE_AT_A_TIME = "if g0 goto end"
fetcher.action("carry", group=work, on_goal=f"""
    {"" if bug == "decide" else ONE_AT_A_TIME}
    g0 = 1
    decide 2
""", script=f"""
    let busy = g0
    let weight = g1
    let is_open = g2            # the door
    let halted = g3
    let begun = r0
    let laps = r1
    if laps goto drive
    if begun goto lift
    begun = now
    is_open = 0
    {"" if bug == "stale" else "weight = 0"}
    call ask_door in
lift:
    r2 = now - begun
    if r2 > 40 goto give_up     # no weight, or a door that stays closed
    if not weight goto end
    if not is_open goto end
    pub lift weight
    laps = 1
drive:
    if halted goto end
    if laps > 4 goto done
    laps += 1
    pub cmd_vel 30
    wait 4
    goto end
give_up:
    busy = 0
    abort in
done:
    pub cmd_vel 0
    busy = 0
    succeed in
""")

robot.node("arm").subscription("lifter", topic="lift", script="log in")

# The base stands while it is halted, whatever command is still on its way.
base = robot.node("base")
halted = base.exclusive("halted")
base.subscription("brake", topic="halt", group=halted, script="g0 = in")
base.subscription("motor", topic="cmd_vel", group=halted, script=f"""
    {"" if bug == "race" else "if g0 goto end"}
    log in
""")

# The door opens for one at a time, and the sweeper goes through it too.
robot.node("gate").service("door", depth=1 if bug == "depth" else 10, script="reply in")
sweeper = robot.node("sweeper")
sweeper.client("ask_to_sweep", service="door", script="log in")
sweeper.timer("sweep", period=26, script="call ask_to_sweep 0")

# What comes from outside: three orders, the weight of each box, and a halt.
for number, at in enumerate((10, 100, 190), 1):
    robot.message("order", number, at=at)
    robot.message("scale", 50 + number, at=at + 3)
for value, at in ((1, 145), (0, 155)):
    robot.message("halt", value, at=at)
robot.every(1, until=280)
robot.write()
