#!/usr/bin/env python3
"""Writes navigation.json: a robot that drives to a place, with a planner, a lidar, a watchdog and a battery. A word says what
happens on the way: arrive, low_battery or silent_lidar. docs/modelling.md goes through it."""
import sys

import virraupez

SECOND = 50                     # a tick is 20 ms
happens = sys.argv[1] if sys.argv[1:] else "low_battery"
if happens not in ("arrive", "low_battery", "silent_lidar"):
    sys.exit("navigation.py: a word is wanted: arrive, low_battery or silent_lidar")

robot = virraupez.Document(topics=["scan", "battery", "cmd_vel"])

# The planner: a request is a place, in steps from here, and the reply is how many steps the path has.
robot.node("planner").service("plan_path", script="""
    r0 = in + 2                 # a detour
    reply r0
""")

# The navigator: its callbacks share g0 to g3, so they are of one mutually exclusive group.
navigator = robot.node("navigator")
driving = navigator.exclusive("driving")
navigator.subscription("watch_scan", topic="scan", depth=1, group=driving, script="""
    let distance = g0           # to what is ahead, in cm
    let heard = g1              # when the lidar was last heard
    distance = in
    heard = now
""")
navigator.client("ask_path", service="plan_path", group=driving, script="""
    let steps = g2              # of the path; 0 until there is one
    steps = in
""")
navigator.action("navigate", group=driving, result_timeout=10 * SECOND, on_goal="""
    let busy = g3               # one goal at a time
    if busy goto end
    busy = 1
    decide 2
""", on_cancel="decide 2", script="""
    let distance = g0
    let heard = g1
    let steps = g2
    let busy = g3
    let asked = r6
    let done = r5
    if aux goto stop
    if asked goto lap
    asked = 1                   # the first poll asks for a path
    steps = 0
    heard = now
    call ask_path in
lap:
    r0 = now - heard
    if r0 > 25 goto silent      # the watchdog: half a second without a scan
    if steps == 0 goto rest
    if done >= steps goto arrived
    done += 1
    r1 = steps - done
    feedback r1                 # how many steps are left
    r2 = 30                     # cm/s, and less if something is near
    if distance >= 100 goto drive
    r2 = 10
drive:
    pub cmd_vel r2
rest:
    wait 4                      # 10 Hz: 4 ticks, and a round until the next lap begins
    if aux goto stop
    goto end
arrived:
    pub cmd_vel 0
    busy = 0
    succeed done
silent:
    pub cmd_vel 0
    busy = 0
    abort done
stop:
    pub cmd_vel 0
    busy = 0
    canceled done
""")

# The base takes the newest command.
robot.node("base").subscription("motor", topic="cmd_vel", depth=1, script="log in")

# The mission sends a goal after a second, and cancels it if the battery is low.
mission = robot.node("mission")
mission.timer("start", period=SECOND, script="""
    let sent = g0
    if sent goto end
    sent = 1
    goal go 30
""")
mission.subscription("watch_battery", topic="battery", depth=1, script="""
    if in >= 20 goto end        # percent
    cancel go goal 1
""")
mission.action_client("go", action="navigate", on_response="log in", on_feedback="log in", on_result="log aux")

# What comes from outside: the lidar five times a second, the battery once.
last = 3 * SECOND if happens == "silent_lidar" else 5 * SECOND
for at in range(0, last, 10):
    robot.message("scan", 300 - at, at=at)
for at in range(3, 5 * SECOND, SECOND):
    robot.message("battery", 15 if happens == "low_battery" and at > 3 * SECOND else 80, at=at)
robot.every(1, until=5 * SECOND)
robot.write()
