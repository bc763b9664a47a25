#!/usr/bin/env python3
"""Writes robot.json: sensors, fusion, a planner, and a driver with an e-stop. `./virraupez write examples/robot.py` runs it."""
import virraupez

robot = virraupez.Document(topics=["range", "odometry", "obstacle", "base_cmd", "e_stop"])

sensors = robot.node("sensors")
sensors.timer("laser", period=4, script="""
    g0 = g0 + 1                 # the scans so far: the wall comes nearer
    r0 = 9 - g0
    r0 = max(r0, 0)
    pub range r0
""")
sensors.timer("wheels", period=2, script="""
    g1 = g1 + 1
    pub odometry g1
""")

fusion = robot.node("fusion")
state = fusion.exclusive("state")       # both callbacks share g0, the last distance
fusion.subscription("ranges", topic="range", depth=1, group=state, script="""
    g0 = in
    r0 = in < 7
    if not r0 goto end
    pub obstacle in
""")
fusion.subscription("ticks", topic="odometry", depth=4, group=state, script="""
    log g0
""")

planner = robot.node("planner")
planner.timer("mission", period=5, script="""
    if g7 goto end              # one goal is enough
    g7 = 1
    goal navigator 9
""")
planner.subscription("bumper", topic="obstacle", script="""
    call slow_down in
""")
planner.client("slow_down", service="speed_limit", script="""
    log in                      # the speed that the driver allows
""")
planner.action_client("navigator", action="navigate", on_response="log in", on_feedback="log in", on_result="log aux")
planner.subscription("button", topic="e_stop", script="""
    cancel navigator all
""")

driver = robot.node("driver")
motion = driver.exclusive("motion")     # g0 is the speed limit
driver.service("speed_limit", group=motion, script="""
    g0 = min(in, 3)
    reply g0
""")
driver.action("navigate", group=motion, result_timeout=20, on_goal="decide 2", on_cancel="decide 2", script="""
    if aux goto stop
    r0 = r0 + 1
    feedback r0
    pub base_cmd r0
    r1 = r0 < in
    if r1 goto end              # falls off its end: the next round begins at the top
    succeed r0
stop:
    pub base_cmd 0
    canceled r0
""")
driver.subscription("motor", topic="base_cmd", depth=1, script="log in")

robot.every(1, until=24, begin=4)
robot.message("e_stop", 1, at=11)
robot.write()
