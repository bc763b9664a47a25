"""A program with faults in its scripts, its calls and its names: all are told, at their lines."""
import virraupez

ANSWER = """
    let sum = g0
    sum += in
    reply summ          # a typo in a script that has a name
"""

robot = virraupez.Document(topics=["scan", "scan",
                                   "speed limit"])
base = robot.node("base")
base.timer("tick", period=0, script="""
    publish scan 1
    if g0 > 3 goto stopp
    pub scna g0
stop: log 1
""")
base.subscription("eyes", "scna", script="log in\nlog ix")
base.subscription("ears",
                  topic="scan",
                  group="loud",
                  script=("log in\n"
                          "pub scna in\n"))
base.service("sums", script=ANSWER)
base.service(
    "squares", depth=2000, script=f"""
    r0 = in * in
    reply r{9}
""")
base.client("adder", service="sum")
base.subscription("raw", "scan", [["log", "in"], ["log", "inn"]])
robot.every(0, until=9)
robot.moments(5, 2**63)
robot.message("scan", 7)
robot.message("scan", 1.5, at=5)
robot.goal("scan", "no identifier", 7, at=5)
robot.cancel("nobody", goal="?", at=5)
robot.write()
