"""A program whose document is lawful, and hardly meant."""
import virraupez

robot = virraupez.Document(topics=["scan", "odometry"])
base = robot.node("base")
base.timer("tick", period=50, script="pub scan 1")
base.subscription("eyes", topic="odometry", script="""
    log in
""")
base.action("drive", on_goal="log in", script="""
    abort 1
    log 2
""")
robot.every(1, until=9)
robot.write()
