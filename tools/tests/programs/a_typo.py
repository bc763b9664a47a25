"""Two typos: an instruction that there isn't, and the name of a timer for that of a topic."""
import virraupez

robot = virraupez.Document(topics=["ticks"])
clock = robot.node("clock")
clock.timer("tick", period=10, script="""
    publish ticks 1
""")
clock.subscription("counter", topic="tick", depth=2, script="log in")
robot.when_due(until=40)
robot.write()
