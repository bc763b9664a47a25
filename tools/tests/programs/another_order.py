"""An order of callbacks that there isn't."""
import virraupez

robot = virraupez.Document(topics=["ticks"], order="fifo")
clock = robot.node("clock")
clock.timer("tick", period=10, script="pub ticks 1")
clock.subscription("counter", topic="ticks", script="log in")
robot.when_due(until=40)
robot.write()
