"""A program that feeds something behind the last moment, and asks for moments that there can't be."""
import virraupez

robot = virraupez.Document(topics=["scan"])
robot.moments(5)
robot.message("scan", 7, at=6)
robot.every(1, until=70000)
robot.node("base").timer("tick", period=1, script="pub scan 1")
robot.when_due(until=65537)
robot.every(5, until="9", begin=-1)
robot.when_due(1.5)
robot.write()
