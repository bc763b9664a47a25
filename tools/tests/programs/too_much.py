"""A program whose loops say the same wrong thing many times: three of a place are told."""
import virraupez

robot = virraupez.Document(topics=["scan"])
robot.moments(5)
for at in range(150):
    robot.message("scan", 1, at=at)
for number in range(25):
    robot.message("scna", 1, round=1)
robot.write()
