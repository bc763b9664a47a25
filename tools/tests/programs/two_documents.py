"""A program that writes two documents to one file."""
import virraupez

for last in (2, 3):
    robot = virraupez.Document()
    robot.every(1, until=last)
    robot.write()
