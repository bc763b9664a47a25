"""A program that prints more than its document, which would then be no JSON."""
import virraupez

robot = virraupez.Document()
robot.moments(1, 2)
print("two rounds")
robot.write()
