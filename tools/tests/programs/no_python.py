"""A program that Python can't read."""
import virraupez

robot = virraupez.Document(
robot.write()
