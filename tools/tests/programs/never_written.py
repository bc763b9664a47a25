"""A program that forgets to write its document."""
import virraupez

robot = virraupez.Document()
robot.moments(1, 2)
