"""A program with words of its own: how many ticks the run has, and what is logged."""
import sys

import virraupez
import period_of_words

robot = virraupez.Document()
robot.node("base").timer("tick", period=period_of_words.PERIOD, script=f"log {sys.argv[2]}")
robot.when_due(until=int(sys.argv[1]))
robot.write()
