"""A program that stops in a function of its own."""
import virraupez

robot = virraupez.Document()


def timer(node, **more):
    node.timer("tick", rate=10, **more)


timer(robot.node("base"))
