"""A program with a function of its own: what is wrong stands in the function, and who called it is told too."""
import virraupez

robot = virraupez.Document(topics=["scan"])


def listener(name, topic):
    node = robot.node(name)
    node.subscription(f"{name}_in", topic=topic, script="log in")


listener("eyes", "scan")
listener("ears", "sound")
robot.message("scan", 1, round=1)
robot.moments(5)
robot.write()
