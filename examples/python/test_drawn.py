"""Documents that hypothesis draws, for those who use it. It tries some of them; `virraupez.search` says whether it tried all."""
import virraupez
from hypothesis import given, settings, strategies


@settings(deadline=None, max_examples=25)
@given(period=strategies.integers(1, 50), depth=strategies.integers(1, 4))
def test_a_queue_loses_nothing_that_is_taken_each_round(period, depth):
    robot = virraupez.Document(topics=["ticks"])
    clock = robot.node("clock")
    clock.timer("tick", period=period, script="pub ticks now")
    clock.subscription("counter", topic="ticks", depth=depth, script="log in")
    robot.when_due(until=200)
    verdict = virraupez.holds("never drop _", virraupez.run(robot))
    assert verdict, verdict
