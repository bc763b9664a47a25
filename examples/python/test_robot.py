"""The robot of examples/ under pytest: its run keeps its rules, it has its golden transcript, and no timing of its stop breaks a rule."""
import pathlib

import pytest
import virraupez

EXAMPLES = pathlib.Path(__file__).resolve().parent.parent
RULES = EXAMPLES / "robot.rules"


@pytest.fixture(scope="module")
def robot():
    return virraupez.run(EXAMPLES / "robot.json")


def test_its_run_keeps_its_rules(robot):
    verdict = virraupez.holds(RULES, robot)
    assert verdict, verdict


def test_its_transcript_is_the_golden_one(robot):
    assert robot.lines == (EXAMPLES / "robot.txt").read_text().splitlines()


@pytest.mark.parametrize("rule", ["never drop _", "every cancel navigator _ then pub base_cmd 0 within 3 ticks"])
def test_no_early_stop_breaks_a_rule(rule):
    found = virraupez.search(EXAMPLES / "robot.json", rule, vary=[("jitter", "e_stop", "-3..0")])
    assert found.is_whole and found, found
