"""What people want of a run, each with its rule (docs/wishes.md): a short run that keeps it and one that breaks it, and those that leave
it open. A run is written as lines between which `;` stands; `@9` begins a round at moment 9."""
import io

from virraupez import checker, fit, rulebook, rules, transcript

from . import tool

G = "00000000-0000-0000-0000-00000000000"
STATE = "state drive"
# Each wish with its rule, a run that keeps it, and one that breaks it.
WISHES = (
    ("No message is lost.", "never drop _", "@1; pub x 1", "@1; drop s message 1"),
    ("The speed never exceeds 30.", "never pub cmd_vel >30", "@1; pub cmd_vel 30", "@1; pub cmd_vel 31"),
    ("The motor gets nothing but 0 and 5.", "never pub cmd_vel not 0|5", "@1; pub cmd_vel 5; pub cmd_vel 0", "@1; pub cmd_vel 4"),
    ("Nobody but the driver and the stop logs.", "never log not driver|stop", "@1; log driver 1", "@1; log motor 1"),
    ("Only the driver publishes commands.", "never pub cmd_vel _ by teleop", "@1; run driver timer 1 0; pub cmd_vel 5", "@1; run teleop timer 1 0; pub cmd_vel 5"),
    ("A goal is reached or canceled at least once.", f"some {STATE} _ SUCCEEDED or {STATE} _ CANCELED", f"@1; {STATE} {G}1 5", f"@1; {STATE} {G}1 6"),
    ("Each goal ends.", f"every {STATE} ID EXECUTING then {STATE} ID SUCCEEDED|CANCELED|ABORTED", f"@1; {STATE} {G}1 2; @2; {STATE} {G}1 4", f"@1; {STATE} {G}1 2; @2; {STATE} {G}2 4"),
    ("Each goal ends within 50 ticks.", f"every {STATE} ID EXECUTING then {STATE} ID SUCCEEDED|CANCELED|ABORTED within 50 ticks", f"@1; {STATE} {G}1 2; @51; {STATE} {G}1 4", f"@1; {STATE} {G}1 2; @52; {STATE} {G}1 4"),
    ("An e-stop stops the motor in the next round.", "every run stop message 1 then pub cmd_vel 0 within 1 round", "@1; run stop message 1 0; @9; pub cmd_vel 0", "@1; run stop message 1 0; @2; @3; pub cmd_vel 0"),
    ("An e-stop is answered by a stop or an abort.", f"every run stop message 1 then pub cmd_vel 0 or {STATE} _ ABORTED within 5 ticks", f"@1; run stop message 1 0; @6; {STATE} {G}1 6", "@1; run stop message 1 0; @7; pub cmd_vel 0"),
    ("The robot never moves after an e-stop.", "never pub cmd_vel >0 after run stop message 1", "@1; pub cmd_vel 5; @2; run stop message 1 0", "@1; run stop message 1 0; @2; pub cmd_vel 5"),
    ("It doesn't move from an e-stop until that is released.", "never pub cmd_vel >0 after run stop message 1 until run stop message 0", "@1; run stop message 1 0; @2; run stop message 0 0; pub cmd_vel 5", "@1; run stop message 0 0; run stop message 1 0; @2; pub cmd_vel 5"),
    ("It doesn't move before the first scan.", "never pub cmd_vel before run scan message", "@1; run scan message 7 0; pub cmd_vel 5", "@1; pub cmd_vel 5; run scan message 7 0"),
    ("A goal executes only if it was accepted before.", f"every {STATE} ID EXECUTING only if before {STATE} ID ACCEPTED", f"@1; {STATE} {G}1 1; {STATE} {G}1 2", f"@1; {STATE} {G}1 1; {STATE} {G}2 2"),
    ("It moves only if a scan came within 20 ticks before.", "every pub cmd_vel >0 only if before run scan message within 20 ticks", "@1; run scan message 7 0; @21; pub cmd_vel 5", "@1; run scan message 7 0; @22; pub cmd_vel 5"),
    ("It moves only if the last scan was far.", "every pub cmd_vel >0 only if before run scan message V where V > 10", "@1; run scan message 11 0; pub cmd_vel 5", "@1; run scan message 11 0; @2; run scan message 9 0; pub cmd_vel 5"),
    ("Never two goals at once.", f"at most 1 at once {STATE} ID EXECUTING until {STATE} ID SUCCEEDED|CANCELED|ABORTED", f"@1; {STATE} {G}1 2; {STATE} {G}1 4; {STATE} {G}2 2", f"@1; {STATE} {G}1 2; {STATE} {G}2 2; {STATE} {G}1 4"),
    ("At most two calls without a reply.", "at most 2 at once call planner N _ until run planner reply _ N", "@1; call planner 1 7; call planner 2 7; @2; run planner reply 7 1; call planner 3 7", "@1; call planner 1 7; call planner 2 7; call planner 3 7"),
    ("No scan for 500 ticks stops the motor within 10.", "every no run scan message for 500 ticks then pub cmd_vel 0 within 10 ticks", "@1; run scan message 7 0; @501; @511; pub cmd_vel 0", "@1; run scan message 7 0; @501; @512; pub cmd_vel 0"),
    ("The scan never falls silent for 500 ticks.", "never no run scan message for 500 ticks", "@1; run scan message 7 0; @500; run scan message 7 0; @999; run scan message 7 0", "@1; run scan message 7 0; @501; run scan message 7 0"),
    ("A retry comes later than 20 ticks after a failure.", f"every {STATE} _ ABORTED then goal driver later than 20 ticks", f"@1; {STATE} {G}1 6; @22; goal driver {G}2 7", f"@1; {STATE} {G}1 6; @21; goal driver {G}2 7"),
    ("It comes later than 20 and within 50.", f"every {STATE} _ ABORTED then goal driver later than 20 ticks within 50 ticks", f"@1; {STATE} {G}1 6; @51; goal driver {G}2 7", f"@1; {STATE} {G}1 6; @52; goal driver {G}2 7"),
    ("Each request has one answer of its own.", "every run plan request V then one reply plan V", "@1; run plan request 7 0; reply plan 7; run plan request 7 0; reply plan 7", "@1; run plan request 7 0; run plan request 7 0; reply plan 7"),
    ("No answer comes without a request.", "every run plan request then one reply plan", "@1; run plan request 7 0; reply plan 7", "@1; run plan request 7 0; reply plan 7; reply plan 7"),
    ("At most 3 commands in 100 ticks.", "count pub cmd_vel at most 3 in 100 ticks", "@1; pub cmd_vel 1; pub cmd_vel 2; pub cmd_vel 3; @101; pub cmd_vel 4", "@1; pub cmd_vel 1; pub cmd_vel 2; pub cmd_vel 3; @100; pub cmd_vel 4"),
    ("The speed rises by at most 10 at a time.", "every pub cmd_vel V then next pub cmd_vel W where W <= V + 10", "@1; pub cmd_vel 5; pub cmd_vel 15", "@1; pub cmd_vel 5; pub cmd_vel 16"),
    ("Odometry never goes back.", "every pub odometry V then next pub odometry W where W >= V", "@1; pub odometry 5; pub odometry 5", "@1; pub odometry 5; pub odometry 4"),
    ("A result is the last feedback.", "every result drive ID SUCCEEDED V only if before feedback drive ID W where V = W", f"@1; feedback drive {G}1 3; feedback drive {G}1 4; result drive {G}1 4 4", f"@1; feedback drive {G}1 4; feedback drive {G}1 5; result drive {G}1 4 4"),
    ("A goal that is canceled gives no feedback.", f"never feedback drive ID after {STATE} ID CANCELED", f"@1; feedback drive {G}2 1; {STATE} {G}1 5; feedback drive {G}2 1", f"@1; {STATE} {G}1 5; feedback drive {G}1 1"),
    ("Exactly one goal is accepted.", "count decide drive _ ACCEPT_AND_EXECUTE|ACCEPT_AND_DEFER is 1", f"@1; decide drive {G}1 2; decide drive {G}2 1", f"@1; decide drive {G}1 2; decide drive {G}2 3"),
    ("No call is without a reply at the end.", "at end no pending", "@1", "@1; pending planner 1"),
)  # fmt: skip
# Rules that runs leave open or are about nothing in, and other outcomes.
OPEN = (
    (8, f"@1; {STATE} {G}1 2; @50", rules.UNDECIDED),
    (8, "@1", rules.NOTHING),
    (10, "@1; run stop message 1 0; @6", rules.UNDECIDED),
    (12, "@1; pub cmd_vel 5", rules.NOTHING),
    (12, "@1; run stop message 1 0; run stop message 0 0; run stop message 1 0; pub cmd_vel 5", rules.FAILS),
    (14, "@1", rules.NOTHING),
    (15, "@1; pub cmd_vel 0", rules.NOTHING),
    (16, "@1; pub cmd_vel 1", rules.FAILS),
    (17, "@1", rules.NOTHING),
    (19, "@1; run scan message 7 0; @500", rules.NOTHING),
    (19, "@1; @501; @505", rules.UNDECIDED),
    (19, "@1; @501; run scan message 7 0; @512", rules.FAILS),
    (20, "@1; @501", rules.FAILS),
    (22, f"@1; {STATE} {G}1 6; @9", rules.UNDECIDED),
    (23, "@1", rules.NOTHING),
    (25, "@1; pub cmd_vel 1", rules.HOLDS),
    (26, "@1; pub cmd_vel 1", rules.HOLDS),
)
# Wrong rules of these forms, with the column of the fault and a part of what is told.
WRONG = (
    ("never pub x V after pub y V until pub z V until pub x V", 15, "`until` stands once"),
    ("never pub x 1 before pub y 1 until pub z", 15, "`until` stands once"),
    ("at most 1 at once pub x 1", 1, "at most N at once P until Q"),
    ("at most x at once pub x 1 until pub x 0", 1, "at most N at once P until Q"),
    ("every no pub x then pub y", 7, "`no` takes a time"),
    ("never no pub x for 5", 16, "for takes a number of rounds or of ticks"),
    ("every pub x then pub y later than 5", 24, "later takes a number"),
    ("every pub x only pub y", 13, "only if before"),
    ("count pub x at least 3 in 5 ticks", 1, "at most N in M ticks is of each M ticks"),
    ("never pub x _ by", 15, "`by` takes the name of an entity or a node"),
    ("never round _ by motor", 15, "no callback writes such a line"),
    ("never pub not", 11, "`not` stands before a word that names or compares something"),
    ("never pub x not V", 13, "`not` stands before a word"),
    ("some pub x or", 14, "a pattern is missing"),
    ("every pub x V then pub y W where W < U", 38, "U is no variable of the rule"),
    ("every pub x V then pub y W where W < V + W + 1", 34, "a condition compares two numbers"),
    ("every state a ID 2 then state a ID 4 where ID > 4", 44, "ID is no number"),
    ("every pub x V then pub y 1 where V < 1.5", 38, "'1.5' is no variable and no number"),
    ("every pub x V1 then pub y V2", 13, "V1 is a variable that is used once: `_` is any word"),
)
# Rules with `by` beside the robot's document, and the line that breaks each, or nothing.
BY = (
    ("never pub base_cmd _ by navigate", "pub base_cmd 1"),
    ("never pub base_cmd _ by driver", "pub base_cmd 1"),
    ("never pub base_cmd _ by sensors", None),
    ("never pub range _ by sensors", "pub range 8"),
    ("never pub range _ by not_there", "the document declares no entity and no node 'not_there'"),
)


def text_of(run):
    """The transcript that a short run says."""
    made, rounds = [], 0
    for line in run.split("; "):
        rounds += line[0] == "@"
        made.append(f"round {rounds} {line[1:]}" if line[0] == "@" else line)
    return "".join(f"{line}\n" for line in [*made, f"end {rounds}"])


def outcome(rule, text, own=None):
    """What becomes of a rule in a transcript, and the line that decides it."""
    check = checker.Check(rulebook.read(rule, "it", own.kinds if own else None))
    for block in transcript.checked(io.StringIO(text), "it"):
        check.block(block)
    check.end()
    found = check.rules[0]
    return found.outcome(), found.failure.line if found.failure else None


def answers(_program):
    for wish, rule, holds, fails in WISHES:
        yield f"{wish} {rule!r} of a run that keeps it", outcome(rule, text_of(holds))[0], rules.HOLDS
        yield f"{wish} {rule!r} of a run that breaks it", outcome(rule, text_of(fails))[0], rules.FAILS
    for number, run, should in OPEN:
        wish, rule = WISHES[number - 1][:2]
        yield f"{wish} {rule!r} of {run!r}", outcome(rule, text_of(run))[0], should
    for text, column, part in WRONG:
        told = fault(text)
        yield f"the wrong rule {text!r}: {told}", (told.startswith(f"it:1:{column}: "), part in told), (True, True)
    own = fit.read(str(tool.TOP / "examples/robot.json"))
    robot = (tool.TOP / "examples/robot.txt").read_text()
    for text, line in BY:
        told = outcome(text, robot, own)[1] if line is None or line[:3] == "pub" else fault(text, own.kinds)
        yield f"by whom: {text!r}: {told}", told == line or bool(line) and line in str(told), True
    yield from of_page()


def fault(text, declared=None):
    try:
        rulebook.read(text, "it", declared)
    except rulebook.command.Trouble as wrong:
        return str(wrong)
    return "no fault"


def of_page():
    """The page has each wish with its rule, in this order."""
    page = (tool.TOP / "docs/wishes.md").read_text()
    rows = ((number, wish, rule.replace("|", "\\|")) for number, (wish, rule, *_) in enumerate(WISHES, 1))
    should = "".join(f"| {number} | {wish} | `{rule}` |\n" for number, wish, rule in rows)
    yield "docs/wishes.md", "".join(line for line in page.splitlines(True) if line[:3] in {f"| {digit}" for digit in range(1, 10)}), should
