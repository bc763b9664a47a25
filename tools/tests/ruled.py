"""What holds tells: of rules that hold, fail or stay undecided, of rules that are wrong, and of transcripts that are none."""
import io
import pathlib
import re
import subprocess
import tempfile

from virraupez import checker, command, fit, rulebook, transcript

from . import tool

TEXT = """round 1 5
run t timer 5 0
pub x 7
state a 00000000-0000-0000-0000-000000000001 2
round 2 6
drop s message 7
run s message 7 0
log s 7
round 3 9
state a 00000000-0000-0000-0000-000000000001 4
log s -3
pending c 2
end 3
"""
HOLDS, NOTHING = "holds", "holds of nothing"
# Rules with what becomes of each in TEXT, and the line that decides it.
RULES = (
    ("never drop s message _", "fails", 6),
    ("never drop s goal _", HOLDS),
    ("never drop t", HOLDS),
    ("never log s <0", "fails", 11),
    ("never log s <=-4", HOLDS),
    ("never log s >=7", "fails", 8),
    ("never log s >7", HOLDS),
    ("never log t|s 7", "fails", 8),
    ("never log =s =7", "fails", 8),
    ("never pub", "fails", 3),
    ("never round N N", HOLDS),
    ("never log s _ before drop s", HOLDS),
    ("never run s before drop s", HOLDS),
    ("never run t before drop s", "fails", 2),
    ("never pub y before drop t", NOTHING),
    ("never pub y before drop s", HOLDS),
    ("never log s after drop s", "fails", 8),
    ("never log s after drop t", NOTHING),
    ("never log s V after drop s message V", "fails", 8),
    ("never log s V before drop s message V", "fails", 11),
    ("never state A ID 4 after state A ID 2", "fails", 10),
    ("never state A ID 4 after state A ID 3", NOTHING),
    ("never state A ID SUCCEEDED after state A ID EXECUTING", "fails", 10),
    ("some state a _ SUCCEEDED", HOLDS),
    ("some state a _ succeeded", HOLDS),
    ("some state a _ ABORTED", "fails", 13),
    ("some state a _ CANCELED|ABORTED", "fails", 13),
    ("never state a _ aborted", HOLDS),
    ("never state a _ =SUCCEEDED", "fails", 10),
    ("some state a urn:uuid:00000000-0000-0000-0000-000000000001 2", HOLDS),
    ("some state a 00000000000000000000000000000001 2", HOLDS),
    ("some log s", HOLDS),
    ("some log t", "fails", 13),
    ("count log s is 2", HOLDS),
    ("count log s is 3", "fails", 13),
    ("count log s is 1", "fails", 11),
    ("count log s at least 2", HOLDS),
    ("count log s at most 1", "fails", 11),
    ("count end 3 is 1", HOLDS),
    ("some end 4", "fails", 13),
    ("every state a ID 2 then state a ID 4", HOLDS),
    ("every state a ID 2 then state a ID 4 within 2 rounds", HOLDS),
    ("every state a ID 2 then state a ID 4 within 1 round", "fails", 4),
    ("every state a ID 2 then state a ID 4 within 4 ticks", HOLDS),
    ("every state a ID 2 then state a ID 4 within 3 ticks", "fails", 4),
    ("every state a ID 2 then state a ID 5", "fails", 4),
    ("every state a ID 2 then state a ID 5 within 2 rounds", "fails", 4),
    ("every state a ID 2 then state a ID 5 within 3 rounds", "undecided", 4),
    ("every state a ID 2 then state a ID 5 within 3 ticks", "fails", 4),
    ("every state a ID 2 then state a ID 5 within 4 ticks", "undecided", 4),
    ("every log s V then pub x V within 0 rounds", "fails", 8),
    ("every log s -3 then pub x _ within 0 rounds", "fails", 11),
    ("every log s -3 then pub x _ within 1 round", "undecided", 11),
    ("every state b ID 2 then state b ID 4 within 1 round", NOTHING),
    ("every pub x V then run s message V", HOLDS),
    ("every pub x V then log s V within 0 rounds", "fails", 3),
    ("every log s then end 4", "fails", 8),
    ("at end no pending", "fails", 12),
    ("at end no pending d", HOLDS),
)
# Wrong rules, each with the column of its fault and a part of what is told.
WRONG = (
    ("nevr drop s", 1, "no rule; there are: never P [before Q"),
    ("never dorp s", 7, "did you mean drop?"),
    ("never drop s mesage", 14, "did you mean message?"),
    ("never", 6, "a pattern is missing"),
    ("never state a ID 1 before", 26, "a pattern is missing"),
    ("never pub x 1 2", 15, "a line pub has 3 words"),
    ("never state|pub a ID 3", 13, "no line `pub` has the words that follow"),
    ("never pub x A|", 13, "a word is missing beside |"),
    ("never pub x 1|>4", 15, "'>4' can't stand beside |"),
    ("never pub x 1|_", 15, "'_' can't stand beside |"),
    ("never pub x 1|y", 15, "'y' can't stand there: a value is wanted"),
    # Fields that can't be of their form.
    ("never pub cmd_vel 0.5", 19, "'0.5' can't stand there: a value is wanted"),
    ("never pub cmd_vel ~1", 19, "a value is wanted"),
    ("never pub cmd_vel +1", 19, "a value is wanted"),
    ("never pub cmd_vel 01", 19, "a value is wanted"),
    ("never pub cmd_vel -0", 19, "a value is wanted"),
    ("never pub cmd_vel 9223372036854775808", 19, "a value is wanted"),
    ("never pub cmd-vel 1", 11, "the name of a topic is wanted"),
    ("never round 65537 _", 13, "a round is wanted"),
    ("never end -1", 11, "a number of rounds is wanted"),
    ("never state a 1 2", 15, "an identifier"),
    ("never state a ID 7", 18, "a state is wanted, one of 1, 2, 3, 4, 5, 6"),
    ("never state a ID UNKNOWN", 18, "is no state"),
    ("never result a ID EXECUTING", 19, "is no status of a result"),
    ("never decide a ID 4", 19, "a decision is wanted"),
    ("never code a 4", 14, "a return code is wanted"),
    ("never code a 0 1025", 16, "a number of goals is wanted"),
    ("never run s message _ 5", 23, "0 is wanted"),
    ("never run t timer 5 0 ID", 23, "a line run has 5 words"),
    ("never run a poll _ 2", 20, "1 or 0 is wanted"),
    ("never log s <-9223372036854775808", 13, "holds of no number that can stand there"),
    ("never state a ID >6", 18, "holds of no number that can stand there"),
    ("never state a >5 2", 15, "compares with no number"),
    # Names of states, decisions and return codes, and what is nearly one.
    ("some state a ID ABORTD", 17, "did you mean ABORTED?"),
    ("some state a ID CANCELLED", 17, "did you mean CANCELED?"),
    ("every state a ID ABORTD then result a ID ABORTD", 18, "did you mean ABORTED?"),
    ("some state a ID 4|ABORTD", 19, "did you mean ABORTED?"),
    ("some state a ID abortd", 17, "did you mean ABORTED?"),
    ("never decide a ID ACCEPTED", 19, "there are REJECT, ACCEPT_AND_EXECUTE, ACCEPT_AND_DEFER"),
    ("some log s ABORTED", 12, "ABORTED is the name of a number, and no variable; a value is wanted: write the number"),
    ("some state a _ S", 16, "S is a variable that is used once: `_` is any word"),
    ("never run s KIND", 13, "KIND is a variable that is used once"),
    ("never STATE a", 7, "STATE is a variable that is used once"),
    # A variable that is misspelt, or used once for another reason.
    ("every state a ID EXECUTING then state a IDD CANCELED", 15, "ID is a variable that is used once: `_` is any word; did you mean IDD?"),
    ("every run c reply V N then run c reply V M", 21, "N is a variable that is used once: `_` is any word"),
    ("never log MOTOR 5", 11, "MOTOR is a variable that is used once: `_` is any word; =MOTOR is the word itself"),
    ("count state a ID CANCELED is 1", 15, "ID is a variable that is used once"),
    ("at end no pending C", 19, "C is a variable that is used once"),
    # Rules that hold whatever happens.
    ("never drop c reply", 14, "no run has such a line: nothing of the kind reply is ever dropped"),
    ("some drop t timer", 13, "no run has such a line: nothing of the kind timer is ever dropped"),
    ("never pub X X", 13, "no word is the name of a topic and a value, and X would be both"),
    ("never state A ID 4 after goal A ID", 31, "and A would be both"),
    ("never log s after pending c", 13, "this holds whatever happens: no line `log` comes after"),
    ("never log s after end", 13, "this holds whatever happens"),
    ("never end after end", 11, "this holds whatever happens"),
    ("never round 1 after log s", 15, "this holds whatever happens"),
    ("never log s before round", 13, "with which a run begins"),
    ("some end", 1, "every transcript ends with one line `end`"),
    ("count end _ is 1", 1, "every transcript ends with one line `end`"),
    ("count end at most 2", 1, "every transcript ends with one line `end`"),
    ("every log s then end", 13, "every transcript ends with one line `end`"),
    ("count log s at least 0", 13, "never fewer than 0 lines"),
    ("at end no state a ID 2", 11, "only lines `pending` stand at the end"),
    # Numbers and limits.
    ("every log s then log t within x rounds", 24, "a number of rounds or of ticks"),
    ("every log s then log t within 5", 24, "a number of rounds or of ticks"),
    ("every log s then log t within 5 roundss", 24, "a number of rounds or of ticks"),
    ("every log s then log t within ² rounds", 24, "a number of rounds or of ticks"),
    ("every log s then log t within " + "1" * 5000 + " rounds", 24, "a number of rounds or of ticks"),
    ("every log s", 1, "every needs a then"),
    ("never log then", 11, "=then is the name"),
    ("count log s", 1, "is N, at least N or at most N"),
    ("count log s is ²", 1, "is N, at least N or at most N"),
    ("count log s is " + "1" * 5000, 1, "is N, at least N or at most N"),
    ("never log s >-" + "1" * 5000, 13, "compares with no number"),
    ("never log s >5x", 13, "compares with no number"),
    ("never log s <=", 13, "compares with no number"),
)
# Wrong rules beside the robot's document.
UNDECLARED = (
    ("never pub base_cmdd 1", 11, "the document declares no 'base_cmdd'; did you mean base_cmd?"),
    ("never pub =base_cmdd 1", 11, "did you mean base_cmd?"),
    ("never pub base_cmd|obstacl 1", 20, "did you mean obstacle?"),
    ("never pub navigate 1", 11, "navigate is an action server, and here the name of a topic is wanted"),
    ("never run laser message", 17, "no kind of callback there; there is timer"),
    ("never log base_cmd", 11, "base_cmd is a topic"),
    ("some state navigator ID 5", 12, "navigator is an action client"),
    ("never run motor timer", 17, "'timer' is no kind of callback there; there is message"),
    ("some run motor reply", 16, "'reply' is no kind of callback there; there is message"),
)


def verdict(text):
    """What becomes of a rule in TEXT, and the line that decides it if one does."""
    check = checker.Check(rulebook.read(text))
    for block in transcript.checked(io.StringIO(TEXT), "it"):
        check.block(block)
    check.end()
    rule = check.rules[0]
    if rule.failure:
        return "fails", rule.failure.number
    return ("undecided", rule.open_end.number) if rule.open_end else (NOTHING,) if rule.unmet() else (HOLDS,)


def fault(text, declared=None):
    """What is told of rules that are wrong."""
    try:
        rulebook.read(text, "it", declared)
    except command.Trouble as wrong:
        return str(wrong)
    return "no fault"


def answers(program):
    for text, *should in RULES:
        yield f"the rule {text!r}", verdict(text), tuple(should)
    for text, column, part in WRONG:
        told = fault("some log s\n" + text)
        yield f"the wrong rule {text[:99]!r}: {told}", (told.startswith(f"it:2:{column}: "), part in told), (True, True)
    own = fit.read(str(tool.TOP / "examples/robot.json"))
    for text, column, part in UNDECLARED:
        told = fault(text, own.kinds)
        yield f"the rule {text!r} beside the document: {told}", (told.startswith(f"it:1:{column}: "), part in told), (True, True)
    yield "a variable that is declared", "=s is the name" in fault("never drop S", {"S": "subscriptions"}).replace("=S", "=s"), True
    yield "two faults", fault("some log s\nnevr\nnever pub x y").count("\n"), 1
    yield from of_examples()
    yield from of_statuses()
    yield from of_wrong_files()
    yield from of_scripts()
    yield from of_recipe(program)


def of_scripts():
    """A rule on lines that no script of the document writes holds of nothing, and is told so."""
    for rule, word in (
        ("never pub e_stop 5", "pub e_stop"),
        ("never pub e_stop|e_stop 5", "pub e_stop|e_stop"),
        ("never log laser", "log laser"),
        ("never pub e_stop 1 before pub range", "pub e_stop"),
        ("never pub base_cmd 99", None),
        ("never pub e_stop|base_cmd 99", None),
        ("never pub _ 99", None),
        ("never pub T 99 after pub T 0", None),
        ("never state navigate _ ABORTED", None),
    ):
        with tool.file(rule) as name:
            told = tool.run("holds", "--document", "examples/robot.json", name, "examples/robot.txt")[1]
        yield f"what scripts write, by {rule!r}: {told}", f"examples/robot.json: no script writes a line {word}\n" in told, bool(word)


def of_recipe(program):
    """The recipe of the page: a run passes that keeps the rules, and a document that is refused fails the job."""
    recipe = re.search("```sh\n(.*?)```", (tool.TOP / "docs/holds.md").read_text(), re.S)[1]
    for name, change, passes in (("a run", None, True), ("a refused document", ('"version":1', '"version":3'), False), ("another run", ('"period":5', '"period":1000'), False)):
        with tempfile.TemporaryDirectory() as folder:
            there = pathlib.Path(folder)
            (there / "virraupez").symlink_to(tool.TOP / "virraupez")
            (there / "exec_run").symlink_to(program)
            (there / "robot.rules").symlink_to(tool.TOP / "examples/robot.rules")
            text = (tool.TOP / "examples/robot.json").read_text()
            (there / "robot.json").write_text(text.replace(*change) if change else text)
            ran = subprocess.run(["bash", "-c", recipe], cwd=folder, stdout=subprocess.PIPE, stderr=subprocess.STDOUT)
            yield f"the recipe of holds.md with {name}: {ran.stdout.decode()}", ran.returncode == 0, passes


def of_examples():
    """What is told of each example by some rules stands beside them."""
    for text in sorted((tool.TOP / "examples").glob("*.txt")):
        told = tool.TESTS / "held" / f"{text.stem}.told"
        status = 1 if " 0 fail" not in told.read_text() else 0
        yield f"holds {text.name}", tool.run("holds", "tools/tests/held/any.rules", tool.text(text)), (status, told.read_text())
    robot = ("--document", "examples/robot.json", "examples/robot.rules", "examples/robot.txt")
    yield "holds of the robot", tool.run("holds", *robot), (0, "7 hold, 0 fail, 0 undecided\n")


def of_statuses():
    """0 if all rules hold, 1 if one fails or is undecided, 2 if the rules or a transcript are wrong."""
    given = TEXT.encode()
    for words, rule, status in (
        ((), "some log s", 0),
        ((), "some log t", 1),
        ((), "every log s -3 then pub x _ within 1 round", 1),
        (("--accept-undecided",), "every log s -3 then pub x _ within 1 round", 0),
        (("--accept-undecided",), "some log t", 1),
        ((), "", 2),
        ((), "# a remark\n\n", 2),
        ((), "some log s 1.5", 2),
    ):
        with tool.file(rule) as name:
            yield f"the status of holds {words} by {rule!r}", tool.run("holds", *words, name, "-", given=given)[0], status
    for words in (("--rules", "examples/robot.rules", "examples/robot.txt"), ("examples/robot.txt", "--rules", "examples/robot.rules")):
        yield f"holds {words}", tool.within("holds", *words), (0, "7 hold, 0 fail, 0 undecided\n")
    exchanged = "virraupez holds: examples/robot.txt: this is a transcript, and no file of rules: the rules come before the transcripts\n"
    yield "holds of exchanged files", tool.within("holds", "examples/robot.txt", "examples/robot.rules"), (2, exchanged)
    yield "holds without a transcript", tool.within("holds", "examples/robot.rules")[0], 2
    with tool.file("never log nobody\nsome log motor\nnever log motor") as name:
        for line, status, part in (("2", 0, "1 hold, 0 fail"), ("3", 1, "0 hold, 1 fail"), ("1", 2, "declares no 'nobody'"), ("4", 2, "has no rule in line 4")):
            found, told = tool.within("holds", "--document", "examples/robot.json", "--rule", line, name, "examples/robot.txt")
            yield f"holds --rule {line}: {told}", (found, part in told), (status, True)
    counted = tool.run("holds", "tools/tests/held/any.rules", "examples/timer.txt", "examples/topic.txt")[1].split("\n")
    yield "holds of two transcripts", [line.split(":")[0] for line in counted if " hold, " in line], ["examples/timer.txt", "examples/topic.txt"]


def of_wrong_files():
    """What can't be read is told in a line with its place, and by a status of its own."""
    robot, timer = "examples/robot.rules", "examples/timer.txt"
    for rule in (b"never log s \xff", b"never log s >" + b"9" * 5000, "every log s then log t within ² rounds".encode(), b""):
        yield f"holds by the rule {rule[:40]}", tool.unread("holds", "-", timer, given=rule), (2, True, 1)
    yield "holds with another document", tool.unread("holds", "--document", "examples/timer.json", "tools/tests/held/any.rules", "examples/topic.txt"), (2, True, 1)
    yield "holds with a document that is refused", tool.unread("holds", "--document", tool.TESTS / "mistakes/another_version.json", robot, timer), (2, True, 1)
    text = (tool.TOP / "examples/robot.txt").read_text()
    for line in WRONG_LINES:
        kind = line.split(" ")[0]
        place = next((at for at, it in enumerate(text.split("\n")) if it.startswith(kind + " ") and at), 1)
        given = "\n".join([*text.split("\n")[:place], line, *text.split("\n")[place:]])
        yield f"a transcript with {line!r}", fault_of(given), f"it:{place + 1}:1: no line of a transcript: {line[:100]!r}"


def fault_of(given):
    try:
        for _ in transcript.checked(io.StringIO(given), "it"):
            pass
    except command.Trouble as wrong:
        return str(wrong)
    return "no fault"


ONE = "00000000-0000-0000-0000-000000000001"
# A wrong form of each field of each line.
WRONG_LINES = (
    *("log s 9223372036854775808", "log s -9223372036854775809", "pub x 10000000000000000000", "round 2 4611686018427387905"),
    *("round 0 5", "round 01 5", "round 1 -1", "round 1 4611686018427387905", "round 1", "round 1 5 6", "Round 1 5", "round  1 5"),
    *(f"expire a {ONE[:-1]}", f"expire a {ONE.replace('1', 'A')}", "expire a.b " + ONE, "expire " + "a" * 65 + " " + ONE, "expire a"),
    *("run t timer -1 0", "run t timer 5 1", f"run t timer 5 0 {ONE}", "run s message 5 1", "run s message 9223372036854775808 0", "run s mesage 5 0"),
    *("run c reply 5 0", f"run a goal 5 1 {ONE}", "run a goal 5 0", f"run a cancel -1 0 {ONE}", f"run a cancel 0 1025 {ONE}", f"run a ask 1 0 {ONE}"),
    *(f"run a poll 5 2 {ONE}", f"run k response 2 1 {ONE}", f"run k response 1 0 {ONE}", "run k code 4 0", "run k code 0 1025", f"run k code 0 0 {ONE}"),
    *(f"run k feedback 5 0 {ONE}", f"run k result 5 3 {ONE}", "drop t timer 5", "drop a poll 5", "drop s message 1.5", "drop s message", "drop a ask 1"),
    *("pub x 0.5", "pub x +1", "pub x 01", "pub x -0", "pub x -9223372036854775809", "pub x", "pub x 1 2", "pub  x 1", "call c 0 5", "call c 1", "call c 1 x"),
    *("reply s", "reply s x", f"goal k {ONE}", f"goal k {ONE} x", "goal k 1 5", f"cancel k {ONE} -1", f"cancel k {ONE}", "log s", "log s r0", "log s 1 2"),
    *(f"feedback a {ONE}", f"feedback a {ONE} x", f"decide a {ONE} 0", f"decide a {ONE} 4", f"state a {ONE} 0", f"state a {ONE} 7", f"state a {ONE} EXECUTING"),
    *("code a 4 0", "code a 0 1025", "code a 0", "ask k 1", "ask k", f"result a {ONE} 1 5", f"result a {ONE} 7 5", f"result a {ONE} 4", "pending c 0", "pending c"),
    *("end -1", "end 65537", "end", "log s 5 ", " log s 5", "", "log s\t5", "log s 5\r"),
)
