"""What write makes: the examples that stand beside their programs, scripts with labels, and what is told of wrong ones; and
that the schemas are those of the grammar's tables."""
import importlib.util
import json

import virraupez

from . import tool

# Lines of scripts, with the instructions that they are.
SCRIPTS = (
    ("", []),
    ("  # nothing but a remark\n", []),
    ("r0 = 5", [["set", "r0", "add", 5, 0]]),
    ("g7 = -5", [["set", "g7", "add", -5, 0]]),
    ("r0 = in", [["set", "r0", "add", "in", 0]]),
    ("r0 = r1+1", [["set", "r0", "add", "r1", 1]]),
    ("r0 = r1 - -1", [["set", "r0", "sub", "r1", -1]]),
    ("r0 = -3 * aux", [["set", "r0", "mul", -3, "aux"]]),
    ("r0 = min(r1, 4)", [["set", "r0", "min", "r1", 4]]),
    ("r0 = r1 max now", [["set", "r0", "max", "r1", "now"]]),
    ("r0 = r1 < 4", [["set", "r0", "lt", "r1", 4]]),
    ("r0 = r1 > 4", [["set", "r0", "lt", 4, "r1"]]),
    ("r0 = r1 >= 4", [["set", "r0", "lt", "r1", 4], ["set", "r0", "eq", "r0", 0]]),
    ("r0 = r1 <= 4", [["set", "r0", "lt", 4, "r1"], ["set", "r0", "eq", "r0", 0]]),
    ("r0 = r0 == r0", [["set", "r0", "eq", "r0", "r0"]]),
    ("r0 = r1 != 4", [["set", "r0", "eq", "r1", 4], ["set", "r0", "eq", "r0", 0]]),
    ("r0 = not g1", [["set", "r0", "eq", "g1", 0]]),
    ("pub x 1\ncall c in\ngoal k -1", [["pub", "x", 1], ["call", "c", "in"], ["goal", "k", -1]]),
    ("cancel k all\ncancel k before now", [["cancel", "k", "all"], ["cancel", "k", "before", "now"]]),
    ("cancel k goal r1\ncancel k goal-before 1 5", [["cancel", "k", "goal", "r1"], ["cancel", "k", "goal-before", 1, 5]]),
    ("execute a\nlog g0\nreply 1\ndecide 2", [["execute", "a"], ["log", "g0"], ["reply", 1], ["decide", 2]]),
    ("feedback r0\nwait 5\nyield", [["feedback", "r0"], ["wait", 5], ["yield"]]),
    ("succeed 1\nabort 2\ncanceled 3", [["succeed", 1], ["abort", 2], ["canceled", 3]]),
    ("if aux goto stop\nlog 1\nlog 2\nstop: log 3", [["skip", "aux", 2], ["log", 1], ["log", 2], ["log", 3]]),
    ("if not aux goto stop\nlog 1\nstop:\nlog 3", [["skip", "aux", 1], ["skip", 1, 1], ["log", 1], ["log", 3]]),
    ("goto end\nlog 1", [["skip", 1, 1], ["log", 1]]),
    ("if r0 goto no\nlog 1\ngoto end\nno: log 2", [["skip", "r0", 2], ["log", 1], ["skip", 1, 1], ["log", 2]]),
    ("goto here\nhere: log 1", [["log", 1]]),
    ("if r0 goto here\ngoto here\nhere: log 1", [["log", 1]]),
    ("if r0 < 3 goto end\nlog 1", [["set", "r7", "lt", "r0", 3], ["skip", "r7", 1], ["log", 1]]),
    ("if r7>r6 goto end\nlog 1", [["set", "r5", "lt", "r6", "r7"], ["skip", "r5", 1], ["log", 1]]),
    ("if in <= 3 goto end\nlog 1", [["set", "r7", "lt", 3, "in"], ["set", "r7", "eq", "r7", 0], ["skip", "r7", 1], ["log", 1]]),
    ("if in >= -3 goto end\nlog 1", [["set", "r7", "lt", "in", -3], ["set", "r7", "eq", "r7", 0], ["skip", "r7", 1], ["log", 1]]),
    ("if aux == 4 goto end\nlog 1", [["set", "r7", "eq", "aux", 4], ["skip", "r7", 1], ["log", 1]]),
    ("if aux != 4 goto end\nlog 1", [["set", "r7", "eq", "aux", 4], ["set", "r7", "eq", "r7", 0], ["skip", "r7", 1], ["log", 1]]),
    ("if not aux != 4 goto end\nlog 1", [["set", "r7", "eq", "aux", 4], ["skip", "r7", 1], ["log", 1]]),
    ("if not r0 > 3 goto end\nlog 1", [["set", "r7", "lt", 3, "r0"], ["set", "r7", "eq", "r7", 0], ["skip", "r7", 1], ["log", 1]]),
    ("r0 += 1\ng0 -= in\nr1 *= -2", [["set", "r0", "add", "r0", 1], ["set", "g0", "sub", "g0", "in"], ["set", "r1", "mul", "r1", -2]]),
    ("let phase = g0\nphase = phase + 1\nlog phase", [["set", "g0", "add", "g0", 1], ["log", "g0"]]),
    ("let limit = -5\nlet canceling = aux\nif canceling goto end\nlog limit", [["skip", "aux", 1], ["log", -5]]),
    ("let x = r7\npub x x\nif x < 1 goto end\nx += 1", [["pub", "x", "r7"], ["set", "r6", "lt", "r7", 1], ["skip", "r6", 1], ["set", "r7", "add", "r7", 1]]),
    ("goto b\na: log 1\nb: log 2\ngoto end", [["skip", 1, 1], ["log", 1], ["log", 2]]),
)
# Scripts that say nothing, with a part of what is told.
WRONG = (
    ("top: log 1\ngoto top", "line 2 of the script: goto top goes backward"),
    ("top: if r0 goto top", "goes backward"),
    ("goto stopp\nstop: log 1", "did you mean stop?"),
    ("a: log 1\na: log 2", "the label a stands twice"),
    ("end: log 1", "the label end is the script's end already"),
    ("publish x 1", "did you mean pub?"),
    ("set r0 add 1 1", "write 'r0 = r0 + 1'"),
    ("log r8", "'r8' is no operand"),
    ("log", "log takes 1 items here and not 0"),
    ("if r0 + 3 goto end", "'r0 + 3' is no condition: an operand, or two that <, <=, >, >=, == or != compares"),
    ("if r0 < 3", "an if is 'if A goto LABEL'"),
    ("if r0 < 3 goto 5", "an if is 'if A goto LABEL'"),
    ("log r0\nlog r1\nlog r2\nlog r3\nlog r4\nlog r5\nlog r6\nlog r7\nif r0 < 3 goto end", "line 9 of the script: no register is free"),
    ("let phase g0", "a let is 'let NAME = g0'"),
    ("let in = g0", "'in' is no name that let can give"),
    ("let a = r1\nlet a = r2", "line 2 of the script: the name a is given twice"),
    ("let a = b", "'b' is no operand"),
    ("let phase = g0\nlog phse", "did you mean phase?"),
    ("let phase = g0\nphse = 1", "'phse' can't be set: r0 to r7, g0 to g7 or a name of let can; did you mean phase?"),
    ("let limit = 5\nlimit += 1", "limit can't be set: it is 5"),
    ("aux = 1", "aux can only be read"),
    ("log phase\nlet phase = g0", "line 1 of the script: 'phase' is no operand"),
    ("r0 += r1 + 1", "'r1 + 1' is no operand"),
    ("logg 1\nlog r9\ngoto up", "line 1 of the script: 'logg' is no instruction; did you mean log?\nline 2 of the script: 'r9' is no operand"),
    ("cancel k none", "a cancel is"),
    ("r0 = r1 / 2", "no operand"),
    ("r0 = 1.5", "'1.5' is no operand"),
    ("r0 = ²", "'²' is no operand"),
    ("log " + "1" * 5000, "1' is no operand"),
)

# What is wrong with a document, with a part of what is told.
REFUSED = (
    (lambda it: it.node("n").subscription("s", topic="x"), "refused 4 (Name)"),
    (lambda it: it.message("x", 1, at=5), "no moment at or after 5"),
    (lambda it: it.every(0, until=9), "every takes at least 1 tick and not 0"),
    (lambda it: it.every(-1, until=0, begin=9), "every takes at least 1 tick and not -1"),
    *((lambda it, period=period: it.node("n").timer("t", period=period), "refused 2 (Shape): timer t: period") for period in (None, -1, 1.5, "10", [10])),
    (lambda it: it.node("n").timer("t", period=0), "refused 5 (Limit): timer t: period"),
)


def outcome(text):
    try:
        return virraupez.script(text)
    except virraupez.ScriptError as wrong:
        return str(wrong)


def answers(_program):
    for program in sorted((tool.TOP / "examples").glob("*.py")):
        should = program.with_suffix(".json").read_text()
        yield f"write {program.name}", tool.run("write", program), (0, should)
    for text, instructions in SCRIPTS:
        yield f"the script {text!r}", outcome(text), instructions
    for text, part in WRONG:
        told = outcome(text)
        yield f"the wrong script {text!r}: {told}", part in told, True
    yield "write --script", tool.run("write", "--script", "-", given=b"log 1\nlog 2"), (0, '[["log",1],\n ["log",2]]\n')
    yield "write --help", tool.run("write", "--help")[0], 0
    yield "write --script of a script that is wrong", tool.run("write", "--script", "-", given=b"log")[0], 1
    yield "write --script of what is no text", tool.unread("write", "--script", "-", given=b"log 1\nlog \xff"), (2, True, 1)
    for words in (("--script", "nowhere"), ("--script", tool.TOP), ("nowhere.py",)):
        yield f"write of no file {words}", tool.unread("write", *words), (2, True, 1)
    yield from of_orders()
    yield from of_moments()
    yield from refused()
    for words, name in (((), "document.schema.json"), (("--strict",), "document.strict.schema.json")):
        yield f"schema of {name}", tool.run("schema", *words), (0, (tool.TOP / "docs" / name).read_text())
    if importlib.util.find_spec("jsonschema"):
        told = tool.run("../docs/check_schema")
        yield f"check_schema: {told}", (told[0], told[1].endswith(" 0 told wrongly\n")), (0, True)


def of_orders():
    """A document with an order is of the version that has it."""
    for words, head in (({}, {"version": 1}), ({"order": "kind"}, {"version": 2, "order": "kind"}), ({"order": "arrival"}, {"version": 2, "order": "arrival"})):
        yield f"a document with {words}", virraupez.Document(**words).value(), head


def of_moments():
    made = virraupez.Document(topics=["x"])
    node = made.node("n")
    node.timer("t", period=10, script="pub x now")
    node.timer("u", period=4)
    node.subscription("s", topic="x", script="log in")
    made.when_due(until=20)
    yield "moments when due", made.value()["moments"], [4, 8, 10, 12, 16, 20]
    made.every(5, until=15, begin=5)
    yield "moments every 5 beside", made.value()["moments"], [4, 5, 8, 10, 12, 15, 16, 20]
    made.moments(7, 7, 8)
    yield "moments that are written", made.value()["moments"], [4, 5, 7, 7, 8, 10, 12, 15, 16, 20]
    made.message("x", 1, at=6)
    made.message("x", 2, round=1)
    yield "what is fed", made.value()["feed"], [{"round": 1, "topic": "x", "value": 2}, {"round": 3, "topic": "x", "value": 1}]
    yield "a document that is read back", json.loads(made.text()), made.value()
    yield "the identifier of a client's goal", virraupez.goal_of(0, 3), "00000000-0000-0001-0000-000000000003"


def refused():
    """What is told of documents that the program would refuse, and of what is fed at no moment."""
    for wrong, part in REFUSED:
        made = virraupez.Document()
        try:
            wrong(made)
            made.when_due(until=20)
            told = made.text()
        except virraupez.DocumentError as error:
            told = str(error)
        yield f"a wrong document: {told}", part in told, True
