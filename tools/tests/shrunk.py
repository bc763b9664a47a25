"""What shrink writes: documents that break the same rule in the same way, from which nothing more can be left out; and what it says if
there is nothing to shrink or it is ended early."""
import json
import os
import re
import signal
import subprocess
import sys
import time

import virraupez
from virraupez import cuts, shrinking

from . import sandbox, searched, tool

RULES = searched.NAVIGATION
# Scripts, the places that go, and what is left: a skip passes over what is left of its part, and goes if nothing is.
CUT = (
    ([["skip", "r0", 2], ["log", 1], ["log", 2], ["log", 3]], {1}, [["skip", "r0", 1], ["log", 2], ["log", 3]]),
    ([["skip", "r0", 2], ["log", 1], ["log", 2], ["log", 3]], {1, 2}, [["log", 3]]),
    ([["skip", "r0", 2], ["log", 1], ["log", 2], ["log", 3]], {3}, [["skip", "r0", 2], ["log", 1], ["log", 2]]),
    ([["skip", "r0", 1], ["skip", "r1", 1], ["log", 2]], {2}, []),
    ([["skip", "r0", 2], ["skip", "r1", 2], ["log", 2], ["log", 3]], {2, 3}, []),
    ([["skip", "r0", 2], ["skip", "r1", 2], ["log", 2], ["log", 3]], {0, 2}, [["skip", "r1", 1], ["log", 3]]),
)
WRONG = (
    (("shrink", "late.json", "--rules", RULES), "late.json breaks no rule: there is nothing to shrink\n"),
    (("shrink", "later.json", "--rules", RULES, "--rule", "2"), "later.json doesn't break the rule of line 2: there is nothing to shrink\n"),
    (("shrink", "later.json", "--rules", RULES, "--rule", "99"), "has no rule in line 99\n"),
    (("shrink", "later.json", "--rules", RULES, "--keep", "pub cmd_vel 77"), "the run has no line of --keep\n"),
    (("shrink", "later.json", "--rules", RULES, "--keep", "pub cmd_val"), "--keep 'pub cmd_val', at its character 5: the document declares no 'cmd_val'; did you mean cmd_vel?\n"),
    (("shrink", "later.json", "--rules", "nowhere"), "virraupez shrink: nowhere: No such file or directory\n"),
    (("shrink", "nowhere", "--rules", RULES), "virraupez shrink: nowhere: No such file or directory\n"),
    (("shrink", "later.json"), "required: --rules"),
    (("shrink", "later.json", "--rules", RULES, "--unless", "later.json"), "later.json breaks the rule too: line 357"),
    (("shrink", "later.json", "--rules", RULES, "--unless", "examples/robot.json"), "its nodes or its order are others"),
    (("shrink", "later.json", "--rules", RULES, "--unless", "nowhere"), "nowhere: No such file or directory"),
    (("shrink", "late.json", "--rules", "open.rules", "--unless", "short.json"), "short.json leaves the rule undecided: "),
    (("shrink", "later.json", "--rules", RULES, "--rule", "99"), f"{RULES} has no rule in line 99"),
)


def answers(program):
    for script, gone, left in CUT:
        yield f"{script} without {gone}", cuts.cut(script, gone), left
    with sandbox.with_program(program) as top:
        searched.write(top)
        held = json.loads((top / "late.json").read_text())
        held["feed"][19]["round"] = 156
        (top / "later.json").write_text(json.dumps(held))
        # A rule that the robot breaks, and that is undecided in a run which ends before the time is over.
        (top / "open.rules").write_text("every run start timer then log nav within 150 rounds\n".replace("log nav", "log motor 99"))
        early = json.loads((top / "late.json").read_text())
        early["feed"] = [it for it in early["feed"] if it["round"] <= 60]
        (top / "short.json").write_text(json.dumps({**early, "moments": early["moments"][:60]}))
        yield from of_navigation(top)
        yield from of_causes(top)
        yield from of_names(top)
        yield from of_kept(top)
        yield from of_orders(top)
        for words, part in WRONG:
            status, told = searched.started(top, *words)
            yield f"{words}: {told}", (status, part in told), (2, True)
        yield from of_interrupt(top)


def shrunk(top, *words):
    """The status of a shrink, what it tells, and the document."""
    status, told = searched.started(top, "shrink", *words, "-o", "small.json")
    return status, told, json.loads((top / "small.json").read_text())


def failing(top, document, *words):
    """What holds tells of a document's run."""
    (top / "tried.json").write_text(json.dumps(document))
    ran = searched.started(top, "run", "tried.json", "-o", "tried.txt")
    return searched.started(top, "holds", "--document", "tried.json", *words, "tried.txt")[1] if ran[0] == 0 else "refused"


def of_navigation(top):
    """The late stop: what is left breaks the rule, is late and not without an answer, and nothing can be left out."""
    status, told, small = shrunk(top, "later.json", "--rules", RULES)
    counts = shrinking.sizes(small)
    yield f"shrink of the navigation: {told}", (status, counts["entries"], counts["instructions"] <= 10, counts["rounds"] <= 8), (0, 1, True, True)
    yield f"what it tells: {told}", bool(re.search("\nshrink: 4508 bytes became [0-9]{3}, in [0-9]+ runs: 4 nodes became 2", told)), True
    (top / "late.rules").write_text((top / RULES).read_text().split("\n")[4] + "\n")
    yield "the rule that it breaks", "late.rules:1:1: fails" in failing(top, small, "late.rules"), True
    (top / "ever.rules").write_text("every state navigate ID CANCELING then state navigate ID CANCELED\n")
    yield "an answer comes", failing(top, small, "ever.rules"), "1 hold, 0 fail, 0 undecided\n"
    left_out = [cuts.without_rounds(small, {at}) for at in range(counts["rounds"])]
    for path in cuts.scripts(small):
        script = cuts.part(small, path)
        left_out += [cuts.with_part(small, path, cuts.cut(script, {at})) for at in range(len(script))]
    names = [*small["topics"], *(name for node in small["nodes"] for name in cuts.names_of_node(node))]
    left_out += [cuts.without_names(small, {name}) for name in names]
    for document in left_out:
        late, ever = failing(top, document, "late.rules"), failing(top, document, "ever.rules")
        yield f"what more could be left out: {document}", "late.rules:1:1: fails" in late and ever.startswith("1 hold"), False


# Robots that break a rule, and the lines that are the cause: a drop, and what led to the line.
CAUSES = (
    ("burst", "every pub x V then run hear message V within 1 round", ("drop hear message", "run beat timer", "pub x", "run hear message")),
    ("chain", "never pub z >5", ("run beat timer", "pub x", "run hear message", "pub y", "run meet message", "pub z")),
    ("call", "every call ask N _ then run ask reply _ N within 9 rounds", ("drop plan request", "call ask", "run beat timer")),
)


def of_causes(top):
    """What the broken rule's line comes from stays, and so do the drops of what it sent: the smallest document has the planted cause."""
    for name, rule, kept in CAUSES:
        robot = virraupez.Document(topics=["x", "y", "z"])
        node = robot.node("n")
        node.timer("beat", period=5, script="pub x 1\n pub x 7\n call ask 1\n call ask 2\n log now")
        node.subscription("hear", topic="x", depth=1, script="if in < 5 goto end\n pub y in")
        node.subscription("meet", topic="y", script="pub z in")
        node.service("plan", depth=1, script="reply 1")
        node.client("ask", service="plan")
        robot.every(1, until=60)
        (top / f"{name}.json").write_text(robot.text())
        (top / f"{name}.rules").write_text(rule)
        status, told, small = shrunk(top, f"{name}.json", "--rules", f"{name}.rules")
        (top / "small.json").write_text(json.dumps(small))
        ran = searched.started(top, "run", "small.json")[1]
        yield f"the causes of {rule!r}: {told}", (status, [it for it in kept if f"\n{it} " not in ran]), (0, [])
        yield f"what is gone is said: {told}", "shrink: the run no longer has " in told and "log beat" in told, True


def of_names(top):
    """A shrunk document is taken with its own rules by the line of the broken one: others may name what is gone."""
    status, told, _small = shrunk(top, "later.json", "--rules", RULES)
    for name, words in (("holds", ("small.txt", "--document", "small.json")), ("search", ("small.json", "--miss", "0..100", "--runs", "20", "--all"))):
        searched.started(top, "run", "small.json", "-o", "small.txt")
        for rule, wanted in (((), 2), (("--rule", "5"), 1)):
            status, told = searched.started(top, name, *words, "--rules", RULES, *rule)
            yield f"{name} of a shrunk document {rule}: {told}", (status, "declares no" in told), (wanted, wanted == 2)


def of_kept(top):
    status, told, small = shrunk(top, "later.json", "--rules", RULES, "--keep", "pub cmd_vel >0", "--keep", "state navigate _ CANCELED")
    (top / "kept.rules").write_text("some pub cmd_vel >0\nsome state navigate _ CANCELED\n")
    yield f"lines that are kept: {told}", (status, failing(top, small, "kept.rules")), (0, "2 hold, 0 fail, 0 undecided\n")
    remarked = {**json.loads((top / "later.json").read_text()), "remark": "who reads this?"}
    remarked["nodes"][0]["publishers"] = ["path"]
    (top / "remarked.json").write_text(json.dumps(remarked))
    again = shrunk(top, "remarked.json", "--rules", RULES, "--rule", "5")
    yield "fields that the grammar doesn't have go", ("remark" in again[2], "publishers" in json.dumps(again[2])), (False, False)
    timed = shrunk(top, "later.json", "--rules", RULES, "--unless", "late.json")
    other = json.loads(json.dumps(timed[2]))
    other["feed"][0]["round"] -= 1
    yield f"with another timing: {timed[1]}", ("late.rules:1:1: fails" in failing(top, timed[2], "late.rules"), "fails" in failing(top, other, "late.rules")), (True, False)
    reference = shrunk(top, "later.json", "--rules", RULES, "--reference")[2]
    yield "by the executor in Python", reference, shrunk(top, "later.json", "--rules", RULES)[2]
    most = searched.started(top, "shrink", "-", *searched.ruled(top, "some log t"), given=(top / "examples/robot.json").read_bytes())
    yield f"a rule with an unknown name: {most}", (most[0], "did you mean" in most[1] or "declares no" in most[1]), (2, True)
    empty = searched.started(top, "shrink", "examples/robot.json", *searched.ruled(top, "some log motor 99"))
    yield f"what needs nothing at all: {empty}", (empty[0], empty[1].split("\n")[0], ", 1 entry became 0\n" in empty[1]), (0, '{"version":1}', True)


def of_orders(top):
    """An order that the breaking of a rule needs stays, and another goes. With another order a document differs in more than its timing."""
    document = json.loads((tool.TOP / "cases/arrival/of_two_messages.json").read_text())
    (top / "race.json").write_text(json.dumps(document))
    (top / "other.json").write_text(json.dumps({**document, "order": "kind"}))
    before, both = searched.ruled(top, "never run s2 before run s1"), ("--keep", "run s1")
    for words, order in ((both, "arrival"), ((), None)):
        status, told, small = shrunk(top, "race.json", *before, *words)
        yield f"the order of a document that is shrunk {words}: {told}", (status, small.get("order")), (0, order)
    status, told = searched.started(top, "shrink", "race.json", *before, "--unless", "other.json")
    yield f"shrink with another order: {told}", (status, "its nodes or its order are others" in told), (2, True)


def of_interrupt(top):
    """Ctrl-C: what is smallest so far is written."""
    words = [sys.executable, top / "virraupez", "shrink", "later.json", "--rules", RULES, "-o", "ended.json"]
    slow, serve = top / "exec_run", top / "exec_serve"
    before = slow.read_text(), serve.read_text()
    slow.write_text(before[0].replace("exec ", "sleep 0.05; exec "))
    serve.write_text(sandbox.SERVE)
    running = subprocess.Popen(words, stdout=subprocess.PIPE, stderr=subprocess.PIPE, cwd=top, start_new_session=True, preexec_fn=tool.heeding)
    time.sleep(4)
    os.killpg(running.pid, signal.SIGINT)
    told = running.communicate(timeout=tool.SECONDS)[1].decode()
    for path, text in zip((slow, serve), before):
        path.write_text(text)
    yield f"a shrink that is ended: {told}", (running.returncode, "Traceback" in told), (130, False)
    if (top / "ended.json").exists():
        yield "what it wrote", f"{RULES}:5:1: fails" in failing(top, json.loads((top / "ended.json").read_text()), RULES), True
    else:
        yield "what it wrote", "nothing", "a document"
