"""What search finds: the moments at which a rule breaks, as runs that are made here one by one show; what each of its words lets
vary; the same answer for any number of processes and shards; and what it says if something is wrong or it is ended early."""
import itertools
import json
import os
import pathlib
import re
import signal
import subprocess
import sys
import tempfile
import time

import virraupez
from virraupez import command, crew, space

from . import conventional, sandbox, tool

RULE = "every run hear message V then log hear V within 1 round\n"
# A subscription whose callback is late: it logs what came before.
NAVIGATION = "examples/navigation.rules"
# What lets each kind of change break a rule of a small document: words, the rule, and what is told of the least change.
KINDS = (
    (("--move", "feed[1]", "1..6"), "never log meet 2", "feed[1] (x 2) at 4, and not 2", "feed[1] (x 2) at 4"),
    (("--move", "feed[0]", "3..5"), "never log meet 2", "feed[0] (x 1) at 4, and not 1", "feed[0] (x 1) at 4"),
    (("--move", "feed[0]", "3..5"), "never log meet 3", None, None),
    (("--jitter", "y", "±1"), "never log meet 2", None, None),
    (("--jitter", "y", "-2..0"), "never log meet 2", "feed[2] (y 3) at 2, and not 4", "feed[2] (y 3) at 2"),
    (("--jitter", "y", "-2..-1"), "never log meet 2", "feed[2] (y 3) at 2, and not 4", "feed[2] (y 3) at 2"),
    (("--drop", "x"), "some run hear message 2", "feed[1] (x 2) is dropped", "feed[1] (x 2) is dropped"),
    (("--twice", "feed[0]"), "never drop hear message 1", "feed[0] (x 1) comes twice", "feed[0] (x 1) comes twice"),
    (("--swap", "x"), "never run hear message 1 after run hear message 2", "feed[0] (x 1) and feed[1] (x 2) are exchanged", "feed[0] (x 1) and feed[1] (x 2) are exchanged"),
    (("--swap", "feed[1]"), "never run meet before run hear message 2", "feed[1] (x 2) and feed[2] (y 3) are exchanged", "feed[1] (x 2) and feed[2] (y 3) are exchanged"),
    (("--period", "beat", "1..9"), "count run beat timer is 2", "timer beat has a period of 6, and not 5", "timer beat has a period of 1..3, 6..9"),
    (("--shift", "5..5", "±1"), "never run beat timer 6", "round 5 at 4, and not 5", "round 5 at 4, 6"),
    (("--miss", "5..5"), "some run beat timer 5", "round 5 at 5 is missed", "round 5 at 5 is missed"),
    (("--miss", "1..10"), "never drop", "round 1 at 1 is missed", "round 1 at 1 is missed"),
)
# What is drawn first, and the numbers by which it is.
DRAWN = [[(1, 0), (2, 3), (6, 1)], [(2, 2), (11, 1)], [(2, 2)]]
NUMBERS = [13318283017618012649, 7331134332885357651]
# Words that are wrong, with a part of what is told.
WRONG = (
    (("--drop", "z"), "--drop z: no topic or action server to which something is fed"),
    (("--drop", "feed[3]"), "--drop feed[3]: the feed has 3 entries, counted from 0"),
    (("--drop", "feed[x]"), "--drop feed[x]: no topic"),
    (("--move", "x", "5..4"), "'5..4' is no range"),
    (("--move", "x", "²"), "'²' is no range"),
    (("--move", "x", "20..30"), "there is no round at or after 20"),
    (("--swap", "feed[2]"), "no entry follows with which it could be exchanged"),
    (("--swap", "y"), "no entry follows"),
    (("--period", "beet", "1..2"), "--period beet 1..2: no timer has this name; did you mean beat?"),
    (("--period", "beat", "0..2"), "a period is at least 1 tick"),
    (("--shift", "30..40", "±1"), "there is no round at 30..40"),
    (("--jitter", "x", "±1", "--move", "feed[0]", "1..2"), "--move feed[0] 1..2: feed[0] (x 1) varies twice"),
    (("--period", "beat", "1..9999999"), "all that may vary has more than"),
    (("--period", "beat", "1..99999999999999999999"), "--period beat 1..99999999999999999999: 99999999999999999999 is too great: a document has periods and moments of at most 4611686018427387904 ticks\n"),
    (("--shift", "5..5", "0..99999999999999999999"), "--shift 5..5 0..99999999999999999999: 100000000000000000004 is too great"),
    ((), "nothing varies: --move, --jitter"),
    (("--period", "beat", "5"), "nothing varies"),
    (("--drop", "x", "--runs", "0"), "a number from 1 to 1000000000000, and not '0'"),
    (("--shift", "5..5", "±1", "--runs", "9999999999999"), "and not '9999999999999'"),
    (("--drop", "x", "--processes", "1025"), "a number from 1 to 1024, and not '1025'"),
    (("--drop", "x", "--save", ""), "No such file or directory\n"),
    (("--drop", "x", "--shard", "3/2"), "K/N with K from 1 to N, and not '3/2'"),
    (("--drop", "x", "--shard", "1"), "and not '1'"),
    (("--drop", "x", "--robust", "lug hear"), "--robust 'lug hear', at its character 1: no line begins with 'lug'; did you mean log?"),
    (("--drop", "x", "--robust", "log heer"), "did you mean hear?"),
)


def small():
    """A document with a timer, two topics, and a callback that hears whether both come in one round."""
    robot = virraupez.Document(topics=["x", "y"])
    node = robot.node("n")
    node.timer("beat", period=5, script="log now")
    node.subscription("hear", topic="x", depth=1, script="g0 = now\n log in")
    node.subscription("meet", topic="y", script="r0 = g0 == now\n r0 = r0 + 1\n log r0")
    robot.every(1, until=10, begin=1)
    for topic, value, at in (("x", 1, 1), ("x", 2, 2), ("y", 3, 4)):
        robot.message(topic, value, at=at)
    return robot.text()


def answers(program):
    with sandbox.with_program(program) as top:
        write(top)
        yield from of_moments(top)
        yield from of_kinds(top)
        yield from of_chance(top)
        yield from of_robust(top)
        yield from of_silence(top)
        yield from of_shards(top)
        yield from of_folders(top)
        yield from of_words(top)
        yield from of_progress(top)
        yield from of_interrupt(top)
    yield from of_crew()
    yield from of_draws()
    yield from of_programs()


def write(top):
    """Writes the documents that are searched: the small one, and a navigation that hears too late that it is canceled."""
    (top / "small.json").write_text(small())
    late = re.sub("(let done = r5\n) *if aux goto stop\n", "\\1", (top / "examples/navigation.py").read_text())
    (top / "late.py").write_text(late)
    started(top, "write", "late.py", "-o", "late.json")


def started(top, *words, given=None):
    """The status of ./virraupez in a folder, and what it says."""
    words = [sys.executable, "-B", top / "virraupez", *words]
    ran = subprocess.run(words, input=given, stdout=subprocess.PIPE, stderr=subprocess.PIPE, timeout=tool.SECONDS, cwd=top)
    return ran.returncode, ran.stdout.decode() + ran.stderr.decode()


def ruled(top, text):
    (top / "some.rules").write_text(text)
    return ("--rules", "some.rules")


def of_moments(top):
    """The moments at which a rule breaks are those that runs of documents that are made here show."""
    held = json.loads((top / "late.json").read_text())
    breaking = []
    for at in range(1, 252):
        held["feed"][19]["round"] = at
        ran = subprocess.run([top / "exec_run", "1", "1"], input=json.dumps(held).encode(), stdout=subprocess.PIPE)
        lines = ran.stdout.decode().split("\n")
        moved, ended = (number_of_round(lines, f"state navigate [^ ]* {state}") for state in (3, 5))
        if moved and ended != moved + 1:
            breaking.append(at - 1)
    status, told = started(top, "search", "late.json", "--rules", NAVIGATION, "--move", "feed[19]", "0..250", "--all")
    count = re.search("rules:5:1: breaks in ([0-9]+) of 251 runs", told)
    yield f"the moments at which it is late: {told}", (status, int(count[1]) if count else None), (1, len(breaking))
    shown = ", ".join(map(str, breaking[:12]))
    yield f"which they are: {told}", f"feed[19] (battery 15) at {shown}" in told, True
    first = started(top, "search", "late.json", "--rules", NAVIGATION, "--move", "feed[19]", "54..202")
    number = next(at for at in breaking if at >= 54) - 53
    yield f"the first of them: {first[1]}", (first[0], f"\nrun {number} of 149 breaks a rule; --all counts all\n" in first[1]), (1, True)
    for processes in ("1", "2", "5"):
        yield f"by {processes} processes", started(top, "search", "late.json", "--rules", NAVIGATION, "--move", "feed[19]", "0..250", "--all", "--processes", processes), (status, told)
    mended = started(top, "search", "examples/navigation.json", "--rules", NAVIGATION, "--move", "feed[19]", "104..202")
    yield "a search that finds nothing", mended, (0, "99 runs, all there are: no rule breaks\n")


def number_of_round(lines, form):
    """The round in which a line of some form stands; 0 if none does."""
    count = 0
    for line in lines:
        count += line.startswith("round ")
        if re.fullmatch(form, line):
            return count
    return 0


def of_kinds(top):
    for words, rule, least, where in KINDS:
        status, told = started(top, "search", "small.json", *ruled(top, rule), *words, "--all")
        should = (1, True, True) if least else (0, False, False)
        found = status, f": {least}\n" in told, f" of these: {where}\n" in told
        yield f"search {words}: {told}", found, should


def of_chance(top):
    """What is drawn by chance is the same for the same seed, be there one process or several, and another for another."""
    words = ("search", "late.json", "--rules", NAVIGATION, "--jitter", "battery", "±3", "--drop", "scan", "--runs", "150", "--all")
    told = started(top, *words)
    yield f"what is drawn by chance: {told}", (told[0], "150 runs, drawn with the seed 1: " in told[1]), (1, True)
    yield "by three processes", started(top, *words, "--processes", "3"), told
    other = started(top, *words, "--seed", "2")[1]
    yield "with another seed", other.replace("seed 2", "seed 1") != told[1], True
    first = started(top, *words[:-1])[1]
    number = re.search("run ([0-9]+) of 150 breaks a rule", first)
    yield f"the first by chance: {first}", number is not None and f"run {number[1]}" in first, True
    whole = started(top, "search", "small.json", *ruled(top, "never drop"), "--drop", "x", "--runs", "4")
    yield "as many runs as variations", whole, (0, "4 runs, all there are: no rule breaks\n")
    few = started(top, "search", "small.json", *ruled(top, "never drop"), "--drop", "x", "--runs", "3")
    yield "fewer runs than variations", few, (0, "3 runs, drawn with the seed 1: no rule breaks\n")


def of_robust(top):
    """Lines that must stay those of the document's own run."""
    words = ("search", "small.json", "--drop", "x", "--all")
    status, told = started(top, *words, "--robust", "log meet")
    yield "robust lines that stay", (status, told), (0, "4 runs, all there are: no rule breaks\n")
    status, told = started(top, *words, "--robust", "log hear", "--robust", "log meet")
    yield f"robust lines that don't: {told}", (status, "--robust 1: breaks in 3 of 4 runs: robust log hear\n" in told, "--robust 2" in told), (1, True, False)
    says = "(the document's own run has log hear 2)"
    yield f"what they were: {told}", says in told, True
    own = started(top, "search", "small.json", *ruled(top, "never run beat\nnever drop"), "--drop", "x", "--all")
    yield f"a rule that breaks without a change: {own}", (own[0], "some.rules:1:1: breaks without a change" in own[1], "breaks in 4 of 4 runs" in own[1]), (1, True, True)
    first = started(top, "search", "small.json", *ruled(top, "never run beat"), "--drop", "x")
    yield f"and ends the search: {first}", (first[0], first[1].endswith("\nthe document's own run breaks a rule; --all counts all\n")), (1, True)
    cause = started(top, "search", "small.json", *ruled(top, "some run hear message 2"), "--drop", "x", "--drop", "y", "--all")[1]
    yield f"what is no cause: {cause}", ("of these: feed[1] (x 2) is dropped" in cause, "of these: feed[0]" in cause, "of these: feed[2]" in cause), (True, False, False)
    nothing = started(top, "search", "small.json", *ruled(top, "every drop hear then log meet"), "--drop", "x")
    yield f"a rule of nothing: {nothing}", (nothing[0], "some.rules:1:1: holds of nothing in 4 runs: every drop hear then log meet\n  no line is drop hear\n" in nothing[1]), (1, True)
    opened = started(top, "search", "small.json", *ruled(top, "every run beat timer 10 then log hear within 3 rounds"), "--drop", "x")
    yield f"a rule that is open: {opened}", (opened[0], "some.rules:1:1: undecided in 4 of 4 runs" in opened[1]), (1, True)


# Rules of which runs of the small document say nothing, or something; options; the status, and the end of the last line.
NO_RULE = "4 runs, all there are: no rule breaks"
SILENT = (
    ("every drop hear then log meet", (), 1, "; of nothing in all of them: some.rules:1:1"),
    ("every drop hear then log meet", ("--accept-undecided",), 1, "; of nothing in all of them: some.rules:1:1"),
    ("every drop hear then log meet", ("--accept-nothing",), 0, ""),
    ("never pub x", (), 1, "; of nothing in all of them: some.rules:1:1"),
    ("every run beat timer 10 then log hear within 3 rounds", (), 1, "; undecided in all of them: some.rules:1:1"),
    ("every run beat timer 10 then log hear within 3 rounds", ("--accept-nothing",), 1, "; undecided in all of them: some.rules:1:1"),
    ("every run beat timer 10 then log hear within 3 rounds", ("--accept-undecided",), 0, ""),
    # Two runs leave it undecided, and two have no such line: none decides it.
    ("every log hear 2 then log meet 9 within 20 rounds", (), 1, "; undecided in all of them: some.rules:1:1"),
    # Two runs hear nothing, and two hold.
    ("every log hear 2 then log meet 1", (), 0, ""),
)


def of_silence(top):
    """A rule that no run decides, or that all runs have nothing of, ends with 1 and is named in the last line, unless it is accepted."""
    for rule, words, status, end in SILENT:
        found = started(top, "search", "small.json", *ruled(top, rule), "--drop", "x", *words)
        yield f"the silent rule {rule!r} {words}: {found[1]}", (found[0], found[1].split("\n")[-2]), (status, NO_RULE + end)
    robust = started(top, "search", "small.json", "--robust", "drop hear", "--drop", "x")
    yield f"robust lines that there are none of: {robust}", (robust[0], robust[1].split("\n")[-2]), (1, f"{NO_RULE}; of nothing in all of them: --robust 1")
    rules = ruled(top, "\n".join(SILENT[at][0] for at in (0, 4)))
    for shard in (1, 2):
        part = started(top, "search", "small.json", *rules, "--drop", "x", "--shard", f"{shard}/2", "-o", f"silent_{shard}")
        yield f"a shard doesn't know what others say: {part}", part, (0, "")
    joined = started(top, "search", "--merge", "silent_1", "silent_2")
    yield f"silent rules of shards: {joined}", (joined[0], joined[1].split("\n")[-2]), (1, f"{NO_RULE}; undecided in all of them: some.rules:2:1; of nothing in all of them: some.rules:1:1")
    accepted = started(top, "search", "--merge", "silent_1", "silent_2", "--accept-undecided", "--accept-nothing")
    yield f"accepted rules of shards: {accepted}", (accepted[0], accepted[1].split("\n")[-2]), (0, NO_RULE)


def of_shards(top):
    """Shards, joined in whatever order, give what one search gives, line for line."""
    words = ("search", "late.json", "--rules", NAVIGATION, "--jitter", "battery", "±2", "--drop", "feed[3]", "--runs", "200")
    for more in ((), ("--all",)):
        should = started(top, *words, *more)
        for of in (1, 2, 3):
            names = [f"{shard}_of_{of}" for shard in range(1, of + 1)]
            for shard, name in enumerate(names, 1):
                started(top, *words, *more, "--shard", f"{shard}/{of}", "-o", name)
            yield f"{of} shards {more}", started(top, "search", "--merge", *reversed(names)), should
            joined = b"".join((top / name).read_bytes() for name in names)
            yield f"{of} shards {more} in one stream", started(top, "search", "--merge", "-", given=joined), should
    one, two, three = ((top / f"{shard}_of_3").read_text() for shard in (1, 2, 3))
    for given, status, part in (
        (one + three, 2, "search: this shard of 3 is missing: 2\n"),
        (one, 2, "search: these shards of 3 are missing: 2, 3\n"),
        (one + two + three + one, 2, f"-:{(one + two + three).count(chr(10)) + 1}:1: the shard 1 of 3 is there twice\n"),
        (one + "".join(two.splitlines(True)[:-1]) + three, 2, "the shard 2 of 3 ended before all its runs were made\n"),
        (one + two.replace('"seed":1', '"seed":2') + three, 2, "a shard of another search"),
        (one + (top / "1_of_2").read_text(), 2, "a shard of another search"),
        (one + two.replace(two.splitlines(True)[1], "") + three, 2, "runs that break a rule, and "),
        (one + two.replace('"program":"exec_serve', '"program":"exec_sever') + three, 2, "a shard that was run by exec_sever"),
        (one + two.replace('"by":{"version":"', '"by":{"version":"9') + three, 2, "and those before it by exec_serve "),
        (two.split("\n", 1)[1], 2, "-:1:1: a line before the first line of its shard\n"),
        (one.split("\n")[0] + "\n{}\n", 2, "-:2:1: no line of a shard: '{}'\n"),
        (one[:200] + "\n", 2, "-:1:1: no line of a shard: "),
        ("[" * 100000 + "\n", 2, "-:1:1: no line of a shard: "),
        (one[:200], 2, "search: no shard in standard input\n"),
        (one + three + two[:200], 2, "search: this shard of 3 is missing: 2\n"),
        (one + two + three[:-9], 2, "the shard 3 of 3 ended before all its runs were made\n"),
        ("", 2, "search: no shard in standard input\n"),
    ):
        found, told = started(top, "search", "--merge", "-", given=given.encode())
        yield f"merge of what is wrong: {told}", (found, part in told), (status, True)
    number = next(json.loads(line)["run"] for line in three.splitlines() if line.startswith('{"run":'))
    told = started(top, "search", "--merge", "-", given=three[: three.rindex('{"runs"') + 9].encode())[1]
    yield f"what a shard that is cut off found: {told}", f"\n  least change, run {number}: " in told, True
    own = started(top, "search", "--merge", "1_of_1", "--rules", NAVIGATION)
    yield f"merge with rules of its own: {own}", (own[0], "it takes none of its own\n" in own[1]), (2, True)


def of_folders(top):
    """What is saved breaks the rule, and what is told is there."""
    status, told = started(top, "search", "late.json", "--rules", NAVIGATION, "--robust", "run go result", "--move", "feed[19]", "0..250", "--all", "--save", "found")
    names = sorted(it.name for it in (top / "found").iterdir())
    says = re.search("found has 100 runs that break a rule, the first of (.*), and the least change of each rule: rule_2.json, rule_5.json, robust_1.json\n", told)
    yield f"what is saved: {told}", (len(names), says and says[1] in told.split("\n")[-3]), (206, True)
    for name in ("rule_5", "run_56"):
        held = started(top, "holds", "--document", f"found/{name}.json", NAVIGATION, f"found/{name}.txt")
        yield f"holds of {name}: {held}", (held[0], f"{NAVIGATION}:5:1: fails" in held[1]), (1, True)
        ran = started(top, "run", f"found/{name}.json")
        yield f"the run of {name}", ran, (0, (top / f"found/{name}.txt").read_text())
    started(top, "search", "late.json", "--rules", NAVIGATION, "--move", "feed[19]", "155..156", "--all", "--shard", "1/1", "-o", "shard")
    joined = started(top, "search", "--merge", "shard", "--save", "joined")
    yield f"what is saved of shards: {joined}", sorted(it.name for it in (top / "joined").iterdir()), ["rule_5.json", "rule_5.txt"]
    yield "what is told of that", joined[1].split("\n")[-2], "search: joined has the least change of each rule: rule_5.json"
    again = started(top, "search", "late.json", "--rules", NAVIGATION, "--move", "feed[19]", "155..156", "--all", "--save", "found")
    yield f"what is told of files of an earlier search: {again[1]}", again[1].endswith("search: found has 202 files of an earlier search too: robust_1.json, robust_1.txt, rule_2.json, rule_2.txt ..\n"), True
    first = started(top, "search", "late.json", "--rules", NAVIGATION, "--move", "feed[19]", "155..156", "--save", "first")
    yield "what is told of one run", first[1].split("\n")[-2], "search: first has 1 run that breaks a rule, and the least change of each rule: rule_5.json"
    nowhere = started(top, "search", "small.json", "--robust", "log", "--drop", "x", "--save", "small.json/in")
    yield f"a folder that can't be made: {nowhere}", (nowhere[0], nowhere[1].count("\n")), (2, 1)


def of_words(top):
    rules = ruled(top, "never drop")
    for words, part in WRONG:
        status, told = started(top, "search", "small.json", *rules, *words)
        yield f"search {words}: {told}", (status, part in told), (2, True)
    far = started(top, "search", "small.json", *rules, "--jitter", "x", "±99999999", "--all")
    yield f"a jitter beyond all rounds: {far}", (far[0], far[1].split("\n")[-2]), (1, "100 runs, all there are: 10 break a rule")
    status, told = started(top, "search", "small.json", "--drop", "x")
    yield f"no rules: {told}", (status, "nothing to hold runs to" in told), (2, True)
    status, told = started(top, "search", "small.json", *ruled(top, "never drip\nnever drop hear mesage"), "--drop", "x")
    yield f"wrong rules: {told}", (status, told.count("some.rules:"), "did you mean message?" in told), (2, 2, True)
    status, told = started(top, "search", "-", *rules, "--drop", "x", given=b'{"version":1}')
    yield f"an empty feed: {told}", (status, told), (2, "virraupez search: --drop x: the document feeds nothing\n")
    rules = ruled(top, "never drop")
    several = started(top, "search", "small.json", "examples/timer.json", *rules, "--drop", "x")
    yield f"two documents: {several}", (several[0], "one document is searched at a time" in several[1]), (2, True)
    refused = started(top, "search", "-", *rules, "--drop", "x", given=b'{"version":1,"topics":["x","x"]}')
    yield "a document that is refused", refused, (2, "-:1:28: refused 4 (Name): explain tells why\n")
    yield "a document that is nowhere", started(top, "search", "nowhere", *rules, "--drop", "x"), (2, "virraupez search: nowhere: No such file or directory\n")
    reference = started(top, "search", "small.json", *rules, "--drop", "x", "--reference")
    yield "by the executor in Python", reference, started(top, "search", "small.json", *rules, "--drop", "x")
    with open("/dev/full", "w") as full:
        ran = subprocess.run([sys.executable, top / "virraupez", "search", "small.json", *rules, "--drop", "x"], stdout=full, stderr=subprocess.PIPE, cwd=top)
    yield f"on a full disk: {ran.stderr}", (ran.returncode, ran.stderr.count(b"\n"), b"No space left" in ran.stderr), (2, 1, True)


def of_interrupt(top):
    """Ctrl-C: what was found so far is told and saved, and no process is left."""
    words = ["search", "late.json", "--rules", NAVIGATION, "--jitter", "battery", "±3", "--drop", "scan", "--runs", "1000000", "--all", "--save", "ended"]
    for more in ([], ["--shard", "1/2"]):
        running = subprocess.Popen([sys.executable, top / "virraupez", *words, *more], stdout=subprocess.PIPE, stderr=subprocess.PIPE, cwd=top, start_new_session=True, preexec_fn=tool.heeding)
        until = time.monotonic() + tool.SECONDS
        while not list((top / "ended").glob("run_*.txt")) and time.monotonic() < until:
            time.sleep(0.1)
        os.killpg(running.pid, signal.SIGINT)
        out, err = (it.decode() for it in running.communicate(timeout=tool.SECONDS))
        tells = out.split("\n")[-2].endswith(" a rule; it ended early" if not more else '"whole":false}')
        yield f"a search that is ended {more}: {out[-300:]}{err}", (running.returncode, tells, "rule_5.json" in err, "Traceback" in err), (130, True, True, False)
        yield f"what is left of it {more}", is_left(running.pid), False
        for path in (top / "ended").iterdir():
            path.unlink()


def is_left(group):
    """Whether a process of a group is left. A run that was under way takes a moment to end."""
    until = time.monotonic() + tool.SECONDS
    while time.monotonic() < until:
        try:
            os.killpg(group, 0)
        except ProcessLookupError:
            return False
        time.sleep(0.1)
    return True


def of_programs():
    """A program that refuses a document or crashes ends the search, and is told."""
    for script, part in (
        ("cat >/dev/null; echo refused 10 >&2; exit 1", "refused with 10"),
        ("cat >/dev/null; kill -KILL $$", "the program ended with the status -9"),
        ("exit 70", "the program ended with the status 70"),
    ):
        with sandbox.of(script) as top:
            (top / "small.json").write_text(small())
            status, told = started(top, "search", "small.json", *ruled(top, "never drop"), "--drop", "x")
            yield f"search by {script!r}: {told}", (status, part in told, "Traceback" in told), (2, True, False)
    with sandbox.of("echo $PPID >>parents; cat >/dev/null; echo end 0") as top:
        (top / "small.json").write_text(small())
        yield from of_few(top)
    yield from of_choice()
    counted = 'n=$(cat n 2>/dev/null || echo 0); echo $((n + 1)) >n; cat >/dev/null; [ "$n" -lt 3 ] || { echo refused 10 >&2; exit 1; }; echo "round 1 1"; echo "end 1"'
    with sandbox.of(counted) as top, tempfile.TemporaryDirectory() as _:
        (top / "small.json").write_text(small())
        status, told = started(top, "search", "small.json", *ruled(top, "never drop"), "--drop", "x", "--processes", "1")
        yield f"a run that is refused in the middle: {told}", (status, "run 2 is refused with 10: feed[1] (x 2) is dropped" in told), (2, True)


def of_few(top):
    """As many processes run documents as there is work for, and not as many as are asked for."""
    status, told = started(top, "search", "small.json", *ruled(top, "never drop"), "--drop", "x", "--processes", "9")
    yield f"four runs by nine processes: {told}", (status, len(set((top / "parents").read_text().split()))), (0, 1)


def of_choice():
    """A search asks once which program ./exec_serve runs, as ./exec_serve itself does, and runs that."""
    with sandbox.of("echo exec_run ran >&2; exit 70") as top:
        (top / "small.json").write_text(small())
        sandbox.written(top / "release/it", sandbox.SERVE.replace("./exec_run", "release/one"))
        sandbox.written(top / "release/one", "#!/bin/sh\n[ \"$*\" = '1 1' ] && cat >/dev/null && echo 'end 0'\n")
        for known, chosen, should in (("true", "echo asked >&2; false", (0, "4 runs, all there are: no rule breaks\n")), ("false", "true", (0, "4 runs, all there are: no rule breaks\n")), ("false", "false", (2, "virraupez search: ./exec_serve has no program to run\n"))):
            (top / "release/program.sh").write_text(f"ask_of() {{ [ $1 = exec_serve ]; }}\nis_known() {{ program=release/it; {known}; }}\nchoose() {{ {chosen}; }}\n")
            yield f"the program that is {known} and {chosen}", started(top, "search", "small.json", *ruled(top, "never drop"), "--drop", "x"), should


def of_crew():
    """What processes do comes in the order of the tasks; and one that ends in the middle of its work, or meets trouble, is told."""

    def make():
        def work(task):
            time.sleep(0.002 * (task % 7))
            if task == 1000:
                os._exit(1)
            if task == 2000:
                raise command.Trouble("trouble of its own")
            if task == 3000:
                raise ZeroDivisionError("by chance")
            return task * task

        return work

    for count in (1, 2, 7):
        yield f"the order of {count} processes", list(crew.outcomes(make, iter(range(200)), count)), [it * it for it in range(200)]
    for task, says in ((1000, "a process of the crew has ended in the middle of its work"), (2000, "trouble of its own"), (3000, "ZeroDivisionError: by chance")):
        try:
            found = list(crew.outcomes(make, [1, 2, 3, task, 4], 2))
        except command.Trouble as trouble:
            found = trouble.lines
        yield f"what becomes of the task {task}", found, (says,)
    yield "nothing to do", list(crew.outcomes(make, [], 3)), []


def of_draws():
    """What is drawn by chance is the same everywhere, is never what the document says, and has each other option and some of each
    number of changes. A choice that hasn't what the document says is always taken."""
    document = json.loads(small())
    made = space.Space(document, [["jitter", "x", "±1"], ["drop", "y"], ["period", "beat", "3..8"], ["move", "feed[2]", "6..9"], ["miss", "1..10"]])
    drawn = [made.drawn(1, number) for number in range(1, 2001)]
    yield "the same draws everywhere", drawn[:3], DRAWN
    own = [(at, option) for taken in drawn for at, option in taken if option == made.choices[at].own]
    yield "nothing that the document says is drawn", own, []
    seen = {(at, option) for taken in drawn for at, option in taken}
    others = {(at, option) for at, choice in enumerate(made.choices) for option in range(len(choice.options)) if option != choice.own}
    yield "all else is drawn", seen, others
    always = {at for at, choice in enumerate(made.choices) if choice.own is None}
    yield "what is in each draw", [always - {at for at, _ in taken} for taken in drawn if not always <= {at for at, _ in taken}], []
    counts = {len(taken) - 1 for taken in drawn}
    yield "how many changes the draws have", set(range(1, len(made.choices))) <= counts, True
    every = {tuple(made.numbered(number)) for number in range(made.size)} if made.size < 10**6 else set()
    yield "all variations are others", len(every), made.size
    yield "the first numbers of a text", list(itertools.islice(space.numbers("1 1"), 2)), NUMBERS


def of_progress(top):
    """On a terminal the runs, their rate, those that break a rule, and the time left are told."""
    words = [str(top / "virraupez"), "search", str(top / "late.json"), "--rules", str(top / NAVIGATION), "--jitter", "battery", "±3", "--runs", "2000", "--all", "--processes", "1"]
    status, told = conventional.on_terminal(words, NO_COLOR="1")
    line = r"\r\x1b\[Kvirraupez search: [0-9]+ of 2000 runs, [0-9]+ a second, [0-9]+ break a rule, [0-9]+ s left, [0-9]+ s"
    yield f"progress of a search: {told[:300]!r}", (status, bool(re.search(line, told))), (1, True)
