"""What check says of documents: by rules, golden transcripts and searches; and that run says of a refused document that the transcript
which is there isn't its own."""

from . import launched, sandbox, searched, tool

ROBOT, RULES = "examples/robot.json", "examples/robot.rules"
LATE = '"feed":[{"round":8,"topic":"e_stop","value":1}]', '"feed":[{"round":9,"topic":"e_stop","value":1}]'
PASSES = f"{ROBOT}: passes: 7 hold, 0 fail, 0 undecided"


def answers(program):
    with sandbox.with_program(program) as top:
        yield from of_rules(top)
        yield from of_golden(top)
        yield from of_folder(top)
        yield from of_search(top)
        yield from of_words(top)
        yield from of_refused(top)


def checked(top, *words, given=None):
    status, told = searched.started(top, "check", *words, given=given)
    return status, told.split("\n")[:-1]


def of_rules(top):
    yield "check by rules", checked(top, ROBOT, "--rules", RULES), (0, [PASSES])
    yield "by the executor in Python", checked(top, ROBOT, "--rules", RULES, "--reference"), (0, [PASSES])
    given = (top / ROBOT).read_bytes()
    yield "check of standard input", checked(top, "-", "--rules", RULES, given=given), (0, [PASSES.replace(ROBOT, "standard input")])
    for rule, words, status, last in (
        ("never pub base_cmd 0", (), 1, "fails: 0 hold, 1 fail, 0 undecided"),
        ("some run laser\nnever pub base_cmd 0", (), 1, "fails: 1 hold, 1 fail, 0 undecided"),
        ("every run laser then pub base_cmd 77 within 900 rounds", (), 1, "fails: 0 hold, 0 fail, 1 undecided"),
        ("every run laser then pub base_cmd 77 within 900 rounds", ("--accept-undecided",), 0, "passes: 0 hold, 0 fail, 1 undecided"),
        ("every drop then run motor", (), 1, "fails: 0 hold, 0 fail, 0 undecided, 1 about nothing"),
        ("every drop then run motor", ("--accept-nothing",), 0, "passes: 0 hold, 0 fail, 0 undecided, 1 about nothing"),
        ("never pub e_stop", (), 1, "fails: 0 hold, 0 fail, 0 undecided, 1 about nothing"),
    ):
        found, told = checked(top, ROBOT, "--rules", "-", *words, given=rule.encode())
        yield f"check by {rule!r} {words}: {told}", (found, told[-1]), (status, f"{ROBOT}: {last}")
    both = checked(top, "examples/timer.json", "examples/two_timers.json", "--rules", "-", given=b"every run _ timer 3 then log")
    yield "a rule about nothing in one of two documents", both, (0, [
        "-:1:1: holds of nothing: every run _ timer 3 then log",
        "  run of examples/timer.json: no line is run _ timer 3",
        "examples/timer.json: passes: 0 hold, 0 fail, 0 undecided, 1 about nothing",
        "examples/two_timers.json: passes: 1 hold, 0 fail, 0 undecided",
    ])  # fmt: skip


def of_golden(top):
    """An edit of the document differs from its golden transcript, which is renewed if that is asked for, and shown."""
    golden = "examples/robot.txt"
    words = ("--rules", RULES, "--golden", golden)
    yield "check with a golden transcript", checked(top, ROBOT, *words), (0, [f"{PASSES}, the same as {golden}"])
    (top / "late.json").write_text((top / ROBOT).read_text().replace(*LATE))
    before = (top / golden).read_text()
    status, told = checked(top, "late.json", *words)
    yield f"an old golden transcript: {told}", (status, told[0], told[-1]), (1, f"run of late.json:70:1: differs from {golden}:70, in round 8 at moment 11", f"late.json: fails: 7 hold, 0 fail, 0 undecided, differs from {golden}")
    yield "which stays", (top / golden).read_text(), before
    status, updated = checked(top, "late.json", *words, "--update")
    yield f"and is renewed: {updated}", (status, updated[:-1], updated[-1]), (0, told[:-1], f"late.json: passes: 7 hold, 0 fail, 0 undecided, {golden} is renewed")
    yield "by the run", (top / golden).read_text(), searched.started(top, "run", "late.json")[1]
    yield "and is the same then", checked(top, "late.json", *words), (0, [f"late.json: passes: 7 hold, 0 fail, 0 undecided, the same as {golden}"])
    (top / golden).write_text(before)
    yield "without rules", checked(top, ROBOT, "--golden", golden), (0, [f"{ROBOT}: passes: the same as {golden}"])
    (top / "cut.txt").write_text(before[:2000])
    for name, part in (("cut.txt", "cut.txt:72:1: the transcript is cut off"), ("nowhere.txt", "nowhere.txt: No such file")):
        status, told = checked(top, ROBOT, "--golden", name)
        yield f"a golden transcript {name}: {told}", (status, len(told), part in told[0]), (2, 1, True)
    (top / "cut.txt").unlink()
    yield "a new golden transcript", checked(top, ROBOT, "--golden", "new.txt", "--update"), (0, ["new.txt: new", f"{ROBOT}: passes: new.txt is renewed"])
    yield "which is the run", (top / "new.txt").read_text(), before


def of_folder(top):
    """A folder has a golden transcript for each document."""
    names = sorted(f"examples/{path.name}" for path in (top / "examples").glob("*.json"))
    status, told = checked(top, *names, "--golden", "examples")
    yield "check of all examples", (status, told), (0, [f"{it}: passes: the same as {it[:-4]}txt" for it in names])
    status, told = checked(top, ROBOT, "nowhere.json", "examples/timer.json", "--golden", "examples")
    yield f"one of three can't be read: {told}", (status, len(told), "nowhere.json: No such file" in told[2]), (2, 3, True)


def of_search(top):
    words = ("--rules", "examples/navigation.rules", "--search", "--move feed[19] 104..202")
    passes = "examples/navigation.json: passes: 8 hold, 0 fail, 0 undecided, search: 99 runs, all there are: no rule breaks"
    yield "check with a search", checked(top, "examples/navigation.json", *words), (0, [passes])
    searched.write(top)
    status, told = checked(top, "late.json", *words)
    yield f"a search that finds something: {told}", (status, "  change, run 2: feed[19] (battery 15) at 105, and not 153" in told, told[-1]), (
        1,
        True,
        "late.json: fails: 8 hold, 0 fail, 0 undecided, search: run 2 of 99 breaks a rule; --all counts all",
    )
    status, told = checked(top, ROBOT, "--rules", RULES, "--search", "--jitter range")
    yield f"wrong words of a search: {told}", (status, "virraupez check --search: error:" in told[-1]), (2, True)


def of_words(top):
    for words, part in (
        ((ROBOT,), "nothing to check"),
        ((ROBOT, "--rules", RULES, "--update"), "--golden names none"),
        ((ROBOT, "examples/timer.json", "--golden", "examples/robot.txt"), "of several documents it is a folder"),
        ((ROBOT, "--golden", "examples/robot.txt", "--search", "--drop range"), "--search needs --rules"),
    ):
        status, told = checked(top, *words)
        yield f"check {words}: {told}", (status, part in told[-1]), (2, True)
    status, told = checked(top, ROBOT, "examples/timer.json", "--rules", RULES)
    yield f"rules with names of one document: {told}", (status, told[0], told[1].endswith(" (beside examples/timer.json)")), (2, PASSES, True)


def of_refused(top):
    """A refused document fails; and the transcript that run would have written stays, and is said to."""
    mistake = tool.TOP / launched.MISTAKE
    status, told = checked(top, mistake, ROBOT, "--rules", RULES)
    yield f"check of a refused document: {told}", (status, told[-2:]), (1, [f"{mistake}: fails: refused 4 (Name)", PASSES])
    old = top / "old.txt"
    old.write_text("old\n")
    for words in ((), ("--reference",)):
        status, told = searched.started(top, "run", mistake, "-o", old, *words)
        yield f"run -o of a refused document {words}: {told}", (status, told.endswith(f"\nrun: {old} stays, and is no transcript of this document\n"), old.read_text()), (1, True, "old\n")
    status, told = searched.started(top, "run", mistake, "-o", top / "none.txt")
    yield f"run -o of a refused document, to no file: {told}", (status, "stays" in told, (top / "none.txt").exists()), (1, False, False)
    yield "a program that crashes", crashed(), (2, True)


def crashed():
    with sandbox.of("cat >/dev/null; kill -KILL $$") as top:
        status, told = checked(top, ROBOT, "--rules", RULES)
        return status, "the program ended with the status -9" in told[0]
