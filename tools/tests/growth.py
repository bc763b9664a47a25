"""That the work on hostile documents and long rules grows as they do, and not as their square: what is counted are the lines of the tools
that are run, and the characters that are compared, and no seconds."""
import gc
import io
import json
import sys
import tracemalloc
import weakref

from virraupez import alignment, checker, declarations, hints, report, rulebook, rules, transcript

from . import tool

HERE = str(tool.TOOLS / "virraupez")
# The work on twice as much may be this many times as much.
TIMES = 2.4


def node(**fields):
    return {"version": 1, "nodes": [{"name": "n", **fields}]}


# Documents of so many parts: each took time as the square of them.
DOCUMENTS = {
    "entries without a round": lambda count: {"version": 1, "topics": ["x"], "moments": list(range(count)), "feed": [{"topic": "x", "value": 1, "at": count - 2}] * count},
    "services of one name": lambda count: node(services=[{"name": "s"}] * count, clients=[{"name": f"c{at}", "service": "s"} for at in range(count)]),
    "servers of one name": lambda count: node(actions=[{"name": "s"}] * count, action_clients=[{"name": f"c{at}", "action": "s"} for at in range(count)]),
    "unknown groups": lambda count: node(timers=[{"name": f"t{at}", "period": 1, "group": "g"} for at in range(count)], **{f"f{at}": 1 for at in range(count)}),
}


class Fields(dict):
    """An object of a document that counts how often a name of it is taken."""

    taken = 0

    def __iter__(self):
        for name in super().__iter__():
            Fields.taken += 1
            yield name


def steps(work):
    """How many lines of the tools some work runs."""
    count = 0

    def trace(frame, event, _argument):
        nonlocal count
        if not frame.f_code.co_filename.startswith(HERE):
            return None
        count += event == "line"
        return trace

    before = sys.gettrace()
    sys.settrace(trace)
    try:
        work()
    finally:
        sys.settrace(before)
    return count


def answers(_program):
    for name, made in DOCUMENTS.items():
        texts = [json.dumps(made(count)).encode() for count in (300, 600)]
        one, two = (steps(lambda text=text: report.Report(text)) for text in texts)
        yield f"the work on {name}: {one} and {two} lines", two <= TIMES * one, True
    yield from of_fields()
    yield from of_names()
    yield from of_rules()
    yield from of_lines()
    yield from of_alike()
    yield from of_documents()


def of_alike():
    """Lines that repeat are matched only if they are few: each would be compared with all that are the same."""
    many = ["log s 2", *["log s 1", "log s 4"] * 150, "log s 2"]
    other = ["log s 3", *["log s 4", "log s 1"] * 150, "log s 3"]
    yield "lines that repeat often", alignment.changes(many, other), [((0, 302), (0, 302))]


def of_fields():
    """The fields of a node aren't looked through once for each of its entities."""
    counts = []
    for count in (200, 400):
        document = DOCUMENTS["unknown groups"](count)
        document["nodes"][0] = Fields(document["nodes"][0])
        Fields.taken = 0
        list(report.every(document))
        counts.append(Fields.taken)
    yield f"how often a field is taken: {counts}", counts[1] <= TIMES * counts[0], True


def of_names():
    """Of many long names that are near, no more characters are compared than a bound."""
    long = "n" * 50
    topics = [f"{long}{at:04}" for at in range(2000)]
    unknown = [{"name": f"s{at}", "topic": f"{long}x{at}"} for at in range(40)]
    report.Report(json.dumps({**node(subscriptions=unknown), "topics": topics}).encode(), 40)
    yield "what may still be compared", -64 * 40 <= hints.Left.characters <= 0, True
    near = report.Report(json.dumps({**node(subscriptions=[{"name": "s", "topic": "scam"}]), "topics": ["scan"]}).encode())
    yield "the next document has hints", near.entries[0].hint, "did you mean scan?"


def of_rules():
    """A line is held only to the rules of its name, however many there are."""
    text = "".join(f"round {at} {at}\nrun t{at % 50} timer {at} 0\nlog t{at % 50} {at}\n" for at in range(1, 201)) + "end 200\n"
    counts = []
    for count in (50, 400):
        check = checker.Check(rulebook.read("\n".join(f"never log t{at} -{at + 1}" for at in range(count))))

        def work(check=check):
            for block in transcript.checked(io.StringIO(text), "it"):
                check.block(block)

        counts.append(steps(work))
    yield f"the work of 50 and of 400 rules: {counts}", counts[1] <= 1.2 * counts[0], True


def of_documents():
    """Nothing of a document stays when it was reported, as a language server reports many."""
    kept = []
    of = declarations.Declared
    declarations.Declared = lambda document: kept.append(weakref.ref(found := of(document))) or found
    try:
        for make in DOCUMENTS.values():
            report.Report(json.dumps(make(9)).encode())
    finally:
        declarations.Declared = of
    gc.collect()
    yield "what stays of documents", [it() for it in kept], [None] * len(DOCUMENTS)


def of_lines():
    """However long a transcript is, the same is held of it, and each of its lines is as much work."""
    counts = [steps(lambda rounds=rounds: hold(rounds)) for rounds in (500, 2000)]
    yield f"the work of four times as many lines: {counts}", counts[1] <= 4.4 * counts[0], True
    peaks = []
    for rounds in (4000, 16000):
        tracemalloc.start()
        hold(rounds)
        peaks.append(tracemalloc.get_traced_memory()[1])
        tracemalloc.stop()
    yield f"what is held of four times as many lines: {peaks}", peaks[1] <= 1.1 * peaks[0], True


def hold(rounds):
    """Holds a transcript of so many rounds to four rules, of which each is about each round."""
    text = "every pub x V then run y message V within 3 ticks\nnever log y <0\ncount run _ message at least 9\nnever no pub x for 5 rounds\n"
    check = checker.Check(rulebook.read(text))
    for begin in range(1, rounds + 1, 500):
        check.block("".join(f"round {at} {at}\nrun t timer {at} 0\npub x {at}\nrun y message {at - 1} 0\nlog y {at}\n" for at in range(begin, begin + 500)))
    check.block(f"end {rounds}\n")
    check.end()
    assert [rule.outcome() for rule in check.rules] == [rules.UNDECIDED, rules.HOLDS, rules.HOLDS, rules.HOLDS]
