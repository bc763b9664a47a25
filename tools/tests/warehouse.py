"""The five bugs that examples/warehouse.py plants: the robot's own run shows none of them, a search finds each by its rule, and what
shrink leaves breaks that rule until the bug itself is mended in it. docs/search.md has what is found."""
import json
import re

from . import sandbox, searched, tool

RULES = "examples/warehouse.rules"
VARY = ("--twice", "order", "--jitter", "order", "±9", "--jitter", "scale", "±4", "--drop", "scale", "--jitter", "halt", "±30", "--runs", "500")
# Of each bug the line of the rule that finds it; and the parts of a shrunk document with which it is mended, by the names of entities.
BUGS = {
    "race": (2, {"brake": {"script": [["set", "g0", "add", "in", 0]]}, "motor": {"script": [["skip", "g0", 1], ["log", "in"]]}}),
    "depth": (3, {"door": {"depth": 10}}),
    "decide": (4, {"carry": {"on_goal": [["skip", "g0", 2], ["set", "g0", "add", 1, 0], ["decide", 2]]}}),
    "retry": (5, {"carrier": {"on_result": []}}),
    "stale": (6, {"carry": {"script": [["skip", "r0", 2], ["set", "r0", "add", 1, 0], ["set", "g1", "add", 0, 0], ["skip", "g1", 1], ["skip", 1, 1], ["pub", "lift", "g1"]]}}),
}


def answers(program):
    page = (tool.TOP / "docs/search.md").read_text()
    with sandbox.with_program(program) as top:
        held = searched.started(top, "search", "examples/warehouse.json", "--rules", RULES, *VARY)
        yield f"a search of the robot without a bug: {held}", (held[0], held[1].split("\n")[-2]), (0, "500 runs, drawn with the seed 1: no rule breaks")
        for bug, (rule, mend) in BUGS.items():
            yield from of_bug(top, bug, rule, mend, page)


def of_bug(top, bug, rule, mend, page):
    searched.started(top, "write", "examples/warehouse.py", bug, "-o", f"{bug}.json")
    held = of_run(top, f"{bug}.json")
    yield f"{bug}: the robot's own run: {held}", held.endswith("5 hold, 0 fail, 0 undecided\n"), True
    status, found = searched.started(top, "search", f"{bug}.json", "--rules", RULES, *VARY, "--save", bug)
    yield f"{bug}: the rules that find it: {found}", (status, re.findall("rules:([0-9]+):1: breaks: ", found)), (1, [str(rule)])
    status, told = searched.started(top, "shrink", f"{bug}/rule_{rule}.json", "--rules", RULES, "-o", "small.json")
    held = of_run(top, "small.json", "--rule", str(rule))
    yield f"{bug}: what shrink leaves: {told}{held}", (status, "0 hold, 1 fail" in held), (0, True)
    small = json.loads((top / "small.json").read_text())
    for node in small["nodes"]:
        for entities in (it for it in node.values() if isinstance(it, list)):
            for it in entities:
                it.update(mend.get(it["name"], {}))
    (top / "mended.json").write_text(json.dumps(small))
    held = of_run(top, "mended.json", "--rule", str(rule))
    yield f"{bug}: what shrink leaves, mended: {held}", "0 fail" in held, True
    run, change = re.search("run ([0-9]+): (.*)", found).groups() if "\n  change" in found else re.search("run ([0-9]+): ((?:.*\n    and )*.*)", found).groups()
    row = f"| {rule} | {run} | `{change}` | {re.search('([0-9]+) bytes became ([0-9]+)', told)[2]} |".replace("\n    and ", "`, `")
    yield f"{bug}: the row of docs/search.md", re.findall(rf"^\| `{bug}` \|[^|]*(.*)$", page, re.M), [row]


def of_run(top, name, *words):
    """What holds tells of a document's run."""
    searched.started(top, "run", name, "-o", "run.txt")
    return searched.started(top, "holds", "--rules", RULES, *words, "run.txt")[1]
