"""That a search which ends with the first run that breaks a rule reports as few of its changes as break the rule too."""
import json
import pathlib
import tempfile

from virraupez import searching

from . import tool

ENTRIES = 12
DOCUMENT = {
    "version": 1,
    "topics": ["x"],
    "nodes": [{"name": "n", "subscriptions": [{"name": "s", "topic": "x", "depth": 20, "script": [["log", "in"]]}]}],
    "moments": list(range(ENTRIES + 4)),
    "feed": [{"round": at + 1, "topic": "x", "value": at + 1} for at in range(ENTRIES)],
}
# Rules that break if two entries are missing, one, or three; and how many changes are reported of each.
RULES = (("count log s 3|7 at least 1", 2), ("some log s 5", 1), ("count log s 1|2|12 at least 1", 3))


def answers(_program):
    with tempfile.TemporaryDirectory() as folder:
        top = pathlib.Path(folder)
        (top / "it.json").write_text(json.dumps(DOCUMENT))
        for rule, count in RULES:
            yield from of_rule(top, rule, count)
    yield from of_parts()


def of_rule(top, rule, count):
    (top / "it.rules").write_text(f"{rule}\n")
    words = [top / "it.json", "--rules", top / "it.rules", "--drop", "x", "--runs", "500", "--seed", "2", "--reference"]
    status, told = tool.within("search", *words, "--save", top / "saved")
    lines = told.splitlines()
    changes = [line for line in lines if line.endswith("is dropped")]
    yield f"the changes that break {rule}: {told}", (status, len(changes)), (1, count)
    many = json.loads(next((top / "saved").glob("run_*.json")).read_text())
    least = json.loads((top / "saved/rule_1.json").read_text())
    dropped = [ENTRIES - len(it["feed"]) for it in (many, least)]
    of = f"{count} of the {dropped[0]} changes of run " if dropped[0] > count else "change, run "
    yield f"how they are reported: {told}", (lines[1].strip().startswith(of), dropped[1]), (True, count)
    shards = [top / "one.jsonl", top / "other.jsonl"]
    for number, shard in enumerate(shards, 1):
        shard.write_text(tool.within("search", *words, "--shard", f"{number}/2")[1])
    yield f"what shards report of {rule}", tool.within("search", "--merge", "--reference", *shards), (1, told.partition("search: ")[0])
    for file in (top / "saved").iterdir():
        file.unlink()


def of_parts():
    """How many changes are left, and in how many runs, if some of many are needed; and that what is always there stays."""
    for many, needed in ((26, {3, 20}), (40, {0}), (5, {0, 1, 2, 3, 4}), (26, {7})):
        runs = []
        taken = [(at, 1) for at in range(many)]
        kept = [taken]

        def still(some):
            runs.append(some)
            if needed <= {at for at, _ in some}:
                kept.append(some)
            return kept[-1] is some

        searching.fewest(taken, frozenset([many - 1]), still)
        should = needed | {many - 1}
        yield f"which of {many} changes are left", ({at for at, _ in kept[-1]}, len(runs) <= searching.REDUCING), (should, True)
