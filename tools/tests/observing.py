"""What observe reads of a trace or a table, and what diff says of it beside a run."""
import json
import pathlib
import subprocess
import tempfile

from . import installed, tool

MS = 1000000
NAMES = ("--name", "N::on_t()=t", "--name", "/x=s", "--name", "/add=add")
DOCUMENT = {
    "version": 2,
    "order": "kind",
    "topics": ["x"],
    "nodes": [{"name": "n", "timers": [{"name": "t", "period": 10, "script": [["log", "now"]]}], "subscriptions": [{"name": "s", "topic": "x", "script": [["log", "in"]]}], "services": [{"name": "add", "script": [["reply", 1]]}], "clients": [{"name": "c", "service": "add"}]}],
    "moments": [10, 12, 20, 23, 30],
    "feed": [{"round": 2, "topic": "x", "value": 1}, {"round": 3, "topic": "x", "value": 2}],
}
SEEN = ["round 1 10", "run t timer", "round 2 12", "run s message", "round 3 20", "run s message", "run t timer", "round 4 23", "run add request", "round 5 30", "run t timer"]
# What the trace of ctf_trace.py has, as a table.
ROUNDS = ((10, ["timer,N::on_t()"]), (12, ["message,/x"]), (20, ["message,/x", "timer,N::on_t()"]), (23, ["request,/add"]), (30, ["timer,N::on_t()"]))


def table():
    rows = ["time,kind,name"]
    for at, callbacks in ROUNDS:
        rows.append(f"{at * MS - 1000},wait,")
        rows += [f"{at * MS + place * 50000},{it}" for place, it in enumerate(callbacks)]
    return "\n".join(rows) + "\n"


def answers(_program):
    with tempfile.TemporaryDirectory() as folder:
        top = pathlib.Path(folder)
        (top / "table.csv").write_text(table())
        (top / "it.json").write_text(json.dumps(DOCUMENT))
        yield from of_table(top)
        yield from of_wrong(top)
        if not installed.lacks("no trace in CTF was read", "bt2"):
            yield from of_trace(top)


def of_table(top):
    words = (top / "table.csv", *NAMES, "--begin", "10")
    yield "what is observed", tool.within("observe", *words), (0, "\n".join(SEEN) + "\n")
    other = tool.within("observe", *words[:-2], "--tick", "2ms")[1].splitlines()
    yield "moments of other ticks", [it for it in other if it.startswith("round")], ["round 1 0", "round 2 1", "round 3 5", "round 4 7", "round 5 10"]
    late = {**DOCUMENT, "moments": [1, 2, 3, 4, 5]}
    with tool.file(json.dumps(late)) as name:
        status, told = tool.within("observe", *words, "--document", name)
        yield "the document's moments", (status, json.loads(told)), (0, {**DOCUMENT})
    ran = tool.within("run", "--reference", top / "it.json")[1].partition("run: ")[0]
    (top / "it.txt").write_text(ran)
    status, told = tool.within("observe", *words, "--transcript", top / "it.txt")
    (top / "observed.txt").write_text(told)
    should = ["round 3 20", "run s message 2 0", "log s 2", "run t timer 20 0", "log t 20", "round 4 23", "run add request 0 0", "round 5 30"]
    yield f"the transcript as it was observed: {told}", (status, told.splitlines()[6:14]), (0, should)
    status, told = tool.within("diff", top / "it.txt", top / "observed.txt", "--document", top / "it.json")
    yield f"what diff says of it: {told}", (status, "round 3 at moment 20" in told, "isn't a run of" in told), (1, True, True)
    same = tool.within("observe", *words, "--transcript", top / "observed.txt")
    yield "what was observed, as it was observed", same, (0, (top / "observed.txt").read_text())


def of_wrong(top):
    for name, given, words, part in (
        ("no_name", table(), NAMES[2:], "N::on_t(): --name 'N::on_t()=ENTITY' says which entity of the document that is"),
        ("no_columns", "a,b\n1,2\n", NAMES, ":1:1: no table of callbacks: its first line has the columns time, kind, name"),
        ("no_time", "time,kind,name\n-5,timer,t\n", (), ":2:1: a time in nanoseconds"),
        ("no_kind", "time,kind,name\n5,tamer,t\n", (), "and not '5' and 'tamer'"),
        ("nothing", "time,kind,name\n5,wait,\n", (), "no callback was run"),
        ("no_entity", table(), ("--name", "/x"), "WHAT=ENTITY is wanted, and not '/x'"),
    ):
        path = top / f"{name}.csv"
        path.write_text(given)
        status, told = tool.within("observe", path, *words)
        yield f"observe of {name}: {told}", (status, part in told, "Traceback" in told), (2, True, False)


def of_trace(top):
    """A trace in CTF gives what the table gives, and one of several threads asks for one of them."""
    command = [installed.PYTHON, "-B", tool.TOP / "virraupez", "observe"]
    for threads in (1, 2):
        subprocess.run([installed.PYTHON, tool.TESTS / "ctf_trace.py", top / str(threads), str(threads)], check=True, stdout=subprocess.DEVNULL)
    ran = subprocess.run([*command, top / "1", *NAMES, "--begin", "10"], stdout=subprocess.PIPE, stderr=subprocess.STDOUT)
    yield "what is observed in a trace", (ran.returncode, ran.stdout.decode().splitlines()), (0, SEEN)
    ran = subprocess.run([*command, top / "2", *NAMES], stdout=subprocess.PIPE, stderr=subprocess.STDOUT)
    yield f"a trace of two threads: {ran.stdout}", (ran.returncode, b"several threads run callbacks: --thread takes one of 7, 8" in ran.stdout), (2, True)
    ran = subprocess.run([*command, top / "2", *NAMES, "--thread", "8"], stdout=subprocess.PIPE, stderr=subprocess.STDOUT)
    yield "one of its threads", (ran.returncode, [it for it in ran.stdout.decode().splitlines() if it[:3] == "run"]), (0, ["run add request"])
    (top / "empty").mkdir()
    ran = subprocess.run([*command, top / "empty"], stdout=subprocess.PIPE, stderr=subprocess.STDOUT)
    yield f"a folder that is no trace: {ran.stdout}", (ran.returncode, ran.stdout.count(b"Traceback")), (2, 0)
