"""What `import virraupez` offers: documents that are run, held to rules and searched; the page, and its examples under pytest, with
hypothesis, and as a notebook."""
import json
import os
import re
import subprocess
import sys
import typing

import virraupez

from . import installed, sandbox, tool

ROBOT = tool.TOP / "examples/robot.json"
TEXT = (tool.TOP / "examples/robot.txt").read_text()
PYTHON = tool.TOP / "examples/python"


def answers(program):
    yield "the names of the module", sorted(it for it in virraupez.__all__ if getattr(virraupez, it, None) is None), []
    yield from of_runs()
    yield from of_rules()
    yield from of_searches()
    yield from of_types()
    with sandbox.with_program(program) as top:
        yield from of_examples(top)


def of_runs():
    value = json.loads(ROBOT.read_text())
    for what, given in (("a file", ROBOT), ("a text", ROBOT.read_text()), ("bytes", ROBOT.read_bytes()), ("values", value)):
        ran = virraupez.run(given, reference=True)
        yield f"a run of {what}", (str(ran), ran.lines, ran == virraupez.Transcript(TEXT), ran.document), (TEXT, TEXT.splitlines(), True, value)
    robot = virraupez.Document(topics=["x"])
    robot.node("n").timer("t", period=10, script="log now")
    robot.when_due(until=10)
    yield "a run of a document of the module", virraupez.Executor(reference=True).run(robot).lines, ["round 1 10", "run t timer 10 0", "log t 10", "end 1"]
    yield "a picture in a notebook", virraupez.run(ROBOT, reference=True)._repr_svg_().startswith("<svg"), True
    yield "a notebook of a transcript alone", virraupez.Transcript(TEXT)._repr_svg_(), None
    for given, code, part in (('{"version":3}', 3, "the document:1:12: refused 3 (Version)"), (b"{", 1, "refused 1 (NotJson)")):
        yield f"a document that is refused: {given}", raised(virraupez.Refused, virraupez.run, given, reference=True), (code, True, part)


def raised(kind, call, *given, **more):
    """The code of what a call raises, whether it is of a kind, and the part of it that is wanted."""
    try:
        call(*given, **more)
    except Exception as wrong:
        return getattr(wrong, "code", None), isinstance(wrong, kind), next((part for part in PARTS if part in str(wrong)), str(wrong))
    return None


PARTS = ("the document:1:12: refused 3 (Version)", "refused 1 (NotJson)", "the rules:1:1: no rule", "the document declares no 'nothing'", "no topic or action server")


def of_rules():
    ran = virraupez.run(ROBOT, reference=True)
    verdict = virraupez.holds(tool.TOP / "examples/robot.rules", ran)
    yield "the rules of the robot", (bool(verdict), {it.outcome for it in verdict.rules}), (True, {"holds"})
    verdict = virraupez.holds("never drop _\nnever pub base_cmd 0\nsome log _ 99999", TEXT)
    first = TEXT.splitlines().index("pub base_cmd 0") + 1
    yield "rules that fail", (bool(verdict), [(it.outcome, it.line) for it in verdict.rules][:2], verdict.rules[2].outcome), (False, [("holds", None), ("fails", first)], "fails")
    yield "what a verdict says", str(verdict).splitlines()[1].startswith("fails: never pub base_cmd 0 (line "), True
    yield "a rule about nothing", bool(virraupez.holds("every log _ 99999 then log _ 1", TEXT)), True
    yield "a rule that is none", raised(virraupez.Trouble, virraupez.holds, "nevr drop", TEXT), (None, True, "the rules:1:1: no rule")
    yield "a name that the document hasn't", raised(virraupez.Trouble, virraupez.holds, "never pub nothing _", ran), (None, True, "the document declares no 'nothing'")
    yield "a transcript that is cut off", raised(virraupez.Trouble, virraupez.holds, "never drop _", TEXT[:-9])[1], True


def of_searches():
    vary = [("jitter", "e_stop", "±2")]
    found = virraupez.search(ROBOT, "never drop _", vary, reference=True)
    yield "a search", (bool(found), found.is_whole, found.breaks, found.runs), (True, True, (), 5)
    found = virraupez.search(ROBOT, "never drop _\nnever pub base_cmd 0\n", vary, all=True, reference=True)
    rules = {it.rule for it in found.breaks}
    yield f"a search that finds something: {found}", (bool(found), rules, found.report == str(found)), (False, {"never pub base_cmd 0"}, True)
    again = virraupez.holds(found.breaks[-1].rule, virraupez.run(found.breaks[-1].document, reference=True))
    yield "the document that it found", bool(again), False
    told = tool.within("search", ROBOT, "--rules", tool.TOP / "examples/robot.rules", "--jitter", "e_stop", "±2", "--reference", "--all")[1]
    yield "what the command says", str(virraupez.search(ROBOT, tool.TOP / "examples/robot.rules", vary, all=True, reference=True)), told.rstrip("\n")
    yield "a search of what isn't fed", raised(virraupez.Trouble, virraupez.search, ROBOT, "never drop _", [("drop", "nothing")], reference=True), (None, True, "no topic or action server")
    yield "a search of a refused document", raised(virraupez.Refused, virraupez.search, '{"version":3}', "never drop _", vary)[:2], (3, True)


def of_types():
    """Each call says its types, which can be resolved."""
    for name in ("run", "holds", "search"):
        found = typing.get_type_hints(getattr(virraupez, name))
        yield f"the types of {name}", found["return"].__name__, {"run": "Transcript", "holds": "Verdict", "search": "Search"}[name]
    yield "that types are checked", (tool.TOOLS / "virraupez/py.typed").is_file(), True


def of_examples(top):
    """The page and the notebook, run in a folder of their own; and what pytest says of the examples, if it is installed."""
    page = (tool.TOP / "docs/python.md").read_text()
    for number, code in enumerate(re.findall("```py\n(.*?)```", page, re.S)):
        yield f"the page's code {number}", python(top, code), (0, "")
    notebook = json.loads((PYTHON / "robot.ipynb").read_text())
    code = "\n".join("".join(cell["source"]) for cell in notebook["cells"] if cell["cell_type"] == "code")
    status, told = python(top / "examples/python", code)
    yield f"the notebook: {told}", (status, "7 of 7 runs" in told or "break" in told), (0, True)
    yield "what the notebook keeps of runs", [cell["outputs"] for cell in notebook["cells"] if cell.get("outputs")], []
    for name, needs in (("test_robot.py", ("pytest",)), ("test_drawn.py", ("pytest", "hypothesis"))):
        if not installed.lacks(f"{name} wasn't run", *needs):
            words = [installed.PYTHON, "-m", "pytest", "-q", "-p", "no:cacheprovider", name]
            ran = subprocess.run(words, cwd=top / "examples/python", env=around(top), stdout=subprocess.PIPE, stderr=subprocess.STDOUT)
            yield f"pytest {name}: {ran.stdout.decode()}", ran.returncode, 0


def around(top):
    return {**os.environ, "PYTHONPATH": str(top / "tools"), "PYTHONDONTWRITEBYTECODE": "1", "HOME": str(top)}


def python(folder, code):
    top = next(it for it in (folder, *folder.parents) if (it / "tools").is_dir())
    ran = subprocess.run([sys.executable, "-c", code], cwd=folder, env=around(top), stdout=subprocess.PIPE, stderr=subprocess.STDOUT)
    return ran.returncode, ran.stdout.decode()
