"""The way back: a document that is written as a program, and again as a document, is the same; and so is a script."""
import json
import pathlib
import tempfile

from virraupez import assembler, cuts, listing

from . import tool

SCRIPTS = (
    ([["skip", "aux", 2], ["log", 1], ["skip", 1, 1], ["log", 2]], "    if aux goto L1\n    log 1\n    goto end\nL1:\n    log 2\n"),
    ([["set", "r0", "sub", -5, -3], ["set", "g1", "max", "in", 0], ["set", "r2", "eq", "r0", 0]], "    r0 = -5 - -3\n    g1 = max(in, 0)\n    r2 = r0 == 0\n"),
    ([["skip", 0, 1], ["yield"], ["skip", "r7", 1], ["skip", 1, 1], ["cancel", "c", "goal-before", 1, "now"]], "    if 0 goto L1\n    yield\nL1:\n    if r7 goto L2\n    goto end\nL2:\n    cancel c goal-before 1 now\n"),
)


def answers(_program):
    for instructions, text in SCRIPTS:
        yield f"the script {instructions}", "".join(f"{line}\n" for line in listing.lines_of(instructions)), text
        yield f"{text!r} assembled", assembler.script(text), instructions
    yield "a script of numbers", tool.run("write", "--back", "--script", "-", given=b"[1]"), (1, "-:1:1: no list of instructions that a script with labels can say\n")
    yield from of_documents()


def of_documents():
    documents = [*sorted((tool.TOP / "examples").glob("*.json")), *(path.with_suffix(".json") for path in sorted((tool.TOP / "cases/run").glob("*.txt")))]
    with tempfile.TemporaryDirectory() as folder:
        program = pathlib.Path(folder) / "it.py"
        for path in documents:
            document = json.loads(path.read_text())
            program.write_text("".join(f"{line}\n" for line in listing.program_of(document)))
            status, text = tool.run("write", program) if path.parent.name == "examples" else (0, made_by(program))
            found = json.loads(text[: text.rindex("}") + 1])
            # Empty lists that may be missing go, and what is fed is sorted by its rounds.
            should = cuts.tidy({**document, "feed": sorted(document.get("feed", []), key=lambda it: it["round"])})
            yield f"{path.name}, back and again", (status, found), (0, should)
    said = {path: listing.lines_of(cuts.part(document, path)) for path in cuts.scripts(document)}
    yield "scripts that can't be said", [path for path, lines in said.items() if lines is None], []
    status, told = tool.within("explain", "--scripts", "examples/robot.json")
    yield "explain --scripts", (status, "nodes[1].subscriptions[0].script of ranges:\n    g0 = in\n    r0 = in < 7\n    if r0 goto L1\n" in told), (0, True)


def made_by(program):
    """The document of a program that is run here."""
    names = {}
    exec(program.read_text().replace("robot.write()", "text = robot.text()"), names)
    return names["text"]
