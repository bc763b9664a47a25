"""That the recipes of docs/search.md for many machines give what one search gives: GNU parallel, if it is installed, on this machine,
and the script of a SLURM array with the variables that SLURM sets."""
import os
import shutil
import subprocess

from . import documented, sandbox, searched, tool

WORDS = ("search", "late.json", "--rules", searched.NAVIGATION, "--jitter", "battery", "±2", "--drop", "scan", "--runs", "1000", "--all")


def answers(program):
    parallel, array, merge = documented.blocks(tool.TOP / "docs/search.md", "bash")
    with sandbox.with_program(program) as top:
        searched.write(top)
        should = searched.started(top, *WORDS)
        yield f"the search of one process: {should}", (should[0], "1000 runs" in should[1]), (1, True)
        if shutil.which("parallel"):
            (top / "hosts").write_text(":\n")
            yield "the recipe for parallel", run(top, parallel), should
            yield from of_spaces(top, parallel)
        else:
            tool.UNDONE.append("the recipe for GNU parallel wasn't run: parallel isn't installed")
        for task in range(1, 9):
            own = {"SLURM_ARRAY_TASK_ID": str(task), "SLURM_ARRAY_TASK_COUNT": "8", "SLURM_CPUS_PER_TASK": "2"}
            yield f"the task {task} of an array", run(top, array, **own), (0, "")
        yield "the shards of the array", run(top, merge), should


def of_spaces(top, parallel):
    """The recipe for parallel with a pattern, which has spaces."""
    pattern = "run go result"
    changed = parallel.replace(f"--rules {searched.NAVIGATION}", f"--robust '{pattern}'")
    words = [it for it in WORDS if it not in ("--rules", searched.NAVIGATION)]
    should = searched.started(top, *words, "--robust", pattern)
    yield f"a search with a pattern: {should}", (should[0], f"robust {pattern}\n" in should[1]), (1, True)
    yield "the recipe for parallel with a pattern", run(top, changed), should


def run(top, script, **own):
    """The status of a script in a folder, and what it says. parallel asks for a home of its own."""
    given = {**os.environ, "HOME": str(top), **own}
    ran = subprocess.run(["bash", "-c", script], stdout=subprocess.PIPE, stderr=subprocess.STDOUT, timeout=tool.SECONDS, cwd=top, env=given)
    return ran.returncode, ran.stdout.decode()
