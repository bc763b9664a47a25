"""That each command of docs/tour.md, docs/modelling.md, docs/check.md, docs/search.md and of "run" in docs/tools.md does what its page
shows, run by a shell as it stands there, one after the other in a copy of the repository; and that what the pages show of files is in them."""
import re
import subprocess

from . import documented, sandbox, tool

# The files of which a page shows parts.
SHOWN = {"modelling.md": {"py": "examples/navigation.py", "text": "examples/navigation.rules"}}


def commands(page):
    """The commands of a page in their order, each with the output that it must have: None for that of a script of a shell."""
    for language, block in re.findall(r"^```(text|sh)\n(.*?)^```$", page.read_text(), re.S | re.M):
        if language == "sh":
            yield block, None
        else:
            for part in re.split(r"^\$ ", block, flags=re.M)[1:]:
                command, _, output = part.partition("\n")
                yield command, output


def answers(program):
    for page in documented.WALKED:
        name = page.name
        with sandbox.with_program(program) as top:
            for command, output in commands(page):
                ran = subprocess.run(["bash", "-c", command], stdout=subprocess.PIPE, stderr=subprocess.STDOUT, timeout=tool.SECONDS, cwd=top)
                told = ran.stdout.decode()
                if output is None:
                    yield f"{name}: the script {command}: {told}", ran.returncode, 0
                else:
                    yield f"{name}: {command}", told, output
        for script in (script for script, output in commands(page) if output is None and ("virraupez run" in script or "virraupez check" in script)):
            yield from failing(name, script)
        yield from spoken(page)
        yield from shown(page)


def failing(name, script):
    """A CI job fails if the program refuses, crashes, or writes the transcript of something else."""
    for program in ("echo refused 5 >&2; exit 1", "kill -KILL $$", "echo end 0", "true"):
        with sandbox.of(f"cat >/dev/null; {program}") as top:
            ran = subprocess.run(["bash", "-c", script], stdout=subprocess.PIPE, stderr=subprocess.STDOUT, timeout=tool.SECONDS, cwd=top)
            yield f"{name}: the script beside {program!r}: {ran.stdout.decode()}", ran.returncode in (1, 2), True


def spoken(page):
    """Commands within a text are among those that are run, but for those with a word in capitals, which stands for others."""
    ran = "\n".join(command for command, _ in commands(page))
    for command in re.findall(r"`((?:\./|tools/)[^` ]+ [^`]+)`", re.sub(r"^```.*?^```$", "", page.read_text(), flags=re.S | re.M)):
        yield f"{page.name}: {command} is run", command in ran or bool(re.search(r"\b[A-Z]{4,}\b", command)), True


def shown(page):
    """The parts of a program or of rules that a page shows are in the file."""
    for language, file in SHOWN.get(page.name, {}).items():
        text = (tool.TOP / file).read_text()
        parts = [block for block in documented.blocks(page, language) if language == "py" or block.startswith("# ")]
        yield f"{page.name} shows {file}", bool(parts), True
        for part in parts:
            yield f"{page.name} shows of {file}: {part}", part in text, True
