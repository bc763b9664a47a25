"""What ./virraupez does: its commands, the run of a document, completion, and the manual page."""
import json
import os
import re
import resource
import shutil
import subprocess
import sys

from virraupez import commands

from . import sandbox, tool

COMMAND = "../virraupez"
MISTAKE = "tools/tests/mistakes/a_topic_with_a_typo.json"
# Words in bash, with what completes them.
COMPLETED = (
    (("virraupez", "ex"), ["explain"]),
    (("virraupez", "--v"), ["--version"]),
    (("virraupez", "run", "--w"), ["--workers"]),
    (("virraupez", "search", "--jit"), ["--jitter"]),
    (("virraupez", "run", "examples/ti"), []),
    (("virraupez", "completion", ""), ["bash", "zsh"]),
    (("virraupez", "completion", "--he"), ["--help"]),
    (("virraupez", "help", "ho"), ["holds"]),
)
# Programs of the shell in the place of ./exec_run, with the status of `run` and a part of what it says.
STAND_INS = (
    ("cat >/dev/null; echo end 0", 0, "end 0\n"),
    ("exit 70", 2, "virraupez run: the program ended with the status 70: there is no transcript\n"),
    ("cat >/dev/null; echo write failed >&2; exit 3", 2, "the program ended with the status 3"),
    ("cat >/dev/null; echo refused 10 >&2; exit 1", 1, "refused 10\n"),
    ("cat >/dev/null; kill -KILL $$", 2, "the program ended with the status -9"),
    ('cat >/dev/null; echo "$1 $2"', 0, "3 200\n"),
)
SECOND = 1.0


def answers(program):
    yield from of_words()
    yield from of_faults()
    yield from of_reference()
    yield from of_warnings()
    yield from of_machines()
    with sandbox.with_program(program) as top:
        yield from of_program(top)
    for script, status, part in STAND_INS:
        with sandbox.of(script) as top:
            found, text = started(top, "run", "--workers=3", "--quantum=200", "examples/timer.json")
            yield f"run by {script!r}: {text}", (found, part in text), (status, True)
    yield from of_streams()
    yield from of_completion()
    yield from of_manual()


def started(top, *words, given=None):
    """The status of ./virraupez in a folder, and what it says."""
    ran = subprocess.run([sys.executable, top / "virraupez", *words], input=given, stdout=subprocess.PIPE, stderr=subprocess.STDOUT, timeout=tool.SECONDS, cwd=top)
    return ran.returncode, ran.stdout.decode()


def of_words():
    for name in commands.NAMES:
        status, text = tool.run(COMMAND, name, "--help")
        yield f"virraupez {name} --help", (status, text.startswith(f"usage: virraupez {name} [-h]")), (0, True)
        yield f"virraupez help {name}", tool.run(COMMAND, "help", name), (status, text)
    for words in (("--help",), ("-h",), ("help",)):
        status, text = tool.run(COMMAND, *words)
        rows = text.partition("commands:\n")[2].partition("\n\n")[0]
        found = re.findall(r"^  (\w+) +\S", rows, re.M)
        yield f"virraupez {words}", (status, tuple(found), max(map(len, rows.split("\n"))) < 80), (0, commands.NAMES, True)
    yield "virraupez --version", tool.run(COMMAND, "--version"), (0, f"virraupez {(tool.TOP / 'VERSION').read_text()}")
    for words, part in (((), "required: COMMAND"), (("explian",), "did you mean explain?"), (("--explain",), "error: "), (("run",), "required: DOCUMENT")):
        status, text = tool.run(COMMAND, *words)
        yield f"virraupez {words}: {text}", (status, part in text), (2, True)
    for words in (("--workers", "0"), ("--workers", "65"), ("--quantum", "1025"), ("--workers", "²"), ("--quantum", "x")):
        status, text = tool.run(COMMAND, "run", *words, "examples/timer.json")
        yield f"virraupez run {words}: {text}", (status, f"and not '{words[1]}'" in text), (2, True)


def of_faults():
    """A fault of a tool itself has the status 2, since 1 says that something was found. Ctrl-C while modules are read has 130."""
    with sandbox.of("exit 70") as top:
        (top / "tools/virraupez/commands/schema.py").write_text("from .explain import parser\n\n\ndef run(asked, out):\n    return asked.nothing\n")
        status, text = started(top, "schema", "examples/timer.json")
        yield f"a fault of a tool: {text}", (status, "AttributeError" in text), (2, True)
        (top / "tools/virraupez/launcher.py").write_text("raise KeyboardInterrupt\n")
        yield "Ctrl-C at once", started(top, "schema"), (130, "")


# One line of run says what explain would warn of.
WARNING = re.compile(r"\S+:[0-9]+:[0-9]+: [0-9]+ warnings?, the first of .*\n$")


def unwarned(found):
    """What a run says, without what explain would warn of."""
    return found[0], WARNING.sub("", found[1])


def of_warnings():
    """What explain would warn of is said once, behind the transcript."""
    for name, says in (
        ("examples/empty.json", "examples/empty.json:1:1: 1 warning, the first of moments: there are no `moments`: no round is run\n"),
        ("cases/order/of_version_1.json", "cases/order/of_version_1.json:1:14: "),
        ("examples/timer.json", None),
    ):
        told = tool.within("run", "--reference", name)[1]
        found = WARNING.search(told)
        yield f"what run says of {name}: {told}", bool(found) and found[0].startswith(says) if says else found, True if says else None
    for words, status in (((), 0), (("--warnings-are-errors",), 1)):
        yield f"explain {words} of a warning", tool.within("explain", *words, "examples/empty.json")[0], status
    yield "explain --warnings-are-errors of no warning", tool.within("explain", "--warnings-are-errors", "examples/timer.json")[0], 0


def of_reference():
    """The executor in Python gives the transcripts of the examples, and says that it isn't the program."""
    says = "run: this is the transcript of the executor in Python, and not of the proved program\n"
    for document in sorted((tool.TOP / "examples").glob("*.json")):
        should = document.with_suffix(".txt").read_text() + says
        yield f"run --reference {document.name}", unwarned(tool.run(COMMAND, "run", "--reference", document)), (0, should)
    for document in sorted((tool.TOP / "cases/arrival").glob("*.json")):
        should = document.with_suffix(".txt").read_text() + says
        yield f"run --reference {document.name}", unwarned(tool.within("run", "--reference", document)), (0, should)
    given = (tool.TOP / "examples/timer.json").read_bytes()
    yield "run --reference -", tool.run(COMMAND, "run", "--reference", "-", given=given)[1], (tool.TOP / "examples/timer.txt").read_text() + says
    yield "run --reference of a refused document", tool.run(COMMAND, "run", "--reference", MISTAKE), (1, f"refused 4\n{tool.run('explain', MISTAKE)[1]}")
    yield "run of no file", tool.run(COMMAND, "run", "nowhere.json"), (2, "virraupez run: nowhere.json: No such file or directory\n")
    much = tool.run(COMMAND, "run", "--reference", "-", given=b'{"version":1}'.ljust(2**24 + 1))
    yield "run of much", much, (2, "virraupez run: standard input: more than 16777216 bytes; the program reads no longer document\n")
    begun = processor_seconds()
    tool.run(COMMAND, "run", "--reference", "examples/timer.json")
    seconds = processor_seconds() - begun
    yield f"run --reference takes {seconds} s", seconds < SECOND, True


def processor_seconds():
    """What programs that have ended took of processors: a clock would say what else runs on the machine."""
    used = resource.getrusage(resource.RUSAGE_CHILDREN)
    return used.ru_utime + used.ru_stime


def of_machines():
    """On another machine the executor in Python is offered, and runs."""
    for system, machine in (("Linux", "aarch64"), ("Darwin", "x86_64")):
        head = f"import platform, sys; sys.path.insert(0, 'tools'); platform.system = lambda: {system!r}; platform.machine = lambda: {machine!r}"
        for words, status, part in ((["run"], 2, "--reference runs the document"), (["run", "--reference"], 0, "end 4\n")):
            code = f"{head}; from virraupez import launcher; sys.exit(launcher.main({[*words, 'examples/timer.json']!r}))"
            ran = subprocess.run([sys.executable, "-B", "-c", code], stdout=subprocess.PIPE, stderr=subprocess.STDOUT, cwd=tool.TOP)
            text = ran.stdout.decode()
            yield f"{words} on {system} and {machine}: {text}", (ran.returncode, part in text), (status, True)


def of_program(top):
    """The program gives the transcripts of the examples, whatever the workers."""
    for document in sorted((tool.TOP / "examples").glob("*.json")):
        should = 0, document.with_suffix(".txt").read_text()
        yield f"run {document.name}", unwarned(started(top, "run", f"examples/{document.name}", "--workers", "4", "--quantum", "3")), should
    given = (tool.TOP / "examples/timer.json").read_bytes()
    yield "run -", started(top, "run", "-", given=given), (0, (tool.TOP / "examples/timer.txt").read_text())
    status = started(top, "run", "-o", "kept.txt", "examples/timer.json")
    yield "run -o", (status, (top / "kept.txt").read_text()), ((0, ""), (tool.TOP / "examples/timer.txt").read_text())
    status, text = started(top, "run", "-o", "kept.txt", "-", given=b'{"version":3}')
    yield f"run of a refused document: {text}", (status, text.split("\n")[:2]), (1, ["refused 3", "-:1:12: refused 3 (Version): version"])
    yield "run -o of a refused document", (top / "kept.txt").read_text(), (tool.TOP / "examples/timer.txt").read_text()


def of_streams():
    """A stream that fails is one line, with status 2."""
    for words in (("run", "--reference", "examples/robot.json"), ("completion", "bash"), ("manual",), ("--help",), ("--version",)):
        with open("/dev/full", "w") as full:
            ran = subprocess.run([sys.executable, tool.TOP / "virraupez", *words], stdout=full, stderr=subprocess.PIPE, cwd=tool.TOP)
        told = [line for line in ran.stderr.decode().splitlines() if not line.startswith("run: ")]
        yield f"virraupez {words} on a full disk: {told}", (ran.returncode, len(told), "No space left" in told[-1]), (2, 1, True)
    with sandbox.of("cat >/dev/null; trap '' PIPE; yes 'log a 1' 2>/dev/null || { echo write failed >&2; exit 3; }") as top:
        read, write = os.pipe()
        os.close(read)
        ran = subprocess.run([sys.executable, top / "virraupez", "run", "examples/timer.json"], stdout=write, stderr=subprocess.PIPE, timeout=tool.SECONDS)
        os.close(write)
        yield f"run into a broken pipe: {ran.stderr}", (ran.returncode, ran.stderr.count(b"\n"), b"Broken pipe" in ran.stderr), (2, 1, True)


def of_completion():
    for shell in ("bash", "zsh"):
        status, text = tool.run(COMMAND, "completion", shell)
        missing = [name for name in commands.NAMES if name not in text]
        yield f"completion {shell}", (status, missing), (0, [])
        if shutil.which(shell):
            ran = subprocess.run([shell, "-n"], input=text.encode(), stdout=subprocess.PIPE, stderr=subprocess.STDOUT)
            yield f"the syntax of completion {shell}", (ran.returncode, ran.stdout), (0, b"")
    yield "completion of no shell", tool.run(COMMAND, "completion", "fish")[0], 2
    text = tool.run(COMMAND, "completion", "bash")[1]
    for words, should in COMPLETED:
        asked = f"COMP_WORDS=({' '.join(json.dumps(word) for word in words)}); COMP_CWORD={len(words) - 1}; _virraupez; printf '%s\\n' ${{COMPREPLY[@]}}"
        ran = subprocess.run(["bash", "-c", f"{text}\n{asked}"], stdout=subprocess.PIPE, stderr=subprocess.STDOUT)
        yield f"bash completes {words}", ran.stdout.decode().split(), should


def of_manual():
    page = tool.TOP / "docs/virraupez.1"
    yield "docs/virraupez.1, which `./virraupez manual -o docs/virraupez.1` writes anew", tool.run(COMMAND, "manual"), (0, page.read_text())
    if shutil.which("groff"):
        ran = subprocess.run(["groff", "-man", "-ww", "-z", page], stdout=subprocess.PIPE, stderr=subprocess.STDOUT)
        yield "what groff says of docs/virraupez.1", (ran.returncode, ran.stdout.decode()), (0, "")
