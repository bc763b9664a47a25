"""What runs in other people's repositories and workspaces: the hooks of pre-commit, the action with its problem matcher, the package
for colcon, and what git makes of the ends of lines. The real tools run if they are installed."""
import json
import os
import pathlib
import re
import shutil
import subprocess
import tempfile

from . import installed, tool

FAULT = '{"version": 1, "nodes": [{"name": "n", "timers": [{"name": "t", "period": 0}]}], "moments": [1]}\n'
COLUMN = FAULT.index("0}") + 1
EARLIER = '{"version": 1, "moments": [1, 2]}\n'
# What each program needs of a user's folder is in its own.
GIT = ["git", "-c", "user.name=n", "-c", "user.email=e", "-c", "init.defaultBranch=main"]


def answers(_program):
    with tempfile.TemporaryDirectory() as folder:
        top = pathlib.Path(folder)
        yield from of_lines(top)
        package = tool.TOP / "examples/ament/my_robot/test"
        copies = {it.name: it.read_bytes() for it in package.iterdir() if it.suffix in (".json", ".txt", ".rules")}
        yield "the documents of the package for colcon", copies, {name: (tool.TOP / "examples" / name).read_bytes() for name in ("robot.json", "robot.txt", "robot.rules")}
        yield from of_action(top / "action")
        if not installed.lacks("no hook of pre-commit was run", "pre-commit", "git"):
            yield from of_hooks(top)
        if not installed.lacks("no package was tested by colcon", "colcon", "ament_cmake_pytest", "cmake", "pytest"):
            yield from of_colcon(top)


def ran(words, top, **around):
    """The status of a program, and what it says."""
    known = {"PATH": f"{tool.TOP}:{installed.PATH}", "HOME": str(top), "LC_ALL": "C.UTF-8", **around}
    done = subprocess.run([str(it) for it in words], cwd=top, env=known, stdin=subprocess.DEVNULL, stdout=subprocess.PIPE, stderr=subprocess.STDOUT)
    return done.returncode, done.stdout.decode()


def of_lines(top):
    """A checkout under the settings of Windows has the bytes that are committed."""
    if not (tool.TOP / ".git").exists() or not shutil.which("git"):
        tool.UNDONE.append("no file was checked out anew, for want of a clone")
        return
    to, files = top / "out", subprocess.run(["git", "ls-files", "-z", "examples", "cases", "tools/tests"], cwd=tool.TOP, stdout=subprocess.PIPE).stdout
    index = {**os.environ, "GIT_INDEX_FILE": str(top / "index")}
    subprocess.run(["git", "read-tree", "HEAD"], cwd=tool.TOP, env=index, check=True)
    words = ["git", "-c", "core.autocrlf=true", "checkout-index", "-z", "--stdin", f"--prefix={to}/"]
    subprocess.run(words, cwd=tool.TOP, input=files, env=index, stderr=subprocess.DEVNULL)
    names = [it for it in files.decode().split("\0") if it and (to / it).is_file() and (tool.TOP / it).is_file()]
    with_returns = [it for it in names if b"\r" in (to / it).read_bytes() and b"\r" not in (tool.TOP / it).read_bytes()]
    yield f"{len(names)} files that are checked out with other ends of lines", (with_returns, len(names) > 300), ([], True)


def of_hooks(top):
    """The hooks over a repository of documents; the hooks are in a repository of their own."""
    hooks = installed.source(top / "hooks")
    shutil.copy(tool.TOP / ".pre-commit-hooks.yaml", hooks)
    # Without the sources of the programs nobody could say that they are theirs.
    yield "what is shipped", ran([installed.PYTHON, "release/furnish.py", "tools/virraupez/shipped"], hooks), (0, "")
    documents = top / "documents"
    documents.mkdir()
    for name, text in (("wrong.robot.json", FAULT), ("old.robot.json", EARLIER), ("other.json", "no document\n")):
        (documents / name).write_text(text)
    for repository in (hooks, documents):
        for words in (["init", "-q"], ["add", "-A"], ["commit", "-q", "-m", "first"]):
            yield f"git {words[0]}", ran([*GIT, *words], repository), (0, "")
    status, text = ran(["pre-commit", "try-repo", hooks, "virraupez-explain", "--all-files"], documents)
    yield f"the hook that explains: {text}", (status, f"wrong.robot.json:1:{COLUMN}: refused 5 (Limit)" in text, "other.json" in text), (1, True, False)
    (documents / "wrong.robot.json").unlink()
    status, text = ran(["pre-commit", "try-repo", hooks, "virraupez-upgrade", "--files", "old.robot.json"], documents)
    yield f"the hook that upgrades: {text}", (status, "files were modified by this hook" in text), (1, True)
    yield "what it wrote", json.loads((documents / "old.robot.json").read_text())["version"], 2
    yield "the hook that explains what is right", ran(["pre-commit", "try-repo", hooks, "virraupez-explain", "--files", "old.robot.json"], documents)[0], 0
    yield from of_configuration(hooks, documents)


def of_configuration(hooks, documents):
    """The hook that checks, as a configuration names it with its rules."""
    revision = ran(["git", "rev-parse", "HEAD"], hooks)[1].strip()
    hook = "[{id: virraupez-check, args: [--rules, it.rules]}]"
    (documents / ".pre-commit-config.yaml").write_text(f"repos: [{{repo: {hooks}, rev: {revision}, hooks: {hook}}}]\n")
    for rule, status, part in (("count round 3 _ at most 1", 0, "Passed"), ("never round 2 2", 1, "it.rules:1:1: fails: never round 2 2")):
        (documents / "it.rules").write_text(f"{rule}\n")
        found, text = ran(["pre-commit", "run", "--all-files"], documents)
        yield f"the hook that checks {rule}: {text}", (found, part in text), (status, True)


def of_action(top):
    """The script of the action, as a runner starts it, and what its matchers find in what it says."""
    top.mkdir()
    shutil.copy(tool.TOP / "examples/robot.json", top / "one.robot.json")
    (top / "it.rules").write_text("never drop _\nnever pub base_cmd _\n")
    script = tool.TOP / ".github/check"
    action = (tool.TOP / "action.yml").read_text()
    yield "what the action runs", re.search(r"\$GITHUB_ACTION_PATH/(\S+?)\"'", action)[1], ".github/check"
    taken = set(re.findall(r"\$\{?([A-Z]{3,})\b", script.read_text()))
    yield "what the script takes", taken - set(re.findall(r"^        ([A-Z]+): \$\{\{ inputs\.", action, re.M)), set()
    given = {"DOCUMENTS": "*.robot.json", "RULES": "", "SEARCH": "", "JUNIT": "junit.xml"}
    status, text = ran([script], top, **given)
    yield f"the action without rules: {text}", (status, text.splitlines()[0]), (0, f"::add-matcher::{tool.TOP}/.github/matcher.json")
    status, text = ran([script], top, **{**given, "RULES": "it.rules"})
    yield f"the action: {text}", (status, matched(text), (top / "junit.xml").is_file()), (1, [("virraupez", "it.rules", "2", "1")], True)
    (top / "two.robot.json").write_text(FAULT)
    status, text = ran([script], top, **{**given, "RULES": "it.rules"})
    yield f"the action of a fault: {text}", (status, matched(text)), (1, [("virraupez", "two.robot.json", "1", str(COLUMN))])
    yield "the action of no document", ran([script], top, **{**given, "DOCUMENTS": "*.nothing"})[0], 2


def matched(text):
    """What the problem matchers find: their owners and the places."""
    found = []
    for line in text.splitlines():
        for it in json.loads((tool.TOP / ".github/matcher.json").read_text())["problemMatcher"]:
            pattern = it["pattern"][0]
            at = re.search(pattern["regexp"], line)
            if at:
                found.append((it["owner"], *(at[pattern[name]] for name in ("file", "line", "column"))))
                break
    return found


def of_colcon(top):
    """The package of examples/ament, whose test fails if a rule breaks."""
    workspace = top / "workspace"
    shutil.copytree(tool.TOP / "examples/ament", workspace / "src")
    status, text = ran(["colcon", "build"], workspace)
    yield f"colcon build: {text[-2000:] if status else ''}", status, 0
    rules = workspace / "src/my_robot/test/robot.rules"
    for text, should in (("never drop _\n", "0 failures"), ("never pub base_cmd _\n", "1 failure,")):
        rules.write_text(text)
        ran(["colcon", "test"], workspace)
        status, told = ran(["colcon", "test-result", "--all"], workspace)
        line = next((it for it in told.splitlines() if "behaviour.xunit.xml" in it), told)
        yield f"colcon test-result of {text.strip()}: {told}", should in line, True
