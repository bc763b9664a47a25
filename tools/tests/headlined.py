"""That docs/HEADLINE.md is what the sources give, and that `tools/headline --check` reports a small change of what the headline
reaches: each is made in a copy of the definitions and the code. What the headline doesn't reach may change, if no line moves."""
import contextlib
import pathlib
import re
import shutil
import tempfile

from . import tool

LEFT_OUT = shutil.ignore_patterns("proofs", "must-fail", "caught", "refused", "tests", "out")
PAGE = tool.TOP / "docs/HEADLINE.md"
REFUSALS, TIMER = "crates/exec_doc/specs/Refusals.antt", "crates/exec_msg/specs/Timer.antt"
USES = ("refusal_of bytes = refusal_in (document_value bytes)", "refusal_of bytes = let least = {} in refusal_in (document_value bytes)")
# What headline says of one line that differs, and no other.
ALONE = r"\A--- .*\n\+\+\+ .*\n@@ -\d+ \+\d+ @@\n-.*\n\+.*\ndocs/"
# What is changed: in which file, what becomes what, the status, and what the tool must say of it.
CHANGES = (
    ("nothing", TIMER, ("", ""), 0, "1 passed, 0 failed"),
    ("a value", "crates/exec_msg/specs/Goal.antt", ("status.Aborted = 6", "status.Aborted = 7"), 1, r"^\+.*status_number status.Aborted = 7$"),
    ("a comment", TIMER, ("-- a timer is due where", "-- a timer is due if"), 1, r"^\+.*-- a timer is due if"),
    ("a line before", TIMER, ("-- a timer is due where", "\n-- a timer is due where"), 1, r"^\+16  abbrev pub is_due"),
    ("one that is renamed", TIMER, ("is_due", "is_called"), 2, "Rattle.exec_msg.specs.Timer has no is_due"),
    ("one that is renamed everywhere", None, ("is_due", "is_called"), 1, r"^\+.*abbrev pub is_called : TimerState"),
    ("one that is used newly", REFUSALS, (USES[0], USES[1].format("refused_number")), 1, r"^\+.*abbrev pub refused_number : Refused"),
    ("a variable of that name", REFUSALS, (USES[0], USES[1].format("(λ refused_number. refused_number)")), 1, ALONE),
    ("one of the toolchain's", REFUSALS, (USES[0], USES[1].format("length")), 1, r"^\+.*let least = length"),
    ("one that nothing names", REFUSALS, (USES[0], USES[1].format("nothing_here")), 2, "nothing says what nothing_here is in refusal_of"),
    ("one that isn't used any more", REFUSALS, ("not (is_clocked document)", "false"), 1, r"^-.*abbrev pub is_clocked : DocumentDraft"),
    ("a variant", "crates/exec_msg/src/kind.rt", ("    Ask,\n", "    Request2,\n"), 1, r"^\+.*    Request2,$"),
    ("a value of a model", "crates/exec_msg/src/elements.rt", ("ghost Value = { List T }", "ghost Value = { T }"), 1, r"^\+.*ghost Value = \{ T \}"),
    ("a limit", "crates/exec_msg/src/limits.rt", ("GOALS: usize = 1_024", "GOALS: usize = 1_025"), 1, r"^\+.*GOALS: usize = 1_025;$"),
    ("a clause", "crates/exec_round/src/running.rt", ("ensures text { IfOk", "ensures text { IfErr"), 1, r"^\+    ensures text \{ IfErr"),
    ("how a value is given", "crates/exec_msg/src/elements.rt", ("λ list. list.items.items", "λ list. []"), 0, "1 passed, 0 failed"),
    ("one that isn't reached", REFUSALS, ("refused.Version = 3", "refused.Version = 4"), 0, "1 passed, 0 failed"),
)


@contextlib.contextmanager
def copied():
    """A copy of what the page is made from, and of the page."""
    with tempfile.TemporaryDirectory() as folder:
        top = pathlib.Path(folder)
        shutil.copytree(tool.TOP / "crates", top / "crates", ignore=LEFT_OUT)
        (top / "docs").mkdir()
        for name in ("crates.txt", "docs/HEADLINE.md"):
            shutil.copy2(tool.TOP / name, top / name)
        yield top


@contextlib.contextmanager
def changed(top, file, old, new):
    """The copy with a word that is another one in a file, or in all. Afterwards it is mended."""
    files = [top / file] if file else [path for path in (top / "crates").rglob("*") if path.suffix in (".antt", ".rt")]
    texts = {path: path.read_text() for path in files}
    for path, text in texts.items():
        path.write_text(text.replace(old, new) if old else text)
    try:
        yield any(old in text for text in texts.values())
    finally:
        for path, text in texts.items():
            path.write_text(text)


def answers(_program):
    with copied() as top:
        for what, file, (old, new), status, says in CHANGES:
            with changed(top, file, old, new) as there:
                found, told = tool.run("headline", "--check", top)
                yield f"{what} is there to be changed", there, True
                yield f"headline where {what} is changed: {told}", (found, bool(re.search(says, told, re.M))), (status, True)
                yield f"the last line where {what} is changed", "1 passed, 0 failed\n" in told, status == 0
        (top / "docs/HEADLINE.md").unlink()
        yield "headline without a page", tool.run("headline", "--check", top)[0], 1
    yield "a word that headline doesn't know", tool.run("headline", "--cheek")[0], 1
    yield from printed()
    yield "what the page's definitions name and the page lacks", sorted(unlisted()), []


def printed():
    """Each line of the page is the line of its number in its file, but that of a type with a model; and what the page counts is on it."""
    counts = re.search(r"^(.*) definitions in (.*) files of .*: (.*) lines\. They read .* in (.*) files of .*: (.*) lines\. .* (.*) lines more\.$", PAGE.read_text(), re.M)
    definitions, specs, body, sources, types, comments = (int(it.replace(",", "")) for it in counts.groups())
    lines, starts = set(), 0
    for file, block in blocks():
        there = (tool.TOP / file).read_text().split("\n")
        shown = [(int(number), text) for number, text in re.findall(r"^ *(\d+)  (.*)$", block, re.M)]
        lines |= {(file, number) for number, _ in shown}
        starts += sum(bool(re.match("abbrev |unfoldable |pub record |pub data ", text)) for _, text in shown if file.endswith(".antt"))
        yield f"lines of {file}", [it for it in shown if it[1] != there[it[0] - 1] and not it[1].endswith(" { .. }")], []
    yield "the definitions that the page counts", starts, definitions
    files = {file for file, _ in lines}
    yield "the files that the page counts", ([len([it for it in files if f"/{folder}/" in it]) for folder in ("specs", "src")]), [specs, sources]
    yield "the lines that the page counts", len(lines), body + types + comments


def blocks():
    """The files of the page, each with its lines; a file in two parts comes twice."""
    return re.findall(r"^### \[(.*?)\].*?^```text\n(.*?)^```$", PAGE.read_text(), re.S | re.M)


# ---- a second reading, which knows nothing of variables


def listed():
    """The lines of the page by their file, with those of the contract."""
    file, contract = re.search(r"^It is the contract of .*?\[(.*?)\].*?^```text\n(.*?)^```$", PAGE.read_text(), re.S | re.M).groups()
    found = {file: contract.split("\n")}
    for file, block in blocks():
        found.setdefault(file, []).extend(re.findall(r"^ *\d+  (.*)$", block, re.M))
    return found


def unlisted():
    """The names that are words of a definition of the page, that its file has from the repository, and that the page doesn't define."""
    lines = listed()
    for file, held in lines.items():
        text = (tool.TOP / file).read_text()
        words = {part for line in held if "--" not in line for part in re.split(r"[\s(){};,.]+", line)}
        words |= {f"◌{word}◌" for word in words} | ({"◌>>=◌"} if "do" in words else set())
        if file.endswith(".antt"):
            for name in words & set(re.findall(r"^(?:abbrev |unfoldable )?pub (?:record |data )?(\S+)", text, re.M)):
                yield from missing(lines, file, name)
        for crate, module, names in re.findall(r"^(?:ghost )?use Rattle\.(exec_\w+)\.specs\.([\w.]+)\.\{(.*)\};?$", text, re.M):
            for name in words & set(names.split(", ")):
                yield from missing(lines, *origin(crate, module.split("."), name))


def origin(crate, parts, name):
    """The file in which a name of a module is defined, and its name there."""
    if parts[0] != "declared":
        return f"crates/{crate}/specs/{'/'.join(parts)}.antt", name
    files = [part for part in parts[1:] if part[0].islower()]
    return f"crates/{crate}/src/{'/'.join(files)}.rt", parts[1 + len(files)] if parts[-1] == "TheVariants" else name


def missing(lines, file, name):
    """Says that no line of the page begins what has a name in a file: a definition, a type, a constant or a constructor."""
    begins = re.compile(rf"(?:abbrev |unfoldable |pub |record |data |struct |enum |type |const )+{re.escape(name)}(?![\w◌])|  {re.escape(name)} :")
    if not any(begins.match(line.replace("(crate)", "").strip() if file.endswith(".rt") else line) for line in lines.get(file, [])):
        yield f"{file}: {name}"
