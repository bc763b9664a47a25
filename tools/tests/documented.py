"""That the pages are right: commands with their output, scripts and programs in them, links, and the notices that are asked for."""
import contextlib
import io
import re
import shlex
import subprocess

import virraupez
from virraupez import commands as commands_of
from virraupez import report, transcript

from . import cooked, tool

# The pages whose blocks are tried; links are followed in all.
PAGES = sorted((tool.TOP / "docs").glob("*.md"))
TOOLS = tool.TOP / "docs/tools.md"
LINKED = [*PAGES, *(page for folder in (".", "bench", "examples", "release") for page in sorted((tool.TOP / folder).glob("*.md")))]


class Section:
    """A section of a page, from its heading to the next one of two marks, which is read as a page of its own."""

    def __init__(self, page, heading):
        self.page, self.heading, self.name = page, heading, f"{page.name}#{heading}"

    def read_text(self):
        return re.search(rf"^## {self.heading}\n(.*?)(?=^## |\Z)", self.page.read_text(), re.S | re.M)[1]


# Those whose commands read files of the repository and write none, and those that are run one after the other in a folder of their own.
READING = (Section(TOOLS, "diff"), *(tool.TOP / "docs" / name for name in ("explain.md", "holds.md", "write.md")))
WALKED = (*(tool.TOP / "docs" / name for name in ("tour.md", "modelling.md", "check.md", "search.md")), Section(TOOLS, "run"))


def blocks(page, language):
    return re.findall(rf"^```{language}\n(.*?)^```$", page.read_text(), re.S | re.M)


def commands(page):
    """The commands of a page with the output that stands behind each."""
    for block in blocks(page, "text"):
        for part in re.split(r"^\$ ", block, flags=re.M)[1:]:
            command, _, output = part.partition("\n")
            yield command, output


def scripts(page):
    """The scripts of a page: where each may stand, and its text."""
    return re.findall(r"^```script (\w+)\n(.*?)^```$", page.read_text(), re.S | re.M)


def answers(_program):
    for page in READING:
        for command, output in commands(page):
            if command.startswith("./virraupez "):
                yield f"{page.name}: {command}", printed(command), output
    yield "the commands of tools.md", listed(), []
    for page in PAGES:
        for role, text in scripts(page):
            told = report.Report(cooked.around(**{role: text}).text().encode())
            yield f"{page.name}: the script of a {role} {text!r}", told.code, 0
        for program in blocks(page, "python"):
            yield f"{page.name}: the program {program!r}", written(program), 0
    for page in LINKED:
        for link, _, anchor in re.findall(r"\]\(([^)#:]*)(#([^)]+))?\)", page.read_text()):
            there = (page.parent / link).resolve() if link else page
            yield f"{page.name}: the link {link}", there.exists(), True
            if anchor and there.suffix == ".md":
                yield f"{page.name}: the link {link}#{anchor}", anchor in anchors(there.read_text()), True
    yield from toured()
    yield from planting()
    yield from renaming()
    yield from notices()


def printed(command):
    """What a command prints; one with a pipe is run by a shell."""
    if "|" not in command:
        return tool.run(*shlex.split(command)[1:])[1]
    return subprocess.run(["bash", "-c", command], stdout=subprocess.PIPE, stderr=subprocess.STDOUT, cwd=tool.TOP).stdout.decode()


def listed():
    """The commands that virraupez has and the table of tools.md lacks, and those that are only in the table."""
    rows = re.findall(r"^\| (`.*?) \|", TOOLS.read_text().partition("\n## ")[0], re.M)
    return sorted({name for row in rows for name in re.findall(r"`([a-z]+)`", row)} ^ set(commands_of.NAMES))


def anchors(text):
    """The anchors of a page's headings, as GitHub makes them."""
    found = []
    for heading in re.findall(r"^#+ (.*)$", re.sub(r"^```.*?^```$", "", text, flags=re.S | re.M), re.M):
        bare = re.sub(r"\[([^\]]*)\]\([^)]*\)", r"\1", heading).lower()
        anchor = re.sub(r"[^\w\- ]", "", bare).replace(" ", "-")
        found.append(anchor if anchor not in found else f"{anchor}-{sum(it == anchor or it.startswith(f'{anchor}-') for it in found)}")
    return found


def toured():
    """The lines of the tour are those of its examples."""
    runs = {line for name in ("timer", "robot", "cancel_and_success") for line in (tool.TOP / "examples" / f"{name}.txt").read_text().splitlines()}
    for block in blocks(tool.TOP / "docs/tour.md", "text"):
        for line in block.splitlines():
            said = re.split(" {2,}", line)[0]
            if said.split(" ")[0] in transcript.WORDS:
                yield f"tour.md: {said}", said in runs, True


def planting():
    """The bug that docs/CHECKING.md plants is the one of the wrong body that it shows, and stands once in the source."""
    page = (tool.TOP / "docs/CHECKING.md").read_text()
    file = tool.TOP / re.search(r"^The repository keeps .* This one is `(.*?)`:$", page, re.M)[1]
    yield f"CHECKING.md shows {file.name}", file.read_text() in page, True
    path, old, new = re.fullmatch("file: (.*)\nold: (.*)\nnew: (.*)\n", file.read_text()).groups()
    yield "CHECKING.md plants it", f"sed -i 's/{old}/{new}/' {path}\n" in page, True
    yield "what CHECKING.md changes", (file.parent.parent / path).read_text().count(old), 1


def renaming():
    """The names that docs/NAMES.md wants renamed are in their files, so that none is there which was renamed."""
    for row in (tool.TOP / "docs/NAMES.md").read_text().partition("## To be renamed")[2].splitlines():
        names, files = (re.findall("`([^`]+)`", cell) for cell in (row.split("|") + ["", ""])[1:3])
        for name in names if row.startswith("| `") else []:
            there = [file for file in files if re.search(rf"\b{name}\b", (tool.TOP / "crates" / file).read_text())]
            yield f"NAMES.md: {name} in {files}", bool(there), True


def written(program):
    """The code of what a program writes, or what it says of what is wrong."""
    out = io.StringIO()
    try:
        with contextlib.redirect_stdout(out):
            exec(program, {})
    except virraupez.DocumentError as wrong:
        return str(wrong)
    return report.Report(out.getvalue().encode()).code


# ---- notices


def notices():
    """Every library of the toolchain that a crate names has its line."""
    text, own, named = (tool.TOP / "THIRD_PARTY.md").read_text(), set(), set()
    for line in (tool.TOP / "crates.txt").read_text().splitlines():
        if re.match("[a-z]", line):
            head, _, libraries = line.partition(":")
            own.add(head.split()[0])
            named.update(libraries.split())
    for library in sorted(named - own):
        yield f"THIRD_PARTY.md: {library}", f"| `{library}` |" in text, True
