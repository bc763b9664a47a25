"""manual: writes the manual page of virraupez, docs/virraupez.1, which is made of the words that --help says. `man -l` shows it."""
from __future__ import annotations

from .. import TYPE_CHECKING, command, launcher, vocabulary

if TYPE_CHECKING:
    import argparse
    from typing import Iterable, Iterator, List, Optional

SYNOPSIS = (
    r"\fBvirraupez\fR \fICOMMAND\fR [\fIWORD\fR ..]",
    ".br",
    r"\fBvirraupez\fR \fICOMMAND\fR \fB\-\-help\fR",
    ".br",
    r"\fBvirraupez\fR \fB\-\-version\fR",
)


def parser(prog: Optional[str] = None) -> command.Parser:
    return command.parser(__doc__, "The status is 0, and 2 if the page can't be written.", prog)


def run(_asked: argparse.Namespace, out: command.Output) -> int:
    out.write("\n".join(page()) + "\n")
    return command.FINE


def page() -> Iterator[str]:
    """The lines of the page, in the language of man."""
    all_commands = vocabulary.all_commands()
    yield '.TH VIRRAUPEZ 1 "" "Virraupez" "User Commands"'
    yield from section("NAME", [f"{launcher.NAME} \\- {escaped(vocabulary.sentence(launcher.ABOUT))}"])
    yield from section("SYNOPSIS", SYNOPSIS)
    yield from section("DESCRIPTION", [escaped(launcher.ABOUT[0].upper() + launcher.ABOUT[1:]), ".PP", escaped(launcher.MORE)])
    yield ".SH COMMANDS"
    for it in all_commands:
        yield from of_command(it)
    yield from section("EXIT STATUS", [escaped(launcher.STATUS)])
    yield from section("ENVIRONMENT", [".TP", ".B NO_COLOR", "If it is set, nothing is written in colour."])
    yield from section("SEE ALSO", ["docs/tour.md, a run in five minutes; docs/document.md, the document; docs/transcript.md, the transcript."])


def section(name: str, lines: Iterable[str]) -> List[str]:
    return [f".SH {name}", *lines]


def of_command(it: vocabulary.Command) -> Iterator[str]:
    yield f".SS {escaped(it.synopsis())}"
    for number, paragraph in enumerate(it.paragraphs):
        if number:
            yield ".PP"
        if paragraph.startswith(" "):
            yield from (".RS", ".nf", escaped(paragraph), ".fi", ".RE")
        else:
            yield escaped(paragraph)
    for option in it.places + it.options:
        yield ".TP"
        names = ", ".join(rf"\fB{escaped(name)}\fR" for name in option.names)
        takes = rf"\fI{escaped(option.takes)}\fR" if option.takes else ""
        yield " ".join(filter(None, (names, takes)))
        yield escaped(option.says)
    yield ".PP"
    yield escaped(it.status)


def escaped(text: str) -> str:
    """A text without signs that man takes for its own."""
    text = text.replace("\\", "\\(rs").replace("-", "\\-")
    return "\n".join(f"\\&{line}" if line[:1] in (".", "'") else line for line in text.split("\n"))
