"""What every tool does alike: its words, what `-` is, where its output goes, its status, and how trouble and progress are told.

A tool is a module of `commands`. Its `parser(prog)` gives the parser of its words, its `run(asked, out)` does the work: it
writes to `out` and answers with a status. `main` is what a script calls with such a module.

The statuses are those of grep and diff: FINE, FOUND where something is wrong or differs, TROUBLE where the work can't be done."""
from __future__ import annotations

import argparse
import contextlib
import io
import os
import re
import stat
import sys
import threading
import time

from . import TYPE_CHECKING

if TYPE_CHECKING:
    from _typeshed import SupportsWrite, WriteableBuffer
    from types import TracebackType
    from typing import Callable, Iterable, Iterator, List, Optional, Sequence, TextIO, Type, Union

    from .replacement import Replacement
    from .shapes import Tool

FINE, FOUND, TROUBLE = 0, 1, 2
STANDARD = "-"
PLACED = re.compile(".+:[0-9]+:[0-9]+: ")
# The colours of a terminal, by what they are for.
COLOURS = {"fault": "1;31", "warning": "1;33", "hint": "36", "fine": "1;32", "place": "1", "less": "31", "more": "32"}


class Trouble(Exception):
    """What keeps a tool from its work. Each of its lines is told; one that has a place begins with FILE:LINE:COLUMN."""

    lines: Sequence[str]

    def __init__(self, *lines: str) -> None:
        super().__init__("\n".join(lines))
        self.lines = lines


def place(name: object, line: int, column: int = 1) -> str:
    """A place as editors find it; lines and columns are counted from 1, and columns count characters."""
    return f"{printable(name)}:{line}:{column}: "


# ---- words

# The greatest number that a user may ask for.
MOST = 10**12


def number(text: str, most: int = MOST) -> int:
    """A number from 1 on, as argparse asks for it."""
    if not (text.isascii() and text.isdigit() and len(text) <= 20 and 1 <= int(text) <= most):
        raise argparse.ArgumentTypeError(f"a number from 1 to {most}, and not {text[:40]!r}")
    return int(text)


def name_document(made: Parser, says: str = "the document, in place of the first file") -> None:
    """Lets --document name the document that is the first of a command's files otherwise."""
    made.add_argument("--document", metavar="DOCUMENT", dest="named", action="append", default=[], help=says)


def place_files(asked: argparse.Namespace, *places: str, least: int = 1) -> None:
    """Gives the places of a command's files what --document names, and then the files that the words have. So many are wanted at least."""
    found = [*asked.named, *(it for it in map(vars(asked).get, places) if it is not None)]
    if len(found) < least:
        raise Trouble(f"no {places[len(found)]} is named")
    if len(found) > len(places):
        raise Trouble(f"too many files are named: {', '.join(map(shown, found))}")
    vars(asked).update(zip(places, found + [None] * (len(places) - len(found))))


def join_documents(asked: argparse.Namespace) -> None:
    """Puts what --document names before the documents that the words have, of which there may be many."""
    asked.documents = [*asked.named, *asked.documents]
    if not asked.documents:
        raise Trouble("no document is named")


class Parser(argparse.ArgumentParser):
    def print_help(self, file: Optional[SupportsWrite[str]] = None) -> None:
        """Prints the help. The base class says nothing of a stream that fails."""
        (sys.stdout if file is None else file).write(self.format_help())


def parser(says: str, status: str, prog: Optional[str] = None) -> Parser:
    """A parser of a tool's words. The tool's own text begins 'NAME: WHAT IT DOES'."""
    name, _, does = says.partition(": ")
    made = Parser(
        prog=prog or name,
        description=does[0].upper() + does[1:],
        epilog=status,
        formatter_class=argparse.RawDescriptionHelpFormatter,
    )
    made.add_argument("-o", "--output", metavar="FILE", default=STANDARD, help="write to FILE and not to standard output")
    return made


def main(tool: Tool, words: List[str], prog: str) -> int:
    """Runs a tool, and gives its status."""
    try:
        Source.taken, Source.files = False, []
        asked = tool.parser(prog).parse_args(words)
        with PROGRESS.told(prog), Output(asked.output) as out:
            return tool.run(asked, out)
    except SystemExit as ended:
        return flushed(prog, int(ended.code or FINE))
    except Trouble as trouble:
        return tell(prog, trouble.lines)
    except OSError as wrong:
        discard(sys.stdout)
        return tell(prog, [said(wrong)])
    except KeyboardInterrupt:
        return 130
    except Exception:
        # A fault of the tool itself. Python's own status for it is 1, which says that something was found.
        sys.excepthook(*sys.exc_info())
        return TROUBLE


def flushed(prog: str, status: int) -> int:
    """The status of a parser that has ended the tool, behind its help or the words that are wrong."""
    try:
        sys.stdout.flush()
    except OSError as wrong:
        discard(sys.stdout)
        return tell(prog, [said(wrong)])
    return status


def discard(stream: TextIO) -> None:
    """Lets a stream that failed write to nowhere, so that nothing more is said of it when Python ends."""
    with contextlib.suppress(OSError, ValueError):
        os.dup2(os.open(os.devnull, os.O_WRONLY), stream.fileno())


def said(wrong: OSError) -> str:
    """An error of the system in one line."""
    names = [printable(it) for it in (wrong.filename, wrong.filename2) if it is not None]
    return ": ".join([*names, wrong.strerror or str(wrong) or type(wrong).__name__])


def printable(name: object) -> str:
    """A file's name as a terminal may have it: a name may be bytes of no encoding, or have characters that control the terminal."""
    return "".join(sign if sign.isprintable() else f"\\u{ord(sign):04x}" for sign in str(name))


def tell(prog: str, lines: Iterable[str]) -> int:
    """Tells on standard error what keeps a tool from its work."""
    note(*(line if PLACED.match(line) else f"{prog}: {line}" for line in lines))
    return TROUBLE


def note(*lines: str) -> None:
    """Writes lines to standard error, be there one or not."""
    with contextlib.suppress(OSError, ValueError, AttributeError):
        PROGRESS.hide()
        sys.stderr.write("".join(f"{line}\n" for line in lines).encode("utf-8", "backslashreplace").decode())
        sys.stderr.flush()


# ---- output


class Output:
    """Standard output, or a file. A file is a new one that takes the place of the other at the end: if trouble comes first, the other
    stays as it is, but for a report, which is kept. No file is replaced that is read.

    A file's name may be no text, and a transcript's signs none of the locale's, so all is UTF-8 and no sign is refused."""

    stream: Optional[io.TextIOWrapper]
    new: Optional[Replacement]

    def __init__(self, name: str = STANDARD, is_read: bool = False) -> None:
        self.name, self.stream, self.new, self.is_kept, self.is_read = name, None, None, False, is_read
        self.coloured = name == STANDARD and is_terminal(1) and not os.environ.get("NO_COLOR") and os.environ.get("TERM") != "dumb"

    def __enter__(self) -> Output:
        return self

    def __exit__(self, kind: Optional[Type[BaseException]], _wrong: Optional[BaseException], _trace: Optional[TracebackType]) -> None:
        try:
            self.close(kind is None or self.is_kept)
        except Trouble:
            if kind is None:
                raise

    def open(self) -> io.TextIOWrapper:
        """Opens the file: a new one, unless the name is that of a device or a pipe, or of a file in a folder that takes no new one."""
        self.demand_unread()
        file: Union[int, str] = 1
        if self.name != STANDARD:
            # It is read if a file is written, so that a run to standard output begins at once.
            from . import replacement

            file = self.name
            with contextlib.suppress(PermissionError):
                self.new = replacement.Replacement(self.name) if replacement.is_plain(self.name) else None
                file = self.new.number if self.new else self.name
        self.stream = open(file, "w", encoding="utf-8", errors="backslashreplace", newline="\n", closefd=file != 1)
        return self.stream

    def demand_unread(self) -> None:
        """Refuses to replace a file that is read, by whatever name."""
        if self.name != STANDARD and not self.is_read and any(os.path.samestat(it, os.stat(self.name)) for it in Source.files if os.path.exists(self.name)):
            raise Trouble(f"{shown(self.name)}: this file is read, and would be replaced: give -o another name")

    def write(self, text: str) -> None:
        PROGRESS.hide()
        with self.named():
            stream = self.stream or self.open()
            stream.write(text)
            if self.coloured:
                stream.flush()

    def keep(self) -> None:
        """Keeps what is written, whatever trouble comes after it: a report says what was found up to it."""
        self.is_kept = True

    def write_bytes(self, given: bytes) -> None:
        """Writes what is no text. All of an output is one or the other."""
        PROGRESS.hide()
        with self.named():
            stream = self.stream or self.open()
            stream.buffer.write(given)

    def line(self, text: str = "") -> None:
        self.write(f"{text}\n")

    def flush(self) -> None:
        if self.stream is not None:
            with self.named():
                self.stream.flush()

    def close(self, is_whole: bool = True) -> None:
        if self.stream is None:
            return
        stream, new, self.stream, self.new = self.stream, self.new, None, None
        try:
            with self.named():
                stream.flush()
                if new and is_whole:
                    self.demand_unread()
                    lost = new.end()
                    note(*(f"{shown(self.name)}: {it}" for it in lost))
        finally:
            if new:
                new.drop()
            with self.named():
                stream.close()

    @contextlib.contextmanager
    def named(self) -> Iterator[None]:
        """An error of the stream, with its name."""
        try:
            yield
        except OSError as wrong:
            raise Trouble(f"{'standard output' if self.name == STANDARD else printable(self.name)}: {wrong.strerror}") from None

    def paint(self, colour: str, text: str) -> str:
        """A text in a colour, on a terminal alone."""
        return f"\x1b[{COLOURS[colour]}m{text}\x1b[0m" if self.coloured and text else text


def is_terminal(number: int) -> bool:
    try:
        return os.isatty(number)
    except OSError:
        return False


# ---- input


class Source(io.FileIO):
    """A file, or standard input, that counts what is read of it."""

    taken = False
    # What the system says of the files that were opened.
    files: List[os.stat_result] = []

    def __init__(self, name: str) -> None:
        if name == STANDARD and Source.taken:
            raise Trouble("standard input can be read once: `-` stands twice")
        Source.taken = Source.taken or name == STANDARD
        try:
            super().__init__(0 if name == STANDARD else name, "rb", closefd=name != STANDARD)
        except OSError as wrong:
            raise Trouble(f"{shown(name)}: {wrong.strerror}") from None
        self.given, self.count = name, 0
        about = os.fstat(self.fileno())
        self.size = about.st_size
        if stat.S_ISREG(about.st_mode):
            Source.files.append(about)
        PROGRESS.source = self

    def readinto(self, buffer: WriteableBuffer) -> Optional[int]:
        try:
            count = super().readinto(buffer)
        except OSError as wrong:
            raise Trouble(f"{shown(self.given)}: {wrong.strerror}") from None
        self.count += count or 0
        return count


def shown(name: str) -> str:
    """A file's name where no place stands behind it."""
    return "standard input" if name == STANDARD else printable(name)


def source(name: str) -> io.BufferedReader:
    """The bytes of a file, by its name, as a stream."""
    return io.BufferedReader(Source(name), 1 << 16)


def text_of(name: str) -> str:
    """The text of a file in UTF-8, whatever the locale has."""
    with source(name) as stream:
        given = stream.read()
    try:
        return given.decode()
    except UnicodeDecodeError as wrong:
        line = given.count(b"\n", 0, wrong.start) + 1
        column = len(given[given.rfind(b"\n", 0, wrong.start) + 1 : wrong.start].decode()) + 1
        raise Trouble(f"{place(name, line, column)}no text in UTF-8: the byte 0x{given[wrong.start]:02x}") from None


# ---- progress


class Progress:
    """A line on standard error that says how far a tool has come. It comes after a second, and on a terminal alone."""

    source: Optional[Source]
    says: Optional[Callable[[], str]]

    AFTER, BETWEEN = 1.0, 0.25

    def __init__(self) -> None:
        self.prog, self.source, self.visible = "", None, False
        # What a tool says of its own work, if it counts something else than what it reads.
        self.says = None
        self.lock, self.over = threading.Lock(), threading.Event()

    @contextlib.contextmanager
    def told(self, prog: str) -> Iterator[None]:
        """Tells how far a tool is while a block of it runs."""
        if not is_terminal(2):
            yield
            return
        self.prog, self.source, self.says = prog, None, None
        self.over.clear()
        watch = threading.Thread(target=self.watch, daemon=True)
        watch.start()
        try:
            yield
        finally:
            self.over.set()
            watch.join()
            self.hide()

    def watch(self) -> None:
        begun = time.monotonic()
        wait = self.AFTER
        while not self.over.wait(wait):
            self.show(time.monotonic() - begun)
            wait = self.BETWEEN

    def show(self, seconds: float) -> None:
        at = self.source
        read = f": {at.count // 1000000} of {at.size // 1000000} MB of {shown(at.given)}" if at and at.size else ""
        if at and not at.size:
            read = f": {at.count // 1000000} MB of {shown(at.given)}"
        if self.says:
            read = f": {self.says()}"
        with self.lock, contextlib.suppress(OSError, ValueError):
            sys.stderr.write(f"\r\x1b[K{self.prog}{read}, {seconds:.0f} s")
            sys.stderr.flush()
            self.visible = True

    def hide(self) -> None:
        if self.visible:
            with self.lock, contextlib.suppress(OSError, ValueError):
                sys.stderr.write("\r\x1b[K")
                sys.stderr.flush()
                self.visible = False


PROGRESS = Progress()
