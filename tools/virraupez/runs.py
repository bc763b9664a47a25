"""Runs of documents: by a proved program, or by the executor in Python. Which program is run is asked once, because to ask takes longer
than a short run does."""
from __future__ import annotations

import json
import os
import platform
import signal
import subprocess
import threading

from . import TYPE_CHECKING, command, installation

if TYPE_CHECKING:
    from typing import Any, Dict, IO, Optional, Tuple

REFUSED = 1
# What launches a program has its C library ask for large pages, and keep its memory (release/program.sh).
TUNABLES = "glibc.malloc.hugetlb=1:glibc.malloc.mmap_threshold=4294967296:glibc.malloc.top_pad=67108864:glibc.malloc.trim_threshold=4294967296:glibc.malloc.mxfast=0"


class Refused(Exception):
    """What the program says of a document that it refuses: its code."""


class Program:
    """A proved program: its name, what it writes, and what --reference does in its place."""

    NAME, WRITES, REFERENCE = "", "", ""

    def __init__(self) -> None:
        demand_machine(self.REFERENCE)
        # A dict is handed to a program in a fraction of the time that os.environ takes.
        self.path, self.around = installation.program(self.NAME), dict(os.environ)

    def start(self, *words: str, **around: Any) -> subprocess.Popen[bytes]:
        """Starts the program, under a plain name: its own words would be wrong if its path weren't UTF-8."""
        given: Dict[str, Any] = {"env": self.around, "stdin": subprocess.PIPE, "stdout": subprocess.PIPE, **around}
        # Without close_fds Python starts a program in a fraction of the time.
        made: subprocess.Popen[bytes] = subprocess.Popen([self.NAME, *words], executable=self.path, close_fds=False, **given)
        return made

    def described(self) -> Dict[str, str]:
        """By what runs are made: the version of the command, and the sum of the program."""
        return {"version": installation.version(), "program": f"{self.NAME} {installation.sum_of(self.path)}"}


class Executor(Program):
    """The one that runs a document."""

    NAME, WRITES, REFERENCE = "exec_run", "transcript", "runs the document by an executor"


class Server(Program):
    """The one that runs documents one after another, on one worker. It is started for the first one, and anew in a process that was
    forked."""

    NAME, WRITES, REFERENCE = "exec_serve", Executor.WRITES, Executor.REFERENCE
    WORDS = "1", "1"
    # How many bytes a length has, and what comes before a text: the status and the text's length.
    LENGTH, HEAD = 8, 9

    def __init__(self) -> None:
        super().__init__()
        self.owner, self.lock = os.getpid(), threading.Lock()
        self.running: Optional[subprocess.Popen[bytes]] = None

    def transcript(self, given: bytes) -> str:
        """What the program writes of a document's bytes."""
        if self.owner != os.getpid():
            self.owner, self.lock, self.running = os.getpid(), threading.Lock(), None
        with self.lock:
            try:
                status, text = self.answer(given)
            except BaseException:
                # What is left of this answer would be taken for the next one.
                self.end()
                raise
        if status:
            raise Refused(str(status))
        return text.decode("ascii")

    def answer(self, given: bytes) -> Tuple[int, bytes]:
        """The status and the text that the program answers."""
        if self.running is None:
            self.running = self.start(*self.WORDS, stderr=subprocess.DEVNULL, preexec_fn=undisturbed)
        program = self.running
        assert program.stdin and program.stdout, "each of them is a pipe"
        try:
            program.stdin.write(len(given).to_bytes(self.LENGTH, "big") + given)
            program.stdin.flush()
        except BrokenPipeError:
            pass
        head = program.stdout.read(self.HEAD)
        size = int.from_bytes(head[1:], "big")
        text = program.stdout.read(size) if len(head) == self.HEAD else b""
        if len(head) < self.HEAD or len(text) < size:
            raise command.Trouble(f"the program ended with the status {program.wait()}: there is no {self.WRITES}")
        return head[0], text

    def end(self) -> None:
        """Ends the program, if it was started."""
        if self.running is not None:
            self.running.kill()
            self.running.communicate()
            self.running = None


class Upgrader(Program):
    """The one that brings documents to version 2."""

    NAME, WRITES, REFERENCE = "exec_upgrade", "upgrade", "upgrades the document by a reader"

    def text(self, given: bytes) -> str:
        """What the program writes of a document's bytes."""
        with self.start(stderr=subprocess.PIPE) as program:
            assert program.stdin and program.stdout and program.stderr, "each of them is a pipe"
            feed(program.stdin, given)
            text, told = program.stdout.read(), program.stderr.read()
        if program.returncode == REFUSED:
            raise Refused(told.decode("ascii", "replace").rpartition(" ")[2].strip())
        if program.returncode:
            raise command.Trouble(f"the program ended with the status {program.returncode}: there is no {self.WRITES}")
        return text.decode("ascii")


class Reference:
    """The executor in Python, which is written apart from the program; nothing of it is proved."""

    def described(self) -> Dict[str, str]:
        return {"version": installation.version(), "program": "the executor in Python"}

    def transcript(self, given: bytes) -> str:
        from . import executor, refusals

        code = refusals.code(given)
        if code:
            raise Refused(str(code))
        return "".join(f"{line}\n" for line in executor.lines_of(json.loads(given)))


def demand_machine(reference: str = Executor.REFERENCE) -> None:
    """Demands a machine of the proved programs; on another one --reference does something."""
    system, machine = platform.system(), platform.machine()
    if system != "Linux" or machine not in ("x86_64", "amd64"):
        raise command.Trouble(
            f"the proved program is for Linux on x86-64, and this is {system} on {machine}",
            f"--reference {reference} in Python, written apart from the program; nothing of it is proved",
        )


def launching() -> Dict[str, str]:
    """The environment in which ./exec_run launches its program."""
    return {"GLIBC_TUNABLES": TUNABLES, **os.environ}


def undisturbed() -> None:
    """Ctrl-C is for the process that gives documents out, which ends its program itself."""
    signal.signal(signal.SIGINT, signal.SIG_IGN)


def feed(stream: IO[bytes], given: bytes) -> None:
    """Gives a program its document. One that ended before it had read all says by its status what was wrong."""
    try:
        stream.write(given)
        stream.close()
    except BrokenPipeError:
        pass
