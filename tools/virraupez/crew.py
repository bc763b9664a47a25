"""Work that several processes do side by side. What each task gives comes in the order of the tasks, whoever did it, so that no
answer depends on how many processes there are."""
from __future__ import annotations

import multiprocessing
import multiprocessing.connection
import os
import signal

from . import TYPE_CHECKING, command

if TYPE_CHECKING:
    from multiprocessing.connection import Connection
    from typing import Any, Callable, Dict, Iterable, Iterator, List, Optional, Sequence, Tuple, TypeVar

    Task = TypeVar("Task")
    Outcome = TypeVar("Outcome")

# How many tasks of each process may be done or under way before the first of them is over.
AHEAD = 64


def processors() -> int:
    """How many processors this process may use."""
    return len(os.sched_getaffinity(0)) if hasattr(os, "sched_getaffinity") else os.cpu_count() or 1


def outcomes(make: Callable[[], Callable[[Task], Outcome]], tasks: Iterable[Task], count: int) -> Iterator[Outcome]:
    """What a function gives for each of some tasks; `make` makes the function, in each process anew."""
    if count == 1 or "fork" not in multiprocessing.get_all_start_methods():
        yield from map(make(), tasks)
        return
    crew: List[Member] = []
    try:
        for _ in range(count):
            crew.append(Member(make, crew))
        yield from gathered(crew, enumerate(tasks))
    finally:
        for member in crew:
            member.end()


def gathered(crew: List[Member], tasks: Iterator[Tuple[int, Any]]) -> Iterator[Any]:
    """Hands tasks out, and gives what comes of them in their order."""
    idle, first, is_over = list(crew), 0, False
    busy: Dict[Connection, Member] = {}
    done: Dict[int, Any] = {}
    while True:
        while idle and not is_over and len(busy) + len(done) < AHEAD * len(crew):
            task = next(tasks, None)
            is_over = task is None
            if task is not None:
                member = idle.pop()
                member.pipe.send(task)
                busy[member.pipe] = member
        if not busy and not done:
            return
        answered: List[Any] = multiprocessing.connection.wait(list(busy)) if busy else []
        for pipe in answered:
            idle.append(busy.pop(pipe))
            number, outcome = answer(pipe)
            done[number] = outcome
        while first in done:
            yield done.pop(first)
            first += 1


def answer(pipe: Connection) -> Tuple[int, Any]:
    """What a process says of a task: its number and what came of it, or the trouble that it met."""
    try:
        number, outcome, trouble = pipe.recv()
    except (EOFError, OSError):
        raise command.Trouble("a process of the crew has ended in the middle of its work") from None
    if trouble:
        raise command.Trouble(*trouble)
    return number, outcome


class Member:
    """A process of the crew, with the pipe through which it is given tasks."""

    def __init__(self, make: Callable[[], Callable[[Any], Any]], others: List[Member]) -> None:
        context = multiprocessing.get_context("fork")
        self.pipe, other_end = context.Pipe()
        ends = [it.pipe for it in others] + [self.pipe]
        self.process = context.Process(target=serve, args=(other_end, ends, make), daemon=True)
        self.process.start()
        other_end.close()

    def end(self) -> None:
        self.pipe.close()
        self.process.terminate()
        self.process.join()


def serve(pipe: Connection, others: List[Connection], make: Callable[[], Callable[[Any], Any]]) -> None:
    """Does tasks until the pipe is closed. Ctrl-C is for the process that hands them out."""
    signal.signal(signal.SIGINT, signal.SIG_IGN)
    for other in others:
        other.close()
    try:
        work = make()
        while True:
            number, task = pipe.recv()
            pipe.send((number, *tried(work, task)))
    except (EOFError, OSError):
        return


def tried(work: Callable[[Task], Outcome], task: Task) -> Tuple[Optional[Outcome], Optional[Sequence[str]]]:
    try:
        return work(task), None
    except command.Trouble as trouble:
        return None, trouble.lines
    except Exception as wrong:
        return None, [f"{type(wrong).__name__}: {wrong}"]


