"""Runs a Python program that writes a document, with words of its own. Whatever goes wrong in it is told at its lines."""
from __future__ import annotations

import contextlib
import io
import linecache
import os
import sys
import tokenize
import traceback
import types

from . import TYPE_CHECKING, build, command, origin, report

if TYPE_CHECKING:
    from typing import List

FOUND = command.FOUND
PYTHON = os.path.join(os.path.dirname(os.path.abspath(os.__file__)), "")


class Stopped(Exception):
    """A program that ended without a document: its status, and the lines that say why."""

    def __init__(self, status: int, *lines: str) -> None:
        super().__init__(status)
        self.status, self.lines = status, lines


def output(name: str, words: List[str]) -> str:
    """What a program writes to standard output, which has a document in it."""
    with command.source(name) as stream:
        given = stream.read()
    taken = io.BytesIO()
    held = io.TextIOWrapper(taken, encoding="utf-8", newline="\n")
    try:
        with contextlib.redirect_stdout(held):
            execute(name, given, words)
    except build.DocumentError as wrong:
        raise Stopped(FOUND, str(wrong)) from None
    except SystemExit as ended:
        status_of(ended.code)
    except Exception as wrong:
        raise Stopped(FOUND, *fault(wrong, name)) from None
    held.flush()
    text = taken.getvalue().decode()
    demand_document(name, text)
    return text


def execute(name: str, given: bytes, words: List[str]) -> None:
    """Runs the bytes of a program as Python runs a file: its folder comes first among those of modules."""
    code = compile(given, name, "exec", dont_inherit=True)
    keep_lines(name, given)
    module = types.ModuleType("__main__")
    module.__file__ = name
    sys.modules["__main__"] = module
    sys.argv = [name, *words]
    sys.path.insert(0, os.path.dirname(name))
    exec(code, module.__dict__)


def keep_lines(name: str, given: bytes) -> None:
    """Keeps the lines of a program for the places in it: standard input isn't there to be read again."""
    encoding, _ = tokenize.detect_encoding(io.BytesIO(given).readline)
    text = io.StringIO(given.decode(encoding, "replace"), newline=None).getvalue()
    linecache.cache[name] = len(text), None, text.splitlines(True), name


# ---- what is told of a program that stops


def status_of(code: object) -> None:
    """Takes the status with which a program ended itself, as Python does: a text is told, and its status is 1."""
    if code is not None and not isinstance(code, int):
        raise Stopped(FOUND, str(code))
    if code:
        raise Stopped(code)


def fault(wrong: Exception, name: str) -> List[str]:
    """The lines that tell an exception: its place in the program, and the calls that led there."""
    says = f"{type(wrong).__name__}: {wrong}".rstrip(": ")
    if isinstance(wrong, SyntaxError):
        return [command.place(wrong.filename or name, wrong.lineno or 1, wrong.offset or 1) + f"{type(wrong).__name__}: {wrong.msg}"]
    frames = [(it.filename, it.lineno or 1) for it in traceback.extract_tb(wrong.__traceback__) if is_users(it.filename)]
    if not frames:
        return [command.place(name, 1) + says]
    (file, line), *callers = reversed(frames)
    text = linecache.getline(file, line)
    column = len(text) - len(text.lstrip()) + 1
    return [command.place(file, line, column) + says, *(f"  called from {caller}:{at}" for caller, at in callers)]


def is_users(file: str) -> bool:
    """Whether a file is the user's, and no part of this package or of Python."""
    return not (file.startswith("<frozen ") or origin.own(file) or os.path.abspath(file).startswith(PYTHON))


def demand_document(name: str, text: str) -> None:
    """Refuses what a program wrote, if that is no document: neither an empty file is one, nor one with other prints in it."""
    made = build.DOCUMENTS
    written = [it for document in made for it in document.written]
    if text in written or not text and any(document.written_elsewhere for document in made):
        return
    if text and not report.Report(text.encode()).code:
        return
    if not made:
        raise Stopped(FOUND, command.place(name, 1) + "the program makes no document: see docs/write.md")
    if written:
        says = "one document goes to standard output" if len(written) > 1 else "print to standard error, as by print(.., file=sys.stderr)"
        raise Stopped(FOUND, command.place(name, 1) + f"standard output has more than a document, and isn't written: {says}")
    call = made[-1].call
    raise Stopped(FOUND, command.place(call.file, *call.place()) + "this document is never written: call its write() at the end")
