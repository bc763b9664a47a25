"""Runs of the built program, for the scripts that compare what it answers.

An answer is a status with standard output and standard error, or None where the program hadn't ended in time."""
import os
import re
import signal
import subprocess

SECONDS = 60
# After so many runs that hadn't ended no other is made: a program that hangs on every document would take days.
PATIENCE = 20
END = re.compile(rb"end [0-9]+\n")
REFUSED = re.compile(rb"refused ([1-9]|10)\n")
hung = []


def answer(program, words, given, output=subprocess.PIPE, around=None):
    """What the program answers to its words and an input, which is bytes or what a subprocess may have as its stream, in an
    environment that has more than this process's."""
    if len(hung) >= PATIENCE:
        return None
    source = {"input": given} if isinstance(given, bytes) else {"stdin": given}
    try:
        ran = subprocess.run([program, *words], stdout=output, stderr=subprocess.PIPE, timeout=SECONDS, env={**os.environ, **(around or {})}, **source)
    except subprocess.TimeoutExpired:
        hung.append(words)
        return None
    return ran.returncode, ran.stdout or b"", ran.stderr


def code(found):
    """The code of an answer, or 0 where it is a transcript; None where it is neither a refusal nor a transcript."""
    status, out, err = found or (None, b"", b"")
    if status == 0 and not err and END.fullmatch(out, out.rfind(b"\n", 0, -1) + 1):
        return 0
    refused = REFUSED.fullmatch(err)
    return int(refused[1]) if status == 1 and not out and refused else None


# ---- what a person reads


def said(found):
    """What an answer is."""
    if found is None:
        return f"no end after {SECONDS} seconds" + f" (or no run, behind {PATIENCE} without an end)" * (len(hung) >= PATIENCE)
    status, out, err = found
    ended = f"status {status}" if status >= 0 else f"a crash by signal {-status} ({signal.strsignal(-status)})"
    return f"{ended} with {len(out)} bytes and {err[:80]!r}"


def difference(found, wanted):
    """What is wrong with an answer beside the one that is wanted: nothing where they are the same."""
    if found == wanted:
        return ""
    if found is None or found[::2] != wanted[::2]:
        return f"{said(found)} in place of {said(wanted)}"
    lines = zip(found[1].split(b"\n"), wanted[1].split(b"\n"))
    at = next((f"line {number}" for number, (one, other) in enumerate(lines, 1) if one != other), "its end")
    return f"the text differs at {at}"
