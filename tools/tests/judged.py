"""What is said of programs that answer wrongly, by cases/program.py: of a wrong status, a crash, and a run that doesn't end."""
import sys

from . import tool

sys.path.insert(0, str(tool.TOP / "cases"))
import program

WANTED = 0, b"end 0\n", b""
# Programs of the shell: the code that each answers, and a part of what is told where WANTED is wanted.
PROGRAMS = (
    ("echo end 0", 0, ""),
    ("echo end 1", 0, "the text differs at line 1"),
    ("echo end 0; exit 3", None, "status 3 with 6 bytes and b'' in place of status 0 with 6 bytes and b''"),
    ("echo end 0; kill -KILL $$", None, "a crash by signal 9"),
    ("echo end 0; echo a warning >&2", None, "status 0 with 6 bytes and b'a warning"),
    ("printf 'end 0'", None, "the text differs at its end"),
    ("echo round 1 5", None, "the text differs at line 1"),
    ("true", None, "the text differs at line 1"),
    ("echo refused 5 >&2; exit 1", 5, "status 1 with 0 bytes and b'refused 5"),
    ("echo refused 10 >&2; exit 1", 10, "status 1"),
    ("echo refused 11 >&2; exit 1", None, "status 1"),
    ("echo refused 5 >&2", None, "status 0"),
    ("echo refused 5 >&2; exit 4", None, "status 4"),
    ("echo refused 5 >&2; kill -TERM $$", None, "a crash by signal 15"),
    ("echo refused 5 >&2; echo end 0; exit 1", None, "status 1 with 6 bytes"),
    ("exit 1", None, "status 1 with 0 bytes and b''"),
)


def told(script):
    """The code of a program's answer, and what is wrong with it."""
    found = program.answer("/bin/sh", ("-c", script), b"")
    return program.code(found), program.difference(found, WANTED)


def answers(_program):
    for script, code, part in PROGRAMS:
        found, wrong = told(script)
        yield f"the answer of {script!r}: {wrong}", (found, part in wrong, bool(wrong)), (code, True, bool(part))
    yield "what is read", program.answer("/bin/sh", ("-c", "cat"), b"end 0\n"), WANTED
    yield from of_patience()


def of_patience():
    """A run that doesn't end is told so, and behind many of these no other is made."""
    seconds, program.SECONDS = program.SECONDS, 0.1
    found, wrong = told("exec sleep 600")
    program.SECONDS = seconds
    yield "the answer of a program that hangs", (found, wrong), (None, "no end after 0.1 seconds in place of status 0 with 6 bytes and b''")
    yield "a run behind it", told("echo end 0"), (0, "")
    program.hung.extend([()] * program.PATIENCE)
    found, wrong = told("echo end 0")
    program.hung.clear()
    yield f"a run behind many of these: {wrong}", (found, "no run" in wrong), (None, True)
