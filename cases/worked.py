"""The documents of cases/ and examples/, with what each must give.

NAME.json stands next to NAME.txt, the transcript that is wanted, or NAME.refused, the code."""
import pathlib
import sys

TOP = pathlib.Path(__file__).resolve().parent.parent
# Twelve settings of the program's words: how many workers, and the quantum.
WORDS = tuple((workers, quantum) for workers in ("1", "2", "7", "64") for quantum in ("1", "3", "1024"))


def wanted(document):
    """The status, standard output and standard error that a document must give."""
    text, code = document.with_suffix(".txt"), document.with_suffix(".refused")
    if text.exists() == code.exists():
        sys.exit(f"{document.name} needs either {text.name} or {code.name}")
    if text.exists():
        return 0, text.read_bytes(), b""
    return 1, b"", b"refused " + code.read_bytes().strip() + b"\n"


def named():
    """The documents with their names."""
    for pattern in ("cases/*/*.json", "examples/*.json"):
        for document in sorted(TOP.glob(pattern)):
            yield document.relative_to(TOP).as_posix(), document
