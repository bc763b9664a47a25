"""Streams that are too long or fail, for the scripts that run a built program over documents."""
import os

from program import answer, difference
from worked import TOP

MOST = 16777216


def wrong_streams(program, words, document, text):
    """What is wrong with the answers to this document in inputs of the greatest size and beyond it, of which the first gives this text,
    and with the answers if a stream fails."""
    failed = 3, b"", b"write failed\n"
    for size, should in ((MOST, (0, text, b"")), (MOST + 1, (4, b"", b"read failed\n"))):
        with os.fdopen(os.memfd_create("document"), "w+b") as given:
            given.write(document.ljust(size))
            given.seek(0)
            yield f"a document of {size} bytes", difference(answer(program, words, given), should)
    with (TOP / "examples/timer.json").open("rb") as given, open("/dev/full", "wb") as full:
        yield "an output that is full", difference(answer(program, words, given, full), failed)
    with (TOP / "examples/timer.json").open("rb") as given:
        nobody, output = os.pipe()
        os.close(nobody)
        yield "an output that nobody reads", difference(answer(program, words, given, output), failed)
        os.close(output)
    folder = os.open(TOP, os.O_RDONLY)
    yield "an input that can't be read", difference(answer(program, words, folder), (4, b"", b"read failed\n"))
    os.close(folder)
