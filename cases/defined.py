"""What the definitions of docs/HEADLINE.md say of a document's bytes, computed as the page prints them.

wrong(answers) compares answers to documents with those of the definitions. These take some hundred times the time of the program,
so the scripts give it a sample."""
import sys

sys.dont_write_bytecode = True
import codes  # noqa: F401, which finds tools/virraupez
from program import difference
from virraupez.definitions import page, program

__all__ = ["Definitions", "wrong"]


class Definitions:
    def __init__(self):
        self.program = program.Program(page.read())

    def answer(self, given):
        """The answer to a document: what the program must write, and its status."""
        try:
            return 0, self.program.text(given), b""
        except program.Refused as refused:
            return 1, b"", b"refused %d\n" % refused.args[0]


def wrong(answers):
    """The names of documents to which an answer isn't that of the definitions, each with what differs."""

    def work():
        made = Definitions()
        for name, given, found in answers:
            told = difference(found, made.answer(given))
            if told:
                yield name, f"by the definitions: {told}"

    return program.deeply(lambda: list(work()))
