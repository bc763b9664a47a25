"""Answers of the definitions: what a document's bytes are by them, and what an expression gives."""
from __future__ import annotations

import functools
import sys
import threading

from .. import TYPE_CHECKING, command
from . import compiler, library, names, page, steps, syntax, tree
from .values import NONE, Pair, shown, tag

if TYPE_CHECKING:
    from typing import Any, Callable, Dict, List, Optional

    from .values import Function, Value

# What the definitions recur takes this much of the stack in a Python before 3.11, where the longest list has 65,536 elements.
STACK = 1 << 29
DEEP = 1 << 24
# The definitions of which the theorem speaks.
DOCUMENT, TEXT, REFUSAL = "document_of", "text_of", "refusal_of"


class Program:
    """The definitions of a page as Python functions, in `space` by their names there."""

    space: Dict[str, Any]

    def __init__(self, read: page.Page) -> None:
        self.names = names.Names(read)
        self.compiler = compiler.Compiler(self.names)
        lines = []
        for item in self.names.definitions:
            if not item.is_type():
                lines += self.compiler.definition(item)
        for constant in self.names.constants:
            lines += self.compiler.constant(constant)
        self.space = {"NONE": NONE, "Pair": Pair, "Unfit": Unfit, "constant": functools.lru_cache(None), "kept": kept}
        self.space.update((made.__name__, made) for made in library.FUNCTIONS.values())
        self.run("\n".join(lines))
        if library.first_reached.__name__ in self.names.values:
            counting = self.python(library.first_reached.__name__)
            self.space[counting] = library.counted(self.space[counting])

    def run(self, text: str) -> None:
        for name in self.compiler.used:
            self.space[f"T_{name}"], self.space[f"VT_{name}"] = tag(name), tag(name).alone
        exec(compile(text, f"<{page.PAGE}>", "exec"), self.space)

    def python(self, name: str) -> str:
        """The name in `space` of the function of a definition."""
        return self.compiler.python[id(self.names.named(name))]

    def ask(self, name: str, *given: Value) -> Value:
        return self.space[self.python(name)](*given)

    # ---- what is asked

    def plan(self, document: bytes) -> Value:
        """The plan that a document's bytes say. Refused is raised if they say none."""
        found = self.ask(DOCUMENT, tuple(document))
        if found is NONE:
            raise Refused(self.names.number(self.ask(REFUSAL, tuple(document))[1][0].name))
        return found[1]

    def text(self, document: bytes) -> bytes:
        """The transcript of a document's bytes."""
        return bytes(self.ask(TEXT, self.plan(document)))

    def steps(self, document: bytes, number: int) -> str:
        """What the definitions say of the round of a number, step by step."""
        return "".join(steps.Steps(self, self.plan(document), number).lines_of_round())

    def value(self, text: str, document: Optional[bytes] = None) -> Value:
        """What an expression gives. In it `plan` is the plan of a document, if there is one."""
        parser = syntax.Parser(syntax.tokens_of([page.Line(1, 1, text)]), self.names.operators)
        self.compiler.file = None
        try:
            made = parser.expression()
            parser.demand_end()
            given = document if "plan" in tree.free(made) else None
            body = self.compiler.expression(made, {} if given is None else {"plan": "asked_plan"})
        except page.Unknown as wrong:
            raise command.Trouble(f"{text}: {wrong.says}") from None
        if given is not None:
            self.space["asked_plan"] = self.plan(given)
        self.run(f"def asked():\n    return {body}")
        try:
            return self.space["asked"]()
        except (ArithmeticError, AttributeError, LookupError, TypeError, ValueError, Unfit):
            raise command.Trouble(f"{text}: a definition is asked of what has another type") from None


def answer(document: Optional[bytes], number: Optional[int] = None, expression: Optional[str] = None) -> str:
    """What the definitions of the page that is shipped answer: of the round of a number, of an expression, or else the transcript."""

    def work() -> str:
        made = Program(page.read())
        if expression is not None:
            return f"{shown(made.value(expression, document))}\n"
        given = document or b""
        return made.steps(given, number) if number else made.text(given).decode("ascii")

    return deeply(work)


class Refused(Exception):
    """A document is refused; it has the number of the code."""


class Unfit(command.Trouble):
    """No equation of a definition fits, which the prover doesn't allow."""

    def __init__(self, name: str, line: int) -> None:
        super().__init__(f"{command.place(page.PAGE, line)}no equation of {name} fits what it is asked of")


def kept(function: Function) -> Function:
    """A function of one argument that knows its last answer."""
    last, answer = object(), None

    def asked(given: Value) -> Value:
        nonlocal last, answer
        if given is not last:
            answer = function(given)
            last = given
        return answer

    return asked


def deeply(work: Callable[[], str]) -> str:
    """Does work whose calls go deep, on a thread with a stack for that, and gives what it gives."""
    found: List[str] = []
    wrong: List[BaseException] = []

    def within() -> None:
        try:
            found.append(work())
        except BaseException as fault:
            wrong.append(fault)

    sys.setrecursionlimit(DEEP)
    threading.stack_size(STACK)
    thread = threading.Thread(target=within, daemon=True)
    thread.start()
    thread.join()
    if wrong:
        raise wrong[0]
    return found[0]
