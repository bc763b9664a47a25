"""What the definitions say of one round, step by step: each step by the name of its definition, with its line of the page."""
from __future__ import annotations

from .. import TYPE_CHECKING, command
from .page import PAGE
from .values import bracketed, in_line

if TYPE_CHECKING:
    from typing import Callable, Iterable, Iterator, List, Optional

    from .program import Program
    from .values import Items, Value

    Before = Callable[[Items], Iterable[str]]
    After = Callable[[Items, Value], Iterable[str]]

# The definitions whose steps are told with what they are given. What one of them asks for is told farther in. A few more have words of
# their own below.
TOLD = "round expire feed_one run give close_callback reply_to decide accept cancel respond answer_ask pend end_in with_task".split()


class Steps:
    """The steps of the round of a number, of a plan: `told` has their lines once they are computed."""

    told: List[str]

    def __init__(self, program: Program, plan: Value, number: int) -> None:
        self.program, self.plan, self.number, self.told = program, plan, number, []
        self.is_told, self.depth = False, 0
        self.names = program.ask("names_of", plan["graph"])
        for name in TOLD:
            self.watch(name, self.heading(name), None)
        self.watch("ready_list", None, self.ready)
        self.watch("next_call", None, self.next_call)
        self.watch("push", self.pushed, None)
        self.watch("add_line", None, lambda given, _: self.lines(given[:1]))
        self.watch("add_lines", None, lambda given, _: self.lines(given[0]))

    def lines_of_round(self) -> List[str]:
        """Computes the rounds up to this one, and gives the lines of its steps."""
        moments = self.plan["moments"]
        if not 1 <= self.number <= len(moments):
            raise command.Trouble(f"the document has {len(moments)} rounds, and no round {self.number}")
        self.program.ask("rounds", self.plan, 1, moments[: self.number], self.program.ask("first_world", self.plan))
        return self.told

    def watch(self, name: str, before: Optional[Before], after: Optional[After]) -> None:
        """Tells of each step of a definition: before it is computed, what it is given, or after it, what it gives."""
        python, item = self.program.python(name), self.program.names.named(name)
        function = self.program.space[python]

        def watched(*given: Value) -> Value:
            is_round = name == "round" and given[1] == self.number
            self.is_told = self.is_told or is_round
            if not self.is_told:
                return function(*given)
            for text in before(given) if before else ():
                self.line(item.at, text)
            self.depth += before is not None
            made = function(*given)
            self.depth -= before is not None
            for text in after(given, made) if after else ():
                self.line(item.at, text)
            self.is_told = self.is_told and not is_round
            return made

        self.program.space[python] = watched

    def line(self, at: int, text: str) -> None:
        self.told.append(f"{PAGE}:{at}: {'  ' * self.depth}{text}\n")

    # ---- what is told

    def heading(self, name: str) -> Before:
        """How a step begins: its name with what it is given."""
        types = "".join(f" {word}" for word in self.program.names.named(name).words).split(" →")
        return lambda given: [" ".join([name, *(it for it in map(self.short, types, given) if it)])]

    def short(self, of: str, value: Value) -> str:
        """What a step is given, in short: of a world and of a plan nothing, of a ready callback its place and its entity."""
        if of == " EntityNo":
            return self.name(value)
        if of == " GoalId":
            return bytes(self.program.ask("id_text", value)).decode()
        if isinstance(value, dict):
            if "position" in value:
                return f"({value['position']}. {self.name(value['entity'])})"
            return "" if value.keys() & {"lines", "graph"} else f"({in_line(value)})"
        return bracketed(value, in_line(value))

    def name(self, entity: Value) -> str:
        return bytes(self.program.ask("name_at", self.names, entity)).decode()

    def ready(self, given: Items, made: Value) -> Iterator[str]:
        """The ready list: each callback with its place, its entity, its rank in the order, and why it is ready."""
        _, world = given
        yield f"ready_list gives {len(made)} callback{'s' * (len(made) != 1)}, in the order {in_line(world['order'])}"
        for one in made:
            rank = self.program.ask("rank_under", world["order"], world, one)
            candidates = f", candidates {in_line(one['candidates'])}" if one["candidates"] else ""
            yield f"  {one['position']}. {self.name(one['entity'])}, rank {rank}: {in_line(one['cause'])}{candidates}"

    def next_call(self, given: Items, made: Value) -> Iterator[str]:
        timer, now = given
        yield f"next_call ({in_line(timer)}) {now} gives {made}"

    def pushed(self, given: Items) -> Iterator[str]:
        """What is sent to an entity, and what its queue loses by it."""
        entity, item, world = given
        lost = self.program.ask("lost_by", entity, item, world)
        yield f"push to {self.name(entity)}: {in_line(item)}; it displaces {in_line(lost) if lost else 'nothing'}"

    def lines(self, lines: Items) -> Iterator[str]:
        for line in lines:
            yield f"the line: {bytes(self.program.ask('line_text', self.names, line)).decode().rstrip()}"


