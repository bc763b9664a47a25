"""Scripts with labels: a text, an instruction a line, becomes the list of instructions of a document.

    let laps = r0           # a name for a register, a group variable, in, aux, now or a value
    if aux goto stop        # a goto goes forward, and passes over what stands between
    laps += 1
    feedback laps
    if laps < in goto end   # end is the script's end
    succeed laps
stop:
    canceled laps

docs/write.md has every line that there is."""
from __future__ import annotations

import re

from . import TYPE_CHECKING, grammar, hints

if TYPE_CHECKING:
    from typing import Dict, List, Optional, Sequence, Set, Tuple, Union

    from .shapes import Instruction, Item, Script

    Made = Union[Instruction, "Jump"]

NAME = "[A-Za-z_][A-Za-z0-9_]*"
LABEL = re.compile(f"({NAME}) *:")
NAMED = re.compile(r"let (\S+) *= *(\S+)")
ASSIGNED = re.compile(r"(\S+?) *([-+*]?)=(?!=) *(.+)")
JUMP = re.compile(f"(?:if (not )?(.+) )?goto ({NAME})")
NUMBER = re.compile("-?(?:0|[1-9][0-9]*)")
INFIX = re.compile(r"(\S+?) *(\+|-|\*|<=|>=|==|!=|<|>| min | max ) *(\S+)")
REGISTER = re.compile(r"\br[0-7]\b")
# What an operation becomes: an operation, whether its operands are exchanged, and whether its truth is.
OPERATIONS = {
    "+": ("add", False, False),
    "-": ("sub", False, False),
    "*": ("mul", False, False),
    "min": ("min", False, False),
    "max": ("max", False, False),
    "<": ("lt", False, False),
    ">": ("lt", True, False),
    ">=": ("lt", False, True),
    "<=": ("lt", True, True),
    "==": ("eq", False, False),
    "!=": ("eq", False, True),
}
OPPOSITE = {"<": ">=", ">=": "<", ">": "<=", "<=": ">", "==": "!=", "!=": "=="}
SPELLED = {
    "if": "an if is 'if A goto LABEL', 'if not A goto LABEL' or 'if A < B goto LABEL'",
    "goto": "a goto is 'goto LABEL'",
    "let": "a let is 'let NAME = g0', or another register, variable, in, aux, now or value",
}
END = "end"
RESERVED = {*grammar.OPERANDS, "let", "if", "not", "goto", "min", "max"}


class Fault:
    """What is wrong with a line of a script: its number, the part of it that is wrong, and what is said of that."""

    def __init__(self, line: int, part: str, wrong: str) -> None:
        self.line, self.part, self.wrong = line, part, wrong


class ScriptError(ValueError):
    """A script of which some lines say nothing, with all their faults."""

    def __init__(self, faults: List[Fault]) -> None:
        super().__init__("\n".join(f"line {it.line} of the script: {it.wrong}" for it in faults))
        self.faults = faults


class WrongLine(Exception):
    """The part of a line that is wrong, and what is said of it."""

    def __init__(self, part: str, wrong: str) -> None:
        super().__init__(wrong)
        self.part, self.wrong = part, wrong


class Jump:
    """A skip to a label that isn't counted yet."""

    def __init__(self, operand: Item, label: str) -> None:
        self.operand, self.label = operand, label


def script(text: str) -> Script:
    """The instructions that a text says."""
    made = Assembled(text)
    if made.faults:
        raise ScriptError(made.faults)
    return made.instructions


class Assembled:
    """The instructions that a text says, the line of each, and the faults of its lines. There is none of the first where there
    is one of the last."""

    faults: List[Fault]
    items: List[Tuple[int, Made]]
    labels: Dict[str, int]

    def __init__(self, text: str) -> None:
        self.text, self.faults, self.items, self.labels = text, [], [], {}
        lines = [" ".join(line.split("#", 1)[0].split()) for line in text.split("\n")]
        self.says = Lines(lines)
        for number, line in enumerate(lines, 1):
            self.take(number, line)
        counted = [] if self.faults else self.counted()
        self.instructions, self.lines = [item for _, item in counted], [number for number, _ in counted]

    def take(self, number: int, line: str) -> None:
        """Takes a line: its label, and the instructions behind it."""
        try:
            label = LABEL.match(line)
            if label:
                self.name(label[1])
                line = line[label.end() :].strip()
            if line:
                self.items += [(number, item) for item in self.says.instructions(line)]
        except WrongLine as wrong:
            self.faults.append(Fault(number, wrong.part, wrong.wrong))

    def name(self, label: str) -> None:
        if label == END:
            raise WrongLine(label, "the label end is the script's end already")
        if label in self.labels:
            raise WrongLine(label, f"the label {label} stands twice")
        self.labels[label] = len(self.items)

    def counted(self) -> List[Tuple[int, Instruction]]:
        """The instructions with their jumps counted. A jump to what stands next needs no instruction, unless one skips it."""
        items, labels = self.items, {**self.labels, END: len(self.items)}
        for at, (number, item) in enumerate(items):
            if isinstance(item, Jump):
                self.demand_ahead(number, item.label, at, labels)
        if self.faults:
            return []
        skipped = {at + 1 for at, (_, item) in enumerate(items) if isinstance(item, list) and item[0] == "skip"}
        left: Set[int] = set()
        for at, (_, item) in reversed(list(enumerate(items))):
            if isinstance(item, Jump) and at not in skipped and left.issuperset(range(at + 1, labels[item.label])):
                left.add(at)

        def place(at: int) -> int:
            return at - sum(gone < at for gone in left)

        made = [(number, item, place(at)) for at, (number, item) in enumerate(items) if at not in left]
        return [(number, skip(item, at, place(labels[item.label])) if isinstance(item, Jump) else item) for number, item, at in made]

    def demand_ahead(self, number: int, label: str, at: int, labels: Dict[str, int]) -> None:
        if label not in labels:
            near = hints.meant(label, labels)
            self.faults.append(Fault(number, label, f"there is no label {label}; {near}".rstrip("; ")))
        elif labels[label] <= at:
            says = (
                f"goto {label} goes backward, and every script ends. A goal's script that falls off its end begins at its "
                "top in the next round: let the loop's body be the script, and leave it by 'goto end' (docs/cookbook.md)"
            )
            self.faults.append(Fault(number, label, says))


def skip(jump: Jump, at: int, to: int) -> Instruction:
    """A skip from a place to another; one that would pass nothing over passes the next instruction, which is itself none."""
    return ["skip", jump.operand, to - at - 1] if to > at + 1 else ["set", "r0", "add", "r0", 0]


# ---- lines


class Lines:
    """What the lines of a script say, by the names that those before them gave."""

    named: Dict[str, Item]

    def __init__(self, lines: List[str]) -> None:
        used = {name for line in lines for name in REGISTER.findall(line)}
        self.free = next((name for name in reversed(grammar.OPERANDS[:8]) if name not in used), None)
        self.named = {}

    def instructions(self, line: str) -> Sequence[Made]:
        """The instructions of a line, with jumps that aren't counted."""
        named, jump = NAMED.fullmatch(line), JUMP.fullmatch(line)
        if named:
            return self.let(*named.groups())
        if jump:
            return self.jumps(*jump.groups())
        word, *items = line.split(" ")
        if word in SPELLED:
            raise WrongLine(word, SPELLED[word])
        assigned = ASSIGNED.fullmatch(line)
        if assigned and word not in grammar.WORDS:
            return self.assignment(*assigned.groups())
        if word not in grammar.WORDS and word != "cancel" or word in ("set", "skip"):
            raise WrongLine(word, f"{word!r} is no instruction; {meant(word)}".rstrip("; "))
        return [self.plain(word, items)]

    def let(self, name: str, value: str) -> List[Made]:
        """Takes a name for what may be read, or a value."""
        if not re.fullmatch(NAME, name) or name in RESERVED:
            raise WrongLine(name, f"{name!r} is no name that let can give: letters, digits and _, and none of the words of scripts")
        if name in self.named:
            raise WrongLine(name, f"the name {name} is given twice")
        self.named[name] = self.operand(value)
        return []

    def plain(self, word: str, items: List[str]) -> Instruction:
        """An instruction by its word, with its items as values where they are no names of entities."""
        if word == "cancel":
            if len(items) < 2 or items[1] not in grammar.CANCELS:
                raise WrongLine(word, "a cancel is 'cancel CLIENT all', 'before STAMP', 'goal NUMBER' or 'goal-before NUMBER STAMP'")
            forms, kept = grammar.CANCELS[items[1]], 2
        else:
            forms, kept = grammar.WORDS[word], 1 if grammar.WORDS[word][:1] in ("T", "C", "K", "X") else 0
            forms = forms[kept:]
        if len(items) != kept + len(forms):
            raise WrongLine(word, f"{word} takes {kept + len(forms)} items here and not {len(items)}")
        return [word, *items[:kept], *map(self.operand, items[kept:])]

    def operand(self, text: str) -> Item:
        if NUMBER.fullmatch(text) and grammar.is_number(text.lstrip("-")):
            return int(text)
        if text in grammar.OPERANDS:
            return text
        if text in self.named:
            return self.named[text]
        near = hints.meant(text, self.named)
        raise WrongLine(text, f"{text[:60]!r} is no operand: a value, r0 to r7, g0 to g7, in, aux, now or a name of let; {near}".rstrip("; "))

    def cell(self, text: str) -> str:
        """The register or the variable that is set."""
        cell = self.named.get(text, text)
        if isinstance(cell, str) and cell in grammar.CELLS:
            return cell
        if text in self.named or text in grammar.OPERANDS:
            raise WrongLine(text, f"{text} can't be set: it is {cell}" if cell != text else f"{text} can only be read")
        near = hints.meant(text, self.named)
        raise WrongLine(text, f"{text[:60]!r} can't be set: r0 to r7, g0 to g7 or a name of let can; {near}".rstrip("; "))

    def assignment(self, to: str, operation: str, text: str) -> List[Made]:
        """What sets a register or a variable."""
        to = self.cell(to)
        if operation:
            return [["set", to, OPERATIONS[operation][0], to, self.operand(text)]]
        infix, function = INFIX.fullmatch(text), re.fullmatch(r"(min|max) ?\( ?(\S+?) ?, ?(\S+?) ?\)", text)
        if function:
            return [["set", to, function[1], self.operand(function[2]), self.operand(function[3])]]
        if infix and not NUMBER.fullmatch(text):
            return self.computed(to, *infix.groups())
        if text.startswith("not "):
            return [["set", to, "eq", self.operand(text[4:]), 0]]
        return [["set", to, "add", self.operand(text), 0]]

    def computed(self, to: str, one: str, operation: str, other: str) -> List[Made]:
        name, exchanged, negated = OPERATIONS[operation.strip()]
        first, second = self.operand(one), self.operand(other)
        made: List[Made] = [["set", to, name, *((second, first) if exchanged else (first, second))]]
        opposite: List[Made] = [["set", to, "eq", to, 0]]
        return made + opposite * negated

    def jumps(self, negated: Optional[str], condition: Optional[str], label: str) -> List[Made]:
        """A goto, with what it asks for. A comparison is computed in a register that the script doesn't name."""
        infix = INFIX.fullmatch(condition) if condition else None
        if condition and infix and infix[2] in OPPOSITE:
            if self.free is None:
                raise WrongLine(condition, "no register is free for this comparison, since the script names r0 to r7: compute it before")
            one, operation, other = infix.groups()
            return [*self.computed(self.free, one, OPPOSITE[operation] if negated else operation, other), Jump(self.free, label)]
        if condition and " " in condition:
            raise WrongLine(condition, f"{condition!r} is no condition: an operand, or two that <, <=, >, >=, == or != compares")
        taken = self.operand(condition) if condition else 1
        return [["skip", taken, 1], Jump(1, label)] if negated else [Jump(taken, label)]


def meant(word: str) -> str:
    if word in ("set", "skip"):
        return {"set": "write 'r0 = r0 + 1'", "skip": "write 'if r0 goto LABEL'"}[word]
    return hints.meant(word, [*grammar.WORDS, "cancel", "goto"]) or hints.WORDS.get(word, "")


