"""That rules look at few lines, and find the same whatever the blocks in which a transcript comes."""
import random

from virraupez import checker, rulebook

from . import tool

RULES = """never drop _
never log _ >90 after log _ <-90
every run T timer then log T within 2 rounds
every log _ _ then round within 3 ticks
every goal _ ID then state _ ID SUCCEEDED|CANCELED|ABORTED within 20 rounds
count round >5 _ at most 3
count log counter _ at most 2
some state _ _ CANCELED
at end no pending
"""


def answers(_program):
    examples = sorted((tool.TOP / "examples").glob("*.txt"))
    chance = random.Random(7)
    for path in examples:
        lines = path.read_text().splitlines(True)
        whole = found(["".join(lines)])
        yield f"what rules find line by line of {path.name}", found(lines), whole
        at = sorted(chance.sample(range(len(lines) + 1), min(5, len(lines))))
        parts = ["".join(lines[begin:end]) for begin, end in zip([0, *at], [*at, len(lines)])]
        yield f"what rules find of {path.name} by blocks of {at}", found(parts), whole
    yield from of_lines()


def found(blocks):
    """What rules find of a transcript, and again of the same after another one."""
    check = checker.Check(rulebook.read(RULES))
    said = []
    for _ in range(2):
        check.begin()
        for block in blocks:
            check.block(block)
        check.end()
        said.append([[it and (it.number, it.line, it.round, it.moment, it.says) for it in (rule.failure, rule.open_end)] for rule in check.rules])
    assert said[0] == said[1]
    return said[0]


def of_lines():
    """Lines that no pattern may match cost nothing, and each other one is read once."""
    text = (tool.TOP / "examples/robot.txt").read_text()
    check = checker.Check(rulebook.read((tool.TOP / "examples/robot.rules").read_text()))
    taken, read = [], []
    line = check.line
    check.line = lambda number, text: taken.append(text) or line(number, text)
    for rule in check.rules:
        rule.about = lambda words, by, of=rule: read.append((id(of), *words)) or type(of).about(of, words, by)
    for _ in range(3):
        check.begin()
        check.block(text)
        check.end()
    yield f"how many of {text.count(chr(10))} lines rules take", len(taken) // 3 < text.count("\n") // 8, True
    yield "how often a rule reads a line", len(read), len(set(read))
    check.known = {(str(number), ()): [] for number in range(checker.KNOWN)}
    check.block(text)
    yield "how many lines are known", len(check.known) < 100, True
