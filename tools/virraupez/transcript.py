"""Transcripts as streams of lines. Each line is checked by docs/transcript.md: its words, the form of each, and its place."""
from __future__ import annotations

import copy
import functools
import io
import re

from . import TYPE_CHECKING, command, grammar

if TYPE_CHECKING:
    from typing import Callable, Dict, FrozenSet, Iterator, List, Mapping, Match, NoReturn, Optional, Tuple, Union

    from .fit import Own
    from .shapes import Readable

    Form = Union["Number", "Name", "Identifier", "Kind"]

# The words of callbacks, in the order of their kinds.
KINDS = ("timer", "message", "request", "reply", "goal", "cancel", "ask", "poll", "response", "code", "feedback", "result")
# Those whose line has an identifier.
IDENTIFIED = ("goal", "cancel", "ask", "poll", "response", "feedback", "result")
# Those that nothing is queued for, so that nothing of theirs is dropped.
UNQUEUED = ("timer", "poll")
# Those whose queue gets at most one item a round and gives one, so that a run drops none.
KEPT = ("reply", "ask", "response", "code")
LONGEST = 1024
STATES = {"1": "ACCEPTED", "2": "EXECUTING", "3": "CANCELING", "4": "SUCCEEDED", "5": "CANCELED", "6": "ABORTED"}
LEAST, MOST, GOALS = -(2**63), 2**63 - 1, 1024


# ---- forms


class Number:
    """A number of some, given as a range or a set. Names may stand for some of them in rules."""

    def __init__(self, says: str, values: Union[range, FrozenSet[int]], names: Mapping[str, int] = {}) -> None:
        self.says, self.values, self.names = says, values, dict(names)
        ends = sorted(values) if isinstance(values, frozenset) else values
        self.low, self.high = ends[0], ends[-1]

    def meets(self, other: Form) -> bool:
        """Whether a number is of both."""
        if not isinstance(other, Number):
            return False
        few = self.values if isinstance(self.values, frozenset) else other.values
        if isinstance(few, frozenset):
            return any(it in self.values and it in other.values for it in few)
        return max(self.low, other.low) <= min(self.high, other.high)

    def regex(self, exact: bool) -> str:
        """The regular expression of its numbers. One that isn't exact takes all of 19 digits too, and is short."""
        if isinstance(self.values, frozenset):
            return f"(?:{'|'.join(map(str, sorted(self.values)))})"
        if not exact and self.high >= 10**18:
            return {0: "(?:0|[1-9][0-9]{0,18})", 1: "[1-9][0-9]{0,18}"}.get(self.low, "(?:0|-?[1-9][0-9]{0,18})")
        parts = [up_to(self.high)] if self.low >= 0 else [up_to(self.high), "-" + up_to(-self.low, least=1)]
        return f"(?:{'|'.join(parts)})" if self.low != 1 else f"(?:{up_to(self.high, least=1)})"


def up_to(most: int, least: int = 0) -> str:
    """The regular expression of the decimal numbers up to one, from 0 or 1."""
    digits = str(most)
    parts = ["0"] * (least == 0) + [f"[1-9][0-9]{{0,{len(digits) - 2}}}"] * (len(digits) > 1)
    for at, digit in enumerate(digits):
        low, rest = "1" if at == 0 else "0", len(digits) - at - 1
        if digit > low:
            parts.append(f"{digits[:at]}[{low}-{chr(ord(digit) - 1)}][0-9]{{{rest}}}")
    return f"(?:{'|'.join([*parts, digits])})" if most else "0"


class Name:
    """The name of a topic, or of an entity of some kinds."""

    def __init__(self, *kinds: str) -> None:
        self.kinds = frozenset(kinds)
        nouns = ["topic" if kind == "topics" else grammar.ENTITIES[kind] for kind in kinds]
        self.says = "the name of " + ("an entity" if len(kinds) > 2 else " or ".join(map(article, nouns)))

    def meets(self, other: Form) -> bool:
        """Whether a name may be of both: topics and all entities share one set of names."""
        return isinstance(other, Name) and bool(self.kinds & other.kinds)

    def regex(self, _exact: bool) -> str:
        return grammar.NAME.pattern


class Identifier:
    says = "an identifier: 8-4-4-4-12 hexadecimal digits"

    def meets(self, other: Form) -> bool:
        return isinstance(other, Identifier)

    def regex(self, _exact: bool) -> str:
        return "[0-9a-f]{8}-[0-9a-f]{4}-[0-9a-f]{4}-[0-9a-f]{4}-[0-9a-f]{12}"


class Kind:
    """The word of a kind of callback."""

    def __init__(self, word: str) -> None:
        self.word, self.says = word, f"the kind {word}"

    def meets(self, other: Form) -> bool:
        return isinstance(other, Kind) and self.word == other.word

    def regex(self, _exact: bool) -> str:
        return self.word


def article(noun: str) -> str:
    return f"{'an' if noun[0] in 'aeiou' else 'a'} {noun}"


STATUSES = {name: int(number) for number, name in STATES.items()}
DECISIONS = {"REJECT": 1, "ACCEPT_AND_EXECUTE": 2, "ACCEPT_AND_DEFER": 3}
CODES = {"NONE": 0, "REJECTED": 1, "UNKNOWN_GOAL_ID": 2, "GOAL_TERMINATED": 3}
VALUE, NUMBER = Number("a value", range(LEAST, MOST + 1)), Number("a number from 1", range(1, MOST + 1))
ROUND, ROUNDS = Number("a round", range(1, grammar.MOMENTS + 1)), Number("a number of rounds", range(grammar.MOMENTS + 1))
MOMENT, STAMP = Number("a moment", range(grammar.LATEST + 1)), Number("a stamp", range(MOST + 1))
ZERO, TRUTH, MOVED = Number("0", frozenset([0])), Number("1 or 0", frozenset([0, 1])), Number("a number of goals", range(GOALS + 1))
STATE = Number("a state", frozenset(STATUSES.values()), STATUSES)
STATUS = Number("the status of a result", frozenset([0, 4, 5, 6]), {"UNKNOWN": 0, **STATUSES})
DECISION = Number("a decision", frozenset(DECISIONS.values()), DECISIONS)
CODE = Number("a return code", frozenset(CODES.values()), {**CODES, **{f"ERROR_{name}": number for name, number in CODES.items()}})
ID = Identifier()
TOPIC, SERVICE, CLIENT = Name("topics"), Name("services"), Name("clients")
SERVER, ASKER, ENTITY = Name("actions"), Name("action_clients"), Name(*grammar.ENTITIES)
# What a callback of each kind is of, its `in` and its `aux`.
CALLBACKS: Dict[str, Tuple[Name, Number, Number]] = {
    "timer": (Name("timers"), MOMENT, ZERO),
    "message": (Name("subscriptions"), VALUE, ZERO),
    "request": (SERVICE, VALUE, ZERO),
    "reply": (CLIENT, VALUE, NUMBER),
    "goal": (SERVER, VALUE, ZERO),
    "cancel": (SERVER, STAMP, MOVED),
    "ask": (SERVER, ZERO, ZERO),
    "poll": (SERVER, VALUE, TRUTH),
    "response": (ASKER, TRUTH, NUMBER),
    "code": (ASKER, CODE, MOVED),
    "feedback": (ASKER, VALUE, NUMBER),
    "result": (ASKER, VALUE, STATUS),
}
# The forms of a line's words behind its first, one tuple for each shape that the line has.
FORMS: Dict[str, List[Tuple[Form, ...]]] = {
    "round": [(ROUND, MOMENT)],
    "expire": [(SERVER, ID)],
    "run": [(of, Kind(kind), *given, *[ID] * (kind in IDENTIFIED)) for kind, (of, *given) in CALLBACKS.items()],
    "drop": [(of, Kind(kind), given) for kind, (of, given, _) in CALLBACKS.items() if kind not in UNQUEUED],
    "pub": [(TOPIC, VALUE)],
    "call": [(CLIENT, NUMBER, VALUE)],
    "reply": [(SERVICE, VALUE)],
    "goal": [(ASKER, ID, VALUE)],
    "cancel": [(ASKER, ID, STAMP)],
    "log": [(ENTITY, VALUE)],
    "feedback": [(SERVER, ID, VALUE)],
    "decide": [(SERVER, ID, DECISION)],
    "state": [(SERVER, ID, STATE)],
    "code": [(SERVER, CODE, MOVED)],
    "ask": [(ASKER, ID)],
    "result": [(SERVER, ID, STATUS, VALUE)],
    "pending": [(CLIENT, NUMBER)],
    "end": [(ROUNDS,)],
}
WORDS = tuple(FORMS)


# ---- reading


def regex(word: str, exact: bool = True) -> str:
    """The regular expression of the lines of a first word."""
    shapes = [[form.regex(exact) for form in forms] for forms in FORMS[word]]
    # What all shapes begin with is tried once, and not once a shape.
    first = f"{word} {shapes[0][0]}" if len({shape[0] for shape in shapes}) == 1 else word
    rests = [" ".join(shape[first != word :]) for shape in shapes]
    return f"{first} (?:{'|'.join(rests)})" if all(rests) else first


@functools.lru_cache(None)
def check(word: str) -> Callable[[str], Optional[Match[str]]]:
    return re.compile(regex(word)).fullmatch


def is_line(line: str) -> bool:
    """Whether a line has the form of one of a transcript."""
    word = line.split(" ", 1)[0]
    return word in FORMS and bool(check(word)(line))


# The words of lines, the most frequent first, since they are tried in this order.
FREQUENT = ("run", "pub", "log", "call", "reply", "round", "state", "feedback")
ALL = re.compile("(?:(?:" + "|".join(regex(word, False) for word in (*FREQUENT, *(it for it in WORDS if it not in FREQUENT))) + ")\n)*").fullmatch
LONG = re.compile("[0-9]{19}").search


def have_forms(block: str) -> bool:
    """Whether each line of a block has its form. Few blocks have numbers of 19 digits, which are asked of line by line."""
    return bool(ALL(block)) and (not LONG(block) or all(map(is_line, block.split("\n")[:-1])))


BLOCK = 1 << 16


def lines(name: str, own: Optional[Own] = None) -> Iterator[str]:
    """The lines of a file, checked, to the line `end`, without their line feeds."""
    for block in blocks(name, own):
        yield from block.split("\n")[:-1]


def blocks(name: str, own: Optional[Own] = None) -> Iterator[str]:
    """The lines of a file by blocks of whole lines, checked."""
    with io.TextIOWrapper(command.source(name), encoding="latin-1", newline="\n") as stream:
        yield from checked(stream, name, own)


def checked(stream: Readable, name: str, own: Optional[Own] = None) -> Iterator[str]:
    """The blocks of a stream, checked: the form of each line, the order of rounds to the end, and what a document's own lines
    must be. A block is tried as a whole, and line by line if something is wrong in it."""
    order, number, rest = Order(name, own), 0, ""
    if own is not None:
        own.begin()
    while True:
        part = stream.read(BLOCK)
        text = rest + part
        cut = text.rfind("\n") + 1 if part else len(text)
        block, rest = text[:cut], text[cut:]
        before = copy.copy(order)
        is_own = own is not None and own.follows(block, number)
        if own is not None and own.is_strict and not is_own:
            before.demand_own(own, block, number)
        if not is_own and not have_forms(block) or not order.takes(block, is_own) or len(rest) > LONGEST:
            before.demand(block + rest, number)
        if block:
            number += block.count("\n")
            yield block
        if not part:
            break
    if not order.is_over:
        raise order.cut(number)


# The lines whose place in a transcript is asked for, each behind a line feed: `^` would be tried at each sign.
ORDERED = re.compile("\n(?:round|pending|end) .*").finditer
LINES = re.compile("[^\n]*\n|[^\n]+$").findall


class Order:
    """The order of a transcript: rounds from 1 on at moments that don't go back, then calls that are pending, then the end; and
    whether it is one of a document, if that is given."""

    only: Optional[Tuple[str, ...]]

    def __init__(self, name: str, own: Optional[Own] = None) -> None:
        self.name, self.own, self.round, self.moment, self.is_over = name, own, 0, 0, False
        # The first words of lines that may follow, if not all may.
        self.only = ("round ", "end ")

    def takes(self, block: str, is_own: bool = False) -> bool:
        """Takes a block of lines that have their forms, and tells whether they may stand there. Names are right in the document's own."""
        at = 0
        for found in ORDERED("\n" + block):
            if found.start() != at and not self.allows(block, at) or not self.allows(block, found.start()) or self.step(found.group()[1:]):
                return False
            at = found.end()
        return (at == len(block) or self.allows(block, at)) and (self.own is None or is_own or self.own.fits(block))

    def allows(self, block: str, at: int) -> bool:
        return self.only is None or block.startswith(self.only, at)

    def step(self, line: str) -> str:
        """Takes a line that says where in the run one is, and gives what is wrong with it."""
        word, *numbers = line.split(" ")
        if word == "pending":
            self.only = ("pending ", "end ")
            return ""
        if word == "end":
            if int(numbers[0]) != self.round:
                return f"{line!r} doesn't follow {self.round} rounds"
            self.is_over, self.only = True, ()
            return self.own.misfit(line) if self.own else ""
        if int(numbers[0]) != self.round + 1 or int(numbers[1]) < self.moment:
            return f"{line!r} doesn't follow round {self.round} at moment {self.moment}"
        self.round, self.moment, self.only = int(numbers[0]), int(numbers[1]), None
        return self.own.misfit(line) if self.own else ""

    # ---- what is wrong

    def demand(self, text: str, number: int) -> None:
        """Takes lines one by one to the first that is wrong, which is told."""
        for number, line in enumerate(LINES(text), number + 1):
            bare, word = line.rstrip("\n"), line.split(" ", 1)[0]
            if line[-1] != "\n" or not is_line(bare) or not self.allows(line, 0):
                raise self.wrong(number, line)
            says = self.step(bare) if word in ("round", "pending", "end") else self.own.misfit(bare) if self.own else ""
            if says:
                raise self.trouble(number, says)

    def demand_own(self, own: Own, block: str, number: int) -> NoReturn:
        """Tells the line of a block that strays from the document's run: as a line that is none or that can't stand there, if it is."""
        at = own.strayed[0] if own.strayed else number + 1
        self.demand("".join(LINES(block)[: at - number]), number)
        raise self.trouble(at, own.stray())

    def trouble(self, number: int, says: str) -> command.Trouble:
        return command.Trouble(f"{command.place(self.name, number)}{says}")

    def wrong(self, number: int, line: str) -> command.Trouble:
        """The trouble with a line that no transcript has there."""
        word = line.split(" ", 1)[0]
        if self.is_over:
            return self.trouble(number, "a line after the line `end`")
        if line.startswith("refused "):
            return self.trouble(number, "no transcript: the program refused the document, and explain tells where")
        if line[-1] != "\n" and len(line) <= LONGEST:
            return self.trouble(number, f"the transcript is cut off within a line, in round {self.round}")
        if is_line(line.rstrip("\n")) and not self.allows(line, 0):
            return self.trouble(number, f"a line `{word}` {'after a call that is pending' if self.round else 'before the first round'}")
        return self.trouble(number, f"no line of a transcript: {line[:100].rstrip(chr(10))!r}")

    def cut(self, number: int) -> command.Trouble:
        """What is missing at the end of a file, if it is cut off."""
        if not number:
            return command.Trouble(f"{command.shown(self.name)}: empty, and no transcript: the program has refused the document, or didn't run")
        return self.trouble(number + 1, f"the line `end` is missing: the transcript is cut off in round {self.round} at moment {self.moment}")


