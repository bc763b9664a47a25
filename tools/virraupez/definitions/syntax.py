"""The language of the definitions (.antt), as far as they use it: signatures, equations, records and `data`, and expressions."""
from __future__ import annotations

import re
import typing

from .. import TYPE_CHECKING
from . import tree
from .code import Enum
from .page import Unknown

if TYPE_CHECKING:
    from typing import Callable, Dict, Iterable, Iterator, List, Optional, Sequence, Tuple, TypeVar, Union

    from .page import Line, Part

    Read = TypeVar("Read")
    Operators = Dict[str, Tuple[int, str]]

TOKEN = re.compile(r'"(?:[^"\\]|\\.)*"|[(){};,]|[^\s(){};,"]+')
OPEN, CLOSE = ("(", "{"), (")", "}")
STARTS = ("abbrev", "unfoldable", "pub", "infix", "infixl", "infixr")
# What ends an expression, and what begins one that reaches as far as it can.
ENDS = {*CLOSE, ";", ",", "=", "then", "else", "in", "←", ":", "|"}
BEGINS = ("λ", "let", "if", "do")
# Operators with how tightly they bind, and to which side; each is a name of the library with ◌ in the places of its two sides.
OPERATORS = {
    "||": (30, "left"),
    "&&": (35, "left"),
    "==": (40, ""),
    "+": (65, "left"),
    "-": (65, "left"),
    "++": (65, "right"),
    "∷": (67, "right"),
    "*": (70, "left"),
    "/": (70, "left"),
    "%": (70, "left"),
    "^": (75, "right"),
}


class Token(typing.NamedTuple):
    text: str
    at: int
    column: int
    is_first: bool


def tokens_of(lines: Iterable[Line]) -> List[Token]:
    found = []
    for line in lines:
        if not line.text.lstrip().startswith("--"):
            found += [Token(it.group(), line.at, it.start(), number == 0) for number, it in enumerate(TOKEN.finditer(line.text))]
    return found


def pieces(tokens: Iterable[Token]) -> List[List[Token]]:
    """The pieces of a part: each begins at the left edge. A line in open brackets may begin there too, unless it begins a definition."""
    found: List[List[Token]] = []
    depth = 0
    for token in tokens:
        if token.column == 0 and (token.text in STARTS or depth == 0 and token.text not in CLOSE):
            found.append([])
            depth = 0
        found[-1].append(token)
        depth += (token.text in OPEN) - (token.text in CLOSE)
    return found


def operators_of(parts: Sequence[Part]) -> Operators:
    """The operators of the library, and those that the lines `infix` of the page make."""
    made = dict(OPERATORS)
    for line in (line for part in parts for line in part.lines if line.text.startswith("infix")):
        side, level, *names = line.text.split()
        made.update((name.strip("◌"), (int(level), {"l": "left", "r": "right"}.get(side[5:], ""))) for name in names)
    return made


def items(part: Part, operators: Operators) -> Iterator[Union[tree.Definition, Enum]]:
    """What a part of the page defines: definitions, and an Enum for each `data`. Of a record nothing is needed."""
    made = {}
    for piece in pieces(tokens_of(part.lines)):
        words = [token.text for token in piece]
        if words[:2] == ["pub", "data"]:
            yield data(part.file, piece)
        elif words[0] in STARTS[:3] and words[:2] != ["pub", "record"]:
            name = words[words.index(":") - 1]
            made[name] = tree.Definition(name, part.file, piece[0].at, words[words.index(":") + 1 :])
        elif words[:2] != ["pub", "record"] and words[0] not in STARTS:
            add_equation(piece, operators, made)
    yield from made.values()


def data(file: str, piece: List[Token]) -> Enum:
    """A `data`: each of its lines is a variant and its type, which has an arrow behind each field."""
    made = Enum(piece[2].text, file, piece[0].at)
    begin = [token.text for token in piece].index("where") + 1
    for at, token in enumerate(piece[begin:], begin):
        if token.is_first:
            variant, depth = token.text, 0
            made.fields[variant] = 0
        depth += (token.text in OPEN) - (token.text in CLOSE)
        made.fields[variant] += token.text == "→" and depth == 0
    return made


def add_equation(piece: List[Token], operators: Operators, made: Dict[str, tree.Definition]) -> None:
    parser = Parser(piece, operators)
    name, patterns = parser.left_side()
    if name not in made:
        raise Unknown(piece[0].at, f"an equation of {name}, which has no type before it")
    if not made[name].is_type():
        body = parser.expression()
        parser.demand_end()
        made[name].equations.append(tree.Equation(patterns, body, piece[0].at))


class Parser:
    """A walk over tokens. A line that begins no farther right than `margin` ends what is read, unless a bracket is open."""

    def __init__(self, tokens: List[Token], operators: Operators = OPERATORS) -> None:
        self.tokens, self.operators, self.place, self.margin, self.begun = tokens, operators, 0, -1, -1

    # ---- tokens

    def here(self) -> str:
        """The text of the next token, or "" where what is read ends."""
        if self.place == len(self.tokens):
            return ""
        token = self.tokens[self.place]
        return "" if token.is_first and token.column <= self.margin and self.place != self.begun else token.text

    def line(self) -> int:
        return self.tokens[min(self.place, len(self.tokens) - 1)].at if self.tokens else 1

    def take(self, wanted: Optional[str] = None) -> str:
        text = self.here()
        if not text or wanted not in (None, text):
            before = f"`{self.tokens[self.place].text}`" if self.place < len(self.tokens) else "the end"
            raise Unknown(self.line(), f"{f'`{wanted}`' if wanted else 'more'} is wanted before {before}")
        self.place += 1
        return text

    def demand_end(self) -> None:
        if self.here():
            raise Unknown(self.line(), f"nothing more is wanted, and there is `{self.here()}`")

    def bracketed(self, close: str, read: Callable[[], Read]) -> Read:
        """What `read` reads up to a bracket that closes, in which lines may begin anywhere."""
        margin, self.margin = self.margin, -1
        found = read()
        self.take(close)
        self.margin = margin
        return found

    # ---- patterns

    def left_side(self) -> Tuple[str, List[tree.Pattern]]:
        """The name that an equation defines, and its patterns; an operator stands between two of them."""
        if self.here() != "(" and self.tokens[1].text not in self.operators:
            name, patterns = self.take(), []
            while self.here() != "=":
                patterns.append(self.pattern())
        else:
            left, name = self.pattern(), f"◌{self.take()}◌"
            patterns = [left, self.pattern()]
        self.take("=")
        return name, patterns

    def pattern(self) -> tree.Pattern:
        """A word, or a pattern in brackets."""
        at = self.line()
        word = self.take()
        if word == "(":
            return self.bracketed(")", self.made)
        before, _, variant = word.partition(".")
        return tree.Made(before, variant, [], at) if variant else tree.Binds(word, at)

    def made(self) -> tree.Pattern:
        """A variant with its fields, or the first of a list and the others."""
        at, first, fields = self.line(), self.pattern(), []
        while self.here() not in (")", "∷"):
            fields.append(self.pattern())
        if fields:
            first = tree.Made(getattr(first, "word", None), first.name, fields, at)
        if self.here() != "∷":
            return first
        self.take()
        return tree.Made(None, "∷", [first, self.made()], at)

    # ---- expressions

    def expression(self, least: int = 0) -> tree.Expression:
        left = self.operand()
        while self.here() in self.operators and self.operators[self.here()][0] >= least:
            at, operator = self.line(), self.take()
            level, side = self.operators[operator]
            left = tree.Apply(tree.Name(f"◌{operator}◌", at), [left, self.expression(level + (side != "right"))])
        return left

    def operand(self) -> tree.Expression:
        if self.here() in BEGINS:
            return {"λ": self.function, "let": self.let, "if": self.choice, "do": self.steps}[self.take()]()
        function, given = self.atom(), []
        while self.here() and self.here() not in ENDS and self.here() not in self.operators:
            given.append(self.atom())
        return tree.Apply(function, given) if given else function

    def function(self) -> tree.Expression:
        """`x y. body`: the last of the names has the dot."""
        names = [self.take()]
        while not names[-1].endswith("."):
            names.append(self.take())
        return tree.Lambda([*names[:-1], names[-1][:-1]], self.expression())

    def let(self) -> tree.Expression:
        name = self.take()
        self.take("=")
        value = self.expression()
        self.take("in")
        return tree.Let(name, value, self.expression())

    def choice(self) -> tree.Expression:
        test = self.expression()
        self.take("then")
        yes = self.expression()
        self.take("else")
        return tree.If(test, yes, self.expression())

    def steps(self) -> tree.Expression:
        """The lines of a `do`, which begin in one column. `x ← e` and what comes after it is `e >>= (λ x. ..)`."""
        self.begun = self.place
        column, margin = self.tokens[self.place].column, self.margin
        self.margin = column
        at, name = self.line(), None
        if self.tokens[self.place + 1].text == "←":
            name = self.take()
            self.take()
        made = self.expression()
        self.margin = margin
        if name is None:
            return made
        if self.place == len(self.tokens) or self.tokens[self.place].column != column:
            raise Unknown(at, "the last line of a `do` is no step")
        return tree.Apply(tree.Name("◌>>=◌", at), [made, tree.Lambda([name], self.steps())])

    def atom(self) -> tree.Expression:
        at, word = self.line(), self.take()
        if word == "(":
            return self.fields(self.bracketed(")", self.within))
        if word == "record":
            base = None if self.here() == "{" else self.atom()
            self.take("{")
            return self.fields(tree.Record(base, self.bracketed("}", self.assignments)))
        if word.isdecimal():
            return tree.Number(int(word))
        if word.startswith('"'):
            return tree.Text(word[1:-1])
        if word in ENDS or word in self.operators:
            raise Unknown(at, f"no expression begins with `{word}`")
        head, *names = word.split(".")
        if names and names[0][:1].isupper():
            return tree.Variant(head, names[0], at)
        made: tree.Expression = tree.Name(head, at)
        for name in names:
            made = tree.Field(made, name)
        return made

    def within(self) -> tree.Expression:
        """What stands in round brackets: an expression, or several with commas."""
        items = [self.expression()]
        while self.here() == ",":
            self.take()
            items.append(self.expression())
        return items[0] if len(items) == 1 else tree.Tuple(items)

    def assignments(self) -> List[Tuple[str, tree.Expression]]:
        fields = []
        while self.here() != "}":
            name = self.take()
            self.take("=")
            fields.append((name, self.expression()))
            if self.here() == ";":
                self.take()
        return fields

    def fields(self, made: tree.Expression) -> tree.Expression:
        """An expression with the fields that are asked of it behind its bracket."""
        while self.here().startswith(".") and len(self.here()) > 1:
            for name in self.take()[1:].split("."):
                made = tree.Field(made, name)
        return made


