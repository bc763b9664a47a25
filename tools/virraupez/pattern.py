"""Patterns of transcript lines (docs/holds.md): the first words of a line, each with the column at which it stands.

A pattern is read beside the forms of docs/transcript.md, so that one that no line can match is a fault of the rules. `_` stands
for any word, A|B for one of some, >5, >=5, <5 and <=5 for a number, and a word of capitals for a word that is the same wherever it
stands in the rule; `=ID` is the word ID itself. Names of states, decisions and return codes stand for their numbers."""
from __future__ import annotations

import re

from . import TYPE_CHECKING, grammar, hints, transcript

if TYPE_CHECKING:
    from typing import Callable, Dict, FrozenSet, Iterable, List, Optional, Sequence, Set, Tuple, Union

    from .fit import Kinds
    from .shapes import Found
    from .transcript import Form

    # The first word of a line, with the forms of the others.
    Shape = Tuple[str, Tuple[Form, ...]]
    Test = Callable[[str], bool]

COMPARED: Dict[str, Callable[[int, int], bool]] = {
    ">": lambda one, other: one > other,
    ">=": lambda one, other: one >= other,
    "<": lambda one, other: one < other,
    "<=": lambda one, other: one <= other,
}
BOUND = re.compile("([<>]=?)(.*)")
VARIABLE = re.compile("[A-Z]+[0-9]*")
DECIMAL = re.compile("0|-?[1-9][0-9]{0,19}")
# The words of the rules, which are no names unless `=` stands before them.
RESERVED = ("then", "within", "before", "after", "is", "until", "or", "by", "not", "where", "only", "later", "for")
# Each line's first word with the forms of its other words, once for each of its shapes that a run can have.
SHAPES = [(word, forms) for word, shapes in transcript.FORMS.items() for forms in shapes if word != "drop" or not (isinstance(forms[1], transcript.Kind) and forms[1].word in transcript.KEPT)]
NAMED = {name for it in (transcript.STATUS, transcript.DECISION, transcript.CODE) for name in it.names}


class Wrong(Exception):
    """What is wrong with a rule, and the column at which it stands."""

    def __init__(self, column: int, says: str) -> None:
        super().__init__(says)
        self.column = column


class Token(str):
    """A word of a rule, which knows its column."""

    column: int

    def __new__(cls, text: str, column: int) -> Token:
        made = super().__new__(cls, text)
        made.column = column
        return made


def tokens(line: str) -> List[Token]:
    """The words of a line, without its remark."""
    return [Token(it.group(), it.start() + 1) for it in re.finditer(r"\S+", line.split("#", 1)[0])]


def place_of(word: str, words: Sequence[str]) -> int:
    """The place of a word among others, which have it."""
    return words.index(word)


def is_open(word: str) -> bool:
    return word == "_" or bool(VARIABLE.fullmatch(word))


def shorter(text: str) -> str:
    return repr(text if len(text) <= 40 else text[:39] + "…")


class Pattern:
    """The first words of a line, some of them open. Declared are the names of a document, if one is given."""

    by: Optional[str]
    alternatives: List[List[str]]
    tests: Dict[str, List[Tuple[int, Test]]]

    def __init__(self, words: List[Token], column: int, declared: Optional[Kinds] = None) -> None:
        if not words:
            raise Wrong(column, "a pattern is missing")
        words, self.negated = negations(words)
        # By whose callback a line is written, if that is asked for.
        self.words, self.declared, self.by = words, declared, None
        self.alternatives = [[word] if is_open(word) else split(word) for word in words]
        self.shapes = self.narrowed()
        self.demand_alternatives()
        self.tests = {word: self.tests_of(word) for word in {word for word, _ in self.shapes}}
        self.variables = [(at, word) for at, word in enumerate(words) if self.is_variable(at)]

    # ---- which lines it can match

    def narrowed(self) -> List[Shape]:
        """The shapes of lines that it can match."""
        shapes = SHAPES
        for at, word in enumerate(self.words):
            if word in RESERVED:
                raise Wrong(word.column, f"{word!r} is a word of the rules; ={word} is the name")
            fitting = [shape for shape in shapes if at <= len(shape[1]) and any(self.meaning(it, at, shape) is not None for it in self.alternatives[at])]
            if not fitting:
                raise self.wrong(at, word, shapes)
            shapes = fitting
        return shapes

    def demand_alternatives(self) -> None:
        """Refuses an alternative that no line has there, though another one may."""
        for at, words in enumerate(self.alternatives):
            for word in words:
                if not any(self.meaning(word, at, shape) is not None for shape in self.shapes):
                    raise self.wrong(at, word, self.shapes)

    def meaning(self, word: str, at: int, shape: Shape) -> Union[str, Test, None]:
        """What a word stands for at a place of a shape: the word itself, a test, or nothing if the word can't stand there."""
        if at == 0:
            return word if is_open(word) or word == shape[0] else None
        form = shape[1][at - 1]
        if word == "_" or VARIABLE.fullmatch(word) and not (isinstance(form, transcript.Number) and word in form.names):
            return word if word == "_" or word not in NAMED and not self.is_near(word, form) else None
        if isinstance(form, transcript.Number):
            return number(word, form)
        return self.text(word[1:] if word[0] == "=" else word, form)

    def text(self, word: str, form: Union[transcript.Name, transcript.Identifier, transcript.Kind]) -> Optional[str]:
        """A word that is no number, as a transcript has it."""
        if isinstance(form, transcript.Identifier):
            return grammar.hyphenated(grammar.identifier(word)) if grammar.IDENTIFIER.fullmatch(word) else None
        if isinstance(form, transcript.Kind):
            return word if word == form.word else None
        if self.declared is not None:
            return word if self.declared.get(word) in form.kinds else None
        return word if grammar.NAME.fullmatch(word) else None

    def is_near(self, word: str, form: Form) -> bool:
        """Whether a word of capitals is hardly a variable, since it is nearly the name of a number or is declared."""
        names = getattr(form, "names", ())
        return bool(names) and hints.nearest(word, names, 0.8) is not None or self.declared is not None and word in self.declared

    # ---- what it tests

    def is_variable(self, at: int) -> bool:
        """Whether a word is a variable; a name that stands for a number is none."""
        word = self.words[at]
        return bool(VARIABLE.fullmatch(word)) and any(self.meaning(word, at, shape) == word for shape in self.shapes)

    def tests_of(self, first: str) -> List[Tuple[int, Test]]:
        """The tests of the lines of a first word, with the places of what they test."""
        tests = []
        for at in range(1, len(self.words)):
            texts, compared = self.meanings(first, at)
            if texts is not None:
                tests += [(at, opposite(it) if at in self.negated else it) for it in compared or [texts.__contains__]]
        return tests

    def meanings(self, first: str, at: int) -> Tuple[Optional[FrozenSet[str]], List[Test]]:
        """The texts that a word may be at a place of lines of a first word, and the tests of its number. No texts are any word."""
        found = [self.meaning(it, at, shape) for it in self.alternatives[at] for shape in self.shapes if shape[0] == first]
        compared, texts = [it for it in found if callable(it)], [it for it in found if it is not None and not callable(it)]
        return None if any(map(is_open, texts)) else frozenset(texts), compared

    def expression(self, first: str) -> str:
        """A regular expression of the lines of a first word that it may match. Numbers, and what `not` stands before, are tested alone."""
        words = [first]
        for at in range(1, len(self.words)):
            texts, compared = self.meanings(first, at)
            words.append(r"\S+" if texts is None or compared or at in self.negated else grouped(map(re.escape, texts)))
        return " ".join(words)

    def matches(self, words: Sequence[str]) -> bool:
        tests = self.tests.get(words[0])
        return tests is not None and len(words) >= len(self.words) and all(test(words[at]) for at, test in tests)

    def bound(self, words: Sequence[str]) -> Optional[Found]:
        """What its variables stand for on a line; None if one stands for two words."""
        found: Found = {}
        for at, name in self.variables:
            if found.setdefault(name, words[at]) != words[at]:
                return None
        return found

    def forms_at(self, at: int) -> List[Form]:
        """The forms that a word may have at a place; the first word has none."""
        return [forms[at - 1] for _, forms in self.shapes if at]

    def firsts(self) -> Set[str]:
        return set(self.tests)

    def begins(self) -> List[Tuple[str, str]]:
        """The first two words of the lines that it matches; `_` is any."""
        is_named = len(self.words) > 1 and not self.is_variable(1) and 1 not in self.negated
        names = [it.lstrip("=") for it in self.alternatives[1]] if is_named else ["_"]
        return [(first, name) for first in self.firsts() for name in names]

    def is_every(self, first: str) -> bool:
        """Whether it matches each line of a first word, and no other."""
        return self.firsts() == {first} and not self.tests[first] and not self.variables

    def is_first_round(self) -> bool:
        """Whether it matches the line of the first round alone."""
        return self.words[0] == "round" and len(self.words) > 1 and 1 not in self.negated and self.words[1] in ("1", "=1", "<=1", "<2")

    def has_first_round(self) -> bool:
        """Whether it matches the line of the first round, whatever its moment is."""
        return self.firsts() == {"round"} and all(at == 1 and test("1") for at, test in self.tests["round"])

    # ---- what is wrong

    def wrong(self, at: int, word: str, shapes: List[Shape]) -> Wrong:
        """The fault of a word that no line has at a place."""
        column = self.words[at].column + self.words[at].find(word)
        if at == 0 and word in transcript.WORDS:
            return Wrong(column, f"no line `{word}` has the words that follow")
        if at == 0:
            return Wrong(column, f"no line begins with {shorter(word)}" + meant(word, transcript.WORDS))
        longest = max(len(forms) for _, forms in shapes)
        if at > longest:
            of = " ".join(self.words[:1] if is_open(self.words[0]) else [self.words[0]])
            return Wrong(column, f"a line {of} has {longest + 1} words, and this is one more")
        forms = [forms[at - 1] for _, forms in shapes if at <= len(forms)]
        return Wrong(column, fault_of(word, forms, self.declared, self.words[0]))


def grouped(expressions: Iterable[str]) -> str:
    """A regular expression of some."""
    some = sorted(set(expressions))
    return some[0] if len(some) == 1 else f"(?:{'|'.join(some)})"


def negations(words: List[Token]) -> Tuple[List[Token], Set[int]]:
    """The words without each `not`, and the places of those that it stands before."""
    kept: List[Token] = []
    negated: Set[int] = set()
    for at, word in enumerate(words):
        if word == "not":
            behind = words[at + 1] if at + 1 < len(words) else "_"
            if at == 0 or is_open(behind) or behind == "not":
                raise Wrong(word.column, "`not` stands before a word that names or compares something: run not motor message")
            negated.add(len(kept))
        else:
            kept.append(word)
    return kept, negated


def opposite(test: Test) -> Test:
    return lambda word: not test(word)


def split(word: Token) -> List[str]:
    """The alternatives of a word."""
    parts = word.split("|")
    if "" in parts:
        raise Wrong(word.column, "a word is missing beside |")
    for part in parts:
        if len(parts) > 1 and (part == "_" or part[0] in "<>"):
            raise Wrong(word.column + word.find(part), f"{part!r} can't stand beside |")
    return parts


def number(word: str, form: transcript.Number) -> Union[str, Test, None]:
    """What stands for a number of a form: its text, or a test; None if no number of the form is meant."""
    bound = BOUND.fullmatch(word)
    if bound and DECIMAL.fullmatch(bound[2]):
        compare, to = COMPARED[bound[1]], int(bound[2])
        if any(compare(it, to) for it in (form.low, form.high)):
            return lambda it: compare(int(it), to)
        return None
    word = word[1:] if word[0] == "=" else word
    if word.upper() in form.names:
        found = form.names[word.upper()]
        return str(found) if found in form.values else None
    return word if DECIMAL.fullmatch(word) and int(word) in form.values else None


# ---- what is said of a word that can't be


def meant(word: str, names: Iterable[str]) -> str:
    hint = hints.meant(word, names)
    return f"; {hint}" if hint else ""


def fault_of(word: str, forms: Sequence[Form], declared: Optional[Kinds], first: str) -> str:
    """What is wrong with a word at a place of some forms."""
    wanted = " or ".join(dict.fromkeys(form.says for form in forms))
    named = next((form for form in forms if isinstance(form, transcript.Number) and form.names), None)
    if all(isinstance(form, transcript.Kind) for form in forms):
        if first == "drop" and word in (*transcript.KEPT, *transcript.UNQUEUED):
            return f"no run has such a line: nothing of the kind {word} is ever dropped"
        kinds = [form.word for form in forms if isinstance(form, transcript.Kind)]
        return f"{shorter(word)} is no kind of callback there" + (meant(word, kinds) or f"; there {'is' if len(kinds) == 1 else 'are'} {', '.join(kinds)}")
    if named and not BOUND.match(word) and not DECIMAL.fullmatch(word):
        near = hints.nearest(word, named.names)
        return f"{shorter(word)} is no {named.says.split(' ', 1)[1]}: " + (f"did you mean {near}?" if near else f"there are {', '.join(names_of(named))}")
    if word in NAMED:
        return f"{word} is the name of a number, and no variable; {wanted} is wanted: write the number"
    if declared is not None and any(isinstance(form, transcript.Name) for form in forms):
        return undeclared(word, forms, declared)
    bound = BOUND.match(word)
    if bound:
        compares = all(isinstance(form, transcript.Number) for form in forms) and DECIMAL.fullmatch(bound[2])
        return f"{shorter(word)} holds of no number that can stand there: {wanted}" if compares else f"{shorter(word)} compares with no number; {wanted} is wanted"
    return f"{shorter(word)} can't stand there: {wanted} is wanted{ranged(forms)}"


def names_of(form: transcript.Number) -> List[str]:
    """The names that stand for numbers which a form has, each once."""
    return [name for name, it in form.names.items() if it in form.values and not name.startswith("ERROR_")]


def ranged(forms: Sequence[Form]) -> str:
    """The numbers that may stand at a place, if they are few."""
    values = {it for form in forms if isinstance(form, transcript.Number) and isinstance(form.values, frozenset) for it in form.values}
    return f", one of {', '.join(map(str, sorted(values)))}" if len(values) > 2 else ""


def undeclared(word: str, forms: Sequence[Form], declared: Kinds) -> str:
    kinds = {kind for form in forms if isinstance(form, transcript.Name) for kind in form.kinds}
    if VARIABLE.fullmatch(word) and word in declared:
        return f"{word} is declared, and here a variable; ={word} is the name"
    name = word.lstrip("=")
    if name in declared:
        kind = declared[name]
        return f"{name} is {transcript.article(noun(kind))}, and here the name of {' or '.join(transcript.article(noun(it)) for it in sorted(kinds))} is wanted"
    return f"the document declares no {shorter(name)}" + meant(name, [it for it, kind in declared.items() if kind in kinds])


def noun(kind: str) -> str:
    return "topic" if kind == "topics" else grammar.ENTITIES[kind]


