"""JSON as the program's reader takes it (docs/document.md), with the place of what it can't take.

read(text) gives the value of a text. Objects are dicts, and a Doubled one where a name stands twice in it; a number that is
no integer of 64 bits is FRACTION, since nobody asks which. places(text, paths) tells where values of a text stand that was
read. Offsets count characters. Reading takes time in proportion to the text, and nesting is bounded before it is followed."""
from __future__ import annotations

import re

from . import TYPE_CHECKING, ticks

if TYPE_CHECKING:
    from typing import Any, Callable, Dict, Iterable, List, Match, Optional, Set, Tuple, Union

    from .shapes import Key, Path

    # The paths that are looked for, by their first keys.
    Tree = Dict[Key, "Tree"]
    Object = Dict[str, Any]
else:
    Object = dict


def known(find: Any) -> Callable[..., Match[str]]:
    """What finds a pattern where it is known to be, so that it never gives None."""
    found: Callable[..., Match[str]] = find
    return found


LEVELS = 127
WHITE = known(re.compile(r"[ \t\n\r]*").match)
PLAIN = re.compile(r'"([^"\\\x00-\x1f]*)"').match
CHUNK = known(re.compile(r'[^"\\\x00-\x1f]*').match)
INTEGER = re.compile(r"(-?(?:0|[1-9][0-9]*))(?![0-9.eE])").match
DECIMAL = re.compile(r"-?(?:0|[1-9][0-9]*)(?:\.[0-9]+)?(?:[eE][+-]?[0-9]+)?(?![0-9.eE])").match
# Integers of a list with their commas. Lists of millions are read by thousands.
RUN = re.compile(r"(?:(?:0|-?[1-9][0-9]{0,17})[ \t\n\r]*,[ \t\n\r]*){1,4096}").match
HEXADECIMAL = re.compile(r"[0-9A-Fa-f]{4}").match
WORDS = {"t": ("true", True), "f": ("false", False), "n": ("null", None)}
ESCAPES = {'"': '"', "\\": "\\", "/": "/", "b": "\b", "f": "\f", "n": "\n", "r": "\r", "t": "\t"}
# Digits that end where a list or an object should go on, and the letters behind them.
NUMBER_BEFORE = re.compile(r"-?\b[0-9]+$").search
WORD = re.compile(r"[A-Za-z_]").match
# What stands behind a text that ends, so that there is a character to look at.
END = "\0"


class NotJson(Exception):
    """The place at which a text is no JSON, the path of the value that was read there, and what is wanted."""

    path: List[Key]

    def __init__(self, at: int, wanted: str, hint: str = "") -> None:
        super().__init__(wanted)
        self.at, self.wanted, self.hint, self.path = at, wanted, hint, []


class Fraction:
    """A number that is neither a count nor a value."""


class Doubled(Object):
    """An object in which names stand twice or more, of each of which the last counts."""

    twice: Set[str]

    def __init__(self, fields: Dict[str, Any]) -> None:
        super().__init__(fields)
        self.twice = set()


FRACTION = Fraction()


# ---- reading


class Reader:
    def __init__(self, text: str) -> None:
        self.text, self.length = text + END, len(text)

    def document(self) -> Any:
        value, at = self.value(WHITE(self.text).end(), 0)
        at = WHITE(self.text, at).end()
        if at != self.length:
            raise NotJson(at, "nothing behind the document", "a document is one JSON value")
        return value

    def value(self, at: int, depth: int) -> Tuple[Any, int]:
        """The value that begins at a place, and where it ends."""
        sign = self.text[at]
        if sign == '"':
            plain = PLAIN(self.text, at)
            return (plain.group(1), plain.end()) if plain else self.string(at + 1)
        if sign == "[" or sign == "{":
            if depth == LEVELS:
                raise NotJson(at, f"at most {LEVELS} levels of lists and objects")
            return self.list(at + 1, depth + 1) if sign == "[" else self.object(at + 1, depth + 1)
        whole = INTEGER(self.text, at)
        if whole:
            return integer(whole, at), whole.end()
        if sign in WORDS and self.text.startswith(WORDS[sign][0], at):
            word, value = WORDS[sign]
            return value, at + len(word)
        return FRACTION, self.decimal(at)

    def list(self, at: int, depth: int) -> Tuple[List[Any], int]:
        text, begin = self.text, at - 1
        items: List[Any] = []
        at = WHITE(text, at).end()
        if text[at] == "]":
            return items, at + 1
        run = RUN(text, at)
        while True:
            if run:
                items += map(int, run.group().split(",")[:-1])
                at = self.not_closed(run.end(), "]", "item")
                run = RUN(text, at)
                continue
            try:
                item, at = self.value(at, depth)
            except NotJson as fault:
                fault.path.insert(0, len(items))
                raise
            items.append(item)
            if text[at] not in ",]":
                at = WHITE(text, at).end()
            if text[at] == "]":
                return items, at + 1
            at = self.behind_comma(at, "]", "item", begin)

    def object(self, at: int, depth: int) -> Tuple[Dict[str, Any], int]:
        text, begin = self.text, at - 1
        fields: Dict[str, Any] = {}
        at = WHITE(text, at).end()
        if text[at] == "}":
            return fields, at + 1
        while True:
            name, at = self.name(at)
            try:
                value, at = self.value(at, depth)
            except NotJson as fault:
                fault.path.insert(0, name)
                raise
            if name in fields:
                fields = fields if type(fields) is Doubled else Doubled(fields)
                fields.twice.add(name)
            fields[name] = value
            if text[at] not in ",}":
                at = WHITE(text, at).end()
            if text[at] == "}":
                return fields, at + 1
            at = self.behind_comma(at, "}", "field", begin)

    def behind_comma(self, at: int, close: str, part: str, begin: int) -> int:
        """Where the next part of a list or an object begins, whose comma is wanted at a place."""
        if self.text[at] != ",":
            raise self.unended(at, close, begin)
        return self.not_closed(WHITE(self.text, at + 1).end(), close, part)

    def not_closed(self, at: int, close: str, part: str) -> int:
        """The place behind a comma, at which a list or an object doesn't end."""
        if self.text[at] == close:
            raise NotJson(at, f"another {part} behind the comma", f"leave out the comma before {close}")
        return at

    def name(self, at: int) -> Tuple[str, int]:
        """The name of a field, and where its value begins."""
        text = self.text
        if text[at] != '"':
            word = re.compile(r"'([^'\n]*)'|(\w+)").match(text, at)
            hint = "JSON has no comments" if text[at] in "/#" else f'write "{word[1] or word[2]}": texts stand in double quotes' if word else ""
            raise NotJson(at, "the name of a field, in double quotes", hint)
        plain = PLAIN(text, at)
        name, at = (plain.group(1), plain.end()) if plain else self.string(at + 1)
        at = WHITE(text, at).end()
        if text[at] != ":":
            raise NotJson(at, f"a colon behind the name {name!r}")
        return name, WHITE(text, at + 1).end()

    def string(self, at: int) -> Tuple[str, int]:
        """The text behind a quote, and where it ends."""
        text, parts, begin = self.text, [], at
        while True:
            chunk = CHUNK(text, at)
            parts.append(chunk.group())
            at = chunk.end()
            if text[at] == '"':
                return "".join(parts), at + 1
            if text[at] == "\\":
                part, at = self.escape(at)
                parts.append(part)
            elif at == self.length:
                raise NotJson(begin - 1, 'a text that ends with "', "a quote is missing")
            else:
                raise NotJson(at, "a text on one line, without control characters", r"write \n for a line feed, \t for a tab")

    def escape(self, at: int) -> Tuple[str, int]:
        """What a backslash says, and where that ends."""
        sign = self.text[at + 1]
        if sign in ESCAPES:
            return ESCAPES[sign], at + 2
        if sign != "u":
            raise NotJson(at, r'one of \" \\ \/ \b \f \n \r \t \u0000', r"a backslash itself is \\")
        number = self.unit(at)
        if not 0xD800 <= number < 0xE000:
            return chr(number), at + 6
        if number < 0xDC00 and self.text.startswith("\\u", at + 6):
            low = self.unit(at + 6)
            if 0xDC00 <= low < 0xE000:
                return chr(0x10000 + ((number - 0xD800) << 10) + (low - 0xDC00)), at + 12
        raise NotJson(at, "both halves of a surrogate pair", "write the character itself")

    def unit(self, at: int) -> int:
        digits = HEXADECIMAL(self.text, at + 2)
        if not digits:
            raise NotJson(at, r"four hexadecimal digits behind \u")
        return int(digits.group(), 16)

    def decimal(self, at: int) -> int:
        """Where a number ends that is no integer."""
        number = DECIMAL(self.text, at)
        if not number:
            raise self.no_value(at)
        if abs(float(number.group())) == float("inf"):
            raise NotJson(at, "a number in the range of a 64-bit float")
        return number.end()

    # ---- what is wrong

    def no_value(self, at: int) -> NotJson:
        """The fault of a place where a value is wanted and none stands."""
        if at == self.length:
            return NotJson(at, "a value" if self.length else "a document", "the text ends too early")
        rest = self.text[at : at + 80]
        for begin, hint in HINTS:
            found = re.match(begin, rest)
            if found:
                return NotJson(at, "a value", found.expand(hint))
        return NotJson(at, "a value: an object, a list, a text in double quotes, a number, true, false or null")

    def unended(self, at: int, close: str, begin: int) -> NotJson:
        """The fault of a list or an object that neither goes on nor ends."""
        if at == self.length:
            line, column = line_column(self.text, begin)
            return NotJson(at, f"a comma or {close}", f"the {self.text[begin]} at {line}:{column} isn't closed")
        digits = NUMBER_BEFORE(self.text[max(at - 40, 0) : at])
        if digits and WORD(self.text, at):
            return self.no_number(at - len(digits.group()))
        hint = "a comma is missing" if re.match(r'["\w\[{-]', self.text[at]) else ""
        return NotJson(at, f"a comma or {close}", "JSON has no comments" if self.text[at] in "/#" else hint)

    def no_number(self, at: int) -> NotJson:
        """The fault of digits with letters behind them."""
        word: str = known(re.compile(r"-?\w+").match)(self.text, at).group()
        number = numbered(word)
        hint = f"write {number}, in decimal digits" if number is not None else "a text stands in double quotes"
        unit = re.fullmatch("(-?(?:0|[1-9][0-9]{0,17}))([a-zA-Z]+)", word)
        if number is None and unit:
            found, says = ticks.unitless(int(unit[1]), unit[2])
            hint = f"write {found} {says}" if found is not None else "write how many ticks this is, without a unit"
        return NotJson(at, "a number in decimal digits", hint)


HINTS = (
    (r"'([^'\"\\\n]*)'", r'write "\1": texts stand in double quotes'),
    ("'", "texts stand in double quotes"),
    ("[/#]", "JSON has no comments"),
    ("True", "write true, as JSON does"),
    ("False", "write false, as JSON does"),
    ("None", "write null, as JSON does, or leave the field out"),
    ("[-+]?(NaN|Infinity|inf|nan)", "JSON has no such number"),
    (r"\+0*([0-9]+)(?![\w.])", r"write \1, without a sign"),
    (r"\+", "write the number without its sign"),
    (r"(-?)0+([0-9]+)(?![\w.])", r"write \1\2, without zeros before it"),
    (r"-?0[0-9]", "a number has no zeros before it"),
    (r"([A-Za-z_/][\w/]*)(?!\w)", r'write "\1": texts stand in double quotes'),
    (r"-?\.[0-9]", "a fraction has a digit before its point"),
    (r"-?[0-9]+\.", "a fraction has digits behind its point"),
    ("[,]", "a value is missing before the comma"),
    (r"[\]}:]", "a value is missing"),
    (r"\w", "a text stands in double quotes"),
)


def numbered(word: str) -> Optional[int]:
    """The number that a word of another language is, as 0x32 and 1_000 are, or None."""
    try:
        return int(word, 0) if re.fullmatch("-?(0[xX][0-9a-fA-F_]+|0[oO][0-7_]+|0[bB][01_]+|[1-9][0-9_]*)", word) else None
    except ValueError:
        return None


def integer(whole: Match[str], at: int) -> Union[int, Fraction]:
    """An integer of 64 bits, or a number that is in the range of a float."""
    digits = whole.group(1)
    if len(digits) < 19:
        return int(digits) if digits != "-0" else FRACTION
    if len(digits) < 22 and -(2**63) <= int(digits) < 2**64:
        return int(digits)
    if float(digits) in (float("inf"), float("-inf")):
        raise NotJson(at, "a number in the range of a 64-bit float")
    return FRACTION


def read(text: str) -> Any:
    return Reader(text).document()


def line_column(text: str, at: int) -> Tuple[int, int]:
    """The line and the column of an offset, both from 1."""
    return text.count("\n", 0, at) + 1, at - text.rfind("\n", 0, at)


# ---- places

QUOTE = known(re.compile(r'[^"\\]*["\\]').match)
MARK = known(re.compile(r'"(?:[^"\\]*")?|[\[\]{}]').search)
SCALAR = known(re.compile(r"[^,\]} \t\n\r]*").match)


def string_end(text: str, at: int) -> int:
    """Where a text ends whose first quote stands at a place."""
    while True:
        at = QUOTE(text, at + 1).end()
        if text[at - 1] == '"':
            return at


def skip(text: str, at: int) -> int:
    """Where a value ends that begins at a place."""
    if text[at] == '"':
        return string_end(text, at)
    if text[at] not in "[{":
        return SCALAR(text, at).end()
    depth = 0
    while True:
        mark = MARK(text, at)
        at, sign = mark.end(), mark.group()
        if sign == '"':
            at = string_end(text, at - 1)
        elif len(sign) == 1:
            depth += 1 if sign in "[{" else -1
            if depth == 0:
                return at


class Place:
    """Where a value stands: the offset of its name in an object, or its own in a list, and those of its begin and its end."""

    def __init__(self, name: int, begin: int, end: int) -> None:
        self.name, self.begin, self.end = name, begin, end


def places(text: str, paths: Iterable[Path]) -> Dict[Path, Place]:
    """The place of each of some paths of a text that was read."""
    tree: Tree = {}
    for path in paths:
        branch = tree
        for key in path:
            branch = branch.setdefault(key, {})
    found: Dict[Path, Place] = {}
    begin = WHITE(text).end()
    found[()] = Place(begin, begin, follow(text, begin, tree, (), found))
    return found


def follow(text: str, at: int, tree: Tree, path: Path, found: Dict[Path, Place]) -> int:
    """Where a value ends; the places of the paths in it, which a tree holds, are noted."""
    if not tree or text[at] not in "[{":
        return skip(text, at)
    in_list, index, at = text[at] == "[", 0, WHITE(text, at + 1).end()
    while text[at] not in "]}":
        run = RUN(text, at) if in_list else None
        count = text.count(",", at, run.end()) if run else 0
        if run and not any(isinstance(key, int) and index <= key < index + count for key in tree):
            at, index = run.end(), index + count
            continue
        name = at
        key: Key = index
        if not in_list:
            end = string_end(text, at)
            key = Reader(text[at:end]).string(1)[0]
            at = WHITE(text, WHITE(text, end).end() + 1).end()
        if key in tree:
            end = follow(text, at, tree[key], path + (key,), found)
            found[path + (key,)] = Place(name, at, end)
        else:
            end = skip(text, at)
        at, index = WHITE(text, end).end(), index + 1
        if text[at] == ",":
            at = WHITE(text, at + 1).end()
    return at + 1


