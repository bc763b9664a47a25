"""What the definitions take from the toolchain's libraries. All of this is trusted: a test compares it with the libraries' own
definitions where the toolchain is. Each function says in a sentence what it is; one that is given to it takes one argument at a time.

FUNCTIONS has them by their names. Of IN_PLACE each is written where it is used, as Python text, and computes only what it needs."""
from __future__ import annotations

import re

from .. import TYPE_CHECKING, json_text
from .values import NONE, some, tag

if TYPE_CHECKING:
    from typing import Any, Callable, Dict, Set, TypeVar

    from .values import Function, Items, Numbers, Option, Test, Value

    Made = TypeVar("Made", bound=Callable[..., Any])

IN_PLACE = {
    "◌+◌": ("({0} + {1})", "The sum of two natural numbers."),
    "◌*◌": ("({0} * {1})", "Their product."),
    "◌^◌": ("({0} ** {1})", "A natural number to the power of another."),
    "◌==◌": ("({0} == {1})", "Whether two natural numbers are the same."),
    "nat_le": ("({0} <= {1})", "Whether a natural number is at most another."),
    "max": ("max({0}, {1})", "The greater of two natural numbers."),
    "int_eq": ("({0} == {1})", "Whether two integers are the same."),
    "int_lt": ("({0} < {1})", "Whether an integer is less than another."),
    "int_min": ("min({0}, {1})", "The lesser of two integers."),
    "int_max": ("max({0}, {1})", "The greater of two integers."),
    "not": ("(not {0})", "What is true where a Bool is false."),
    "◌&&◌": ("({0} and {1})", "Whether both of two Bools are true."),
    "◌||◌": ("({0} or {1})", "Whether one of two Bools is true, or both."),
    "◌++◌": ("({0} + {1})", "The elements of a list, and then those of another."),
    "length": ("len({0})", "How many elements a list has."),
    "take": ("{1}[:{0}]", "The first so many elements of a list, or all where there are fewer."),
    "drop": ("{1}[{0}:]", "The elements behind them."),
    "replicate": ("(({1},) * {0})", "A list of so many elements that are all the same."),
    "bytes_eq": ("({0} == {1})", "Whether two lists of numbers are the same."),
    "is_some": ("({0} is not NONE)", "Whether an Option has something."),
    "is_none": ("({0} is NONE)", "Whether an Option has nothing."),
}
# Numbers that have a name: how many bits a word has, and the code of the letter by which digits beyond 9 begin.
CONSTANTS = {"w64": 64, "w128": 128, "lower": ord("a")}
# Types, and what only clauses and types say: nothing of it is computed. And what the language of this reader has itself.
STATED: Set[str] = {"Bool", "List", "Option", "Result", "ℕ", "ℤ", "Data", "Items", "IfOk", "IfErr", "◌<◌", "◌≤◌", "◌≡◌", "◌⊎◌"}
LANGUAGE = {"if◌then◌else◌", "◌∷◌"}
FUNCTIONS: Dict[str, Callable[..., Value]] = {}


def given(function: Made) -> Made:
    """A function of the library, under its name; one that Python has itself is written with _ behind it, and an operator by its word."""
    FUNCTIONS[{"minus": "◌-◌", "divided": "◌/◌", "rest": "◌%◌"}.get(function.__name__, function.__name__.rstrip("_"))] = function
    return function


# ---- natural numbers and integers


@given
def minus(a: int, b: int) -> int:
    """The difference of two natural numbers, and 0 where the second is the greater."""
    return a - b if a > b else 0


@given
def divided(a: int, b: int) -> int:
    """How often a natural number has another in it."""
    return a // b


@given
def rest(a: int, b: int) -> int:
    """What is left of a natural number where another is taken from it as often as it can be."""
    return a % b


@given
def cast_signed(bits: int, number: int) -> int:
    """The signed value of the lowest bits of a natural number, in two's complement."""
    number %= 1 << bits
    return number - (1 << bits) if number >> bits - 1 else number


@given
def int_wrapping_add(bits: int, a: int, b: int) -> int:
    """The sum of two integers, wrapped to so many bits in two's complement."""
    return cast_signed(bits, a + b)


@given
def int_wrapping_sub(bits: int, a: int, b: int) -> int:
    """Their difference, wrapped."""
    return cast_signed(bits, a - b)


@given
def int_wrapping_mul(bits: int, a: int, b: int) -> int:
    """Their product, wrapped."""
    return cast_signed(bits, a * b)


@given
def to_be_bytes(bits: int, number: int) -> Numbers:
    """The bytes of a number of so many bits, the highest first."""
    return tuple((number % (1 << bits)).to_bytes(bits // 8, "big"))


@given
def from_be_bytes(bits: int, held: Numbers) -> int:
    """The number of so many bits that has these bytes, the highest first."""
    return int.from_bytes(held[: bits // 8], "big")


# ---- lists


@given
def map_(f: Function, items: Items) -> Items:
    """What a function gives of each element."""
    return tuple([f(it) for it in items])


@given
def flat_map(f: Function, items: Items) -> Items:
    """The lists that a function gives of the elements, one after another."""
    return tuple([made for it in items for made in f(it)])


@given
def filter_(test: Test, items: Items) -> Items:
    """The elements that pass a test."""
    return tuple([it for it in items if test(it)])


@given
def filter_map(f: Function, items: Items) -> Items:
    """What a function gives of the elements of which it gives something."""
    return tuple([made[1] for made in [f(it) for it in items] if made is not NONE])


@given
def find(test: Test, items: Items) -> Option:
    """The first element that passes a test."""
    for it in items:
        if test(it):
            return some(it)
    return NONE


@given
def position_from(test: Test, number: int, items: Items) -> Option:
    """The number of the first element that passes a test, if the first element of the list has this number."""
    for at, it in enumerate(items, number):
        if test(it):
            return some(at)
    return NONE


@given
def lookup(test: Test, pairs: Items) -> Option:
    """The second part of the first pair whose first part passes a test."""
    for key, value in pairs:
        if test(key):
            return some(value)
    return NONE


@given
def list_all(test: Test, items: Items) -> bool:
    """Whether each element passes a test."""
    for it in items:
        if not test(it):
            return False
    return True


@given
def list_any(test: Test, items: Items) -> bool:
    """Whether an element passes a test."""
    for it in items:
        if test(it):
            return True
    return False


@given
def fold(f: Function, first: Value, items: Items) -> Value:
    """What a function makes of a first value and an element, then of that and the next element, and so on."""
    for it in items:
        first = f(first)(it)
    return first


@given
def sum_by(f: Callable[[Value], int], items: Items) -> int:
    """The sum of the numbers that a function gives of the elements."""
    return sum([f(it) for it in items])


@given
def get_or(items: Items, at: int, otherwise: Value) -> Value:
    """The element at a place, from 0, or another value where there is none."""
    return items[at] if at < len(items) else otherwise


FUNCTIONS["slice_index_or"] = get_or


@given
def slice_get(items: Items, at: int) -> Option:
    """The element at a place, if there is one."""
    return some(items[at]) if at < len(items) else NONE


@given
def slice_set(items: Items, at: int, value: Value) -> Items:
    """The list with another element at a place; beyond its end nothing changes."""
    return items[:at] + (value,) + items[at + 1 :] if at < len(items) else items


# ---- Option and Result


@given
def unwrap_or(found: Option, otherwise: Value) -> Value:
    """What an Option has, or another value."""
    return otherwise if found is NONE else found[1]


@given
def option_map(f: Function, found: Option) -> Option:
    """What a function gives of what an Option has."""
    return NONE if found is NONE else some(f(found[1]))


@given
def option_map_or(f: Function, found: Option, otherwise: Value) -> Value:
    """The same, or another value where it has nothing."""
    return otherwise if found is NONE else f(found[1])


@given
def option_and_then(f: Function, found: Option) -> Value:
    """The Option that a function gives of what an Option has."""
    return NONE if found is NONE else f(found[1])


@given
def option_or(found: Option, other: Option) -> Option:
    """An Option that has something, or else another one."""
    return other if found is NONE else found


@given
def ok_or(found: Option, fault: Value) -> Option:
    """What an Option has as a Result, or a fault."""
    return (tag("Err"), fault) if found is NONE else (tag("Ok"), found[1])


@given
def result_ok(result: Option) -> Option:
    """What a Result has, if that is no fault."""
    return some(result[1]) if result[0] is tag("Ok") else NONE


@given
def result_err(result: Option) -> Option:
    """The fault that a Result has, if it has one."""
    return some(result[1]) if result[0] is tag("Err") else NONE


# ---- texts


@given
def codes(text: str) -> Numbers:
    """The codes of a text's characters."""
    return tuple(map(ord, text))


@given
def decimal(number: int) -> Numbers:
    """A natural number in decimal digits."""
    return tuple(b"%d" % number)


@given
def signed_decimal(number: int) -> Numbers:
    """An integer in decimal digits, behind a minus where it is below 0."""
    return tuple(b"%d" % number)


@given
def is_utf8(held: Numbers) -> bool:
    """Whether bytes are UTF-8."""
    try:
        return bytes(held).decode() is not None
    except UnicodeDecodeError:
        return False


@given
def hyphenated_text(letter: int, held: Numbers) -> Numbers:
    """The text of a UUID's sixteen bytes, RFC 9562, section 4, in lower case where the letter is `a`."""
    digits = bytes(held).hex()
    text = "-".join((digits[:8], digits[8:12], digits[12:16], digits[16:20], digits[20:]))
    return codes(text if letter == CONSTANTS["lower"] else text.upper())


DIGIT = b"[0-9A-Fa-f]"
HYPHENATED = b"(" + DIGIT + b"{8}(?:-" + DIGIT + b"{4}){3}-" + DIGIT + b"{12})"
IDENTIFIER = re.compile(b"(%b{32})|%b|\\{%b\\}|[uU][rR][nN]:[uU][uU][iI][dD]:%b" % (DIGIT, HYPHENATED, HYPHENATED, HYPHENATED))


@given
def parsed(text: Numbers) -> Option:
    """The sixteen bytes of a UUID's text: 32 digits, or hyphenated, the latter also in braces or behind `urn:uuid:`."""
    found = IDENTIFIER.fullmatch(bytes(text))
    return some(tuple(bytes.fromhex(found[found.lastindex or 0].replace(b"-", b"").decode()))) if found else NONE


# ---- JSON


@given
def read(held: Numbers) -> Option:
    """The value that a text in UTF-8 has as JSON, RFC 8259, as `serde_json` reads it: at most 127 levels, and numbers of 64 bits."""
    try:
        return some(data(json_text.read(bytes(held).decode())))
    except json_text.NotJson:
        return NONE


def data(value: Any) -> Option:
    """A value that JSON's reader gave. Of a name that is twice in an object the last counts."""
    if value is None:
        return tag("null").alone
    if isinstance(value, bool):
        return tag("boolean"), value
    if isinstance(value, str):
        return tag("string"), tuple(value.encode())
    if isinstance(value, list):
        return tag("array"), tuple([data(it) for it in value])
    if isinstance(value, dict):
        return tag("object"), {tuple(name.encode()): data(it) for name, it in value.items()}
    return tag("number"), value


@given
def get(name: Numbers, value: Option) -> Option:
    """The value of an object's field, if there is one."""
    found = value[1].get(name) if value[0] is tag("object") else None
    return NONE if found is None else some(found)


@given
def as_number(value: Option) -> Option:
    """A value of JSON as a number, if it is one."""
    return some(value[1]) if value[0] is tag("number") else NONE


@given
def as_str(value: Option) -> Option:
    """A value of JSON as a text, if it is one."""
    return some(value[1]) if value[0] is tag("string") else NONE


@given
def as_array(value: Option) -> Option:
    """A value of JSON as the list of its items, if it is one."""
    return some(value[1]) if value[0] is tag("array") else NONE


@given
def as_u64(number: object) -> Option:
    """A number of JSON as a natural number, if it is an integer from 0 to 2^64 - 1."""
    return some(number) if isinstance(number, int) and number >= 0 else NONE


@given
def as_i64(number: object) -> Option:
    """A number of JSON as an integer, if it is one from -2^63 to 2^63 - 1."""
    return some(number) if isinstance(number, int) and number < 2**63 else NONE



# ---- a definition of the page that counts

# From how many steps on it isn't counted.
MANY = 100_000


def first_reached(more: int, time: int, period: int, now: int) -> int:
    """The first of time, time + period, time + 2 * period, .. that is at or after now, with so many steps at most. The definition of
    this name takes them one after another, which for a timer that is late by 2^60 periods would take years."""
    late = now - time if now > time else 0
    return time + min(more, -(-late // period) if period else more) * period


def counted(definition: Function) -> Function:
    """The definition of that name, which for many steps is computed by a division."""

    def reached(more: int, time: int, period: int, now: int) -> Value:
        return first_reached(more, time, period, now) if more > MANY else definition(more, time, period, now)

    return reached


NAMES = {*IN_PLACE, *CONSTANTS, *STATED, *LANGUAGE, *FUNCTIONS}


