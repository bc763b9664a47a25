"""What each name of the toolchain's libraries is that the headline's page lists, in a sentence."""
from virraupez.definitions import library

from .definitions import Unclear

# Types, variants and shapes, which definitions/library.py has no function for; and names whose sentence there goes on from another's.
SAID = {
    "Bool": "The type of `true` and `false`.",
    "List": "The type of lists.",
    "Option": "The type of `None` and `Some x`, as in Rust.",
    "Result": "The type of `Ok x` and `Err fault`, as in Rust.",
    "ℕ": "The type of natural numbers.",
    "ℤ": "The type of integers.",
    "Data": "The type of values of JSON: `null`, `boolean`, `number`, `string`, `array` and `object`.",
    "Items": "The type of the items of an array of JSON: `no_items`, or `item` with a value and those after it.",
    "item": "A variant of `Items`: a value, and the items after it.",
    "no_items": "A variant of `Items`: none.",
    "number": "A variant of `Data`: a number.",
    "string": "A variant of `Data`: a text.",
    "true": "What holds, as a Bool.",
    "false": "What doesn't hold, as a Bool.",
    "None": "Nothing, as an Option.",
    "Some": "Something, as an Option.",
    "Ok": "A result that is no fault.",
    "Err": "A fault, as a Result.",
    "IfOk": "What holds of a Result's value if it is `Ok`.",
    "IfErr": "What holds of a Result's fault if it is `Err`.",
    "zero": "The natural number 0.",
    "suc": "The natural number after another.",
    "pos": "The integer that is this natural number.",
    "negsuc": "The integer -1 - n of a natural number n.",
    "[]": "The empty list.",
    "◌∷◌": "A list with one more element before its first.",
    "◌<◌": "That a natural number is less than another.",
    "◌≤◌": "That a natural number is at most another.",
    "◌≡◌": "That both are the same.",
    "◌⊎◌": "That one of both holds.",
    "if◌then◌else◌": "The second if the first is true, and else the third.",
    "w64": "How many bits a `u64` has.",
    "w128": "How many bits a `u128` has.",
    "lower": "That a text has lower-case letters.",
    "◌*◌": "The product of two natural numbers.",
    "drop": "The elements of a list after the first so many, or none if there are fewer.",
    "int_wrapping_sub": "The difference of two integers, wrapped to so many bits in two's complement.",
    "int_wrapping_mul": "The product of two integers, wrapped to so many bits in two's complement.",
    "option_map_or": "What a function gives of what an Option has, or another value if it has nothing.",
}


def says(name):
    """The sentence of a name, which is that of definitions/library.py if it has a good one."""
    if name in SAID:
        return SAID[name]
    if name in library.IN_PLACE:
        return library.IN_PLACE[name][1]
    if name in library.FUNCTIONS:
        return library.FUNCTIONS[name].__doc__
    raise Unclear(f"nothing says what {name} of the toolchain's libraries is: it belongs in tools/sources/library.py")
