"""That what the definitions take from the toolchain's libraries is what these define. Their own definitions are read from the toolchain
and computed, and each is compared with the function of definitions/library.py. Without a toolchain this isn't done."""
import itertools
import re

from virraupez.definitions import library, program
from virraupez.definitions.values import NONE, Pair, some, tag

from . import tool, toolchain

LISTS = [list_ for count in range(4) for list_ in itertools.product((0, 1, 2), repeat=count)]
OPTIONS = [NONE, some(0), some(3)]
RESULTS = [(tag("Ok"), 1), (tag("Err"), 2)]
NATURALS = [0, 1, 9, 10, 255, 256, 2**63 - 1, 2**63, 2**64 - 1, 2**64, 2**64 + 12345678901234567890]
INTEGERS = [0, 1, -1, 3, -7, 2**62, 2**63 - 1, -(2**63), -(2**63) + 1, 1234567890123456789]
BOOLS = [False, True]
TESTS = [lambda it: it == 1, lambda it: it > 0, lambda it: True]
OPTIONAL = [lambda it: some(it + 1) if it else NONE]
NUMBERS = [lambda it: 2 * it]
MADE = [lambda it: (it, it)]
FOLDED = [lambda one: lambda other: 2 * one + other]
PAIRS = [(), (Pair((1, 5)), Pair((2, 6)), Pair((1, 7)))]
UUID = "0123456789abcdefABCDEF0123456789", "00000000-0000-0000-0000-00000000000a", "A0000000-0000-4000-8000-00000000000F"
FORMS = [*UUID, *(f"{{{it}}}" for it in UUID), *(f"{head}{it}" for it in UUID for head in ("urn:uuid:", "URN:UUID:", "uRn:uUiD:", "urn:uuid", "uuid:")), "", "-" * 36]
TEXTS = [*FORMS, *(form.replace("0", sign, 1) for form in FORMS for sign in ("g", "-", "", "00", "é", " ")), *(f"{{{it}" for it in UUID)]
BYTES = [b"", b"a", "é€😀".encode(), b"\x80", b"\xc3", b"\xc0\x80", b"\xc1\xbf", b"\xe0\x80\x80", b"\xed\x9f\xbf", b"\xed\xa0\x80", b"\xef\xbf\xbf", b"\xf0\x80\x80\x80"]
BYTES += [b"\xf4\x8f\xbf\xbf", b"\xf4\x90\x80\x80", b"\xf5\x80\x80\x80", b"\xff", b"a\xc3\xa9b", b"a\xe2\x82", b"\xf0\x9f\x98"]
JSON = """0 -0 1 -1 01 1. .5 1.5 1e5 1E+5 1e-5 1e 1e400 -1e400 0e400 9223372036854775807 9223372036854775808 -9223372036854775808 -9223372036854775809
18446744073709551615 18446744073709551616 +1 0x1 true false null tru nul True NaN [] [1] [1,] [,1] [1 1 [[]] {} {"a":1} {"a":1,} {"a"} {a:1} {"a":1,"a":2}
{"b":1,"a":[2,{"c":null}]} [true,false,null,"x",-3] "" "a" "a "\\n" "\\q" "\\u00e9" "\\ud83d\\ude00" "\\ud83d" "\\ude00" "\\ud83dx" "\\u12" "\\/" // [1]x [1]] ]
{"a":1}{} {"":0} [0,-1,2] [00] [-] - "\x01" "\t" é "é" "\x7f" {"a":{"b":{"c":[[[1]]]}}} [1,[2,[3]]] {"a":"}"} ["]"] 1,2 :1 [1:2] {1:2} {"a",1} {"a"::1}""".split()
JSON += ["", " ", " 1 ", "\n[ 1 , 2 ]\r\n", '{ "a" : 1 , "b" : 2 }', "[" * 127 + "]" * 127, "[" * 128 + "]" * 128, "1 2", '"a" "b"', "\ufeff1", "[1,2]\x00"]
CORE, READ = "Rattle.core.specs.", "Rattle.serde_json.specs."
# The module of each name of the library, and what each of its arguments may be.
NAMES = {
    "not": ("mathlib.Core.Bool", BOOLS),
    "◌&&◌": ("mathlib.Core.Bool", BOOLS, BOOLS),
    "◌||◌": ("mathlib.Core.Bool", BOOLS, BOOLS),
    "◌++◌": ("mathlib.Core.List.Defs", LISTS, LISTS),
    "length": ("lib.ListN", LISTS),
    "take": ("lib.ListN", range(5), LISTS),
    "drop": ("lib.ListN", range(5), LISTS),
    "replicate": ("lib.ListN", range(5), range(2)),
    "get_or": ("lib.ListN", LISTS, range(5), [7]),
    "slice_index_or": (f"{CORE}List", LISTS, range(5), [7]),
    "slice_set": (f"{CORE}List", LISTS, range(5), [7]),
    "slice_get": (f"{CORE}List", LISTS, range(5)),
    "filter": (f"{CORE}List", TESTS, LISTS),
    "filter_map": (f"{CORE}List", OPTIONAL, LISTS),
    "find": (f"{CORE}List", TESTS, LISTS),
    "flat_map": (f"{CORE}List", MADE, LISTS),
    "fold": (f"{CORE}List", FOLDED, [1], LISTS),
    "list_all": (f"{CORE}List", TESTS, LISTS),
    "list_any": (f"{CORE}List", TESTS, LISTS),
    "position_from": (f"{CORE}List", TESTS, range(3), LISTS),
    "sum_by": (f"{CORE}List", NUMBERS, LISTS),
    "lookup": ("Rattle.std_collections.specs.Map", TESTS, PAIRS),
    "map": ("mathlib.Core.List.Defs", NUMBERS, LISTS),
    "is_some": (f"{CORE}Option", OPTIONS),
    "is_none": (f"{CORE}Option", OPTIONS),
    "unwrap_or": (f"{CORE}Option", OPTIONS, [9]),
    "ok_or": (f"{CORE}Option", OPTIONS, [9]),
    "option_or": (f"{CORE}Option", OPTIONS, OPTIONS),
    "option_map": (f"{CORE}Option", NUMBERS, OPTIONS),
    "option_map_or": (f"{CORE}Option", NUMBERS, OPTIONS, [9]),
    "option_and_then": (f"{CORE}Option", OPTIONAL, OPTIONS),
    "result_ok": (f"{CORE}Result", RESULTS),
    "result_err": (f"{CORE}Result", RESULTS),
    "int_lt": (f"{CORE}Int.RustNames", INTEGERS, INTEGERS),
    "int_eq": (f"{CORE}Ordering", INTEGERS, INTEGERS),
    "int_min": (f"{CORE}Int", INTEGERS, INTEGERS),
    "int_max": (f"{CORE}Int", INTEGERS, INTEGERS),
    "cast_signed": (f"{CORE}Int", ["w64"], NATURALS[:-2]),
    "int_wrapping_add": (f"{CORE}Int", ["w64"], INTEGERS, INTEGERS),
    "int_wrapping_sub": (f"{CORE}Int", ["w64"], INTEGERS, INTEGERS),
    "int_wrapping_mul": (f"{CORE}Int", ["w64"], INTEGERS, INTEGERS),
    "to_be_bytes": (f"{CORE}Int", ["w64", "w128"], NATURALS),
    "from_be_bytes": (f"{CORE}Int", ["w128"], [tuple(range(16)), (255,) * 16, (0,) * 15 + (1,)]),
    "decimal": (f"{CORE}Fmt", NATURALS),
    "signed_decimal": (f"{CORE}Fmt", INTEGERS),
    "bytes_eq": (f"{CORE}Str", LISTS, LISTS),
    "is_utf8": (f"{CORE}Str", list(map(tuple, BYTES))),
    "hyphenated_text": ("Rattle.uuid.specs.Text", [library.CONSTANTS["lower"]], [tuple(range(16)), (255,) * 16]),
    "parsed": ("Rattle.uuid.specs.Text", [tuple(text.encode()) for text in TEXTS]),
    "read": (f"{READ}Read", [tuple(text.encode()) for text in JSON]),
}
# What is asked of values of JSON: how each is made of its number or text by both.
FOUND = ("as_number", "as_str", "as_array", "get", "as_u64", "as_i64")
# What the language has itself, and no library defines.
OWN = {"◌+◌", "◌-◌", "◌*◌", "◌/◌", "◌%◌", "◌^◌", "◌==◌", "nat_le", "max", "codes"}
WIDTHS = {"w64": ("mir.Syntax", "w64"), "w128": ("mir.Syntax", "w128")}


def answers(_program):
    yield "what is compared of the library", {*NAMES, *FOUND, *OWN}, {*library.FUNCTIONS, *library.IN_PLACE}
    if toolchain.folder() is None:
        tool.UNDONE.append("the functions of definitions/library.py weren't compared with the toolchain's definitions, for want of rt")
        return
    asked = [(module, name) for name, (module, *_) in NAMES.items()] + [(f"{READ}Find", name) for name in FOUND] + [*WIDTHS.values()]
    with toolchain.computed(asked) as there:
        yield from program.deeply(lambda: [*of_names(there), *of_values(there)])


def ours(name, *given):
    """What the library gives."""
    if name in library.FUNCTIONS:
        return library.FUNCTIONS[name](*given)
    named = {f"given{at}": it for at, it in enumerate(given)}
    return eval(library.IN_PLACE[name][0].format(*named), {"NONE": NONE}, named)


def of_names(there):
    for name, (module, *kinds) in NAMES.items():
        differing = []
        for given in itertools.product(*kinds):
            theirs = [there.variant(WIDTHS[it]) if isinstance(it, str) else it for it in given]
            own = [library.CONSTANTS[it] if isinstance(it, str) else it for it in given]
            found, should = there.plain(ours(name, *own)), there.plain(there.ask((module, name), *theirs))
            if found != should:
                differing.append((given, found, should))
        yield f"{name} as the toolchain defines it", differing[:3], []


def of_values(there):
    """What is found in values of JSON, each read by both."""
    texts = ["null", "true", "7", "-7", "1.5", "18446744073709551615", "9223372036854775808", '"a"', "[1,[]]", '{"a":1,"b":[2],"a":3}', '{"b":{}}']
    for text in texts:
        read = tuple(text.encode())
        own, theirs = library.read(read)[1], there.ask((f"{READ}Read", "read"), read)[1]
        for name in FOUND[:3]:
            yield f"{name} of {text}", there.plain(ours(name, own)), there.plain(there.ask((f"{READ}Find", name), theirs))
        for key in ("a", "b", "c"):
            codes = library.codes(key)
            yield f"{key} in {text}", there.plain(ours("get", codes, own)), there.plain(there.ask((f"{READ}Find", "get"), codes, theirs))
        if re.fullmatch("-?[0-9.]+", text):
            for name in FOUND[4:]:
                yield f"{name} of {text}", there.plain(ours(name, own[1])), there.plain(there.ask((f"{READ}Find", name), theirs[1]))


