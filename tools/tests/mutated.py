"""That explain and the program give one code: over every document of cases/, and over documents that were changed by chance."""
import concurrent.futures
import copy
import itertools
import json
import os
import random
import sys

from virraupez import report

from . import tool

sys.path.insert(0, str(tool.TOP / "cases"))
import generate
from program import answer, code, said

COUNT, AT_ONCE = 20000, 400
# Signs and words that are put into documents.
SIGNS = '"\\,:[]{}0123456789.-eE/ \n'
VALUES = (
    *(None, True, 0, 1, -1, 2, 3, 63, 64, 65, 1024, 1025, 1.5, 2**62, 2**62 + 1, 2**63, 2**64, "", "x", "a", "t", "in", "g0", "r0", "r8", "now", "log", "a b"),
    *([], {}, [[]], [["log", 1]], [["log", "g0"]], [["reply", 1]], [["decide", 2]], [["yield"]], [["skip", 1, 1]], "0" * 32, "1" * 32, "exclusive", "reentrant", "kind", "arrival"),
)


def parts(value, path=()):
    """The paths of all parts of a JSON value."""
    yield path
    items = value.items() if isinstance(value, dict) else enumerate(value) if isinstance(value, list) else ()
    for key, part in items:
        yield from parts(part, path + (key,))


def at(value, path):
    for key in path:
        value = value[key]
    return value


def change(chance, document):
    """Changes one part of a document: leaves it out, doubles it, gives it another value or another name."""
    paths = list(parts(document))[1:]
    if not paths:
        return
    path = chance.choice(paths)
    holder, key, how = at(document, path[:-1]), path[-1], chance.random()
    if how < 0.2:
        del holder[key]
    elif how < 0.4 and isinstance(holder, list):
        holder.insert(chance.randrange(len(holder) + 1), copy.deepcopy(holder[key]))
    elif how < 0.5 and isinstance(holder, dict):
        holder[key + chance.choice("s_1")] = holder.pop(key)
    elif how < 0.75:
        other = at(document, chance.choice(paths)) if chance.random() < 0.4 else chance.choice(VALUES)
        holder[key] = copy.deepcopy(other)
    elif isinstance(holder[key], int):
        holder[key] = holder[key] + chance.choice((-1, 1, -100, 100, 2**62))
    elif isinstance(holder[key], str):
        holder[key] = holder[key][:-1] if chance.random() < 0.5 else holder[key] + chance.choice("s0-/")


def spoil(chance, text):
    """Changes one sign of a text."""
    place, how = chance.randrange(len(text)), chance.random()
    if how < 0.3:
        return text[:place] + text[place + 1 :]
    return text[:place] + chance.choice(SIGNS) + text[place + (how < 0.6) :]


def mutated(seed):
    chance = random.Random(seed)
    order = generate.SHARES[seed // 4 % len(generate.SHARES)] if seed // 2 % 2 else None
    _, given = generate.made(seed % 997, None if seed % 2 else chance.choice(list(generate.RULES)), order)
    document = json.loads(given)
    if chance.random() < 0.1:
        for group in (group for node in document["nodes"] for group in node.get("groups", [])):
            group["kind"] = "reentrant"
    for _ in range(chance.choice((1, 1, 1, 2, 3))):
        whole = json.dumps(document)
        change(chance, document)
        if len(json.dumps(document)) > 4 * len(whole):
            document = json.loads(whole)
    text = json.dumps(document)
    return (spoil(chance, text) if chance.random() < 0.1 else text).encode()


def code_of(program, given):
    """The program's code, or 0 where it runs the document; what its answer is where it is neither."""
    found = answer(program, ("1", "1"), given)
    told = code(found)
    return said(found) if told is None else told


def documents():
    """The documents with their names: those of cases/, and those that are changed by chance."""
    for document in sorted((tool.TOP / "cases").rglob("*.json")):
        yield document.name, document.read_bytes()
    for seed in range(COUNT):
        yield f"document {seed} of those changed by chance", mutated(seed)


def answers(program):
    todo = documents()
    with concurrent.futures.ThreadPoolExecutor(os.cpu_count()) as pool:
        while True:
            some = list(itertools.islice(todo, AT_ONCE))
            if not some:
                return
            codes = pool.map(lambda it: code_of(program, it[1]), some)
            for (name, given), code in zip(some, codes):
                yield f"the code of {name}: {given[:300]!r}", report.Report(given, 1).code, code
