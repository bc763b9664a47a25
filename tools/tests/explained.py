"""What explain tells: of the mistakes beside this file, of every example and of every document of cases/."""
import json
import random

from virraupez import json_text, report

from . import tool

# Warnings that examples have on purpose.
EMPTY = {"empty.json": "{0}: not refused: 0 rounds, 1 warning\n{0}:1:1: warning: moments\n  there are no `moments`: no round is run\n"}


def answers(_program):
    mistakes, examples = sorted((tool.TESTS / "mistakes").glob("*.json")), sorted((tool.TOP / "examples").glob("*.json"))
    # One run has all, so that it is told too that a document changes nothing of what is told of the next.
    status, told = tool.run("explain", *map(tool.text, mistakes))
    yield "the status of explain of all mistakes", status, 1
    for document in mistakes:
        should = document.with_suffix(".told").read_text()
        yield f"explain {document.name}", told[: len(should)], should
        told = told[len(should) :]
    yield "what explain tells of no mistake", told, ""
    should = "".join(EMPTY.get(it.name, "{0}: not refused: {1}, no warning\n").format(tool.text(it), rounds_of(it)) for it in examples)
    yield "explain of all examples", tool.run("explain", *map(tool.text, examples)), (0, should)
    yield from of_versions()
    yield from of_lists()
    yield from as_json(mistakes)
    yield from of_words()


# Documents with their codes, and the hint of the first thing that is told of each beside its moments: the version is that which
# has the order.
VERSIONS = (
    ('{"version":1,"order":7}', 0, "it is a field of documents of version 2"),
    ('{"version":2,"order":"age"}', 2, ""),
    ('{"version":2,"order":"Kind"}', 2, 'write "kind"'),
    ('{"version":2,"order":null}', 2, "leave the field out"),
    ('{"version":2,"order":-0}', 2, ""),
    ('{"version":3}', 3, "write 1"),
    ('{"version":3,"order":"arrival"}', 3, "write 2"),
    ('{"version":3,"order":7}', 3, "write 1"),
    ('{"order":"kind"}', 2, 'add "version": 2'),
    ('{"order":"age"}', 2, 'add "version": 1'),
    ('{"version":"2","order":"age"}', 2, "write 2 without quotes"),
    ('{"version":2,"Order":"kind"}', 0, "did you mean order?"),
)


def of_versions():
    for text, code, hint in VERSIONS:
        told = report.Report(text.encode())
        first = next(it for it in told.entries if it.path != ("moments",))
        yield f"what is told of {text}", (told.code, first.hint), (code, hint)


ITEMS = ("0", "-0", "1", "-1", "12", "1.5", "null", '"a"', "[1, 2]", "9223372036854775807", "18446744073709551616", "-0.0", "{}", "-7", "5", "40", "33", "8")


def of_lists():
    """Lists, of which runs of integers are read at once, have the values of their items, at their places."""
    for seed in range(300):
        chance = random.Random(seed)
        items = [chance.choice(ITEMS) for _ in range(chance.randrange(1, 30))]
        text = f"[ {chance.choice((',', ', ', ' ,' + chr(10))).join(items)} ]"
        places = json_text.places(text, [(at,) for at in range(len(items))])
        found = json_text.read(text), [text[places[at,].begin : places[at,].end] for at in range(len(items))]
        yield f"the list {text!r}", found, (list(map(json_text.read, items)), items)
        try:
            told = json_text.read(text.replace(" ]", ", ]"))
        except json_text.NotJson as wrong:
            told = wrong.hint
        yield f"the list {text!r} with a comma at its end", told, "leave out the comma before ]"


def rounds_of(document):
    rounds = len(json.loads(document.read_text()).get("moments", []))
    return f"{rounds} {'round' if rounds == 1 else 'rounds'}"


def as_json(mistakes):
    """JSON says what the text says: an object for each document, one after the other."""
    text = tool.run("explain", "--json", *map(tool.text, mistakes))[1]
    for document in mistakes:
        told, end = json.JSONDecoder().raw_decode(text)
        text = text[end:].lstrip()
        first = (told["places"] or told["warnings"])[0]
        lines = document.with_suffix(".told").read_text().split("\n")
        line = lines[0] if told["code"] else lines[1]
        yield f"explain --json {document.name}", f"{told['file']}:{first['line']}:{first['column']}:", line.split(" ")[0]
    yield "what explain --json tells of no document", text, ""


def of_words():
    status, text = tool.run("explain", "--help")
    yield "explain --help", (status, "DOCUMENT" in text), (0, True)
    yield "explain without a document", tool.run("explain")[0], 2
    yield "explain of no file", tool.run("explain", "nowhere.json")[0], 2
    yield "explain -", tool.run("explain", "-", given=b'{"version":3}')[1].split("\n")[0], "-:1:12: refused 3 (Version): version"
    yield "explain of a document that is too long", tool.run("explain", "-", given=b'{"version":1}'.ljust(2**24 + 1))[0], 2
