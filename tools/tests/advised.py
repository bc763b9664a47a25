"""That advice does no harm: whoever follows what explain says of a mistake has a document that is accepted, or whose next fault is
another one. Hints that say what to write are followed as they stand; what a person makes of the others stands here."""
import copy
import json
import re

from virraupez import grammar, hints, json_text, repairs, report

from . import tool

# What a person does who follows a hint that doesn't say what to write: a text in place of another.
FOLLOWED = {
    "a_brace_that_is_missing": ('00000"}]', '00000"}]}'),
    "a_byte_order_mark": ("\ufeff", ""),
    "a_client_of_another_node": ('["call","map_client","g0"]', '["pub","scan","g0"]'),
    "a_comma_at_the_end_of_a_list": ('"stop",]', '"stop"]'),
    "a_comma_at_the_end_of_an_object": (",}]", "}]"),
    "a_comma_that_is_missing": ('"scan" "g0"', '"scan","g0"'),
    "a_comment": (" // what the robot sees\n", ""),
    "a_decision_of_null": ("null", "2"),
    "a_decision_that_is_none": ('["decide",5]', '["decide",2]'),
    "a_fraction_in_an_instruction": ("1.5", "15"),
    "a_group_of_another_node": ('"group":"work","topic":"stop"', '"topic":"stop"'),
    "a_handler_that_decides_nothing": ('[["log","in"]],\n     "on_cancel"', '[["decide",2]],\n     "on_cancel"'),
    "a_moment_that_goes_back": ("15,14,21", "15,15,21"),
    "a_name_that_stands_twice": ('"name":"speed"', '"name":"wheels"'),
    "a_period_of_half_a_tick": ("0.5", "5"),
    "a_register_that_is_none": ("r8", "r7"),
    "a_reply_of_a_subscription": ('["reply","in"]]},\n', '["log","in"]]},\n'),
    "a_round_of_0": ('"round":0', '"round":1'),
    "a_service_in_the_place_of_a_server": ('"action":"map"', '"action":"navigate"'),
    "a_skip_counted_one_too_few": ('["skip","aux",5]', '["skip","aux",6]'),
    "a_sum_in_an_item": ('["feedback",["add","r0",1]]', '["set","r1","add","r0",1],["feedback","r1"]'),
    "a_timer_that_is_never_due": ("20,21]", "20,21,100]"),
    "a_topic_of_true": ('["pub",true,', '["pub","speed",'),
    "a_variable_of_a_reentrant_group": ('[["log","g0"]]', '[["log","r0"]]'),
    "an_identifier_that_is_too_short": ("0000a", "00000a"),
    "an_order_in_version_1": ('"version":1', '"version":2'),
    "an_item_that_is_missing": ('["set","r1","lt","r0"]', '["set","r1","lt","r0","in"]'),
}


def entries(text):
    """What explain tells of a text: the code, and its places."""
    told = report.Report(text.encode())
    return told.code, told.entries


def main_entry(name, told):
    """The mistake's own place: the first refusal, or the warning of a field, or the last warning."""
    if told[0].code:
        return told[0]
    return next((it for it in told if "has no field" in it.wanted), told[-1])


# ---- following


def value_behind(hint, begin):
    """The JSON values that stand in a hint, one after the other, and what they are followed by."""
    rest, found = hint[begin:], []
    while True:
        try:
            value, end = json.JSONDecoder().raw_decode(rest)
        except ValueError:
            return found
        found.append(value)
        if not rest[end:].startswith(", ") or rest[end + 2 : end + 3] != "[":
            return found
        rest = rest[end + 2 :]


def at(value, path):
    for key in path:
        value = value[key]
    return value


def holder_of(value, path):
    """The object that a place is of: that of a field, or an entry of the feed itself."""
    return at(value, path[:-1] if isinstance(path[-1], str) else path)


def follow(document, entry):
    """The document in which an entry's hint is followed, or None if it doesn't say what to write."""
    hint, path, made = entry.hint, entry.path, copy.deepcopy(document)
    renamed = re.match("rename `(.+?)` to `(.+?)`", hint)
    meant = re.match(r"did you mean (.+)\?$", hint)
    if hint.startswith("write ") and value_behind(hint, 6):
        at(made, path[:-1])[path[-1]] = value_behind(hint, 6)[0]
    elif hint.startswith("in place of the instruction write "):
        at(made, path[:-2])[path[-2] : path[-2] + 1] = value_behind(hint, len("in place of the instruction write "))
    elif hint.startswith("add "):
        name = re.match('add ("[a-z_]+"): ', hint)
        holder_of(made, path)[json.loads(name[1])] = value_behind(hint, name.end())[0]
    elif hint.startswith(("leave it out", "leave the field out")):
        del at(made, path[:-1])[path[-1]]
    elif renamed:
        holder = holder_of(made, path)
        holder[renamed[2]] = holder.pop(renamed[1])
    elif meant and entry.wanted.find("has no field") >= 0:
        holder = at(made, path[:-1])
        holder[meant[1]] = holder.pop(path[-1])
    elif meant:
        at(made, path[:-1])[path[-1]] = meant[1]
    else:
        return None
    return json.dumps(made)


def follow_text(text, entry):
    """A text that is no JSON, in which what a hint says is written in place of the word that stands there."""
    written = re.match(r'write ("[^"]*"|-?\w+)', entry.hint)
    if not written:
        return None
    lines = text.split("\n")
    line = lines[entry.line - 1]
    word = re.compile(r"'[^'\n]*'|[\w+./-]+").match(line, entry.column - 1)
    lines[entry.line - 1] = line[: word.start()] + written[1] + line[word.end() :]
    return "\n".join(lines)


def followed(name, text, entry):
    """The document in which the advice of a mistake is followed."""
    made = follow_text(text, entry) if entry.code == 1 else follow(json.loads(text), entry)
    if made is None and name in FOLLOWED:
        old, new = FOLLOWED[name]
        made = text.replace(old, new, 1) if text.count(old) else None
    return made


def is_there(entry, told):
    """Whether a fault or a warning is told again."""
    return any((it.code, it.path, it.wanted, it.stands) == (entry.code, entry.path, entry.wanted, entry.stands) for it in told)


def tried(text, about, field=None):
    """What becomes of the first thing that is told of a text, or of one of its fields, with its hint followed."""
    code, told = entries(text)
    entry = next((it for it in told if it.path and it.path[-1] == field), None) or main_entry("", told)
    made = followed("", text, entry)
    yield f"the hint {entry.hint!r} for {about} can be followed", made is None, False
    if made is not None:
        after, again = entries(made)
        yield f"{about} with the hint {entry.hint!r} followed", is_there(entry, again), False
        yield f"the code of {about} with the hint {entry.hint!r} followed", not after or after >= code, True


def answers(_program):
    for document in sorted((tool.TESTS / "mistakes").glob("*.json")):
        name, text = document.stem, document.read_text()
        code, told = entries(text)
        entry = main_entry(name, told)
        if not entry.hint:
            continue
        made = followed(name, text, entry)
        yield f"the advice of {name}, {entry.hint!r}, can be followed", made is None, False
        if made is not None:
            after, again = entries(made)
            yield f"{name} with its advice {entry.hint!r} followed", is_there(entry, again), False
            yield f"the code of {name} with its advice {entry.hint!r} followed", not after or after >= code, True
    yield "names of documents that are followed", set(FOLLOWED) - {it.stem for it in (tool.TESTS / "mistakes").glob("*.json")}, set()
    yield "the document that is right", entries(RIGHT)[0], 0
    yield from of_tables()
    yield from of_values()


# ---- the tables of hints

RIGHT = (tool.TESTS / "right.json").read_text()
LOG = '{"name":"brake","topic":"stop","script":[["log","in"]]}'


def changed(old, new):
    assert RIGHT.count(old) == 1, old
    return RIGHT.replace(old, new)


def renamed(owner, field, other):
    """The right document, in which the field of one object has another name."""
    document = json.loads(RIGHT)
    holder = next(it for it in objects(document, "document") if it[0] == owner and field in it[1])[1]
    holder[other] = holder.pop(field)
    return json.dumps(document)


def objects(value, form):
    """All objects of a document, with their forms."""
    if isinstance(form, list):
        for item in value if isinstance(form[0], str) and form[0] not in grammar.SINGLE else ():
            yield from objects(item, form[0])
    elif form == "entry":
        yield next(of for name, of in grammar.FED.items() if name in value), value
    elif form in grammar.OBJECTS:
        yield form, value
        for name, of in grammar.OBJECTS[form].items():
            if name in value:
                yield from objects(value[name], of)


def of_tables():
    """Each word of another system that a table has, in the place of what it is told for."""
    document = json.loads(RIGHT)
    for other, names in hints.FIELDS.items():
        for owner, value in objects(document, "document"):
            for field in (it for it in names if it in value and other not in grammar.OBJECTS[owner]):
                yield from tried(renamed(owner, field, other), f"{other} of {owner} in place of {field}", other)
    for field, others in repairs.ALIASES.items():
        owner = next(it for it, names in grammar.REQUIRED.items() if field in names and it != "entry")
        for other in (it for it in others if it not in grammar.OBJECTS[owner] and field != "round"):
            yield from tried(renamed(owner, field, other), f"{other} of {owner} in place of {field}")
    for word, kind in hints.KINDS.items():
        yield from tried(changed('"kind":"reentrant"', f'"kind":"{word}"'), f"the kind {word}")
    for word in hints.ORDERS:
        yield from tried(changed('"version":1', f'"version":2,"order":"{word}"'), f"the order {word}")
    for word in (it for it, meant in hints.OPERATIONS.items() if meant):
        yield from tried(changed('["set","r1","lt","r0","in"]', f'["set","r1","{word}","r0","in"]'), f"the operation {word}")
    for word in repairs.NEGATED:
        yield from tried(changed('["set","r0","mul","in","in"]', f'["set","r0","{word}","in",5]'), f"the operation {word}")
    for word, meant in repairs.RENAMED.items():
        yield from tried(changed(*renamed_word(meant, word)), f"the word {word}")
    for word in repairs.DECIDED:
        yield from tried(changed('"on_goal":[["decide",2]]', f'"on_goal":[["{word}"]]'), f"the word {word}")
    for word in grammar.OPERATIONS:
        yield from tried(changed('["set","r0","add","r0",1],\n', f'["{word}","r0","r0",1],\n'), f"the word {word}")


def renamed_word(meant, word):
    """An instruction of the right document, and the same with another word."""
    found = re.search(rf'\["{meant}"(,[^\]]*)?\]', RIGHT)
    if found and RIGHT.count(found[0]) == 1:
        return found[0], found[0].replace(f'"{meant}"', f'"{word}"', 1)
    items = {"log": '"in"', "abort": '"r0"', "wait": "5"}[meant]
    place = LOG if meant == "log" else '["feedback","r0"],'
    return place, place.replace('["log","in"]' if meant == "log" else '["feedback","r0"]', f'["{word}",{items}]')


# Values of wrong forms, each in place of a part of the right document.
VALUES = (
    *(('"name":"beam","period":5', f'"name":"beam","period":{it}') for it in ('"5"', '"5ms"', '"5 s"', "true", "5.0", "5e0", "0x5", "0b101", "0o5", "1_0", "05", "+5", "5ms", "5s")),
    *(('"depth":3', f'"depth":{it}') for it in ("null", "true", "false", '"3"', "3.0", "'3'", "True", "False", "None")),
    *(('"topic":"scan","depth":3', f'"topic":{it},"depth":3') for it in ('{"name":"scan"}', "'scan'", "scan", '"Scan"', '"scann"')),
    *(('"result_timeout":100', f'"result_timeout":{it}') for it in ("null", "false", '"100"', '"100 ms"', "100.0")),
    *(('"group":"work"', f'"group":{it}') for it in ("null", "false", "true", '{"name":"work"}', '"wrok"')),
    *((LOG, LOG.replace('[["log","in"]]', it)) for it in ("null", "false", "true", '"log in"', '["log","in"]', '["log in"]', '[["log","in"],"log aux"]', '[["log","in"],null]')),
    *((LOG, LOG.replace('[["log","in"]]', it)) for it in ('[["log","5"]]', '[["log",5.0]]', '[["log",null]]', '[["log",true]]', '[["log",["in"]]]', '[["log","IN"]]', '[["log","in",null]]')),
    *(('"on_result":[["log","aux"]]', f'"on_result":{it}') for it in ("null", "true", "false", '["log","aux"]', '"log aux"')),
    *(('"on_goal":[["decide",2]]', f'"on_goal":{it}') for it in ('["decide",2]', '"decide 2"', "true", '[["decide",true]]', '[["decide",false]]', '[["decide","2"]]')),
    *(('["skip","r1",2]', f'["skip","r1",{it}]') for it in ("true", "null", '"2"', "2.0", "9")),
    *(('"topics":["scan","speed","stop"]', f'"topics":{it}') for it in ('"scan"', '{"scan":1,"speed":1,"stop":1}', '["scan",{"name":"speed"},"stop"]', '["scan",null,"speed","stop"]', "null")),
    *(('"moments":[5,10,11,12,13,14,15,20,21]', f'"moments":{it}') for it in ("21", '"5, 10"', '{"every":5,"until":50}', '{"from":5,"to":60,"step":5}', "{}", '"soon"', "[5,null,10]", '[5,"10"]')),
    *(('{"round":3,"topic"', f'{{{it},"topic"') for it in ('"at":11', '"time":0', '"moment":18', '"round":11', '"round":18', '"round":"3"', '"round":true', '"round":3.0')),
    *(('"value":1}', f'"value":{it}}}') for it in ("true", "false", '"1"', "1.0", "-0", "0x1")),
    *(('"goal":"00000000-0000-0000-0000-00000000000a"', it) for it in ('"goal":10', '"goal":"a"', '"goal":"0a"', '"uuid":"0a"', '"x":1')),
    *(('"cancel":"00000000-0000-0000-0000-000000000000"', it) for it in ('"cancel":0', '"id":"0"', '"x":1')),
    *(('{"name":"laser",', f'{{"name":{it},') for it in ('"front laser"', '"laser-1"', "7", '"láser"', '{"name":"laser"}')),
    *(('"version":1', f'"version":{it}') for it in ("null", "true", '"1"', "1.0", "3", "01", '3,"order":"arrival"', '0,"order":7')),
    *(('"version":1', f'"version":2,"order":{it}') for it in ("null", '"Arrival"', '"arival"', "'kind'", "kind")),
    ('{"version":1,', '{"order":"arrival",'),
    *(('"services":[{"name":"map","script":[["set","r0","mul","in","in"],["reply","r0"]]}]', f'"services":{it}') for it in ('["map"]', '{"name":"map"}', '{"map":{}}', "null", "{}")),
    ('{"version":1,\n "topics"', '{"topics"'),
)


def of_values():
    for old, new in VALUES:
        yield from tried(changed(old, new), new)
