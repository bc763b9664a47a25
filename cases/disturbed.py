"""Documents that say the same as others, but for what no reader of them may heed: ignored fields, the order of fields, and space."""
import json
import pathlib
import random
import sys

sys.path.insert(0, str(pathlib.Path(__file__).resolve().parent.parent / "tools"))
from virraupez import grammar

# Every field that an object may have. In another object it is ignored.
FIELDS = sorted({name for fields in grammar.OBJECTS.values() for name in fields} | {"", "remark", "Version", "names"})
IGNORED = "null", "true", "-0.5", "1e300", "18446744073709551616", '"x"', '"\\u0000\\"\\\\/"', "[]", '[[{"name":"t"}],null]', '{"version":1,"":{}}'
SPACES = "", "", " ", "\n", "\r\n\t "


def text(given, seed):
    """The bytes of a document that says the same as the lawful one of these bytes."""
    return written(random.Random(seed), json.loads(given), "document").encode()


def written(chance, value, form):
    """The text of a value of a form, with ignored fields in each object, the fields in another order, and space."""
    space = lambda: chance.choice(SPACES)
    if isinstance(form, list):
        return "[" + ",".join(space() + written(chance, it, form[0]) + space() for it in value) + "]"
    if form == "entry":
        form = next(of for field, of in grammar.FED.items() if field in value)
    if form not in grammar.OBJECTS:
        return json.dumps(value)
    forms = grammar.forms_in(form, value)
    ignored = [name for name in FIELDS if name not in forms and not (form in grammar.FED.values() and name in grammar.FED)]
    parts = [(name, written(chance, value[name], of)) for name, of in forms.items() if name in value]
    parts += [(name, chance.choice(IGNORED)) for name in chance.sample(ignored, chance.randrange(4))]
    chance.shuffle(parts)
    if parts and chance.random() < 0.2:
        # Of a name that is there twice the last one counts.
        parts.insert(0, (parts[-1][0], chance.choice(IGNORED)))
    return "{" + ",".join(f"{space()}{json.dumps(name)}{space()}:{space()}{text}{space()}" for name, text in parts) + "}"
