"""The upgrade of a document, by docs/document.md alone: the document of version 2 that says the same plan, without the fields that
are ignored. It knows nothing of the program; nothing of it is proved."""
from __future__ import annotations

import json

from . import TYPE_CHECKING, document_text, grammar, json_text

if TYPE_CHECKING:
    from typing import Any, Dict, Iterable, Iterator, List, Sequence, Tuple

    from .json_text import Place
    from .shapes import Document, Fields, Form, Path

    # From where to where something goes, and what comes in its place.
    Edit = Tuple[int, int, str]


def text_of(given: bytes) -> str:
    """The text of the upgrade of a lawful document's bytes, as the program writes it."""
    return compact(upgraded(json_text.read(given.decode())))


def compact(value: Any) -> str:
    """JSON without spaces, in which the fields of an object are in the order of the bytes of their names."""
    return json.dumps(value, separators=(",", ":"), sort_keys=True)


def upgraded(document: Document) -> Document:
    """The value of a lawful document's upgrade."""
    return {**kept(document, "document"), "version": grammar.SINCE["order"], "order": grammar.order_of(document)}


def kept(value: Any, form: Form) -> Any:
    """A value of a form of the grammar's tables, with the fields alone that they name."""
    if isinstance(form, list):
        return [kept(it, form[0]) for it in value]
    if form == "entry":
        form = next(of for field, of in grammar.FED.items() if field in value)
    if form not in grammar.OBJECTS:
        return value
    return {name: kept(value[name], of) for name, of in grammar.forms_in(form, value).items() if name in value}


# ---- in the text of the document


def edited(text: str, value: Document) -> str:
    """The text of a lawful document with no other changes than those by which it has the value of its upgrade, but for the name of its
    schema, which stays. It is laid out anew if these don't do, as if an ignored name stands twice in an object."""
    document = json_text.read(text)
    value = {**value, **{name: it for name, it in document.items() if name == grammar.SCHEMA}}
    found = "".join(parts(text, sorted(edits(text, document, value))))
    return found if json_text.read(found) == value else document_text.layout(value)


def parts(text: str, edits: Iterable[Edit]) -> Iterator[str]:
    """A text by its parts, where each of some edits puts a text in the place of what is from its begin to its end."""
    at = 0
    for begin, end, put in edits:
        yield text[at:begin]
        yield put
        at = end
    yield text[at:]


def edits(text: str, document: Document, value: Document) -> Iterator[Edit]:
    """What becomes other: the version and the order, and the ignored fields, which go."""
    changed = [it for it in objects(document, value) if not it[0] or it[1].keys() - it[2].keys()]
    places = json_text.places(text, [(*path, name) for path, fields, _ in changed for name in fields])
    for path, fields, kept in changed:
        stand = sorted(((places[(*path, name)], name in kept) for name in fields), key=lambda it: it[0].name)
        yield from cuts(stand)
        if not path:
            yield from head(text, [place for place, _ in stand], places, value)


def objects(document: Any, value: Any, path: Path = ()) -> Iterator[Tuple[Path, Fields, Fields]]:
    """Each object of an upgrade's value, with its path and the object of the document."""
    if isinstance(value, dict):
        yield path, document, value
        for name in document.keys() & value.keys():
            yield from objects(document[name], value[name], (*path, name))
    elif isinstance(value, list):
        for at, it in enumerate(value):
            if isinstance(it, (dict, list)):
                yield from objects(document[at], it, (*path, at))


def cuts(fields: Sequence[Tuple[Place, bool]]) -> Iterator[Edit]:
    """What is cut out of an object so that each field goes that isn't kept, with its comma. The first field that follows it comes to
    its place."""
    last = max(at for at, (_, is_kept) in enumerate(fields) if is_kept)
    for (place, is_kept), (following, _) in zip(fields[:last], fields[1:]):
        if not is_kept:
            yield place.name, following.name, ""
    if last + 1 < len(fields):
        yield fields[last][0].end, fields[-1][0].end, ""


def head(text: str, fields: List[Place], places: Dict[Path, Place], value: Document) -> Iterator[Edit]:
    """The version, and the order: behind the version, with the same space round it, if it is new."""
    version, order = places["version",], json.dumps(value["order"])
    put = str(value["version"])
    if ("order",) in places:
        yield places["order",].begin, places["order",].end, order
    else:
        at = fields.index(version)
        before = text[fields[at - 1].end : version.name] if at else text[version.end : fields[1].name] if len(fields) > 1 else ","
        put += f'{before}"order"{text[json_text.string_end(text, version.name) : version.begin]}{order}'
    yield version.begin, version.end, put


