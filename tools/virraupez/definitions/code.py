"""The types and constants of code (.rt) that definitions read: the variants of enums with how many fields each has, and constants."""
from __future__ import annotations

import re

from .. import TYPE_CHECKING
from .page import Unknown

if TYPE_CHECKING:
    from typing import Dict, Iterator, List, Union

    from .page import Line, Part

ITEM = re.compile(r"(?:    )?pub (enum|struct|type|const) (\w+)|(impl)\b|pub \{ \.\. \}")
VARIANT = re.compile(r"(\w+)(?: = (\d+)|(\(.*\))|( ?\{.*\}))?", re.S)
CONSTANT = re.compile(r"pub const \w+: [^=]+ = (.+);", re.S)


class Enum:
    """An enum or a `data`: its name, its variants with how many fields each has, and the numbers that the code gives them."""

    fields: Dict[str, int]
    numbers: Dict[str, int]

    def __init__(self, name: str, file: str, at: int) -> None:
        self.name, self.file, self.at, self.fields, self.numbers = name, file, at, {}, {}

    def words(self) -> str:
        """Its name as files write it before a dot: `EntityKind` is `entity_kind`."""
        return re.sub(r"(?<=[a-z])(?=[A-Z])", "_", self.name).lower()


class Constant:
    """A constant: a number, or a list of variants without fields."""

    def __init__(self, name: str, file: str, at: int, value: Union[int, List[str]]) -> None:
        self.name, self.file, self.at, self.value = name, file, at, value


def items(part: Part) -> Iterator[Union[Enum, Constant]]:
    """The enums and constants of a part of the page. Of a struct nothing is needed: a record's fields are known by their names."""
    starts = [(at, found) for at, line in enumerate(part.lines) for found in [ITEM.match(line.text)] if found]
    for (begin, found), end in zip(starts, [*(at for at, _ in starts[1:]), len(part.lines)]):
        first = part.lines[begin]
        bare = "\n".join(re.sub(r"//.*|#\[.*\]", "", line.text) for line in part.lines[begin:end]).strip()
        if found[1] == "enum":
            yield enum(part.file, first, found[2], bare)
        elif found[1] == "const":
            yield constant(part.file, first, found[2], bare)


def enum(file: str, line: Line, name: str, text: str) -> Enum:
    made = Enum(name, file, line.at)
    for variant in split(text[text.index("{") + 1 : text.rindex("}")]):
        found = VARIANT.fullmatch(variant)
        if not found:
            raise Unknown(line.at, f"no variant of an enum: {variant}")
        fields = found[3] or (found[4] or "").strip()
        made.fields[found[1]] = len(split(fields[1:-1]))
        if found[2]:
            made.numbers[found[1]] = int(found[2])
    return made


def constant(file: str, line: Line, name: str, text: str) -> Constant:
    value = CONSTANT.fullmatch(text)
    if value and re.fullmatch("[0-9_]+", value[1]):
        return Constant(name, file, line.at, int(value[1]))
    if value and value[1].startswith("["):
        return Constant(name, file, line.at, [it.split("::")[-1] for it in split(value[1][1:-1])])
    raise Unknown(line.at, f"no constant that is a number or a list of variants: {name}")


def split(text: str) -> List[str]:
    """What stands between the commas of a text that are in no bracket."""
    parts, depth = [""], 0
    for sign in text:
        depth += (sign in "([{<") - (sign in ")]}>")
        if sign == "," and not depth:
            parts.append("")
        else:
            parts[-1] += sign
    return [part.strip() for part in parts if part.strip()]
