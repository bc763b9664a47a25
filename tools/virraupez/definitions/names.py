"""What the names of a page mean: its definitions, constants and variants, and the names of the library."""
from __future__ import annotations

from .. import TYPE_CHECKING
from . import code, library, syntax, tree
from .page import Unknown
from .values import SHAPES, VARIANTS

if TYPE_CHECKING:
    from typing import Callable, Dict, Iterable, List, Optional, Set, Tuple, Union

    from .page import Page

    Value = Union[tree.Definition, code.Constant]
    Item = Union[tree.Definition, code.Constant, code.Enum]


class Names:
    """The names of a page. A name with several definitions means in each file what the page says."""

    definitions: List[tree.Definition]
    constants: List[code.Constant]
    enums: List[code.Enum]
    worded: Dict[Tuple[Optional[str], Optional[str]], Set[str]]
    values: Dict[str, List[Value]]
    fields: Dict[str, Set[int]]

    def __init__(self, page: Page) -> None:
        self.page, self.definitions, self.constants, self.enums, self.worded = page, [], [], [], {}
        for name, at in page.library.items():
            if name not in library.NAMES and name not in VARIANTS and name not in SHAPES:
                raise Unknown(at, f"the library has {name}, which isn't in definitions/library.py")
        self.operators = syntax.operators_of(page.parts)
        for part in page.parts:
            found: Iterable[Item] = code.items(part) if part.is_code() else syntax.items(part, self.operators)
            for item in found:
                self.keep(item)
        self.values = {}
        values: List[Value] = [*self.definitions, *self.constants]
        for value in values:
            self.values.setdefault(value.name, []).append(value)
        self.fields = {name: {count} for name, count in VARIANTS.items()}
        self.fields.update((name, {len(shape.fields)}) for name, shape in SHAPES.items())
        for enum in self.enums:
            for name, count in enum.fields.items():
                self.fields.setdefault(name, set()).add(count)
        for definition in self.definitions:
            self.note_words(definition.file, [(equation.patterns, equation.body) for equation in definition.equations])

    def keep(self, item: Item) -> None:
        if isinstance(item, code.Enum):
            self.enums.append(item)
        elif isinstance(item, code.Constant):
            self.constants.append(item)
        else:
            self.definitions.append(item)

    def note_words(self, file: str, node: object) -> None:
        """Notes with which variants each word stands before a dot in a file."""
        if isinstance(node, tree.Variant) or isinstance(node, tree.Made) and node.word:
            self.worded.setdefault((file, node.word), set()).add(node.name)
        if isinstance(node, (list, tuple)):
            for part in node:
                self.note_words(file, part)

    # ---- what a name means

    def value(self, name: str, file: Optional[str], at: int) -> Optional[Value]:
        """The definition or the constant that a name means in a file, or None if the page defines none."""
        found = [item for item in self.values.get(name, ()) if not (isinstance(item, tree.Definition) and item.is_type())]
        if len(found) > 1:
            place = self.page.meant.get((name, file))
            found = [item for item in found if item.file == place]
            if not found:
                raise Unknown(at, f"{name} has more than one definition, and nothing says which one is meant")
        return found[0] if found else None

    def named(self, name: str) -> tree.Definition:
        """A definition by its name alone, for what asks the page."""
        found = self.value(name, None, 1)
        if not isinstance(found, tree.Definition):
            raise Unknown(1, f"the page has no definition {name}")
        return found

    def is_plain(self, name: str) -> bool:
        """Whether a word of a pattern is a variant without fields, and no variable."""
        return 0 in self.fields.get(name, ()) or name[0].isupper()

    def count(self, name: str, given: int, at: int) -> int:
        """How many fields a variant has that is given so many, or that is a function if it is given fewer."""
        counts = self.fields.get(name, set())
        if given in counts:
            return given
        if len(counts) != 1 or given > max(counts):
            raise Unknown(at, f"no type of the page has a variant {name} of {given} fields")
        return max(counts)

    def count_of(self, word: str, name: str, file: Optional[str], at: int) -> int:
        """How many fields a variant has, with the word before its dot: its enum is the one whose name is the word, or ends or begins
        with it, and that has all variants that the file has with this word."""
        wanted = self.worded.get((file, word), set()) | {name}
        having = [enum for enum in self.enums if wanted <= enum.fields.keys()]
        ways: Tuple[Callable[[str], bool], ...] = (lambda it: it == word, lambda it: it.endswith(f"_{word}"), lambda it: it.startswith(word))
        for fits in ways:
            found = [enum for enum in having if fits(enum.words())]
            if len(found) == 1:
                return found[0].fields[name]
        raise Unknown(at, f"{word}.{name}: no enum of the page, or more than one, has these variants: {', '.join(sorted(wanted))}")

    def number(self, name: str) -> int:
        """The number that the code gives a variant."""
        return next(enum.numbers[name] for enum in self.enums if name in enum.numbers)
