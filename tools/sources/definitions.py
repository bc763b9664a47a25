"""Files of definitions (.antt): what each defines, and what its words mean."""
import itertools
import re

from .words import names_in, sides, tokens_of

START = re.compile(r"(?:(?:abbrev|unfoldable|pub|record|data)\s+)+(\S+)|infix[lr]?\s+\d+\s+(\S+)")
USE = re.compile(r"(?:unfoldable )?(?:pub |ghost )?use ([\w.]+?)(?:\.\{([^}]*)\}| as (\w+))?;?$")
# What the language itself gives; and what is a constructor of the kit, though it begins with a small letter.
BUILT_IN = {"record", "Type", "where", ":", "→", "×", "=", "_", "tt", "Unit", "⊥", "absurd", "|", "pub"}
SMALL = {"zero", "suc", "true", "false", "pos", "negsuc", "[]"}


class Unclear(Exception):
    """A word of which nothing says what it means."""


class Item:
    """A definition, a type or a constant: where it stands, the comment before it, its lines, and its constructors."""

    def __init__(self, source, name, sentence, body=()):
        self.source, self.name, self.sentence, self.body, self.made, self.needs = source, name, sentence, list(body), [], None

    @property
    def at(self):
        return (self.sentence or self.body)[0][0]


class Kit:
    """A name of the toolchain's libraries."""

    def __init__(self, module, name):
        self.module, self.name = module, name


def used(lines):
    """What `use` lines mean: for each word the module and its name there, and for each word of a module that module."""
    uses, modules = {}, {}
    for line in lines:
        use = USE.match(line.strip())
        if use and use[2] is not None:
            for name in use[2].split(","):
                there, _, here = name.strip().partition(" as ")
                uses[here or there] = (use[1], there)
        elif use:
            modules[use[3] or use[1].rsplit(".", 1)[-1]] = use[1]
    return uses, modules


class Uses:
    """What words mean by `use` lines."""

    def __init__(self, tree, path, lines):
        self.tree, self.path, self.items, self.made = tree, path, {}, {}
        self.uses, self.modules = used(lines)
        self.find_pieces()

    def find_pieces(self):
        """The parts of operators, each with the name of its operator."""
        self.pieces = {piece: name for name in [*self.uses, *self.items] if "◌" in name for piece in name.split("◌") if piece}

    def meaning(self, word):
        """What a word means: an item, a name of the kit, or None."""
        head, _, rest = ("◌>>=◌" if word == "do" else word).partition(".")
        if rest and head in self.modules:
            return self.tree.find(self.modules[head], rest.split(".")[0])
        name = self.pieces.get(head, head)
        if name in self.items or name in self.made:
            return self.items.get(name) or self.made[name]
        return self.tree.find(*self.uses[name]) if name in self.uses else None

    def meanings(self, item, words):
        """What the words of an item mean."""
        found = []
        for word in sorted(words - BUILT_IN):
            meaning = self.meaning(word)
            if meaning is None:
                raise Unclear(f"{self.path}:{item.at}: nothing says what {word} is in {item.name}")
            if meaning is not item:
                found.append(meaning)
        return found


class Definitions(Uses):
    """A file of definitions."""

    def __init__(self, tree, path):
        self.lines = path.read_text().split("\n")
        super().__init__(tree, path, self.lines)
        self.head = " ".join(line[3:] for line in itertools.takewhile(lambda line: line.startswith("-- "), self.lines))
        self.read()
        self.find_pieces()
        self.right = {token for item in self.items.values() for part in equations(item) for token, _, _ in sides(tokens_of(part))[1]}

    def read(self):
        comment, item = [], None
        for number, line in enumerate(self.lines, 1):
            start = START.match(line)
            if line.startswith("--"):
                comment, item = ([] if line.startswith("-- ----") else comment + [(number, line)]), None
            elif start and not (item and item.body[-1][1].startswith("infix")):
                name = start[1] or start[2]
                item = self.items[name] = Item(self, name, comment)
                comment = []
            elif not line or line.startswith("use "):
                comment = []
            if item and line:
                item.body.append((number, line))
        for item in self.items.values():
            if re.search(r"\bdata ", item.body[0][1]):
                item.made = [line.split()[0] for _, line in item.body[1:]]
                self.made.update((name, item) for name in item.made)

    def is_constructor(self, word):
        """Whether a word on the left of an equation is no variable of it."""
        if "." in word.strip(".") or word in self.made or word in self.pieces:
            return True
        if word not in self.uses:
            return False
        module, name = self.uses[word]
        found = self.meaning(word)
        if isinstance(found, Kit):
            return name in SMALL or name[0].isupper() or name not in self.right
        return module.endswith("TheVariants") or name in found.made

    def needed(self, item):
        """The items and the names of the kit that a definition names."""
        if re.search(r"\b(record|data) ", item.body[0][1]):
            return self.meanings(item, fields(item))
        words = set()
        for part in equations(item):
            left, right = sides(tokens_of(part))
            named = {word for word, _, _ in left[1:] if word not in "(){};,"}
            constructors = {word for word in named if self.is_constructor(word)}
            # The name of a function is bound, as its own word; an operator's left argument stands first.
            words |= constructors | names_in(right, (named - constructors) | {word for word, _, _ in left[:1]})
        return self.meanings(item, words)


def equations(item):
    """The parts of a definition, each the lines of its signature or of an equation."""
    parts = []
    for number, line in item.body:
        if not line.startswith("infix"):
            if line[0] not in " })":
                parts.append([])
            parts[-1].append((number, line))
    return parts


def fields(item):
    """The words of a record or of data: those of its parameters and of the type of each field, which later fields may name."""
    head, bound = tokens_of(item.body[:1]), set()
    begin = next(at for at, it in enumerate(head) if it[0] in ("record", "data")) + 2
    words = names_in(head[begin:], bound)
    bound |= {it[0] for at, it in enumerate(head) if at >= begin and re.fullmatch("[A-Z]|[a-z_]+", it[0]) and it[0] != "where"}
    for line in item.body[1:]:
        tokens = [it for it in tokens_of([line]) if it[0] != "pub"]
        colon = next((at for at, it in enumerate(tokens) if it[0] == ":"), -1)
        words |= names_in(tokens[colon + 1 :], bound)
        if colon == 1 and not item.made:
            bound.add(tokens[0][0])
    return words
