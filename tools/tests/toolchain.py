"""The definitions of the toolchain's libraries as a page that tools/virraupez/definitions reads: those that some names reach, each in
its own words. A name is written with a number behind it, since two modules may have the same."""
import contextlib
import pathlib
import re
import shutil
from unittest import mock

from sources.definitions import used
from virraupez import json_text
from virraupez.definitions import library, names, page, program, tree, values

# Where the first part of a module's name is, in the folder of the libraries. What isn't here is the language's own.
FOLDERS = {"mathlib": "antt/port/mathlib/src", "lib": "logic/Lib", "mir": "logic/Mir"}
START = re.compile(r"( *)(?:abbrev |unfoldable )?(?:pub )?([^\s:(){}=]+)(?: \{[^}]*\})* : (.*)")
DATA = re.compile(r"( *)pub data (\w+)")
WITHIN = re.compile(r"( *)module _ .*where$")
WORD = re.compile(r'"[^"]*"|[(){};,]|[^\s(){};,"]+')
# What the language has itself, or is of floats, as Python text.
OWN = {"leb": "({0} <= {1})", "ltb": "({0} < {1})", "eqb": "({0} == {1})", "min": "min({0}, {1})", "float_is_finite": "({0} not in (INFINITE, -INFINITE))"}
# What keeps its name too: the codes of a text that is written, and the float that a numeral says.
KEPT = {*OWN, "codes", "nearest_float"}


def folder():
    """The folder of the toolchain's libraries, or None if it isn't on this machine."""
    found = shutil.which("rt")
    place = pathlib.Path(found).resolve().parent.parent / "rattle" if found else None
    return place if place and place.is_dir() else None


class File:
    """A module: what its words mean, and the lines of what it defines, with the arguments that its block names for all."""

    def __init__(self, lines):
        self.items, self.made, self.lines = {}, {}, lines
        self.uses, self.modules = used(lines)
        for at, line in enumerate(lines):
            data, start = DATA.match(line), START.match(line)
            if data:
                self.add_data(at, data[2])
            elif start and start[2] not in self.items and not self.around(at).lstrip().startswith("pub record"):
                self.items[start[2]] = at

    def add_data(self, at, name):
        """The variants of a `data`; a line may have several."""
        for line in self.body(at)[1:]:
            names, _, of = line.split(" -- ")[0].partition(" : ")
            self.made.update((it, (name, of)) for it in names.split())

    def body(self, at):
        """The lines of what begins at one, to the next that begins no farther right and continues no equation of it."""
        indent, found = len(self.lines[at]) - len(self.lines[at].lstrip()), [self.lines[at]]
        for line in self.lines[at + 1 :]:
            if not line.strip() or START.match(line) and DATA.match(self.lines[at]) is None or line.strip().startswith(("--", "pub data", "mutual")):
                break
            found.append(line)
        return [line[indent:] for line in found if not line.strip().startswith("unfolding ")]

    def around(self, at):
        """The line that begins the block in which a line is."""
        indent = len(self.lines[at]) - len(self.lines[at].lstrip())
        return next((line for line in reversed(self.lines[:at]) if line.strip() and len(line) - len(line.lstrip()) < indent), "")

    def arguments(self, at):
        """The arguments that a block names for all that is in it."""
        around = self.around(at)
        return re.findall(r"\((\w+) :", around) if WITHIN.match(around) else []


class Libraries:
    def __init__(self, place):
        self.place, self.files, self.named, self.parts, self.waiting = place, {}, {}, [], []

    def file(self, module):
        first, *rest = module.split(".")
        if module not in self.files:
            tops = [FOLDERS.get(first, "none")]
            if first == "Rattle":
                crate, *rest = rest
                # What `std` has is another crate's, which it passes on.
                tops = [crate, "core", "std_alloc", "std_collections"] if crate == "std" else [crate]
            paths = (self.place / top / f"{'/'.join(rest)}.antt" for top in tops)
            self.files[module] = next((File(path.read_text().split("\n")) for path in paths if path.is_file()), None)
        return self.files[module]

    def find(self, module, name):
        """The name on the page of what a module has under a name, or None if it has none. What is the language's own keeps its name."""
        file = self.file(module)
        if file is None or name in KEPT:
            return name
        if name in file.items or name in file.made:
            return self.number(module, name, file)
        return self.find(*file.uses[name]) if name in file.uses else None

    def number(self, module, name, file):
        if (module, name) not in self.named:
            is_shape = name in file.made and name in names.SHAPES
            is_data = name in file.made and name in names.VARIANTS and module.startswith("Rattle.serde_json")
            self.named[module, name] = name if "◌" in name or is_shape or is_data else f"{name}_{len(self.named)}"
            if not is_shape:
                self.waiting.append((module, name, file))
        return self.named[module, name]

    def meaning(self, module, word):
        file = self.file(module)
        head, dot, rest = word.partition(".")
        if dot and head in file.modules:
            return self.find(file.modules[head], rest)
        if dot and head in file.uses and head[0].isupper():
            return self.find(file.uses[head][0], rest)
        return None if dot else self.find(module, word)

    def read(self, asked):
        """The page of what these modules have under these names, and the names on the page."""
        found = {(module, name): self.find(module, name) for module, name in asked}
        while self.waiting:
            module, name, file = self.waiting.pop(0)
            lines = self.variant(module, name, file) if name in file.made else self.definition(module, name, file)
            self.parts.append(page.Part(f"{module}.antt", [page.Line(number, number, line) for number, line in enumerate(lines, 1)]))
        made = page.Page("")
        made.parts = self.parts
        return made, found

    def variant(self, module, name, file):
        of = file.made[name][1]
        return [f"pub data Made{len(self.parts)} : Type 0 where", f"  {self.named[module, name]} : {of}"]

    def definition(self, module, name, file):
        at = file.items[name]
        first, *others = file.body(at)
        signature = START.match(first)
        extra = "".join(f" {it}" for it in file.arguments(at))
        lines = [f"abbrev pub {self.named[module, name]} : {signature[3]}"]
        for line in others:
            bare = line.split(" -- ")[0]
            lines.append(WORD.sub(lambda it: self.renamed(module, it.group(), name, extra), bare))
        return [line for line in lines if line.strip()]

    def renamed(self, module, word, name, extra):
        if word.startswith('"') or word in ("=", "λ", "let", "in", "→", "∷", "cond"):
            return word
        if word.startswith("0x"):
            return str(int(word, 16))
        dot = word.endswith(".")
        found = self.meaning(module, word.rstrip("."))
        field = re.fullmatch(r"(\w+)((?:\.\w+)+)", word)
        if found is None and field:
            head = self.meaning(module, field[1])
            return f"{head}{field[2]}" if head else word
        return f"{found}{extra if word == name else ''}{'.' * dot}" if found else word


# ---- the page, computed


class Names(names.Names):
    """The names of the page. `cond` computes what it needs, as `if` does: the libraries write one for the other."""

    def __init__(self, read):
        super().__init__(read)
        self.fields.update({"Less": {0}, "Equal": {0}, "Greater": {0}})
        for definition in self.definitions:
            definition.equations = [tree.Equation(it.patterns, with_if(it.body), it.at) for it in definition.equations]

    def is_plain(self, name):
        """A variable may begin with a capital letter here."""
        return 0 in self.fields.get(name, ())


def with_if(node):
    if isinstance(node, tree.Apply) and isinstance(node.function, tree.Name) and node.function.name == "cond":
        return tree.If(*map(with_if, node.given))
    if isinstance(node, tuple) and hasattr(node, "_fields"):
        return type(node)(*map(with_if, node))
    return [with_if(it) for it in node] if isinstance(node, list) else tuple(map(with_if, node)) if isinstance(node, tuple) else node


def nearest_float(_format, negative, parts):
    """The float that a numeral says, by its parts."""
    whole, fraction, exponent = ("".join(map(chr, parts[name])) for name in ("whole", "fraction", "exponent"))
    return float(f"{'-' * negative}{whole}.{fraction}0e{'-' * parts['exponent_negative']}{exponent or 0}")


class Toolchain:
    """What modules have under some names, computed."""

    def __init__(self, asked):
        libraries = Libraries(folder())
        read, self.names = libraries.read(asked)
        self.program = program.Program(read)
        self.program.space["INFINITE"] = float("inf")
        self.names_there = {here: there for (_, there), here in libraries.named.items()}

    def item(self, key):
        return self.program.names.named(self.names[key])

    def variant(self, key):
        return values.tag(self.names[key]).alone

    def ask(self, key, *given):
        """What a definition gives of these arguments; it may name fewer, and give a function of the others."""
        item = self.item(key)
        made = self.program.space[self.program.compiler.python[id(item)]](*given[: item.arity()])
        for it in given[item.arity() :]:
            made = made(it)
        return made

    def plain(self, value):
        """A value that can be compared with one of the library's: of JSON's numbers their values, and of members a dictionary."""
        if isinstance(value, tuple) and value and isinstance(value[0], values.Tag):
            name, fields = self.names_there.get(value[0].name, value[0].name), value[1:]
            if name in ("unsigned", "negative"):
                return fields[0]
            if name == "float":
                return "a float"
            if name in ("member", "no_members"):
                return {fields[0]: self.plain(fields[1]), **self.plain(fields[2])} if fields else {}
            return (name, *map(self.plain, fields))
        if isinstance(value, dict):
            return {name: self.plain(it) for name, it in value.items()}
        return tuple(map(self.plain, value)) if isinstance(value, tuple) else "a float" if value is json_text.FRACTION else value


@contextlib.contextmanager
def computed(asked):
    """What these modules have under these names, computed."""
    own = {name: (text, "") for name, text in OWN.items()}
    with mock.patch.dict(library.IN_PLACE, own), mock.patch.dict(library.FUNCTIONS, {"nearest_float": nearest_float}), mock.patch.object(names, "Names", Names):
        yield Toolchain(asked)
