"""A repository's sources: what a name means in them, what names reach, and the order in which that is read."""
import re

from .code import Code
from .definitions import Definitions, Item, Kit, Unclear, Uses
from .words import names_in, tokens_of


class Tree:
    """The definitions and types of a repository. A file is read when something names what is in it."""

    def __init__(self, top):
        self.top, self.files, self.kit = top, {}, {}
        lines = (top / "crates.txt").read_text().splitlines()
        self.crates = [re.split("[ :]", line)[0] for line in lines if re.match("[a-z]", line)]

    def crate_of(self, path):
        return path.relative_to(self.top / "crates").parts[0]

    def place_of(self, path):
        """Where a file stands in the order of the crates: code before definitions, since most definitions are about types."""
        return self.crates.index(self.crate_of(path)), path.suffix == ".antt", path.as_posix()

    def file(self, path):
        if path not in self.files:
            if not path.exists():
                raise Unclear(f"there is no {path}")
            self.files[path] = (Code if path.suffix == ".rt" else Definitions)(self, path)
        return self.files[path]

    def find(self, module, name):
        """What has a name in a module."""
        parts = module.split(".")
        if parts[0] != "Rattle" or parts[1] not in self.crates:
            return self.kit.setdefault((module, name), Kit(module, name))
        folder = self.top / "crates" / parts[1]
        if parts[3:4] == ["declared"]:
            files = [part for part in parts[4:] if part[0].islower()]
            wanted = parts[4 + len(files)] if parts[-1] == "TheVariants" else name
            found = self.file(folder / "src" / f"{'/'.join(files)}.rt").items.get(wanted)
        else:
            source = self.file(folder / "specs" / f"{'/'.join(parts[3:])}.antt")
            found = source.items.get(name) or source.made.get(name)
        if found is None:
            raise Unclear(f"{module} has no {name}")
        return found

    def type_of(self, path, module, name):
        """The type that a line `use` of the code names."""
        head, *rest = module.split("::")
        if head != "crate" and head not in self.crates:
            return self.kit.setdefault((module.replace("::", "."), name), Kit(module.replace("::", "."), name))
        within = self.top / "crates" / (self.crate_of(path) if head == "crate" else head) / "src"
        exact = within / f"{'/'.join(rest)}.rt"
        for file in [exact] if rest and exact.exists() else sorted(within.rglob("*.rt")):
            if re.search(rf"^pub(?:\(\w+\))? (?:struct|enum|type) {name}\b", file.read_text(), re.M):
                return self.file(file).items[name]
        shared = self.file(within / "lib.rt").uses.get(name)
        if not shared:
            raise Unclear(f"{path}: {module} has no {name}")
        return self.type_of(within / "lib.rt", shared, name)

    def contract(self, crate, file, name):
        """The signature of a function with its contract, and what its clauses name."""
        code = self.file(self.top / "crates" / crate / file)
        first = next((at for at, line in enumerate(code.lines) if re.match(rf"pub fn {name}\b", line)), None)
        if first is None:
            raise Unclear(f"{code.path} has no public function {name}")
        last = next(at for at in range(first, len(code.lines)) if code.lines[at] == "{")
        item = Item(code, name, [], [(at + 1, code.lines[at]) for at in range(first, last)])
        given, words = {"result", *(it[1] for it in (re.match(r"    (\w+): ", line) for _, line in item.body) if it)}, set()
        for _, line in item.body:
            clause = re.match(r"    (?:requires|ensures) \w+ \{(.*)\}$", line)
            words |= names_in(tokens_of([(0, clause[1])]), given) if clause else set()
        uses = Uses(self, code.path, [line for line in code.lines if line.startswith("ghost use")])
        return item, uses.meanings(item, words)

    def reached(self, begins):
        """All that these reach through the repository's own, and the names of the kit beside it."""
        items, kit, waiting = {}, {}, list(begins)
        while waiting:
            one = waiting.pop()
            held = kit if isinstance(one, Kit) else items
            if id(one) in held:
                continue
            held[id(one)] = one
            if held is items:
                one.needs = one.source.needed(one)
                waiting += one.needs
        return list(items.values()), list(kit.values())

    def ordered(self, items):
        """The items crate by crate and file by file, each behind all that it needs: a whole file at a time if that can be."""
        left, done, groups = {}, set(), []
        for item in sorted(items, key=lambda it: (self.place_of(it.source.path), it.at)):
            left.setdefault(item.source.path, []).append(item)
        while left:
            crate = self.crate_of(next(iter(left)))
            ready = [(path, takeable(held, done)) for path, held in left.items() if self.crate_of(path) == crate]
            path, taken = max(ready, key=lambda it: len(it[1]) / len(left[it[0]]))
            if not taken:
                raise Unclear(f"the definitions of {crate} name one another in a circle")
            groups.append((path, taken))
            done |= {id(it) for it in taken}
            left[path] = [it for it in left[path] if id(it) not in done]
            if not left[path]:
                del left[path]
        return groups


def takeable(held, done):
    """Those of a file that can be read next, each behind what it needs."""
    taken, known, more = [], set(done), True
    while more:
        more = [it for it in held if id(it) not in known and all(isinstance(need, Kit) or id(need) in known for need in it.needs)]
        taken += more[:1]
        known |= {id(it) for it in more[:1]}
    return taken
