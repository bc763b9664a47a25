"""Files of code (.rt): their types and constants, as definitions read them."""
import re

from .definitions import Item, Unclear, Uses
from .words import names_in, tokens_of

ITEM = re.compile(r"(\s*)(?:pub(?:\(\w+\))? )?(struct|enum|type|const) (\w+)")
MODEL = re.compile(r"impl(?:<.*?>)? Model for (\w+)")
USE = re.compile(r"^(?:pub )?use ([\w:]+?)(?:::\{([^}]*)\})?;", re.M)
WORD = re.compile(r"[A-Za-z_]\w*|[{}(),<>\[\];=:]")
BUILT_IN = {"Option", "String", "Vec", "Box", "Self"}


class Code:
    """A file of code. A type with a model is its value: neither its fields nor how they give the value are read."""

    head = ""

    def __init__(self, tree, path):
        self.tree, self.path, self.items, self.uses, self.values = tree, path, {}, {}, {}
        text = path.read_text()
        self.lines = text.split("\n")
        for module, names in USE.findall(text):
            for name in names.split(",") if names else [module.rsplit("::", 1)[-1]]:
                self.uses[name.strip().rsplit("::", 1)[-1]] = module if names else module.rpartition("::")[0]
        for at, line in enumerate(self.lines):
            item = ITEM.match(line)
            if item and (not item[1] or item[2] == "const"):
                self.add(at, item[3])
        for at, line in enumerate(self.lines):
            model = MODEL.match(line)
            if model and model[1] in self.items:
                self.add_model(at, self.items[model[1]])

    def add(self, at, name):
        """An item with what is said of it, to its last bracket or its semicolon. What only derives or prints (`#[..]`) is left out."""
        first = at
        while self.lines[first - 1].lstrip().startswith(("//", "#[")):
            first -= 1
        said = [(number + 1, self.lines[number]) for number in range(first, at) if "//" in self.lines[number]]
        item = self.items[name] = Item(self, name, said)
        depth = 0
        for number in range(at, len(self.lines)):
            bare = re.sub(r"//.*", "", self.lines[number])
            if not bare.lstrip().startswith("#["):
                item.body.append((number + 1, self.lines[number]))
            depth += sum(bare.count(it) for it in "({[") - sum(bare.count(it) for it in ")}]")
            if depth == 0 and (";" in bare or "}" in bare):
                return

    def add_model(self, at, item):
        """Reads an item's model: its value takes the place of the item's lines, with the names that its block gives others."""
        lines = self.lines
        ends = next(number for number in range(at, len(lines)) if lines[number].startswith("}"))
        first = next(number for number in range(at, ends) if lines[number].lstrip().startswith("ghost Value"))
        last = next(number for number in range(first, ends) if lines[number].endswith("};"))
        renamed = [number for number in range(at, ends) if "ghost use" in lines[number] and " as " in lines[number]]
        head = re.match(r"(?:pub(?:\(\w+\))? )?[^{(;]*", item.body[0][1])[0].rstrip()
        item.body = [(item.body[0][0], f"{head} {{ .. }}"), *((number + 1, lines[number]) for number in [at, *renamed, *range(first, last + 1)])]
        value = "\n".join(lines[first : last + 1]).partition("{")[2].rpartition("}")[0]
        uses = Uses(self.tree, self.path, [*(line for line in lines if line.startswith("ghost use")), *lines[at:ends]])
        bound = set(re.findall(r"\w+", head.partition("<")[2]))
        self.values[item.name] = uses, names_in(tokens_of([(first + 1, value)]), bound)

    def needed(self, item):
        """What a type or a constant names."""
        if item.name in self.values:
            uses, words = self.values[item.name]
            return uses.meanings(item, words)
        return [self.meaning(name, item) for name in type_names(item)]

    def meaning(self, name, item):
        if name in self.items:
            return self.items[name]
        if name not in self.uses:
            raise Unclear(f"{self.path}:{item.at}: nothing says what {name} is in {item.name}")
        return self.tree.type_of(self.path, self.uses[name], name)


def type_names(item):
    """The types that a type or a constant names: what begins with a capital letter and is no variant, parameter or constant."""
    words = [word for _, line in item.body for word in WORD.findall(re.sub(r"//.*|#\[.*?\]", "", line))]
    known = BUILT_IN | {item.name}
    if "enum" in words[:5] or "struct" in words[:5]:
        known |= set(re.findall(r"\w+", " ".join(words).partition("{")[0].partition("<")[2]))
    names, depth = set(), 0
    for at, word in enumerate(words):
        depth += (word in "{(") - (word in "})")
        is_variant = "enum" in words[:5] and depth == 1 and words[at - 1] in "{,"
        is_within = words[at - 2 : at] == [":", ":"]
        if word[0].isupper() and not word.isupper() and not is_variant and not is_within and word not in known:
            names.add(word)
    return sorted(names)
