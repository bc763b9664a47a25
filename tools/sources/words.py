"""The words of a definition in a .antt file, and which of them it takes from outside."""
import re

TOKEN = re.compile(r'"(?:[^"\\]|\\.)*"|[(){};,]|[^\s(){};,"]+')


def tokens_of(lines):
    """The tokens of numbered lines, each with its column and whether it is the first of its line."""
    found = []
    for _, line in lines:
        if not line.lstrip().startswith("--"):
            found += [(it.group(), it.start(), at == 0) for at, it in enumerate(TOKEN.finditer(line.split(" -- ")[0]))]
    return found


def sides(tokens):
    """The left and the right side of an equation. A signature has its type on the right, and nothing on the left."""
    depth = 0
    for at, (word, _, _) in enumerate(tokens):
        depth += (word in "({") - (word in ")}")
        if depth == 0 and word in ("=", ":"):
            return [] if word == ":" else tokens[:at], tokens[at + 1 :]
    return [], tokens


def names_in(tokens, bound):
    """The words of an expression that it takes from outside, beside those that are bound already."""
    scan = Scan(tokens, bound)
    at = 0
    while at < len(tokens):
        at += scan.step(at)
    return scan.found


class Frame:
    """What is bound between two brackets: the names, those that a bracket binds behind it, and those of a `let` without its `in`."""

    def __init__(self, binders=(), bound=()):
        self.bound, self.binders, self.lets, self.takes = set(bound), binders, [], False


class Scan:
    """A walk over an expression. What a λ, a `let`, a `do` or a type binds is none of its words, nor is a field or a label."""

    def __init__(self, tokens, bound):
        self.tokens, self.frames, self.found, self.waits = tokens, [Frame(bound=bound)], set(), []

    def step(self, at):
        """Reads what stands at a place, and answers how many tokens it is."""
        word, column, first = self.tokens[at]
        if first:
            self.frames[-1].bound |= {name for name, stands in self.waits if stands == column}
            self.waits = [it for it in self.waits if it[1] != column]
        top = self.frames[-1]
        if word in ("(", "{"):
            binders = self.binders_at(at + 1)
            self.frames.append(Frame(binders))
            return 1 + len(binders) + (1 if binders else 0)
        if word in (")", "}"):
            gone = self.frames.pop()
            self.frames[-1].bound |= set(gone.binders)
        elif word == ";":
            top.bound.clear()
        elif word == "λ":
            top.takes = True
        elif top.takes:
            top.bound.add(word.rstrip("."))
            top.takes = not word.endswith(".")
        else:
            return self.read(at, word, column)
        return 1

    def read(self, at, word, column):
        """Reads a word that is no bracket and that no λ binds."""
        top, following = self.frames[-1], self.tokens[at + 1][0] if at + 1 < len(self.tokens) else ""
        if word == "let":
            top.lets.append(following)
            return 2
        if following == "←":
            self.waits.append((word, column))
            return 2
        if following == "=" and self.tokens[at - 1][0] in ("{", ";"):
            return 2
        if word == "in" and top.lets:
            top.bound.add(top.lets.pop())
        elif not (word[0] in '".,' or word[0].isdigit() or self.is_bound(word.split(".")[0])):
            self.found.add(word)
        return 1

    def is_bound(self, name):
        return any(name in frame.bound for frame in self.frames)

    def binders_at(self, at):
        """The names before a colon that stand right behind a bracket."""
        names = []
        while at < len(self.tokens) and self.tokens[at][0] not in "(){};,=:":
            names.append(self.tokens[at][0])
            at += 1
        return tuple(names) if at < len(self.tokens) and self.tokens[at][0] == ":" else ()
