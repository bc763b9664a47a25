"""Whether a transcript is one of a document: its names, their kinds, its moments, and each of its lines, which the executor in Python
gives too."""
from __future__ import annotations

import re

from . import TYPE_CHECKING, command, executor, flow, grammar, transcript

if TYPE_CHECKING:
    from typing import Dict, FrozenSet, Iterable, Iterator, List, Optional, Set, Tuple

    from .event import Event
    from .shapes import Document, Words

    Names = Dict[str, str]
else:
    Names = dict

# What stands before a name on each line that has one, and the name; of a callback its kind too.
NAMED = re.compile("\n((?:run|drop) [^ ]+ [^ ]+|(?!round |end )[a-z]+ [^ ]+)").findall


class Run:
    """The text of a document's run, which is made as far as it is asked for."""

    def __init__(self, document: Document) -> None:
        self.rounds, self.text = executor.rounds_of(document), ""

    def takes(self, block: str) -> bool:
        """Whether a block of whole lines comes next; then it is over."""
        parts, length = [self.text], len(self.text)
        while length < len(block):
            lines = next(self.rounds, None)
            if lines is None:
                break
            parts += [f"{line}\n" for line in lines]
            length = length + sum(map(len, lines)) + len(lines)
        self.text = "".join(parts)
        if block and block[-1] != "\n" or not self.text.startswith(block):
            return False
        self.text = self.text[len(block) :]
        return True

    def lines(self) -> Iterator[str]:
        """The lines that come next."""
        yield from self.text.split("\n")[:-1]
        for lines in self.rounds:
            yield from lines


class Kinds(Names):
    """The kind of each name of a document, with the node of each entity."""

    owners: Dict[str, str]

    def __init__(self, kinds: Iterable[Tuple[str, str]]) -> None:
        super().__init__(kinds)
        self.owners = {}


class Own:
    """The names of a document with their kinds, its moments, and its run. A transcript that is to be the document's must be that run,
    line by line. If it may be another executor's, or of another version of the document, only names and moments must be the same,
    and it is noted at which line it strays from the run."""

    moments: List[int]
    known: Set[str]
    writes: Set[Tuple[str, str]]
    run: Run
    strayed: Optional[Tuple[int, Optional[str]]]

    def __init__(self, name: str, document: Document, is_strict: bool = True) -> None:
        self.name, self.document, self.is_strict = name, document, is_strict
        self.kinds = Kinds((topic, "topics") for topic in document.get("topics", []))
        for node in document.get("nodes", []):
            self.kinds.update({it["name"]: kind for kind in grammar.ENTITIES for it in node.get(kind, [])})
            self.kinds.owners.update({it["name"]: node["name"] for kind in grammar.ENTITIES for it in node.get(kind, [])})
        self.moments = document.get("moments", [])
        self.known, self.writes = set(), set(written(document))

    # ---- the run

    def begin(self) -> None:
        """Begins with the first line of a transcript."""
        self.run, self.strayed = Run(self.document), None

    def follows(self, block: str, number: int) -> bool:
        """Whether a block of lines, behind some that were taken, is what the run has there. If it isn't, what strays is noted: the
        number of the line, and what the run has in its place."""
        if self.strayed is None and not self.run.takes(block):
            wanted = self.run.lines()
            pairs = [(at, line, next(wanted, None)) for at, line in enumerate(block.split("\n"), number + 1)]
            # Without its line feed the last line strays too.
            self.strayed = next(((at, other) for at, line, other in pairs if line != other), pairs[-1][::2])
        return self.strayed is None

    def stray(self) -> str:
        """What is wrong with the line that strays."""
        wanted = self.strayed[1] if self.strayed else None
        says = "the document's run has ended there" if wanted is None else f"the document's run has `{wanted}` there"
        return f"{says}: {command.shown(self.name)} isn't the document of this transcript"

    # ---- names and moments

    def may_write(self, of: Event) -> bool:
        """Whether a run may have a line of a pattern, by the words of the scripts."""
        return any(not is_of_script(word) or name == "_" or (word, name) in self.writes for word, name in of.begins())

    def fits(self, block: str) -> bool:
        """Whether all names of a block of lines are the document's."""
        new = set(NAMED("\n" + block)) - self.known
        self.known |= new
        return all(self.has(*it.split(" ")) for it in new)

    def misfit(self, line: str) -> str:
        """What a line has that the document hasn't, or nothing."""
        words = line.split(" ")
        says = self.of_order(words) if words[0] in ("round", "end") else self.of_names(words[: 3 if words[0] in ("run", "drop") else 2])
        return f"{says}: {command.shown(self.name)} isn't the document of this transcript" if says else ""

    def of_order(self, words: Words) -> str:
        if words[0] == "round":
            return self.moment(int(words[1]), int(words[2]))
        return "" if int(words[1]) == len(self.moments) else f"the document has {len(self.moments)} moments"

    def of_names(self, named: Words) -> str:
        return "" if self.has(*named) else f"the document has no {noun_of(named)} {named[1]}"

    def moment(self, number: int, moment: int) -> str:
        if number > len(self.moments):
            return f"the document has {len(self.moments)} moments"
        return "" if self.moments[number - 1] == moment else f"in the document round {number} is at moment {self.moments[number - 1]}"

    def has(self, word: str, name: str, kind: Optional[str] = None) -> bool:
        return self.kinds.get(name) in kinds_of(word, kind)


# The lines that a script's own instruction writes, which may stand in any script, with the name that is its first item.
SENDING = ("pub", "call", "goal", "cancel")


def is_of_script(word: str) -> bool:
    return word in SENDING or word in ("log", "feedback")


def written(document: Document) -> Iterator[Tuple[str, str]]:
    """The first two words of the lines that scripts write."""
    for node in document.get("nodes", []):
        for kind, scripts in grammar.SCRIPTS.items():
            for entity in node.get(kind, []):
                for word, *items in (it for name in scripts for it in entity.get(name, [])):
                    if is_of_script(word):
                        yield word, items[0] if word in SENDING else entity["name"]


def kinds_of(word: str, kind: Optional[str]) -> FrozenSet[str]:
    """The kinds that the name on a line may have."""
    of: transcript.Form = transcript.CALLBACKS[kind][0] if kind else transcript.FORMS[word][0][0]
    return of.kinds if isinstance(of, transcript.Name) else frozenset()


def noun_of(named: Words) -> str:
    kinds = kinds_of(named[0], named[2] if len(named) == 3 else None)
    return "entity" if len(kinds) > 1 else "topic" if "topics" in kinds else grammar.ENTITIES[min(kinds)]


def read(name: str, is_strict: bool = True) -> Own:
    """What a transcript of a document must fit, by the document's file."""
    return Own(name, flow.read_document(name), is_strict)
