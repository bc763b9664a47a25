"""Bags of ROS 2 (rosbag2) whose storage is sqlite3 or MCAP: their topics, and the messages of some in the order of their times."""
from __future__ import annotations

import contextlib
import heapq
import pathlib
import re
import sqlite3
import struct
from typing import Generic, NamedTuple, Tuple, TypeVar

from . import TYPE_CHECKING, cdr, command, mcap

if TYPE_CHECKING:
    from typing import Any, Dict, Iterable, Iterator, List, Optional, Sequence, Union

    from .mcap import Recorded

    Held = Tuple[pathlib.Path, mcap.File]
    AnyBag = Union["Sqlite", "Mcap"]

SQLITE, MCAP = ".db3", ".mcap"
# A file of a bag, as its storage is read.
File = TypeVar("File")
COMPRESSED = re.compile("^ *compression_mode: *(FILE|MESSAGE)", re.M | re.I)


class Topic(NamedTuple):
    """A topic: its name and its type, the format of its messages, and how many there are."""

    name: str
    type: str
    format: str
    messages: int


class Bag(Generic[File]):
    """A bag, by the name of its folder or of one of its files."""

    topics: Dict[str, Topic]
    first: Optional[int]

    def __init__(self, name: str, paths: Sequence[pathlib.Path]) -> None:
        self.name, self.types, self.topics, self.first = command.shown(name), cdr.Types(), {}, None
        self.files = [self.opened(path) for path in paths]
        for file in self.files:
            self.read_topics(file)

    def add(self, topic: Topic, first: Optional[int]) -> None:
        """Adds a topic of a file, and the time of the file's first message."""
        before = self.topics.get(topic.name)
        self.topics[topic.name] = topic._replace(messages=topic.messages + (before.messages if before else 0))
        if first is not None:
            self.first = first if self.first is None else min(self.first, first)

    def opened(self, path: pathlib.Path) -> File:
        raise NotImplementedError

    def read_topics(self, file: File) -> None:
        raise NotImplementedError

    def messages_of(self, file: File, names: Sequence[str]) -> Iterator[Recorded]:
        raise NotImplementedError

    def messages(self, names: Sequence[str]) -> Iterable[Recorded]:
        """The messages of some topics, as their times in nanoseconds, topics and bytes, in the order of their times."""
        return heapq.merge(*(self.messages_of(file, names) for file in self.files), key=lambda it: it[0])


class Sqlite(Bag[sqlite3.Connection]):
    """A bag whose storage is sqlite3."""

    def opened(self, path: pathlib.Path) -> sqlite3.Connection:
        try:
            return sqlite3.connect(f"{path.resolve().as_uri()}?mode=ro", uri=True)
        except sqlite3.Error as wrong:
            raise command.Trouble(f"{command.printable(path)}: {wrong}") from None

    def rows(self, file: sqlite3.Connection, asked: str, *words: str) -> Iterator[Any]:
        try:
            yield from file.execute(asked, words)
        except (sqlite3.Error, UnicodeDecodeError) as wrong:
            raise command.Trouble(f"{self.name}: no bag of sqlite3 storage: {wrong}") from None

    def read_topics(self, file: sqlite3.Connection) -> None:
        names = {name for (name,) in self.rows(file, "select name from sqlite_master where type = 'table'")}
        if not {"topics", "messages"} <= names:
            raise command.Trouble(f"{self.name}: no bag of sqlite3 storage: the tables topics and messages are missing")
        if "message_definitions" in names:
            for name, encoding, text in self.rows(file, "select topic_type, encoding, encoded_message_definition from message_definitions"):
                if encoding == "ros2msg" and text:
                    self.types.add(name, text)
        (first,) = next(self.rows(file, "select min(timestamp) from messages"))
        asked = "select name, type, serialization_format, (select count(*) from messages where topic_id = topics.id) from topics order by name"
        for row in self.rows(file, asked):
            self.add(Topic(*row), first)

    def messages_of(self, file: sqlite3.Connection, names: Sequence[str]) -> Iterator[Recorded]:
        marks = ", ".join("?" * len(names))
        asked = f"select messages.timestamp, topics.name, messages.data from messages join topics on topics.id = messages.topic_id where topics.name in ({marks})"
        return self.rows(file, f"{asked} order by messages.timestamp, messages.id", *names)


class Mcap(Bag[Tuple[pathlib.Path, mcap.File]]):
    """A bag whose storage is MCAP."""

    def opened(self, path: pathlib.Path) -> Held:
        with self.named(path):
            return path, mcap.File(path)

    def read_topics(self, file: Held) -> None:
        _, held = file
        for name, encoding, text in held.schemas.values():
            if encoding == "ros2msg" and text:
                self.types.add(name, text)
        for number, (schema, topic, encoding) in sorted(held.channels.items(), key=lambda it: it[1][1]):
            self.add(Topic(topic, held.schemas.get(schema, ("",))[0], encoding, held.counts.get(number, 0)), held.first)

    def messages_of(self, file: Held, names: Sequence[str]) -> Iterator[Recorded]:
        path, held = file
        with self.named(path):
            yield from held.messages(frozenset(names))

    @contextlib.contextmanager
    def named(self, path: pathlib.Path) -> Iterator[None]:
        """What is wrong with a file, with its name."""
        try:
            yield
        except (mcap.Wrong, struct.error, UnicodeDecodeError) as wrong:
            raise command.Trouble(f"{command.printable(path)}: {wrong}") from None


def read(name: str) -> AnyBag:
    """A bag, by the name of its folder or of one of its files."""
    paths = files_of(pathlib.Path(name), command.shown(name))
    return Mcap(name, paths) if paths[0].suffix == MCAP else Sqlite(name, paths)


def files_of(path: pathlib.Path, name: str) -> List[pathlib.Path]:
    """The files of a bag, in the order of their numbers."""
    if path.is_file():
        return [path]
    if not path.is_dir():
        raise command.Trouble(f"{name}: No such file or directory")
    found = [sorted(path.glob(f"*{suffix}"), key=lambda it: [int(part) if part.isdigit() else part for part in re.split("([0-9]+)", it.name)]) for suffix in (SQLITE, MCAP)]
    files = found[0] or found[1]
    about = path / "metadata.yaml"
    mode = COMPRESSED.search(about.read_text(errors="replace")) if about.is_file() else None
    if mode or not files and list(path.glob("*.zstd")):
        raise command.Trouble(f"{name}: the bag is compressed: `zstd -d` unpacks files, and `ros2 bag convert` writes one that isn't")
    if not files:
        raise command.Trouble(f"{name}: no bag: it has no file NAME{SQLITE} and no NAME{MCAP}")
    return files


