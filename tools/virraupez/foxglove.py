"""A run as a file of MCAP, which Foxglove reads: a channel for the callbacks, the drops, each topic, each action server and each log, with
messages in JSON. Those of a moment are a nanosecond apart, in their order."""
from __future__ import annotations

import json
import struct

from . import TYPE_CHECKING, fields, mcap

if TYPE_CHECKING:
    from typing import Dict, Iterable, Iterator

    from .shapes import Document, Fields

HEADER, FOOTER = 1, 2
# The topics of lines by their first words; the others are named after the word.
TOPICS = {"pub": "/topic/{name}", "state": "/goals/{name}", "log": "/log/{name}", "run": "/callbacks", "drop": "/drops"}
OUT = ("round", "end")
# What the object of each line may have beside the fields of its words, that of a callback too, and which of all are texts.
COMMON = ("line", "word", "round", "moment", "callback", "node", "group")
TAKEN = ("took", "fed")
TEXTS = (*fields.TEXTS, "word", "node", "group", "fed")


class Recording:
    """The parts of a file, line by line of a transcript."""

    channels: Dict[str, int]

    def __init__(self, document: Document, tick: int) -> None:
        self.place, self.tick, self.channels = fields.Place(document), tick, {}
        # The moment, and how many lines before this one have it.
        self.moment, self.at = 0, 0

    def parts(self, lines: Iterable[str]) -> Iterator[bytes]:
        yield mcap.MAGIC + record(HEADER, text("") + text("virraupez"))
        for number, line in enumerate(lines, 1):
            made = self.place.take(number, line)
            self.at = self.at + 1 if made["moment"] == self.moment else 0
            self.moment = made["moment"]
            if made["word"] not in OUT:
                yield from self.message(made, number)
        yield record(mcap.DATA_END, bytes(4)) + record(FOOTER, bytes(20)) + mcap.MAGIC

    def message(self, made: Fields, number: int) -> Iterator[bytes]:
        topic = TOPICS.get(made["word"], f"/{made['word']}").format(**made)
        if topic not in self.channels:
            self.channels[topic] = len(self.channels) + 1
            yield self.channel(topic, made)
        time = self.moment * self.tick + self.at
        head = mcap.MESSAGE_HEAD.pack(self.channels[topic], number % 2**32, time, time)
        yield record(mcap.MESSAGE, head + json.dumps(made, separators=(",", ":")).encode())

    def channel(self, topic: str, made: Fields) -> bytes:
        """The records of a channel and its schema, which has the fields of its lines."""
        names = [*COMMON, *fields.NAMES[made["word"]], *(TAKEN if made["word"] == "run" else ())]
        number, types = self.channels[topic], {name: {"type": "string" if name in TEXTS else "integer"} for name in names}
        schema = json.dumps({"type": "object", "properties": types}, separators=(",", ":"))
        return record(mcap.SCHEMA, struct.pack("<H", number) + text(f"virraupez.{made['word']}") + text("jsonschema") + text(schema)) + record(
            mcap.CHANNEL, struct.pack("<HH", number, number) + text(topic) + text("json") + bytes(4)
        )


def record(op: int, body: bytes) -> bytes:
    return mcap.HEAD.pack(op, len(body)) + body


def text(value: str) -> bytes:
    return struct.pack("<I", len(value.encode())) + value.encode()
