"""Files of the storage MCAP, which ROS 2 records by default since Iron (mcap.dev, format 0): their schemas, channels and messages.

Chunks may be plain, or compressed by zstd if this Python or this machine has it."""
from __future__ import annotations

import heapq
import itertools
import mmap
import struct
import subprocess
import zlib

from . import TYPE_CHECKING

if TYPE_CHECKING:
    import pathlib
    from typing import Container, Dict, Iterator, List, Optional, Tuple

    # A time in nanoseconds, a topic, and the bytes of a message.
    Recorded = Tuple[int, str, bytes]

MAGIC = b"\x89MCAP0\r\n"
SCHEMA, CHANNEL, MESSAGE, CHUNK, DATA_END = 3, 4, 5, 6, 15
HEAD, MESSAGE_HEAD, CHUNK_HEAD = struct.Struct("<BQ"), struct.Struct("<HIQQ"), struct.Struct("<QQQI")


NO_ZSTD = "a chunk that is said to be compressed by zstd isn't"
CUT = "it is cut off: `mcap recover` saves what is whole"


class Wrong(Exception):
    """What is wrong with a file."""


class File:
    """A file, of which no more is in memory than is read of it."""

    schemas: Dict[int, Tuple[str, str, str]]
    channels: Dict[int, Tuple[int, str, str]]
    parts: List[Tuple[int, int, bool]]
    counts: Dict[int, int]
    first: Optional[int]

    def __init__(self, path: pathlib.Path) -> None:
        with open(path, "rb") as stream:
            self.given = memoryview(mmap.mmap(stream.fileno(), 0, access=mmap.ACCESS_READ)) if stream.seek(0, 2) else memoryview(b"")
        if bytes(self.given[: len(MAGIC)]) != MAGIC:
            raise Wrong("no file of MCAP storage")
        # By their numbers: the name, encoding and text of schemas; the schema, topic and encoding of channels.
        self.schemas, self.channels = {}, {}
        # The least time of each part of the file that has messages, with its place and whether it is a chunk.
        self.parts, self.counts, self.first = [], {}, None
        for op, at, body in records(self.given, len(MAGIC)):
            if op == DATA_END:
                return
            if op == CHUNK:
                self.take_chunk(at, body)
            else:
                self.take(op, body, at)
        raise Wrong(CUT)

    def take_chunk(self, at: int, body: memoryview) -> None:
        times = [time for op, _, inner in records(unpacked(body), 0) for time in [self.take(op, inner)] if time is not None]
        if times:
            self.parts.append((min(times), at, True))

    def take(self, op: int, body: memoryview, at: Optional[int] = None) -> Optional[int]:
        """Takes a record; the time of a message."""
        if op == SCHEMA:
            (name, encoding, text), _ = texts(body, 2, 3)
            self.schemas[struct.unpack_from("<H", body)[0]] = name, encoding, text
        elif op == CHANNEL:
            (topic, encoding), _ = texts(body, 4, 2)
            number, schema = struct.unpack_from("<HH", body)
            self.channels[number] = schema, topic, encoding
        elif op == MESSAGE:
            time: int
            number, _, time, _ = MESSAGE_HEAD.unpack_from(body)
            if number not in self.channels:
                raise Wrong(f"a message of the channel {number}, which there isn't")
            self.counts[number] = self.counts.get(number, 0) + 1
            self.first = time if self.first is None else min(self.first, time)
            if at is not None:
                self.parts.append((time, at, False))
            return time
        return None

    def messages(self, names: Container[str]) -> Iterator[Recorded]:
        """The messages of some topics in the order of their times: these in nanoseconds, topics and bytes. A part waits until no other
        part begins before its messages."""
        waiting: List[Tuple[int, int, str, bytes]] = []
        number = itertools.count()
        for least, at, is_chunk in sorted(self.parts):
            while waiting and waiting[0][0] < least:
                time, _, topic, given = heapq.heappop(waiting)
                yield time, topic, given
            body = next(records(self.given, at))[2]
            for op, _, inner in records(unpacked(body), 0) if is_chunk else [(MESSAGE, 0, body)]:
                if op == MESSAGE:
                    channel, _, time, _ = MESSAGE_HEAD.unpack_from(inner)
                    topic = self.channels[channel][1]
                    if topic in names:
                        heapq.heappush(waiting, (time, next(number), topic, bytes(inner[MESSAGE_HEAD.size :])))
        while waiting:
            time, _, topic, given = heapq.heappop(waiting)
            yield time, topic, given


def records(given: memoryview, at: int) -> Iterator[Tuple[int, int, memoryview]]:
    """The records from a place on: what each is, its place and its body."""
    while at + HEAD.size <= len(given):
        op, length = HEAD.unpack_from(given, at)
        begin = at + HEAD.size
        if begin + length > len(given):
            raise Wrong(CUT)
        yield op, at, given[begin : begin + length]
        at = begin + length


def texts(given: memoryview, at: int, count: int) -> Tuple[List[str], int]:
    """Some texts that follow one another, and the place after them."""
    found = []
    for _ in range(count):
        begin = at + 4
        at = begin + struct.unpack_from("<I", given, at)[0]
        if at > len(given):
            raise Wrong("a text is cut off")
        found.append(bytes(given[begin:at]).decode())
    return found, at


def unpacked(body: memoryview) -> memoryview:
    """The records of a chunk."""
    _, _, size, sum_of = CHUNK_HEAD.unpack_from(body)
    (how,), at = texts(body, CHUNK_HEAD.size, 1)
    packed = body[at + 8 : at + 8 + struct.unpack_from("<Q", body, at)[0]]
    if how not in ("", "zstd"):
        raise Wrong(f"a chunk is compressed by {how}, and zstd is read: `ros2 bag convert` writes it")
    given = memoryview(of_zstd(bytes(packed))) if how else packed
    if len(given) != size or sum_of and zlib.crc32(given) != sum_of:
        raise Wrong("a chunk hasn't its own sum")
    return given


def of_zstd(packed: bytes) -> bytes:
    """What is compressed by zstd, by what this Python or this machine has."""
    for way in (by_python, by_module, by_program):
        try:
            return way(packed)
        except ImportError:
            continue
    raise Wrong("a chunk is compressed by zstd, and this machine hasn't the program zstd")


def by_python(packed: bytes) -> bytes:
    from compression import zstd  # Python 3.14

    try:
        made: bytes = zstd.decompress(packed)
        return made
    except zstd.ZstdError:
        raise Wrong(NO_ZSTD) from None


def by_module(packed: bytes) -> bytes:
    import zstandard

    try:
        made: bytes = zstandard.ZstdDecompressor().decompressobj().decompress(packed)
        return made
    except zstandard.ZstdError:
        raise Wrong(NO_ZSTD) from None


def by_program(packed: bytes) -> bytes:
    try:
        return subprocess.run(["zstd", "-dcq"], input=packed, stdout=subprocess.PIPE, stderr=subprocess.DEVNULL, check=True).stdout
    except FileNotFoundError:
        raise ImportError from None
    except subprocess.CalledProcessError:
        raise Wrong(NO_ZSTD) from None


