"""Messages of ROS 2 as a bag has them: in CDR, by the definitions of their types."""
from __future__ import annotations

import math
import re
import struct

from . import TYPE_CHECKING, interfaces

if TYPE_CHECKING:
    from typing import Any, Dict, Iterator, List, Optional, Tuple

    # A type, whether it is a list and how long, and the name.
    Field = Tuple[str, Optional[str], str]

# Types that consist of one number each.
NUMBERS = {
    **{name: ("B", 1) for name in ("bool", "byte", "char", "uint8")},
    **{"int8": ("b", 1), "int16": ("h", 2), "uint16": ("H", 2), "int32": ("i", 4), "uint32": ("I", 4), "int64": ("q", 8), "uint64": ("Q", 8)},
    **{"float32": ("f", 4), "float64": ("d", 8)},
}
STAMP = "std_msgs/Header header\n"
# Definitions of types that are often recorded, for bags that don't have them.
DEFINITIONS = {
    **{f"std_msgs/{name}": f"{name.lower()} data" for name in ("Bool", "Byte", "Char", "Int8", "Int16", "Int32", "Int64", "UInt8", "UInt16", "UInt32", "UInt64", "Float32", "Float64")},
    "std_msgs/Header": "builtin_interfaces/Time stamp\nstring frame_id",
    "builtin_interfaces/Time": "int32 sec\nuint32 nanosec",
    "geometry_msgs/Vector3": "float64 x\nfloat64 y\nfloat64 z",
    "geometry_msgs/Twist": "Vector3 linear\nVector3 angular",
    "geometry_msgs/TwistStamped": STAMP + "Twist twist",
    "sensor_msgs/Range": STAMP + "uint8 radiation_type\nfloat32 field_of_view\nfloat32 min_range\nfloat32 max_range\nfloat32 range",
    "sensor_msgs/BatteryState": STAMP + "\n".join(f"float32 {name}" for name in ("voltage", "temperature", "current", "charge", "capacity", "design_capacity", "percentage")),
    "sensor_msgs/LaserScan": STAMP
    + "\n".join(f"float32 {name}" for name in ("angle_min", "angle_max", "angle_increment", "time_increment", "scan_time", "range_min", "range_max"))
    + "\nfloat32[] ranges\nfloat32[] intensities",
}
# The field that rosidl gives a type without fields: in CDR such a type takes a byte.
EMPTY = "structure_needs_at_least_one_member"
FIELD = re.compile(r"([A-Za-z][A-Za-z0-9_/]*)(?:<=[0-9]+)?(\[(?:<?=?[0-9]+)?\])?\s+([a-z][a-z0-9_]*)(?:\s|$)")
SECTION = re.compile("^=+\nMSG: *(.+)$", re.M)
# The orders of bytes, by the first two bytes of a message. Others than these aren't in ROS 2.
ORDERS = {b"\0\0": ">", b"\0\1": "<"}


class Unreadable(Exception):
    """Why a message or a field can't be read."""


class Types:
    """Definitions of types, by their names without `msg/`, `srv/` or `action/`."""

    known: Dict[str, List[Field]]

    def __init__(self) -> None:
        self.texts, self.known = {**DEFINITIONS, **interfaces.ACTIONS}, {}

    def add(self, name: str, text: str) -> None:
        """Adds the definition of a type. Those of the types that it names may follow it."""
        first, *rest = SECTION.split(text)
        self.texts[plain(name)] = first
        for at in range(0, len(rest), 2):
            self.texts[plain(rest[at].strip())] = rest[at + 1]

    def add_missing(self, texts: Dict[str, str]) -> None:
        """Adds definitions of types that have none yet."""
        self.texts = {**texts, **self.texts}

    def fields(self, name: str) -> List[Field]:
        """The fields of a type: the type of each, whether it is a list and how long, and its name."""
        if name not in self.known:
            if name not in self.texts:
                raise Unreadable(f"the type {name} isn't known, and the bag has no definition of it")
            self.known[name] = list(self.parsed(name)) or [("uint8", None, EMPTY)]
        return self.known[name]

    def parsed(self, name: str) -> Iterator[Field]:
        for line in self.texts[name].split("\n"):
            bare = line.split("#", 1)[0].strip()
            found = FIELD.match(bare)
            if found and "=" not in bare[found.end(1) :].replace("<=", ""):
                of, length, field = found.groups()
                yield self.full(of, name), length, field

    def full(self, of: str, owner: str) -> str:
        """The whole name of a type that a definition names, which may be of the definition's own package."""
        if of in NUMBERS or of in ("string", "wstring"):
            return of
        return plain(of) if "/" in of else f"{owner.split('/')[0]}/{of}"


def plain(name: str) -> str:
    return re.sub("/(?:msg|srv|action)/", "/", name)


class Message:
    """A message that is read from its beginning on."""

    def __init__(self, types: Types, given: object) -> None:
        if not isinstance(given, bytes):
            raise Unreadable("the bag has no bytes there")
        if given[:2] not in ORDERS:
            raise Unreadable(f"it begins with {given[:2].hex() or 'nothing'}, which is no plain CDR")
        self.types, self.order, self.given, self.at = types, ORDERS[given[:2]], memoryview(given)[4:], 0

    def take(self, code: str, size: int, count: int = 1) -> Tuple[Any, ...]:
        """Numbers, each at a place that its size divides."""
        self.at += -self.at % size if count else 0
        try:
            found = struct.unpack_from(f"{self.order}{count}{code}", self.given, self.at)
        except struct.error:
            raise Unreadable(f"it is cut off: {len(self.given)} bytes, and more are wanted") from None
        self.at += size * count
        return found

    def value(self, of: str) -> Any:
        """A value of a type: an object is a dict."""
        if of in NUMBERS:
            return self.take(*NUMBERS[of])[0]
        if of == "string":
            (length,) = self.take("I", 4)
            self.take("B", 1, length)
            return None
        if of == "wstring":
            raise Unreadable("texts of wide characters aren't read")
        return {field: self.values(it, length) if length else self.value(it) for it, length, field in self.types.fields(of)}

    def values(self, of: str, length: str) -> List[Any]:
        digits = length.strip("[]")
        count = int(digits) if digits.isdigit() else self.take("I", 4)[0]
        if of in NUMBERS:
            return list(self.take(*NUMBERS[of], count))
        if count > len(self.given):
            raise Unreadable(f"it is cut off: {len(self.given)} bytes, and more are wanted")
        return [self.value(of) for _ in range(count)]


STEP = re.compile(r"([A-Za-z_][A-Za-z0-9_]*)|\[([0-9]{1,9})\]")


def taken(value: Any, path: str) -> float:
    """The number at a path as twist.linear.x, ranges[180], or ranges.min, which is the least that is a finite number."""
    for name, index in STEP.findall(path):
        if isinstance(value, list) and name in ("min", "max"):
            finite = [it for it in value if isinstance(it, (int, float)) and math.isfinite(it)]
            value = (min if name == "min" else max)(finite, default=math.nan)
        elif isinstance(value, list) and index:
            value = value[int(index)] if int(index) < len(value) else math.nan
        elif isinstance(value, dict) and name in value:
            value = value[name]
        else:
            has = ", ".join(value) if isinstance(value, dict) else "[N], .min, .max" if isinstance(value, list) else "no parts"
            raise Unreadable(f"{name or f'[{index}]'} of {path} isn't there: there is {has}" if has != "no parts" else f"{path}: what is before {name or f'[{index}]'} has no parts")
    if not isinstance(value, (int, float)):
        raise Unreadable(f"{path} is no number" + (f": there is {', '.join(value)}" if isinstance(value, dict) else ": [N], .min or .max takes one" if isinstance(value, list) else ""))
    return value


