"""How long a tick is, as a person writes it: 20ms, 0.5s or 100us; and moments."""
from __future__ import annotations

import argparse
import decimal
import re

from . import TYPE_CHECKING, grammar

if TYPE_CHECKING:
    from typing import Optional, Tuple

UNITS = {"ns": 1, "us": 1000, "ms": 1000000, "s": 1000000000}
LENGTH = re.compile("([0-9]{1,12}(?:[.][0-9]{1,9})?)(ns|us|ms|s)")


def unitless(number: int, unit: str) -> Tuple[Optional[int], str]:
    """How a number with a unit is written without it: times in milliseconds, so that all hints of a document are of one tick. Gives
    the number and what is to be said of it; no number if it is no whole one."""
    if unit not in UNITS:
        return number, "without the unit"
    length = number * UNITS[unit]
    return (None if length % UNITS["ms"] else length // UNITS["ms"]), "without the unit, if a tick is 1 ms"


def nanoseconds(text: str) -> int:
    """The nanoseconds of a tick, a whole number of them."""
    found = LENGTH.fullmatch(text)
    length = decimal.Decimal(found[1]) * UNITS[found[2]] if found else decimal.Decimal(0)
    if length <= 0 or length != int(length):
        raise argparse.ArgumentTypeError(f"a time as 10ms, 0.5s or 100us, and not {text[:40]!r}")
    return int(length)


def moment(text: str) -> int:
    if not grammar.is_number(text):
        raise argparse.ArgumentTypeError(f"a moment, and not {text[:40]!r}")
    return int(text)
