"""The types of arguments and results.

    None, True, False     null and Booleans
    int                   integers; those of more than 64 bits become decimals of 128
    Decimal               decimals of at most 128 bits (38 digits), with a scale of 0 to 255
    str, list, dict       strings, arrays, objects whose keys are str

A float is an error, since the library does not read floats of the format: give a Decimal, or floats="decimal".
"""

from __future__ import annotations

from array import array
from decimal import Decimal
from mmap import mmap
from typing import TYPE_CHECKING, Any, Dict, List, Literal, Mapping, Sequence, Union

if TYPE_CHECKING:
    Document = Union[bytes, bytearray, memoryview, "array[Any]", mmap]
else:
    Document = bytes  # collections.abc.Buffer from Python 3.12 on
Value = Union[None, bool, int, Decimal, str, List["Value"], Dict[str, "Value"]]
"""What `loads` returns."""
Dumpable = Union[None, bool, int, Decimal, float, str, Sequence["Dumpable"], Mapping[str, "Dumpable"]]
"""What `dumps` takes: the same, tuples, and with floats="decimal" floats."""

Floats = Literal["error", "decimal"]
"""Whether a number that is not exact, or a Python float, is an error or the nearest decimal."""
Duplicates = Literal["error", "last"]
"""Whether a key that comes twice is an error, or the last one is kept."""

__all__ = ["Document", "Dumpable", "Duplicates", "Floats", "Value"]
