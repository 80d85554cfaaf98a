"""The exceptions: one class for each error that a call can have.

>>> from jsonb_paths import select
>>> select(b"", "$.a[")
Traceback (most recent call last):
    ...
jsonb_paths.errors.InvalidJsonPath: byte 3: not a JSON path such as $.a[0]: '$.a['
"""

from __future__ import annotations

from typing import ClassVar, Dict, Optional, Tuple, Type


class JsonbError(Exception):
    """An error of the library. `row` is the row of a column, and `at` the byte of a JSON text or a path, or None."""

    status: ClassVar[int] = -1
    meaning: ClassVar[str] = "error"

    def __init__(self, what: str = "", row: Optional[int] = None, at: Optional[int] = None):
        self.what, self.row, self.at = what, row, at
        place = [f"{name} {it}" for name, it in (("row", row), ("byte", at)) if it is not None]
        super().__init__(": ".join([*place, self.meaning, *([what] if what else [])]))

    def __reduce__(self) -> "Tuple[Type[JsonbError], Tuple[str, Optional[int], Optional[int]]]":
        return type(self), (self.what, self.row, self.at)


class InvalidJson(JsonbError, ValueError):
    status, meaning = 64, "not JSON text"


class BadOffsets(JsonbError, ValueError):
    status, meaning = 3, "offsets of a column decrease or exceed its bytes"


class NotUtf8(JsonbError, ValueError):
    status, meaning = 4, "a name or another string is not UTF-8"


class InvalidJsonb(JsonbError, ValueError):
    status, meaning = 16, "the bytes are not a document (JSON text is not one)"


class UnsupportedNumber(JsonbError, ValueError):
    status, meaning = 17, "a number that the format does not hold"


class InvalidJsonPath(JsonbError, ValueError):
    status, meaning = 18, "not a JSON path such as $.a[0]"


class InvalidKeyPath(JsonbError, ValueError):
    status, meaning = 19, "not a key path such as {a,0}"


class InvalidCast(JsonbError, ValueError):
    status, meaning = 20, "the value cannot be cast to this type"


class InvalidObject(JsonbError, ValueError):
    status, meaning = 21, "the value is not an object"


class InvalidJsonType(JsonbError, ValueError):
    status, meaning = 22, "the value has the wrong type"


class ObjectDuplicateKey(JsonbError, KeyError):
    status, meaning = 23, "the object has the key already"

    def __str__(self) -> str:
        return Exception.__str__(self)


class TooLarge(JsonbError, OverflowError):
    status, meaning = 24, "a count or a length exceeds the limits of the format"


class TooDeep(JsonbError, OverflowError):
    status, meaning = 25, "an item is nested too deeply for a sortable key"


class OutOfMemory(JsonbError, MemoryError):
    status, meaning = 26, "an allocation fails"


class StrictPath(JsonbError, LookupError):
    status, meaning = 27, "a step of the strict path does not apply: no such key, or a value of another type"


class PathFailed(InvalidJsonPath):
    status, meaning = 28, "the path cannot be evaluated: an operand of arithmetic is not one number"


class LimitExceeded(JsonbError, OverflowError):
    status, meaning = 29, "the path may list or compare more items of the document than its limit"


class Overflow(JsonbError, OverflowError):
    status, meaning = 48, "arithmetic: below -2^63 or above 2^64 - 1"


class ZeroDivisor(JsonbError, ZeroDivisionError):
    status, meaning = 49, "arithmetic: division by zero"


class Inexact(JsonbError, ArithmeticError):
    status, meaning = 50, "arithmetic: the quotient is not an integer"


class DecimalOperand(JsonbError, ArithmeticError):
    status, meaning = 51, "arithmetic: an operand is a decimal, not an integer"


BY_STATUS: Dict[int, Type[JsonbError]] = {
    it.status: it for it in (*JsonbError.__subclasses__(), *InvalidJsonPath.__subclasses__())
}


def exception_of(status: int, what: str = "", row: Optional[int] = None, at: Optional[int] = None) -> JsonbError:
    """The exception of a status."""
    known = BY_STATUS.get(status)
    return known(what, row, at) if known else JsonbError(f"status {status} {what}".rstrip(), row, at)
