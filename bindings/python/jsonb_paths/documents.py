"""Calls on one document.

A document is bytes, or another object with the buffer protocol. A path is a str. Results are new bytes, or None if a look-up finds
nothing. Each error is an exception of jsonb_paths.errors.

>>> from jsonb_paths import dumps, loads
>>> fred = dumps({"name": "Fred", "phones": [{"number": 3720453, "type": "home"}, {"number": 5062051, "type": "work"}]})
>>> [loads(it) for it in select(fred, '$.phones[*]?(@.type == "home").number')]
[3720453]
>>> loads(get(fred, "{phones,1,type}"))
'work'
>>> loads(delete(fred, "{phones}"))
{'name': 'Fred'}

Numbers are exact, so a float is an error, unless the caller passes floats="decimal":

>>> dumps({"price": [1, 2.5]})
Traceback (most recent call last):
    ...
jsonb_paths.errors.UnsupportedNumber: a number that the format does not hold: the float 2.5 (give a Decimal, or floats="decimal") at $.price[1]
>>> loads(dumps({"price": [1, 2.5]}, floats="decimal"))
{'price': [1, Decimal('2.5')]}
"""

from __future__ import annotations

from array import array
from collections import Counter
from itertools import accumulate
from typing import TYPE_CHECKING, Iterable, Optional, Tuple

from . import _core
from ._core import (
    array_distinct,
    array_except,
    array_insert,
    array_intersection,
    array_overlap,
    as_bool,
    as_decimal,
    as_i64,
    as_str,
    as_u64,
    check,
    compare,
    concat,
    contains,
    delete,
    delete_by_index,
    delete_by_name,
    dumps,
    elements,
    equality_key,
    exists,
    from_json,
    get,
    get_by_index,
    get_by_name,
    leaves,
    length,
    loads,
    match,
    pairs,
    select,
    select_array,
    select_first,
    select_value,
    sort_key,
    strip_nulls,
    to_bool,
    to_i64,
    to_json,
    to_str,
    to_u64,
)
from .errors import BadOffsets, ObjectDuplicateKey

if TYPE_CHECKING:
    from .values import Document

KINDS = (
    "null", "boolean", "integer", "decimal", "string", "binary", "date", "timestamp", "timestamp_tz", "interval", "array", "object",
)
__all__ = [
    "KINDS", "array_distinct", "array_except", "array_from_column", "array_insert", "array_intersection", "array_overlap", "as_bool",
    "as_decimal", "as_int", "as_str", "check", "compare", "composite_key", "concat", "contains", "delete", "delete_by_index", "delete_by_name",
    "dumps", "elements", "equality_key", "exists", "exists_all_keys", "exists_any_keys", "from_json", "get", "get_by_index", "get_by_name",
    "kind", "leaves", "length", "loads", "match", "object_delete", "object_from_columns", "object_insert", "object_pick", "pairs",
    "select", "select_array", "select_first", "select_value", "sort_key", "strip_nulls", "to_bool", "to_i64", "to_json", "to_str",
    "to_u64",
]


def joined(rows: "Iterable[Document]") -> "Tuple[bytes, array[int]]":
    """The rows in one buffer, and their offsets."""
    parts = [it if type(it) is bytes else _bytes_of(it) for it in rows]
    return b"".join(parts), array("q", accumulate(map(len, parts), initial=0))


def _bytes_of(row: "Document") -> bytes:
    try:
        return bytes(memoryview(row))
    except TypeError:
        raise TypeError(f"a document (from_json and dumps return one) is bytes or another buffer, not {type(row)}") from None


def _names(names: Iterable[str]) -> "Tuple[bytes, array[int]]":
    """A column of names. Half of a surrogate pair becomes bytes that are not UTF-8, which the library rejects (NotUtf8)."""
    if isinstance(names, str):
        raise TypeError("names are several str, not one")
    rows = list(names)
    for it in rows:
        if not isinstance(it, str):
            raise TypeError(f"a name is a str, not {type(it)}")
    return joined(it.encode("utf-8", "surrogatepass") for it in rows)


def _plain(name: str) -> str:
    """Returns the name as an exact `str`: a subclass may compare by something other than its text."""
    return str.__str__(name)


def kind(document: "Document") -> str:
    """Returns the type of the value, one of KINDS.

    >>> kind(dumps([]))
    'array'
    """
    return KINDS[_core.kind_number(document)]


def object_insert(document: "Document", name: str, value: "Document", *, update: bool = False) -> bytes:
    """Returns the object with a member added, or with `update` replaced."""
    return _core.object_insert_value(document, value, name, update=update)


def object_pick(document: "Document", names: Iterable[str]) -> bytes:
    """Returns the object of the members whose keys are among the names."""
    return _core.pick_names(document, _names(names))


def object_delete(document: "Document", names: Iterable[str]) -> bytes:
    """Returns the object of the members whose keys are not among the names."""
    return _core.delete_names(document, _names(names))


def object_from_columns(names: Iterable[str], documents: "Iterable[Document]") -> bytes:
    """Returns the object whose keys are the names, and whose values are the documents, in order. A duplicate name is an error.

    >>> loads(object_from_columns(["b", "a"], [dumps(1), dumps([2])]))
    {'a': [2], 'b': 1}
    """
    keys = names if isinstance(names, str) else list(names)
    column, rows = _names(keys), joined(documents)
    if len(column[1]) != len(rows[1]):
        raise BadOffsets(f"{len(column[1]) - 1} names, and {len(rows[1]) - 1} documents")
    try:
        return _core.object_of(column, rows)
    except ObjectDuplicateKey:
        twice = next(it for it, count in Counter(map(_plain, keys)).items() if count > 1)
        raise ObjectDuplicateKey(repr(twice[:60])) from None


def array_from_column(documents: "Iterable[Document]") -> bytes:
    """Returns the array of documents.

    >>> loads(array_from_column([dumps(1), dumps("a")]))
    [1, 'a']
    """
    return _core.array_of(joined(documents))


def composite_key(documents: "Iterable[Optional[Document]]", *, wide: bool = False) -> bytes:
    """Returns bytes that sort as the lists of documents do: the keys of the documents, of which None is missing and sorts first.

    >>> composite_key([None, dumps(2)]) < composite_key([dumps(1), None]) < composite_key([dumps(1), dumps(2)])
    True
    """
    return _core.key_of(joined(b"" if it is None else it for it in documents), wide=wide)


def exists_all_keys(document: "Document", names: Iterable[str]) -> bool:
    """Returns whether all names are keys of an object, strings in an array, or equal to a string."""
    return _core.all_names(document, _names(names))


def exists_any_keys(document: "Document", names: Iterable[str]) -> bool:
    """Returns whether any of the names is a key of an object, a string in an array, or equal to a string."""
    return _core.any_names(document, _names(names))


def as_int(document: "Document") -> Optional[int]:
    """Returns the value of an integer, or None."""
    number = as_i64(document)
    return as_u64(document) if number is None else number
