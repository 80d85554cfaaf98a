"""Columns: many documents in one buffer, and calls on all of them, which release the interpreter's lock.

>>> from jsonb_paths import dumps, loads
>>> people = Column(dumps({"name": name, "age": age}) for name, age in [("Ann", 31), ("Bob", 47), ("Cy", None)])
>>> people
<Column: 3 rows, 93 bytes>
>>> people.match("$.age > 40")
<Booleans: 3 rows, 1 true, 1 false, 1 null>
>>> list(people.match("$.age > 40"))
[False, True, None]
>>> [it and loads(it) for it in people.get("{name}")]
['Ann', 'Bob', 'Cy']
>>> [loads(it)["name"] for it in people.filter(people.match("$.age > 40"))]
['Bob']

A row is None if it is null. An error raises its exception, which names the row. If the caller passes a dictionary as `errors`, the
exceptions are stored there by row, and the other rows have results:

>>> damaged = Column([dumps([1]), b"???", dumps([2]), None])
>>> damaged.match("$[0] == 1")
Traceback (most recent call last):
    ...
jsonb_paths.errors.InvalidJsonb: row 1: the bytes are not a document (JSON text is not one)
>>> errors = {}
>>> list(damaged.match("$[0] == 1", errors=errors)), list(errors)
([True, None, False, None], [1])

Other packages exchange columns by the Arrow C data interface, without a copy: `pyarrow.array(column)` and
`Column.from_arrow(array)`.
"""

from __future__ import annotations

import pickle
import sys
from array import array
from typing import TYPE_CHECKING, Any, Callable, Dict, Iterable, Iterator, List, Optional, Protocol, Sequence, Tuple, Union, overload

from . import _core
from .documents import joined
from .errors import BadOffsets, InvalidCast, InvalidJsonType, JsonbError, exception_of

if TYPE_CHECKING:
    import numpy
    import numpy.typing

    from ._core import KeyPath, Path
    from .values import Document, Duplicates, Floats

__all__ = ["Booleans", "Column", "Numbers", "Results"]

Errors = Optional[Dict[int, JsonbError]]
OK, NONE = 0, 1
MISTYPED = (InvalidJsonType.status, InvalidCast.status)


class ArrowArray(Protocol):
    """An object with the Arrow C data interface: an array of pyarrow or nanoarrow, or a column."""

    def __arrow_c_array__(self, requested_schema: Any = None) -> Tuple[Any, Any]: ...


class ArrowStream(Protocol):
    """An object with the Arrow C stream interface: a chunked array of pyarrow, or a series of polars."""

    def __arrow_c_stream__(self, requested_schema: Any = None) -> Any: ...


def _positions(offsets: Any) -> memoryview:
    """Offsets as native 64-bit integers. 32-bit ones are widened; other types, widths and byte orders are an error."""
    view = memoryview(offsets)
    form = view.format.lstrip("@=" + ("<" if sys.byteorder == "little" else ">"))
    if view.ndim != 1 or form not in ("q", "Q", "l", "L", "i", "I"):
        raise TypeError(f"the offsets of a column are 32-bit or 64-bit integers in the machine's byte order, not {view.format!r}")
    if view.itemsize == 4 or not view.contiguous:
        return memoryview(array("q", view))
    return view.cast("B").cast("q")


class Column(Sequence[Optional[bytes]]):
    """Documents in one buffer, with offsets and a validity bitmap: a large binary array of Arrow."""

    __slots__ = ("data", "offsets", "validity")
    data: memoryview
    offsets: memoryview
    validity: Optional[bytes]

    def __init__(self, documents: "Iterable[Optional[Document]]" = ()):
        rows = list(documents)
        data, offsets = joined(b"" if it is None else it for it in rows)
        validity = _core.bits_of(bytes(it is not None for it in rows), 1) if None in rows else None
        self._take(data, offsets, validity)

    @classmethod
    def from_buffers(cls, data: "Document", offsets: Any, validity: "Optional[Document]" = None) -> "Column":
        """Returns a column over buffers (bytes, memoryview, array, mmap, numpy), without a copy.

        The offsets are n + 1 integers of 64 bits, or of 32 bits, which are widened. The column keeps the buffers alive.

        >>> Column.from_buffers(bytes.fromhex("8000000040000000"), array("i", [0, 4, 8]))[1].hex()
        '40000000'
        >>> Column.from_buffers(b"", array("d", [0.0]))
        Traceback (most recent call last):
            ...
        TypeError: the offsets of a column are 32-bit or 64-bit integers in the machine's byte order, not 'd'
        """
        column = cls.__new__(cls)
        column._take(data, offsets, None if validity is None else bytes(validity))
        return column

    @classmethod
    def from_json(
        cls,
        texts: "Union[bytes, bytearray, memoryview, Iterable[Optional[str]]]",
        *,
        floats: "Floats" = "error",
        duplicates: "Duplicates" = "error",
        errors: Errors = None,
    ) -> "Column":
        """Returns a column of documents from JSON text: several str, or the lines of bytes, in which blank lines are not rows.

        >>> Column.from_json(b'{"a":1}\\n[2]\\n')
        <Column: 2 rows, 25 bytes>
        """
        if isinstance(texts, str):
            raise TypeError("JSON lines are bytes (text.encode()), and JSON texts are several str, not one")
        if isinstance(texts, (bytes, bytearray, memoryview)):
            return cls._from_lines(texts, floats, duplicates, errors)
        rows: List[Optional[bytes]] = []
        faults = {}
        for row, text in enumerate(texts):
            try:
                rows.append(None if text is None else _core.from_json(text, floats=floats, duplicates=duplicates))
            except JsonbError as fault:
                faults[row] = type(fault)(fault.what, row, fault.at)
                rows.append(None)
        _report(faults, errors)
        return cls(rows)

    @classmethod
    def _from_lines(cls, text: "Document", floats: "Floats", duplicates: "Duplicates", errors: Errors) -> "Column":
        data, offsets, _, wrong = _core.lines_in(text, floats=floats, duplicates=duplicates)
        _report({row: exception_of(status, what, row, at) for row, status, at, what in wrong}, errors)
        return cls._without(data, offsets, (row for row, *_ in wrong))

    @classmethod
    def _without(cls, data: memoryview, offsets: memoryview, nulls: Iterable[int]) -> "Column":
        """A column in which these rows are null."""
        positions = offsets.cast("B").cast("q")
        known = bytearray(b"\1" * (len(positions) - 1))
        for row in nulls:
            known[row] = 0
        return cls.from_buffers(data, positions, _core.bits_of(known, 1) if 0 in known else None)

    @classmethod
    def from_arrow(cls, array: "Union[ArrowArray, ArrowStream]") -> "Column":
        """Returns a column over an Arrow array of binary or large binary, without a copy of its bytes.

        A stream of one array is not copied either; several arrays are.
        """
        if hasattr(array, "__arrow_c_array__"):
            return cls._of_arrow(*array.__arrow_c_array__())
        schema, arrays = _core.arrow_stream(array.__arrow_c_stream__())
        parts = [cls._of_arrow(schema, it) for it in arrays]
        return parts[0] if len(parts) == 1 else cls(row for part in parts for row in part)

    @classmethod
    def _of_arrow(cls, schema: Any, found: Any) -> "Column":
        form, rows, first, _, validity, places, data = _core.arrow_in(schema, found)
        if form in "uU":
            raise TypeError("the Arrow array holds strings: Column.from_json(array.to_pylist()) reads them as JSON")
        offsets = places.cast("q")[first : first + rows + 1]
        return cls.from_buffers(data, offsets, None if validity is None else _core.bits_of(_core.bytes_of(validity, first, rows), 1))

    def _take(self, data: Any, offsets: Any, validity: Optional[bytes]) -> None:
        view = memoryview(data)
        if not view.contiguous:
            raise TypeError("the bytes of a column must be contiguous")
        self.data, self.offsets, self.validity = view.cast("B"), _positions(offsets), validity
        if validity is not None and len(validity) * 8 < len(self):
            raise ValueError(f"a validity bitmap of {len(validity)} bytes for {len(self)} rows")

    def __len__(self) -> int:
        return max(len(self.offsets) - 1, 0)

    def __repr__(self) -> str:
        size = self.offsets[-1] - self.offsets[0] if len(self) else 0
        nulls = f", {self.null_count} null" if self.validity is not None else ""
        return f"<{type(self).__name__}: {len(self):,} rows, {size:,} bytes{nulls}>"

    def _known(self) -> Optional[bytes]:
        """A byte for each row, 0 if it is null; None if no row is."""
        return None if self.validity is None else _core.bytes_of(self.validity, 0, len(self))

    @property
    def null_count(self) -> int:
        """The number of rows that are null."""
        known = self._known()
        return 0 if known is None else known.count(0)

    def is_null(self, row: int) -> bool:
        """Returns whether a row is null."""
        row = range(len(self))[row]
        return self.validity is not None and not self.validity[row // 8] >> row % 8 & 1

    @overload
    def __getitem__(self, row: int) -> Optional[bytes]: ...
    @overload
    def __getitem__(self, row: slice) -> "Column": ...
    def __getitem__(self, row: Any) -> Any:
        if isinstance(row, slice):
            return self._slice(row)
        row = range(len(self))[row]
        if self.is_null(row):
            return None
        first, end = self.offsets[row], self.offsets[row + 1]
        if not 0 <= first <= end <= len(self.data):
            raise BadOffsets(f"from {first} to {end} of {len(self.data)} bytes", row)
        return bytes(self.data[first:end])

    def _slice(self, rows: slice) -> "Column":
        """A column over the same buffers; a copy if the step is not 1."""
        chosen = range(*rows.indices(len(self)))
        if chosen.step != 1:
            return Column(self[it] for it in chosen)
        if not len(chosen):
            return Column()
        known = self._known()
        validity = None if known is None else _core.bits_of(known[chosen.start : chosen.stop], 1)
        return Column.from_buffers(self.data, self.offsets[chosen.start : chosen.stop + 1], validity)

    def _document(self, row: int) -> bytes:
        """The bytes of a row, also if it is null."""
        return bytes(self.data[self.offsets[row] : self.offsets[row + 1]])

    def __iter__(self) -> Iterator[Optional[bytes]]:
        return (self[row] for row in range(len(self)))

    def __eq__(self, other: object) -> bool:
        return isinstance(other, Column) and len(self) == len(other) and all(map(lambda one, two: one == two, self, other))

    __hash__ = None  # type: ignore[assignment]

    def __reduce_ex__(self, protocol: Any) -> Any:
        data, offsets = self.packed()
        if protocol >= 5:
            return _unpacked, (pickle.PickleBuffer(data), pickle.PickleBuffer(offsets), self.validity)
        return _unpacked, (bytes(data), bytes(offsets), self.validity)

    def packed(self) -> Tuple[memoryview, memoryview]:
        """Returns the bytes of the rows, without a copy, and offsets that begin at 0."""
        if not len(self):
            return memoryview(b""), memoryview(bytes(8)).cast("q")
        first, end = self.offsets[0], self.offsets[-1]
        if not 0 <= first <= end <= len(self.data):
            raise BadOffsets(f"from {first} to {end} of {len(self.data)} bytes")
        offsets = self.offsets if first == 0 else memoryview(array("q", (it - first for it in self.offsets)))
        return self.data[first:end], offsets

    def filter(self, chosen: "Union[Booleans, Sequence[Optional[bool]]]") -> "Column":
        """Returns the rows for which `chosen` is true, as a new column."""
        booleans = chosen.data if isinstance(chosen, Booleans) else bytes(1 if it else 0 for it in chosen)
        data, offsets = _core.gather(self.data, self.offsets, booleans)
        known = self._known()
        kept = () if known is None else (is_known for is_known, it in zip(known, booleans) if it == 1)
        return Column._without(data, offsets, (row for row, is_known in enumerate(kept) if not is_known))

    def check(self, errors: Errors = None) -> None:
        """Raises an exception if a row is not a document."""
        _sort_out(_core.column_check(self.data, self.offsets, self.validity), errors)

    def exists(self, path: "Union[str, Path]", *, strict: bool = False, limit: Optional[int] = None, errors: Errors = None) -> "Booleans":
        """Returns for each row whether a JSON path selects an item."""
        return self._decided("exists", path, strict, limit, errors)

    def match(self, path: "Union[str, Path]", *, strict: bool = False, limit: Optional[int] = None, errors: Errors = None) -> "Booleans":
        """Returns for each row the value of a JSON path that is a predicate; None if it is unknown."""
        return self._decided("match", path, strict, limit, errors)

    def contains(self, other: "Document", *, errors: Errors = None) -> "Booleans":
        """Returns for each row whether it contains a document."""
        return self._booleans(*_core.column_contains(self.data, self.offsets, self.validity, other), errors)

    def to_i64(self, *, errors: Errors = None) -> "Numbers":
        """Returns each row cast to an int; None if it is null or an error."""
        numbers, statuses = _core.column_to_i64(self.data, self.offsets, self.validity)
        _sort_out(statuses, errors, lambda row: _core.to_i64(self._document(row)))
        return Numbers(numbers.cast("q"), bytes(statuses))

    def get(self, path: "Union[str, KeyPath]", *, errors: Errors = None) -> "Results":
        """Returns for each row the item at a key path, or None."""
        return self._results(*_core.column_get(self.data, self.offsets, self.validity, _key_path(path)), errors)

    def select_first(self, path: "Union[str, Path]", *, strict: bool = False, limit: Optional[int] = None, errors: Errors = None) -> "Results":
        """Returns for each row the first item that a JSON path selects, or None."""
        return self._selected("select_first", path, strict, limit, errors)

    def select_value(self, path: "Union[str, Path]", *, strict: bool = False, limit: Optional[int] = None, errors: Errors = None) -> "Results":
        """Returns for each row None, the only item that a JSON path selects, or an array of several."""
        return self._selected("select_value", path, strict, limit, errors)

    def select_array(self, path: "Union[str, Path]", *, strict: bool = False, limit: Optional[int] = None, errors: Errors = None) -> "Results":
        """Returns for each row an array of all items that a JSON path selects."""
        return self._selected("select_array", path, strict, limit, errors)

    def delete(self, path: "Union[str, KeyPath]", *, errors: Errors = None) -> "Results":
        """Returns each row without the item at a key path."""
        text = _key_path(path)
        found = _core.column_delete(self.data, self.offsets, self.validity, text)
        return self._results(*found, errors, lambda row: _core.delete(self._document(row), text))

    def sort_keys(self, *, wide: bool = False, errors: Errors = None) -> "Results":
        """Returns the sortable key of each row."""
        return self._results(*_core.column_key(self.data, self.offsets, self.validity, wide), errors)

    def equality_keys(self, *, errors: Errors = None) -> "Results":
        """Returns the equality key of each row."""
        return self._results(*_core.column_equality_key(self.data, self.offsets, self.validity), errors)

    def to_str(self, *, errors: Errors = None) -> List[Optional[str]]:
        """Returns each row cast to a str; None if it is null or an error."""
        found = _core.column_to_str(self.data, self.offsets, self.validity)
        results = self._results(*found, errors, lambda row: _core.to_str(self._document(row)))
        return [None if it is None else it.decode() for it in results]

    def to_json_lines(self) -> bytes:
        """Returns the rows that are not null as JSON lines."""
        known = self._known()
        statuses = None if known is None else known.translate(bytes([1, 0]) + bytes(254))
        return _core.lines_out(self.data, self.offsets, statuses, 0)[0]

    def _decided(self, call: str, path: "Union[str, Path]", strict: bool, limit: Optional[int], errors: Errors) -> "Booleans":
        """What a call with a JSON path decides of each row. With a limit it is made row by row."""
        text, strict, limit = _path(path, strict, limit)
        if limit is None:
            booleans, statuses = getattr(_core, f"column_{call}")(self.data, self.offsets, self.validity, text, strict)
            return self._booleans(booleans, statuses, errors)
        found, statuses = self._row_by_row(getattr(_core.Path(text, strict=strict, limit=limit), call))
        return self._booleans(bytes(2 if it is None else it for it in found), statuses, errors)

    def _selected(self, call: str, path: "Union[str, Path]", strict: bool, limit: Optional[int], errors: Errors) -> "Results":
        """The documents that a call with a JSON path returns. With a limit it is made row by row."""
        text, strict, limit = _path(path, strict, limit)
        if limit is None:
            data, offsets, statuses = getattr(_core, f"column_{call}")(self.data, self.offsets, self.validity, text, strict)
            return self._results(data, offsets, statuses, errors)
        found, statuses = self._row_by_row(getattr(_core.Path(text, strict=strict, limit=limit), call))
        rows, places = joined(b"" if it is None else it for it in found)
        return self._results(memoryview(rows), memoryview(places).cast("B"), statuses, errors)

    def _row_by_row(self, call: Callable[[bytes], Any]) -> Tuple[List[Any], bytes]:
        """What a call returns for each row, and the statuses."""
        found, statuses = [], bytearray()
        for row in range(len(self)):
            made, status = None, NONE
            try:
                document = self[row]
                made = None if document is None else call(document)
                status = NONE if made is None else OK
            except JsonbError as fault:
                status = fault.status
            found.append(made)
            statuses.append(status)
        return found, bytes(statuses)

    def _booleans(self, booleans: "Document", statuses: "Document", errors: Errors) -> "Booleans":
        _sort_out(statuses, errors)
        return Booleans(bytes(booleans))

    def _results(
        self, data: memoryview, offsets: memoryview, statuses: "Document", errors: Errors, call: "Optional[Callable[[int], Any]]" = None
    ) -> "Results":
        _sort_out(statuses, errors, call)
        return _with_statuses(data, offsets.cast("q"), bytes(statuses))

    def __arrow_c_schema__(self) -> Any:
        return _core.arrow_schema("Z")

    def __arrow_c_array__(self, requested_schema: Any = None) -> Tuple[Any, Any]:
        """The Arrow PyCapsule interface: a large binary array over the buffers of the column."""
        rows = len(self)
        offsets = self.offsets if rows else memoryview(bytes(8)).cast("q")
        if rows and not 0 <= offsets[0] <= offsets[-1] <= len(self.data):
            raise BadOffsets(f"from {offsets[0]} to {offsets[-1]} of {len(self.data)} bytes")
        return _core.arrow_schema("Z"), _core.arrow_out(rows, self.null_count, self.validity, offsets, self.data)


def _unpacked(data: Any, offsets: Any, validity: Optional[bytes], statuses: Optional[bytes] = None) -> Column:
    """A column that was pickled. The offsets are copied, since a received buffer may not be aligned."""
    places = array("q")
    places.frombytes(memoryview(offsets).cast("B"))
    return Column.from_buffers(data, places, validity) if statuses is None else _with_statuses(data, places, statuses)


class Results(Column):
    """A column of results; a row without a result is None. `statuses` has the status of each row, as a byte (jdoc.h)."""

    __slots__ = ("statuses",)
    statuses: bytes

    def __reduce_ex__(self, protocol: Any) -> Any:
        call, words = super().__reduce_ex__(protocol)
        return call, (*words, self.statuses)


def _with_statuses(data: Any, offsets: Any, statuses: bytes) -> Results:
    """Results, in which a row is null unless its status is OK."""
    results = Results.__new__(Results)
    results._take(data, offsets, _core.bits_of(statuses, OK) if statuses.strip(b"\0") else None)
    results.statuses = statuses
    return results


class Booleans(Sequence[Optional[bool]]):
    """True, False, or None for unknown, for each row. `data` has a byte for each row: 1, 0 or 2."""

    __slots__ = ("data",)
    _MEANING = (False, True, None)

    def __init__(self, data: bytes):
        self.data = data

    def __len__(self) -> int:
        return len(self.data)

    def __repr__(self) -> str:
        true, false, null = (f"{self.data.count(it):,} {name}" for it, name in ((1, "true"), (0, "false"), (2, "null")))
        return f"<Booleans: {len(self):,} rows, {true}, {false}, {null}>"

    @overload
    def __getitem__(self, row: int) -> Optional[bool]: ...
    @overload
    def __getitem__(self, row: slice) -> "Booleans": ...
    def __getitem__(self, row: Any) -> Any:
        return Booleans(self.data[row]) if isinstance(row, slice) else self._MEANING[self.data[row]]

    def __iter__(self) -> Iterator[Optional[bool]]:
        return map(self._MEANING.__getitem__, self.data)

    def __eq__(self, other: object) -> bool:
        if isinstance(other, Booleans):
            return self.data == other.data
        return isinstance(other, Sequence) and list(self) == list(other)

    __hash__ = None  # type: ignore[assignment]

    @property
    def true_count(self) -> int:
        """The number of rows that are true."""
        return self.data.count(1)

    def to_numpy(self) -> "numpy.typing.NDArray[numpy.bool_]":
        """Returns for each row whether it is true; unknown is False."""
        import numpy

        booleans: numpy.typing.NDArray[numpy.bool_] = numpy.frombuffer(self.data, numpy.uint8) == 1
        return booleans

    def __array__(self, dtype: Any = None, copy: Any = None) -> Any:
        found = self.to_numpy()
        return found if dtype is None else found.astype(dtype)

    def __arrow_c_schema__(self) -> Any:
        return _core.arrow_schema("b")

    def __arrow_c_array__(self, requested_schema: Any = None) -> Tuple[Any, Any]:
        nulls = self.data.count(2)
        validity = _core.bits_of(self.data.replace(b"\1", b"\0"), 0) if nulls else None
        return _core.arrow_schema("b"), _core.arrow_out(len(self), nulls, validity, _core.bits_of(self.data, 1))


class Numbers(Sequence[Optional[int]]):
    """An int or None for each row. `data` has 64-bit integers, 0 for None."""

    __slots__ = ("data", "statuses")

    def __init__(self, data: memoryview, statuses: bytes):
        self.data, self.statuses = data, statuses

    def __len__(self) -> int:
        return len(self.data)

    def __repr__(self) -> str:
        return f"<Numbers: {len(self):,} rows, {len(self) - self.statuses.count(0):,} null>"

    @overload
    def __getitem__(self, row: int) -> Optional[int]: ...
    @overload
    def __getitem__(self, row: slice) -> "Numbers": ...
    def __getitem__(self, row: Any) -> Any:
        if isinstance(row, slice):
            return Numbers(self.data[row], self.statuses[row])
        return None if self.statuses[row] else self.data[row]

    def __eq__(self, other: object) -> bool:
        return isinstance(other, Sequence) and list(self) == list(other)

    __hash__ = None  # type: ignore[assignment]

    def __reduce__(self) -> Any:
        return _numbers, (bytes(self.data), self.statuses)

    def to_numpy(self) -> "numpy.typing.NDArray[numpy.int64]":
        """Returns the numbers, without a copy; rows without a number are 0."""
        import numpy

        return numpy.frombuffer(self.data, numpy.int64)

    def __arrow_c_schema__(self) -> Any:
        return _core.arrow_schema("l")

    def __arrow_c_array__(self, requested_schema: Any = None) -> Tuple[Any, Any]:
        nulls = len(self) - self.statuses.count(0)
        validity = _core.bits_of(self.statuses, 0) if nulls else None
        return _core.arrow_schema("l"), _core.arrow_out(len(self), nulls, validity, self.data)


def _numbers(data: bytes, statuses: bytes) -> Numbers:
    return Numbers(memoryview(data).cast("q"), statuses)


def _path(path: "Union[str, Path]", strict: bool, limit: Optional[int]) -> Tuple[str, bool, Optional[int]]:
    if isinstance(path, _core.Path):
        return path.text, strict or path.strict, path.limit if limit is None else limit
    if not isinstance(path, str):
        raise TypeError(f"a JSON path is a str or a Path, not {type(path)}")
    return path, strict, limit


def _key_path(path: "Union[str, KeyPath]") -> str:
    if not isinstance(path, (str, _core.KeyPath)):
        raise TypeError(f"a key path is a str or a KeyPath, not {type(path)}")
    return str(path)


def _report(faults: Dict[int, JsonbError], errors: Errors) -> None:
    """Stores the exceptions in the dictionary that the caller passed, or raises that of the first row."""
    if errors is not None:
        errors.update(faults)
    elif faults:
        raise faults[min(faults)]


def _sort_out(statuses: "Document", errors: Errors, call: "Optional[Callable[[int], Any]]" = None) -> None:
    """Reports the rows whose status is an error. The call is that on one row, whose exception names the types."""
    found = bytes(statuses)
    if found.strip(b"\0\1"):
        rows = [row for row, status in enumerate(found) if status > NONE]
        _report({row: _exception_of_row(found[row], row, call) for row in (rows if errors is not None else rows[:1])}, errors)


def _exception_of_row(status: int, row: int, call: "Optional[Callable[[int], Any]]") -> JsonbError:
    if call and status in MISTYPED:
        try:
            call(row)
        except JsonbError as fault:
            return type(fault)(fault.what, row)
    return exception_of(status, row=row)
