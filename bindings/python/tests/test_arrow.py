"""Arrow arrays and streams that another library makes: each format, offsets of 32 and 64 bits, slices and bitmaps, and wrong ones."""

import ctypes
import gc
import struct
import unittest

from jsonb_paths import Booleans, Column, dumps, errors, loads

POINTER, NUMBER, RELEASE = ctypes.c_void_p, ctypes.c_int64, ctypes.CFUNCTYPE(None, ctypes.c_void_p)


class Schema(ctypes.Structure):
    _fields_ = [("format", ctypes.c_char_p), ("name", ctypes.c_char_p), ("metadata", ctypes.c_char_p), ("flags", NUMBER), ("n_children", NUMBER),
                ("children", POINTER), ("dictionary", POINTER), ("release", RELEASE), ("private_data", POINTER)]


class Array(ctypes.Structure):
    _fields_ = [("length", NUMBER), ("null_count", NUMBER), ("offset", NUMBER), ("n_buffers", NUMBER), ("n_children", NUMBER),
                ("buffers", ctypes.POINTER(POINTER)), ("children", POINTER), ("dictionary", POINTER), ("release", RELEASE), ("private_data", POINTER)]


CALL, MESSAGE = ctypes.CFUNCTYPE(ctypes.c_int, POINTER, POINTER), ctypes.CFUNCTYPE(POINTER, POINTER)


class Stream(ctypes.Structure):
    _fields_ = [("get_schema", CALL), ("get_next", CALL), ("get_last_error", MESSAGE), ("release", RELEASE), ("private_data", POINTER)]


def capsule(it, name):
    """A capsule without a destructor: what is in it is released by the importer, or never."""
    made = ctypes.pythonapi.PyCapsule_New
    made.restype, made.argtypes = ctypes.py_object, [POINTER, ctypes.c_char_p, POINTER]
    return made(ctypes.addressof(it), name, None)


class Producer:
    """An array of rows, as the Arrow C data interface describes it, and the number of times that it was released. It lives on, since its
    importer calls it."""

    living = []

    def __init__(self, form, rows, first=0, count=None, null_count=-1, offsets=None, buffers=3):
        self.living.append(self)
        self.released, length = 0, len(rows) - first if count is None else count
        places, data = [0], b""
        for row in rows:
            data += row or b""
            places.append(len(data))
        known = sum(1 << at for at, row in enumerate(rows) if row is not None)
        width = "i" if form in ("z", "u") else "q"
        self.parts = [ctypes.create_string_buffer(it, max(len(it), 1)) for it in (
            known.to_bytes(len(rows) // 8 + 1, "little"), struct.pack(f"{len(rows) + 1}{width}", *(offsets or places)), data)]
        self.pointers = (POINTER * 3)(*map(ctypes.addressof, self.parts))
        if None not in rows:
            self.pointers[0] = None
        self.release_schema, self.release_array = RELEASE(self.end_schema), RELEASE(self.end_array)
        self.schema = Schema(format=form.encode(), name=b"", release=self.release_schema)
        self.array = Array(length=length, null_count=null_count, offset=first, n_buffers=buffers, buffers=self.pointers, release=self.release_array)

    def end_schema(self, at):
        Schema.from_address(at).release = RELEASE()

    def end_array(self, at):
        self.released += 1
        Array.from_address(at).release = RELEASE()

    def __arrow_c_array__(self, requested_schema=None):
        return capsule(self.schema, b"arrow_schema"), capsule(self.array, b"arrow_array")


class StreamOf:
    """A stream of arrays, which fails after them if there is an error."""

    def __init__(self, arrays, error=None, form="Z"):
        Producer.living.append(self)
        self.arrays, self.error, self.schema = list(arrays), error and ctypes.create_string_buffer(error), Producer(form, [b""]).schema
        self.calls = CALL(self.get_schema), CALL(self.get_next), MESSAGE(lambda _: self.error and ctypes.addressof(self.error)), RELEASE(self.end)
        self.stream, self.released = Stream(*self.calls), 0

    def get_schema(self, _, out):
        ctypes.memmove(out, ctypes.addressof(self.schema), ctypes.sizeof(Schema))
        return 0

    def get_next(self, _, out):
        if self.arrays:
            ctypes.memmove(out, ctypes.addressof(self.arrays.pop(0).array), ctypes.sizeof(Array))
        elif self.error is not None:
            return 5
        return 0

    def end(self, at):
        self.released += 1
        Stream.from_address(at).release = RELEASE()

    def __arrow_c_stream__(self, requested_schema=None):
        return capsule(self.stream, b"arrow_array_stream")


class FromOthers(unittest.TestCase):
    ROWS = [dumps({"age": 31}), None, dumps([1, 2]), dumps("x"), None, dumps({}), dumps(7), dumps([]), dumps(None), dumps({"age": 47})]

    def test_each_format_slice_and_null_count(self):
        for form in "zZ":
            for first in range(len(self.ROWS) + 1):
                for null_count in (-1, self.ROWS[first:].count(None)):
                    column = Column.from_arrow(Producer(form, self.ROWS, first, null_count=null_count))
                    self.assertEqual(list(column), self.ROWS[first:], (form, first))
                    self.assertEqual(column.null_count, self.ROWS[first:].count(None))
            self.assertEqual(list(Column.from_arrow(Producer(form, self.ROWS, 2, 3))), self.ROWS[2:5])
            self.assertEqual(list(Column.from_arrow(Producer(form, []))), [])
            whole = [it for it in self.ROWS if it is not None]
            self.assertEqual(list(Column.from_arrow(Producer(form, whole, null_count=0))), whole)
            found = Column.from_arrow(Producer(form, self.ROWS)).get("{age}")
            self.assertEqual([it and loads(it) for it in found], [31] + [None] * 8 + [47])

    def test_an_array_is_released_once_when_nothing_uses_it(self):
        for form in "zZ":
            made = Producer(form, self.ROWS)
            column = Column.from_arrow(made)
            part = column[3:]
            del column
            gc.collect()
            self.assertEqual((made.released, part[0]), (0, self.ROWS[3]))
            del part
            gc.collect()
            self.assertEqual(made.released, 1)

    def test_other_formats_are_type_errors(self):
        for form in ("i", "l", "b", "+l", "+s", "w:4", "vz", "n", ""):
            with self.assertRaisesRegex(TypeError, "format"):
                Column.from_arrow(Producer(form, [b""]))
        for form in ("u", "U"):
            with self.assertRaisesRegex(TypeError, "from_json"):
                Column.from_arrow(Producer(form, [b"1"]))

    def test_streams(self):
        for form in "zZ":
            for cuts in ([10], [0, 3, 10], [3, 3, 9, 10], [0]):
                parts = [Producer(form, self.ROWS[one:two]) for one, two in zip([0, *cuts], cuts)]
                column = Column.from_arrow(StreamOf(parts, form=form))
                self.assertEqual(list(column), self.ROWS[: cuts[-1]], (form, cuts))
                del column
                gc.collect()
                self.assertEqual([it.released for it in parts], [1] * len(parts))
            self.assertEqual(list(Column.from_arrow(StreamOf([], form=form))), [])
        with self.assertRaisesRegex(OSError, "the disk is full"):
            Column.from_arrow(StreamOf([Producer("Z", self.ROWS)], b"the disk is full"))
        with self.assertRaisesRegex(TypeError, "format"):
            Column.from_arrow(StreamOf([Producer("l", [b""])], form="l"))
        moved = StreamOf([])
        moved.stream.release = RELEASE()
        with self.assertRaises(ValueError):
            Column.from_arrow(moved)

    def test_wrong_arrays(self):
        for wrong in (Producer("z", self.ROWS, buffers=2), Producer("z", self.ROWS, count=-1), Producer("Z", self.ROWS, first=-1, count=1)):
            with self.assertRaises(ValueError):
                Column.from_arrow(wrong)
        for form in "zZ":
            with self.assertRaises(errors.BadOffsets):
                Column.from_arrow(Producer(form, [b"", b""], offsets=[0, 0, -1]))
            by_row = {}
            falling = Column.from_arrow(Producer(form, [dumps(1), dumps(2), dumps(3)], offsets=[0, 10, -5, 10]))
            self.assertEqual(falling.exists("$", errors=by_row), [True, None, None])
            self.assertEqual([type(it) for it in by_row.values()], [errors.BadOffsets] * 2)
        used = Producer("z", self.ROWS)
        Column.from_arrow(used)
        with self.assertRaises(ValueError):
            Column.from_arrow(used)


class ToOthers(unittest.TestCase):
    """What goes out, read from the structs as another library reads it."""

    def read(self, exporter):
        pointer = ctypes.pythonapi.PyCapsule_GetPointer
        pointer.restype, pointer.argtypes = POINTER, [ctypes.py_object, ctypes.c_char_p]
        kept = exporter.__arrow_c_array__()
        schema = Schema.from_address(pointer(kept[0], b"arrow_schema"))
        array = Array.from_address(pointer(kept[1], b"arrow_array"))
        self.assertEqual(schema.flags & 2, 2)  # nullable
        self.assertEqual((array.n_children, array.dictionary), (0, None))
        return kept, schema.format.decode(), array

    def known(self, array):
        """Whether each row is not null, by the bitmap."""
        if not array.buffers[0]:
            return [True] * array.length
        bits = ctypes.string_at(array.buffers[0], (array.offset + array.length + 7) // 8)
        return [bool(bits[at // 8] >> at % 8 & 1) for at in range(array.offset, array.offset + array.length)]

    def test_a_column(self):
        for column in (Column(FromOthers.ROWS), Column(FromOthers.ROWS)[3:], Column([dumps(1)]), Column()):
            _, form, array = self.read(column)
            self.assertEqual((form, array.length, array.n_buffers, array.null_count), ("Z", len(column), 3, column.null_count))
            size = array.offset + array.length + 1
            places = struct.unpack(f"{size}q", ctypes.string_at(array.buffers[1], 8 * size))
            rows = [ctypes.string_at(array.buffers[2] + one, two - one) for one, two in zip(places[array.offset:], places[array.offset + 1:])]
            self.assertEqual([row if is_known else None for row, is_known in zip(rows, self.known(array))], list(column))

    def test_booleans_and_numbers(self):
        column = Column(FromOthers.ROWS)
        found = column.match("$.age > 40")
        _, form, array = self.read(found)
        self.assertEqual((form, array.length, array.n_buffers, array.null_count), ("b", len(found), 2, list(found).count(None)))
        bits = ctypes.string_at(array.buffers[1], (array.length + 7) // 8)
        values = [bool(bits[at // 8] >> at % 8 & 1) for at in range(array.length)]
        self.assertEqual([it if is_known else None for it, is_known in zip(values, self.known(array))], list(found))
        numbers = column.get("{age}").to_i64()
        _, form, array = self.read(numbers)
        self.assertEqual((form, array.length, array.n_buffers, array.null_count), ("l", len(numbers), 2, 8))
        values = struct.unpack(f"{array.length}q", ctypes.string_at(array.buffers[1], 8 * array.length))
        self.assertEqual([it if is_known else None for it, is_known in zip(values, self.known(array))], list(numbers))
        kept, _, array = self.read(Booleans(b""))
        self.assertEqual((array.length, len(kept)), (0, 2))


if __name__ == "__main__":
    unittest.main()
