"""Compares calls on columns with calls on one document, over random documents and memory of every kind."""

import array
import copy
import pickle
import random
import threading
import unittest

import jsonb_paths
from jsonb_paths import Column, Path, dumps, errors, from_json, loads, match
from test_documents import random_value

DAMAGED = b"\x80\0\0"


def one(call, *words, **flags):
    """What a call on one document returns, or the class of its exception."""
    try:
        return call(*words, **flags)
    except errors.JsonbError as error:
        return type(error)


class Columns(unittest.TestCase):
    def setUp(self):
        source = random.Random(3)
        self.rows = [dumps(random_value(source)) for _ in range(200)]
        self.rows[17] = self.rows[180] = DAMAGED
        self.rows[60] = b""
        self.rows[5] = self.rows[6] = self.rows[199] = None
        self.column = Column(self.rows)

    def compare(self, call, row, *words, **flags):
        by_row = {}
        results = getattr(self.column, call)(*words, errors=by_row, **flags)
        self.assertEqual(len(results), len(self.rows))
        for at, document in enumerate(self.rows):
            wanted = None if document is None else one(row, document, *words, **flags)
            self.assertEqual(type(by_row[at]) if at in by_row else results[at], wanted, (call, at))
            self.assertEqual(at, by_row[at].row if at in by_row else at)

    def test_each_call_is_the_call_on_each_row(self):
        for call, row, *words in [
            ("exists", jsonb_paths.exists, "$.a"), ("match", jsonb_paths.match, "$.a > 1"), ("get", jsonb_paths.get, "{a,0}"),
            ("contains", jsonb_paths.contains, dumps([1])), ("select_first", jsonb_paths.select_first, "$.**"),
            ("select_value", jsonb_paths.select_value, "$.*"), ("select_array", jsonb_paths.select_array, "$[*]"),
            ("delete", jsonb_paths.delete, "{a}"), ("sort_keys", jsonb_paths.sort_key), ("equality_keys", jsonb_paths.equality_key),
            ("to_str", jsonb_paths.to_str), ("to_i64", jsonb_paths.to_i64),
        ]:
            self.compare(call, row, *words)
        for call in ("exists", "match", "select_first", "select_array"):
            self.compare(call, getattr(jsonb_paths, call), "$.a", strict=True)
        self.compare("sort_keys", jsonb_paths.sort_key, wide=True)

    def test_a_result_longer_than_its_document(self):
        rows = [dumps([[it] * 20 for it in range(20)])] * 50
        found = Column(rows).select_array("$.**.**")
        self.assertEqual(list(found), [jsonb_paths.select_array(rows[0], "$.**.**")] * 50)
        self.assertGreater(len(found.data), 4 * sum(map(len, rows)))

    def test_an_error_is_raised_with_its_row(self):
        for call in (self.column.check, self.column.sort_keys, lambda: self.column.match("$.a == 1")):
            with self.assertRaises(errors.InvalidJsonb) as raised:
                call()
            self.assertEqual(raised.exception.row, 17)
        with self.assertRaisesRegex(errors.InvalidJsonPath, r"\$\["):
            self.column.match("$[")

    def test_keys_sort_as_documents_do(self):
        values = [2, 10, -1, "b", "a", [1], [], {"a": 1}, None, True, False]
        keys = Column(map(dumps, values)).sort_keys()
        ordered = [values[row] for row in sorted(range(len(values)), key=keys.__getitem__)]
        self.assertEqual(ordered, [False, True, -1, 2, 10, "a", "b", {"a": 1}, [], [1], None])

    def test_a_path_object_is_a_path(self):
        self.assertEqual(self.column.exists(Path("$.a"), errors={}), self.column.exists("$.a", errors={}))
        with self.assertRaises(errors.StrictPath):
            Column([dumps(1)]).exists(Path("$.a", strict=True))

    def test_threads(self):
        column = Column([dumps({"age": it % 100, "note": "x" * 50}) for it in range(5_000)])
        wanted, found = column.match("$.age > 40"), []
        texts = '{"a":' * 900 + "1" + "}" * 900
        threads = [threading.Thread(target=lambda: found.append(column.match("$.age > 40") == wanted and from_json(texts))) for _ in range(8)]
        for it in threads:
            it.start()
        for it in threads:
            it.join()
        self.assertEqual((len(found), all(found)), (8, True))

    def test_memory_that_others_write_to(self):
        data, offsets, stop = bytearray(Column(self.rows).data), array.array("q", Column(self.rows).offsets), []

        def scribble():
            source = random.Random(2)
            while not stop:
                row, byte = source.randrange(len(offsets)), source.randrange(len(data))
                offsets[row], data[byte] = source.choice([0, 1 << 40, -5, len(data)]), source.randrange(256)

        column, writer = Column.from_buffers(data, offsets), threading.Thread(target=scribble)
        writer.start()
        calls = [lambda: column.filter([True] * len(column)), column.to_json_lines, lambda: column.match("$.age > 40", errors={}), lambda: column.get("{a}", errors={})]
        for call in calls * 50:
            one(call)
        stop.append(True)
        writer.join()


class Rows(unittest.TestCase):
    rows = [dumps({"age": 31}), None, dumps({"age": 47}), dumps({}), None, dumps([1]), dumps({"age": 50}), dumps(1), None, dumps({"age": 2})]

    def test_nulls_and_slices(self):
        column = Column(self.rows)
        self.assertEqual(list(column), self.rows)
        self.assertEqual((column.null_count, [column.is_null(it) for it in (0, 1, -2)]), (3, [False, True, True]))
        for first in range(11):
            for end in range(first, 11):
                self.assertEqual(list(column[first:end]), self.rows[first:end])
                self.assertEqual(list(column[first:end].match("$.age > 40")), [it and match(it, "$.age > 40") for it in self.rows[first:end]])
        self.assertEqual(list(column[::-2]), self.rows[::-2])
        self.assertEqual([it and loads(it) for it in column.get("{age}")], [31, None, 47, None, None, None, 50, None, None, 2])
        self.assertEqual(list(column.filter(column.exists("$.age"))), [it for it in self.rows if it and b"age" in it])
        self.assertEqual(list(column.filter([True] * 10)), self.rows)
        with self.assertRaises(IndexError):
            column[10]
        with self.assertRaises(ValueError):
            column.filter([True])

    def test_how_they_print(self):
        column = Column(self.rows)
        self.assertRegex(repr(column), r"^<Column: 10 rows, \d+ bytes, 3 null>$")
        self.assertEqual(repr(column.match("$.age > 40")), "<Booleans: 10 rows, 2 true, 5 false, 3 null>")
        self.assertEqual(repr(column.get("{age}").to_i64()), "<Numbers: 10 rows, 6 null>")

    def test_pickles_and_copies(self):
        column = Column(self.rows)[2:9]
        for protocol in range(2, 6):
            self.assertEqual(pickle.loads(pickle.dumps(column, protocol)), column)
        buffers = []
        text = pickle.dumps(column, 5, buffer_callback=buffers.append)
        self.assertEqual(pickle.loads(text, buffers=buffers), column)
        self.assertEqual(copy.deepcopy(column), column)
        results = Column(self.rows).get("{age}")
        for protocol in range(2, 6):
            for found in (results, results.to_i64(), column.match("$.age > 40"), Column()):
                again = pickle.loads(pickle.dumps(found, protocol))
                self.assertEqual((type(again), again, getattr(again, "statuses", None)), (type(found), found, getattr(found, "statuses", None)))
        for path in (Path("$.a", strict=True), jsonb_paths.KeyPath("{a}")):
            self.assertEqual((pickle.loads(pickle.dumps(path)), hash(copy.copy(path))), (path, hash(path)))

    def test_arrow(self):
        column = Column(self.rows)
        self.assertEqual(list(Column.from_arrow(column)), self.rows)
        for first in range(10):
            self.assertEqual(list(Column.from_arrow(column[first:])), self.rows[first:])
        self.assertEqual(list(Column.from_arrow(Column())), [])
        self.assertEqual(list(Column.from_arrow(column.get("{age}"))), list(column.get("{age}")))
        schema, found = column.__arrow_c_array__()
        jsonb_paths._core.arrow_in(schema, found)
        for wrong in [(schema, found), (found, schema)]:
            with self.assertRaises(ValueError):
                jsonb_paths._core.arrow_in(*wrong)
        with self.assertRaises(TypeError):
            Column.from_arrow(column.match("$.age > 1"))

    def test_json_lines(self):
        by_row = {}
        column = Column.from_json(b'{"a":1}\n\n[1,\n  2 \r\n{"a":1,"a":2}\n[1e99]', errors=by_row)
        self.assertEqual([it and loads(it) for it in column], [{"a": 1}, None, 2, None, None])
        self.assertEqual({row: (type(it).__name__, it.row, it.at) for row, it in by_row.items()},
                         {1: ("InvalidJson", 1, 3), 3: ("ObjectDuplicateKey", 3, 7), 4: ("UnsupportedNumber", 4, 1)})
        self.assertEqual(column.to_json_lines(), b'{"a":1}\n2\n')
        with self.assertRaises(errors.InvalidJson) as raised:
            Column.from_json(b"1\n]\n")
        self.assertEqual(raised.exception.row, 1)
        self.assertEqual([loads(it) for it in Column.from_json(['{"a":1,"a":2}', "0." + "1" * 40], duplicates="last", floats="decimal")][0], {"a": 2})
        self.assertEqual(list(Column.from_json([None, "1"])), [None, dumps(1)])


class Memory(unittest.TestCase):
    ROWS = [dumps([1]), dumps({"a": 2})]
    DATA, FIRST = b"".join(ROWS), len(ROWS[0])
    OFFSETS = array.array("Q", [0, FIRST, len(DATA)])

    def test_buffers_of_every_kind(self):
        for data in (self.DATA, bytearray(self.DATA), memoryview(self.DATA), array.array("B", self.DATA)):
            for form in "qQlLiI":
                for offsets in (array.array(form, self.OFFSETS), memoryview(array.array(form, self.OFFSETS))):
                    self.assertEqual([loads(it) for it in Column.from_buffers(data, offsets)], [[1], {"a": 2}])

    def test_positions_of_another_type(self):
        odd = memoryview(bytearray(8 * 3 + 1))[1:]
        odd[:] = self.OFFSETS.tobytes()
        for wrong in (array.array("d", [0.0]), bytes(16), array.array("h", [0]), self.OFFSETS.tobytes()):
            with self.assertRaises(TypeError):
                Column.from_buffers(self.DATA, wrong)
        with self.assertRaises(TypeError):
            Column.from_buffers(self.DATA, odd.cast("q")).match("$")
        for wrong in ([5], [10**9], [10**13], ["text"], 5):
            with self.assertRaises(TypeError):
                Column(wrong)
        for call in (lambda: Column.from_json('{"a":1}'), lambda: Column().get(Path("$")), lambda: Column().match(3), lambda: Column().match(jsonb_paths.KeyPath("{}"))):
            with self.assertRaises(TypeError):
                call()

    def test_numpy(self):
        try:
            import numpy
        except ImportError:
            self.skipTest("numpy is not installed (apt-get install python3-numpy)")
        found = Column.from_buffers(numpy.frombuffer(self.DATA, "u1"), numpy.array(self.OFFSETS, "u8"))
        self.assertEqual(found.exists("$.a"), [False, True])
        self.assertEqual(numpy.asarray(found.exists("$.a")).tolist(), [False, True])
        ages = Column(Rows.rows).get("{age}").to_i64()
        self.assertEqual((int(ages.to_numpy().sum()), list(ages)), (31 + 47 + 50 + 2, [31, None, 47, None, None, None, 50, None, None, 2]))
        with self.assertRaises(TypeError):
            Column.from_buffers(b"12345678", numpy.array([0, 8], ">i8"))

    def test_wrong_positions_are_named(self):
        falling = Column.from_buffers(self.DATA, array.array("Q", [0, self.FIRST, 3, 2**64 - 1, 2**63, 0, self.FIRST]))
        by_row = {}
        self.assertEqual(falling.exists("$[0]", errors=by_row), [True, None, None, None, None, True])
        self.assertEqual({type(it) for it in by_row.values()}, {errors.BadOffsets})
        with self.assertRaises(errors.BadOffsets):
            falling[1]

    def test_no_rows(self):
        for column_of_none in (Column(), Column.from_buffers(b"", array.array("q")), Column.from_buffers(b"", array.array("q", [0]))):
            self.assertEqual((len(column_of_none), column_of_none.match("$ == 1"), list(column_of_none.sort_keys())), (0, [], []))
            column_of_none.check()

    def test_bitmaps(self):
        core = jsonb_paths._core
        for rows in range(40):
            known = bytes((it * 7 + rows) % 3 == 1 for it in range(rows))
            bits = core.bits_of(known, 1)
            self.assertEqual([bits[it // 8] >> it % 8 & 1 for it in range(rows)], list(known))
            for first in range(rows + 1):
                self.assertEqual(core.bytes_of(bits, first, rows - first), known[first:])
        with self.assertRaises(ValueError):
            core.bytes_of(b"\1", 1, 8)


if __name__ == "__main__":
    unittest.main()
