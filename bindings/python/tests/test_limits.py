"""Limits of paths: which calls fail, and how soon."""

import pickle
import time
import unittest

import jsonb_paths
from jsonb_paths import Column, KeyPath, Path, dumps
from jsonb_paths.errors import InvalidJsonb, InvalidJsonPath, LimitExceeded, StrictPath

TENS = dumps([10, 20, 30])
SELECTIONS = ("select", "select_first", "select_value", "select_array", "exists")


def nested(depth, *others):
    """Arrays within arrays, each with these other elements."""
    value = []
    for _ in range(depth):
        value = [value, *others]
    return dumps(value)


# Paths whose evaluation takes seconds or hundreds of megabytes, and their documents.
EXPLODING = [
    ("exists($" + "[0,0]" * 24 + "?(@ == 7))", nested(60)),
    ("$" + ".**" * 5, nested(60)),
    ("$.**?(exists(@.**?(@ == $.**.a)))", nested(60, *range(8))),
]


class Limits(unittest.TestCase):
    def test_calls_fail_above_the_bound_alone(self):
        for path, bound in (("$[*]", 6), ("$.a.a", 3), ("$.**.**", 16), ("$[*]?(@ > 10)", 31), ("-$[*]", 12)):
            self.assertEqual(Path(path).most_items(TENS), bound)
            self.assertEqual(Path(path, limit=0).most_items(TENS), bound)
            for name in SELECTIONS:
                free = getattr(jsonb_paths, name)(TENS, path)
                self.assertEqual(getattr(jsonb_paths, name)(TENS, path, limit=bound), free)
                self.assertEqual(getattr(Path(path, limit=bound), name)(TENS), free)
                with self.assertRaises(LimitExceeded):
                    getattr(jsonb_paths, name)(TENS, path, limit=bound - 1)
                with self.assertRaises(LimitExceeded):
                    getattr(Path(path, limit=bound - 1), name)(TENS)

    def test_predicates_alone_have_a_limit_in_match(self):
        self.assertIs(jsonb_paths.match(TENS, "$[0] == 10", limit=14), True)
        self.assertIs(Path("$[*]", limit=0).match(TENS), None)
        for call in (lambda: jsonb_paths.match(TENS, "$[0] == 10", limit=13), lambda: Path("$[0] == 10", limit=13).match(TENS)):
            with self.assertRaises(LimitExceeded):
                call()

    def test_other_errors_are_those_without_a_limit(self):
        for error, document, path in ((InvalidJsonb, b"?", "$"), (InvalidJsonPath, TENS, "$["), (StrictPath, TENS, "$.a")):
            for name in SELECTIONS:
                with self.assertRaises(error):
                    getattr(jsonb_paths, name)(document, path, strict=True, limit=9)

    def test_a_limit_is_part_of_a_path(self):
        path = Path("$.a", strict=True, limit=7)
        self.assertEqual((repr(path), path.limit), ("Path('$.a', strict=True, limit=7)", 7))
        self.assertEqual(pickle.loads(pickle.dumps(path)), path)
        self.assertNotEqual(path, Path("$.a", strict=True))
        for none in (Path("$.a"), Path("$.a", limit=None), Path("$.a", limit=2**64 - 1)):
            self.assertEqual((none.limit, repr(none)), (None, "Path('$.a')"))
        for wrong, error in ((-1, OverflowError), (2**64, OverflowError), ("1", TypeError)):
            for call in (lambda: Path("$", limit=wrong), lambda: jsonb_paths.exists(TENS, "$", limit=wrong)):
                with self.assertRaises(error):
                    call()
        with self.assertRaises(TypeError):
            KeyPath("{a}", limit=1)
        with self.assertRaises(InvalidJsonb):
            Path("$").most_items(b"?")

    def test_columns_with_a_limit_are_those_without(self):
        column = Column([TENS, None, dumps([1]), b"?", dumps({})])
        for name in ("exists", "match", "select_first", "select_value", "select_array"):
            for path in ("$[*] > 25", "$[*]", "$[1]"):
                free, within = {}, {}
                wanted = list(getattr(column, name)(path, errors=free))
                for words in ({"path": path, "limit": 1000}, {"path": Path(path, limit=1000)}):
                    self.assertEqual(list(getattr(column, name)(**words, errors=within)), wanted)
                    self.assertEqual({row: type(it) for row, it in within.items()}, {row: type(it) for row, it in free.items()})
        errors = {}
        self.assertEqual(list(column.exists("$[*]", limit=5, errors=errors)), [None, None, True, None, True])
        self.assertEqual({row: type(it) for row, it in errors.items()}, {0: LimitExceeded, 3: InvalidJsonb})
        with self.assertRaisesRegex(LimitExceeded, "row 0"):
            column.select_array("$[*]", limit=5)

    def test_exploding_paths_end_soon(self):
        for path, document in EXPLODING:
            start = time.process_time()
            for name in SELECTIONS:
                with self.assertRaises(LimitExceeded):
                    getattr(jsonb_paths, name)(document, path, limit=1_000_000)
            self.assertLess(time.process_time() - start, 0.05, path)


if __name__ == "__main__":
    unittest.main()
