"""The table of functions in docs/C.md: each function with its arguments, and each exception that it names, raised once."""

import inspect
import os
import re
import unittest

import jsonb_paths
from jsonb_paths import Column, dumps, errors
from test_documents import TOP


FIVE, ONE, OBJECT, ARRAY = dumps(5), dumps(1), dumps({"a": 1}), dumps([1])
DATE = bytes.fromhex("20000000600000051000000001")
PATH_CALLS = ("select", "select_first", "select_value", "select_array", "exists", "match")
PATH = {
    "InvalidJsonPath": (FIVE, "$["), "PathFailed": (OBJECT, "$ + 1"), "Overflow": (dumps(2**64 - 1), "-$"), "ZeroDivisor": (FIVE, "$ / 0"),
    "Inexact": (FIVE, "$ / 2"), "DecimalOperand": (dumps(jsonb_paths.as_decimal(dumps(5)) / 2), "$ % 1"),
}


def nested(depth):
    """Nested arrays of this depth."""
    value = []
    for _ in range(depth - 1):
        value = [value]
    return dumps(value)


# A call for each exception that the table names, by function and exception.
RAISES = {
    "from_json": {
        "InvalidJson": ("[1,",), "UnsupportedNumber": ("1e300",), "ObjectDuplicateKey": ('{"a":1,"a":2}',), "NotUtf8": ('"\\ud800"',),
    },
    "to_json": {"InvalidJsonType": (DATE,)},
    "dumps": {"UnsupportedNumber": (1.5,), "NotUtf8": ("\ud800",), "TypeError": (object(),)},
    "loads": {"InvalidJsonType": (DATE,)},
    "elements": {"InvalidJsonType": (OBJECT,)},
    "pairs": {"InvalidObject": (ARRAY,)},
    "get": {"InvalidKeyPath": (OBJECT, "{")},
    "get_by_name": {"NotUtf8": (OBJECT, "\udcff")},
    "delete": {"InvalidKeyPath": (OBJECT, "{"), "InvalidJsonType": (FIVE, "{a}")},
    "delete_by_index": {"InvalidJsonType": (OBJECT, 0)},
    "delete_by_name": {"InvalidJsonType": (FIVE, "a"), "NotUtf8": (OBJECT, "\udcff")},
    "object_insert": {
        "InvalidObject": (ARRAY, "a", ONE), "ObjectDuplicateKey": (OBJECT, "a", ONE), "NotUtf8": (OBJECT, "\udcff", ONE),
    },
    "object_pick": {"InvalidObject": (ARRAY, ["a"]), "NotUtf8": (OBJECT, ["\udcff"])},
    "object_delete": {"InvalidObject": (ARRAY, ["a"]), "NotUtf8": (OBJECT, ["\udcff"])},
    "object_from_columns": {
        "ObjectDuplicateKey": (["a", "a"], [ONE, ONE]), "NotUtf8": (["\udcff"], [ONE]), "BadOffsets": (["a"], []),
    },
    "exists_all_keys": {"NotUtf8": (OBJECT, ["\udcff"])},
    "exists_any_keys": {"NotUtf8": (OBJECT, ["\udcff"])},
    **{name: {"InvalidCast": (ARRAY,)} for name in ("to_bool", "to_i64", "to_u64", "to_str")},
    "sort_key": {"TooDeep": (nested(257),)},
    "composite_key": {"TooDeep": ([None, nested(257)],)},
    **{name: PATH for name in PATH_CALLS},
}


def table():
    """The functions of each row with their arguments, and the exceptions that it names."""
    with open(os.path.join(TOP, "docs", "C.md")) as file:
        [rows] = re.findall(r"\| Function \| Result \| Exceptions \|\n\|-.*\n((?:\|.*\n)+)", file.read())
    for row in rows.splitlines():
        functions, _, exceptions = (it.strip() for it in row.strip("|").split("|"))
        named = PATH if exceptions == "Path" else re.findall(r"`(\w+)`", exceptions)
        for name, arguments in re.findall(r"`(\w+)\(([^)]*)\)`", functions):
            yield name, arguments.split(", "), set(named)


class Docs(unittest.TestCase):
    def test_each_function_is_listed_with_its_arguments(self):
        functions = {name: it for name, it in vars(jsonb_paths).items() if inspect.isroutine(it)}
        wanted = {name: list(inspect.signature(it).parameters) for name, it in functions.items()}
        self.assertEqual({name: arguments for name, arguments, _ in table()}, wanted)

    def test_each_exception_that_it_names_is_raised(self):
        for name, _, named in table():
            raises = RAISES.get(name, {})
            self.assertEqual(named, set(raises), name)
            for kind, arguments in raises.items():
                with self.assertRaises(getattr(errors, kind, TypeError), msg=(name, kind)):
                    list(getattr(jsonb_paths, name)(*arguments))

    def test_each_call_with_a_path_raises_structural_errors_in_strict_mode(self):
        for call in (getattr(jsonb_paths, name) for name in PATH_CALLS[:-1]):
            with self.assertRaises(errors.StrictPath):
                call(FIVE, "$.a", strict=True)
        with self.assertRaises(errors.StrictPath):
            jsonb_paths.match(FIVE, "exists($.a)", strict=True)

    def test_each_method_of_a_column_is_listed(self):
        with open(os.path.join(TOP, "docs", "C.md")) as file:
            [listed] = re.findall(r"Its methods (.*?are about\s+the\s+rows\s+themselves)", file.read(), flags=re.S)
        methods = {name for name, it in vars(Column).items() if inspect.isfunction(it) and not name.startswith("_")}
        self.assertEqual(set(re.findall(r"`([a-z]\w+)`", listed)) - {"to_numpy"}, methods)
