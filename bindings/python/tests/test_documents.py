"""Calls on one document: what the worked rows of the C tests leave out, which is what Python adds."""

import array
import itertools
import os
import random
import subprocess
import sys
import threading
import unittest
from decimal import Decimal

import documents as model
import jsonb_paths
from jsonb_paths import Column, KeyPath, Path, dumps, errors, loads

TOP = os.path.join(os.path.dirname(os.path.abspath(__file__)), "..", "..", "..")
sys.path.append(os.path.join(TOP, "tools", "fuzz"))
from grammar import JsonPath
from random_cases import Cases

LINES = os.path.join(TOP, "crates", "jsonb_lines", "out", "jsonb_lines")
NAMES = ["a", "b", "a b", "é", "k", "0", ""]


def random_value(source, depth=3):
    scalars = [
        None, True, False, 0, 1, source.randrange(-300, 300), source.randrange(-(2**63), 2**64), "a", "b", "abc", "é\x00\x01",
        Decimal(source.randrange(-(10**6), 10**6)).scaleb(-source.randrange(1, 8)),
    ]
    shape = source.randrange(4 if depth else 2)
    if shape < 2:
        return source.choice(scalars)
    parts = [random_value(source, depth - 1) for _ in range(source.randrange(5))]
    return parts if shape == 2 else dict(zip(source.sample(NAMES, len(NAMES)), parts))


def random_path(source):
    steps = ["[*]", ".a", ".b", '."a b"', ".*", "[0]", "[last]", "[0 to 1]", ".**", ".**{1 to 2}", ".k", "[last - 1, 0]"]
    tests = ["@ == 1", "@ > 0", "exists(@.a)", '@ starts with "a"', "@.a == null", "@ != 1", "@.k < 5 && @.a > 1", "@[*] == 1 || @ == 2"]
    path = "$" + "".join(source.choice(steps) for _ in range(source.randrange(4)))
    shape = source.randrange(6)
    if shape == 0:
        return f"{path}?({source.choice(tests)})"
    if shape == 1:
        return source.choice(["-", "+"]) + path
    if shape == 2:
        return f"{path} {source.choice(['+', '-', '*', '/', '%', '==', '<', '>='])} {source.randrange(3)}"
    return path


class Apart(str):
    """A `str` that equals only itself."""
    __eq__ = object.__eq__
    __hash__ = object.__hash__


class Values(unittest.TestCase):
    def test_dumps_writes_what_the_model_writes_and_loads_reads_it(self):
        source = random.Random(1)
        for _ in range(400):
            value = random_value(source)
            document = dumps(value)
            jsonb_paths.check(document)
            self.assertEqual(document, model.encode(value))
            self.assertEqual(loads(document), value)

    def test_long_arrays_and_objects(self):
        value = {"long": list(range(5000)), "wide": {str(it): it for it in range(300)}, "deep": [[[[["x"]]]]]}
        self.assertEqual(loads(dumps(value)), value)

    def test_numbers_past_64_bits_are_decimals(self):
        for value in (2**64, -(2**63) - 1, 2**127 - 1, -(2**127)):
            self.assertEqual(loads(dumps(value)), Decimal(value))
        self.assertEqual(loads(dumps(Decimal("1E+3"))), 1000)
        self.assertEqual(str(loads(dumps(Decimal("1.50")))), "1.50")
        for value in (2**127, 10**5000, Decimal("1" * 5000), Decimal("1E+39"), Decimal("1E-256"), Decimal("NaN"), Decimal("Infinity"), 1.5, float("nan")):
            with self.assertRaises(errors.UnsupportedNumber):
                dumps(value)

    def test_what_is_no_json_value_is_named(self):
        for value in (object(), {1: 2}, b"bytes", {"a": {3}}):
            with self.assertRaises(TypeError):
                dumps(value)
        with self.assertRaises(errors.NotUtf8):
            dumps("\ud800")
        with self.assertRaises(errors.InvalidJsonType):
            loads(bytes.fromhex("20000000600000051000000001"))


class Arguments(unittest.TestCase):
    DOCUMENT = dumps({"a": [1, 2]})

    def test_any_run_of_memory_is_a_document(self):
        for form in (bytearray(self.DOCUMENT), memoryview(self.DOCUMENT), array.array("B", self.DOCUMENT)):
            self.assertEqual(jsonb_paths.get(form, "{a,1}"), dumps(2))
        released = memoryview(bytearray(8))
        released.release()
        for form in (memoryview(self.DOCUMENT)[::2], released, None, 3, 10**13, "text", [self.DOCUMENT]):
            with self.assertRaises(TypeError):
                jsonb_paths.get(form, "{}")

    def test_the_length_is_that_of_the_buffer(self):
        class Long(bytes):
            def __len__(self):
                return 1 << 40

        self.assertEqual(loads(Long(dumps(1))), 1)
        self.assertEqual(jsonb_paths.get(Long(self.DOCUMENT), "{a,1}"), dumps(2))

    def test_arguments_of_another_type(self):
        for call in [
            lambda: jsonb_paths.match(self.DOCUMENT, b"$"), lambda: jsonb_paths.get_by_index(self.DOCUMENT, 1.5), lambda: jsonb_paths.get(self.DOCUMENT),
            lambda: jsonb_paths.match(self.DOCUMENT, "$", True), lambda: jsonb_paths.match(self.DOCUMENT, "$", lax=True), lambda: jsonb_paths.get("{a}", self.DOCUMENT),
        ]:
            with self.assertRaises(TypeError):
                call()
        for names in ([3], ["a", None], "ab", 5):
            with self.assertRaises(TypeError):
                jsonb_paths.exists_any_keys(self.DOCUMENT, names)
        for call, words in [
            (lambda: jsonb_paths.get(self.DOCUMENT, path="{a}"), "2 positional arguments"), (lambda: jsonb_paths.get(self.DOCUMENT, "{a}", strict=True), "no keyword"),
            (lambda: jsonb_paths.select(self.DOCUMENT, "$", strict=True, x=1), "strict"), (lambda: jsonb_paths.get("{}", "{a}"), "from_json"),
        ]:
            with self.assertRaisesRegex(TypeError, words):
                call()

    def test_messages_are_short(self):
        for kind, call in [
            (OverflowError, lambda: jsonb_paths.delete_by_index(dumps([]), 10**5000)), (OverflowError, lambda: jsonb_paths.get_by_index(dumps([]), -(10**5000))),
            (TypeError, lambda: dumps({("x" * 10**6,): 1})), (TypeError, lambda: jsonb_paths.from_json("1", floats="x" * 10**6)),
            (errors.InvalidJsonPath, lambda: Path("$.a" * 10**6 + "[")), (errors.InvalidKeyPath, lambda: KeyPath("{" + "a" * 10**6)),
            (errors.ObjectDuplicateKey, lambda: jsonb_paths.object_insert(dumps({"x" * 10**6: 1}), "x" * 10**6, dumps(2))),
            (errors.UnsupportedNumber, lambda: jsonb_paths.from_json("1" * 10**6)), (errors.UnsupportedNumber, lambda: dumps(10**5000)),
        ]:
            with self.assertRaises(kind) as caught:
                call()
            self.assertLess(len(str(caught.exception)), 400)

    def test_documents_of_the_wrong_type_are_named(self):
        date = bytes.fromhex("20000000600000051000000001")
        for call, kind, said in [
            (lambda: jsonb_paths.delete(dumps(5), "{a}"), errors.InvalidJsonType, "delete: expected an array or an object, found integer"),
            (lambda: KeyPath("{a}").delete(dumps(None)), errors.InvalidJsonType, "delete: expected an array or an object, found null"),
            (lambda: jsonb_paths.delete_by_index(dumps({}), 0), errors.InvalidJsonType, "delete_by_index: expected an array, found object"),
            (lambda: jsonb_paths.delete_by_name(dumps("a"), "a"), errors.InvalidJsonType, "delete_by_name: expected an array or an object, found string"),
            (lambda: jsonb_paths.object_insert(dumps([]), "a", dumps(1)), errors.InvalidObject, "object_insert: expected an object, found array"),
            (lambda: jsonb_paths.object_pick(dumps(True), ["a"]), errors.InvalidObject, "object_pick: expected an object, found boolean"),
            (lambda: jsonb_paths.object_delete(bytearray(dumps(Decimal("1.5"))), ["a"]), errors.InvalidObject, "object_delete: expected an object, found decimal"),
            (lambda: jsonb_paths.elements(date), errors.InvalidJsonType, "elements: expected an array, found date"),
            (lambda: jsonb_paths.pairs(dumps([])), errors.InvalidObject, "pairs: expected an object, found array"),
            (lambda: jsonb_paths.to_bool(dumps(1)), errors.InvalidCast, "to_bool: expected a Boolean or a string such as yes, found integer"),
            (lambda: jsonb_paths.to_str(dumps([])), errors.InvalidCast, "to_str: expected a string, a number or a Boolean, found array"),
            (lambda: jsonb_paths.to_i64(dumps("x")), errors.InvalidCast,
             "to_i64: expected a number from -2**63 to 2**63 - 1, a Boolean or a string of digits, found string"),
            (lambda: jsonb_paths.to_u64(dumps(-1)), errors.InvalidCast, "to_u64: expected a number from 0 to 2**64 - 1, a Boolean or a string of digits, found integer"),
            (lambda: jsonb_paths.to_json(date), errors.InvalidJsonType, "an extension value, such as a date, has no JSON text"),
        ]:
            with self.assertRaises(kind) as caught:
                call()
            self.assertEqual(str(caught.exception), f"{kind.meaning}: {said}")
        rows = Column([dumps([1]), None, dumps(5), dumps({})])
        for on_rows, kind, row, said in [
            (lambda **words: rows.delete("{a}", **words), errors.InvalidJsonType, 2, "delete: expected an array or an object, found integer"),
            (rows.to_i64, errors.InvalidCast, 0, "to_i64: expected a number from -2**63 to 2**63 - 1, a Boolean or a string of digits, found array"),
            (rows.to_str, errors.InvalidCast, 0, "to_str: expected a string, a number or a Boolean, found array"),
        ]:
            with self.assertRaises(kind) as caught:
                on_rows()
            self.assertEqual(str(caught.exception), f"row {row}: {kind.meaning}: {said}")
            found = {}
            on_rows(errors=found)
            self.assertEqual((str(found[row]), found[row].row), (str(caught.exception), row))

    def test_positions_that_do_not_fit_are_errors(self):
        for call, number in ((jsonb_paths.delete_by_index, 2**31), (jsonb_paths.get_by_index, -1), (jsonb_paths.get_by_index, 2**64)):
            with self.assertRaises(OverflowError):
                call(self.DOCUMENT, number)

    def test_each_error_has_its_exception(self):
        five, obj = dumps(5), dumps({"a": 1})
        nested = bytes.fromhex("80000000")
        for _ in range(256):
            nested = bytes.fromhex("80000001") + (0x50000000 + len(nested)).to_bytes(4, "big") + nested
        for kind, call in {
            errors.NotUtf8: lambda: jsonb_paths.get_by_name(obj, "\udcff"),
            errors.InvalidJsonb: lambda: jsonb_paths.check(b""),
            errors.UnsupportedNumber: lambda: jsonb_paths.check(bytes.fromhex("2000000020000009603ff8000000000000")),
            errors.InvalidJsonPath: lambda: jsonb_paths.select(five, "$["),
            errors.PathFailed: lambda: jsonb_paths.select(obj, "$ + 1"),
            errors.InvalidKeyPath: lambda: jsonb_paths.get(five, "{"),
            errors.InvalidCast: lambda: jsonb_paths.to_i64(dumps("x")),
            errors.InvalidObject: lambda: jsonb_paths.object_pick(five, ["a"]),
            errors.InvalidJsonType: lambda: jsonb_paths.delete_by_index(obj, 0),
            errors.ObjectDuplicateKey: lambda: jsonb_paths.object_insert(obj, "a", five),
            errors.TooDeep: lambda: jsonb_paths.sort_key(nested),
            errors.StrictPath: lambda: jsonb_paths.select(obj, "$.b", strict=True),
            errors.Overflow: lambda: jsonb_paths.select(five, "$ * 9223372036854775807"),
            errors.ZeroDivisor: lambda: jsonb_paths.select(five, "$ / 0"),
            errors.Inexact: lambda: jsonb_paths.select(five, "$ / 2"),
            errors.DecimalOperand: lambda: jsonb_paths.select(dumps(Decimal("1.5")), "$ + 1"),
        }.items():
            with self.assertRaises(kind):
                call()

    def test_an_exception_names_the_argument(self):
        with self.assertRaisesRegex(errors.InvalidJsonPath, r"'\$\['"):
            jsonb_paths.exists(self.DOCUMENT, "$[")

    def test_an_exception_has_the_position_in_the_path(self):
        for at, call, path in (
            (1, jsonb_paths.exists, "$["), (1, jsonb_paths.select, "$["), (1, lambda _, path: Column([self.DOCUMENT]).match(path), "$["),
            (8, jsonb_paths.match, "$.é?(@ = 1)"), (2, jsonb_paths.get, "{1a}"), (1, lambda _, path: KeyPath(path), "{"),
            (7, lambda _, path: Path(path), "$.a == "), (None, jsonb_paths.select, "$ + 1"),
        ):
            with self.assertRaises((errors.InvalidJsonPath, errors.InvalidKeyPath)) as raised:
                call(self.DOCUMENT, path)
            self.assertEqual(raised.exception.at, at, path)


class Calls(unittest.TestCase):
    def test_edits(self):
        value, document = {"a": [1, 1, None], "b": None, "c": "x"}, dumps({"a": [1, 1, None], "b": None, "c": "x"})
        part = jsonb_paths.get_by_name(document, "A", ignore_case=True)
        for made, wanted in [
            (part, [1, 1, None]), (jsonb_paths.delete(document, "{a,0}"), {**value, "a": [1, None]}),
            (jsonb_paths.delete_by_index(part, -1), [1, 1]), (jsonb_paths.delete_by_name(document, "a"), {"b": None, "c": "x"}),
            (jsonb_paths.array_insert(part, dumps("y"), 1), [1, "y", 1, None]),
            (jsonb_paths.object_insert(document, "c", dumps(2), update=True), {**value, "c": 2}),
            (jsonb_paths.concat(document, dumps({"d": 4})), {**value, "d": 4}), (jsonb_paths.concat(part, dumps(2)), [1, 1, None, 2]),
            (jsonb_paths.strip_nulls(document), {"a": [1, 1, None], "c": "x"}), (jsonb_paths.array_distinct(part), [1, None]),
            (jsonb_paths.array_intersection(part, dumps([1])), [1]), (jsonb_paths.array_except(part, dumps([1])), [1, None]),
            (jsonb_paths.object_pick(document, ["b", "z"]), {"b": None}), (jsonb_paths.object_delete(document, ["a", "b"]), {"c": "x"}),
        ]:
            self.assertEqual(loads(made), wanted)

    def test_objects_of_columns(self):
        source = random.Random(3)
        for _ in range(200):
            names = source.sample(NAMES, source.randrange(len(NAMES)))
            values = [random_value(source) for _ in names]
            made = jsonb_paths.object_from_columns(names, map(dumps, values))
            self.assertEqual(made, model.encode(dict(zip(names, values))))
        for kind, what, names, values in [
            (errors.ObjectDuplicateKey, "'b'", ["a", "b", "c", "b", "c"], [1, 2, 3, 4, 5]), (errors.ObjectDuplicateKey, "''", iter(["", ""]), [1, 2]),
            (errors.BadOffsets, "1 names, and 0 documents", ["a"], []), (errors.NotUtf8, "", ["\udcff"], [1]),
            (errors.ObjectDuplicateKey, "'b'", [Apart("b"), Apart("b")], [1, 2]),
        ]:
            with self.assertRaises(kind) as caught:
                jsonb_paths.object_from_columns(names, map(dumps, values))
            self.assertEqual(caught.exception.what, what)

    def test_leaves(self):
        def leaves(value, steps=()):
            parts = value.items() if isinstance(value, dict) else enumerate(value)
            for step, part in sorted(parts, key=lambda it: it[0].encode()) if isinstance(value, dict) else parts:
                if isinstance(part, (list, dict)) and part:
                    yield from leaves(part, (*steps, step))
                else:
                    yield (*steps, step), part

        def text(steps):
            plain = {"a", "b", "k"}
            return "{" + ",".join(str(it) if isinstance(it, int) or it in plain else f'"{it}"' for it in steps) + "}"

        source = random.Random(4)
        for _ in range(200):
            value = random_value(source)
            wanted = list(leaves(value)) if isinstance(value, (list, dict)) else []
            found = jsonb_paths.leaves(dumps(value))
            self.assertEqual(found, [(text(steps), model.encode(part)) for steps, part in wanted])
            for path, part in found:
                if '""' in path:  # no key path holds an empty name
                    continue
                self.assertEqual(jsonb_paths.get(dumps(value), path), part)
        with self.assertRaises(errors.InvalidJsonb):
            jsonb_paths.leaves(b"?")

    def test_questions(self):
        document = dumps({"a": [1, 2], "b": "yes"})
        self.assertTrue(jsonb_paths.exists_all_keys(document, ["a", "b"]))
        self.assertFalse(jsonb_paths.exists_any_keys(document, ["c"]))
        self.assertTrue(jsonb_paths.array_overlap(dumps([1, 2]), dumps([2])))
        self.assertIsNone(jsonb_paths.select_first(document, "$.z"))
        self.assertEqual(loads(jsonb_paths.select_value(document, "$.a[*]")), [1, 2])
        self.assertEqual((jsonb_paths.length(document), jsonb_paths.length(dumps(1))), (2, None))
        self.assertEqual((jsonb_paths.to_bool(dumps("yes")), jsonb_paths.to_u64(dumps(True)), jsonb_paths.to_str(dumps(5))), (True, 1, "5"))
        self.assertEqual((jsonb_paths.as_bool(dumps(1)), jsonb_paths.as_int(dumps(2**64 - 1)), jsonb_paths.as_str(dumps("x"))),
                         (None, 2**64 - 1, "x"))


class Paths(unittest.TestCase):
    """A Path or a KeyPath, whose path is parsed once, does what the functions do that parse it in each call."""

    CALLS = ["exists", "match", "select", "select_first", "select_value", "select_array"]

    def outcome(self, call, *arguments, **words):
        try:
            return call(*arguments, **words)
        except errors.JsonbError as error:
            return type(error), str(error)

    def test_paths(self):
        source = random.Random(3)
        texts = [random_path(source) for _ in range(80)] + ["$.a + 1", "$ / 0", "$", "", "strict $.a", '$."é"']
        documents = [dumps(random_value(source)) for _ in range(20)] + [b"", b"damaged", b"\x80\x00\x00\x01", dumps(["x" * 2000] * 2)]
        for text, strict in itertools.product(texts, (False, True)):
            path = self.outcome(jsonb_paths.Path, text, strict=strict)
            for document, name in itertools.product(documents, self.CALLS):
                if isinstance(path, tuple):
                    self.assertEqual(self.outcome(getattr(jsonb_paths, name), dumps(1), text, strict=strict), path)
                else:
                    self.assertEqual(self.outcome(getattr(path, name), document),
                                     self.outcome(getattr(jsonb_paths, name), document, text, strict=strict), (text, name, document))

    def test_predicates(self):
        """Compared with the model of the fuzzer on random paths, with operators in their keys too."""
        for path, wanted in [("$.a > 1", True), ("(exists($))", True), ('"a" starts with "b"', True), ("1+1&&2+2", True), ("-$ || 1 % 2", True),
                             ("$", False), ("", False), ("exists", False), ("$?(@ > 1)", False), ("$.a&&b + 1", False), ('-$."a==b"', False)]:
            self.assertIs(Path(path).is_predicate, wanted, path)
            self.assertIs(Path(path, strict=True).is_predicate, wanted, path)
        source = random.Random(6)
        cases, found = Cases(source), []
        keys = [".a", ".a&&b", '."x<"', '["a=b"]', ".\\u{0026}&k", '.\\"=', ":exists", ".starts"]
        for _ in range(4000):
            text = source.choice([cases.json_path(), cases.condition(2, "$").replace(".a", source.choice(keys)).encode()])
            tree = JsonPath(text).read()
            if tree is not None:
                found.append(self.is_predicate(tree))
                self.assertIs(Path(text.decode()).is_predicate, found[-1], text)
        self.assertGreater(min(found.count(True), found.count(False)), 300)

    @staticmethod
    def is_predicate(tree):
        if [it[0] for it in tree] != ["expression"]:
            return False
        operator, *operands = tree[0][1]
        return operator in ("and", "or", "exists") or operator == "binary" and operands[0] not in "+-*/%"

    def test_what_looks_like_another_language(self):
        for text, at, said in [
            ("$.a > 1.5", 7, "numbers in a path are integers: "), ("$.a == $b", 8, "paths have no variables: "),
            ("$?(@.a)", 6, "a condition is a comparison or exists(..): "), ("strict $.a", 7, "a mode is not part of the path, but the argument strict: "),
            ("lax $.a", 4, "a mode is not part of the path, but the argument strict: "), ("$.a[", 3, ""), ("lax $", 4, "a mode is not part of the path, but the argument strict: "),
            ("lax.a $", 6, ""), ("$.strict $", 9, ""), ("$.a == \"x", 7, ""), ("$.a, $.b", 3, ""), ("$ | $", 2, ""), ("$.a == x.y", 7, "strings are in double quotes: "),
            ("age > 40", 4, "a key in a condition begins with $. or @.: "), ("$.a == 1 && b == 2", 12, "a key in a condition begins with $. or @.: "),
            ("a starts with \"x\"", 2, "a key in a condition begins with $. or @.: "), ("$.a = 1", 4, "equality is written ==: "), ("exists($.a) = 1", 12, "equality is written ==: "),
            ("$.a > 1 AND $.b > 1", 8, "and is written &&: "), ("$.a > 1 or $.b > 1", 8, "or is written ||: "), ("!($.a == 1)", 0, "paths have no negation: "),
            ("$.a == 'x'", 7, "strings are in double quotes: "), ("$['a']", 1, "strings are in double quotes: "), ("$.a == x", 7, "strings are in double quotes: "),
            ("$.a == NULL", 7, "null, true and false are in lower case: "), ("$..a", 1, "descendants are selected by .**: "), ("$[1:3]", 1, "a slice is written [1 to 3]: "),
            ("$[?(@.a > 1)]", 1, "in brackets are integers, last, * or a key in double quotes: "), ("$.a.size()", 8, "paths have no methods or functions: "),
            ('$.a like_regex "x"', 4, "conditions have the operators ==, !=, <, <=, >, >=, starts with, && and ||: "), (" {a,0}", 1, "key paths begin with {, JSON paths with $: "),
            ("EXISTS($.a)", 6, "exists is in lower case: "), ("$?(EXISTS (@.a))", 3, "exists is in lower case: "), ("$.a.exists()", 10, "paths have no methods or functions: "),
            ("$?(match(@.a, 1))", 3, "paths have no methods or functions: "), ("$.a == lower(1)", 7, "paths have no methods or functions: "),
            ("$.a == 1 && not exists($.b)", 12, "paths have no negation: "), ("$?(TRUE == @)", 3, "null, true and false are in lower case: "),
            ("$.a starts with x", 16, "strings are in double quotes: "), ("$.a * b", 6, "a key in a condition begins with $. or @.: "), ("$.a/b", 4, ""),
            ("$.a =~ 1", 4, ""), ('$["a:b","c"]', 1, ""), ('$["it\'s", 0:1]', 1, "a slice is written [1 to 3]: "),
        ]:
            for call in (lambda: Path(text), lambda: jsonb_paths.select(dumps(1), text), lambda: Column([dumps(1)]).match(text)):
                with self.assertRaises(errors.InvalidJsonPath) as caught:
                    call()
                self.assertEqual(str(caught.exception), f"byte {at}: {errors.InvalidJsonPath.meaning}: {said}{text!r}")

    def test_what_looks_like_another_key_path(self):
        for text, at, said in [("$.a", 0, "JSON paths begin with $, key paths with {: "), ("a", 0, "a key path is in braces, such as {a,0}: "), ("", 0, ""),
                               ("{a.b}", 2, "the steps of a key path are separated by commas: "), ("{'a'}", 1, "keys are in double quotes: "), ("{a", 2, ""), ("{1a}", 2, ""),
                               (" $.a", 1, "JSON paths begin with $, key paths with {: "), ("{a$b}", 2, ""), ("{$}", 1, "")]:
            for call in (lambda: KeyPath(text), lambda: jsonb_paths.get(dumps(1), text), lambda: Column([dumps(1)]).get(text)):
                with self.assertRaises(errors.InvalidKeyPath) as caught:
                    call()
                self.assertEqual(str(caught.exception), f"byte {at}: {errors.InvalidKeyPath.meaning}: {said}{text!r}")

    def test_key_paths(self):
        source = random.Random(4)
        documents = [dumps(random_value(source)) for _ in range(60)] + [b"", b"damaged", dumps({"a": "x" * 2000})]
        for text in ["{}", "{a}", "{0}", "{-1}", "{a,b}", '{"a b",0}', "{k,k,k}"]:
            path = jsonb_paths.KeyPath(text)
            for document in documents:
                self.assertEqual(self.outcome(path.get, document), self.outcome(jsonb_paths.get, document, text))
                self.assertEqual(self.outcome(path.delete, document), self.outcome(jsonb_paths.delete, document, text))

    def test_threads(self):
        path, key = jsonb_paths.Path("$.n ? (@ > 1 && @ < 900)"), jsonb_paths.KeyPath("{n}")
        documents = [dumps({"n": it}) for it in range(1000)]
        found = []

        def work():
            found.append(([path.exists(it) for it in documents], [key.get(it) for it in documents]))

        threads = [threading.Thread(target=work) for _ in range(8)]
        for it in threads:
            it.start()
        for it in threads:
            it.join()
        self.assertEqual(found, [([1 < it < 900 for it in range(1000)], [dumps(it) for it in range(1000)])] * 8)


@unittest.skipUnless(os.path.exists(LINES), "the program jsonb_lines is not built (rt run in crates/jsonb_lines)")
class BesideTheProgram(unittest.TestCase):
    """Random documents and paths: the package returns what the program prints."""

    def setUp(self):
        self.source = random.Random(2)
        self.documents = [dumps(random_value(self.source)) for _ in range(150)]

    def program(self, *words):
        given = "".join(it.hex() + "\n" for it in self.documents)
        return subprocess.run([LINES, *words], input=given, capture_output=True, text=True).stdout.splitlines()

    def lines(self, answer, none="none"):
        """The lines of each document: its results, or `none`, or its error."""
        for document in self.documents:
            try:
                found = answer(document)
            except errors.JsonbError as error:
                name = "InvalidJsonPath" if isinstance(error, errors.PathFailed) else type(error).__name__
                yield "refused: " + (f"Arithmetic({name})" if error.status >= 48 else name)
                continue
            yield from found or [none]

    def test_select(self):
        for path in {random_path(self.source) for _ in range(60)}:
            mine = self.lines(lambda it: [found.hex() for found in jsonb_paths.select(it, path)])
            self.assertEqual(list(mine), self.program("select", path), path)

    def test_match(self):
        words = {True: "true", False: "false", None: "unknown"}
        for path in ["$.a == 1", "$.k > 0 || $.a == null", "exists($.a)", "$[*] != 1", "$.a", '$.* starts with "a"']:
            self.assertEqual(list(self.lines(lambda it: [words[jsonb_paths.match(it, path)]])), self.program("match", path), path)

    def test_get(self):
        for path in ["{}", "{a}", "{0}", "{-1}", "{a,b}", '{"a b",0}']:
            mine = self.lines(lambda it: [jsonb_paths.get(it, path).hex()] if jsonb_paths.get(it, path) else [])
            self.assertEqual(list(mine), self.program("get", path), path)

    def test_key(self):
        self.assertEqual(list(self.lines(lambda it: [jsonb_paths.sort_key(it).hex()])), self.program("key"))

    def problems(self, words, given=b"", out=subprocess.DEVNULL):
        """Returns the status of the program, and what it prints to standard error."""
        made = subprocess.run([LINES, *words], input=given, stdout=out, stderr=subprocess.PIPE)
        return made.returncode, made.stderr.decode()

    def test_standard_error(self):
        given = b"".join(it.hex().encode() + b"\n" for it in (dumps(5), b"damaged", dumps("a"), dumps(0)))
        for words, status, said in [
            (["key"], 1, "line 2: not a document"),
            (["select", "-$"], 1, "line 2: not a document|line 3: the JSON path cannot be evaluated on this document"),
            (["select", "1 / $"], 1, "line 1: arithmetic of the JSON path fails on this document|line 2: not a document|"
             "line 3: the JSON path cannot be evaluated on this document|line 4: arithmetic of the JSON path fails on this document"),
            (["select", "$.a["], 1, "not a JSON path: error at byte 3"),
            (["get", "{1a}"], 1, "not a key path: error at byte 2"),
            (["get", b"\xff"], 3, "the arguments cannot be read: one is not UTF-8"),
        ]:
            lines = "".join(f"jsonb_lines: {it}\n" for it in said.split("|"))
            self.assertEqual(self.problems(words, given), (status, lines), words)
        self.assertEqual(self.problems(["key"], b"8\n\xff\n"), (3, (
            "jsonb_lines: line 1: not hexadecimal: Odd number of digits\n"
            "jsonb_lines: line 2 cannot be read: stream did not contain valid UTF-8\n")))

    def test_usage(self):
        status, said = self.problems(["get"])
        self.assertEqual(status, 2)
        self.assertEqual([it.split()[0] for it in said.splitlines()], ["usage:", "get", "select", "match", "key", "Each"])

    def test_full_disk(self):
        with open("/dev/full", "wb") as full:
            status, said = self.problems(["key"], dumps(5).hex().encode(), full)
            self.assertEqual(status, 3)
            self.assertTrue(said.startswith("jsonb_lines: the output cannot be written: "), said)
            self.assertEqual(subprocess.run([LINES, "put"], stdout=subprocess.DEVNULL, stderr=full).returncode, 2)
