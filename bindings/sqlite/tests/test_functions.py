"""Each function on worked rows, and each error."""

import json
import unittest

from support import Case

TEXTS = [
    '{"a":[1,-2,2.50,true,false,null,"x\\"y"],"b":{}}', "[]", '"é"', "18446744073709551615", "-9223372036854775808",
    "170141183460469231731687303715884105727", "0.000001", '{"a":{"a":{"a":[[[]]]}}}', '"\\u0000"',
]

ERRORS = [
    ("JDOC_INVALID_JSON byte 1", "jdoc('{')"), ("JDOC_INVALID_JSON", "jdoc('')"), ("JDOC_INVALID_JSON byte 2", "jdoc('1 2')"),
    ("JDOC_OBJECT_DUPLICATE_KEY", """jdoc('{"a":1,"a":2}')"""), ("JDOC_UNSUPPORTED_NUMBER", "jdoc('1e300')"),
    ("JDOC_UNSUPPORTED_NUMBER REAL text", "jdoc_type(1.5)"), ("JDOC_INVALID_KEY_PATH jdoc_get: byte 2 of the path", "jdoc_get(jdoc('{}'), '{a')"),
    ("JDOC_INVALID_JSON_PATH jdoc_match: byte 5 of the path", "jdoc_match(jdoc('{}'), '$.a >')"),
    ("JDOC_INVALID_JSON_PATH byte 13", "jdoc_match(jdoc('{}'), ' strict $.a >')"),
    ("byte 7 integers", "jdoc_match(jdoc('{}'), '$.a > 0.5')"), ("byte 7 variables", "jdoc_match(jdoc('{}'), '$.a > $x')"),
    ("JDOC_INVALID_JSON_PATH jdoc_path_is_predicate: byte 5 of the path", "jdoc_path_is_predicate('$.a >')"),
    ("byte 11 of the path: equality is written ==", "jdoc_match(jdoc('{}'), 'strict $.a = 1')"), ("byte 0 of the path: JSON paths begin with $, key paths with {", "jdoc_get('{}', '$.a')"),
    ("byte 0 of the path: a key path is in braces JDOC_INVALID_KEY_PATH", "jdoc_value('{}', 'a')"),
    ("byte 6 exists", "jdoc_first(jdoc('{}'), '$?(@.a) ')"), ("byte 12 such as", "jdoc_first(jdoc('{}'), '$?(@.a == 1))')"),
    ("JDOC_LIMIT_EXCEEDED jdoc_array", "jdoc_array('[1,2,3]', '$[*]', 5)"), ("JDOC_LIMIT_EXCEEDED", "jdoc_match('1', '$ == 1', 0)"),
    ("JDOC_PATH_FAILED jdoc_first", "jdoc_first(jdoc('[1,2]'), '$[*] + 1')"),
    ("JDOC_STRICT_PATH", "jdoc_first(jdoc('{}'), 'strict $.a')"), ("JDOC_INVALID_JSONB", "jdoc_get(x'00', '{a}')"),
    ("JDOC_INVALID_JSONB", "jdoc(x'00')"), ("JDOC_INVALID_JSONB", "jdoc_value(x'2000000020000001')"),
    ("JDOC_ZERO_DIVISOR", "jdoc_first(jdoc('1'), '$ / 0')"), ("JDOC_INVALID_OBJECT", "jdoc_insert(jdoc('[]'), 'a', 1)"),
    ("JDOC_OBJECT_DUPLICATE_KEY", """jdoc_insert('{"a":1}', 'a', 1)"""), ("JDOC_INVALID_JSON_TYPE", "jdoc_delete(1, 0)"),
    ("JDOC_INVALID_JSONB", "jdoc_quote(x'00')"), ("JDOC_UNSUPPORTED_NUMBER", "jdoc_quote(0.5)"),
    ("JDOC_UNSUPPORTED_NUMBER", "jdoc_value(x'2000000020000009603ff8000000000000')"), ("arguments", "jdoc_get('{}')"),
    ("JDOC_INVALID_JSON_TYPE", "jdoc_json(x'20000000600000051000000001')"),
]

# Errors with their messages: documents of the wrong type, keys that exist, and empty paths.
DATE = "x'20000000600000051000000001'"
MESSAGES = [
    ("jdoc_delete: expected an array, found integer (JDOC_INVALID_JSON_TYPE)", "jdoc_delete(1, 0)"),
    ("jdoc_delete: expected an array, found object (JDOC_INVALID_JSON_TYPE)", "jdoc_delete('{}', -1)"),
    ("jdoc_delete: expected an array, found date (JDOC_INVALID_JSON_TYPE)", f"jdoc_delete({DATE}, 0)"),
    ("jdoc_delete: expected an array or an object, found string (JDOC_INVALID_JSON_TYPE)", """jdoc_delete('"a"', '{0}')"""),
    ("jdoc_delete: expected an array or an object, found null (JDOC_INVALID_JSON_TYPE)", "jdoc_delete('null', '{}')"),
    ("jdoc_delete: expected an array or an object, found boolean (JDOC_INVALID_JSON_TYPE)", "jdoc_delete('true', '{a,b}')"),
    ("jdoc_insert: expected an object, found array (JDOC_INVALID_OBJECT)", "jdoc_insert('[]', 'a', 1)"),
    ("jdoc_set: expected an object, found decimal (JDOC_INVALID_OBJECT)", "jdoc_set('1.5', 'a', 1)"),
    ('jdoc_insert: the object already has the key "é" (JDOC_OBJECT_DUPLICATE_KEY)', """jdoc_insert('{"é":1}', 'é', 2)"""),
    ('jdoc_insert: the object already has the key "" (JDOC_OBJECT_DUPLICATE_KEY)', """jdoc_insert('{"":1}', '', 2)"""),
    (f"""jdoc_insert: the object already has the key "{60 * 'é'}" (JDOC_OBJECT_DUPLICATE_KEY)""", f"""jdoc_insert('{{"{99 * 'é'}":1}}', '{99 * 'é'}', 2)"""),
    ("jdoc_json: an extension value, such as a date, has no JSON text (JDOC_INVALID_JSON_TYPE)", f"jdoc_json({DATE})"),
    ("jdoc_value: an extension value, such as a date, has no JSON text (JDOC_INVALID_JSON_TYPE)", f"jdoc_value({DATE})"),
    ("jdoc_rows: an extension value, such as a date, has no JSON text (JDOC_INVALID_JSON_TYPE)", f"value FROM jdoc_rows({DATE}, '$')"),
    ("jdoc_first: the path is empty, and the root is $ (JDOC_INVALID_JSON_PATH)", "jdoc_first('1', '')"),
    ("jdoc_match: the path is empty, and the root is $ (JDOC_INVALID_JSON_PATH)", "jdoc_match('1', 'strict')"),
    ("jdoc_rows: the path is empty, and the root is $ (JDOC_INVALID_JSON_PATH)", "* FROM jdoc_rows('1', ' lax ')"),
    ("jdoc_key: expected a document (JDOC_INVALID_ARGUMENT)", "jdoc_key()"),
    ("jdoc_rows: expected a document and a path (JDOC_INVALID_ARGUMENT)", "* FROM jdoc_rows"),
    ("jdoc_rows: expected a document and a path (JDOC_INVALID_ARGUMENT)", "* FROM jdoc_rows('1')"),
    ("jdoc_each: expected a document (JDOC_INVALID_ARGUMENT)", "* FROM jdoc_each"),
]

# The arguments of each function: d a document, p a JSON path, k a key path or an index, n a name, i an index, l a limit, v any value.
ARGUMENTS = [
    ("jdoc", "d"), ("jdoc_json", "d"), ("jdoc_quote", "v"), ("jdoc_value", "d"), ("jdoc_value", "dk"), ("jdoc_get", "dk"), ("jdoc_first", "dp"),
    ("jdoc_select", "dp"), ("jdoc_array", "dp"), ("jdoc_exists", "dp"), ("jdoc_match", "dp"), ("jdoc_contains", "dd"), ("jdoc_overlap", "dd"),
    ("jdoc_concat", "dd"), ("jdoc_intersection", "dd"), ("jdoc_except", "dd"), ("jdoc_distinct", "d"), ("jdoc_strip_nulls", "d"),
    ("jdoc_delete", "dk"), ("jdoc_insert", "dnd"), ("jdoc_set", "dnd"), ("jdoc_array_insert", "did"), ("jdoc_equality_key", "d"),
    ("jdoc_type", "d"), ("jdoc_length", "d"), ("jdoc_check", "v"), ("jdoc_array_agg", "d"), ("jdoc_object_agg", "nd"), ("jdoc_path_is_predicate", "p"),
    ("jdoc_first", "dpl"), ("jdoc_select", "dpl"), ("jdoc_array", "dpl"), ("jdoc_exists", "dpl"), ("jdoc_match", "dpl"),
]
# A value of each SQL type, one that each argument accepts, the types that it does not accept, and the error.
TYPED = {"INTEGER": "1", "REAL": "0.5", "TEXT": "'x'", "BLOB": "x'7b7d'"}
ACCEPTED = {"d": "'[{}]'", "p": "'$'", "k": "'{0}'", "n": "'a'", "i": "0", "l": "9", "v": "1"}
REJECTED = {
    "d": (["REAL"], "a REAL is not exact: pass its text, such as '1.5' (JDOC_UNSUPPORTED_NUMBER)"),
    "p": (["INTEGER", "REAL", "BLOB"], "expected TEXT as the path, found {} (JDOC_INVALID_ARGUMENT)"),
    "k": (["REAL", "BLOB"], "expected a key path, which is TEXT, or an INTEGER, found {} (JDOC_INVALID_ARGUMENT)"),
    "n": (["INTEGER", "REAL", "BLOB"], "expected TEXT as the name, found {} (JDOC_INVALID_ARGUMENT)"),
    "i": (["REAL", "TEXT", "BLOB"], "expected an INTEGER as the index, found {} (JDOC_INVALID_ARGUMENT)"),
    "l": (["REAL", "TEXT", "BLOB"], "expected an INTEGER as the limit, found {} (JDOC_INVALID_ARGUMENT)"),
    "v": ([], ""),
}

# Paths that are predicates, and others: steps and arithmetic, with operators in keys and strings.
PREDICATES = [
    "$.a > 1", "1 == 1", "$ <> 2", "exists($.a)", "(((exists ($.a))))", '$.a starts with "b"', "strict $.a == null", " lax($ >= 1) ", "1 + 1 && 2 + 2",
    "1+1&&2+2", "-$ || 1 % 2", "($.a == 2 || 1 == 1)", '"\\"" == $."\\\\"', "$[1 to last] < 1", "1 + $.a&& && 1 + 1",
]
OTHERS = [
    "$", "$.a", "a", "exists", "true", "a.exists", "strict.a", "$?(@.a > 1)", "$.a[*]?(exists(@.b))", "$.**{1 to last}", "$.a + 1", "-$", "(+$.a)", "((7 - 10))",
    "$.exists * $.starts", "$.a&&b + 1", '$."a>b" - $["c==d"]', '"x==y" + "\\"<"', "$.\\u{0026}&a / 2", "$.a\\\"&b % 3", "$:a&b:exists + 1", "strict -$[0, last].x",
]

NULLS = [
    "jdoc(NULL)", "jdoc_json(NULL)", "jdoc_get(NULL, '{a}')", "jdoc_get(jdoc('{}'), NULL)", "jdoc_match(NULL, '$')", "jdoc_match('1', NULL)",
    "jdoc_contains(NULL, '1')", "jdoc_contains('1', NULL)", "jdoc_key(NULL)", "jdoc_check(NULL)", "jdoc_set('{}', NULL, 1)",
    "jdoc_set('{}', 'a', NULL)", "jdoc_get('{}', '{a}')", "jdoc_value('{\"a\":null}', '{a}')", "jdoc_match('{\"a\":\"x\"}', '$.a > 1')",
    "jdoc_length('1')", "jdoc_path_is_predicate(NULL)", "jdoc_delete('[]', NULL)", "jdoc_array_insert('[]', NULL, 1)", "jdoc_get('[1]', 1)", "jdoc_get('[1]', -1)",
]

VALUES = [
    ("1", 1), ("-5", -5), ("true", 1), ("false", 0), ("null", None), ('"é"', "é"), ("2.5", 2.5), ("[1,2]", "[1,2]"), ("{}", "{}"),
    ("9223372036854775807", 2**63 - 1), ("-9223372036854775808", -(2**63)), ("9223372036854775808", float(2**63)),
    ("18446744073709551615", float(2**64 - 1)), ('"a\\u0000b"', "a\0b"), ("-0.25", -0.25),
]

DOCUMENT = '{"a":[1,2,3],"b":{"c":"x"},"n":null}'
CALLS = [
    ("jdoc_json(jdoc_get(:d, '{a,-1}'))", "3"), ("jdoc_json(jdoc_get('[7,8]', 1))", "8"), ("jdoc_value(:d, '{b,c}')", "x"),
    ("jdoc_value('[7,8]', 0)", 7), ("jdoc_json(jdoc_first(:d, '$.a[*]?(@ > 1)'))", "2"), ("jdoc_json(jdoc_array(:d, '$.a[*]?(@ > 1)'))", "[2,3]"),
    ("jdoc_json(jdoc_array('[1,2,3]', '$[*]', 6))", "[1,2,3]"), ("jdoc_exists(:d, '$.**.**', -1)", 1), ("jdoc_match(:d, '$.a', 0)", None),
    ("jdoc_json(jdoc_array(:d, 'lax $.z'))", "[]"), ("jdoc_json(jdoc_select(:d, '$.b.c'))", '"x"'), ("jdoc_exists(:d, '$.b.c')", 1),
    ("jdoc_exists(:d, ' strict$.b.c')", 1), ("jdoc_exists(:d, '$.z')", 0), ("jdoc_match(:d, '$.a[*] > 2')", 1), ("jdoc_match(:d, '$.a[*] > 3')", 0),
    ("jdoc_contains(:d, '{\"a\":[2]}')", 1), ("jdoc_contains(:d, '{\"a\":[4]}')", 0),
    ("jdoc_json(jdoc_delete(:d, '{a,0}'))", '{"a":[2,3],"b":{"c":"x"},"n":null}'), ("jdoc_json(jdoc_delete('[1,2]', -1))", "[1]"),
    ("jdoc_json(jdoc_strip_nulls(:d))", '{"a":[1,2,3],"b":{"c":"x"}}'), ("jdoc_json(jdoc_set(:d, 'b', 7))", '{"a":[1,2,3],"b":7,"n":null}'),
    ("jdoc_json(jdoc_insert('{}', 'k', '\"v\"'))", '{"k":"v"}'), ("jdoc_json(jdoc_array_insert('[1,3]', 1, 2))", "[1,2,3]"),
    ("jdoc_json(jdoc_concat('[1]', '[2]'))", "[1,2]"), ("jdoc_json(jdoc_distinct('[1,1.0,2]'))", "[1,2]"),
    ("jdoc_json(jdoc_intersection('[1,2]', '[2,3]'))", "[2]"), ("jdoc_json(jdoc_except('[1,2]', '[2,3]'))", "[1]"),
    ("jdoc_overlap('[1,2]', '[2,3]')", 1), ("jdoc_overlap('[1,2]', '[3]')", 0), ("jdoc_type(:d)", "object"), ("jdoc_type(1)", "integer"),
    ("jdoc_type(x'20000000600000051000000001')", "date"), ("jdoc_length(:d)", 3), ("jdoc_length('[]')", 0),
    ("jdoc_check(jdoc(:d))", 1), ("jdoc_check(x'00')", 0), ("jdoc_check(x'')", 0), ("jdoc_check('1')", 0), ("jdoc_check(1)", 0),
    ("hex(jdoc_key(1))", "00048103E90200"), ("hex(jdoc_key(1, NULL, 1))", "00048103E90200" + "0000" + "00048103E90200"),
    ("jdoc_key(1, 2) < jdoc_key(1, 10)", 1), ("jdoc_key(1, NULL) < jdoc_key(1, 'true')", 1), ("hex(jdoc_key(NULL, NULL))", "00000000"),
    ("jdoc_equality_key('1.0') = jdoc_equality_key('1')", 1), ("jdoc_json(jdoc_quote('a\"'))", '"a\\""'), ("jdoc_json(jdoc_quote(5))", "5"),
    ("jdoc_json(jdoc_quote(NULL))", "null"), ("jdoc_json(jdoc_quote(jdoc('[1]')))", "[1]"), ("jdoc_json(jdoc_set('{}', 'k', jdoc_quote('1')))", '{"k":"1"}'),
    ("jdoc_json(jdoc_set(:d, 'b', jdoc_set(jdoc_get(:d, '{b}'), 'c', 1)))", '{"a":[1,2,3],"b":{"c":1},"n":null}'),
    ("hex(jdoc(jdoc(5)))", "2000000020000002" + "4005"), ("json_object('d', jdoc_json(:d))", f'{{"d":{DOCUMENT}}}'),
    ("json_array(jdoc_json('\"x\"'), jdoc_value('\"x\"'))", '["x","x"]'), ("json_quote(jdoc_json(jdoc('[1.50]')))", "[1.50]"),
]


class Functions(Case):
    def test_json_text(self):
        for text in TEXTS:
            self.assertEqual(self.one("jdoc_json(jdoc(?))", text), text)
        self.assertEqual(self.one("jdoc_json(jdoc(?))", ' { "b" : 1e3 , "a" : 1E-2 } '), '{"a":0.01,"b":1000}')
        self.assertEqual(self.one("hex(jdoc(?))", '[false,10,{"k":"v"}]'),
                         "8000000330000000200000025000000e500a4000000110000001100000016b76".upper())
        self.assertEqual(self.one("hex(jdoc('12.34'))"), "200000002000000A7000000000000004D202")

    def test_depth(self):
        text = "[" * 200000 + "]" * 200000
        self.assertEqual(self.one("jdoc_json(jdoc(?))", text), text)

    def test_errors(self):
        for words, call in ERRORS:
            self.fails(words, call)

    def test_messages(self):
        for message, call in MESSAGES:
            self.says(message, call)

    def test_types_of_arguments(self):
        """SQLite would convert an argument of another type, such as 'x' to the integer 0. Here it is an error that names both types."""
        for name, letters in ARGUMENTS:
            for at, letter in enumerate(letters):
                types, message = REJECTED[letter]
                for it in types:
                    words = [ACCEPTED[other] for other in letters]
                    words[at] = TYPED[it]
                    self.says(f"{name}: {message.format(it)}", f"{name}({', '.join(words)})")
        for it in REJECTED["p"][0]:
            self.says(f"jdoc_rows: {REJECTED['p'][1].format(it)}", f"* FROM jdoc_rows('1', {TYPED[it]})")
        self.says("jdoc_key: " + REJECTED["d"][1], "jdoc_key(1, 0.5)")
        self.says("jdoc_each: " + REJECTED["d"][1], "* FROM jdoc_each(0.5)")
        self.says("jdoc_object_agg: expected TEXT as the name, found NULL (JDOC_INVALID_ARGUMENT)", "jdoc_object_agg(NULL, 1)")

    def test_each_function_is_among_them(self):
        found = self.db.execute("SELECT DISTINCT name, narg FROM pragma_function_list WHERE name LIKE 'jdoc%' AND narg >= 0").fetchall()
        self.assertEqual(sorted(found), sorted((name, len(letters)) for name, letters in ARGUMENTS))

    def test_nulls(self):
        for call in NULLS:
            self.assertIsNone(self.one(call), call)

    def test_values(self):
        for text, value in VALUES:
            found = self.one("jdoc_value(jdoc(?))", text)
            self.assertEqual((found, type(found)), (value, type(value)), text)

    def test_calls(self):
        for call, answer in CALLS:
            self.assertEqual(self.db.execute(f"SELECT {call}", {"d": DOCUMENT}).fetchone()[0], answer, call)

    def test_predicates(self):
        for path in PREDICATES:
            self.assertEqual(self.one("jdoc_path_is_predicate(?)", path), 1, path)
        for path in OTHERS:
            self.assertEqual(self.one("jdoc_path_is_predicate(?)", path), 0, path)

    def test_constant_documents_are_kept(self):
        self.db.execute("CREATE TABLE t (d)")
        self.db.executemany("INSERT INTO t VALUES (jdoc(?))", [(f'{{"n":{n}}}',) for n in range(100)])
        self.assertEqual(self.one("""sum(jdoc_contains(d, '{"n":7}')) FROM t"""), 1)
        self.assertEqual(self.one("""sum(jdoc_contains(d, '{"n":' || jdoc_value(d, '{n}') || '}')) FROM t"""), 100)
        self.assertEqual([self.one("jdoc_json(jdoc(?))", text) for text in ("1", "2")], ["1", "2"])


    def test_paths_that_change_from_row_to_row(self):
        self.db.execute("CREATE TABLE t (p, k)")
        self.db.executemany("INSERT INTO t VALUES (?, ?)", [("$.a > 1", "{a}"), ("strict $.b > 1", "{b}"), ("$.a == 2", "{a}")] * 20)
        rows = self.db.execute("""SELECT jdoc_match('{"a":2,"b":1}', p), jdoc_value('{"a":2,"b":1}', k) FROM t""").fetchall()
        self.assertEqual(rows, [(1, 2), (0, 1), (1, 2)] * 20)
        one = "SELECT jdoc_exists('{\"a\":1}', ?)"
        self.assertEqual([self.db.execute(one, (it,)).fetchone()[0] for it in ("$.a", "$.b", "strict $.a")], [1, 0, 1])


class Aggregates(Case):
    def setUp(self):
        super().setUp()
        self.db.execute("CREATE TABLE t (g, k, d)")
        self.db.executemany("INSERT INTO t VALUES (?, ?, ?)", [(1, "b", "1"), (1, "a", '"x"'), (2, "c", None), (2, "c", "[2]")])

    def test_arrays(self):
        rows = self.db.execute("SELECT g, jdoc_json(jdoc_array_agg(d)) FROM t GROUP BY g").fetchall()
        self.assertEqual(rows, [(1, '[1,"x"]'), (2, "[null,[2]]")])
        self.assertEqual(self.one("jdoc_json(jdoc_array_agg(d)) FROM t WHERE 0"), "[]")
        self.assertEqual(self.one("jdoc_length(jdoc_array_agg(a.d)) FROM t AS a, t AS b, t AS c, t AS d, t AS e"), 1024)

    def test_objects(self):
        self.assertEqual(self.one("jdoc_json(jdoc_object_agg(k, d)) FROM t WHERE g = 1"), '{"a":"x","b":1}')
        self.assertEqual(self.one("jdoc_json(jdoc_object_agg(k, d)) FROM t WHERE 0"), "{}")
        self.says('jdoc_object_agg: two rows have the key "c" (JDOC_OBJECT_DUPLICATE_KEY)', "jdoc_object_agg(k, d) FROM t WHERE g = 2")
        keys = "VALUES ('b'), ('say \"it\"'), ('a'), ('say \"it\"'), ('b')"
        self.says('jdoc_object_agg: two rows have the key "say ""it""" (JDOC_OBJECT_DUPLICATE_KEY)', f"jdoc_object_agg(column1, 1) FROM ({keys})")
        self.fails("byte 7 of the JSON text JDOC_OBJECT_DUPLICATE_KEY", """jdoc_object_agg('a', '{"b":1,"b":2}')""")
        self.fails("jdoc_object_agg NULL JDOC_INVALID_ARGUMENT", "jdoc_object_agg(NULL, d) FROM t")

    def test_errors(self):
        self.fails("jdoc_array_agg JDOC_INVALID_JSON", "jdoc_array_agg(k) FROM t")
        self.fails("jdoc_array_agg JDOC_INVALID_JSONB", "jdoc_array_agg(x'00') FROM t")


class Rows(Case):
    def test_rows(self):
        sql = "SELECT r.key, r.value, r.type, jdoc_json(r.doc) FROM jdoc_rows(?, '$.a[*]') AS r"
        rows = self.db.execute(sql, ('{"a":[1,"x",null,2.5,true,[7],{}]}',)).fetchall()
        self.assertEqual(rows, [(0, 1, "integer", "1"), (1, "x", "string", '"x"'), (2, None, "null", "null"), (3, 2.5, "decimal", "2.5"),
                                (4, 1, "boolean", "true"), (5, "[7]", "array", "[7]"), (6, "{}", "object", "{}")])

    def test_no_rows(self):
        for call in ("NULL, '$'", "'1', NULL", "'{}', '$.a'"):
            self.assertEqual(self.db.execute(f"SELECT * FROM jdoc_rows({call})").fetchall(), [], call)

    def test_joins(self):
        self.db.execute("CREATE TABLE t (d)")
        self.db.executemany("INSERT INTO t VALUES (jdoc(?))", [(f"[{n},{n + 1}]",) for n in range(5)])
        found = self.db.execute("SELECT r.value FROM t, jdoc_rows(t.d, '$[*]') AS r WHERE r.value > 3").fetchall()
        self.assertEqual(found, [(4,), (4,), (5,)])
        nested = "SELECT count(*) FROM t, jdoc_rows(t.d, '$') AS a, jdoc_rows(a.doc, '$[*]') AS b"
        self.assertEqual(self.db.execute(nested).fetchone(), (10,))

    def test_paths_and_documents_that_change_from_row_to_row(self):
        self.db.execute("CREATE TABLE t (d, p)")
        rows = [("[1,2]", "$[*]"), ('{"a":[3]}', "$.a[*]"), ("[4]", "$[*]"), ("5", "strict $"), (None, "$"), ("[6]", None), ("7", "$ + 1"), (8, "$"), ("[9]", "$[*]")]
        self.db.executemany("INSERT INTO t VALUES (?, ?)", rows * 3)
        found = self.db.execute("SELECT r.key, r.value, jdoc_json(r.doc) FROM t, jdoc_rows(t.d, t.p) AS r").fetchall()
        self.assertEqual(found, [(key, value, str(value)) for key, value in [(0, 1), (1, 2), (0, 3), (0, 4), (0, 5), (0, 8), (0, 8), (0, 9)]] * 3)

    def test_items_of_different_sizes(self):
        items = [source * n for n in range(0, 3000, 37) for source in ("x", "é")]
        text = json.dumps(items)
        found = self.db.execute("SELECT value, jdoc_length(doc), type FROM jdoc_rows(?, '$[*]')", (text,)).fetchall()
        self.assertEqual(found, [(it, None, "string") for it in items])
        nested = self.db.execute("SELECT value FROM jdoc_rows(?, '$.**')", (text,)).fetchall()
        self.assertEqual([it for (it,) in nested[1:]], items)

    def test_items_that_are_computed(self):
        sql = "SELECT r.key, r.value, jdoc_json(r.doc), r.type FROM t, jdoc_rows('[1,2,\"x\",9223372036854775808]', p) AS r"
        self.db.execute("CREATE TABLE t (p)")
        self.db.executemany("INSERT INTO t VALUES (?)", [("-$[0 to 1]",), ("$[1]",), ("$[0] > 1",), ("$[2] > 1",), ("$[3] + 1",), ("$[2]",), ("-$[3]",)])
        self.assertEqual(self.db.execute(sql).fetchall(), [
            (0, -1, "-1", "integer"), (1, -2, "-2", "integer"), (0, 2, "2", "integer"), (0, 0, "false", "boolean"), (0, None, "null", "null"),
            (0, float(2**63 + 1), "9223372036854775809", "integer"), (0, "x", '"x"', "string"), (0, -(2**63), "-9223372036854775808", "integer")])

    def test_errors(self):
        self.fails("jdoc_rows document path", "* FROM jdoc_rows")
        self.fails("jdoc_rows JDOC_INVALID_JSON_PATH byte 1", "* FROM jdoc_rows('1', '$.')")
        self.fails("jdoc_rows JDOC_STRICT_PATH", "* FROM jdoc_rows('1', 'strict $.a')")
        self.fails("jdoc_rows JDOC_INVALID_JSON", "* FROM jdoc_rows('{', '$')")
        self.fails("jdoc_rows JDOC_INVALID_JSONB", "* FROM jdoc_rows(x'00', '$')")
        self.fails("jdoc_rows JDOC_INVALID_JSONB", "value FROM jdoc_rows(x'800000012000000109', '$[*]')")
        self.fails("JDOC_INVALID_JSON_TYPE", "value FROM jdoc_rows(x'20000000600000051000000001', '$')")


class Each(Case):
    SQL = "SELECT e.key, e.value, e.type, jdoc_json(e.doc) FROM jdoc_each(?) AS e"

    def test_members(self):
        rows = self.db.execute(self.SQL, ('{"b":[1],"":null,"a":{"k":2.5},"é\\u0000":"x"}',)).fetchall()
        self.assertEqual(rows, [("", None, "null", "null"), ("a", '{"k":2.5}', "object", '{"k":2.5}'), ("b", "[1]", "array", "[1]"), ("é\0", "x", "string", '"x"')])

    def test_elements(self):
        rows = self.db.execute(self.SQL, ('[5,"x",false,{}]',)).fetchall()
        self.assertEqual(rows, [(0, 5, "integer", "5"), (1, "x", "string", '"x"'), (2, 0, "boolean", "false"), (3, "{}", "object", "{}")])

    def test_no_rows(self):
        for call in ("NULL", "'[]'", "'{}'", "'5'", "'\"x\"'", "'null'"):
            self.assertEqual(self.db.execute(f"SELECT * FROM jdoc_each({call})").fetchall(), [], call)

    def test_joins(self):
        """Members and elements alternately, in a join and in a nested one."""
        self.db.execute("CREATE TABLE t (d)")
        self.db.executemany("INSERT INTO t VALUES (jdoc(?))", [('{"a":1,"b":[2]}',), ("[3,4]",), ("5",), ('{"c":{"d":6}}',)])
        found = self.db.execute("SELECT a.key, b.key, b.value FROM t, jdoc_each(t.d) AS a LEFT JOIN jdoc_each(a.doc) AS b").fetchall()
        self.assertEqual(found, [("a", None, None), ("b", 0, 2), (0, None, None), (1, None, None), ("c", "d", 6)])

    def test_errors(self):
        self.fails("jdoc_each byte 0 of the JSON text JDOC_INVALID_JSON", "* FROM jdoc_each('x')")
        self.fails("jdoc_each JDOC_INVALID_JSONB", "* FROM jdoc_each(x'8000000120')")
        self.fails("jdoc_each an extension value JDOC_INVALID_JSON_TYPE", "value FROM jdoc_each(x'80000001600000051000000001')")


if __name__ == "__main__":
    unittest.main()
