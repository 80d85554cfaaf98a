"""The cases of tools/measure_speed.py: what each call is made with."""
import json
import random
import struct
from dataclasses import dataclass
from decimal import Decimal

from documents import encode as document
from measured import CLASSES

RANDOM = random.Random(1)
# The calls on one scalar. All others are classed by the size of their document, or of the other one if that is larger.
SCALAR_CALLS = """type_of is_null is_boolean is_number is_i64 is_u64 is_string is_array is_object is_extension_value is_binary is_date
is_timestamp is_timestamp_tz is_interval as_null as_bool as_number as_i64 as_u64 as_str as_extension_value as_binary as_date
as_timestamp as_timestamp_tz as_interval to_bool to_i64 to_u64 to_str""".split()


@dataclass
class Case:
    name: str
    call: str
    document: bytes
    argument: str = ""
    other: bytes = b""

    @property
    def size_class(self):
        if self.call in SCALAR_CALLS:
            return CLASSES[0]
        size = max(len(self.document), len(self.other))
        return CLASSES[1 + (size > 60) + (size > 1000)]


# The cost of the loop that makes the calls, which is subtracted from the instructions of each case.
EMPTY = Case("nothing", "nothing", b"")


# ---- documents


def word(length):
    return "".join(RANDOM.choice("abcdefghijklmnopqrstuvwxyz") for _ in range(length))


def wide_object(pairs):
    return {f"k{i:04}": word(6) if i % 3 else RANDOM.randrange(10**6) for i in range(pairs)}


def person(i):
    optional = {"opt": None} if i % 5 == 0 else {}
    return {"age": RANDOM.randrange(100), "id": i, "name": f"n{RANDOM.randrange(100)}{word(4)}", "tag": f"t{i % 10}", **optional}


def whole_numbers(count):
    return [RANDOM.randrange(count) for _ in range(count)]


def nested_arrays(levels):
    value = 7
    for _ in range(levels):
        value = [value]
    return value


def nested_objects(levels):
    value = 1
    for _ in range(levels):
        value = {"k": value, "n": None}
    return value


# ---- large documents and long paths


def text_cases():
    fields = "".join(f".f{i}" for i in range(100))
    conditions = " && ".join(f"@.f{i} == {i}" for i in range(50))
    long = (
        '$.store.book[0, 1, last - 2]?(@.price > 10 && @.title starts with "a" || exists(@.isbn[*]?(@ == "x")))'
        '."a b":c["d"].**{1 to last}'
    )
    yield Case("parse a short path", "parse_path", b"$.a.b[0]")
    yield Case("parse a long path", "parse_path", long.encode())
    yield Case("parse a path of 100 fields", "parse_path", f"${fields}".encode())
    yield Case("parse a filter of 50 conditions", "parse_path", f"$[*]?({conditions})".encode())
    yield Case("parse a key path of 200 steps", "parse_keypath", ("{" + ",".join(["k"] * 200) + "}").encode())


def place_cases(people):
    steps = "{" + ",".join(["k"] * 200) + "}"
    deep = document(nested_objects(200))
    for pairs in (10, 100, 1000):
        last = "{" + f"k{pairs - 1:04}" + "}"
        yield Case(f"get the last of {pairs:,} keys", "get_by_keypath", document(wide_object(pairs)), last)
    yield Case("get a field of the last of 1,000 objects", "get_by_keypath", people, "{999,name}")
    yield Case("get at depth 200", "get_by_keypath", deep, steps)
    yield Case("get by name, ignoring case, of 1,000 keys", "get_by_name_ignore_case", document(wide_object(1000)), "K0999")
    yield Case("delete by key path, of 1,000 keys", "delete_by_keypath", document(wide_object(1000)), "{k0500}")
    yield Case("delete at depth 200", "delete_by_keypath", deep, steps)
    yield Case("delete by index, of 1,000 objects", "delete_by_index", people, "500")
    yield Case("delete by name, of 1,000 keys", "delete_by_name", document(wide_object(1000)), "k0500")
    yield Case("insert into 1,000 objects", "array_insert", people, "500", document(7))
    yield Case("insert a member into 1,000", "object_insert", document(wide_object(1000)), "k0500x", document("new"))


def selection_cases(people):
    def select(name, path, value, call="select"):
        return Case(name, call, value, path)

    long_fields = document({f"w{i}": word(16384) for i in range(8)})
    lists = document({"a": list(range(100)), "b": list(range(100, 200))})
    every_20th = ", ".join(str(i) for i in range(0, 1000, 20))
    yield select("`$.*` of 100 members", "$.*", document(wide_object(100)))
    yield select("`$[*].name` of 1,000 objects", "$[*].name", people)
    yield select("`$[*]?(@.age < 50)` of 1,000 objects", "$[*]?(@.age < 50)", people)
    yield select("three conditions with &&", '$[*]?(@.age > 20 && @.age < 60 && @.name starts with "n1")', people)
    yield select("three conditions with ||", '$[*]?(@.age == 3 || @.tag == "t5" || exists(@.opt))', people)
    yield select("`$[0, 10 to 40, last]`", "$[0, 10 to 40, last]", people)
    yield select("50 indices", f"$[{every_20th}]", people)
    yield select("`$.**` of 1,000 objects", "$.**", people)
    yield select("`$.**` at depth 200", "$.**", document(nested_arrays(200)))
    yield select("`$.**{100 to last}` at depth 200", "$.**{100 to last}", document(nested_arrays(200)), "exists")
    yield select("a filter that selects nothing", "$[*]?(@.age > 1000)", people, "exists")
    yield select("`$[*].age > 1000` as a predicate", "$[*].age > 1000", people, "match")
    yield select("100 values by 100", "$.a[*] == $.b[*]", lists, "match")
    yield select("`-$[*]` of 1,000 numbers", "-$[*]", document(whole_numbers(1000)))
    yield select("one of several long fields", "$.w5", long_fields)
    yield select("the first of 1,000 objects", "$[*]", people, "select_first")


def filter_cases():
    """Filters by expressions, which are not comparisons of members with literals."""
    home, work = {"number": 3720453, "type": "home"}, {"number": 5062051, "type": "work"}
    fred = document({"name": "Fred", "age": 40, "phones": [home, work]})
    boxes = document([{"id": i, "tags": [i, i + 1, 7], "in": {"a": i, "b": [1, 2]}} for i in range(300)])
    for call in ["exists", "select_first"]:
        yield Case(f"`{call}` of one item by an expression", call, fred, "$.phones?(@[*].number > 5)")
    yield Case("filters within filters", "select", boxes, "$[*]?(exists(@?(@.* == 5)))")
    yield Case("three filters within one another", "select", boxes, "$[*]?(exists(@?(exists(@.in?(exists(@.b[*]))))))")
    yield Case("filters within filters that compare with the root", "select", boxes, "$[*]?(exists(@.tags[*]?(@ == $[0].id)))")


def list_cases(people, few):
    for count in (10, 100, 1000):
        one, other = document(whole_numbers(count)), document(whole_numbers(count))
        yield Case(f"distinct of {count:,}", "array_distinct", one)
        yield Case(f"intersection of {count:,}", "array_intersection", one, other=other)
        yield Case(f"difference of {count:,}", "array_except", one, other=other)
        yield Case(f"overlap of {count:,}", "array_overlap", document([-1 - i for i in range(count)]), other=other)
    boxes = [{"a": i, "b": [i, i + 1]} for i in range(100)]
    decimals = [Decimal(i) / 100 for i in range(101, 1100) if i % 100]
    yield Case("distinct of 1,000 objects", "array_distinct", people)
    yield Case("contains 1,000 integers", "contains", document(list(range(1000))), other=document(whole_numbers(1000)))
    yield Case("contains 1,000 decimals", "contains", document(decimals), other=document(decimals[::-1]))
    yield Case("contains 100 objects", "contains", document(boxes), other=document(boxes[::-1]))
    yield Case("concatenate arrays", "concat", people, other=few)
    yield Case("the elements of 1,000 objects", "array_values", people)


def object_cases():
    value = wide_object(1000)
    wide = document(value)
    rising = ",".join(f"k{i:04}" for i in range(0, 1000, 10))
    falling = ",".join(f"k{i:04}" for i in range(990, -1, -10))
    later = document({f"k{i:04}": i for i in range(500, 1500)})
    yield Case("all of 100 sorted names", "exists_all_keys", wide, rising)
    yield Case("all of 100 names in reverse order", "exists_all_keys", wide, falling)
    yield Case("any of 100 missing names", "exists_any_keys", wide, rising.replace("k", "l"))
    yield Case("pick 100 keys", "object_pick", wide, rising)
    yield Case("delete 100 keys", "object_delete", wide, rising)
    yield Case("the keys of 1,000 members", "object_keys", wide)
    yield Case("the members of 1,000", "object_each", wide)
    yield Case("concatenate objects", "concat", wide, other=later)


def document_cases(people, few):
    deep = document(nested_objects(200))
    nulls = document([{"a": None, "b": i, "c": {"d": None, "e": [None, i]}} for i in range(1000)])
    long = document([word(16384) for _ in range(8)])
    yield Case("strip nulls of 1,000 objects", "strip_nulls", nulls)
    yield Case("strip nulls at depth 200", "strip_nulls", deep)
    yield Case("sortable key of 1,000 objects", "sort_key", people)
    yield Case("sortable key of long strings", "sort_key", long)
    yield Case("leaves of 100 objects", "leaves", few)
    yield Case("leaves at depth 200", "leaves", deep)
    yield Case("visit each string of 1,000 objects", "traverse_check_string", people)


def single_cases():
    one = document({**person(0), "note": word(118)})
    yield Case("a filter on one document of 200 bytes", "exists", one, "$.age?(@ > 200)")
    yield Case("a predicate on one document of 200 bytes", "match", one, "$.age > 200")
    yield Case("a field of one document of 200 bytes", "select_first", one, "$.name")


# ---- every call on documents of each size

WHOLE = ["strip_nulls", "sort_key", "leaves", "leaves_outside_arrays", "traverse_check_string"]
ARRAY = ["array_length", "array_values", "array_distinct"]
OBJECT = ["object_keys", "object_each"]
BOTH = ["contains", "concat"]
SETS = ["array_overlap", "array_intersection", "array_except"]
# The names of JSON paths are those of their calls in the Rust crate, without `_by_path` and `path_`.
PATHS = ["select", "select_array", "select_value", "select_first", "exists"]
PATH_TEXTS = ["$", "$.a", "$.a.b[0]", "$[*]?(@.a > 1)", '$."a b"', "$.a == 1", "$[0, 1 to last]", '$.name starts with "n1"']
MORE_PATH_TEXTS = ["$" + ".abc" * 20, "$[*]?(" + " && ".join(f"@.f{i} == {i}" for i in range(20)) + ")"]
KEY_PATH_TEXTS = ["{a}", "{a,b,0}", '{"a b",-1}']
MORE_TEXT_CALLS = {"path": ["path_clone", "path_equal"],
                   "keypath": ["keypath_clone", "keypath_to_owned", "keypath_as_key_paths"]}


def extension(form, *parts):
    payload = struct.pack(form, *parts)
    return struct.pack(">II", 0x20000000, 0x60000000 + len(payload)) + payload


SCALARS = {
    "null": document(None),
    "true": document(True),
    "5": document(5),
    "-1234567890": document(-1234567890),
    "12.34": document(Decimal("12.34")),
    "a string": document("plain text"),
    "a string of 300 bytes": document("plain text" * 30),
    "binary": extension(">B8s", 0x00, b"contents"),
    "a date": extension(">Bi", 0x10, 19000),
    "a timestamp": extension(">Bq", 0x20, 1_700_000_000_000_000),
    "a timestamp with a time zone": extension(">Biq", 0x30, 3600, 1_700_000_000_000_000),
    "an interval": extension(">Biiq", 0x40, 1, 2, 3),
}


def maker(what, value):
    """Makes cases on one document: of a call, what it is made with in words, and that."""

    def made(call, detail="", argument="", other=b""):
        return Case(f"`{call}`{detail and ' '}{detail}, {what}", call, value, argument, other)

    return made


def scalar_cases():
    containers = {"3 integers": document([1, 2, 3]), "2 members": document({"a": 1, "b": "x"})}
    for what, value in {**SCALARS, **containers}.items():
        of = maker(what, value)
        yield from map(of, SCALAR_CALLS)
        if what not in containers:
            yield from map(of, [*WHOLE, *ARRAY, *OBJECT])
            yield from (of(call, "itself", "", value) for call in BOTH + SETS)
            yield from (of(call, f"`{path}`", path) for call in PATHS[:-1] for path in ["$"])
            yield from [of("exists", "`$[*]`", "$[*]"), of("match", "`$ == 5`", "$ == 5")]
            yield from [of("array_insert", "7", "0", document(7)), of("concat", "`[]`", "", document([]))]
            yield from [of("get_by_index", "0", "0"), of("get_by_name", "a", "a"), of("get_by_keypath", "{a}", "{a}")]
            yield from (of(call, "x", "x") for call in ["exists_all_keys", "exists_any_keys"])


def name_cases(of, names, others):
    """Names of an array or object, in three orders, and names that it lacks."""
    orders = {"sorted": sorted(names), "reversed": sorted(names)[::-1], "shuffled": random.Random(2).sample(names, len(names))}
    for detail, order in orders.items():
        yield of("exists_all_keys", detail, ",".join(order))
    yield of("exists_any_keys", "missing", ",".join(others))


def cases_of_array(what, values, others):
    """`others` are as many values that are not elements."""
    of, count = maker(what, document(values)), len(values)
    positions = {"first": 0, "middle": count // 2, "last": count - 1} if values else {}
    yield from map(of, WHOLE + ARRAY)
    for detail, i in {**positions, "missing": count}.items():
        yield from [of("get_by_index", detail, str(i)), of("get_by_keypath", detail, f"{{{i}}}")]
    for detail, i in positions.items():
        yield from [of("delete_by_index", detail, str(i)), of("delete_by_keypath", detail, f"{{{i}}}")]
    yield from (of("array_insert", detail, str(i), document(7)) for detail, i in [("first", 0), ("last", count)])
    lists = {"itself": values, **({"reversed": values[::-1], "disjoint": others} if values else {})}
    for detail, other in lists.items():
        yield from (of(call, detail, "", document(other)) for call in BOTH + SETS)
    yield from (of(call, "`$[*]`", "$[*]") for call in PATHS)
    yield from (of(call, "`$[last]`", "$[last]") for call in ["select", "select_value"])
    if values and not isinstance(values[0], dict):
        last = "> 0" if isinstance(values[0], Decimal) else f"== {json.dumps(values[-1])}"
        yield from (of(call, "by a filter", f"$[*]?(@ {last})") for call in ["select", "select_first", "exists"])
        yield of("match", "by a comparison", f"$[*] {last}")
    if values and isinstance(values[0], str):
        yield from name_cases(of, values, others)


def cases_of_object(what, members):
    of, keys = maker(what, document(members)), sorted(members)
    middle = keys[len(keys) // 2] if keys else ""
    found = {"first": keys[0], "middle": middle, "last": keys[-1]} if keys else {}
    missing = {"missing": middle + "x"}
    yield from map(of, WHOLE + OBJECT)
    for detail, key in {**found, **missing}.items():
        yield from [of("get_by_name", detail, key), of("get_by_keypath", detail, f"{{{key}}}")]
        yield from [of("delete_by_name", detail, key), of("delete_by_keypath", detail, f"{{{key}}}")]
        yield from [of("object_pick", detail, key), of("object_delete", detail, key)]
        yield of("object_update", detail, key, document(7))
    yield of("get_by_name_ignore_case", "missing", missing["missing"].upper())
    yield of("object_insert", "missing", missing["missing"], document(7))
    parts = {"itself": members, "another": {missing["missing"]: 1}, **({"middle": {middle: members[middle]}} if keys else {})}
    for detail, other in parts.items():
        yield from (of(call, detail, "", document(other)) for call in BOTH)
    yield from (of(call, "`$.*`", "$.*") for call in PATHS)
    for detail, key in {**found, **missing}.items():
        yield from (of(call, f"{detail} by a path", f"$.{key}") for call in ["select", "select_first", "exists"])
    if keys:
        yield of("get_by_name_ignore_case", "last", keys[-1].upper())
        yield from (of(call, "all", ",".join(keys)) for call in ["object_pick", "object_delete"])
        yield from name_cases(of, keys, [key + "x" for key in keys])
        condition = f"$.{keys[-1]} == {json.dumps(members[keys[-1]])}"
        yield from [of("match", "by a comparison", condition), of("exists", "by a filter", f"$?({condition})")]


def nested_cases():
    of = maker('{"a":{"b":[1,2]}}', document({"a": {"b": [1, 2]}}))
    yield from map(of, WHOLE)
    yield from [of("get_by_keypath", "{a,b,1}", "{a,b,1}"), of("delete_by_keypath", "{a,b,0}", "{a,b,0}")]
    yield from (of(call, f"`{path}`", path) for call in PATHS for path in ["$.a.b[0]", "$.a.b[*]", "$.**", "$.a.b[*]?(@ > 1)"])
    yield from (of("match", f"`{path}`", path) for path in ["$.a.b[*] > 1", "exists($.a.c)"])
    yield from (of(call, "itself", "", document({"a": {"b": [1, 2]}})) for call in BOTH + SETS)


def short_text_cases():
    paths, key_paths = [*PATH_TEXTS, *MORE_PATH_TEXTS], [*KEY_PATH_TEXTS, "{" + ",".join(["abc"] * 30) + "}"]
    for kind, texts in (("path", paths), ("keypath", key_paths)):
        for text in texts:
            shown = f"`{text}`" if len(text) <= 60 else f"{len(text)} bytes"
            # The Rust crate prints this name without its quotes.
            calls = [f"parse_{kind}", *([] if text == '$."a b"' else [f"{kind}_print"]), *MORE_TEXT_CALLS[kind]]
            yield from (Case(f"`{call}` {shown}", call, text.encode()) for call in calls)


def long_string_cases():
    """Equal strings, and strings that sortable keys must escape."""
    for count in (256, 900):
        yield from cases_of_array(f"a string of {count} bytes in an array", ["a" * count], ["b" * count])
        rare, dense = ("aaaaaaaaaaaaaaa\x01" * count)[:count], "\x01" * count
        yield from (Case(f"`sort_key`, {count} bytes with {it} escapes", "sort_key", document(text))
                    for it, text in [("no", "a" * count), ("rare", rare), ("dense", dense)])


def sized_cases():
    def people_below(count):
        return [{"a": i, "b": [i, i + 1]} for i in range(count)]

    def kinds(count):
        """Arrays of each type, with as many other values of the type."""
        every = range(2 * count)
        yield "integers", list(every)
        yield "strings", [f"s{i:04}" for i in every]
        yield "decimals", [Decimal(10 * i + 1) / 100 for i in every]
        yield "objects", people_below(2 * count)

    yield from cases_of_array("`[]`", [], [])
    yield from cases_of_object("`{}`", {})
    for count in (2, 20, 200):
        for what, values in kinds(count):
            yield from cases_of_array(f"{count:,} {what}", values[:count], values[count:])
    yield from cases_of_object("2 members", {"a": 1, "b": "x"})
    yield from cases_of_object("4 members", {"a": 1, "b": True, "c": None, "d": "xy"})
    for count in (12, 40, 1000):
        yield from cases_of_object(f"{count:,} members", wide_object(count))


def cases():
    people = [person(i) for i in range(1000)]
    all_people, few = document(people), document(people[:100])
    return [
        *text_cases(),
        *place_cases(all_people),
        *selection_cases(all_people),
        *list_cases(all_people, few),
        *object_cases(),
        *document_cases(all_people, few),
        *single_cases(),
        *filter_cases(),
        *scalar_cases(),
        *nested_cases(),
        *short_text_cases(),
        *long_string_cases(),
        *sized_cases(),
    ]


# ---- every call, with this library alone

ALONE_WHOLE = """check depth to_value value_clone value_equal equality_key sort_key_wide sort_key_into sort_key_wide_into equality_key_into
push_column_key push_column_key_wide composite_key composite_key_wide leaf_documents root_item encode_item open_children
child_spots spot_item spot_document build_array_of_documents build_object_of_documents build_document_of_documents""".split()
ALONE_ARRAY = ["elements", "build_array", "build_array_of_spots", "build_document"]
ALONE_OBJECT = ["pairs", "keys", "values", "build_object", "build_document_of_members"]
SELECTIONS = ["select_values", "select_array", "select_first", "select_value", "exists"]
ALONE_PATHS = ["find_first", "find_values", "limited_most_items", *(f"{mode}_{it}" for mode in ("strict", "limited") for it in SELECTIONS)]
ALONE_MATCHES = ["strict_predicate_match", "limited_predicate_match"]
ALONE_NUMBERS = {"7 and 5": (7, 5), "-1234567890 and 1024": (-1234567890, 1024), "12.5 and 0.5": (Decimal("12.5"), Decimal("0.5"))}
NUMBER_CALLS = [f"number_{it}" for it in ("add", "sub", "mul", "div", "rem", "neg")]
# How many elements an array has: of 30 to 60 bytes, of 200 bytes, and of 1,000 elements.
COUNTS = {"integers": (8, 32, 1000), "strings": (4, 22, 1000), "decimals": (4, 14, 1000), "objects": (1, 4, 1000)}


def alone_on(what, value):
    """Yields the calls on any document that the Rust crate lacks."""
    of = maker(what, value)
    yield from map(of, ALONE_WHOLE)
    yield from [of("check_depth", "", "255"), of("compare", "itself", "", value)]


def alone_on_container(what, value, path, last):
    """Yields those on an array or object, with a path to its children and the key path step of the last one."""
    of = maker(what, document(value))
    yield from alone_on(what, document(value))
    yield from (of(call, f"`{path}`", path) for call in ALONE_PATHS)
    yield from (of(call, f"`{path} == 1`", f"{path} == 1") for call in ALONE_MATCHES)
    yield of("spot_by_keypath", "last", f"{{{last}}}")
    if not value:
        yield from map(of, SCALAR_CALLS)


def alone_on_names(what, value, names, others):
    """Yields the calls that take an allocator and names, as `name_cases` does those that take none."""
    for case in name_cases(maker(what, value), names, others):
        call = f"{case.call}_in"
        yield Case(case.name.replace(f"`{case.call}`", f"`{call}`"), call, case.document, case.argument)


def alone_on_array(what, values, others):
    of, last = maker(what, document(values)), str(max(0, len(values) - 1))
    yield from alone_on_container(what, values, "$[*]", last)
    yield from map(of, ALONE_ARRAY)
    yield from (of(call, "last", last) for call in ["spot_by_index", "spot_behind"])
    lists = {"itself": values, "reversed": values[::-1], "disjoint": others}
    for call in ["array_overlap_in", "contains_in"]:
        yield from (of(call, detail, "", document(other)) for detail, other in lists.items())
    if values and isinstance(values[0], str):
        yield from alone_on_names(what, document(values), values, others)
    if values and isinstance(values[0], int):
        yield of("document_from_events", "of as many nulls", str(len(values)))


def alone_on_object(what, members):
    of, keys = maker(what, document(members)), sorted(members)
    last = keys[-1] if keys else "a"
    yield from alone_on_container(what, members, "$.*", last)
    yield from map(of, ALONE_OBJECT)
    yield from (of(call, "last", last) for call in ["spot_by_name", "field_spot"])
    if keys:
        yield from alone_on_names(what, document(members), keys, [key + "x" for key in keys])


def alone_on_texts():
    yield from short_text_cases()
    for kind, texts in (("path", PATH_TEXTS), ("keypath", KEY_PATH_TEXTS)):
        calls = ["path_error_position", "path_to_owned"] if kind == "path" else ["keypath_error_position"]
        yield from (Case(f"`{call}` `{text}`", call, text.encode()) for text in texts for call in calls)
    for call, text in (("read_name", "name"), ("read_name", "\\u0041name"), ("read_quoted", '"name"'), ("read_quoted", '"a \\n name"')):
        yield Case(f"`{call}` `{text}`", call, text.encode())


def arrays():
    """Yields arrays of each type and size by their names, each with as many values that it lacks."""
    yield "`[]`", [], []
    for number in range(3):
        count = {it: its[number] for it, its in COUNTS.items()}
        every = range(2 * max(count.values()))
        made = {
            "integers": list(every),
            "strings": [f"s{i:04}" for i in every],
            "decimals": [Decimal(10 * i + 1) / 100 for i in every],
            "objects": [{"a": i, "b": [i, i + 1]} for i in every],
        }
        for what, values in made.items():
            of_one = what.removesuffix("s") if count[what] == 1 else what
            yield f"{count[what]:,} {of_one}", values[: count[what]], values[count[what] : 2 * count[what]]


def alone_cases():
    """Yields every call on documents of each type and size, with the type, and a selector's in each of its modes."""
    yield from (("scalar", it) for it in scalar_cases() if it.document in SCALARS.values())
    for what, value in SCALARS.items():
        yield from (("scalar", it) for it in alone_on(what, value))
    for what, values, others in arrays():
        yield from (("array", it) for it in [*cases_of_array(what, values, others), *alone_on_array(what, values, others)])
    for count in (0, 3, 12, 1000):
        what, members = f"{count:,} members" if count else "`{}`", wide_object(count)
        yield from (("object", it) for it in [*cases_of_object(what, members), *alone_on_object(what, members)])
    yield from (("text", it) for it in alone_on_texts())
    for what, (one, other) in ALONE_NUMBERS.items():
        yield from (("number", maker(what, document(one))(call, "", "", document(other))) for call in NUMBER_CALLS)
