"""Documents in SQLite: an index on a sortable key, and a path as a filter. python3 sqlite_index.py [DATABASE]"""

import random
import sqlite3
import sys

import jsonb_paths
from jsonb_paths import dumps, loads

BY_AGE = "jsonb_key(jsonb_get(document, '{age}'))"


def null_of_null(call):
    """A call that returns NULL if its document is NULL."""
    return lambda document, *words: None if document is None else call(document, *words)


def register(connection):
    """Makes the calls functions of SQL. They are deterministic, so an index may use them."""
    for name, arguments, call in [
        ("jsonb_get", 2, jsonb_paths.get),
        ("jsonb_select_first", 2, jsonb_paths.select_first),
        ("jsonb_match", 2, jsonb_paths.match),
        ("jsonb_key", 1, jsonb_paths.sort_key),
        ("jsonb_as_text", 1, jsonb_paths.to_str),
    ]:
        connection.create_function(name, arguments, null_of_null(call), deterministic=True)


def fill(connection, people):
    connection.execute("CREATE TABLE people (document BLOB NOT NULL)")
    connection.executemany("INSERT INTO people VALUES (?)", ((dumps(it),) for it in people))
    connection.execute(f"CREATE INDEX by_age ON people ({BY_AGE})")


def between(connection, least, most):
    """The documents whose age is in a range, in the order of ages, by the index."""
    query = f"SELECT document FROM people WHERE {BY_AGE} BETWEEN ? AND ? ORDER BY {BY_AGE}"
    keys = [jsonb_paths.sort_key(dumps(it)) for it in (least, most)]
    plan = " ".join(row[3] for row in connection.execute(f"EXPLAIN QUERY PLAN {query}", keys))
    return [loads(document) for (document,) in connection.execute(query, keys)], plan


def matching(connection, path):
    """The documents for which a predicate is true."""
    return [loads(it) for (it,) in connection.execute("SELECT document FROM people WHERE jsonb_match(document, ?)", [path])]


def some_people(count):
    source = random.Random(1)
    return [{"name": f"n{it}", "age": source.choice([source.randrange(100), f"{it}", None])} for it in range(count)]


def main():
    connection = sqlite3.connect(sys.argv[1] if len(sys.argv) > 1 else ":memory:")
    register(connection)
    fill(connection, some_people(1000))
    found, plan = between(connection, 30, 32)
    print(plan)
    print(len(found), "people from 30 to 32; the first:", found[0])
    print(len(matching(connection, '$.name starts with "n99"')), "whose name begins with n99")


if __name__ == "__main__":
    main()
