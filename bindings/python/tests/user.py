"""A user's program, for mypy --strict."""

from decimal import Decimal
from typing import List, Optional

from jsonb_paths import Booleans, Column, Document, JsonbError, KeyPath, Path, Results, Value, dumps, from_json, loads, match, select, sort_key, to_json

document: bytes = dumps({"name": "Ann", "age": 47, "tags": ["a", None, Decimal("1.5")]})
truth: Optional[bool] = match(document, "$.age > 40")
items: List[bytes] = select(memoryview(document), "$.tags[*]", strict=True)
text: str = to_json(from_json('{"a":1.50}', floats="decimal", duplicates="last"))
path = Path("$.age > 40")
again: Optional[bool] = path.match(document)
part: Optional[bytes] = KeyPath("{age}").get(document)
column: Column = Column([document, None])
booleans: Booleans = column.match(path)
results: Results = column.get("{name}")
first: Optional[bytes] = results[0]
key: bytes = sort_key(document, wide=True)
few: Column = column[:1].filter(booleans[:1])
value: Value = loads(document)


def age(person: Document) -> Optional[bytes]:
    return KeyPath("{age}").get(person)


try:
    loads(b"")
except JsonbError as fault:
    row: Optional[int] = fault.row
match(3, "$.a")  # type: ignore[arg-type]
dumps(object())  # type: ignore[arg-type]
from_json("1", floats="round")  # type: ignore[arg-type]
