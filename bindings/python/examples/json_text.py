"""What docs/C.md shows: JSON text, a path, and a column."""

from jsonb_paths import Column, Path, from_json, to_json

document = from_json('{"name":"Fred","tags":["new","red"],"price":12.50}')
red = Path('$.tags[*]?(@ starts with "r")')
assert [to_json(it) for it in red.select(document)] == ['"red"']
assert to_json(document) == '{"name":"Fred","price":12.50,"tags":["new","red"]}'

people = Column.from_json(b'{"name":"Ann","age":31}\n{"name":"Bob","age":47}\n')
grown_up = people.filter(people.match("$.age > 40"))
assert grown_up.to_json_lines() == b'{"age":47,"name":"Bob"}\n'
