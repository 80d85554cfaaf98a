"""What README shows."""

from jsonb_paths import Column, dumps, loads, select

fred = dumps({"name": "Fred", "phones": [{"number": 3720453, "type": "home"}, {"number": 5062051, "type": "work"}]})
[number] = select(fred, '$.phones[*]?(@.type == "home").number')
assert loads(number) == 3720453

people = Column(dumps({"name": name, "age": age}) for name, age in [("Ann", 31), ("Bob", 47)])
assert people.match("$.age > 40") == [False, True]
keys = people.get("{age}").sort_keys()  # bytes that sort as the ages do
assert keys[0] < keys[1]
