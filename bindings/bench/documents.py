#!/usr/bin/env python3
"""Writes people as JSON lines, the same each time: documents.py COUNT small|large, of about 300 bytes or about 5 KB each."""

import json
import random
import sys

CITIES = ["Berlin", "Zürich", "Paris", "Oslo", "Kraków", "Lisboa", "Roma", "Wien"]
TAGS = ["red", "green", "blue", "new", "old", "vip", "trial", "beta"]


def person(source, number):
    phones = source.sample(["home", "work", "cell"], source.randrange(1, 3))
    return {
        "id": number,
        "name": f"Person {source.randrange(10**6)}",
        "age": source.randrange(18, 90),
        "email": f"p{number}@example.org",
        "active": source.random() < 0.5,
        "score": source.randrange(10**6),
        "address": {"city": source.choice(CITIES), "zip": f"{source.randrange(10**5):05}", "floor": source.randrange(20)},
        "tags": source.sample(TAGS, source.randrange(4)),
        "phones": [{"type": kind, "number": source.randrange(10**7)} for kind in phones],
        "note": None,
        "about": " ".join(source.choice(TAGS) for _ in range(9)),
    }


def visit(source):
    return {
        "at": source.randrange(10**9),
        "what": source.choice(["login", "buy", "sell", "logout"]),
        "sum": source.randrange(10**5),
        "text": " ".join(source.choice(TAGS) for _ in range(12)),
    }


def people(count, size):
    source = random.Random(7)
    for number in range(count):
        it = person(source, number)
        if size == "large":
            it["history"] = [visit(source) for _ in range(42)]
        yield json.dumps(it, ensure_ascii=False, separators=(",", ":"))


def main():
    for line in people(int(sys.argv[1]), sys.argv[2]):
        print(line)


if __name__ == "__main__":
    main()
