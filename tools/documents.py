#!/usr/bin/env python3
"""Documents from JSON text, for people and for the rows in docs/rows/.

    tools/documents.py '[false, 10, {"k":"v"}]'     prints the document in hexadecimal
    tools/documents.py --text 80000001200000025001  prints the JSON text of a canonical document
    tools/documents.py -                            converts each line of standard input, such as for jsonb_lines
    tools/documents.py --text -                     converts back each line that is hexadecimal; others, such as `none`, are unchanged

It is written from docs/FORMAT.md alone and shares nothing with the crates. 64-bit integers and numbers
with a point, such as 12.34, are read; numbers with an exponent are not. Extension values have no JSON text.
"""

import json
import struct
import sys
from decimal import Decimal

HEADERS = {"scalar": 0x20000000, "object": 0x40000000, "array": 0x80000000}
KINDS = {"null": 0, "string": 0x10000000, "number": 0x20000000, "false": 0x30000000, "true": 0x40000000,
         "container": 0x50000000}


def word(value):
    return struct.pack(">I", value)


def integer(value):
    """The payload of an integer, in its fewest bytes."""
    if value == 0:
        return b"\x00"
    tag, signed = (b"\x50", False) if value > 0 else (b"\x40", True)
    for width in (1, 2, 4, 8):
        try:
            return tag + value.to_bytes(width, "big", signed=signed)
        except OverflowError:
            pass
    raise ValueError(f"{value} has more than 64 bits")


def decimal(value):
    """The payload of a number with a point."""
    sign, digits, exponent = value.as_tuple()
    if exponent > 0:
        raise ValueError(f"{value} is written with an exponent")
    whole = int("".join(map(str, digits))) * (-1 if sign else 1)
    if whole == 0:
        return b"\x00"
    width = 8 if -2**63 <= whole < 2**63 else 16
    return b"\x70" + whole.to_bytes(width, "big", signed=True) + bytes([-exponent])


def entry(value):
    """The entry word of a value and its content."""
    if value is None:
        return word(KINDS["null"]), b""
    if value is True or value is False:
        return word(KINDS["true" if value else "false"]), b""
    if isinstance(value, str):
        kind, content = "string", value.encode()
    elif isinstance(value, int):
        kind, content = "number", integer(value)
    elif isinstance(value, Decimal):
        kind, content = "number", decimal(value)
    else:
        kind, content = "container", container(value)
    return word(KINDS[kind] + len(content)), content


def container(value):
    """An array or an object with its header."""
    if isinstance(value, list):
        header, entries = HEADERS["array"], [entry(element) for element in value]
    else:
        pairs = sorted(value.items(), key=lambda pair: pair[0].encode())
        header, entries = HEADERS["object"], [entry(key) for key, _ in pairs] + [entry(v) for _, v in pairs]
    words, contents = b"".join(w for w, _ in entries), b"".join(c for _, c in entries)
    return word(header + len(value)) + words + contents


def encode(value):
    """The canonical document of a value."""
    if isinstance(value, (list, dict)):
        return container(value)
    return word(HEADERS["scalar"]) + b"".join(entry(value))


def no_number(word):
    raise ValueError(f"{word} is not JSON")


def read(text):
    """The value of a JSON text."""
    return json.loads(text, parse_float=Decimal, parse_constant=no_number)


def hexadecimal(text):
    """The document of a JSON text, in hexadecimal."""
    return encode(read(text)).hex()


def number_of(payload):
    tag, rest = payload[0], payload[1:]
    if tag == 0x00 and not rest:
        return 0
    if tag in (0x40, 0x50) and len(rest) in (1, 2, 4, 8):
        return int.from_bytes(rest, "big", signed=tag == 0x40)
    if tag == 0x70 and len(rest) in (9, 17):
        return Decimal(int.from_bytes(rest[:-1], "big", signed=True)).scaleb(-rest[-1])
    raise ValueError(f"no number: {payload.hex()}")


def value_of(kind, content):
    kind &= 0x70000000
    plain = {KINDS["null"]: None, KINDS["false"]: False, KINDS["true"]: True}
    if kind in plain and not content:
        return plain[kind]
    if kind == KINDS["string"]:
        return content.decode()
    if kind == KINDS["number"]:
        return number_of(content)
    if kind == KINDS["container"]:
        return decode(content)
    raise ValueError("an extension value, which has no JSON text")


def decode(bytes_):
    """The value of a document."""
    header = struct.unpack(">I", bytes_[:4])[0]
    kind, count = header & 0xE0000000, header & 0x1FFFFFFF
    entries = {HEADERS["scalar"]: 1, HEADERS["array"]: count, HEADERS["object"]: 2 * count}[kind]
    words = struct.unpack(f">{entries}I", bytes_[4:4 + 4 * entries])
    position, values = 4 + 4 * entries, []
    for entry_word in words:
        length = entry_word & 0x0FFFFFFF
        values.append(value_of(entry_word, bytes_[position:position + length]))
        position += length
    if position != len(bytes_):
        raise ValueError("bytes too few or too many")
    if kind == HEADERS["scalar"]:
        return values[0]
    return values if kind == HEADERS["array"] else dict(zip(values[:count], values[count:]))


def written(value):
    """The JSON text of a value, whose numbers have no exponents."""
    if isinstance(value, Decimal):
        return format(value, "f") if value else "0"
    if isinstance(value, list):
        return "[%s]" % ",".join(map(written, value))
    if isinstance(value, dict):
        return "{%s}" % ",".join(f"{written(key)}:{written(value[key])}" for key in sorted(value, key=str.encode))
    return json.dumps(value, ensure_ascii=False)


def json_text(digits):
    """The JSON text of a document in hexadecimal."""
    document = bytes.fromhex(digits)
    try:
        return written(decode(document))
    except (struct.error, LookupError) as fault:
        raise ValueError(f"not a document: {digits}") from fault


def json_text_of_line(line):
    try:
        bytes.fromhex(line)
    except ValueError:
        return line
    return json_text(line)


def main(arguments):
    is_back, words = arguments[:1] == ["--text"], arguments[arguments[:1] == ["--text"]:]
    if len(words) != 1 or words[0].startswith("--"):
        print(__doc__, end="")
        return 2
    if words == ["-"]:
        for line in sys.stdin:
            print((json_text_of_line if is_back else hexadecimal)(line.rstrip("\n")))
    else:
        print((json_text if is_back else hexadecimal)(words[0]))
    return 0


if __name__ == "__main__":
    try:
        sys.exit(main(sys.argv[1:]))
    except ValueError as refused:
        sys.exit(f"documents.py: {refused}")
    except RecursionError:
        sys.exit("documents.py: the value is nested too deeply for this script")
