"""Documents nested so deep that no call a level could make them, from their innermost item outwards."""

from documents import HEADERS, KINDS, word

SHAPES = ["only", "last", "first", "middle", "pair", "alternating"]
TURNS = ["first", "pair", "last", "only"]
NUMBER = word(KINDS["number"] + 2)
SEVEN = b"\x50\x07"


def level(shape, child):
    """What precedes and follows a child of that many bytes."""
    entry = word(KINDS["container"] + child)
    if shape == "pair":
        return word(HEADERS["object"] + 1) + word(KINDS["string"] + 1) + entry + b"k", b""
    before, behind = shape in ("last", "middle"), shape in ("first", "middle")
    words = NUMBER * before + entry + NUMBER * behind
    return word(HEADERS["array"] + 1 + before + behind) + words + SEVEN * before, SEVEN * behind


def nested(shape, levels, text=1):
    """An array of one string of `text` bytes, nested in `levels` levels. 'alternating' takes turns, counted from the root."""
    core = word(HEADERS["array"] + 1) + word(KINDS["string"] + text) + b"a" * text
    length, fronts, backs = len(core), [], []
    for i in reversed(range(levels)):
        before, behind = level(TURNS[i % 4] if shape == "alternating" else shape, length)
        fronts.append(before)
        backs.append(behind)
        length += len(before) + len(behind)
    return b"".join([*reversed(fronts), core, *backs])
