"""The C library, called through ctypes."""

import ctypes
import re
from ctypes import POINTER, byref, c_bool, c_char_p, c_int32, c_int64, c_size_t, c_uint8, c_uint64, c_void_p

OUT = 1 << 20


class Handle(ctypes.Structure):
    """A struct in which a prepared path, its items or a builder is kept."""

    _fields_ = [("at", c_void_p), ("is_there", c_bool)]


class Span(ctypes.Structure):
    """The position of an item in a document."""

    _fields_ = [("at", c_size_t), ("len", c_size_t), ("kind", c_uint8), ("entry", c_uint8)]


class TextEvent(ctypes.Structure):
    """An event of an array."""

    _fields_ = [("low", c_uint64), ("high", c_int64), ("kind", c_uint8), ("scale", c_uint8)]


# The kinds of such events, in the order of their numbers, by the names that tools/fuzz.py gives them.
KINDS = ["null", "False", "True", "i64", "u64", "decimal64", "decimal128", "str", "key", "begin_array", "begin_object", "end"]


class Library:
    """The functions of a shared library, by their names without the prefix; a call returns a status and a value."""

    def __init__(self, file, header):
        text = header.read_text()
        self.prefix = re.search(r"(\w+)_check\(", text)[1]
        self.names = {int(code): name for name, code in re.findall(rf"{self.prefix.upper()}_(\w+) = (\d+)[,\s]", text.split("_kind {")[0])}
        self.functions = ctypes.CDLL(str(file))
        self.out = ctypes.create_string_buffer(OUT)

    def function(self, name):
        return getattr(self.functions, f"{self.prefix}_{name}")

    def status(self, name, arguments):
        code = self.function(name)(*arguments)
        return self.names[code & 0xFFFFFFFF]

    def bytes_of(self, name, *arguments):
        """Calls a function that returns bytes."""
        length = c_size_t()
        status = self.status(name, [*flat(arguments), self.out, c_size_t(OUT), byref(length)])
        return status, self.out.raw[: length.value] if status == "OK" else None

    def value_of(self, kind, name, *arguments):
        """Calls a function that returns one value of a ctypes type."""
        value = kind()
        status = self.status(name, [*flat(arguments), byref(value)])
        return status, value.value if status == "OK" else None

    def truth_of(self, name, *arguments):
        return self.value_of(c_uint8, name, *arguments)

    def check(self, document):
        return self.status("check", flat([document]))

    def items(self, document, text, strict):
        """Returns the status, and the items of a path."""
        path, items, found = byref(Handle()), byref(Handle()), []
        status = self.status("path_read", [*flat([text]), path])
        if status == "OK":
            status = self.status("path_items", [path, *flat([document]), strict, items])
        while status == "OK":
            status, item = self.next_item(items, document)
            found.append(item)
        self.function("path_free")(path)
        self.function("items_free")(items)
        return ("OK", found[:-1]) if status == "NONE" else (status, None)

    def within(self, document, text, limit):
        """Returns the bound of a path, and whether it selects an item within a limit, each after a status."""
        path = byref(Handle())
        status = self.status("path_read", [*flat([text]), path])
        bound = self.value_of(c_uint64, "path_most_items", path, document) if status == "OK" else (status, None)
        if status == "OK":
            status = self.status("path_limit", [path, c_uint64(limit)])
        exists = self.value_of(c_uint8, "path_exists", path, document, c_bool(False)) if status == "OK" else (status, None)
        self.function("path_free")(path)
        return bound, exists

    def next_item(self, items, document):
        """Returns the status, and the next of the items: that at its span, which has to be in the document, or a copy if it is computed."""
        span = Span()
        status = self.status("items_find_next", [items, *flat([document]), byref(span)])
        if status != "OK":
            return self.bytes_of("items_next", items, document) if status == "COMPUTED" else (status, None)
        return self.bytes_of("span_document", document, byref(span))

    def is_within(self, name, document, *arguments):
        """Returns whether a call that finds an item fails, or stores a span in these bytes, of which there is a document."""
        span = Span()
        if self.status(name, [*flat([document, *arguments]), byref(span)]) != "OK":
            return True
        return span.at + span.len <= len(document) and self.bytes_of("span_document", document, byref(span))[0] == "OK"

    def built(self, events):
        """Returns the status, and the document of events; each is the name of a call and its arguments."""
        builder, status = byref(Handle()), "OK"
        for name, *arguments in events:
            status = status if status != "OK" else self.status(f"builder_{name}", [builder, *flat(arguments)])
        found = self.bytes_of("builder_finish", builder) if status == "OK" else (status, None)
        self.function("builder_free")(builder)
        return found

    def listed(self, events, keep_last):
        """Returns the status, and the document of such events in an array; a value that is a document has no event there."""
        text, rows = b"", []
        for name, *arguments in events:
            low = high = scale = 0
            if name in ("key", "str"):
                text += arguments[0]
                low = len(arguments[0])
            elif name == "decimal":
                high, low, scale = (it.value for it in arguments)
                name += "64" if high == -(low >> 63) else "128"
                high = high if name == "decimal128" else low - (low >> 63 << 64)
            elif name == "bool":
                name = str(arguments[0].value)
            elif arguments:
                low = high = arguments[0].value
            rows.append(TextEvent(low % 2**64, (high + 2**63) % 2**64 - 2**63, KINDS.index(name), scale))
        return self.bytes_of("from_events", text, (TextEvent * len(rows))(*rows), c_size_t(len(rows)), c_bool(keep_last))

    def leaves(self, document):
        """Returns the status, and the key path and the document of each leaf."""
        paths, documents = ctypes.create_string_buffer(OUT), ctypes.create_string_buffer(OUT)
        ends = [(c_uint64 * 4096)() for _ in range(2)]
        sizes = (c_size_t * 3)()
        words = [paths, c_size_t(OUT), ends[0], c_size_t(4096), documents, c_size_t(OUT), ends[1], c_size_t(4096), sizes]
        status = self.status("leaves", [*flat([document]), *words])
        cut = lambda buffer, end: [buffer.raw[end[n] : end[n + 1]] for n in range(sizes[0])]
        return status, [*zip(cut(paths, ends[0]), cut(documents, ends[1]))] if status == "OK" else None


def column_of(rows):
    """Returns rows of bytes as a column: the bytes and the positions."""
    ends = [sum(map(len, rows[:n])) for n in range(len(rows) + 1)]
    return [b"".join(rows), (c_uint64 * len(ends))(*ends), c_size_t(len(ends))]


def names_of(names):
    return column_of([it.encode() for it in names])


def flat(arguments):
    """Turns bytes into a pointer and a length, and leaves everything else as it is."""
    return [part for it in arguments for part in ([c_char_p(it), c_size_t(len(it))] if isinstance(it, bytes) else [it])]


__all__ = ["Library", "column_of", "names_of", "c_bool", "c_int32", "c_int64", "c_size_t", "c_uint64", "c_uint8", "POINTER"]
