"""The two grammars of paths, as ordered choices over a position: written from docs/PATHS.md alone.

A rule is called with a position and returns a value and the next position, or None if it fails.
"""

ESCAPES = dict(zip(b'"\\/bfnrt', '"\\/\b\f\n\r\t'))
STOPS = frozenset(b" ,.:{}[]()?@$|<>!=+-*/%\"'")
OPERATORS = [b"==", b"!=", b"<>", b"<=", b"<", b">=", b">", b"starts with", b"+", b"-", b"*", b"/", b"%"]
INT32 = -(2**31), 2**31 - 1
INT64 = -(2**63), 2**63 - 1


class Grammar:
    def __init__(self, text):
        self.text = text

    # ---- tokens

    def ws(self, at):
        while at < len(self.text) and self.text[at] in b" \t\r\n":
            at += 1
        return at

    def literal(self, at, word):
        return at + len(word) if self.text.startswith(word, at) else None

    def word(self, at, word):
        return at + len(word) if self.text[at : at + len(word)].lower() == word else None

    def digits(self, at):
        end = at
        while end < len(self.text) and self.text[end] in b"0123456789":
            end += 1
        return end if end > at else None

    def signed(self, at, limits):
        begin = at + (self.text[at : at + 1] in (b"+", b"-"))
        end = self.digits(begin)
        if end is None or not limits[0] <= int(self.text[at:end]) <= limits[1]:
            return None
        return int(self.text[at:end]), end

    def natural(self, at, limit):
        end = self.digits(at)
        return (int(self.text[at:end]), end) if end is not None and int(self.text[at:end]) <= limit else None

    def code_unit(self, at):
        """Reads `uXXXX` or `u{XXXX}`."""
        if self.text[at : at + 1] != b"u":
            return None
        begin = at + 1 + (self.text[at + 1 : at + 2] == b"{")
        hexadecimal = self.text[begin : begin + 4]
        if len(hexadecimal) < 4 or any(c not in b"0123456789abcdefABCDEF" for c in hexadecimal):
            return None
        end = begin + 4
        if begin == at + 1:
            return int(hexadecimal, 16), end
        return (int(hexadecimal, 16), end + 1) if self.text[end : end + 1] == b"}" else None

    def escape(self, at):
        """Reads what follows a backslash, and the second half of a surrogate pair."""
        if at < len(self.text) and self.text[at] in ESCAPES:
            return ESCAPES[self.text[at]].encode(), at + 1
        unit = self.code_unit(at)
        if unit is None:
            return None
        code, end = unit
        if 0xD800 <= code < 0xDC00 and self.text[end : end + 1] == b"\\":
            low = self.code_unit(end + 1)
            if low and 0xDC00 <= low[0] < 0xE000:
                return chr(0x10000 + (code - 0xD800 << 10) + low[0] - 0xDC00).encode(), low[1]
        return None if 0xD800 <= code < 0xE000 else (chr(code).encode(), end)

    def run(self, at, stops):
        """Reads units up to a stop byte or a malformed escape; returns the string and where it ends, or None."""
        made, begin = b"", at
        while at < len(self.text) and self.text[at] not in stops:
            if self.text[at] == ord("\\"):
                escaped = self.escape(at + 1)
                if escaped is None:
                    break
                made, at = made + escaped[0], escaped[1]
            else:
                made, at = made + self.text[at : at + 1], at + 1
        try:
            return (made.decode(), at) if at > begin else None
        except UnicodeDecodeError:
            return None

    def name(self, at):
        found = self.run(at, STOPS)
        return None if found is None or self.literal(found[1], b"\\") else found

    def quoted(self, at):
        inner = self.run(at + 1, b'"') if self.text[at : at + 1] == b'"' else None
        return (inner[0], inner[1] + 1) if inner and self.text[inner[1] : inner[1] + 1] == b'"' else None

    # ---- combinations

    def first(self, at, *rules):
        for rule in rules:
            found = rule(at)
            if found is not None:
                return found
        return None

    def listed(self, at, item, separator):
        found = item(at)
        if found is None:
            return None
        items, at = [found[0]], found[1]
        while (after := separator(at)) is not None and (found := item(after)) is not None:
            items.append(found[0])
            at = found[1]
        return items, at

    def many(self, at, item):
        items = []
        while (found := item(at)) is not None:
            items.append(found[0])
            at = found[1]
        return items, at

    def spaced(self, at, rule):
        found = rule(self.ws(at))
        return (found[0], self.ws(found[1])) if found else None

    # ---- errors

    def error_position(self):
        """Returns the position of the error, or None if the text is a path."""
        return self.front() if self.read() is None else None


class KeyPath(Grammar):
    """Key paths: a list of ("index", i) and ("name", text)."""

    def key(self, at):
        found = self.signed(at, INT32)
        if found:
            return ("index", found[0]), found[1]
        found = self.first(at, self.quoted, self.name)
        return (("name", found[0]), found[1]) if found else None

    def read(self):
        at = self.literal(self.ws(0), b"{")
        if at is None:
            return None
        found = self.listed(at, lambda at: self.spaced(at, self.key), lambda at: self.literal(at, b","))
        keys, at = found or ([], self.ws(at))
        at = self.literal(at, b"}")
        return keys if at is not None and self.ws(at) == len(self.text) else None


    def front(self):
        """Reads as much as a key path begins with; returns where that ends."""
        at = self.ws(0)
        opened = self.literal(at, b"{")
        if opened is None:
            return at
        found = self.listed(opened, lambda at: self.spaced(at, self.key), lambda at: self.literal(at, b","))
        at = found[1] if found else self.ws(opened)
        closed, comma = self.literal(at, b"}"), self.literal(at, b",") if found else None
        if closed is not None:
            return self.ws(closed)
        return self.key_front(at) if not found else at if comma is None else self.key_front(self.ws(comma))

    def key_front(self, at):
        begin, stops = (at + 1, b'"') if self.text[at : at + 1] == b'"' else (at, STOPS)
        found = self.run(begin, stops)
        return found[1] if found else begin


class JsonPath(Grammar):
    """JSON paths: a list of steps, each a tuple that begins with its type."""

    def read(self):
        found = self.root_expression(self.ws(0)) or self.paths(self.ws(0))
        return found[0] if found and self.ws(found[1]) == len(self.text) else None

    def root_expression(self, at):
        found = self.either(self.ws(at), False)
        return ([("expression", found[0])], self.ws(found[1])) if found else None

    def paths(self, at):
        root = self.literal(at, b"$")
        named = None if root is not None else self.spaced(at, self.name)
        before, at = ([("root",)], root) if root is not None else ([("field", named[0])], named[1]) if named else ([], at)
        steps, at = self.many(at, self.path)
        return before + steps, at

    def path(self, at):
        return self.spaced(at, self.inner) or self.spaced(at, self.filter)

    def filter(self, at):
        at = self.literal(at, b"?")
        at = None if at is None else self.literal(self.ws(at), b"(")
        found = self.either(self.ws(at), True) if at is not None else None
        end = self.literal(self.ws(found[1]), b")") if found else None
        return (("filter", found[0]), end) if end is not None else None

    def inner(self, at):
        return self.first(at, self.recursive, self.wildcard, self.elements, self.field, self.subscripts, self.bracketed)

    def recursive(self, at):
        at = self.literal(at, b".**")
        if at is None:
            return None
        level = self.level(at)
        return (("recursive", level[0]), level[1]) if level else (("recursive", None), at)

    def level(self, at):
        at = self.literal(at, b"{")
        start = self.natural(self.ws(at), 255) if at is not None else None
        if start is None:
            return None
        begin, after = start[0], self.ws(start[1])
        to = self.word(after, b"to")
        if to is not None:
            to = self.ws(to)
            end = self.natural(to, 255) or (("last", self.word(to, b"last")) if self.word(to, b"last") else None)
            close = self.literal(self.ws(end[1]), b"}") if end else None
            if close is not None:
                return (begin, end[0]), close
        close = self.literal(after, b"}")
        return ((begin, None), close) if close is not None else None

    def wildcard(self, at):
        at = self.literal(at, b".*")
        return (("values",), at) if at is not None else None

    def elements(self, at):
        at = self.literal(at, b"[")
        at = self.literal(self.ws(at), b"*") if at is not None else None
        at = self.literal(self.ws(at), b"]") if at is not None else None
        return (("elements",), at) if at is not None else None

    def field(self, at):
        if self.text[at : at + 1] not in (b".", b":"):
            return None
        found = self.first(at + 1, self.quoted, self.name)
        return (("field", found[0]), found[1]) if found else None

    def subscripts(self, at):
        at = self.literal(at, b"[")
        entry = lambda at: self.spaced(at, self.entry)
        found = self.listed(at, entry, lambda at: self.literal(at, b",")) if at is not None else None
        end = self.literal(found[1], b"]") if found else None
        return (("subscripts", found[0]), end) if end is not None else None

    def bracketed(self, at):
        at = self.literal(at, b"[")
        found = self.spaced(at, self.quoted) if at is not None else None
        end = self.literal(found[1], b"]") if found else None
        return (("field", found[0]), end) if end is not None else None

    def entry(self, at):
        low = self.index(at)
        to = self.word(self.ws(low[1]), b"to") if low else None
        high = self.index(self.ws(to)) if to is not None else None
        return ((low[0], high[0]), high[1]) if high else low and ((low[0], low[0]), low[1])

    def index(self, at):
        found = self.signed(at, INT32)
        if found:
            return ("index", found[0]), found[1]
        last = self.word(at, b"last")
        if last is None:
            return None
        for sign, factor in ((b"-", -1), (b"+", 1)):
            after = self.literal(self.ws(last), sign)
            found = self.signed(self.ws(after), INT32) if after is not None else None
            if found:
                return ("last", min(factor * found[0], INT32[1])), found[1]
        return ("last", 0), last

    # ---- expressions; `@` is an operand only within a filter

    def either(self, at, inside):
        return self.joined(at, lambda at: self.both(at, inside), b"||", "or")

    def both(self, at, inside):
        return self.joined(at, lambda at: self.atom(at, inside), b"&&", "and")

    def joined(self, at, item, operator, name):
        found = self.listed(at, item, lambda at: (lambda end: None if end is None else self.ws(end))(self.literal(self.ws(at), operator)))
        if found is None:
            return None
        made = found[0][0]
        for right in found[0][1:]:
            made = (name, made, right)
        return made, found[1]

    def atom(self, at, inside):
        rules = self.unary, self.binary, self.parenthesized, self.exists
        return self.first(at, *(lambda at, rule=rule: rule(at, inside) for rule in rules))

    def unary(self, at, inside):
        sign = self.text[at : at + 1]
        found = self.spaced(at + 1, lambda at: self.operand(at, inside)) if sign in (b"+", b"-") else None
        return (("unary", sign.decode(), found[0]), found[1]) if found else None

    def binary(self, at, inside):
        left = self.spaced(at, lambda at: self.operand(at, inside))
        operator = next((it for it in OPERATORS if self.literal(left[1], it)), None) if left else None
        right = self.spaced(left[1] + len(operator), lambda at: self.operand(at, inside)) if operator else None
        operator = "!=" if operator == b"<>" else operator and operator.decode()
        return (("binary", operator, left[0], right[0]), right[1]) if right else None

    def parenthesized(self, at, inside):
        at = self.literal(at, b"(")
        found = self.either(self.ws(at), inside) if at is not None else None
        end = self.literal(self.ws(found[1]), b")") if found else None
        return (found[0], end) if end is not None else None

    def exists(self, at, inside):
        at = self.literal(at, b"exists")
        at = self.literal(self.ws(at), b"(") if at is not None else None
        at = self.ws(at) if at is not None else None
        if at is None or self.text[at : at + 1] not in (b"$", b"@"):
            return None
        steps, end = self.many(at + 1, self.path)
        end = self.literal(self.ws(end), b")")
        start = "root" if self.text[at : at + 1] == b"$" else "current"
        return (("exists", [(start,), *steps]), end) if end is not None else None

    def operand(self, at, inside):
        sign = self.text[at : at + 1]
        if sign == b"$" or sign == b"@" and inside:
            steps, end = self.many(at + 1, lambda at: self.spaced(at, self.inner))
            return ("path", [("root" if sign == b"$" else "current",), *steps]), end
        for word, value in ((b"null", None), (b"true", True), (b"false", False)):
            if (end := self.literal(at, word)) is not None:
                return ("literal", value), end
        found = self.natural(at, 2**64 - 1)
        if found:
            return ("literal", ("u64", found[0])), found[1]
        found = self.signed(at, INT64)
        if found:
            return ("literal", ("i64", found[0])), found[1]
        found = self.quoted(at)
        return (("literal", found[0]), found[1]) if found else None

    # ---- errors

    def front(self):
        """Reads as much as a path begins with, as an expression or as steps; returns where that ends."""
        at = self.ws(0)
        return max(self.conditions_front(at, False), self.steps_front(at))

    def steps_front(self, at):
        at = self.ws(self.paths(at)[1])
        opened = self.literal(at, b"?")
        opened = None if opened is None else self.literal(self.ws(opened), b"(")
        return at if opened is None else self.conditions_front(self.ws(opened), True)

    def conditions_front(self, at, inside):
        found = self.either(at, inside)
        if found is None:
            return self.condition_front(at, inside)
        at = self.ws(found[1])
        after = self.first(at, lambda at: self.literal(at, b"&&"), lambda at: self.literal(at, b"||"))
        return at if after is None else self.condition_front(self.ws(after), inside)

    def condition_front(self, at, inside):
        """Reads the beginning of a condition that is not one."""
        if self.text[at : at + 1] in (b"+", b"-"):
            return self.ws(at + 1)
        left = self.spaced(at, lambda at: self.operand(at, inside))
        if left:
            operator = next((it for it in OPERATORS if self.literal(left[1], it)), None)
            return self.ws(left[1] + len(operator)) if operator else left[1]
        opened = self.literal(at, b"(")
        if opened is None:
            return self.exists_front(at)
        found = self.either(self.ws(opened), inside)
        return self.ws(found[1] if found else opened)

    def exists_front(self, at):
        word = self.literal(at, b"exists")
        opened = None if word is None else self.literal(self.ws(word), b"(")
        if opened is None:
            return at if word is None else self.ws(word)
        at = self.ws(opened)
        return self.operand(at, True)[1] if self.text[at : at + 1] in (b"$", b"@") else at
