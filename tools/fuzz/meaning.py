"""What paths and calls mean on trees: written from docs/PATHS.md, docs/CALLS.md and docs/FORMAT.md alone."""

from trees import Extension, Number, number

LAST = float("inf")
UNKNOWN = None


class Fails(Exception):
    """A call fails with this error."""


class Raw:
    """A container as the value of an operand: what is compared with it is unknown."""


def fails(error):
    raise Fails(error)


# ---- the order of trees, equality by value, and keys


def rank(tree):
    if isinstance(tree, bool):
        return 3 if tree else 2
    ranks = {Extension: 1, Number: 4, str: 5, dict: 6, list: 7, type(None): 8}
    return ranks[type(tree)]


def number_key(it):
    if not it.coefficient:
        return b"\x80"
    digits = str(abs(it.coefficient))
    exponent = len(digits) - it.scale
    body = (exponent + 1000).to_bytes(2, "big") + bytes(int(c) + 1 for c in digits.rstrip("0")) + b"\0"
    return b"\x81" + body if it.coefficient > 0 else b"\x7f" + bytes(255 - c for c in body)


def text_key(text):
    return text.encode().replace(b"\1", b"\1\2").replace(b"\0", b"\1\1") + b"\0"


def sort_key(tree, width, depth=0):
    """Returns the sortable key of a tree at a depth that takes `width` bytes."""
    if depth >= 256**width:
        fails("TOO_DEEP")
    made = depth.to_bytes(width, "big") + bytes([rank(tree)])
    if isinstance(tree, Extension):
        return made + tree.payload + b"\0"
    if isinstance(tree, Number):
        return made + number_key(tree)
    if isinstance(tree, str):
        return made + text_key(tree)
    if isinstance(tree, dict):
        return made + b"".join(sort_key(it, width, depth + 1) for pair in tree.items() for it in pair)
    return made + b"".join(sort_key(it, width, depth + 1) for it in tree) if isinstance(tree, list) else made


def composite_key(values, width):
    """Returns the composite key of values: each a list of a tree, or an empty list if it is missing."""
    return b"".join(sort_key(value[0], width) if value else bytes(width + 1) for value in values)


def equality_key(tree):
    made = bytes([rank(tree)])
    if isinstance(tree, Extension):
        return made + len(tree.payload).to_bytes(8, "big") + tree.payload
    if isinstance(tree, Number):
        return made + number_key(tree)
    if isinstance(tree, str):
        return made + text_key(tree)
    if not isinstance(tree, (list, dict)):
        return made
    made += len(tree).to_bytes(4, "big")
    if isinstance(tree, dict):
        return made + b"".join(b"\5" + text_key(key) + equality_key(it) for key, it in tree.items())
    return made + b"".join(map(equality_key, tree))


def equal(a, b):
    return equality_key(a) == equality_key(b)


def ordered(tree):
    """Returns a tuple that compares with others as the trees do."""
    if isinstance(tree, list):
        return rank(tree), [ordered(it) for it in tree]
    if isinstance(tree, dict):
        return rank(tree), [ordered(it) for pair in tree.items() for it in pair]
    if isinstance(tree, str):
        return rank(tree), tree.encode()
    if isinstance(tree, Number):
        return rank(tree), tree.value
    return rank(tree), tree.payload if isinstance(tree, Extension) else b""


def order(a, b):
    """Returns -1, 0 or 1, if a tree is below, equal to or above another."""
    left, right = ordered(a), ordered(b)
    return (left > right) - (left < right)


def written(it):
    """Returns the text of a number."""
    digits = str(abs(it.coefficient)).rjust(it.scale + 1, "0")
    sign = "-" if it.coefficient < 0 else ""
    return sign + (digits if not it.scale else f"{digits[:-it.scale]}.{digits[-it.scale:]}")


# ---- comparisons: true, false or unknown


def pair_truth(operator, a, b):
    if a is Raw or b is Raw:
        return UNKNOWN
    if operator == "starts with":
        return a.encode().startswith(b.encode()) if isinstance(a, str) and isinstance(b, str) else UNKNOWN
    if type(a) is not type(b):
        return True if operator == "!=" else UNKNOWN
    if isinstance(a, Number):
        a, b = a.value, b.value
    elif isinstance(a, str):
        a, b = a.encode(), b.encode()
    elif a is None:
        a = b = 0
    orders = {"==": a == b, "!=": a != b, "<": a < b, "<=": a <= b, ">": a > b, ">=": a >= b}
    return orders[operator]


def compare(operator, lefts, rights):
    truths = (pair_truth(operator, a, b) for a in lefts for b in rights)
    return next((it for it in truths if it is not False), False)


def values_of(tree):
    """Returns the values of an item: an array is opened once."""
    opened = tree if isinstance(tree, list) else [tree]
    return [Raw if isinstance(it, (list, dict)) else it for it in opened if not isinstance(it, Extension)]


# ---- arithmetic

ARITHMETIC = "+-*/%"


def from_integer(value):
    if not -(2**63) <= value < 2**64:
        fails("OVERFLOW")
    return number("u64" if value >= 0 else "i64", value)


def is_decimal(it):
    return it.variant in ("d64", "d128")


def calculated(operator, a, b):
    if is_decimal(a) or is_decimal(b):
        fails("DECIMAL_OPERAND")
    x, y = a.coefficient, b.coefficient
    if operator in "/%":
        if y == 0:
            fails("ZERO_DIVISOR")
        quotient = abs(x) // abs(y) * (1 if (x < 0) == (y < 0) else -1)
        if operator == "%":
            return from_integer(x - quotient * y)
        if x != quotient * y:
            fails("INEXACT")
        return from_integer(quotient)
    return from_integer({"+": x + y, "-": x - y, "*": x * y}[operator])


def signed(sign, it):
    if sign == "+":
        return it
    if is_decimal(it):
        fails("DECIMAL_OPERAND")
    return from_integer(-it.coefficient)


# ---- JSON paths


def position(index, length):
    kind, value = index
    return value if kind == "index" else length + value - 1


def preorder(level, depth, tree):
    matches, continues = True, True
    if level is not None:
        start, end = level
        end_level = start if end is None else LAST if end == "last" else end
        matches = start <= depth <= end_level
        continues = depth < end_level and (depth >= start or start <= end_level)
    below = (tree if isinstance(tree, list) else [*tree.values()] if isinstance(tree, dict) else []) if continues else []
    return [tree] * matches + [it for child in below for it in preorder(level, depth + 1, child)]


class Path:
    """A JSON path on the document `top`, in lax or strict mode."""

    def __init__(self, top, strict):
        self.top, self.strict = top, strict

    def mismatch(self):
        return fails("STRICT_PATH") if self.strict else []

    def step(self, step, item):
        kind = step[0]
        if kind in ("root", "current"):
            return [item]
        if kind == "field":
            return [item[step[1]]] if isinstance(item, dict) and step[1] in item else self.mismatch()
        if kind == "values":
            return [*item.values()] if isinstance(item, dict) else self.mismatch()
        if kind == "elements":
            return item if isinstance(item, list) else self.mismatch() or [item]
        if kind == "subscripts":
            return self.subscripts(step[1], item) if isinstance(item, list) else self.mismatch()
        if kind == "recursive":
            return preorder(step[1], 0, item)
        return [item] if self.truth(step[1], item) is True else []

    def subscripts(self, entries, item):
        found = []
        for low, high in entries:
            begin, end = position(low, len(item)), position(high, len(item))
            found += [it for at, it in enumerate(item) if begin <= at <= end]
        return found

    def steps(self, steps, items):
        for step in steps:
            items = [it for item in items for it in self.step(step, item)]
        return items

    def started(self, steps, item):
        return self.steps(steps, [item if steps[0] == ("current",) else self.top])

    def operand(self, operand, item):
        if operand[0] == "path":
            return [value for it in self.started(operand[1], item) for value in values_of(it)]
        literal = operand[1]
        return [number(*literal) if isinstance(literal, tuple) else literal]

    def truth(self, expression, item):
        kind = expression[0]
        if kind in ("and", "or"):
            left, right = self.truth(expression[1], item), self.truth(expression[2], item)
            if left is UNKNOWN or right is UNKNOWN:
                return UNKNOWN
            return left and right if kind == "and" else left or right
        if kind == "exists":
            return bool(self.started(expression[1], item))
        if kind == "unary":
            return fails("PATH_FAILED")
        _, operator, left, right = expression
        if operator in ARITHMETIC:
            return UNKNOWN
        lefts = self.operand(left, item)
        return compare(operator, lefts, self.operand(right, item))

    def expression(self, expression):
        """Returns the list of an expression that is the whole path."""
        if expression[0] == "unary":
            values = self.operand(expression[2], self.top)
            if not all(isinstance(it, Number) for it in values):
                fails("PATH_FAILED")
            return [signed(expression[1], it) for it in values]
        if expression[0] == "binary" and expression[1] in ARITHMETIC:
            sides = [self.operand(it, self.top) for it in expression[2:]]
            if any(len(it) != 1 or not isinstance(it[0], Number) for it in sides):
                fails("PATH_FAILED")
            return [calculated(expression[1], sides[0][0], sides[1][0])]
        return [self.truth(expression, self.top)]

    def items(self, steps):
        if steps and steps[0][0] == "expression":
            return self.expression(steps[0][1])
        return self.steps(steps, [self.top])

    def match(self, steps):
        """Returns what a path that is a predicate says, and unknown of every other path."""
        if not steps or steps[0][0] != "expression":
            return UNKNOWN
        found = self.expression(steps[0][1])
        is_truth = steps[0][1][0] in ("and", "or", "exists") or steps[0][1][0] == "binary" and steps[0][1][1] not in ARITHMETIC
        return found[0] if is_truth else UNKNOWN


# ---- key paths


def child(key, tree):
    """Returns the key or position of the child that a step of a key path selects, or None."""
    kind, value = key
    if isinstance(tree, list) and kind == "index":
        at = value if value >= 0 else len(tree) + value
        return at if 0 <= at < len(tree) else None
    if isinstance(tree, dict):
        name = str(value)
        return name if name in tree else None
    return None


def located(keys, tree):
    """Returns the children that the steps go through, or None if they select nothing."""
    places = []
    for key in keys:
        place = child(key, tree)
        if place is None:
            return None
        places.append(place)
        tree = tree[place]
    return places


def at_places(places, tree):
    for place in places:
        tree = tree[place]
    return tree


def without(places, tree):
    if len(places) == 1:
        if isinstance(tree, list):
            return tree[: places[0]] + tree[places[0] + 1 :]
        return {key: it for key, it in tree.items() if key != places[0]}
    changed = without(places[1:], tree[places[0]])
    if isinstance(tree, list):
        return [*tree[: places[0]], changed, *tree[places[0] + 1 :]]
    return {**tree, places[0]: changed}


# ---- calls on documents


def listed(tree):
    return tree if isinstance(tree, list) else [tree]


def is_plain(tree):
    return not isinstance(tree, (list, dict, Extension))


def contains(tree, other):
    if isinstance(tree, dict) and isinstance(other, dict):
        return all(key in tree and contained(tree[key], it) for key, it in other.items())
    if isinstance(tree, list) and isinstance(other, list):
        return all(any(contained(mine, it) for mine in tree) for it in other)
    if isinstance(tree, list) and is_plain(other):
        return any(equal(mine, other) for mine in tree)
    return is_plain(tree) and is_plain(other) and equal(tree, other)


def contained(tree, other):
    """Whether a part contains another: containers by `contains`, everything else by value."""
    if isinstance(tree, (list, dict)) and isinstance(other, (list, dict)):
        return contains(tree, other) if type(tree) is type(other) else False
    return equal(tree, other)


def split(tree, other):
    """Returns the elements that both have, each as often as both have it, and the others."""
    left = [equality_key(it) for it in listed(other)]
    both, rest = [], []
    for it in listed(tree):
        key = equality_key(it)
        if key in left:
            left.remove(key)
            both.append(it)
        else:
            rest.append(it)
    return both, rest


def distinct(tree):
    first = {}
    for it in listed(tree):
        first.setdefault(equality_key(it), it)
    return [*first.values()]


def inserted(tree, place, value):
    elements = listed(tree)
    at = min(max(place if place >= 0 else len(elements) + place, 0), len(elements))
    return [*elements[:at], value, *elements[at:]]


def strip_nulls(tree):
    if isinstance(tree, list):
        return [strip_nulls(it) for it in tree]
    if isinstance(tree, dict):
        return {key: strip_nulls(it) for key, it in tree.items() if it is not None}
    return tree


def has_key(tree, name):
    if isinstance(tree, dict):
        return name in tree
    return name in [it for it in listed(tree) if isinstance(it, str)]


def rounded(it):
    """Returns a number rounded half away from zero."""
    quotient, rest = divmod(abs(it.coefficient), 10**it.scale)
    magnitude = quotient + (2 * rest >= 10**it.scale and it.scale > 0)
    return -magnitude if it.coefficient < 0 else magnitude


def to_integer(tree, low, high):
    if isinstance(tree, bool):
        return int(tree)
    if isinstance(tree, Number):
        value = rounded(tree)
    elif isinstance(tree, str):
        digits = tree[1:] if tree[:1] == "+" or tree[:1] == "-" and low < 0 else tree
        value = int(tree) if digits.isascii() and digits.isdigit() else None
    else:
        value = None
    return value if value is not None and low <= value <= high else fails("INVALID_CAST")


def to_bool(tree):
    words = {"true": True, "yes": True, "false": False, "no": False}
    if isinstance(tree, bool):
        return tree
    folded = tree.lower() if isinstance(tree, str) and tree.isascii() else None
    return words[folded] if folded in words else fails("INVALID_CAST")


def to_str(tree):
    if isinstance(tree, bool):
        return "true" if tree else "false"
    if isinstance(tree, Number):
        return written(tree)
    return tree if isinstance(tree, str) else fails("INVALID_CAST")


def whole(tree, low, high):
    """Returns the integer that a number is, or None."""
    if not isinstance(tree, Number) or tree.value.denominator != 1 or not low <= tree.value <= high:
        return None
    return int(tree.value)


def type_of(tree):
    """Returns the number that the C library has for the type of a document."""
    if isinstance(tree, Number):
        return 3 if is_decimal(tree) else 2
    if isinstance(tree, Extension):
        return {0x00: 5, 0x10: 6, 0x20: 7, 0x30: 8, 0x40: 9}[tree.payload[0]]
    return {type(None): 0, bool: 1, str: 4, list: 10, dict: 11}[type(tree)]


def by_name(tree, name, ignore_case):
    """Returns the value of a key in a list, or an empty list."""
    if not isinstance(tree, dict):
        return []
    if name in tree:
        return [tree[name]]
    folded = lambda text: "".join(chr(ord(c) + 32) if "A" <= c <= "Z" else c for c in text)
    return [it for key, it in tree.items() if folded(key) == folded(name)][:1] if ignore_case else []
