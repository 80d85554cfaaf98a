"""Random trees, documents and paths: small, with few names, so that paths often select something."""

from trees import Extension, Number, encode, number, object_of

NAMES = ["a", "b", "k", "A", "a b", "é", "", "0", "1", "\x00", "\x01z", "name", "日本語"]
TEXTS = [*NAMES, "true", "No", "+5", "-0", "2.5", "abc", "abd", "\U0001f600", "x" * 20, "\x7f\x00\x01" * 6]
INTEGERS = [0, 1, 2, 3, 5, 10, 25, 127, 128, 255, 256, 1000, 2**31, 2**32, 2**63 - 1, 2**63, 2**64 - 1]
STEPS = [".a", ".b", ".k", '."a b"', ":a", '["k"]', ".*", "[*]", ".**", ".**{1}", ".**{0 to 1}", ".**{1 to last}", "[0]", "[last]",
         "[-1]", "[0, last]", "[1 to 2]", "[last - 1 to last]", "[0, 0]", "[ 2 to 0 ]", ".name", '."\\u00e9"', ".$", "?"]
LITERALS = ["null", "true", "false", "0", "1", "-1", "+5", "10", "25", "18446744073709551615", "9223372036854775808", '"a"', '"abc"',
            '"é"', '"\\u0000"', '""', '"a\\"b"', "2.5"]
OPERATORS = ["==", "!=", "<>", "<", "<=", ">", ">=", "starts with"]
NOISE = b" \t$@.*[]{}()?\"'\\,:<>=!+-&|/%0123456789aklstu\xc3\xa9\xff\n"


class Cases:
    def __init__(self, random):
        self.random = random

    # ---- trees

    def number(self):
        pick = self.random.random()
        if pick < 0.6:
            value = self.random.choice(INTEGERS) if self.random.random() < 0.7 else self.random.randrange(2**64)
            if self.random.random() < 0.5 and value <= 2**63:
                return number("i64", self.random.choice([-value, value] if value < 2**63 else [-value]))
            return number("u64", value)
        wide = self.random.random() < 0.4
        limit = 2**127 if wide else 2**63
        coefficient = self.random.choice([1, 5, 10, 15, 100, limit - 1, -limit, self.random.randrange(-limit, limit), 25])
        scale = self.random.choice([0, 1, 2, 3, 18, 38, 255])
        return number("d128" if wide else "d64", coefficient, scale)

    def extension(self):
        tag, length = self.random.choice([(0x00, self.random.randrange(4)), (0x10, 4), (0x20, 8), (0x30, 12), (0x40, 16)])
        return Extension(bytes([tag]) + bytes(self.random.randrange(3) for _ in range(length)))

    def scalar(self):
        pick = self.random.random()
        if pick < 0.15:
            return None
        if pick < 0.3:
            return self.random.random() < 0.5
        if pick < 0.62:
            return self.number()
        return self.random.choice(TEXTS) if pick < 0.93 else self.extension()

    def tree(self, depth=3):
        pick = self.random.random()
        if depth == 0 or pick < 0.35:
            return self.scalar()
        count = self.random.choice([0, 1, 1, 2, 2, 3, 4])
        if pick < 0.65:
            return [self.tree(depth - 1) for _ in range(count)]
        return object_of((self.random.choice(NAMES), self.tree(depth - 1)) for _ in range(count))

    def changed(self, tree):
        """Returns the tree with one item replaced, so that both agree up to it."""
        if not isinstance(tree, (list, dict)) or not tree or self.random.random() < 0.2:
            return self.tree(1)
        at = self.random.choice(range(len(tree)) if isinstance(tree, list) else [*tree])
        made = tree.copy()
        made[at] = self.changed(tree[at])
        return made

    def widths(self):
        """Returns the widths to try for one integer: the shortest that fits, or wider ones."""
        return (1, 2, 4, 8)[self.random.choice([0, 0, 1, 2, 3]) :]

    def document(self, tree):
        """Returns a document of the tree, and whether it is canonical."""
        canonical = encode(tree)
        made = canonical if self.random.random() < 0.8 else encode(tree, self.widths)
        return made, made == canonical

    def damaged(self, document):
        data = bytearray(document)
        for _ in range(self.random.choice([1, 1, 2, 4])):
            at = self.random.randrange(len(data) + 1)
            pick = self.random.random()
            if pick < 0.2:
                del data[at:]
            elif pick < 0.4:
                data[at:at] = bytes([self.random.randrange(256)])
            elif at < len(data):
                data[at] = self.random.choice([0, 255, data[at] ^ 1 << self.random.randrange(8), self.random.randrange(256)])
        return bytes(data)

    # ---- paths

    def spaces(self):
        return self.random.choice(["", "", "", " ", "  ", "\t"])

    def steps(self, depth, filters=True):
        made = ""
        for _ in range(self.random.choice([0, 1, 1, 2, 2, 3])):
            step = self.random.choice(STEPS)
            if step == "?":
                step = f"?({self.condition(depth - 1, '@')})" if depth > 0 and filters else ".a"
            made += self.spaces() + step
        return made

    def operand(self, depth, root):
        if self.random.random() < 0.45:
            return self.random.choice(LITERALS)
        return self.random.choice([root, root, "$"]) + self.steps(depth, filters=self.random.random() < 0.03)

    def condition(self, depth, root):
        pick = self.random.random()
        if depth > 0 and pick < 0.3:
            operator = self.random.choice(["&&", "||"])
            sides = [self.condition(depth - 1, root) for _ in range(2)]
            made = f"{sides[0]} {operator} {sides[1]}"
            return f"({made})" if self.random.random() < 0.5 else made
        if depth > 0 and pick < 0.45:
            return f"exists({self.random.choice('$@')}{self.steps(depth)})"
        if pick < 0.52:
            return f"{self.random.choice('+-')}{self.operand(depth, root)}"
        operator = self.random.choice(OPERATORS if pick < 0.92 else ["+", "-", "*", "/", "%"])
        return f"{self.operand(depth, root)}{self.spaces()} {operator} {self.spaces()}{self.operand(depth, root)}"

    def calculation(self):
        """Returns arithmetic on numbers that documents often have."""
        operands = ["$", "$[0]", "$[last]", "$.a", "$.k", "0", "1", "-1", "7", "18446744073709551615"]
        if self.random.random() < 0.3:
            return f"{self.random.choice('+-')}{self.random.choice(['$', '$[*]', '$.*', '$.**', '5'])}"
        return f"{self.random.choice(operands)} {self.random.choice('+-*/%')} {self.random.choice(operands)}"

    def json_path(self):
        pick = self.random.random()
        if pick < 0.6:
            made = self.random.choice(["$", "$", "$", "", "a", " $"]) + self.steps(2)
        elif pick < 0.7:
            made = self.calculation()
        else:
            made = self.condition(2, "$")
        return self.noisy(made.encode()) if self.random.random() < 0.12 else made.encode()

    def noisy(self, text):
        data = bytearray(text)
        for _ in range(self.random.choice([1, 1, 2, 3])):
            at = self.random.randrange(len(data) + 1)
            replaced = self.random.choice([0, 0, 1, 2])
            data[at : at + replaced] = bytes([self.random.choice(NOISE)]) if self.random.random() < 0.8 else b""
        return bytes(data)

    def key_path(self):
        keys = ["0", "-1", "+1", "a", "k", '"a b"', '"\\u00e9"', "99999999999", "é", "2", "-2", "007", '"0"', "1a"]
        listed = [self.spaces() + self.random.choice(keys) + self.spaces() for _ in range(self.random.choice([0, 1, 1, 2, 3]))]
        made = ("{" + ",".join(listed) + "}").encode()
        return self.noisy(made) if self.random.random() < 0.15 else made

    def names(self):
        return [self.random.choice(NAMES) for _ in range(self.random.choice([0, 1, 2, 3, 9]))]


__all__ = ["Cases", "Number"]
