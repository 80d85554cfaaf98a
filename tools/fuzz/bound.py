"""The bound of a JSON path on a document, which limits are compared with, from docs/PATHS.md."""

MOST = 2**64 - 1


def depth(tree):
    children = tree.values() if isinstance(tree, dict) else tree if isinstance(tree, list) else []
    return max((1 + depth(it) for it in children), default=0)


def capped(number):
    return min(number, MOST)


class Bound:
    """The bounds of paths on one document. A list is a pair: at most how many items it has, and how many at and below them."""

    def __init__(self, document, tree):
        self.items, self.levels = len(document) // 4, capped(depth(tree) + 1)
        self.root = 1, self.items

    def after(self, step, it):
        """The list after a step."""
        count, below = it
        if step[0] in ("values", "elements"):
            return below, below
        if step[0] == "recursive":
            return below, capped(below * self.levels)
        if step[0] == "subscripts":
            # (The two ends of a position are one object; those of a range are two.)
            is_of_positions = all(low is high for low, high in step[1])
            k = len(step[1])
            return capped((count if is_of_positions else below) * k), capped(below * k)
        return it

    def after_all(self, steps, it):
        for step in steps:
            it = self.after(step, it)
        return it

    def start(self, steps, it):
        return it if steps[:1] == [("current",)] else (it[0], capped(it[0] * self.items))

    def values(self, operand, it):
        """The values of an operand, of all items of a list together."""
        if operand[0] == "path":
            return self.after_all(operand[1], self.start(operand[1], it))[1]
        return it[0]

    def pairs(self, left, right, it):
        return min(capped(self.values(one, it) * self.values(other, self.root)) for one, other in ((left, right), (right, left)))

    def of_steps(self, steps, it):
        total = 0
        for step in steps:
            it = self.after(step, it)
            total += it[0] + (self.of_expression(step[1], it) if step[0] in ("filter", "expression") else 0)
        return total

    def of_expression(self, expression, it):
        kind, *parts = expression
        if kind in ("path", "exists"):
            return self.of_steps(parts[0], self.start(parts[0], it))
        if kind == "literal":
            return 0
        if kind == "unary":
            return self.values(parts[1], it) + self.of_expression(parts[1], it)
        left, right = parts[-2:]
        compared = self.values(left, it) + self.values(right, it) + self.pairs(left, right, it) if kind == "binary" else 0
        return compared + self.of_expression(left, it) + self.of_expression(right, it)

    def of(self, steps):
        return capped(self.of_steps(steps, self.root))
