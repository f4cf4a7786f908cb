"""Conditions and expressions of canonical text: what would make a condition false, as bounds on sums of variables."""
import dataclasses
import re

TOKEN = re.compile(r"\s*([A-Za-z_]\w*|\d+|[=!<>]=|[()<>+\-*/%])")
TURNED = {"==": "!=", "!=": "==", "<": ">=", ">=": "<", "<=": ">", ">": "<="}
LEVELS = {"or": 0, "and": 1, "==": 3, "!=": 3, "<": 3, "<=": 3, ">": 3, ">=": 3, "+": 4, "-": 4, "*": 5, "/": 5, "%": 5}


@dataclasses.dataclass(frozen=True)
class Sum:
    """A sum of variables with factors, and a constant; the variables in the order in which they come first."""

    factors: tuple
    constant: int

    def plus(self, other, factor=1):
        found = dict(self.factors)
        for name, number in other.factors:
            found[name] = found.get(name, 0) + factor * number
        return Sum(tuple((name, number) for name, number in found.items() if number), self.constant + factor * other.constant)

    def times(self, number):
        return Sum(tuple((name, number * factor) for name, factor in self.factors if number), number * self.constant)

    def with_value(self, name, value):
        """The sum with an expression's sum in a variable's place."""
        factor = dict(self.factors).get(name, 0)
        rest = Sum(tuple(pair for pair in self.factors if pair[0] != name), self.constant)
        return rest.plus(value, factor)

    @property
    def is_octagonal(self):
        return len(self.factors) <= 2 and all(abs(number) == 1 for _, number in self.factors)

    def text(self):
        """The sum of the variables, without the constant."""
        said = ""
        for name, number in sorted(self.factors, key=lambda pair: pair[1] < 0):
            what = name if abs(number) == 1 else f"{abs(number)} * {name}"
            said += (" - " if number < 0 else " + ") + what if said else ("-" if number < 0 else "") + what
        return said or "0"


@dataclasses.dataclass(frozen=True)
class Need:
    """A bound that would make a part of a condition false: the sum is at most `most`, its constant not counted."""

    sum: Sum
    most: int

    def text(self):
        if len(self.sum.factors) == 1 and self.sum.factors[0][1] < 0:
            return f"{self.sum.times(-1).text()} >= {-self.most}"
        (first, factor), *rest = self.sum.factors
        if factor < 0 and rest and rest[0][1] < 0:
            return f"{self.sum.times(-1).text()} >= {-self.most}"
        return f"{self.sum.text()} <= {self.most}"


def parse(text):
    """The tree of an expression or a condition: a name, a number, or an operator with its operands."""
    tokens = TOKEN.findall(text)
    at = 0

    def operand(level):
        nonlocal at
        word = tokens[at]
        at += 1
        if word == "(":
            found = operand(0)
            at += 1
        elif word == "not":
            found = ("not", operand(2))
        elif word == "-":
            found = ("neg", operand(6))
        else:
            found = int(word) if word.isdecimal() else word
        while at < len(tokens) and LEVELS.get(tokens[at], -1) >= level:
            sign = tokens[at]
            at += 1
            found = (sign, found, operand(LEVELS[sign] + 1))
        return found

    return operand(0)


def sum_of(tree):
    """The sum that an expression is; none where it isn't one."""
    if isinstance(tree, int):
        return Sum((), tree)
    if isinstance(tree, str):
        return None if tree in ("random", "true", "false") else Sum(((tree, 1),), 0)
    parts = [sum_of(part) for part in tree[1:]]
    if any(part is None for part in parts):
        return None
    if tree[0] == "neg":
        return parts[0].times(-1)
    if tree[0] in "+-":
        return parts[0].plus(parts[1], 1 if tree[0] == "+" else -1)
    if tree[0] == "*" and not parts[0].factors:
        return parts[1].times(parts[0].constant)
    if tree[0] == "*" and not parts[1].factors:
        return parts[0].times(parts[1].constant)
    return None


def ways(tree, is_true=True):
    """The ways in which a condition comes out so: each a list of atoms that hold together."""
    if tree in ("true", "false"):
        return [[]] if (tree == "true") == is_true else []
    if not isinstance(tree, tuple):
        return [[tree]]
    if tree[0] == "not":
        return ways(tree[1], not is_true)
    if tree[0] in ("and", "or"):
        one, other = ways(tree[1], is_true), ways(tree[2], is_true)
        if (tree[0] == "or") == is_true:
            return one + other
        return [a + b for a in one for b in other][:64]
    sign = tree[0] if is_true else TURNED[tree[0]]
    if sign == "!=":
        return [[("<", tree[1], tree[2])], [(">", tree[1], tree[2])]]
    return [[(sign, tree[1], tree[2])]]


def needs_of(atom):
    """Bounds of which each alone makes an atom false; none where it is no comparison of sums."""
    if not isinstance(atom, tuple):
        return []
    left, right = sum_of(atom[1]), sum_of(atom[2])
    if left is None or right is None:
        return []
    # difference `sign` 0, as a bound on the sum without its constant
    difference = left.plus(right, -1)
    bare, constant = Sum(difference.factors, 0), difference.constant
    if not bare.factors:
        return []
    below = {"<": Need(bare.times(-1), constant), "<=": Need(bare.times(-1), constant - 1)}
    above = {">": Need(bare, -constant), ">=": Need(bare, -constant - 1)}
    if atom[0] in below:
        return [below[atom[0]]]
    if atom[0] in above:
        return [above[atom[0]]]
    return [Need(bare, -constant - 1), Need(bare.times(-1), constant - 1)]
