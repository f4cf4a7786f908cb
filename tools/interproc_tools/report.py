"""A report of the analyser: its points in order, what holds at each, its fails, and constraints as one writes them."""
import dataclasses
import re

POINT = re.compile(r"^( *)/\* \(L(\d+) C(\d+)\) (.*) \*/$")
FAIL = re.compile(r"^/\* fail \(L(\d+) C(\d+)\): (unreachable|not excluded) \*/$")
ROUNDS = re.compile(r"^/\* rounds: (\d+) \*/$")
TERM = re.compile(r"([+-]?)([A-Za-z_]\w*@?|\d+)")


@dataclasses.dataclass(frozen=True)
class Constraint:
    """The signed variables, one or two, and the constant: their sum is at least 0, or is 0."""

    terms: tuple
    constant: int
    is_equal: bool


@dataclasses.dataclass
class Point:
    """A point of the program: its number as in replays, its place in the file, what holds, and the statement behind it."""

    number: int
    line: int
    column: int
    note: str
    depth: int
    row: int
    procedure: str
    statement: str = ""
    before: str = ""

    @property
    def is_bottom(self):
        return self.note == "bottom"

    @property
    def is_loop_head(self):
        return self.statement.startswith("while ")

    @property
    def constraints(self):
        return constraints_of(self.note)


@dataclasses.dataclass
class Fail:
    number: int
    line: int
    column: int
    is_unreachable: bool
    point: Point | None = None


@dataclasses.dataclass
class Report:
    text: str
    lines: list
    points: list
    fails: list
    rounds: int

    @property
    def shown(self):
        return sum(fail.is_unreachable for fail in self.fails)


def constraints_of(note):
    """The constraints of a point's note; none for top and bottom."""
    inner = re.fullmatch(r"\[\|(.*)\|\]", note)
    return [constraint_of(part) for part in inner[1].split("; ")] if inner else []


def constraint_of(text):
    left, equal = re.fullmatch(r"(.*?)(>=|=)0", text).groups()
    terms, constant = [], 0
    for sign, what in TERM.findall(left):
        factor = -1 if sign == "-" else 1
        if what.isdecimal():
            constant += factor * int(what)
        else:
            terms.append((factor, what))
    return Constraint(tuple(terms), constant, equal == "=")


def read_report(text):
    """The report that the analyser wrote. Points are numbered as in replays: an entry, then a body's points in order."""
    lines = text.splitlines()
    points, fails, rounds, number, procedure = [], [], 0, 0, ""
    code = ""
    for row, line in enumerate(lines):
        point = POINT.match(line)
        fail = FAIL.match(line)
        if point:
            points.append(Point(number, int(point[2]), int(point[3]), point[4], len(point[1]) // 2, row, procedure, before=code))
            number += 1
        elif fail:
            fails.append(Fail(len(fails) + 1, int(fail[1]), int(fail[2]), fail[3] == "unreachable"))
        elif ROUNDS.match(line):
            rounds = int(ROUNDS.match(line)[1])
        else:
            code = line.strip()
            if code.startswith("proc "):
                procedure = re.match(r"proc (\w+)", code)[1]
            elif code == "begin":
                number += 1
            elif code == "end":
                procedure = ""
            if points and not points[-1].statement and points[-1].row == row - 1:
                points[-1].statement = code
    at = iter(fails)
    for point in points:
        if point.statement == "fail;":
            next(at).point = point
    return Report(text, lines, points, fails, rounds)


# ---- constraints as one writes them


@dataclasses.dataclass
class Bounds:
    """The least and the greatest value of a term, where they are known."""

    least: int | None = None
    most: int | None = None

    def at_least(self, value):
        self.least = value if self.least is None else max(self.least, value)

    def at_most(self, value):
        self.most = value if self.most is None else min(self.most, value)


def gathered(constraints):
    """The bounds of each variable, and of the differences and sums of two, in the order of the report."""
    single, double = {}, {}
    for one in constraints:
        if len(one.terms) == 1:
            (sign, name), = one.terms
            bounds = single.setdefault(name, Bounds())
        else:
            (sign, name), (other_sign, other) = one.terms
            bounds = double.setdefault((name, "+" if sign == other_sign else "-", other), Bounds())
        # sign * term + constant >= 0
        if sign > 0 or one.is_equal:
            bounds.at_least(-sign * one.constant)
        if sign < 0 or one.is_equal:
            bounds.at_most(-sign * one.constant)
    return single, double


def sum_text(name, number):
    return name if number == 0 else f"{name} + {number}" if number > 0 else f"{name} - {-number}"


def infix(constraints):
    """The constraints in readable form: bounds of one variable first, two halves put together."""
    single, double = gathered(constraints)
    single = {name: Bounds(bounds.least, bounds.most) for name, bounds in single.items()}
    chained, pairs = {}, []
    for (name, sign, other), bounds in double.items():
        left = f"{name} {sign} {other}"
        if bounds.least is not None and bounds.least == bounds.most:
            pairs.append(f"{name} = {sum_text(other, bounds.most)}" if sign == "-" else f"{left} = {bounds.most}")
        elif bounds.least is not None and bounds.most is not None:
            pairs.append(f"{bounds.least} <= {left} <= {bounds.most}")
        elif sign == "+":
            pairs.append(f"{left} >= {bounds.least}" if bounds.most is None else f"{left} <= {bounds.most}")
        else:
            # name - other <= most is name <= other + most; name - other >= least is other <= name - least.
            small, great, shift = (name, other, bounds.most) if bounds.least is None else (other, name, -bounds.least)
            known = single.get(small)
            if known and known.least is not None and known.most is None and small not in chained:
                chained[small] = sum_text(great, shift)
            elif bounds.least is None:
                pairs.append(f"{name} <= {sum_text(other, bounds.most)}")
            else:
                pairs.append(f"{name} >= {sum_text(other, bounds.least)}")
    said = []
    for name, bounds in single.items():
        most = chained.get(name, bounds.most)
        if bounds.least is not None and bounds.least == bounds.most:
            said.append(f"{name} = {bounds.least}")
        elif bounds.least is not None and most is not None:
            said.append(f"{bounds.least} <= {name} <= {most}")
        elif bounds.least is not None:
            said.append(f"{name} >= {bounds.least}")
        else:
            said.append(f"{name} <= {most}")
    return said + pairs


def note_in_words(note):
    """A point's note in readable form."""
    if note in ("top", "bottom"):
        return note
    return ", ".join(infix(constraints_of(note)))


def infix_report(text):
    """The report with its constraints in readable form; all else as it is."""
    lines = []
    for line in text.splitlines():
        point = POINT.match(line)
        lines.append(f"{point[1]}/* (L{point[2]} C{point[3]}) {note_in_words(point[4])} */" if point else line)
    return "\n".join(lines) + "\n"
