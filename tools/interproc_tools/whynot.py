"""Why a fail is not excluded: which bound is missing, where it was lost, and which options show it."""
import re

from . import conditions
from .report import constraints_of, read_report
from .source import Source

# Options that are tried, the cheapest first. An option that comes anew gets its lines here; one that the program doesn't
# know is passed over.
TRIED = [
    *(["--delay", str(number)] for number in (2, 3, 4, 6, 8, 12, 16, 24, 32, 48, 64, 128)),
    *(["--descend", str(number)] for number in (3, 4, 6, 10)),
    *(["--delay", str(delay), "--descend", "10"] for delay in (4, 16, 64)),
]


def explain_fail(program, path, data, options, report, number):
    """The text of `explain --fail`."""
    fail, source = report.fails[number - 1], Source(data)
    if fail.is_unreachable:
        return f"{path}:{fail.line}:{fail.column}: fail {number} is unreachable: this is proved, and there is nothing to explain\n"
    lines = [f"{path}:{fail.line}:{fail.column}: fail {number} is not excluded", *source.show(fail.line, fail.column, 4)]
    # All bounds are looked at, those that follow from others too.
    full = read_report(program.run_texts([data], [*options, "--full"])[0].out)
    lines += cause_lines(Walk(full), full.fails[number - 1])
    shows = options_that_show(program, data, options, number)
    tried = tried_in_words()
    if shows:
        lines.append(f"  shown with: {' '.join(shows)}")
    else:
        lines.append(f"  no option shows it; tried were {tried}")
    return "\n".join(lines) + "\n"


def options_that_show(program, data, options, number):
    """The first of the tried options with which the fail is unreachable."""
    asked = {word for word in options if word.startswith("--")}
    tries = [[*options, *words] for words in TRIED if not asked & set(words)]
    for words in tries if not program.is_quick else tries[-1:]:
        answer = program.run_texts([data], words)[0]
        if answer.status <= 1 and read_report(answer.out).fails[number - 1].is_unreachable:
            return words
    return None


def tried_in_words():
    """The tried options, those of one kind together."""
    kinds = {}
    for words in TRIED:
        kinds.setdefault(" and ".join(word for word in words if word.startswith("--")), []).append(words)
    return ", ".join(f"{kind} {tries[0][1]} to {tries[-1][1]}" if "and" not in kind else f"{kind} together" for kind, tries in kinds.items())


def cause_lines(walk, fail):
    """What is missing at the fail, and where it was lost."""
    guard = walk.guard_of(fail.point)
    if guard is None:
        return ["  no condition stands before it in its procedure: it is excluded where no run comes to the procedure or past the statements before it"]
    before, condition, is_true = guard
    lines = [f"  it is excluded where `{condition}` is shown {'false' if is_true else 'true'} at {before.line}:{before.column}"]
    told = set()
    for way in conditions.ways(conditions.parse(condition), is_true):
        needs = [need for atom in way for need in conditions.needs_of(atom)]
        if any(walk.knows(before, need) for need in needs):
            continue
        if not needs:
            lines.append("  a part of it is `random` or a product, of which octagons know nothing: compare variables, sums and differences")
            continue
        octagonal = [need for need in needs if need.sum.is_octagonal]
        if not octagonal:
            lines.append(f"  missing: {needs[0].text()}, which relates {len(needs[0].sum.factors)} variables or has factors: octagons keep bounds on x, x + y and x - y")
            lines.append("  may help: give a part of the sum, as a difference, a variable of its own that is kept up to date")
            continue
        if octagonal[0] in told:
            continue
        told.add(octagonal[0])
        others = " or ".join(one.text() for one in octagonal)
        known = [conditions.Need(one.sum, walk.most(before, one.sum)).text() for one in octagonal if walk.most(before, one.sum) is not None]
        lines.append(f"  missing: {others}; " + (f"known is {' and '.join(known)}" if known else "nothing of that kind is known"))
        traces = [walk.where_lost(before, one) for one in octagonal]
        lines += next((trace for trace in traces if trace and trace[0].startswith("  lost")), traces[0])
    return lines if len(lines) > 1 else [*lines, "  each part of it is false by itself, and not both are kept together: test them one after the other"]


class Walk:
    """The points of a report, and which one a run comes from."""

    def __init__(self, report):
        self.report = report
        self.row_of = {point.row: point for point in report.points}
        self.bounds = {}

    def indent(self, row):
        line = self.report.lines[row]
        return len(line) - len(line.lstrip(" "))

    def point_above(self, row):
        """The point in the row just above a statement."""
        return self.row_of.get(row - 1)

    def opener(self, row):
        """The row of the statement or body whose block a row stands in."""
        inner = self.indent(row)
        while row > 0 and not (self.indent(row) < inner and not self.report.lines[row].lstrip().startswith("/*")):
            row -= 1
        return row

    def code(self, row):
        return self.report.lines[row].strip()

    def matching_if(self, row):
        """The row of the `if` of this depth above an `else` or an `endif`."""
        depth, row = self.indent(row), row - 1
        while not (self.indent(row) == depth and self.code(row).startswith("if ")):
            row -= 1
        return row

    def guard_of(self, point):
        """The point before the condition that a point stands behind, the condition, and how it came out."""
        row = self.opener(point.row)
        code = self.code(row)
        if code == "else":
            row, is_true = self.matching_if(row), False
        else:
            is_true = True
        head = re.match(r"(?:if|while) (.*) (?:then|do)$", self.code(row))
        return (self.point_above(row), head[1], is_true) if head else None

    def most(self, point, sum_):
        """The greatest value of an octagonal sum that is known at a point; none where none is known."""
        if point.number not in self.bounds:
            self.bounds[point.number] = bounds_of(point.note)
        factors = tuple(sorted(sum_.factors))
        return self.bounds[point.number].get(factors)

    def knows(self, point, need):
        if point.is_bottom or not need.sum.factors and need.most >= 0:
            return True
        most = self.most(point, need.sum) if need.sum.is_octagonal else None
        return most is not None and most <= need.most

    def where_lost(self, point, need):
        """Goes back over the statements, with the bound as it would have to be before each, up to where it was lost."""
        behind = None
        for _ in range(400):
            before, statement = self.step_back(point, need)
            if statement == "done;" and behind is None and self.is_set_between(before.row, point.row, need):
                behind = (before, need)
            if before is None:
                return self.not_from_loop(*behind) if behind else [f"  {statement}"]
            target = re.match(r"(\w+) = (.*);$", statement)
            call = re.match(r"(.*) = (\w+)\(.*\);$", statement)
            names = dict(need.sum.factors)
            if call and any(name in names for name in re.findall(r"\w+", call[1])):
                return [
                    f"  lost at the call `{statement}`, in line {point.line}: the end of `{call[2]}` says nothing of it",
                    f"  may help: let `{call[2]}` keep it, so that it holds at its `end`, or `assume` it behind the call",
                ]
            wanted = need
            if target and not call and target[1] in names:
                if target[2] == "random":
                    return [f"  `{target[1]}` is any value since line {point.line}", "  may help: an `assume` behind it that says what is known of it"]
                value = conditions.sum_of(conditions.parse(target[2]))
                told = value and need.sum.with_value(target[1], value)
                if told is None or not told.is_octagonal:
                    why = "a product or a quotient" if value is None else f"what it needs relates {len(told.factors)} variables, or has factors"
                    return [
                        f"  lost at `{statement}`, in line {point.line}: {why}, and of that octagons keep ranges alone",
                        "  may help: write it as sums and differences of two variables, or `assume` what is known of it",
                    ]
                wanted = conditions.Need(conditions.Sum(told.factors, 0), need.most - told.constant)
            if self.knows(before, wanted):
                return self.lost_here(point, need, statement)
            if not wanted.sum.factors and behind:
                return self.not_from_loop(*behind)
            if not wanted.sum.factors:
                return [f"  `{statement}`, in line {point.line}, sets it so, and some run may come to the fail from there"]
            point, need = before, wanted
        return []

    def is_set_between(self, first, last, need):
        """Whether a statement in these rows has a variable of the bound as a target."""
        targets = {name for row in range(first, last) for name in re.findall(r"\w+", self.code(row).partition(" = ")[0]) if " = " in self.code(row)}
        return any(name in targets for name, _ in need.sum.factors)

    def not_from_loop(self, head, need):
        """It doesn't hold before a loop either: the loop's end must give it, and what its head keeps doesn't."""
        condition = self.code(head.row + 1).removeprefix("while ").removesuffix(" do")
        line = self.row_of[head.row + 2].line
        return [
            f"  it doesn't hold before the loop in line {line}; behind it `{condition}` is false, and with what the loop's head keeps that doesn't give {need.text()}",
            "  may help: a condition of the loop that speaks of these variables",
        ]

    def lost_here(self, point, need, statement):
        """The bound holds where a run comes from, and not at this point."""
        if point.is_loop_head:
            line = self.row_of[point.row + 2].line
            return [
                f"  lost at the loop in line {line}: {need.text()} holds before it; its head gave it up, or some round breaks it",
                "  may help: --delay N, where it settles after some rounds; a test of it in the condition of the loop",
            ]
        said = [f"  lost at `{statement}`, before {point.line}:{point.column}: what gives {need.text()} holds before it"]
        value = re.match(r"\w+ = (.*);$", statement)
        if value and len(set(re.findall(r"[A-Za-z_]\w*", value[1]))) > 1:
            said.append(f"  may help: of a sum octagons keep the range alone; test `{value[1]}` itself, or `assume` behind it what is known of it")
        return said

    def step_back(self, point, need):
        """The point that a run comes from, and the statement between; none and a sentence at the beginning of a body."""
        row = point.row
        above = self.code(row - 1)
        if above == "begin":
            names = " and ".join(f"`{name}`" for name, _ in need.sum.factors)
            if point.procedure:
                return None, f"{names}: nothing bounds it at the entry of `{point.procedure}`, over all its calls"
            return None, f"{names} {'has' if len(need.sum.factors) == 1 else 'have'} any value from the beginning: no statement before the fail says more; may help: an `assume`"
        if above.endswith(" then"):
            return self.point_above(row - 1), above
        if above.endswith(" do"):
            return self.point_above(row - 1), "do"
        if above == "else":
            return self.point_above(self.matching_if(row - 1)), above
        if above == "done;":
            return self.before_statement(row - 1), "done;"
        if above == "endif;":
            return self.worst_branch(row - 1, need), above
        return self.before_statement(row - 1), above

    def before_statement(self, row):
        """The point before the statement that ends in this row."""
        if self.code(row) not in ("done;", "endif;"):
            return self.point_above(row)
        depth, opening = self.indent(row), ("while ",) if self.code(row) == "done;" else ("if ",)
        row -= 1
        while not (self.indent(row) == depth and self.code(row).startswith(opening)):
            row -= 1
        return self.point_above(row)

    def worst_branch(self, row, need):
        """The end of a branch at which the bound isn't known, or the point before an `if` without `else`."""
        opening = self.matching_if(row)
        ends = [self.row_of[row - 1]]
        middle = next((at for at in range(row - 1, opening, -1) if self.indent(at) == self.indent(row) and self.code(at) == "else"), None)
        ends.append(self.row_of[middle - 1] if middle else self.point_above(opening))
        return next((end for end in ends if not self.knows(end, need)), ends[0])


def bounds_of(note):
    """The greatest value of each octagonal sum that a note bounds, by its factors in order of names."""
    found = {}
    for one in constraints_of(note):
        # the terms and the constant are at least 0, so the terms turned round are at most the constant
        for turned in (1, -1) if one.is_equal else (1,):
            factors = tuple(sorted((name, -turned * sign) for sign, name in one.terms))
            found[factors] = min(found.get(factors, turned * one.constant), turned * one.constant)
    return found
