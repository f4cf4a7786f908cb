"""Where a replay stops, in words: the step, what stands there in the choices, and what the run stands before."""
import re
import tempfile

from . import rules
from .report import read_report
from .rules import Explanation
from .source import Source

LARGEST_WORD = (1 << 127) - 1


def explain(program, path, data, choices, picked, answer):
    """The explanation of a replay's answer that is no run."""
    line = answer.line
    step = re.fullmatch(r"refused: (NotARun|Wide) (\d+)", line)
    fault = re.fullmatch(r"refused: BadChoices at L(\d+) C(\d+)", line)
    if fault:
        return bad_choices(choices, picked, int(fault[1]), int(fault[2]))
    if step:
        return bad_step(program, path, data, choices, picked, step[1], int(step[2]))
    if answer.refusal() or line == "refused: TooLong" and len(data) > rules.LARGEST_FILE:
        return rules.explain(program, path, data, answer)
    if line.startswith("fault: ") and data:
        path, data = choices, picked
    if line == "refused: TooLong":
        path, data = choices, picked
    return rules.explain(program, path, data, answer, ["replay", path, choices])


def bad_choices(choices, picked, line, column):
    source = Source(picked)
    text = source.line_text(line)
    word = re.match(rb"-?[0-9]+|[^ ]+|", text[column - 1 :])[0]
    told = Explanation(choices, "BadChoices", "", line, column, source.show(line, column, max(1, len(word))))
    if re.fullmatch(rb"-?[0-9]+", word) and abs(int(word)) > LARGEST_WORD:
        told.sentence = "this number has no place in 128 bits"
    elif word.startswith(b"\r") or word.endswith(b"\r"):
        told.sentence = "a line ends with LF alone, and here is a CR"
    elif not word and line > 1 and not text:
        told.sentence = "this line is empty, and each line behind the first is a step"
        told.hints.append("at the exit of a procedure the step is `0`")
        return told
    elif not word:
        told.sentence = "a number is missing here" if text[column - 2 : column - 1] in (b" ", b"-") or column == 1 else "this can't stand here"
    else:
        told.sentence = f"`{word.decode('utf-8', 'replace')}` is no number"
    told.hints.append("a line is numbers with blanks between them and none at its ends: the edge, and then its values")
    return told


def counted(number, word):
    return f"{number} {word}" if number == 1 else f"{number or 'no'} {word}s"


def bad_step(program, path, data, choices, picked, rule, step):
    source = Source(picked)
    line = step + 1
    text = source.line_text(line) if line <= len(source.starts) else b""
    told = Explanation(choices, rule, "", line, 1, source.show(line, 1, max(1, len(text))))
    report = read_report(program.run(["--", path]).out)
    source_of = Source(data)
    names = names_of(source_of)
    if step == 0:
        main = names.get("", [])
        told.sentence = f"step 0 begins a run with {counted(len(main), 'value')}, and here are {len(text.split())}"
        told.hints.append(f"main's variables are {', '.join(main)}" if main else "main has no variables: the line is empty")
        return told
    if not text and line >= len(source.starts):
        told.shown = []
    stack = run_before(program, path, picked, step)
    number, depth, values = stack[0], stack[1], stack[2:]
    point = next((one for one in report.points if one.number == number), None)
    given = text.split()
    if point is None:
        told.sentence = f"step {step} stands at the entry of a procedure, where edge 0 leads to its first point and takes no value"
        return told
    procedure = point.procedure
    state = ", ".join(f"{name} = {value}" for name, value in zip(names.get(procedure, []), values))
    told.shown += [f"  where the run stands in {path}:"] + source_of.show(point.line, max(1, point.column - 1), 1) if point.line <= len(source_of.starts) else []
    there = f"that is point {number}, before `{point.statement}`" + (f", with {state}" if state else "")
    told.hints.append(there)
    edges = edges_of(point, report, names, source_of, depth)
    edge = int(given[0]) if given else -1
    if rule == "Wide":
        told.sentence = f"step {step} computes a value past 128 bits"
    elif not edges:
        told.sentence = f"step {step} can't be: no edge leads out of here"
    elif not 0 <= edge < len(edges):
        told.sentence = f"step {step} picks edge {edge}, and here {'is edge 0 alone' if len(edges) == 1 else f'are edges 0 to {len(edges) - 1}'}"
        told.hints += [f"edge {at}: {what}" for at, (what, _) in enumerate(edges)]
    elif len(given) - 1 != edges[edge][1]:
        told.sentence = f"step {step} wants {counted(edges[edge][1], 'value')} behind the edge, and here are {len(given) - 1}"
        told.hints.append(f"edge {edge}: {edges[edge][0]}")
    else:
        told.sentence = f"step {step} takes edge {edge} ({edges[edge][0]}), and the condition comes out the other way"
    return told


def run_before(program, path, picked, step):
    """The stack that the steps before this one come to: the point of its top frame, the number of frames, the values."""
    with tempfile.NamedTemporaryFile(suffix=".choices") as front:
        front.write(b"\n".join(picked.split(b"\n")[:step]))
        front.flush()
        out = program.run(["replay", path, front.name]).out
    return [int(word) for word in out.splitlines()[-1].split()]


def names_of(source):
    """The names of the dimensions of each procedure, in order."""
    found = {}
    for one in source.procedures():
        written = source.written(one)
        names = [f"{token.text}@" if token in one.inputs and token.text in written else token.text for token in one.variables]
        found[one.name] = names + [token.text for token in one.inputs if token.text in written]
    return found


def edges_of(point, report, names, source, depth):
    """What each edge out of a point does, with how many values it takes."""
    statement = point.statement
    if statement in ("halt;", "fail;"):
        return []
    if statement == "end":
        return [("back to the caller", 0)] if point.procedure else []
    if statement.startswith("if "):
        condition = statement.removeprefix("if ").removesuffix(" then")
        return [(f"where `{condition}` is true", 0), (f"where `{condition}` is false", 0)]
    if statement.startswith("while "):
        condition = statement.removeprefix("while ").removesuffix(" do")
        return [(f"into the loop, where `{condition}` is true", 0), (f"past the loop, where `{condition}` is false", 0)]
    if statement.endswith("= random;"):
        return [("any value, which stands behind the edge", 1)]
    call = re.search(r"= (\w+)\(.*\);$", statement)
    if call:
        called = next(one for one in source.procedures() if one.name == call[1])
        others = names[call[1]][len(called.inputs):]
        return [(f"into `{call[1]}`, with a value for each of {', '.join(others) or 'no variable'}", len(others))]
    return [(f"`{statement}`" if statement not in ("else", "endif;", "done;") else "on behind the block", 0)]
