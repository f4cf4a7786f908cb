"""The tool `summary`."""
import concurrent.futures
import dataclasses
import json
import os
import sys
import urllib.parse

from . import files, rules
from .program import ANALYSIS_USAGE, Answer, Program, read_words, usage_fault, version
from .report import Report, infix_report, read_report
from .source import Source, Token

ABOUT = """
Runs the analyser on each of FILES and prints a line for each, and a total; `-` is standard input.

  --infix   the reports with readable constraints, as `0 <= i <= n - 1`, in place of the lines
  --json    all of it as JSON: an object a file
  --sarif   the refusals and the fails in the format SARIF 2.1.0, which code scanners exchange

The other options are the analyser's, for each file. The status, for a build:
  0  each file was analysed, and each fail is unreachable
  1  each file was analysed, and some fail is not excluded
  2  the words are of no form
  3  some file is refused
  4  some file could not be read, or had no answer
"""


@dataclasses.dataclass
class Outcome:
    """What came of one file: a report, or what is wrong with it."""

    path: str
    data: bytes
    answer: Answer
    report: Report | None
    told: rules.Explanation | None

    @property
    def open(self):
        return [fail for fail in self.report.fails if not fail.is_unreachable] if self.report else []


def main(argv):
    tool = os.path.basename(argv[0])
    usage = f"{tool} {ANALYSIS_USAGE} [--infix | --json | --sarif] FILES.."
    words = read_words(argv[1:], tool, usage, {"--infix": False, "--json": False, "--sarif": False}, ABOUT)
    sys.stdout.reconfigure(encoding="utf-8", errors="surrogateescape")
    if not words.files:
        usage_fault(tool, usage, "no file is named; `-` is standard input")
    if len(words.own) > 1:
        usage_fault(tool, usage, f"{' and '.join(words.own)} don't go together")
    outcomes = analyse(Program(), words.files, words.options)
    if "--json" in words.own:
        print(json.dumps(as_json(outcomes, words.options), indent=2))
    elif "--sarif" in words.own:
        print(json.dumps(as_sarif(outcomes, words.options), indent=2))
    elif "--infix" in words.own:
        sys.stdout.write(as_reports(outcomes))
    else:
        sys.stdout.write(as_lines(outcomes))
    return status_of(outcomes)


def analyse(program, paths, options):
    """The outcome of each file, side by side; where nothing is built all are compiled for once."""
    data = [sys.stdin.buffer.read() if path == "-" else files.read_file(path) for path in paths]
    if program.is_quick and len(paths) > 1:
        answers = program.run_texts(data, options)
    else:
        with concurrent.futures.ThreadPoolExecutor(min(8, os.cpu_count() or 1)) as pool:
            answers = list(pool.map(lambda at: answer_of(program, paths[at], data[at], options), range(len(paths))))
    found = []
    for path, text, answer in zip(paths, data, answers):
        report = read_report(answer.out) if answer.status <= 1 else None
        found.append(Outcome(path, text, answer, report, rules.explain(program, path, text, answer, [*options, path])))
    return found


def answer_of(program, path, data, options):
    if path != "-" and (os.path.isfile(path) or not data):
        return program.run([*options, "--", path])
    return program.run_texts([data], options)[0]


def status_of(outcomes):
    statuses = [outcome.answer.status for outcome in outcomes]
    if any(status not in (0, 1, 3) for status in statuses):
        return 2 if all(status == 2 for status in statuses) else 4
    return max(statuses)


def as_lines(outcomes):
    """A line a file, and the total."""
    widest = min(48, max(len(outcome.path) for outcome in outcomes))
    lines = []
    for outcome in outcomes:
        if outcome.told:
            place = f" at {outcome.told.line}:{outcome.told.column}" if outcome.told.line else ""
            said = f"refused{place}: {outcome.told.message()}"
        elif not outcome.report.fails:
            said = "no fail"
        else:
            count = len(outcome.report.fails)
            said = f"{outcome.report.shown} of {count} {'fail' if count == 1 else 'fails'} shown"
            if outcome.open:
                said += ", open: " + ", ".join(f"{fail.line}:{fail.column}" for fail in outcome.open)
        lines.append(f"{outcome.path:{widest}}  {said}\n")
    total = totals(outcomes)
    lines.append(
        f"{total['files']} {'file' if total['files'] == 1 else 'files'}, {total['refused']} refused; "
        f"{total['shown']} of {total['shown'] + total['open']} {'fail' if total['shown'] + total['open'] == 1 else 'fails'} shown unreachable\n"
    )
    return "".join(lines)


def totals(outcomes):
    reports = [outcome.report for outcome in outcomes if outcome.report]
    return {
        "files": len(outcomes),
        "refused": len(outcomes) - len(reports),
        "shown": sum(report.shown for report in reports),
        "open": sum(len(outcome.open) for outcome in outcomes),
    }


def as_reports(outcomes):
    said = []
    for outcome in outcomes:
        if len(outcomes) > 1:
            said.append(f"// {outcome.path}\n")
        said.append(outcome.told.text() if outcome.told else infix_report(outcome.report.text))
    return "".join(said)


def as_json(outcomes, options):
    return {
        "version": version(),
        "options": options,
        "files": [json_of(outcome) for outcome in outcomes],
        "total": totals(outcomes),
    }


def json_of(outcome):
    found = {"file": outcome.path, "status": outcome.answer.status}
    if outcome.told:
        told = outcome.told
        found["refusal"] = {
            "rule": told.rule, "line": told.line, "column": told.column, "message": told.sentence,
            "could_stand": told.could, "hints": told.hints,
        }
        return found
    report = outcome.report
    found["rounds"] = report.rounds
    found["fails"] = [{"line": fail.line, "column": fail.column, "unreachable": fail.is_unreachable} for fail in report.fails]
    found["points"] = [
        {
            "line": point.line, "column": point.column, "procedure": point.procedure or None, "bottom": point.is_bottom,
            "constraints": [
                {"terms": [[sign, name] for sign, name in one.terms], "constant": one.constant, "relation": "=" if one.is_equal else ">="}
                for one in point.constraints
            ],
        }
        for point in report.points
    ]
    return found


# ---- SARIF

FAIL_RULE = {
    "id": "fail",
    "shortDescription": {"text": "a fail that a run may come to"},
    "fullDescription": {"text": "Each fail is shown unreachable, which is proved, or is not excluded: some run may come to it, or the constraints are too weak."},
    "defaultConfiguration": {"level": "warning"},
}


def as_sarif(outcomes, options):
    refused = sorted({outcome.told.rule for outcome in outcomes if outcome.told})
    driver_rules = [FAIL_RULE] + [
        {"id": rule, "shortDescription": {"text": f"the file is refused: {rule}"}, "defaultConfiguration": {"level": "error"}}
        for rule in refused
    ]
    index = {rule["id"]: at for at, rule in enumerate(driver_rules)}
    results = [result for outcome in outcomes for result in results_of(outcome, index)]
    return {
        "$schema": "https://json.schemastore.org/sarif-2.1.0.json",
        "version": "2.1.0",
        "runs": [{
            "tool": {"driver": {"name": "interproc", "version": version(), "rules": driver_rules}},
            "columnKind": "unicodeCodePoints",
            "invocations": [{
                "executionSuccessful": all(outcome.answer.status in (0, 1, 3) for outcome in outcomes),
                "arguments": [*options, *(outcome.path for outcome in outcomes)],
            }],
            "artifacts": [{"location": {"uri": uri_of(outcome.path)}, "length": len(outcome.data)} for outcome in outcomes],
            "results": results,
        }],
    }


def uri_of(path):
    return "stdin.spl" if path == "-" else urllib.parse.quote(path, errors="surrogateescape")


def results_of(outcome, index):
    source = Source(outcome.data)
    if outcome.told:
        told = outcome.told
        hint = "".join(f" Hint: {one}." for one in told.hints)
        yield result_of(outcome, index, told.rule, "error", "fail", f"{told.sentence}.{hint}", source, told.line, told.column)
        return
    for fail in outcome.report.fails:
        if fail.is_unreachable:
            yield result_of(outcome, index, "fail", "none", "pass", "No run comes to this fail: proved.", source, fail.line, fail.column)
        else:
            yield result_of(outcome, index, "fail", "warning", "fail", "This fail is not excluded.", source, fail.line, fail.column)


def result_of(outcome, index, rule, level, kind, text, source, line, column):
    place = {"artifactLocation": {"uri": uri_of(outcome.path)}}
    if line:
        place["region"] = region_of(source, line, column)
    return {
        "ruleId": rule, "ruleIndex": index[rule], "kind": kind, "level": level,
        "message": {"text": text}, "locations": [{"physicalLocation": place}],
    }


def region_of(source, line, column):
    """The place of a token, its columns counted in characters."""
    token = source.token_at(source.offset(line, column)) or Token("", 0, 1)
    data = source.line_text(line)
    begin = len(data[: column - 1].decode("utf-8", "replace"))
    length = len(data[column - 1 : column - 1 + token.end - token.start].decode("utf-8", "replace"))
    return {"startLine": line, "startColumn": begin + 1, "endLine": line, "endColumn": begin + 1 + max(1, length)}
