"""The tool `explain`."""
import contextlib
import os
import sys
import tempfile

from . import files, replays, rules, whynot
from .program import ANALYSIS_USAGE, Program, read_words, usage_fault
from .report import read_report

ABOUT = """
Runs the analyser on FILE and says what is wrong with it: the line with a caret under the token, a sentence, the tokens that
could stand there (each kind of token is tried), and a hint. Of `replay FILE CHOICES` it says which step is none of a run.

  --fail N   why the fail number N isn't excluded: which bound is missing, where it was lost, and which options show it

The other options are the analyser's. The status is the analyser's: 0 and 1 where nothing is refused.
"""


def main(argv):
    tool = os.path.basename(argv[0])
    usage = f"{tool} {ANALYSIS_USAGE} [--fail N] FILE | {tool} replay FILE CHOICES"
    words = read_words(argv[1:], tool, usage, {"--fail": True}, ABOUT)
    sys.stdout.reconfigure(encoding="utf-8", errors="surrogateescape")
    if words.files[:1] == ["replay"]:
        return explain_replay(tool, usage, words)
    if len(words.files) != 1:
        usage_fault(tool, usage, "no FILE is named" if not words.files else f"there is one FILE, and {words.files[1]} is a second")
    fail = words.own.get("--fail")
    if fail is not None and not (fail.isdecimal() and int(fail)):
        usage_fault(tool, usage, f"--fail wants the number of a fail, from 1, and not {fail}")
    program, path = Program(), words.files[0]
    data, answer = files.run_on(program, path, words.options)
    told = rules.explain(program, path, data, answer, [*words.options, path])
    if told:
        sys.stdout.write(told.text())
        return answer.status
    report = read_report(answer.out)
    if fail is None:
        sys.stdout.write(accepted(tool, path, report))
    elif int(fail) > len(report.fails):
        usage_fault(tool, usage, f"{path} has {len(report.fails)} fails, and --fail is {fail}")
    else:
        sys.stdout.write(whynot.explain_fail(program, path, data, words.options, report, int(fail)))
    return answer.status


def accepted(tool, path, report):
    count = len(report.fails)
    if not count:
        return f"{path}: nothing is wrong with it; it has no fail\n"
    lines = [f"{path}: nothing is wrong with it; {report.shown} of {count} fails shown unreachable"]
    for fail in report.fails:
        if not fail.is_unreachable:
            lines.append(f"{path}:{fail.line}:{fail.column}: not excluded; {tool} --fail {fail.number} says why")
    return "\n".join(lines) + "\n"


def explain_replay(tool, usage, words):
    if words.options or words.own or len(words.files) != 3:
        usage_fault(tool, usage, "replay has two words behind it, FILE and CHOICES, and no options")
    program, (_, path, choices) = Program(), words.files
    data, picked = files.read_file(path), files.read_file(choices)
    with contextlib.ExitStack() as stack:
        # A pipe is read once, and the analyser reads again what stood in it.
        shown = choices
        if picked and not os.path.isfile(choices):
            copy = stack.enter_context(tempfile.NamedTemporaryFile())
            copy.write(picked)
            copy.flush()
            choices = copy.name
        answer = program.run(["replay", path, choices])
    choices = shown
    if answer.status <= 1:
        steps = len(answer.out.splitlines()) - 1
        sys.stdout.write(f"{choices}: a run of {steps} steps" + (", which ends at a fail\n" if answer.status else ", which ends at no fail\n"))
        return answer.status
    sys.stdout.write(replays.explain(program, path, data, choices, picked, answer).text())
    return answer.status
