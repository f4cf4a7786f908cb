"""The tool `diagnose`."""
import os
import sys

from . import files, rules
from .program import ANALYSIS_USAGE, Program, read_words, usage_fault
from .report import read_report

ABOUT = """
Runs the analyser on FILE and prints what editors read, a line each:

  FILE:LINE:COLUMN: error: RULE: what is wrong    a refusal, as explain tells it
  FILE:LINE:COLUMN: warning: fail not excluded    a fail that isn't shown unreachable

The options are the analyser's, before or behind FILE. The status is the analyser's.
"""


def main(argv):
    tool = os.path.basename(argv[0])
    usage = f"{tool} {ANALYSIS_USAGE} FILE"
    words = read_words(argv[1:], tool, usage, {}, ABOUT)
    sys.stdout.reconfigure(encoding="utf-8", errors="surrogateescape")
    if len(words.files) != 1:
        usage_fault(tool, usage, "no FILE is named" if not words.files else f"there is one FILE, and {words.files[1]} is a second")
    program, path = Program(), words.files[0]
    data, answer = files.run_on(program, path, words.options)
    told = rules.explain(program, path, data, answer, [*words.options, path])
    if told:
        print(f"{path}:{told.line or 1}:{told.column or 1}: error: {told.message()}")
    else:
        for fail in read_report(answer.out).fails:
            if not fail.is_unreachable:
                print(f"{path}:{fail.line}:{fail.column}: warning: fail not excluded")
    return answer.status
