#!/usr/bin/env python3
"""Times the built program on texts of a mebibyte that are dear to read: deep, long, many names.

    bench/worst_case.py PROGRAM [FOLDER]

Writes each text into FOLDER (a temporary one by default), runs PROGRAM on it and prints the seconds, the status and the
line that it wrote to standard error. Nothing here is part of the tests.
"""
import pathlib
import subprocess
import sys
import tempfile
import time

SIZE = 1 << 20


def filled(head, piece, tail):
    """As many pieces, each made of its number, as a mebibyte has room for."""
    parts, left, number = [head], SIZE - len(head) - len(tail), 0
    while len(text := piece(number)) <= left:
        parts.append(text)
        left -= len(text)
        number += 1
    return "".join(parts) + " " * left + tail


def padded(text, tail):
    return text + " " * (SIZE - len(text) - len(tail)) + tail


def names(count, start=0):
    return ", ".join(f"v{k}_{'x' * 50}:int" for k in range(start, start + count))


def long_sum(number):
    return "x = x" + " + x" * 500 + ";\n"


def nested(number):
    return "if x < 1 then " * 60 + "endif " * 60 + "\n"


TEXTS = {
    "points": padded("begin " + "skip;" * 4094, "end"),
    "too many points": filled("begin ", lambda k: "skip;", "end"),
    "assignments over eight variables": padded(
        "var " + ", ".join(f"v{k}:int" for k in range(8)) + ";\nbegin "
        + "".join(f"v{k % 8} = v{(k + 1) % 8} + {k};" for k in range(4094)), "end"),
    "procedures with 127 inputs": filled(
        "", lambda k: f"proc p{k}({names(127)}) returns () begin v0_{'x' * 50} = 1; end\n", "begin end"),
    "many unknown calls": filled("begin ", lambda k: f"() = f{k}();\n", "end"),
    "calls with many arguments": filled(
        f"proc f({names(127)}) returns () begin end var y:int;\nbegin ",
        lambda k: "() = f(" + ", ".join(["y"] * 127) + ");\n", "end"),
    "long sums": filled("var x:int; begin ", long_sum, "end"),
    "nested blocks": filled("var x:int; begin ", nested, "end"),
    "not": filled("begin ", lambda k: "assume " + "not " * 1000 + "true;\n", "end"),
    "minus": filled("var x:int; begin ", lambda k: "x = " + "-" * 1000 + "x;\n", "end"),
    "parentheses": filled("var x:int; begin ", lambda k: "x = " + "(" * 60 + "x" + ")" * 60 + ";\n", "end"),
    "comments": filled("begin ", lambda k: "/* **** */ // *\n", "end"),
    "an open comment": padded("begin /*" + "*" * (SIZE - 20), ""),
    "no program": "; " * (SIZE // 2),
}


def main():
    program = sys.argv[1]
    folder = pathlib.Path(sys.argv[2] if len(sys.argv) > 2 else tempfile.mkdtemp())
    for name, text in TEXTS.items():
        file = folder / (name.replace(" ", "_") + ".spl")
        file.write_text(text)
        start = time.monotonic()
        run = subprocess.run([program, str(file)], capture_output=True)
        seconds = time.monotonic() - start
        line = run.stderr.decode().strip() or f"{len(run.stdout)} bytes of report"
        print(f"{seconds:6.2f} s  {len(text):8} bytes  status {run.returncode}  {name}: {line}")


if __name__ == "__main__":
    main()
