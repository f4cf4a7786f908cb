"""Tries each file of .ci/wrong-files.txt: what tools/explain says of it is what stands behind its line `---`.

A text that begins with `$ ` is made by that command. With --write the wanted texts are written anew, to be read by eye.
"""
import pathlib
import re
import subprocess
import sys

HERE = pathlib.Path(__file__).resolve().parent
sys.path.insert(0, str(HERE.parent / "tools"))
from interproc_tools import rules  # noqa: E402
from interproc_tools.program import Program  # noqa: E402

TABLE = HERE / "wrong-files.txt"


def explained(program, text):
    data = text.encode()
    if text.startswith("$ "):
        data = subprocess.run(["bash", "-c", text[2:]], capture_output=True).stdout
    answer = program.run_texts([data])[0]
    told = rules.explain(program, "FILE", data, answer)
    return told.text() if told else "accepted\n"


def main():
    program = Program()
    if program.is_quick:
        print("there is no proved program of these sources, so the wrong files were not tried: run bin/build")
        return
    head, *parts = re.split(r"^=== (.*)\n", TABLE.read_text(), flags=re.M)
    rows = [(name, *body.split("---\n", 1)) for name, body in zip(parts[::2], parts[1::2])]
    if len(rows) < 60:
        print(f"{TABLE.name} has only {len(rows)} files")
    written = [head]
    for name, text, *wanted in rows:
        got = explained(program, text)
        written.append(f"=== {name}\n{text}---\n{got}")
        if "--write" not in sys.argv and [got] != wanted:
            print(f"{name}: it says\n{got}and the wanted text is\n{''.join(wanted)}")
    if "--write" in sys.argv:
        TABLE.write_text("".join(written))


main()
