"""Tries what documents show: each command of a block `console` gives what stands below it, and each file is shown as it is.

A block `console` has lines `$ COMMAND` with the output below each, both streams together. A block behind a line that ends
with a file's name in backquotes and a colon is that file: one of the repository's own, word for word, or else one that the
commands below are run on. They run in a folder of their own, in which bin, tools, docs and examples are the repository's.
"""
import os
import pathlib
import re
import subprocess
import sys
import tempfile

TOP = pathlib.Path(__file__).resolve().parent.parent
BLOCK = re.compile(r"(?:`([\w./-]+\.(?:spl|choices))`:\n\n)?^```(\w*)\n(.*?)^```$", re.M | re.S)


def commands(block):
    """Each command of a block with the output below it."""
    parts = re.split(r"^\$ (.*)\n", block, flags=re.M)
    return zip(parts[1::2], parts[2::2])


def try_page(page):
    text = page.read_text()
    written, here = [], 0
    with tempfile.TemporaryDirectory() as folder:
        for name in ("bin", "tools", "docs", "examples"):
            os.symlink(TOP / name, pathlib.Path(folder) / name)
        for block in BLOCK.finditer(text):
            name, kind, body = block.groups()
            if name and (TOP / name).exists():
                if (TOP / name).read_text() != body:
                    print(f"{page.name}: shows another text than {name}")
            elif name:
                (pathlib.Path(folder) / name).write_text(body)
            elif kind == "console":
                written += [text[here : block.start(3)], *(try_command(page, folder, *pair) for pair in commands(body))]
                here = block.end(3)
    if "--write" in sys.argv:
        page.write_text("".join(written) + text[here:])


def try_command(page, folder, command, wanted):
    """The command with what it gives; where that isn't wanted, this is said."""
    ran = subprocess.run(["bash", "-c", command], cwd=folder, stdout=subprocess.PIPE, stderr=subprocess.STDOUT, text=True)
    if ran.stdout.rstrip("\n") != wanted.rstrip("\n") and "--write" not in sys.argv:
        print(f"{page.name}: `{command}` gives\n{ran.stdout}and the page says\n{wanted}")
    return f"$ {command}\n{ran.stdout}"


for page in [TOP / "README.md", *sorted((TOP / "docs").glob("*.md"))]:
    if "```console" in page.read_text() or BLOCK.search(page.read_text()):
        try_page(page)

# What the gallery says to look at stands in the report, word for word.
gallery = (TOP / "examples" / "README.md").read_text()
for name, look_at in re.findall(r"^\| \[(\w+)\]\(.*?\) \| .*? \| (.*) \|$", gallery, re.M):
    report = (TOP / "examples" / f"{name}.out").read_text()
    for quoted in re.findall(r"`([^`]*=0[^`]*)`", look_at):
        if quoted not in report:
            print(f"examples/README.md: `{quoted}` is not in {name}.out")
