#!/usr/bin/env python3
"""The map of the crates, made from crates.txt and the first sentence of each root file.

map.py prints what differs from docs/MAP.md; map.py --write writes it. The headings in crates.txt ('# == ..') are the
layers. An arrow of the picture is left out where other arrows lead the same way.
"""
import os
import re
import subprocess
import sys


def layers():
    """The layers of crates.txt, each a heading with its crates and what they name."""
    found, libraries = [], {}
    with open("crates.txt") as listed:
        for line in listed:
            if line.startswith("# == "):
                found.append((line[5:].strip(), []))
            elif line.split("#")[0].strip():
                name, _, below = line.split("#")[0].partition(":")
                name = name.split()[0]
                libraries[name] = below.split()
                found[-1][1].append(name)
    return found, libraries


def sentence(crate):
    """The first sentence of a crate's root file."""
    for root in ("lib.rt", "main.rt"):
        path = f"crates/{crate}/src/{root}"
        if os.path.exists(path):
            with open(path) as text:
                head = " ".join(line[3:].strip() for line in text if line.startswith("//!"))
            return re.split(r"(?<=\.) ", head)[0]
    return ""


def lines(crate, part, ending):
    listed = subprocess.run(["git", "ls-files", f"crates/{crate}/{part}"], capture_output=True, text=True).stdout.split()
    return sum(sum(1 for _ in open(name, errors="replace")) for name in listed if name.endswith(ending) and os.path.exists(name))


def reached(crate, own):
    """All crates of the repository below one."""
    below, waiting = set(), list(own[crate])
    while waiting:
        here = waiting.pop()
        if here not in below:
            below.add(here)
            waiting += own[here]
    return below


def direct(crate, own):
    """The crates that one stands on and that no other of them leads to."""
    named = own[crate]
    return [one for one in named if not any(one in reached(other, own) for other in named if other != one)]


def chain(crate, own, known):
    """The longest way down from a crate."""
    if crate not in known:
        known[crate] = max((chain(one, own, known) for one in own[crate]), key=len, default=[]) + [crate]
    return known[crate]


def page():
    found, libraries = layers()
    own = {crate: [one for one in below if one in libraries] for crate, below in libraries.items()}
    known = {}
    longest = max((chain(crate, own, known) for crate in own), key=len)
    text = ["# The map", "", "Made by `.ci/map.py` from `crates.txt` and the first sentence of each crate's root file; the repository's own checks compare it.",
            "[ARCHITECTURE.md](ARCHITECTURE.md) says how a program goes through these rooms.", "",
            f"{len(own)} crates. The longest chain has {len(longest)}: " + " < ".join(f"`{crate}`" for crate in longest) + ".", ""]
    text += ["```mermaid", "flowchart BT"]
    for number, (title, crates) in enumerate(found):
        text.append(f'  subgraph layer{number}["{title.split(":")[0]}"]')
        text += [f"    {crate}" for crate in crates]
        text.append("  end")
    text += [f"  {one} --> {crate}" for crate in own for one in direct(crate, own)]
    text += ["```", ""]
    sums = [0, 0, 0]
    for title, crates in found:
        text += [f"## {title}", "", "| Crate | What it is | Stands on | Source | Definitions | Proofs |", "|---|---|---|---|---|---|"]
        for crate in crates:
            sizes = [lines(crate, "src", ".rt"), lines(crate, "specs", ".antt"), lines(crate, "proofs", ".antt")]
            sums = [one + size for one, size in zip(sums, sizes)]
            outer = [one for one in libraries[crate] if one not in own]
            below = ", ".join([f"`{one}`" for one in direct(crate, own)] + [f"(`{one}`)" for one in outer])
            text.append(f"| `{crate}` | {sentence(crate)} | {below} | {sizes[0]} | {sizes[1]} | {sizes[2]} |")
        text.append("")
    text += [f"In all: {sums[0]} lines of source with its contracts, {sums[1]} of definitions, {sums[2]} of proofs. A crate in parentheses is the",
             "toolchain's. Of the crates that one names only those are listed that no other of them leads to."]
    return "\n".join(text) + "\n"


def plain(text):
    """A page without its figures, which are those of the day on which it was written."""
    return re.sub(r"\d+", "0", text)


def main():
    os.chdir(os.path.join(os.path.dirname(os.path.abspath(__file__)), ".."))
    text = page()
    if "--write" in sys.argv[1:]:
        with open("docs/MAP.md", "w") as out:
            out.write(text)
    elif not os.path.exists("docs/MAP.md") or plain(open("docs/MAP.md").read()) != plain(text):
        print("docs/MAP.md is not what .ci/map.py makes of the sources: run python3 .ci/map.py --write")


if __name__ == "__main__":
    main()
