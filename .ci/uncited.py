#!/usr/bin/env python3
"""Lists the lemmas of crates/*/proofs/*.antt that nothing cites: each stands in the repository's proofs once, at home."""
import os
import re
import subprocess
from collections import Counter, defaultdict

os.chdir(os.path.join(os.path.dirname(os.path.abspath(__file__)), ".."))
WORD = re.compile(r"[^\s(){}\[\],;.]+")
DECLARED = re.compile(r"^(?:abbrev |unfoldable )*(?:pub )?(?!use |mod |record |data |mutual)([^\s:(){}]+) : ")

listed = subprocess.run(["git", "ls-files", "crates"], capture_output=True, text=True).stdout.split()
cited, home = Counter(), defaultdict(list)
for path in listed:
    if not re.search(r"\.(antt|rt)$", path) or not os.path.exists(path):
        continue
    with open(path) as text:
        lines = text.read().split("\n")
    own = set()
    for line in lines:
        found = DECLARED.match(line) if re.match(r"crates/[a-z0-9_]+/proofs/[A-Za-z0-9]+\.antt$", path) else None
        if found:
            own.add(found[1])
            home[found[1]].append(path)
    for line in lines:
        words = WORD.findall(line.split("--")[0])
        # A line that begins with a name states or defines it; its first word is no citation.
        if words and words[0] in ("pub", "abbrev", "unfoldable"):
            words = [word for word in words if word not in own or words.index(word) > 2]
        elif words and words[0] in own and not line[0].isspace():
            words = words[1:]
        cited.update(set(words))
for name in sorted(home, key=lambda name: home[name]):
    if not cited[name]:
        print(f"{home[name][0]}: nothing cites {name}")
