"""Each file that a document of this repository links to, or names with its folder, is there."""
import os
import re
import subprocess

pages = subprocess.run(["git", "ls-files", "*.md"], capture_output=True, text=True).stdout.split()
for page in pages:
    text = open(page).read()
    for target in re.findall(r"\]\(([^)#\s]+)\)", text):
        if not target.startswith("http") and not os.path.exists(os.path.join(os.path.dirname(page), target)):
            print(f"{page}: links to {target}, which isn't there")
    for named in re.findall(r"`((?:docs|examples|crates|bin|bench|tools|\.ci)/[A-Za-z0-9_./-]+)`", text):
        if not os.path.exists(named):
            print(f"{page}: names {named}, which isn't there")
