"""Tries each row of docs/messages.md: the line in its first column is what its file or call gives on standard error."""
import re
import subprocess
import sys
import tempfile

WANTED = {"refused": 3, "fault": 4, "usage": 2}
rows = re.findall(r"^\| `((?:refused|fault|usage).*?)` \| `(.*?)` \|", open("docs/messages.md").read(), re.M)
if len(rows) < 20:
    print("docs/messages.md has no table of messages that can be read")
for line, shown in rows:
    line, shown = line.replace("\\|", "|"), shown.replace("\\|", "|")
    with tempfile.NamedTemporaryFile(suffix=".spl") as program:
        if shown.startswith("bin/interproc"):
            call = shown
        else:
            text = subprocess.run(["bash", "-c", shown[2:]], capture_output=True).stdout if shown.startswith("$ ") else shown.encode()
            program.write(text)
            program.flush()
            call = f"bin/interproc {program.name}"
        ran = subprocess.run(["bash", "-c", call], capture_output=True, text=True)
        last = ran.stderr.splitlines()[-1:] or [""]
        if last[0] != line or ran.returncode != WANTED[line.split(":")[0]]:
            print(f"{shown[:60]}: gives `{last[0]}` with status {ran.returncode}, and docs/messages.md says `{line}`")
sys.exit(0)
