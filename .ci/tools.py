"""Tries the tools: their words, their statuses, and the form of what they write."""
import html
import json
import os
import pathlib
import random
import re
import subprocess
import sys
import tempfile

TOP = pathlib.Path(__file__).resolve().parent.parent
sys.path.insert(0, str(TOP / "tools"))
from interproc_tools import report  # noqa: E402

TOOLS = ("explain", "diagnose", "page", "summary")
PROGRAMS = sorted((TOP / "examples").glob("*.spl"))


def run(words, **more):
    return subprocess.run(words, cwd=TOP, capture_output=True, text=True, **more)


def want(said, is_so):
    if not is_so:
        print(said)


def try_words():
    """--help, --version, an unknown word, and no word, of each tool."""
    commands = [f"tools/{tool}" for tool in TOOLS]
    for command in [*commands, "tools/release", "bin/build", "bin/install"]:
        helped = run([command, "--help"])
        want(f"{command} --help: no usage", helped.returncode == 0 and helped.stdout.startswith(f"usage: "))
        told = run([command, "--version"])
        want(f"{command} --version", told.returncode == 0 and (TOP / "VERSION").read_text().strip() in told.stdout)
        wrong = run([command, "--wrong", "x"])
        want(f"{command} --wrong: status {wrong.returncode}: {wrong.stderr}", wrong.returncode == 2 and "--wrong" in wrong.stderr)
    for command in commands:
        none = run([command])
        want(f"{command}: status {none.returncode}", none.returncode == 2 and "usage: " in none.stderr)


def try_diagnose(folder):
    wrong = folder / "wrong.spl"
    wrong.write_text("var x:int; begin x = x < 1; end")
    line = "examples/both.spl:13:5: warning: fail not excluded\n"
    for words in (["examples/both.spl"], ["examples/both.spl", "--delay", "3"], ["--delay=3", "examples/both.spl"]):
        got = run(["tools/diagnose", *words])
        want(f"diagnose {words}: {got.stdout}", got.stdout == line and got.returncode == 1)
    got = run(["tools/diagnose", wrong])
    begins = f"{wrong}:1:24: error: WrongKind: `<` makes a condition, and a number is wanted;"
    want(f"diagnose: {got.stdout}", got.stdout.startswith(begins) and got.stdout.count("\n") == 1 and got.returncode == 3)
    task = json.loads((TOP / "tools/vscode/tasks.json").read_text())["tasks"][0]["problemMatcher"]["pattern"]
    match = re.match(task["regexp"], got.stdout)
    want("the matcher of VS Code reads no line", match and match[task["line"]] == "1" and match[task["column"]] == "24")


def try_page(folder):
    """A page holds the report, byte for byte, and each line of the source; it is never empty."""
    for program in PROGRAMS:
        page = run(["tools/page", f"examples/{program.name}"]).stdout
        report = re.search('<pre id="report">(.*?)</pre>', page, re.S)
        want(f"page {program.name}: another report", report and html.unescape(report[1]) == program.with_suffix(".out").read_text())
        shown = re.findall(r'<div class="row".*?</a><span>(.*?)</span></div>$', page, re.M)
        lines = [html.unescape(re.sub("<[^>]*>", "", line)) for line in shown]
        want(f"page {program.name}: another source", lines == program.read_text().splitlines())
    wrong = folder / "wrong.spl"
    for words, status in (([wrong], 3), (["missing.spl"], 4), (["--wrong"], 2), (["--delay", "2000", "examples/first.spl"], 2)):
        page = run(["tools/page", *words])
        want(f"page {words}: status {page.returncode}", page.returncode == status and page.stdout.endswith("</body></html>\n"))


# ---- SARIF 2.1.0: what its schema asks of the parts that are written

LEVELS = ("none", "note", "warning", "error")
KINDS = ("notApplicable", "pass", "fail", "review", "open", "informational")


def try_sarif(log):
    want("sarif: version", log["version"] == "2.1.0" and log["$schema"].endswith("sarif-2.1.0.json") and set(log) <= {"$schema", "version", "runs"})
    for one in log["runs"]:
        driver = one["tool"]["driver"]
        names = [rule["id"] for rule in driver["rules"]]
        want("sarif: names of rules", driver["name"] and len(names) == len(set(names)) and one["columnKind"] in ("utf16CodeUnits", "unicodeCodePoints"))
        want("sarif: invocations", all(isinstance(call["executionSuccessful"], bool) for call in one["invocations"]))
        want("sarif: artifacts", all(isinstance(part["location"]["uri"], str) and part["length"] >= 0 for part in one["artifacts"]))
        for result in one["results"]:
            want(f"sarif: {result}", set(result) <= {"ruleId", "ruleIndex", "kind", "level", "message", "locations"})
            want("sarif: rule", names[result["ruleIndex"]] == result["ruleId"])
            want("sarif: level", result["level"] in LEVELS and result["kind"] in KINDS and (result["kind"] == "fail" or result["level"] == "none"))
            want("sarif: message", isinstance(result["message"]["text"], str) and result["message"]["text"])
            for place in result["locations"]:
                physical = place["physicalLocation"]
                want("sarif: place", " " not in physical["artifactLocation"]["uri"])
                region = physical.get("region", {"startLine": 1, "startColumn": 1, "endLine": 1, "endColumn": 2})
                want("sarif: region", all(isinstance(region[name], int) and region[name] >= 1 for name in region) and region["endColumn"] > region["startColumn"])


def try_summary(folder):
    right, wrong, odd = ["examples/both.spl", "examples/first.spl"], str(folder / "wrong.spl"), folder / "odd name é.spl"
    odd.write_text("/* é */ begin é end")
    lines = run(["tools/summary", *right])
    want(f"summary: {lines.stdout}", lines.stdout.splitlines()[-1] == "2 files, 0 refused; 1 of 2 fails shown unreachable" and lines.returncode == 1)
    for words, status in ((["examples/first.spl"], 0), ([*right, wrong], 3), ([*right, "missing.spl"], 4)):
        want(f"summary {words}", run(["tools/summary", *words]).returncode == status)
    piped = run(["tools/summary", "-"], input="begin fail; end")
    want(f"summary -: {piped.stdout}", piped.stdout.startswith("-  0 of 1 fail shown, open: 1:7"))
    found = json.loads(run(["tools/summary", "--json", *right, wrong]).stdout)
    want("summary --json", found["total"] == {"files": 3, "refused": 1, "shown": 1, "open": 1} and found["files"][2]["refusal"]["rule"] == "WrongKind")
    log = json.loads(run(["tools/summary", "--sarif", *right, wrong, str(odd), "missing.spl"]).stdout)
    try_sarif(log)
    want("summary --sarif: results", [result["ruleId"] for result in log["runs"][0]["results"]] == ["fail", "fail", "WrongKind", "BadByte", "CannotOpen"])
    # columns are counted in characters there
    want("summary --sarif: columns", log["runs"][0]["results"][3]["locations"][0]["physicalLocation"]["region"]["startColumn"] == 15)
    readable = run(["tools/summary", "--infix", "examples/counting.spl"]).stdout
    want(f"summary --infix: {readable}", "/* (L6 C17) 0 <= i <= n - 1, n >= 1 */" in readable and "/* (L8 C8) i >= 0, n >= 0, i = n */" in readable)


REPLAYS = (
    ("7 0\n0\n1\n", ":3:1: NotARun: step 2 picks edge 1, and here is edge 0 alone"),
    ("7\n", ":1:1: NotARun: step 0 begins a run with 2 values, and here are 1"),
    ("7 0\n0\n0\n1\n", ":4:1: NotARun: step 3 takes edge 1 (past the loop, where `x < 2` is false), and the condition comes out the other way"),
    ("7 0\n0 3\n", ":2:1: NotARun: step 1 stands at the entry of a procedure, where edge 0 leads to its first point and takes no value"),
    ("7 0\nx\n", ":2:1: BadChoices: `x` is no number"),
    ("7 0\n\n", ":2:1: BadChoices: this line is empty, and each line behind the first is a step"),
    ("7 0 \n", ":1:5: BadChoices: a number is missing here"),
    ("1" * 40 + " 0\n", ":1:1: BadChoices: this number has no place in 128 bits"),
)


def try_infix():
    """Readable constraints say the same as the report's, on values drawn near to where they are sharp."""
    rng = random.Random(1)
    for program in PROGRAMS:
        for point in report.read_report(program.with_suffix(".out").read_text()).points:
            readable = [re.sub(r"(?<![<>])=", "==", one.replace("@", "_in")) for one in report.infix(point.constraints)]
            names = sorted({name for one in point.constraints for _, name in one.terms})
            constants = [0, 1, -1, *(sign * one.constant for one in point.constraints for sign in (1, -1))]
            for _ in range(40):
                values = {name: rng.choice(constants) + rng.choice((-1, 0, 1)) for name in names}
                sums = [(one, sum(sign * values[name] for sign, name in one.terms) + one.constant) for one in point.constraints]
                holds = all(total == 0 if one.is_equal else total >= 0 for one, total in sums)
                said = all(eval(one, {}, {name.replace("@", "_in"): value for name, value in values.items()}) for one in readable)
                if holds != said:
                    print(f"{program.name}, point {point.number}: {point.note} and {readable} differ at {values}")
                    return


def try_fails(folder):
    """Why a fail is not excluded: what is missing, where it was lost, and what shows it."""
    lost = folder / "lost.spl"
    lost.write_text(LOST)
    for number, wanted in enumerate(WANTED, 1):
        got = run(["tools/explain", "--fail", str(number), lost]).stdout
        for part in wanted:
            want(f"explain --fail {number}: {got}", part in got)
    beyond = run(["tools/explain", "--fail", "9", lost])
    want(f"explain --fail 9: {beyond.stderr}", beyond.returncode == 2 and "has 5 fails" in beyond.stderr)


LOST = """proc step(n:int) returns (r:int) begin r = n + 1; if r > 100 then r = random; endif; end
var a:int, b:int, d:int, i:int, j:int, n:int;
begin
  assume a > b;
  d = a - b;
  if d < 1 then fail; endif;
  i = step(j);
  if i > 200 then fail; endif;
  a = random;
  if a > 5 then fail; endif;
  a = b * b;
  if a < 0 then fail; endif;
  if i + j + n > 3 then fail; endif;
end
"""
WANTED = (
    ["missing: d >= 1; nothing of that kind is known", "lost at `d = a - b;`", "no option shows it"],
    ["missing: i <= 200", "lost at the call `i = step(j);`, in line 7: the end of `step` says nothing of it"],
    ["`a` is any value since line 9"],
    ["lost at `a = b * b;`, in line 11: a product or a quotient"],
    ["missing: i + j + n <= 3, which relates 3 variables"],
)


def try_replays(folder):
    choices = folder / "some.choices"
    for text, wanted in REPLAYS:
        choices.write_text(text)
        told = run(["tools/explain", "replay", "examples/both.spl", choices])
        first = told.stdout.splitlines()[0].removeprefix(str(choices))
        want(f"explain replay of {text!r}: {first}", first == wanted and told.returncode == 3)
    right = run(["tools/explain", "replay", "examples/both.spl", "examples/both.choices"])
    want(f"explain replay: {right.stdout}", right.stdout == "examples/both.choices: a run of 11 steps, which ends at a fail\n")
    choices.write_text(f"{(1 << 127) - 1} 0\n0\n0\n0\n")
    wide = run(["tools/explain", "replay", "examples/open.spl", choices])
    want(f"explain replay: {wide.stdout}", ": Wide: step 2 computes a value past 128 bits" in wide.stdout)


def try_install(folder):
    """Installed below an empty folder, with neither the clone nor rt on the PATH, each command works; and it goes without a trace."""
    prefix = folder / "prefix"
    put = run(["bin/install", prefix])
    want(f"install: {put.stderr}", put.returncode == 0)
    away = {"PATH": f"{prefix}/bin:/usr/bin:/bin", "HOME": str(folder)}
    python = os.path.dirname(os.path.realpath(sys.executable))
    away["PATH"] += f":{python}"
    (folder / "p.spl").write_text((TOP / "examples/both.spl").read_text())
    for words, status, shown in (
        ("interproc p.spl", 1, "/* fail (L13 C5): not excluded */"),
        ("interproc-explain --fail 2 p.spl", 1, "missing: y <= -1 or y >= 1"),
        ("interproc-explain wrong.spl", 3, "WrongKind"),
        ("interproc-diagnose p.spl", 1, "p.spl:13:5: warning: fail not excluded"),
        ("interproc-page p.spl", 1, "1 of 2 fails shown unreachable"),
        ("interproc-summary p.spl", 1, "1 file, 0 refused"),
        ("interproc-summary --version", 0, "interproc-summary "),
    ):
        ran = subprocess.run(["bash", "-c", words], cwd=folder, env=away, capture_output=True, text=True)
        want(f"installed, {words}: status {ran.returncode}: {ran.stdout}{ran.stderr}", ran.returncode == status and shown in ran.stdout)
    run(["bin/install", "--uninstall", prefix])
    want(f"uninstalled, and there is {list(prefix.rglob('*'))}", not list(prefix.rglob("*")))


with tempfile.TemporaryDirectory() as name:
    try_words()
    try_diagnose(pathlib.Path(name))
    try_page(pathlib.Path(name))
    try_summary(pathlib.Path(name))
    try_infix()
    try_fails(pathlib.Path(name))
    try_replays(pathlib.Path(name))
    try_install(pathlib.Path(name))
