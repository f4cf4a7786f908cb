"""The analyser's program: where it is, its words, and running it on files and on texts."""
import concurrent.futures
import dataclasses
import os
import pathlib
import re
import shutil
import subprocess
import sys
import tempfile

TOP = pathlib.Path(__file__).resolve().parent.parent.parent

# The options of an analysis, each with what its value is; none where it has no value.
OPTIONS = {"--delay": "N", "--descend": "N", "--full": None, "--domain": "dec|full"}
# The commands that are no analysis, each with its words.
COMMANDS = {"replay": ("FILE", "CHOICES"), "bench": ("N",)}
ANALYSIS_USAGE = " ".join(f"[{name} {value}]" if value else f"[{name}]" for name, value in OPTIONS.items())


@dataclasses.dataclass
class Answer:
    """What a run of the program gave."""

    status: int
    out: str
    err: str

    @property
    def line(self):
        """The program's own line on standard error: the last one."""
        lines = self.err.splitlines()
        return lines[-1] if lines else ""

    def refusal(self):
        """The rule, line and column of a refusal that has a place; else none."""
        said = re.fullmatch(r"refused: ([A-Za-z]+) at L(\d+) C(\d+)", self.line)
        return (said[1], int(said[2]), int(said[3])) if said else None


def version():
    """The version of this repository, or of what was installed from it."""
    return (TOP / "VERSION").read_text().strip()


class Program:
    """The proved program where it is there, else the quick way that compiles the sources in about a minute."""

    def __init__(self):
        self.path = os.environ.get("INTERPROC")
        self.is_quick = False
        if self.path:
            return
        self.path = str(TOP / "bin" / "interproc")
        finder = TOP / "bin" / "program"
        if finder.exists():
            found = subprocess.run([finder], capture_output=True, text=True)
            self.is_quick = found.returncode != 0
            if not self.is_quick:
                self.path = found.stdout.strip()

    def run(self, words):
        """One call. What the wrapper says of its own way goes to standard error at once."""
        try:
            # The quick way tells how long it takes: its lines are shown as they come.
            ran = subprocess.Popen([self.path, *words], stdin=subprocess.DEVNULL, stdout=subprocess.PIPE, stderr=subprocess.PIPE)
        except OSError as fault:
            print(f"{self.path}: {fault.strerror}", file=sys.stderr)
            sys.exit(4)
        if not self.is_quick:
            out, err = ran.communicate()
        else:
            with concurrent.futures.ThreadPoolExecutor(1) as reader:
                reading = reader.submit(ran.stdout.read)
                err = b""
                for line in ran.stderr:
                    err += line
                    if line.startswith(b"interproc:"):
                        sys.stderr.write(line.decode(errors="replace"))
                        sys.stderr.flush()
                out = reading.result()
                ran.wait()
        return Answer(ran.returncode, decoded(out), decoded(err))

    def run_texts(self, texts, options=()):
        """An answer for each text; with no built program they are compiled for once, and run one after the other."""
        with tempfile.TemporaryDirectory(prefix="interproc-") as folder:
            names = [f"{number:05}.spl" for number in range(len(texts))]
            for name, text in zip(names, texts):
                (pathlib.Path(folder) / name).write_bytes(text)
            if self.is_quick:
                return self.run_cases(folder, names, options)
            with concurrent.futures.ThreadPoolExecutor(min(8, os.cpu_count() or 1)) as pool:
                return list(pool.map(lambda name: self.run([*options, f"{folder}/{name}"]), names))

    def run_cases(self, folder, names, options):
        """The toolchain's quick way for many files: it compiles once."""
        if shutil.which("rt") is None:
            print("the toolchain is missing: there is no rt on the PATH", file=sys.stderr)
            sys.exit(4)
        print(f"interproc: compiling once more, for {len(names)} texts at once", file=sys.stderr)
        ran = subprocess.run(
            ["rt", "try", "--cases", folder, "--", *options, "{}"],
            cwd=TOP / "crates" / "interproc", stdin=subprocess.DEVNULL, capture_output=True,
        )
        outs = re.split(r"^== (\S+\.spl)\n", decoded(ran.stdout), flags=re.M)
        out_of = dict(zip(outs[1::2], outs[2::2]))
        answers, said = {}, []
        for line in decoded(ran.stderr).splitlines():
            case = re.match(r"case=(\S+) run=ended status=(\d+)", line)
            if case:
                answers[case[1]] = Answer(int(case[2]), out_of.get(case[1], ""), "\n".join(said))
            said = [] if line.startswith("case=") else [*said, line]
        missing = [name for name in names if name not in answers]
        if missing:
            print("interproc: the quick way gave no answer for some texts; the program that bin/build makes would", file=sys.stderr)
            sys.exit(4)
        return [answers[name] for name in names]


def decoded(data):
    return data.decode("utf-8", "surrogateescape")


@dataclasses.dataclass
class Words:
    """The words of a call: those for the program, the files, and the tool's own options with their values."""

    options: list
    files: list
    own: dict


def read_words(words, tool, usage, own, about):
    """Sorts the words; --help and --version answer themselves, and a word that is of no form ends with status 2.

    `own` are the tool's own options, each with whether it takes a value; `about` is the help after the usage.
    """
    options, files, mine = [], [], {}

    def refuse(what):
        print(f"{tool}: {what}\nusage: {usage}", file=sys.stderr)
        sys.exit(2)

    rest = list(words)
    while rest:
        word = rest.pop(0)
        name, equals, value = word.partition("=")
        if word == "--":
            files += rest
            break
        if word in ("--help", "-h"):
            print(f"usage: {usage}\n\n{about.strip()}")
            sys.exit(0)
        if word == "--version":
            print(f"{tool} {version()}")
            sys.exit(0)
        if name in own or name in OPTIONS:
            takes = own[name] if name in own else OPTIONS[name] is not None
            if takes and not equals:
                if not rest:
                    refuse(f"{name} wants a value")
                value = rest.pop(0)
            elif not takes and equals:
                refuse(f"{name} has no value, and here is {word}")
            if name in own:
                mine[name] = value if takes else True
            else:
                options += [name, value] if takes else [name]
        elif word.startswith("-") and word != "-":
            refuse(f"{word} is no option")
        else:
            files.append(word)
    return Words(options, files, mine)


def usage_fault(tool, usage, what):
    """Ends with status 2 and says what is wrong with the words."""
    print(f"{tool}: {what}\nusage: {usage}", file=sys.stderr)
    sys.exit(2)
