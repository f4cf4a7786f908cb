#!/usr/bin/env python3
"""Gives the built program hostile inputs and stops at the first answer that is none of its own.

    bench/hostile.py PROGRAM [SECONDS] [SEED]

Each input is a text or a list of words, with the streams and the folder that it is given in: random bytes and tokens,
programs of examples/ with a byte changed, small random programs, words of no form, folders, files that can't be read or
vanish, an output that is closed or full. An answer is one of the program's own where its status is 0 to 5, standard error
holds the one line of that status (none for 0 and 1), and it took at most a second of a processor and 200 MB, and ended
within twenty seconds however busy the machine is. Works on all processors for SECONDS (60 by default) and prints how many
inputs of each kind there were, by status, and how long they took by the processor and on the clock. Nothing here is part
of the tests.
"""
import collections
import contextlib
import multiprocessing
import os
import pathlib
import random
import re
import signal
import subprocess
import sys
import tempfile
import time

EXAMPLES = pathlib.Path(__file__).resolve().parent.parent / "examples"
TOKENS = (
    "var proc returns begin end if then else endif while do done assume skip fail random true false not and or int "
    "x y z p ( ) , : ; = == != < <= > >= + - * / % 0 1 7 2305843009213693952 2305843009213693953 @ ! /* */ // "
).split()
WORDS = (
    "--delay --descend --full --domain dec full zone 0 1 2 1000 1001 -1 +1 01 -- - --help --version -h bench replay 42 43 "
    "99999999999999999999 --delay=1 é"
).split()
RULES = (
    "BadByte|OpenComment|BigLiteral|LongName|TooDeep|LongRun|Syntax|DuplicateName|UnsupportedType|"
    "UnknownVariable|UnknownProcedure|WrongCount|RepeatedTarget|WrongKind|TooManyVariables|TooManyProcedures|"
    "TooManyPoints|BadChoices"
)
LINES = {
    0: rb"",
    1: rb"",
    2: rb"usage: interproc \[--delay N\] \[--descend N\] \[--full\] \[--domain dec\|full\] FILE\n",
    3: rb"refused: ((%s) at L\d+ C\d+|TooLong|NotARun \d+|Wide \d+)\n" % RULES.encode(),
    4: rb"fault: (CannotOpen|ReadFault|WriteFault)\n",
    5: rb"out of memory\n",
}
MOST_SECONDS = 1.0
MOST_BYTES = 200 << 20


# ---- texts


def random_bytes(rng):
    return rng.randbytes(rng.randrange(200))


def random_tokens(rng):
    return " ".join(rng.choices(TOKENS, k=rng.randrange(60))).encode()


def changed(rng, text):
    """The text with a byte changed, dropped, doubled, or cut off there."""
    at = rng.randrange(len(text))
    return rng.choice([
        lambda: text[:at] + rng.randbytes(1) + text[at + 1:],
        lambda: text[:at] + text[at + 1:],
        lambda: text[:at] + text[at:at + 1] + text[at:],
        lambda: text[:at],
    ])()


def expression(rng, depth):
    kind = rng.randrange(6 if depth else 3)
    if kind < 2:
        return rng.choice("xyz")
    if kind == 2:
        return str(rng.choice([0, 1, 2, 10, 2**60, 2**61]))
    return f"({expression(rng, depth - 1)} {rng.choice('+-*')} {expression(rng, depth - 1)})"


def condition(rng, depth):
    kind = rng.randrange(6 if depth else 4)
    if kind == 0:
        return rng.choice(["true", "false", "random"])
    if kind < 4:
        return f"{expression(rng, 1)} {rng.choice(['<', '<=', '==', '!=', '>', '>='])} {expression(rng, 1)}"
    if kind == 4:
        return f"not ({condition(rng, depth - 1)})"
    return f"(({condition(rng, depth - 1)}) {rng.choice(['and', 'or'])} ({condition(rng, depth - 1)}))"


def statements(rng, depth):
    return " ".join(statement(rng, depth) for _ in range(rng.randrange(1, 4)))


def statement(rng, depth):
    kind = rng.randrange(9 if depth else 6)
    if kind < 2:
        return f"{rng.choice('xyz')} = {expression(rng, 2)};"
    if kind == 2:
        return f"{rng.choice('xyz')} = random;"
    if kind == 3:
        return f"assume {condition(rng, 2)};"
    if kind == 4:
        return f"x = p({rng.choice('xyz')}, {rng.choice('xyz')});"
    if kind == 5:
        return "fail;"
    if kind < 8:
        return f"if {condition(rng, 1)} then {statements(rng, depth - 1)} else {statements(rng, depth - 1)} endif;"
    return f"while {condition(rng, 1)} do {statements(rng, depth - 1)} done;"


def random_program(rng):
    body = statements(rng, 2)
    return (
        f"proc p(x:int, y:int) returns (z:int) begin {statements(rng, 1)} end "
        f"var x:int, y:int, z:int; begin {body} end"
    ).encode()


# ---- inputs: a kind, a text for the file `program`, words, and how the streams stand


def text_of(rng, gallery):
    kind = rng.randrange(4)
    if kind == 0:
        return "bytes", random_bytes(rng)
    if kind == 1:
        return "tokens", random_tokens(rng)
    if kind == 2:
        return "changed program", changed(rng, rng.choice(gallery))
    return "random program", random_program(rng)


def random_words(rng):
    some = rng.choices([*WORDS, "program", "choices", "folder", "missing"], k=rng.randrange(6))
    if rng.random() < 0.1:
        some.append(rng.randbytes(rng.randrange(1, 5)).replace(b"\0", b"?"))
    return some


def choices_of(rng):
    """A list of choices: mostly numbers, now and then something else."""
    lines = [" ".join(str(rng.choice([0, 1, 2, 5, -1, 2**64, 2**127])) for _ in range(rng.randrange(1, 4))) for _ in range(rng.randrange(8))]
    text = "\n".join(lines).encode()
    return changed(rng, text) if text and rng.random() < 0.3 else text


def input_of(rng, gallery):
    kind, text = text_of(rng, gallery)
    draw = rng.random()
    if draw < 0.5:
        return kind, text, ["program"], "open"
    if draw < 0.6:
        options = rng.choice([["--full"], ["--domain", "full"], ["--delay", "4"], ["--descend", "0"]])
        return "with options", text, [*options, "program"], "open"
    if draw < 0.7:
        return "words", text, random_words(rng), "open"
    if draw < 0.8:
        return "replay", text, ["replay", "program", "choices"], "open"
    if draw < 0.85:
        return "unusual file", text, [rng.choice(["folder", "missing", "unreadable", "vanishing"])], "open"
    return "output", text, ["program"], rng.choice(["full", "broken pipe", "closed", "closed error"])


# ---- runs


def streams(state, out, err):
    """What is done to the descriptors of the new process."""
    writing = os.O_WRONLY | os.O_CREAT | os.O_TRUNC
    actions = [(os.POSIX_SPAWN_OPEN, 0, "/dev/null", os.O_RDONLY, 0)]
    if state == "full":
        actions.append((os.POSIX_SPAWN_OPEN, 1, "/dev/full", os.O_WRONLY, 0))
    elif state == "closed":
        actions.append((os.POSIX_SPAWN_CLOSE, 1))
    elif state != "broken pipe":
        actions.append((os.POSIX_SPAWN_OPEN, 1, out, writing, 0o600))
    if state == "closed error":
        actions.append((os.POSIX_SPAWN_CLOSE, 2))
    else:
        actions.append((os.POSIX_SPAWN_OPEN, 2, err, writing, 0o600))
    return actions


def run(program, words, state):
    """The status, standard error, the seconds of a processor and on the clock, and the bytes of one run in this folder."""
    actions = streams(state, "out", "err")
    ends = []
    if state == "broken pipe":
        reader, writer = os.pipe()
        os.close(reader)
        actions.append((os.POSIX_SPAWN_DUP2, writer, 1))
        ends.append(writer)
    began = time.perf_counter()
    child = os.posix_spawn(program, [program, *words], os.environ, file_actions=actions)
    for end in ends:
        os.close(end)
    if words == ["vanishing"]:
        with contextlib.suppress(FileNotFoundError):
            os.unlink("vanishing")
    signal.setitimer(signal.ITIMER_REAL, 20 * MOST_SECONDS)
    try:
        _, status, used = os.wait4(child, 0)
    except TimeoutError:
        os.kill(child, signal.SIGKILL)
        _, status, used = os.wait4(child, 0)
    signal.setitimer(signal.ITIMER_REAL, 0)
    said = b"" if state == "closed error" else pathlib.Path("err").read_bytes()
    waited = time.perf_counter() - began
    return os.waitstatus_to_exitcode(status), said, used.ru_utime + used.ru_stime, waited, used.ru_maxrss << 10


def fault_of(state, status, said, seconds, size):
    """What is wrong with an answer; none if nothing is."""
    if status not in LINES:
        return f"status {status}"
    if state != "closed error" and not re.fullmatch(LINES[status], said):
        return f"status {status} with the line {said!r}"
    if status == 5:
        return "out of memory"
    if state in ("full", "broken pipe", "closed") and status in (0, 1):
        return f"status {status} though nothing can be written"
    if seconds > MOST_SECONDS:
        return f"{seconds:.2f} seconds"
    if size > MOST_BYTES:
        return f"{size >> 20} MB"
    return None


def raise_timeout(number, frame):
    raise TimeoutError


def work(program, until, seed, results):
    """Tries inputs; whatever stops it, the one that waits for its figures gets an answer."""
    try:
        try_inputs(program, until, seed, results)
    except BaseException as fault:
        results.put((f"this script failed: {fault!r}", "", "", [], b"", b""))
        results.put((collections.Counter(), 0.0, 0.0, 0, 0))
        raise


def try_inputs(program, until, seed, results):
    rng = random.Random(seed)
    gallery = [path.read_bytes() for path in sorted(EXAMPLES.glob("*.spl"))]
    signal.signal(signal.SIGALRM, raise_timeout)
    counts, slowest, longest, late, largest = collections.Counter(), 0.0, 0.0, 0, 0
    with tempfile.TemporaryDirectory() as folder:
        os.chdir(folder)
        os.mkdir("folder")
        pathlib.Path("unreadable").write_bytes(b"begin end")
        os.chmod("unreadable", 0)
        while time.time() < until:
            kind, text, words, state = input_of(rng, gallery)
            pathlib.Path("program").write_bytes(text)
            if words == ["vanishing"]:
                pathlib.Path("vanishing").write_bytes(text)
            if "choices" in words:
                pathlib.Path("choices").write_bytes(choices_of(rng))
            status, said, seconds, waited, size = run(program, words, state)
            wrong = fault_of(state, status, said, seconds, size)
            if wrong:
                results.put((wrong, kind, state, words, text, pathlib.Path("choices").read_bytes() if "choices" in words else b""))
                break
            counts[kind, status] += 1
            slowest, longest, largest = max(slowest, seconds), max(longest, waited), max(largest, size)
            late += waited > MOST_SECONDS
        os.chdir("/")
    results.put((counts, slowest, longest, late, largest))


def program_of(word):
    """The path of the program; where it is none, or no analyser, this says so and ends."""
    path = pathlib.Path(word).resolve()
    if not path.is_file() or not os.access(path, os.X_OK):
        sys.exit(f"{word}: this is no program that can be run; give the built one, as out/interproc")
    try:
        said = subprocess.run([path], stdin=subprocess.DEVNULL, capture_output=True, timeout=20)
    except (OSError, subprocess.TimeoutExpired) as fault:
        sys.exit(f"{word}: it can't be run: {fault}")
    if said.returncode != 2 or not re.fullmatch(LINES[2], said.stderr):
        sys.exit(f"{word}: this is another program: with no words the analyser ends with status 2 and its line on usage")
    return str(path)


def main():
    if len(sys.argv) < 2:
        sys.exit(__doc__)
    program = program_of(sys.argv[1])
    seconds = float(sys.argv[2]) if len(sys.argv) > 2 else 60.0
    seed = int(sys.argv[3]) if len(sys.argv) > 3 else random.randrange(1 << 32)
    print(f"seed {seed}")
    results = multiprocessing.Queue()
    until = time.time() + seconds
    workers = [
        multiprocessing.Process(target=work, args=(program, until, f"{seed} {k}", results))
        for k in range(os.cpu_count() or 1)
    ]
    for worker in workers:
        worker.start()
    totals, slowest, longest, late, largest = collections.Counter(), 0.0, 0.0, 0, 0
    faults, left = [], len(workers)
    while left:
        answer = results.get()
        if isinstance(answer[0], collections.Counter):
            totals.update(answer[0])
            slowest, longest, largest = max(slowest, answer[1]), max(longest, answer[2]), max(largest, answer[4])
            late += answer[3]
            left -= 1
        else:
            faults.append(answer)
    for worker in workers:
        worker.join()
    for (kind, status), count in sorted(totals.items()):
        print(f"{kind:16} status {status}  {count:8}")
    print(f"{sum(totals.values())} inputs, the slowest {slowest:.3f} s of a processor, the largest {largest / (1 << 20):.0f} MB")
    print(f"on the clock, the machine's other work with it: the longest {longest:.3f} s, {late} over a second")
    for wrong, kind, state, words, text, choices in faults:
        print(f"WRONG: {wrong}: {kind}, output {state}, words {words}\n{text!r}\n{choices!r}")
    sys.exit(1 if faults else 0)


if __name__ == "__main__":
    main()
