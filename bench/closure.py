#!/usr/bin/env python3
"""Times the proved closure of one block, built for any x86-64 processor and for one with AVX2.

    bench/closure.py [SECONDS]

Builds crates/closing_bench in both ways (`rt run`, and `rt run --cpu=x86-64-v3`), keeps both programs in a temporary
folder, and runs them in turns at 4 to 128 variables, for about SECONDS (1 by default) at each number of variables. It
prints the microseconds for one closure of a dense matrix, the best of several runs, and stops where the two programs
answer differently. Nothing here is part of the tests.
"""
import pathlib
import shutil
import subprocess
import sys
import tempfile
import time

CRATE = pathlib.Path(__file__).resolve().parent.parent / "crates" / "closing_bench"
SIZES = (4, 8, 16, 32, 64, 128)
BUILDS = {"default": (), "AVX2": ("--cpu=x86-64-v3",)}
RUNS = 15


def built(folder, name, flags):
    """A copy of the program, built with these flags."""
    program = CRATE / "out" / "closing_bench"
    program.unlink(missing_ok=True)
    subprocess.run(["rt", "run", *flags], cwd=CRATE, stdout=subprocess.DEVNULL, stderr=subprocess.DEVNULL)
    return shutil.copy(program, pathlib.Path(folder) / name)


def timed(program, variables, times):
    start = time.perf_counter()
    done = subprocess.run([program, str(variables), str(times)], check=True, capture_output=True, text=True)
    return time.perf_counter() - start, done.stdout


def main():
    seconds = float(sys.argv[1]) if len(sys.argv) > 1 else 1.0
    with tempfile.TemporaryDirectory() as folder:
        programs = {name: built(folder, name, flags) for name, flags in BUILDS.items()}
        print("variables", *programs, sep="\t")
        for variables in SIZES:
            times = max(1, int(seconds * 4e8 / RUNS / (variables + 2) ** 3))
            best = {}
            for _ in range(RUNS):
                answers = set()
                for name, program in programs.items():
                    idle, _ = timed(program, variables, 0)
                    spent, answer = timed(program, variables, times)
                    answers.add(answer)
                    best[name] = min(best.get(name, spent), spent - idle)
                if len(answers) != 1:
                    sys.exit(f"the programs differ at {variables} variables: {answers}")
            print(variables, *(f"{1e6 * best[name] / times:.2f}" for name in programs), sep="\t")


if __name__ == "__main__":
    main()
