#!/usr/bin/env python3
"""Times a call of bin/interproc and of the program that it runs, on a program of the gallery.

    bench/calls.py [CALLS]

Prints the least and the middle of CALLS calls (60 by default) of each, in milliseconds on the clock and of a processor; on a
busy machine the least is what counts. It wants a built program of these very sources. Nothing here is part of the tests.
"""
import os
import pathlib
import subprocess
import sys
import time

TOP = pathlib.Path(__file__).resolve().parent.parent
EXAMPLE = str(TOP / "examples" / "counting.spl")


def timed(words):
    began = time.perf_counter()
    child = subprocess.Popen(words, stdout=subprocess.DEVNULL, stderr=subprocess.DEVNULL)
    _, _, used = os.wait4(child.pid, 0)
    return 1000 * (time.perf_counter() - began), 1000 * (used.ru_utime + used.ru_stime)


def main():
    calls = int(sys.argv[1]) if len(sys.argv) > 1 else 60
    found = subprocess.run([TOP / "bin" / "program"], capture_output=True, text=True)
    if found.returncode:
        sys.exit("there is no built program of these sources: run bin/build")
    for name, words in (("the program", [found.stdout.strip(), EXAMPLE]), ("bin/interproc", [str(TOP / "bin" / "interproc"), EXAMPLE])):
        clock, processor = zip(*(timed(words) for _ in range(calls)))
        print(f"{name:14} clock {min(clock):6.1f} least {sorted(clock)[calls // 2]:6.1f} middle; processor {min(processor):6.1f} least {sorted(processor)[calls // 2]:6.1f} middle")


if __name__ == "__main__":
    main()
