#!/usr/bin/env python3
"""Counts the requests for memory of a program that shares one matrix a hundred times.

    bench/sharing.py

The program makes a `HalfMatrix` over 128 variables and a list with a hundred places, and pushes as many shares of the matrix
to the list as its word says. Here it asks for memory as often with a hundred shares as with none: no share asks for any,
and the list's own request is in both numbers. Prints both, and ends with status 1 where they differ. The program is proved
and built by `rt` in a temporary folder, beside copies of the crates below it. Needs `rt` and a C compiler (`cc`): requests
are counted by the library of `refused.py`. Nothing here is part of the tests.
"""
import pathlib
import shutil
import subprocess
import sys
import tempfile

sys.dont_write_bytecode = True
from refused import built_shim, run

ROOT = pathlib.Path(__file__).resolve().parent.parent
MAIN = r"""//! Makes a matrix and as many shares of it as the word says, and prints the number of their variables.
#![tactic(auto)]

use half_matrix::{HalfMatrix, NoMemory};
use std::alloc::Global;
use std::env;
use std::process::ExitCode;

fn number(rt: &HostRuntime) -> Option<u32> {
    let mut args = env::args(rt).ok()?;
    let _program = args.next();
    args.next()?.parse::<u32>().ok()
}

fn variables(alloc: Global, count: u32) -> Result<u64, NoMemory> {
    let one = HalfMatrix::top(alloc, 128)?;
    let mut shares = Vec::with_capacity(alloc, 100)?;
    for _ in 0..count {
        shares.push(one.share()?)?;
    }
    let mut sum = one.buf().vars() as u64;
    for share in &shares {
        sum = sum.saturating_add(share.buf().vars() as u64);
    }
    Ok(sum)
}

fn main(rt: HostRuntime) -> ExitCode {
    let Some(count) = number(&rt) else {
        return ExitCode::from(2);
    };
    let Ok(sum) = variables(rt.alloc(), count) else {
        return ExitCode::from(1);
    };
    if println!(rt; "{sum}").is_err() {
        return ExitCode::from(1);
    }
    ExitCode::from(0)
}
"""


def lines_below(name):
    """The lines of crates.txt of a crate and of those below it."""
    lines = [line.split(":") for line in (ROOT / "crates.txt").read_text().splitlines() if line and line[0] != "#"]
    uses = {crate.strip(): rest.split() for crate, rest in lines}
    found, left = {}, [name]
    while left:
        crate = left.pop()
        if crate in uses and crate not in found:
            found[crate] = uses[crate]
            left += uses[crate]
    return found


def built_program(folder):
    crates = lines_below("half_matrix")
    for crate in crates:
        shutil.copytree(ROOT / "crates" / crate, folder / "crates" / crate, ignore=shutil.ignore_patterns("out"))
    crates["sharing"] = ["half_matrix"]
    (folder / "crates.txt").write_text("".join(f"{crate}: {' '.join(uses)}\n" for crate, uses in crates.items()))
    main = folder / "crates" / "sharing" / "src" / "main.rt"
    main.parent.mkdir(parents=True)
    main.write_text(MAIN)
    done = subprocess.run(["rt", "run", "--", "0"], cwd=folder / "crates" / "sharing", capture_output=True, text=True)
    if done.returncode:
        sys.exit(done.stdout + done.stderr)
    return main.parent.parent / "out" / "sharing"


def requests(program, shares, shim, folder):
    """How often the program asks for memory."""
    told = folder / "requests"
    wanted = (0, f"{128 * (shares + 1)}\n".encode(), b"")
    got = run(program, [str(shares)], shim, 0, told)
    if got != wanted:
        sys.exit(f"{shares} shares give {got}")
    return int(told.read_text())


def main():
    if len(sys.argv) > 1:
        sys.exit(__doc__)
    with tempfile.TemporaryDirectory() as name:
        folder = pathlib.Path(name)
        program, shim = built_program(folder), built_shim(folder)
        without, shared = (requests(program, shares, shim, folder) for shares in (0, 100))
    print(f"{without:8} requests without shares, {shared:8} with a hundred")
    sys.exit(without != shared)


if __name__ == "__main__":
    main()
