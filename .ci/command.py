"""Tries how bin/interproc finds its program, on a copy of the sources with a program that says which one ran."""
import os
import pathlib
import shutil
import subprocess
import tempfile
import time

TOP = pathlib.Path(__file__).resolve().parent.parent
RT = """#!/bin/sh
case $1 in
    version) echo kit-one ;;
    try)
        echo quick-answer
        echo "${TRIED:-run=ended status=0 proved=no}" >&2
        ;;
esac
"""
PLAIN = "/usr/bin:/bin"


def run(words, path, **more):
    return subprocess.run(words, env={"PATH": path, **more}, capture_output=True, text=True)


def want(said, is_so):
    if not is_so:
        print(said)


def executable(path, text):
    path.parent.mkdir(parents=True, exist_ok=True)
    path.write_text(text)
    path.chmod(0o755)


def copy_of_sources(folder):
    """The commands of bin/ over a few sources."""
    copy = folder / "copy"
    shutil.copytree(TOP / "bin", copy / "bin")
    (copy / "out").mkdir()
    for crate in ("memory", "interproc"):
        shutil.copytree(TOP / "crates" / crate, copy / "crates" / crate, ignore=shutil.ignore_patterns("out"))
    shutil.copy(TOP / "crates.txt", copy)
    shutil.copy(TOP / "VERSION", copy)
    return copy


def main(folder):
    copy = copy_of_sources(folder)
    executable(folder / "kit" / "rt", RT)
    with_rt = f"{folder}/kit:{PLAIN}"
    command, source = str(copy / "bin" / "interproc"), copy / "crates" / "memory" / "src" / "lib.rt"
    program, noted = copy / "out" / "interproc", copy / "out" / "interproc.sources"
    executable(program, '#!/bin/sh\necho "program $*"\n')
    summed = run([copy / "bin" / "sources"], with_rt).stdout
    noted.write_text(f"{summed}kit-one\n")

    def says(what, path, wanted, words=("FILE",)):
        got = run([command, *words], path)
        want(f"{what}: {got.stdout}{got.stderr}", wanted in got.stdout + got.stderr)

    says("the first call", with_rt, "program FILE")
    # The files are older than two seconds from here on, so that a stamp is kept.
    time.sleep(2.1)
    says("a call that keeps a stamp", with_rt, "program FILE")
    want("no stamp was kept", (copy / "out" / "sources-rt.stamp").exists())
    says("a call by the stamp", with_rt, "program --delay 3 FILE", ("--delay", "3", "FILE"))
    says("without rt on the PATH", PLAIN, "program FILE")
    link = folder / "linked" / "interproc"
    link.parent.mkdir()
    link.symlink_to(command)
    want("through a link", run([link, "FILE"], PLAIN).stdout == "program FILE\n")
    want("through its name on the PATH", run(["bash", "-c", "interproc FILE"], f"{link.parent}:{PLAIN}").stdout == "program FILE\n")

    text = source.read_bytes()
    times = (source.stat().st_atime_ns, source.stat().st_mtime_ns)
    os.utime(source)
    says("a file that was touched alone", with_rt, "program FILE")
    # Other bytes of the same number, and the old times put back.
    source.write_bytes(text[:-2] + b"x\n" if text[-2:] != b"x\n" else text[:-2] + b"y\n")
    os.utime(source, ns=times)
    says("other sources", with_rt, "quick-answer")
    says("other sources, without rt", PLAIN, "there is no rt on the PATH")
    source.write_bytes(text)
    os.utime(source, ns=times)
    says("the sources as they were", with_rt, "program FILE")
    more = copy / "crates" / "memory" / "src" / "more.rt"
    more.write_text("")
    says("one file more", with_rt, "quick-answer")
    more.unlink()
    executable(folder / "kit" / "rt", RT.replace("kit-one", "kit-two"))
    says("another toolchain", with_rt, "quick-answer")
    says("a program of another toolchain where no rt is", PLAIN, "program FILE")
    executable(folder / "kit" / "rt", RT)

    program.unlink()
    quick = run([command, "FILE"], with_rt)
    want(f"the quick way says what it does: {quick.stderr}", "Each call costs this until bin/build has run" in quick.stderr)
    want("the quick way counts where nobody looks", "\r" not in quick.stderr)
    struck = run([command, "FILE"], with_rt, TRIED="checked: no-answer: the program did not end within the time limit\nrun=no-answer proved=no")
    want(f"its limit is named: {struck.stderr}", struck.returncode == 4 and "by a limit of this quick way: the program did not end" in struck.stderr)
    broken = run([command, "FILE"], with_rt, TRIED="error: this is wrong\nrun=none proved=no")
    want(f"its errors are shown: {broken.stderr}", broken.returncode == 4 and "error: this is wrong" in broken.stderr)


with tempfile.TemporaryDirectory() as name:
    main(pathlib.Path(name))
