"""Reading a file and running the analyser on it."""
import os


def read_file(path):
    """The file's bytes; nothing where it can't be read, which the analyser tells."""
    try:
        with open(path, "rb") as file:
            return file.read()
    except OSError:
        return b""


def run_on(program, path, options):
    """The file's bytes, and the analyser's answer; where the file can be read but once, as a pipe, on its bytes."""
    data = read_file(path)
    if os.path.isfile(path) or not data:
        return data, program.run([*options, "--", path])
    return data, program.run_texts([data], options)[0]
