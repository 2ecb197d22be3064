"""What the checks of programs as processes share: the programs, their runs, and comparisons."""

import contextlib
import functools
import pathlib
import subprocess
import tempfile

TOP = pathlib.Path(__file__).resolve().parent.parent.parent

# The folder of the programs. Without one they are those of this repository, released or built.
programs = {"folder": None}
differences = []


@functools.cache
def path(program):
    if programs["folder"]:
        return str(pathlib.Path(programs["folder"]).resolve() / program / "out" / program)
    return subprocess.check_output([TOP / "run", "--path", program], stdin=subprocess.DEVNULL, text=True).rstrip("\n")


def compare(what, found, wanted):
    """Prints a difference, and counts it."""
    if found != wanted:
        differences.append(what)
        print(f"{what}: {found!r}, and not {wanted!r}")


def run(program, words, given=b"", **streams):
    """A run to its end: its status, and what it wrote to both outputs."""
    streams = {"stdout": subprocess.PIPE, "stderr": subprocess.PIPE, **streams}
    if "stdin" not in streams:
        streams["input"] = given
    done = subprocess.run([path(program), *words], cwd=TOP, timeout=60, **streams)
    return done.returncode, done.stdout, done.stderr


@contextlib.contextmanager
def file_of(data):
    """The name of a file with these bytes."""
    with tempfile.NamedTemporaryFile() as file:
        file.write(data)
        file.flush()
        yield file.name
