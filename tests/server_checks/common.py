"""What the checks of `lbserver` share: comparisons, the program, messages and rosters."""

import contextlib
import pathlib
import signal
import subprocess
import tempfile
import time

from serving import TOP, Server, message_bytes

LAYOUT = ("--roster", "examples/layout.toml")
POWER_ON, POWER_OFF, TAKE_3, USE_1 = "83 7C", "82 7D", "BF 00 03 43", "BA 01 01 45"
SPEED_63, STOP = "A0 01 40 1E", "A0 01 00 5E"
SLOT_1_IDLE = "E7 0E 01 23 03 00 00 06 00 00 00 00 00 31"
SLOT_1_IN_USE = "E7 0E 01 33 03 00 00 07 00 00 00 00 00 20"
SHUNTER = "node shunter short 3 {} forward F 0000000000000"

# Turns of the track: an idle packet lasts 5,796 microseconds and the longest packet 10,740.
MOST_TURNS, LEAST_TURNS = 175, 90
# The turns of a full refresh cycle of one slot, and the microseconds in which they begin.
CYCLE_TURNS, CYCLE_SECONDS = 16, 0.171840
# How much later a machine with much other work may be.
PATIENCE = 2

# The program that is checked.
program = {"path": ""}


class Failed(Exception):
    """What was found is not what has to be."""


def serve(*words, **streams):
    """The program on these words, until the end of a `with`."""
    return Server(program["path"], *words, **streams)


def same(what, found, wanted):
    """Compares. Of two lists it says where they part."""
    if found == wanted:
        return
    if isinstance(found, list) and isinstance(wanted, list):
        i = next((i for i, (a, b) in enumerate(zip(found, wanted)) if a != b), min(len(found), len(wanted)))
        what += f", {len(found)} and not {len(wanted)}, from {i} on"
        found, wanted = found[i : i + 3], wanted[i : i + 3]
    raise Failed(f"{what}: {found!r}, and not {wanted!r}")


def within(what, least, found, most):
    if not least <= found <= most:
        raise Failed(f"{what}: {found:.6g}, and not {least:.6g} to {most:.6g}")


def holds(what, is_so):
    if not is_so:
        raise Failed(what)


def is_tried_again(attempt, most=3):
    """Tries a check of times until it holds, at most so many times."""
    for left in reversed(range(most)):
        try:
            return attempt()
        except Failed:
            if left == 0:
                raise


def run(*words, **streams):
    """A run to its end: its status, and what it wrote to both outputs."""
    streams = {"stdout": subprocess.PIPE, "stderr": subprocess.PIPE, "stdin": subprocess.DEVNULL, **streams}
    done = subprocess.run([program["path"], *words], cwd=TOP, timeout=30, **streams)
    return done.returncode, (done.stdout or b"").decode(), (done.stderr or b"").decode(errors="replace")


def receive(*messages):
    return [f"RECEIVE {text}" for text in messages]


def send(*messages):
    return [f"SEND {text}" for text in messages]


def slot_data(slot, trk=6):
    """The bytes of the slot data of a free slot."""
    return message_bytes(0xE7, 0x0E, slot, 0, 0, 0, 0, trk, 0, 0, 0, 0, 0).hex(" ").upper()


def printed_after(server, last):
    """All lines that it has printed once it has printed this one, after the first, which says where it listens."""
    holds(f"{last!r} is printed", server.until_printed(last))
    return server.printed()[1:]


def turns_of(lines):
    """The turns that stand before the packets of these lines."""
    return [int(line.split()[1]) for line in lines if line.startswith("track ")]


@contextlib.contextmanager
def stopped(server, seconds):
    """Stops the server for a time, then lets it continue."""
    server.process.send_signal(signal.SIGSTOP)
    stat = pathlib.Path(f"/proc/{server.process.pid}/stat")
    holds("the server is stopped", server.until(lambda: stat.read_text().rpartition(")")[2].split()[0] == "T"))
    try:
        yield
        time.sleep(seconds)
    finally:
        server.process.send_signal(signal.SIGCONT)


@contextlib.contextmanager
def roster_of(count):
    """A file with so many locomotives, all of address 3."""
    with tempfile.NamedTemporaryFile("w", suffix=".toml") as file:
        file.write("version = 2\n")
        for i in range(count):
            file.write(f'[[node]]\nname = "loco-{i}"\nkind = "loco"\ncvs = [[1, 3], [29, 2]]\n')
        file.flush()
        yield file.name
