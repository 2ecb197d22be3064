"""The programming track, by docs/PROGRAMMING.md, LocoNet Personal Use Edition 1.0 and NMRA S-9.2.3 alone.

A one lasts 116 microseconds and a zero 200, so a reset packet, of 21 ones and 27 zeros, 7,836: the times below are worked out by
hand. A turn of the main track lasts 5,796 microseconds while it is off or idle.
"""

import contextlib
import tempfile
import time

from server_checks.common import POWER_ON, SPEED_63, TAKE_3, USE_1, holds, receive, same, send, serve
from server_checks.trains import answers, loco
from serving import Client, message_hex

ACCEPTED, BUSY, NOT_IMPLEMENTED = "B4 6F 01 25", "B4 6F 00 24", "B4 6F 7F 5B"
READ_SLOT = message_hex(0xBB, 0x7C, 0x00)
ABORT = message_hex(0xEF, 0x0E, 0x7C, *[0] * 10)
# PCMD: direct mode by bytes, and by bits; paged mode, registers, and operations on the main track.
READ, WRITE, READ_BIT, WRITE_BIT, OTHERS = 0x2B, 0x6B, 0x0B, 0x4B, (0x23, 0x13, 0x67)
DONE, NO_DECODER, NO_WRITE, NO_READ, ABORTED = 0, 1, 2, 4, 8

# Address 3, version 5, manufacturer 13, and 28 or 128 steps.
DECODER = '[[node]]\nname = "shunter"\nkind = "loco"\ncvs = [[1, 3], [7, 5], [8, 13], [29, 6]]\n'
YARD = '[[node]]\nname = "yard"\nkind = "accessory"\nmodule = 1\n'


@contextlib.contextmanager
def decoder(*parts):
    """The options for a file of these nodes."""
    with tempfile.NamedTemporaryFile("w") as file:
        file.write("version = 2\n" + "".join(parts))
        file.flush()
        yield "--programmer", file.name


def high(number, value):
    """CVH: bits 9, 8 and 7 of the variable's number less one, and bit 7 of the value."""
    address = number - 1
    return address // 256 * 16 + value // 128 * 2 + address // 128 % 2


def task(command, number, value=0):
    """The message of a task."""
    return message_hex(0xEF, 0x0E, 0x7C, command, 0, 0, 0, 0, high(number, value), (number - 1) % 128, value % 128, 0, 0)


def result(command, status, number, value):
    """The message of its end."""
    return message_hex(0xE7, 0x0E, 0x7C, command, status, 0, 0, 0, high(number, value), (number - 1) % 128, value % 128, 0, 0)


def asked(client, message):
    """What follows the echo of a message, but for SENT OK."""
    return [line for line in answers(client, send(message)) if line.startswith("RECEIVE ")][1:]


def after_turns(client, turns):
    """What is received in so many turns."""
    return [line for line in answers(client, [f"TURNS {turns}"]) if line.startswith("RECEIVE ")]


def sequence(packet):
    return ["00 00 00"] * 3 + [packet] * 5 + ["00 00 00"] * 6


def programmed(server):
    """The packets of the programming track in the log."""
    return [line.split(" ", 2)[2] for line in server.printed() if line.startswith("programming ")]


def refusals(server):
    """The lines of the log of tasks that are not implemented."""
    return [line for line in server.printed() if line.startswith(f"message {NOT_IMPLEMENTED} ")]


def worked_tasks():
    """--programmer: a read of CV1 and a write of CV29, packet by packet, to the turn"""
    with decoder(DECODER) as words, serve(*words, "--turns", "0", "--track") as server, Client(server) as client:
        same("read", asked(client, task(READ, 1)), receive(ACCEPTED))
        # 1,019,616 microseconds are 175.9 turns.
        same("before the end", after_turns(client, 175), [])
        same("the value", after_turns(client, 1), receive("E7 0E 7C 2B 00 00 00 00 00 00 03 00 00 42"))
        verified = "78 00 EF 97", "78 00 EE 96", "78 00 ED 95", "78 00 EC 94", "78 00 EB 93", "78 00 EA 92", "78 00 E9 91", "78 00 E8 90"
        wanted = [line for packet in (*verified, "74 00 03 77") for line in sequence(packet)]
        holds("packets of a read", server.until(lambda: programmed(server) == wanted))
        same("write", asked(client, task(WRITE, 29, 6)), receive(ACCEPTED))
        # 112,824 microseconds are 19.5 turns.
        same("before the end", after_turns(client, 19), [])
        same("the end", after_turns(client, 1), receive("E7 0E 7C 6B 00 00 00 00 00 1C 06 00 00 1B"))
        wanted += sequence("7C 1C 06 66")
        holds("packets of a write", server.until(lambda: programmed(server) == wanted))
        same("slot 124", asked(client, READ_SLOT), receive("E7 0E 7C 6B 00 00 00 00 00 1C 06 00 00 1B"))


def ended(client, command, status, number, value, asks=0):
    """Runs a task to its end, within the longest of 1,440,936 microseconds."""
    same("accepted", asked(client, task(command, number, asks)), receive(ACCEPTED))
    same(f"PCMD {command}, CV{number}", after_turns(client, 249), receive(result(command, status, number, value)))


def task_statuses():
    """--programmer: each status, busy, and what is not implemented"""
    with decoder(DECODER) as words, serve(*words, "--turns", "0") as server, Client(server) as client:
        ended(client, READ, DONE, 8, 13)
        ended(client, WRITE, DONE, 1024, 200, 200)
        ended(client, READ, DONE, 1024, 200)
        ended(client, WRITE, NO_WRITE, 7, 9, 9)
        # Bit 2 of CV29 is on: its number, and as bit 3 its value.
        ended(client, READ_BIT, DONE, 29, 0x0A, 2)
        ended(client, WRITE_BIT, DONE, 29, 2, 2)
        ended(client, READ, DONE, 29, 2)
        for command in OTHERS:
            same(f"PCMD {command}", asked(client, task(command, 1)), receive(NOT_IMPLEMENTED))
        holds("three are refused in the log", server.until(lambda: len(refusals(server)) == 3))
        notes = [line.endswith(", operations mode is not implemented") for line in refusals(server)]
        same("the last as operations mode", notes, [False, False, True])
        same("read", asked(client, task(READ, 1)), receive(ACCEPTED))
        same("busy", asked(client, task(WRITE, 29, 6)), receive(BUSY))
        same("aborted", asked(client, ABORT), receive(result(READ, ABORTED, 1, 0)))
        same("nothing follows", after_turns(client, 249), [])
        ended(client, READ, DONE, 1, 3)
        # The station answers all other slots as ever.
        holds("slot 1", asked(client, message_hex(0xBB, 1, 0))[0].startswith("RECEIVE E7 0E 01 "))
    with decoder(YARD) as words, serve(*words, "--turns", "0") as server, Client(server) as client:
        ended(client, READ, NO_DECODER, 1, 0)
    with serve("--turns", "0") as server, Client(server) as client:
        same("without a programmer", asked(client, task(READ, 1)), receive(BUSY))


def own(client, line):
    """The answer to a request of the client's own."""
    client.write([line])
    while not (found := client.line()).startswith(f"{line.split()[0]} "):
        pass
    return found


def changes(client):
    """The variables that differ from the file."""
    client.write(["CVS"])
    return [line for line in client.lines_until("CVS OK") if not line.startswith("RECEIVE ")]


def arranged_track():
    """--programmer: other decoders, none, failing acknowledgments, and what differs from the file"""
    other = DECODER.replace("shunter", "express").replace("[1, 3]", "[1, 5]")
    with decoder(YARD, DECODER, other) as file, serve(*file, "--turns", "0") as server, Client(server) as client:
        same("none differ", changes(client), ["CVS OK"])
        ended(client, READ, DONE, 1, 3)
        ended(client, WRITE, DONE, 29, 2, 2)
        same("another decoder", own(client, "MOUNT express"), "MOUNT OK")
        ended(client, READ, DONE, 1, 5)
        ended(client, WRITE, DONE, 1024, 200, 200)
        written = ["CV shunter [29, 2]", "CV express [1024, 200]", "CVS OK"]
        same("variables that differ", changes(client), written)
        same("none", own(client, "MOUNT nothing"), "MOUNT OK")
        ended(client, READ, NO_DECODER, 1, 0)
        ended(client, WRITE, NO_DECODER, 1, 4, 4)
        same("as they were", changes(client), written)
        same("the first", own(client, "MOUNT shunter"), "MOUNT OK")
        ended(client, READ, DONE, 29, 2)
        same("failing", own(client, "FAIL programming"), "FAIL OK")
        ended(client, READ, NO_READ, 1, 0)
        ended(client, WRITE, NO_WRITE, 1, 4, 4)
        same("no more", own(client, "FAIL none"), "FAIL OK")
        # The value was stored all the same.
        ended(client, READ, DONE, 1, 4)
        # A write of 8 to CV8 gives the values of the file.
        ended(client, WRITE, DONE, 8, 8, 8)
        same("the file", changes(client), written[1:])
        for name in ("yard", "Shunter", "0123456789012345678901234567890123456789"):
            same(name, own(client, f"MOUNT {name}"), "MOUNT ERROR no such decoder")
        for line in ("MOUNT", "MOUNT shunter express", "MOUNT shunter" + " " * 400):
            same(line, own(client, line), "MOUNT ERROR no name of a decoder")
        for line in ("FAIL", "FAIL sensor", "FAIL programming none"):
            same(line, own(client, line), "FAIL ERROR no such failure")
        ended(client, READ, DONE, 1, 3)


def logged(server):
    """The changes of variables in the log."""
    return [line for line in server.printed() if line.startswith("cv ")]


def logged_changes():
    """--programmer: each change of a variable is a line of the log, with the name of its decoder"""
    other = DECODER.replace("shunter", "express")
    with decoder(DECODER, other) as file, serve(*file, "--turns", "0") as server, Client(server) as client:
        ended(client, READ, DONE, 29, 6)
        ended(client, WRITE, DONE, 29, 2, 2)
        ended(client, WRITE, DONE, 29, 2, 2)
        # The version is read only.
        ended(client, WRITE, NO_WRITE, 7, 9, 9)
        # Bit 2 is turned on, twice: 2 and 4 are 6, the value of the file.
        ended(client, WRITE_BIT, DONE, 29, 0x0A, 0x0A)
        ended(client, WRITE_BIT, DONE, 29, 0x0A, 0x0A)
        ended(client, WRITE, DONE, 8, 8, 8)
        wanted = ["cv shunter 29 = 2", "cv shunter 29 = 6"]
        ended(client, WRITE, DONE, 1, 4, 4)
        ended(client, WRITE, DONE, 1024, 255, 255)
        ended(client, WRITE, DONE, 8, 8, 8)
        ended(client, WRITE, DONE, 8, 8, 8)
        wanted += ["cv shunter 1 = 4", "cv shunter 1024 = 255", "cv shunter as in the file"]
        same("another decoder", own(client, "MOUNT express"), "MOUNT OK")
        same("failing", own(client, "FAIL programming"), "FAIL OK")
        ended(client, WRITE, NO_WRITE, 1, 4, 4)
        wanted += ["cv express 1 = 4"]
        same("none", own(client, "MOUNT nothing"), "MOUNT OK")
        ended(client, WRITE, NO_DECODER, 1, 5, 5)
        last = f"message {message_hex(0xE7, 0x0E, 0x7C, WRITE, NO_DECODER, 0, 0, 0, 0, 0, 5, 0, 0)}"
        holds("the last result", server.until(lambda: any(line.startswith(last) for line in server.printed())))
        same("changes", logged(server), wanted)


def arranged_while_busy():
    """--programmer: another decoder is put on the track while a task is under way, which goes on"""
    other = DECODER.replace("shunter", "express").replace("[1, 3]", "[1, 5]")
    with decoder(DECODER, other) as file, serve(*file, "--turns", "0") as server, Client(server) as client, Client(server) as second:
        same("read", asked(client, task(READ, 1)), receive(ACCEPTED))
        # The answer is for the one that asks alone.
        same("another decoder", own(second, "MOUNT express"), "MOUNT OK")
        same("the value", after_turns(client, 249), receive(result(READ, DONE, 1, 5)))
        same("only messages", [line for line in answers(client, []) if "MOUNT" in line], [])


def without_programmer():
    """MOUNT, FAIL and CVS without --programmer"""
    with serve("--turns", "0") as server, Client(server) as client:
        for word, line in (("MOUNT", "MOUNT shunter"), ("MOUNT", "MOUNT"), ("FAIL", "FAIL programming")):
            same(line, own(client, line), f"{word} ERROR no programming track")
        same("FAIL none", own(client, "FAIL none"), "FAIL OK")
        same("CVS", changes(client), ["CVS OK"])


def value_of(client, command, number, value=0):
    """Runs a task as layout software does: tries again while the programmer is busy, and waits for the end."""
    client.write(send(task(command, number, value)))
    while True:
        line = client.line()
        if line == receive(BUSY)[0]:
            client.write(send(task(command, number, value)))
        if line.startswith("RECEIVE E7 0E 7C "):
            found = bytes.fromhex(line.removeprefix("RECEIVE "))
            same("status", found[4], DONE)
            return found[8] // 2 % 2 * 128 + found[10]


def session(rate):
    """Reads who the decoder is, and gives it the long address 1234, while another client drives."""
    roster = tempfile.NamedTemporaryFile("w")
    with roster, decoder(DECODER) as words:
        roster.write("version = 2\n" + loco("engine", 3, 2))
        roster.flush()
        with serve(*words, "--roster", roster.name, "--rate", str(rate)) as server, Client(server) as client, Client(server) as driver:
            driver.write(send(POWER_ON, TAKE_3, USE_1, SPEED_63))
            before = time.monotonic()
            same("variables", [value_of(client, READ, number) for number in (8, 7, 1, 29, 17, 18)], [13, 5, 3, 6, 192, 0])
            # Each read takes 126 packets of 7,836 microseconds or more.
            holds("time", time.monotonic() - before >= 6 * 126 * 0.007836 / rate)
            # 1234 is 4 * 256 + 210.
            for number, value in ((17, 196), (18, 210), (29, 38)):
                same(f"CV{number}", value_of(client, WRITE, number, value), value)
            same("variables", [value_of(client, READ, number) for number in (17, 18, 29)], [196, 210, 38])
            holds("the engine runs", server.until_printed("node engine short 3 step 63 of 128 forward F 0000000000000"))


def at_rate_1():
    """--programmer: six variables read and a long address written, while a train is driven"""
    session(1)


def at_rate_100():
    """--programmer: the same with --rate 100"""
    session(100)
