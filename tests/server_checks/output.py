"""A standard output that nobody reads, slot reads, and an output that is to be quiet."""

import contextlib
import fcntl
import os
import pathlib
import pty
import re
import resource
import struct
import subprocess
import tempfile
import termios
import threading
import time

from server_checks.common import (
    LAYOUT,
    SHUNTER,
    holds,
    is_tried_again,
    printed_after,
    program,
    receive,
    run,
    same,
    send,
    serve,
    slot_data,
    turns_of,
    within,
)
from server_checks.queues import read_beside
from serving import Client, Page, Server, message, message_hex


# A message without meaning to the station, which is sent after all others.
LAST = "message 80 7F  unknown opcode 80, ignored"


def speed_line(text, slot, spd):
    """The line of a message that sets the speed of a slot: 0 is stop, 1 emergency stop, n + 1 speed n."""
    return f"message {text}  slot {slot}: {('stop', 'emergency stop')[spd] if spd < 2 else f'speed {spd - 1} of 126'}"


def send_all(everybody):
    """Each of eight clients sends 1,250 messages. Returns the lines that are to be printed, in order."""
    readers = [read_beside(one, 11_250) for one in everybody]
    for number, one in enumerate(everybody):
        one.stream.sendall(b"".join(message(0xA0, 1 + number * 10 + i // 128, i % 128) for i in range(1250)))
    for reader, lines in readers:
        reader.join(30)
        same("lines of a client", (len(lines), lines.count("SENT OK")), (11_250, 1250))
    order = [f"client {i} joins" for i in range(1, 9)]
    for line in readers[0][1]:
        if line.startswith("RECEIVE "):
            slot, speed = (int(byte, 16) for byte in line.split()[2:4])
            order.append(speed_line(line[8:], slot, speed))
    return order


def unread_output():
    """where nothing reads standard output, 10,000 messages of eight clients are answered, and what is read is in order"""
    with serve("--turns", "0", output=subprocess.PIPE) as server, contextlib.ExitStack() as stack:
        everybody = [stack.enter_context(Client(server)) for _ in range(8)]
        order = send_all(everybody)
        check_log(read_log(server, server.process.stdout, everybody[0]), order)


class OnTerminal(Server):
    """The program on a terminal. What it prints is on `screen`, of which only the first line is read."""

    def __init__(self, *words):
        screen, terminal = pty.openpty()
        self.screen = os.fdopen(screen, "rb", buffering=0)
        super().__init__(program["path"], *words, output=os.fdopen(terminal, "wb", buffering=0))

    def _listens(self):
        return self.screen.readline().startswith(b"listening ")

    def close(self):
        super().close()
        self.output.close()
        self.screen.close()


def unread_terminal():
    """where nobody reads the terminal, 3,000 messages of a client are answered, and what is read is in order"""
    texts = [message_hex(0xA0, 1 + i // 128, i % 128) for i in range(3000)]
    with OnTerminal("--turns", "0") as server, Client(server) as client:
        reader, lines = read_beside(client, 2 * len(texts))
        client.write(send(*texts))
        reader.join(30)
        same("lines of the client", lines, [line for text in texts for line in (f"RECEIVE {text}", "SENT OK")])
        order = ["client 1 joins", *(speed_line(text, 1 + i // 128, i % 128) for i, text in enumerate(texts))]
        check_log(read_log(server, server.screen, client), order)


def file_output():
    """where standard output is a file, every line of 10,000 messages of eight clients is there, in order"""
    with serve("--turns", "0") as server, contextlib.ExitStack() as stack:
        everybody = [stack.enter_context(Client(server)) for _ in range(8)]
        order = send_all(everybody)
        everybody[0].stream.sendall(message(0x80))
        same("printed", printed_after(server, LAST), [*order, LAST])


def read_log(server, stream, client):
    """Reads what was printed to the stream, to a message that is sent once there is room again."""
    lines = read_lines(stream)
    count = -1
    while len(lines) != count:
        count = len(lines)
        time.sleep(0.3)
    client.stream.sendall(message(0x80))
    holds("the last line", server.until(lambda: LAST in lines[-10:]))
    return lines


def read_lines(stream):
    """Reads the lines of a stream beside what is done here, into the list that it returns."""
    lines = []

    def read():
        # A terminal ends with an error.
        with contextlib.suppress(OSError):
            lines.extend(line.decode("ascii").rstrip("\r\n") for line in iter(stream.readline, b""))

    threading.Thread(target=read, daemon=True).start()
    return lines


def check_log(lines, order):
    """The log has these lines in this order, but for those that it says it left out."""
    order = [*order, LAST]
    at = left_out = 0
    for line in lines:
        found = re.fullmatch(r"log: (\d{1,3}(?:,\d{3})*) lines? left out", line)
        if found:
            count = int(found[1].replace(",", ""))
            left_out += count
            at += count
        else:
            same("a line of the log", line, order[at] if at < len(order) else None)
            at += 1
    same("lines", at, len(order))
    # A pipe holds 65,536 bytes, a terminal fewer, and the lines are at least 130,000.
    holds("lines are left out", left_out > 0)


def long_output():
    """more than a megabyte of lines on standard output is printed, in order"""
    with serve("--turns", "255", "--track") as server, Client(server) as client:
        client.send(0x83)
        for _ in range(220):
            client.send(0x85)
        last = 221 * 255
        is_there = server.until(lambda: server.printed()[-1].startswith(f"track {last} "))
        holds(f"it ends at {server.printed()[-1]!r}", is_there)
        # After the second message each turn has a broadcast stop.
        same("turns", turns_of(server.printed()), list(range(256, last + 1)))
        holds("more than a megabyte", server.log.stat().st_size > 1 << 20)


# Messages whose lines have some 80,000 bytes: more than a pipe holds, and less than a pipe and the queue of the log do; and
# messages whose lines have some 46,000: more than a terminal holds, and less than the queue.
MESSAGES, FEWER_MESSAGES = 1750, 1000


def speeds(count):
    """So many messages, and the lines that are printed for them."""
    texts = [message_hex(0xA0, 1 + i // 128, i % 128) for i in range(count)]
    return texts, [speed_line(text, 1 + i // 128, i % 128) for i, text in enumerate(texts)]


def send_speeds(client, texts):
    """Sends messages, and waits until they are all answered."""
    client.write(send(*texts))
    same("what it receives", [client.line() for _ in range(2 * len(texts))][-1], "SENT OK")


def queued_lines():
    """what is queued of the log is written once a pipe or a terminal is read, with nothing else to wake the server"""
    words = ("--turns", "0")
    for server, count in ((serve(*words, output=subprocess.PIPE), MESSAGES), (OnTerminal(*words), FEWER_MESSAGES)):
        with server, Client(server) as client:
            texts, wanted = speeds(count)
            send_speeds(client, texts)
            # The server waits, with lines in its queue.
            time.sleep(0.2)
            lines = read_lines(server.process.stdout or server.screen)
            holds("the last line", server.until(lambda: lines[-1:] == wanted[-1:]))
            same("printed", lines[:], ["client 1 joins", *wanted])


# The capacity of the log's queue, and the bytes of a page, the least that a pipe holds.
QUEUE, PIPE_PAGE = 65_536, 4_096


def left_out_lines():
    """one line that has no room is `1 line left out`, and two are `2 lines`"""
    text, line = message_hex(0xA0, 1, 0x40), speed_line(message_hex(0xA0, 1, 0x40), 1, 0x40)
    size = len(line) + 1
    for count, last in ((1, "log: 1 line left out"), (2, "log: 2 lines left out")):
        with serve("--turns", "0", output=subprocess.PIPE) as server, Client(server) as client:
            # More than a pipe holds, and less than the queue and a page do.
            first = (QUEUE + PIPE_PAGE) // size - 1
            send_speeds(client, first * [text])
            pipe = server.process.stdout
            (held,) = struct.unpack("i", fcntl.ioctl(pipe, termios.FIONREAD, bytes(4)))
            queued = len("client 1 joins\n") + first * size - held
            fitting = (QUEUE - queued) // size
            send_speeds(client, (fitting + count) * [text])
            lines = read_lines(pipe)
            holds(f"{last!r} is printed", server.until(lambda: lines[-1:] == [last]))
            same("printed", lines[:], ["client 1 joins", *(first + fitting) * [line], last])


def last_lines():
    """what is unread at its end is written for a second more, and a reader that comes later is not waited for"""

    def end_before(seconds, least, most):
        """Ends a server whose output is read after these seconds, or after its end, which comes in time."""
        texts, wanted = speeds(MESSAGES)
        with serve("--turns", "0", "--clients", "1", output=subprocess.PIPE) as server:
            with Client(server) as client:
                send_speeds(client, texts)
            start = time.monotonic()
            if seconds is None:
                server.process.wait(20)
            else:
                time.sleep(seconds)
            printed = server.process.stdout.read().decode("ascii").splitlines()
            same("status", server.process.wait(20), 0)
            within("seconds to its end", least, time.monotonic() - start, most)
            return printed, ["client 1 joins", *wanted, "client 1 leaves"]

    is_tried_again(lambda: same("printed", *end_before(0.3, 0.3, 0.9)))
    printed, wanted = is_tried_again(lambda: end_before(None, 0.95, 1.8))
    # The last line of a full pipe may be cut.
    same("what is there without a reader", printed[:-1], wanted[: len(printed) - 1])
    holds("it does not wait for longer", len(printed) < len(wanted))


FAILED = "lbserver: the log cannot be written: {}; running on without it\n"
MISSING = "lbserver: lines of the log may be missing\n"


def ends_without_log(server, reason):
    """The server serves a client whole, its last, says once why it writes no log, and ends with status 7."""
    texts, _ = speeds(100)
    with Client(server) as client:
        send_speeds(client, texts)
    same("status", server.process.wait(20), 7)
    same("standard error", server.faults.read_text(), FAILED.format(reason) + MISSING)


def closed_output():
    """a standard output that is closed stops no client: the server says so once, and ends with status 7"""
    for pace in (("--turns", "1"), ()):
        with serve(*pace, "--clients", "1", output=subprocess.PIPE) as server:
            server.process.stdout.close()
            ends_without_log(server, "its reader has closed the pipe")


def full_device():
    """nor does a full device, where not even the first line is written"""
    with open("/dev/full", "wb") as full, serve("--turns", "1", "--clients", "2", output=full) as server:
        ends_without_log(server, "no space left on the device")


def room_for_the_log():
    """a log that cannot grow for a while is whole once it can, and the status says that a write failed"""
    with tempfile.TemporaryDirectory() as folder:
        file = pathlib.Path(folder, "lbserver")
        # A process that writes beyond the size that is allowed gets a signal, by default its end.
        file.write_text(f"#!/bin/sh\ntrap '' XFSZ\nexec '{program['path']}' \"$@\"\n")
        file.chmod(0o755)
        with Server(file, "--turns", "0", "--clients", "1") as server:
            most = resource.prlimit(server.process.pid, resource.RLIMIT_FSIZE)
            resource.prlimit(server.process.pid, resource.RLIMIT_FSIZE, (4096, most[1]))
            texts, wanted = speeds(200)
            with Client(server) as client:
                send_speeds(client, texts)
                holds("it says that it cannot be written", server.until(lambda: server.faults.read_text() == FAILED.format("the file is too large")))
                within("bytes of the log", 1, len("\n".join(server.printed())), 4096)
                resource.prlimit(server.process.pid, resource.RLIMIT_FSIZE, most)
                client.stream.sendall(message(0x80))
                same("printed", printed_after(server, LAST), ["client 1 joins", *wanted, LAST])
            same("status", server.process.wait(20), 7)
            same("standard error", server.faults.read_text(), FAILED.format("the file is too large") + MISSING)


def slot_reads():
    """a read of a slot and the slot data that answers it are not printed, a refused read is"""
    with serve("--turns", "0") as server, Client(server) as client:
        for slot in range(1, 120):
            same(f"slot {slot}", client.request(0xBB, slot, 0), *receive(slot_data(slot)))
        same("slot 0", client.request(0xBB, 0, 0), "RECEIVE B4 3B 00 70")
        same("slot 123", client.request(0xBB, 123, 0), "RECEIVE B4 3B 00 70")
        client.send(0x80)
        refused = "message B4 3B 00 70  message BB refused"
        reads = ["message BB 00 00 44  read slot 0", refused, "message BB 7B 00 3F  read the fast clock", refused]
        same("printed", printed_after(server, LAST), ["client 1 joins", *reads, LAST])


# Messages that the station neither obeys nor answers, and what they say.
IGNORED = [
    ((0x81,), "busy"),
    ((0xB8, 3, 4), "unlink slot 3 from slot 4"),
    ((0xB9, 3, 4), "link slot 3 to slot 4"),
    ((0xB6, 1, 0), "slot 1, in a consist: F0 to F4: all off"),
    ((0xB4, 0x3F, 0), "no free slot for the locomotive"),
    ((0xA3, 1, 1), "slot 1: F9 to F12: F9 on"),
    ((0xD0, 0x20, 5, 0x7D, 3), "transponding: a locomotive came into a section"),
    ((0xD4, 0x20, 1, 8, 1), "slot 1: F13 to F19: F13 on"),
    ((0xE4, 8, 0, 0x60, 1, 0x42, 0x35), "Lissy: report of a locomotive"),
    ((0xE5, 4, 0), "peer transfer of another length"),
    ((0xED, 0x0F, 1, 5, 0, 0x21, 0x41, 0x29, 0x13, 0, 0, 5, 0, 0), "LNCV: read a variable of a module"),
]


def ignored_messages():
    """a message that the station neither obeys nor answers is printed as ignored, and no other is"""
    with serve("--turns", "0") as server, Client(server) as client:
        for body, _ in IGNORED:
            client.send(*body)
        client.send(0x83)
        last = "message 83 7C  track power on"
        wanted = [f"message {message_hex(*body)}  {words}, ignored" for body, words in IGNORED]
        same("printed", printed_after(server, last), ["client 1 joins", *wanted, last])


def quiet():
    """--quiet prints nothing but the addresses, and clients and pages are served as ever"""
    for words in (["--turns", "20"], ["--turns", "20", "--track"], ["--track"]):
        with serve(*LAYOUT, "--quiet", *words, "--clients", "2", page=True) as server:
            wanted = [f"listening 127.0.0.1:{server.port}", f"page http://127.0.0.1:{server.page_port}/"]
            with Client(server) as client, Page(server).accepted() as page:
                client.take(3)
                client.send(0xA0, 1, 0x40)
                page.lines_until(f"NODE {SHUNTER.format('step 63 of 128')}")
            same("status", server.process.wait(20), 0)
            same("standard error", server.faults.read_text(), "")
            same("printed", server.printed(), wanted)
    holds("--help has it", "--quiet" in run("--help")[1])
