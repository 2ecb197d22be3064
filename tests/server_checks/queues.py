"""Clients that flood, that read late and that never read."""

import pathlib
import socket
import threading
import time

from server_checks.common import (
    LAYOUT,
    SHUNTER,
    holds,
    printed_after,
    receive,
    same,
    serve,
    slot_data,
    stopped,
)
from serving import Client, Page, message, message_hex


def read_beside(one, count):
    """Reads so many lines beside what is done here. Returns the thread, and the list that it fills."""
    lines = []

    def read():
        try:
            while len(lines) < count:
                lines.append(one.line())
        except (OSError, ValueError) as error:
            lines.append(repr(error))

    reader = threading.Thread(target=read, daemon=True)
    reader.start()
    return reader, lines


# Bytes of a flood, whose answers are four times as many: more than the 65,536 that may wait for a client.
AT_ONCE = 32_768


def flood():
    """beside a client that sends 4,000 messages at once, all that read receive every line, and none is closed"""
    slots = [1 + i % 119 for i in range(4000)]
    wanted = [line for slot in slots for line in receive(message_hex(0xBB, slot, 0), slot_data(slot))]
    for pace in (("--turns", "0"), ()):
        with serve(*pace, page=True) as server:
            with Client(server) as bystander, Page(server).accepted() as page, Client(server) as flooder:
                readers = [(read_beside(one, len(wanted)), wanted) for one in (bystander, page)]
                sent = [line for i, line in enumerate(wanted) for line in ([line] if i % 2 else [line, "SENT OK"])]
                readers.append((read_beside(flooder, len(sent)), sent))
                with stopped(server, 0):
                    data = b"".join(message(0xBB, slot, 0) for slot in slots)
                    threading.Thread(target=flooder.stream.sendall, args=(data,), daemon=True).start()
                    # So much could be read at once.
                    is_there = server.until(lambda: queued(flooder.stream, server.port)[1] >= AT_ONCE)
                    holds(f"{AT_ONCE} bytes are there", is_there)
                for (reader, lines), all_lines in readers:
                    reader.join(30)
                    same("what it receives", lines, all_lines)
                holds("none is closed", not any("too slow" in line for line in server.printed()))


def send_batch(client, count):
    """Sends reads of slot 1, whose slot data is the longest reply, and reads the answers."""
    client.stream.sendall(count * message(0xBB, 1, 0))
    done = 0
    while done < count:
        # Of all lines SENT OK alone has a K.
        data = client.stream.recv(1 << 16)
        if not data:
            raise ConnectionError("closed")
        done += data.count(b"K")


def never_reads():
    """a client that never reads is closed and said to be too slow, and others receive every line"""
    with serve("--turns", "0", page=True) as server:
        with Client(server) as first, server.connect() as non_reader:
            printed_after(server, "client 2 joins")
            with Client(server) as sender, Client(server) as other:
                # The server closes a client at an index after a free one.
                first.close()
                printed_after(server, "client 1 leaves")
                batches = 0
                reader, lines = read_beside(other, 1 << 30)
                while not any("too slow" in line for line in server.printed()[-500:]):
                    holds("is closed after so much", batches < 1000)
                    send_batch(sender, 200)
                    batches += 1
                found = [line for line in printed_after(server, "client 2 leaves")[1:] if not line.startswith("message ")]
                wanted = [f"client {i} joins" for i in (1, 2, 3, 4)]
                wanted += ["client 1 leaves", "client 2 is too slow", "client 2 leaves"]
                same("printed", found, wanted)
                text = receive("BB 01 00 45", slot_data(1))
                holds("the other has every line", server.until(lambda: len(lines) >= 400 * batches))
                same("the other", lines[:], 200 * batches * text)
                other.stream.shutdown(socket.SHUT_RDWR)
                reader.join(20)
                # What was kept for it may still be read; then its connection has ended.
                is_closed(non_reader)
                with Client(server), Client(server):
                    is_again = server.until(lambda: server.printed().count("client 2 joins") == 2)
                    holds("the number is given again", is_again)


def is_closed(stream):
    """Reads until the connection has ended."""
    try:
        while stream.recv(1 << 20):
            pass
    except ConnectionResetError:
        pass


def queued(stream, port):
    """How many bytes the system keeps at the server's end of a connection: to be sent, and to be read by the server."""
    own = f"{port:04X}"
    other = f"{stream.getsockname()[1]:04X}"
    for line in pathlib.Path("/proc/net/tcp").read_text().splitlines()[1:]:
        fields = line.split()
        if fields[1].endswith(":" + own) and fields[2].endswith(":" + other):
            return tuple(int(count, 16) for count in fields[4].split(":"))
    raise ConnectionError("closed")


def fill(sender, stream, port, batches):
    """Sends messages until the system takes no more for a client that does not read, and then so many more batches of
    14 kB. Returns how many messages that was, once the server waits: only what the client reads wakes it then."""
    sent, same_for, last = 0, 0, -1
    while same_for < batches:
        send_batch(sender, 200)
        sent += 200
        now = queued(stream, port)[0]
        same_for = same_for + 1 if now == last else 0
        last = now
    time.sleep(0.5)
    return sent


def reads_late():
    """a client and a page that read late receive every line once they read, and the page each decoder that has changed"""
    text = receive("BB 01 00 45", slot_data(1))
    with serve("--turns", "0") as server, Client(server) as sender, Client(server, room=4096) as late:
        sent = fill(sender, late.stream, server.port, 2)
        same("what it receives", [late.line() for _ in range(2 * sent)], sent * text)
    with serve(*LAYOUT, "--turns", "20", page=True) as server, Client(server) as sender:
        # Less than the 20 seconds after which the server wakes to ping a page.
        with Page(server, seconds=10, room=4096) as late:
            late.lines_until("NODE node yard module 1 outputs 00000000")
            # What a page's WebSocket keeps, and then what is queued after that: with the words of its messages the WebSocket is
            # full after two batches.
            sent = fill(sender, late.stream, server.page_port, 2)
            same("what it receives", [late.line() for _ in range(2 * sent)], sent * text)
            sent = fill(sender, late.stream, server.page_port, 5)
            sender.take(3)
            sender.send(0xA0, 1, 0x40)
            sender.send(0x83)
            lines = late.lines_until(f"NODE {SHUNTER.format('step 63 of 128')}")
            # As soon as the WebSocket has room, the decoder is sent between lines that the page has not read yet.
            lines = [line for line in lines if not line.startswith("NODE ")]
            lines += [late.line() for _ in range(2 * sent - len(lines))]
            same("what it receives", lines[: 2 * sent], sent * text)
