"""What clients and browsers write in pieces: it is read as if it came whole, and no piece gets into what others write."""

import contextlib

from server_checks.common import POWER_OFF, POWER_ON, SLOT_1_IDLE, TAKE_3, holds, printed_after, receive, same, send, serve
from server_checks.queues import queued
from serving import Client, Page, read_head, upgrade_request


def write_piece(server, one, piece):
    """Writes a piece, and waits until the server has read it."""
    one.sendall(piece)
    port = one.getpeername()[1]
    holds("it is read", server.until(lambda: queued(one, port)[1] == 0))


def pieces_of_clients():
    """eight clients write the halves of their lines in turn, and each line is read as if it came whole"""
    with serve("--turns", "0") as server, contextlib.ExitStack() as stack:
        everybody = [stack.enter_context(Client(server)) for _ in range(8)]
        for client in everybody:
            write_piece(server, client.stream, b"SEND 8")
        for client in reversed(everybody):
            write_piece(server, client.stream, b"2 7D\n")
        for before, client in enumerate(reversed(everybody)):
            wanted = (before + 1) * receive(POWER_OFF) + ["SENT OK"] + (7 - before) * receive(POWER_OFF)
            same("what it receives", [client.line() for _ in wanted], wanted)
    with serve("--turns", "0") as server, Client(server) as one, Client(server) as other:
        write_piece(server, one.stream, b"SEND BF 0")
        write_piece(server, other.stream, b"SEND 8")
        write_piece(server, one.stream, b"0 03 43\r")
        write_piece(server, other.stream, b"3 7D\nSEND 83 7C\r\n")
        taken, reply = receive(TAKE_3, SLOT_1_IDLE)
        same("one", one.lines_until(*receive(POWER_ON)), [taken, "SENT OK", reply, *receive(POWER_ON)])
        wanted = [taken, reply, "SENT ERROR wrong check byte", *receive(POWER_ON), "SENT OK"]
        same("the other", other.lines_until("SENT OK"), wanted)


def pieces_that_are_left():
    """a client that leaves takes its unfinished line along, and one that resets its connection disturbs nobody"""
    with serve("--turns", "0", page=True) as server, Client(server) as other:
        with Client(server) as client:
            write_piece(server, client.stream, b"SEND 83")
        printed_after(server, "client 2 leaves")
        with Client(server) as client:
            client.write([" 7C", *send(POWER_OFF)])
            same("the next at its index", client.lines_until("SENT OK"), [*receive(POWER_OFF), "SENT OK"])
            same("the other", other.line(), *receive(POWER_OFF))
        holds("it leaves", server.until(lambda: server.printed().count("client 2 leaves") == 2))
        # A page that has sent a part of a frame, and a client that has not read what it received.
        with Page(server).accepted() as page:
            write_piece(server, page.stream, b"\x81\x85\0\0")
        holds("it leaves", server.until(lambda: server.printed().count("client 2 leaves") == 3))
        with Client(server):
            other.write(send(POWER_OFF, POWER_OFF))
            same("the other", [other.line() for _ in range(4)], 2 * [*receive(POWER_OFF), "SENT OK"])
        holds("it leaves", server.until(lambda: server.printed().count("client 2 leaves") == 4))
        other.write(send(POWER_OFF))
        same("the other", other.lines_until("SENT OK"), [*receive(POWER_OFF), "SENT OK"])


# Lines of a client, and what it receives for them.
LINES = b"SEND 82 7D\r\n\r\nhello\nSEND 83\n"
ANSWERS = [*receive(POWER_OFF), "SENT OK", "SENT ERROR no whole message"]


def every_cut():
    """lines, and the request of a page, are read alike wherever they are divided"""
    with serve("--turns", "0", page=True) as server:
        with Client(server) as client:
            for cut in range(1, len(LINES)):
                write_piece(server, client.stream, LINES[:cut])
                client.stream.sendall(LINES[cut:])
                same(f"divided at {cut}", [client.line() for _ in ANSWERS], ANSWERS)
        own = f"127.0.0.1:{server.page_port}"
        request = upgrade_request(own, f"http://{own}", Page.KEY)
        for cut in range(1, len(request)):
            with server.connect(port=server.page_port) as browser:
                write_piece(server, browser, request[:cut])
                browser.sendall(request[cut:])
                head = read_head(browser.makefile("rb", buffering=0))
                same(f"divided at {cut}", head.partition("\r\n")[0], "HTTP/1.1 101 Switching Protocols")


def endless_line():
    """a quarter of a megabyte without the end of a line is no request, and holds nobody up"""
    with serve("--turns", "0") as server, Client(server) as client, Client(server) as other:
        for _ in range(16):
            client.stream.sendall(16_384 * b"S")
            other.write(send(POWER_OFF))
            same("the other", other.lines_until("SENT OK"), [*receive(POWER_OFF), "SENT OK"])
        client.write(["", *send(POWER_ON)])
        same("the client", client.lines_until("SENT OK"), 16 * receive(POWER_OFF) + [*receive(POWER_ON), "SENT OK"])
