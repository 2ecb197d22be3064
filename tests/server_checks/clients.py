"""Clients: which are accepted, what each receives, and where the server can be reached."""

import contextlib
import pathlib
import socket
import statistics
import time

from server_checks.browsers import LONGEST_REQUEST

from server_checks.common import (
    LAYOUT,
    POWER_OFF,
    POWER_ON,
    SHUNTER,
    SPEED_63,
    holds,
    is_tried_again,
    printed_after,
    receive,
    roster_of,
    run,
    same,
    send,
    serve,
    stopped,
    within,
)
from serving import Client, Page, free_port, message_hex, upgrade_request


def clients():
    """--clients 2: it continues after one has left, pages are clients, and it ends with status 0 after the second"""
    port = free_port()
    same("--clients 0", run("--clients", "0", "--port", str(port)), (0, f"listening 127.0.0.1:{port}\n", ""))
    for pace in (("--turns", "1"), ()):
        with serve("--clients", "2", *pace, page=True) as server:
            with Page(server).accepted() as page:
                with Client(server) as client:
                    client.send(0x83)
                printed_after(server, "client 2 leaves")
                time.sleep(0.2)
                same("status after one client", server.process.poll(), None)
                page.write(send(POWER_OFF))
                same("the page", page.lines_until("SENT OK"), receive(POWER_ON, POWER_OFF) + ["SENT OK"])
            same("status after two", server.process.wait(20), 0)
            wanted = ["client 1 joins", "client 2 joins", "message 83 7C  track power on", "client 2 leaves"]
            wanted += ["message 82 7D  track power off", "client 1 leaves"]
            same("printed", server.printed()[2:], wanted)


def last_states():
    """--clients 1: what changes in the round in which that client leaves reaches a page and the log before the end"""
    running = SHUNTER.format("step 63 of 128")
    with serve(*LAYOUT, "--turns", "20", "--clients", "1", page=True) as server:
        with Client(server) as first, Client(server) as driver, Page(server) as page:
            driver.take(3)
            driver.send(0x81)
            page.lines_until("RECEIVE 81 7E")
            with stopped(server, 0):
                first.close()
                driver.write(send(SPEED_63))
            wanted = [*receive(SPEED_63), f"NODE {running}"]
            same("a page", [page.line() for _ in wanted], wanted)
            same("the end", page.bytes.read(), b"")
            same("the driver", driver.lines_until("SENT OK"), [*receive(SPEED_63), "SENT OK"])
        same("status", server.process.wait(20), 0)
        wanted = ["client 1 leaves", f"message {SPEED_63}  slot 1: speed 63 of 126", running]
        same("printed", server.printed()[-3:], wanted)


def addresses():
    """--address: where it can be reached, for clients and for browsers; 127.0.0.1 without it"""
    for words, shown, page, reached in (
        ((), "127.0.0.1", "127.0.0.1", {"127.0.0.1"}),
        (("--address", "0.0.0.0"), "0.0.0.0", outward_address(), {"127.0.0.1", "127.0.0.2", outward_address()}),
        (("--address", "127.0.0.2"), "127.0.0.2", "127.0.0.2", {"127.0.0.2"}),
    ):
        with serve(*words, "--turns", "1", page=True) as server:
            lines = [f"listening {shown}:{server.port}", f"page http://{page}:{server.page_port}/"]
            holds("page ..", server.until_printed(lines[1]))
            same("printed", server.printed()[:2], lines)
            for port in (server.port, server.page_port):
                for host in {"127.0.0.1", "127.0.0.2", page}:
                    same(f"{words}: {host} is reached", is_reached(server, host, port), host in reached)


def outward_address():
    """The address of this machine on its default route; 0.0.0.0 without one."""
    with socket.socket(socket.AF_INET, socket.SOCK_DGRAM) as probe:
        try:
            probe.connect(("198.51.100.1", 9))
        except OSError:
            return "0.0.0.0"
        return probe.getsockname()[0]


def is_reached(server, host, port):
    try:
        server.connect(host=host, port=port).close()
        return True
    except ConnectionRefusedError:
        return False


def many_messages_in_one_write():
    """--turns 3 --lose 99: 600 bytes of messages in one write, and then 20,000, are all answered, in order"""
    with serve(*LAYOUT, "--turns", "3", "--lose", "99", page=True) as server:
        with Client(server) as client, Page(server) as page:
            page.lines_until("NODE node yard module 1 outputs 00000000")
            for count in (34, 1200):
                texts = [message_hex(0xA0, 1 + i // 128, i % 128) for i in range(count)]
                client.write(send(*texts))
                for text in texts:
                    same("the client", [client.line(), client.line()], [*receive(text), "SENT OK"])
                same("the page", [page.line() for _ in texts], receive(*texts))
            texts = [message_hex(0xA0, 1, i % 128) for i in range(300)]
            page.write(send(*texts))
            wanted = [line for text in texts for line in [*receive(text), "SENT OK"]]
            same("the sender", [page.line() for _ in wanted], wanted)


def nodes():
    """NODES: a client receives how the decoders stand, and the others do not; with 64 decoders, with none"""
    yard = "NODE node yard module 1 outputs 00000000"
    with serve(*LAYOUT, "--turns", "16") as server, Client(server) as client, Client(server) as other:
        client.write(["NODES"])
        same("at first", client.lines_until("NODES OK"), [f"NODE {SHUNTER.format('stop')}", yard, "NODES OK"])
        client.send(0xA0, client.take(3), 0x40)
        client.write(["NODES"])
        found = client.lines_until("NODES OK")
        same("after a speed", found, [f"NODE {SHUNTER.format('step 63 of 128')}", yard, "NODES OK"])
        other.write(["NODES x", "nodes", *send("81 7E")])
        lines = other.lines_until("SENT OK")
        same("the other", lines[0], "RECEIVE 83 7C")
        same("the other's NODE lines", [line for line in lines if line.startswith("NODE")], [])
    with roster_of(64) as file, serve("--roster", file) as server, Client(server) as client:
        client.write(["NODES", *send(*[POWER_ON] * 200)])
        lines = client.lines_until("NODES OK")
        same("answers to 200 messages", sum(not line.startswith("NODE") for line in lines), 400)
        wanted = [f"NODE node loco-{i} short 3 stop forward F 0000000000000" for i in range(64)]
        same("64 decoders", [line for line in lines if line.startswith("NODE ")], wanted)
    with serve() as server, Client(server) as client:
        client.write(["NODES"])
        same("without a roster", client.line(), "NODES OK")


# A message without effect, by which clients see that all before it was read: OPC_BUSY.
BUSY = "81 7E"


def nodes_again():
    """NODES: a second one before NODES OK begins the answer anew"""
    wanted = [f"NODE node loco-{i} short 3 stop forward F 0000000000000" for i in range(64)] + ["NODES OK"]
    with roster_of(64) as file, serve("--roster", file, "--turns", "1") as server, Client(server) as client:
        # A round reads at most 400 bytes, and sends one line: the second is read some rounds after the first.
        for lines, least, most in ((["NODES", *800 * [""], "NODES"], 1, 63), (["NODES", "NODES"], 0, 0)):
            client.write([*lines, *send(BUSY)])
            found = [line for line in client.lines_until("NODES OK") if line.startswith("NODE")]
            same("the last answer", found[-65:], wanted)
            within("lines of the first", least, len(found) - 65, most)
            same("those lines", found[:-65], wanted[: len(found) - 65])
            client.write(send(BUSY))
            same("then", client.lines_until("SENT OK")[-2:], [*receive(BUSY), "SENT OK"])
        with Client(server) as other, stopped(server, 0):
            for asker in (client, other):
                asker.write(["NODES"])
            other.stream.shutdown(socket.SHUT_WR)
        same("while another leaves", client.lines_until("NODES OK"), wanted)


def nodes_are_left():
    """NODES: a client that leaves within the answer leaves none of it to the next one"""

    def leave():
        with roster_of(64) as file, serve("--roster", file, "--turns", "255") as server, Client(server) as busy:
            with Client(server) as client, stopped(server, 0):
                # A round reads 33 messages: they last four times as long as the answer, a line a round.
                busy.write(send(*33 * 256 * [POWER_ON]))
                client.write(["NODES"])
                client.stream.shutdown(socket.SHUT_WR)
            printed_after(server, "client 2 leaves")
            with Client(server) as client:
                client.write(send(BUSY))
                lines = client.lines_until("SENT OK")
                same("what the next one receives", set(lines), {*receive(POWER_ON, BUSY), "SENT OK"})
                log = printed_after(server, f"message {BUSY}  busy, ignored")
            same("clients 2", log.count("client 2 joins"), 2)
            between = log[log.index("client 2 leaves") : len(log) - log[::-1].index("client 2 joins")]
            within("messages from one to the other", 0, between.count(f"message {POWER_ON}  track power on"), 33 * 50)

    # The next one often comes too late for the messages of the other, and more often on a fast or a busy machine.
    is_tried_again(leave, most=30)


def all_hear_the_same():
    """two pages and two clients see the same messages in the same order"""
    with serve(*LAYOUT, page=True) as server, contextlib.ExitStack() as stack:
        everybody = [stack.enter_context(one(server)) for one in (Client, Page, Client, Page)]
        # Each is accepted before the first message.
        for one in everybody[1::2]:
            one.accepted()
        for i in range(200):
            for number, one in enumerate(everybody):
                one.write(send(message_hex(0xA0, 1 + number, i % 128)))
        found = []
        for number, one in enumerate(everybody):
            lines = []
            while sum(line.startswith("RECEIVE ") for line in lines) < 800 or lines.count("SENT OK") < 200:
                lines.append(one.line())
            # Its own message has SENT OK right after it, and no other has.
            own = [i for i, line in enumerate(lines) if line.startswith(f"RECEIVE A0 {1 + number:02X} ")]
            same("SENT OK", [i for i, line in enumerate(lines) if line == "SENT OK"], [i + 1 for i in own])
            found.append([line for line in lines if line.startswith("RECEIVE ")])
        for number in range(4):
            own = [line for line in found[0] if line.startswith(f"RECEIVE A0 {1 + number:02X} ")]
            wanted = receive(*(message_hex(0xA0, 1 + number, i % 128) for i in range(200)))
            same("in the order of each", own, wanted)
        for number in (1, 2, 3):
            same(f"client {number + 1} and client 1", found[number], found[0])


# What a page without a place receives after its handshake: a text, and a close with the code 1001 (RFC 6455, section 7.4.1).
NO_PLACE = b"\x81\x0eERROR no place\x88\x02\x03\xe9"


def rejections():
    """a ninth client and a ninth page are rejected with a line, and so are twelve of twenty that wait, and twenty pages"""
    with serve("--turns", "1", page=True) as server, contextlib.ExitStack() as stack:
        for _ in range(8):
            stack.enter_context(Client(server))
        with server.connect() as ninth:
            same("a ninth", ninth.makefile("rb").read(), b"ERROR no place\r\n")
        with Page(server) as ninth:
            same("a ninth page", ninth.bytes.read(), NO_PLACE)
        is_tried_again(lambda: reject_pages(server))
        same("printed", server.printed()[2:], [f"client {i} joins" for i in range(1, 9)])
    with serve("--turns", "1") as server, contextlib.ExitStack() as stack:
        with stopped(server, 0.1):
            streams = [stack.enter_context(server.connect()) for _ in range(20)]
        found = sorted(stream.recv(100) for stream in streams)
        same("twenty", found, 12 * [b"ERROR no place\r\n"] + 8 * [b"VERSION lbserver station\r\n"])


def reject_pages(server):
    """Twenty pages that wait are all rejected before the time of one request is over, with nothing else to wake the server."""
    own = f"127.0.0.1:{server.page_port}"
    with contextlib.ExitStack() as stack:
        with stopped(server, 0):
            pages = [stack.enter_context(server.connect(port=server.page_port)) for _ in range(20)]
            for page in pages:
                page.sendall(upgrade_request(own, f"http://{own}", Page.KEY))
        start = time.monotonic()
        for page in pages:
            same("a page", page.makefile("rb").read().partition(b"\r\n\r\n")[2], NO_PLACE)
        within("seconds", 0, time.monotonic() - start, LONGEST_REQUEST)


def connections_end():
    """connections that have ended are closed: no file descriptor is left of thirty clients, pages and browsers"""
    with serve(page=True) as server:
        folder = pathlib.Path(f"/proc/{server.process.pid}/fd")
        holds("page ..", server.until(lambda: len(server.printed()) == 2))
        with Client(server):
            pass
        printed_after(server, "client 1 leaves")
        before = len(list(folder.iterdir()))
        for _ in range(10):
            with Client(server) as client, Page(server).accepted() as page:
                client.write(send(POWER_ON))
                page.lines_until("RECEIVE 83 7C")
            with server.connect(port=server.page_port) as browser:
                browser.sendall(b"GET / HTTP/1.0\r\nHost: localhost\r\n\r\n")
                browser.makefile("rb").read()
        holds("descriptors are left", server.until(lambda: len(list(folder.iterdir())) == before))
        # The second leaves while the first index is free.
        with Client(server) as first, Client(server):
            first.stream.shutdown(socket.SHUT_RDWR)
            holds("the first has left", server.until(lambda: server.printed()[-1] == "client 1 leaves"))
        holds("it has left", server.until(lambda: server.printed()[-1] == "client 2 leaves"))
        holds("descriptors are left", server.until(lambda: len(list(folder.iterdir())) == before))


def last_messages_are_answered():
    """a client that ends its sending receives all answers, and then its connection ends, with nothing else to wake it"""
    for pace in (("--turns", "1"), ()):
        with serve(*pace) as server, Client(server) as client:
            client.write(50 * send(POWER_ON))
            client.stream.shutdown(socket.SHUT_WR)
            same("what it receives", client.lines.read(), b"RECEIVE 83 7C\r\nSENT OK\r\n" * 50)
            printed_after(server, "client 1 leaves")


def small_pieces_go_at_once():
    """what a client or a page receives is not held back until it has acknowledged what came before"""

    def measure(kind):
        with serve("--turns", "0", page=True) as server, Client(server) as sender, kind(server) as listener:
            if kind is Page:
                listener.accepted()
            times = []
            for _ in range(40):
                sender.send(0x83)
                same("the listener", listener.line(), "RECEIVE 83 7C")
                listener.stream.setsockopt(socket.IPPROTO_TCP, socket.TCP_QUICKACK, 0)
                start = time.monotonic()
                for _ in range(3):
                    sender.send(0x82)
                for _ in range(3):
                    listener.line()
                times.append(time.monotonic() - start)
            # An acknowledgement is held back for 40 ms.
            within(f"seconds of a {kind.__name__}, the median", 0, statistics.median(times[10:]), 0.03)

    for kind in (Client, Page):
        is_tried_again(lambda: measure(kind))
