"""The page and its file, requests, and pages on the bus."""

import contextlib
import pathlib
import socket
import tempfile
import time

from server_checks.common import (
    LAYOUT,
    POWER_OFF,
    POWER_ON,
    SHUNTER,
    SLOT_1_IDLE,
    SLOT_1_IN_USE,
    SPEED_63,
    STOP,
    TAKE_3,
    USE_1,
    holds,
    is_tried_again,
    printed_after,
    receive,
    roster_of,
    same,
    send,
    serve,
    stopped,
    within,
)
from server_checks.browsers import LONGEST_REQUEST, check_browsers, get, large_page, response_ends, response_to, slow_browser
from server_checks.losses import DECODERS
from server_checks.railway import OVAL, drive
from serving import TOP, Client, Page, client_frame, free_port, read_head, upgrade_request


def page_files():
    """--page serves pages/throttle.html, and with --page-file that file, to the byte"""
    # A server of the Python package names the file, so this one has the option itself.
    port = free_port()
    with serve("--turns", "1", "--page", str(port)) as server:
        server.page_port = port
        check_page(server, (TOP / "pages/throttle.html").read_bytes())
    with tempfile.NamedTemporaryFile() as file:
        for data in (b"<!DOCTYPE html><title>Mine</title>\n", b"", bytes(range(256)) * 4096):
            pathlib.Path(file.name).write_bytes(data)
            with serve("--turns", "1", "--page-file", file.name, page=True) as server:
                check_page(server, data)
    with serve("--turns", "1") as server:
        same("without --page", server.printed(), [f"listening 127.0.0.1:{server.port}"])


def many_browsers():
    """forty browsers that come at once all have the page at once, though sixteen are served at a time"""
    data = (TOP / "pages/throttle.html").read_bytes()
    is_tried_again(lambda: serve_browsers(data))


def serve_browsers(data):
    """Forty browsers have the page before the time of one request is over."""
    with serve("--turns", "1", page=True) as server, contextlib.ExitStack() as stack:
        with stopped(server, 0):
            browsers = [stack.enter_context(server.connect(port=server.page_port)) for _ in range(40)]
            for browser in browsers:
                # A head that is not read at once.
                browser.sendall(get("/", "Host: localhost", f"X-Long: {3000 * 'x'}"))
        start = time.monotonic()
        for browser in browsers:
            found = browser.makefile("rb").read()
            same("the page", found.endswith(b"\r\n\r\n" + data), True)
            browser.shutdown(socket.SHUT_WR)
            within("seconds", 0, time.monotonic() - start, LONGEST_REQUEST)


def check_page(server, data):
    head, body = response_to(server, get("/", f"Host: 127.0.0.1:{server.page_port}"))
    same("the page", body == data, True)
    lines = head.lower().splitlines()
    same("its head", lines[0], "http/1.1 200 ok")
    wanted = [f"content-length: {len(data)}", "connection: close", "cache-control: no-store"]
    for line in [*wanted, "x-content-type-options: nosniff", "referrer-policy: no-referrer"]:
        holds(f"{line} in {lines}", line in lines)


def names():
    """a browser that names another host receives the word --host, and by that name the page loads and connects"""
    with serve("--turns", "1", "--host", "layout.example", "--host", "Station", page=True) as server:
        for name in ("layout.example", f"station:{server.page_port}", "STATION", f"127.0.0.1:{server.page_port}"):
            head, body = response_to(server, get("/", f"Host: {name}"))
            same(f"the page of {name}", head.partition("\r\n")[0], "HTTP/1.1 200 OK")
            with server.connect(port=server.page_port) as browser:
                browser.sendall(upgrade_request(name, f"http://{name}", Page.KEY))
                same(f"the bus of {name}", read_head(browser.makefile("rb")).partition("\r\n")[0][:12], "HTTP/1.1 101")
        head, body = response_to(server, get("/", "Host: layout.example.com"))
        same("another name", head.partition("\r\n")[0], "HTTP/1.1 421 Misdirected Request")
        holds("--host", b"--host NAME" in body)
        foreign = upgrade_request("layout.example", "http://station", Page.KEY)
        same("another origin", response_to(server, foreign)[0].partition("\r\n")[0], "HTTP/1.1 403 Forbidden")


STOPPED, RUNNING = SHUNTER.format("stop"), SHUNTER.format("step 63 of 128")
GREETING = ["VERSION lbserver station", f"NODE {STOPPED}", "NODE node yard module 1 outputs 00000000"]
TAKEN = [*receive(TAKE_3), "SENT OK", *receive(SLOT_1_IDLE, POWER_ON), "SENT OK"]
TAKEN += [*receive(USE_1), "SENT OK", *receive(SLOT_1_IN_USE)]


def wanted_of(text, state):
    """What a page receives for a message of its own that changes a decoder."""
    return [*receive(text), "SENT OK", f"NODE {state}"]


def pages():
    """a page has 101, it receives the decoders, and its messages are carried out"""
    with serve(*LAYOUT, "--turns", "20", page=True) as server:
        with Page(server) as page:
            same("status", page.head.partition("\r\n")[0], "HTTP/1.1 101 Switching Protocols")
            accept = f"\r\nsec-websocket-accept: {page.accept_key()}\r\n"
            holds("its key is answered", accept.lower() in page.head.lower())
            same("its greeting", [page.line() for _ in GREETING], GREETING)
            page.write(send(TAKE_3, POWER_ON, USE_1))
            same("three messages in one write", [page.line() for _ in TAKEN], TAKEN)
            page.write(send(SPEED_63))
            wanted = wanted_of(SPEED_63, RUNNING)
            same("it drives", [page.line() for _ in wanted], wanted)
            page.write(["SEND 83 7D", "nothing", f"SEND {STOP}\nSEND {POWER_OFF}"])
            lines = [line for line in page.lines_until(f"RECEIVE {POWER_OFF}") if not line.startswith("NODE ")]
            wanted = ["SENT ERROR wrong check byte", *receive(STOP), "SENT OK", *receive(POWER_OFF)]
            same("what is no message, and two lines in one", lines, wanted)
        # Messages in the same write as the handshake.
        own = f"127.0.0.1:{server.page_port}"
        frames = b"".join(client_frame(Page.TEXT, text.encode()) for text in send(POWER_ON, SPEED_63))
        with Client(server) as client, server.connect(port=server.page_port) as other:
            other.sendall(upgrade_request(own, f"http://{own}", Page.KEY) + frames)
            same("after a handshake", [client.line() for _ in range(2)], receive(POWER_ON, SPEED_63))


# Messages, and their words by LocoNet Personal Use Edition 1.0, in those of docs/EXPLAIN.md.
WORDS = [
    (TAKE_3, "take locomotive 3"),
    (SLOT_1_IDLE, "slot 1: locomotive 3, idle, 128 steps, stop, forward; track off"),
    (USE_1, "use slot 1"),
    ("E7 0E 01 33 03 00 00 06 00 00 00 00 00 21", "slot 1: locomotive 3, in use, 128 steps, stop, forward; track off"),
    (SPEED_63, "slot 1: speed 63 of 126"),
    ("B0 04 10 5B", "turnout 5 thrown, on"),
    ("BB 00 00 44", "read slot 0"),
    ("B4 3B 00 70", "message BB refused"),
    ("81 7E", "busy"),
]


def words_on_pages():
    """behind each message a page receives its words, those of the log, at once; no other client does"""
    replies = (SLOT_1_IDLE, WORDS[3][0], "B4 3B 00 70")
    with serve("--turns", "1", page=True) as server, Client(server) as client, Page(server).accepted() as page:
        for text, _ in WORDS:
            if text not in replies:
                client.write(send(text))
        wanted = [line for text, words in WORDS for line in (f"RECEIVE {text}", f"WORDS {words}")]
        same("a page", [page.text() for _ in wanted], wanted)
        same("another client", {client.line().split()[0] for _ in range(2 * len(WORDS) - len(replies))}, {"RECEIVE", "SENT"})
        for text, words in WORDS:
            # The log leaves out reads of slots, but for those that are refused, and says what the station ignores.
            ignored = ", ignored" if words == "busy" else ""
            holds(f"{words} is printed", server.until_printed(f"message {text}  {words}{ignored}"))
        page.write(send(SPEED_63))
        wanted = [f"RECEIVE {SPEED_63}", "WORDS slot 1: speed 63 of 126", "SENT OK"]
        same("its own message", [page.text() for _ in wanted], wanted)


def messages_in_pieces():
    """a page's message is carried out once it is whole: in fragments, after pings, and in several writes"""
    with serve(*LAYOUT, "--turns", "20", page=True) as server, Page(server) as page:
        page.write(send(TAKE_3, POWER_ON, USE_1))
        page.lines_until(TAKEN[-1])
        text = f"SEND {SPEED_63}".encode()
        page.stream.sendall(client_frame(Page.TEXT, text[:9], is_last=False))
        time.sleep(0.05)
        page.stream.sendall(client_frame(Page.PING, b"there"))
        same("a ping is answered", page.frame(), (Page.PONG, True, b"there"))
        page.stream.sendall(client_frame(Page.CONTINUATION, text[9:]))
        wanted = wanted_of(SPEED_63, RUNNING)
        same("in fragments", [page.line() for _ in wanted], wanted)
        # Its head, half a mask, and a part of its text.
        frame = client_frame(Page.TEXT, f"SEND {STOP}".encode())
        for start, end in ((0, 1), (1, 2), (2, 4), (4, 15), (15, len(frame))):
            page.stream.sendall(frame[start:end])
            time.sleep(0.03)
        wanted = wanted_of(STOP, STOPPED)
        same("in several writes", [page.line() for _ in wanted], wanted)
        # After pings in the same write.
        pings = b"".join(client_frame(Page.PING, bytes([i])) for i in range(20))
        page.stream.sendall(pings + client_frame(Page.TEXT, text) + pings + client_frame(Page.TEXT, b"SEND 81 7E"))
        lines = [line for line in page.lines_until("RECEIVE 81 7E") if not line.startswith("NODE ")]
        same("after pings", lines, [*receive(SPEED_63), "SENT OK", *receive("81 7E")])
        # Another client wakes the server between the writes.
        page.write(send(STOP))
        page.lines_until(f"NODE {STOPPED}")
        with Client(server) as client:
            frame = client_frame(Page.TEXT, text)
            for start, end in ((0, 3), (3, 12), (12, len(frame))):
                page.stream.sendall(frame[start:end])
                client.send(0x83)
            lines = [line for line in page.lines_until(f"NODE {RUNNING}") if line != f"RECEIVE {POWER_ON}"]
            same("beside another client", lines, wanted_of(SPEED_63, RUNNING))


def pages_leave():
    """a page leaves by a close, which is answered, and by what breaks the protocol"""
    with serve("--turns", "1", page=True) as server:
        for count, (frame, is_answered) in enumerate(
            (
                (client_frame(Page.CLOSE, b"\x03\xe8"), b"\x03\xe8"),
                (client_frame(Page.BINARY, b"SEND 83 7C"), b"\x03\xeb"),
                (client_frame(Page.TEXT, b"SEND 83 7C".ljust(513)), None),
                (b"\x81\x0aSEND 83 7C", None),
                (client_frame(3, b"SEND 83 7C"), None),
            ),
            1,
        ):
            with Page(server).accepted() as page:
                page.stream.sendall(frame)
                if is_answered is not None:
                    same("the close", page.frame(), (Page.CLOSE, True, is_answered))
                    same("after the close", page.bytes.read(), b"")
                holds("it has left", server.until(lambda: server.printed().count("client 1 leaves") == count))
        same("printed", server.printed()[2:], 5 * ["client 1 joins", "client 1 leaves"])


# Seconds from the first pages to the eighth.
LATER = 6


def silent_pages():
    """each of eight pages is pinged after 20 seconds of silence, and leaves after 40 without an answer; new ones then join"""
    with large_page() as (file, data), contextlib.ExitStack() as stack:
        server = stack.enter_context(serve("--turns", "1", "--page-file", file, page=True))
        start = time.monotonic()

        def is_after(what, seconds):
            within(f"{what}: seconds", seconds - 1, time.monotonic() - start, seconds + 5)

        stack.enter_context(slow_browser(server))
        silent, *others = [stack.enter_context(Page(server, seconds=50)).accepted() for _ in range(7)]
        time.sleep(LATER)
        eighth = stack.enter_context(Page(server, seconds=50)).accepted()
        response_ends(server, start)
        for page in (silent, *others):
            same("the ping", page.frame(), (Page.PING, True, b""))
        is_after("the first are pinged", 20)
        for page in others:
            page.stream.sendall(client_frame(Page.PONG, b""))
        same("the ping of the eighth", eighth.frame(), (Page.PING, True, b""))
        is_after("the eighth is pinged", 20 + LATER)
        eighth.stream.sendall(client_frame(Page.PONG, b""))
        same("the end", silent.bytes.read(), b"")
        is_after("it has left", 40)
        # More than the 40 seconds after which a silent page leaves.
        new = stack.enter_context(Page(server)).accepted()
        new.stream.sendall(client_frame(Page.TEXT, b"SEND 83 7C"))
        wanted = [b"RECEIVE 83 7C", b"WORDS track power on", b"SENT OK"]
        same("a new page", [new.frame()[2] for _ in wanted], wanted)
        for page in (*others, eighth):
            same("another", page.line(), "RECEIVE 83 7C")
        expected = [f"client {i} joins" for i in range(1, 9)] + ["client 1 leaves", "client 1 joins", "message 83 7C  track power on"]
        same("printed", printed_after(server, expected[-1])[1:], expected)
        is_tried_again(lambda: check_browsers(server, data))


def many_decoders():
    """a page receives all 64 decoders when it connects and when all change, and so does the next at its index"""
    with roster_of(DECODERS) as file, serve("--roster", file, "--turns", "20", page=True) as server:
        with Client(server) as client:
            client.take(3)
            # Nothing else wakes the server meanwhile.
            with Page(server) as first, Page(server) as second:
                for motion, speed in (("stop", None), ("step 63 of 128", 0x40), ("stop", 0), ("emergency", 1)):
                    if speed is not None:
                        client.send(0xA0, 1, speed)
                    for page in (first, second):
                        check_decoders(page, motion)
            for index in (2, 3):
                printed_after(server, f"client {index} leaves")
            with Page(server) as third:
                check_decoders(third, "emergency")


def check_decoders(page, motion):
    """A page receives one line, and then every decoder."""
    lines = [page.line() for _ in range(DECODERS + 1)]
    wanted = [f"NODE node loco-{i} short 3 {motion} forward F 0000000000000" for i in range(DECODERS)]
    same("decoders", sorted(lines[1:]), sorted(wanted))


# What a page receives of examples/oval.toml and its roster. The shunter's front is 1,000 mm of 1,500 from end a, the
# express's 1,500 of 2,400: 6.7 and 6.25 tenths.
OVAL_PLAN = [
    "VERSION lbserver station",
    "NODE node shunter short 3 stop forward F 0000000000000",
    "NODE node express short 5 stop forward F 0000000000000",
    "NODE node yard module 1 outputs 00000000",
    "BLOCK main 1500 a 300 100 b 700 100",
    "BLOCK siding 1500 a 300 200 b 700 200",
    "BLOCK east 1200 a 800 100 b 800 400",
    "BLOCK back 2400 a 700 450 b 300 450",
    "BLOCK west 1200 a 200 400 b 200 100",
    "JOINT east.b back.a",
    "JOINT back.b west.a",
    "TURNOUT 1 west.b main.a siding.a closed",
    "TURNOUT 2 east.a main.b siding.b closed",
    "TRAIN shunter main 6 b main 0",
    "TRAIN express back 6 b back 0",
]

# The way of the shunter at 125 mm/s, 300 mm long: its rear is in east when its front is 300 mm, 2.5 tenths, behind end a.
ON_MAIN = [f"TRAIN shunter main {tenths} b main 125" for tenths in (6, 7, 8, 9, 10)]
INTO_EAST = [f"TRAIN shunter east {tenths} b main 125" for tenths in (0, 1, 2)]
ON_EAST = [f"TRAIN shunter east {tenths} b east 125" for tenths in (2, 3, 4, 5, 6, 7, 8, 9, 10)]
DERAILED = "TRAIN shunter main 10 b main 0 derailed"

# Turnout 2 is thrown.
THROW_2 = "B0 01 10 5E"


def plans_on_pages():
    """--plan: a page receives the plan once, and each train again when it has moved or derailed; no other client does"""
    # The front is 500 mm before the end of main. 1,150 turns last 6.6 s or more, and with those of messages at most
    # 13.3 s: at 125 mm/s that is 830 to 1,660 mm.
    check_moves([], ON_MAIN + INTO_EAST + ON_EAST, [line.replace(" 125", " 0") for line in ON_EAST], [])
    check_moves(send(POWER_ON, THROW_2), [*ON_MAIN, DERAILED], [DERAILED], ["TURNOUT 2 east.a main.b siding.b thrown"])
    with serve(*OVAL[:2], "--turns", "1", page=True) as server, Page(server) as page:
        same("without a plan", [page.line() for _ in OVAL_PLAN[:4]], OVAL_PLAN[:4])
        page.write(send(POWER_ON))
        wanted = [*receive(POWER_ON), "SENT OK"]
        same("and nothing behind it", [page.line() for _ in wanted], wanted)


def check_moves(first, way, ends, turnouts):
    """A page receives the trains of a drive: some of a way, in order and each once, and last one of its ends; and turnouts that
    have moved."""
    with serve(*OVAL, "--turns", "20", page=True) as server, Page(server) as page, Client(server) as client:
        same("the plan", [page.line() for _ in OVAL_PLAN], OVAL_PLAN)
        client.write(first)
        heard = drive(client, 1150)
        # A train also runs without power, until its decoder receives a stop.
        for text in (POWER_ON, STOP, "81 7E"):
            client.write(send(text))
            heard += client.lines_until(f"RECEIVE {text}")
        seen = page.lines_until("RECEIVE 81 7E")
        same("turnouts", [line for line in seen if line.startswith("TURNOUT ")], turnouts)
        told = [line for line in seen if not line.startswith(("RECEIVE ", "NODE ", "TURNOUT "))]
        # Without power it stands, and then runs on.
        moved = [line for line in told if not line.endswith(" 0")]
        moved = [line for at, line in enumerate(moved) if line not in moved[:at]]
        holds(f"its trains on their way: {told}", moved == [line for line in way if line in moved])
        holds(f"the last: {told}", told[-1:] and told[-1] in ends)
        words = {line.split(" ")[0] for line in heard}
        same("another client", words - {"RECEIVE", "SENT", "TURNS"}, set())
        with Page(server) as other:
            parts = [line for line in OVAL_PLAN if line.startswith(("BLOCK", "JOINT", "TURNOUT"))]
            wanted = [*parts[: len(parts) - len(turnouts)], *turnouts, told[-1], OVAL_PLAN[-1]]
            seen = [other.line() for _ in OVAL_PLAN]
            same("a page that opens later", seen[4:], wanted)


def trains_on_pages():
    """--plan: a page receives each tenth of a block that a train passes, once"""

    def pass_blocks():
        with serve(*OVAL, "--rate", "20", page=True) as server, Page(server) as page, Client(server) as client:
            client.write(send(TAKE_3, USE_1, POWER_ON, SPEED_63))
            last = ON_EAST[-2]
            lines = page.lines_until(last)
            # A front is 10 tenths from end a only where it touches end b.
            told, wanted = (
                [line for line in found if line.startswith("TRAIN ") and " 10 " not in line]
                for found in (lines, OVAL_PLAN + ON_MAIN + INTO_EAST + ON_EAST)
            )
            same("the trains", told, wanted)

    # A tenth of main takes 60 milliseconds.
    is_tried_again(pass_blocks)


# Three blocks of a metre in a row, without sensors. The last one ends at the thrown side of a turnout that lies closed. Few
# ends have a place. The shunter is in the first block, the express in the last.
ROW_ROSTER = """version = 2
[[node]]
name = "shunter"
kind = "loco"
cvs = [[1, 3], [29, 2]]
[[node]]
name = "express"
kind = "loco"
cvs = [[1, 5], [29, 2]]
[[node]]
name = "yard"
kind = "accessory"
module = 1
"""
ROW = """version = 1
block = [
    { name = "near", length = 1000 },
    { name = "mid", length = 1000 },
    { name = "far", length = 1000 },
    { name = "side", length = 1000, a = [-20, 5], b = [300, -10000] },
    { name = "tail", length = 1000, b = [7, 0] },
]
joint = [{ ends = ["near.b", "mid.a"] }, { ends = ["mid.b", "far.a"] }]
turnout = [{ switch = 1, common = "tail.a", closed = "side.b", thrown = "far.b" }]
[[train]]
decoder = "shunter"
block = "near"
front = 900
facing = "b"
length = 100
speed = 1000
[[train]]
decoder = "express"
block = "far"
front = 500
facing = "b"
length = 200
speed = 1000
"""


def row_for_page(state, train):
    """What a page receives of it when it connects, with the shunter's state and train."""
    return [
        "VERSION lbserver station",
        f"NODE {SHUNTER.format(state)}",
        "NODE node express short 5 stop forward F 0000000000000",
        "NODE node yard module 1 outputs 00000000",
        "BLOCK near 1000",
        "BLOCK mid 1000",
        "BLOCK far 1000",
        "BLOCK side 1000 a -20 5 b 300 -10000",
        "BLOCK tail 1000 b 7 0",
        "JOINT near.b mid.a",
        "JOINT mid.b far.a",
        "TURNOUT 1 tail.a side.b far.b closed",
        f"TRAIN shunter {train}",
        "TRAIN express far 5 b far 0",
    ]


def trains_in_a_row():
    """--plan: a train drives into a block with another, and on to a turnout that lies against it: the log, and pages"""
    with contextlib.ExitStack() as stack:
        folder = pathlib.Path(stack.enter_context(tempfile.TemporaryDirectory()))
        (folder / "roster.toml").write_text(ROW_ROSTER)
        (folder / "plan.toml").write_text(ROW)
        words = ("--roster", f"{folder}/roster.toml", "--plan", f"{folder}/plan.toml", "--turns", "0")
        server = stack.enter_context(serve(*words, page=True))
        client = stack.enter_context(Client(server))

        def open_page(wanted):
            with Page(server) as page:
                same("a page", [page.line() for _ in wanted], wanted)

        open_page(row_for_page("stop", "near 9 b near 0"))
        # At a metre a second its front is in mid after 0.1 seconds, in far after 1.1, and at the turnout after 2.1. Its rear
        # leaves each block 0.1 seconds later. 600 turns last 3.4 seconds or more.
        client.write([*send(TAKE_3, USE_1, POWER_ON, "A0 01 7F 21"), "TURNS 600"])
        client.lines_until("TURNS OK")
        printed = printed_after(server, "derailed shunter at turnout 1")
        wanted = [SHUNTER.format("step 126 of 128"), "block mid occupied (shunter)", "block near free"]
        wanted += ["conflict far: shunter, express", "block mid free", "derailed shunter at turnout 1"]
        same("printed", [line for line in printed if not line.startswith(("client ", "message ", "page "))], wanted)
        open_page(row_for_page("step 126 of 128", "far 10 b far 0 derailed"))
