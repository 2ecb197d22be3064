"""The track in real time, and how the server waits."""

import contextlib
import re
import subprocess
import time

from server_checks.browsers import REQUEST, large_page, slow_browser
from server_checks.common import (
    CYCLE_SECONDS,
    CYCLE_TURNS,
    LAYOUT,
    LEAST_TURNS,
    MOST_TURNS,
    PATIENCE,
    POWER_ON,
    SHUNTER,
    holds,
    is_tried_again,
    printed_after,
    same,
    send,
    serve,
    stopped,
    turns_of,
    within,
)
from serving import Client, Page


# What a client asks for, and the line of the decoder that does it. Each decoder goes back to where it was.
YARD = "node yard module 1 outputs {}0000000"
CHANGES = [
    ((0xA0, 1, 0x40), SHUNTER.format("step 63 of 128")),
    ((0xB0, 0, 0x10), YARD.format(1)),
    ((0xA0, 1, 0), SHUNTER.format("stop")),
    ((0xB0, 0, 0), YARD.format(0)),
    ((0xA0, 1, 1), SHUNTER.format("emergency")),
    ((0xA0, 1, 0), SHUNTER.format("stop")),
]
AT_FIRST = [SHUNTER.format("stop"), YARD.format(0)]


def real_time():
    """in real time a decoder runs within a refresh cycle, on standard output and on two pages, and so it goes back"""
    with serve(*LAYOUT, "--track", page=True) as server:
        with Client(server) as client, Page(server).accepted() as first, Page(server).accepted() as second:
            lines = {first: [], second: []}
            client.take(3)
            for body, state in CHANGES:
                start = time.monotonic()
                client.send(*body)
                for page in lines:
                    lines[page] += page.lines_until(f"NODE {state}")
                took = time.monotonic() - start
                within(f"seconds until {state}", 0, took, CYCLE_SECONDS + PATIENCE)
            time.sleep(CYCLE_SECONDS)
            client.send(0x82)
            printed = printed_after(server, "message 82 7D  track power off")
            states = [state for _, state in CHANGES]
            same("printed", [line for line in printed if line.startswith("node ")], states)
            for page in lines:
                lines[page] += page.lines_until("RECEIVE 82 7D")
                found = [line for line in lines[page] if line.startswith("NODE ")]
                same("a page", found, [f"NODE {state}" for state in AT_FIRST + states])
            check_turns(printed)
            with Page(server) as third:
                found = [third.line() for _ in range(3)]
                wanted = ["VERSION lbserver station", *(f"NODE {state}" for state in AT_FIRST)]
                same("a page that connects later", found, wanted)


def check_turns(lines):
    """Each decoder changes within the turns of a cycle after the message that asks for it. One turn may be under way,
    and one idle packet, which is not printed, is sent between two to the locomotive."""
    asked = turn = 0
    for line in lines:
        if line.startswith("track "):
            turn = int(line.split()[1])
        elif line.startswith(("message A0", "message B0")):
            asked = turn
        elif line.startswith("node "):
            within(f"turns until {line}", 0, turn - asked, CYCLE_TURNS + 2)


def rate_of(server, seconds):
    """Checks how many turns begin in these seconds. Power runs, and one slot is refreshed."""

    def last_turn():
        before = time.monotonic()
        turns = turns_of(server.printed())
        return before, turns[-1], time.monotonic()

    before, first, after = last_turn()
    time.sleep(seconds)
    later, last, end = last_turn()
    # Between packets to the locomotive stand idle ones, which are not printed.
    within("turns", LEAST_TURNS * (later - after) - 3, last - first, MOST_TURNS * (end - before) + 3)


def turns_a_second():
    """in real time 90 to 175 turns begin each second, also while a browser is waited for, and nobody else is there"""
    with serve(*LAYOUT, "--track", page=True) as server:
        with Client(server) as client:
            client.take(3)
            holds("a packet", server.until(lambda: turns_of(server.printed())))
            is_tried_again(lambda: rate_of(server, 2))
        # Its time ends after five seconds, and turns end before that.
        with server.connect(port=server.page_port) as browser:
            browser.sendall(b"GET / HTTP/1.1\r\n")
            is_tried_again(lambda: rate_of(server, 1))
        holds("slept", not [line for line in server.printed() if line.startswith("slept")])


def lines_come_at_once():
    """what is printed can be read on a pipe while the server waits"""
    for words in (("--turns", "1"), ()):
        with serve(*LAYOUT, *words, output=subprocess.PIPE) as server, Client(server) as client:
            client.send(0x82)
            lines = [server.process.stdout.readline() for _ in range(2)]
            same("printed", lines, [b"client 1 joins\n", b"message 82 7D  track power off\n"])


def held_up():
    """held up for 0.6 s it makes up for it; for 2.5 s it says what it leaves out; and clients are served on"""
    is_tried_again(make_up)
    with serve(*LAYOUT, page=True) as server, Client(server) as client, Page(server).accepted() as page:
        start = time.monotonic()
        with stopped(server, 2.5):
            pass
        is_slept = re.compile(r"slept (\d+) ms, left out")
        holds("slept ..", server.until(lambda: any(is_slept.fullmatch(line) for line in server.printed())))
        slept = next(int(found[1]) for line in server.printed() if (found := is_slept.fullmatch(line)))
        within("milliseconds left out", 1500, slept, 1000 * (time.monotonic() - start) - 1000 + 50)
        client.send(0x83)
        holds("the page is served", page.lines_until("RECEIVE 83 7C"))
    with serve(*LAYOUT, "--turns", "3", page=True) as server, Client(server) as client, Page(server).accepted() as page:
        for _ in range(2):
            with stopped(server, 0.1):
                pass
            client.send(0x83)
            holds("the page is served", page.lines_until("RECEIVE 83 7C"))
        with stopped(server, 1.2):
            pass
        client.send(0x82)
        printed = printed_after(server, "message 82 7D  track power off")[1:]
        wanted = ["client 1 joins", "client 2 joins", *2 * ["message 83 7C  track power on"], "message 82 7D  track power off"]
        same("printed", printed, wanted)


def make_up():
    """Less than a second is no sleep, and has its turns."""
    with serve(*LAYOUT, "--track") as server, Client(server) as client:
        client.take(3)
        holds("a packet", server.until(lambda: turns_of(server.printed())))
        first = turns_of(server.printed())[-1]
        start = time.monotonic()
        with stopped(server, 0.6):
            pass
        time.sleep(0.1)
        last = turns_of(server.printed())[-1]
        within("turns", LEAST_TURNS * 0.7 - 6, last - first, MOST_TURNS * (time.monotonic() - start) + 6)
        holds("slept", not [line for line in server.printed() if line.startswith("slept")])


def slow_requests():
    """a request that is not whole is answered 408 after five seconds of its own, with --turns and in real time"""

    def ask_slowly():
        with serve("--turns", "1", page=True) as quiet, serve(page=True) as busy, contextlib.ExitStack() as stack:
            waiting = []
            for begins in (b"", b"GET / HTTP/1.1\r\nHost: "):
                for server in (quiet, busy):
                    start = time.monotonic()
                    browser = stack.enter_context(server.connect(port=server.page_port))
                    browser.sendall(begins)
                    waiting.append((start, browser))
                time.sleep(1 - len(begins) / 100)
            for start, browser in waiting:
                found = browser.recv(4096)
                took = time.monotonic() - start
                same("the response", found.split(b"\r\n")[0], b"HTTP/1.1 408 Request Timeout")
                within("seconds", 4.99, took, 5.6)

    is_tried_again(ask_slowly)


def silent_browsers():
    """sixteen browsers that send nothing hold up a seventeenth until the five seconds of one of them are over"""

    def wait_for_place():
        with serve("--turns", "1", page=True) as server, contextlib.ExitStack() as stack:
            start = time.monotonic()
            for _ in range(16):
                stack.enter_context(server.connect(port=server.page_port))
            browser = stack.enter_context(server.connect(port=server.page_port))
            browser.sendall(b"GET / HTTP/1.1\r\nHost: localhost\r\n\r\n")
            found = browser.recv(4096)
            took = time.monotonic() - start
            same("the response", found.split(b"\r\n")[0], b"HTTP/1.1 200 OK")
            # They may have a second more, to read why they are refused.
            within("seconds", 4.99, took, 7)

    is_tried_again(wait_for_place)


def measure(server, seconds):
    """How often the server wakes in these seconds, and how long processors work for it."""
    time.sleep(0.2)
    wakes, used = server.status("voluntary_ctxt_switches"), server.processor_seconds()
    time.sleep(seconds)
    return server.status("voluntary_ctxt_switches") - wakes, server.processor_seconds() - used


def waits_for(whom, server, seconds):
    """Nothing wakes the server in these seconds."""
    wakes, used = measure(server, seconds)
    within(f"wakes while it waits for {whom}", 0, wakes, 5)
    within(f"processor seconds while it waits for {whom}", 0, used, 0.05)


def idle():
    """it waits and does not spin: nothing wakes it with --turns, and in real time it wakes about once a turn"""

    def wait_for_clients():
        with serve(*LAYOUT, "--turns", "3", page=True) as server:
            with Client(server) as client, Page(server).accepted(), server.connect():
                client.write(100 * send(POWER_ON))
                for _ in range(200):
                    client.line()
                waits_for("clients", server, 1)
            waits_for("a client to connect", server, 0.5)

    def wait_for_turns():
        # Without power each turn lasts 5,796 microseconds.
        with serve(*LAYOUT, page=True) as server, Client(server), Page(server).accepted():
            wakes, used = measure(server, 2)
            within("wakes in real time", 2 * 60, wakes, 1.5 * 2 / 0.005796)
            within("processor seconds in real time", 0, used, 0.4)

    is_tried_again(wait_for_clients)
    is_tried_again(wait_for_turns)


def idle_browsers():
    """it does not spin while browsers send no request, do not read their response, or do not close"""

    def wait_for_browsers():
        with large_page() as (file, _), serve("--turns", "1", "--page-file", file, page=True) as server:
            with server.connect(port=server.page_port) as browser, slow_browser(server):
                browser.sendall(REQUEST[:20])
                waits_for("a request, and a reader of a response", server, 1)
            with server.connect(port=server.page_port) as browser:
                browser.sendall(REQUEST)
                browser.makefile("rb").read()
                # It may close within a second.
                waits_for("the end of a connection", server, 0.4)

    is_tried_again(wait_for_browsers)
