"""Browsers at their HTTP exchanges, by docs/PAGES.md: those that write and read slowly, and how long each exchange may take."""

import contextlib
import pathlib
import socket
import tempfile
import time

from server_checks.common import holds, is_tried_again, same, serve, within
from server_checks.queues import queued
from serving import read_head

# Less than the five seconds after which a request that is not whole is answered.
LONGEST_REQUEST = 4

# The bytes of the longest page, and of a segment of a browser for which the system keeps little of it.
LONGEST_PAGE, SEGMENT = 1_048_576, 536


def get(target, *fields):
    return "\r\n".join([f"GET {target} HTTP/1.1", *fields, "", ""]).encode()


REQUEST = get("/", "Host: localhost")


def response_to(server, request):
    """The head and the body of what a request is answered, until the connection ends."""
    with server.connect(port=server.page_port) as browser:
        browser.sendall(request)
        stream = browser.makefile("rb")
        return read_head(stream), stream.read()


@contextlib.contextmanager
def large_page():
    """The name of a file with the longest page, and its bytes."""
    data = bytes(range(256)) * (LONGEST_PAGE // 256)
    with tempfile.NamedTemporaryFile() as file:
        file.write(data)
        file.flush()
        yield file.name, data


def slow_browser(server):
    """A browser with little room, that has sent a request. The server can write a part of the page."""
    browser = socket.socket()
    browser.setsockopt(socket.SOL_SOCKET, socket.SO_RCVBUF, 4096)
    browser.setsockopt(socket.IPPROTO_TCP, socket.TCP_MAXSEG, SEGMENT)
    browser.settimeout(20)
    browser.connect(("127.0.0.1", server.page_port))
    browser.sendall(REQUEST)
    return browser


def check_browsers(server, data):
    """Browsers at their exchanges, with a server of this page and nothing else to wake it."""
    read_slowly(server, data)
    write_slowly(server, data)
    write_much(server)
    leave_late(server, data)


def read_slowly(server, data):
    """The page reaches a browser for which it is written piece by piece."""
    with slow_browser(server) as browser:
        time.sleep(0.3)
        within("bytes that are written at once", 1, queued(browser, server.page_port)[0], len(data) // 2)
        start = time.monotonic()
        same("the page, read slowly", browser.makefile("rb").read().endswith(b"\r\n\r\n" + data), True)
        # The time of the exchange would wake the server after ten seconds.
        within("seconds to read it", 0, time.monotonic() - start, LONGEST_REQUEST)


def response_ends(server, start):
    """A response that a browser has not read since the start ends after ten seconds, with nothing else to wake the server."""
    folder = pathlib.Path(f"/proc/{server.process.pid}/fd")
    counts = []
    for seconds in (9, 12):
        time.sleep(max(0, seconds - (time.monotonic() - start)))
        counts.append(len(list(folder.iterdir())))
    same("connections that have ended", counts[0] - counts[1], 1)


def write_slowly(server, data):
    """A request in two pieces is answered once it is whole."""
    with server.connect(port=server.page_port) as browser:
        browser.sendall(REQUEST[:20])
        time.sleep(0.5)
        browser.sendall(REQUEST[20:])
        same("a request in pieces", browser.makefile("rb").read().endswith(b"\r\n\r\n" + data), True)


def write_much(server):
    """Bytes behind a request are read, since the response would be lost at the end of a connection with unread bytes."""
    with server.connect(port=server.page_port) as browser:
        browser.sendall(b"POST / HTTP/1.1\r\nContent-Length: 100000\r\n\r\n" + 100_000 * b"x")
        time.sleep(0.3)
        found = browser.makefile("rb").read()
        holds(f"405 before {found[-60:]!r}", found.startswith(b"HTTP/1.1 405 ") and found.endswith(b"Only GET and HEAD are answered.\n"))


def leave_late(server, data):
    """A browser that has its response may send for less than a second, and then its connection has ended."""
    with server.connect(port=server.page_port) as browser:
        browser.sendall(REQUEST)
        same("the page", browser.makefile("rb").read().endswith(b"\r\n\r\n" + data), True)
        start = time.monotonic()
        for _ in range(3):
            time.sleep(0.15)
            browser.sendall(b"x")
        within("seconds in which it may send", 0, time.monotonic() - start, 0.9)
        time.sleep(1.3 - (time.monotonic() - start))
        try:
            for _ in range(2):
                browser.sendall(b"x")
                time.sleep(0.1)
            holds("it may not send later", False)
        except (BrokenPipeError, ConnectionResetError):
            pass


def slow_browsers():
    """browsers that read slowly, write slowly, write much or leave late have their whole response, and a second to leave"""
    with large_page() as (file, data), serve("--turns", "1", "--page-file", file, page=True) as server:
        is_tried_again(lambda: check_browsers(server, data))
