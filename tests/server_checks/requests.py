"""Requests written by hand, by the grammar of RFC 9112 and RFC 6455, and the response to each, byte for byte."""

import contextlib
import socket
import tempfile

from server_checks.common import holds, serve
from serving import read_head

# Whole requests, or lines that cannot begin one.
KEY = "Sec-WebSocket-Key: dGhlIHNhbXBsZSBub25jZQ=="
OWN = "Host: localhost:8080\r\nOrigin: http://localhost:8080\r\n"
PLAIN = "Host: localhost\r\nOrigin: http://localhost\r\n"
UPGRADE = "Upgrade: websocket\r\nConnection: Upgrade\r\n"
REQUESTS = [
    ("GET / HTTP/1.1\r\nHost: localhost:8080\r\n\r\n", 200),
    ("GET / HTTP/1.0\r\nHost: 10.0.0.7\r\n\r\n", 200),
    # No host, two of them, and that of another (RFC 9112, section 3.2; RFC 9110, section 15.5.20).
    ("GET / HTTP/1.1\r\n\r\n", 400),
    ("GET / HTTP/1.1\r\nHost: localhost\r\nHost: localhost\r\n\r\n", 400),
    ("GET / HTTP/1.1\r\nHost: \r\n\r\n", 421),
    ("GET / HTTP/1.1\r\nHost: station.local:8080\r\n\r\n", 421),
    ("GET /bus HTTP/1.1\r\nHost: station.local:8080\r\nOrigin: http://station.local:8080\r\n\r\n", 421),
    # A line may end in a line feed alone, and empty lines may come first (RFC 9112, section 2.2).
    ("\r\nGET / HTTP/1.1\nHost: localhost\n\n", 200),
    ("GET /?x HTTP/1.1\r\n\r\n", 404),
    ("GET // HTTP/1.1\r\n\r\n", 404),
    ("GET /bus/ HTTP/1.1\r\n\r\n", 404),
    ("GET /BUS HTTP/1.1\r\n\r\n", 404),
    ("GET /../x HTTP/1.1\r\n\r\n", 404),
    ("GET /index.html HTTP/1.1\r\n\r\n", 404),
    ("GET /pages/throttle.html HTTP/1.1\r\n\r\n", 404),
    # The form of a request to a proxy (RFC 9112, section 3.2.2), and that for all of a server (3.2.4).
    ("GET http://localhost/ HTTP/1.1\r\n\r\n", 404),
    ("OPTIONS * HTTP/1.1\r\n\r\n", 404),
    ("POST /x HTTP/1.1\r\n\r\n", 404),
    ("POST / HTTP/1.1\r\n\r\n", 405),
    ("POST / HTTP/1.1\r\nContent-Length: 2\r\n\r\n{}", 405),
    # HEAD has the response to GET without its content (RFC 9110, section 9.3.2). It asks for no upgrade (RFC 6455, section 4.1).
    ("HEAD / HTTP/1.1\r\nHost: localhost:8080\r\n\r\n", 200),
    ("HEAD / HTTP/1.1\r\n\r\n", 400),
    ("HEAD / HTTP/1.1\r\nHost: station.local:8080\r\n\r\n", 421),
    ("HEAD /x HTTP/1.1\r\n\r\n", 404),
    ("HEAD /bus HTTP/1.1\r\nHost: localhost:8080\r\n\r\n", 403),
    (f"HEAD /bus HTTP/1.1\r\n{PLAIN}{UPGRADE}{KEY}\r\nSec-WebSocket-Version: 13\r\n\r\n", 400),
    # Method names are case-sensitive (RFC 9110, section 9.1).
    ("get / HTTP/1.1\r\n\r\n", 405),
    ("POST /bus HTTP/1.1\r\n\r\n", 405),
    # No version, as before HTTP/1.0; a later one; an invalid one.
    ("GET /\r\n\r\n", 400),
    ("GET / HTTP/2.0\r\n\r\n", 400),
    ("GET / http/1.1\r\n\r\n", 400),
    ("\x16\x03\x01\x02\x00\x01\x00\x01\xfc\x03\n", 400),
    ("RECEIVE 83 7C\r\n", 400),
    ("SEND 83 7C\r\n", 400),
    # A field without a colon, one with a space before it, and a folded line (section 5.2).
    ("GET / HTTP/1.1\r\nHost\r\n\r\n", 400),
    ("GET / HTTP/1.1\r\nHost : localhost\r\n\r\n", 400),
    ("GET / HTTP/1.1\r\nHost: localhost\r\n more\r\n\r\n", 400),
    ("GET / HTTP/1.1\r\nHost: local\0host\r\n\r\n", 400),
    # A target that is not UTF-8, rejected where its line ends.
    ("GET /\xff HTTP/1.1\r\n\r\n", 400),
    ("GET / HTTP/1.1\r\nHost: localhost\r\nCookie: a=\xff\xe9\r\n\r\n", 200),
    # The upgrade, without an origin and without a handshake.
    ("GET /bus HTTP/1.1\r\nHost: localhost:8080\r\n\r\n", 403),
    (f"GET /bus HTTP/1.1\r\n{OWN}\r\n", 400),
    (f"GET /bus HTTP/1.1\r\n{OWN}{UPGRADE}Sec-WebSocket-Version: 13\r\n\r\n", 400),
    # A key of three bytes, an older version, and an upgrade to another protocol.
    (f"GET /bus HTTP/1.1\r\n{PLAIN}{UPGRADE}Sec-WebSocket-Version: 13\r\nSec-WebSocket-Key: YWJj\r\n\r\n", 400),
    (f"GET /bus HTTP/1.1\r\n{PLAIN}{UPGRADE}Sec-WebSocket-Version: 8\r\n{KEY}\r\n\r\n", 400),
    (f"GET /bus HTTP/1.1\r\n{PLAIN}Upgrade: h2c\r\nConnection: Upgrade\r\nSec-WebSocket-Version: 13\r\n{KEY}\r\n\r\n", 400),
    (f"GET /bus HTTP/1.0\r\n{PLAIN}{UPGRADE}Sec-WebSocket-Version: 13\r\n{KEY}\r\n\r\n", 400),
    # As a browser sends it.
    (
        "GET /bus HTTP/1.1\r\nhost: 127.0.0.1:8080\r\nconnection: keep-alive, Upgrade\r\nupgrade: websocket\r\n"
        "origin: http://127.0.0.1:8080\r\nsec-websocket-version: 13\r\nsec-websocket-key: dGhlIHNhbXBsZSBub25jZQ==\r\n"
        "sec-websocket-extensions: permessage-deflate; client_max_window_bits\r\n\r\n",
        101,
    ),
]

# The fields of a handshake with the key of the standard (RFC 6455, section 1.3), after Host and Origin.
HANDSHAKE = f"{UPGRADE}{KEY}\r\nSec-WebSocket-Version: 13\r\n\r\n"
ORIGINS = [
    ("Host: localhost\r\nOrigin: http://localhost\r\n", 101),
    ("Host: 192.168.1.20:1234\r\nOrigin: http://192.168.1.20:1234\r\n", 101),
    ("HOST: 127.0.0.1\r\nORIGIN:http://127.0.0.1\r\n", 101),
    ("Host: localhost:8080\r\n", 403),
    ("Origin: http://localhost:8080\r\n", 400),
    ("Host: localhost\r\nHost: localhost\r\nOrigin: http://localhost\r\n", 400),
    ("Host: localhost\r\nOrigin: http://localhost\r\nOrigin: http://localhost\r\n", 403),
    ("Host: localhost\r\nOrigin: http://localhost\r\norigin: http://evil\r\n", 403),
    ("Host: localhost\r\nOrigin: null\r\n", 403),
    ("Host: localhost\r\nOrigin: http://evil\r\n", 403),
    ("Host: localhost\r\nOrigin: https://localhost\r\n", 403),
    ("Host: localhost\r\nOrigin: localhost\r\n", 403),
    ("Host: localhost:8080\r\nOrigin: http://localhost\r\n", 403),
    ("Host: localhost:8080\r\nOrigin: http://localhost:3000\r\n", 403),
    ("Host: localhost:8080\r\nOrigin: http://localhost:8080/\r\n", 403),
    ("Host: localhost:8080\r\nOrigin: http://127.0.0.1:8080\r\n", 403),
    ("Host: 127.0.0.1:8080\r\nOrigin: http://127.0.0.1.evil.com\r\n", 403),
    # A name that its owner has made resolve to this computer.
    ("Host: evil.com:8080\r\nOrigin: http://evil.com:8080\r\n", 421),
    ("Host: 127.0.0.1.evil.com:8080\r\nOrigin: http://127.0.0.1.evil.com:8080\r\n", 421),
    ("Host: localhost.evil.com\r\nOrigin: http://localhost.evil.com\r\n", 421),
    ("Host: localhost:\r\nOrigin: http://localhost:\r\n", 421),
    ("Host: localhost:port\r\nOrigin: http://localhost:port\r\n", 421),
    ("Host: 127.0.0.1:65536\r\nOrigin: http://127.0.0.1:65536\r\n", 421),
    ("Host: 127.1\r\nOrigin: http://127.1\r\n", 421),
    ("Host: \r\nOrigin: http://\r\n", 421),
]

# Hosts, which are their origins too, and whether a server of the names `station` and `Layout.Local` serves them.
NAMES = [
    ("station", True),
    ("station:8080", True),
    ("STATION:8080", True),
    ("layout.local", True),
    ("localhost:8080", True),
    ("station.local", False),
    ("stat", False),
    ("stations", False),
    ("station:", False),
]

ERRORS = {
    400: ("Bad Request", 41, "", "This is no request that can be answered."),
    403: ("Forbidden", 45, "", "Only a page of this server may join the bus."),
    404: ("Not Found", 31, "", "There is nothing at this path."),
    405: ("Method Not Allowed", 32, "Allow: GET, HEAD\r\n", "Only GET and HEAD are answered."),
    408: ("Request Timeout", 45, "", "The request did not come to its end in time."),
    421: ("Misdirected Request", 61, "", "This server does not know that name: --host NAME lets it in."),
    431: ("Request Header Fields Too Large", 37, "", "The head of the request is too long."),
}
PAGE = b"<!DOCTYPE html><title>A page</title>\n"
PAGE_HEAD = (
    "HTTP/1.1 200 OK\r\nContent-Type: text/html; charset=utf-8\r\nContent-Length: 37\r\nConnection: close\r\n"
    "Cache-Control: no-store\r\nX-Content-Type-Options: nosniff\r\nReferrer-Policy: no-referrer\r\n"
    "Content-Security-Policy: default-src 'none'; style-src 'unsafe-inline'; script-src 'unsafe-inline'; connect-src 'self'; "
    "img-src data:; base-uri 'none'; form-action 'none'; frame-ancestors 'none'\r\n\r\n"
)
# The worked example of RFC 6455, section 1.3.
UPGRADED = (
    "HTTP/1.1 101 Switching Protocols\r\nconnection: Upgrade\r\nupgrade: websocket\r\n"
    "sec-websocket-accept: s3pPLMBiTxaQ9kYGzzhZRbK+xOo=\r\n\r\n"
)


def is_response(head, body, status, has_content=True):
    """Whether a head, and what follows it until the connection ends, are the response with this status."""
    if status == 101:
        return head == UPGRADED
    if status == 200:
        return (head, body) == (PAGE_HEAD, PAGE if has_content else b"")
    name, length, allow, reason = ERRORS[status]
    wanted = f"HTTP/1.1 {status} {name}\r\nContent-Type: text/plain; charset=utf-8\r\nContent-Length: {length}\r\n"
    return head == f"{wanted}Connection: close\r\n{allow}\r\n" and body.decode() == (f"{reason}\n" if has_content else "")


def check(server, request, status, pieces=None):
    """A request, in one write or in these pieces, has its response."""
    data = request.encode("latin-1")
    with server.connect(port=server.page_port) as browser:
        browser.setsockopt(socket.IPPROTO_TCP, socket.TCP_NODELAY, 1)
        try:
            for piece in pieces(data) if pieces else [data]:
                browser.sendall(piece)
        except OSError:
            # It is answered before its end.
            holds(f"{request[:80]!r} is refused", status not in (101, 200))
        stream = browser.makefile("rb")
        head = read_head(stream)
        body = b"" if status == 101 else stream.read()
        holds(f"{request[-160:]!r}: {head!r}, {body!r}, and not {status}", is_response(head, body, status, not request.startswith("HEAD ")))


def byte_by_byte(data):
    return (bytes([byte]) for byte in data)


@contextlib.contextmanager
def page_server(*words):
    """A server with a page of 37 bytes."""
    with tempfile.NamedTemporaryFile() as file:
        file.write(PAGE)
        file.flush()
        with serve("--turns", "1", "--page-file", file.name, *words, page=True) as server:
            yield server


def responses():
    """each request has the response of docs/PAGES.md, byte for byte, also if it comes byte by byte, and is no client"""
    origins = [(f"GET /bus HTTP/1.1\r\n{fields}{HANDSHAKE}", status) for fields, status in ORIGINS]
    with page_server() as server:
        for request, status in REQUESTS + origins:
            check(server, request, status)
            check(server, request, status, byte_by_byte)
        joined = 2 * sum(status == 101 for _, status in REQUESTS + origins)
        wanted = joined * ["client 1 joins", "client 1 leaves"]
        holds("each has left", server.until(lambda: server.printed()[2:].count("client 1 leaves") == joined))
        holds("nobody else has joined", sorted(server.printed()[2:]) == sorted(wanted))
    with page_server("--host", "station", "--host", "Layout.Local") as server:
        for host, is_served in NAMES:
            request = f"GET /bus HTTP/1.1\r\nHost: {host}\r\nOrigin: http://{host}\r\n{HANDSHAKE}"
            check(server, request, 101 if is_served else 421)


def heads():
    """a head has at most 64 fields and 8,192 bytes, and one that is not whole after five seconds is refused"""
    with page_server() as server, server.connect(port=server.page_port) as slow:
        slow.sendall(b"GET / HTTP/1.1\r\nHost: ")
        host = "GET / HTTP/1.1\nHost: localhost\n"
        check(server, host + 63 * "a:\n" + "\n", 200)
        check(server, host + 64 * "a:\n" + "\n", 431)
        # As many as fit into a head, 8,191 bytes, and one more.
        for count in (2725, 2726):
            check(server, "GET / HTTP/1.1\n" + count * "a:\n" + "\n", 431)
        long = "GET / HTTP/1.1\r\nHost: localhost\r\nA: ".ljust(8191, "a")
        with server.connect(port=server.page_port) as browser:
            browser.sendall(long.encode())
            browser.settimeout(0.3)
            try:
                holds(f"8,191 bytes without an end are answered: {browser.recv(100)!r}", False)
            except TimeoutError:
                pass
            browser.settimeout(20)
            browser.sendall(b"a")
            stream = browser.makefile("rb")
            holds("8,192 are refused", is_response(read_head(stream), stream.read(), 431))
        check(server, long + "a\r\n\r\n", 431)
        # A head that ends with the last byte allowed, and a byte behind it.
        check(server, long[:8188] + "\r\n\r\n", 200)
        check(server, long[:8188] + "\r\n\r\nx", 200)
        stream = slow.makefile("rb")
        holds("a slow one", is_response(read_head(stream), stream.read(), 408))
