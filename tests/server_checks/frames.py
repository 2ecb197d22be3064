"""Frames of pages, by RFC 6455, section 5, some with a mask of four zeros, which leaves the text as it is."""

import socket

from server_checks.common import POWER_OFF, POWER_ON, holds, receive, same, serve
from serving import Client, Page, client_frame, upgrade_request

ON, OFF = f"SEND {POWER_ON}".encode(), f"SEND {POWER_OFF}".encode()
BUSY = "81 7E"


def plain(head, text):
    """A frame of a client with this first byte, at most 512 bytes long."""
    length = bytes([0x80 + len(text)]) if len(text) < 126 else b"\xfe" + len(text).to_bytes(2, "big")
    return bytes([head]) + length + bytes(4) + text


def told(*lines):
    """The frames by which a page receives these lines."""
    return b"".join(bytes([0x81, len(line)]) + line.encode() for line in lines)


TURNED_ON = told(f"RECEIVE {POWER_ON}", "WORDS track power on", "SENT OK")
TOO_LONG = told("SENT ERROR line too long")
LONGEST = ON.ljust(512)

# The bytes that a page sends, those that it receives, and whether the connection has ended then.
FRAMES = [
    (b"", b"", False),
    (client_frame(Page.TEXT, ON), TURNED_ON, False),
    # Without a mask, as a server sends it.
    (b"\x81\x0a" + ON, b"", True),
    # Two messages, and half of a third.
    (plain(0x81, ON) + plain(0x81, b"nothing") + b"\x81\x82\0\0", TURNED_ON, False),
    # A message in two fragments, with a ping between them.
    (plain(0x01, ON[:3]) + plain(0x89, b"") + plain(0x80, ON[3:]), b"\x8a\0" + TURNED_ON, False),
    (client_frame(Page.PING, b"Hello"), b"\x8a\x05Hello", False),
    # A pong that nobody has asked for; an empty message; one of two lines.
    (plain(0x8A, b"") + plain(0x81, ON), TURNED_ON, False),
    (plain(0x81, b"") + plain(0x81, ON), TURNED_ON, False),
    (plain(0x81, ON + b"\r\n" + OFF), TURNED_ON + told(f"RECEIVE {POWER_OFF}", "WORDS track power off", "SENT OK"), False),
    # A close with the code 1000 is answered, and nothing is read behind it.
    (plain(0x88, b"\x03\xe8"), b"\x88\x02\x03\xe8", True),
    (plain(0x88, b"\x03\xe8") + plain(0x81, ON), b"\x88\x02\x03\xe8", True),
    # A binary message is closed with the code 1003.
    (plain(0x82, ON), b"\x88\x02\x03\xeb", True),
    # Not UTF-8; a reserved bit; an opcode that nobody knows; 513 bytes, by their head.
    (plain(0x81, b"\xff"), b"", True),
    (plain(0xC1, ON), b"", True),
    (plain(0x83, ON), b"", True),
    (b"\x81\xfe\x02\x01\0\0\0\0", b"", True),
]
# A page that ends in the middle of a frame.
FRAMES += [(b"\x81", b"", False), (client_frame(Page.TEXT, ON)[:9], b"", False)]
# Messages as long as one may be, whole and in fragments, and one byte longer, before their last fragment too.
LONG_FRAMES = [
    (plain(0x81, LONGEST), TOO_LONG, False),
    (plain(0x01, LONGEST[:256]) + plain(0x80, LONGEST[256:]), TOO_LONG, False),
    (plain(0x01, LONGEST[:256]) + plain(0x80, LONGEST[255:]), b"", True),
    (plain(0x01, LONGEST[:256]) + plain(0x00, LONGEST[256:]), b"", False),
    (plain(0x01, LONGEST[:256]) + plain(0x00, LONGEST[255:]), b"", True),
    (plain(0x81, LONGEST) + plain(0x81, ON), TOO_LONG + TURNED_ON, False),
]


def check(server, other, row, pieces):
    """A page that sends the frames of a row in these pieces, the first of them right behind its handshake.

    Returns false if the end of its connection was a reset, behind which what it received is lost.
    """
    frames, answer, has_ended = row
    own = f"127.0.0.1:{server.page_port}"
    with server.connect(port=server.page_port) as stream, stream.makefile("rb") as answered:
        stream.setsockopt(socket.IPPROTO_TCP, socket.TCP_NODELAY, 1)
        stream.sendall(upgrade_request(own, f"http://{own}", Page.KEY) + pieces[0])
        while answered.readline() != b"\r\n":
            pass
        greeting = told("VERSION lbserver station")
        same("the greeting", answered.read(len(greeting)), greeting)
        name = f"{frames[:60]!r} in {len(pieces)} pieces, the first of {len(pieces[0])}"
        try:
            for piece in pieces[1:]:
                stream.sendall(piece)
            same(name, answered.read(len(answer)), answer)
            if not has_ended:
                other.send(0x81)
                wanted = told(*receive(BUSY), "WORDS busy")
                same(f"{name}, and then", answered.read(len(wanted)), wanted)
                stream.shutdown(socket.SHUT_WR)
            same(f"{name}: the end", answered.read(), b"")
        except (BrokenPipeError, ConnectionResetError):
            # The server has closed, and bytes behind what it read were still to come.
            holds(f"{name}: it has ended", has_ended)
            return False
    return True


def frames():
    """each frame of a page has its effect, behind its handshake and after it, in two pieces and byte by byte"""
    with serve("--turns", "1", page=True) as server, Client(server) as other:
        count = 0
        for row in FRAMES:
            sent = row[0]
            cuts = [[sent[:cut], sent[cut:]] for cut in range(len(sent) + 1)]
            whole = [check(server, other, row, pieces) for pieces in [*cuts, [b""] + [bytes([byte]) for byte in sent]]]
            holds(f"{sent!r} has its whole answer", any(whole))
            count += len(whole)
        for row in LONG_FRAMES:
            sent = row[0]
            for cut in (0, 7, 8, 263, 264, 270, len(sent)):
                check(server, other, row, [sent[:cut], sent[cut:]])
                count += 1
        holds("each page has left", server.until(lambda: server.printed().count("client 2 leaves") == count))
