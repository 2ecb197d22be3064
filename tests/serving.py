"""A running `lbserver`, its clients and its pages, for the scripts of this folder, `bench/bus` and `pages/test`.

The server and the client are those of the Python package (`bindings/python`), with what only these scripts need.
"""
import base64
import hashlib
import os
import pathlib
import struct
import subprocess
import sys

TOP = pathlib.Path(__file__).resolve().parent.parent
sys.path.insert(0, str(TOP / "bindings/python"))
from station import lbserver  # noqa: E402
from station.lbserver import connect, find_program, free_port  # noqa: E402, F401
from station.messages import message_bytes, message_hex  # noqa: E402, F401


def program(words):
    """The program to try: the one named, or that of this repository, built first if its sources have changed."""
    return find_program(words[0] if words else None)


def message(*body):
    """The line that sends a message."""
    return f"SEND {message_hex(*body)}\r\n".encode("ascii")


class Server(lbserver.Server):
    """A server in the repository's folder. What it prints goes to a file, or to `output`."""

    def __init__(self, path, *words, page=False, output=None):
        super().__init__(*words, program=path, page=page, cwd=TOP)
        self.output = output

    def _output(self, log):
        return log if self.output is None else self.output

    def _listens(self):
        """Waits until it says that it listens, or can be reached if that cannot be seen."""
        if self.output is None:
            return super()._listens()
        if self.output == subprocess.PIPE:
            return self.process.stdout.readline().startswith(b"listening ")
        return self.until(self.is_reached)

    def is_reached(self):
        """Whether the port accepts a connection. The server counts it as a client that leaves."""
        try:
            self.connect().close()
            return True
        except OSError:
            return False

    def until_printed(self, line, seconds=20):
        """Waits until it has printed this line."""
        return self.until(lambda: line in self.printed(), seconds)

    def connect(self, seconds=20, room=None, host="127.0.0.1", port=None):
        """A connection from which nothing was read yet, with so many bytes of room for what comes."""
        return connect(host, port or self.port, seconds, room)

    def processor_seconds(self):
        """How long processors have worked for it."""
        text = pathlib.Path(f"/proc/{self.process.pid}/stat").read_text()
        # After the name in brackets come the state and ten more fields, then the ticks of user and system.
        fields = text.rpartition(")")[2].split()
        return (int(fields[11]) + int(fields[12])) / os.sysconf("SC_CLK_TCK")

    def status(self, name):
        """A number of /proc/PID/status: of memory, in kB, VmHWM is the most and VmRSS what it has now."""
        text = pathlib.Path(f"/proc/{self.process.pid}/status").read_text()
        return next(int(line.split()[1]) for line in text.splitlines() if line.startswith(name + ":"))


class Client(lbserver.Client):
    """A client that was accepted."""

    def __init__(self, server, seconds=20, room=None):
        super().__init__("127.0.0.1", server.port, seconds, room)

    def lines_until(self, last):
        """All lines up to one that is `last`, with it."""
        lines = [self.line()]
        while lines[-1] != last:
            lines.append(self.line())
        return lines

    def write(self, text):
        """Writes lines, each of them with its end."""
        self.stream.sendall("".join(f"{line}\r\n" for line in text).encode("ascii"))

    def request(self, *body):
        """Sends a message, and returns the line after SENT: the reply, for a message that has one."""
        self.send(*body)
        return self.line()

    def send(self, *body):
        """Sends a message, and waits until it is sent. Its reply is still to be read."""
        self.transmit(*body)

    def take(self, address):
        """Turns the power on, and takes a locomotive into use. Returns its slot."""
        self.send(0x83)
        reply = self.request(0xBF, address // 128, address % 128)
        if not reply.startswith("RECEIVE E7 0E "):
            raise ValueError(reply)
        slot = int(reply.split()[3], 16)
        self.request(0xBA, slot, slot)
        return slot


class Page:
    """A page on the bus: the client's side of a WebSocket (RFC 6455), without extensions."""

    KEY = base64.b64encode(b"a page of tests!").decode()
    CONTINUATION, TEXT, BINARY, CLOSE, PING, PONG = 0, 1, 2, 8, 9, 10

    def __init__(self, server, seconds=20, room=None):
        self.stream = server.connect(seconds, room, port=server.page_port)
        self.bytes = self.stream.makefile("rb")
        self.head = self.handshake(f"127.0.0.1:{server.page_port}")

    def __enter__(self):
        return self

    def __exit__(self, *_):
        self.bytes.close()
        self.stream.close()

    def handshake(self, host):
        """Upgrades the connection. Returns the head of the response."""
        self.stream.sendall(upgrade_request(host, f"http://{host}", self.KEY))
        # Not a byte of the frames after it.
        with self.stream.makefile("rb", buffering=0) as stream:
            head = read_head(stream)
        if not head.startswith("HTTP/1.1 101 "):
            self.__exit__()
            raise ConnectionError(head.partition("\r\n")[0])
        return head

    def accepted(self):
        """Waits until it is accepted. Returns itself."""
        if not self.line().startswith("VERSION "):
            self.__exit__()
            raise ConnectionError("rejected")
        return self

    def accept_key(self):
        """What the response's Sec-WebSocket-Accept has to be: section 4.2.2."""
        digest = hashlib.sha1(f"{self.KEY}258EAFA5-E914-47DA-95CA-C5AB0DC85B11".encode()).digest()
        return base64.b64encode(digest).decode()

    def frame(self):
        """The next frame: its opcode, whether it is the last of its message, and its payload."""
        first, second = self.read(2)
        if second & 0x80:
            raise ValueError("a server's frame has a mask")
        length = second
        if length == 126:
            (length,) = struct.unpack(">H", self.read(2))
        elif length == 127:
            (length,) = struct.unpack(">Q", self.read(8))
        return first & 0x0F, bool(first & 0x80), self.read(length)

    def read(self, count):
        data = self.bytes.read(count)
        if len(data) < count:
            raise ConnectionError("closed")
        return data

    def line(self):
        """The next line for any client, or item of the page. Behind a message have to come its words, which are left out."""
        line = self.text()
        if line.startswith("RECEIVE ") and not self.text().startswith("WORDS "):
            raise ConnectionError(f"no words behind {line}")
        return line

    def text(self):
        """The next text message. Pings before it are answered."""
        while True:
            opcode, is_last, payload = self.frame()
            if opcode == self.PING:
                self.stream.sendall(client_frame(self.PONG, payload))
            elif opcode == self.TEXT and is_last:
                return payload.decode("ascii")
            elif opcode != self.PONG:
                raise ConnectionError(f"a frame with opcode {opcode}")

    def lines_until(self, last):
        """All messages up to one that is `last`, with it."""
        lines = [self.line()]
        while lines[-1] != last:
            lines.append(self.line())
        return lines

    def write(self, texts):
        """Sends text messages, in one write."""
        self.stream.sendall(b"".join(client_frame(self.TEXT, text.encode("ascii")) for text in texts))


def upgrade_request(host, origin, key):
    """The request by which a page of this origin opens its WebSocket."""
    lines = ["GET /bus HTTP/1.1", f"Host: {host}", "Upgrade: websocket", "Connection: Upgrade"]
    lines += [f"Sec-WebSocket-Key: {key}", "Sec-WebSocket-Version: 13"]
    lines += [f"Origin: {origin}"] if origin else []
    return "\r\n".join([*lines, "", ""]).encode("ascii")


def read_head(stream):
    """The head of an HTTP response, with the line feed of its last line."""
    lines = []
    while not lines or lines[-1] not in (b"\r\n", b""):
        lines.append(stream.readline())
    return b"".join(lines).decode("ascii")


def client_frame(opcode, payload, is_last=True):
    """A frame of a client, at most 65,535 bytes long, with a mask."""
    mask = bytes([0x37, 0xFA, 0x21, 0x3D])
    length = bytes([len(payload) | 0x80]) if len(payload) < 126 else b"\xfe" + struct.pack(">H", len(payload))
    masked = bytes(byte ^ mask[i % 4] for i, byte in enumerate(payload))
    return bytes([opcode | (0x80 if is_last else 0)]) + length + mask + masked
