"""A client of LocoNet over TCP."""

from __future__ import annotations

import select
import socket
import time
from collections import deque
from collections.abc import Callable, Iterator
from typing import TypeVar

from .decoders import State, in_range, read_node_line
from .errors import ClosedError, StationError
from .messages import Reply, SensorReport, checked_message, has_reply, message_hex, reply_of, sensor_report_in
from .throttle import Throttle
from .trains import Train, read_train_line, read_turnout_line

# The most turns that a client requests at once.
MOST_TURNS = 10_000
LAST_SENSOR = 4096
LAST_SWITCH = 2040
READ_BYTES = 8192

SomeClient = TypeVar("SomeClient", bound="Client")
Key = TypeVar("Key")
Value = TypeVar("Value")


def connect(host: str, port: int, seconds: float = 20, room: int | None = None) -> socket.socket:
    """A connection that sends each line at once, with `room` bytes for what is received."""
    stream = socket.socket()
    if room is not None:
        stream.setsockopt(socket.SOL_SOCKET, socket.SO_RCVBUF, room)
    stream.settimeout(seconds)
    stream.setsockopt(socket.IPPROTO_TCP, socket.TCP_NODELAY, 1)
    try:
        stream.connect((host, port))
    except OSError:
        stream.close()
        raise
    return stream


class Lines:
    """The lines that a connection receives. A wait that ends before a line has come loses nothing of it."""

    def __init__(self, stream: socket.socket, seconds: float) -> None:
        self.closed = False
        self._stream, self._seconds, self._received = stream, seconds, bytearray()
        self._poll = select.poll()
        self._poll.register(stream, select.POLLIN)

    def close(self) -> None:
        """Reads no more. The connection stays open."""
        self.closed = True

    def readline(self, seconds: float | None = None) -> bytes:
        """The next line with its end; what is left, or nothing, if the connection is closed.

        Raises TimeoutError if the time is over.
        """
        end = time.monotonic() + (self._seconds if seconds is None else seconds)
        while not (length := self._received.find(b"\n") + 1) and self._receive(end - time.monotonic()):
            pass
        line = bytes(self._received[: length or len(self._received)])
        del self._received[: len(line)]
        return line

    def read(self) -> bytes:
        """All that is received until the connection is closed."""
        while self._receive(self._seconds):
            pass
        rest, self._received = bytes(self._received), bytearray()
        return rest

    def has_line(self) -> bool:
        """Whether a whole line has come. It does not wait."""
        while b"\n" not in self._received and self._poll.poll(0) and self._receive(0):
            pass
        return b"\n" in self._received

    def _receive(self, seconds: float) -> bool:
        """Waits for bytes. Returns whether there are any: none if the connection is closed."""
        if not self._poll.poll(max(seconds, 0) * 1000):
            raise TimeoutError("timed out")
        some = self._stream.recv(READ_BYTES)
        self._received += some
        return bool(some)


class Client(Throttle):
    """A client of LocoNet over TCP. A wait that lasts longer than `seconds` raises TimeoutError."""

    def __init__(self, host: str, port: int, seconds: float = 20, room: int | None = None) -> None:
        self.seconds = seconds
        self.stream = connect(host, port, seconds, room)
        self.lines = Lines(self.stream, seconds)
        self._last_line: str | None = None
        self._reports: list[SensorReport] = []
        self._new_reports: deque[SensorReport] = deque()
        self._sensors: dict[int, bool] = {}
        try:
            greeting = self._line("its greeting")
            if not greeting.startswith("VERSION "):
                raise ConnectionError(f"rejected: {greeting}")
        except BaseException:
            self.close()
            raise

    def __enter__(self: SomeClient) -> SomeClient:
        return self

    def __exit__(self, *_: object) -> None:
        self.close()

    def close(self) -> None:
        """Closes the connection. It may be called again."""
        self.lines.close()
        self.stream.close()

    def line(self) -> str:
        """The next line, without its end."""
        return self._line("a line")

    def _line(self, what: str, seconds: float | None = None) -> str:
        """The next line, in a wait for this."""
        if self.lines.closed:
            raise ClosedError("the client is closed")
        seconds = self.seconds if seconds is None else seconds
        try:
            line = self.lines.readline(seconds)
        except TimeoutError:
            last = "no line has come" if self._last_line is None else f"the last line was {self._last_line!r}"
            raise TimeoutError(f"waited in vain for {what}; {last}") from None
        if not line:
            raise ConnectionError(f"the server closed the connection, in a wait for {what}")
        self._last_line = line.decode("ascii").rstrip("\r\n")
        report = sensor_report_in(self._last_line)
        if report is not None:
            self._reports.append(report)
            self._sensors[report.sensor] = report.occupied
        return self._last_line

    def _request(self, text: str) -> None:
        if self.lines.closed:
            raise ClosedError("the client is closed")
        self.stream.sendall(text.encode("ascii") + b"\r\n")

    def _next_line(self, what: str, seconds: float | None = None) -> str:
        """The next line. The report of a sensor is kept for `sensor_report`."""
        line = self._line(what, seconds)
        report = sensor_report_in(line)
        if report is not None:
            self._new_reports.append(report)
        return line

    def _answer(self, word: str, request: str) -> str:
        """The next line that begins with this word."""
        while not (line := self._next_line(f"{word} .. after {request}")).startswith(f"{word} "):
            pass
        return line

    def sensor_report(self) -> SensorReport:
        """Waits for the next report of a sensor. Those that came before it, while other calls waited, are returned first."""
        end = time.monotonic() + self.seconds
        while not self._new_reports:
            self._next_line("the report of a sensor", end - time.monotonic())
        return self._new_reports.popleft()

    def sensor_reports(self) -> list[SensorReport]:
        """All reports of sensors that have come since it connected, those that `sensor_report` has returned too.

        It does not wait. Other lines that have come are skipped.
        """
        if self.lines.closed:
            raise ClosedError("the client is closed")
        while self.lines.has_line():
            self._next_line("a line")
        return list(self._reports)

    def occupied(self) -> set[int]:
        """The sensors whose last report, of those that have come since it connected, is that they are occupied.

        After `send(0xB0, 0x78, 0x27)`, with which layout programs begin, each sensor has reported.
        """
        self.sensor_reports()
        return {sensor for sensor, occupied in self._sensors.items() if occupied}

    def wait_for_sensor(self, number: int, high: bool = True, seconds: float | None = None) -> None:
        """Waits until the last report of a sensor, 1 to 4096, or one that comes, is that it is high: occupied; or low.

        Before its first report it is low.
        """
        wanted = SensorReport(in_range(number, 1, LAST_SENSOR, "a sensor"), high)
        end = time.monotonic() + (self.seconds if seconds is None else seconds)
        is_high = number in self.occupied()
        while is_high != high:
            reported = f"the last report was {self._reports[-1]}" if self._reports else "no sensor has reported"
            self._next_line(f"{wanted}; {reported}", end - time.monotonic())
            is_high = self._sensors.get(number, False)  # a block may be occupied and free again within a turn

    def transmit(self, *body: int) -> None:
        """Sends a message, and waits until it is sent. Its reply, if there is one, is the next line."""
        message = message_hex(*body)
        self._request(f"SEND {message}")
        line = self._answer("SENT", message)
        if line != "SENT OK":
            raise ValueError(line)

    def send(self, *body: int) -> Reply | None:
        """Sends a message: `body` is all of it but the check byte. Returns the reply, or None if there is none.

        A switch request (B0) has a reply only if it is refused, a request for the state of a turnout (BC) only if the
        turnout has feedback. A read of slot 1 is sent after it, whose reply shows that there was none.
        """
        replies = has_reply(checked_message(body))
        self.transmit(*body)
        if replies:
            return _reply_in(self._line(f"the reply to {message_hex(*body)}"))
        if replies is None:
            return self._refusal()
        return None

    def turns(self, count: int) -> None:
        """Has the track run so many turns now, and waits for them. The server runs with `--turns`, which may be 0."""
        left = in_range(count, 0, 1 << 32, "turns")
        while left > 0:
            some = min(left, MOST_TURNS)
            self._run_turns(some)
            left -= some

    def _run_turns(self, count: int) -> None:
        self._request(f"TURNS {count}")
        line = self._answer("TURNS", f"TURNS {count}")
        if line != "TURNS OK":
            raise StationError(line)

    def sync(self) -> None:
        """Waits until the log of `lbserver` has all that happened before this call, if it goes to a file.

        Turns that follow earlier messages have passed then, too. Nothing happens to the layout, and nothing is printed.
        Other servers do not answer.
        """
        # A client is read once in a round, behind which the log is written, and the second request follows the answer to
        # the first: so it is read in a later round.
        self._ping()
        self._ping()

    def _ping(self) -> None:
        """A request without effect, which is rejected in real time and as a number of turns."""
        self._request("TURNS 0")
        self._answer("TURNS", "TURNS 0")

    def nodes(self) -> dict[str, State]:
        """How the decoders of the roster stand now, by their names. Only `lbserver` answers this request."""
        return dict(self._states("NODES", read_node_line))

    def trains(self) -> dict[str, Train]:
        """Where the trains of the plan are now, by the names of their decoders. Only `lbserver` answers this request."""
        return dict(self._states("TRAINS", read_train_line))

    def turnouts(self) -> dict[int, bool | None]:
        """Whether the turnouts of the plan lie thrown now, by their switches: None while one of a switch moves.

        Only `lbserver` answers this request.
        """
        sides: dict[int, bool | None] = {}
        for switch, side in self._states("TURNOUTS", read_turnout_line):
            sides[switch] = side if sides.get(switch, side) == side else None
        return sides

    def _states(self, request: str, read: Callable[[str], tuple[Key, Value] | None]) -> Iterator[tuple[Key, Value]]:
        """What the lines of an answer tell."""
        self._request(request)
        while (line := self._next_line(f"{request} OK")) != f"{request} OK":
            found = read(line)
            if found is not None:
                yield found

    def place(self, train: str, block: str, front: int, facing: str | None = None) -> None:
        """Puts a train on the track, derailed or not: its front in this block, so many millimetres from end a.

        It faces end "a" or "b", without one that which it faces now. `lbserver` runs with `--plan`.
        """
        for name in (train, block):
            if len(name.split()) != 1 or name != name.strip() or not name.isascii():
                raise ValueError(f"{name!r} is no name")
        if facing not in (None, "a", "b"):
            raise ValueError(f"facing is {facing!r}, and not 'a' or 'b'")
        words = ["PLACE", train, block, str(in_range(front, 0, 9_999_999, "front"))]
        request = " ".join(words + ([facing] if facing else []))
        self._request(request)
        line = self._answer("PLACE", request)
        if line != "PLACE OK":
            raise StationError(line)

    def fail_sensor(self, number: int, on: bool = True) -> None:
        """Lets a sensor of the plan, 1 to 4096, report that it is occupied, or free, whatever is there, until `end_failures`.

        `lbserver` runs with `--plan`.
        """
        if not isinstance(on, bool):
            raise ValueError(f"on is {on!r}, and has to be True or False")
        self._fail(f"sensor {in_range(number, 1, LAST_SENSOR, 'a sensor')} {'on' if on else 'off'}")

    def fail_turnout(self, switch: int) -> None:
        """Lets a turnout of the plan, 1 to 2040, stay as it lies, whatever is asked of it, until `end_failures`.

        `lbserver` runs with `--plan`.
        """
        self._fail(f"turnout {in_range(switch, 1, LAST_SWITCH, 'a switch')}")

    def end_failures(self) -> None:
        """Ends all failures, also that of a programming track. A turnout stays as it lies until an output comes on."""
        self._fail("none")

    def _fail(self, words: str) -> None:
        request = f"FAIL {words}"
        self._request(request)
        line = self._answer("FAIL", request)
        if line != "FAIL OK":
            raise StationError(f"{request}: {line.removeprefix('FAIL ERROR ')}")

    def _refusal(self) -> Reply | None:
        """The reply to the message that was sent last, if the next line is one."""
        message = message_hex(0xBB, 1, 0)
        self._request(f"SEND {message}")
        first = line = self._next_line("SENT OK")
        # The reply to the read comes right after its SENT OK.
        while line != "SENT OK":
            line = self._next_line("SENT OK")
        self._line(f"the reply to {message}")
        return _reply_in(first) if first.startswith("RECEIVE B4 ") else None


def _reply_in(line: str) -> Reply:
    word, _, digits = line.partition(" ")
    if word != "RECEIVE":
        raise StationError(f"no reply: {line}")
    return reply_of(bytes.fromhex(digits))
