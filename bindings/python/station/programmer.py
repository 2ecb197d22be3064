"""The programming track of `lbserver --programmer`: reads and writes the variables of a decoder."""

from __future__ import annotations

import re

from .client import Client
from .decoders import in_range
from .errors import StationError

__all__ = [
    "AbortedError",
    "NoAcknowledgeError",
    "NoDecoderError",
    "NoProgrammingTrackError",
    "Programmer",
    "ProgrammerBusyError",
    "ProgrammingError",
    "UnknownDecoderError",
]

# Direct mode by bytes (PCMD), and the last variable.
READ, WRITE, LAST_CV = 0x2B, 0x6B, 1024
ACCEPTED, BUSY = "RECEIVE B4 6F 01 25", "RECEIVE B4 6F 00 24"
RESULT = "RECEIVE E7 0E 7C "
# Turns of the shortest packet in which each task ends.
TURNS_OF_A_TASK = 249


class ProgrammingError(StationError):
    """A task that failed. `cv` is the variable."""

    words = "failed"

    def __init__(self, cv: int) -> None:
        super().__init__(f"CV{cv}: {self.words}")
        self.cv = cv


class NoDecoderError(ProgrammingError):
    """No decoder is on the programming track."""

    words = "no decoder"


class NoAcknowledgeError(ProgrammingError):
    """The decoder did not acknowledge: it may have stored a value all the same."""

    words = "no acknowledgment"


class AbortedError(ProgrammingError):
    """Another client ended the task."""

    words = "ended by another client"


class ProgrammerBusyError(ProgrammingError):
    """Another task is under way, or the server runs without `--programmer`."""

    words = "the programmer is busy, or there is none"


class NoProgrammingTrackError(StationError):
    """The server runs without `--programmer`."""


class UnknownDecoderError(StationError, ValueError):
    """No locomotive of the file has this name."""


# The reasons of `MOUNT ERROR` and `FAIL ERROR`.
ERRORS = {"no programming track": NoProgrammingTrackError, "no such decoder": UnknownDecoderError}
# A variable that differs from the file, as the `cvs` of a roster list it.
CHANGE = re.compile(r"CV (\S+) \[(\d+), (\d+)\]")


def read_change_line(line: str) -> tuple[str, tuple[int, int]] | None:
    """The name of a decoder, and the number and value of its variable, by a `CV` line. None of another line."""
    found = CHANGE.fullmatch(line)
    return (found[1], (int(found[2]), int(found[3]))) if found else None


class Programmer:
    """The programming track, over a client of its own. With `--turns` each task has its turns run."""

    def __init__(self, client: Client, requests_turns: bool = False) -> None:
        self.client = client
        self._requests_turns = requests_turns

    def read(self, cv: int) -> int:
        """The value of a variable, 1 to 1024."""
        return self._task(READ, cv, 0)

    def write(self, cv: int, value: int) -> None:
        """Writes a byte to a variable."""
        self._task(WRITE, cv, in_range(value, 0, 255, "a value"))

    def mount(self, name: str | None) -> None:
        """Puts the locomotive of this name on the track instead of the one before, or none.

        Each keeps its variables. A file whose locomotive is called "nothing" cannot put it there.
        """
        if name is not None and (len(name.split()) != 1 or name != name.strip() or not name.isascii() or name == "nothing"):
            raise ValueError(f"{name!r} is no name")
        self._arrange(f"MOUNT {name or 'nothing'}")

    def fail(self, fails: bool = True) -> None:
        """Lets acknowledgments fail from now on: decoders obey, and draw no current. Or ends all failures, also of a plan."""
        self._arrange("FAIL programming" if fails else "FAIL none")

    def changes(self) -> dict[str, dict[int, int]]:
        """The variables that differ from the file, by the names of their locomotives."""
        found: dict[str, dict[int, int]] = {}
        for name, (cv, value) in self.client._states("CVS", read_change_line):
            found.setdefault(name, {})[cv] = value
        return found

    def _arrange(self, request: str) -> None:
        word = request.split()[0]
        self.client._request(request)
        answer = self.client._answer(word, request)
        if answer != f"{word} OK":
            reason = answer.removeprefix(f"{word} ERROR ")
            raise ERRORS.get(reason, StationError)(f"{request}: {reason}")

    def _result(self) -> str:
        """Waits for the end of the task. Turns that it requests have passed then."""
        if self._requests_turns:
            self.client._request(f"TURNS {TURNS_OF_A_TASK}")
        result = self._line_from(RESULT)
        if self._requests_turns:
            self._line_from("TURNS ")
        return result

    def _line_from(self, start: str) -> str:
        """The next line that begins so."""
        while not (line := self.client.line()).startswith(start):
            pass
        return line

    def _task(self, command: int, cv: int, value: int) -> int:
        address = in_range(cv, 1, LAST_CV, "a variable") - 1
        high = address // 256 * 16 + value // 128 * 2 + address // 128 % 2
        self.client.transmit(0xEF, 0x0E, 0x7C, command, 0, 0, 0, 0, high, address % 128, value % 128, 0, 0)
        if self.client.line() != ACCEPTED:
            raise ProgrammerBusyError(cv)
        data = bytes.fromhex(self._result().removeprefix("RECEIVE "))
        status = data[4]
        if status:
            raise (NoDecoderError if status & 1 else AbortedError if status & 8 else NoAcknowledgeError)(cv)
        return data[8] // 2 % 2 * 128 + data[10]
