"""The exceptions of the package."""

from __future__ import annotations


class StationError(Exception):
    """A call that failed. Each exception of the package is one, besides ValueError and TypeError for arguments."""


class ClosedError(StationError):
    """The station, client or server is closed."""


class LibraryError(StationError):
    """The shared object is missing, or is no library of a station."""


class RosterError(StationError, ValueError):
    """A decoder or a roster that is invalid.

    `decoder` is the number of the decoder, from 1, or None for the whole; `name` is its name, if it has one; `reason`
    says what is wrong. `number` is that of a roster's fault, as `station` prints it.
    """

    number: int | None = None

    def __init__(self, reason: str, decoder: int | None = None, name: str | None = None) -> None:
        where = (
            "the roster" if decoder is None else f"decoder {decoder}" if name is None else f"decoder {decoder}, {name}"
        )
        super().__init__(f"{where}: {reason}")
        self.reason, self.decoder, self.name = reason, decoder, name


class RefusedError(StationError):
    """The station refused a message. `opcode` is the message's."""

    def __init__(self, what: str, opcode: int, reason: str) -> None:
        super().__init__(f"{what}: {reason}")
        self.opcode, self.reason = opcode, reason
