"""A station with the decoders on its track, in this process: no server, no sockets and no clock."""

from __future__ import annotations

import os
import threading
from collections.abc import Iterable, Sequence
from ctypes import byref, c_uint8
from dataclasses import dataclass
from typing import Any, NamedTuple, NoReturn, Union

from . import _library
from .decoders import (
    MOST_DECODERS,
    AccessoryDecoder,
    Decoder,
    HasNodes,
    Motion,
    Outputs,
    Roster,
    State,
    decoders_in,
    in_range,
    named,
    read_roster,
    roster_fault,
)
from .errors import ClosedError, RosterError, StationError
from .messages import Reply, checked_message, reply_of
from .throttle import Throttle

_KINDS = ("quiet", "reply", "packet", "off")
_MOTIONS = ("stop", "emergency", "step")


class Answer(NamedTuple):
    """The answer to an event: its kind, "quiet", "reply", "packet" or "off", and its bytes."""

    kind: str
    data: bytes


@dataclass(frozen=True)
class Byte:
    """A byte is received on a line."""

    line: int
    byte: int

    def __post_init__(self) -> None:
        in_range(self.line, 0, 255, "a line")
        in_range(self.byte, 0, 255, "a byte")


@dataclass(frozen=True)
class Turn:
    """The track has room for a packet, which decoder i misses if bit i of `missed` is set."""

    missed: int = 0

    def __post_init__(self) -> None:
        in_range(self.missed, 0, (1 << 64) - 1, "missed")


@dataclass(frozen=True)
class Noise:
    """One decoder, by its index, hears a half-bit of this length in microseconds that belongs to no packet."""

    decoder: int
    half: int

    def __post_init__(self) -> None:
        in_range(self.decoder, 0, 255, "a decoder")
        in_range(self.half, 0, 65535, "a half-bit")


Event = Union[Byte, Turn, Noise]


class Station(Throttle, HasNodes):
    """A station with 1 to 8 lines and up to 64 decoders.

    `roster` is a path, the text of a roster (a str with a line feed), or a list of LocoDecoder and AccessoryDecoder. A
    decoder is named by its name, or by its index from 0. Close the station, or use it in a `with`. Calls of several
    threads wait for each other.
    """

    def __init__(self, roster: Roster = (), lines: int = 1, library: str | os.PathLike[str] | None = None) -> None:
        self._is_open = False
        self._lock = threading.Lock()
        self._library = _library.load(library)
        self._layout = _library.Layout()
        self.lines = in_range(lines, 1, 8, "lines")
        found = read_roster(roster)
        self.decoders = self._read(found) if isinstance(found, str) else self._make(found)
        self._is_open = True
        self._indices = {name: i for i, name in enumerate(self.decoders)}

    def _read(self, text: str) -> dict[str, Decoder]:
        data, node = text.encode(), c_uint8()
        status = self._library.station_read(
            byref(self._layout), self.lines, _library.array_of(c_uint8, data), len(data), byref(node)
        )
        if status == _library.BAD_DECODERS:
            raise roster_fault(text, node.value, self._fault_number(data))
        self._check(status)
        self._is_open = True
        return named(decoders_in(text))

    def _fault_number(self, data: bytes) -> int:
        """The number of the first fault of a roster."""
        number, node = c_uint8(), c_uint8()
        text = _library.array_of(c_uint8, data)
        self._check_memory(self._library.station_check(text, len(data), byref(number), byref(node)))
        return number.value

    def _make(self, decoders: list[Decoder]) -> dict[str, Decoder]:
        if len(decoders) > MOST_DECODERS:
            raise RosterError(f"{len(decoders)} decoders, and at most {MOST_DECODERS} are allowed")
        names = named(decoders)
        structs = _library.array_of(_library.Decoder, [_struct(decoder) for decoder in decoders])
        status = self._library.station_new(byref(self._layout), self.lines, structs, len(decoders))
        if status == _library.BAD_DECODERS:
            self._refuse(decoders)
        self._check(status)
        return names

    def _refuse(self, decoders: Sequence[Decoder]) -> NoReturn:
        """Raises the error of the first decoder that the library refuses: `station_new` does not say which it is."""
        for number, decoder in enumerate(decoders, 1):
            one = _library.Layout()
            status = self._library.station_new(
                byref(one), 1, _library.array_of(_library.Decoder, [_struct(decoder)]), 1
            )
            self._library.station_free(byref(one))
            if status == _library.BAD_DECODERS:
                raise RosterError(decoder.fault() or "it is invalid", number, decoder.name)
        raise RosterError("it is invalid")

    def _check_memory(self, status: int) -> None:
        if status == _library.NO_MEMORY:
            raise MemoryError("no memory for a layout")

    def _check(self, status: int) -> None:
        self._check_memory(status)
        if status:
            raise StationError(f"no layout was made: status {status}")

    def run(self, events: Iterable[Event]) -> list[Answer]:
        """Runs events in order. Returns an answer for each. If one of them is invalid, none is run."""
        structs = [self._event(event) for event in events]
        count = len(structs)
        answers = _library.array_of(_library.Answer, [_library.Answer()] * count)
        self._call("station_run", _library.array_of(_library.Event, structs), count, answers, count)
        return [_answer(answer) for answer in answers[:count]]

    def byte(self, byte: int, line: int = 0) -> Answer:
        """One byte is received on a line."""
        event, answer = self._event(Byte(line, byte)), _library.Answer()
        self._call("station_byte", event.line, event.byte, byref(answer))
        return _answer(answer)

    def send(self, *body: int, line: int = 0) -> Reply | None:
        """A message is received on a line: `body` is all of it but the check byte. Returns the reply, or None."""
        kind, data = self.run([Byte(line, byte) for byte in checked_message(body)])[-1]
        return reply_of(data) if kind == "reply" else None

    def turn(self, missed: Iterable[str | int] = ()) -> Answer:
        """Runs one turn of the track, which these decoders miss."""
        answer = _library.Answer()
        self._call("station_turn", self._mask(missed), byref(answer))
        return _answer(answer)

    def turns(self, count: int, missed: Iterable[str | int] = ()) -> list[Answer]:
        """Runs turns of the track, which these decoders miss. A locomotive that hears 16 alone in use has settled."""
        return self.run([Turn(self._mask(missed))] * in_range(count, 0, 1 << 32, "turns"))

    @property
    def nodes(self) -> dict[str, State]:
        """What each decoder does, by its name, as it is now."""
        if not self._is_open:
            raise ClosedError("the station is closed")
        return {name: self._state(name) for name in self.decoders}

    def running(self, name: str | int) -> Motion:
        """What a locomotive decoder does. Raises StationError if there is no such decoder."""
        return super().running(self._name(name))

    def outputs(self, name: str | int) -> Outputs:
        """The outputs of an accessory decoder. Raises StationError if there is no such decoder."""
        return super().outputs(self._name(name))

    def close(self) -> None:
        """Ends the station. It may be called again."""
        with self._lock:
            if self._is_open:
                self._is_open = False
                self._library.station_free(byref(self._layout))

    def __enter__(self) -> Station:
        return self

    def __exit__(self, *_: object) -> None:
        self.close()

    def __del__(self) -> None:
        if getattr(self, "_is_open", False):
            self.close()

    def __repr__(self) -> str:
        return f"<Station: lines={self.lines}, decoders={len(self.decoders)}, {'open' if self._is_open else 'closed'}>"

    def __reduce__(self) -> NoReturn:
        raise TypeError("a station cannot be copied")

    def _call(self, function: str, *arguments: Any) -> None:
        with self._lock:
            if not self._is_open:
                raise ClosedError("the station is closed")
            if not getattr(self._library, function)(byref(self._layout), *arguments):
                raise StationError(f"{function} refused its arguments")

    def _state(self, name: str) -> State:
        index = self._index(name)
        if isinstance(self.decoders[name], AccessoryDecoder):
            bits = c_uint8()
            self._call("station_outputs", index, byref(bits))
            return Outputs(bits.value)
        found = _library.Motion()
        self._call("station_running", index, byref(found))
        runs = found.kind == _library.STEP
        steps = (128 if found.steps == 126 else found.steps) if runs else None
        return Motion(_MOTIONS[found.kind], found.step, steps, found.forward, found.functions)

    def _name(self, which: str | int) -> str:
        return list(self.decoders)[self._index(which)]

    def _index(self, which: str | int) -> int:
        if not self._is_open:
            raise ClosedError("the station is closed")
        if isinstance(which, str) and which in self._indices:
            return self._indices[which]
        if isinstance(which, int) and 0 <= which < len(self.decoders):
            return which
        raise StationError(f"there is no decoder {which}")

    def _mask(self, missed: Iterable[str | int]) -> int:
        if isinstance(missed, (str, int)):
            raise TypeError("missed is a list of decoders")
        mask = 0
        for which in missed:
            mask |= 1 << self._index(which)
        return mask

    def _event(self, event: Event) -> _library.Event:
        if isinstance(event, Byte):
            in_range(event.line, 0, self.lines - 1, "a line")
            return _library.Event(kind=_library.BYTE, line=event.line, byte=event.byte)
        if isinstance(event, Turn):
            return _library.Event(kind=_library.TURN, missed=event.missed)
        if isinstance(event, Noise):
            if event.decoder >= len(self.decoders):
                raise ValueError(f"there is no decoder {event.decoder}")
            return _library.Event(kind=_library.NOISE, node=event.decoder, half=event.half)
        raise TypeError(f"{event!r} is no Byte, Turn or Noise")


def _struct(decoder: Decoder) -> _library.Decoder:
    if isinstance(decoder, AccessoryDecoder):
        return _library.Decoder(decoder.module, True)
    return _library.Decoder(0, False, decoder.cv1, decoder.cv17, decoder.cv18, decoder.cv29)


def _answer(answer: _library.Answer) -> Answer:
    return Answer(_KINDS[answer.kind], bytes(answer.bytes[: answer.size]))
