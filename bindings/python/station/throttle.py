"""Throttles: locomotives and turnouts over anything that sends LocoNet messages."""

from __future__ import annotations

from .decoders import in_range
from .errors import RefusedError, StationError
from .messages import STEP_TYPES, Acknowledge, Reply, SlotData

LAST_TURNOUT = 2048


class Throttle:
    """What a throttle does, by `send`: a Station, or a client of `lbserver`."""

    def send(self, *body: int) -> Reply | None:
        """Sends a message: `body` is all of it but the check byte. Returns the reply, or None if there is none."""
        raise NotImplementedError

    def power_on(self) -> None:
        """Turns the track power on."""
        self.send(0x83)

    def power_off(self) -> None:
        """Turns the track power off."""
        self.send(0x82)

    def stop_all(self) -> None:
        """Pauses the track: each locomotive is stopped until the power is turned on."""
        self.send(0x85)

    def loco(self, address: int) -> Loco:
        """The locomotive at an address, 1 to 10239. It has to be taken before it is driven."""
        return Loco(self, address)

    def turnout(self, number: int) -> Turnout:
        """A turnout, numbered from 1 as throttles and layout programs count, up to 2048."""
        return Turnout(self, number)


class Loco:
    """A locomotive of a throttle. Several throttles may have taken it; each drives it."""

    def __init__(self, throttle: Throttle, address: int) -> None:
        self._throttle = throttle
        self.address = in_range(address, 1, 10239, "an address")
        self.slot: int | None = None  # the number of its slot, if it is taken
        self._nine_to_twelve = 0

    def __repr__(self) -> str:
        return f"Loco(address={self.address}, slot={self.slot})"

    def take(self) -> SlotData:
        """Takes it into use. Raises RefusedError if no slot is free."""
        found = self._asked("take", 0xBF, self.address >> 7, self.address & 0x7F)
        found = self._asked("take", 0xBA, found.slot, found.slot)
        self.slot, self._nine_to_twelve = found.slot, 0
        return found

    def data(self) -> SlotData:
        """What its slot asks, by any throttle."""
        found = self._asked("read", 0xBB, self._taken(), 0)
        if found.state == "free" or found.address != self.address:
            self.slot = None
            raise StationError(f"locomotive {self.address}: slot {found.slot} is no longer its slot; take it again")
        return found

    def speed(self, speed: int) -> None:
        """Sets its speed, 0 to 126 in each mode; 0 stops it."""
        in_range(speed, 0, 126, "a speed")
        self._throttle.send(0xA0, self._taken(), speed + 1 if speed else 0)

    def emergency_stop(self) -> None:
        """Stops it at once."""
        self._throttle.send(0xA0, self._taken(), 1)

    def forward(self, on: bool = True) -> None:
        """Lets it run forward, or in reverse."""
        dirf, _ = self._bytes()
        self._throttle.send(0xA1, self._taken(), dirf & ~0x20 | (0 if on else 0x20))

    def reverse(self) -> None:
        """Lets it run in reverse."""
        self.forward(False)

    def function(self, number: int, on: bool = True) -> None:
        """Turns a function on or off, F0 to F12.

        No message reads F9 to F12: this object sends what it was asked itself since it took the locomotive.
        """
        in_range(number, 0, 12, "a function")
        slot = self._taken()
        if number > 8:
            self._group_three(number - 9, on)
            return
        dirf, snd = self._bytes()
        if number > 4:
            self._throttle.send(0xA2, slot, _with_bit(snd, number - 5, on))
        else:
            self._throttle.send(0xA1, slot, _with_bit(dirf, number - 1 if number else 4, on))

    def steps(self, steps: int) -> None:
        """Drives it with 14, 28 or 128 steps."""
        if steps not in STEP_TYPES:
            raise ValueError(f"steps is {steps!r}, and has to be 14, 28 or 128")
        self._throttle.send(0xB5, self._taken(), 0x30 | STEP_TYPES[steps])

    def release(self) -> None:
        """Lets it go: its slot becomes common. The station continues to send what was asked, its speed too."""
        found = self.data()
        self._throttle.send(0xB5, found.slot, 0x10 | STEP_TYPES[found.steps])
        self.slot = None

    def _taken(self) -> int:
        if self.slot is None:
            raise StationError(f"locomotive {self.address} is not taken")
        return self.slot

    def _bytes(self) -> tuple[int, int]:
        """DIRF and SND of its slot, as any throttle has set them."""
        found = self.data()
        dirf = (0x20 if found.direction == "reverse" else 0) | (found.functions & 1) << 4 | found.functions >> 1 & 15
        return dirf, found.functions >> 5 & 15

    def _group_three(self, bit: int, on: bool) -> None:
        bits = _with_bit(self._nine_to_twelve, bit, on)
        packet = [self.address] if self.address < 128 else [0xC0 | self.address >> 8, self.address & 0xFF]
        packet.append(0xA0 | bits)
        high = sum(byte >> 7 << i for i, byte in enumerate(packet))
        rest = [byte & 0x7F for byte in packet] + [0] * (5 - len(packet))
        reply = self._throttle.send(0xED, 0x0B, 0x7F, len(packet) << 4 | 3, 0x20 | high, *rest)
        _accepted(f"locomotive {self.address}", reply)
        self._nine_to_twelve = bits

    def _asked(self, what: str, *body: int) -> SlotData:
        reply = self._throttle.send(*body)
        if not isinstance(reply, SlotData):
            _accepted(f"{what} of locomotive {self.address}", reply)
            raise StationError(f"{what} of locomotive {self.address}: {reply!r} is no slot data")
        return reply


class Turnout:
    """A turnout of a throttle, numbered from 1.

    An accessory decoder keeps an output on until it is turned off: `throw` and `close` turn one on, and `off` turns off
    the one that this object turned on last.
    """

    def __init__(self, throttle: Throttle, number: int) -> None:
        self._throttle = throttle
        self.number = in_range(number, 1, LAST_TURNOUT, "a turnout")
        self._closed = False

    def __repr__(self) -> str:
        return f"Turnout(number={self.number})"

    def throw(self) -> None:
        """Throws it. Raises RefusedError if 32 requests are queued, or past turnout 2040."""
        self._request(False, True)

    def close(self) -> None:
        """Closes it. Raises RefusedError as `throw`."""
        self._request(True, True)

    def off(self) -> None:
        """Turns off the output that `throw` or `close` turned on. Raises RefusedError as `throw`."""
        self._request(self._closed, False)

    def _request(self, closed: bool, on: bool) -> None:
        switch = self.number - 1
        second = switch >> 7 | (0x20 if closed else 0) | (0x10 if on else 0)
        _accepted(f"turnout {self.number}", self._throttle.send(0xB0, switch & 0x7F, second))
        self._closed = closed


def _with_bit(bits: int, number: int, on: bool) -> int:
    return bits | 1 << number if on else bits & ~(1 << number)


def _accepted(what: str, reply: Reply | None) -> None:
    if isinstance(reply, Acknowledge) and not reply.accepted:
        raise RefusedError(what, reply.opcode, reply.reason)
