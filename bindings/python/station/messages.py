"""LocoNet messages: bodies, check bytes, and the replies of a station."""

from __future__ import annotations

from collections.abc import Iterable
from dataclasses import dataclass
from typing import Union

LAST_STEP = {14: 14, 28: 28, 128: 126}
STEP_TYPES = {28: 0, 14: 2, 128: 3}

_LENGTHS = {0x80: 2, 0xA0: 4, 0xC0: 6}
_REASONS = {
    0xB0: "32 switch requests are queued, or there is no such turnout",
    0xBA: "the slot is free, or no locomotive waits to be dispatched",
    0xBB: "there is no such slot",
    0xBD: "32 switch requests are queued, or there is no such turnout",
    0xBF: "no slot is free, or there is no such address",
    0xED: "the station sends only function group three, for an address in a slot",
    0xEF: "the slot, its state or its address is invalid, or another slot has the address",
}


@dataclass(frozen=True)
class SlotData:
    """A slot as the station reports it (OPC_SL_RD_DATA)."""

    slot: int
    address: int
    state: str  # "free", "common", "idle" or "in use"
    steps: int  # 14, 28 or 128, the name of the mode
    speed: int  # 0 stands, 1 to 126
    emergency: bool
    direction: str  # "forward" or "reverse"
    functions: int  # bit k is Fk, F0 to F8
    power: str  # "on", "paused" or "off"

    @property
    def last_step(self) -> int:
        """The last step of the mode: 14, 28 or 126."""
        return LAST_STEP[self.steps]

    def function(self, number: int) -> bool:
        """Whether function `number`, 0 to 8, is asked to be on."""
        return bool(self.functions >> number & 1)


@dataclass(frozen=True)
class Acknowledge:
    """Whether the station accepted a message (OPC_LONG_ACK), by the opcode of the message."""

    opcode: int
    accepted: bool

    @property
    def reason(self) -> str:
        """Why a message with this opcode is refused."""
        return _REASONS.get(self.opcode, "the station refused it")


@dataclass(frozen=True)
class TurnoutSide:
    """The side that a turnout with feedback was asked for last (OPC_LONG_ACK to OPC_SW_STATE)."""

    thrown: bool


Reply = Union[SlotData, Acknowledge, TurnoutSide]


@dataclass(frozen=True)
class SensorReport:
    """What a sensor reports (OPC_INPUT_REP)."""

    sensor: int  # 1 to 4096
    occupied: bool

    def __str__(self) -> str:
        return f"sensor {self.sensor} {'high' if self.occupied else 'low'}"


def is_body(body: bytes) -> bool:
    """Whether one more byte makes a whole message: an opcode, then bytes below 80, as many as the opcode says."""
    if not body or body[0] < 0x80 or any(byte >= 0x80 for byte in body[1:]):
        return False
    if body[0] >= 0xE0:
        return len(body) > 1 and body[1] == len(body) + 1
    return len(body) + 1 == _LENGTHS[body[0] & 0xE0]


def message_bytes(*body: int) -> bytes:
    """A message: its body, and the check byte that makes the exclusive or of all bytes FF."""
    check = 0xFF
    for byte in body:
        check ^= byte
    return bytes([*body, check])


def message_hex(*body: int) -> str:
    """The same in hexadecimal digits, as LocoNet over TCP has it."""
    return message_bytes(*body).hex(" ").upper()


def checked_message(body: Iterable[int]) -> bytes:
    """The message with this body. Raises ValueError if it is no body of a message."""
    whole = bytes(body)
    if not is_body(whole):
        raise ValueError(f"no message: {whole.hex(' ').upper()}")
    return message_bytes(*whole)


def has_reply(message: bytes) -> bool | None:
    """Whether a message is answered: always, never, or None for a refused switch request or a turnout with feedback alone."""
    if message[0] in (0xB0, 0xBC):
        return None
    if message[0] in (0xBA, 0xBB, 0xBD, 0xBF) or message[:2] == b"\xef\x0e":
        return True
    return message[:3] == b"\xed\x0b\x7f"


def reply_of(message: bytes) -> Reply:
    """Reads a reply of a station, OPC_SL_RD_DATA or OPC_LONG_ACK."""
    if message[:2] == b"\xb4\x3c":
        return TurnoutSide(thrown=message[2] == 0)
    if message[0] == 0xB4:
        # The reply to OPC_IMM_PACKET names 7D.
        return Acknowledge(0xED if message[1] == 0x7D else message[1] | 0x80, message[2] == 0x7F)
    if message[:2] != b"\xe7\x0e" or len(message) != 14:
        raise ValueError(f"no reply: {message.hex(' ').upper()}")
    _, _, slot, stat, low, spd, dirf, trk, _, high, snd, *_ = message
    return SlotData(
        slot=slot,
        address=high * 128 + low,
        state=("free", "common", "idle", "in use")[stat >> 4 & 3],
        steps={2: 14, 3: 128, 7: 128}.get(stat & 7, 28),
        speed=max(spd - 1, 0),
        emergency=spd == 1,
        direction="reverse" if dirf & 0x20 else "forward",
        functions=dirf >> 4 & 1 | (dirf & 15) << 1 | (snd & 15) << 5,
        power="off" if not trk & 1 else "on" if trk & 2 else "paused",
    )


def sensor_report_in(line: str) -> SensorReport | None:
    """The report of a sensor in a line of LocoNet over TCP or of the log, if that is what it tells."""
    for word in ("RECEIVE", "message"):
        if line.startswith(f"{word} B2 "):
            _, low, high = bytes.fromhex(line.removeprefix(f"{word} ")[:8])
            return SensorReport(1 + 2 * (low + (high & 0x0F) * 128) + (high >> 5 & 1), bool(high & 0x10))
    return None
