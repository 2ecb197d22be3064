"""Decoders: what a roster says of them, and what they do."""

from __future__ import annotations

import os
import pathlib
import re
from collections.abc import Container, Iterable, Mapping, Sequence
from dataclasses import dataclass
from typing import Any, Union

from .errors import RosterError, StationError
from .messages import LAST_STEP

MOST_DECODERS = 64
_NAME = re.compile(r"[A-Za-z0-9_-]{1,16}")


def in_range(number: int, first: int, last: int, what: str) -> int:
    """The number. Raises ValueError if it is no integer from `first` to `last`."""
    if isinstance(number, bool) or not isinstance(number, int) or not first <= number <= last:
        raise ValueError(f"{what} is {number!r}, and has to be {first} to {last}")
    return number


@dataclass(frozen=True)
class LocoDecoder:
    """A locomotive decoder, by its configuration variables. `at` makes one by its address."""

    cv1: int
    cv17: int = 192
    cv18: int = 0
    cv29: int = 0
    name: str | None = None

    def __post_init__(self) -> None:
        for name in ("cv1", "cv17", "cv18", "cv29"):
            in_range(getattr(self, name), 0, 255, name)

    @classmethod
    def at(cls, address: int, *, steps: int = 128, reversed: bool = False, name: str | None = None) -> LocoDecoder:
        """The decoder at a short address, 1 to 127, or a long one, 128 to 10239, with 14, 28 or 128 steps."""
        in_range(address, 1, 10239, "an address")
        if steps not in LAST_STEP:
            raise ValueError(f"steps is {steps!r}, and has to be 14, 28 or 128")
        cv29 = (1 if reversed else 0) | (0 if steps == 14 else 2)
        if address < 128:
            return cls(address, cv29=cv29, name=name)
        return cls(3, 192 + address // 256, address % 256, cv29 | 32, name)

    @property
    def place(self) -> str:
        """Its address as lines have it: `short 3`, or `long 1234`."""
        return f"long {(self.cv17 - 192) * 256 + self.cv18}" if self.cv29 & 32 else f"short {self.cv1}"

    def fault(self) -> str | None:
        """Why it is invalid, or None."""
        if self.cv29 & 128:
            return f"CV29 is {self.cv29}: with bit 7 it is no locomotive decoder"
        if not 1 <= self.cv1 <= 127:
            return f"CV1 is {self.cv1}, and has to be 1 to 127"
        if self.cv29 & 32 and not 192 <= self.cv17 <= 231:
            return f"CV17 is {self.cv17}, and with a long address (CV29 bit 5) has to be 192 to 231"
        return None


@dataclass(frozen=True)
class AccessoryDecoder:
    """The accessory decoder of a module, 1 to 510: module m has the turnouts 4 * m - 3 to 4 * m."""

    module: int
    name: str | None = None

    def __post_init__(self) -> None:
        in_range(self.module, 0, 65535, "a module")

    @property
    def place(self) -> str:
        """Its address as lines have it: `module 1`."""
        return f"module {self.module}"

    def fault(self) -> str | None:
        """Why it is invalid, or None."""
        return None if 1 <= self.module <= 510 else f"module is {self.module}, and has to be 1 to 510"


Decoder = Union[LocoDecoder, AccessoryDecoder]
Roster = Union[str, "os.PathLike[str]", Iterable[Decoder]]


@dataclass(frozen=True)
class Motion:
    """What a locomotive does."""

    kind: str  # "stop", "emergency" (it was stopped at once) or "step"
    step: int  # from 1 if it runs, otherwise 0
    steps: int | None  # 14, 28 or 128, the name of the mode, if it runs
    forward: bool  # in the decoder's sense
    functions: int  # bit k is Fk, F0 to F12

    @property
    def last_step(self) -> int | None:
        """The last step of the mode, 14, 28 or 126, if it runs."""
        return None if self.steps is None else LAST_STEP[self.steps]

    def function(self, number: int) -> bool:
        """Whether function `number`, 0 to 12, is on."""
        return bool(self.functions >> number & 1)

    def __str__(self) -> str:
        speed = f"step {self.step} of {self.steps}" if self.kind == "step" else self.kind
        functions = "".join(str(self.functions >> k & 1) for k in range(13))
        return f"{speed} {'forward' if self.forward else 'reverse'} F {functions}"


@dataclass(frozen=True)
class Outputs:
    """The eight outputs of an accessory decoder: output 2 * p throws pair p, 0 to 3, output 2 * p + 1 closes it."""

    bits: int  # bit k is output k

    def output(self, number: int) -> bool:
        """Whether output `number`, 0 to 7, is on."""
        return bool(self.bits >> number & 1)

    def __str__(self) -> str:
        return "outputs " + "".join(str(self.bits >> k & 1) for k in range(8))


State = Union[Motion, Outputs]

_LINE = re.compile(
    r"(?:node|NODE node) (?P<name>\S+) (?:(?:short|long) \d+ (?:(?P<kind>stop|emergency)|step (?P<step>\d+) of (?P<steps>\d+))"
    r" (?P<direction>forward|reverse) F (?P<functions>[01]{13})|module \d+ outputs (?P<outputs>[01]{8}))"
)


def read_node_line(line: str) -> tuple[str, State] | None:
    """The name and state in a line `node ..` of a program, or `NODE ..` of a page, or None for another line."""
    found = _LINE.fullmatch(line)
    if found is None:
        return None
    if found["outputs"]:
        return found["name"], Outputs(_bits(found["outputs"]))
    steps = int(found["steps"]) if found["steps"] else None
    kind = found["kind"] or "step"
    return found["name"], Motion(
        kind, int(found["step"] or 0), steps, found["direction"] == "forward", _bits(found["functions"])
    )


def _bits(digits: str) -> int:
    return int(digits[::-1], 2)


def read_roster(roster: Roster) -> str | list[Decoder]:
    """The text of a roster, or a list of decoders.

    A str with a line feed is a text in TOML; another str is a path, as a PathLike is.
    """
    if isinstance(roster, str) and "\n" in roster:
        return roster
    if isinstance(roster, (str, os.PathLike)):
        return pathlib.Path(roster).read_text(encoding="utf-8")
    decoders = list(roster)
    for decoder in decoders:
        if not isinstance(decoder, (LocoDecoder, AccessoryDecoder)):
            raise TypeError(f"{decoder!r} is no LocoDecoder or AccessoryDecoder")
    return decoders


def named(decoders: Sequence[Decoder]) -> dict[str, Decoder]:
    """The decoders by their names. One without a name is `node-I`, where I is its index, from 0. Raises RosterError for a name."""
    found: dict[str, Decoder] = {}
    for i, decoder in enumerate(decoders):
        name = f"node-{i}" if decoder.name is None else decoder.name
        fault = _name_fault(name, found)
        if fault is not None:
            raise RosterError(fault, i + 1, name)
        found[name] = decoder
    return found


def roster_text(decoders: Sequence[Decoder]) -> str:
    """The roster of these decoders, as the programs read it."""
    text = ["version = 2"]
    for name, decoder in named(decoders).items():
        text += ["", "[[node]]", f'name = "{name}"']
        if isinstance(decoder, AccessoryDecoder):
            text += ['kind = "accessory"', f"module = {decoder.module}"]
        else:
            pairs = ((1, decoder.cv1), (17, decoder.cv17), (18, decoder.cv18), (29, decoder.cv29))
            text += ['kind = "loco"', f"cvs = [{', '.join(f'[{number}, {value}]' for number, value in pairs)}]"]
    return "\n".join([*text, ""])


def decoders_in(text: str) -> list[Decoder]:
    """The decoders of a roster that the library accepted."""
    import tomllib

    return [_decoder_of(node) for node in tomllib.loads(text)["node"]]


def _decoder_of(node: Mapping[str, Any]) -> Decoder:
    if node["kind"] == "accessory":
        return AccessoryDecoder(node["module"], node["name"])
    cvs = dict(node["cvs"]) if "cvs" in node else {i: node[f"cv{i}"] for i in (1, 17, 18, 29) if f"cv{i}" in node}
    return LocoDecoder(cvs[1], cvs.get(17, 192), cvs.get(18, 0), cvs[29], node["name"])


# The faults of a roster, by the numbers that `station` prints.
_FAULTS = {
    1: "not TOML",
    2: "a key is missing or unknown, or a value is of a wrong type",
    3: f"more than {MOST_DECODERS} decoders",
    4: "its name is not 1 to 16 letters, digits, - or _, or an earlier decoder has it",
    5: "a variable is not 0 to 255, or they make no locomotive decoder",
    6: "its module is not 1 to 510",
    7: "no decoder",
    9: "a variable is not 1 to 1024 or is there twice, or 1 or 29 is missing",
}


def roster_fault(text: str, decoder: int, number: int) -> RosterError:
    """The error for a roster with the fault of this number, at a decoder, from 1, or 0 for the whole."""
    error = _explained_fault(text, decoder, _FAULTS.get(number, "it is invalid"))
    error.number = number
    return error


def _explained_fault(text: str, number: int, unknown: str) -> RosterError:
    """The fault at a decoder, as far as it is found here in more words than `unknown`."""
    import tomllib

    try:
        roster = tomllib.loads(text)
    except tomllib.TOMLDecodeError as error:
        return RosterError(f"not TOML: {error}")
    nodes = roster.get("node", [])
    if number == 0:
        for key in roster.keys() - {"version", "node"}:
            return RosterError(f"unknown key {key}")
        if roster.get("version") not in (1, 2):
            return RosterError(f"version is {roster.get('version')!r}, and has to be 1 or 2")
        if isinstance(nodes, list) and len(nodes) > MOST_DECODERS:
            return RosterError(f"{len(nodes)} decoders, and at most {MOST_DECODERS} are allowed")
        return RosterError("no decoder" if nodes == [] else unknown)
    name = None
    try:
        node = nodes[number - 1]
        name = node["name"] if isinstance(node["name"], str) else None
        earlier = [other["name"] for other in nodes[: number - 1]]
        return RosterError(_node_fault(node, earlier) or _decoder_of(node).fault() or unknown, number, name)
    except KeyError as error:
        key = f"CV{error.args[0]}" if isinstance(error.args[0], int) else error.args[0]
        return RosterError(f"{key} is missing", number, name)
    except ValueError as error:
        return RosterError(str(error), number, name)
    except (TypeError, AttributeError, IndexError):
        return RosterError(unknown, number, name)


def _name_fault(name: str, earlier: Container[str]) -> str | None:
    """Why a name is invalid, as programs have it, or None."""
    if not _NAME.fullmatch(name):
        return f"name is {name!r}, and has to be 1 to 16 letters, digits, - or _"
    return "an earlier decoder has this name" if name in earlier else None


def _node_fault(node: Mapping[str, Any], earlier: Sequence[str]) -> str | None:
    """Why a node of a roster is invalid, apart from its values, or None."""
    name, kind, numbers = node["name"], node["kind"], [number for number, _ in node.get("cvs", [])]
    fault = _name_fault(name, earlier)
    if fault is not None:
        return fault
    if kind not in ("loco", "accessory"):
        return f"kind is {kind!r}, and has to be loco or accessory"
    for i, number in enumerate(numbers):
        if number in numbers[:i]:
            return f"CV{number} is there twice"
        if not 1 <= number <= 1024:
            return f"CV{number} is none: they are 1 to 1024"
    return None


class HasNodes:
    """Something that reports what its decoders do."""

    @property
    def nodes(self) -> dict[str, State]:
        """What each decoder does, by its name."""
        raise NotImplementedError

    def running(self, name: str) -> Motion:
        """What a locomotive decoder does. Raises StationError if there is no such decoder."""
        state = self._state(name)
        if not isinstance(state, Motion):
            raise StationError(f"decoder {name} is no locomotive decoder")
        return state

    def outputs(self, name: str) -> Outputs:
        """The outputs of an accessory decoder. Raises StationError if there is no such decoder."""
        state = self._state(name)
        if not isinstance(state, Outputs):
            raise StationError(f"decoder {name} is no accessory decoder")
        return state

    def _state(self, name: str) -> State:
        nodes = self.nodes
        if name not in nodes:
            raise StationError(f"there is no decoder {name}")
        return nodes[name]
