"""The log of `lbserver`, read as it grows."""

from __future__ import annotations

import pathlib
import re
from collections.abc import Iterator, Mapping
from dataclasses import dataclass, field
from typing import Any

from .decoders import Motion, Outputs, State, read_node_line
from .messages import SensorReport, sensor_report_in

_CONFLICT = re.compile(r"conflict (\S+): (\S+), (\S+)")
# The time with which each line begins with the option `--times`.
_TIME = re.compile(r"\d+:\d\d:\d\d\.\d{3} ")


def without_time(line: str) -> str:
    """A line without the time with which it may begin."""
    time = _TIME.match(line)
    return line[time.end() :] if time else line

_DERAILMENT = re.compile(r"derailed (\S+) at turnout (\d+)")


@dataclass(frozen=True)
class Conflict:
    """Two trains came to be in a block at once."""

    block: str
    trains: tuple[str, str]

    def __str__(self) -> str:
        return f"conflict {self.block}: {self.trains[0]}, {self.trains[1]}"


@dataclass(frozen=True)
class Derailment:
    """A turnout lay against a train, or was thrown under it."""

    train: str
    turnout: int

    def __str__(self) -> str:
        return f"derailed {self.train} at turnout {self.turnout}"


@dataclass
class Log:
    """The whole lines of a log so far, and what they say; each thing with the number of its line, from 0."""

    path: pathlib.Path
    lines: list[str] = field(default_factory=list)
    nodes: dict[str, tuple[int, State]] = field(default_factory=dict)
    reports: list[tuple[int, SensorReport]] = field(default_factory=list)
    conflicts: list[tuple[int, Conflict]] = field(default_factory=list)
    derailments: list[tuple[int, Derailment]] = field(default_factory=list)
    gaps: list[tuple[int, str]] = field(default_factory=list)
    read_bytes: int = 0

    def read(self) -> list[str]:
        """Reads what was printed since the last call. Returns all lines."""
        if self.path.is_file():
            with open(self.path, "rb") as file:
                file.seek(self.read_bytes)
                lines, end, _ = file.read().rpartition(b"\n")
            self.read_bytes += len(lines + end)
            for line in lines.decode(errors="replace").splitlines():
                self._note(len(self.lines), line)
                self.lines.append(line)
        return self.lines

    def _note(self, number: int, line: str) -> None:
        """Notes what a line says, whatever its time."""
        line = without_time(line)
        word = line.partition(" ")[0]
        if word == "node" and (node := read_node_line(line)):
            self.nodes[node[0]] = number, node[1]
        elif word == "message" and (report := sensor_report_in(line)):
            self.reports.append((number, report))
        elif word == "conflict" and (found := _CONFLICT.fullmatch(line)):
            self.conflicts.append((number, Conflict(found[1], (found[2], found[3]))))
        elif word == "derailed" and (found := _DERAILMENT.fullmatch(line)):
            self.derailments.append((number, Derailment(found[1], int(found[2]))))
        elif word == "log:":
            self.gaps.append((number, line))

    def state(self, name: str, since: int) -> State | None:
        """The last state of a decoder, if a line from `since` on has it."""
        number, state = self.nodes.get(name, (-1, None))
        return state if number >= since else None

    def occupied(self, at_start: set[int]) -> set[int]:
        """The sensors that are occupied, if these were at the start."""
        found = {**dict.fromkeys(at_start, True), **{report.sensor: report.occupied for _, report in self.reports}}
        return {sensor for sensor, occupied in found.items() if occupied}


def option(words: list[str], name: str) -> str | None:
    """The value of an option, as in `--plan FILE` or `--plan=FILE`, or None."""
    for i, word in enumerate(words):
        if word == name and i + 1 < len(words):
            return words[i + 1]
        if word.startswith(f"{name}="):
            return word.removeprefix(f"{name}=")
    return None


def kinds_in(roster: Mapping[str, Any]) -> dict[str, type[State]]:
    """What the decoders of a roster do, by their names."""
    return {node["name"]: Outputs if node["kind"] == "accessory" else Motion for node in roster.get("node", [])}


def sensors_at_start(plan: Mapping[str, Any]) -> set[int]:
    """The sensors that are occupied at the start, by the blocks of each train."""
    sensors = {block["name"]: block.get("sensor") for block in plan.get("block", [])}
    blocks = [block for train in plan.get("train", []) for block in _blocks_at_start(plan, train)]
    return {sensor for block in blocks if (sensor := sensors.get(block)) is not None}


def _blocks_at_start(plan: Mapping[str, Any], train: Mapping[str, Any]) -> Iterator[str]:
    """The blocks of a train at the start: that of its front, and those behind it over joints and closed turnouts."""
    lengths = {block["name"]: block["length"] for block in plan.get("block", [])}
    beyond: dict[str, str] = {}
    joined = [joint["ends"] for joint in plan.get("joint", [])]
    joined += [(turnout["common"], turnout["closed"]) for turnout in plan.get("turnout", [])]
    for one, other in joined:
        beyond.update({one: other, other: one})
    block, facing = train["block"], train["facing"]
    yield block
    left = train["length"] - (train["front"] if facing == "b" else lengths[block] - train["front"])
    while left > 0 and (end := beyond.get(f"{block}.{'a' if facing == 'b' else 'b'}")) is not None:
        # It faces the end of this block that leads on to the one before.
        block, facing = end.split(".")
        yield block
        left -= lengths[block]
