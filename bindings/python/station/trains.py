"""Trains on a track plan, as `lbserver --plan` tells of them."""

from __future__ import annotations

import dataclasses


@dataclasses.dataclass(frozen=True)
class Train:
    """Where a train is, and how fast it runs."""

    block: str  # the block of its front
    tenths: int  # how many tenths of that block its front is from end a, rounded down
    facing: str  # the end that its front faces: "a" or "b"
    rear: str  # the block of its rear
    speed: int  # millimetres a second, rounded down
    derailed: bool


def read_train_line(line: str) -> tuple[str, Train] | None:
    """The decoder of a train and the train, by a `TRAIN` line. None of another line."""
    words = line.split()
    if len(words) not in (7, 8) or words[0] != "TRAIN":
        return None
    _, name, block, tenths, facing, rear, speed, *derailed = words
    return name, Train(block, int(tenths), facing, rear, int(speed), bool(derailed))


def read_turnout_line(line: str) -> tuple[int, bool | None] | None:
    """The switch of a turnout, and whether it lies thrown (None while it moves), by a `TURNOUT` line. None of another line."""
    words = line.split()
    if len(words) != 3 or words[0] != "TURNOUT":
        return None
    return int(words[1]), {"thrown": True, "closed": False}.get(words[2])
