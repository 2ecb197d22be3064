#!/usr/bin/env python3
"""Gives a decoder a long address on a programming track: `examples/programming.py`."""

import pathlib
import sys

TOP = pathlib.Path(__file__).resolve().parent.parent
sys.path.insert(0, str(TOP / "bindings/python"))
from station.lbserver import Server  # noqa: E402

LONG = 1234

with Server("--programmer", str(TOP / "examples/layout.toml"), "--rate", "100") as server:
    track = server.programmer()
    print("short address", track.read(1))
    track.write(17, 192 + LONG // 256)
    track.write(18, LONG % 256)
    # Bit 5 of CV29 chooses the long address.
    track.write(29, track.read(29) | 0x20)
    print("long address", (track.read(17) - 192) * 256 + track.read(18))
