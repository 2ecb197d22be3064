"""The shared object `libstation.so`, whose functions and structs are those of station.h."""

from __future__ import annotations

import ctypes
import os
import pathlib
import subprocess
from collections.abc import Iterator
from ctypes import POINTER, Structure, c_bool, c_size_t, c_uint8, c_uint16, c_uint32, c_uint64, c_void_p
from typing import Any

from .errors import LibraryError

NAME = "libstation.so"
QUIET, REPLY, PACKET, OFF = range(4)
STOP, EMERGENCY, STEP = range(3)
BYTE, TURN, NOISE = range(3)
MADE, BAD_LINES, BAD_DECODERS, NO_MEMORY, ALREADY_MADE, BAD_PLAN = range(6)


class Layout(Structure):
    """The handle of a layout."""

    _fields_ = [("at", c_void_p), ("made", c_bool)]


class Decoder(Structure):
    """The accessory decoder of a module, or a locomotive decoder with these variables."""

    _fields_ = [
        ("module", c_uint16),
        ("accessory", c_bool),
        ("cv1", c_uint8),
        ("cv17", c_uint8),
        ("cv18", c_uint8),
        ("cv29", c_uint8),
    ]


class Event(Structure):
    """One event: of the fields, those that its kind names."""

    _fields_ = [
        ("missed", c_uint64),
        ("half", c_uint16),
        ("kind", c_uint8),
        ("line", c_uint8),
        ("byte", c_uint8),
        ("node", c_uint8),
    ]


class Answer(Structure):
    """The answer to an event."""

    _fields_ = [("kind", c_uint8), ("size", c_uint8), ("bytes", c_uint8 * 14)]


class Motion(Structure):
    """How a locomotive runs."""

    _fields_ = [
        ("functions", c_uint16),
        ("kind", c_uint8),
        ("step", c_uint8),
        ("steps", c_uint8),
        ("forward", c_bool),
    ]


class Train(Structure):
    """Where a train is."""

    _fields_ = [
        ("front", c_uint32),
        ("speed", c_uint32),
        ("derailed_at", c_uint16),
        ("block", c_uint8),
        ("rear_block", c_uint8),
        ("faces_b", c_bool),
    ]


def _find() -> pathlib.Path:
    """The library of this package, or `bindings/out`, or that of the repository: the released one, or built if it has to be."""
    here = pathlib.Path(__file__).resolve()
    beside, made, run = here.with_name("programs") / NAME, here.parents[2] / "out" / NAME, here.parents[3] / "run"
    if beside.is_file() or not made.is_file() and not run.is_file():
        return beside
    if made.is_file():
        return made
    found = subprocess.run([run, "--path", NAME], stdin=subprocess.DEVNULL, stdout=subprocess.PIPE, text=True)
    return pathlib.Path(found.stdout.rstrip("\n")) if found.returncode == 0 else made


def load(path: str | os.PathLike[str] | None = None) -> Any:
    """Loads the library: from `path`, or STATION_LIBRARY, or the folder of this package, or the repository."""
    file = os.fspath(path or os.environ.get("STATION_LIBRARY") or _find())
    try:
        # A name without a slash would be searched on the path of the system's libraries.
        library = ctypes.CDLL(os.path.abspath(file))
    except OSError as error:
        raise LibraryError(f"{error}. `make -C bindings` makes {NAME}; STATION_LIBRARY names another path") from None
    layout = POINTER(Layout)
    shapes: dict[str, tuple[list[Any], Any]] = {
        "new": ([layout, c_uint8, POINTER(Decoder), c_size_t], c_uint8),
        "read": ([layout, c_uint8, POINTER(c_uint8), c_size_t, POINTER(c_uint8)], c_uint8),
        "check": ([POINTER(c_uint8), c_size_t, POINTER(c_uint8), POINTER(c_uint8)], c_uint8),
        "free": ([layout], None),
        "byte": ([layout, c_uint8, c_uint8, POINTER(Answer)], c_bool),
        "turn": ([layout, c_uint64, POINTER(Answer)], c_bool),
        "run": ([layout, POINTER(Event), c_size_t, POINTER(Answer), c_size_t], c_bool),
        "running": ([layout, c_size_t, POINTER(Motion)], c_bool),
        "outputs": ([layout, c_size_t, POINTER(c_uint8)], c_bool),
    }
    for name, (takes, gives) in shapes.items():
        try:
            function = getattr(library, f"station_{name}")
        except AttributeError:
            raise LibraryError(f"{file} has no function station_{name}") from None
        function.argtypes, function.restype = takes, gives
    return library


def array_of(kind: Any, values: Any) -> Any:
    """An array in C, of one value at least, since no pointer may be null."""
    array = (kind * max(len(values), 1))()
    for i, value in enumerate(values):
        array[i] = value
    return array


def numbers() -> Iterator[str]:
    """The kinds and statuses, as `play numbers` prints them."""
    events, answers, motions = "BYTE TURN NOISE", "QUIET REPLY PACKET OFF", "STOP EMERGENCY STEP"
    statuses = "MADE BAD_LINES BAD_DECODERS NO_MEMORY ALREADY_MADE BAD_PLAN"
    for name in f"{events} {answers} {motions} {statuses}".split():
        yield f"{name} {globals()[name]}"


def sizes() -> Iterator[str]:
    """The sizes of the structs and the offsets of their fields, as `play sizes` prints them."""
    kinds: dict[str, Any] = {"layout": Layout, "decoder": Decoder, "event": Event, "answer": Answer, "motion": Motion, "train": Train}
    for name, kind in kinds.items():
        yield f"station_{name} {ctypes.sizeof(kind)}"
    for name, kind in kinds.items():
        for field, _ in kind._fields_:
            yield f"station_{name}.{field} {getattr(kind, field).offset}"
