"""A LocoNet command station and the DCC decoders on its track, from Python.

`Station` is a layout in this process, by the library `libstation.so`. `station.lbserver` starts the program `lbserver`
for a test, and has a client of it; it needs no library. docs/LIBRARY.md is the manual.
"""

from .decoders import AccessoryDecoder, Decoder, LocoDecoder, Motion, Outputs, Roster, roster_text
from .errors import ClosedError, LibraryError, RefusedError, RosterError, StationError
from .layout import Answer, Byte, Event, Noise, Station, Turn
from .messages import Acknowledge, Reply, SensorReport, SlotData, TurnoutSide, message_bytes, message_hex
from .throttle import Loco, Throttle, Turnout
from .trains import Train

__version__ = "1.1.0"
__all__ = [
    "AccessoryDecoder",
    "Acknowledge",
    "Answer",
    "Byte",
    "ClosedError",
    "Decoder",
    "Event",
    "LibraryError",
    "Loco",
    "LocoDecoder",
    "Motion",
    "Noise",
    "Outputs",
    "RefusedError",
    "Reply",
    "Roster",
    "RosterError",
    "SensorReport",
    "SlotData",
    "Station",
    "StationError",
    "Throttle",
    "Train",
    "Turn",
    "Turnout",
    "TurnoutSide",
    "message_bytes",
    "message_hex",
    "roster_text",
]
