"""Plays a script on a layout, for bindings/test.

    play.py ROSTER SCRIPT LINES    prints what `station replay` prints
    play.py sizes                  prints the sizes of the structs and the offsets of their fields
    play.py numbers                prints the kinds and statuses
"""

import pathlib
import sys

sys.path.insert(0, str(pathlib.Path(__file__).resolve().parent.parent))
from station import Station  # noqa: E402
from station._library import numbers, sizes  # noqa: E402


def play(roster, script, lines):
    """The lines of the replay of a script, each of its events by a call."""
    turns = 0
    with Station(roster, lines) as station:
        for words in (line.split() for line in pathlib.Path(script).read_text().splitlines()):
            if words[:1] == ["line"]:
                for byte in words[2:]:
                    kind, data = station.byte(int(byte, 16), line=int(words[1]))
                    if kind == "reply":
                        yield f"reply {words[1]} {data.hex(' ').upper()}"
            elif words[:1] == ["turn"]:
                for _ in range(int(words[1])):
                    turns += 1
                    kind, data = station.turn([int(i) for i in words[3:]])
                    yield f"track {turns} off" if kind == "off" else f"track {turns} {data.hex(' ').upper()}"
            elif words[:1] == ["show"]:
                for name, state in station.nodes.items():
                    place = station.decoders[name].place
                    yield f"node {name} {place} {state}"


if sys.argv[1:] == ["sizes"]:
    print(*sizes(), sep="\n")
elif sys.argv[1:] == ["numbers"]:
    print(*numbers(), sep="\n")
elif len(sys.argv) == 4:
    print(*play(pathlib.Path(sys.argv[1]), sys.argv[2], int(sys.argv[3])), sep="\n")
else:
    sys.exit(__doc__)
