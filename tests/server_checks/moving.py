"""Turnouts that take time, by docs/RAILWAY.md. While no slot is refreshed a turn lasts 5.796 ms; those of `turned` at most 7.14."""

from server_checks.common import POWER_OFF, same, send, serve
from server_checks.trains import FIRST, FORWARD, SECOND, STATION, STATION_ROSTER, THIRD, answers, drive_all, files, logged, turned
from serving import Client

# The station, with a turnout 2 that moves for a second.
TIMED = [part.replace('thrown = "siding.b"\n', 'thrown = "siding.b"\ntime = 1000\n') for part in STATION]

# Steps, and what the log says then. A train goes 5.796 mm in a turn, and has 500 mm to turnout 2: 86.3 turns.
STEPS = [
    ([f"PLACE {FIRST} main 500 b", *turned(2, False), "TURNS 80"], [f"derailed {FIRST} at turnout 2"]),
    # It lies thrown, and is asked back. 500 mm later, after at most 535 ms, it still moves.
    (["TURNS 210"], []),
    ([f"PLACE {FIRST} main 500 b", *turned(2, True), "TURNS 80"], [f"derailed {FIRST} at turnout 2"]),
    # After a second it lies closed.
    (["TURNS 100"], []),
    ([f"PLACE {FIRST} main 500 b", "TURNS 90"], [f"block east occupied ({FIRST})"]),
    # Asked for the siding under the train, it derails it as it begins to move.
    (turned(2, False), [f"derailed {FIRST} at turnout 2"]),
]


def moving_turnouts():
    """--plan: a turnout with a time derails a train that comes to it while it moves, and leads on when it lies"""
    with files(STATION_ROSTER, TIMED) as words, serve(*words, "--turns", "0") as server, Client(server) as client:
        drive_all(client, [FORWARD])
        answers(client, [f"PLACE {FIRST} main 500 b", f"PLACE {SECOND} siding 900 b", f"PLACE {THIRD} back 500 b"])
        for lines, _ in STEPS:
            answers(client, lines)
        client.write(send(POWER_OFF))
        same("the log", logged(server)[2:-1], [wanted for _, wanted in STEPS])
