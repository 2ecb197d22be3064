"""Turnouts with feedback, by docs/RAILWAY.md and LocoNet Personal Use Edition 1.0 (OPC_SW_REP, OPC_SW_STATE, OPC_LONG_ACK).

While no slot is refreshed a turn lasts 5.796 ms; the ten of `turned` are 46 to 72 ms behind the output, which comes on in one of them."""

from server_checks.common import POWER_ON, same, send, serve
from server_checks.railway import INTERROGATION, OVAL, report
from server_checks.trains import BUSY, STATION, STATION_ROSTER, answers, files, turned
from serving import Client, message_hex

# Turnout 2 reports after half a second, turnout 2040, the last, at once.
LAST = ['[[node]]\nname = "last"\nkind = "accessory"\nmodule = 510\n']
WITH_FEEDBACK = 'thrown = "siding.b"\ntime = 500\nfeedback = true\n'
FEEDBACK = [part.replace('thrown = "siding.b"\n', WITH_FEEDBACK) for part in STATION]
LAST_FEEDBACK = [part.replace("switch = 1\n", "switch = 2040\nfeedback = true\n") for part in FEEDBACK]

# OPC_SW_REP in the form for inputs: bit 6, bit 5 for a switch's own input, bit 4 for a high level, which is closed.
THROWN_2, CLOSED_2 = "RECEIVE B1 01 60 2F", "RECEIVE B1 01 70 3F"
THROWN_2040, CLOSED_2040 = "RECEIVE B1 77 6F 56", "RECEIVE B1 77 7F 46"

# OPC_SW_STATE of turnouts 1, 2 and 2040, and its long acknowledge: bit 5 for closed.
STATE_1, STATE_2, STATE_2040 = "BC 00 00 43", "BC 01 00 42", "BC 77 0F 3B"
IS_CLOSED, IS_THROWN = "RECEIVE B4 3C 20 57", "RECEIVE B4 3C 00 77"


def turned_2040(is_closed):
    first = 0x2F if is_closed else 0x0F
    return [*send(*(message_hex(0xB0, 0x77, first + on) for on in (0x10, 0))), "TURNS 10"]


def told(client, lines):
    """Writes lines. Returns the reports and answers of turnouts that the client receives until all were read."""
    return [line for line in answers(client, lines) if line.startswith(("RECEIVE B1", "RECEIVE B4 3C"))]


# Lines, and what is received of turnouts then.
STORY = [
    # 10 turns and 60 are at most 420 ms, 10 and 100 at least 626.
    ([*turned(2, False), "TURNS 60"], []),
    (["TURNS 40"], [THROWN_2]),
    (["TURNS 200"], []),
    # Asked for the side at which it lies.
    ([*turned(2, False), "TURNS 200"], []),
    # Asked back after at most 260 ms: it lies where it lay after as many, and has moved.
    ([*turned(2, True), "TURNS 20"], []),
    ([*turned(2, False), "TURNS 60"], [THROWN_2]),
    ([*turned(2, True), "TURNS 100"], [CLOSED_2]),
    # At once.
    (turned_2040(False), [THROWN_2040]),
    (turned_2040(False), []),
    (turned_2040(True), [CLOSED_2040]),
    # One that fails goes on to where it moves, and then stays.
    ([*turned(2, False), "FAIL turnout 2", "TURNS 100"], [THROWN_2]),
    ([*turned(2, True), "TURNS 100"], []),
    (["FAIL none", "TURNS 100"], []),
    # While it moves the answer is the side that it moves to, also if it is asked back.
    (send(STATE_2, STATE_2040), [IS_THROWN, IS_CLOSED]),
    ([*turned(2, True), *send(STATE_2)], [IS_CLOSED]),
    (["TURNS 100", *send(STATE_2)], [CLOSED_2, IS_CLOSED]),
    ([*turned(2, False), *send(STATE_2), "TURNS 30"], [IS_THROWN]),
    # It has moved for at least 220 ms, and 72 later it still moves back.
    ([*turned(2, True), *send(STATE_2)], [IS_CLOSED]),
]


def reported_turnouts():
    """--plan: a turnout with feedback is reported when it has come to lie, to all clients alike, and tells where it lies"""
    with files(STATION_ROSTER + LAST, LAST_FEEDBACK) as words, serve(*words, "--turns", "0") as server:
        with Client(server) as watcher, Client(server) as client:
            answers(client, send(POWER_ON))
            for number, (lines, wanted) in enumerate(STORY):
                same(f"step {number}", told(client, lines), wanted)
            seen = watcher.lines_until(f"RECEIVE {BUSY}")
            for _ in STORY:
                seen += watcher.lines_until(f"RECEIVE {BUSY}")
            seen = [line for line in seen if line.startswith(("RECEIVE B1", "RECEIVE B4 3C"))]
            same("another client", seen, [line for _, wanted in STORY for line in wanted])


def asked_turnouts():
    """--plan: an interrogation is answered by sensors, and then by turnouts with feedback that lie; others tell nothing"""
    with files(STATION_ROSTER, FEEDBACK) as words, serve(*words, "--turns", "0") as server, Client(server) as client:
        sensors = [report(sensor, sensor == 5) for sensor in range(1, 6)]

        def asked(lines):
            found = answers(client, [*lines, *send(INTERROGATION[0])])
            return found[found.index(f"RECEIVE {INTERROGATION[0]}") + 2 :]

        same("at the start", asked(send(POWER_ON)), [*sensors, CLOSED_2])
        same("while it moves", asked(turned(2, False)), sensors)
        same("it lies", told(client, ["TURNS 100"]), [THROWN_2])
        same("then", asked([]), [*sensors, THROWN_2])
        # Turnout 1 has no feedback.
        same("the other turnout", told(client, [*turned(1, False), "TURNS 100", *send(STATE_1)]), [])


def silent_turnouts():
    """Turnouts without feedback report nothing, and a request for their state is not answered, with a plan and without"""
    for words in (OVAL, OVAL[:2]):
        with serve(*words, "--turns", "0") as server, Client(server) as client:
            answers(client, send(POWER_ON))
            same("none", told(client, [*turned(2, False), *send(STATE_1, STATE_2)]), [])
