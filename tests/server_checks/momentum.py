"""Trains with momentum, by docs/RAILWAY.md alone: braking, reversal, emergency stop and loss of power.

A train of 100 mm runs from `line` into `section` at 20 mm/s: step 20 of 126 of 126 mm/s. By 1 mm/s each second it brakes over
20 * 20 / 2 = 200 mm, less a hundredth of a millimetre, in 20 s; by 65,535 over a hundredth. A turn lasts 5.796 to 8 ms while
one locomotive is driven, so it goes at most 0.16 mm in one. A stop is sent within four turns, and so takes effect within
0.8 mm.
"""

from server_checks.common import POWER_OFF, POWER_ON, holds, same, send, serve
from server_checks.railway import report, reports_in
from server_checks.trains import BACKWARD as REVERSE, CV29, FORWARD, answers, block, drive_all, driven, files, joint, loco, train
from serving import Client, message_hex

FORWARD_20 = (126, 21, False)
STOP, EMERGENCY, BACKWARD = message_hex(0xA0, 1, 0), message_hex(0xA0, 1, 1), message_hex(0xA1, 1, 0x20)
LEFT_LINE, REACHED, LEFT = report(1, False), report(3, True), report(3, False)

# 23 to 32 s.
LONG = "TURNS 4000"


def plan(length, front, acceleration, braking):
    momentum = f"acceleration = {acceleration}\nbraking = {braking}\n"
    return [
        block("line", 1000, 1) + block("section", length, 2) + block("beyond", 1000, 3),
        joint("line.b", "section.a") + joint("section.b", "beyond.a"),
        train("loco", "line", front, "b", 100, 126) + momentum,
    ]


def reports_after(words, *steps):
    """What sensors report in each of some steps, lines of a client, once a train of a plan is in the section."""
    with files([loco("loco", 1, CV29[126])], plan(*words)) as options:
        with serve(*options, "--turns", "0") as server, Client(server) as client:
            answers(client, [*send(POWER_ON), *driven(1, *FORWARD_20)])
            turns = 0
            while not reports_in(answers(client, ["TURNS 1"])) and turns < 6000:
                turns += 1
            holds(f"turns to the section: {turns}", turns < 6000)
            return [reports_in(answers(client, lines)) for lines in steps]


# 10 mm before the section, and at 20 mm/s at once.
QUICK_START, QUICK_STOP = (990, 65535, 1), (990, 65535, 65535)


def braking_ways():
    """--plan: a train brakes over its closed-form way, to the millimetre, also before it turns; an emergency stop is at once"""
    stop, emergency, backward = ([*send(message), LONG] for message in (STOP, EMERGENCY, BACKWARD))
    same("a section of 201 mm", reports_after((201, *QUICK_START), stop, [LONG]), [[LEFT_LINE], []])
    same("a section of 199 mm", reports_after((199, *QUICK_START), stop, [LONG]), [[LEFT_LINE, REACHED], []])
    # It does not leave the line.
    same("by 65,535", reports_after((199, *QUICK_STOP), stop, [LONG]), [[], []])
    same("an emergency stop", reports_after((199, *QUICK_START), emergency, [LONG]), [[], []])
    # It turns, goes back at once at 20 mm/s, and to the other end of the line: at most 1,102 mm in 55 s.
    ways = [
        (201, [LEFT_LINE, report(1, True), report(2, False)]),
        (199, [LEFT_LINE, REACHED, LEFT, report(1, True), report(2, False)]),
    ]
    for length, wanted in ways:
        found = reports_after((length, *QUICK_START), backward, 3 * [LONG])
        same(f"there and back, over {length} mm", found[0] + found[1], wanted)


# At 150 mm/s a train goes 0.8694 mm in a turn of an idle packet. By 65,535 mm/s each second it reaches them in 2,289 microseconds,
# and loses as much way as it needs to brake: in 15 turns and the one in which it turns round it goes 15 * 0.8694 = 13.041 mm,
# the last 0.17 mm in the last of them, and is back where that began after 4.6 ms.
TURNS_ROUND, WENT = 15, 13


def turns_round_in_a_block():
    """--plan: a block that a train enters and leaves within a turn, as it turns round, is reported as occupied, then as free"""
    parts = [
        block("line", 1000, 1) + block("section", 1000, 2),
        joint("line.b", "section.a"),
        train("loco", "line", 500, "b", 100, 150) + "acceleration = 65535\nbraking = 65535\n",
    ]
    with files([loco("loco", 1, CV29[126])], parts) as options:
        with serve(*options, "--turns", "0") as server, Client(server) as client:
            for ahead, wanted in ((WENT + 1, []), (WENT, [report(2, True), report(2, False)])):
                drive_all(client, [FORWARD])
                answers(client, [f"PLACE loco line {1000 - ahead} b"])
                same(f"{ahead} mm, before", reports_in(answers(client, [f"TURNS {TURNS_ROUND}"])), [])
                same(f"{ahead} mm", reports_in(answers(client, [*driven(1, *REVERSE), "TURNS 1"])), wanted)
                same(f"{ahead} mm, then", reports_in(answers(client, ["TURNS 100"])), [])


def power_and_momentum():
    """--plan: without power a train with momentum stands at once, and then gathers speed again"""
    off, on = [*send(POWER_OFF), LONG], send(POWER_ON)
    # It has 20 mm/s after 10 s and 100 mm. 1,000 turns last 5.8 to 8 s: 33 to 64 mm, but 116 mm or more at 20 mm/s. In all it
    # goes 100 mm, and at 20 mm/s for 13 s or more: 360 mm.
    steps = reports_after((199, 700, 2, 65535), off, [*on, "TURNS 1000"], ["TURNS 3000"])
    same("without power, with it, and then", steps, [[], [], [LEFT_LINE, REACHED, report(2, False)]])
