"""Trains over several blocks, by docs/RAILWAY.md alone: over a ladder of turnouts, from a plan or placed, and with turnouts thrown under them.

At full speed a train goes 5.796 mm in a turn of an idle packet.
"""

from server_checks.common import POWER_OFF, POWER_ON, same, send, serve
from server_checks.railway import INTERROGATION, report, reports_in
from server_checks.trains import BACKWARD, CV29, FORWARD, answers, block, drive_all, files, joint, loco, logged, train, turned
from serving import Client

ROSTER = [loco("loco", 1, CV29[126]), '[[node]]\nname = "turnouts"\nkind = "accessory"\nmodule = 1\n']


def turnout(switch, common, closed, thrown):
    return f'[[turnout]]\nswitch = {switch}\ncommon = "{common}"\nclosed = "{closed}"\nthrown = "{thrown}"\n'


# Four turnouts in a row with 80 mm between them: from the yard to main, or each to a track of its own.
LADDER = [
    *(block(name, length, sensor) for sensor, (name, length) in enumerate(
        [("yard", 2000), ("lead-1", 80), ("lead-2", 80), ("lead-3", 80), ("main", 2000), *((f"track-{i}", 600) for i in range(1, 5))],
        1,
    )),
    turnout(1, "yard.b", "lead-1.a", "track-1.a"),
    turnout(2, "lead-1.b", "lead-2.a", "track-2.a"),
    turnout(3, "lead-2.b", "lead-3.a", "track-3.a"),
    turnout(4, "lead-3.b", "main.a", "track-4.a"),
]

# A train of 1,200 mm: the front 50 mm before the ladder, or 100 mm behind it.
BEFORE, BEHIND = ("yard", 1950, "b"), ("main", 100, "b")

# In which turn a block becomes occupied or free. The front comes to the blocks after 50, 130, 210 and 290 mm: 8.6, 22.4, 36.2 and
# 50.03 turns. The rear leaves them after 1250, 1330, 1410 and 1490 mm: 215.7, 229.5, 243.3 and 257.1 turns.
PASSAGES = [
    *((turn, report(sensor, True)) for turn, sensor in ((9, 2), (23, 3), (37, 4), (51, 5))),
    *((turn, report(sensor, False)) for turn, sensor in ((216, 1), (230, 2), (244, 3), (258, 4))),
]


def whole(place):
    """The parts of a plan with the train there."""
    return [*LADDER, train("loco", *place, 1200, 1000)]


def passed(client, last, turn):
    """What sensors report until the turn before this one, and in it, if `last` have passed."""
    found = answers(client, [f"TURNS {turn - 1 - last}", "TURNS 1"])
    middle = found.index("TURNS OK")
    return reports_in(found[:middle]), reports_in(found[middle:])


def occupied(*sensors):
    return [report(sensor, sensor in sensors) for sensor in range(1, 10)]


def ladders():
    """--plan: a train of 1,200 mm over four turnouts with 80 mm between them, to the turn, and back"""
    with files(ROSTER, whole(BEFORE)) as words, serve(*words, "--turns", "0") as server, Client(server) as client:
        same("at the start", reports_in(answers(client, send(INTERROGATION[0]))), occupied(1))
        drive_all(client, [FORWARD])
        answers(client, ["PLACE loco yard 1950 b"])
        last = 0
        for turn, wanted in PASSAGES:
            same(f"turn {turn}", passed(client, last, turn), ([], [wanted]))
            last = turn
        # To the buffer stop at the end of main, 2,290 mm or 395.1 turns in all.
        same("to the end", reports_in(answers(client, ["TURNS 500"])), [])
        same("there", reports_in(answers(client, send(INTERROGATION[0]))), occupied(5))
    with files(ROSTER, whole(BEHIND)) as words, serve(*words, "--turns", "0") as server, Client(server) as client:
        # The rear is 860 mm in the yard, and stands at its buffer stop after 1,140 mm, the front 1,040 mm before where it was.
        drive_all(client, [BACKWARD])
        answers(client, ["PLACE loco main 100 b"])
        # The front leaves main after 100 mm, 17.3 turns, and the leads after 180, 260 and 340 mm: 31.1, 44.9 and 58.7.
        last = 0
        for turn, sensor in ((18, 5), (32, 4), (45, 3), (59, 2)):
            same(f"back, turn {turn}", passed(client, last, turn), ([], [report(sensor, False)]))
            last = turn
        same("to the other end", reports_in(answers(client, ["TURNS 500"])), [])
        same("there", reports_in(answers(client, send(INTERROGATION[0]))), occupied(1))


def trains_over_several_blocks():
    """--plan, PLACE: a train lies behind its front over joints and turnouts, and is derailed by each that is thrown under it"""
    with files(ROSTER, whole(BEHIND)) as words, serve(*words, "--turns", "0") as server, Client(server) as client:
        same("at the start", reports_in(answers(client, send(INTERROGATION[0]))), occupied(1, 2, 3, 4, 5))
        placed = lambda words: [line for line in answers(client, [f"PLACE loco {words}"]) if line.startswith("PLACE ")]
        # 600 mm of track 3, two leads of 80 mm and 440 mm of the yard, once turnout 3 is thrown.
        same("turnout 3 closed", placed("track-3 600 b"), ["PLACE ERROR the train does not fit there"])
        answers(client, [*send(POWER_ON), *turned(3, False)])
        same("turnout 3 thrown", placed("track-3 600 b"), ["PLACE OK"])
        same("over the ladder", reports_in(answers(client, send(INTERROGATION[0]))), occupied(1, 2, 3, 8))
        same("main", placed("main 100 b"), ["PLACE ERROR the train does not fit there"])
        for switch in (1, 2, 3, 4):
            answers(client, [line for each in (1, 2, 3, 4) for line in turned(each, True)])
            same(f"placed over turnout {switch}", placed("main 100 b"), ["PLACE OK"])
            same("it lies there", reports_in(answers(client, send(INTERROGATION[0]))), occupied(1, 2, 3, 4, 5))
            same(f"turnout {switch}", reports_in(answers(client, turned(switch, False))), [])
            same("it stays there", reports_in(answers(client, send(INTERROGATION[0]))), occupied(1, 2, 3, 4, 5))
        client.write(send(POWER_OFF))
        log = [line for step in logged(server) for line in step if line.startswith("derailed")]
    # Turnout 3 was thrown under it where it began, and closed again under it where it was placed first.
    same("the log", log, [f"derailed loco at turnout {switch}" for switch in (3, 3, 1, 2, 3, 4)])


# A passing track of 500 mm, with two turnouts of one switch.
PASSING = [
    *(block(name, length, sensor) for sensor, (name, length) in enumerate([("west", 2000), ("main", 500), ("siding", 500), ("east", 2000)], 1)),
    turnout(1, "west.b", "main.a", "siding.a"),
    turnout(1, "east.a", "main.b", "siding.b"),
    train("loco", "east", 300, "b", 1200, 1000),
]


def passing_tracks():
    """--plan: turnouts at both ends of a passing track, thrown at once under a train that is longer, derail it"""
    with files(ROSTER, PASSING) as words, serve(*words, "--turns", "0") as server, Client(server) as client:
        every = [report(sensor, sensor != 3) for sensor in range(1, 5)]
        same("at the start", reports_in(answers(client, send(INTERROGATION[0]))), every)
        same("thrown", reports_in(answers(client, [*send(POWER_ON), *turned(1, False)])), [])
        same("where it lies", reports_in(answers(client, send(INTERROGATION[0]))), every)
        client.write(send(POWER_OFF))
        log = [line for step in logged(server) for line in step]
    same("the log", log, ["derailed loco at turnout 1"])


# A double slip: a turnout at each end of a short block, their common ends towards each other.
SLIP = [
    *(block(name, length, sensor) for sensor, (name, length) in enumerate(
        [("west-1", 600), ("west-2", 600), ("slip", 200), ("east-1", 600), ("east-2", 600)], 1)),
    turnout(1, "slip.a", "west-1.b", "west-2.b"),
    turnout(2, "slip.b", "east-1.a", "east-2.a"),
    train("loco", "west-1", 600, "b", 400, 1000),
]


def double_slips():
    """--plan: a double slip is two turnouts at a short block, and leads from either track to either"""
    with files(ROSTER, SLIP) as words, serve(*words, "--turns", "0") as server, Client(server) as client:
        drive_all(client, [FORWARD])
        for west, east in ((1, 1), (1, 2), (2, 1), (2, 2)):
            answers(client, [*turned(1, west == 1), *turned(2, east == 1), f"PLACE loco west-{west} 600 b", "TURNS 60"])
            # 347.76 mm from the end of its block: 147.76 mm behind the slip, and 52.24 mm of it not yet in the slip.
            under = {west, 3, 3 + east}
            wanted = [report(sensor, sensor in under) for sensor in range(1, 6)]
            same(f"from {west} to {east}", reports_in(answers(client, send(INTERROGATION[0]))), wanted)
        # It comes from the other track.
        answers(client, [*turned(1, True), "PLACE loco west-2 600 b", "TURNS 1"])
        client.write(send(POWER_OFF))
        same("the log", [line for step in logged(server) for line in step][-1], "derailed loco at turnout 1")
