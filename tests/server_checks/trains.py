"""How trains run: to the femtometre, by docs/RAILWAY.md, docs/DCC.md and the turns of idle packets alone.

While no slot is refreshed each turn has an idle packet: 31 ones of twice 58 microseconds and 11 zeros of twice 100, in all
5,796. Step n of N at `speed` is n / N * speed * 5,796 nanometres a turn: 46 * n * speed of 126 steps, 207 of 28, 414 of 14.
"""

import contextlib
import tempfile

from server_checks.common import POWER_OFF, POWER_ON, holds, printed_after, receive, same, send, serve, within
from server_checks.railway import INTERROGATION, report, reports_in
from serving import Client, message_hex

# OPC_BUSY, which has no effect: the end of a step. OPC_IDLE: a pause.
BUSY, PAUSE = message_hex(0x81), message_hex(0x85)

# By the steps of a decoder, CV29 and the type in STAT1.
CV29 = {14: 0, 28: 2, 126: 2}
TYPE = {14: 2, 28: 0, 126: 3}
IN_USE, IDLE, REVERSE = 0x30, 0x20, 0x20

# Locomotives on a block of 1600 mm between two others each: steps, whether CV29 reverses it, SPD, whether it is asked to
# run in reverse, and its speed at the last step; how long it is, its front and the end that it faces; then the turn in
# which it is in the next block, and which that is (-1 at end a, 1 at end b), and the turn in which it has left its own.
RUNS = [
    # 5.796 mm a turn, 1,449 mm in 250. A train whose front has that way to go is at the end of its block, and not yet in the
    # next: 1,549 mm in 267.3 turns. One whose rear has it has left.
    (126, 0, 127, False, 1000, 100, 151, "b", (251, 1, 268)),
    (126, 0, 127, False, 1000, 100, 251, "b", (233, 1, 250)),
    # 0.46 mm a turn at step 10: 100 mm in 217.4, 120 in 260.9. 1.7871 mm at step 50: 500 mm in 279.8, 577 in 322.9.
    (126, 0, 11, False, 1000, 20, 1500, "b", (218, 1, 261)),
    (126, 0, 51, False, 777, 77, 1100, "b", (280, 1, 323)),
    # 0.207 mm a turn at step 5 of 14, which is SPD 38 to 46: 50 mm in 241.5, 53 in 256.04. 0.8694 mm at step 14 of 150 mm/s:
    # 200 mm in 230.04, 250 in 287.6.
    (14, 0, 38, False, 100, 3, 1550, "b", (242, 1, 257)),
    (14, 0, 46, False, 100, 3, 1550, "b", (242, 1, 257)),
    (14, 0, 127, False, 150, 50, 200, "a", (231, -1, 288)),
    # 0.9315 mm a turn at step 15 of 28, which is SPD 65 to 69: 250 mm in 268.4, 275 in 295.2. 0.2898 mm at step 1 of
    # 1400 mm/s: 60 mm in 207.04, 75 in 258.8.
    (28, 0, 65, False, 300, 25, 1350, "b", (269, 1, 296)),
    (28, 0, 69, False, 300, 25, 1350, "b", (269, 1, 296)),
    (28, 0, 2, False, 1400, 15, 1540, "b", (208, 1, 259)),
    # Backward, by the throttle or by CV29, 0.5796 mm a turn: the rear has 100 mm to go, in 172.5 turns, the front 130 mm, in
    # 224.3. By both it runs forward.
    (126, 0, 127, True, 100, 30, 130, "b", (173, -1, 225)),
    (126, 1, 127, False, 100, 30, 1470, "a", (173, 1, 225)),
    (28, 1, 127, True, 100, 30, 1500, "b", (173, 1, 225)),
]


def loco(name, address, cv29):
    return f'[[node]]\nname = "{name}"\nkind = "loco"\ncvs = [[1, {address}], [29, {cv29}]]\n'


def block(name, length, sensor):
    return f'[[block]]\nname = "{name}"\nlength = {length}\nsensor = {sensor}\n'


def joint(one, two):
    return f'[[joint]]\nends = ["{one}", "{two}"]\n'


def train(decoder, where, front, facing, length, speed):
    place = f'block = "{where}"\nfront = {front}\nfacing = "{facing}"\n'
    return f'[[train]]\ndecoder = "{decoder}"\n{place}length = {length}\nspeed = {speed}\n'


@contextlib.contextmanager
def files(roster, plan):
    """The options for a roster and a plan of these parts."""
    with tempfile.NamedTemporaryFile("w") as roster_file, tempfile.NamedTemporaryFile("w") as plan_file:
        for file, version, parts in ((roster_file, 2, roster), (plan_file, 1, plan)):
            file.write(f"version = {version}\n" + "".join(parts))
            file.flush()
        yield "--roster", roster_file.name, "--plan", plan_file.name


def driven(slot, steps, spd, is_reverse):
    """Messages that take a locomotive, of the address of its slot, and drive it. Only later is the slot idle."""
    bodies = [(0xBF, 0, slot), (0xB5, slot, IN_USE + TYPE[steps]), (0xA1, slot, REVERSE * is_reverse), (0xA0, slot, spd)]
    return send(*(message_hex(*body) for body in bodies))


def idle(slot, steps):
    return send(message_hex(0xB5, slot, IDLE + TYPE[steps]))


def answers(client, lines):
    """Writes lines, and returns what the client receives until all were read."""
    client.write([*lines, *send(BUSY)])
    found = client.lines_until(*receive(BUSY))
    same("the mark", client.line(), "SENT OK")
    return found[:-1]


def drive_all(client, rows):
    """Drives the locomotives of slots 1 and up, by steps, SPD and whether in reverse, until each has heard it. Then no slot
    is refreshed, and each turn has an idle packet: the last of those queued has passed."""
    lines = send(POWER_ON)
    for slot, row in enumerate(rows, 1):
        lines += driven(slot, *row)
    lines += [f"TURNS {16 * len(rows)}"]
    for slot, (steps, _, _) in enumerate(rows, 1):
        lines += idle(slot, steps)
    answers(client, [*lines, "TURNS 4"])


def plan_of_runs():
    for i in range(3 * len(RUNS)):
        yield block(f"{('before', 'own', 'after')[i % 3]}-{i // 3}", 1600, i + 1)
    for i in range(len(RUNS)):
        yield joint(f"before-{i}.b", f"own-{i}.a") + joint(f"own-{i}.b", f"after-{i}.a")
    for i, (_, _, _, _, speed, length, front, facing, _) in enumerate(RUNS):
        yield train(f"loco-{i}", f"own-{i}", front, facing, length, speed)


def changes_of_runs():
    """The reports by their turns: sensor 3 * i + 2 is that of the own block of train i."""
    changes = {}
    for i, (*_, (entered, side, left)) in enumerate(RUNS):
        changes.setdefault(entered, []).append((False, 3 * i + 2 + side))
        changes.setdefault(left, []).append((True, 3 * i + 2))
    # Blocks that became occupied come first, each in the order of the plan.
    return {turn: [report(sensor, not is_free) for is_free, sensor in sorted(found)] for turn, found in changes.items()}


def distances():
    """--plan: a train goes speed times time, to the turn: of 14, 28 and 126 steps, forward, backward, to either end"""
    roster = [loco(f"loco-{i}", i + 1, CV29[row[0]] + row[1]) for i, row in enumerate(RUNS)]
    with files(roster, plan_of_runs()) as words, serve(*words, "--turns", "0") as server, Client(server) as client:
        drive_all(client, [(steps, spd, is_reverse) for steps, _, spd, is_reverse, *_ in RUNS])
        places = [f"PLACE loco-{i} own-{i} {front} {facing}" for i, (*_, front, facing, _) in enumerate(RUNS)]
        placed = [line for line in answers(client, places) if line.startswith("PLACE ")]
        same("the trains are placed", placed, len(RUNS) * ["PLACE OK"])
        asked, wanted, last = [], [], 0
        for turn, reports in sorted(changes_of_runs().items()):
            # Nothing before the last of these turns.
            counts = [count for count in (turn - 1 - last, 1) if count]
            asked += [f"TURNS {count}" for count in counts]
            # What sensors report comes before the answer.
            wanted += [*(len(counts) - 1) * ["TURNS OK"], *reports, "TURNS OK"]
            last = turn
        same("reports", answers(client, asked), wanted)
        # Each would go more than 2,000 mm, but for the buffer stop at the far end of the next block.
        same("up to buffer stops", answers(client, ["TURNS 10000"]), ["TURNS OK"])
        ends = {3 * i + 2 + side for i, (*_, (_, side, _)) in enumerate(RUNS)}
        every = [report(sensor, sensor in ends) for sensor in range(1, 3 * len(RUNS) + 1)]
        same("where they stand", reports_in(answers(client, send(INTERROGATION[0]))), every)


# Names as long as they may be, of a block and of locomotives: 32 and 16 bytes.
WEST, FIRST, SECOND, THIRD = "west-of-the-station_and-its-yard", "inter-city-train", "freight_train-02", "local"
NAMES = [WEST, "main", "siding", "east", "back"]
LOCOS = [FIRST, SECOND, THIRD]
STATION_ROSTER = [
    *(loco(name, slot, CV29[126]) for slot, name in enumerate(LOCOS, 1)),
    '[[node]]\nname = "turnouts"\nkind = "accessory"\nmodule = 1\n',
]

# An oval with a siding, blocks of 1000 mm and trains of 200 mm.
STATION = [
    *(block(name, 1000, sensor) for sensor, name in enumerate(NAMES, 1)),
    f'[[turnout]]\nswitch = 1\ncommon = "{WEST}.b"\nclosed = "main.a"\nthrown = "siding.a"\n',
    '[[turnout]]\nswitch = 2\ncommon = "east.a"\nclosed = "main.b"\nthrown = "siding.b"\n',
    joint("east.b", "back.a") + joint("back.b", f"{WEST}.a"),
    *(train(name, "back", 500, "b", 200, 1000) for name in LOCOS),
]


def turned(turnout, is_closed):
    """Moves a turnout, in ten turns: the output goes on and off, and each of these packets is sent twice, with another between.
    None is longer than 7,140 microseconds."""
    first = 0x20 * is_closed
    return [*send(*(message_hex(0xB0, turnout - 1, first + on) for on in (0x10, 0))), "TURNS 10"]


# Trains by their motion, steps, SPD and whether in reverse, where they are put, and steps: lines, and what the log says then.
# A train at full speed goes 5.796 mm in a turn of an idle packet.
FORWARD, BACKWARD = (126, 127, False), (126, 127, True)
STORIES = [
    (
        "three trains in a block",
        [],
        [f"{FIRST} {WEST} 900 b", f"{SECOND} main 900 b", f"{THIRD} east 900 b"],
        [
            ([f"PLACE {SECOND} siding 500 a"], ["block main free", f"block siding occupied ({SECOND})"]),
            # Of two trains the first in the plan is named first.
            ([f"PLACE {FIRST} siding 500 b"], [f"block {WEST} free", f"conflict siding: {FIRST}, {SECOND}"]),
            (
                [f"PLACE {THIRD} siding 500"],
                ["block east free", f"conflict siding: {FIRST}, {THIRD}", f"conflict siding: {SECOND}, {THIRD}"],
            ),
            # Where it is already, and elsewhere in the block.
            ([f"PLACE {THIRD} siding 500", f"PLACE {SECOND} siding 800"], []),
            ([f"PLACE {FIRST} {WEST} 900"], [f"block {WEST} occupied ({FIRST})"]),
            (
                [f"PLACE {FIRST} siding 500"],
                [f"block {WEST} free", f"conflict siding: {FIRST}, {SECOND}", f"conflict siding: {FIRST}, {THIRD}"],
            ),
            ([f"PLACE {FIRST} {WEST} 900"], [f"block {WEST} occupied ({FIRST})"]),
            ([f"PLACE {SECOND} main 500"], [f"block main occupied ({SECOND})"]),
            ([f"PLACE {THIRD} east 500"], ["block siding free", f"block east occupied ({THIRD})"]),
        ],
    ),
    (
        "two trains come into a free block at once",
        [FORWARD, FORWARD],
        [f"{FIRST} {WEST} 900 b", f"{SECOND} east 100 a", f"{THIRD} siding 500 b"],
        [
            # Both fronts have 100 mm to go, 17.3 turns, and both rears 300, 51.8 turns.
            (["TURNS 17"], []),
            (["TURNS 1"], [f"block main occupied ({FIRST})", f"conflict main: {FIRST}, {SECOND}"]),
            (["TURNS 33"], []),
            (["TURNS 1"], [f"block {WEST} free", "block east free"]),
            ([f"PLACE {FIRST} back 500 b"], [f"block back occupied ({FIRST})"]),
        ],
    ),
    (
        "a train over two blocks, and the turnout ahead",
        [FORWARD],
        [f"{FIRST} {WEST} 900 b", f"{SECOND} siding 900 b", f"{THIRD} back 500 b"],
        [
            # The front has 1100 mm to go to the end of main, the rear 300 mm to main: after 174, 232 to 238, 406 to 412,
            # 1043 to 1050 and 1159 mm.
            (["TURNS 30"], [f"block main occupied ({FIRST})"]),
            (turned(2, False), []),
            (["TURNS 30"], [f"block {WEST} free"]),
            (["TURNS 110"], []),
            (["TURNS 20"], [f"derailed {FIRST} at turnout 2"]),
            # It stands, and is not derailed again.
            ([*turned(2, True), "TURNS 100"], []),
            ([*turned(1, False), "TURNS 100"], []),
            (turned(2, False), []),
            # 500 mm are 86.3 turns. Its place was in main.
            ([f"PLACE {FIRST} main 500 b", "TURNS 86"], []),
            (["TURNS 1"], [f"derailed {FIRST} at turnout 2"]),
            ([f"PLACE {FIRST} main 500 a", "TURNS 86"], []),
            (["TURNS 1"], [f"derailed {FIRST} at turnout 1"]),
            # Turnout 1 leads from the siding to the west.
            ([f"PLACE {FIRST} siding 500 a", "TURNS 86"], ["block main free", f"conflict siding: {FIRST}, {SECOND}"]),
            (["TURNS 1"], [f"block {WEST} occupied ({FIRST})"]),
        ],
    ),
    (
        "a turnout thrown under a train",
        [FORWARD],
        [f"{FIRST} {WEST} 900 b", f"{SECOND} siding 900 b", f"{THIRD} siding 500 b"],
        [
            # The front is 174 mm on, and then up to 238, the rear has 300 mm to main.
            (["TURNS 30"], [f"block main occupied ({FIRST})"]),
            (turned(1, False), [f"derailed {FIRST} at turnout 1"]),
            # It stands in both blocks, whatever lies under it or ahead.
            (["TURNS 200"], []),
            ([*turned(2, False), "TURNS 200"], []),
            ([*turned(1, True), "TURNS 200"], []),
            (turned(1, False), []),
            (turned(1, True), []),
            ([f"PLACE {FIRST} back 500 b"], [f"block {WEST} free", "block main free", f"block back occupied ({FIRST})"]),
            (["TURNS 86"], []),
            (["TURNS 1"], [f"block {WEST} occupied ({FIRST})"]),
            # From the other side, the front 100 mm from the turnout.
            ([f"PLACE {FIRST} main 100 a"], [f"block {WEST} free", f"block main occupied ({FIRST})", "block back free"]),
            (["TURNS 30"], [f"block {WEST} occupied ({FIRST})"]),
            (turned(1, False), [f"derailed {FIRST} at turnout 1"]),
        ],
    ),
    (
        "turnouts that lie against a train on their thrown branch",
        [FORWARD],
        [f"{FIRST} {WEST} 500 b", f"{SECOND} back 500 b", f"{THIRD} back 500 b"],
        [
            ([f"PLACE {FIRST} siding 500 b", "TURNS 86"], [f"block {WEST} free", f"block siding occupied ({FIRST})"]),
            (["TURNS 1"], [f"derailed {FIRST} at turnout 2"]),
            ([f"PLACE {FIRST} siding 500 a", "TURNS 86"], []),
            (["TURNS 1"], [f"derailed {FIRST} at turnout 1"]),
        ],
    ),
    (
        "ends of blocks, to the femtometre",
        [FORWARD],
        [f"{FIRST} main 551 b", f"{SECOND} siding 900 b", f"{THIRD} siding 500 b"],
        [
            # The front has 449 mm to go to the east, 77.5 turns, and 1,449 mm to the back, 250 turns; the rear leaves main after
            # 649 mm, 111.98 turns.
            (["TURNS 77"], []),
            (["TURNS 1"], [f"block east occupied ({FIRST})"]),
            (["TURNS 33"], []),
            (["TURNS 1"], ["block main free"]),
            (["TURNS 138"], []),
            (["TURNS 1"], [f"block back occupied ({FIRST})"]),
            # The rear has 1,449 mm to go to leave the east. Before, the front has 249 mm to the east, 42.96 turns, and 1,249 to
            # the back, 215.5, and the rear leaves main after 449 mm.
            ([f"PLACE {FIRST} main 751"], [f"block main occupied ({FIRST})", "block east free", "block back free"]),
            (["TURNS 77"], [f"block east occupied ({FIRST})"]),
            (["TURNS 138"], ["block main free"]),
            (["TURNS 1"], [f"block back occupied ({FIRST})"]),
            (["TURNS 33"], []),
            (["TURNS 1"], ["block east free"]),
        ],
    ),
    (
        "a train that runs backward, and turnouts",
        [BACKWARD],
        [f"{FIRST} main 900 b", f"{SECOND} siding 900 b", f"{THIRD} back 500 b"],
        [
            (turned(1, False), []),
            # The rear has 100 mm to go.
            ([f"PLACE {FIRST} main 300 b", "TURNS 17"], []),
            (["TURNS 1"], [f"derailed {FIRST} at turnout 1"]),
            (turned(1, True), []),
            ([f"PLACE {FIRST} main 300 b", "TURNS 30"], [f"block {WEST} occupied ({FIRST})"]),
            (turned(1, False), [f"derailed {FIRST} at turnout 1"]),
        ],
    ),
    (
        "a pause",
        [FORWARD],
        [f"{FIRST} main 300 b", f"{SECOND} siding 900 b", f"{THIRD} back 500 b"],
        [
            # After 580 of 700 mm to the east each decoder is stopped, and stays so as long as its slot is idle.
            (["TURNS 100"], []),
            ([*send(PAUSE), "TURNS 1000"], []),
            ([*send(POWER_ON), "TURNS 1000"], []),
            # In use the slot is driven within 16 turns. The front has at most 120 mm to go, the rear 320, at 5.796 to 10.74 mm
            # a turn.
            ([*send(message_hex(0xBA, 1, 1)), "TURNS 100"], [f"block east occupied ({FIRST})", "block main free"]),
        ],
    ),
]


def reports_of(lines):
    """What sensors report of the blocks in lines of the log: those that became occupied first, in the plan's order."""
    words = [line.split() for line in lines if line.startswith("block ")]
    changed = sorted((word == "free", NAMES.index(name) + 1) for _, name, word, *_ in words)
    return [report(sensor, not is_free) for is_free, sensor in changed]


def logged(server):
    """The lines of blocks and trains in the log, between the marks, once the power is off."""
    steps = [[]]
    for line in printed_after(server, f"message {POWER_OFF}  track power off"):
        if line == f"message {BUSY}  busy, ignored":
            steps.append([])
        elif line.split()[0] in ("block", "derailed", "conflict"):
            steps[-1].append(line)
    return steps


def stories():
    """--plan: log and reports of three trains in a block, of turnouts thrown under and before trains, and of a pause"""
    for name, rows, places, steps in STORIES:
        with files(STATION_ROSTER, STATION) as words, serve(*words, "--turns", "0") as server, Client(server) as client:
            drive_all(client, rows)
            answers(client, [f"PLACE {place}" for place in places])
            for number, (lines, wanted) in enumerate(steps, 1):
                same(f"{name}, {number}", reports_in(answers(client, lines)), reports_of(wanted))
            client.write(send(POWER_OFF))
            # Before the first step are those of driving and of placing.
            same(name, logged(server)[2:-1], [wanted for _, wanted in steps])


FITS, BEYOND, NO_NUMBER = "OK", "ERROR the train does not fit there", "ERROR no number of millimetres"

# Places of a train of 200 mm in blocks of 1000 mm, one after another, and the answers. It faces end a at first. No turnout leads to the siding.
PLACES = [
    (f"{FIRST} siding 800", FITS),
    (f"{FIRST} siding 801", BEYOND),
    (f"{FIRST} siding 0", FITS),
    # An end that was refused is not kept.
    (f"{FIRST} siding 199 b", BEYOND),
    (f"{FIRST} siding 1001 b", BEYOND),
    (f"{FIRST} siding 199", FITS),
    (f"{FIRST} siding 200 b", FITS),
    (f"{FIRST} siding 199", BEYOND),
    (f"{FIRST} siding 1000", FITS),
    (f"{FIRST} siding 1001", BEYOND),
    (f"{FIRST} siding 801 a", BEYOND),
    (f"{FIRST} siding 801", FITS),
    (f"{FIRST} {WEST} 1000 b", FITS),
    (f"{FIRST} {WEST} 800 a", FITS),
    # Over turnout 1, which is closed: a part of it is in main.
    (f"{FIRST} {WEST} 801 a", FITS),
    (f"{FIRST} {WEST} 999 a", FITS),
    (f"{FIRST} {WEST} 1000 a", BEYOND),
    (f"{FIRST} main 1 b", FITS),
    (f"{FIRST} main 0 b", BEYOND),
    (f"{FIRST} {WEST} 0 a", FITS),
    # One to seven digits.
    (f"{FIRST} siding 0000800 a", FITS),
    (f"{FIRST} siding 00000800 a", NO_NUMBER),
    (f"{FIRST} siding 9999999 a", BEYOND),
    (f"{FIRST} siding -1 a", NO_NUMBER),
    (f"{FIRST} siding", NO_NUMBER),
    (f"{FIRST} siding a", NO_NUMBER),
    (f"{FIRST} siding 800 A", "ERROR no end a or b"),
    (f"{FIRST} siding 800 a b", "ERROR no end a or b"),
    # Names count as a whole, and as they are spelled.
    (f"{FIRST} {WEST[:-1]} 500", "ERROR no such block"),
    (f"{FIRST} {WEST}s 500", "ERROR no such block"),
    (f"{FIRST} {WEST.upper()} 500", "ERROR no such block"),
    (f"{FIRST[:-1]} siding 500", "ERROR no such train"),
    (f"{FIRST}s siding 500", "ERROR no such train"),
    # A decoder without a train.
    ("turnouts siding 500", "ERROR no such train"),
]


def places_that_fit():
    """PLACE: a train that just fits at either end, and one millimetre beyond; the end that it faces; the longest names"""
    with files(STATION_ROSTER, STATION) as words, serve(*words, "--turns", "0") as server, Client(server) as client:
        answers(client, [f"PLACE {FIRST} siding 500 a"])
        for place, wanted in PLACES:
            found = [line for line in answers(client, [f"PLACE {place}"]) if not line.startswith("RECEIVE ")]
            same(place, found, [f"PLACE {wanted}"])


def missed_pauses():
    """--plan --lose: a train whose decoder misses the stop of a pause runs on, until it hears one"""
    roster = [loco(FIRST, 1, CV29[126]), *STATION_ROSTER[-1:]]
    plan = [*STATION[:-3], train(FIRST, "main", 500, "b", 200, 65535)]
    with files(roster, plan) as words, serve(*words, "--turns", "0", "--lose", "99") as server, Client(server) as client:

        def motion():
            client.write(["NODES"])
            return client.lines_until("NODES OK")[0].split()[5]

        answers(client, [*send(POWER_ON), *driven(1, *FORWARD)])
        while motion() != "step":
            answers(client, ["TURNS 1"])
        # A broadcast stop, 00 51 51, lasts 6,636 microseconds: 21 ones of 116 and 21 zeros of 200. So a train goes 434 mm in
        # its turn, at 65,535 mm/s, and 1,700 mm in four of them.
        answers(client, send(PAUSE))
        reports, turns = [], 0
        while motion() == "step" and turns < 2000:
            reports += reports_in(answers(client, ["TURNS 4"]))
            turns += 4
        holds(f"turns in which it ran: {turns}", turns >= 40)
        # It leaves a block of 1000 mm as often as it comes into one.
        within("reports", 2 * (0.434 * (turns - 5) - 2), len(reports), 2 * (0.434 * turns + 2))
        same("reports after the stop", reports_in(answers(client, ["TURNS 100"])), [])
        same("its motion", motion(), "emergency")
