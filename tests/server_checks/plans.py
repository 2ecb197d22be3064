"""Texts of plans: the first fault of each, by docs/RAILWAY.md, and the plans of examples/."""

import resource
import tempfile

from server_checks.common import POWER_OFF, POWER_ON, holds, receive, run, same, send, serve
from server_checks.railway import INTERROGATION, OVAL, drive, report, reports_in
from server_checks.trains import CV29, FORWARD, answers, block, drive_all, files, joint, loco, logged, train
from serving import Client

ROSTER = """version = 2
[[node]]
name = "express"
kind = "loco"
cvs = [[1, 3], [29, 6]]
[[node]]
name = "turnouts"
kind = "accessory"
module = 1
"""

# An oval with a passing siding, without its train.
TRACK = """version = 1
[[block]]
name = "west"
length = 1000
sensor = 1
[[block]]
name = "main"
length = 1000
sensor = 2
[[block]]
name = "siding"
length = 1000
sensor = 3
[[block]]
name = "east"
length = 1000
sensor = 4
[[block]]
name = "back"
length = 1000
sensor = 5
[[turnout]]
switch = 1
common = "west.b"
closed = "main.a"
thrown = "siding.a"
[[turnout]]
switch = 2
common = "east.a"
closed = "main.b"
thrown = "siding.b"
[[joint]]
ends = ["east.b", "back.a"]
[[joint]]
ends = ["back.b", "west.a"]
"""
TRAIN = '[[train]]\ndecoder = "express"\nblock = "main"\nfront = 600\nfacing = "b"\nlength = 200\nspeed = 300\n'
# Behind a front in the siding the track ends after 600 mm: turnout 1 is closed.
LONG_TRAIN, BLOCK_6 = TRAIN.replace("main", "siding").replace("200", "601"), '[[block]]\nname = "x"\nlength = '
BLOCKS_6_AND_7 = BLOCK_6 + "1000\n" + BLOCK_6.replace("x", "y") + "1000\n"
TIMED_TURNOUT = '[[turnout]]\nswitch = 3\ncommon = "west.a"\nclosed = "west.b"\nthrown = "main.b"\ntime = '
LONE_TURNOUT = '[[turnout]]\nswitch = 5\ncommon = "x.a"\nclosed = "x.b"\nthrown = "y.a"\n'

# At 50,000 mm/s a train goes 537 mm in a turn of 10,740 microseconds: as far as a train of 200 and a block of 337 mm are long.
FAST_TRAIN, TOO_FAST = TRAIN.replace("300", "50000"), "train 1 (express): too fast for the shortest block (block x)"

# Whole texts, and the words of their fault; none if they have none.
TEXTS = [
    ("version = 1", ""),
    (TRACK, ""),
    (TRACK + TRAIN, ""),
    # Round the oval.
    (TRACK + TRAIN.replace("200", "3999"), ""),
    (TRACK + LONG_TRAIN.replace("601", "600"), ""),
    (TRACK + TRAIN.replace("600", "1"), ""),
    (TRACK + BLOCK_6 + "338\n" + FAST_TRAIN, ""),
    (TRACK + BLOCK_6 + "337\n" + FAST_TRAIN.replace("50000", "49999"), ""),
    (TRACK + BLOCK_6 + "337\n" + FAST_TRAIN.replace("200", "201"), ""),
    (TRACK + TRAIN.replace("600", "1000"), ""),
    ("x", "line 1: it is not TOML"),
    ("version =", "line 1: it is not TOML"),
    ("", "the plan: version must be 1"),
    ("version = 2", "the plan: version must be 1"),
    ("version = 1\nnode = 1", "the plan: unknown key node"),
    ("version = 2\nblock = 1", "the plan: version must be 1"),
    ("version = 1\njoint = 1\nblock = 1", "the plan: block must be an array of tables"),
    ("version = 1\nturnout = 1\njoint = 1", "the plan: joint must be an array of tables"),
    ("version = 1\ntrain = 1\nturnout = 1", "the plan: turnout must be an array of tables"),
    ("version = 1\nblock = [1]\ntrain = 1", "the plan: train must be an array of tables"),
    ("version = 1\nblock = [1]", "block 1: it is not a table"),
    ("version = 1\n[[joint]]\nends = []\nextra = 1", "joint 1: unknown key extra"),
    # A text of 65,536 bytes.
    (TRACK + "#".ljust(65536 - len(TRACK), "#"), ""),
]

# As many blocks as a plan may have, with names as long as they may be and the last sensors, joined to a ring.
RING = [f"block-{i:026}" for i in range(64)]
RING_BLOCKS = [block(name, 100, 4033 + i) for i, name in enumerate(RING)]
RING_JOINTS = [joint(f"{name}.b", f"{RING[(i + 1) % 64]}.a") for i, name in enumerate(RING)]
RING_TRAIN = train("express", RING[63], 100, "b", 100, 1000)

# Numbers of parts of a plan, and the words of its fault: too many, or more than there are ends.
ONE_TURNOUT = f'[[turnout]]\nswitch = 1\ncommon = "{RING[0]}.b"\nclosed = "{RING[1]}.a"\nthrown = "{RING[2]}.a"\n'
COUNTS = [
    ((RING_BLOCKS, RING_JOINTS, 64 * [RING_TRAIN]), "train 1 (express): train 64 has this decoder too"),
    ((RING_BLOCKS, [block("x", 100, 1)]), "the plan: there are too many blocks"),
    ((RING_BLOCKS, 128 * RING_JOINTS[:1]), f"block 1 ({RING[0]}): end b is named twice, last by joint 128"),
    ((RING_BLOCKS, 129 * RING_JOINTS[:1]), "the plan: there are too many joints"),
    ((RING_BLOCKS, 64 * [ONE_TURNOUT]), f"block 1 ({RING[0]}): end b is named twice, last by turnout 64"),
    ((RING_BLOCKS, 65 * [ONE_TURNOUT]), "the plan: there are too many turnouts"),
    ((RING_BLOCKS, 65 * [RING_TRAIN]), "the plan: there are too many trains"),
    # They are counted before one of them is read.
    ((65 * ["[[block]]\n"], 129 * ["[[joint]]\n"]), "the plan: there are too many blocks"),
    ((64 * ["[[block]]\n"], 129 * ["[[joint]]\n"], 65 * ["[[turnout]]\n"]), "the plan: there are too many joints"),
    ((64 * ["[[block]]\n"], 65 * ["[[turnout]]\n"], 65 * ["[[train]]\n"]), "the plan: there are too many turnouts"),
    ((64 * ["[[block]]\n"], 65 * ["[[train]]\n"]), "the plan: there are too many trains"),
]

# Parts after the track, and the words of the first fault.
PARTS = [
    ("[[block]]\nlength = 1", "block 6: name must be 1 to 32 ASCII letters, digits, - or _"),
    ('[[block]]\nname = "a.b"\nlength = 1', "block 6 (a.b): name must be 1 to 32 ASCII letters, digits, - or _"),
    (f'[[block]]\nname = "{33 * "n"}"\nlength = 1', f"block 6 ({33 * 'n'}): name must be 1 to 32 ASCII letters, digits, - or _"),
    ('[[block]]\nname = ""\nlength = 1', "block 6: name must be 1 to 32 ASCII letters, digits, - or _"),
    ('[[block]]\nname = "caf\\u00e9"\nlength = 1', "block 6: name must be 1 to 32 ASCII letters, digits, - or _"),
    ('[[block]]\nname = "x"', "block 6 (x): length must be 1 to 100000"),
    ('[[block]]\nname = "x"\nlength = 0', "block 6 (x): length must be 1 to 100000"),
    ('[[block]]\nname = "x"\nlength = 100001', "block 6 (x): length must be 1 to 100000"),
    ('[[block]]\nname = "x"\nlength = 1\nsensor = 0', "block 6 (x): sensor must be 1 to 4096"),
    ('[[block]]\nname = "x"\nlength = 1\nsensor = 4097', "block 6 (x): sensor must be 1 to 4096"),
    ('[[block]]\nname = "x"\nlength = 1\na = [0, 10001]', "block 6 (x): a must be two numbers from -10000 to 10000"),
    ('[[block]]\nname = "x"\nlength = 1\na = [-10001, 0]', "block 6 (x): a must be two numbers from -10000 to 10000"),
    ('[[block]]\nname = "x"\nlength = 1\nb = [1, 2, 3]', "block 6 (x): b must be two numbers from -10000 to 10000"),
    ('[[block]]\nname = "x"\nlength = 1\ncolour = 1', "block 6 (x): unknown key colour"),
    ('[[joint]]\nends = ["main.b"]', "joint 3: ends must be two ends of blocks"),
    ('[[joint]]\nends = ["main.b", "main.c"]', "joint 3: ends: no block has the end main.c"),
    ('[[joint]]\nends = ["main.b", "mai.a"]', "joint 3: ends: no block has the end mai.a"),
    ("[[turnout]]\nswitch = 0\ncommon = 1", "turnout 3: switch must be 1 to 2040"),
    ("[[turnout]]\nswitch = 2041\ncommon = 1", "turnout 3: switch must be 1 to 2040"),
    ("[[turnout]]\nswitch = 3\ncommon = 1", "turnout 3: common must be an end of a block"),
    ('[[turnout]]\nswitch = 3\ncommon = "west.a"\nclosed = "west.b"', "turnout 3: thrown must be an end of a block"),
    ('[[turnout]]\nswitch = 3\ncommon = "west.a"\nclosed = "back.c"', "turnout 3: closed: no block has the end back.c"),
    (TIMED_TURNOUT + "-1", "turnout 3: time must be 0 to 10000"),
    (TIMED_TURNOUT + "10001", "turnout 3: time must be 0 to 10000"),
    (TIMED_TURNOUT + "true", "turnout 3: time must be 0 to 10000"),
    (TIMED_TURNOUT + "0\nfeedback = 1", "turnout 3: feedback must be true or false"),
    ("[[train]]", "train 1: decoder must be a name of the roster"),
    ("[[train]]\ndecoder = 3", "train 1: decoder must be a name of the roster"),
    ('[[train]]\ndecoder = "shunter"', "train 1 (shunter): the roster has no decoder of this name"),
    ('[[train]]\ndecoder = "express"\nblock = "loop"', "train 1 (express): no block has the name loop"),
    ('[[train]]\ndecoder = "express"\nblock = "main"\nfront = -1', "train 1 (express): front must be 0 to 100000"),
    (TRAIN.replace("600", "100001"), "train 1 (express): front must be 0 to 100000"),
    ('[[train]]\ndecoder = "express"\nblock = "main"\nfront = 1\nfacing = "c"', "train 1 (express): facing must be a or b"),
    (TRAIN.replace("length = 200", "length = 0"), "train 1 (express): length must be 1 to 65535"),
    (TRAIN.replace("length = 200", "length = 65536"), "train 1 (express): length must be 1 to 65535"),
    (TRAIN.replace("speed = 300", ""), "train 1 (express): speed must be 0 to 65535"),
    (TRAIN.replace("300", "-1"), "train 1 (express): speed must be 0 to 65535"),
    (TRAIN.replace("300", "65536"), "train 1 (express): speed must be 0 to 65535"),
    (TRAIN.replace("300", "0.5"), "train 1 (express): speed must be 0 to 65535"),
    (TRAIN + "weight = 1", "train 1 (express): unknown key weight"),
    # Parts that do not fit the others.
    ('[[block]]\nname = "main"\nlength = 1000', "block 2 (main): block 6 has this name too"),
    ('[[block]]\nname = "x"\nlength = 1000\nsensor = 1', "block 1 (west): block 6 has this sensor too"),
    ('[[joint]]\nends = ["back.b", "main.a"]', "block 5 (back): end b is named twice, last by joint 3"),
    ('[[joint]]\nends = ["west.a", "main.a"]', "block 1 (west): end a is named twice, last by joint 3"),
    ('[[joint]]\nends = ["siding.a", "siding.a"]', "block 3 (siding): end a is named twice, last by turnout 1"),
    (BLOCKS_6_AND_7 + LONE_TURNOUT, "turnout 3: no decoder of the roster has its switch"),
    (TRAIN.replace("express", "turnouts"), "train 1 (turnouts): its decoder is not of a locomotive"),
    (TRAIN + TRAIN.replace("main", "siding"), "train 1 (express): train 2 has this decoder too"),
    (TRAIN.replace("600", "0"), "train 1 (express): its front is not in its block (main)"),
    (TRAIN.replace("600", "1001"), "train 1 (express): its front is not in its block (main)"),
    (TRAIN.replace("600", "1000").replace('"b"', '"a"'), "train 1 (express): its front is not in its block (main)"),
    (LONG_TRAIN, "train 1 (express): longer than the track behind it (block siding)"),
    (BLOCK_6 + "337\n" + FAST_TRAIN, TOO_FAST),
    (BLOCK_6 + "1\n" + TRAIN.replace("300", "65535"), TOO_FAST),
    # Of two shortest blocks it names the first.
    (BLOCK_6.replace("x", "y") + "338\n" + BLOCK_6 + "337\n" + BLOCK_6.replace("x", "z") + "337\n" + FAST_TRAIN, TOO_FAST),
]


# Parts after the track with two faults or more, and the words of the first: blocks come before joints, turnouts and trains,
# whatever stands first in the text, and each key in the order of docs/RAILWAY.md.
TWO_FAULTS = [
    ('[[block]]\nname = "a.b"\nlength = 0\nsensor = 0', "block 6 (a.b): name must be 1 to 32 ASCII letters, digits, - or _"),
    (BLOCK_6 + "0\nsensor = 0\na = 1", "block 6 (x): length must be 1 to 100000"),
    (BLOCK_6 + "1\nsensor = 0\na = 1\nb = 1", "block 6 (x): sensor must be 1 to 4096"),
    (BLOCK_6 + "1\na = 1\nb = 1", "block 6 (x): a must be two numbers from -10000 to 10000"),
    (BLOCK_6 + "0\n[[block]]\nlength = 1", "block 6 (x): length must be 1 to 100000"),
    ("[[joint]]\nends = 1\n" + BLOCK_6 + "0", "block 6 (x): length must be 1 to 100000"),
    ("[[turnout]]\nswitch = 0\n[[joint]]\nends = 1", "joint 3: ends must be two ends of blocks"),
    ("[[train]]\ndecoder = 1\n[[turnout]]\nswitch = 0", "turnout 3: switch must be 1 to 2040"),
    ("[[turnout]]\nswitch = 3\ncommon = 1\nclosed = 1\nthrown = 1", "turnout 3: common must be an end of a block"),
    ('[[turnout]]\nswitch = 3\ncommon = "west.a"\nclosed = 1\nthrown = 1', "turnout 3: closed must be an end of a block"),
    (TRAIN.replace("express", "local").replace("main", "loop"), "train 1 (local): the roster has no decoder of this name"),
    (TRAIN.replace("main", "loop").replace("600", "-1"), "train 1 (express): no block has the name loop"),
    (TRAIN.replace("600", "-1").replace('"b"', '"c"'), "train 1 (express): front must be 0 to 100000"),
    (TRAIN.replace('"b"', '"c"').replace("200", "0"), "train 1 (express): facing must be a or b"),
    (TRAIN.replace("200", "0").replace("300", "-1"), "train 1 (express): length must be 1 to 65535"),
    (TRAIN + TRAIN.replace("300", "-1") + TRAIN.replace("600", "-1"), "train 2 (express): speed must be 0 to 65535"),
    # A name that is given twice hides an end.
    (BLOCK_6.replace("x", "main") + '1000\n[[joint]]\nends = ["mian.a", "back.b"]', "block 2 (main): block 6 has this name too"),
    # Parts that do not fit the others.
    (BLOCK_6.replace("x", "west") + "1000\nsensor = 1", "block 1 (west): block 6 has this name too"),
    (BLOCK_6.replace("x", "main") + "1000\nsensor = 1", "block 2 (main): block 6 has this name too"),
    (BLOCK_6.replace("x", "main") + '1000\n[[joint]]\nends = ["back.b", "west.a"]', "block 2 (main): block 6 has this name too"),
    (BLOCK_6 + "1000\n" + LONE_TURNOUT.replace("y.a", "west.b"), "block 1 (west): end b is named twice, last by turnout 3"),
    (BLOCKS_6_AND_7 + LONE_TURNOUT + LONG_TRAIN, "turnout 3: no decoder of the roster has its switch"),
    (LONG_TRAIN.replace("express", "turnouts"), "train 1 (turnouts): its decoder is not of a locomotive"),
    (LONG_TRAIN.replace("600", "1001"), "train 1 (express): its front is not in its block (siding)"),
    (TRAIN.replace("600", "1001") + LONG_TRAIN, "train 1 (express): train 2 has this decoder too"),
    (BLOCK_6 + "1\n" + LONG_TRAIN.replace("300", "65535"), "train 1 (express): longer than the track behind it (block siding)"),
]


def texts():
    """Each text, and the words of its fault."""
    yield from TEXTS
    for parts, fault in COUNTS:
        yield "version = 1\n" + "".join(sum(parts, [])), fault
    for part, fault in [*PARTS, *TWO_FAULTS]:
        yield TRACK + part, fault


def plans():
    """--plan: a fault names the file and the part, with status 3; without the option nothing is reported"""
    with tempfile.NamedTemporaryFile("w") as roster, tempfile.NamedTemporaryFile("w") as plan:
        roster.write(ROSTER)
        roster.flush()
        for text, fault in texts():
            plan.seek(0)
            plan.truncate()
            plan.write(text)
            plan.flush()
            status, wrote, told = run("--port", "0", "--clients", "0", "--roster", roster.name, "--plan", plan.name)
            wanted = (3, False, f"lbserver: {plan.name}, {fault}\n") if fault else (0, True, "")
            same(f"{text[-100:]!r}", (status, wrote.startswith("listening "), told), wanted)
    with serve(*OVAL[:2], "--turns", "1", "--clients", "1") as server:
        with Client(server) as client:
            holds("no reports", not reports_in(drive(client, 1300)))


# A text whose tables take far more memory than those of a plan, and its fault.
MANY_TABLES = "version = 1\nblock = [" + 21_830 * "{}," + "]"
TOO_MANY = "the plan: there are too many blocks"
STEP = 1 << 16


def plans_without_memory():
    """--plan: a plan of more than 65,536 bytes has status 2, and one for which there is no memory status 6"""
    with tempfile.NamedTemporaryFile("w") as small, tempfile.NamedTemporaryFile("w") as plan:
        small.write("version = 1\n")
        small.flush()
        plan.write(MANY_TABLES.ljust(65_537))
        plan.flush()
        words = ["--port", "0", "--clients", "0", "--roster", "examples/oval-roster.toml", "--plan"]
        same("65,537 bytes", run(*words, plan.name), (2, "", f"lbserver: {plan.name} is too long\n"))
        plan.truncate(65_536)

        def run_with(size, file):
            limit = (size, resource.RLIM_INFINITY)
            return run(*words, file.name, preexec_fn=lambda: resource.setrlimit(resource.RLIMIT_AS, limit))

        # The least address space in which it serves, and then more and more of it.
        size = next(size for size in range(32 * STEP, 1024 * STEP, STEP) if run_with(size, small)[0] == 0)
        found = []
        while not found or found[-1][0] != 3:
            found.append(run_with(size + len(found) * STEP, plan))
        same("with little memory", set(found[:-1]), {(6, "", "lbserver: no memory\n")})
        same("with enough", found[-1], (3, "", f"lbserver: {plan.name}, {TOO_MANY}\n"))


def largest_plan():
    """--plan: 64 blocks with names of 32 bytes and sensors up to 4096, and 32 trains that move at once"""
    roster = [loco(f"loco-{i}", 1, CV29[126]) for i in range(0, 64, 2)]
    trains = [train(f"loco-{i}", RING[i], 100, "b", 50, 1000) for i in range(0, 64, 2)]
    with files(roster, [*RING_BLOCKS, *RING_JOINTS, *trains]) as words:
        with serve(*words, "--turns", "0") as server, Client(server) as client:
            every = [report(4033 + i, i % 2 == 0) for i in range(64)]
            same("all", reports_in(answers(client, send(INTERROGATION[0]))), every)
            drive_all(client, [FORWARD])
            placed = answers(client, [f"PLACE loco-{i} {RING[i]} 100 b" for i in range(0, 64, 2)])
            same("places", placed.count("PLACE OK"), 32)
            # Each front is at the end of its block. Each rear leaves it after 50 mm, 8.6 turns of 5.796 mm.
            same("fronts", answers(client, ["TURNS 1"])[:-1], [report(4033 + i, True) for i in range(1, 64, 2)])
            same("none", answers(client, ["TURNS 7"])[:-1], [])
            same("rears", answers(client, ["TURNS 1"])[:-1], [report(4033 + i, False) for i in range(0, 64, 2)])
            client.write(send(POWER_OFF))
            log = logged(server)
    same("fronts in the log", log[-4], [f"block {RING[i]} occupied (loco-{i - 1})" for i in range(1, 64, 2)])
    same("rears in the log", log[-2], [f"block {RING[i]} free" for i in range(0, 64, 2)])


# The example, how many sensors it has, and which blocks are occupied at the start.
EXAMPLES = [("oval", 5, (1, 4)), ("shuttle", 6, (1, 6))]


def interrogations():
    """--plan: an interrogation is answered by each sensor once, to all clients alike, behind the first of its requests"""
    for name, count, occupied in EXAMPLES:
        words = ["--roster", f"examples/{name}-roster.toml", "--plan", f"examples/{name}.toml"]
        with serve(*words, "--turns", "0", "--clients", "2") as server:
            with Client(server) as other, Client(server) as client:
                client.write(send(*INTERROGATION, POWER_ON))
                reports = [report(sensor, sensor in occupied) for sensor in range(1, count + 1)]
                wanted = [*receive(INTERROGATION[0]), *reports, *receive(*INTERROGATION[1:], POWER_ON)]
                same("the other client", other.lines_until(*receive(POWER_ON)), wanted)
                lines = client.lines_until(*receive(POWER_ON))
                same("the asker", [line for line in lines if line.startswith("RECEIVE")][: count + 1], wanted[: count + 1])
            same("status", server.process.wait(20), 0)
