"""Stations with decoders, by `station replay`: what reaches them over the track, and long traffic cut anywhere."""

import concurrent.futures

from process_checks.common import compare, file_of, run
from process_checks.conversations import IDLE, IN_USE, POWER_ON
from serving import message_bytes

ACCESSORY = "{name = 'yard', kind = 'accessory', module = 1}"
# SPD 40 in slot 1, and DIRF 20: the other direction.
DRIVE, TURN_ROUND = "A0 01 40 1E", "A1 01 20 7F"
DRIVEN = "step 63 of 128"
SPEED_PACKET = "03 3F C0 FC"
CYCLE = [SPEED_PACKET, IDLE, SPEED_PACKET, IDLE, "03 80 83", IDLE, "03 80 83", IDLE]
CYCLE += ["03 B0 B3", IDLE, "03 B0 B3", IDLE, "03 A0 A3", IDLE, "03 A0 A3", IDLE]


def loco(name, cv29, address=3):
    return f"{{name = '{name}', kind = 'loco', cv1 = {address}, cv29 = {cv29}}}"


def send(*messages):
    return [f"line 0 {text}" for text in messages]


def by_byte(message, turns):
    """A message byte by byte, with so many turns after each."""
    return [line for byte in message.split() for line in (f"line 0 {byte}", *[f"turn {turns}"] * (turns > 0))]


def state(name, motion, direction="forward", functions="0000000000000"):
    return f"node {name} short 3 {motion} {direction} F {functions}"


STOPS = state("a", "stop")

# Decoders, a script, and the lines of decoders and packets that it prints, from the first on.
STORIES = [
    (
        "one misses the two speed packets",
        [loco("a", 2), loco("b", 2)],
        [*send(*IN_USE, DRIVE), "show", "turn 1 miss 1", "turn 1", "turn 1 miss 1", "turn 13", "show"],
        [STOPS, state("b", "stop"), *CYCLE, state("a", DRIVEN), state("b", "stop")],
    ),
    (
        "one is turned round",
        [loco("a", 2), loco("b", 3)],
        [*send(*IN_USE, DRIVE, TURN_ROUND), "turn 1", "show"],
        ["03 3F 40 7C", state("a", DRIVEN, "reverse"), state("b", DRIVEN)],
    ),
    (
        "all miss all turns",
        [loco("a", 2), loco("b", 3)],
        [*send(*IN_USE, DRIVE, TURN_ROUND), "turn 1 miss 0 1", "show"],
        ["03 3F 40 7C", STOPS, state("b", "stop")],
    ),
    (
        "F9",
        [loco("a", 2)],
        [*send(*IN_USE, "ED 0B 7F 23 22 03 21 00 00 00 45"), "turn 12", "show", "turn 4", "show"],
        [*["03 3F 80 BC", IDLE] * 2, *CYCLE[4:12], STOPS, *["03 A1 A2", IDLE] * 2, state("a", "stop", functions="0000000001000")],
    ),
    # The second turn is idle.
    (
        "a switch request that is missed, and its repetition",
        [ACCESSORY],
        [*send(POWER_ON, "B0 00 30 7F"), "show", "turn 1 miss 0", "turn 1", "show", "turn 1", "show", "turn 1", "show"],
        [
            "node yard module 1 outputs 00000000",
            *("81 F9 78", IDLE, "node yard module 1 outputs 00000000"),
            *("81 F9 78", "node yard module 1 outputs 01000000"),
            *(IDLE, "node yard module 1 outputs 01000000"),
        ],
    ),
    (
        "a switch request",
        [ACCESSORY],
        [*send(POWER_ON, "B0 00 30 7F"), "turn 1", "show"],
        ["81 F9 78", "node yard module 1 outputs 01000000"],
    ),
    # The same bytes are step 14 of 28, and step 7 of 14 with F0.
    (
        "28 steps",
        [loco("a", 2)],
        [*send(*IN_USE, DRIVE), "turn 1", *send("B5 01 30 7B"), "turn 2", "show"],
        [SPEED_PACKET, IDLE, "03 78 7B", state("a", "step 14 of 28")],
    ),
    (
        "14 steps",
        [loco("a", 0)],
        [*send(*IN_USE, "B5 01 32 79", DRIVE), "turn 1", *send("A1 01 10 4F"), "turn 2", "show"],
        ["03 68 6B", IDLE, "03 78 7B", state("a", "step 7 of 14", functions="1000000000000")],
    ),
]


def printed(decoders, script):
    """The lines of decoders and packets that a script prints."""
    with file_of(f"version = 1\nnode = [{', '.join(decoders)}]".encode()) as roster:
        status, wrote, told = run("station", ["replay", "--roster", roster], "".join(f"{line}\n" for line in script).encode())
    compare("the status", (status, told), (0, b""))
    lines = [line for line in wrote.decode().splitlines() if not line.startswith("reply ")]
    return [line.split(" ", 2)[2] if line.startswith("track ") else line for line in lines]


def try_checks():
    """A wrong check has no effect and the right one has, without turns between the bytes and with one after each."""
    for turns in (0, 1):
        script = [*send(*IN_USE), *by_byte("A0 01 40 1F", turns), "turn 16", "show", *by_byte(DRIVE, turns), "turn 16", "show"]
        found = [line for line in printed([loco("a", 2)], script) if line.startswith("node ")]
        compare(f"a wrong check, with {turns} turns", found, [STOPS, state("a", DRIVEN)])


# Slot 119 is in use, and driven.
DRIVE_119 = [POWER_ON, "BA 77 77 45", "A0 77 40 68"]
ROUNDS, SLOTS = 16, 119


def message(*body):
    return message_bytes(*body).hex(" ").upper()


LOADS = [message(0xBF, 0, address) for address in range(1, SLOTS + 1)]


def traffic(kind, place):
    """The message of a round of traffic: a slot starts, runs, reverses, becomes common, is freed, and is loaded."""
    slot = place or SLOTS - 1
    bodies = [(0xBA, slot, slot), (0xA0, slot, slot), (0xA1, slot, 0x3F), (0xB5, slot, 0x13), (0xB5, slot, 0x03), (0xBF, 0, slot)]
    return message(*bodies[kind % 6])


def rounds(lines_of):
    """Sixteen turns for each of 119 slots, with a message to one of the slots 1 to 118 before each."""
    return [line for kind in range(ROUNDS) for place in range(SLOTS) for line in (*lines_of(traffic(kind, place)), "turn 1")]


def try_traffic():
    """Traffic on every other slot stops no refresh, and messages that end anywhere leave no trace."""
    script = [*send(*LOADS, *DRIVE_119), *rounds(send), "show"]
    found = printed([loco("last", 2, SLOTS)], script)
    compare("traffic", (len(found), found[-1]), (ROUNDS * SLOTS + 1, f"node last short 119 {DRIVEN} forward F 0000000000000"))

    def cut(text):
        """A message that ends after each of its bytes but the last, where power comes on, and then the whole."""
        parts = text.split()
        return [line for length in range(len(parts)) for line in send(" ".join([*parts[:length], POWER_ON]))] + send(text)

    reads = send(*(message(0xBB, slot, 0) for slot in range(1, SLOTS + 1)))
    outputs = []
    for lines_of in (send, cut):
        text = "".join(f"{line}\n" for line in [*send(*LOADS, *DRIVE_119), *rounds(lines_of), *reads])
        outputs.append(run("station", ["replay"], text.encode()))
    compare("messages that end anywhere", outputs[0] == outputs[1], True)
    compare("the lines of the traffic", (outputs[0][0], outputs[0][1].count(b"\n") > ROUNDS * SLOTS + SLOTS), (0, True))


def try_fronts():
    """The first round of that traffic ends after any byte, and then power comes on without a reply."""
    before = " ".join([*LOADS, *DRIVE_119]).split()
    messages = [traffic(0, place).split() for place in range(SLOTS)]
    fronts = [send(*[" ".join(before[:length])] * (length > 0)) for length in range(len(before))]
    lines = send(" ".join(before))
    for parts in messages:
        fronts += [lines + send(*[" ".join(parts[:length])] * (length > 0)) for length in range(4)]
        lines = [*lines, *send(" ".join(parts)), "turn 1"]
    fronts.append(lines)

    def comes_on(front):
        text = "".join(f"{line}\n" for line in [*front, "turn 1", *send(POWER_ON), "turn 1"])
        status, wrote, _ = run("station", ["replay"], text.encode())
        last = wrote.decode().splitlines()[-2:]
        return status == 0 and [line.split()[0] for line in last] == ["track", "track"] and not last[1].endswith("off")

    with concurrent.futures.ThreadPoolExecutor(4) as pool:
        failed = [front[-2:] for front, is_on in zip(fronts, pool.map(comes_on, fronts)) if not is_on]
    compare(f"{len(fronts)} fronts after which power does not come on", failed, [])


def try_layouts():
    """Stories, and traffic."""
    for name, decoders, script, lines in STORIES:
        compare(name, printed(decoders, script), lines)
    try_checks()
    try_traffic()
    try_fronts()
    print("station: layouts, and traffic that ends anywhere")
