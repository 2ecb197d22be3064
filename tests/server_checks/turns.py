"""The options --turns, --track and --roster: exact lines, worked out from docs/SENDING.md and docs/DCC.md."""

import contextlib
import time

from server_checks.common import (
    LAYOUT,
    POWER_OFF,
    POWER_ON,
    SHUNTER,
    SLOT_1_IDLE,
    SLOT_1_IN_USE,
    SPEED_63,
    TAKE_3,
    USE_1,
    holds,
    is_tried_again,
    printed_after,
    receive,
    same,
    send,
    serve,
    turns_of,
    within,
)
from serving import Client, Page

# A run with three turns after each message, by docs/SENDING.md and docs/DCC.md: what is sent, what its client receives, and
# what is printed. A turn without power and one of an idle packet are counted, and not printed.
REPLY_1 = f"message {SLOT_1_IDLE}  slot 1: locomotive 3, idle, 128 steps, stop, forward; track off"
REPLY_2 = f"message {SLOT_1_IN_USE}  slot 1: locomotive 3, in use, 128 steps, stop, forward; track on"
THREE_TURNS = [
    # Turns 1 to 3 have no power, 4 to 6 nothing to send.
    (TAKE_3, [SLOT_1_IDLE], ["message BF 00 03 43  take locomotive 3", REPLY_1]),
    (POWER_ON, [], ["message 83 7C  track power on"]),
    # The four places of the slot wait. After one of them comes the ring, which waits for a turn to the same address.
    (USE_1, [SLOT_1_IN_USE], ["message BA 01 01 45  use slot 1", REPLY_2, "track 7 03 3F 80 BC", "track 9 03 3F 80 BC"]),
    # The speed is queued after groups one, two and three.
    (SPEED_63, [], ["message A0 01 40 1E  slot 1: speed 63 of 126", "track 11 03 80 83"]),
    # Switch 0 is thrown: output 0 of module 1.
    ("B0 00 10 5F", [], ["message B0 00 10 5F  turnout 1 thrown, on", "track 13 03 80 83", "track 15 03 B0 B3"]),
    # Reverse, F0 on: the speed keeps its place before the switch, and group one is queued after it.
    ("A1 01 30 6F", [], ["message A1 01 30 6F  slot 1: F0 to F4: F0 on, reverse", "track 17 03 B0 B3"]),
    (POWER_ON, [], ["message 83 7C  track power on", "track 19 03 A0 A3", "track 21 03 A0 A3"]),
    (
        POWER_ON,
        [],
        ["message 83 7C  track power on", "track 23 03 3F 40 7C", "node shunter short 3 step 63 of 128 reverse F 0000000000000"],
    ),
    (
        POWER_ON,
        [],
        [
            "message 83 7C  track power on",
            "track 25 03 3F 40 7C",
            "track 26 81 F8 79",
            "node yard module 1 outputs 10000000",
            "track 27 03 90 93",
            "node shunter short 3 step 63 of 128 reverse F 1000000000000",
        ],
    ),
    (POWER_ON, [], ["message 83 7C  track power on", "track 28 81 F8 79", "track 29 03 B0 B3"]),
]


def run_three_turns(pause, *words):
    """Plays the run, with a pause between its messages. Returns the lines that were printed after the first."""
    with serve(*LAYOUT, "--turns", "3", "--clients", "1", *words) as server:
        with Client(server) as client:
            for text, replies, _ in THREE_TURNS:
                client.write(send(text))
                for line in [*receive(text), "SENT OK", *receive(*replies)]:
                    same(f"after {text}", client.line(), line)
                time.sleep(pause)
        same("status", server.process.wait(20), 0)
        same("standard error", server.faults.read_text(), "")
        return server.printed()[1:]


def three_turns():
    """--turns 3 with a roster and --track: the lines of its client and of standard output, and without --track"""
    lines = [line for _, _, lines in THREE_TURNS for line in lines]
    wanted = ["client 1 joins", *lines, "client 1 leaves"]
    same("printed with --track", run_three_turns(0, "--track"), wanted)
    same("printed with --track, and time between", run_three_turns(0.03, "--track"), wanted)
    same("printed without --track", run_three_turns(0), [line for line in wanted if not line.startswith("track ")])


IDLE_MICROS = 5796


def micros_of(packet):
    """The duration of a packet, by S-9.1: 14 ones, a zero before each byte, and a one; 116 and 200 microseconds."""
    bits = "".join(f"0{int(byte, 16):08b}" for byte in packet.split())
    return 116 * (15 + bits.count("1")) + 200 * bits.count("0")


def clock_text(micros):
    seconds, millis = divmod(micros // 1000, 1000)
    return f"{seconds // 3600}:{seconds // 60 % 60:02}:{seconds % 60:02}.{millis:03}"


def times():
    """--times: each line begins with the track time at which its turn began, and without it none does"""
    lines = [line for _, _, lines in THREE_TURNS for line in lines]
    durations = {int(line.split()[1]): micros_of(line.split(" ", 2)[2]) for line in lines if line.startswith("track ")}
    wanted = ["0:00:00.000 client 1 joins"]
    for i, (_, _, lines) in enumerate(THREE_TURNS):
        turn = 3 * i
        for line in lines:
            turn = int(line.split()[1]) if line.startswith("track ") else turn
            wanted.append(f"{clock_text(sum(durations.get(k, IDLE_MICROS) for k in range(turn)))} {line}")
    found = run_three_turns(0, "--track", "--times")
    same("printed", found[:-1], wanted)
    # Turn 0 and six turns of idle packets or none come before it.
    holds("the time of turn 7", "0:00:00.040 track 7 03 3F 80 BC" in found)
    holds("the last time", found[-1].startswith("0:00:00.") and found[-1].endswith(" client 1 leaves"))
    with serve("--turns", "0", "--times") as server, Client(server) as client:
        for count in range(1, 64):
            client.write(["TURNS 10000", "SEND 81 7E"])
            client.lines_until("SENT OK")
        printed = printed_after(server, f"{clock_text(630_000 * IDLE_MICROS)} message 81 7E  busy, ignored")
        same("times without power", [line.split()[0] for line in printed[1:]], [clock_text(10_000 * IDLE_MICROS * k) for k in range(1, 64)])
        same("the last", printed[-1], "1:00:51.480 message 81 7E  busy, ignored")


def times_of_the_clock():
    """--times in real time: the time passes as the clock's, with --rate 100 a hundred times as fast"""
    for rate in (1, 100):
        is_tried_again(lambda: keep_time(rate))


def keep_time(rate):
    """Compares the times of two messages with the clock."""
    with serve("--rate", str(rate), "--times") as server, Client(server) as client:
        outer = time.monotonic()
        client.send(0x82)
        inner = time.monotonic()
        time.sleep(0.3)
        least = (time.monotonic() - inner) * rate
        client.send(0x81)
        most = (time.monotonic() - outer) * rate
        holds("both are printed", server.until(lambda: len(server.printed()) == 4))
        printed = server.printed()
        hours, minutes, seconds = zip(*(map(float, line.split()[0].split(":")) for line in printed if " message " in line))
        first, last = (3600 * h + 60 * m + s for h, m, s in zip(hours, minutes, seconds))
        # The time of a line is up to two turns and a wait of the server old.
        late = 0.012 + 0.005 * rate
        within(f"seconds, --rate {rate}", least - late, last - first, most + late)


def other_turns():
    """--turns 0 runs no turn, and --turns 255 runs 255 after each message"""
    for turns in (0, 255):
        with serve("--turns", str(turns), "--track") as server, Client(server) as client:
            client.send(0x83)
            client.request(0xBF, 0, 3)
            client.request(0xBA, 1, 1)
            client.send(0x85)
            printed_after(server, "message 85 7A  stop all locomotives")
            if turns == 0:
                same("packets", turns_of(server.printed()), [])
                continue
            # The slot is refreshed after the third message, and after the fourth each turn has a broadcast stop.
            holds("the last", server.until(lambda: turns_of(server.printed())[-1:] == [4 * turns]))
            found = turns_of(server.printed())
            same("the first packet", found[0], 2 * turns + 1)
            same("the stops", found[-turns:], list(range(3 * turns + 1, 4 * turns + 1)))


# What a client of a running locomotive writes, what it receives, and how many turns have passed then. Without power turns
# are counted, and no packets are printed.
TURN_REQUESTS = [
    ("TURNS 16", ["TURNS OK"], 16),
    ("TURNS 0", ["TURNS ERROR no number from 1 to 10000"], 16),
    ("TURNS 10001", ["TURNS ERROR no number from 1 to 10000"], 16),
    ("turns 9", [], 16),
    ("TURNS 5", ["TURNS OK"], 21),
    (f"SEND {POWER_OFF}", [*receive(POWER_OFF), "SENT OK"], 21),
    ("TURNS 10000", ["TURNS OK"], 10_021),
    (f"SEND {POWER_ON}", [*receive(POWER_ON), "SENT OK"], 10_021),
    ("TURNS 4", ["TURNS OK"], 10_025),
]


def requested_turns():
    """TURNS n runs n turns in its place among the messages, is answered to its client alone, and refused in real time"""
    mark = "message 81 7E  busy, ignored"
    with serve(*LAYOUT, "--turns", "0", "--track") as server, Client(server) as client, Client(server) as other:
        client.take(3)
        client.send(0xA0, 1, 0x40)
        other.lines_until("RECEIVE A0 01 40 1E")
        for text, answers, _ in TURN_REQUESTS:
            client.write([text, "SEND 81 7E"])
            same(text, client.lines_until("SENT OK")[: len(answers)], answers)
            if text.startswith("SEND"):
                client.lines_until("SENT OK")
            heard = [line for line in answers if line.startswith("RECEIVE")] + receive("81 7E")
            same(f"{text}, the other client", [other.line() for _ in heard], heard)
        holds("each message is printed", server.until(lambda: server.printed().count(mark) == len(TURN_REQUESTS)))
        lines = "\n".join(server.printed()).split(mark)
        before = 0
        for (text, _, passed), part in zip(TURN_REQUESTS, lines):
            found = turns_of(part.splitlines())
            holds(f"{text}: turns {found} after {before}, to {passed}", all(before < turn <= passed for turn in found))
            is_run = passed > before and "10000" not in text
            holds(f"{text}: packets are printed", bool(found) == is_run)
            before = passed
        # A locomotive has settled after a full refresh cycle.
        holds("it runs after 16 turns", SHUNTER.format("step 63 of 128") in lines[0].splitlines())
    with serve(*LAYOUT, "--track") as server, Client(server) as client:
        client.write(["TURNS 10000", "TURNS x"])
        same("in real time", [client.line(), client.line()], ["TURNS ERROR real time"] * 2)


def several_clients():
    """--turns 120 and three clients that send at once: the turns after each message pass before the next, and before one joins"""
    stop, turns, count = "SEND 85 7A", 120, 10
    with serve("--turns", str(turns), "--track") as server, contextlib.ExitStack() as stack:
        clients = [stack.enter_context(Client(server)) for _ in range(3)]
        clients[0].send(0x83)
        for client in clients:
            client.write([stop] * count)
        stack.enter_context(Client(server))
        for client in clients:
            for _ in range(count):
                client.lines_until("SENT OK")
        # Each turn after the first stop has a broadcast stop, and none before it a packet to print.
        last = turns * (1 + len(clients) * count)
        holds("the last", server.until(lambda: turns_of(server.printed())[-1:] == [last]))
        lines = server.printed()
        for number, part in enumerate("\n".join(lines).split("message 85 7A  stop all locomotives")[1:], 1):
            same(f"turns after stop {number}", turns_of(part.splitlines()), list(range(turns * number + 1, turns * (number + 1) + 1)))
        before = turns_of(lines[: lines.index("client 4 joins")])
        holds(f"turns {before} before the fourth joins", not before or before[-1] % turns == 0)


def served_in_turn():
    """--turns 120 and a client that sends without a pause: another is served after each of its messages, and a third joins"""
    on, stop = "message 83 7C  track power on", "message 85 7A  stop all locomotives"

    def compete():
        with serve("--turns", "120") as server, Client(server) as busy, Client(server) as other:
            busy.write(send(*400 * [POWER_ON]))
            other.write(send(*10 * ["85 7A"]))
            for _ in range(10):
                other.lines_until("SENT OK")
            with Client(server) as third:
                third.lines_until(f"RECEIVE {POWER_ON}")
            for _ in range(400):
                busy.lines_until("SENT OK")
            log = printed_after(server, "client 3 leaves")
            stops = [number for number, line in enumerate(log) if line == stop]
            between = [log[first:last].count(on) for first, last in zip(stops, stops[1:])]
            holds(f"messages of the first between those of the other: {between}", len(stops) == 10 and max(between) <= 1)
            holds("the third joins while the first sends", on in log[log.index("client 3 joins") :])

    is_tried_again(compete)


def no_roster():
    """without a roster there are no decoders, and a page receives none"""
    with serve("--turns", "20", page=True) as server, Page(server).accepted() as page, Client(server) as client:
        client.take(3)
        client.send(0xA0, 1, 0x40)
        client.send(0x85)
        holds("NODE", not [line for line in page.lines_until("RECEIVE 85 7A") if line.startswith("NODE")])
        holds("node", not [line for line in printed_after(server, "message 85 7A  stop all locomotives") if line.startswith("node")])


def other_roster():
    """the roster that is named is taken: the names and addresses of its decoders"""
    for file, nodes in (
        ("layout", [SHUNTER.format("stop"), "node yard module 1 outputs 00000000"]),
        ("pair", [f"node {name} short 3 stop forward F 0000000000000" for name in ("hears-all", "loses-some")]),
        ("long", ["node express long 1234 stop forward F 0000000000000"]),
    ):
        with serve("--turns", "1", "--roster", f"examples/{file}.toml", page=True) as server, Page(server) as page:
            found = [page.line() for _ in range(len(nodes) + 1)]
            same(file, found, ["VERSION lbserver station", *(f"NODE {node}" for node in nodes)])
