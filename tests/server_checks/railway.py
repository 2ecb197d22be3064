"""The option --plan: what sensors report of trains and what the log says of them, worked out from examples/oval.toml and LocoNet Personal Use Edition 1.0."""

import os
import re
import subprocess
import time

from server_checks.common import (
    POWER_OFF,
    POWER_ON,
    SPEED_63,
    TAKE_3,
    USE_1,
    holds,
    is_tried_again,
    printed_after,
    program,
    receive,
    same,
    send,
    serve,
    within,
)
from serving import TOP, Client, message_hex

OVAL = ["--roster", "examples/oval-roster.toml", "--plan", "examples/oval.toml"]

# OPC_SW_REQ: turnout 2 thrown, on.
THROW_2 = message_hex(0xB0, 0x01, 0x10)

# The eight requests of an interrogation ask for turnouts 1017 to 1020. One of them is answered.
INTERROGATION = [message_hex(0xB0, sw1, sw2) for sw2 in (0x27, 0x07) for sw1 in (0x78, 0x79, 0x7A, 0x7B)]


def report(sensor, is_occupied):
    """OPC_INPUT_REP of a sensor from 1: seven bits of the address, then four, the input, the level and the control bit."""
    address, odd = divmod(sensor - 1, 2)
    return "RECEIVE " + message_hex(0xB2, address % 128, 0x40 + 0x20 * odd + 0x10 * is_occupied + address // 128)


def reports_in(lines):
    return [line for line in lines if line.startswith("RECEIVE B2")]


def drive(client, turns):
    """Takes locomotive 3 and drives at half speed for some turns, until the power is off. Returns what the client received."""
    client.write([*send(TAKE_3, USE_1, POWER_ON, SPEED_63), f"TURNS {turns}", *send(POWER_OFF)])
    return client.lines_until(*receive(POWER_OFF))


def sensors():
    """--plan: a train that leaves a block is reported, first the block that it enters, to all clients alike"""
    with serve(*OVAL, "--turns", "1", "--clients", "2") as server:
        with Client(server) as watcher, Client(server) as driver:
            # The front has 500 mm to the end of main, at 63/126 of 250 mm/s some 4 s; then 300 mm to its rear, and 900 mm of east.
            lines = drive(driver, 1300)
            same("reports", reports_in(lines), [report(3, True), report(1, False)])
            seen = watcher.lines_until(*receive(POWER_OFF))
            same("another client", reports_in(seen), reports_in(lines))
        same("status", server.process.wait(20), 0)


def without_power():
    """--plan: without track power trains stand, and then they run on from there"""
    with serve(*OVAL, "--turns", "1", "--clients", "1") as server:
        with Client(server) as driver:
            # 300 turns last 3.3 s at most, in which the front moves 403 mm of the 500 mm to the end of main.
            same("reports", reports_in(drive(driver, 300)), [])
            driver.write(["TURNS 2000", *send(POWER_ON), "TURNS 1000", *send(POWER_OFF)])
            same("reports without power", reports_in(driver.lines_until(*receive(POWER_ON))), [])
            lines = driver.lines_until(*receive(POWER_OFF))
            same("reports then", reports_in(lines), [report(3, True), report(1, False)])
        same("status", server.process.wait(20), 0)


def fast_time():
    """--rate: at rate 100 a train goes round in a hundredth of the time"""

    def go_round():
        with serve(*OVAL, "--rate", "100", "--clients", "1") as server:
            with Client(server) as client:
                client.write(send(TAKE_3, USE_1, POWER_ON, SPEED_63))
                client.lines_until(report(3, True))
                start = time.monotonic()
                for _ in range(2):
                    client.lines_until(report(3, True))
                took = time.monotonic() - start
            # Main, east, back and west are 6,300 mm; at 63/126 of 250 mm/s 50.4 s, of the clock 0.504 s.
            within("seconds for two rounds", 2 * 0.504 - 0.25, took, 2 * 0.504 + 0.25)
            same("status", server.process.wait(20), 0)

    is_tried_again(go_round)


def moves(server):
    """The lines of blocks and trains of the log, once the power is off."""
    lines = printed_after(server, f"message {POWER_OFF}  track power off")
    return [line for line in lines if line.split()[0] in ("block", "derailed", "conflict")]


def conflicts():
    """--plan: the log has blocks that become occupied and free, and two trains in a block"""
    with serve(*OVAL, "--turns", "1", "--clients", "1") as server:
        with Client(server) as driver:
            # At 125 mm/s the front is in east after 500 mm and in back after 1700, the rear leaves main after 800 and east
            # after 2000: 16 s, of 2900 turns of at least 5.796 ms. They last 31.2 s at most, and back ends after 4100 mm.
            drive(driver, 2900)
            wanted = ["block east occupied (shunter)", "block main free", "conflict back: shunter, express", "block east free"]
            same("the log", moves(server), wanted)


def derailments():
    """--plan: the log has a train that meets a turnout that lies against it, once"""
    with serve(*OVAL, "--turns", "1", "--clients", "1") as server:
        with Client(server) as driver:
            driver.write(send(POWER_ON, THROW_2))
            driver.lines_until("SENT OK")
            drive(driver, 1300)
            same("the log", moves(server), ["derailed shunter at turnout 2"])


def placements():
    """--plan: PLACE puts a derailed train back, which drives on; the asker alone receives the answer, all the reports"""
    with serve(*OVAL, "--turns", "1", "--clients", "2") as server:
        with Client(server) as watcher, Client(server) as driver:
            driver.write(send(POWER_ON, THROW_2))
            driver.lines_until("SENT OK")
            drive(driver, 1300)
            driver.lines_until("SENT OK")
            # The shunter is 300 mm long and faces end b of main, which turnout 2 does not lead on from. Blocks main and
            # siding are 1500 mm long, and have sensors 1 and 2.
            for words, answer in (
                ("local siding 1000", "ERROR no such train"),
                ("shunter yard 1000", "ERROR no such block"),
                ("shunter siding 299", "ERROR the train does not fit there"),
                ("shunter siding 1501 b", "ERROR the train does not fit there"),
                ("shunter main 1201 a", "ERROR the train does not fit there"),
                ("shunter siding far", "ERROR no number of millimetres"),
                ("shunter siding 1000 c", "ERROR no end a or b"),
                ("shunter siding 1000", "OK"),
            ):
                driver.write([f"PLACE {words}"])
                same(words, driver.line(), f"PLACE {answer}")
            same("reports", [driver.line(), driver.line()], [report(2, True), report(1, False)])
            # Turnout 2 leads from siding to east, as from main in `sensors`.
            lines = drive(driver, 1300)
            same("reports then", reports_in(lines), [report(3, True), report(2, False)])
            seen = watcher.lines_until(report(2, False))
            same("another client", reports_in(seen), [report(2, True), report(1, False), report(3, True), report(2, False)])
            same("its answers", [line for line in seen if line.startswith("PLACE")], [])
        same("status", server.process.wait(20), 0)
        # Blocks that change at once stand in the plan's order.
        wanted = [
            "derailed shunter at turnout 2",
            "block main free",
            "block siding occupied (shunter)",
            "block east occupied (shunter)",
            "block siding free",
        ]
        same("the log", moves(server), wanted)
    with serve(*OVAL[:2], "--clients", "1") as server:
        with Client(server) as client:
            client.write(["PLACE shunter siding far"])
            same("without a plan", client.line(), "PLACE ERROR no plan")


def shuttle():
    """--plan: examples/shuttle.py drives ten minutes of track time without a conflict, and then finds the one that it makes"""
    done = subprocess.run(
        ["examples/shuttle.py", "10"],
        cwd=TOP,
        env={**os.environ, "LBSERVER": program["path"]},
        capture_output=True,
        text=True,
        timeout=50,
    )
    same("status", (done.returncode, done.stderr), (0, ""))
    laps, wrong = done.stdout.splitlines()
    holds(f"laps without a conflict: {laps}", re.fullmatch("[1-9][0-9]* laps, 0 conflicts", laps))
    same("the conflict", wrong, "turnout 1 wrong: conflict down: local, express")
