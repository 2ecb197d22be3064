"""Sensors and turnouts that fail on request, by docs/RAILWAY.md, on the plan of examples/oval.toml."""

from server_checks.common import POWER_ON, same, send, serve
from server_checks.railway import INTERROGATION, OVAL, THROW_2, drive, moves, report, reports_in
from serving import Client, message_hex

# OPC_SW_REQ: turnout 2 thrown, off.
THROW_2_OFF = message_hex(0xB0, 0x01, 0x00)

# What follows FAIL, and the answer with a plan of the sensors 1 to 5 and the turnouts 1 and 2.
REFUSED = [
    ("", "no such failure"),
    ("sensor", "no such failure"),
    ("sensor 3", "no such failure"),
    ("sensor 3 high", "no such failure"),
    ("sensor 3 on on", "no such failure"),
    ("turnout", "no such failure"),
    ("turnout 2 on", "no such failure"),
    ("sensor 3 on" + " " * 400, "no such failure"),
    ("sensor 6 on", "no such sensor"),
    ("sensor 0 off", "no such sensor"),
    ("sensor 65539 on", "no such sensor"),
    ("sensor three on", "no such sensor"),
    ("turnout 3", "no such turnout"),
    ("turnout 65538", "no such turnout"),
    ("turnout two", "no such turnout"),
    ("programming", "no programming track"),
]


def fail(client, words, answer="OK"):
    """A failure is answered to its asker. What sensors report of it follows."""
    client.write([f"FAIL {words}"])
    same(f"FAIL {words}", client.line(), f"FAIL {answer}")


def failing_sensors():
    """--plan: sensors that fail report their level, to all clients alike, while trains run on, until all failures end"""
    with serve(*OVAL, "--turns", "1", "--clients", "2") as server:
        with Client(server) as watcher, Client(server) as driver:
            # The siding is free, and so is east at the start.
            fail(driver, "sensor 2 on")
            same("the report", driver.line(), report(2, True))
            fail(driver, "sensor 3 off")
            fail(driver, "sensor 2 on")
            # As in `sensors` the shunter enters east and leaves main.
            lines = drive(driver, 1300)
            same("reports", reports_in(lines), [report(1, False)])
            driver.lines_until("SENT OK")
            driver.write(send(INTERROGATION[0]))
            driver.lines_until("SENT OK")
            levels = [report(sensor, sensor in (2, 4)) for sensor in range(1, 6)]
            same("an interrogation", [driver.line() for _ in levels], levels)
            fail(driver, "sensor 4 off")
            same("of another", driver.line(), report(4, False))
            fail(driver, "none")
            ended = [report(3, True), report(4, True), report(2, False)]
            same("reports then", [driver.line() for _ in ended], ended)
            fail(driver, "none")
            seen = watcher.lines_until(report(2, False))
            wanted = [report(2, True), report(1, False), *levels, report(4, False), *ended]
            same("another client", reports_in(seen), wanted)
            same("its answers", [line for line in seen if line.startswith("FAIL")], [])
        same("status", server.process.wait(20), 0)
        same("the log", moves(server), ["block east occupied (shunter)", "block main free"])


def turnouts(client):
    """How the turnouts lie."""
    client.write(["TURNOUTS"])
    return [line for line in client.lines_until("TURNOUTS OK") if line.startswith("TURNOUT ")]


def failing_turnouts():
    """--plan: a turnout that fails stays as it lies, for trains too, and after the failure until an output comes on"""
    with serve(*OVAL, "--turns", "1", "--clients", "1") as server, Client(server) as client:
        fail(client, "turnout 2")
        client.write([*send(POWER_ON, THROW_2), "TURNS 20"])
        client.lines_until("TURNS OK")
        closed = ["TURNOUT 1 closed", "TURNOUT 2 closed"]
        same("failing", turnouts(client), closed)
        # It leads the shunter to east, as in `sensors`.
        same("reports", reports_in(drive(client, 1300)), [report(3, True), report(1, False)])
        client.lines_until("SENT OK")
        fail(client, "none")
        client.write([*send(POWER_ON), "TURNS 20"])
        client.lines_until("TURNS OK")
        same("afterwards", turnouts(client), closed)
        client.write([*send(THROW_2_OFF), "TURNS 20", *send(THROW_2), "TURNS 20"])
        client.lines_until("TURNS OK")
        client.lines_until("TURNS OK")
        same("asked again", turnouts(client), ["TURNOUT 1 closed", "TURNOUT 2 thrown"])


def refused_failures():
    """--plan: failures that cannot be are refused with the reason; without a plan sensors and turnouts are"""
    with serve(*OVAL, "--clients", "1") as server, Client(server) as client:
        for words, reason in REFUSED:
            fail(client, words, f"ERROR {reason}")
    with serve(*OVAL[:2], "--clients", "1") as server, Client(server) as client:
        for words in ("sensor 3 on", "turnout 2"):
            fail(client, words, "ERROR no plan")
        fail(client, "none")
