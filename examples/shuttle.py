#!/usr/bin/env python3
"""Two trains on a single line with a passing siding, driven by sensors alone: an hour of track time in 36 seconds.

    examples/shuttle.py [MINUTES]

Each brakes once it has left the line. At the end the local is sent to the track where the express stands."""
import sys
import time
from pathlib import Path

HERE = Path(__file__).resolve().parent
sys.path.insert(0, str(HERE.parent / "bindings/python"))
from station.lbserver import Server  # noqa: E402

WEST, EAST = 2, 5  # the sensors of the single line on both sides of the siding
# A lap in four legs: whether turnouts 1 and 2 are thrown, whether trains run forward, and which line each train passes.
IN, ON = ((False, True), True, (WEST, EAST)), ((True, False), True, (EAST, WEST))
LAP = IN, ON, ((True, False), False, (EAST, WEST)), ((False, True), False, (WEST, EAST))


def run(client, locos, thrown, forward, lines):
    """Lays the turnouts, and lets each train run until all of it has left its line. A train without one stands."""
    for turnout, is_thrown in zip(map(client.turnout, (1, 2)), thrown):
        turnout.throw() if is_thrown else turnout.close()
        turnout.off()
    under_way = {line: loco for line, loco in zip(lines, locos) if line}
    for loco in under_way.values():
        loco.forward(forward)
        loco.speed(126)
    while under_way and (report := client.sensor_report()):
        if report.sensor in under_way and not report.occupied:
            under_way.pop(report.sensor).speed(0)


options = "--plan", str(HERE / "shuttle.toml"), "--rate", "100"
with Server(*options, roster=str(HERE / "shuttle-roster.toml")) as server, server.client() as client:
    client.power_on()
    locos = client.loco(3), client.loco(5)  # the local and the express
    for loco in locos:
        loco.take()
    laps, end = 0, time.monotonic() + 60 / 100 * float(sys.argv[1] if sys.argv[1:] else 60)
    while time.monotonic() < end:
        for leg in LAP:
            run(client, locos, *leg)
        laps += 1
    client.sync()  # the log has all that happened
    print(f"{laps} laps, {len(found := server.conflicts() + server.derailments())} conflicts", *found, sep="\n")
    for leg in (IN, ((False, True), False, (WEST, None)), ((True, True), True, (WEST, None))):
        run(client, locos, *leg)  # in the last one turnout 1 is wrong
    print("turnout 1 wrong:", server.wait_for("conflict down: local, express"))
