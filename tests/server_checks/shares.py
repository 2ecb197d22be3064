"""Requested turns, and time to catch up with, run in shares: reports fit into the queue of a client that reads, which is
served between them, by docs/CLIENTS.md.
"""

import contextlib
import threading

from server_checks.common import POWER_ON, holds, is_tried_again, receive, same, send, serve, stopped
from server_checks.trains import BUSY, block, drive_all, driven, files, joint, loco, train
from serving import Client

# Twenty trains run round on forty blocks of 300 mm, 2 m a second: each is in the next block after 150 ms, and reports twice.
# In 50,000 turns of at least 5.796 ms that are more than 20 * 2 * 1,900 reports of 21 bytes, some 24 times what a queue holds.
BLOCKS, TRAINS, SPEED, FULL = 40, 20, 2000, 127
REQUESTS = 5
LEAST_REPORTS = 20 * 2 * 1_900

REPORT = "RECEIVE B2 "


def ring():
    roster = [loco(f"loco-{i}", i + 1, 2) for i in range(TRAINS)]
    plan = [block(f"b-{i}", 300, i + 1) for i in range(BLOCKS)]
    plan += [joint(f"b-{i}.b", f"b-{(i + 1) % BLOCKS}.a") for i in range(BLOCKS)]
    plan += [train(f"loco-{i}", f"b-{2 * i}", 200, "b", 100, SPEED) for i in range(TRAINS)]
    return files(roster, plan)


class Reader(threading.Thread):
    """A client that reads at once, until a line or the end."""

    def __init__(self, client, last):
        super().__init__(daemon=True)
        self.client, self.last, self.lines = client, last, []
        self.start()

    def run(self):
        with contextlib.suppress(OSError, ValueError):
            while self.lines[-1:] != [self.last]:
                self.lines.append(self.client.line())

    def until_last(self):
        self.join(60)
        holds("the reader beside it reads to the end", self.lines[-1:] == [self.last])
        return self.lines


def many_reports():
    """five requests of 10,000 turns with twenty trains: who asks and who reads beside it receive the same reports, and stay"""
    with ring() as options, serve(*options, "--turns", "0", "--quiet") as server:
        with Client(server) as asker, Client(server) as beside:
            drive_all(asker, [(126, FULL, False)] * TRAINS)
            # The power was turned on before: the second time is the end of what is there so far.
            asker.write(send(POWER_ON))
            asker.lines_until("SENT OK")
            for _ in range(2):
                beside.lines_until(f"RECEIVE {POWER_ON}")
            reader = Reader(beside, f"RECEIVE {BUSY}")
            asker.write([f"TURNS {10_000}"] * REQUESTS)
            found = []
            for _ in range(REQUESTS):
                found += asker.lines_until("TURNS OK")
            same("what comes last", found[-1], "TURNS OK")
            holds("reports come before the first answer", found.index("TURNS OK") > LEAST_REPORTS // REQUESTS)
            asker.write(send(BUSY))
            same("after the turns", asker.lines_until("SENT OK"), [*receive(BUSY), "SENT OK"])
            reports = [line for line in found if line.startswith(REPORT)]
            holds(f"{len(reports)} reports", len(reports) > LEAST_REPORTS)
            same("all others are answers", [line for line in found if not line.startswith(REPORT)], ["TURNS OK"] * REQUESTS)
            same("the reader beside it", reader.until_last()[:-1], reports)


def served_meanwhile():
    """a client is answered while another's turns run, and what that one sends meanwhile waits for them"""

    def attempt():
        with ring() as options, serve(*options, "--turns", "0", "--quiet") as server:
            with Client(server) as asker, Client(server) as other:
                drive_all(asker, [(126, FULL, False)] * TRAINS)
                other.lines_until(f"RECEIVE {POWER_ON}")
                asker.write([*[f"TURNS {10_000}"] * REQUESTS, *send(POWER_ON)])
                reader = Reader(other, f"RECEIVE {POWER_ON}")
                other.write(send(BUSY))
                found = asker.lines_until(f"RECEIVE {POWER_ON}")
                holds("the message of another comes between", f"RECEIVE {BUSY}" in found)
                last = max(i for i, line in enumerate(found) if line == "TURNS OK")
                holds("it comes before the turns have passed", found.index(f"RECEIVE {BUSY}") < last)
                same("the own message comes after", [line for line in found[last + 1 :] if not line.startswith(REPORT)], receive(POWER_ON))
                reader.until_last()

    is_tried_again(attempt)


def catching_up():
    """at --rate 100 a server that was stopped for more than a second, 100 of the track, closes no client that reads"""
    with ring() as options, serve(*options, "--rate", "100", "--quiet") as server:
        with Client(server) as client, Client(server) as beside:
            client.send(0x83)
            for slot in range(1, TRAINS + 1):
                client.write(driven(slot, 126, FULL, False))
            reader = Reader(beside, f"RECEIVE {BUSY}")
            first = Reader(client, f"RECEIVE {BUSY}")
            for _ in range(2):
                with stopped(server, 1.2):
                    pass
            with Client(server) as last:
                last.send(0x81)
            reader.until_last()
            first.until_last()
