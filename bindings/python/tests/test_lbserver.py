"""Checks `station.lbserver`: `pytest`, or `python -m unittest` in this folder.

The tests of a running program are skipped unless LBSERVER names it.
"""

import contextlib
import os
import pathlib
import re
import signal
import socket
import subprocess
import sys
import tempfile
import threading
import time
import tomllib
import unittest

TOP = pathlib.Path(__file__).resolve().parents[3]
sys.path.insert(0, str(TOP / "bindings/python"))
from station import (  # noqa: E402
    AccessoryDecoder,
    Acknowledge,
    ClosedError,
    LocoDecoder,
    Motion,
    Outputs,
    RefusedError,
    RosterError,
    SensorReport,
    SlotData,
    StationError,
    Train,
    TurnoutSide,
    message_bytes,
    message_hex,
)
from station.decoders import read_node_line  # noqa: E402
from station.lbserver import Client, Server, find_page  # noqa: E402
from station.log import Conflict, Derailment, Log, sensors_at_start  # noqa: E402
from station.messages import has_reply  # noqa: E402
from station.programmer import (  # noqa: E402
    NoAcknowledgeError,
    NoDecoderError,
    NoProgrammingTrackError,
    ProgrammerBusyError,
    UnknownDecoderError,
)

LAYOUT = TOP / "examples/layout.toml"
OVAL, OVAL_ROSTER = TOP / "examples/oval.toml", TOP / "examples/oval-roster.toml"
SIZES = [("front", 500), ("middle", 200), ("last", 300), ("other", 300)]
ROSTER = [LocoDecoder.at(3, name="shunter"), AccessoryDecoder(1, "yard")]
WITHOUT = None if os.environ.get("LBSERVER") else "LBSERVER names no program"


# A program that takes one client. It answers a message half a second before it prints it, and all else as real time does.
FAKE = """#!{python}
import socket, sys, time
listener = socket.create_server(("{bound}", 0))
{words}
print(f"listening {named}:{listener.getsockname()[1]}", flush=True)
stream, _ = listener.accept()
stream.sendall(b"VERSION x\\r\\n")
for line in stream.makefile():
    if line.startswith("TURNS "):
        stream.sendall(b"TURNS ERROR real time\\r\\n")
        continue
    stream.sendall(b"RECEIVE 83 7C\\r\\nSENT OK\\r\\n")
    time.sleep(0.5)
    print("message 83 7C  track power on", "node x short 3 stop forward F 0000000000000", sep="\\n", flush=True)
"""


def has_ended(process, seconds=5):
    """Whether a process ends within this time: it is gone, or its parent has not asked for its status yet."""
    end = time.monotonic() + seconds
    while True:
        try:
            stat = pathlib.Path(f"/proc/{process}/stat").read_text()
        except (FileNotFoundError, ProcessLookupError):
            return True
        if stat.rpartition(")")[2].split()[0] in "ZX":
            return True
        if time.monotonic() > end:
            return False
        time.sleep(0.01)


@contextlib.contextmanager
def fake(words, named="127.0.0.1", bound="127.0.0.1"):
    """The path of a program that stands for `lbserver`, with the address that it prints, and that on which it listens."""
    with tempfile.TemporaryDirectory() as folder:
        program = pathlib.Path(folder, "a program")
        text = FAKE.replace("{python}", sys.executable).replace("{words}", words)
        program.write_text(text.replace("{named}", named).replace("{bound}", bound))
        program.chmod(0o755)
        yield program


class TestLines(unittest.TestCase):
    """What needs no program."""

    def test_node_lines(self):
        for line, name, state in (
            (
                "node shunter short 3 step 63 of 128 forward F 1000000000001",
                "shunter",
                Motion("step", 63, 128, True, 1 | 1 << 12),
            ),
            ("NODE node a-b long 1234 stop reverse F 0000000000000", "a-b", Motion("stop", 0, None, False, 0)),
            ("node x short 3 emergency forward F 0100000000000", "x", Motion("emergency", 0, None, True, 2)),
            ("node yard module 1 outputs 01000000", "yard", Outputs(2)),
        ):
            self.assertEqual(read_node_line(line), (name, state))
            self.assertTrue(line.endswith(str(state)))
        for line in (
            "",
            "message 83 7C  track power on",
            "node x short 3 step 63 forward F 0000000000000",
            "node yard module 1 outputs 0",
        ):
            self.assertIsNone(read_node_line(line))

    def test_messages(self):
        self.assertEqual(message_hex(0xBF, 0, 3), "BF 00 03 43")
        self.assertEqual(message_bytes(0x83), b"\x83\x7c")
        for text, wanted in (
            ("BF 00 03 43", True),
            ("BB 01 00 45", True),
            ("BD 00 30 72", True),
            ("B0 04 10 5B", None),
            ("BC 01 00 42", None),
            ("A0 01 40 1E", False),
            ("B5 01 13 58", False),
            ("ED 0B 7F 23 22 03 21 00 00 00 45", True),
            ("ED 04 00 16", False),
            ("81 7E", False),
        ):
            self.assertIs(has_reply(bytes.fromhex(text)), wanted, text)

    def test_port_that_the_program_chooses(self):
        with fake('assert sys.argv[1:4] == ["--port", "0", "--roster"] and sys.argv[5:] == ["--quiet"], sys.argv') as program:
            with Server("--quiet", program=program, port=0, roster=[LocoDecoder.at(3, name="x")]) as server:
                server.power_on()
                self.assertEqual(server.wait_for_node("x"), Motion("stop", 0, None, True, 0))

    def test_address(self):
        # The server's own client connects where the program listens, to one that listens everywhere on this machine.
        for named, bound in (("127.0.0.2", "127.0.0.2"), ("0.0.0.0", "127.0.0.1")):
            words = f'assert sys.argv[1:] == ["--port", "0", "--address", "{named}"], sys.argv'
            with fake(words, named, bound) as program:
                with Server("--address", named, program=program, port=0) as server:
                    self.assertEqual(repr(server), f"<Server on {bound}:{server.port}, running>")
                    with self.assertRaisesRegex(StationError, "the server is running"):
                        server.__enter__()
                    server.power_on()
                    self.assertEqual(server.host, bound)
                    # A pattern is looked for within a line; a text is the whole line.
                    self.assertEqual(server.wait_for(re.compile("83 (..)  track p"))[1], "7C")
                    self.assertEqual(server.wait_for(re.compile("power on$")).start(), 21)
                    self.assertEqual(server.wait_for("message 83 7C  track power on"), "message 83 7C  track power on")
                    for wanted in ("track power on", "message 83 7C  track power", re.compile("^track")):
                        with self.assertRaisesRegex(TimeoutError, "waited in vain"):
                            server.wait_for(wanted, seconds=0.02)
                self.assertEqual(repr(server), f"<Server on {bound}:{server.port}, not running>")

    def test_log_follows_calls(self):
        # The program answers before it prints.
        with fake("") as program, Server(program=program, port=0) as server:
            server.power_on()
            self.assertEqual(server.printed()[1:2], ["message 83 7C  track power on"])
            mark = server.mark()
            server.power_on()
            self.assertEqual(server.printed(mark)[:1], ["message 83 7C  track power on"])

    def test_log(self):
        with tempfile.TemporaryDirectory() as folder:
            log = Log(pathlib.Path(folder, "log"))
            self.assertEqual(log.read(), [])
            log.path.write_text(
                "block east occupied (shunter)\nmessage B2 01 50 1C  sensor 3 high\nmessage B2 00 40 0D  sensor 1 low\n"
                "conflict back: shunter, express\nnode shunter short 3 stop forward F 0000000000000\nderailed"
            )
            log.read()
            self.assertEqual(log.reports, [(1, SensorReport(3, True)), (2, SensorReport(1, False))])
            self.assertEqual(log.occupied({1, 4}), {3, 4})
            self.assertEqual(log.conflicts, [(3, Conflict("back", ("shunter", "express")))])
            self.assertEqual(str(log.conflicts[0][1]), log.lines[3])
            self.assertEqual(log.state("shunter", 4), Motion("stop", 0, None, True, 0))
            self.assertIsNone(log.state("shunter", 5))
            self.assertEqual(log.derailments, [])
            with open(log.path, "a") as file:
                file.write(" express at turnout 12\nmessage B2 01 40 0C  sensor 3 low\n")
            self.assertEqual(len(log.read()), 7)
            self.assertEqual(log.derailments, [(5, Derailment("express", 12))])
            self.assertEqual(str(log.derailments[0][1]), "derailed express at turnout 12")
            self.assertEqual(log.occupied({1, 4}), {4})
            self.assertEqual(str(log.reports[-1][1]), "sensor 3 low")

    def test_log_with_gaps(self):
        with fake("") as program, Server(program=program, port=0) as server:
            with open(server.log, "a") as file:
                file.write("conflict back: shunter, express\nlog: 1,234 lines left out\n")
            for call in (server.conflicts, server.derailments, server.sensor_reports, server.occupied):
                with self.assertRaisesRegex(StationError, "the log is not whole: log: 1,234 lines left out"):
                    call()
            self.assertEqual(server.conflicts(server.mark()), [])

    def test_decoders_that_are_waited_for(self):
        layout = tomllib.loads((TOP / "examples/layout.toml").read_text())
        names = [node["name"] for node in layout["node"]]
        for how in ({"roster": LAYOUT}, {"options": ["--roster", str(LAYOUT)]}, {"options": [f"--roster={LAYOUT}"]}):
            options = how.pop("options", [])
            with fake("") as program, Server(*options, program=program, port=0, **how) as server:
                start = time.monotonic()
                with self.assertRaisesRegex(StationError, f"there is no decoder red; the roster has {', '.join(names)}$"):
                    server.wait_for_node("red", step=3)
                with self.assertRaisesRegex(TypeError, "decoder shunter has no stepp, but kind, step, steps"):
                    server.wait_for_node("shunter", stepp=3)
                with self.assertRaisesRegex(TypeError, "decoder yard has no step, but bits$"):
                    server.wait_for_node("yard", step=3)
                self.assertLess(time.monotonic() - start, 5)
        with fake("") as program, Server(program=program, port=0) as server:
            with self.assertRaisesRegex(StationError, "there is no decoder shunter; the roster has none$"):
                server.wait_for_node("shunter", step=3)

    def test_words_of_waits(self):
        with fake("") as program, Server(program=program, port=0, roster=[LocoDecoder.at(3, name="x")]) as server:
            words = "waited in vain for decoder x with step 3 and forward True; it has not changed since the start; it runs; "
            with self.assertRaisesRegex(TimeoutError, words + "its log ends"):
                server.wait_for_node("x", seconds=0.02, step=3, forward=True)
            server.power_on()
            words = "waited in vain for decoder x with steps None and kind 'step'; its last state is stop forward F 0000000000000; it"
            with self.assertRaisesRegex(TimeoutError, words):
                server.wait_for_node("x", seconds=0.02, steps=None, kind="step")
            mark = server.mark()
            server.wait_for_node("x", forward=True)
            with self.assertRaisesRegex(TimeoutError, "waited in vain for decoder x to change; its last state is stop"):
                server.wait_for_node("x", seconds=0.02, since=mark)
            server.wait_for("message 83 7C  track power on")
            with self.assertRaisesRegex(TimeoutError, "waited in vain for the line 'message 83 7C  track power on'; it runs"):
                server.wait_for("message 83 7C  track power on", seconds=0.02, since=mark)
            with self.assertRaisesRegex(TimeoutError, "waited in vain for a line with 'x.y'; it runs"):
                server.wait_for(re.compile("x.y"), seconds=0.02)
            never = lambda: False  # noqa: E731
            with self.assertRaisesRegex(TimeoutError, "waited in vain for never = lambda: False"):
                server.wait_for(never, seconds=0.02)
            words = "waited in vain for sensor 3 high; high are none; no sensor has reported; it runs"
            with self.assertRaisesRegex(TimeoutError, words):
                server.wait_for_sensor(3, seconds=0.02)
            server.wait_for_sensor(3, high=False)
            for number in (0, 4097, "3"):
                with self.assertRaisesRegex(ValueError, "a sensor is"):
                    server.wait_for_sensor(number)
            server.power_on()
            self.assertEqual(server.wait_for_node("x", since=mark), Motion("stop", 0, None, True, 0))

    def test_words_of_a_page(self):
        # The server waits for both lines. A page that the options name is the only one.
        text = """#!/usr/bin/env python3
import sys, time
print("listening 127.0.0.1:1", flush=True)
time.sleep(0.2)
print("words", *sys.argv[1:], flush=True)
time.sleep(60)
"""
        with tempfile.TemporaryDirectory() as folder:
            program = pathlib.Path(folder, "program")
            program.write_text(text)
            program.chmod(0o755)
            own = ["--page-file=x"]
            for options, page in (([], ["--page-file", str(TOP / "pages/throttle.html")]), (own, own)):
                with Server(*options, program=program, port=0, page=True) as server:
                    wanted = ["words", "--port", "0", "--page", str(server.page_port), *page]
                    self.assertEqual(server.printed()[1:], [" ".join(wanted)])

    def test_page_of_an_installation(self):
        for program, page in (
            ("bin/lbserver", "share/station/throttle.html"),
            ("lib/station/lbserver", "share/station/throttle.html"),
            ("programs/lbserver", "programs/throttle.html"),
        ):
            with tempfile.TemporaryDirectory() as folder:
                for path in (program, page):
                    pathlib.Path(folder, path).parent.mkdir(parents=True, exist_ok=True)
                    pathlib.Path(folder, path).write_text("")
                self.assertEqual(find_page(pathlib.Path(folder, program)), pathlib.Path(folder, page))
        for program in ("/lbserver", "/bin/lbserver"):
            self.assertEqual(find_page(program), TOP / "pages/throttle.html")

    def test_ends_with_its_process(self):
        # A process with three servers: from its first thread, from a thread that has ended, and in a child.
        text = f"""
import os, sys, threading, time
sys.path.insert(0, {str(TOP / "bindings/python")!r})
from station.lbserver import Server

def start():
    server = Server(program=sys.argv[1], port=0)
    server.__enter__()
    servers.append(server)

servers = []
start()
thread = threading.Thread(target=start)
thread.start()
thread.join()
time.sleep(0.3)
if os.fork() == 0:
    thread = threading.Thread(target=start)
    thread.start()
    thread.join()
    print(servers[-1].process.pid, flush=True)
    os.kill(os.getpid(), 9)
os.wait()
print(*[server.process.pid for server in servers if server.is_running()], flush=True)
time.sleep(60)
"""
        for number in (signal.SIGTERM, signal.SIGKILL):
            with fake("") as program:
                words = [sys.executable, "-c", text, str(program)]
                with subprocess.Popen(words, stdout=subprocess.PIPE, text=True) as process:
                    child, *servers = [int(word) for _ in range(2) for word in process.stdout.readline().split()]
                    ended = [has_ended(child), *(has_ended(server, seconds=0) for server in servers)]
                    process.send_signal(number)
                ended += map(has_ended, servers)
                self.assertEqual(ended, [True, False, False, True, True])

    def test_programs_that_fail(self):
        for program in ("/bin/false", "/bin/echo"):
            with self.assertRaisesRegex(ConnectionError, "does not listen"), Server(program=program, port=1):
                pass
        with self.assertRaises(FileNotFoundError), Server(program="/bin/no-such-program"):
            pass
        with self.assertRaises(RosterError), Server(program="/bin/false", roster=[ROSTER[0], ROSTER[0]]):
            pass
        server = Server(program="/bin/false")
        server.close()
        with self.assertRaises(ClosedError):
            server.power_on()


@contextlib.contextmanager
def scripted(*exchanges):
    """A server that sends a greeting, and then for each line that it receives the lines of an exchange."""
    received = []

    def serve():
        stream, _ = listener.accept()
        with stream, stream.makefile("rb") as lines:
            for exchange in exchanges:
                stream.sendall("".join(f"{line}\r\n" for line in exchange).encode())
                received.append(lines.readline().decode().rstrip("\r\n"))

    with socket.create_server(("127.0.0.1", 0)) as listener:
        thread = threading.Thread(target=serve)
        thread.start()
        yield listener.getsockname()[1], received
        thread.join()


class TestClient(unittest.TestCase):
    """A client, with a server whose lines are written here. Check bytes are worked out by hand."""

    def test_replies(self):
        with scripted(
            ["VERSION x"],
            # Another client's message comes first.
            ["RECEIVE 83 7C", "RECEIVE BF 00 03 43", "SENT OK", "RECEIVE E7 0E 01 33 03 40 20 07 00 00 01 00 00 41"],
            ["RECEIVE A0 01 40 1E", "SENT OK"],
        ) as (port, received):
            with Client("127.0.0.1", port) as client:
                found = client.send(0xBF, 0, 3)
                self.assertEqual(found, SlotData(1, 3, "in use", 128, 63, False, "reverse", 1 << 5, "on"))
                self.assertIsNone(client.send(0xA0, 1, 0x40))
        self.assertEqual(received, ["SEND BF 00 03 43", "SEND A0 01 40 1E", ""])

    def test_written_slot(self):
        body = bytes.fromhex("EF 0E 01 33 03 00 00 07 00 00 00 00 00")
        write = "EF 0E 01 33 03 00 00 07 00 00 00 00 00 28"
        with scripted(
            ["VERSION x"],
            [f"RECEIVE {write}", "SENT OK", "RECEIVE B4 6F 7F 5B"],
            [f"RECEIVE {write}", "SENT OK", "RECEIVE B4 6F 00 24"],
        ) as (port, received):
            with Client("127.0.0.1", port) as client:
                self.assertEqual(client.send(*body), Acknowledge(0xEF, True))
                self.assertEqual(client.send(*body), Acknowledge(0xEF, False))
        self.assertEqual(received, [f"SEND {write}", f"SEND {write}", ""])

    def test_switch_requests(self):
        sent, read = ["RECEIVE B0 04 10 5B", "SENT OK"], ["RECEIVE BB 01 00 45", "SENT OK"]
        slot = "RECEIVE E7 0E 01 00 00 00 00 07 00 00 00 00 00 10"
        # What another client asks meanwhile: its refusal comes right after its message.
        other = ["RECEIVE B0 05 10 5A", "RECEIVE B4 30 00 7B"]
        for lines, wanted in (
            ([*read, slot], None),
            (["RECEIVE B4 30 00 7B", *read, slot], Acknowledge(0xB0, False)),
            ([*other, *read, slot], None),
            (["RECEIVE B4 30 00 7B", *other, *read, slot], Acknowledge(0xB0, False)),
        ):
            with scripted(["VERSION x"], sent, lines, ["RECEIVE 83 7C", "SENT OK"]) as (port, received):
                with Client("127.0.0.1", port) as client:
                    self.assertEqual(client.send(0xB0, 4, 0x10), wanted)
                    client.power_on()
            self.assertEqual(received, ["SEND B0 04 10 5B", "SEND BB 01 00 45", "SEND 83 7C", ""])

    def test_turns(self):
        with scripted(
            ["VERSION x"], ["RECEIVE 83 7C", "TURNS OK"], ["TURNS OK"], ["TURNS OK"], ["TURNS ERROR real time"]
        ) as (port, received):
            with Client("127.0.0.1", port) as client:
                client.turns(16)
                client.turns(0)
                client.turns(10_001)
                with self.assertRaisesRegex(StationError, "real time"):
                    client.turns(1)
                for count in (-1, 1.5, True):
                    with self.assertRaisesRegex(ValueError, "turns is"):
                        client.turns(count)
            with self.assertRaises(ClosedError):
                client.turns(1)
        self.assertEqual(received, ["TURNS 16", "TURNS 10000", "TURNS 1", "TURNS 1", ""])

    def test_nodes(self):
        with scripted(
            ["VERSION x"],
            [
                "RECEIVE 83 7C",
                "NODE node shunter short 3 step 63 of 128 forward F 0000000000000",
                "RECEIVE 82 7D",
                "NODE node yard module 1 outputs 10000000",
                "NODES OK",
            ],
            ["NODES OK"],
        ) as (port, received):
            with Client("127.0.0.1", port) as client:
                nodes = client.nodes()
                self.assertEqual(list(nodes), ["shunter", "yard"])
                self.assertEqual(nodes["shunter"].step, 63)
                self.assertEqual(client.nodes(), {})
            with self.assertRaises(ClosedError):
                client.nodes()
        self.assertEqual(received, ["NODES", "NODES", ""])

    def test_states_of_trains(self):
        lines = [["TRAIN express back 6 b main 120", "RECEIVE B2 01 50 1C", "TRAIN shunter main 4 a main 0 derailed", "TRAINS OK"]]
        lines += [["TURNOUT 2 thrown", "TURNOUT 3 closed", "TURNOUTS OK"], ["TRAINS OK"]]
        with scripted(["VERSION x"], *lines) as (port, received), Client("127.0.0.1", port) as client:
            express, shunter = Train("back", 6, "b", "main", 120, False), Train("main", 4, "a", "main", 0, True)
            self.assertEqual(client.trains(), {"express": express, "shunter": shunter})
            self.assertEqual(client.sensor_report(), SensorReport(3, True))
            self.assertEqual(client.turnouts(), {2: True, 3: False})
            self.assertEqual(client.trains(), {})
        self.assertEqual(received, ["TRAINS", "TURNOUTS", "TRAINS", ""])

    def test_sensors_at_start(self):
        # A train of 700 mm from 100 mm before end b of a block of 500 back over a joint of a's, 200 mm, and a closed turnout.
        plan = {
            "block": [{"name": name, "length": length, "sensor": i} for i, (name, length) in enumerate(SIZES, 1)],
            "joint": [{"ends": ["front.a", "middle.a"]}],
            "turnout": [{"switch": 1, "common": "middle.b", "closed": "last.b", "thrown": "other.b"}],
        }
        train = {"block": "front", "facing": "b", "front": 400, "length": 700}
        self.assertEqual(sensors_at_start({**plan, "train": [train]}), {1, 2, 3})
        self.assertEqual(sensors_at_start({**plan, "train": [{**train, "length": 600}]}), {1, 2})
        self.assertEqual(sensors_at_start({**plan, "train": [{**train, "length": 400}]}), {1})
        self.assertEqual(sensors_at_start({}), set())

    def test_place(self):
        with scripted(
            ["VERSION x"], ["PLACE OK"], ["RECEIVE B2 01 50 1C", "PLACE OK"], ["PLACE ERROR no such block"]
        ) as (port, received):
            with Client("127.0.0.1", port) as client:
                client.place("express", "back", 1500)
                client.place("express", "back", 0, facing="a")
                with self.assertRaisesRegex(StationError, "no such block"):
                    client.place("express", "front", 9_999_999, "b")
                for words in (("a b", "back", 1), ("", "back", 1), ("x", "back\n", 1), ("x", "back", 1, "c")):
                    with self.assertRaises(ValueError):
                        client.place(*words)
                for front in (-1, 10_000_000, 1.5):
                    with self.assertRaisesRegex(ValueError, "front is"):
                        client.place("express", "back", front)
            with self.assertRaises(ClosedError):
                client.place("express", "back", 1500)
        self.assertEqual(
            received, ["PLACE express back 1500", "PLACE express back 0 a", "PLACE express front 9999999 b", ""]
        )

    def test_failures(self):
        with scripted(
            ["VERSION x"], ["FAIL OK", "RECEIVE B2 01 50 1C"], ["FAIL OK"], ["FAIL ERROR no such turnout"], ["FAIL OK"]
        ) as (port, received):
            with Client("127.0.0.1", port) as client:
                client.fail_sensor(3)
                client.wait_for_sensor(3)
                client.fail_sensor(4096, on=False)
                with self.assertRaisesRegex(StationError, "^FAIL turnout 2040: no such turnout$"):
                    client.fail_turnout(2040)
                client.end_failures()
                for sensor in (0, 4097):
                    with self.assertRaisesRegex(ValueError, "a sensor is"):
                        client.fail_sensor(sensor)
                with self.assertRaisesRegex(ValueError, "on is 'off'"):
                    client.fail_sensor(3, "off")
                for switch in (0, 2041):
                    with self.assertRaisesRegex(ValueError, "a switch is"):
                        client.fail_turnout(switch)
        self.assertEqual(received, ["FAIL sensor 3 on", "FAIL sensor 4096 off", "FAIL turnout 2040", "FAIL none", ""])

    def test_sensor_reports(self):
        # OPC_INPUT_REP: the sensor of turnout address 0, then 1 with the auxiliary input, then the last sensor.
        first, second, last = "RECEIVE B2 00 40 0D", "RECEIVE B2 00 70 3D", "RECEIVE B2 7F 7F 4D"
        third, other = "RECEIVE B2 01 50 1C", "RECEIVE B2 00 60 2D"
        with scripted(
            ["VERSION x", first],
            ["RECEIVE 83 7C", second, "SENT OK"],
            [last, "TURNS OK"],
            [first, "NODES OK", third, other],
        ) as (port, _):
            with Client("127.0.0.1", port) as client:
                self.assertEqual(client.sensor_report(), SensorReport(1, False))
                client.power_on()
                client.turns(1)
                self.assertEqual(client.nodes(), {})
                for sensor, occupied in ((2, True), (4096, True), (1, False), (3, True), (2, False)):
                    self.assertEqual(client.sensor_report(), SensorReport(sensor, occupied))
            with self.assertRaises(ClosedError):
                client.sensor_report()

    def test_sensors_without_waiting(self):
        first, third, low = "RECEIVE B2 00 50 1D", "RECEIVE B2 01 50 1C", "RECEIVE B2 01 40 0C"
        with scripted(["VERSION x", first, "RECEIVE 83 7C"], [third, "SENT OK"], [low, "TURNS OK", third]) as (port, _):
            with Client("127.0.0.1", port, seconds=0.2) as client:
                client.wait_for_sensor(1)
                self.assertEqual(client.sensor_reports(), [SensorReport(1, True)])
                client.wait_for_sensor(3, high=False)
                with self.assertRaisesRegex(TimeoutError, "waited in vain for sensor 3 high; the last report was sensor 1 high; the last line was 'RECEIVE 83 7C'"):
                    client.wait_for_sensor(3, seconds=0.02)
                client.power_on()
                self.assertEqual(client.occupied(), {1, 3})
                client.turns(1)
                client.wait_for_sensor(3, seconds=5)
                # Those that were returned count too, and none is returned twice.
                reports = [SensorReport(1, True), SensorReport(3, True), SensorReport(3, False), SensorReport(3, True)]
                self.assertEqual([client.sensor_report() for _ in reports], reports)
                self.assertEqual(client.sensor_reports(), reports)
                with self.assertRaisesRegex(TimeoutError, "waited in vain for the report of a sensor; the last line was 'RECEIVE B2 01 50 1C'"):
                    client.sensor_report()
                for number in (0, 4097):
                    with self.assertRaisesRegex(ValueError, "a sensor is"):
                        client.wait_for_sensor(number)
            with self.assertRaises(ClosedError):
                client.occupied()

    def test_waits_end(self):
        with scripted(["VERSION x"], ["RECEIVE 83 7C"], ["SENT OK", "RECEIVE 82 7D"], []) as (port, _):
            with Client("127.0.0.1", port, seconds=0.1) as client:
                with self.assertRaisesRegex(TimeoutError, "waited in vain for a line; the last line was 'VERSION x'"):
                    client.line()
                with self.assertRaisesRegex(TimeoutError, "waited in vain for SENT .. after 83 7C; the last line was 'RECEIVE 83 7C'"):
                    client.power_on()
                # A wait that was in vain loses nothing.
                client._request("again")
                self.assertEqual([client.line(), client.line()], ["SENT OK", "RECEIVE 82 7D"])
                client._request("end")
        with scripted() as (port, _), self.assertRaisesRegex(ConnectionError, "in a wait for its greeting"):
            Client("127.0.0.1", port)

    def test_sync(self):
        error = "TURNS ERROR no number from 1 to 10000"
        with scripted(["VERSION x"], ["RECEIVE 83 7C", error], [error], ["TURNS OK"]) as (port, received):
            with Client("127.0.0.1", port) as client:
                client.sync()
                client.turns(1)
            with self.assertRaises(ClosedError):
                client.sync()
        self.assertEqual(received, ["TURNS 0", "TURNS 0", "TURNS 1", ""])

    def test_no_reply(self):
        with scripted(["VERSION x"], ["RECEIVE BB 01 00 45", "SENT OK", "SENT OK"]) as (port, _):
            with Client("127.0.0.1", port) as client:
                with self.assertRaisesRegex(StationError, "no reply: SENT OK"):
                    client.send(0xBB, 1, 0)

    def test_connection(self):
        with scripted(["VERSION x"]) as (port, _), Client("127.0.0.1", port, room=4096) as client:
            # Each line is sent at once, and the system doubles the room for its own use.
            self.assertNotEqual(client.stream.getsockopt(socket.IPPROTO_TCP, socket.TCP_NODELAY), 0)
            self.assertEqual(client.stream.getsockopt(socket.SOL_SOCKET, socket.SO_RCVBUF), 8192)

    def test_rejected_and_closed(self):
        with scripted(["ERROR no place"]) as (port, _):
            with self.assertRaisesRegex(ConnectionError, "rejected: ERROR no place"):
                Client("127.0.0.1", port)
        with scripted(["VERSION x"], ["SENT ERROR wrong check byte"]) as (port, _):
            with Client("127.0.0.1", port) as client:
                with self.assertRaisesRegex(ValueError, "SENT ERROR wrong check byte"):
                    client.power_on()
                with self.assertRaisesRegex(ValueError, "no message"):
                    client.send(3)
            for call in (client.power_on, client.line):
                with self.assertRaises(ClosedError):
                    call()
        with scripted(["VERSION x"]) as (port, _):
            with Client("127.0.0.1", port) as client:
                with self.assertRaisesRegex(ConnectionError, "closed"):
                    client.power_on()


@unittest.skipIf(WITHOUT, WITHOUT)
class TestServer(unittest.TestCase):
    """A running program."""

    def test_drives(self):
        for roster in (ROSTER, LAYOUT, str(LAYOUT), LAYOUT.read_text()):
            with Server("--lose", "20", roster=roster) as server:
                self.assertEqual(server.nodes, {})
                server.power_on()
                loco = server.loco(3)
                self.assertEqual(loco.take().state, "in use")
                loco.speed(63)
                loco.function(0)
                loco.function(9)
                server.wait_for_node("shunter", step=63, functions=1 | 1 << 9)
                self.assertEqual(str(server.running("shunter")), "step 63 of 128 forward F 1000000001000")
                turnout = server.turnout(2)
                turnout.close()
                self.assertEqual(server.wait_for_node("yard", bits=8), Outputs(8))
                turnout.off()
                server.wait_for("node yard module 1 outputs 00000000")
                self.assertTrue(server.wait_for(re.compile(r"message A0 .*  slot (\d+): speed"))[1], "1")
                server.wait_for(lambda: server.nodes["yard"] == Outputs(0))
                with self.assertRaisesRegex(StationError, "no accessory"):
                    server.outputs("shunter")

    def test_turns(self):
        with Server("--turns", "0", roster=ROSTER) as server:
            loco = server.loco(3)
            server.power_on()
            loco.take()
            loco.speed(63)
            server.wait_for(re.compile("message A0 01 40 1E"))
            self.assertEqual(server.nodes, {})
            server.turns(16)
            server.wait_for_node("shunter", step=63)
            with server.client() as client:
                self.assertEqual(client.nodes()["shunter"].step, 63)
        with Server(roster=ROSTER) as server:
            with self.assertRaisesRegex(StationError, "TURNS ERROR real time"):
                server.turns(1)

    def test_log_follows_calls(self):
        for options in ([], ["--turns", "8"]):
            with Server(*options, roster=ROSTER) as server, server.client() as other:
                server.power_on()
                loco = server.loco(3)
                slot = loco.take().slot
                if options:
                    server.turns(100)
                for speed in range(1, 120):
                    mark = server.mark()
                    loco.speed(speed)
                    sent = message_hex(0xA0, slot, speed + 1)
                    # In real time what decoders do comes between.
                    self.assertTrue(any(line.startswith(f"message {sent} ") for line in server.printed(mark)))
                    if options:
                        # One of the turns that follow it has its packet.
                        self.assertTrue(server.printed(mark)[1].startswith(f"node shunter short 3 step {speed} of 128 "))
                for speed in range(1, 60):
                    mark = server.mark()
                    other.send(0xA0, slot, speed)
                    other.sync() if speed % 2 else server.sync()
                    self.assertIn(f"message {message_hex(0xA0, slot, speed)} ", "\n".join(server.printed(mark)))

    def test_programmer(self):
        for options in (["--rate", "100"], ["--turns", "0"]):
            with Server("--programmer", str(LAYOUT), *options) as server:
                track = server.programmer()
                self.assertEqual(track.read(1), 3)
                # 1234 is 4 * 256 + 210.
                for cv, value in ((17, 196), (18, 210), (1024, 255)):
                    track.write(cv, value)
                    self.assertEqual(track.read(cv), value)
                with self.assertRaisesRegex(NoAcknowledgeError, "CV7: no ack"):
                    track.write(7, 1)
                for cv, value in ((0, 1), (1025, 1), (1, 256)):
                    with self.assertRaises(ValueError):
                        track.write(cv, value)
        with tempfile.NamedTemporaryFile("w") as empty:
            empty.write('version = 2\n[[node]]\nname = "yard"\nkind = "accessory"\nmodule = 1\n')
            empty.flush()
            with Server("--programmer", empty.name, "--rate", "100") as server:
                with self.assertRaises(NoDecoderError):
                    server.programmer().read(1)
        with Server("--rate", "100") as server:
            track = server.programmer()
            with self.assertRaises(ProgrammerBusyError):
                track.read(1)
            with self.assertRaisesRegex(NoProgrammingTrackError, "FAIL programming: no programming track"):
                track.fail()

    def test_decoders_change_places(self):
        with Server("--programmer", str(OVAL_ROSTER), "--rate", "100") as server:
            track = server.programmer()
            self.assertEqual(track.changes(), {})
            track.write(29, 6)
            track.mount("express")
            self.assertEqual((track.read(1), track.read(29)), (5, 2))
            track.write(1, 7)
            track.write(3, 20)
            track.mount(None)
            with self.assertRaises(NoDecoderError):
                track.read(1)
            self.assertEqual(track.changes(), {"shunter": {29: 6}, "express": {1: 7, 3: 20}})
            server.wait_for("cv express 3 = 20")
            changes = [line for line in server.printed() if line.startswith("cv ")]
            self.assertEqual(changes, ["cv shunter 29 = 6", "cv express 1 = 7", "cv express 3 = 20"])
            track.mount("shunter")
            track.fail()
            with self.assertRaises(NoAcknowledgeError):
                track.read(1)
            track.fail(False)
            self.assertEqual(track.read(29), 6)
            with self.assertRaises(UnknownDecoderError):
                track.mount("yard")
            for name in ("", "two words", "nothing"):
                with self.assertRaises(ValueError):
                    track.mount(name)
            self.assertEqual(track.read(1), 3)

    def test_trains(self):
        with Server("--turns", "0", roster=OVAL_ROSTER, plan=OVAL.read_text()) as server, server.client() as client:
            # Both trains of the example, before any report.
            self.assertEqual((server.occupied(), client.occupied()), ({1, 4}, set()))
            server.power_on()
            loco = server.loco(3)
            loco.take()
            loco.speed(126)
            while 3 not in server.occupied():
                server.turns(10)
            mark = server.mark()
            while 1 in server.occupied():
                server.turns(10)
            self.assertEqual(server.sensor_reports(), [SensorReport(3, True), SensorReport(1, False)])
            self.assertEqual(server.sensor_reports(mark), [SensorReport(1, False)])
            self.assertEqual(client.sensor_reports(), server.sensor_reports())
            self.assertEqual((server.conflicts(), server.derailments()), ([], []))
            server.wait_for_sensor(1, high=False, since=mark)
            with self.assertRaisesRegex(TimeoutError, "waited in vain for sensor 3 high; high are 3, 4; the last report was sensor 1 low; it runs"):
                server.wait_for_sensor(3, since=mark, seconds=0.05)
            client.send(0xB0, 0x78, 0x27)
            self.assertEqual(client.occupied(), {3, 4})
            server.place("express", "east", 1000)
            self.assertEqual(server.conflicts(), [Conflict("east", ("shunter", "express"))])
            self.assertEqual(server.conflicts(server.mark()), [])
            with self.assertRaisesRegex(StationError, "PLACE ERROR no such train"):
                server.place("yard", "east", 500)
        for options, plan in ((["--plan", str(OVAL)], None), ([], OVAL)):
            with Server(*options, roster=OVAL_ROSTER, plan=plan) as server:
                server.wait_for_sensor(4, seconds=0)

    def test_devices_fail(self):
        with Server("--turns", "0", roster=OVAL_ROSTER, plan=OVAL.read_text()) as server, server.client() as client:
            server.fail_sensor(3)
            self.assertEqual(server.occupied(), {1, 3, 4})
            client.fail_sensor(1, on=False)
            client.sync()
            self.assertEqual(client.occupied(), {3})
            server.fail_turnout(2)
            server.power_on()
            server.turnout(2).throw()
            server.turns(20)
            self.assertEqual(server.turnouts(), {1: False, 2: False})
            server.end_failures()
            reports = [SensorReport(3, True), SensorReport(1, False), SensorReport(1, True), SensorReport(3, False)]
            self.assertEqual(server.sensor_reports(), reports)
            self.assertEqual(server.turnouts(), {1: False, 2: False})
            with self.assertRaisesRegex(StationError, "FAIL sensor 6 on: no such sensor"):
                server.fail_sensor(6)
            with self.assertRaisesRegex(StationError, "FAIL turnout 3: no such turnout"):
                server.fail_turnout(3)

    def test_turnouts_with_feedback(self):
        plan = OVAL.read_text().replace('thrown = "siding.b"', 'thrown = "siding.b"\nfeedback = true')
        with Server("--turns", "0", roster=OVAL_ROSTER, plan=plan) as server, server.client() as client:
            server.power_on()
            # Turnout 1 has none.
            self.assertEqual([client.send(0xBC, 1, 0), client.send(0xBC, 0, 0)], [TurnoutSide(thrown=False), None])
            server.turnout(2).throw()
            server.turns(20)
            self.assertEqual(client.send(0xBC, 1, 0), TurnoutSide(thrown=True))

    def test_turnouts_on_one_switch(self):
        plan = OVAL.read_text().replace("switch = 1\n", "switch = 2\ntime = 1000\n")
        with Server("--turns", "0", roster=OVAL_ROSTER, plan=plan) as server:
            server.power_on()
            server.turnout(2).throw()
            # At most 430 ms.
            server.turns(40)
            self.assertEqual(server.turnouts(), {2: None})
            server.turns(200)
            self.assertEqual(server.turnouts(), {2: True})

    def test_waits_end(self):
        with Server(roster=ROSTER) as server:
            with self.assertRaisesRegex(TimeoutError, "it runs; its log ends"):
                server.wait_for("never", seconds=0.1)
            with self.assertRaisesRegex(TimeoutError, "decoder shunter with step 1; it has not changed since the start"):
                server.wait_for_node("shunter", seconds=0.1, step=1)
            server.process.kill()
            start = time.monotonic()
            with self.assertRaisesRegex(TimeoutError, "it has ended"):
                server.wait_for("never")
            self.assertLess(time.monotonic() - start, 5)
            with self.assertRaises(ClosedError):
                server.power_on()

    def test_another_address(self):
        with Server("--address", "127.0.0.2", roster=ROSTER) as server, server.client() as client:
            client.power_on()
            server.wait_for("message 83 7C  track power on")
            self.assertEqual((server.host, server.nodes), ("127.0.0.2", {}))
            self.assertEqual(server.loco(3).take().state, "in use")
            with self.assertRaises(ConnectionRefusedError):
                Client("127.0.0.1", server.port)

    def test_clients(self):
        with Server("--turns", "4", roster=ROSTER) as server, server.client() as one, server.client() as other:
            one.power_on()
            self.assertEqual(one.loco(3).take().slot, other.loco(3).take().slot)
            server.wait_for("client 2 joins")
            with contextlib.ExitStack() as stack:
                for _ in range(6):
                    stack.enter_context(server.client())
                with self.assertRaisesRegex(ConnectionError, "rejected: ERROR no place"):
                    server.client()
            self.assertIn("client 8 joins", server.printed())

    def test_refusals(self):
        with Server("--turns", "0") as server:
            with self.assertRaisesRegex(RefusedError, "turnout 2041"):
                server.turnout(2041).throw()
            for number in range(1, 33):
                server.turnout(number).throw()
            with self.assertRaisesRegex(RefusedError, "turnout 33: 32 switch requests are queued"):
                server.turnout(33).throw()
            for address in range(1, 120):
                server.loco(address).take()
            with self.assertRaisesRegex(RefusedError, "no slot is free"):
                server.loco(120).take()

    def test_ten_at_once(self):
        with contextlib.ExitStack() as stack:
            servers = [stack.enter_context(Server(roster=ROSTER)) for _ in range(10)]
            self.assertEqual(len({server.port for server in servers}), 10)
            for server in servers:
                server.power_on()
                server.wait_for("message 83 7C  track power on")
        self.assertFalse(any(server.is_running() for server in servers))

    def test_port_in_use(self):
        with Server() as server:
            with self.assertRaisesRegex(ConnectionError, "status 4: lbserver: cannot listen on "), Server(port=server.port):
                pass
            other = Server()
            # The port that it chose was taken meanwhile.
            other.port = server.port
            with other:
                self.assertNotEqual(other.port, server.port)
                other.power_on()

    def test_restart(self):
        server = Server(roster=ROSTER)
        for _ in range(2):
            with server:
                port = server.port
                server.power_on()
                server.loco(3).take()
                self.assertIn("message 83 7C  track power on", server.printed() if server.wait_for("message 83 7C  track power on") else [])
            self.assertIn("message 83 7C  track power on", server.printed())
        self.assertEqual(server.port, port)

    def test_page(self):
        with Server(page=True) as server:
            with socket.create_connection(("127.0.0.1", server.page_port), 10) as stream:
                stream.sendall(b"GET / HTTP/1.0\r\nHost: localhost\r\n\r\n")
                self.assertTrue(stream.makefile("rb").readline().startswith(b"HTTP/1.1 200 "))

    def test_losses(self):
        for lose in (0, {"shunter": 0, None: 99}, {"yard": 99}):
            with Server("--turns", "1", roster=LAYOUT, lose=lose) as server:
                server.power_on()
                loco = server.loco(3)
                loco.take()
                loco.speed(63)
                server.turns(16)
                self.assertEqual(server.running("shunter").step, 63)
        for lose in (100, -1, True, "5", {"shunter": None}):
            with self.assertRaisesRegex(ValueError, "lose"):
                Server(lose=lose)
        with self.assertRaisesRegex(ConnectionError, "--lose nobody: no such decoder"), Server(roster=LAYOUT, lose={"nobody": 1}):
            pass

    def test_times(self):
        with Server("--turns", "16", "--times", roster=LAYOUT) as server:
            server.power_on()
            loco = server.loco(3)
            loco.take()
            loco.speed(63)
            self.assertEqual(server.running("shunter").step, 63)
            self.assertRegex(server.wait_for(re.compile("node shunter")).string, r"^0:00:00\.\d{3} node shunter ")
            self.assertRegex(server.wait_for("message 83 7C  track power on"), r"^0:00:00\.000 message 83 7C ")
            self.assertTrue(server.wait_for(re.compile("^node shunter")))

    def test_options_that_are_wrong(self):
        with self.assertRaisesRegex(ConnectionError, "status 1"), Server("--lose", "100"):
            pass
        with self.assertRaisesRegex(ConnectionError, "node 1 .*: CV1 must be 1 to 127"), Server(roster=[LocoDecoder(0)]):
            pass


if __name__ == "__main__":
    unittest.main()
