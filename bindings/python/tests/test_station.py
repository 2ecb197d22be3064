"""Checks the package with the library: `pytest`, or `python -m unittest` in this folder.

Without the library, at STATION_LIBRARY or where `make -C bindings` leaves it, these tests are skipped. Expected bytes are
those of LocoNet Personal Use Edition 1.0, and states those of NMRA S-9.2.1.
"""

import copy
import gc
import pathlib
import pickle
import sys
import threading
import unittest
import unittest.mock

TOP = pathlib.Path(__file__).resolve().parents[3]
sys.path.insert(0, str(TOP / "bindings/python"))
from station import (  # noqa: E402
    AccessoryDecoder,
    Acknowledge,
    Answer,
    Byte,
    ClosedError,
    LibraryError,
    LocoDecoder,
    Motion,
    Noise,
    Outputs,
    RefusedError,
    RosterError,
    SlotData,
    Station,
    StationError,
    Turn,
    roster_text,
)

LAYOUT = TOP / "examples/layout.toml"
SHORT = LocoDecoder(3, cv29=2)
try:
    Station().close()
    WITHOUT = None
except LibraryError as missing:
    WITHOUT = str(missing)


def bytes_of(text):
    return [Byte(0, byte) for byte in bytes.fromhex(text)]


# Power on, locomotive 3 taken, speed 63.
DRIVES = bytes_of("837C BF000343 BA010145 A001401E")


class Test(unittest.TestCase):
    maxDiff = None

    def fails(self, error, text, call, *arguments, **named):
        with self.assertRaises(error) as caught:
            call(*arguments, **named)
        self.assertIn(text, str(caught.exception))
        return caught.exception


@unittest.skipIf(WITHOUT, WITHOUT)
class TestLayouts(Test):
    """Which layouts are made, and how the others are refused."""

    def test_lines(self):
        for lines in (0, 9, -1, 256, True, "1"):
            self.fails(ValueError, "lines", Station, [], lines)
        with Station(lines=8) as station:
            self.assertEqual(station.nodes, {})

    def test_lists(self):
        for decoders, number, text in (
            ([SHORT, LocoDecoder(0)], 2, "CV1 is 0"),
            ([LocoDecoder(128)], 1, "CV1 is 128"),
            ([LocoDecoder(3, cv29=130)], 1, "bit 7"),
            ([LocoDecoder(3, 232, 0, 34)], 1, "CV17 is 232"),
            ([LocoDecoder(3, 191, 0, 34)], 1, "CV17 is 191"),
            ([SHORT, SHORT, AccessoryDecoder(511, "yard")], 3, "yard: module is 511"),
            ([AccessoryDecoder(0)], 1, "module is 0"),
            ([LocoDecoder(3, name="a"), LocoDecoder(4, name="a")], 2, "earlier"),
            # A program refuses these names, too.
            ([LocoDecoder(3, name="a"), LocoDecoder(4, name="a b")], 2, "name is 'a b', and has to be 1 to 16 letters, digits, - or _"),
            ([LocoDecoder(3, name="")], 1, "name is ''"),
            ([LocoDecoder(3, name="a" * 17)], 1, "name is 'aaaaaaaaaaaaaaaaa'"),
            ([LocoDecoder(3, name="a\n")], 1, "name is"),
            ([LocoDecoder(3, name="ä")], 1, "name is 'ä'"),
            ([SHORT] * 65, None, "65 decoders"),
        ):
            self.assertEqual(self.fails(RosterError, text, Station, decoders).decoder, number)
        for decoders in ([3], [SHORT, None]):
            self.fails(TypeError, "no LocoDecoder", Station, decoders)
        for call, text in (
            (lambda: LocoDecoder(256), "cv1 is 256"),
            (lambda: LocoDecoder(3, cv29=-1), "cv29 is -1"),
            (lambda: LocoDecoder.at(10240), "an address is 10240"),
            (lambda: LocoDecoder.at(3, steps=27), "steps is 27"),
            (lambda: AccessoryDecoder(65536), "a module is 65536"),
        ):
            self.fails(ValueError, text, call)

    def test_rosters(self):
        text = LAYOUT.read_text()
        for roster in (LAYOUT, str(LAYOUT), text, TOP / "examples/layout-1.toml"):
            with Station(roster) as station:
                self.assertEqual(list(station.nodes), ["shunter", "yard"])
                self.assertEqual(station.decoders["yard"], AccessoryDecoder(1, "yard"))
        with Station(TOP / "examples/long.toml") as station:
            self.assertEqual(station.decoders["express"].place, "long 1234")
        # A comment with letters past ASCII: the size is that of the bytes.
        with Station("# é\n" + text) as station:
            self.assertEqual(station.outputs("yard"), Outputs(0))
        self.fails(FileNotFoundError, "none.toml", Station, "none.toml")

    def test_roster_faults(self):
        text = LAYOUT.read_text()
        for roster, decoder, reason, number in (
            ("version = 3\n", None, "version is 3", 2),
            ("node = []\n", None, "version is None", 2),
            ("version = 2\nnodes = 1\n", None, "unknown key nodes", 2),
            ("version = 2\nnode = 1\n", None, "of a wrong type", 2),
            ("version = 2\n", None, "no decoder", 7),
            ("version = \n", None, "line 1", 1),
            (text.replace("[1, 3]", "[1, 128]"), 1, "shunter: CV1 is 128", 5),
            (text.replace("module = 1", "module = 511"), 2, "yard: module is 511", 6),
            (text.replace("module = 1", "module = 70000"), 2, "a module is 70000", 6),
            (text.replace("module = 1", ""), 2, "yard: module is missing", 2),
            (text.replace('"yard"', '"shunter"'), 2, "an earlier decoder", 4),
            (text.replace('"yard"', '"no name"'), 2, "name is 'no name'", 4),
            (text.replace('"accessory"', '"signal"'), 2, "kind is 'signal'", 2),
            (text.replace("[1, 3]", "[1, 3], [1, 3]"), 1, "shunter: CV1 is there twice", 9),
            (text.replace("[3, 10]", "[1025, 10]"), 1, "shunter: CV1025 is none", 9),
            (text.replace("[29, 2]", "[30, 2]"), 1, "shunter: CV29 is missing", 9),
            (text.replace("[29, 2]", "[29, 256]"), 1, "shunter: cv29 is 256", 5),
            (text.replace("[29, 2]", "[29, true]"), 1, "shunter: cv29 is True", 2),
            (text.replace("[29, 2]", "29"), 1, "of a wrong type", 2),
            (text.replace("version = 2", "version = 1"), 1, "missing or unknown", 2),
            (roster_text([LocoDecoder(3, cv29=2, name=f"n{i}") for i in range(65)]), None, "65 decoders", 3),
        ):
            error = self.fails(RosterError, reason, Station, roster)
            self.assertEqual((error.decoder, error.number), (decoder, number), roster)

    def test_addresses(self):
        for address, steps, place, mode in (
            (3, 14, "short 3", 14),
            (127, 28, "short 127", 28),
            (10239, 128, "long 10239", 128),
        ):
            with Station([LocoDecoder.at(address, steps=steps, name="one")]) as station:
                self.assertEqual(station.decoders["one"].place, place)
                station.power_on()
                loco = station.loco(address)
                loco.take()
                loco.steps(mode)
                loco.speed(126)
                station.turns(16)
                motion = station.running("one")
                self.assertEqual((motion.kind, motion.steps, motion.step), ("step", mode, motion.last_step))

    def test_reversed(self):
        # With bit 0 of CV29 a decoder takes forward for reverse (S-9.2.2).
        decoders = [LocoDecoder.at(3, reversed=True), LocoDecoder.at(3), LocoDecoder.at(128, reversed=True)]
        with Station(decoders) as station:
            station.power_on()
            for address in (3, 128):
                loco = station.loco(address)
                loco.take()
                loco.speed(63)
                loco.function(9)
            station.turns(32)
            self.assertEqual(
                [station.running(i) for i in range(3)],
                [Motion("step", 63, 128, forward, 1 << 9) for forward in (False, True, False)],
            )

    def test_roster_text(self):
        decoders = [LocoDecoder.at(1234, name="express"), AccessoryDecoder(7), LocoDecoder(5, cv29=1)]
        with Station(decoders) as one, Station(roster_text(decoders)) as other:
            self.assertEqual(one.nodes, other.nodes)
            self.assertEqual(list(other.nodes), ["express", "node-1", "node-2"])
            self.assertEqual(
                [decoder.place for decoder in other.decoders.values()], ["long 1234", "module 7", "short 5"]
            )

    def test_statuses(self):
        # A library that makes no layout: the numbers are those of station.h.
        for status, error, text in (
            (1, StationError, "no layout was made: status 1"),
            (3, MemoryError, "no memory for a layout"),
            (4, StationError, "no layout was made: status 4"),
        ):
            library = unittest.mock.Mock(**{"station_new.return_value": status, "station_read.return_value": status})
            with unittest.mock.patch("station._library.load", return_value=library):
                for roster in ([SHORT], LAYOUT):
                    self.fails(error, text, Station, roster)
            library.station_free.assert_not_called()

    def test_no_library(self):
        for path in ("none.so", str(LAYOUT)):
            self.fails(LibraryError, "make -C bindings", Station, library=path)
        self.fails(LibraryError, "no function station_", Station, library=sys.modules["_ctypes"].__file__)


@unittest.skipIf(WITHOUT, WITHOUT)
class TestClosed(Test):
    """The end of a station."""

    def test_each_call(self):
        with Station(LAYOUT) as station:
            loco, turnout = station.loco(3), station.turnout(1)
            loco.take()
        for call in (
            lambda: station.run([]),
            lambda: station.run(DRIVES),
            lambda: station.byte(0x83),
            lambda: station.send(0x83),
            lambda: station.turn(),
            lambda: station.turn(["shunter"]),
            lambda: station.turns(1),
            lambda: station.nodes,
            lambda: station.running("shunter"),
            lambda: station.outputs("yard"),
            lambda: station.power_on(),
            lambda: loco.speed(1),
            lambda: loco.take(),
            lambda: turnout.throw(),
        ):
            self.fails(ClosedError, "closed", call)
        station.close()
        with Station() as empty:
            pass
        self.fails(ClosedError, "closed", lambda: empty.nodes)

    def test_no_copies(self):
        with Station() as station:
            for call in (copy.copy, copy.deepcopy, pickle.dumps):
                self.fails(TypeError, "cannot be copied", call, station)

    def test_dropped(self):
        with open("/proc/self/statm") as file:
            before = int(file.read().split()[1])
        for _ in range(3000):
            Station([SHORT] * 64)
        gc.collect()
        with open("/proc/self/statm") as file:
            # A layout of 64 decoders has some kilobytes: 3,000 of them that stay would be many megabytes.
            self.assertLess(int(file.read().split()[1]) - before, 2000)

    def test_failed(self):
        station = Station.__new__(Station)
        del station

    def test_repr(self):
        with Station(LAYOUT) as station:
            self.assertEqual(repr(station), "<Station: lines=1, decoders=2, open>")
            self.assertEqual(repr(station.loco(3)), "Loco(address=3, slot=None)")
            self.assertEqual(repr(station.turnout(5)), "Turnout(number=5)")
            self.assertEqual(
                repr(station.running("shunter")), "Motion(kind='stop', step=0, steps=None, forward=True, functions=0)"
            )
            self.assertEqual(repr(station.outputs("yard")), "Outputs(bits=0)")
            self.assertEqual(repr(station.turn()), "Answer(kind='off', data=b'')")
        self.assertEqual(repr(station), "<Station: lines=1, decoders=2, closed>")


@unittest.skipIf(WITHOUT, WITHOUT)
class TestEvents(Test):
    """Bytes, turns and noise."""

    def test_list_is_as_one_by_one(self):
        events = [*DRIVES, *[Turn(1)] * 20, *[Turn()] * 20]
        with Station([SHORT, AccessoryDecoder(1)]) as one, Station([SHORT, AccessoryDecoder(1)]) as other:
            together = one.run(events)
            apart = [
                other.byte(e.byte, e.line) if isinstance(e, Byte) else other.turn([0] if e.missed else [])
                for e in events
            ]
            self.assertEqual(together, apart)
            self.assertEqual(one.running(0), Motion("step", 63, 128, True, 0))
            self.assertEqual(one.nodes, other.nodes)
            self.assertEqual(one.run([Noise(0, 58), Noise(1, 65535)]), [Answer("quiet", b"")] * 2)
            self.assertEqual(one.run([]), [])

    def test_ranges(self):
        with Station([SHORT], lines=2) as station:
            for call in (
                lambda: station.byte(0, line=2),
                lambda: station.byte(256),
                lambda: station.byte(-1),
                lambda: station.send(0x83, line=2),
                lambda: station.run([*DRIVES, Noise(1, 58)]),
                lambda: Noise(0, 65536),
                lambda: Noise(256, 0),
                lambda: Turn(-1),
                lambda: Turn(1 << 64),
                lambda: station.turns(-1),
            ):
                with self.assertRaises(ValueError):
                    call()
            for call in (lambda: station.turn(3), lambda: station.turn("node-0"), lambda: station.run([3])):
                with self.assertRaises(TypeError):
                    call()
            for call in (lambda: station.turn([1]), lambda: station.turn(["shunter"]), lambda: station.running("x")):
                self.fails(StationError, "there is no decoder", call)
            self.fails(StationError, "there is no decoder -1", station.running, -1)
            self.fails(StationError, "there is no decoder 1", station.running, 1)
            self.fails(StationError, "no accessory", station.outputs, 0)
            self.assertEqual(station.turns(0), [])
            # No event of a list that is refused is run.
            self.assertEqual(station.turn(), Answer("off", b""))

    def test_missed(self):
        with Station([SHORT] * 64) as station:
            station.run([*DRIVES, *[Turn(1 << 63)] * 20])
            self.assertEqual([station.running(i).step for i in (0, 62)], [63, 63])
            self.assertEqual(station.running(63).kind, "stop")
            station.turns(20, missed=["node-0"])
            self.assertEqual(station.running("node-63").step, 63)
            # Speed 20, which the first and, by its index, the second decoder miss.
            station.run(bytes_of("A001154B"))
            station.turns(20, missed=["node-0", 1])
            self.assertEqual([station.running(i).step for i in (0, 1, 2, 63)], [63, 63, 20, 20])
            station.turns(20, missed=[])
            self.assertEqual([station.running(i).step for i in (0, 1)], [20, 20])

    def test_threads(self):
        with Station([SHORT]) as station:
            station.run(DRIVES)
            threads = [threading.Thread(target=lambda: [station.turn() for _ in range(500)]) for _ in range(4)]
            for thread in threads:
                thread.start()
            for thread in threads:
                thread.join()
            self.assertEqual(station.running(0).step, 63)


@unittest.skipIf(WITHOUT, WITHOUT)
class TestMessages(Test):
    """Messages and their replies."""

    def test_replies(self):
        with Station([SHORT], lines=2) as station:
            self.assertIsNone(station.send(0x83))
            found = SlotData(1, 3, "idle", 128, 0, False, "forward", 0, "on")
            self.assertEqual(station.send(0xBF, 0, 3, line=1), found)
            self.assertEqual(found.last_step, 126)
            self.assertEqual(station.send(0xBA, 1, 1).state, "in use")
            self.assertEqual(station.send(0xBA, 2, 2), Acknowledge(0xBA, False))
            # Speed 126, reverse, F0, F4 and F5 on, 28 steps; then an emergency stop, and the track paused.
            for body in ((0xA0, 1, 127), (0xA1, 1, 0x38), (0xA2, 1, 1), (0xB5, 1, 0x30)):
                self.assertIsNone(station.send(*body))
            found = SlotData(1, 3, "in use", 28, 126, False, "reverse", 1 | 16 | 32, "on")
            self.assertEqual(station.send(0xBB, 1, 0), found)
            self.assertEqual([found.function(k) for k in (0, 1, 4, 5)], [True, False, True, True])
            station.send(0xA0, 1, 1)
            station.stop_all()
            found = SlotData(1, 3, "in use", 28, 0, True, "reverse", 1 | 16 | 32, "paused")
            self.assertEqual(station.send(0xBB, 1, 0), found)
            self.assertEqual(station.send(0xED, 0x0B, 0x7F, 0x23, 0x22, 3, 0x21, 0, 0, 0), Acknowledge(0xED, True))
            self.assertEqual(station.send(0xBF, 36, 103).address, 4711)
            station.power_off()
            self.assertEqual(station.send(0xBB, 2, 0).power, "off")
            self.assertEqual(station.send(0xBD, 0, 0x30), Acknowledge(0xBD, True))
            # Slot 3 written: locomotive 5, in use, 128 steps with consists allowed. Slot 2 may not have it, too.
            self.assertEqual(station.send(0xEF, 0x0E, 3, 0x37, 5, 0, 0, 7, 0, 0, 0, 0, 0), Acknowledge(0xEF, True))
            self.assertEqual(station.send(0xBB, 3, 0), SlotData(3, 5, "in use", 128, 0, False, "forward", 0, "off"))
            refused = station.send(0xEF, 0x0E, 2, 0x33, 5, 0, 0, 7, 0, 0, 0, 0, 0)
            self.assertEqual(refused, Acknowledge(0xEF, False))

    def test_no_messages(self):
        with Station() as station:
            for body in (
                [],
                [3],
                [0x83, 0],
                [0xA0, 1],
                [0xA0, 1, 0x80],
                [0xED, 0x0B, 0],
                [0xE7],
                [0xE0, 1],
                [0xC0, 0, 0, 0],
            ):
                self.fails(ValueError, "no message", station.send, *body)
            for body in ([256], [-1], [0x83, 300]):
                with self.assertRaises(ValueError):
                    station.send(*body)


@unittest.skipIf(WITHOUT, WITHOUT)
class TestThrottle(Test):
    """Locomotives and turnouts."""

    def test_drives(self):
        for address, decoder in ((3, SHORT), (1234, LocoDecoder.at(1234))):
            with Station([decoder]) as station:
                station.power_on()
                loco = station.loco(address)
                self.assertEqual(loco.take().state, "in use")
                loco.speed(63)
                loco.reverse()
                for number in (0, 1, 4, 5, 8, 9, 12):
                    loco.function(number)
                loco.function(4, False)
                loco.function(9, False)
                self.assertEqual(loco.data().functions, 1 | 1 << 1 | 1 << 5 | 1 << 8)
                station.turns(16)
                wanted = 1 | 1 << 1 | 1 << 5 | 1 << 8 | 1 << 12
                self.assertEqual(station.running(0), Motion("step", 63, 128, False, wanted))
                loco.forward()
                loco.emergency_stop()
                station.turns(16)
                self.assertEqual(station.running(0), Motion("emergency", 0, None, True, wanted))
                loco.speed(0)
                station.turns(16)
                self.assertEqual(station.running(0).kind, "stop")

    def test_two_throttles(self):
        with Station([SHORT]) as station:
            one, other = station.loco(3), station.loco(3)
            one.take()
            other.take()
            one.function(1)
            other.function(2)
            other.reverse()
            self.assertEqual((one.data().functions, one.data().direction), (6, "reverse"))
            one.steps(14)
            one.release()
            found = other.data()
            self.assertEqual((found.state, found.steps), ("common", 14))
            self.fails(StationError, "not taken", one.speed, 1)
            # Free: the slot is no longer the locomotive's.
            station.send(0xB5, found.slot, 0)
            error = self.fails(RefusedError, "locomotive 3: the station sends only function", other.function, 9)
            self.assertEqual(error.opcode, 0xED)
            self.fails(StationError, "take it again", other.data)
            self.assertIsNone(other.slot)
            # Another locomotive comes into its slot, and is not driven instead.
            self.assertEqual(other.take().slot, found.slot)
            station.send(0xB5, found.slot, 0)
            self.assertEqual(station.loco(4).take().slot, found.slot)
            self.fails(StationError, "take it again", other.data)
            self.assertIsNone(other.slot)
            self.assertEqual(other.take().slot, 2)

    def test_refusals(self):
        with Station() as station:
            for address in range(1, 120):
                station.loco(address).take()
            error = self.fails(RefusedError, "take of locomotive 120: no slot is free", station.loco(120).take)
            self.assertEqual(error.opcode, 0xBF)
            for call in (
                lambda: station.loco(0),
                lambda: station.loco(10240),
                lambda: station.turnout(0),
                lambda: station.turnout(2049),
            ):
                with self.assertRaises(ValueError):
                    call()
            loco = station.loco(3)
            self.fails(StationError, "not taken", loco.function, 1)
            loco.take()
            for call in (
                lambda: loco.speed(127),
                lambda: loco.speed(-1),
                lambda: loco.function(13),
                lambda: loco.steps(27),
            ):
                with self.assertRaises(ValueError):
                    call()

    def test_turnouts(self):
        # Turnouts 1 to 4 are module 1's, 5 to 8 module 2's: output 2 * p throws pair p, 2 * p + 1 closes it.
        with Station([AccessoryDecoder(1), AccessoryDecoder(2)]) as station:
            station.power_on()
            station.turnout(1).throw()
            station.turnout(4).close()
            second = station.turnout(6)
            second.close()
            station.turns(40)
            self.assertEqual((station.outputs(0), station.outputs(1)), (Outputs(0b10000001), Outputs(0b1000)))
            self.assertTrue(station.outputs(1).output(3))
            second.off()
            station.turns(40)
            self.assertEqual(station.outputs(1), Outputs(0))

    def test_refused_turnouts(self):
        with Station() as station:
            station.turnout(2040).throw()
            self.fails(RefusedError, "turnout 2041", station.turnout(2041).throw)
            for number in range(1, 32):
                station.turnout(number).throw()
            self.fails(RefusedError, "turnout 32: 32 switch requests are queued", station.turnout(32).close)


if __name__ == "__main__":
    unittest.main()
