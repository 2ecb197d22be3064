"""Checks decoders, messages and throttles, without a library or a program: `pytest`, or `python -m unittest` in this
folder. Expected bytes are those of LocoNet Personal Use Edition 1.0, with check bytes worked out by hand, and variables
those of NMRA S-9.2.2.
"""

import pathlib
import sys
import unittest

TOP = pathlib.Path(__file__).resolve().parents[3]
sys.path.insert(0, str(TOP / "bindings/python"))
from station import (  # noqa: E402
    AccessoryDecoder,
    Acknowledge,
    Answer,
    Byte,
    LocoDecoder,
    Motion,
    Noise,
    Outputs,
    RefusedError,
    SensorReport,
    StationError,
    Throttle,
    Turn,
    message_hex,
)
from station.decoders import HasNodes, decoders_in, roster_fault, roster_text  # noqa: E402
from station.messages import checked_message, has_reply, reply_of, sensor_report_in  # noqa: E402

# Locomotive 3 in slot 1, in use, 128 steps, stopped, forward, track on.
SLOT = "E7 0E 01 33 03 00 00 07 00 00 00 00 00 20"
# The reply to OPC_IMM_PACKET, accepted and refused.
PACKET_TAKEN, PACKET_REFUSED = "B4 7D 7F 49", "B4 7D 00 36"
SWITCH_REFUSED = "B4 30 00 7B"


class Recorder(Throttle):
    """A throttle that keeps what is sent, and receives these replies in turn; None is no reply."""

    def __init__(self, *replies):
        self.replies, self.sent = list(replies), []

    def send(self, *body):
        self.sent.append(message_hex(*body))
        reply = self.replies.pop(0) if self.replies else None
        return reply_of(bytes.fromhex(reply)) if reply else None


def taken(*replies):
    """A recorder, and locomotive 3 in its slot 1."""
    throttle = Recorder(SLOT, SLOT, *replies)
    loco = throttle.loco(3)
    loco.take()
    throttle.sent.clear()
    return throttle, loco


class TestDecoders(unittest.TestCase):
    """The variables of a decoder."""

    def test_variables(self):
        # CV29: bit 0 reverses, bit 1 is 28 or 128 steps, bit 5 is the long address, 192 * 256 less than CV17 and CV18.
        for decoder, wanted in (
            (LocoDecoder.at(3), (3, 192, 0, 2)),
            (LocoDecoder.at(3, reversed=True), (3, 192, 0, 3)),
            (LocoDecoder.at(3, steps=28), (3, 192, 0, 2)),
            (LocoDecoder(5), (5, 192, 0, 0)),
            (LocoDecoder.at(3, steps=14), (3, 192, 0, 0)),
            (LocoDecoder.at(1, steps=14, reversed=True), (1, 192, 0, 1)),
            (LocoDecoder.at(127), (127, 192, 0, 2)),
            (LocoDecoder.at(128), (3, 192, 128, 34)),
            (LocoDecoder.at(256, steps=14), (3, 193, 0, 32)),
            (LocoDecoder.at(1234, reversed=True), (3, 196, 210, 35)),
            (LocoDecoder.at(10239), (3, 231, 255, 34)),
        ):
            self.assertEqual((decoder.cv1, decoder.cv17, decoder.cv18, decoder.cv29), wanted)
            self.assertIsNone(decoder.fault())
        self.assertEqual(LocoDecoder.at(128, name="x"), LocoDecoder(3, 192, 128, 34, "x"))
        self.assertEqual(LocoDecoder.at(127, name="x"), LocoDecoder(127, cv29=2, name="x"))
        for address in (0, -1, 10240, True, 3.0, "3"):
            with self.assertRaisesRegex(ValueError, "an address is"):
                LocoDecoder.at(address)

    def test_places_and_faults(self):
        for decoder, place, fault in (
            (LocoDecoder(1), "short 1", "valid"),
            (LocoDecoder(127, cv29=127 - 32), "short 127", "valid"),
            (LocoDecoder(128), "short 128", "CV1 is 128"),
            (LocoDecoder(0), "short 0", "CV1 is 0"),
            (LocoDecoder(3, cv29=128), "short 3", "bit 7"),
            (LocoDecoder(3, 191, 255, 31), "short 3", "valid"),
            (LocoDecoder(3, 191, 255, 32), "long -1", "CV17 is 191"),
            (LocoDecoder(3, 192, 0, 32), "long 0", "valid"),
            (LocoDecoder(3, 231, 255, 32), "long 10239", "valid"),
            (LocoDecoder(3, 232, 0, 32), "long 10240", "CV17 is 232"),
            (AccessoryDecoder(0), "module 0", "module is 0"),
            (AccessoryDecoder(1), "module 1", "valid"),
            (AccessoryDecoder(510), "module 510", "valid"),
            (AccessoryDecoder(511), "module 511", "module is 511"),
        ):
            self.assertEqual(decoder.place, place)
            self.assertIn(fault, decoder.fault() or "valid")


    def test_rosters(self):
        # A pair of each variable, or keys; CV17 is 192 and CV18 0 where they are missing.
        loco = 'version = {}\n[[node]]\nname = "x"\nkind = "loco"\n{}\n'
        for text, wanted in (
            (loco.format(2, "cvs = [[29, 34], [18, 210], [17, 196], [1, 3]]"), LocoDecoder.at(1234, name="x")),
            (loco.format(2, "cvs = [[1, 3], [3, 10], [29, 2]]"), LocoDecoder.at(3, name="x")),
            (loco.format(1, "cv1 = 3\ncv17 = 196\ncv18 = 210\ncv29 = 34"), LocoDecoder.at(1234, name="x")),
            (loco.format(1, "cv1 = 3\ncv29 = 2"), LocoDecoder.at(3, name="x")),
        ):
            self.assertEqual(decoders_in(text), [wanted])
        decoders = [LocoDecoder.at(1234, name="x"), AccessoryDecoder(510, "y")]
        self.assertEqual(decoders_in(roster_text(decoders)), decoders)

    def test_faults_of_rosters(self):
        def text(cvs="[1, 3], [29, 2]", name="x"):
            return f'version = 2\n[[node]]\nname = "{name}"\nkind = "loco"\ncvs = [{cvs}]\n'

        letters = "1 to 16 letters, digits, - or _"
        two = text() + text().partition("\n")[2]
        for roster, decoder, number, reason in (
            # What is found here, in more words than the number has.
            (text("[0, 3]"), 1, 9, "CV0 is none: they are 1 to 1024"),
            (text("[1025, 3]"), 1, 9, "CV1025 is none: they are 1 to 1024"),
            (text("[1, 3], [1024, 0], [1024, 0]"), 1, 9, "CV1024 is there twice"),
            (text("[1, 3], [1024, 0]"), 1, 9, "CV29 is missing"),
            (two, 2, 4, "an earlier decoder has this name"),
            (text(name="seventeen-letters"), 1, 4, f"name is 'seventeen-letters', and has to be {letters}"),
            ("version = 1\n", 0, 7, "no decoder"),
            ("version = 2\n", 0, 7, "no decoder"),
            ("version = 0\n", 0, 2, "version is 0, and has to be 1 or 2"),
            # What is not.
            (text(), 1, 1, "not TOML"),
            (text(), 1, 2, "a key is missing or unknown, or a value is of a wrong type"),
            (text(), 1, 3, "more than 64 decoders"),
            (text(), 1, 4, f"its name is not {letters}, or an earlier decoder has it"),
            (text(), 1, 5, "a variable is not 0 to 255, or they make no locomotive decoder"),
            (text(name="sixteen--letters"), 1, 6, "its module is not 1 to 510"),
            (text(), 1, 9, "a variable is not 1 to 1024 or is there twice, or 1 or 29 is missing"),
            (text(), 1, 8, "it is invalid"),
        ):
            error = roster_fault(roster, decoder, number)
            self.assertEqual((error.reason, error.number, error.decoder), (reason, number, decoder or None))

    def test_states(self):
        class Two(HasNodes):
            nodes = {"loco": Motion("step", 126, 128, True, 1 << 12 | 1), "yard": Outputs(0b10000001)}

        self.assertEqual([Two().running("loco").function(k) for k in (0, 1, 11, 12)], [True, False, False, True])
        self.assertEqual([Two().outputs("yard").output(k) for k in (0, 1, 6, 7)], [True, False, False, True])
        self.assertEqual((Two().running("loco").last_step, Motion("stop", 0, None, True, 0).last_step), (126, None))
        for call, text in (
            (lambda: Two().running("yard"), "decoder yard is no locomotive decoder"),
            (lambda: Two().outputs("loco"), "decoder loco is no accessory decoder"),
            (lambda: Two().running("none"), "there is no decoder none"),
        ):
            with self.assertRaisesRegex(StationError, text):
                call()

    def test_ranges(self):
        for kind, least, most, others in (
            (AccessoryDecoder, (0,), (65535,), ((-1,), (65536,))),
            (Byte, (0, 0), (255, 255), ((-1, 0), (256, 0), (0, -1), (0, 256))),
            (Noise, (0, 0), (255, 65535), ((-1, 0), (256, 0), (0, -1), (0, 65536))),
            (Turn, (0,), ((1 << 64) - 1,), ((-1,), (1 << 64,))),
            (LocoDecoder, (0, 0, 0, 0), (255, 255, 255, 255), ((256,), (3, 256), (3, 0, -1), (3, 0, 0, 256))),
        ):
            # Values that are kept in a set, so they do not change.
            self.assertEqual(len({kind(*least), kind(*least), kind(*most)}), 2)
            for numbers in others:
                with self.assertRaisesRegex(ValueError, "and has to be"):
                    kind(*numbers)
        states = {Motion("stop", 0, None, True, 0), Outputs(0), SensorReport(1, True)}
        replies = {Acknowledge(0xBF, True), Answer("off", b""), reply_of(bytes.fromhex(SLOT))}
        self.assertEqual(len(states | replies), 6)
        self.assertEqual(Turn(), Turn(0))


class TestMessages(unittest.TestCase):
    """Replies and reports."""

    def test_bodies(self):
        # The opcode says how long a message is; from E0 on its second byte does, check byte and all.
        for body, wanted in (
            ("80", "80 7F"),
            ("9F", "9F 60"),
            ("A0 7F 7F", "A0 7F 7F 5F"),
            ("BF 00 03", "BF 00 03 43"),
            ("C0 00 00 00 00", "C0 00 00 00 00 3F"),
            ("DF 01 02 03 04", "DF 01 02 03 04 24"),
            ("E0 03", "E0 03 1C"),
            ("E0 04 00", "E0 04 00 1B"),
        ):
            self.assertEqual(checked_message(bytes.fromhex(body)).hex(" ").upper(), wanted)
        others = ("", "7F", "80 00", "A0", "A0 80 00", "A0 00 80", "A0 00", "C0 00 00", "DF 01 02", "E0", "E0 02", "E0 04")
        for body in others:
            with self.assertRaisesRegex(ValueError, "no message"):
                checked_message(bytes.fromhex(body))

    def test_slot_data(self):
        for text, field, wanted in (
            # STAT1: bits 5 and 4 are the state, 2 to 0 the type.
            ("E7 0E 01 03 03 00 00 07 00 00 00 00 00 10", "state", "free"),
            ("E7 0E 01 13 03 00 00 07 00 00 00 00 00 00", "state", "common"),
            ("E7 0E 01 23 03 00 00 07 00 00 00 00 00 30", "state", "idle"),
            (SLOT, "state", "in use"),
            ("E7 0E 01 30 03 00 00 07 00 00 00 00 00 23", "steps", 28),
            ("E7 0E 01 31 03 00 00 07 00 00 00 00 00 22", "steps", 28),
            ("E7 0E 01 32 03 00 00 07 00 00 00 00 00 21", "steps", 14),
            (SLOT, "steps", 128),
            ("E7 0E 01 34 03 00 00 07 00 00 00 00 00 27", "steps", 28),
            ("E7 0E 01 37 03 00 00 07 00 00 00 00 00 24", "steps", 128),
            # SPD: 0 stop, 1 emergency stop.
            (SLOT, "speed", 0),
            ("E7 0E 01 33 03 01 00 07 00 00 00 00 00 21", "speed", 0),
            ("E7 0E 01 33 03 02 00 07 00 00 00 00 00 22", "speed", 1),
            ("E7 0E 01 33 03 7F 00 07 00 00 00 00 00 5F", "speed", 126),
            (SLOT, "emergency", False),
            ("E7 0E 01 33 03 01 00 07 00 00 00 00 00 21", "emergency", True),
            ("E7 0E 01 33 03 02 00 07 00 00 00 00 00 22", "emergency", False),
            # DIRF: bit 5 the direction, 4 F0, 3 to 0 F4 to F1. SND: bits 3 to 0 F8 to F5.
            (SLOT, "direction", "forward"),
            ("E7 0E 01 33 03 00 20 07 00 00 00 00 00 00", "direction", "reverse"),
            ("E7 0E 01 33 03 00 1F 07 00 00 00 00 00 3F", "direction", "forward"),
            ("E7 0E 01 33 03 00 10 07 00 00 00 00 00 30", "functions", 1),
            ("E7 0E 01 33 03 00 01 07 00 00 00 00 00 21", "functions", 1 << 1),
            ("E7 0E 01 33 03 00 02 07 00 00 00 00 00 22", "functions", 1 << 2),
            ("E7 0E 01 33 03 00 04 07 00 00 00 00 00 24", "functions", 1 << 3),
            ("E7 0E 01 33 03 00 08 07 00 00 00 00 00 28", "functions", 1 << 4),
            ("E7 0E 01 33 03 00 20 07 00 00 01 00 00 01", "functions", 1 << 5),
            ("E7 0E 01 33 03 00 20 07 00 00 02 00 00 02", "functions", 1 << 6),
            ("E7 0E 01 33 03 00 20 07 00 00 04 00 00 04", "functions", 1 << 7),
            ("E7 0E 01 33 03 00 20 07 00 00 78 00 00 78", "functions", 1 << 8),
            # TRK: bit 0 is power, and bit 1 is 0 while all are stopped.
            (SLOT, "power", "on"),
            ("E7 0E 01 33 03 00 00 05 00 00 00 00 00 22", "power", "paused"),
            ("E7 0E 01 33 03 00 00 06 00 00 00 00 00 21", "power", "off"),
            # The address is in ADR and ADR2, of seven bits each.
            (SLOT, "address", 3),
            ("E7 0E 02 33 7F 00 00 07 00 4F 00 00 00 10", "address", 10239),
            ("E7 0E 02 33 7F 00 00 07 00 4F 00 00 00 10", "slot", 2),
        ):
            message = bytes.fromhex(text)
            self.assertEqual(message_hex(*message[:-1]), text)
            self.assertEqual(getattr(reply_of(message), field), wanted, text)

    def test_acknowledges(self):
        for text, opcode, accepted, reason in (
            ("B4 3F 00 74", 0xBF, False, "no slot is free"),
            ("B4 3B 00 70", 0xBB, False, "there is no such slot"),
            ("B4 3A 00 71", 0xBA, False, "the slot is free, or no locomotive waits to be dispatched"),
            ("B4 30 00 7B", 0xB0, False, "there is no such turnout"),
            ("B4 3D 00 76", 0xBD, False, "there is no such turnout"),
            ("B4 3D 7F 09", 0xBD, True, "there is no such turnout"),
            ("B4 7D 00 36", 0xED, False, "only function group three"),
            ("B4 6D 7F 59", 0xED, True, "only function group three"),
            ("B4 6F 00 24", 0xEF, False, "another slot has the address"),
            ("B4 6F 7F 5B", 0xEF, True, "another slot has the address"),
            ("B4 38 00 73", 0xB8, False, "the station refused it"),
        ):
            found = reply_of(bytes.fromhex(text))
            self.assertEqual(found, Acknowledge(opcode, accepted))
            self.assertIn(reason, found.reason)
        for text in ("83 7C", "E7 0F 01 33 03 00 00 07 00 00 00 00 00 00 21", "E7 0E 01 33 03 00 00 07 00 00 00 00 00"):
            with self.assertRaisesRegex(ValueError, "no reply"):
                reply_of(bytes.fromhex(text))

    def test_which_have_a_reply(self):
        for text, wanted in (
            ("BA 01 01 45", True),
            ("EF 0E 01 33 03 00 00 07 00 00 00 00 00 28", True),
            ("EF 04 01 15", False),
            ("ED 0B 7F 23 22 03 21 00 00 00 45", True),
            ("ED 0B 7E 23 22 03 21 00 00 00 44", False),
            ("E7 0E 01 33 03 00 00 07 00 00 00 00 00 20", False),
            ("B0 04 10 5B", None),
            ("B4 3F 00 74", False),
        ):
            self.assertIs(has_reply(bytes.fromhex(text)), wanted, text)

    def test_sensors(self):
        # OPC_INPUT_REP: of IN2 bit 5 is the second of the two inputs, 4 the level, 3 to 0 address bits 10 to 7.
        for text, wanted in (
            ("RECEIVE B2 00 40 0D", SensorReport(1, False)),
            ("RECEIVE B2 00 50 1D", SensorReport(1, True)),
            ("RECEIVE B2 00 60 2D", SensorReport(2, False)),
            ("RECEIVE B2 00 70 3D", SensorReport(2, True)),
            ("RECEIVE B2 01 50 1C", SensorReport(3, True)),
            ("RECEIVE B2 00 51 1C", SensorReport(257, True)),
            ("RECEIVE B2 7F 5F 6D", SensorReport(4095, True)),
            ("RECEIVE B2 7F 6F 5D", SensorReport(4096, False)),
            ("RECEIVE B0 00 50 1F", None),
            ("SENT OK", None),
        ):
            self.assertEqual(sensor_report_in(text), wanted, text)


class TestThrottle(unittest.TestCase):
    """What locomotives and turnouts send."""

    def test_power(self):
        throttle = Recorder()
        throttle.power_on()
        throttle.power_off()
        throttle.stop_all()
        self.assertEqual(throttle.sent, ["83 7C", "82 7D", "85 7A"])

    def test_take(self):
        for address, asks in ((3, "BF 00 03 43"), (128, "BF 01 00 41"), (10239, "BF 4F 7F 70")):
            throttle = Recorder("E7 0E 02 23 03 00 00 07 00 00 00 00 00 33", "E7 0E 02 33 03 00 00 07 00 00 00 00 00 23")
            loco = throttle.loco(address)
            self.assertEqual(loco.take().state, "in use")
            self.assertEqual((throttle.sent, loco.slot), ([asks, "BA 02 02 45"], 2))
        for replies, error, text in (
            (["B4 3F 00 74"], RefusedError, "take of locomotive 3: no slot is free"),
            ([SLOT, "B4 3A 00 71"], RefusedError, "take of locomotive 3: the slot is free, or no locomotive waits"),
            ([SLOT, None], StationError, "is no slot data"),
            (["B4 3F 7F 0B"], StationError, "is no slot data"),
        ):
            with self.assertRaisesRegex(error, text):
                Recorder(*replies).loco(3).take()

    def test_another_in_its_slot(self):
        for text in (
            # Another state; another locomotive, in use; both.
            "E7 0E 01 03 03 00 00 07 00 00 00 00 00 10",
            "E7 0E 01 33 04 00 00 07 00 00 00 00 00 27",
            "E7 0E 01 03 04 00 00 07 00 00 00 00 00 17",
        ):
            throttle, loco = taken(text)
            with self.assertRaisesRegex(StationError, "slot 1 is no longer its slot"):
                loco.data()
            self.assertIsNone(loco.slot)
            with self.assertRaisesRegex(StationError, "not taken"):
                loco.speed(1)
            self.assertEqual(throttle.sent, ["BB 01 00 45"])

    def test_speed(self):
        throttle, loco = taken()
        for speed in (0, 1, 63, 126):
            loco.speed(speed)
        loco.emergency_stop()
        wanted = ["A0 01 00 5E", "A0 01 02 5C", "A0 01 40 1E", "A0 01 7F 21", "A0 01 01 5F"]
        self.assertEqual(throttle.sent, wanted)
        for call, number, text in (
            (loco.speed, 127, "a speed is 127, and has to be 0 to 126"),
            (loco.speed, -1, "a speed is -1"),
            (loco.function, 13, "a function is 13, and has to be 0 to 12"),
            (loco.function, -1, "a function is -1"),
            (loco.steps, 126, "steps is 126, and has to be 14, 28 or 128"),
            (throttle.loco, 10240, "an address is 10240, and has to be 1 to 10239"),
            (throttle.turnout, 2049, "a turnout is 2049, and has to be 1 to 2048"),
        ):
            with self.assertRaisesRegex(ValueError, text):
                call(number)
        self.assertEqual(throttle.sent, wanted)

    def test_direction_and_functions(self):
        # DIRF and SND of the slot, then what is sent: all bits but the one that is asked stay.
        none, reverse = SLOT, "E7 0E 01 33 03 00 20 07 00 00 00 00 00 00"
        every = "E7 0E 01 33 03 00 3F 07 00 00 0F 00 00 10"
        for slot, call, sent in (
            (none, lambda loco: loco.reverse(), "A1 01 20 7F"),
            (none, lambda loco: loco.forward(), "A1 01 00 5F"),
            (every, lambda loco: loco.forward(), "A1 01 1F 40"),
            (every, lambda loco: loco.forward(False), "A1 01 3F 60"),
            (none, lambda loco: loco.function(0), "A1 01 10 4F"),
            (none, lambda loco: loco.function(1), "A1 01 01 5E"),
            (none, lambda loco: loco.function(2), "A1 01 02 5D"),
            (reverse, lambda loco: loco.function(3), "A1 01 24 7B"),
            (none, lambda loco: loco.function(4), "A1 01 08 57"),
            (every, lambda loco: loco.function(4, False), "A1 01 37 68"),
            (every, lambda loco: loco.function(0, False), "A1 01 2F 70"),
            (none, lambda loco: loco.function(5), "A2 01 01 5D"),
            (none, lambda loco: loco.function(6), "A2 01 02 5E"),
            (none, lambda loco: loco.function(7), "A2 01 04 58"),
            (reverse, lambda loco: loco.function(8), "A2 01 08 54"),
            (every, lambda loco: loco.function(5, False), "A2 01 0E 52"),
        ):
            throttle, loco = taken(slot)
            call(loco)
            self.assertEqual(throttle.sent, ["BB 01 00 45", sent])

    def test_nine_to_twelve(self):
        # The packet is the address, 192 * 256 more if it is long, and 101 0 F12 to F9. Bit i of DHI is bit 7 of its byte i.
        for address, number, sent in (
            (3, 9, "ED 0B 7F 23 22 03 21 00 00 00 45"),
            (3, 10, "ED 0B 7F 23 22 03 22 00 00 00 46"),
            (3, 11, "ED 0B 7F 23 22 03 24 00 00 00 40"),
            (3, 12, "ED 0B 7F 23 22 03 28 00 00 00 4C"),
            (127, 9, "ED 0B 7F 23 22 7F 21 00 00 00 39"),
            (128, 9, "ED 0B 7F 33 27 40 00 21 00 00 13"),
            (1025, 9, "ED 0B 7F 33 25 44 01 21 00 00 14"),
            (10239, 9, "ED 0B 7F 33 27 67 7F 21 00 00 4B"),
        ):
            throttle = Recorder(SLOT, SLOT, PACKET_TAKEN)
            loco = throttle.loco(address)
            loco.take()
            loco.function(number)
            self.assertEqual(throttle.sent[2:], [sent])

    def test_nine_to_twelve_together(self):
        # What is refused is not kept, and taking it again forgets all.
        replies = [PACKET_TAKEN] * 3 + [PACKET_REFUSED, PACKET_TAKEN, SLOT, SLOT, PACKET_TAKEN]
        throttle, loco = taken(*replies)
        loco.function(9)
        loco.function(10)
        loco.function(9, False)
        with self.assertRaisesRegex(RefusedError, "locomotive 3: the station sends only function") as caught:
            loco.function(11)
        self.assertEqual(caught.exception.opcode, 0xED)
        loco.function(12)
        loco.take()
        loco.function(11)
        self.assertEqual(
            throttle.sent,
            [
                "ED 0B 7F 23 22 03 21 00 00 00 45",
                "ED 0B 7F 23 22 03 23 00 00 00 47",
                "ED 0B 7F 23 22 03 22 00 00 00 46",
                "ED 0B 7F 23 22 03 26 00 00 00 42",
                "ED 0B 7F 23 22 03 2A 00 00 00 4E",
                "BF 00 03 43",
                "BA 01 01 45",
                "ED 0B 7F 23 22 03 24 00 00 00 40",
            ],
        )

    def test_steps_and_release(self):
        for steps, sent in ((14, "B5 01 32 79"), (28, "B5 01 30 7B"), (128, "B5 01 33 78")):
            throttle, loco = taken()
            loco.steps(steps)
            self.assertEqual(throttle.sent, [sent])
        for slot, sent in (
            (SLOT, "B5 01 13 58"),
            ("E7 0E 01 30 03 00 00 07 00 00 00 00 00 23", "B5 01 10 5B"),
            ("E7 0E 01 32 03 00 00 07 00 00 00 00 00 21", "B5 01 12 59"),
        ):
            throttle, loco = taken(slot)
            loco.release()
            self.assertEqual((throttle.sent, loco.slot), (["BB 01 00 45", sent], None))

    def test_turnouts(self):
        # SW1 has the address, less 1, bits 6 to 0; of SW2 bits 3 to 0 are its bits 10 to 7, 5 is closed, 4 on.
        for number, throw, off, close, off_again in (
            (1, "B0 00 10 5F", "B0 00 00 4F", "B0 00 30 7F", "B0 00 20 6F"),
            (128, "B0 7F 10 20", "B0 7F 00 30", "B0 7F 30 00", "B0 7F 20 10"),
            (129, "B0 00 11 5E", "B0 00 01 4E", "B0 00 31 7E", "B0 00 21 6E"),
            (2048, "B0 7F 1F 2F", "B0 7F 0F 3F", "B0 7F 3F 0F", "B0 7F 2F 1F"),
        ):
            throttle = Recorder()
            turnout = throttle.turnout(number)
            for call in (turnout.throw, turnout.off, turnout.close, turnout.off):
                call()
            # Before, it is the output that throws.
            throttle.turnout(number).off()
            self.assertEqual(throttle.sent, [throw, off, close, off_again, off])

    def test_off_after_a_refusal(self):
        throttle = Recorder(None, SWITCH_REFUSED)
        turnout = throttle.turnout(1)
        turnout.throw()
        with self.assertRaisesRegex(RefusedError, "turnout 1: 32 switch requests are queued"):
            turnout.close()
        # The output that is on is that of `throw`.
        turnout.off()
        self.assertEqual(throttle.sent, ["B0 00 10 5F", "B0 00 30 7F", "B0 00 00 4F"])


if __name__ == "__main__":
    unittest.main()
