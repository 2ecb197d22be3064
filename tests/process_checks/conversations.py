"""Conversations of throttles with `station replay`, whole and cut anywhere, and bytes that no honest throttle sends."""

import concurrent.futures
import pathlib

from process_checks.common import compare, file_of, run
from serving import message_hex

POWER_ON = "83 7C"
# Address 3 is loaded into slot 1, the track gets power, and a null move puts the slot in use.
BEFORE = [
    (">", "BF 00 03 43"),
    ("<", "E7 0E 01 23 03 00 00 06 00 00 00 00 00 31"),
    (">", POWER_ON),
    (">", "BA 01 01 45"),
    ("<", "E7 0E 01 33 03 00 00 07 00 00 00 00 00 20"),
]
IN_USE = [text for sign, text in BEFORE if sign == ">"]
# A dispatch get is refused where no slot is marked.
NO_MARK = [(">", "BA 00 00 45"), ("<", "B4 3A 00 71")]
IDLE = "FF 00 FF"


def blocks():
    """Of each conversation its name, and its lines, each a sign and bytes."""
    text = (pathlib.Path(__file__).resolve().parent / "conversations.txt").read_text()
    for block in text.split("\n\n")[1:]:
        name, *lines = block.splitlines()
        found = [(line[0], line[2:]) for line in lines if line != "in use"]
        # In a block of turns no reply is written down.
        before = [line for line in BEFORE if line[0] == ">" or "<" in dict(found)]
        yield name[2:], before + found if lines[0] == "in use" else found


def lines_of(script, *words):
    """What a script prints: `reply` or `track`, and bytes."""
    status, wrote, told = run("station", ["replay", *words], script.encode())
    compare(f"the status of {script[-200:]!r}", (status, told), (0, b""))
    return [(kind, text) for kind, _, text in (line.split(" ", 2) for line in wrote.decode().splitlines())]


def play(script, *words):
    """The replies that a script prints, and the packets of its turns."""
    found = lines_of(script, *words)
    return tuple([text for kind, text in found if kind == wanted] for wanted in ("reply", "track"))


def hold(name, lines):
    """A conversation has its replies and its turns."""
    script = "".join(f"line 0 {text}\n" if sign == ">" else "turn 1\n" for sign, text in lines if sign != "<")
    replies, turns = play(script)
    compare(f"{name}: turns", turns, [text for sign, text in lines if sign == "="])
    wanted = [text for sign, text in lines if sign == "<"]
    if not wanted:
        return
    compare(f"{name}: replies", replies, wanted)
    # Each reply follows its message, with a turn behind each, and no slot is marked for dispatch.
    lines = lines + NO_MARK
    found = lines_of("".join(f"line 0 {text}\nturn 1\n" for sign, text in lines if sign == ">"))
    wanted = []
    for (sign, text), (following, _) in zip(lines, [*lines[1:], (">", None)]):
        wanted += [("reply", text)] if sign == "<" else []
        wanted += [("track", None)] if following == ">" else []
    compare(f"{name}, with turns", [(kind, text if kind == "reply" else None) for kind, text in found], wanted)


def comes_on(data, line=0, lines=1):
    """After these bytes, each with its line, power comes on by a message on a line, without a reply."""
    script = "".join(f"line {on} {byte:02X}\n" for on, byte in data)
    found = lines_of(f"{script}turn 1\nline {line} {POWER_ON}\nturn 1\n", "--lines", str(lines))
    return [kind for kind, _ in found[-2:]] == ["track", "track"] and found[-1][1] != "off"


def cuts_of(messages):
    """All fronts of the bytes of messages on line 0."""
    data = tuple((0, byte) for byte in bytes.fromhex(" ".join(messages)))
    return {data[:length] for length in range(len(data) + 1)}


# Messages to slot 1 in use, and how the decoder of address 3 stands after a refresh cycle: F0 to F12, then the direction.
FUNCTIONS = [
    ("A1 01 10 4F", "forward F 1000000000000"),
    ("A1 01 01 5E", "forward F 0100000000000"),
    ("A1 01 02 5D", "forward F 0010000000000"),
    ("A1 01 04 5B", "forward F 0001000000000"),
    ("A1 01 08 57", "forward F 0000100000000"),
    ("A2 01 01 5D", "forward F 0000010000000"),
    ("A2 01 02 5E", "forward F 0000001000000"),
    ("A2 01 04 58", "forward F 0000000100000"),
    ("A2 01 08 54", "forward F 0000000010000"),
    ("ED 0B 7F 20 02 03 21 00 00 00 66", "forward F 0000000001000"),
    ("ED 0B 7F 20 02 03 22 00 00 00 65", "forward F 0000000000100"),
    ("ED 0B 7F 20 02 03 24 00 00 00 63", "forward F 0000000000010"),
    ("ED 0B 7F 20 02 03 28 00 00 00 6F", "forward F 0000000000001"),
    ("A1 01 20 7F", "reverse F 0000000000000"),
]
LOCOMOTIVE = b"version = 1\nnode = [{name = 'a', kind = 'loco', cv1 = 3, cv29 = 2}]"


def try_functions():
    with file_of(LOCOMOTIVE) as roster:
        for said, state in FUNCTIONS:
            script = "".join(f"line 0 {text}\n" for text in [*IN_USE, said]) + "turn 16\nshow\n"
            _, wrote, _ = run("station", ["replay", "--roster", roster], script.encode())
            compare(f"F by {said}", wrote.decode().splitlines()[-1], f"node a short 3 stop {state}")


# An address that is in a slot, how many bytes of a packet count, the packet without its check, and whether it is accepted.
PACKETS = [
    (127, 2, "7F A1 00", True),
    (127, 3, "C0 7F A1", False),
    (128, 3, "C0 80 A1", True),
    (128, 2, "80 A1 00", False),
    (3, 3, "C0 03 A1", False),
    # No function group.
    (3, 2, "C0 03 00", False),
    (1, 3, "C0 00 A1", False),
    (10239, 3, "E7 FF A1", True),
    (10239, 3, "E8 FF A1", False),
    # Of 10238, which is in no slot.
    (10239, 3, "E7 FE A1", False),
    (3, 2, "03 A1 00", True),
    # Function groups two and one.
    (3, 2, "03 B1 00", False),
    (3, 2, "03 91 00", False),
    # A broadcast.
    (3, 2, "00 A1 00", False),
    # Only the bytes that count are read.
    *((3, count, "03 A1 00", count == 2) for count in range(8)),
    *((1234, count, "C4 D2 A1", count == 3) for count in range(8)),
]


def immediate(count, packet):
    """OPC_IMM_PACKET with three bytes of a packet, of which so many count. The highest bit of each is in the fifth byte."""
    data = bytes.fromhex(packet)
    high = sum(byte >> 7 << i for i, byte in enumerate(data))
    return message_hex(0xED, 0x0B, 0x7F, count << 4 | 3, 0x20 | high, *(byte & 0x7F for byte in data), 0, 0)


def packet_of(address, *instruction):
    """The packet of an instruction, with its check (S-9.2.1)."""
    body = [*([address] if address < 128 else [0xC0 + address // 256, address % 256]), *instruction]
    check = 0
    for byte in body:
        check ^= byte
    return bytes([*body, check]).hex(" ").upper()


def try_immediate(address, count, packet, taken):
    """A packet is accepted, which sets F9, or refused, which sets nothing."""
    asked = message_hex(0xBF, address // 128, address % 128)
    said = immediate(count, packet)
    replies, turns = play(f"line 0 {asked}\nline 0 {said}\nline 0 {POWER_ON}\nline 0 BA 01 01 45\nturn 16\n")
    compare(f"{address}: {said}", replies[1], "B4 7D 7F 49" if taken else "B4 7D 00 36")
    sent = [packet_of(address, *bits) for bits in ([0x3F, 0x80], [0x80], [0xB0], [0xA1 if taken else 0xA0])]
    compare(f"{address}: what follows {said}", sorted(set(turns)), sorted({*sent, IDLE}))
    return [asked, said]


# Messages after which all four packets of a slot are queued, and others, with those before: see `library_tests`.
LOADED, USED, PUT = [POWER_ON, "BF 00 03 43"], ["BA 01 01 45"], ["BA 01 00 44"]
WRITE = "EF 0E 01 33 03 00 00 07 00 00 00 00 00 28"
QUEUED = [
    *([*LOADED, said] for said in ("B5 01 33 78", "B5 01 13 58", *USED, *PUT, WRITE)),
    *([*LOADED, *USED, said] for said in ("B5 01 30 7B", *USED, *PUT, WRITE, "A0 01 40 1E", "A1 01 20 7F", "A2 01 05 59")),
    *([*LOADED, *USED, said] for said in ("ED 0B 7F 20 02 03 21 00 00 00 66", "BF 00 03 43", "BB 01 00 45")),
    *([*LOADED, *PUT, said] for said in ("BA 00 00 45", "BA 01 02 46")),
]

# Two messages on two lines, each byte with its line.
INTERLEAVED = [(0, 0xBF), (1, 0x83), (0, 0x00), (1, 0x7C), (0, 0x03), (0, 0x43)]
CLOSE = "B0 00 30 7F"
SWITCHES_REFUSED = [(CLOSE, "B4 30 00 7B"), ("BD 00 30 72", "B4 3D 00 76")]


def full():
    """All slots have addresses, slot 1 address 1: one more is refused, and one of them is found. Returns the messages."""
    taken = [message_hex(0xBF, 0, address) for address in range(1, 120)]
    said = [*taken, "BF 00 78 38", "BF 00 01 41"]
    replies, _ = play("".join(f"line 0 {text}\n" for text in said))
    wanted = [message_hex(0xE7, 0x0E, i, 0x23, i, 0, 0, 6, 0, 0, 0, 0, 0) for i in range(1, 120)]
    compare("119 addresses", replies, [*wanted, "B4 3F 00 74", wanted[0]])
    return said


def thirty_two_switches():
    """Thirty-two switch requests are queued, and one more is refused. Returns the messages."""
    said = 32 * [CLOSE] + [text for text, _ in SWITCHES_REFUSED]
    replies, _ = play("".join(f"line 0 {text}\n" for text in said))
    compare("32 switch requests", replies, [text for _, text in SWITCHES_REFUSED])
    return said


def try_counts():
    """Each opcode whose message has a count, with each count, and then only 00, changes nothing, and power comes on then."""
    for opcode in range(0xE0, 0x100):
        script = "".join(f"line 0 {opcode:02X} {count:02X}{128 * ' 00'}\nturn 1\n"
                         f"line 0 {POWER_ON}\nturn 1\nline 0 82 7D\n" for count in range(128))
        compare(f"{opcode:02X} with each count", play(script), ([], 128 * ["off", IDLE]))
    # The longest message that a count can give, and one whose end is another message.
    longest = f"line 0 FF 7F{124 * ' 00'}"
    compare("the longest message", play(f"{longest} 7F\nturn 1\n"), ([], ["off"]))
    compare("one without its end", play(f"{longest} 83 7C\nturn 1\n"), ([], [IDLE]))
    with file_of(f"FF 7F{124 * ' 00'} 7F".encode()) as capture:
        found = run("station", ["monitor", capture])
    compare("the longest message", found, (0, f"msg FF 7F{124 * ' 00'} 7F other\n".encode(), b""))


def try_conversations():
    """Replies and turns of conversations; and after any front of their bytes power comes on."""
    cuts = set()
    for name, lines in blocks():
        hold(name, lines)
        cuts |= cuts_of([text for sign, text in lines if sign == ">"])
    try_functions()
    for said, _ in FUNCTIONS:
        cuts |= cuts_of([*IN_USE, said])
    for row in PACKETS:
        cuts |= cuts_of(try_immediate(*row))
    for messages in [*QUEUED, full(), thirty_two_switches()]:
        cuts |= cuts_of(messages)
    fronts = [INTERLEAVED[:length] for length in range(len(INTERLEAVED) + 1)]
    with concurrent.futures.ThreadPoolExecutor(4) as pool:
        failed = [data for data, is_on in zip(cuts, pool.map(comes_on, cuts)) if not is_on]
        for line in (0, 1):
            failed += [data for data, is_on in zip(fronts, pool.map(lambda data: comes_on(data, line, 2), fronts)) if not is_on]
    compare("bytes after which power does not come on", failed, [])
    found = play("".join(f"line {line} {byte:02X}\n" for line, byte in INTERLEAVED), "--lines", "2")
    compare("lines share nothing", found, (["E7 0E 01 23 03 00 00 07 00 00 00 00 00 30"], []))
    try_counts()
    print(f"station: conversations, and {len(cuts)} fronts of them")
