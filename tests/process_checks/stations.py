"""Runs of `station`, by docs/PROGRAM.md: its words, files, scripts and examples, and `serve` with clients that have ended."""

import contextlib
import os
import socket
import subprocess

from process_checks.common import TOP, compare, file_of, path, run
from serving import free_port

TAKE = b"line 0 BF 00 03 43\nline 0 83 7C\nline 0 BA 01 01 45\n"
TAKEN = b"reply 0 E7 0E 01 23 03 00 00 06 00 00 00 00 00 31\nreply 0 E7 0E 01 33 03 00 00 07 00 00 00 00 00 20\n"
ONE_LOCOMOTIVE = b'version = 1\n[[node]]\nname = "a"\nkind = "loco"\ncv1 = 3\ncv29 = 2\n'

# Words, and parts of what is on standard error.
USAGE = [
    (["--help"], ["Usage: station", "monitor", "station < session.script"]),
    (["help"], ["Usage: station", "replay ", "monitor ", "serve ", "station < session.script"]),
    (["replay", "--help"], ["Usage: station replay", "--lines <N>", "1 to 8 [default: 1]", "--roster <FILE>", "< session.script"]),
    (["monitor", "--help"], ["Usage: station monitor <FILE>", "hexadecimal", ": station monitor "]),
    (["serve", "--help"], ["Usage: station serve", "--port <P>", "127.0.0.1, 1 to 65535", "--roster <FILE>"]),
    (["serve", "--help"], ["--turns <T>", "0 to 255 [default: 1]", "--reads <R>", "[default: 100000]"]),
    (["serve", "--help"], ["--connections <C>", "1 to 1000 [default: 1]"]),
    (["serve"], ["Usage: station serve", "--port <P>", "required"]),
    (["replay", "--lines", "9"], ["'9'", "--lines <N>", "1..=8"]),
    ([b"monitor", b"caf\xe9.hex"], ["a word is not UTF-8", "Usage: station"]),
    (["--lines", "2"], []),
    (["drive"], []),
    (["replay", "--lines", "0"], []),
    (["replay", "--lines", "x"], []),
    (["replay", "--roster"], []),
    (["replay", "more"], []),
    (["monitor"], []),
    (["monitor", "one", "two"], []),
    (["serve", "--port", "0"], []),
    (["serve", "--port", "65536"], []),
    (["serve", "--port", "80", "--turns", "256"], []),
    (["serve", "--port", "80", "--reads", "0"], []),
    (["serve", "--port", "80", "--reads", "4294967296"], []),
    (["serve", "--port", "80", "--connections", "0"], []),
    (["serve", "--port", "80", "--connections", "1001"], []),
]

# Words whose last is a file that is missing. A roster is read before the port is bound.
UNREAD = [
    ["monitor", "no such file"],
    ["monitor", "caf\u00e9.hex"],
    ["replay", "--roster", "no such file"],
    ["replay", "--lines", "8", "--roster", "a b.toml"],
    ["serve", "--port", "1", "--roster", "no such file"],
    ["serve", "--port=65535", "--turns=0", "--reads=4294967295", "--connections=1000", "--roster=no such file"],
]

# Words, a script, the status and what is printed, or the fault line.
SCRIPTS = [
    ([], TAKE, 0, TAKEN),
    (["replay"], TAKE, 0, TAKEN),
    ([], b"", 0, b""),
    # The bytes of a message may be in several lines of the script.
    ([], b"line 0 BF 00\nline 0 03\nline 0 43 83\nline 0 7C", 0, TAKEN[:50]),
    # Without a roster `show` prints nothing.
    ([], b"line 0 83 7C\nturn 2\nshow\n", 0, b"track 1 FF 00 FF\ntrack 2 FF 00 FF\n"),
    # Turns are counted over the whole script, also where power is off.
    (
        [],
        b"turn 1\nline 0 83 7C\nturn 1\nline 0 85 7A\nturn 1\nline 0 82 7D\nturn 1",
        0,
        b"track 1 off\ntrack 2 FF 00 FF\ntrack 3 00 51 51\ntrack 4 off\n",
    ),
    (["replay", "--lines", "2"], b"line 1 BF 00 03 43", 0, TAKEN[:50].replace(b"reply 0", b"reply 1")),
    (["replay", "--lines", "8"], b"line 7 BF 00 03 43", 0, TAKEN[:50].replace(b"reply 0", b"reply 7")),
    # A fault prints no result, whatever precedes it.
    ([], b"line 0 BF 00 03 43\nline 0 8\n", 5, b"script fault 2 at line 2"),
    (["replay", "--lines", "8"], b"line 7 83\nline 8 83", 5, b"script fault 4 at line 2"),
    ([], b"turns 1", 5, b"script fault 1 at line 1"),
    ([], b"turn 0", 5, b"script fault 3 at line 1"),
    ([], b"line 1 83", 5, b"script fault 4 at line 1"),
    ([], b"turn 1 miss 0", 5, b"script fault 5 at line 1"),
]

# Texts of captures, the status, and what is printed, or the fault line. What is left at the end is no message.
CAPTURES = [
    (b"83 7C A0 01 40", 0, b"msg 83 7C power on\n"),
    (b"BF 0", 5, b"hex fault 1 at byte 3"),
]

# F9 by OPC_IMM_PACKET, and the packets of a cycle, each of which is sent twice, with an idle packet behind it.
F9_ON = b"line 0 BF 00 03 43 83 7C BA 01 01 45\nline 0 ED 0B 7F 23 22 03 21 00 00 00 45\nturn 16\nshow\n"
F9_SENT = ["03 3F 80 BC", "03 80 83", "03 B0 B3", "03 A1 A2"]


def f9_printed():
    turns = [packet for sent in F9_SENT for packet in 2 * (sent, "FF 00 FF")]
    lines = [f"track {turn} {packet}\n" for turn, packet in enumerate(turns, 1)]
    return TAKEN + b"reply 0 B4 7D 7F 49\n" + "".join(lines).encode() + b"node a short 3 stop forward F 0000000001000\n"


def check(words, given, status, text):
    """A run prints this text; with a status that is none of success, this line on standard error."""
    wanted = (0, text, b"") if status == 0 else (status, b"", b"station: " + text + b"\n")
    compare(f"station {words} on {given[:100]!r}", run("station", words, given), wanted)


def try_scripts():
    """Words, scripts, captures, and files at their limits."""
    for words, parts in USAGE:
        status, wrote, told = run("station", words)
        compare(f"station {words}", (status, wrote, told != b""), (1, b"", True))
        for part in parts:
            compare(f"station {words}: {part}", part.encode() in told, True)
    for row in SCRIPTS:
        check(*row)
    with file_of(ONE_LOCOMOTIVE) as roster:
        check(["replay", "--roster", roster], F9_ON, 0, f9_printed())
    for capture, status, text in CAPTURES:
        with file_of(capture) as file:
            check(["monitor", file], b"", status, text)
    for words in UNREAD:
        file = words[-1].rpartition("=")[2]
        check(words, b"turn 0", 2, f"cannot read {file}".encode())
    check(["replay"], b" " * 1_048_576, 0, b"")
    check(["replay"], b" " * 1_048_577, 5, b"script fault 6 at line 0")
    for length, status, text in ((65_536, 3, "roster fault 2 at node 0"), (65_537, 2, "{} is too long")):
        with file_of(b" " * length) as file:
            check(["replay", "--roster", file], b"", status, text.format(file).encode())
    if os.path.exists("/dev/full"):
        with open("/dev/full", "wb") as full:
            found = run("station", ["monitor", "examples/capture.hex"], stdout=full)
        compare("a monitor on a full device", found[::2], (4, b"station: output\n"))
    print("station: words, scripts, captures and files")


# The examples: how many lines, the roster, the script, and all that it prints, or its last lines, worked out by hand: the
# shunter after its emergency stop, with switch 0 closed; both locomotives as last requested, step 126 in reverse, F0 and F1.
EXAMPLES = [
    ("1", "layout", "drive", None),
    ("1", "layout", "turnout", None),
    ("1", "layout", "losses", None),
    ("1", "layout-1", "drive", None),
    ("1", "layout-1", "turnout", None),
    ("2", "long", "throttles", None),
    ("1", "layout", "functions", None),
    ("1", "layout", "refusals", None),
    (
        "1",
        "layout",
        "journey",
        b"\ntrack 80 off\nnode shunter short 3 emergency reverse F 1000000000000\nnode yard module 1 outputs 01000000\n",
    ),
    (
        "1",
        "pair",
        "settled",
        b"\nnode hears-all short 3 step 126 of 128 reverse F 1100000000000\n"
        b"node loses-some short 3 step 126 of 128 reverse F 1100000000000\n",
    ),
]


def try_examples():
    """What `examples/` has, from the files themselves, and the pictures of them."""
    folder = TOP / "examples"
    printed = {}
    for lines, roster, name, end in EXAMPLES:
        script = (folder / f"{name}.script").read_bytes()
        words = ["replay", "--lines", lines, "--roster", f"examples/{roster}.toml"]
        status, printed[name], told = run("station", words, script)
        compare(f"{name} on {roster}", (status, told), (0, b""))
        if end is None:
            compare(f"{name} on {roster}", printed[name], (folder / f"{name}.out").read_bytes())
        else:
            compare(f"the end of {name}", printed[name][-len(end) :], end)
    found = run("station", ["monitor", "examples/capture.hex"])
    compare("the capture", found, (0, (folder / "capture.out").read_bytes(), b""))
    known = {f"{name}.out" for _, _, name, end in EXAMPLES if end is None} | {"capture.out"}
    compare("the outputs", {file.name for file in folder.glob("*.out")}, known)
    picture = (TOP / "docs/pictures/journey.svg").read_bytes()
    compare("journey.svg", run("timeline", [], printed["journey"])[1] == picture, True)
    # The picture of this run in docs/ has captions of its own, so only its form is compared.
    status, drawn, faults = run("timeline", [], printed["settled"])
    compare("the run of settled.svg", (status, faults, drawn.endswith(b"</svg>\n")), (0, b"", True))
    compare("its decoders", [name for name in (b"hears-all", b"loses-some") if name not in drawn], [])
    print("station, timeline: the examples, and journey.svg")


# Options, the bytes of clients that have ended their sending, the status, what is printed behind the line that it listens,
# what the last client receives, and the fault line.
ON = bytes([0x83, 0x7C])
ASKS = bytes([0xBF, 0x00, 0x03, 0x43])
REPLY = bytes.fromhex("E7 0E 01 23 03 00 00 06 00 00 00 00 00 31")
NODE = "node a short 3 stop forward F 0000000000000\n"
SERVED = [
    # One turn after each byte, and one connection, if no options are given.
    ([], [ON], 0, "track 1 off\ntrack 2 FF 00 FF\n", b"", ""),
    (["--turns", "2"], [ON], 0, "track 1 off\ntrack 2 off\ntrack 3 FF 00 FF\ntrack 4 FF 00 FF\n", b"", ""),
    (["--reads", "1", "--turns", "0"], [ON], 4, "", None, "station: serve fault 4\n"),
    # A read has at most 64 bytes, and without the option there are at most 100,000.
    (["--turns", "0"], [bytes(64 * 100_001)], 4, "", None, "station: serve fault 4\n"),
    (["--turns", "0", "--reads", "4294967295"], [bytes(64 * 100_001)], 0, "", b"", ""),
    # Two clients make one message. Turns are numbered anew in each connection.
    (
        ["--connections", "2"],
        [ASKS[:2], ASKS[2:]],
        0,
        "track 1 off\ntrack 2 off\ntrack 1 off\nreply 0 E7 0E 01 23 03 00 00 06 00 00 00 00 00 31\ntrack 2 off\n",
        REPLY,
        "",
    ),
    # The first of two has too many reads, and the second is not served.
    (
        ["--connections", "2", "--reads", "1"],
        [ASKS[:2], ASKS[2:]],
        4,
        "track 1 off\ntrack 2 off\n",
        None,
        "station: serve fault 4\n",
    ),
    # The power that the first turns on is on for the second, and the decoders are printed after each.
    (
        ["--turns", "0", "--connections", "2", "--roster"],
        [ON, ASKS],
        0,
        f"{NODE}reply 0 E7 0E 01 23 03 00 00 07 00 00 00 00 00 30\n{NODE}",
        bytes.fromhex("E7 0E 01 23 03 00 00 07 00 00 00 00 00 30"),
        "",
    ),
]


def sent_to_end(client, data):
    """Sends bytes, and no more behind them. The server may close before it has read them."""
    try:
        client.sendall(data)
        client.shutdown(socket.SHUT_WR)
    except (BrokenPipeError, ConnectionResetError):
        pass


def received(client):
    """What a client receives until its connection ends, and None if that is a reset."""
    found = b""
    try:
        while data := client.recv(4096):
            found += data
    except ConnectionResetError:
        return None
    return found


def try_served():
    """`serve` with clients, one after another."""
    with file_of(ONE_LOCOMOTIVE) as roster:
        for options, sent, status, printed, last, fault in SERVED:
            port = free_port()
            options = [*options, roster] if options[-1:] == ["--roster"] else options
            words = [path("station"), "serve", "--port", str(port), *options]
            with contextlib.ExitStack() as stack:
                server = stack.enter_context(subprocess.Popen(words, cwd=TOP, stdout=subprocess.PIPE, stderr=subprocess.PIPE))
                compare(f"serve {options}", server.stdout.readline(), f"listening 127.0.0.1:{port}\n".encode())
                clients = []
                for data in sent:
                    client = stack.enter_context(socket.create_connection(("127.0.0.1", port), timeout=20))
                    sent_to_end(client, data)
                    clients.append(client)
                if last is not None:
                    # The others are not answered.
                    wanted = [*[b""] * (len(sent) - 1), last]
                    compare(f"serve {options}: its clients", [received(client) for client in clients], wanted)
                wrote, told = server.communicate(timeout=60)
                found = (server.returncode, wrote.decode(), told.decode())
                compare(f"serve {options}", found, (status, printed, fault))
    print("station: clients one after another")
