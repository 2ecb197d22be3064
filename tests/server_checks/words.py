"""The words of the command line: the help, and what is refused."""

import re
import resource
import socket
import tempfile

from server_checks.common import holds, run, same, serve
from serving import TOP, free_port

# Of each option, how it is written, what its help has to say of its unit, and its default where clap prints it.
UNITS = {
    "address": ("<A>", "IPv4", "127.0.0.1"),
    "port": ("<P>", "TCP port", "1234"),
    "roster": ("<FILE>", "", None),
    "turns": ("<T>", "turns after each message", None),
    "rate": ("<R>", "times as fast", None),
    "clients": ("<C>", "clients have disconnected, with 0 at once", None),
    "track": ("", "packets on the track", None),
    "quiet": ("", "nothing but the addresses", None),
    "times": ("", "track time", None),
    "page": ("<PORT>", "TCP port", None),
    "page-file": ("<FILE>", "pages/throttle.html", None),
    "host": ("<NAME>", "besides localhost", None),
    "lose": ("<N>", "of 100 packets", None),
    "seed": ("<S>", "", "0"),
}


def help_text():
    """--help has each option of docs/CLIENTS.md with its range, its unit and its default"""
    status, wrote, faults = run("--help")
    same("status and standard error", (status, faults), (0, ""))
    parts = dict(re.findall(r"^ +--([a-z-]+) ?(.*)$", wrote, re.M))
    rows = re.findall(r"^`--([a-z-]+)[^|]*\| (.*) \| (.*)$", (TOP / "docs/CLIENTS.md").read_text(), re.M)
    same("options of the document", {name for name, _, _ in rows} >= set(UNITS), True)
    for name, meaning, without in rows:
        if name not in UNITS:
            continue
        word, unit, default = UNITS[name]
        part = parts.get(name, "")
        holds(f"--{name} {word} in {part!r}", part.strip().startswith(word) and unit in part)
        for span in re.findall(r"\d+ to \d+", meaning):
            # The words are refused past it, and the last of it is no limit that anybody meets.
            holds(f"--{name} has {span}", span in part or name == "clients")
        same(f"--{name}: default", re.findall(r"\[default: (.*?)\]", part), [] if default is None else [default])
        holds(f"--{name} has its default in the document", default is None or without.startswith(default))
    holds("the real time", "real time" in parts["turns"])


# Words that are refused, and what the line says beside `error: `.
BAD_WORDS = [
    (["help"], "help"),
    (["1234"], "1234"),
    (["--nothing"], "--nothing"),
    (["--address", "localhost"], "the address is no IPv4 address"),
    (["--address", "127.0.0.256"], "the address is no IPv4 address"),
    (["--address", "::1"], "the address is no IPv4 address"),
    (["--port", "65536"], "0..=65535"),
    (["--port", "x"], "--port"),
    (["--turns", "256"], "0..=255"),
    (["--rate", "0"], "1..=100"),
    (["--rate", "101"], "1..=100"),
    (["--rate", "2", "--turns", "1"], "--rate cannot be used with --turns"),
    (["--clients", "4294967296"], "0..=4294967295"),
    (["--track=on"], "--track"),
    (["--quiet=on"], "--quiet"),
    (["--times=on"], "--times"),
    (["--page", "65536"], "0..=65535"),
    (["--page-file"], "--page-file"),
    (["--page-file", "pages/throttle.html"], "--page-file needs --page"),
    (["--plan"], "--plan"),
    (["--plan", "examples/oval.toml"], "--plan needs --roster"),
    (["--host", ""], "the host is no name"),
    (["--host", "station:8080"], "the host is no name"),
    (["--lose", "100"], "0..=99"),
    (["--lose", "x"], "--lose"),
    (["--lose", "shunter=100"], "0..=99"),
    (["--lose", "shunter="], "NAME=N"),
    (["--lose", "1", "--lose", "1"], "--lose is given twice"),
    (["--lose", "shunter=1", "--lose", "2", "--lose", "shunter=3"], "--lose is given twice"),
    (["--seed", "4294967296"], "0..=4294967295"),
    (["--roster"], "--roster"),
    ([b"caf\xe9"], "a word is not UTF-8"),
]


def bad_words():
    """bad words have status 1 and say what is bad, without the help"""
    for words, part in BAD_WORDS:
        status, wrote, faults = run(*words)
        same(f"{words}: status and standard output", (status, wrote), (1, ""))
        first = faults.splitlines()[:1]
        holds(f"{words}: {first}, and not an error with {part!r}", faults.startswith("error: ") and part in faults)
        holds(f"{words}: the help is printed", "up to eight at once" not in faults)


# Numbers that are accepted: all that there are, and of a seed the least and the most, and one between.
GOOD_NUMBERS = {"rate": range(1, 101), "turns": range(256), "lose": range(100), "seed": (0, 50, 4_294_967_295)}


def good_words():
    """words of an order are carried out, with status 0"""
    for name, numbers in GOOD_NUMBERS.items():
        for number in numbers:
            status, wrote, faults = run("--port", "0", "--clients", "0", f"--{name}", str(number))
            same(f"--{name} {number}", (status, wrote[:10], faults), (0, "listening ", ""))


def statuses():
    """files, ports and addresses that are not to be had have their statuses"""
    with open("/dev/full", "wb") as full:
        same("--help that cannot be written", run("--help", stdout=full), (4, "", "lbserver: output\n"))
    port = str(free_port())
    with serve("--turns", "1") as server:
        page = ["--port", port, "--page", str(free_port()), "--page-file"]
        for words, status, faults in (
            ([*page, "nowhere.html"], 2, "lbserver: cannot read nowhere.html: no such file\n"),
            (["--port", port, "--roster", "nowhere.toml"], 2, "lbserver: cannot read nowhere.toml: no such file\n"),
            (["--port", port, "--roster", "README.md"], 3, "lbserver: README.md, line 3: the text is not TOML, or not UTF-8\n"),
            (["--port", port, "--lose", "shunter=30"], 3, "lbserver: --lose shunter: no such decoder\n"),
            (["--port", port, "--roster", "examples/layout.toml", "--lose", "shunter=30", "--lose", "shunt=30"], 3,
             "lbserver: --lose shunt: no such decoder\n"),
            (["--port", str(server.port)], 4, f"lbserver: cannot listen on 127.0.0.1:{server.port}: the port is in use\n"),
            (["--port", port, "--page", str(server.port)], 4, f"lbserver: cannot listen on 127.0.0.1:{server.port}: the port is in use\n"),
            (["--port", port, "--address", "192.0.2.1"], 4, f"lbserver: cannot listen on 192.0.2.1:{port}: the machine has no such address\n"),
        ):
            same(f"{words}", run(*words), (status, "", faults))


# Options, words that they need, the beginning of their files, and how many bytes such a file may have.
LIMITS = [
    ("--roster", [], 'version = 1\n[[node]]\nname = "yard"\nkind = "accessory"\nmodule = 1\n', 65_536),
    ("--plan", ["--roster", "examples/layout.toml"], "version = 1\n", 65_536),
    ("--page-file", ["--page", "0"], "", 1_048_576),
]


def limits():
    """files as long as they may be are read, and those with one byte more are too long"""
    for option, words, text, most in LIMITS:
        for length in (most, most + 1):
            with tempfile.NamedTemporaryFile("w") as file:
                file.write(text.ljust(length, "\n"))
                file.flush()
                status, wrote, faults = run("--port", "0", "--clients", "0", *words, option, file.name)
                wanted = (0, "listening ", "") if length == most else (2, "", f"lbserver: {file.name} is too long\n")
                same(f"{option}: {length} bytes", (status, wrote[:10], faults), wanted)


# Bytes of memory, of which the program has first enough and then less in each run.
ENOUGH_MEMORY, LESS_MEMORY = 16 << 20, 1 << 18


def little_memory():
    """a run that is out of memory has status 6, and prints nothing else"""
    with tempfile.NamedTemporaryFile() as file:
        file.write(1_048_576 * b"x")
        file.flush()
        words = ["--port", "0", "--clients", "0", "--page", "0", "--page-file", file.name]
        for bytes_left in range(ENOUGH_MEMORY, 0, -LESS_MEMORY):
            limited = {"preexec_fn": lambda: resource.setrlimit(resource.RLIMIT_AS, 2 * (bytes_left,))}
            status, wrote, faults = run(*words, **limited)
            if status != 0:
                break
        same("the first run that fails", (status, wrote, faults), (6, "", "lbserver: no memory\n"))
        holds("the first run has enough", bytes_left < ENOUGH_MEMORY)


# Nodes of rosters, by version, and the line on standard error after the name of the file.
YARD = '[[node]]\nname = "yard"\nkind = "accessory"\nmodule = 1\n'
SHUNTER = '[[node]]\nname = "shunter"\nkind = "loco"\n'
ROSTERS = [
    (1, YARD + "[[node]]\nname = \"shunter\n", ", line 7: the text is not TOML, or not UTF-8"),
    (1, 'nodes = []\n', ": a key is missing or unknown, or a value has another type"),
    (1, "", ": no node"),
    (1, 65 * YARD, ": more than 64 nodes"),
    (1, "[[node]]\n", ", node 1: a key is missing or unknown, or a value has another type"),
    (1, YARD.replace("yard", "y d"), ", node 1: a name is not 1 to 16 letters, digits, - or _, or another node has it"),
    (1, 2 * YARD, ", node 2 (yard): a name is not 1 to 16 letters, digits, - or _, or another node has it"),
    (1, YARD.replace("= 1", "= 511"), ", node 1 (yard): a module is not 1 to 510"),
    (1, YARD + SHUNTER + "cv1 = 0\ncv29 = 2\n", ", node 2 (shunter): CV1 must be 1 to 127"),
    (1, SHUNTER + "cv1 = 3\ncv29 = 34\ncv17 = 191\n", ", node 1 (shunter): CV17 must be 192 to 231, since bit 5 of CV29 is 1"),
    (1, SHUNTER + "cv1 = 3\ncv29 = 256\n", ", node 1 (shunter): the value of a variable must be 0 to 255"),
    (2, SHUNTER + "cvs = [[1, 128], [29, 2]]\n", ", node 1 (shunter): CV1 must be 1 to 127"),
    (2, SHUNTER + "cvs = [[1, 3], [29, 128]]\n", ", node 1 (shunter): bit 7 of CV29 must be 0"),
    (2, SHUNTER + "cvs = [[1, 3]]\n", ", node 1 (shunter): cvs has a number outside 1 to 1024, or one twice, or lacks 1 or 29"),
]


def rosters():
    """the fault of a roster is said in words, with its line or its node"""
    for version, nodes, line in ROSTERS:
        with tempfile.NamedTemporaryFile() as file:
            file.write(f"version = {version}\n{nodes}".encode())
            file.flush()
            same(f"{nodes[:200]!r}", run("--port", "0", "--roster", file.name), (3, "", f"lbserver: {file.name}{line}\n"))


def default_port():
    """without words it listens on 127.0.0.1:1234"""
    with socket.socket() as probe:
        probe.setsockopt(socket.SOL_SOCKET, socket.SO_REUSEADDR, 1)
        try:
            probe.bind(("127.0.0.1", 1234))
        except OSError:
            return
    same("a run", run("--clients", "0"), (0, "listening 127.0.0.1:1234\n", ""))
