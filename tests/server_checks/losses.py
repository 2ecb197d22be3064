"""The options --lose and --seed."""

from server_checks.common import holds, printed_after, roster_of, same, serve, within
from serving import Client

SPEEDS = [0x10 + 2 * i for i in range(10)]
DECODERS = 64


def drive_with_losses(file, *words):
    """Drives 64 decoders at ten speeds. Returns all that was printed."""
    with serve("--roster", file, "--track", *words) as server, Client(server) as client:
        client.take(3)
        for speed in SPEEDS:
            client.send(0xA0, 1, speed)
            packet = f"03 3F {0x80 + speed:02X} "
            holds(f"{packet} is sent", server.until(lambda: any(packet in line for line in server.printed())))
        client.send(0x82)
        return printed_after(server, "message 82 7D  track power off")


def received(lines):
    """Of the first packet with each speed, which decoders received it: those whose lines follow it at once."""
    found = []
    for speed in SPEEDS:
        packet = f" 03 3F {0x80 + speed:02X} "
        start = next(i for i, line in enumerate(lines) if line.startswith("track ") and packet in line) + 1
        end = next(i for i in range(start, len(lines)) if not lines[i].startswith("node "))
        found.append({line.split()[1] for line in lines[start:end]})
    return found


def losses():
    """--lose N: each decoder misses N of 100 packets, by itself, with --turns and in real time; 0 of them without it"""
    with roster_of(DECODERS) as file:
        for pace in (("--turns", "16"), ()):
            for words, least, most in (
                # Of 640 draws: nobody, and what is off by more than six times the standard deviation.
                ((), 640, 640),
                (("--lose", "0", "--seed", "5"), 640, 640),
                (("--lose", "20"), 450, 574),
                (("--lose", "50"), 244, 396),
                (("--lose", "99"), 0, 22),
            ):
                if pace == () and words[1:] == ("20",):
                    continue
                found = received(drive_with_losses(file, *pace, *words))
                within(f"packets received, {pace} {words}", least, sum(map(len, found)), most)
                if words[1:] == ("50",):
                    patterns = {tuple(f"loco-{i}" in one for one in found) for i in range(DECODERS)}
                    # Of 64 draws of one of 1,024 patterns some two are drawn twice.
                    within(f"ways in which decoders lose, {pace}", 48, len(patterns), DECODERS)


def own_losses():
    """--lose NAME=N: one decoder misses N of 100 packets, and the others those of --lose N, as they do without it"""
    with roster_of(DECODERS) as file:
        words = (file, "--turns", "16")
        names = {f"loco-{i}" for i in range(DECODERS)}
        found = received(drive_with_losses(*words, "--lose", "loco-7=99"))
        within("packets that loco-7 received", 0, sum("loco-7" in one for one in found), 3)
        same("who received the others", [one | {"loco-7"} for one in found], [names] * len(SPEEDS))
        found = received(drive_with_losses(*words, "--lose", "loco-7=0", "--lose", "99", "--lose", "loco-63=0"))
        same("who received all", [{"loco-7", "loco-63"} <= one for one in found], [True] * len(SPEEDS))
        within("packets that others received", 0, sum(len(one) - 2 for one in found), 22)
        # Each decoder is drawn, also where it is to miss nothing, so that one misses what it would among others.
        one, all_others = (received(drive_with_losses(*words, *lose)) for lose in (("--lose", "loco-7=50"), ("--lose", "50")))
        same("what loco-7 received", ["loco-7" in each for each in one], ["loco-7" in each for each in all_others])


def seeds():
    """the same --seed loses the same, and another loses others; without it the seed is 0"""
    with roster_of(DECODERS) as file:
        words = (file, "--turns", "16", "--lose", "50")
        runs = [drive_with_losses(*words, *seed) for seed in ((), ("--seed", "0"), ("--seed", "7"), ("--seed", "7"))]
        same("without it, and --seed 0", runs[0], runs[1])
        same("--seed 7, twice", runs[2], runs[3])
        holds("--seed 0 and --seed 7 lose the same", received(runs[0]) != received(runs[2]))
