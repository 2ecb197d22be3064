"""Rosters, by `station replay`: what the rules of docs/PROGRAM.md say of each text, worked out by hand."""

from process_checks.common import compare, file_of, run

# The faults by their numbers.
NOT_TOML, BAD_SHAPE, TOO_MANY, BAD_NAME, BAD_CV, BAD_MODULE, EMPTY, BAD_CV_LIST = 1, 2, 3, 4, 5, 6, 7, 9

# A throttle takes locomotive 3 and drives it at half speed, with F0 on.
DRIVE = b"line 0 BF 00 03 43 83 7C BA 01 01 45 A0 01 40 1E A1 01 10 4F\nturn 16\nshow\n"


def fault_of(text, script=b"show\n"):
    """The fault of a roster and its node, or the lines of its decoders."""
    with file_of(text) as file:
        status, wrote, told = run("station", ["replay", "--roster", file], script)
    if status == 0 and told == b"":
        return [line for line in wrote.decode().splitlines() if line.startswith("node ")]
    words = told.decode().split()
    if (status, wrote, words[:3], words[4:6]) == (3, b"", ["station:", "roster", "fault"], ["at", "node"]):
        return int(words[3]), int(words[6])
    return status, wrote, told


def result_of(text):
    """The fault of a roster and its node, or the number of its decoders."""
    found = fault_of(text)
    return len(found) if isinstance(found, list) else found


def check(text, wanted):
    text = text if isinstance(text, bytes) else text.encode()
    compare(f"the roster {text[:300]!r}", result_of(text), wanted)


SHUNTER = '[[node]]\nname = "shunter"\nkind = "loco"\n'
YARD = '[[node]]\nname = "yard"\nkind = "accessory"\nmodule = 1\n'
EXAMPLE = f"version = 1\n\n{SHUNTER}cv1 = 3\ncv29 = 2\n\n{YARD}"

# The last length of the example for which each result holds, from the result before on.
CUTS = [
    (0, (BAD_SHAPE, 0)),
    (10, (NOT_TOML, 0)),
    (13, (EMPTY, 0)),
    (20, (NOT_TOML, 0)),
    (22, (BAD_SHAPE, 1)),
    (37, (NOT_TOML, 0)),
    (39, (BAD_SHAPE, 1)),
    (51, (NOT_TOML, 0)),
    (53, (BAD_SHAPE, 1)),
    (59, (NOT_TOML, 0)),
    (61, (BAD_SHAPE, 1)),
    (68, (NOT_TOML, 0)),
    (71, 1),
    (78, (NOT_TOML, 0)),
    (80, (BAD_SHAPE, 2)),
    (92, (NOT_TOML, 0)),
    (94, (BAD_SHAPE, 2)),
    (111, (NOT_TOML, 0)),
    (113, (BAD_SHAPE, 2)),
    (122, (NOT_TOML, 0)),
    (124, 2),
]

TOP_LEVEL = [
    (NOT_TOML, [b"\xff", b"version = 1 # \xff", "version 1", "version = 1\nversion = 1"]),
    (EMPTY, ["version = 1", "version = 1\nnode = []", "version = 2", "version = 2\nnode = []"]),
    (
        BAD_SHAPE,
        [
            "node = []",
            "version = 1\nextra = 1",
            "version = 1\nextra = 1\nnode = []",
            "version = 0\nnode = []",
            "version = 3\nnode = []",
            "version = -1\nnode = []",
            "version = 1.0\nnode = []",
            'version = "1"\nnode = []',
            "Version = 1\nnode = []",
            "version = 1\nnode = 3",
            'version = 1\nnode = ""',
            "version = 1\n[node]",
            "version = 1\n[nodes]",
        ],
    ),
]

# The nodes of version 1, their fault and its node.
NODES = [
    (BAD_SHAPE, 1, "3"),
    (BAD_SHAPE, 1, "[]"),
    (BAD_SHAPE, 1, "{}"),
    (BAD_SHAPE, 2, "{name='a', kind='accessory', module=1}, 3"),
    (BAD_SHAPE, 1, "{name='a', cv1=3, cv29=2}"),
    (BAD_SHAPE, 1, "{name='a', module=1}"),
    (BAD_SHAPE, 1, "{name='a', kind='wagon', module=1}"),
    (BAD_SHAPE, 1, "{name='a', kind='Loco', cv1=3, cv29=2}"),
    (BAD_SHAPE, 1, "{name='a', kind=1, module=1}"),
    (BAD_SHAPE, 1, "{kind='accessory', module=1}"),
    (BAD_SHAPE, 1, "{name=1, kind='accessory', module=1}"),
    (BAD_SHAPE, 1, "{name='a', kind='loco', cv1=3}"),
    (BAD_SHAPE, 1, "{name='a', kind='loco', cv29=2}"),
    (BAD_SHAPE, 1, "{name='a', kind='loco', cv1='3', cv29=2}"),
    (BAD_SHAPE, 1, "{name='a', kind='loco', cv1=3, cv29=2.0}"),
    (BAD_SHAPE, 1, "{name='a', kind='loco', cv1=3, cv17=true, cv29=2}"),
    (BAD_SHAPE, 1, "{name='a', kind='loco', cv1=3, cv18=[], cv29=2}"),
    (BAD_SHAPE, 1, "{name='a', kind='loco', cv1=3, cv29=2, module=1}"),
    (BAD_SHAPE, 1, "{name='a', kind='loco', cv1=3, cv29=2, cvs=[]}"),
    (BAD_SHAPE, 1, "{name='a', kind='accessory'}"),
    (BAD_SHAPE, 1, "{name='a', kind='accessory', module='1'}"),
    (BAD_SHAPE, 1, "{name='a', kind='accessory', module=1, cv1=3}"),
    (BAD_NAME, 1, "{name='', kind='accessory', module=1}"),
    (BAD_NAME, 1, "{name='a b', kind='accessory', module=1}"),
    (BAD_NAME, 1, "{name='a.b', kind='accessory', module=1}"),
    (BAD_NAME, 1, "{name='\u00e9', kind='accessory', module=1}"),
    (BAD_NAME, 2, "{name='a', kind='accessory', module=1}, {name='abcdefghijklmnopq', kind='accessory', module=1}"),
    (
        BAD_NAME,
        3,
        "{name='a', kind='accessory', module=1}, {name='b', kind='accessory', module=1}, {name='a', kind='loco', cv1=3, cv29=2}",
    ),
    (BAD_CV, 1, "{name='a', kind='loco', cv1=0, cv29=2}"),
    (BAD_CV, 1, "{name='a', kind='loco', cv1=128, cv29=2}"),
    (BAD_CV, 1, "{name='a', kind='loco', cv1=259, cv29=2}"),
    (BAD_CV, 1, "{name='a', kind='loco', cv1=-1, cv29=2}"),
    (BAD_CV, 1, "{name='a', kind='loco', cv1=3, cv17=256, cv29=2}"),
    (BAD_CV, 1, "{name='a', kind='loco', cv1=3, cv18=-1, cv29=2}"),
    (BAD_CV, 1, "{name='a', kind='loco', cv1=3, cv29=258}"),
    (BAD_CV, 1, "{name='a', kind='loco', cv1=3, cv29=160}"),
    (BAD_CV, 1, "{name='a', kind='loco', cv1=3, cv17=191, cv29=34}"),
    (BAD_MODULE, 1, "{name='a', kind='accessory', module=0}"),
    (BAD_MODULE, 1, "{name='a', kind='accessory', module=511}"),
    (BAD_MODULE, 1, "{name='a', kind='accessory', module=-1}"),
    (BAD_MODULE, 1, "{name='a', kind='accessory', module=65537}"),
    # The first fault is reported, node by node.
    (BAD_SHAPE, 1, "{name='', kind='loco', cv1=0, cv29='2'}"),
    (BAD_NAME, 1, "{name='', kind='loco', cv1=0, cv29=2}"),
    (BAD_CV, 1, "{name='a', kind='loco', cv1=0, cv29=2}, 3"),
    (BAD_MODULE, 1, "{name='a', kind='accessory', module=0}, {name='', kind='accessory', module=1}"),
    (BAD_NAME, 2, "{name='a', kind='accessory', module=1}, {name='a', kind='accessory', module=0}"),
    # Nodes are counted before they are read.
    (TOO_MANY, 0, ", ".join(65 * ["3"])),
]

# What stands after the name and the kind of a locomotive of version 2. All pairs are checked, then all values, then the list.
NO_PAIRS = [
    ", cv1=3, cv29=2",
    "",
    ", cvs=[[1, 3], [29, 2]], cv1=3",
    ", cvs=[[1, 3], [29, 2]], cv17=192",
    ", cvs=[[1, 3], [29, 2]], cv18=0",
    ", cvs=[[1, 3], [29, 2]], cv29=2",
    ", cvs=[[1, 3], [29, 2]], module=1",
    ", cvs=3",
    ", cvs='[[1, 3], [29, 2]]'",
    ", cvs={1=3, 29=2}",
    ", cvs=[1, 3]",
    ", cvs=[[1, 3], 29]",
    ", cvs=[[1, 3], []]",
    ", cvs=[[1], [29, 2]]",
    ", cvs=[[1, 3, 0], [29, 2]]",
    ", cvs=[[1, '3'], [29, 2]]",
    ", cvs=[['1', 3], [29, 2]]",
    ", cvs=[[1, 3], [29, 2.0]]",
    ", cvs=[[1, 3], [true, 2]]",
    ", cvs=[[1, 300], [0, 1], [29]]",
]
NO_BYTES = [
    ", cvs=[[1, 3], [29, 256]]",
    ", cvs=[[1, -1], [29, 2]]",
    ", cvs=[[1, 3], [29, 2], [7, 256]]",
    ", cvs=[[1, 3], [1, 3], [0, 256]]",
    ", cvs=[[70000, 256]]",
]
# 65565 is 29 in the low 16 bits.
NO_LISTS = [
    ", cvs=[]",
    ", cvs=[[1, 3]]",
    ", cvs=[[29, 2]]",
    ", cvs=[[1, 3], [1, 4], [29, 2]]",
    ", cvs=[[1, 3], [29, 2], [29, 2]]",
    ", cvs=[[1, 3], [7, 1], [29, 2], [7, 1]]",
    ", cvs=[[1, 3], [29, 2], [0, 1]]",
    ", cvs=[[1, 3], [29, 2], [1025, 0]]",
    ", cvs=[[1, 3], [29, 2], [-1, 0]]",
    ", cvs=[[1, 3], [29, 2], [65536, 0]]",
    ", cvs=[[1, 3], [65565, 2]]",
    ", cvs=[[1, 0], [1, 0], [29, 160]]",
    ", cvs=[[1, 0], [17, 0]]",
]
NO_LOCOMOTIVES = [
    ", cvs=[[1, 0], [29, 2]]",
    ", cvs=[[1, 128], [29, 2]]",
    ", cvs=[[1, 3], [17, 191], [29, 34]]",
    ", cvs=[[1, 3], [17, 232], [29, 34]]",
    ", cvs=[[1, 3], [29, 128]]",
    ", cvs=[[1, 3], [29, 160]]",
]

# Variables by their keys and as a list, and how the decoder stands after DRIVE. Bit 1 of CV29 is 0 for 14 steps: the packet for
# step 63 of 128 is none for it. Without CV17 the long address is CV18, since CV17 is 192.
LOCOMOTIVES = [
    ("cv1=127, cv29=0", "cvs=[[1, 127], [29, 0]]", "short 127 stop forward F 0000000000000"),
    ("cv1=3, cv29=2", "cvs=[[1, 3], [29, 2], [1024, 255]]", "short 3 step 63 of 128 forward F 1000000000000"),
    ("cv1=3, cv29=2", "cvs=[[1024, 0], [29, 2], [2, 255], [1, 3]]", "short 3 step 63 of 128 forward F 1000000000000"),
    ("cv1=3, cv29=3", "cvs=[[29, 3], [1, 3]]", "short 3 step 63 of 128 reverse F 1000000000000"),
    (
        "cv1=3, cv17=0, cv18=210, cv29=2",
        "cvs=[[29, 2], [18, 210], [1, 3], [17, 0]]",
        "short 3 step 63 of 128 forward F 1000000000000",
    ),
    (
        "cv1=3, cv17=196, cv18=210, cv29=34",
        "cvs=[[29, 34], [18, 210], [17, 196], [1, 3]]",
        "long 1234 stop forward F 0000000000000",
    ),
    ("cv1=3, cv18=5, cv29=34", "cvs=[[1, 3], [29, 34], [18, 5], [19, 7]]", "long 5 stop forward F 0000000000000"),
    ("cv1=3, cv17=193, cv29=34", "cvs=[[17, 193], [1, 3], [29, 34]]", "long 256 stop forward F 0000000000000"),
]


def long_list(last, more):
    """A locomotive with variables 1 to `last`, and one more pair."""
    pairs = ", ".join(f"[{number}, {3 if number in (1, 29) else 0}]" for number in range(1, last + 1))
    return f"version = 2\nnode = [{{name='a', kind='loco', cvs=[{pairs}{more}]}}]"


LONG_LISTS = [
    (1024, "", 1),
    (1025, "", (BAD_CV_LIST, 1)),
    (1024, ", [29, 3]", (BAD_CV_LIST, 1)),
    (1024, ", [29, 256]", (BAD_CV, 1)),
    (1024, ", [29]", (BAD_SHAPE, 1)),
]


def check_lists(lists, whole, nameless):
    """A locomotive with each list, one without a name, and a second node, all with this fault."""
    for text in lists:
        for before, after, wanted in (
            ("{name='a'", "", (whole, 1)),
            ("{name=''", "", (nameless, 1)),
            ("{name='b', kind='accessory', module=510}, {name='a'", ", 3", (whole, 2)),
        ):
            check(f"version = 2\nnode = [{before}, kind='loco'{text}}}{after}]", wanted)


def try_rosters():
    """The faults of rosters, and the decoders of those without one."""
    second = EXAMPLE.replace("version = 1", "version = 2").replace("cv1 = 3\ncv29 = 2", "cvs = [[1, 3], [29, 2]]")
    wanted = ["node shunter short 3 step 63 of 128 forward F 1000000000000", "node yard module 1 outputs 00000000"]
    for text in (EXAMPLE, second):
        compare("the example", fault_of(text.encode(), DRIVE), wanted)
    start = 0
    for last, wanted in CUTS:
        for length in range(start, last + 1):
            check(EXAMPLE[:length], wanted)
        start = last + 1
    compare("the length of the example", len(EXAMPLE), start - 1)
    for why, texts in TOP_LEVEL:
        for text in texts:
            check(text, (why, 0))
    for why, node, nodes in NODES:
        check(f"version = 1\nnode = [{nodes}]", (why, node))
    # The shape is checked before the name.
    check_lists(NO_PAIRS, BAD_SHAPE, BAD_SHAPE)
    check_lists(NO_LISTS, BAD_CV_LIST, BAD_NAME)
    check_lists(NO_BYTES + NO_LOCOMOTIVES, BAD_CV, BAD_NAME)
    for last, more, wanted in LONG_LISTS:
        check(long_list(last, more), wanted)
    for keys, pairs, state in LOCOMOTIVES:
        for version, variables in ((1, keys), (2, pairs)):
            text = f"version = {version}\nnode = [{{name='Ab-_0123456789zZ', kind='loco', {variables}}}]"
            compare(f"the locomotive {variables}", fault_of(text.encode(), DRIVE), [f"node Ab-_0123456789zZ {state}"])
    yard = [f'[[node]]\nname = "n{i}"\nkind = "accessory"\nmodule = 510\n' for i in range(65)]
    wanted = [f"node n{i} module 510 outputs 00000000" for i in range(64)]
    compare("64 nodes", fault_of(f"version = 1\n{''.join(yard[:64])}".encode()), wanted)
    check(f"version = 1\n{''.join(yard)}", (TOO_MANY, 0))
    print("station: rosters")
