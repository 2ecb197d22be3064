"""Explanations of messages and packets, by `explain`: rows, and forms at the ends of each field and with each fixed bit turned.

The rows are in `messages.txt` and `packets.txt`, each as `explain` prints it; the forms in `message_forms.txt` and
`packet_forms.txt`, whose first lines say how to read them.
"""

import pathlib

from process_checks.common import compare, run

FOLDER = pathlib.Path(__file__).resolve().parent

# By kind: the file of rows, that of forms, the check of no bytes, and what stands before the bytes in a line.
KINDS = {"messages": ("messages", "message_forms", 0xFF, ""), "packets": ("packets", "packet_forms", 0, "track 1 ")}


def lines_of(name):
    text = (FOLDER / f"{name}.txt").read_text()
    return [line for line in text.splitlines() if not line.startswith("#")]


def checked(body, check):
    """The bytes and their check."""
    for byte in body:
        check ^= byte
    return (*body, check)


def rows(kind):
    """Bytes and their explanation."""
    for line in lines_of(KINDS[kind][0]):
        if line:
            data, _, words = line.partition("  ")
            yield tuple(bytes.fromhex(data)), words


def forms(kind):
    """First bytes, the bits of the others, the letters and words of each example, and whether the length is fixed."""
    found, is_open = [], False
    for line in lines_of(KINDS[kind][1]):
        if line in ("", "open"):
            is_open = line == "open"
        elif "|" in line:
            start, _, form = line.partition("|")
            found.append((list(bytes.fromhex(start)), form.strip(), [], kind == "packets" and not is_open))
        else:
            letters, _, words = line.partition("  ")
            found[-1][2].append((letters.strip("-"), words))
    return found


def bits_at(form, letters):
    """The bytes of a form whose bits are 1 at these letters."""
    return [sum((bit in letters) << (7 - i) for i, bit in enumerate(piece)) for piece in form.split(" ")]


def turned(body, fixed):
    """The bytes with each of the fixed bits turned."""
    for at, mask in enumerate(fixed):
        for bit in range(8):
            if mask >> bit & 1:
                yield [byte ^ (1 << bit if i == at else 0) for i, byte in enumerate(body)]


def form_checks(kind):
    """What the forms say: bytes, an explanation, and whether they have it."""
    check = KINDS[kind][2]
    for start, form, examples, has_length in forms(kind):
        fixed = [0xFF] * len(start) + bits_at(form, "01")
        for letters, words in examples:
            fields = [a | b for a, b in zip(bits_at(form, "1i"), bits_at(form, letters))]
            body = [*start, *fields]
            yield checked(body, check), words, True
            # With a fixed bit turned, and a byte more or less.
            others = [*turned(body, fixed), *([[*body, 0], [*body, 0x80], body[:-1]] if has_length else [])]
            for other in others:
                yield checked(other, check), words, False


def all_checks():
    """All that is said of messages and of packets."""
    for kind in KINDS:
        yield from ((kind, body, words, True) for body, words in rows(kind))
        yield from ((kind, *found) for found in form_checks(kind))


def try_explanations():
    """Each has the line that it is to have, and no other bytes near it have."""
    checks = list(all_checks())
    lines = [KINDS[kind][3] + bytes(body).hex(" ").upper() for kind, body, _, _ in checks]
    status, wrote, told = run("explain", [], "".join(f"{line}\n" for line in lines).encode())
    printed = wrote.decode().splitlines()
    compare("explain", (status, told, len(printed)), (0, b"", len(lines)))
    for line, found, (_, _, words, wanted) in zip(lines, printed, checks):
        if (found == f"{line}  {words}") != wanted:
            compare("explain", found, f"{line}  {'' if wanted else 'anything but '}{words}")
    print(f"explain: {len(lines)} messages and packets")
