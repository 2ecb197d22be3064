#!/usr/bin/env python3
"""A throttle's side of `station serve`: takes locomotive 3, turns the power on and drives it.

Start the station first:  ./station serve --port 5550 --roster examples/layout.toml --turns 4
then:                     examples/client.py 5550

The status is 0, or 1 if the station cannot be reached or does not reply, or 2 if the argument is not a port.
"""
import socket
import sys


def message(*body):
    """The bytes of a LocoNet message, with its check byte."""
    check = 0xFF
    for byte in body:
        check ^= byte
    return bytes(body) + bytes([check])


def slot_data(station):
    """The next reply, which has to be slot data."""
    reply = station.recv(14, socket.MSG_WAITALL)
    if len(reply) < 14 or reply[0] != 0xE7:
        raise ConnectionError("the station did not reply with slot data")
    return reply


def drive(port):
    """Takes locomotive 3 into use and lets it run at half its speed."""
    with socket.create_connection(("127.0.0.1", port), timeout=10) as station:
        station.sendall(message(0xBF, 0x00, 0x03))  # OPC_LOCO_ADR: address 3
        slot = slot_data(station)[2]
        station.sendall(message(0x83))  # OPC_GPON
        station.sendall(message(0xBA, slot, slot))  # OPC_MOVE_SLOTS, a null move: it is ours now
        print(slot_data(station).hex(" ").upper())
        station.sendall(message(0xA0, slot, 0x40))  # OPC_LOCO_SPD: step 63 of 126
        # To be served whole, say that no more comes, and read on until the station has answered all.
        station.shutdown(socket.SHUT_WR)
        while station.recv(4096):
            pass


def main(words):
    """Runs the example on the words of the command line. Returns the status."""
    if len(words) != 1 or not (words[0].isascii() and words[0].isdigit() and 1 <= int(words[0]) <= 65535):
        print("usage: examples/client.py PORT, with a port from 1 to 65535", file=sys.stderr)
        return 2
    try:
        drive(int(words[0]))
    except OSError as error:
        print(f"client.py: 127.0.0.1 port {words[0]}: {error.strerror or error}", file=sys.stderr)
        return 1
    return 0


if __name__ == "__main__":
    sys.exit(main(sys.argv[1:]))
