#!/usr/bin/env python3
"""A client of `lbserver`: takes locomotive 3, turns the power on and drives it, and prints all that it receives.

Start the station first:  ./lbserver --roster examples/layout.toml
then:                     examples/lbserver.py 127.0.0.1 1234

The status is 0, or 1 if the station cannot be reached or refuses, or 2 if the arguments are not a host and a port.
"""
import socket
import sys


class Client:
    """A client of LocoNet over TCP: it sends messages, and hears every message on the bus."""

    def __init__(self, host, port):
        self.stream = socket.create_connection((host, port), timeout=5)
        # A line is sent at once, and does not wait for the next.
        self.stream.setsockopt(socket.IPPROTO_TCP, socket.TCP_NODELAY, 1)
        self.lines = self.stream.makefile("r", encoding="ascii", errors="replace", newline="\n")

    def hear(self):
        """The next line, as its words."""
        line = self.lines.readline()
        if not line:
            raise ConnectionError("the station has closed the connection")
        print(line.rstrip())
        return line.split()

    def send(self, *body):
        """Sends a message with its check byte, and waits until it is sent."""
        check = 0xFF
        for byte in body:
            check ^= byte
        words = " ".join(f"{byte:02X}" for byte in (*body, check))
        self.stream.sendall(f"SEND {words}\r\n".encode("ascii"))
        while (line := self.hear())[:1] != ["SENT"]:
            pass
        if line != ["SENT", "OK"]:
            raise ValueError(" ".join(line))

    def ask(self, *body):
        """Sends a message, and returns the bytes of its reply: slot data (E7) or an acknowledge (B4)."""
        self.send(*body)
        while (line := self.hear())[:1] != ["RECEIVE"] or line[1:2] not in (["E7"], ["B4"]):
            pass
        try:
            reply = bytes.fromhex("".join(line[1:]))
        except ValueError:
            reply = b""
        if len(reply) < 4:
            raise ValueError("a reply that is no message")
        return reply


def drive(client, address):
    """Takes a locomotive into use and lets it run at half its speed, with its light on."""
    reply = client.ask(0xBF, address // 128, address % 128)  # OPC_LOCO_ADR
    if reply[0] != 0xE7:
        raise ValueError("no slot is free")
    slot = reply[2]
    client.send(0x83)  # OPC_GPON: power on
    client.ask(0xBA, slot, slot)  # OPC_MOVE_SLOTS, a null move: the slot is in use now
    client.send(0xA1, slot, 0x10)  # OPC_LOCO_DIRF: forward, F0 on
    client.send(0xA0, slot, 0x40)  # OPC_LOCO_SPD: step 63 of 126
    # The slot stays in use, so the station continues to drive the locomotive as asked.


def main(words):
    """Runs the example on the words of the command line. Returns the status."""
    host, port = words if len(words) == 2 else ("", "")
    if not (host and port.isascii() and port.isdigit() and 1 <= int(port) <= 65535):
        print("usage: examples/lbserver.py HOST PORT, with a port from 1 to 65535", file=sys.stderr)
        return 2
    try:
        client = Client(host, int(port))
        if (line := client.hear())[:1] != ["VERSION"]:
            raise ConnectionError(" ".join(line))
        drive(client, 3)
    except (OSError, ValueError) as error:
        reason = getattr(error, "strerror", None) or error
        print(f"lbserver.py: {host} port {port}: {reason}", file=sys.stderr)
        return 1
    return 0


if __name__ == "__main__":
    sys.exit(main(sys.argv[1:]))
