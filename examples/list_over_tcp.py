#!/usr/bin/env python3
"""Asks a daemon over TCP for its tickets, and prints its lines. It is for a cluster without a key.

Run it as `python3 examples/list_over_tcp.py ADDRESS [PORT]`. docs/PROTOCOL.md says what the fields are.
"""

import socket
import struct
import sys
import time

HEAD = struct.Struct(">12I")
MAGIC, VERSION = 0x5F1BA08C, 0x00010003
LIST, MORE = int.from_bytes(b"CLst", "big"), int.from_bytes(b"More", "big")


def received(link, count):
    """Returns the next `count` bytes of a stream, wherever the network splits it."""
    came = b""
    while len(came) < count:
        more = link.recv(count - len(came))
        if not more:
            sys.exit("the daemon closed the link")
        came += more
    return came


port = int(sys.argv[2]) if len(sys.argv) > 2 else 9929
millis = time.time_ns() // 1_000_000
with socket.create_connection((sys.argv[1], port), timeout=5) as link:
    clock = millis // 1000, millis % 1000 * 1000
    link.sendall(HEAD.pack(0, *clock, MAGIC, VERSION, 0, HEAD.size, LIST, 1, 0, 0, 0))
    result = MORE
    while result == MORE:  # the parts of a list come in their order over a link
        head = HEAD.unpack(received(link, HEAD.size))
        length, result = head[6], head[11]
        print(received(link, length - HEAD.size).decode(), end="")
