"""Cuts the network path between two running daemons in one direction, without an error at either of them.

It is imported by tests/cluster_looks.py, and not run by itself. It takes a second handle of each UDP socket of the
daemon, as its parent may on Linux 5.6 and later. A filter in the kernel then drops each datagram that has the other
member's id in its field `from`.
"""

import contextlib
import ctypes
import os
import re
import socket
import struct

import frames

# the numbers of Linux on x86-64
PIDFD_OPEN, PIDFD_GETFD = 434, 438
SO_ATTACH_FILTER, SO_DETACH_FILTER = 26, 27
# (the filter sees a datagram from its UDP header of 8 bytes on; the field `from` is at byte 20 of a frame)
FROM_AT = 8 + 20
LOAD_WORD, JUMP_IF_EQUAL, RETURN = 0x20, 0x15, 0x06


class CannotCut(Exception):
    """This system does not let a parent process get its daemon's socket."""


def sockets_of(process):
    """Returns the numbers of the process's sockets."""
    folder = f"/proc/{process.pid}/fd"
    return [int(name) for name in os.listdir(folder) if re.match("socket:", os.readlink(f"{folder}/{name}"))]


def datagram_sockets_of(process):
    """Returns a second handle of each UDP socket of the process: a daemon has one for each other member."""
    call = ctypes.CDLL(None, use_errno=True).syscall
    handle = call(PIDFD_OPEN, process.pid, 0)
    found = []
    for number in sockets_of(process) if handle >= 0 else ():
        taken = call(PIDFD_GETFD, handle, number, 0)
        if taken < 0:
            continue
        one = socket.socket(fileno=taken)
        # (the others are those of its links)
        if one.type == socket.SOCK_DGRAM:
            found.append(one)
        else:
            one.close()
    why = os.strerror(ctypes.get_errno())
    if handle >= 0:
        os.close(handle)
    if not found:
        raise CannotCut(why)
    return found


@contextlib.contextmanager
def cut(hearer, *senders):
    """Cuts the path: in this block the member receives nothing from the others."""
    numbers = [frames.member_id(sender.address) for sender in senders]
    steps = [(LOAD_WORD, 0, 0, FROM_AT)]
    steps += [(JUMP_IF_EQUAL, len(numbers) - place, 0, number) for place, number in enumerate(numbers)]
    steps += [(RETURN, 0, 0, 0xFFFFFFFF), (RETURN, 0, 0, 0)]
    program = ctypes.create_string_buffer(b"".join(struct.pack("HBBI", *step) for step in steps))
    given = struct.pack("HL", len(steps), ctypes.addressof(program))
    with contextlib.ExitStack() as stack:
        handles = [stack.enter_context(each) for each in datagram_sockets_of(hearer.server.process)]
        for handle in handles:
            handle.setsockopt(socket.SOL_SOCKET, SO_ATTACH_FILTER, given)
        try:
            yield
        finally:
            for handle in handles:
                handle.setsockopt(socket.SOL_SOCKET, SO_DETACH_FILTER, 0)
