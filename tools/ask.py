#!/usr/bin/env python3
"""Asks one daemon for its tickets or its members, or to grant or revoke a ticket, and prints the answer.

Run it as `python3 tools/ask.py [--peers | --grant TICKET | --revoke TICKET] [--key FILE] HOST [PORT]`. HOST is an
address, or a name that has one. With --key the request has the MAC of the key in FILE, and the reply must have it too.
The status is 1 if the daemon refused, if no answer came within 5 seconds, or if the answer is not as docs/PROTOCOL.md
says.
"""

import argparse
import socket
import sys
import time

import frames
import lists

SECONDS_TO_ANSWER = 5


# the texts for the results of a grant or a revocation
DONE = {"CGnt": "ticket {} granted", "CRvk": "ticket {} revoked"}
BEGUN = {"CGnt": "grant of {} requested", "CRvk": "revoke of {} requested"}
REFUSED = {
    "Fail": "failed",
    "IArg": "invalid argument",
    "Pend": "granted, but the record is not kept yet",
    "Tidl": "ticket is not granted",
    "Over": "ticket is granted elsewhere",
    "Busy": "busy",
    "Redr": "ticket is owned by another site",
}


class Refused(Exception):
    """The daemon refused, for this reason."""


def ask(where, request):
    """Sends one request, and yields each datagram that is received."""
    family, kind, _, _, address = where
    with socket.socket(family, kind) as asker:
        asker.settimeout(SECONDS_TO_ANSWER)
        asker.setsockopt(socket.SOL_SOCKET, socket.SO_RCVBUF, lists.ROOM)
        # (connected, so that only this daemon's datagrams are received, and the system reports if nobody listens)
        asker.connect(address)
        asker.send(request)
        while True:
            yield asker.recv(frames.FRAME_BYTES + 1)


def whole(replies, read):
    """Returns the text of the list when all its parts have arrived."""
    parts = lists.Parts()
    for reply in replies:
        parts.take(*read(reply))
        text = parts.text()
        if text is not None:
            return text
    return b""


def tickets(text):
    """Yields a line for each ticket."""
    for name, owner, end in lists.held_in(text):
        expires = f", expires: {date(end)}" if end else ""
        yield f"ticket: {name}, leader: {owner or 'none'}{expires}"


def outcome(letters, ticket, result):
    """Returns the line about a grant or a revocation. Raises `Refused` if it was refused."""
    letters_of_result = result.to_bytes(4, "big").decode("ascii", errors="replace")
    if result == 0:
        return DONE[letters].format(ticket)
    if letters_of_result == "Asyn":
        return BEGUN[letters].format(ticket)
    raise Refused(REFUSED.get(letters_of_result, f"result {result:08x}"))


def date(seconds):
    """Returns the date, or `never` for 0, or the number of seconds if there is no such date."""
    try:
        return time.strftime("%F %T", time.gmtime(seconds)) if seconds else "never"
    except (OverflowError, OSError, ValueError):
        return f"@{seconds}"


def peers(text):
    """Yields a line about dropped datagrams, and one for each other member."""
    counts = lists.counts_in(text)
    yield "dropped: " + ", ".join(f"{fault} {count}" for fault, count in counts.dropped.items())
    for role, address, last, received, sent, errors in counts.peers:
        counted = f"received: {received}, sent: {sent}, errors: {errors}"
        yield f"{role} {address}, last: {date(last)}, {counted}"


def told(options):
    """Returns the lines of the daemon's answer."""
    key = None
    if options.key:
        with open(options.key, "rb") as file:
            key = frames.key_in(file.read())
    request = time.time_ns() // 1_000_000 % 2**32
    letters, body = "Peer" if options.peers else "CLst", b""
    ticket = options.grant or options.revoke
    if ticket:
        letters = "CGnt" if options.grant else "CRvk"
        body = frames.ticket_body(ticket.encode(), frames.NO_ONE, 0, 0)
    where = socket.getaddrinfo(options.host, options.port, type=socket.SOCK_DGRAM)[0]
    replies = ask(where, frames.request_now(letters, request, body, key))
    result = None if ticket else 0

    def read(reply):
        return lists.read_reply(reply, letters, request, where[4][0], key, result=result)

    if not ticket and not options.peers:
        return list(tickets(whole(replies, read)))
    head, body = read(next(replies))
    return [outcome(letters, ticket, head.result)] if ticket else list(peers(body))


def main():
    parser = argparse.ArgumentParser(description="Asks one booth daemon for its tickets.")
    what = parser.add_mutually_exclusive_group()
    what.add_argument("--peers", action="store_true", help="ask for its members instead")
    what.add_argument("--grant", metavar="TICKET", help="have the daemon's site acquire this ticket")
    what.add_argument("--revoke", metavar="TICKET", help="have the daemon's site release this ticket")
    parser.add_argument("--key", metavar="FILE", help="the file of the key that the daemon has")
    parser.add_argument("host", metavar="HOST")
    parser.add_argument("port", metavar="PORT", nargs="?", type=int, default=frames.PORT)
    options = parser.parse_args()
    name = f"{options.host}:{options.port}"
    try:
        lines = told(options)
    except socket.timeout:
        hint = "" if options.key else " (a daemon with a key answers only with --key)"
        sys.exit(f"ask.py: no answer from {name} within {SECONDS_TO_ANSWER} seconds{hint}")
    except ConnectionRefusedError:
        sys.exit(f"ask.py: nobody listens at {name}")
    except (OSError, OverflowError, ValueError) as error:
        sys.exit(f"ask.py: cannot ask {name}: {error}")
    except lists.BadReply as why:
        sys.exit(f"ask.py: the reply of {name} is malformed: {why}")
    except Refused as why:
        sys.exit(f"ask.py: {why}")
    for line in lines:
        print(line)


if __name__ == "__main__":
    main()
