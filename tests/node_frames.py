#!/usr/bin/env python3
"""Prints turns with datagrams and replies for the stories of nodes, as parts.

tools/frames.py writes the frames, and the standard library's `hmac` signs them, so nothing here comes from the proved
program. From the top of the repository:

    python3 tests/node_frames.py > tests/rows/node/frames.txt
    python3 tests/node_frames.py sealed > tests/rows/node/sealed_frames.txt
"""

import hashlib
import hmac
import os
import sys

sys.path.insert(0, os.path.join(os.path.dirname(os.path.abspath(__file__)), "../tools"))

import frames

KEY = b"secret-key"
# the sites at 192.168.201.100 and 192.168.202.100
S1, S2 = (frames.member_id(f"192.168.20{i}.100") for i in (1, 2))
NO_ONE = 0xFFFF_FFFF

# in milliseconds: the time in the requests, and the reading of the node's clock when they arrive
SENT = 1_700_000_000_000
NOW = 1_700_000_000_999

# how long a promise lasts with the default times, in milliseconds. S1 starts at 0, and abstains for the same time
PROMISE = 601_203

TICKET = b"ticket-db8"
LIST = b"ticket-db8 none 0\n"
NO_DROPS = "0 0 0 0 0 0 0 0"
REFUSED = frames.code("IArg")


def plain(letters, body=b"", **fields):
    return frames.frame(letters, body, **fields)


def sealed(letters, body=b"", **fields):
    before = frames.frame(letters, body, bytes(frames.AUTH_BYTES), **fields)[: -frames.AUTH_BYTES]
    mac = hmac.new(KEY, before, hashlib.sha1).digest()
    return before + frames.numbers(2) + mac + bytes(4)


def at(millis, make, letters, body=b"", **fields):
    """Returns the frame that `make` makes at this moment."""
    secs = min(millis // 1000, 0xFFFF_FFFF)
    return make(letters, body, secs=secs, usecs=millis % 1000 * 1000, **fields)


def peers(drops, second_site="0 0 1 0", arbitrator="0 0 1 0"):
    """Returns the text of the drops and of the counters of both other members. Hello was sent to each."""
    lines = f"dropped {drops}\nsite 192.168.202.100 {second_site}\n"
    return (lines + f"arbitrator 192.168.203.100 {arbitrator}\n").encode()


def nobodys(ticket=TICKET):
    """Returns the state of a ticket that nobody holds."""
    return frames.ticket_body(ticket, NO_ONE, 0, 0)


def heartbeat(sender, leader=None, ticket=TICKET):
    body = frames.ticket_body(ticket, sender if leader is None else leader, 1, 600)
    return at(SENT, sealed, "HrtB", body, sender=sender, options=3)


def in_hex(datagram):
    """Returns bytes as words of eight hexadecimal digits, in lines of eight words; each line continues the one before.
    """
    words = [datagram[i : i + 4].hex() for i in range(0, len(datagram), 4)]
    return "".join("\n    " + " ".join(words[i : i + 8]) for i in range(0, len(words), 8))


def print_turn(name, about, comes, sends=(), now=NOW, keeps=()):
    """A turn as a part: the arrival from a client, if there is one, then the records that are written, and the messages
    with their receivers.
    """
    head = "quiet" if comes is None else f"from client: #{in_hex(comes)}"
    print(f"\n# {name}: {about}\nat {now} {head}")
    for record in keeps:
        print(f"keep {record}")
    for who, frame in sends:
        print(f"send {who}: #{in_hex(frame)}")


def hello(make):
    stat = at(NOW, make, "Stat", nobodys(), sender=S1)
    return [("S2", stat), ("AR", stat)]


def print_requests():
    """Prints requests of a client and their replies. The other fields of a request change nothing in the reply."""
    said = {"options": 8, "reason": frames.code("Admn"), "result": frames.code("Busy")}
    asked = frames.ticket_body(TICKET, S2, 7, 9)
    other = frames.ticket_body(b"other", 5, 7, 9)
    color = frames.attribute_body(TICKET, b"color", b"dark blue")
    colorless = frames.attribute_body(TICKET, b"color", b"")
    size = frames.attribute_body(b"other", b"size", b"")
    unnamed = frames.attribute_body(TICKET, b"", b"dark blue")
    gone = frames.code("NAtr")
    table = [
        ("CLst", "", b"", "RLst", LIST, 0),
        ("Peer", "", b"", "RPer", peers(NO_DROPS), 0),
        ("CGnt", "", asked, "RGnt", nobodys(), REFUSED),
        ("CRvk", "", other, "RRvk", nobodys(b"other"), REFUSED),
        ("ASet", "", color, "RAtr", color, 0),
        ("AGet", "elsewhere", size, "RAtr", size, REFUSED),
        ("AGet", "", colorless, "RAtr", color, 0),
        ("ALst", "", unnamed, "RALs", b"color dark blue\n", 0),
        ("ADel", "", colorless, "RAtr", colorless, 0),
        ("ADel", "again", color, "RAtr", color, gone),
        ("AGet", "gone", color, "RAtr", color, gone),
        ("ALst", "empty", unnamed, "RALs", b"", 0),
        ("CTkt", "", asked, "RTkt", nobodys(), 0),
        ("CTkt", "elsewhere", other, "RTkt", nobodys(b"other"), REFUSED),
    ]
    for number, (command, case, body, answer, answer_body, result) in enumerate(table, 1):
        request = at(SENT, plain, command, body, request=number, **said)
        fields = {"sender": S1, "request": number, "result": result}
        reply = at(NOW, plain, answer, answer_body, **fields)
        about = f"`{command}` is answered with `{answer}`{', ' + case if case else ''}"
        name = f"{command.lower()} {case}".rstrip()
        print_turn(name, about, request, [("client", reply)])
        if command == "CLst":
            sends = [("client", reply), *hello(plain)]
            print_turn("clst first", "the same before the hello", request, sends)
            print_moments(request)
        if command == "Peer":
            none_sent = peers(NO_DROPS, "0 0 0 0", "0 0 0 0")
            reply = at(NOW, plain, answer, none_sent, **fields)
            sends = [("client", reply), *hello(plain)]
            print_turn("peer first", "the same before the hello", request, sends)


def print_moments(request):
    """Prints the request for the list at this reading of the clock, with that reading in use."""
    table = [
        ("back", "the first reading", 5, NOW),
        ("late", "a reading past the seconds of a frame", 4_294_967_296_005, 4_294_967_296_005),
        ("late still", "an earlier one after that", NOW, 4_294_967_296_005),
        ("last", "the greatest one", 2**64 - 1, 2**62 - 1),
    ]
    for name, about, reading, used in table:
        reply = at(used, plain, "RLst", LIST, sender=S1, request=1)
        print_turn(f"clst {name}", f"`CLst` at {about}", request, [("client", reply)], now=reading)
    about = "the hello of S1, which started later than its clock reads"
    print_turn("hello back", about, None, hello(plain), now=5)


def print_sealed_requests():
    revoke = frames.ticket_body(TICKET, S2, 7, 9)
    table = [
        ("CLst", b"", "RLst", LIST, 11, 0),
        ("CRvk", revoke, "RRvk", nobodys(), 12, frames.code("Tidl")),
        ("CTkt", revoke, "RTkt", nobodys(), 14, 0),
    ]
    for command, body, answer, answer_body, number, result in table:
        request = at(SENT, sealed, command, body, request=number)
        fields = {"sender": S1, "request": number, "result": result}
        reply = at(NOW, sealed, answer, answer_body, **fields)
        about = f"`{command}` with its MAC is answered with `{answer}` with its own"
        print_turn(f"{command.lower()} sealed", about, request, [("client", reply)])
    request = at(SENT, sealed, "Peer", request=13)
    for name, after, text in [
        ("bad mac", "one frame with a wrong MAC", peers("0 0 1 0 0 0 0 0")),
        ("hrtb", "one `HrtB` of S2", peers(NO_DROPS, "1700000000 1 2 0")),
        ("faults", "one frame with each fault", peers("1 1 1 1 1 1 1 1")),
        ("flood", "1,250 frames with each fault", peers(" ".join(["1250"] * 8))),
    ]:
        reply = at(NOW, sealed, "RPer", text, sender=S1, request=13)
        about = f"`Peer` with its MAC, after {after}"
        print_turn(f"peer after {name}", about, request, [("client", reply)])


def print_faults():
    answer = frames.ticket_body(TICKET, S2, 1, 0)
    ack = at(NOW, sealed, "Ack.", answer, sender=S1, options=3)
    about = "`HrtB` of S2 with its MAC, from anywhere, is answered to where S2 listens, once that is kept"
    promise = f"bound S2 promise S2 1 {NOW + PROMISE} abstain {PROMISE}"
    print_turn("hrtb", about, heartbeat(S2), [("S2", ack)], keeps=[f"ticket-db8 1 {promise}"])
    unsealed = at(SENT, plain, "CLst", request=1)
    print_turn("no frame", "47 bytes", at(SENT, plain, "CLst")[:47])
    print_turn("no mac", "`CLst` without a MAC", unsealed)
    wrong = bytearray(at(SENT, sealed, "CLst", request=11))
    wrong[frames.HEAD_BYTES + 4] ^= 1
    print_turn("bad mac", "`CLst` with one bit of its MAC turned", bytes(wrong))
    old = at(NOW - 601_999, sealed, "CLst", request=11)
    print_turn("too old", "`CLst` of 601 seconds ago", old)
    print_turn("stranger", "`HrtB` of nobody", heartbeat(0x0102_0304))
    print_turn("own", "`HrtB` of S1 itself", heartbeat(S1))
    print_turn("no ticket", "`HrtB` of S2 on another ticket", heartbeat(S2, ticket=b"ticket-db9"))
    about = "`HrtB` of S2 that names S1 as its leader"
    print_turn("no leader", about, heartbeat(S2, leader=S1))


WHERE = "with all bytes of their frames in hexadecimal"
if sys.argv[1:] == ["sealed"]:
    print(f"# Turns of S1 with the key `secret-key`, {WHERE}: each has its name and what")
    print("# happens in it. The frames were spelled by tools/frames.py and sealed by the hmac of Python.")
    print_turn("sealed hello", "the hello of S1 with its MAC", None, hello(sealed))
    print_sealed_requests()
    print_faults()
else:
    print(f"# Turns of S1 without a key, {WHERE}: each has its name and what happens in it.")
    print("# The frames were spelled by tools/frames.py.")
    print_turn("plain hello", "the hello of S1", None, hello(plain))
    print_requests()
