"""Checks what a daemon answers, counts and drops.

It is imported by tests/loopback.py, and not run by itself.
"""

import hashlib
import itertools
import random
import signal
import time

import frames
from checks import need
from frames import AUTH, ATTR, MEMBERS_SAY, NO_ONE, Head, code, field, frame, member_id, numbers
from frames import request_now, sealed
from gate import BADMAC, FRAME, LEADER, LEADERS_ALONE, NOMAC, OLD, SELF, STRANGER, TICKET
from room import KEY, MOST_UDP_BYTES, SECONDS_TO_END, Asker, check

# (the quickest of three tries counts, since a busy machine may be late)
SECONDS_OF_A_SIGNAL = 0.5
SEED = 9929

SITE, VOTER = "192.168.202.100", "192.168.203.100"
DB8 = b"ticket-db8"

# a body of each kind, as clients and members send it
TICKET_BODY = frames.ticket_body(DB8, NO_ONE, 0, 0)
ATTRIBUTE_BODY = frames.attribute_body(DB8, b"color", b"dark blue")
ALL_ATTRIBUTES = frames.attribute_body(DB8, b"", b"")
REPLIES = ["RLst", "RTkt", "RPer", "RALs", "RGnt", "RRvk", "RAtr"]
BODIES = {
    frames.BARE: b"",
    frames.TICKET: TICKET_BODY,
    frames.ATTRIBUTE: ATTRIBUTE_BODY,
    frames.TEXT: b"ticket-db8 none 0\n",
}


def body_of(letters):
    return ALL_ATTRIBUTES if letters == "ALst" else BODIES[frames.BODY_OF[letters]]


def said(letters, sender, ticket=DB8, leader=NO_ONE, key=None, **fields):
    """Returns a frame of a member, with the ids of these addresses."""
    sender, leader = (id if isinstance(id, int) else member_id(id) for id in (sender, leader))
    body = frames.ticket_body(ticket, leader, 7, 600)
    return request_now(letters, 0, body, key, sender=sender, **fields)


@check
def one_request(room):
    """a list request has one reply, byte for byte, with the daemon's clock"""
    with room.serving() as daemon, Asker(daemon) as asker:
        asker.asks("CLst")
        asker.is_quiet()


@check
def free_fields(room):
    """the reply repeats any request number; clock, options, reason and result are ignored"""
    with room.serving() as daemon, Asker(daemon) as asker:
        for number in (0, 1, 2**31, 2**32 - 1):
            for letters in ("CLst", "Peer"):
                asker.asks(letters, request=number)
        for name in ("secs", "usecs", "options", "reason", "result"):
            for value in (0, 1, 2**32 - 1):
                asker.asks("CLst", what=f"{name} {value}", **{name: value})


@check
def client_commands(room):
    """each command of a client has its reply, without a key and with one"""
    for key in (None, KEY):
        with room.serving(room.station(key=key)) as daemon, Asker(daemon) as asker:
            asker.asks("CRvk", TICKET_BODY, "a revocation of what is not granted")
            for letters in frames.ANSWER_TO:
                asker.asks(letters, body_of(letters))
            asker.asks("CGnt", TICKET_BODY, "a second grant")
            asker.asks("CTkt", TICKET_BODY, "a ticket that is asked for")
            asker.asks("Peer")
            # (any other ticket is unknown)
            longest, value = b"~" * 63, bytes(range(0x20, 0x7F)).ljust(127, b"!")
            for letters in ("CTkt", "CGnt", "CRvk"):
                asker.asks(letters, frames.ticket_body(longest, 1, 2**32 - 1, 2**32 - 1))
            for letters in ("ASet", "AGet", "ADel"):
                for text in (b"", value):
                    asker.asks(letters, frames.attribute_body(longest, longest, text))
            asker.is_quiet()


@check
def most_of_all(room):
    """16 members, and 64 tickets with names of 63 bytes, are listed in the file's order"""
    names = tuple(b"%02d" % (number * 37 % 64) + b"-" * 61 for number in range(64))
    sites = tuple(("site", f"10.0.{number}.255") for number in range(7))
    voters = tuple(("arbitrator", f"2001:db8::{number:x}:1") for number in range(1, 9))
    station = room.station(others=sites + voters, tickets=names)
    lines = room.configuration(station).split(b"\n")
    # (the file has members between the tickets; this daemon's member is the last)
    text = b"\n".join([*lines[16:56], *lines[1:16], *lines[56:], lines[0]])
    with room.serving(station, text) as daemon, Asker(daemon) as asker:
        asker.asks("CLst")
        asker.asks("Peer")


@check
def name_bytes(room):
    """a name may have any byte from 0x21 to 0x7E"""
    every = bytes(range(0x21, 0x7F)).replace(b'"', b"")
    names = (every[:63], every[63:], b'"', b"'")
    text = room.configuration(room.station(tickets=names[:2])) + b"\nticket='\"'\nticket=\"'\""
    with room.serving(room.station(tickets=names), text) as daemon, Asker(daemon) as asker:
        asker.asks("CLst")


def no_frames():
    """Yields datagrams that are not frames, with their faults."""
    for length in (0, 1, 24, 28, 47):
        yield f"{length} bytes", Head(length=length).spelled()[:length]
    foreign = {
        "magic": (0, 0x5F1BA08D, 0x8CA01B5F),
        "version": (0, 0x00010002, 0x00010004, 0x03000100),
        "length": (0, 47, 49, 0x30000000, 2**32 - 1),
        "cmd": (0, 2**32 - 1, code("clst"), code("CLsT"), code("tsLC")),
        "opts": (AUTH, 2, ATTR, AUTH | ATTR, 8, 2**31, 2**32 - 1),
    }
    for name, values in foreign.items():
        for value in values:
            yield f"{name} {value:#x}", Head()._replace(**{name: value}).spelled()
    for length in (49, 76, 124, frames.FRAME_BYTES, frames.FRAME_BYTES + 1, MOST_UDP_BYTES):
        for told in (frames.HEAD_BYTES, length):
            head = Head(length=told).spelled()
            yield f"{length} bytes that tell {told}", head.ljust(length, b"\0")
    yield "a text too long", frame("RLst", b"a" * 16_385)
    yield "a text too long for a frame", frame("RLst", b"a" * 16_413)
    yield from (("a letter in its name", each) for each in faulty_names())
    for letters in ("CGnt", "Stat", "ASet", "RAtr"):
        body = body_of(letters)
        for other in (b"", body[:-1], body + b"\0", TICKET_BODY[:75], ATTRIBUTE_BODY + b"\0"):
            yield f"{letters} with {len(other)} bytes", frame(letters, other)
    head = Head.read(frame("ASet", ATTRIBUTE_BODY))._replace(opts=0)
    yield "an attribute without its bit", head.spelled() + ATTRIBUTE_BODY
    for auth in (1, 27, 29):
        head = Head(opts=AUTH, length=frames.HEAD_BYTES + auth)
        yield f"an authentication part of {auth} bytes", head.spelled() + bytes(auth)


def faulty_names():
    """Yields frames in which a name, a value or a text has a wrong form."""
    names = [b"", b" ", b"a b", b"\x1f", b"\x7f", b"\xe9", b"a\n"]
    fields = [*(field(name, 64) for name in names), b"x" * 64, b"a\0b".ljust(64, b"\0")]
    for name in fields:
        yield frame("CGnt", name + numbers(NO_ONE, 0, 0))
        yield frame("HrtB", name + numbers(NO_ONE, 0, 0), sender=member_id(SITE))
        yield frame("AGet", name + ATTRIBUTE_BODY[64:])
        yield frame("ASet", ATTRIBUTE_BODY[:64] + name + ATTRIBUTE_BODY[128:])
    for value in (field(b"\x1f", 128), field(b"\x7f", 128), b"x" * 128, b"a\0b".ljust(128, b"\0")):
        yield frame("ASet", ATTRIBUTE_BODY[:128] + value)
    yield frame("ALst", ATTRIBUTE_BODY)
    for text in (b"\t", b"a\r\n", b"\0", b"\x7f"):
        yield frame("RLst", text)


@check
def frame_drops(room):
    """a datagram that is not a frame is dropped as such, without a key and with one"""
    for key in (None, KEY):
        with room.serving(room.station(key=key)) as daemon, Asker(daemon) as asker:
            for what, datagram in no_frames():
                asker.is_dropped(datagram, FRAME, what)
            asker.is_quiet()


@check
def sender_drops(room):
    """a sender, a ticket or a leader that is not allowed is dropped, with the first of these faults"""
    for key in (None, KEY):
        with room.serving(room.station(key=key)) as daemon, Asker(daemon) as asker:
            me = room.address
            for letters in frames.ANSWER_TO:
                for sender in (1, NO_ONE, member_id(me), member_id(SITE)):
                    asked = request_now(letters, 1, body_of(letters), key, sender=sender)
                    asker.is_dropped(asked, STRANGER, f"{letters} from {sender:#x}")
            for letters in REPLIES:
                for sender in (0, member_id(SITE)):
                    reply = request_now(letters, 1, body_of(letters), key, sender=sender)
                    asker.is_dropped(reply, STRANGER, letters)
            for letters in MEMBERS_SAY:
                for sender in (0, NO_ONE, "192.168.202.101"):
                    # (the faults of a ticket and of a leader are checked later)
                    frame = said(letters, sender, b"other", VOTER, key)
                    asker.is_dropped(frame, STRANGER, f"{letters} from {sender}")
                own = said(letters, me, b"other", VOTER, key)
                asker.is_dropped(own, SELF, f"{letters} of its own")
                for ticket in (b"other", b"ticket-db", b"ticket-db88", b"Ticket-db8"):
                    frame = said(letters, SITE, ticket, VOTER, key)
                    asker.is_dropped(frame, TICKET, f"{letters} for {ticket}")
                for leader in (0, VOTER, "192.168.202.101", NO_ONE - 1):
                    frame = said(letters, SITE, leader=leader, key=key)
                    asker.is_dropped(frame, LEADER, f"{letters} with leader {leader}")
            for letters in LEADERS_ALONE:
                for sender, leader in ((SITE, NO_ONE), (SITE, me), (VOTER, VOTER), (VOTER, SITE)):
                    frame = said(letters, sender, leader=leader, key=key)
                    asker.is_dropped(frame, LEADER, f"{letters} of {sender} with leader {leader}")
            asker.is_quiet()


@check
def members_are_counted(room):
    """a command of a member is counted for that member, heard, and answered to that member only"""
    for key in (None, KEY):
        with room.serving(room.station(key=key)) as daemon, Asker(daemon) as asker:
            for letters in MEMBERS_SAY:
                asker.is_heard(said(letters, SITE, leader=SITE, key=key), letters)
                if letters in LEADERS_ALONE:
                    continue
                for sender, leader in ((SITE, NO_ONE), (SITE, room.address), (VOTER, NO_ONE)):
                    frame = said(letters, sender, leader=leader, key=key)
                    asker.is_heard(frame, f"{letters} with leader {leader}")
            asker.is_quiet()


@check
def macs(room):
    """with a key a frame without its MAC, or with another MAC, is dropped, whoever sends it"""
    with room.serving(room.station(key=KEY)) as daemon, Asker(daemon) as asker:
        for letters in frames.BODY_OF:
            for sender in (0, member_id(SITE)):
                bare = request_now(letters, 1, body_of(letters), sender=sender)
                asker.is_dropped(bare, NOMAC, f"{letters} without a MAC")
                for key in (KEY[:-1], KEY + b"\0" + b"x", KEY + b"\n", KEY.upper()):
                    other = request_now(letters, 1, body_of(letters), key, sender=sender)
                    asker.is_dropped(other, BADMAC, f"{letters} with the key {key}")
        whole = request_now("Peer", 1, key=KEY)
        before, part = whole[:-28], whole[-28:]
        wrong = {
            "zeros": bytes(20),
            "a hash without a key": hashlib.sha1(before).digest(),
            "a hash of key and frame": hashlib.sha1(KEY + before).digest(),
            "a MAC over the hash id too": frames.auth_part(KEY, before + part[:4])[4:24],
            "a MAC over the whole frame": frames.auth_part(KEY, before + bytes(28))[4:24],
            "the MAC of another frame": request_now("CLst", 1, key=KEY)[-24:-4],
            "the MAC, a byte on": b"\0" + part[4:23],
        }
        for what, mac in wrong.items():
            asker.is_dropped(before + part[:4] + mac + bytes(4), BADMAC, what)
        asker.is_quiet()


@check
def free_authentication(room):
    """a hash id names the MAC, the last 4 bytes after an SHA-1 MAC are ignored, and so are MACs without a key"""
    with room.serving(room.station(key=KEY)) as daemon, Asker(daemon) as asker:
        whole = request_now("CLst", 1, key=KEY)
        before, mac = whole[:-28], whole[-24:-4]
        for id, rest in ((0, bytes(4)), (4, b"\xff" * 4), (2**32 - 1, b"\0\0\0\x01")):
            asker.send(before + numbers(id) + mac + rest)
            asker.takes("CLst", 1, daemon.lists_due())
        asker.is_dropped(before + numbers(3) + mac + bytes(4), BADMAC, "the MAC by SHA-1 under the id 3")
        long = frames.auth_part(KEY, before, 3)
        asker.send(before + long)
        asker.takes("CLst", 1, daemon.lists_due())
        asker.is_dropped(before + numbers(2) + long[4:], BADMAC, "the MAC by SHA-256 under the id 2")
        for place in range(4, 28):
            turned = bytes(byte ^ (at == place) for at, byte in enumerate(long))
            asker.is_dropped(before + turned, BADMAC, f"byte {place} of the part by SHA-256")
    with room.serving() as daemon, Asker(daemon) as asker:
        for hash in (bytes(24), b"\xff" * 24):
            asker.send(frame("CLst", auth=numbers(2) + hash, request=5))
            asker.takes("CLst", 5, daemon.lists_due())
            stat = frame("Stat", TICKET_BODY, numbers(2) + hash, sender=member_id(SITE))
            asker.is_heard(stat, "Stat with a part that nobody reads")


@check
def keys(room):
    """a key of 8 and of 64 bytes, of any bytes, and without the blanks around it"""
    other = bytes(range(0xC0, 0x100))
    whole = b" \t" + other[:20] + b"\n"
    for text, key in (
        (b"12345678", b"12345678"),
        (b"\t\n\v\f\r  " + b"k" * 64 + b" \n", b"k" * 64),
        (b"two words\r\n", b"two words"),
        (other, other),
        # (a key file with bytes that are not text is used unchanged as the key)
        (whole, whole),
    ):
        configuration = room.configuration(room.station(key=text))
        station = room.station(key=key)
        with room.serving(station, configuration) as daemon, Asker(daemon) as asker:
            asker.asks("CLst", what=f"the key {text}")


@check
def old_frames(room):
    """with a key a frame whose clock is too far behind is dropped, before its sender is looked at"""
    for skew in (600, 5):
        station = room.station(key=KEY, skew=skew)
        text = room.configuration(station) + (b"" if skew == 600 else b"\nmaxtimeskew = %d" % skew)
        with room.serving(station, text) as daemon, Asker(daemon) as asker:
            for letters in ("CLst", "Stat", "RLst"):
                for secs in (0, int(time.time()) - skew - 2, int(time.time()) - skew - 1):
                    fields = {"secs": secs, "sender": member_id(SITE)}
                    late = sealed(KEY, letters, body_of(letters), **fields)
                    asker.is_dropped(late, OLD, f"{letters} of {secs}")
            for secs in (int(time.time()) - skew + 3, int(time.time()) + 10**8, 2**32 - 1):
                asker.asks("CLst", secs=secs)
    # (without a key the daemon does not check it)
    with room.serving() as daemon, Asker(daemon) as asker:
        asker.is_heard(said("Stat", SITE, secs=0), "an old frame without a key")


def batches(datagrams, size=16):
    datagrams = iter(datagrams)
    while batch := list(itertools.islice(datagrams, size)):
        yield batch


@check
def flipped_bits(room):
    """a sealed frame with one bit flipped, for each bit, is dropped or accepted as the protocol says"""
    with room.serving(room.station(key=KEY)) as daemon, Asker(daemon) as asker:
        whole = int.from_bytes(said("HrtB", SITE, leader=SITE, key=KEY), "big")
        flipped = ((whole ^ (1 << bit)).to_bytes(152, "big") for bit in range(152 * 8))
        for batch in batches(flipped):
            asker.meets(batch)
        counts = daemon.counts
        # (the daemon ignores the 8 bytes around the MAC, except the bit that changes the hash id to that of SHA-256)
        need(counts.drops[BADMAC] > 400 and counts.accepted[SITE] == 63, f"{vars(counts)}")


def random_datagrams(station, chance):
    """Yields an endless series of frames of every command, some with random bytes."""
    ids = [0, NO_ONE, *map(member_id, (station.address, SITE, VOTER, "10.0.0.1"))]
    while True:
        letters = chance.choice([*frames.BODY_OF])
        body = body_of(letters)
        if frames.BODY_OF[letters] == frames.TICKET:
            # (for a granted ticket the daemon would repeat its requests)
            is_client = letters in frames.ANSWER_TO
            ticket = b"other" if is_client else chance.choice([DB8, DB8, DB8, b"other"])
            body = frames.ticket_body(ticket, chance.choice(ids), chance.getrandbits(32), 600)
        key = chance.choice([station.key, station.key, station.key, None, b"another-key"])
        secs = int(time.time()) - chance.choice([0, 0, 0, 10**4])
        sender = 0 if letters in frames.ANSWER_TO and chance.random() < 0.8 else chance.choice(ids)
        made = bytearray(sealed(key, letters, body, secs=secs, request=7, sender=sender))
        what = chance.random()
        if what < 0.2:
            made[chance.randrange(len(made))] ^= 1 << chance.randrange(8)
        elif what < 0.3:
            del made[chance.randrange(len(made)) :]
        elif what < 0.4:
            made += bytes(chance.choice((1, 28, 76)))
        elif what < 0.5:
            made[chance.randrange(len(made)) :] = chance.randbytes(chance.randrange(300))
        yield bytes(made)


@check
def random_frames(room):
    """frames of every command, some with random bytes, have the effects that the protocol says"""
    for key in (None, KEY):
        station = room.station(key=key)
        chance = random.Random(SEED)
        with room.serving(station) as daemon, Asker(daemon) as asker:
            for batch in itertools.islice(batches(random_datagrams(station, chance)), 60):
                asker.meets(batch)
            asker.is_quiet()
            counts = daemon.counts
            due = range(8) if key else (FRAME, STRANGER, SELF, TICKET, LEADER)
            is_met = all(counts.drops[kind] for kind in due) and all(counts.accepted.values())
            need(is_met, f"the test has not each kind: {vars(counts)}")


@check
def two_askers(room):
    """two clients, each with its own address, get the replies to their own requests, in order"""
    with room.serving() as daemon, Asker(daemon) as one:
        with Asker(daemon, next(room.addresses)) as other:
            for number in range(40):
                one.send(request_now("CLst", number))
                other.send(b"")
                other.send(request_now("CLst", 1000 + number))
            for number in range(40):
                one.takes("CLst", number, daemon.lists_due())
                other.takes("CLst", 1000 + number, daemon.lists_due())
            one.is_quiet()
            other.is_quiet()


@check
def other_port(room):
    """the port of the configuration is served, and the default port is not"""
    station = room.station(port=frames.PORT + 1)
    with room.serving(station) as daemon, Asker(daemon) as asker:
        asker.asks("CLst")
        asker.station = room.station()
        asker.send(request_now("CLst", 1))
        asker.is_quiet()


@check
def version_6(room):
    """a member with an IPv6 address listens at it, and is listed in its usual spelling"""
    others = (("site", room.address), ("arbitrator", "2001:db8::1:0:0:1"))
    station = room.station(others=others, key=KEY)._replace(address="::1")
    text = room.configuration(station).replace(b"2001:db8::1:0:0:1", b"2001:DB8:0:0:1::1")
    text = text.replace(b"::1", b"0:0:0:0:0:0:0:1", 1)
    with room.serving(station, text) as daemon, Asker(daemon) as asker:
        asker.asks("CLst")
        asker.asks("Peer")
        asker.is_heard(said("Stat", room.address, leader="::1", key=KEY), "Stat")
        asker.is_dropped(said("Stat", "::1", key=KEY), SELF, "Stat of its own")


@check
def arbitrator(room):
    """an arbitrator answers as a site does, and no message may name it as a leader"""
    others = (("site", SITE), ("site", "10.0.0.1"))
    station = room.station(others=others, is_site=False)
    text = room.configuration(station).replace(b"site", b"arbitrator", 1)
    with room.serving(station, text) as daemon, Asker(daemon) as asker:
        for letters in frames.ANSWER_TO:
            asker.asks(letters, body_of(letters))
        asker.is_heard(said("Stat", SITE, leader="10.0.0.1"), "Stat")
        asker.is_dropped(said("Stat", SITE, leader=room.address), LEADER, "its leader")


@check
def sigterm(room):
    """SIGTERM ends the daemon immediately, and its port and its lock are free"""
    took = []
    for _ in range(3):
        with room.serving() as daemon, Asker(daemon) as asker:
            asker.asks("CLst")
            process, sent = daemon.server.process, time.monotonic()
            process.send_signal(signal.SIGTERM)
            status = process.wait(timeout=SECONDS_TO_END)
            took.append(time.monotonic() - sent)
        need(status == -signal.SIGTERM, f"the status is {status}")
    need(min(took) < SECONDS_OF_A_SIGNAL, f"it took {took} seconds")
