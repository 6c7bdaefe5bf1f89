#!/usr/bin/env python3
"""Measures signed frames of members, with both hashes, and compares them with OpenSSL's HMAC of the same bytes.

Run it as `python3 bench/seals.py [--quick] [PROGRAM]`. PROGRAM is a boothd, by default the one that `make build`
leaves. The bench prints one table. Its status is 1 if a mark is missed by more than a tenth. It builds programs in C
with cc; one of them needs OpenSSL's headers and libcrypto. The daemon gets the frames over loopback, counts each of
them and answers none. It is compared with two things. A loop in C receives the same frames and makes the MAC of each by
OpenSSL. And OpenSSL makes these MACs alone, without a socket. A speed is that of the best of many short rounds, which
alternate.
"""

import os
import subprocess
import sys
import tempfile

HERE = os.path.dirname(os.path.abspath(__file__))
sys.path[:0] = [HERE, f"{HERE}/../tools"]

from frames import HASH_IDS, MEMBERS_SAY, NO_ONE, Ring, request_now
from rows import Row, at_least, print_table
from run import KEY, QUICK, SITE, WHOLE, Bench, cpu_seconds, said
from serving import NotServing, Server, built_program, end_by_signals
from texts import one_ticket

OLD, ANOTHER = b"o" * 32, b"a" * 32
# the index of `badmac` among the drop counters
BADMAC = 2
# how many frames a round has
EACH = 10_000
NAMES = {"sha1": "SHA-1", "sha256": "SHA-256"}
# the mark of each hash: the daemon's speed divided by OpenSSL's
MARKS = {"sha1": 0.8, "sha256": 0.5}


class Pace:
    """The measured rounds of one kind of frames: the time of each, and the CPU time of all, in seconds."""

    def __init__(self):
        self.seconds, self.cpu = [], 0

    def add(self, seconds, cpu):
        """Adds a round."""
        self.seconds.append(seconds)
        self.cpu += cpu

    def a_second(self):
        """Returns the frames per second in the best round."""
        return EACH / min(self.seconds)

    def micros(self):
        """Returns the CPU time per frame, in microseconds."""
        return self.cpu / len(self.seconds) / EACH * 1e6


def daemon_with(bench, ring):
    """Returns a daemon with this key ring, or without a key if there is none."""
    text = one_ticket()
    if ring is None:
        return bench.daemon(text)
    text += b"authhash = %s\n" % ring.hash.encode()
    if ring.old is not None:
        text += b"authfile-old = %s\n" % bench.file("old", ring.old).encode()
    return bench.daemon(text, ring)


def flooded(bench, ring, frames, pace):
    """Sends one round of the frames to a daemon with this key ring. Returns how many it dropped, by their fault, and how
    many it accepted.
    """
    path = bench.file("flood.frames", request_now("Peer", NO_ONE, key=ring) + b"".join(frames))
    with daemon_with(bench, ring) as daemon:
        # (the daemon gets each kind of frame once before it is measured)
        bench.said(bench.flood, "members", bench.address, path, str(len(frames)))
        before = cpu_seconds(daemon.process)
        seconds, _ = bench.said(bench.flood, "members", bench.address, path, str(EACH))
        pace.add(seconds, cpu_seconds(daemon.process) - before)
        drops, accepted = bench.peers(ring)
    due = EACH + len(frames)
    if sum(drops) + accepted != due:
        raise NotServing(f"{due} frames were sent, {accepted} accepted, and {drops} dropped")
    return drops, accepted


def let_in(bench, ring, frames, pace):
    """Measures a round of frames that the daemon must accept."""
    drops, accepted = flooded(bench, ring, frames, pace)
    if sum(drops):
        raise NotServing(f"all frames must be accepted: {accepted} were, and {drops} were dropped")


def refused(bench, ring, frames, pace):
    """Measures a round of frames that the daemon must drop for their MAC."""
    drops, accepted = flooded(bench, ring, frames, pace)
    if accepted or sum(drops) != drops[BADMAC]:
        raise NotServing(f"all frames must be dropped for their MAC: {accepted} were accepted, and {drops} dropped")


def macs(bench, program, name, frames, pace):
    """Measures one round in which OpenSSL only makes the MACs of the frames."""
    path = bench.file("macs.frames", b"".join(frames))
    seconds, cpu = bench.said(program, name, bench.key_file, path, str(EACH))
    pace.add(seconds, cpu / 1e9)


def served(bench, program, ring, frames, pace):
    """Measures one round of frames that the loop in C receives, and whose MACs it makes."""
    path = bench.file("served.frames", request_now("Peer", NO_ONE, key=ring) + b"".join(frames))
    address = bench.echo_address
    with Server([program, ring.hash, bench.key_file, "serve", address], address, key=ring) as peer:
        bench.said(bench.flood, "members", address, path, str(len(frames)))
        before = cpu_seconds(peer.process)
        seconds, _ = bench.said(bench.flood, "members", address, path, str(EACH))
        pace.add(seconds, cpu_seconds(peer.process) - before)


def paces(bench, program):
    """Returns the pace of frames without a key, and for each hash four paces: of signed frames, of the loop in C, of
    OpenSSL alone, and of frames that are refused.
    """
    plain, by_hash = Pace(), {name: (Pace(), Pace(), Pace(), Pace()) for name in HASH_IDS}
    for _ in range(bench.effort.rounds):
        let_in(bench, None, [said(letters, SITE, None) for letters in MEMBERS_SAY], plain)
        for name, (sealed, received, beside, wrong) in by_hash.items():
            ring = Ring(KEY, hash=name)
            frames = [said(letters, SITE, ring) for letters in MEMBERS_SAY]
            let_in(bench, ring, frames, sealed)
            served(bench, program, ring, frames, received)
            macs(bench, program, name, frames, beside)
            strange = [said(letters, SITE, Ring(ANOTHER, hash=name)) for letters in MEMBERS_SAY]
            refused(bench, Ring(KEY, OLD, name), strange, wrong)
    return plain, by_hash


def rows(bench, program):
    """Measures all kinds of frames, and returns their rows."""
    plain, by_hash = paces(bench, program)
    yield Row("frames of members accepted a second, without a key", f"{plain.a_second():,.0f}")
    yield Row("daemon CPU time per frame, without a key", f"{plain.micros():.2f} µs")
    for name, (sealed, received, beside, wrong) in by_hash.items():
        speed, most, alone = sealed.a_second(), received.a_second(), beside.a_second()
        shown = f"{speed:,.0f} (a loop in C with OpenSSL's HMAC: {most:,.0f}; its MACs alone: {alone:,.0f})"
        yield Row(f"sealed frames accepted a second, {NAMES[name]}", shown)
        yield Row("ratio of this speed to that of the loop", f"{speed / most:.2f}")
        yield at_least("ratio of this speed to that of the MACs alone", speed / alone, f"{speed / alone:.2f}", MARKS[name])
        micros, loop, mac = sealed.micros(), received.micros(), beside.micros()
        shown = f"{micros:.2f} µs (the loop: {loop:.2f} µs; the MAC alone: {mac:.2f} µs)"
        yield Row(f"daemon CPU time per sealed frame, {NAMES[name]}", shown)
        shown = f"{wrong.a_second():,.0f} (CPU: {wrong.micros():.2f} µs)"
        yield Row(f"frames refused a second, two wrong keys tried, {NAMES[name]}", shown)


def main(words):
    end_by_signals()
    effort = QUICK if "--quick" in words else WHOLE
    words = [word for word in words if word != "--quick"]
    program = words[0] if words else built_program()
    if program is None:
        sys.exit("seals.py: boothd is not built: run make build")
    with tempfile.TemporaryDirectory(prefix="booth-bench-") as folder:
        peer = f"{folder}/macs"
        try:
            subprocess.run(["cc", "-O2", "-o", peer, f"{HERE}/macs.c", "-lcrypto"], check=True)
            return print_table(rows(Bench(os.path.abspath(program), folder, effort), peer))
        except (NotServing, OSError, subprocess.CalledProcessError) as why:
            sys.exit(f"seals.py: {why}")


if __name__ == "__main__":
    sys.exit(main(sys.argv[1:]))
