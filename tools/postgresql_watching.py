"""Keeps a server that is not the primary a standby that follows the primary: the command `booth-postgresql watch`.

It is imported by booth-postgresql, and not run by itself. It never promotes a server: the follower of the ticket does.
"""

import os
import sys
import time
from typing import Dict, Optional

import postgresql_rebuilding as rebuilding
import postgresql_server as pg
import record_file
from postgresql_rebuilding import COPY, PARTED, REWIND, WAIT
from postgresql_server import Failed, Place, Server

SECONDS_BETWEEN_LOOKS = 2
# used while a former primary comes back: until it is in step, it is not promoted if no other site answers
SECONDS_BETWEEN_HURRIED_LOOKS = 0.5
# number of looks at which a standby receives nothing, before its position is compared with the primary's
LOOKS_WITHOUT_STREAM = 2
# number of looks at which the started primary does not answer, before its follower is restarted
LOOKS_WITHOUT_SERVICE = 3
# number of looks between two notes that a standby is in step
LOOKS_BETWEEN_NOTES = 5
SECONDS_BETWEEN_RESTARTS = 10
SECONDS_BETWEEN_REBUILDS = 20
SECONDS_BETWEEN_STARTS = 30
SECONDS_OF_A_CHECKPOINT, SECONDS_OF_A_STOP = 3_600, 600
# within this time another site cannot have acquired the ticket and started a primary
SECONDS_OF_A_LEASE_UNSEEN = 3
# states of the service in which only the follower acts on the server
BUSY = ("starting", "stopping", "killing")
# states of a service that the follower has started
FOLLOWED = ("running", "ended")


class Watch:
    """The results of the earlier looks."""

    def __init__(self, server: Server) -> None:
        self.server = server
        self.without_stream = self.without_service = self.without_follower = self.in_step = 0
        self.restarted = self.rebuilt = self.started = -float("inf")
        self.is_coming_back = False
        self.held: Optional[record_file.Lease] = None
        self.seen = -float("inf")
        self.said: Dict[str, str] = {}

    def say(self, text: str, about: str = "") -> None:
        """Prints a line on standard error, unless it repeats the last line that was printed about `about`."""
        if not about or self.said.get(about) != text:
            print(f"booth-postgresql: {self.server.name}: {text}", file=sys.stderr, flush=True)
        if about:
            self.said[about] = text

    def look(self) -> None:
        """Looks at the server once, and does what is due."""
        server = self.server
        if pg.is_kept(server, "rebuilding"):
            self.resume()
            return
        service = pg.follower_state(server).get("service", "")
        held = self.see_lease()
        recovers = pg.psql(server, pg.spot(server), "SELECT pg_is_in_recovery()")
        if recovers == "f":
            self.without_service = self.without_stream = 0
            self.see_timeline()
            if held is not None:
                self.note_term(held.term)
            self.demote(service)
            return
        self.without_follower = 0
        if service in FOLLOWED:
            self.see_no_primary(service, recovers == "t" or not pg.processes(server))
            return
        self.without_service = 0
        if service in BUSY or pg.is_kept(server, "primary"):
            return
        if recovers is None:
            if not pg.processes(server):
                self.is_coming_back = False
                self.start()
            return
        self.follow()

    def start(self) -> None:
        """Starts a server whose unit failed, as a standby. A server that an operator stopped stays stopped."""
        now = time.monotonic()
        if now - self.started >= SECONDS_BETWEEN_STARTS and pg.units("is-failed", "-q", self.server.unit).status == 0:
            self.started = now
            self.say(f"{self.server.unit} failed: starts it again, as a standby")
            done = pg.units("start", "--no-block", self.server.unit)
            if done.status != 0:
                self.say(f"cannot start {self.server.unit}: {rebuilding.last_line(done.err)}", "start")

    def note_term(self, term: int) -> None:
        """Records that no other site had a primary between this site's primary and this site's lease of this term.

        A primary that answers after the lease was read proves this. A lease that was never lost proves it too.
        """
        noted = pg.kept_value(self.server, "former")
        if noted is not None and (not noted.isdigit() or int(noted) < term):
            pg.keep(self.server, "former", str(term))

    def see_lease(self) -> Optional[record_file.Lease]:
        """Returns the lease of this site. Its term may have risen since the last look although it was never lost."""
        before, seen = self.held, self.seen
        self.held, self.seen = pg.lease(self.server), time.monotonic()
        if self.held is not None and before is not None and self.held.term > before.term:
            is_unbroken = self.seen - seen < SECONDS_OF_A_LEASE_UNSEEN and time.time() * 1000 < before.until
            if is_unbroken and pg.kept_value(self.server, "former") == str(before.term):
                self.note_term(self.held.term)
        return self.held

    def see_no_primary(self, service: str, is_certain: bool) -> None:
        """Restarts the follower if the server is certainly no primary, or did not answer at several looks in a row."""
        if self.is_paused():
            return
        self.without_service += LOOKS_WITHOUT_SERVICE if is_certain else 1
        # (a stop may have begun meanwhile)
        is_still_so = pg.follower_state(self.server).get("service") == service
        if self.without_service >= LOOKS_WITHOUT_SERVICE and is_still_so:
            self.start_follower_again()

    def start_follower_again(self) -> None:
        """Restarts the follower of the ticket, which then finds that its service does not run, and starts it."""
        now = time.monotonic()
        if now - self.restarted >= SECONDS_BETWEEN_RESTARTS:
            self.restarted = now
            self.without_service = 0
            self.say("the primary ended by itself: its follower starts it again")
            pg.units("restart", "--no-block", f"booth-follow@{self.server.ticket}.service")

    def is_paused(self) -> bool:
        """Returns whether an operator paused the ticket's service."""
        return os.path.exists(f"{pg.STATE_FOLDER}/{self.server.ticket}.paused")

    def demote(self, service: str) -> None:
        """Stops a primary that the follower did not start, for example one that was promoted manually."""
        is_strange = service in ("stopped", "failed") and not self.is_paused()
        self.without_follower = self.without_follower + 1 if is_strange else 0
        if self.without_follower >= LOOKS_WITHOUT_SERVICE:
            self.without_follower = 0
            self.say("is a primary that its follower did not start: stops it")
            done = pg.run(pg.PROGRAM, self.server.name, "stop", seconds=SECONDS_OF_A_STOP)
            if done.status != 0:
                self.say(f"the stop ended with status {done.status}: {rebuilding.last_line(done.err)}")

    def see_timeline(self) -> None:
        """Records the timeline of a primary, and has it write the first checkpoint, which a rewind to it needs."""
        line = "('x' || substr(pg_walfile_name(pg_current_wal_lsn()), 1, 8))::bit(32)::int"
        sql = f"SELECT timeline_id, {line} FROM pg_control_checkpoint()"
        told = (pg.psql(self.server, pg.spot(self.server), sql) or "").split("|")
        if len(told) != 2:
            return
        if pg.kept_value(self.server, "timeline") != told[1]:
            pg.keep(self.server, "timeline", told[1])
        if told[0] != told[1]:
            pg.psql(self.server, pg.spot(self.server), "CHECKPOINT", SECONDS_OF_A_CHECKPOINT)

    def follow(self) -> None:
        """Checks whether the standby receives the log of a primary, and if not, why."""
        server = self.server
        self.is_coming_back = False
        if pg.psql(server, pg.spot(server), "SELECT status FROM pg_stat_wal_receiver") == "streaming":
            self.is_coming_back = pg.is_kept(server, "former")
            self.without_stream = 0
            self.is_in_step()
            return
        self.in_step = 0
        self.without_stream += 1
        if self.without_stream < LOOKS_WITHOUT_STREAM:
            return
        own = pg.place_of(server)
        primaries = [(address, place) for address, place in pg.answered(server) if not place.is_standby]
        if own is None or len(primaries) != 1:
            self.say("no primary answers" if not primaries else "several peers are primaries", "stream")
            return
        self.compare(own, *primaries[0])

    def is_in_step(self) -> None:
        """Records when the standby last had all data of its primary. It then no longer counts as the last primary."""
        server = self.server
        self.in_step += 1
        # (a former primary may be needed as the next one at once)
        if self.in_step % LOOKS_BETWEEN_NOTES != 1 and not pg.is_kept(server, "former"):
            return
        before = pg.place_of(server)
        primaries = [(address, place) for address, place in pg.answered(server) if not place.is_standby]
        own = pg.place_of(server)
        if before is None or own is None or len(primaries) != 1:
            return
        address, peer = primaries[0]
        if self.is_own_timeline(peer) or before.timeline == peer.timeline and before.position > peer.position:
            self.say(f"gets a log of {address} that does not continue its own", "stream")
            self.rebuild(address, PARTED)
            return
        if own.timeline != peer.timeline or own.position < peer.position:
            # (it is catching up: the next look checks again)
            self.in_step = 0
            return
        self.say(f"follows {address} on timeline {own.timeline}", "stream")
        pg.keep(server, "in-step", str(int(time.time())))
        for what in ("former", "timeline"):
            if pg.is_kept(server, what):
                pg.forget(server, what)

    def is_own_timeline(self, peer: Place) -> bool:
        """Returns whether the primary's timeline has the number of a timeline that this server began itself.

        If it has, the two timelines share only the number: each promotion begins a new timeline, and no other server
        continues a timeline that this server began.
        """
        return pg.kept_value(self.server, "timeline") == str(peer.timeline)

    def compare(self, own: Place, address: str, peer: Place) -> None:
        """Finds out what the standby needs to follow this primary, and does it."""
        server = self.server
        if own.system != peer.system:
            self.say(f"{address} has another database: run booth-postgresql setup --standby to copy it here", "stream")
            return
        history = pg.history_of(server, address, peer.timeline)
        how = rebuilding.parted(own, pg.history_of(server, None, own.timeline), peer, history)
        if self.is_own_timeline(peer):
            how = PARTED
        if how == WAIT and rebuilding.lacks_log(server, own, address, peer):
            self.say(f"{address} no longer has the log that this standby needs", "stream")
            how = COPY
        if how == WAIT:
            self.say(f"does not get the log of {address} yet", "stream")
            return
        lost = rebuilding.lost_bytes(own, history)
        if how == REWIND and not rebuilding.has_checkpoint(server, address, peer):
            self.say(f"waits for the first checkpoint of {address}", "stream")
            return
        if how == REWIND and lost is not None:
            self.say(f"its data diverged from those of {address}: {lost} bytes of its log are dropped")
        self.rebuild(address, how)

    def rebuild(self, address: str, how: str) -> None:
        """Rewinds or copies the data from the primary, unless the last try was less than 20 seconds ago."""
        now = time.monotonic()
        if now - self.rebuilt >= SECONDS_BETWEEN_REBUILDS:
            self.rebuilt = now
            self.without_stream = 0
            say = lambda text: self.say(text, "rebuild")
            self.is_coming_back = rebuilding.rebuild(self.server, address, how, say)
            self.rebuilt = time.monotonic()

    def resume(self) -> None:
        """Continues an interrupted rewind or copy."""
        kind, _, address = (pg.kept_value(self.server, "rebuilding") or "").partition(" ")
        # (a directory that is half rewound can be finished only with the data of the same site)
        peers = (address,) if address in self.server.peers and kind != PARTED else self.server.peers
        for peer in peers:
            place: Optional[Place] = pg.place_of(self.server, peer)
            if place is not None and not place.is_standby:
                self.rebuild(peer, PARTED if kind == PARTED else REWIND)
                return
        self.say(f"waits for a primary at {' or '.join(peers)}, to rewind or copy its data from there", "stream")


def watch(server: Server) -> None:
    """Looks again and again, until a signal ends it."""
    looks = Watch(server)
    looks.say("is watched: it is a standby unless this site holds its ticket")
    while True:
        started = time.monotonic()
        try:
            looks.look()
        except Failed as why:
            looks.say(str(why), "failed")
        except OSError as why:
            looks.say(f"cannot check the server: {why}", "failed")
        pause = SECONDS_BETWEEN_HURRIED_LOOKS if looks.is_coming_back else SECONDS_BETWEEN_LOOKS
        time.sleep(max(0.2, started + pause - time.monotonic()))
