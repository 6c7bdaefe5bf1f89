"""Brings a server whose data diverged from the primary's back as a standby: pg_rewind, or pg_basebackup if allowed.

It is imported by booth-postgresql, and not run by itself.
"""

import os
import pwd
import shutil
from typing import Callable, Dict, List, Optional, Tuple

import postgresql_server as pg
from postgresql_server import Failed, Place, Server

SECONDS_TO_STOP, SECONDS_TO_REWIND, SECONDS_TO_COPY = 300, 21_600, 172_800
# the configuration files in the directory of a server that Debian did not make
OWN_FILES = ("postgresql.conf", "pg_hba.conf", "pg_ident.conf")
# what a server needs to follow a primary; PARTED: no rewind can help, so it is not started until its data are copied
WAIT, REWIND, COPY, PARTED = "wait", "rewind", "copy", "parted"
Say = Callable[[str], None]
# the timelines before a server's own, with the position at which each ended
History = List[Tuple[int, int]]


def parted(own: Place, own_history: Optional[History], peer: Place, history: Optional[History]) -> str:
    """Returns what a standby needs to follow the primary `peer`."""
    if own_history is None or history is None:
        return WAIT
    theirs, ours = [*history, (peer.timeline, 0)], [*own_history, (own.timeline, 0)]
    for (their_line, their_end), (our_line, our_end) in zip(theirs, ours):
        if their_line != our_line:
            return REWIND
        is_our_last, is_their_last = our_line == own.timeline, their_line == peer.timeline
        if is_our_last and is_their_last:
            # (a standby is never ahead of its primary, and no tool can distinguish two timelines with the same number)
            return PARTED if own.position > peer.position else WAIT
        if is_our_last:
            return REWIND if own.position > their_end else WAIT
        if is_their_last:
            return REWIND
        if their_end != our_end:
            # the next timelines have the same number, but begin at different positions
            return PARTED
    return WAIT


def lost_bytes(own: Place, history: Optional[History]) -> Optional[int]:
    """Returns how many bytes of its log this server has after the position at which the primary's timeline began."""
    ends = dict(history or [])
    return own.position - ends[own.timeline] if own.timeline in ends else None


def lacks_log(server: Server, own: Place, address: str, peer: Place) -> bool:
    """Returns whether the primary has removed the log that this standby needs next."""
    size = pg.psql(server, pg.spot(server), "SELECT setting FROM pg_settings WHERE name = 'wal_segment_size'")
    if size is None or not size.isdigit():
        return False
    in_one = pg.SEGMENTS_BYTES // int(size)
    number = own.position // int(size)
    names = [f"{line:08X}{number // in_one:08X}{number % in_one:08X}" for line in {own.timeline, peer.timeline}]
    listed = ", ".join(f"'{name}'" for name in names)
    is_there = "(pg_stat_file('pg_wal/' || name, true)).size IS NOT NULL"
    sql = f"SELECT count(*) FROM unnest(ARRAY[{listed}]) AS name WHERE {is_there}"
    told = pg.psql(server, pg.spot(server, address), sql)
    return told == "0"


def has_checkpoint(server: Server, address: str, peer: Place) -> bool:
    """Returns whether the primary has written a checkpoint on its timeline: without one pg_rewind does nothing."""
    told = pg.psql(server, pg.spot(server, address), "SELECT timeline_id FROM pg_control_checkpoint()")
    return told == str(peer.timeline)


def rewind(server: Server, address: str, say: Say) -> bool:
    """Rewinds the directory to the point at which it diverged from the peer's. Returns whether this succeeded.

    A dry run finds most causes of a failure before a file is changed, unless an earlier try has changed some.
    """
    words = [f"{server.bin}/pg_rewind", "-D", server.data, "--source-server", pg.spot(server, address)]
    if not os.path.exists(f"{server.data}/postgresql.conf") and "--config-file" in pg.run(words[0], "--help").out:
        words += ["--config-file", server.config]
    done = pg.as_owner(server, *words, "--dry-run", seconds=SECONDS_TO_REWIND)
    if done.status != 0:
        say(f"pg_rewind --dry-run ended with status {done.status}: {last_line(done.err)}")
        return False
    pg.keep(server, "rebuilding", f"changing {address}")
    own_files = read_own_files(server.data)
    done = pg.as_owner(server, *words, seconds=SECONDS_TO_REWIND)
    if done.status != 0:
        say(f"pg_rewind ended with status {done.status}: {last_line(done.err)}")
        return False
    write_own_files(server, server.data, own_files)
    say(f"pg_rewind: {last_line(done.err or done.out)}")
    return True


def read_own_files(folder: str) -> Dict[str, bytes]:
    """Returns the configuration files in a server's directory, by name. A server that Debian made has none there."""
    found = {}
    for name in OWN_FILES:
        try:
            with open(f"{folder}/{name}", "rb") as file:
                found[name] = file.read()
        except FileNotFoundError:
            continue
    return found


def write_own_files(server: Server, folder: str, files: Dict[str, bytes]) -> None:
    """Writes these configuration files over those that came from another server."""
    owner = pwd.getpwnam(server.owner)
    for name, content in {**files, "standby.signal": b""}.items():
        with open(f"{folder}/{name}", "wb") as file:
            os.fchmod(file.fileno(), 0o600)
            os.fchown(file.fileno(), owner.pw_uid, owner.pw_gid)
            file.write(content)


def last_line(text: str) -> str:
    """Returns the last line of a program's messages."""
    lines = text.strip().splitlines()
    return lines[-1] if lines else "it printed nothing"


def copy(server: Server, address: str, say: Say) -> bool:
    """Copies the data of the peer's server. Returns whether this succeeded. The old data stay in `.booth-old`."""
    new, old = f"{server.data}.booth-new", f"{server.data}.booth-old"
    fault = fault_of_copy(server)
    if fault is not None:
        say(fault)
        return False
    shutil.rmtree(new, ignore_errors=True)
    # (the owner may lack the right to make a directory there)
    os.mkdir(new, 0o700)
    shutil.chown(new, server.owner, pwd.getpwnam(server.owner).pw_gid)
    words = (f"{server.bin}/pg_basebackup", "-D", new, "-d", pg.spot(server, address), "-X", "stream", "-c", "fast")
    done = pg.as_owner(server, *words, seconds=SECONDS_TO_COPY)
    if done.status != 0:
        say(f"pg_basebackup ended with status {done.status}: {last_line(done.err)}")
        shutil.rmtree(new, ignore_errors=True)
        return False
    write_own_files(server, new, read_own_files(server.data))
    shutil.rmtree(old, ignore_errors=True)
    if os.path.exists(server.data):
        move(server.data, old)
    move(new, server.data)
    say(f"the data of {address} are copied; the old data are in {old}")
    return True


def move(source: str, target: str) -> None:
    """Renames a directory, or copies and removes it if its file system cannot rename it, for example an overlay."""
    done = pg.run("mv", "-T", source, target, seconds=SECONDS_TO_COPY)
    if done.status != 0:
        raise Failed(f"cannot rename {source} to {target}: {last_line(done.err)}")


def fault_of_copy(server: Server) -> Optional[str]:
    """Returns why a copy cannot replace the directory, or `None` if it can."""
    if os.path.ismount(server.data):
        return f"{server.data} is a mount point, which pg_basebackup cannot replace: copy the data manually"
    spaces = f"{server.data}/pg_tblspc"
    if os.path.isdir(spaces) and os.listdir(spaces):
        return f"{server.data} has tablespaces, which are not copied: copy the data manually"
    return None


def rebuild(server: Server, address: str, how: str, say: Say) -> bool:
    """Stops the server, rewinds or copies its data, and starts it again. Returns whether this succeeded."""
    before = pg.kept_value(server, "rebuilding")
    if before is None:
        pg.keep(server, "rebuilding", f"looking {address}")
    if pg.is_kept(server, "primary"):
        # (a promotion writes the note `primary` first, and then looks for the note `rebuilding`)
        if before is None:
            pg.forget(server, "rebuilding")
        return False
    pg.units("stop", server.unit, seconds=SECONDS_TO_STOP)
    if pg.processes(server):
        raise Failed(f"{server.unit} does not stop, so its data cannot be rewound to or copied from {address}")
    if not os.path.exists(server.data) and os.path.exists(f"{server.data}.booth-old"):
        move(f"{server.data}.booth-old", server.data)
    done = how == REWIND and rewind(server, address, say)
    is_changed = (pg.kept_value(server, "rebuilding") or "").startswith("changing")
    if not done and server.copies:
        done = copy(server, address, say)
    elif not done and how in (COPY, PARTED):
        say("pg_basebackup is needed, but setup was run without --allow-basebackup")
    if not done and how == PARTED:
        pg.keep(server, "rebuilding", f"{PARTED} {address}")
        return False
    if done:
        # (the server has the primary's timelines now)
        pg.forget(server, "timeline")
    if done or not is_changed:
        pg.forget(server, "rebuilding")
        pg.units("start", "--no-block", server.unit)
    return done

