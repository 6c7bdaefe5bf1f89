"""Checks that each file of a cluster's key exists, has a key, and is readable only for its owner.

It is imported by booth-status, and not run by itself.
"""

import grp
import os
import pwd
import stat

import frames
from configuration import KEY_FILE_BYTES, Unreadable, bytes_of
from problems import CRITICAL, NOTICE, WARNING, Problem

# the user that the service runs the daemon as
DAEMON = "booth"
# the owner of keys that pcs makes, and the directory in which a node of Pacemaker has its CIB
CLUSTER_USER, CLUSTER = "hacluster", "/var/lib/pacemaker/cib"

READ, WRITE = 4, 2


def problems(conf):
    """Yields the problems of the keys of this configuration."""
    if not conf.key_files():
        yield Problem(WARNING, "no-key", "there is no authfile: everybody who reaches the port can act as a member")
    for path in conf.key_files():
        yield from of_file(path)


def of_file(path):
    """Yields the problems of one key file."""
    try:
        about = os.stat(path)
    except (OSError, ValueError) as why:
        cause = getattr(why, "strerror", None) or why
        yield Problem(CRITICAL, "key", f"{path}: {cause}: no daemon starts here without it")
        return
    if not stat.S_ISREG(about.st_mode):
        yield Problem(CRITICAL, "key", f"{path}: is not a regular file, so no daemon reads it")
        return
    yield from of_mode(path, about)
    yield from of_owner(path, about)
    yield from of_content(path)


def of_mode(path, about):
    """Yields a problem if others can read or write the key."""
    mode = stat.S_IMODE(about.st_mode)
    if mode & (READ | WRITE) or mode & (WRITE << 3):
        who = "others to read or write" if mode & (READ | WRITE) else "its group to write"
        yield Problem(CRITICAL, "key-mode", f"{path}: its mode {mode:04o} allows {who} it: chmod 0600 {path}")
    elif mode & (READ << 3) and about.st_gid != group_of_daemon():
        group = name_of_group(about.st_gid)
        yield Problem(WARNING, "key-mode", f"{path}: its mode {mode:04o} allows the group {group} to read it")


def of_owner(path, about):
    """Yields a problem if the daemon's user cannot read the key, or if another user than it or root owns the key."""
    try:
        daemon = pwd.getpwnam(DAEMON)
    except KeyError:
        text = f"{path}: there is no user {DAEMON} here, so it is unknown whether the daemon can read the key"
        yield Problem(NOTICE, "key-owner", text)
        return
    if name_of_user(about.st_uid) == CLUSTER_USER and os.path.isdir(CLUSTER):
        # (on a node of Pacemaker, the agent gives the daemon a copy)
        return
    mode = stat.S_IMODE(about.st_mode)
    if about.st_uid == daemon.pw_uid:
        may_read = mode & (READ << 6)
    elif about.st_gid in os.getgrouplist(DAEMON, daemon.pw_gid):
        may_read = mode & (READ << 3)
    else:
        may_read = mode & READ
    if not may_read:
        yield Problem(CRITICAL, "key-owner", f"{path}: the user {DAEMON} cannot read it: chown {DAEMON}: {path}")
    elif about.st_uid not in (0, daemon.pw_uid):
        owner = name_of_user(about.st_uid)
        yield Problem(WARNING, "key-owner", f"{path}: its owner is {owner}, neither root nor {DAEMON}")


def of_content(path):
    """Yields a problem if the file has no key."""
    try:
        frames.key_in(bytes_of(path, KEY_FILE_BYTES))
    except ValueError as why:
        yield Problem(CRITICAL, "key", f"{path}: has {why}")
    except Unreadable as why:
        yield Problem(NOTICE, "key", f"{why}: it is unknown whether it is a key")


def group_of_daemon():
    try:
        return pwd.getpwnam(DAEMON).pw_gid
    except KeyError:
        return None


def name_of_group(number):
    try:
        return grp.getgrgid(number).gr_name
    except KeyError:
        return str(number)


def name_of_user(number):
    try:
        return pwd.getpwuid(number).pw_name
    except KeyError:
        return str(number)
