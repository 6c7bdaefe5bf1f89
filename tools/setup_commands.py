"""The commands of booth-setup: `init` makes a cluster and its bundle, and `join` sets up another member from it.

It is imported by booth-setup, and not run by itself.
"""

import argparse
import os
import re
import subprocess
import sys
from typing import List, Optional

import frames
import setup_bundle
import setup_cluster
import setup_member
from configuration import FOLDER
from setup_bundle import Bundle
from setup_member import Member
from setup_steps import Failed, File, Steps, content_of

# (a first copy of a large database takes hours; booth-postgresql limits each of its steps by itself)
SECONDS_OF_POSTGRESQL = 86_400
DEBIAN_SERVER = re.compile(r"(\d+)[/-](.+)")


def init(options: argparse.Namespace) -> None:
    """Makes a cluster, sets this machine up as its first member, and writes the bundle for the others."""
    wishes = setup_cluster.Wishes(
        options.name, options.site, options.arbitrator, options.ticket,
        {key: options.times[key] for key in setup_cluster.TIMES if options.times[key] is not None},
        options.port or frames.PORT, not options.no_journal, options.hand_over, options.postgresql,
        options.postgresql_options,
    )  # fmt: skip
    bundle = setup_cluster.bundle_of(wishes, options.root)
    member = member_of(bundle, options.address, options)
    if bundle.postgresql is not None and not member.is_site():
        raise Failed(f"{member.address} is an arbitrator: run init at the site whose server has the data")
    path = os.path.abspath(options.bundle or f"{options.root}{FOLDER}/{bundle.name}.bundle")
    refuse_bundle(path, bundle)
    steps = Steps(options.root, options.dry_run)
    if options.dry_run:
        steps.note(f"the configuration:\n{indented(bundle.text)}")
    setup_member.set_up(member, steps)
    if bundle.postgresql is not None:
        set_server_up(member, steps, is_primary=True)
        steps.note("The bundle contains this password, and join runs setup --standby: copy only the bundle.")
        bundle = with_password(bundle, steps)
    write_bundle(path, bundle, steps)
    print("\n".join(after_init(member, path)))


def join(options: argparse.Namespace) -> None:
    """Sets this machine up as a member of the cluster in a bundle."""
    bundle = setup_bundle.read(options.bundle)
    if not setup_cluster.NAME.fullmatch(bundle.name):
        raise Failed(f"{options.bundle}: {bundle.name!r} cannot be the name of a cluster")
    setup_cluster.units_of([f"{ticket}={unit}" for ticket, unit in bundle.units.items()])
    address = setup_cluster.address_of("ADDRESS", options.address)
    if options.postgresql is not None:
        if bundle.postgresql is None:
            raise Failed(f"{options.bundle}: init was run without --postgresql, so no server is under a ticket")
        bundle = bundle._replace(postgresql=bundle.postgresql._replace(server=options.postgresql))
    member = member_of(bundle, address, options)
    steps = Steps(options.root, options.dry_run)
    setup_member.set_up(member, steps)
    if bundle.postgresql is not None and member.is_site():
        set_server_up(member, steps, is_primary=False)
    print("\n".join(after_join(member, options.bundle)))


def member_of(bundle: Bundle, address: Optional[str], options: argparse.Namespace) -> Member:
    """Returns this machine as a member, after all checks that change nothing."""
    conf, doubts = setup_cluster.check(bundle)
    known = [ticket.name for ticket in conf.tickets]
    if sorted(known) != sorted(bundle.units):
        units = ", ".join(bundle.units)
        raise Failed(f"the configuration has the tickets {', '.join(known)}, but there are units for {units}")
    if conf.authfile != setup_cluster.key_path(bundle.name):
        wanted = setup_cluster.key_path(bundle.name)
        raise Failed(f"the configuration names the key file {conf.authfile}, but it must be {wanted}")
    if bundle.postgresql is not None and options.root:
        raise Failed("--root cannot set a PostgreSQL server up: run booth-postgresql on the server's own machine")
    asked = None if address is None else setup_cluster.address_of("--address", address)
    own = setup_member.own_address(conf, asked, options.root)
    for doubt in doubts:
        print(f"note: {doubt}")
    return Member(bundle, conf, own, options.root, options.keep_records)


# ---- PostgreSQL


def password_path(server: str) -> str:
    """Returns the path of the file in which booth-postgresql keeps the password of the servers."""
    parts = DEBIAN_SERVER.fullmatch(server)
    name = f"{parts[1]}-{parts[2]}" if parts else os.path.basename(server.rstrip("/"))
    return f"{FOLDER}/postgresql/{name}.pgpass"


def set_server_up(member: Member, steps: Steps, is_primary: bool) -> None:
    """Puts the server of this site under its ticket. If this fails, the member stays set up."""
    asked = member.bundle.postgresql
    assert asked is not None
    if not is_primary:
        write_password(member, steps)
    options = [each for each in asked.options if is_primary or each != "--restart"]
    kind = "--primary" if is_primary else "--standby"
    beside = os.path.join(os.path.dirname(os.path.realpath(sys.argv[0])), "booth-postgresql")
    words = ["setup", asked.ticket, asked.server, kind, "--address", member.address, *options]

    def call() -> None:
        try:
            done = subprocess.run(
                [beside, *words], stdin=subprocess.DEVNULL, timeout=SECONDS_OF_POSTGRESQL, check=False
            )
        except (OSError, subprocess.TimeoutExpired) as why:
            raise Failed(f"booth-postgresql: {getattr(why, 'strerror', None) or why}") from why
        if done.returncode != 0:
            raise Failed(
                "this member is set up, but its server is not: correct the cause that booth-postgresql printed, and "
                "run this command again"
            )

    steps.do(f"run booth-postgresql {' '.join(words)}", call)


def write_password(member: Member, steps: Steps) -> None:
    """Writes the password of the servers, which is in the bundle."""
    asked = member.bundle.postgresql
    assert asked is not None
    if not asked.password:
        raise Failed("the bundle lacks the password of the servers: run init again, and copy the new bundle")
    path = password_path(asked.server)
    if content_of(path) != asked.password.encode():
        steps.write(File(path, asked.password.encode(), 0o600))


def with_password(bundle: Bundle, steps: Steps) -> Bundle:
    """Returns the bundle with the password that booth-postgresql has made."""
    asked = bundle.postgresql
    assert asked is not None
    password = content_of(password_path(asked.server))
    if password is None and not steps.only_shows:
        raise Failed(f"{password_path(asked.server)} is missing, so the other servers would lack the password")
    return bundle._replace(postgresql=asked._replace(password=(password or b"").decode()))


# ---- the bundle, and what is left to do


def refuse_bundle(path: str, bundle: Bundle) -> None:
    """Raises `Failed` if another file has the bundle's path."""
    folder = os.path.dirname(path)
    if not os.path.isdir(folder) and not folder.endswith(FOLDER):
        raise Failed(f"--bundle {path}: the directory {folder} does not exist")
    if content_of(path) is None:
        return
    there = setup_bundle.read(path)
    if without_password(there) != without_password(bundle):
        raise Failed(f"{path} exists already, as the bundle of another cluster: remove it, or give --bundle FILE")


def without_password(bundle: Bundle) -> Bundle:
    """Returns the bundle without the password of the servers, which may be added later."""
    asked = bundle.postgresql
    return bundle if asked is None else bundle._replace(postgresql=asked._replace(password=""))


def write_bundle(path: str, bundle: Bundle, steps: Steps) -> None:
    """Writes the bundle. Replaces one that lacks the password of the servers."""
    file = File(path, setup_bundle.spelled(bundle), 0o600)
    there = content_of(path)
    if there is not None and there != file.content:
        steps.do(f"remove the earlier {path}", lambda: os.unlink(path))
    below = Steps("", steps.only_shows)
    if not (steps.only_shows and there is not None):
        below.write(file)


def indented(text: str) -> str:
    """Returns a text with four blanks before each line that is not empty."""
    return re.sub("^(?=.)", "    ", text, flags=re.M)


def after_init(member: Member, path: str) -> List[str]:
    """Returns what is left to do at the other members."""
    others = [each.address for each in member.conf.members if each.address != member.address]
    name = os.path.basename(path)
    lines = [
        "",
        f"Left to do: {path} has the key. Copy it only over a safe channel, and remove it when all have joined.",
        "At each other member, with the package installed, as root:",
        *(f"  booth-setup join {name} {address}" for address in others),
        f"Open UDP port {member.conf.port} between the members. Wait {setup_member.silence(member.conf)} seconds after "
        "the last member has joined.",
        "Then grant each ticket once, at the site that should hold it:",
    ]
    return lines + grants(member)


def grants(member: Member) -> List[str]:
    """Returns the commands that grant the tickets here, and start the followers that are not started yet."""
    conf = "" if member.bundle.name == setup_cluster.DEFAULT_NAME else f" -c {member.bundle.name}"
    sites = [each.address for each in member.conf.members if each.role == "site"]
    site = member.address if member.address in sites else sites[0]
    lines = [f"  booth grant -w{conf} -s {site} {ticket}" for ticket in member.bundle.units]
    if member.bundle.postgresql is not None:
        lines += [
            "Then start the follower of the server, first here, and then at the other sites:",
            f"  systemctl enable --now booth-follow@{member.bundle.postgresql.ticket}",
        ]
    return lines


def after_join(member: Member, path: str) -> List[str]:
    """Returns what is left to do at this member."""
    status = f"booth-status -c {member.bundle.name}"
    lines = ["", f"Left to do: remove {path}, which has the key. {status} shows all members."]
    postgresql = member.bundle.postgresql
    if postgresql is not None and member.is_site():
        follower = f"booth-follow@{postgresql.ticket}"
        lines.append(f"When the primary's site holds the ticket, run: systemctl enable --now {follower}")
    return lines
