"""Stories in which a key is changed while a ticket stays held. tests/cluster.py imports them."""

import frames
from checks import need
from members import now, wait_for
from stories import NAME, PATIENCE, grants, passed, says, story

OLD, NEW = b"the-old-key-of-a-cluster", b"the-new-key-of-a-cluster"
BADMAC = 2

# the steps of a change of the key, each with the key ring of a member that has made it
STEPS = (
    ("the first key alone", frames.Ring(OLD)),
    ("the new key is taken", frames.Ring(OLD, NEW)),
    ("the new key signs", frames.Ring(NEW, OLD)),
    ("the old key is taken no more", frames.Ring(NEW)),
    ("SHA-256 signs", frames.Ring(NEW, hash="sha256")),
)


def goes_on(cluster, member, what):
    """Returns whether the ticket is still held, renewed, and listed at each member, after one member has made a step.
    """
    one = cluster.members[0]
    until = one.record().until
    is_renewed = lambda: one.record().until > until
    need(wait_for(is_renewed, PATIENCE), f"{what}: no renewal after the start of {member.address}")
    need(one.record().holds(now()), f"{what}: the lease ended at the start of {member.address}")
    all_list = lambda: cluster.shown_by_all() == one.address
    need(wait_for(all_list, PATIENCE), f"{what}: the owner is not listed after the start of {member.address}")


@story
def a_key_that_is_changed(cluster):
    """a cluster whose key, and then whose hash, are changed at one member after another while its ticket stays held"""
    one, *others = cluster.members
    cluster.remember()
    for number, (what, ring) in enumerate(STEPS):
        conf = cluster.file(f"step-{number}.conf", ring)
        for member in (*others, one):
            member.kill()
            member.key = ring
            member.start(cluster.program, conf)
            if number > 0:
                goes_on(cluster, member, what)
        if number == 0:
            grants(cluster, 0)
        for member in cluster.members:
            ran = member.booth("list")
            need(ran.status == 0 and f"leader: {one.address}" in ran.printed, f"{what}: booth list left {ran}")
            dropped, _ = member.counts()
            need(dropped[BADMAC] == 0, f"{what}: {member.address} dropped {dropped}")
        passed(f"{what}, at one member after another: the ticket is held, renewed and listed, and no frame is dropped")


@story
def a_key_whose_steps_are_not_kept(cluster):
    """a cluster with a key, in which one member is two steps ahead of another"""
    one, two, _ = cluster.members
    cluster.remember()
    one.key, two.key = STEPS[1][1], STEPS[3][1]
    one.start(cluster.program, cluster.file("one.conf", one.key))
    two.start(cluster.program, cluster.file("two.conf", two.key))
    says(one, ("grant", "-w", NAME), 1, "booth: failed\n")
    need(two.counts()[0][BADMAC] > 0, "its frames are not dropped")
    passed("a member drops the messages of a member that is two steps behind, and no lease results from them")
