"""The configurations for bench/run.py and other benches, which import this module. @ stands for the daemon's address."""

MEMBERS = b"""site = "@"
site = "192.168.202.100"
arbitrator = "192.168.203.100"
"""
TICKETS = 64
COMMENT = b"# the text is as long as this line stands in it often, and no value is read from it\n"

TOP = b"""# a text with each key
port = 9929
transport = udp
authfile = /etc/booth/authkey
maxtimeskew = 600
debug = 0
site-user = "booth"
site-group = "booth"
arbitrator-user = 'nobody'
arbitrator-group = 'nobody'
"""


def one_ticket():
    """Returns a configuration with one ticket."""
    return MEMBERS + b'ticket = "ticket-db8"\n'


def many_tickets():
    """Returns a configuration with 64 tickets, whose names have the greatest length, so that a list has full lines."""
    return MEMBERS + b"".join(b'ticket = "%02d%s"\n' % (n, b"-" * 61) for n in range(TICKETS))


def ticket(number):
    """Returns a ticket with all of its keys, and with the longest possible handler and prerequisites."""
    prereqs = b"".join(
        b"  attr-prereq = auto %s eq %s\n" % (b"%d" % place * 63, b"v" * 127) for place in range(8)
    )
    return b"""
ticket = "ticket-%02d"   # the number %d
  expire = 600
  acquire-after = 60
  timeout = '10'
  retries = 5
  renewal-freq = 61
  weights = 3, 2, 1
  mode = auto
  before-acquire-handler = "/usr/share/booth/%s"
%s""" % (number, number, b"h" * 200, prereqs)


def long_text(size, address="192.168.201.100", key_file="/etc/booth/authkey"):
    """Returns a configuration of this size in bytes. Each 4,096 bytes have one ticket with all keys, and comments."""
    piece = 4_096
    made = bytearray(TOP.replace(b"/etc/booth/authkey", key_file.encode()) + MEMBERS.replace(b"@", address.encode()))
    for number in range(size // piece):
        made += ticket(number)
        often, rest = divmod((number + 1) * piece - len(made), len(COMMENT))
        made += COMMENT * often + b"\n" * rest
    return bytes(made)
