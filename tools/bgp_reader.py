"""What a BGP session makes of the octets that its remote says, written from the standards and docs/MESSAGES.md alone: an
independent reading, by which tests of whole runs say what a run is to report.

A session here is passive: it has put its OPEN, has no timers, and only hears. RFC 4271 sections 4 and 6, RFC 5492, RFC 6793.
"""
import collections
import struct

MARKER = b"\xff" * 16
OPEN, UPDATE, NOTIFICATION, KEEPALIVE = 1, 2, 3, 4
LEAST_LENGTH = {OPEN: 29, UPDATE: 23, NOTIFICATION: 21, KEEPALIVE: 19}
HEADER = 19
LONGEST = 4096
AS_TRANS = 23456
SEQUENCE = 2
ORIGIN, AS_PATH, NEXT_HOP, MED, LOCAL_PREF, ATOMIC_AGGREGATE, AGGREGATOR, AS4_PATH, AS4_AGGREGATOR = 1, 2, 3, 4, 5, 6, 7, 17, 18
# The optional and the transitive flag of each attribute that is known.
FLAGS = {ORIGIN: 0x40, AS_PATH: 0x40, NEXT_HOP: 0x40, MED: 0x80, ATOMIC_AGGREGATE: 0x40, AGGREGATOR: 0xC0}
OPTIONAL, TRANSITIVE, EXTENDED = 0x80, 0x40, 0x10


class Fault(Exception):
    """A fault of a message: the code and the subcode of the NOTIFICATION that answers it."""


def is_host(address):
    """Whether four octets are an address that a host can have."""
    return address != b"\0\0\0\0" and address[0] < 224


def test_header(head):
    """The length and the type that a header of 19 octets tells."""
    length, kind = struct.unpack(">HB", head[16:HEADER])
    if head[:16] != MARKER:
        raise Fault(1, 1)
    if not HEADER <= length <= LONGEST:
        raise Fault(1, 2)
    if kind not in LEAST_LENGTH:
        raise Fault(1, 3)
    if length < LEAST_LENGTH[kind] or (kind == KEEPALIVE and length != HEADER):
        raise Fault(1, 2)
    return length, kind


def split(octets, past, head=2):
    """The parts (type, value) of a field in which each has a type and a length of one octet."""
    parts = []
    while octets:
        if len(octets) < head or len(octets) < head + octets[1]:
            raise past
        parts.append((octets[0], octets[head : head + octets[1]]))
        octets = octets[head + octets[1] :]
    return parts


def read_open(body, remote_as, offers):
    """The hold time of an OPEN, and the four-octet AS number that it tells, if it tells one."""
    version, field, hold = struct.unpack(">BHH", body[:5])
    wanted = remote_as if remote_as < 65536 else AS_TRANS
    if version != 4:
        raise Fault(2, 1)
    if not offers and field != wanted:
        raise Fault(2, 2)
    if hold in (1, 2):
        raise Fault(2, 6)
    if not is_host(body[5:9]):
        raise Fault(2, 3)
    if body[9] != len(body) - 10:
        raise Fault(2, 0)
    capabilities = []
    for kind, value in split(body[10:], Fault(2, 0)):
        if kind != 2:
            raise Fault(2, 4)
        capabilities += split(value, Fault(2, 0))
    fours = [struct.unpack(">I", value)[0] for code, value in capabilities if code == 65 and len(value) == 4]
    if offers and (fours[0] != remote_as if fours else field != wanted):
        raise Fault(2, 2)
    return hold, fours[0] if fours else None


def read_prefixes(octets):
    """The prefixes of a field, each an address and a length."""
    prefixes = []
    while octets:
        length = octets[0]
        size = (length + 7) // 8
        if length > 32 or len(octets) < 1 + size:
            raise Fault(3, 10)
        address = int.from_bytes(octets[1 : 1 + size].ljust(4, b"\0"), "big")
        prefixes.append((address >> (32 - length) << (32 - length), length))
        octets = octets[1 + size :]
    return prefixes


def read_path(value, wide):
    """The parts of a path: of each its kind and its ASes."""
    size = 4 if wide else 2
    parts = []
    while value:
        if len(value) < 2 or value[0] not in (1, SEQUENCE) or value[1] == 0 or len(value) < 2 + size * value[1]:
            raise Fault(3, 11)
        end = 2 + size * value[1]
        parts.append((value[0], tuple(int.from_bytes(value[at : at + size], "big") for at in range(2, end, size))))
        value = value[end:]
    return tuple(parts)


def test_known(kind, flags, value, wide):
    """Tests an attribute of a type that is known."""
    if flags & (OPTIONAL | TRANSITIVE) != FLAGS[kind]:
        raise Fault(3, 4)
    lengths = {ORIGIN: 1, NEXT_HOP: 4, MED: 4, ATOMIC_AGGREGATE: 0, AGGREGATOR: 8 if wide else 6}
    if len(value) != lengths.get(kind, len(value)):
        raise Fault(3, 5)
    if kind == ORIGIN and value[0] > 2:
        raise Fault(3, 6)
    if kind == AS_PATH:
        read_path(value, wide)
    if kind == NEXT_HOP and not is_host(value):
        raise Fault(3, 8)


def read_attributes(octets, wide):
    """The attributes of an UPDATE: the value of each type."""
    found = {}
    while octets:
        head = 4 if octets[0] & EXTENDED else 3
        if len(octets) < head:
            raise Fault(3, 1)
        end = head + int.from_bytes(octets[2:head], "big")
        flags, kind, value = octets[0], octets[1], octets[head:end]
        if len(octets) < end or kind in found:
            raise Fault(3, 1)
        found[kind] = value
        octets = octets[end:]
        if kind in FLAGS:
            test_known(kind, flags, value, wide)
        elif kind != LOCAL_PREF and not flags & OPTIONAL:
            raise Fault(3, 2)
    return found


def read_update(body, wide):
    """What an UPDATE withdraws, its attributes, and what it announces."""
    withdrawn = int.from_bytes(body[:2], "big")
    at = 2 + withdrawn
    if at + 2 > len(body):
        raise Fault(3, 1)
    end = at + 2 + int.from_bytes(body[at : at + 2], "big")
    if end > len(body):
        raise Fault(3, 1)
    gone = read_prefixes(body[2:at])
    attributes = read_attributes(body[at + 2 : end], wide)
    if end < len(body) and not {ORIGIN, AS_PATH, NEXT_HOP} <= attributes.keys():
        raise Fault(3, 3)
    return gone, attributes, read_prefixes(body[end:])


def neighbour(path, home_as):
    """The neighbour AS of a route with this path."""
    return path[0][1][0] if path and path[0][0] == SEQUENCE else home_as


# A route as it was heard: its ORIGIN and MED as numbers, and the parts of its path. The path is None where an AS4_PATH may change it.
Route = collections.namedtuple("Route", "origin path med")


def route_of(attributes, wide):
    """The route that the attributes of an UPDATE tell."""
    path = None if AS4_PATH in attributes and not wide else read_path(attributes[AS_PATH], wide)
    return Route(attributes[ORIGIN][0], path, int.from_bytes(attributes.get(MED, b""), "big"))


class Session:
    """A session, by what its remote said so far."""

    def __init__(self, remote_as, offers=False):
        self.remote_as, self.offers = remote_as, offers
        self.state = "OpenSent"
        self.wide = False
        self.hold = None
        self.unread = b""
        self.identifier = None
        self.heard = {}
        self.fault = None
        # Each prefix that was announced, with its route.
        self.announced = []

    def hear(self, octets):
        """Reads what the remote says next, as far as it can be read."""
        self.unread += octets
        while self.state != "Closed" and len(self.unread) >= HEADER:
            try:
                length, kind = test_header(self.unread[:HEADER])
                if len(self.unread) < length:
                    return
                body, self.unread = self.unread[HEADER:length], self.unread[length:]
                self.read(kind, body)
            except Fault as fault:
                self.fault = fault.args
                self.close()

    def read(self, kind, body):
        """Reads one message with a sound header."""
        if kind == NOTIFICATION:
            self.close()
        elif kind == OPEN and self.state == "OpenSent":
            self.hold, told = read_open(body, self.remote_as, self.offers)
            self.wide = self.offers and told is not None
            self.identifier = body[5:9]
            self.state = "OpenConfirm"
        elif kind == KEEPALIVE and self.state in ("OpenConfirm", "Established"):
            self.state = "Established"
        elif kind == UPDATE and self.state == "Established":
            self.update(body)
        else:
            raise Fault(5, 0)

    def update(self, body):
        """Takes an UPDATE."""
        withdrawn, attributes, announced = read_update(body, self.wide)
        for prefix in withdrawn:
            self.heard.pop(prefix, None)
        if announced:
            route = route_of(attributes, self.wide)
            self.heard.update((prefix, route) for prefix in announced)
            self.announced += [(prefix, route) for prefix in announced]

    def close(self):
        """Ends the session."""
        self.state = "Closed"
        self.heard = {}
        self.unread = b""
