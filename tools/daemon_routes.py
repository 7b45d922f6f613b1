"""What daemons that are recorded have in their tables, and the speakers of BGP that play their neighbours.

OWN are routes that a daemon is configured with; a feed, a neighbour of another AS, tells it others, and later withdraws some of these and
changes some. Routes are compared as a path, an origin and a MED: a path is a list of ASes, in which a set is a list of its own.
"""
import contextlib
import socket
import struct
import time
from typing import NamedTuple

from bgp_reader import KEEPALIVE, OPEN, UPDATE, test_header
from hostile_says import attribute, capability, message, parameter, update

ORIGINS = ["igp", "egp", "incomplete"]
PORT = 179
FEED_AS = 64999
SEQUENCE, SET = 2, 1


class Own(NamedTuple):
    """A route that a daemon is configured with. The path is behind the daemon's own AS."""
    prefix: str
    path: list
    origin: str
    med: int | None
    communities: list


LONG = [64700 + number for number in range(40)]
# Attributes of the routes that daemons are configured with, by turns.
KINDS = [
    ([], "igp", None, []), ([64700], "igp", 10, []), ([64700, 64701, 64702], "egp", None, ["65010:1"]), ([], "incomplete", 4294967295, []),
    (LONG[:20], "igp", 0, ["65010:1", "65010:2", "64512:65535"]), ([64710, 64710, 64710], "egp", 77, []), (LONG, "incomplete", None, []),
    ([4200000700, 64700], "igp", 5, ["65010:3"]), ([64700, 65551, 64701], "egp", None, []), ([], "igp", 300, ["65010:%d" % n for n in range(1, 16)]),
]


def own_routes():
    """Prefixes of all lengths but 1 to 7, most of them of 24."""
    prefixes = ["0.0.0.0/0", *(f"{20 + n}.0.0.0/{n}" for n in range(8, 16)), *(f"172.{n}.0.0/{n}" for n in range(16, 24)),
                *(f"198.18.{n}.{0 if n < 25 else 128 if n == 25 else 2 ** (32 - n)}/{n}" for n in range(24, 33)),
                *(f"10.{n // 30}.{n % 30}.0/24" for n in range(150))]
    return [own_route(number, prefix) for number, prefix in enumerate(prefixes)]


def own_route(number, prefix):
    """One of six times as many as there are kinds: MEDs, and the last AS of a path, go by turns too."""
    path, origin, med, communities = KINDS[number % len(KINDS)]
    turn = number // len(KINDS) % 6
    path = [*path[:-1], path[-1] + turn] if path else path
    return Own(prefix, path, origin, med if med in (None, 0, 4294967295) else med + turn, communities)


def path_octets(path, size):
    """An AS_PATH; what stands between sets is one sequence."""
    octets, sequence = b"", []
    write = lambda kind, numbers: struct.pack(">BB", kind, len(numbers)) + b"".join(n.to_bytes(size, "big") for n in numbers) if numbers else b""
    for part in path:
        if isinstance(part, list):
            octets, sequence = octets + write(SEQUENCE, sequence) + write(SET, part), []
        else:
            sequence.append(part)
    return octets + write(SEQUENCE, sequence)


def feed_update(prefixes, path, origin, med=None, more=b""):
    values = [(0x40, 1, bytes([origin])), (0x40, 2, path_octets([FEED_AS, *path], 4)), (0x40, 3, FEED_ADDRESS)]
    octets = b"".join(attribute(*it) for it in values) + (b"" if med is None else attribute(0x80, 4, struct.pack(">I", med)))
    return update(octets + more, [prefix_of(text) for text in prefixes])


def prefix_of(text):
    address, length = text.split("/")
    return int.from_bytes(socket.inet_aton(address), "big"), int(length)


FEED_ADDRESS = bytes([192, 0, 2, 3])
AGGREGATOR = attribute(0xC0, 7, struct.pack(">I", 4200000700) + FEED_ADDRESS)
COMMUNITIES = attribute(0xC0, 8, b"".join(struct.pack(">HH", 64999, n) for n in range(70)))
LARGE = attribute(0xC0, 32, struct.pack(">III", 64999, 1, 2))
FEED = [
    feed_update([f"100.64.{n}.0/24" for n in range(20)], [64800, 64801], 0),
    feed_update([f"100.65.{n}.0/24" for n in range(10)], [64800, [64810, 64811, 64812]], 0, more=attribute(0x40, 6, b"") + AGGREGATOR),
    feed_update([f"100.66.{n}.0/24" for n in range(10)], [64800, 4200000800, 64801], 1, 50, COMMUNITIES + LARGE),
    feed_update([f"100.67.{n}.0/24" for n in range(10)], [64800] * 12, 2, more=attribute(0xC0, 16, b"\0\2\xfd\xe7\0\0\0\1")),
    feed_update([f"100.68.{n}.128/25" for n in range(10)], [64801, 64802], 0, more=attribute(0xC0, 99, b"unknown")),
]
# Told later, when the daemon has told the home side all of this: some are withdrawn, some have another route.
LATER = [
    update(withdrawn=[prefix_of(f"100.64.{n}.0/24") for n in range(15, 20)]),
    feed_update([f"100.65.{n}.0/24" for n in range(5)], [64805], 2),
    update(withdrawn=[prefix_of(f"100.66.{n}.0/24") for n in range(5)]),
    feed_update([f"100.66.{n}.0/24" for n in range(3)], [64806, 64807], 0),
]


class Speaker:
    """A speaker of BGP that a script plays: it opens the session, keeps it up, says what it is given, and keeps all that it hears."""

    def __init__(self, as_number, identifier, hold, wide, unicast):
        self.hold, self.socket, self.heard, self.stands, self.last, self.said_at = hold, None, b"", False, time.monotonic(), 0
        self.kinds = []
        self.unread = b""
        capabilities = (capability(1, b"\0\1\0\1") if unicast else b"") + (capability(65, struct.pack(">I", as_number)) if wide else b"")
        told = parameter(capabilities) if capabilities else b""
        field = as_number if as_number < 65536 else 23456
        self.open = message(OPEN, struct.pack(">BHH", 4, field, hold) + socket.inet_aton(identifier) + bytes([len(told)]) + told)

    def attach(self, connection):
        """Opens the session on a connection that stands."""
        self.socket = connection
        connection.setblocking(False)
        self.say(self.open)

    def say(self, octets):
        self.socket.setblocking(True)
        self.socket.sendall(octets)
        self.socket.setblocking(False)
        self.said_at = time.monotonic()

    def turn(self):
        """Hears what has come, and keeps the session up."""
        with contextlib.suppress(BlockingIOError):
            came = self.socket.recv(1 << 20)
            if not came:
                raise ConnectionError(f"the session has ended; the last messages were of the types {self.kinds[-4:]}, {self.unread.hex()}")
            self.heard += came
            self.read(came)
        if self.stands and self.hold and time.monotonic() - self.said_at > self.hold / 3:
            self.say(message(KEEPALIVE))

    def read(self, came):
        self.unread += came
        while len(self.unread) >= 19:
            length, kind = test_header(self.unread[:19])
            if len(self.unread) < length:
                return
            self.unread = self.unread[length:]
            self.kinds.append(kind)
            if kind == OPEN:
                self.say(message(KEEPALIVE))
            elif kind == KEEPALIVE:
                self.stands = True
            if kind != KEEPALIVE:
                self.last = time.monotonic()

    def is_quiet(self, seconds):
        return self.stands and UPDATE in self.kinds and time.monotonic() - self.last > seconds
