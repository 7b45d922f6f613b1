"""A home session and the endpoints of a peering, for a replay of journals: RFC 4271, sections 4, 6 and 8.2.2, and RFC 9293, section 3.4.

Streams are counted, not copied: a segment is a place in its sender's stream, a length and an acknowledged length, without any modulus.
What the home side puts is only counted, since remotes don't read it; what remotes say is kept, since sessions do.
"""
from audit_routes import NOTIFICATION_HEAD, notice_octets, read_update
from bgp_reader import HEADER, KEEPALIVE, NOTIFICATION, OPEN, UPDATE, Fault, read_open, test_header

WINDOW, FLIGHT, PAYLOAD = 16384, 15360, 1024
OPEN_SENT, OPEN_CONFIRM, ESTABLISHED, CLOSED = "OpenSent", "OpenConfirm", "Established", "Closed"


class Fails(Exception):
    """The condition of an entry's row fails."""


def needs(condition):
    """Stops where a part of a row's condition fails."""
    if not condition:
        raise Fails


class End:
    """An endpoint: how much of its stream is acknowledged and emitted, and which places of the other stream arrived."""

    __slots__ = ("acked", "emitted", "received", "ahead")

    def __init__(self):
        self.acked = self.emitted = self.received = 0
        # Pieces that arrived past the received length, rising and apart.
        self.ahead = []

    def may_emit(self, stream, offset, length):
        """Whether this slice of a stream of so many octets may be sent."""
        if length > PAYLOAD or not self.acked <= offset <= self.emitted:
            return False
        return offset + length <= min(stream, self.acked + FLIGHT) and (length > 0 or offset == self.emitted)

    def arrive(self, segment):
        """Takes a segment, or drops it (RFC 9293, 3.4 and 3.10.7.4)."""
        place, length, ack = segment
        last = self.received + WINDOW
        accepted = self.received <= place < last or (length > 0 and self.received <= place + length - 1 < last)
        if accepted and ack <= self.emitted:
            self.acked = max(self.acked, ack)
            self.keep(max(place, self.received), min(place + length, last))

    def keep(self, begin, end):
        """Notes that the places from one to another arrived."""
        if begin >= end:
            return
        if not self.ahead and begin == self.received:
            self.received = end
            return
        pieces = []
        for one, other in self.ahead:
            if other < begin or one > end:
                pieces.append((one, other))
            else:
                begin, end = min(begin, one), max(end, other)
        if begin == self.received:
            self.received = end
        else:
            pieces.append((begin, end))
        self.ahead = sorted(pieces)


class Session:
    """The home session of a peering, which moves from router to router."""

    __slots__ = ("peering", "end", "state", "put", "read", "heard", "told", "hold", "wide", "identifier", "last_tick", "ticks")

    def __init__(self, peering):
        self.peering, self.end = peering, End()
        self.state, self.put, self.read = OPEN_SENT, peering.open_octets, 0
        self.heard, self.told = {}, {}
        self.hold = self.last_tick = self.ticks = 0
        self.wide, self.identifier = False, None

    def header(self, said):
        """The first 19 unread octets of what the remote said, if so many were received."""
        return bytes(said[self.read : self.read + HEADER]) if self.end.received - self.read >= HEADER else None

    def waits(self, said):
        """Whether the unread octets begin a frame or a faulty header."""
        head = self.header(said)
        if head is None:
            return False
        try:
            return self.end.received - self.read >= test_header(head)[0]
        except Fault:
            return True

    def get(self, said):
        """Reads the next frame or faulty header, and answers it; returns the prefixes of which another route is heard then."""
        head = self.header(said)
        needs(head is not None and self.state != CLOSED)
        try:
            length, kind = test_header(head)
            needs(self.end.received - self.read >= length)
            body = bytes(said[self.read + HEADER : self.read + length])
            self.read += length
            return self.take(kind, body)
        except Fault as fault:
            self.put += notice_octets(fault)
            return self.close()

    def take(self, kind, body):
        """Takes a message with a sound header."""
        if kind == NOTIFICATION:
            return self.close()
        if kind == OPEN and self.state == OPEN_SENT:
            hold, four = read_open(body, self.peering.remote_as, self.peering.offers)
            self.hold = min(hold, self.peering.home_hold)
            self.wide = self.peering.offers and four is not None
            self.identifier = int.from_bytes(body[5:9], "big")
            self.state = OPEN_CONFIRM
            self.put += HEADER
        elif kind == KEEPALIVE and self.state in (OPEN_CONFIRM, ESTABLISHED):
            self.state = ESTABLISHED
        elif kind == UPDATE and self.state == ESTABLISHED:
            self.ticks = 0
            return self.update(*read_update(body, self.wide))
        else:
            raise Fault(5, 0)
        self.ticks = 0
        return ()

    def update(self, gone, attributes, announced):
        """Enters a sound UPDATE; of a prefix that is announced and withdrawn the first counts."""
        changes = dict.fromkeys(gone)
        changes.update(dict.fromkeys(announced, attributes))
        changed = [prefix for prefix, value in changes.items() if self.heard.get(prefix) != value]
        for prefix in changed:
            if changes[prefix] is None:
                del self.heard[prefix]
            else:
                self.heard[prefix] = changes[prefix]
        return changed

    def close(self):
        """Ends the session."""
        self.state = CLOSED
        changed = list(self.heard)
        self.heard, self.told = {}, {}
        return changed

    def tick(self, number):
        """A round passes: the answer is the end of the session, a KEEPALIVE, or none."""
        self.last_tick = number
        self.ticks += 1
        if self.ticks == self.hold:
            self.put += NOTIFICATION_HEAD
            self.close()
        elif number % (self.hold // 3) == 0:
            self.put += HEADER
