#!/usr/bin/env python3
"""Imports a capture of BGP sessions, as `graftlab import` does: a second reading, from docs/INPUT.md, the definitions and the standards, and
not from the code.

    tools/import_again.py [HOME] < CAPTURE

It needs nothing but Python. It prints the text of the laboratory and ends with status 0, or one line `bad capture: ..` with status 2: what
the program is to print, octet by octet. Other programs here compare both.
"""
import sys
from typing import NamedTuple

import bgp_reader
from bgp_reader import HEADER, KEEPALIVE, LONGEST, OPEN
from captures import Wrong, read_capture, read_packet

PORT, WINDOW, PIECE = 179, 16384, 4096
MOST_FILE, MOST_TEXT, MOST_SAID, MOST_STEPS, MOST_PEERINGS = 268435456, 4194304, 1048576, 4095, 32
PRIVATE = 64512
MULTIPROTOCOL, UNICAST, FOUR_OCTETS = 1, b"\0\1\0\1", 65


class Refused(Exception):
    """The line that refuses a capture, behind its first words."""


def address_text(octets):
    return ".".join(map(str, octets))


class Open(NamedTuple):
    """A sound OPEN. Its AS is that of the capability of four-octet AS numbers, if it is wide, else its field."""
    as_number: int
    hold: int
    identifier: bytes
    wide: bool
    unicast: bool


def messages(octets):
    """The messages with which octets begin, as far as they are whole and have sound headers, and what is behind them."""
    found = []
    while len(octets) >= HEADER:
        try:
            length, _ = bgp_reader.test_header(octets[:HEADER])
        except bgp_reader.Fault:
            break
        if len(octets) < length:
            break
        found.append(octets[:length])
        octets = octets[length:]
    return found, octets


def open_of(found):
    """The sound OPEN of whatever AS but 0 that is the first of messages, or None."""
    if not found or found[0][18] != OPEN:
        return None
    body = found[0][HEADER:]
    field = int.from_bytes(body[1:3], "big")
    try:
        hold, told = bgp_reader.read_open(body, field, False)
    except bgp_reader.Fault:
        return None
    capabilities = [part for _, value in bgp_reader.split(body[10:], None) for part in bgp_reader.split(value, None)]
    number = field if told is None else told
    return Open(number, hold, body[5:9], told is not None, (MULTIPROTOCOL, UNICAST) in capabilities) if number else None


class Stream:
    """One way of a connection: how many octets it gave, the number of the next one, and octets ahead of that by their distance."""

    def __init__(self, first):
        self.given, self.next, self.ahead = 0, first, {}

    def is_beyond(self, segment):
        ahead = (segment.first - self.next) % 2**32
        return bool(segment.octets) and ahead < 2**31 and ahead + len(segment.octets) > WINDOW

    def bring(self, segment):
        """The octets that are in order with a segment. An octet that is there stays."""
        ahead = (segment.first - self.next + 2**31) % 2**32 - 2**31
        for place in range(max(ahead, 0), min(ahead + len(segment.octets), WINDOW)):
            self.ahead.setdefault(place, segment.octets[place - ahead])
        count = 0
        while count in self.ahead:
            count += 1
        octets = bytes(self.ahead[place] for place in range(count))
        self.ahead = {place - count: octet for place, octet in self.ahead.items() if place >= count}
        self.given, self.next = self.given + count, (self.next + count) % 2**32
        return octets


def directed(packets, home):
    """Segments of BGP, each with its connection, the home end first, and whether it goes to the home side; and how many fragments there are."""
    found, fragments = [], 0
    for packet in packets:
        segment = read_packet(packet)
        if segment == "fragment":
            fragments += 1
        elif segment is not None and PORT in (segment.source[1], segment.target[1]):
            from_home = segment.source[1] == PORT if home is None else segment.source[0] == home
            if from_home or home is None or segment.target[0] == home:
                ends = (segment.source, segment.target) if from_home else (segment.target, segment.source)
                found += ((ends, not from_home, piece) for piece in pieces(segment))
    return found, fragments


def pieces(segment):
    """A segment in pieces of at most 4,096 octets: a capture that was made on a host has longer ones than others receive."""
    yield segment._replace(octets=segment.octets[:PIECE])
    for at in range(PIECE, len(segment.octets), PIECE):
        number = (segment.first + at) % 2**32
        yield segment._replace(opens=False, first=number, octets=segment.octets[at : at + PIECE])


class Reading:
    """The sessions of a capture: each connection, what its two ends say, and in which order messages of remotes become whole."""

    def __init__(self, packets, home):
        segments, self.fragments = directed(packets, home)
        self.ends = {}
        for ends, homeward, segment in segments:
            if homeward and segment.octets:
                self.ends.setdefault(ends[1][0], ends)
        self.peers = list(self.ends.values())
        numbers = {ends: number for number, ends in enumerate(self.peers)}
        self.others = sum(ends not in numbers for ends, _, _ in segments)
        self.streams, self.said = {}, {(number, homeward): b"" for number in numbers.values() for homeward in (True, False)}
        # Of each flow to the home side its connection, and how much its remote has said then.
        self.order = []
        for ends, homeward, segment in segments:
            if ends in numbers:
                self.bring(numbers[ends], homeward, segment)
        for number in range(len(self.peers)):
            stream = self.streams.get((number, True))
            if stream is not None and stream.ahead:
                raise Refused(f"{self.remote(number)} hole {stream.given}")

    def bring(self, number, homeward, segment):
        way = number, homeward
        if way not in self.streams:
            if not segment.opens and not segment.octets:
                return
            self.streams[way] = Stream(segment.first)
        if homeward and self.streams[way].is_beyond(segment):
            raise Refused(f"{self.remote(number)} hole {self.streams[way].given}")
        self.said[way] += self.streams[way].bring(segment)
        if homeward:
            self.order.append((number, len(self.said[way])))

    def remote(self, number):
        address, port = self.peers[number][1]
        return f"{address_text(address)}:{port}"


class Import:
    """What the sessions of a capture are imported as."""

    def __init__(self, reading):
        self.reading = reading
        count = range(len(reading.peers))
        self.whole, self.rest, self.opens, self.home_opens = {}, {}, {}, {}
        for number in count:
            self.whole[number], self.rest[number] = messages(reading.said[number, True])
            self.opens[number] = open_of(self.whole[number])
            self.home_opens[number] = open_of(messages(reading.said[number, False])[0])
            if self.opens[number] is None:
                raise Refused(f"{reading.remote(number)} bgp 0")
        self.home = next((it for it in self.home_opens.values() if it is not None), None)
        taken = {it.as_number for it in self.opens.values()}
        self.home_as = self.home.as_number if self.home else next(a for a in range(PRIVATE, 2**32) if a not in taken)
        self.kept = [number for number in count if self.opens[number].as_number != self.home_as]
        self.openings = {number: self.opening(self.whole[number]) for number in self.kept}
        self.steps = [*self.packed(), *((number, self.rest[number][at : at + LONGEST]) for number in self.kept
                                        for at in range(0, len(self.rest[number]), LONGEST))]

    @staticmethod
    def opening(found):
        """How many of messages are the opening: an OPEN, and a KEEPALIVE behind it where both are short."""
        return 2 if found[1:] and found[1][18] == KEEPALIVE and len(found[0]) + len(found[1]) <= LONGEST else 1

    def packed(self):
        """Messages behind the openings, as they become whole, in steps."""
        steps, told = [], {number: 0 for number in self.kept}
        ends = {number: [sum(map(len, self.whole[number][: n + 1])) for n in range(len(self.whole[number]))] for number in self.kept}
        for number, length in self.reading.order:
            while number in told and told[number] < len(ends[number]) and ends[number][told[number]] <= length:
                message = self.whole[number][told[number]]
                told[number] += 1
                if told[number] <= self.openings[number]:
                    continue
                if steps and steps[-1][0] == number and len(steps[-1][1]) + len(message) <= LONGEST:
                    steps[-1] = number, steps[-1][1] + message
                else:
                    steps.append((number, message))
        return steps

    def ends(self, number):
        return self.reading.peers[number][1][0], self.reading.peers[number][0][0]


def line(key, value):
    return f'{key} = "{value}"\n' if isinstance(value, str) else f"{key} = {str(value).lower()}\n"


def head_text(it):
    """All that stands in front of the steps."""
    yield "# Imported from a capture. Left out were, in packets and in sessions:\n"
    internal = len(it.reading.peers) - len(it.kept)
    yield f"# fragments {it.reading.fragments}, of other connections {it.reading.others}, within the home AS {internal}\n\n"
    yield line("home_as", it.home_as) + "\n"
    first = address_text(it.home.identifier) if it.home else "10.255.0.1"
    for name, identifier in (("r1", first), ("r2", "10.255.0.1" if first == "10.255.0.2" else "10.255.0.2")):
        yield "[[router]]\n" + line("name", name) + line("id", identifier) + "sessions = 32\n\n"
    for number in it.kept:
        remote, home = it.ends(number)
        told, own = it.opens[number], it.home_opens[number]
        yield "[[peering]]\n" + line("name", f"p{number + 1}") + line("at", "r1") + line("remote_as", told.as_number)
        yield line("remote_address", address_text(remote)) + line("local_address", address_text(home))
        yield line("remote_id", address_text(told.identifier)) + line("hold", told.hold)
        yield line("opening", b"".join(it.whole[number][: it.openings[number]]).hex()) + line("as4", (own or told).wide)
        yield line("remote_as4", told.wide) + line("home_hold", own.hold if own else 0) + line("unicast", bool(own and own.unicast)) + "\n"


def tail_text(it):
    """All that stands behind them."""
    yield "[[step]]\n" + line("do", "settle") + "\n"
    yield "# Without the signs in front of it, each of these steps moves a session to the other router.\n\n"
    for number in it.kept:
        yield f'# [[step]]\n# do = "graft"\n# peering = "p{number + 1}"\n# to = "r2"\n\n'


def is_host(octets):
    return octets != bytes(4) and octets[0] < 224


def text_of(it):
    """The text of the laboratory, where all have room in an input."""
    head, tail = "".join(head_text(it)), "".join(tail_text(it))
    for place, number in enumerate(it.kept):
        if place >= MOST_PEERINGS or not all(map(is_host, it.ends(number))):
            raise Refused(f"{it.reading.remote(number)} limit 0")
    said = {number: len(b"".join(it.whole[number][: it.openings[number]])) for number in it.kept}
    steps, size = [], len(head) + len(tail)
    for place, (number, octets) in enumerate(it.steps):
        steps.append("[[step]]\n" + line("do", "raw") + line("peering", f"p{number + 1}") + line("hex", octets.hex()) + "\n")
        size += len(steps[-1])
        if place >= MOST_STEPS or said[number] + len(octets) > MOST_SAID or size > MOST_TEXT:
            raise Refused(f"{it.reading.remote(number)} limit {said[number]}")
        said[number] += len(octets)
    return head + "".join(steps) + tail


def answer(file, home=None):
    """The status and the text with which a capture is answered."""
    try:
        if len(file) > MOST_FILE:
            raise Wrong(MOST_FILE)
        return 0, text_of(Import(Reading(read_capture(file), home)))
    except Wrong as wrong:
        return 2, f"bad capture: form {wrong.args[0]}\n"
    except Refused as refused:
        return 2, f"bad capture: {refused.args[0]}\n"


def main():
    home = bytes(map(int, sys.argv[1].split("."))) if sys.argv[1:] else None
    status, text = answer(sys.stdin.buffer.read(), home)
    sys.stdout.write(text)
    return status


if __name__ == "__main__":
    sys.exit(main())
