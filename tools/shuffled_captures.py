#!/usr/bin/env python3
"""Imports captures whose packets come in another order, twice, or cut otherwise, and compares what the remotes say.

    tools/shuffled_captures.py [--count N] [--seed N] PROGRAM CAPTURE..

It needs nothing but Python. Each capture, as record_daemons.py makes them, is of one session, with its home side at 192.0.2.2. From it, and
from one that has the packets of all of them by turns, are made:

    forms      the same packets as a pcap file of either order, with nanoseconds, as a pcapng file of either order, and behind other links
    shuffled   packets shuffled within a window of 2 to 12, N times (20 where no other number is named)
    doubled    some packets come a second time, up to 30 places later, and all are shuffled
    changed    the same, but what comes a second time has other octets
    cut        the octets of both ways in segments of their own, that overlap, some twice, none beyond the window, and all are shuffled
    changed cut    the same, but what a segment has of octets that came before is other octets

The packet with which each way of a connection begins keeps its place. Compared are: of the forms the whole text; of the others the octets
that each remote says (its opening and its raw steps, one behind another), and, where there is one remote, the whole text but for the counts in
its second line; of all the answer of import_again.py. A line for each capture and kind tells how many were imported, and how many differ. The
status is 1 where one does.
"""
import argparse
import collections
import random
import re
import subprocess
import sys

import captures
import import_again
from captures import ACK, PSH, SYN
from import_daemons import splits

HOME = "192.0.2.2"
COUNTS = re.compile(r"^# fragments .*\n", re.M)


def imported(program, file):
    answer = subprocess.run([program, "import", HOME], input=file, capture_output=True)
    return answer.returncode, (answer.stdout + answer.stderr).decode("utf-8", "backslashreplace")


def said(text):
    """What each remote says, by its address."""
    head, steps, _ = splits(text)
    tables = [dict(re.findall(r'^(\w+) = "?([^"\n]*)', part, re.M)) for part in head.split("[[peering]]")[1:]]
    return {it["remote_address"]: bytes.fromhex(it["opening"]) + b"".join(octets for name, octets in steps if name == it["name"]) for it in tables}


def beginnings(packets):
    """The places of packets with which ways of connections begin."""
    found = {}
    for place, packet in enumerate(packets):
        segment = captures.read_packet(packet)
        if isinstance(segment, captures.Segment) and (segment.opens or segment.octets):
            found.setdefault((segment.source, segment.target), place)
    return set(found.values())


def shuffled(packets, choose):
    """The packets in another order: each comes at most a window later or earlier than it did; the beginnings keep their places."""
    window, begin = choose.randint(2, 12), max(beginnings(packets)) + 1
    keys = [place if place < begin else max(place + choose.uniform(0, window), begin) for place in range(len(packets))]
    return [packets[place] for place in sorted(range(len(packets)), key=keys.__getitem__)]


def others(choose):
    return lambda octets: choose.randbytes(len(octets))


def doubled(packets, choose, change=None):
    """Some packets come again later, maybe with other octets. They come behind what they repeat, however all are shuffled."""
    begin, again = max(beginnings(packets)) + 1, collections.defaultdict(list)
    for place, packet in enumerate(packets):
        if choose.random() < 0.4 and isinstance(captures.read_packet(packet), captures.Segment):
            repeated = packet if change is None else captures.with_octets(packet, change)
            again[max(min(place + choose.randint(1, 30), len(packets) - 1), begin)].append(repeated)
    if change is None:
        return shuffled([it for place, packet in enumerate(packets) for it in (packet, *again[place])], choose)
    first = shuffled(packets, choose)
    moved = {id(packet): place for place, packet in enumerate(first)}
    behind = collections.defaultdict(list)
    for place, packet in enumerate(packets):
        if choose.random() < 0.4 and isinstance(captures.read_packet(packet), captures.Segment):
            behind[min(moved[id(packet)] + choose.randint(0, 30), len(first) - 1)].append(captures.with_octets(packet, change))
    return [it for place, packet in enumerate(first) for it in (packet, *behind[place])]


class Way:
    """One way of a connection, cut anew: its ends, the number of its first octet, and its octets."""

    def __init__(self, source, target, first, octets):
        self.source, self.target, self.first, self.octets = source, target, first, octets

    def packet(self, place, size, octets=None):
        octets = self.octets[place : place + size] if octets is None else octets
        number = (self.first + place) % 2**32
        return captures.Packet(captures.IPV4, captures.ipv4_packet(self.source, self.target, number, 0, PSH | ACK, octets))

    def opening(self):
        number = (self.first - 1) % 2**32
        return captures.Packet(captures.IPV4, captures.ipv4_packet(self.source, self.target, number, 0, SYN, b""))

    def pieces(self, choose):
        """Segments that have all octets, many of them several times, as (place, size), in an order in which no segment is beyond the window."""
        place, pieces = 0, []
        while place < len(self.octets):
            size = min(choose.choice((1, 19, 200, 1448, 1448, 3000)), len(self.octets) - place)
            back = choose.choice((0, 0, 1, 50, 900))
            pieces.append((max(place - back, 0), size + min(back, place)))
            place += size
        pieces += [it for it in pieces if choose.random() < 0.2]
        return sorted(pieces, key=lambda it: it[0] + choose.uniform(0, 6000))


def ways_of(file):
    """The two ways of each connection of a capture."""
    reading = import_again.Reading(captures.read_capture(file), bytes(map(int, HOME.split("."))))
    for (number, homeward), octets in sorted(reading.said.items()):
        home, remote = reading.peers[number]
        stream = reading.streams[number, homeward]
        ends = (remote, home) if homeward else (home, remote)
        yield Way(*ends, (stream.next - stream.given) % 2**32, octets)


def cut(file, choose, change=None):
    """The octets of all ways in segments of their own."""
    ways = list(ways_of(file))
    queues = [way.pieces(choose) for way in ways]
    packets, known = [way.opening() for way in ways], [set() for _ in ways]
    while any(queues):
        number = choose.choice([number for number, queue in enumerate(queues) if queue])
        place, size = queues[number].pop(0)
        octets = ways[number].octets[place : place + size]
        if change is not None:
            octets = bytes(change(b"x")[0] if place + at in known[number] else octet for at, octet in enumerate(octets))
        known[number].update(range(place, place + size))
        packets.append(ways[number].packet(place, size, octets))
    return packets


def on_link(packets, link):
    """The packets behind the header of another link."""
    heads = {captures.NULL: b"\2\0\0\0", captures.COOKED: bytes(14) + b"\x08\0", captures.COOKED2: b"\x08\0" + bytes(18)}
    return [it._replace(link=link, octets=heads.get(link, b"") + captures.behind_link(it)) for it in packets]


def forms(packets):
    yield from (captures.write_pcap(packets, order, magic) for order in "<>" for magic in (captures.MICRO, captures.NANO))
    yield from (captures.write_pcapng(packets, order) for order in "<>")
    for link in (captures.NULL, captures.RAW, captures.RAW_OF_BSD, captures.COOKED, captures.IPV4, captures.COOKED2):
        yield captures.write_pcap(on_link(packets, link))
    tagged = [it._replace(octets=it.octets[:12] + b"\x81\0\0\x07" + it.octets[12:]) for it in packets]
    yield captures.write_pcap(tagged)
    halves = [*packets[::2], *on_link(packets, captures.RAW)[1::2]]
    order = sorted(range(len(packets)), key=lambda place: place % 2 * 1e6 + place)
    yield captures.write_pcapng([packet for _, packet in sorted(zip(order, halves), key=lambda it: it[0])])


def kinds(file, count, choose):
    """Captures that are made of one, by kinds."""
    packets = captures.read_capture(file)
    yield "forms", list(forms(packets))
    yield "shuffled", [captures.write_pcap(shuffled(packets, choose)) for _ in range(count)]
    yield "doubled", [captures.write_pcap(doubled(packets, choose)) for _ in range(count)]
    yield "changed", [captures.write_pcap(doubled(packets, choose, others(choose))) for _ in range(count)]
    yield "cut", [captures.write_pcap(cut(file, choose)) for _ in range(count)]
    yield "changed cut", [captures.write_pcap(cut(file, choose, others(choose))) for _ in range(count)]


def merged(files):
    """A capture with the packets of all by turns; each session has a remote with an address of its own."""
    parts = []
    for number, file in enumerate(files):
        address = bytes([198, 51, 100, number + 1])
        packets = [it for it in captures.read_capture(file) if isinstance(captures.read_packet(it), captures.Segment)]
        parts.append([it._replace(octets=it.octets.replace(bytes([192, 0, 2, 1]), address, 1)) for it in packets])
    places = sorted((place / len(part), number, place) for number, part in enumerate(parts) for place in range(len(part)))
    return captures.write_pcap([parts[number][place] for _, number, place in places])


def compared(program, name, file, count, choose):
    """Imports all that is made of a capture, and returns how many differ."""
    status, plain = imported(program, file)
    if status or (status, plain) != import_again.answer(file, bytes(map(int, HOME.split(".")))):
        print(f"{name}: {plain[:80]!r} where import_again.py has another answer")
        return 1
    wanted, one = said(plain), plain.count("[[peering]]") == 1
    print(f"{name}: {len(wanted)} remotes, {sum(map(len, wanted.values()))} octets said")
    total = 0
    for kind, made in kinds(file, count, choose):
        wrong = 0
        for it in made:
            status, text = imported(program, it)
            same = status == 0 and said(text) == wanted and (status, text) == import_again.answer(it, bytes(map(int, HOME.split("."))))
            if same and kind == "forms":
                same = text == plain
            elif same and one:
                same = COUNTS.sub("", text) == COUNTS.sub("", plain)
            wrong += not same
        print(f"  {kind}: {len(made)} imported, {wrong} differ")
        total += wrong
    return total


def main():
    words = argparse.ArgumentParser(usage=__doc__)
    words.add_argument("--count", type=int, default=20)
    words.add_argument("--seed", type=int, default=7)
    words.add_argument("program")
    words.add_argument("captures", nargs="+")
    options = words.parse_args()
    choose = random.Random(options.seed)
    files = {}
    for name in options.captures:
        with open(name, "rb") as file:
            files[name.rpartition("/")[2]] = file.read()
    if len(files) > 1:
        files["all of them"] = merged(list(files.values()))
    total = sum(compared(options.program, name, file, options.count, choose) for name, file in files.items())
    print(f"{total} differ")
    return 1 if total else 0


if __name__ == "__main__":
    sys.exit(main())
