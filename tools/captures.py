"""Captures of packets, pcap and pcapng, and the segments of TCP over IPv4 in them: read as docs/INPUT.md says of `import`, and written.

For the programs here that check `graftlab capture` and `graftlab import`; written from the formats and the definitions, and not from the code.
"""
import struct
from typing import NamedTuple

NULL, ETHERNET, RAW, COOKED, IPV4, COOKED2 = 0, 1, 101, 113, 228, 276
# Raw packets have another number where BSD writes them.
RAW_OF_BSD = 12
SECTION, INTERFACE, SIMPLE, ENHANCED = 0x0A0D0D0A, 1, 3, 6
ORDER = 0x1A2B3C4D
MICRO, NANO = 0xA1B2C3D4, 0xA1B23C4D
FIN, SYN, RST, PSH, ACK = 1, 2, 4, 8, 16


class Wrong(Exception):
    """A file that is no capture: the place of the first field that is cut off or wrong."""


class Packet(NamedTuple):
    """A packet: the type of the link that it was on, its octets, and its time as the file has it."""
    link: int
    octets: bytes
    time: tuple = (0, 0)


class Segment(NamedTuple):
    """A segment of TCP. Its first number is that of its first octet, behind a SYN if it has one."""
    source: tuple
    target: tuple
    opens: bool
    first: int
    octets: bytes
    flags: int


def test(place, *fields):
    """Each field is its place from here and whether it is right, in the order in which they are read."""
    for offset, right in fields:
        if not right():
            raise Wrong(place + offset)


def read_pcap(file):
    order = ">" if file[:4] in (struct.pack(">I", MICRO), struct.pack(">I", NANO)) else "<"
    word = lambda at: struct.unpack_from(order + "I", file, at)[0]
    half = lambda at: struct.unpack_from(order + "H", file, at)[0]
    test(0, (0, lambda: len(file) >= 4 and word(0) in (MICRO, NANO)), (4, lambda: len(file) >= 6 and half(4) == 2),
         (6, lambda: len(file) >= 8 and half(6) == 4), *((at, lambda at=at: len(file) >= at + 4) for at in (8, 12, 16, 20)))
    link = word(20) % 65536
    packets, at = [], 24
    while at < len(file):
        test(at, (0, lambda: len(file) >= at + 16), (8, lambda: len(file) >= at + 16 + word(at + 8)))
        seconds, fraction, size = struct.unpack_from(order + "III", file, at)
        packets.append(Packet(link, file[at + 16 : at + 16 + size], (seconds, fraction)))
        at += 16 + size
    return packets


class Blocks:
    """A pcapng file that is read block by block."""

    def __init__(self, file):
        self.file, self.at, self.order, self.interfaces, self.packets = file, 0, "<", [], []

    def word(self, offset, form="I"):
        return struct.unpack_from(self.order + form, self.file, self.at + offset)[0]

    def is_length(self, least):
        size = self.word(4)
        return least <= size and size % 4 == 0 and size <= len(self.file) - self.at

    def section(self):
        left = len(self.file) - self.at
        test(self.at, (0, lambda: left >= 12))
        self.order = ">" if self.file[self.at + 8 : self.at + 12] == struct.pack(">I", ORDER) else "<"
        test(self.at, (8, lambda: self.word(8) == ORDER), (4, lambda: self.is_length(28)), (12, lambda: self.word(12, "H") == 1))
        self.interfaces = []

    def block(self):
        """A block of another type; of those that aren't read only the length is tested."""
        left = len(self.file) - self.at
        kind = self.word(0) if left >= 4 else None
        test(self.at, (0, lambda: left >= 12 and (kind != SIMPLE or self.interfaces)),
             (4, lambda: self.is_length({INTERFACE: 20, SIMPLE: 16, ENHANCED: 32}.get(kind, 12))),
             (8, lambda: kind != ENHANCED or self.word(8) < len(self.interfaces)),
             (20, lambda: kind != ENHANCED or self.word(20) <= self.word(4) - 32))

    def all(self):
        while self.at < len(self.file):
            is_section = self.file[self.at : self.at + 4] == struct.pack(">I", SECTION)
            self.section() if is_section else self.block()
            size = self.word(4)
            test(self.at, (size - 4, lambda: self.word(size - 4) == size))
            if not is_section:
                self.take(self.word(0), size)
            self.at += size
        return self.packets

    def take(self, kind, size):
        """What a block other than a section's has."""
        if kind == INTERFACE:
            self.interfaces.append((self.word(8, "H"), self.word(12)))
        elif kind == SIMPLE:
            link, most = self.interfaces[0]
            size = min(self.word(8), size - 16, most or size - 16)
            self.packets.append(Packet(link, self.file[self.at + 12 : self.at + 12 + size]))
        elif kind == ENHANCED:
            time = divmod(self.word(12) << 32 | self.word(16), 1000000)
            self.packets.append(Packet(self.interfaces[self.word(8)][0], self.file[self.at + 28 : self.at + 28 + self.word(20)], time))


def read_capture(file):
    """The packets of a file."""
    return Blocks(file).all() if file[:4] == struct.pack(">I", SECTION) else read_pcap(file)


def write_pcap(packets, order="<", magic=MICRO):
    """A pcap file of packets, all on the link of the first one."""
    link = packets[0].link if packets else IPV4
    parts = [struct.pack(order + "IHHIIII", magic, 2, 4, 0, 0, 65535, link)]
    for packet in packets:
        parts += [struct.pack(order + "IIII", *packet.time, len(packet.octets), len(packet.octets)), packet.octets]
    return b"".join(parts)


def write_pcapng(packets, order="<"):
    """A pcapng file of packets: one section, with an interface for each type of link, and blocks with options."""
    links = sorted({packet.link for packet in packets})
    parts = [struct.pack(order + "IIIHHqI", SECTION, 28, ORDER, 1, 0, -1, 28)]
    parts += [struct.pack(order + "IIHHII", INTERFACE, 20, link, 0, 0, 20) for link in links]
    for number, packet in enumerate(packets):
        octets = packet.octets + bytes(-len(packet.octets) % 4)
        options = struct.pack(order + "HH4sHH", 1, 3, b"one\0", 0, 0) if number % 5 == 0 else b""
        size, time = 32 + len(octets) + len(options), packet.time[0] * 1000000 + packet.time[1]
        head = struct.pack(order + "IIIIIII", ENHANCED, size, links.index(packet.link), time >> 32, time % 2**32, len(packet.octets), len(packet.octets))
        parts += [head, octets, options, struct.pack(order + "I", size)]
    return b"".join(parts)


def behind_link(packet):
    """The octets behind the header of the link; None where they aren't IPv4's."""
    link, octets = packet.link, packet.octets
    typed = lambda place, header: octets[header:] if len(octets) >= header and octets[place : place + 2] == b"\x08\0" else None
    if link in (RAW, RAW_OF_BSD, IPV4):
        return octets
    if link == ETHERNET:
        return typed(16, 18) if len(octets) >= 14 and octets[12:14] == b"\x81\0" else typed(12, 14)
    if link == NULL:
        return octets[4:] if octets[:4] in (b"\0\0\0\2", b"\2\0\0\0") else None
    return typed(14, 16) if link == COOKED else typed(0, 20) if link == COOKED2 else None


def read_packet(packet):
    """The segment of a packet; "fragment" where it is a part of a packet; or None."""
    octets = behind_link(packet)
    if octets is None or len(octets) < 20 or octets[0] >> 4 != 4:
        return None
    header, total = octets[0] % 16 * 4, int.from_bytes(octets[2:4], "big")
    if not 20 <= header <= total <= len(octets) or octets[9] != 6:
        return None
    if int.from_bytes(octets[6:8], "big") % 0x4000:
        return "fragment"
    segment = octets[header:total]
    if len(segment) < 20 or not 20 <= segment[12] >> 4 << 2 <= len(segment):
        return None
    source, target, number = struct.unpack_from(">HHI", segment)
    opens = bool(segment[13] & SYN)
    return Segment((octets[12:16], source), (octets[16:20], target), opens, (number + opens) % 2**32, segment[segment[12] >> 4 << 2 :], segment[13])


def with_octets(packet, change):
    """The packet with other octets behind its TCP header: what change makes of them. Its checksums are left as they are."""
    octets = behind_link(packet)
    at = len(packet.octets) - len(octets) + octets[0] % 16 * 4
    at += packet.octets[at + 12] >> 4 << 2
    end = len(packet.octets) - len(octets) + int.from_bytes(octets[2:4], "big")
    return packet._replace(octets=packet.octets[:at] + change(packet.octets[at:end]) + packet.octets[end:])


def checksum(octets):
    total = sum(struct.unpack(f">{(len(octets) + 1) // 2}H", octets + bytes(len(octets) % 2)))
    while total >> 16:
        total = (total & 0xFFFF) + (total >> 16)
    return 0xFFFF - total


def ipv4_packet(source, target, number, acknowledged, flags, octets):
    """An IPv4 packet with a segment; its ends are an address of four octets and a port each."""
    head = struct.pack(">HHIIBBHHH", source[1], target[1], number, acknowledged, 0x50, flags, 16384, 0, 0)
    pseudo = source[0] + target[0] + struct.pack(">HH", 6, len(head) + len(octets))
    head = head[:16] + struct.pack(">H", checksum(pseudo + head + octets)) + head[18:]
    front = struct.pack(">BBHHHBBH4s4s", 0x45, 0, 40 + len(octets), 0, 0x4000, 64, 6, 0, source[0], target[0])
    return front[:10] + struct.pack(">H", checksum(front)) + front[12:] + head + octets
