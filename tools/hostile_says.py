"""What remotes say: sound messages, and all kinds of faults and hostile octets."""
import struct

from bgp_reader import KEEPALIVE, MARKER, NOTIFICATION, OPEN, UPDATE



def message(kind, body=b"", length=None, marker=MARKER):
    """A message, whose header may tell another length."""
    return marker + struct.pack(">HB", 19 + len(body) if length is None else length, kind) + body


def attribute(flags, kind, value):
    """An attribute, with a length of two octets where its value needs one."""
    if len(value) > 255:
        return struct.pack(">BBH", flags | 0x10, kind, len(value)) + value
    return struct.pack(">BBB", flags, kind, len(value)) + value


def prefix_octets(prefixes):
    return b"".join(struct.pack(">B", size) + struct.pack(">I", address)[: (size + 7) // 8] for address, size in prefixes)


def update(attributes=b"", announced=(), withdrawn=()):
    """An UPDATE message."""
    gone = prefix_octets(withdrawn)
    return message(UPDATE, struct.pack(">H", len(gone)) + gone + struct.pack(">H", len(attributes)) + attributes + prefix_octets(announced))


def capability(code, value=b""):
    return struct.pack(">BB", code, len(value)) + value


def parameter(octets, kind=2):
    return struct.pack(">BB", kind, len(octets)) + octets


class Remote:
    """A remote, and the messages that it can say. Its width is that of its default opening."""

    def __init__(self, number, choose):
        self.name = f"c{number + 1}"
        self.as_number = 65001 + number
        self.address = f"192.0.2.{4 * number + 1}"
        self.local = f"192.0.2.{4 * number + 2}"
        self.start = 0
        self.offers = choose.random() < 0.15
        self.home_hold = 0
        self.opening = None
        self.choose = choose

    def identifier(self):
        return bytes(map(int, self.address.split(".")))

    def open(self, version=4, as_number=None, hold=180, identifier=None, parameters=None, told=None):
        """An OPEN of this remote, with capability 65 where the home side offers it."""
        field = self.as_number if as_number is None else as_number
        if parameters is None:
            parameters = parameter(capability(65, struct.pack(">I", self.as_number))) if self.offers else b""
        size = len(parameters) if told is None else told
        return message(OPEN, struct.pack(">BHH", version, field, hold) + (identifier or self.identifier()) + bytes([size]) + parameters)

    def route(self, path=None, metric=None, more=b""):
        """The attributes of a route of this remote."""
        ases = [self.as_number] if path is None else path
        size = ">I" if self.offers else ">H"
        part = bytes([2, len(ases)]) + b"".join(struct.pack(size, number) for number in ases) if ases else b""
        octets = attribute(0x40, 1, b"\0") + attribute(0x40, 2, part) + attribute(0x40, 3, self.identifier())
        return octets + (b"" if metric is None else attribute(0x80, 4, struct.pack(">I", metric))) + more

    def prefixes(self, most=6):
        """Some prefixes, of which other remotes may have some too."""
        places = self.choose.sample(range(40), self.choose.randint(1, most))
        return [(10 << 24 | place << 16, 16) for place in places]

    def sound(self):
        """A sound message of an established session."""
        kind = self.choose.random()
        if kind < 0.15:
            return message(KEEPALIVE)
        if kind < 0.3:
            return update(withdrawn=self.prefixes())
        path = [self.as_number] + self.choose.sample(range(64512, 64600), self.choose.randrange(4))
        metric = self.choose.choice((0, 10)) if self.choose.random() < 0.05 else None
        return update(self.route(path, metric), self.prefixes(), self.prefixes(2) if self.choose.random() < 0.2 else ())


# What a hostile remote says: each function gives pieces, which are said one after another, in one group or in several.


def marker(remote):
    octets = bytearray(remote.sound())
    octets[remote.choose.randrange(16)] ^= 1 << remote.choose.randrange(8)
    return [bytes(octets)]


def length_out_of_range(remote):
    length = remote.choose.choice((0, 1, 18, 4097, 8192, 32768, 65535))
    return [message(remote.choose.randint(1, 4), bytes(remote.choose.randrange(60)), length)]


def length_of_kind(remote):
    kind, length = remote.choose.choice(((OPEN, 28), (OPEN, 19), (UPDATE, 22), (UPDATE, 19), (NOTIFICATION, 20), (KEEPALIVE, 20), (KEEPALIVE, 4096)))
    return [message(kind, bytes(length - 19))]


def strange_type(remote):
    return [message(remote.choose.choice((0, 5, 6, 128, 255)), bytes(remote.choose.randrange(40)))]


def cut(remote):
    octets = remote.sound() + remote.sound()
    return [octets[: remote.choose.randrange(1, len(octets))]]


def cut_and_more(remote):
    return cut(remote) + [remote.sound() for _ in range(remote.choose.randint(1, 4))]


def joined(remote):
    octets = b"".join(remote.sound() for _ in range(remote.choose.randint(2, 6)))
    places = sorted(remote.choose.sample(range(1, len(octets)), remote.choose.randint(1, 5)))
    return [octets[begin:end] for begin, end in zip([0, *places], [*places, len(octets)])]


def flipped(remote):
    octets = bytearray(b"".join(remote.sound() for _ in range(remote.choose.randint(1, 3))))
    for _ in range(remote.choose.choice((1, 1, 1, 2, 8))):
        octets[remote.choose.randrange(len(octets))] ^= 1 << remote.choose.randrange(8)
    return [bytes(octets)]


def flipped_body(remote):
    octets = bytearray(update(remote.route([remote.as_number, 64512], 5, attribute(0xC0, 8, b"\xfd\xe9\0\x64")), remote.prefixes()))
    for _ in range(remote.choose.choice((1, 1, 2))):
        octets[remote.choose.randrange(19, len(octets))] ^= 1 << remote.choose.randrange(8)
    return [bytes(octets)]


def notification(remote):
    body = bytes([remote.choose.randrange(256), remote.choose.randrange(256)]) + remote.choose.randbytes(remote.choose.choice((0, 0, 2, 300, 4075)))
    behind = remote.choose.choice((b"", remote.sound(), remote.open(), remote.choose.randbytes(50), message(NOTIFICATION, b"\6\2")))
    return [message(NOTIFICATION, body) + behind]


def second_open(remote):
    return [remote.open(), remote.sound()]


def random_octets(remote):
    return [remote.choose.randbytes(remote.choose.choice((1, 18, 19, 20, 400, 4096)))]


def zeros(remote):
    return [bytes(remote.choose.choice((18, 19, 4096)))]


def unending(remote):
    """An UPDATE of 4,096 octets whose end doesn't come, or comes with another message's first octets."""
    whole = update(remote.route(more=attribute(0xC0, 99, bytes(3900))), remote.prefixes())
    octets = message(UPDATE, whole[19:], 4096)
    return remote.choose.choice(([octets[:4000]], [octets[:2000], octets[2000:]], [octets, remote.sound(), remote.sound() * 4]))


def endless(remote):
    """UPDATEs of 4,000 octets, one behind another, far more than a window holds."""
    count = remote.choose.choice((8, 20, 64))
    return [update(remote.route(more=attribute(0xC0, 99, bytes(3900))), remote.prefixes(2)) for _ in range(count)]


def full_update(remote):
    """An UPDATE with as many prefixes, or as many attributes, as one holds."""
    if remote.choose.random() < 0.5:
        return [update(remote.route(), [(place << 8, 24) for place in range(1000)])]
    kinds = [kind for kind in range(8, 256) if kind not in (17, 18)]
    return [update(remote.route(more=b"".join(attribute(0xC0, kind, bytes(kind % 5)) for kind in kinds)), remote.prefixes())]


def faulty_update(remote):
    """An UPDATE with a fault that RFC 4271, section 6.3, names."""
    path = attribute(0x40, 2, b"\2\1\xfd\xe9" if not remote.offers else b"\2\1\0\0\xfd\xe9")
    origin, near = attribute(0x40, 1, b"\0"), attribute(0x40, 3, remote.identifier())
    sound = remote.route()
    attributes = remote.choose.choice(
        [
            path + near,
            origin + near,
            origin + path,
            attribute(0x40, 1, b"\3") + path + near,
            attribute(0xC0, 1, b"\0") + path + near,
            attribute(0x40, 1, b"\0\0") + path + near,
            origin + path + attribute(0x40, 3, b"\xe0\0\0\1"),
            origin + path + attribute(0x40, 3, bytes(4)),
            origin + attribute(0x40, 2, b"\3\1\xfd\xe9\0\0") + near,
            origin + attribute(0x40, 2, b"\2\0") + near,
            origin + attribute(0x40, 2, b"\2\x09\xfd\xe9") + near,
            sound + origin,
            sound + attribute(0x40, 6, b"\0"),
            sound + attribute(0xC0, 7, bytes(5)),
            sound + attribute(0x40, 99, b"\0"),
            sound + b"\xc0\x63\xff",
            sound + b"\xc0",
        ]
    )
    return [update(attributes, remote.prefixes())]


def faulty_fields(remote):
    """An UPDATE whose fields don't fit, or with a prefix that is none."""
    sound = remote.route()
    bodies = (
        b"\xff\xff" + bytes(10),
        b"\0\0\xff\xff" + sound,
        b"\0\1\x21" + b"\0\0",
        b"\0\2\x18\x0a" + b"\0\0",
        b"\0\0" + struct.pack(">H", len(sound)) + sound + b"\x21\0\0\0\0\0",
        b"\0\0" + struct.pack(">H", len(sound)) + sound + b"\x18\x0a",
        b"\0\3\0\0\0",
    )
    return [message(UPDATE, remote.choose.choice(bodies))]


def sound_end(remote):
    """No fault at all."""
    return [remote.sound() for _ in range(remote.choose.randint(1, 4))]


FAULTS = (
    [marker, length_out_of_range, length_of_kind, strange_type, cut, cut_and_more, joined, joined, flipped, flipped, flipped_body, flipped_body]
    + [notification, notification, second_open, random_octets, zeros, unending, full_update, faulty_update, faulty_update, faulty_fields, sound_end]
)


# What a hostile remote opens with. None is the default.


def every_capability(remote):
    """An OPEN with many capabilities, of any codes and lengths."""
    begin = remote.choose.randrange(256)
    together = b""
    for code in [*range(begin, 256), *range(begin)]:
        value = remote.choose.randbytes(remote.choose.choice((0, 0, 1, 4, 5)))
        if code == 65:
            value = struct.pack(">I", remote.as_number)
        if len(together) + 2 + len(value) > 240:
            break
        together += capability(code, value)
    own = capability(65, struct.pack(">I", remote.as_number)) if remote.offers and begin != 65 else b""
    return remote.open(parameters=parameter(own + together)) + message(KEEPALIVE)


def capability_parameters(remote):
    """An OPEN with each capability in a parameter of its own."""
    codes = remote.choose.sample([code for code in range(256) if code != 65], 30)
    own = parameter(capability(65, struct.pack(">I", remote.as_number))) if remote.offers else b""
    return remote.open(parameters=own + b"".join(parameter(capability(code, bytes(code % 4))) for code in codes)) + message(KEEPALIVE)


def faulty_open(remote):
    """An OPEN with a fault that RFC 4271, section 6.2, names, and more behind it."""
    octets = remote.choose.choice(
        [
            remote.open(version=3),
            remote.open(as_number=remote.as_number + 9, parameters=b""),
            remote.open(hold=1),
            remote.open(hold=2),
            remote.open(identifier=bytes(4)),
            remote.open(identifier=b"\xe0\0\0\1"),
            remote.open(told=77),
            remote.open(parameters=b"\2\x09\1\0"),
            remote.open(parameters=parameter(b"\1\x09\0")),
            remote.open(parameters=parameter(b"\0", 1)),
            remote.open(parameters=b"\2"),
        ]
    )
    return octets + message(KEEPALIVE) + remote.sound()


def strange_opening(remote):
    """An opening whose messages aren't those that are due."""
    return remote.choose.choice(
        [
            b"",
            remote.open(),
            remote.open()[:20],
            message(KEEPALIVE),
            remote.sound(),
            message(NOTIFICATION, b"\6\3"),
            remote.open() + remote.sound(),
            remote.open() + remote.open(),
            remote.open() + message(KEEPALIVE) + remote.sound() + remote.sound(),
            remote.choose.randbytes(60),
        ]
    )


def flipped_opening(remote):
    octets = bytearray(remote.open() + message(KEEPALIVE))
    octets[remote.choose.randrange(len(octets))] ^= 1 << remote.choose.randrange(8)
    return bytes(octets)


OPENINGS = (every_capability, every_capability, capability_parameters, faulty_open, faulty_open, strange_opening, flipped_opening)


def default_opening(remote):
    return remote.open() + message(KEEPALIVE)
