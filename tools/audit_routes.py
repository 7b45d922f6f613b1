"""Messages and routes for a replay of journals, written from RFC 4271, RFC 5492, RFC 6793 and the documents alone: what an UPDATE
tells, how many octets a message that is put has, what policies make of a route, and which of several routes is chosen.

It stands on bgp_reader.py and bgp_choice.py, and adds what these leave out: all attributes, the merge of AS4_PATH and
AS4_AGGREGATOR, the octets of NOTIFICATIONs, policies, preferences and interior costs.
"""
import collections
import struct

from bgp_choice import path_length
from bgp_reader import AGGREGATOR, AS4_AGGREGATOR, AS4_PATH, AS_PATH, AS_TRANS, ATOMIC_AGGREGATE, EXTENDED, FLAGS, Fault, LOCAL_PREF, MED
from bgp_reader import MARKER, NEXT_HOP, OPTIONAL, ORIGIN, SEQUENCE, TRANSITIVE, neighbour, read_path, read_prefixes, test_known

PARTIAL = 0x20
PREFERENCE = 100
ROOM_OF_PART = 255
LONGEST = 4096
NOTIFICATION_HEAD, UPDATE_HEAD = 21, 23
# How many octets the data of a NOTIFICATION has by its code and subcode; it has none for others, or those of an attribute.
DATA = {(1, 2): 2, (1, 3): 1, (2, 1): 2, (3, 3): 1}

# What an UPDATE tells of its prefixes; an aggregator is an AS, an address and whether it is partial, and an unknown attribute its type,
# whether it is partial, and its value.
Attributes = collections.namedtuple("Attributes", "origin path next_hop med atomic aggregator unknown")
Route = collections.namedtuple("Route", "attributes pref")
Rule = collections.namedtuple("Rule", "address length ge le has_as origin deny pref med prepend")
# A route that a router may choose. Its source is OWN, the number of a peering, or ROUTERS and the number of a router.
Candidate = collections.namedtuple("Candidate", "own pref length origin neighbour med external cost identifier address source route")
OWN, ROUTERS = -1, 1000


class AttributeFault(Fault):
    """A fault whose NOTIFICATION has the attribute, of this many octets, as data."""

    def __init__(self, code, subcode, octets):
        super().__init__(code, subcode)
        self.octets = octets


def notice_octets(fault):
    """The octets of the NOTIFICATION that answers a fault."""
    return NOTIFICATION_HEAD + getattr(fault, "octets", DATA.get(fault.args[:2], 0))


# ---- reading


def found_attributes(octets, wide):
    """The attributes of a field, by type: flags and value."""
    found, at = {}, 0
    while at < len(octets):
        head = 4 if octets[at] & EXTENDED else 3
        if at + head > len(octets):
            raise Fault(3, 1)
        end = at + head + int.from_bytes(octets[at + 2 : at + head], "big")
        flags, kind = octets[at], octets[at + 1]
        if end > len(octets) or kind in found:
            raise Fault(3, 1)
        value = octets[at + head : end]
        found[kind] = flags, value
        if kind in FLAGS:
            test_with_data(kind, flags, value, wide, end - at)
        elif kind != LOCAL_PREF and not flags & OPTIONAL:
            raise AttributeFault(3, 2, end - at)
        at = end
    return found


def test_with_data(kind, flags, value, wide, octets):
    """Tests an attribute of a known type; the answer to a fault other than a malformed path has the whole attribute."""
    try:
        test_known(kind, flags, value, wide)
    except Fault as fault:
        raise (fault if fault.args == (3, 11) else AttributeFault(*fault.args, octets)) from None


def transitive(found, kind):
    """The value of an attribute that is there and transitive."""
    flags, value = found.get(kind, (0, None))
    return value if flags & TRANSITIVE else None


def as4_path(found):
    """The path of a sound AS4_PATH, if there is one."""
    value = transitive(found, AS4_PATH)
    try:
        return read_path(value, True) if value else None
    except Fault:
        return None


def first_ases(path, count):
    """The first so many ASes of a path, in which a set counts as one."""
    parts = []
    for kind, ases in path:
        if count <= 0:
            break
        parts.append((kind, ases[:count] if kind == SEQUENCE else ases))
        count -= len(ases) if kind == SEQUENCE else 1
    return parts


def merged(path, newer):
    """The path of a narrow UPDATE with this AS4_PATH."""
    missing = path_length(path) - path_length(newer)
    if missing < 0:
        return path
    front, behind = first_ases(path, missing), list(newer)
    if front and front[-1][0] == behind[0][0] == SEQUENCE and len(front[-1][1]) + len(behind[0][1]) <= ROOM_OF_PART:
        behind[0] = SEQUENCE, front.pop()[1] + behind[0][1]
    return tuple(front + behind)


def aggregator_of(found, wide):
    """The aggregator that the attributes name, and whether AS4_PATH counts beside it."""
    if AGGREGATOR not in found:
        return None, True
    flags, value = found[AGGREGATOR]
    partial = bool(flags & PARTIAL)
    number, address = struct.unpack(">II" if wide else ">HI", value)
    newer = transitive(found, AS4_AGGREGATOR)
    if wide or newer is None or len(newer) != 8:
        return (number, address, partial), True
    if number != AS_TRANS:
        return (number, address, partial), False
    return (*struct.unpack(">II", newer), partial), True


def unknown_of(found):
    """What passes on of the attributes of unknown types, by rising type."""
    known = {*FLAGS, LOCAL_PREF, AS4_PATH, AS4_AGGREGATOR}
    return tuple((kind, bool(flags & PARTIAL), value) for kind, (flags, value) in sorted(found.items()) if kind not in known and flags & TRANSITIVE)


def attributes_of(found, wide):
    """What an UPDATE that announces prefixes tells of them."""
    aggregator, counts = aggregator_of(found, wide)
    path = read_path(found[AS_PATH][1], wide)
    newer = as4_path(found) if counts and not wide else None
    med = int.from_bytes(found[MED][1], "big") if MED in found else None
    next_hop = int.from_bytes(found[NEXT_HOP][1], "big")
    origin = found[ORIGIN][1][0]
    return Attributes(origin, merged(path, newer) if newer else path, next_hop, med, ATOMIC_AGGREGATE in found, aggregator, unknown_of(found))


def read_update(body, wide):
    """What an UPDATE withdraws, the attributes of what it announces, and what it announces."""
    at = 2 + int.from_bytes(body[:2], "big")
    if at + 2 > len(body):
        raise Fault(3, 1)
    end = at + 2 + int.from_bytes(body[at : at + 2], "big")
    if end > len(body):
        raise Fault(3, 1)
    gone = read_prefixes(body[2:at])
    found = found_attributes(body[at + 2 : end], wide)
    if end < len(body) and not {ORIGIN, AS_PATH, NEXT_HOP} <= found.keys():
        raise Fault(3, 3)
    announced = read_prefixes(body[end:])
    return gone, attributes_of(found, wide) if announced else None, announced


# ---- octets of what is put and said


def prefix_octets(prefix):
    return 1 + (prefix[1] + 7) // 8


def attribute_octets(size):
    """The octets of an attribute whose value has this size."""
    return size + (3 if size <= 255 else 4)


def path_octets(path, size):
    return sum(2 + size * len(ases) for _, ases in path)


def attributes_octets(attributes, wide):
    """The octets of the attributes of an UPDATE, as they are written."""
    large = not wide and any(number > 65535 for _, ases in attributes.path for number in ases)
    octets = 4 + attribute_octets(path_octets(attributes.path, 4 if wide else 2)) + 7
    octets += attribute_octets(path_octets(attributes.path, 4)) if large else 0
    octets += 0 if attributes.med is None else 7
    octets += 3 if attributes.atomic else 0
    if attributes.aggregator:
        octets += 11 if wide else 9
        octets += 11 if not wide and attributes.aggregator[0] > 65535 else 0
    return octets + sum(attribute_octets(len(value)) for _, _, value in attributes.unknown)


def update_octets(attributes, prefixes, wide):
    """The octets of an UPDATE that announces prefixes with attributes, or withdraws them where there are none."""
    return UPDATE_HEAD + (attributes_octets(attributes, wide) if attributes else 0) + sum(map(prefix_octets, prefixes))


def message(kind, body=b""):
    return MARKER + struct.pack(">HB", 19 + len(body), kind) + body


def attribute(flags, kind, value):
    """An attribute as it is written."""
    if len(value) > 255:
        return struct.pack(">BBH", flags | EXTENDED, kind, len(value)) + value
    return struct.pack(">BBB", flags, kind, len(value)) + value


def written_path(path, size):
    return b"".join(bytes([kind, len(ases)]) + b"".join(min_as(number, size) for number in ases) for kind, ases in path)


def min_as(number, size):
    """An AS number in so many octets."""
    return (number if number < 1 << 8 * size else AS_TRANS).to_bytes(size, "big")


def written_prefix(prefix):
    return bytes([prefix[1]]) + prefix[0].to_bytes(4, "big")[: (prefix[1] + 7) // 8]


def said_update(gone, attributes, announced, wide):
    """The octets of an UPDATE of a remote, whose attributes have no aggregator and none of unknown types."""
    field = b""
    if attributes:
        field = attribute(0x40, ORIGIN, bytes([attributes.origin])) + attribute(0x40, AS_PATH, written_path(attributes.path, 4 if wide else 2))
        field += attribute(0x40, NEXT_HOP, attributes.next_hop.to_bytes(4, "big"))
        field += b"" if attributes.med is None else attribute(0x80, MED, attributes.med.to_bytes(4, "big"))
        if not wide and any(number > 65535 for _, ases in attributes.path for number in ases):
            field += attribute(0xC0, AS4_PATH, written_path(attributes.path, 4))
    withdrawn = b"".join(map(written_prefix, gone))
    body = struct.pack(">H", len(withdrawn)) + withdrawn + struct.pack(">H", len(field)) + field
    return message(2, body + b"".join(map(written_prefix, announced)))


# ---- policies, choice and telling


def holds(path, number):
    """Whether an AS stands in a path."""
    return any(number in ases for _, ases in path)


def matches(rule, prefix, attributes):
    """Whether a route is one of those that a rule is about."""
    if rule.length is not None:
        address, length = prefix
        if length < rule.length or (address ^ rule.address) >> (32 - rule.length) or not rule.ge <= length <= rule.le:
            return False
    if rule.has_as is not None and not holds(attributes.path, rule.has_as):
        return False
    return rule.origin is None or rule.origin == attributes.origin


def first_match(policy, prefix, attributes):
    """The first rule of a policy that matches a route, if there is a policy and one does."""
    return next((rule for rule in policy or () if matches(rule, prefix, attributes)), None)


def prepended(path, number, times):
    """A path with an AS in front, so many times."""
    for _ in range(times):
        if path and path[0][0] == SEQUENCE and len(path[0][1]) < ROOM_OF_PART:
            path = ((SEQUENCE, (number, *path[0][1])), *path[1:])
        else:
            path = ((SEQUENCE, (number,)), *path)
    return path


def imported(policy, prefix, attributes, remote_as, home_as):
    """The route that comes of what is heard, or none: by a path with the home AS, or where the policy refuses it."""
    if holds(attributes.path, home_as):
        return None
    rule = first_match(policy, prefix, attributes)
    if rule is None:
        return Route(attributes, PREFERENCE)
    if rule.deny:
        return None
    med = attributes.med if rule.med is None else rule.med
    changed = attributes._replace(path=prepended(attributes.path, remote_as, rule.prepend), med=med)
    return Route(changed, PREFERENCE if rule.pref is None else rule.pref)


def exported(policy, prefix, attributes, peering, home_as):
    """The attributes that are told on a peering of a best route that came from elsewhere, or none."""
    if holds(attributes.path, peering.remote_as):
        return None
    rule = first_match(policy, prefix, attributes)
    if rule is not None and rule.deny:
        return None
    times, med = (1, None) if rule is None else (1 + rule.prepend, rule.med)
    unknown = tuple((kind, True, value) for kind, _, value in attributes.unknown)
    told = attributes._replace(path=prepended(attributes.path, home_as, times), next_hop=peering.local_address, med=med, unknown=unknown)
    return None if max(update_octets(told, [prefix], wide) for wide in (False, True)) > LONGEST else told


def candidate(source, route, home_as, external, cost, identifier, address):
    """A route as a candidate."""
    attributes = route.attributes
    near = neighbour(attributes.path, home_as)
    measures = path_length(attributes.path), attributes.origin, near, attributes.med or 0
    return Candidate(source == OWN, route.pref, *measures, external, cost, identifier, address, source, route)


def least(candidates, key):
    lowest = min(map(key, candidates))
    return [it for it in candidates if key(it) == lowest]


def least_med(candidates):
    """Those for which no other one of the same neighbour AS has a lower MED."""
    lowest = {}
    for it in candidates:
        lowest[it.neighbour] = min(it.med, lowest.get(it.neighbour, it.med))
    return [it for it in candidates if it.med == lowest[it.neighbour]]


RULES = (
    lambda left: least(left, lambda it: not it.own),
    lambda left: least(left, lambda it: -it.pref),
    lambda left: least(left, lambda it: it.length),
    lambda left: least(left, lambda it: it.origin),
    least_med,
    lambda left: least(left, lambda it: not it.external),
    lambda left: least(left, lambda it: it.cost),
    lambda left: least(left, lambda it: it.identifier),
    lambda left: least(left, lambda it: it.address),
)


def choice(candidates):
    """The candidate that is chosen: each rule is applied to all that the rules before it left. They stand in the order of their sources."""
    for rule in RULES:
        if len(candidates) == 1:
            break
        candidates = rule(candidates)
    return candidates[0]
