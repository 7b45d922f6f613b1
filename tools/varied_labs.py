#!/usr/bin/env python3
"""Writes a laboratory in which any key of an input may stand: the seed decides which, and their values.

    varied_labs.py SEED

It has up to 6 routers, some with little room, policies with all kinds of rules, some of them missing at some routers, own networks and
costs; up to 8 peerings with AS numbers of two and four octets, offered or not, hold times, timers, sequence numbers that wrap, and openings
of their own; links that lose, repeat, hold back and stray; and two to four groups of announcements, withdrawals, raw UPDATEs with every
attribute, faults among them, and grafts or a step that empties a router. All of them are accepted by graftlab check.
"""
import random
import struct
import sys

from hostile_says import attribute, capability, message, parameter, prefix_octets

HOME_AS = 65000
POLICIES = ("in", "out", "both")
NUMBERS = (1, 23456, 64999, 65001, 65002, 65003, 65535, 65536, 70000, 70001, 4294967295)
PREFIXES = [f"10.{place}.0.0/{length}" for place in range(6) for length in (15, 16, 20)] + ["0.0.0.0/0", "198.51.100.7/32", "10.0.0.0/8"]

# No two of them are the same once the bits past their lengths are cleared.
NETWORKS = [prefix for prefix in PREFIXES if not prefix.endswith("/15")]


def table(kind, /, **values):
    """A table; a key with an underscore at its end is the word without it, and one without a value isn't there."""
    text = {str: '"{}"'.format, bool: lambda it: str(it).lower(), int: str, list: lambda it: "[" + ", ".join(text[type(x)](x) for x in it) + "]"}
    return "\n".join([f"[[{kind}]]"] + [f"{key.rstrip('_')} = {text[type(value)](value)}" for key, value in values.items() if value is not None]) + "\n"


class Varied:
    """A laboratory that a seed makes."""

    def __init__(self, seed):
        self.choose = random.Random(seed)
        self.routers = "abcdef"[: self.choose.randint(1, 6)]
        self.count = self.choose.randint(0 if self.rarely(0.05) else 1, 8)
        self.starts = [self.choose.choice(self.routers) for _ in range(self.count)]
        self.has_policy = {router: [name for name in POLICIES if not self.rarely(0.15)] for router in self.routers}
        self.peerings = [self.peering(number) for number in range(self.count)]

    def rarely(self, part):
        return self.choose.random() < part

    def maybe(self, value, part=0.5):
        """The value, or none."""
        return value if self.choose.random() < part else None

    def rule(self):
        choose, prefix = self.choose, self.maybe(self.choose.choice(PREFIXES))
        length = int(prefix.split("/")[1]) if prefix else 0
        return table(
            "router.policy.rule",
            prefix=prefix,
            ge=self.maybe(choose.randint(length, 32), 0.3) if prefix else None,
            le=self.maybe(choose.randint(length, 32), 0.3) if prefix else None,
            has_as=self.maybe(choose.choice(NUMBERS), 0.3),
            origin=self.maybe(choose.choice(["igp", "egp", "incomplete"]), 0.3),
            deny=self.maybe(True, 0.15),
            pref=self.maybe(choose.choice([50, 100, 200]), 0.4),
            med=self.maybe(choose.choice([0, 5, 4294967295]), 0.4),
            prepend=self.maybe(choose.randint(0, 8), 0.4),
        )

    def router(self, name):
        held = self.starts.count(name)
        room = held + self.choose.choice([0, 0, 1, 2]) if self.rarely(0.4) else 32
        networks = self.maybe(self.choose.sample(NETWORKS, self.choose.randint(1, 3)), 0.3)
        text = table("router", name=name, id=f"10.255.0.{'abcdef'.index(name) + 1}", sessions=room, networks=networks)
        for policy in self.has_policy[name]:
            text += table("router.policy", name=policy) + "".join(self.rule() for _ in range(self.choose.choice([0, 1, 2, 5])))
        return text

    def peering(self, number):
        choose, at = self.choose, self.starts[number]
        as_number = choose.choice([65001, 65002, 65003, 70000, 70001, 23456])
        values = {"name": f"p{number}", "at": at, "remote_as": as_number}
        values.update(remote_address=f"192.0.2.{4 * number + 1}", local_address=f"192.0.2.{4 * number + 2}")
        values["remote_id"] = self.maybe(f"198.51.100.{choose.randint(1, 9)}", 0.3)
        values["import_"] = self.maybe(choose.choice(self.has_policy[at]), 0.6) if self.has_policy[at] else None
        values["export"] = self.maybe(choose.choice(self.has_policy[at]), 0.6) if self.has_policy[at] else None
        values["home_seq"] = self.maybe(choose.choice([0, 4294967290, 2147483640]))
        values["remote_seq"] = self.maybe(choose.choice([0, 4294967290, 2147483640]))
        values["hold"] = self.maybe(choose.choice([0, 3, 9, 29, 30, 90]), 0.4)
        values["as4"] = self.maybe(True, 0.4)
        values["remote_as4"] = self.maybe(choose.choice([True, False]), 0.3)
        values["home_hold"] = self.maybe(choose.choice([0, 9, 29, 30, 100]), 0.3)
        values["beats"] = self.maybe(False, 0.2)
        values["unicast"] = self.maybe(True, 0.3)
        values["opening"] = self.maybe(self.opening(number, as_number, values).hex(), 0.1)
        return values

    def opening(self, number, as_number, values):
        """An OPEN with further capabilities, or with another AS, or none; and mostly a KEEPALIVE."""
        choose = self.choose
        told = [capability(choose.randrange(1, 130), bytes(choose.randrange(4))) for _ in range(choose.randrange(3))]
        told += [capability(65, struct.pack(">I", choose.choice([as_number, as_number, 65009])))] if choose.random() < 0.7 else []
        field = choose.choice([as_number if as_number < 65536 else 23456, 23456])
        parameters = b"".join(map(parameter, told)) if self.rarely(0.5) else parameter(b"".join(told))
        body = struct.pack(">BHH", 4, field, values["hold"] or 180) + bytes([192, 0, 2, 4 * number + 1, len(parameters)]) + parameters
        return message(1, body) + choose.choice([message(4), message(4), b""])

    def path(self, number):
        ases = [self.peerings[number]["remote_as"]] if not self.rarely(0.1) else []
        return ases + [self.choose.choice(NUMBERS + (HOME_AS,) * self.rarely(0.1)) for _ in range(self.choose.randrange(4))]

    def parts(self, size):
        """The parts of a path of a raw UPDATE."""
        octets = b""
        for _ in range(self.choose.choice([0, 1, 1, 1, 2, 3])):
            ases = [self.choose.choice(NUMBERS) for _ in range(self.choose.choice([1, 1, 2, 3, 20, 255 if self.rarely(0.1) else 4]))]
            octets += bytes([self.choose.choice([2, 2, 2, 1]), len(ases)])
            octets += b"".join(min(number, 23456 if size == 2 and number > 65535 else number).to_bytes(size, "big") for number in ases)
        return octets

    def raw(self, number):
        """A raw UPDATE with any attributes, mostly sound ones."""
        choose, values = self.choose, self.peerings[number]
        wide = bool(values["as4"] and (values["remote_as4"] is not False or values["opening"])) ^ self.rarely(0.03)
        size = 4 if wide else 2
        fields = [attribute(0x40, 1, bytes([choose.randrange(3)])), attribute(0x40, 2, self.parts(size)), attribute(0x40, 3, bytes([192, 0, 2, 200]))]
        more = [
            attribute(0x80, 4, struct.pack(">I", choose.randrange(3))),
            attribute(0x40, 5, struct.pack(">I", 500)),
            attribute(0x40, 6, b""),
            attribute(choose.choice([0xC0, 0xE0]), 7, choose.choice(NUMBERS[:7] if size == 2 else NUMBERS).to_bytes(size, "big") + bytes([192, 0, 2, 201])),
            attribute(choose.choice([0xC0, 0xE0, 0x80]), 17, self.parts(4)),
            attribute(choose.choice([0xC0, 0xC0, 0x80]), 18, choose.choice(NUMBERS).to_bytes(4, "big") + bytes([192, 0, 2, 202])),
            attribute(choose.choice([0xC0, 0xE0]), 8, bytes(4 * choose.randrange(80))),
            attribute(0x80, 99, b"gone"),
            attribute(0xC0, 200, bytes(choose.choice([1, 255, 256, 3700]))),
        ]
        fields += choose.sample(more, choose.choice([0, 1, 2, 3, 4]))
        if self.rarely(0.04):
            fields.append(choose.choice([attribute(0x40, 150, b"x"), fields[0], b"\x40", attribute(0xC0, 3, bytes(4)), attribute(0x40, 1, b"\3")]))
        if self.rarely(0.5):
            choose.shuffle(fields)
        octets = b"".join(fields)
        announced, gone = prefix_octets(self.numbers(4)), prefix_octets(self.numbers(1)) if self.rarely(0.2) else b""
        return message(2, struct.pack(">H", len(gone)) + gone + struct.pack(">H", len(octets)) + octets + announced)

    def numbers(self, most):
        """Some prefixes as numbers."""
        chosen = self.choose.sample(PREFIXES, self.choose.randint(1, most))
        return [(int.from_bytes(bytes(map(int, text.split("/")[0].split("."))), "big"), int(text.split("/")[1])) for text in chosen]

    def say(self):
        choose, number = self.choose, self.choose.randrange(self.count)
        prefixes = choose.sample(PREFIXES, choose.randint(1, 5))
        kind = choose.random()
        if kind < 0.2:
            return table("step", do="withdraw", peering=f"p{number}", prefixes=prefixes)
        if kind < 0.45 and self.peerings[number]["beats"] is not True:
            octets = self.raw(number)
            cut = choose.randrange(1, len(octets)) if self.rarely(0.2) else len(octets)
            parts = [octets[:cut], octets[cut:]] if cut < len(octets) else [octets]
            return "\n".join(table("step", do="raw", peering=f"p{number}", hex=part.hex()) for part in parts if len(part) <= 4096)
        origin = self.maybe(choose.choice(["igp", "egp", "incomplete"]), 0.3)
        values = {"path": self.maybe(self.path(number), 0.8), "origin": origin, "med": self.maybe(choose.choice([0, 5, 10]), 0.4)}
        return table("step", do="announce", peering=f"p{number}", prefixes=prefixes, **values, next_hop=self.maybe("203.0.113.9", 0.2))

    def group(self, number):
        """The steps of a group."""
        choose = self.choose
        steps = [self.say() for _ in range(choose.randint(1, 8))] if self.count else []
        if self.count and (number or self.rarely(0.3)):
            if self.rarely(0.35):
                steps.append(table("step", do="evacuate", router=choose.choice(self.routers)))
            else:
                steps += [table("step", do="graft", peering=f"p{choose.randrange(self.count)}", to=choose.choice(self.routers))
                          for _ in range(choose.randint(1, 5))]
        choose.shuffle(steps)
        rounds = self.maybe(choose.randint(5, 40), 0.05)
        return steps + [table("step", do="settle", rounds=rounds, least=self.maybe(choose.randint(1, rounds or 60), 0.3))]

    def text(self):
        """The input."""
        choose = self.choose
        parts = [f"home_as = {HOME_AS}\n"] + [self.router(name) for name in self.routers]
        parts += [table("cost", from_=one, to=other, cost=choose.randint(0, 9)) for one in self.routers for other in self.routers
                  if one != other and self.rarely(0.3)]
        parts += [table("peering", **values) for values in self.peerings]
        faults = {(choose.randrange(self.count), choose.choice(["home", "remote"]), choose.randint(1, 15)) for _ in range(choose.randrange(15))} \
            if self.count else ()
        for number, way, segment in sorted(faults):
            kind = choose.choice(["lose", "repeat", "hold"] + ["stray"] * (way == "home"))
            after = None if kind == "lose" else choose.randint(1, 6)
            parts.append(table("fault", peering=f"p{number}", way=way, segment=segment, kind=kind, after=after))
        for number in range(choose.randint(2, 4)):
            parts += self.group(number)
        return "\n".join(parts)


def main():
    if len(sys.argv) != 2 or not sys.argv[1].isdigit():
        sys.exit(__doc__)
    sys.stdout.write(Varied(int(sys.argv[1])).text())


if __name__ == "__main__":
    main()
