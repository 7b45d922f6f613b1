#!/usr/bin/env python3
"""Says to real daemons what a home session of a laboratory says, octet by octet, and compares their tables with what `show` says was told.

    tools/say_to_daemons.py [--only NAME,..] PROGRAM

It must be run as root on Linux, with Debian's packages bird2, frr, gobgpd, exabgp, openbgpd, tcpdump and iproute2. For each daemon, wide and
narrow, with hold times of 90 seconds and, but for GoBGP, of none, it makes a laboratory in which the daemon is the remote of a peering that is
moved once to another router and back, while three other remotes announce and withdraw routes, some of them by raw UPDATEs with communities,
sets and unknown attributes. `capture` of it has what the home side says to the daemon. A speaker opens a session with the daemon, running in a
network namespace, and says just these octets: first the OPEN; the KEEPALIVE, once the daemon's OPEN has come; then the rest, in pieces.

Compared are the octets that were said with those of the capture, and the routes that the daemon then has of the home side, by its own tool (of
ExaBGP: by the UPDATEs that it gives to a process), with what `show --json` says was told: all prefixes, AS paths, origins and MEDs. A line for
each case tells whether the session came up and stayed, how many octets and routes there were, and how many differ; the status is 1 where one does.
"""
import argparse
import contextlib
import json
import os
import signal
import sys
import tempfile
import time

import captures
import daemons
import import_again
from daemon_routes import Speaker, path_octets
from daemons import HOME, HOME_AS, REMOTE, Slow, until
from hostile_says import attribute, update
from import_daemons import ask, plain
from record_daemons import Play

LOCAL = bytes(map(int, HOME.split(".")))
POLICY = """
[[router.policy]]
name = "out"

[[router.policy.rule]]
prefix = "10.1.0.0/16"
le = 32
med = 70

[[router.policy.rule]]
prefix = "10.2.0.0/16"
le = 32
med = 4294967295
prepend = 3

[[router.policy.rule]]
prefix = "10.3.0.0/24"
deny = true
"""


def router(name, number):
    return f'[[router]]\nname = "{name}"\nid = "10.255.0.{number}"\nsessions = 8\nnetworks = ["198.51.{number}.0/24"]\n{POLICY}\n'


def peering(name, at, as_number, address, local, more=""):
    return (f'[[peering]]\nname = "{name}"\nat = "{at}"\nremote_as = {as_number}\nremote_address = "{address}"\nlocal_address = "{local}"\n{more}\n')


def step(do, name, **values):
    keys = "".join(f"{key} = {json.dumps(value)}\n" for key, value in values.items())
    return f'[[step]]\ndo = "{do}"\n' + (f'peering = "{name}"\n' if name else "") + keys + "\n"


def raw_update(as_number, first, size, path, more=b"", origin=0):
    """An UPDATE with attributes that no announce step has."""
    values = [(0x40, 1, bytes([origin])), (0x40, 2, path_octets([as_number, *path], size)), (0x40, 3, bytes([203, 0, 113, 1]))]
    octets = b"".join(attribute(*it) for it in values) + more
    return update(octets, [(first + (n << 8), 24) for n in range(8)]).hex()


def laboratory(as_number, wide, hold):
    """A laboratory in which the daemon is the remote of the peering `d`."""
    flags = f'hold = {hold}\nhome_hold = {hold}\nunicast = true\nas4 = {str(wide).lower()}\nexport = "out"\n'
    text = f"home_as = {HOME_AS}\n\n" + router("a", 1) + router("b", 2) + peering("d", "a", as_number, REMOTE, HOME, flags)
    for number in range(3):
        text += peering(f"c{number}", "ab"[number % 2], 65101 + number, f"203.0.113.{4 * number + 1}", f"203.0.113.{4 * number + 2}")
    say = lambda n, block, count, **values: step("announce", f"c{n}", prefixes=[f"10.{block}.{k}.0/24" for k in range(count)], **values)
    settle = step("settle", None)
    communities = attribute(0xC0, 8, b"\xfd\xe9\0\1\xff\xff\xff\x01"[:4] * 3) + attribute(0xC0, 32, bytes(11) + b"\7") + attribute(0xE0, 99, b"unknown")
    text += say(0, 1, 60) + say(1, 2, 60, path=[65102, 64999, 64998], origin="egp") + say(2, 3, 3, path=[65103, *range(64600, 64640)])
    text += settle + step("graft", "d", to="b") + say(0, 4, 40, origin="incomplete", path=[65101, 4200000900, 64999])
    text += step("raw", "c1", hex=raw_update(65102, 10 << 24 | 5 << 16, 2, [64999, [64501, 64502, 64503]], communities))
    text += settle + step("withdraw", "c0", prefixes=[f"10.1.{k}.0/24" for k in range(10)]) + say(1, 1, 30, path=[65102, 64512], origin="incomplete")
    text += step("graft", "d", to="a") + step("raw", "c2", hex=raw_update(65103, 10 << 24 | 6 << 16, 2, [], attribute(0x40, 6, b""), 2)) + settle
    return text


def told(program, text):
    """What the home side says to the daemon, by messages, and the routes that it has told it at the end."""
    capture = ask(program, "capture", "--workers", "1", given=text.encode())
    shown = ask(program, "show", "--json", "--workers", "1", given=text.encode())
    if capture.returncode or shown.returncode:
        raise Slow(f"status {capture.returncode} and {shown.returncode}: {(capture.stdout or shown.stdout)[:80]!r}")
    reading = import_again.Reading(captures.read_capture(capture.stdout), LOCAL)
    octets = reading.said[0, False]
    session = next(it for it in json.loads(shown.stdout)["peerings"] if it["name"] == "d")
    routes = {it["prefix"]: (plain(it["attrs"]["path"]), it["attrs"]["origin"], it["attrs"]["med"]) for it in session["routes"]["told"]}
    return import_again.messages(octets)[0], routes


class Told(Speaker):
    """A speaker that says given messages."""

    def __init__(self, messages, hold):
        super().__init__(HOME_AS, HOME, hold, True, True)
        self.messages, self.open, self.said = messages, messages[0], []

    def say(self, octets):
        self.said.append(octets)
        super().say(octets)


class Silent:
    """The feed that a play has otherwise."""
    socket = None


def played(kind, messages, hold, count):
    """Says messages to a daemon, and returns its table of the home side and what was said to it."""
    with tempfile.TemporaryDirectory(dir="/tmp") as room, contextlib.ExitStack() as stack:
        os.chmod(room, 0o777)
        network = daemons.Network(stack)
        daemon = kind(network, room, stack, [], hold)
        home = Told(messages, hold)
        play = Play(daemon, network, stack, home)
        play.feed = Silent()
        play.daemon.load()
        play.open(home, HOME)
        rest = b"".join(messages[2:])
        for at in range(0, len(rest), 1000):
            home.say(rest[at : at + 1000])
            play.turn()

        def has_come():
            play.turn()
            with contextlib.suppress(ValueError, KeyError, OSError):
                return len(daemon.heard()) >= count
            return False
        with contextlib.suppress(Slow):
            until(has_come, "the routes", lambda: time.sleep(0.3), 40)
        end = time.monotonic() + 2
        while time.monotonic() < end:
            play.turn()
            time.sleep(0.05)
        return daemon.heard(), b"".join(home.said), daemon.version()


def one(program, kind, wide, hold):
    """Plays one case, and returns how many differences there were."""
    name = f"{kind.name}, {'wide' if wide else 'narrow'}, hold {hold}"
    try:
        messages, wanted = told(program, laboratory(kind.as_number, wide, hold))
        heard, said, version = played(kind, messages, hold, len(wanted))
    except (Slow, OSError) as fault:
        print(f"{name}: {fault}")
        return 1
    none = lambda routes: {prefix: (plain(path), origin, kind.no_med if med is None else med) for prefix, (path, origin, med) in routes.items()}
    heard, wanted = none(heard), none(wanted)
    differ = [prefix for prefix in sorted({*heard, *wanted}) if heard.get(prefix) != wanted.get(prefix)]
    for prefix in differ[:5]:
        print(f"{name}: {prefix}: it has {heard.get(prefix)}, told was {wanted.get(prefix)}")
    other = said[: sum(map(len, messages))] != b"".join(messages)
    print(f"{name}: {version}: Established; {len(messages)} messages, {len(said)} octets{', OTHERS THAN THOSE OF THE CAPTURE' if other else ''}; "
          f"{len(wanted)} routes told, {len(differ)} differ")
    return len(differ) + other


def main():
    words = argparse.ArgumentParser(usage=__doc__)
    words.add_argument("--only", type=lambda text: text.split(","), default=list(daemons.DAEMONS))
    words.add_argument("program")
    options = words.parse_args()
    daemons.require()
    signal.signal(signal.SIGTERM, lambda *_: sys.exit("stopped"))
    total = 0
    for name in options.only:
        kind = daemons.DAEMONS[name]
        for wide in (True, False):
            for hold in (90,) if kind is daemons.Gobgp else (90, 0):
                total += one(options.program, kind, wide, hold)
    print(f"{total} differences")
    return 1 if total else 0


if __name__ == "__main__":
    sys.exit(main())
