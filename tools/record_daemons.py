#!/usr/bin/env python3
"""Records sessions of real daemons of BGP with a home side that a script plays, for tools/recordings and `import_daemons.py`.

    tools/record_daemons.py [--only NAME,..] FOLDER

It must be run as root on Linux, with Debian's packages bird2, frr, gobgpd, exabgp, openbgpd, tcpdump and iproute2. Each daemon runs in a
network namespace (daemons.py), with the routes of daemon_routes.py, and has one session with the home side: once narrow, where the home
side's OPEN has no capability of four-octet AS numbers, and once wide, where it has. tcpdump takes the session from its SYN on. When nothing
has come for three seconds the feed withdraws some routes and changes others, and when nothing has come again the daemon's table of what it
told the home side is taken with its own tool (of ExaBGP: what it was configured with).

Written into FOLDER are NAME-WIDTH.pcap and NAME-WIDTH.json for each, and a line for each is printed: the daemon's version, and how many
routes its table has. A daemon that doesn't come so far is told, and the status is 1 then.
"""
import argparse
import contextlib
import json
import os
import shutil
import signal
import socket
import sys
import tempfile
import time

import daemons
from daemon_routes import FEED, FEED_AS, LATER, Speaker, own_routes
from daemons import FEED_AT, HOME, HOME_AS, Slow, until

QUIET = 3
WIDTHS = ("narrow", "wide")


class Play:
    """A daemon with its two neighbours."""

    def __init__(self, daemon, network, stack, home):
        self.daemon, self.network, self.stack = daemon, network, stack
        self.home, self.feed = home, Speaker(FEED_AS, FEED_AT, daemon.hold, True, True)
        self.listeners = {it: network.listener(it, stack) for it in (HOME, FEED_AT)} if daemon.active else {}

    def connection(self, address):
        """A connection with the daemon, which one of the two sides opens; or None."""
        if not self.daemon.active:
            return self.network.connect(address)
        with contextlib.suppress(BlockingIOError):
            return self.listeners[address].accept()[0]
        return None

    def turn(self):
        for speaker in (self.home, self.feed):
            if speaker.socket is not None:
                speaker.turn()

    def open(self, speaker, address):
        """Opens a session, and waits until it stands."""
        def tried():
            if speaker.socket is None and (connection := self.connection(address)) is not None:
                self.stack.callback(connection.close)
                speaker.attach(connection)
            self.turn()
            return speaker.stands
        until(tried, f"the session with {address}")

    def until_quiet(self):
        def heard():
            self.turn()
            return self.home.is_quiet(QUIET)
        until(heard, "what the daemon tells the home side")

    def begin(self):
        """Gives the daemon its routes: its own, and those of the feed."""
        self.daemon.load()
        if self.daemon.has_feed:
            self.open(self.feed, FEED_AT)
            self.feed.say(b"".join(FEED))

    def later(self):
        if self.daemon.has_feed:
            self.feed.say(b"".join(LATER))
            self.home.last = time.monotonic()
            self.until_quiet()


def recorded(kind, wide, folder, capture):
    """Plays a session, records it, and returns the daemon's version and its table."""
    with contextlib.ExitStack() as stack:
        network = daemons.Network(stack)
        daemon = kind(network, folder, stack, own_routes())
        # A home side without any capability takes part too, but where a daemon wants IPv4 unicast to be told.
        home = Speaker(HOME_AS, HOME, 90 if wide or kind is daemons.Gobgp else 0, wide, wide or kind not in (daemons.Bird, daemons.Frr))
        with contextlib.ExitStack() as tap:
            words = ["tcpdump", "-i", "to-remote", "-U", "-B", "65536", "-w", capture, f"tcp port 179 and host {HOME}"]
            network.start("home", words, tap, open(f"{folder}/tcpdump.log", "wb"))
            until(lambda: os.path.exists(capture), "the beginning of the capture")
            play = Play(daemon, network, stack, home)
            play.begin()
            play.open(home, HOME)
            play.until_quiet()
            play.later()
            # What tcpdump has in its buffer is to come out, too.
            time.sleep(2)
        return daemon.version(), daemon.table()


def table_lines(head, table):
    """A table as it is kept: a line on the daemon, and a line for each group of prefixes whose path, origin and MED are the same."""
    yield json.dumps(head) + "\n"
    groups = {}
    for prefix in sorted(table, key=lambda it: (socket.inet_aton(it.split("/")[0]), int(it.split("/")[1]))):
        groups.setdefault(json.dumps(table[prefix], separators=(",", ":")), []).append(prefix)
    for route, prefixes in groups.items():
        yield f'[{route},"{" ".join(prefixes)}"]\n'


def one(kind, width, folder):
    """Records a daemon in one width, and says how that ended."""
    name = f"{kind.name}-{width}"
    with tempfile.TemporaryDirectory(dir="/tmp") as room:
        # GoBGP and OpenBGPD give up rights, and have to come to their files.
        os.chmod(room, 0o755)
        try:
            version, table = recorded(kind, width == "wide", room, f"{room}/tap.pcap")
        except (Slow, OSError) as fault:
            print(f"{name}: {fault}")
            for log in sorted(os.listdir(room)):
                if log.endswith(".log"):
                    with open(f"{room}/{log}", errors="replace") as file:
                        print("".join(file.readlines()[-5:]), file=sys.stderr)
            return False
        shutil.copyfile(f"{room}/tap.pcap", f"{folder}/{name}.pcap")
    with open(f"{folder}/{name}.json", "w") as file:
        file.writelines(table_lines({"daemon": version, "home": None if kind.active else HOME, "no_med": kind.no_med}, table))
    print(f"{name}: {version}, {len(table)} routes, {os.path.getsize(f'{folder}/{name}.pcap')} octets")
    return True


def main():
    words = argparse.ArgumentParser(usage=__doc__)
    words.add_argument("--only", type=lambda text: text.split(","), default=list(daemons.DAEMONS))
    words.add_argument("folder")
    options = words.parse_args()
    daemons.require()
    signal.signal(signal.SIGTERM, lambda *_: sys.exit("stopped"))
    os.makedirs(options.folder, exist_ok=True)
    ended = [one(daemons.DAEMONS[name], width, options.folder) for name in options.only for width in WIDTHS]
    return 0 if all(ended) else 1


if __name__ == "__main__":
    sys.exit(main())
