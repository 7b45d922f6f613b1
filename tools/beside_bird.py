#!/usr/bin/env python3
"""Measures processor time beside BIRD 2, whose routers have the same remotes and moves but reset the sessions, for docs/MEASURED.md.

    beside_bird.py PROGRAM [--runs N] [--prefixes 500,1000,2000,4000]

It must be run as root, on Linux with network namespaces, with Debian's packages bird2 and iproute2. No package is configured: the daemons
have files and namespaces of their own, which are removed at the end, however that comes.

The laboratory is that of scaled_labs.py: 4 routers, 12 remotes, 20 moves. In turns, N times for each number of prefixes (40 where no other
number is named), it is played to four BIRD daemons that are started anew (bird_routers.py), and run by PROGRAM run with one worker. The 12
remotes are this script: from an address of its own each connects to the router that holds its session, says an OPEN, a KEEPALIVE and the
UPDATEs of the laboratory's steps, and reads what it is told. A move is what an operator without grafting has: the session is disabled at
its router, the remote hears of it and connects to the target, where a session that was prepared is enabled, and says again all that it said
before. Behind each move it is waited until every remote has been told every best route again, as a reading of the script says, so that the
wait costs the daemons nothing. But where nothing has come for a while one remote of each router says a KEEPALIVE more: BIRD 2.0 may sleep
for three seconds over what it has to say, and wakes by what comes. At the end each daemon's number of routes is compared with that reading.

Compared: the processor time of PROGRAM from its start to its end, reading and report included, and that of the four daemons together, from
when their sessions with each other stand to when they sleep behind the last move. Both are what Linux counts for the processes, in user and
system mode. Each daemon, and each run, is bound to one processor. A table in Markdown is printed: least, median and most, the growth of the
median a doubling, and PROGRAM's share of BIRD's; and whether something else ran meanwhile.

Not the same on both sides: PROGRAM also plays the remotes, their endpoints, lossy links and what TCP does, and keeps a journal; it makes
all moves in one group, side by side. BIRD's sessions are TCP of the kernel, over links that lose nothing, and part of what TCP does is
counted for the process at the other end, which for sessions with remotes is this script. BIRD has real messages between routers and a
control socket by which sessions are disabled and enabled, and its moves come one after the other. Memory and wall time are not compared.
"""
import argparse
import contextlib
import math
import os
import selectors
import shutil
import signal
import socket
import statistics
import struct
import subprocess
import sys
import tempfile
import tomllib

import bird_routers
import measuring
import scaled_labs
from bgp_reader import AS_PATH, KEEPALIVE, NEXT_HOP, OPEN, ORIGIN, SEQUENCE, TRANSITIVE, Route, Session
from bird_routers import Quiet, Slow, until
from hostile_says import attribute, message, update

IGP = 0
PORT = 179
# A turn ends when nothing has come for so many seconds; after so many such turns a KEEPALIVE wakes the daemons.
PAUSE, PATIENCE = 0.01, 20


def octets(address):
    return socket.inet_aton(address)


def prefix_of(text):
    address, length = text.split("/")
    return int.from_bytes(octets(address), "big"), int(length)


def path_octets(path):
    return bytes([SEQUENCE, len(path)]) + b"".join(number.to_bytes(2, "big") for number in path)


class Remote:
    """A remote: what it says, the router that it is to connect to, and what it heard on the session."""

    def __init__(self, peering, router, network, selector):
        self.name, self.address, self.as_number = peering["name"], peering["remote_address"], peering["remote_as"]
        self.hold = peering.get("hold", 180)
        self.router, self.network, self.selector = router, network, selector
        self.socket = self.session = None
        self.said, self.paths = [], {}

    def announce(self, step, home_as):
        """Says an UPDATE as the step has it, now or once the session stands."""
        prefixes = [prefix_of(text) for text in step["prefixes"]]
        values = {ORIGIN: bytes([IGP]), AS_PATH: path_octets(step["path"]), NEXT_HOP: octets(self.address)}
        self.said.append(update(b"".join(attribute(TRANSITIVE, kind, value) for kind, value in values.items()), prefixes))
        route = Route(IGP, ((SEQUENCE, (home_as, *step["path"])),), 0)
        self.paths.update((prefix, route) for prefix in prefixes)
        if self.stands():
            self.socket.sendall(self.said[-1])

    def stands(self):
        return self.session is not None and self.session.state == "Established"

    def connect(self, home_as):
        """Opens the session; where the router doesn't take it yet, the next turn tries again."""
        with self.network.among_remotes():
            self.socket = socket.socket()
        self.session = Session(home_as)
        try:
            self.socket.bind((self.address, 0))
            self.socket.connect((bird_routers.session_address(self.router), PORT))
            self.socket.sendall(message(OPEN, struct.pack(">BHH", 4, self.as_number, self.hold) + octets(self.address) + b"\0"))
        except OSError:
            self.close()
        else:
            self.selector.register(self.socket, selectors.EVENT_READ, self)

    def hear(self):
        """Reads what has come, and answers it."""
        before = self.session.state
        try:
            came = self.socket.recv(1 << 20)
            self.session.hear(came)
            if before == "OpenSent" != self.session.state and came:
                self.socket.sendall(message(KEEPALIVE))
            if before != "Established" == self.session.state:
                self.socket.sendall(b"".join(self.said))
        except OSError:
            came = b""
        if self.session.fault:
            raise Slow(f"what {self.name} heard is faulty: {self.session.fault}")
        if not came or self.session.state == "Closed":
            self.close()

    def close(self):
        if self.socket is not None:
            with contextlib.suppress(KeyError):
                self.selector.unregister(self.socket)
            self.socket.close()
        self.socket = self.session = None


class Play:
    """A laboratory that is played to the daemons."""

    def __init__(self, document, network, routers, stack):
        self.home_as, self.steps, self.routers = document["home_as"], document["step"], routers
        self.numbers = {router["name"]: number for number, router in enumerate(document["router"])}
        self.selector = selectors.DefaultSelector()
        stack.callback(self.selector.close)
        self.remotes = {it["name"]: Remote(it, self.numbers[it["at"]], network, self.selector) for it in document["peering"]}
        for remote in self.remotes.values():
            stack.callback(remote.close)
        self.empty_turns = 0

    def bests(self):
        """Of each prefix the remote whose path is shortest."""
        found = {}
        for remote in self.remotes.values():
            for prefix, route in remote.paths.items():
                if prefix not in found or len(route.path[0][1]) < len(found[prefix].paths[prefix].path[0][1]):
                    found[prefix] = remote
        return found

    def turn(self):
        """Opens sessions that aren't open, and hears all that comes until nothing has come for a while."""
        for remote in self.remotes.values():
            if remote.router is not None and remote.socket is None:
                remote.connect(self.home_as)
        self.empty_turns += 1
        while ready := self.selector.select(PAUSE):
            self.empty_turns = 0
            for key, _ in ready:
                key.data.hear()
        if self.empty_turns == PATIENCE:
            self.wake()

    def wake(self):
        """Has one remote of each router say a KEEPALIVE."""
        self.empty_turns = 0
        for remote in {it.router: it for it in self.remotes.values() if it.stands()}.values():
            remote.socket.sendall(message(KEEPALIVE))

    def until_all_told(self, what):
        """Waits until each remote was told each best route but its own, on its session."""
        bests = self.bests()
        for remote in self.remotes.values():
            wanted = {prefix: best.paths[prefix] for prefix, best in bests.items() if best is not remote}
            until(lambda: remote.stands() and remote.session.heard == wanted, f"routes to {remote.name} {what}", self.turn)

    def move(self, remote, target):
        """Resets a session at another router."""
        source, remote.router = remote.router, None
        self.routers[source].ask(f"disable {remote.name}")
        until(lambda: remote.socket is None, f"the end of {remote.name}", self.turn)
        self.routers[target].ask(f"enable {remote.name}")
        remote.router = target
        self.until_all_told(f"behind its move to router {target}")

    def all_steps(self):
        for step in self.steps:
            if step["do"] == "announce":
                self.remotes[step["peering"]].announce(step, self.home_as)
            elif step["do"] == "graft":
                self.move(self.remotes[step["peering"]], self.numbers[step["to"]])
            elif step["do"] == "settle":
                self.until_all_told("of a group")
                until(Quiet(self.routers), "sleep of the daemons", bird_routers.doze)
            else:
                raise Slow(f"a step {step['do']} can't be played")

    def wrong_counts(self):
        """The routers that don't have the routes they are to: those of their own sessions, and the best of others."""
        bests = self.bests()
        for number, router in enumerate(self.routers):
            own = sum(len(remote.paths) for remote in self.remotes.values() if remote.router == number)
            others = sum(best.router != number for best in bests.values())
            if router.counts() != (own + others, len(bests)):
                yield f"router {number} has {router.counts()}, and not {(own + others, len(bests))}, routes and networks"


def played(document, network, processors):
    """The processor time that the daemons take for the laboratory."""
    with tempfile.TemporaryDirectory() as folder, contextlib.ExitStack() as stack:
        routers = [bird_routers.Router(network, number, document, folder, processors[number % len(processors)], stack)
                   for number in range(len(network.routers))]
        play = Play(document, network, routers, stack)
        until(lambda: all(router.is_meshed() for router in routers), "the sessions between routers", bird_routers.doze)
        until(Quiet(routers), "sleep of the daemons", bird_routers.doze)
        before = sum(router.used() for router in routers)
        play.all_steps()
        after = sum(router.used() for router in routers)
        for line in play.wrong_counts():
            raise Slow(line)
        return after - before


def measured(options, texts, network):
    """Seconds of processor time for each number of prefixes: those of BIRD, and those of the program."""
    processors = sorted(os.sched_getaffinity(0))
    taken = {count: ([], []) for count in texts}
    for number in range(options.runs):
        print(f"{number + 1} of {options.runs}", file=sys.stderr)
        for count, text in texts.items():
            bird, ours = taken[count]
            bird.append(played(tomllib.loads(text), network, processors))
            ours.append(measuring.graftlab(options.program, text.encode(), 1, processors[number % len(processors)]).processor)
    return taken


def milliseconds(values):
    return ", ".join(f"{1000 * value:.0f}" for value in (min(values), statistics.median(values), max(values)))


def growth(values, before, times):
    """How many times as much the median is, a doubling."""
    return f"{(statistics.median(values) / statistics.median(before)) ** (1 / math.log2(times)):.2f}"


def print_table(taken):
    heads = ["Prefixes", "Four BIRD daemons, ms: least, median, most", "A doubling", "`run`, ms: least, median, most", "A doubling",
             "Beside BIRD: least, median"]
    print("| " + " | ".join(heads) + " |\n|" + " --- |" * len(heads))
    previous = None
    for count, (bird, ours) in taken.items():
        pairs = [] if previous is None else zip((bird, ours), taken[previous])
        grown = [growth(now, before, count / previous) for now, before in pairs] or ["", ""]
        share = f"{min(ours) / min(bird):.2f}, {statistics.median(ours) / statistics.median(bird):.2f}"
        print(f"| {count:,} | {milliseconds(bird)} | {grown[0]} | {milliseconds(ours)} | {grown[1]} | {share} |")
        previous = count


def stop(*_):
    sys.exit("stopped")


def main():
    words = argparse.ArgumentParser(description=__doc__, formatter_class=argparse.RawDescriptionHelpFormatter)
    words.add_argument("--runs", type=int, default=40)
    words.add_argument("--prefixes", type=lambda text: [int(word) for word in text.split(",")], default=[500, 1000, 2000, 4000])
    words.add_argument("program")
    options = words.parse_args()
    if os.geteuid() != 0 or not shutil.which("bird") or not shutil.which("ip"):
        sys.exit("it must be run as root, with bird2 and iproute2")
    version = subprocess.run(["bird", "--version"], capture_output=True, text=True, check=True)
    texts = {count: "".join(scaled_labs.text(count, 7)) for count in options.prefixes}
    for number in (signal.SIGTERM, signal.SIGHUP):
        signal.signal(number, stop)
    meanwhile = measuring.Meanwhile()
    stack = contextlib.ExitStack()
    try:
        remotes = [peering["remote_address"] for peering in tomllib.loads(texts[options.prefixes[0]])["peering"]]
        network = bird_routers.Network(scaled_labs.ROUTERS, remotes, stack)
        taken = measured(options, texts, network)
    except Slow as slow:
        sys.exit(str(slow))
    finally:
        for number in (signal.SIGTERM, signal.SIGHUP, signal.SIGINT):
            signal.signal(number, signal.SIG_IGN)
        stack.close()
    print_table(taken)
    print(f"\n{(version.stdout + version.stderr).strip()}; {options.runs} runs of each, by turns. {meanwhile.told()}")


if __name__ == "__main__":
    main()
