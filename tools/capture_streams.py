#!/usr/bin/env python3
"""Captures runs by `graftlab capture`, and tests the captures with Wireshark's dissector and against what remotes say and receive.

    tools/capture_streams.py PROGRAM LAB.toml.. [--drills N] [--workers 1,2]

It needs Debian's package tshark. The laboratories are the files and those of the seeds 1 to N (`make`), each run by each number of workers; one
that can't be run yet is left out. Of each capture is tested:

    form      pcap 2.4 of IPv4 packets, whose times don't fall; all checksums, reckoned here
    tshark    no packet with a wrong checksum of IPv4 or TCP, none that is malformed or wasn't put together, and no error in a message of BGP
              (but of a laboratory whose remotes say raw octets)
    moves     each peering has one TCP conversation; where its session stands at the end there is one OPEN each way and no NOTIFICATION
    said      what goes to the home side, put together from tshark's fields, is octet by octet what the script has the remote say: its opening
              and its steps; of a remote with a timer but for its KEEPALIVEs; of a session that has closed, or a run that didn't settle, a
              beginning of it
    received  what goes to a remote are whole messages; as many messages and octets as `show` counts, and by the UPDATEs in them the remote has
              just the routes that `show` says it was told (by one worker, where a second run is the same one; else the routes alone, where
              `check` says that the answer is one)
    import    `import` of the capture has each remote say the same octets, and its text is that of import_again.py

A line for each laboratory tells its packets, peerings, octets and faults; each fault has a line. The status is 1 where there is one.
"""
import argparse
import collections
import json
import re
import struct
import subprocess
import sys
import tempfile
import tomllib

import bgp_reader
import captures
import import_again
from audit_setup import Setup
from bgp_reader import KEEPALIVE, NOTIFICATION, OPEN, UPDATE
from import_daemons import ask, plain
from shuffled_captures import said

CHECKED = ["-o", "tcp.check_checksum:TRUE", "-o", "ip.check_checksum:TRUE", "-o", "tcp.reassemble_out_of_order:TRUE"]
WRONG = "tcp.checksum.status == 0 || ip.checksum.status == 0 || _ws.malformed || _ws.unreassembled || bgp && _ws.expert.severity == error"
FIELDS = ["ip.src", "tcp.srcport", "ip.dst", "tcp.dstport", "tcp.stream", "tcp.seq_raw", "tcp.payload"]
ORIGINS = ["igp", "egp", "incomplete"]
PORT = "179"


def tshark(name, *words):
    return subprocess.run(["tshark", "-n", "-r", name, *CHECKED, *words], capture_output=True, text=True, check=True).stdout


def address_text(address):
    return ".".join(map(str, address.to_bytes(4, "big")))


class Conversations:
    """The TCP conversations of a capture by tshark's fields: of each remote their numbers, and what each of its ways has."""

    def __init__(self, name):
        self.numbers, parts, self.packets = collections.defaultdict(set), collections.defaultdict(dict), 0
        for line in tshark(name, "-T", "fields", *(word for field in FIELDS for word in ("-e", field))).splitlines():
            source, from_port, target, _, stream, number, octets = (line.split("\t") + [""])[:7]
            way = (target, "remote") if from_port == PORT else (source, "home")
            self.packets += 1
            self.numbers[way[0]].add(stream)
            if octets:
                known = parts[way].setdefault(int(number), b"")
                parts[way][int(number)] = max(known, bytes.fromhex(octets), key=len)
        self.parts = parts

    def stream(self, remote, way, first):
        """The octets of a way, put together from the number of the first one on, as far as none is missing."""
        octets = bytearray()
        for number in sorted(self.parts[remote, way], key=lambda it: (it - first) % 2**32):
            at, part = (number - first) % 2**32, self.parts[remote, way][number]
            if at <= len(octets) < at + len(part):
                octets += part[len(octets) - at :]
        return bytes(octets)


def checksum_faults(packets):
    """How many packets have a wrong checksum."""
    def is_wrong(octets):
        segment = octets[20:]
        pseudo = octets[12:20] + struct.pack(">HH", 6, len(segment))
        return captures.checksum(octets[:20]) != 0 or captures.checksum(pseudo + segment) != 0
    return sum(is_wrong(packet.octets) for packet in packets)


def routes_told(octets, wide):
    """The routes that messages announce and don't withdraw, as `show --json` has them."""
    routes = {}
    for message in import_again.messages(octets)[0]:
        if message[18] == UPDATE:
            gone, attributes, announced = bgp_reader.read_update(message[19:], wide)
            for prefix in gone:
                routes.pop(prefix, None)
            for prefix in announced:
                parts = bgp_reader.read_path(attributes[17] if 17 in attributes else attributes[2], wide or 17 in attributes)
                path = [it for kind, ases in parts for it in ([sorted(ases)] if kind == 1 else ases)]
                med = int.from_bytes(attributes[4], "big") if 4 in attributes else None
                routes[prefix] = path, ORIGINS[attributes[1][0]], med
    return {f"{address_text(address)}/{length}": route for (address, length), route in routes.items()}


def without_beats(octets):
    """Messages without the KEEPALIVEs behind the second one."""
    found, rest = import_again.messages(octets)
    return b"".join(found[:2]) + b"".join(it for it in found[2:] if it[18] != KEEPALIVE) + rest


class Case:
    """A laboratory and what one number of workers captures of it."""

    def __init__(self, program, text, workers):
        self.program, self.text, self.workers, self.faults = program, text, workers, []
        answer = ask(program, "capture", "--workers", workers, given=text)
        self.status, self.file = answer.returncode, answer.stdout
        self.setup = Setup(text)
        tables = tomllib.loads(text.decode()).get("peering", [])
        self.firsts = {it["remote_address"]: (it.get("home_seq", 1000), it.get("remote_seq", 5000)) for it in tables}
        self.has_raw = any("opening" in it for it in tables) or any(step.do == "raw" for step in self.setup.steps)

    def test(self, right, fault):
        if not right:
            self.faults.append(fault)

    def script(self, peering):
        """What the script has a remote say, its opening first."""
        return peering.opening + b"".join(step.octets for step in self.setup.steps if step.peering == peering.number and step.octets)

    def all(self):
        """Runs all tests, and returns how many octets were compared."""
        self.shown = json.loads(ask(self.program, "show", "--json", "--workers", self.workers, given=self.text).stdout)
        self.one = b"even yes sure yes" in ask(self.program, "check", given=self.text).stdout
        with tempfile.NamedTemporaryFile(suffix=".pcap") as kept:
            kept.write(self.file)
            kept.flush()
            self.form(kept.name)
            self.conversations = Conversations(kept.name)
        return sum(map(self.peering, self.setup.peerings)) + self.imported()

    def form(self, name):
        packets = captures.read_capture(self.file)
        self.test(self.file[:24] == captures.write_pcap([captures.Packet(captures.IPV4, b"")])[:24], "the header of the file is another one")
        self.test([it.time for it in packets] == sorted(it.time for it in packets), "times fall")
        self.test(checksum_faults(packets) == 0, f"{checksum_faults(packets)} packets have a wrong checksum")
        wrong = tshark(name, "-Y", WRONG).splitlines()
        wrong = [line for line in wrong if not self.has_raw or "BGP" not in line]
        self.test(not wrong, f"tshark: {len(wrong)} packets, {wrong[:1]}")

    def peering(self, peering):
        """Tests one peering, and returns how many octets its remote said and received."""
        remote = address_text(peering.remote_address)
        shown = next(it for it in self.shown["peerings"] if it["name"] == peering.name)
        home_first, remote_first = self.firsts[remote]
        to_home = self.conversations.stream(remote, "home", remote_first)
        to_remote = self.conversations.stream(remote, "remote", home_first)
        self.test(len(self.conversations.numbers[remote]) == 1, f"{peering.name}: {len(self.conversations.numbers[remote])} conversations")
        is_up = shown["session"]["state"] == "Established"
        wanted = self.script(peering)
        spoken = without_beats(to_home) if peering.beat else to_home
        if is_up and self.status == 0:
            self.test(spoken == wanted, f"{peering.name}: said {len(spoken)} octets, and is to say {len(wanted)}")
        else:
            self.test(wanted.startswith(spoken), f"{peering.name}: said others than it is to say")
        self.received(peering, shown, to_home, to_remote, is_up)
        return len(to_home) + len(to_remote)

    def received(self, peering, shown, to_home, to_remote, is_up):
        found, rest = import_again.messages(to_remote)
        kinds = collections.Counter(it[18] for it in found)
        self.test(not rest, f"{peering.name}: {len(rest)} octets behind the last whole message to it")
        self.test(kinds[OPEN] == 1, f"{peering.name}: {kinds[OPEN]} OPENs to it")
        if is_up:
            own = collections.Counter(it[18] for it in import_again.messages(to_home)[0])
            self.test(own[OPEN] == 1 and not own[NOTIFICATION] and not kinds[NOTIFICATION], f"{peering.name}: {own} from it, {kinds} to it")
        if self.status == 0 and is_up and (self.one or self.workers == "1"):
            wide = shown["session"]["as_octets"] == 4
            told = {it["prefix"]: (plain(it["attrs"]["path"]), it["attrs"]["origin"], it["attrs"]["med"]) for it in shown["routes"]["told"]}
            self.test(routes_told(to_remote, wide) == told, f"{peering.name}: has other routes than it was told")
        if self.workers == "1" and self.status == 0:
            counted = shown["session"]["sent"], shown["session"]["received"]
            wanted = [{"messages": len(it), "octets": len(b"".join(it))} for it in (found, import_again.messages(to_home)[0])]
            self.test(list(counted) == wanted or not is_up, f"{peering.name}: {wanted} captured, {counted} counted")

    def imported(self):
        """Tests that `import` has each remote say what it says in the capture."""
        answer = ask(self.program, "import", given=self.file)
        text = answer.stdout.decode()
        self.test((answer.returncode, text) == import_again.answer(self.file), f"import: {answer.returncode} {text[:60]!r}, otherwise than import_again.py")
        if answer.returncode:
            self.test(any(it.opening == b"" or self.has_raw for it in self.setup.peerings), f"import: {text.strip()}")
            return 0
        told = said(text)
        for peering in self.setup.peerings:
            remote = address_text(peering.remote_address)
            octets = self.conversations.stream(remote, "home", self.firsts[remote][1])
            self.test(told.get(remote, b"") == octets, f"import: {peering.name} says {len(told.get(remote, b''))} octets, and {len(octets)} in the capture")
        return sum(map(len, told.values()))


def laboratories(options):
    for name in options.labs:
        with open(name, "rb") as file:
            yield name.rpartition("/")[2], file.read()
    for seed in range(1, options.drills + 1):
        yield f"make {seed}", ask(options.program, "make", str(seed), given=b"").stdout


def main():
    words = argparse.ArgumentParser(usage=__doc__)
    words.add_argument("--drills", type=int, default=0)
    words.add_argument("--workers", type=lambda text: text.split(","), default=["1", "2"])
    words.add_argument("program")
    words.add_argument("labs", nargs="*")
    options = words.parse_args()
    total = 0
    for name, text in laboratories(options):
        for workers in options.workers:
            case = Case(options.program, text, workers)
            if case.status == 2:
                print(f"{name}: {case.file.decode().splitlines()[0]}")
                break
            octets = case.all()
            for fault in case.faults:
                print(f"{name} by {workers}: {fault}")
            total += len(case.faults)
            grafts = len(re.findall(rb'do = "(?:graft|evacuate)"', text))
            print(f"{name} by {workers}: status {case.status}, {case.conversations.packets} packets, {len(case.setup.peerings)} peerings, "
                  f"{grafts} steps that move, {octets} octets compared, {len(case.faults)} faults")
    print(f"{total} faults")
    return 1 if total else 0


if __name__ == "__main__":
    sys.exit(main())
