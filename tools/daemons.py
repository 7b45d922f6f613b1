"""Daemons of BGP as remotes: each in a network namespace of its own, with routes of its own and a feed, and a home side that a script plays.

BIRD, FRR and ExaBGP open their sessions themselves; GoBGP and OpenBGPD wait for them. No package is configured: each daemon has files of
its own, and no route goes to the kernel.
"""
import contextlib
import ctypes
import json
import os
import re
import socket
import subprocess
import sys
import time

from daemon_routes import FEED_AS, ORIGINS, PORT

NEW_NETWORK = 0x40000000
SECONDS = 180
REMOTE, HOME, FEED_AT = "192.0.2.1", "192.0.2.2", "192.0.2.3"
HOME_AS = 65000


class Slow(Exception):
    """What was waited for hasn't come."""


def until(condition, what, pause=lambda: time.sleep(0.05), seconds=SECONDS):
    end = time.monotonic() + seconds
    while not condition():
        if time.monotonic() > end:
            raise Slow(f"{what}: not in {seconds} s")
        pause()


def run(*words, check=True):
    return subprocess.run(words, check=check, capture_output=True, text=True)


class Network:
    """Two namespaces with a link between them: that of the daemon, and that of the home side and the feed."""

    def __init__(self, stack):
        self.names = {side: f"graftlab-{os.getpid()}-{side}" for side in ("remote", "home")}
        for name in self.names.values():
            stack.callback(run, "ip", "netns", "del", name, check=False)
            run("ip", "netns", "add", name)
            run("ip", "-n", name, "link", "set", "lo", "up")
        remote, home = self.names["remote"], self.names["home"]
        run("ip", "-n", remote, "link", "add", "name", "to-home", "type", "veth", "peer", "name", "to-remote", "netns", home)
        for name, link, addresses in ((remote, "to-home", [REMOTE]), (home, "to-remote", [HOME, FEED_AT])):
            for address in addresses:
                run("ip", "-n", name, "address", "add", f"{address}/24", "dev", link)
            run("ip", "-n", name, "link", "set", link, "up")

    def start(self, side, words, stack, output, environment=None):
        """A process in a namespace, which ends as the stack is closed."""
        process = subprocess.Popen(["ip", "netns", "exec", self.names[side], *words], stdout=output, stderr=output, env=environment)
        stack.callback(stop, process)
        return process

    @contextlib.contextmanager
    def within(self, side):
        """Sockets that are opened within are in this namespace."""
        library = ctypes.CDLL(None, use_errno=True)
        with open("/proc/thread-self/ns/net") as own, open(f"/run/netns/{self.names[side]}") as there:
            if library.setns(there.fileno(), NEW_NETWORK) != 0:
                raise OSError(ctypes.get_errno(), "setns")
            try:
                yield
            finally:
                library.setns(own.fileno(), NEW_NETWORK)

    def listener(self, address, stack):
        with self.within("home"):
            listener = stack.enter_context(socket.socket())
            listener.setsockopt(socket.SOL_SOCKET, socket.SO_REUSEADDR, 1)
            listener.bind((address, PORT))
        listener.listen()
        listener.setblocking(False)
        return listener

    def connect(self, address):
        """A connection to the daemon, once it takes one."""
        with self.within("home"):
            connection = socket.socket()
        connection.bind((address, 0))
        if connection.connect_ex((REMOTE, PORT)):
            connection.close()
            return None
        return connection


def stop(process):
    process.terminate()
    try:
        process.wait(10)
    except subprocess.TimeoutExpired:
        process.kill()
        process.wait()


class Daemon:
    """A daemon: its AS, whether it opens sessions itself, whether it has a feed, the hold time that it tells, and as what its tool shows no MED."""
    name, as_number, active, has_feed, hold, no_med, environment = "", 0, True, True, 90, None, None

    def __init__(self, network, folder, stack, routes, hold=None):
        self.network, self.folder, self.routes = network, folder, routes
        self.hold = self.hold if hold is None else hold
        self.log = stack.enter_context(open(f"{folder}/{self.name}.log", "wb"))
        self.file = f"{folder}/{self.name}.conf"
        with open(self.file, "w") as file:
            file.write("\n".join(self.configuration()) + "\n")
        environment = {**os.environ, **self.environment} if self.environment else None
        self.process = network.start("remote", self.words(), stack, self.log, environment)

    def ask(self, *words):
        """What a tool of the daemon says, in its namespace."""
        return run("ip", "netns", "exec", self.network.names["remote"], *words).stdout

    def load(self):
        """Gives it its own routes, where that isn't done by its file."""

    def ases(self, text):
        """A path as tools write it: numbers, and sets in braces or brackets."""
        parts = []
        for inside, number in re.findall(r"[{\[(]([^\]})]*)[\]})]|(\d+)", text):
            parts.append([int(word) for word in re.findall(r"\d+", inside)] if inside else int(number))
        return parts


class Bird(Daemon):
    name, as_number = "bird", 65001

    def configuration(self):
        yield f"router id {REMOTE}; protocol device {{}} protocol static own {{ ipv4;"
        for route in self.routes:
            values = [f"bgp_path.prepend({number});" for number in reversed(route.path)]
            values += [f"bgp_community.add(({it.replace(':', ',')}));" for it in route.communities]
            values += [f"bgp_med = {route.med};"] if route.med is not None else []
            yield f"  route {route.prefix} blackhole {{ {' '.join(values)} bgp_origin = ORIGIN_{route.origin.upper()}; }};"
        # A MED goes to another AS only where the filter of the session sets it.
        yield "} filter told { if defined(bgp_med) then bgp_med = bgp_med; accept; }"
        for name, address, number, export in (("home", HOME, HOME_AS, "filter told"), ("feed", FEED_AT, FEED_AS, "none")):
            yield f"protocol bgp {name} {{ local {REMOTE} as {self.as_number}; neighbor {address} as {number}; hold time {self.hold};"
            yield f"  connect delay time 1; connect retry time 1; error wait time 1, 2; ipv4 {{ import all; export {export}; }}; }}"

    def words(self):
        return ["bird", "-f", "-c", self.file, "-s", f"{self.folder}/bird.ctl", "-P", f"{self.folder}/bird.pid"]

    def version(self):
        return (lambda it: it.stdout + it.stderr)(run("bird", "--version")).strip()

    def table(self):
        """What it exports to the home side, to which it adds its own AS in front."""
        return {prefix: ([self.as_number, *path], origin, med) for prefix, (path, origin, med) in self.shown("export").items()}

    def heard(self):
        return self.shown("protocol")

    def shown(self, which):
        told = self.ask("birdc", "-s", f"{self.folder}/bird.ctl", "show", "route", which, "home", "all")
        routes = {}
        for part in re.split(r"\n(?=\d)", told):
            found = dict(re.findall(r"BGP\.(\w+): ?(.*)", part))
            if found:
                med = int(found["med"]) if "med" in found else None
                routes[part.split()[0]] = self.ases(found.get("as_path", "")), found["origin"].lower(), med
        return routes


class Frr(Daemon):
    name, as_number = "frr", 4200000002

    def configuration(self):
        # Maps stand in front of what uses them, and networks share them: else bgpd takes minutes to read them.
        maps = list(dict.fromkeys(map(self.map_of, self.routes)))
        yield "frr defaults traditional\nroute-map nothing deny 10"
        for number, lines in enumerate(maps):
            yield f"route-map m{number} permit 10\n{lines}"
        yield f"router bgp {self.as_number}\n bgp router-id {REMOTE}\n no bgp ebgp-requires-policy\n no bgp network import-check"
        for address, number in ((HOME, HOME_AS), (FEED_AT, FEED_AS)):
            yield f" neighbor {address} remote-as {number}\n neighbor {address} timers 30 {self.hold}\n neighbor {address} timers connect 1"
            yield f" neighbor {address} disable-connected-check"
        yield " address-family ipv4 unicast"
        for route in self.routes:
            yield f"  network {route.prefix} route-map m{maps.index(self.map_of(route))}"
        yield f"  neighbor {FEED_AT} route-map nothing out\n exit-address-family"

    @staticmethod
    def map_of(route):
        lines = [f" set origin {route.origin}"] + ([f" set as-path prepend {' '.join(map(str, route.path))}"] if route.path else [])
        lines += [f" set metric {route.med}"] if route.med is not None else []
        return "\n".join(lines + ([f" set community {' '.join(route.communities)}"] if route.communities else []))

    def words(self):
        return ["/usr/lib/frr/bgpd", "-f", self.file, "-i", f"{self.folder}/frr.pid", "-Z", "-S", "--vty_socket", self.folder, "-A", "127.0.0.1"]

    def version(self):
        return run("/usr/lib/frr/bgpd", "--version").stdout.splitlines()[0]

    def table(self):
        """What it says that it advertises, to which it adds its own AS in front."""
        told = self.shown("advertised-routes")["advertisedRoutes"]
        return {prefix: ([self.as_number, *path], origin, med) for prefix, (path, origin, med) in self.routes_of(told).items()}

    def heard(self):
        told = self.shown("routes").get("routes", {})
        return self.routes_of({prefix: routes[0] for prefix, routes in told.items()})

    def shown(self, what):
        command = f"show bgp ipv4 unicast neighbors {HOME} {what} json"
        return json.loads(self.ask("vtysh", "--vty_socket", self.folder, "-d", "bgpd", "-c", command) or "{}")

    def routes_of(self, told):
        origins = {"i": "igp", "e": "egp", "?": "incomplete", "IGP": "igp", "EGP": "egp", "incomplete": "incomplete"}
        return {prefix: (self.ases(it["path"]), origins[it.get("origin", it.get("bgpOriginCode"))], it.get("metric")) for prefix, it in told.items()}


class Gobgp(Daemon):
    name, as_number, active = "gobgp", 65003, False

    def configuration(self):
        yield f'[global.config]\n  as = {self.as_number}\n  router-id = "{REMOTE}"\n  local-address-list = ["{REMOTE}"]'
        for address, number in ((HOME, HOME_AS), (FEED_AT, FEED_AS)):
            yield f'[[neighbors]]\n  [neighbors.config]\n    neighbor-address = "{address}"\n    peer-as = {number}'
            yield f"  [neighbors.transport.config]\n    passive-mode = true\n  [neighbors.timers.config]\n    hold-time = {self.hold}"
            yield '  [[neighbors.afi-safis]]\n    [neighbors.afi-safis.config]\n      afi-safi-name = "ipv4-unicast"'

    def words(self):
        return ["gobgpd", "-f", self.file, "-t", "toml"]

    def version(self):
        return run("gobgpd", "--version").stdout.strip()

    def load(self):
        until(lambda: run("ip", "netns", "exec", self.network.names["remote"], "gobgp", "global", check=False).returncode == 0, "gobgp")
        for route in self.routes:
            words = ["origin", route.origin, "nexthop", REMOTE] + (["aspath", " ".join(map(str, route.path))] if route.path else [])
            words += ["med", str(route.med)] if route.med is not None else []
            words += ["community", ",".join(route.communities)] if route.communities else []
            self.ask("gobgp", "global", "rib", "-a", "ipv4", "add", route.prefix, *words)

    def table(self):
        """Its Adj-RIB-Out."""
        return self.shown("adj-out")

    def heard(self):
        return self.shown("adj-in")

    def shown(self, which):
        told = json.loads(self.ask("gobgp", "neighbor", HOME, which, "-a", "ipv4", "-j") or "[]")
        routes = {}
        for prefix, paths in told.items() if isinstance(told, dict) else ((it["nlri"]["prefix"], [it]) for it in told):
            attributes = {it["type"]: it for it in paths[0]["attrs"]}
            path = [part for it in attributes[2]["as_paths"] for part in ([it["asns"]] if it["segment_type"] == 1 else it["asns"])]
            routes[prefix] = path, ORIGINS[attributes[1]["value"]], attributes[4]["metric"] if 4 in attributes else None
        return routes


class Exabgp(Daemon):
    name, as_number, has_feed = "exabgp", 4200000004, False
    environment = {"exabgp.daemon.user": "root", "exabgp.daemon.drop": "false", "exabgp.log.level": "INFO", "exabgp.tcp.attempts": "0",
                   "exabgp.api.cli": "false"}

    def configuration(self):
        # What it hears goes to a process of its own, which keeps it in a file. Its standard output has to stay open.
        with open(f"{self.folder}/keep", "w") as script:
            script.write(f"#!/bin/sh\ncat > {self.folder}/heard\n")
        os.chmod(f"{self.folder}/keep", 0o755)
        yield f"process keep {{ run {self.folder}/keep; encoder json; }}"
        yield f"neighbor {HOME} {{ api {{ processes [ keep ]; receive {{ parsed; update; }} }}"
        yield f"  router-id {REMOTE}; local-address {REMOTE}; local-as {self.as_number}; peer-as {HOME_AS};"
        yield f"  hold-time {self.hold}; family {{ ipv4 unicast; }} announce {{ ipv4 {{"
        for route in self.routes:
            path = " ".join(map(str, [self.as_number, *route.path]))
            med = f"med {route.med}" if route.med is not None else ""
            communities = f"community [ {' '.join(route.communities)} ]" if route.communities else ""
            yield f"    unicast {route.prefix} next-hop self origin {route.origin} as-path [ {path} ] {med} {communities};"
        yield "} } }"

    def words(self):
        return ["exabgp", self.file]

    def version(self):
        return "ExaBGP " + re.search(r"ExaBGP *: *(\S+)", run("exabgp", "--version", check=False).stdout).group(1)

    def table(self):
        """What it was configured with."""
        return {route.prefix: ([self.as_number, *route.path], route.origin, route.med) for route in self.routes}

    def heard(self):
        """What it has heard, by the UPDATEs that it wrote as JSON."""
        routes = {}
        with open(f"{self.folder}/heard") as lines:
            for update in (json.loads(line)["neighbor"].get("message", {}).get("update", {}) for line in lines if line.endswith("\n")):
                attributes = update.get("attribute", {})
                for prefix in update.get("withdraw", {}).get("ipv4 unicast", []):
                    routes.pop(prefix["nlri"] if isinstance(prefix, dict) else prefix, None)
                for prefixes in update.get("announce", {}).get("ipv4 unicast", {}).values():
                    for prefix in prefixes:
                        routes[prefix["nlri"]] = self.path_of(attributes), attributes["origin"], attributes.get("med")
        return routes

    @staticmethod
    def path_of(attributes):
        """A path, of which it has sequence and set apart: the set is taken to come last."""
        sequence, a_set = attributes.get("as-path", []), attributes.get("as-set", [])
        return sequence + ([a_set] if a_set else [])


class Openbgpd(Daemon):
    name, as_number, active, no_med = "openbgpd", 65005, False, 0

    def configuration(self):
        yield f'AS {self.as_number}\nrouter-id {REMOTE}\nlisten on {REMOTE}\nfib-update no\nsocket "{self.folder}/openbgpd.sock"'
        for route in self.routes:
            # Of a path it can only repeat its own AS.
            own = f"prepend-self {min(len(route.path), 20)}" if route.path else ""
            med = f"metric {route.med}" if route.med is not None else ""
            yield f"network {route.prefix} set {{ origin {route.origin} {own} {med} {' '.join('community ' + it for it in route.communities)} }}"
        for address, number in ((HOME, HOME_AS), (FEED_AT, FEED_AS)):
            # It can't be told to tell none; where its neighbour tells none there is none.
            yield f"neighbor {address} {{\n remote-as {number}\n passive\n holdtime {self.hold or 90}\n announce IPv4 unicast\n}}"
        yield f"allow from any\nallow to {HOME}\ndeny to {FEED_AT}"

    def words(self):
        # Where no package has begun the daemon yet, the folder that it makes its root isn't there.
        os.makedirs("/run/openbgpd", exist_ok=True)
        return ["bgpd", "-d", "-f", self.file]

    def version(self):
        return run("dpkg-query", "-W", "-f", "OpenBGPD ${Version}", "openbgpd").stdout.strip()

    def table(self):
        """Its Adj-RIB-Out, in which routes of the feed have the MED with which they came: it doesn't go to another AS (RFC 4271, section 5.1.4)."""
        return {prefix: (path, origin, self.no_med if FEED_AS in path else med) for prefix, (path, origin, med) in self.shown("out").items()}

    def heard(self):
        return self.shown("in")

    def shown(self, which):
        told = self.ask("bgpctl", "-j", "-s", f"{self.folder}/openbgpd.sock", "show", "rib", which, "neighbor", HOME)
        return {it["prefix"]: (self.ases(it["aspath"]), it["origin"].lower(), it.get("metric")) for it in json.loads(told or '{"rib": []}')["rib"]}


DAEMONS = {it.name: it for it in (Bird, Frr, Gobgp, Exabgp, Openbgpd)}


def require():
    """Ends where the daemons can't be run."""
    needed = ["bird", "/usr/lib/frr/bgpd", "vtysh", "gobgpd", "gobgp", "exabgp", "bgpd", "bgpctl", "tcpdump", "ip"]
    missing = [word for word in needed if run("sh", "-c", f"command -v {word}", check=False).returncode]
    if os.geteuid() != 0 or missing:
        sys.exit(f"it must be run as root, with Debian's bird2, frr, gobgpd, exabgp, openbgpd, tcpdump and iproute2; missing: {' '.join(missing)}")
