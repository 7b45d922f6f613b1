"""BIRD 2 daemons as the routers of a home network: each in a network namespace of its own, and one more namespace for all remotes.

Every two routers have a link (veth) and speak IBGP over it, each as its own next hop, without route reflection. Each router has a link to
the remotes' namespace, whose addresses are the same at every router, and a passive session for every remote, of which those that it doesn't
hold yet are disabled. Hold times are 0, so no KEEPALIVE is sent beside that of the opening. No route goes to the kernel.
"""
import contextlib
import ctypes
import os
import re
import socket
import subprocess
import time

NEW_NETWORK = 0x40000000
SECONDS = 120


class Slow(Exception):
    """What was waited for hasn't come."""


def until(condition, what, pause):
    """Waits for a condition."""
    end = time.monotonic() + SECONDS
    while not condition():
        if time.monotonic() > end:
            raise Slow(f"{what}: not in {SECONDS} s")
        pause()


def doze():
    time.sleep(0.1)


def run(*words, check=True):
    return subprocess.run(words, check=check, capture_output=True, text=True)


def session_address(router):
    """The address of a router on its link to the remotes."""
    return f"192.0.2.{201 + router}"


class Network:
    """The namespaces of the routers and of their remotes. What it makes is removed as the stack is closed."""

    def __init__(self, routers, remotes, stack):
        self.links = {pair: number for number, pair in enumerate((a, b) for b in range(routers) for a in range(b))}
        self.remotes = f"graftlab-{os.getpid()}-remotes"
        self.routers = [f"graftlab-{os.getpid()}-r{router}" for router in range(routers)]
        for name in [*self.routers, self.remotes]:
            stack.callback(run, "ip", "netns", "del", name, check=False)
            run("ip", "netns", "add", name)
            run("ip", "-n", name, "link", "set", "lo", "up")
        for (a, b) in self.links:
            self.join(self.routers[a], f"to-r{b}", self.address(a, b) + "/30", self.routers[b], f"to-r{a}", self.address(b, a) + "/30")
        for address in remotes:
            run("ip", "-n", self.remotes, "address", "add", f"{address}/32", "dev", "lo")
        for router, name in enumerate(self.routers):
            self.join(name, "to-remotes", session_address(router) + "/24", self.remotes, f"to-r{router}", None)
            run("ip", "-n", self.remotes, "route", "add", session_address(router), "dev", f"to-r{router}")

    @staticmethod
    def join(left, left_link, left_address, right, right_link, right_address):
        """A link between two namespaces."""
        run("ip", "-n", left, "link", "add", "name", left_link, "type", "veth", "peer", "name", right_link, "netns", right)
        for name, link, address in ((left, left_link, left_address), (right, right_link, right_address)):
            if address is not None:
                run("ip", "-n", name, "address", "add", address, "dev", link)
            run("ip", "-n", name, "link", "set", link, "up")

    def address(self, router, other):
        """The address of a router on its link to another."""
        number = self.links[min(router, other), max(router, other)]
        return f"198.18.{number}.{1 if router < other else 2}"

    @contextlib.contextmanager
    def among_remotes(self):
        """Sockets that are opened within are in the remotes' namespace."""
        library = ctypes.CDLL(None, use_errno=True)
        with open("/proc/thread-self/ns/net") as home, open(f"/run/netns/{self.remotes}") as there:
            if library.setns(there.fileno(), NEW_NETWORK) != 0:
                raise OSError(ctypes.get_errno(), "setns")
            try:
                yield
            finally:
                library.setns(home.fileno(), NEW_NETWORK)


def configuration(network, router, document, folder):
    """What a daemon is told: the sessions with other routers, and one with each remote of the laboratory."""
    home = document["home_as"]
    yield f'log "{folder}/r{router}.log" {{ warning, error, auth, fatal, bug }};'
    yield f"router id {document['router'][router]['id']};"
    yield "protocol device {}"
    yield "template bgp plain { hold time 0; connect delay time 1; connect retry time 1; "
    yield "  ipv4 { import all; export all; next hop self; }; }"
    for other in range(len(network.routers)):
        if other != router:
            yield f"protocol bgp mesh{other} from plain {{ direct; {'passive;' if router > other else ''}"
            yield f"  local {network.address(router, other)} as {home}; neighbor {network.address(other, router)} as {home}; }}"
    for peering in document["peering"]:
        away = peering["at"] != document["router"][router]["name"]
        yield f"protocol bgp {peering['name']} from plain {{ passive; {'disabled;' if away else ''}"
        yield f"  local {session_address(router)} as {home}; neighbor {peering['remote_address']} as {peering['remote_as']}; }}"


class Router:
    """A daemon that is bound to one processor. It ends as the stack is closed."""

    def __init__(self, network, router, document, folder, processor, stack):
        path = f"{folder}/r{router}"
        with open(f"{path}.conf", "w") as file:
            file.write("\n".join(configuration(network, router, document, folder)) + "\n")
        files = ["-c", f"{path}.conf", "-s", f"{path}.ctl", "-P", f"{path}.pid"]
        words = ["ip", "netns", "exec", network.routers[router], "bird", "-f", *files]
        self.process = subprocess.Popen(words, preexec_fn=lambda: os.sched_setaffinity(0, {processor}))
        stack.callback(self.stop)
        self.peers = len(network.routers) - 1
        self.control = socket.socket(socket.AF_UNIX)
        stack.callback(self.control.close)
        until(lambda: self.control.connect_ex(f"{path}.ctl") == 0, f"the control socket of router {router}", doze)
        self.answer()

    def answer(self):
        """What BIRD says on its control socket, up to the line that ends it."""
        told = b""
        while not re.search(rb"^\d{4} .*\n\Z", told, re.MULTILINE):
            more = self.control.recv(65536)
            if not more:
                raise Slow("BIRD has closed its control socket")
            told += more
        return told.decode()

    def ask(self, command):
        self.control.sendall(command.encode() + b"\n")
        return self.answer()

    def is_meshed(self):
        return len(re.findall(r"\bmesh\d+ .*\bEstablished\b", self.ask("show protocols"))) == self.peers

    def counts(self):
        """How many routes it has, and to how many networks."""
        told = self.ask("show route count table master4")
        return tuple(map(int, re.search(r"of (\d+) routes for (\d+) networks", told).groups()))

    def used(self):
        """Seconds of processor time: what /proc/PID/stat tells as utime and stime, to the nanosecond."""
        with open(f"/proc/{self.process.pid}/schedstat") as file:
            return int(file.read().split()[0]) / 1e9

    def sleeps(self):
        with open(f"/proc/{self.process.pid}/stat") as file:
            return file.read().rpartition(")")[2].split()[0] == "S"

    def stop(self):
        self.process.terminate()
        try:
            self.process.wait(10)
        except subprocess.TimeoutExpired:
            self.process.kill()
            self.process.wait()


class Quiet:
    """Whether daemons have had nothing to do for three tenths of a second: they sleep, and have taken no processor time."""

    def __init__(self, routers):
        self.routers = routers
        self.used = []

    def __call__(self):
        now = [router.used() for router in self.routers]
        self.used = [*self.used, now if all(router.sleeps() for router in self.routers) else None][-4:]
        return len(self.used) == 4 and self.used[0] is not None and all(it == self.used[0] for it in self.used)
