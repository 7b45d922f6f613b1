#!/usr/bin/env python3
"""Replays journals against a world of its own, and says whether each is a run of its input: an auditor that shares no code with the program.

    audit_again.py [--report] FILE..
    audit_again.py [--report] --run PROGRAM [--workers W] LAB..

A FILE is what graftlab journal wrote; "-" is standard input. With --run each LAB is run by PROGRAM for its journal first, by W workers (1). A
line for each: the name, and

    audit yes events E quiet           each entry follows from the world before it, and in the last one nothing is left to do
    audit yes events E running         the same, and something is left to do
    audit no event I reason REASON     entry I, from 0, is the first at fault: order, kind, condition or clock, the first of these that it breaks
    bad input: shape journal[I]        the text has another form there; "shape journal" where no journal stands in it

Order: an entry is above the one before by clock and actor. Kind: the actor has a row of this number with such arguments (docs/EVENTS.md).
Condition: some world follows by the row. Clock: one above the actor's own, or the stamp of the item that it takes if that is greater; that of
a Go is one above all clocks, and sets all. Inputs are taken to be accepted ones (graftlab check); of another one "bad input" is said at most.
With --report the report of the last world follows, without its first line and its traces. The status is 0 where all are runs, 8 where one
isn't, 2 where one is no journal.
"""
import argparse
import re
import subprocess
import sys

from audit_routes import OWN, ROUTERS
from audit_session import Fails
from audit_setup import Setup
from audit_world import FarPart, OperatorPart, RouterPart, World
from bgp_choice import path_text

HEAD, END = b"%% journal 1\n", b"%% end\n"
NUMBER = rb"(0|[1-9]\d{0,19})"
LINE = re.compile(b" ".join([NUMBER] * 6) + b"\n")
LINES = re.compile(b"(?:" + LINE.pattern.replace(b"(", b"(?:") + b")+")
CHUNK = 1 << 15
MOST = (2**64, 2**16, 2**16, 2**32, 2**32, 2**32)
GO = 26
# The rows of each actor by their numbers, and how many arguments each has; the others are 0.
ROUTER_ROWS = {
    1: (RouterPart.put, 2),
    2: (RouterPart.emit, 3),
    3: (RouterPart.arrive, 1),
    4: (RouterPart.stray, 1),
    5: (RouterPart.got, 1),
    6: (RouterPart.decide, 2),
    7: (RouterPart.tell, 3),
    8: (RouterPart.hear, 1),
    9: (RouterPart.admit, 1),
    10: (RouterPart.refuse, 1),
    11: (RouterPart.freeze, 1),
    12: (RouterPart.leave, 1),
    13: (RouterPart.land, 1),
    14: (RouterPart.turn_back, 1),
    15: (RouterPart.give_back, 1),
    16: (RouterPart.clear, 1),
    31: (RouterPart.tick, 2),
    33: (RouterPart.confirm, 1),
    34: (RouterPart.ask, 2),
    35: (RouterPart.answer, 1),
    36: (RouterPart.collect, 1),
}
FAR_ROWS = {
    17: (FarPart.say, 1),
    18: (FarPart.emit, 2),
    19: (FarPart.take, 1),
    20: (FarPart.deliver_home, 3),
    21: (FarPart.reach, 2),
    22: (FarPart.lose, 2),
    23: (FarPart.point, 1),
    32: (FarPart.beat, 1),
}
OPERATOR_ROWS = {24: (OperatorPart.order, 2), 25: (OperatorPart.note, 1), GO: (OperatorPart.go, 0)}


def inward(world, own, p):
    return world.inward[p][own]


def mesh(world, own, q):
    return world.mesh_to[own][q]


def outward(world, own, r):
    return world.outward[r][own]


# The channel whose next item a row takes, by the number of its router or peering, and its first argument.
TAKES = {
    **dict.fromkeys((3, 4), inward),
    **dict.fromkeys((8, 13, 14, 15, 16, 35, 36), mesh),
    **dict.fromkeys((19, 23), outward),
    9: lambda world, own, _: world.orders[own],
    17: lambda world, own, _: world.says[own],
    25: lambda world, _, r: world.reports[r],
}


class BadInput(Exception):
    """A text that is no journal; its argument is the fault."""


def split_text(text):
    """The input and the lines of a journal's text: its last head divides it."""
    last = text.rfind(b"\n" + HEAD)
    if last >= 0:
        return text[:last], last + 1 + len(HEAD)
    if text.startswith(HEAD):
        return b"", len(HEAD)
    raise BadInput("shape journal")


def in_range(numbers):
    """Whether the numbers of entries, one after another, are in their ranges."""
    return all(max(numbers[field::6]) < most for field, most in enumerate(MOST))


def entries_from(text, at):
    """The entries of a journal, one by one, from where its first line stands."""
    number = 0
    # Many lines at once, as long as they are well formed; the others one by one.
    while True:
        end = text.rfind(b"\n", at, at + CHUNK) + 1
        if not LINES.fullmatch(text, at, max(at, end)):
            break
        numbers = list(map(int, text[at:end].split()))
        if not in_range(numbers):
            break
        yield from zip(*[iter(numbers)] * 6)
        at, number = end, number + len(numbers) // 6
    while found := LINE.match(text, at):
        entry = tuple(map(int, found.groups()))
        if not in_range(entry):
            raise BadInput(f"shape journal[{number}]")
        yield entry
        at, number = found.end(), number + 1
    if text[at:] != END:
        raise BadInput(f"shape journal[{number + text.startswith(END, at)}]")


def is_prefix(address, length):
    """Whether an address has no bit past a length of at most 32."""
    return length <= 32 and not address & ((1 << (32 - length)) - 1)


# What else the arguments of a row are: prefixes, flags and ways.
TESTS = {
    6: lambda address, length, _: is_prefix(address, length),
    7: lambda _, address, length: is_prefix(address, length),
    20: lambda _, keep, __: keep <= 1,
    21: lambda _, keep, __: keep <= 1,
    22: lambda way, _, __: way <= 1,
}


def is_of_row(kind, used, a, b, c):
    """Whether a row with so many arguments can have these."""
    if used < 3 and (c or (used < 2 and (b or (used < 1 and a)))):
        return False
    test = TESTS.get(kind)
    return test is None or test(a, b, c)


class Auditor:
    """A replay: the world, and the clock of each actor."""

    def __init__(self, setup):
        self.world = World(setup)
        actors = [(part, ROUTER_ROWS, number) for number, part in enumerate(self.world.routers)]
        actors += [(part, FAR_ROWS, number) for number, part in enumerate(self.world.fars)]
        self.actors = [*actors, (self.world.operator, OPERATOR_ROWS, None)]
        self.clocks = [0] * len(self.actors)
        self.before = (-1, -1)

    def next_clock(self, actor, kind, a):
        """The clock of an actor's next entry, if it is of this kind and has this first argument."""
        if kind == GO:
            return max(self.clocks) + 1
        stamp, (_, rows, own) = 0, self.actors[actor]
        if kind in TAKES and kind in rows:
            try:
                channel = TAKES[kind](self.world, own, a)
                stamp = channel[0][0] if channel else 0
            except IndexError:
                pass
        return max(self.clocks[actor], stamp) + 1

    def make(self, clock, actor, kind, a, b, c):
        """Changes the world by an entry, and answers None; or what it breaks, its clock aside."""
        part, rows, _ = self.actors[actor] if actor < len(self.actors) else (None, {}, None)
        row, used = rows.get(kind, (None, 0))
        if row is None or not is_of_row(kind, used, a, b, c):
            return "kind"
        self.world.now = clock
        try:
            row(part, a, b, c)
        except Fails:
            return "condition"
        self.clocks[actor] = clock
        if kind == GO:
            self.clocks = [clock] * len(self.clocks)
        return None

    def fault(self, clock, actor, kind, a, b, c):
        """Makes an entry of a journal, and answers None; or the first of what it breaks."""
        if (clock, actor) <= self.before:
            return "order"
        self.before = clock, actor
        right = self.next_clock(actor, kind, a) if actor < len(self.actors) else None
        return self.make(clock, actor, kind, a, b, c) or (None if clock == right else "clock")


def audit(text):
    """The answer to a journal, and the world behind it; None where it isn't a run."""
    document, at = split_text(text)
    try:
        setup = Setup(document)
    except (ValueError, KeyError, TypeError) as fault:
        raise BadInput(f"{type(fault).__name__} {fault}") from fault
    auditor, count = Auditor(setup), 0
    entries = entries_from(text, at)
    for entry in entries:
        fault = auditor.fault(*entry)
        if fault:
            # A text of another form isn't judged.
            collect_rest(entries)
            return f"audit no event {count} reason {fault}", None
        count += 1
    return f"audit yes events {count} {'quiet' if auditor.world.is_quiet() else 'running'}", auditor.world


def collect_rest(entries):
    """Reads entries to the end."""
    for _ in entries:
        pass


# ---- the report of a world


def prefix_text(prefix):
    address, length = prefix
    return ".".join(str(address >> shift & 255) for shift in (24, 16, 8, 0)) + f"/{length}"


def source_text(setup, source):
    if source == OWN:
        return "own"
    return f"router {setup.routers[source - ROUTERS].name}" if source >= ROUTERS else f"peering {setup.peerings[source].name}"


def session_of(world, p):
    """The session of a peering, and the name of the router that holds it; no name where none does."""
    for router in world.routers:
        if router.places[p].is_held():
            return router.places[p].session, router.own.name
    items = [item for channels in world.mesh_to for channel in channels for item in channel]
    return next(it for item in items for it in item if getattr(it, "peering", None) == world.setup.peerings[p]), None


def report_lines(world):
    """The report of a world, as far as it speaks of tables, sessions and grafts."""
    setup = world.setup
    for router in world.routers:
        yield f"router {router.own.name}"
        for prefix, (source, route) in sorted(router.best.items()):
            path = path_text(route.attributes.path)
            yield f"best {prefix_text(prefix)} {source_text(setup, source)} pref {route.pref} path {path}"
    for peering in setup.peerings:
        session, router = session_of(world, peering.number)
        place = f"at {router}" if router else "moving"
        yield f"peering {peering.name} {place} state {session.state} heard {len(session.heard)} told {len(session.told)}"
    for number, graft in sorted(setup.grafts.items()):
        entry = world.operator.log.get(number)
        if entry is None and graft.target is None:
            continue
        source = "-" if entry is None or entry.source is None else setup.routers[entry.source].name
        target = setup.routers[graft.target if entry is None else entry.target].name
        result = "waiting" if source == "-" else entry.outcome or "open"
        yield f"graft {number} {setup.peerings[graft.peering].name} {source} {target} {result}"


# ---- the program


def journal_of(program, lab, workers):
    """What a program writes as the journal of a laboratory, given as a path or as bytes."""
    if not isinstance(lab, bytes):
        with open(lab, "rb") as file:
            lab = file.read()
    return subprocess.run([program, "journal", "--workers", str(workers)], input=lab, capture_output=True, check=False).stdout


def read_text(name):
    if name == "-":
        return sys.stdin.buffer.read()
    with open(name, "rb") as file:
        return file.read()


def main():
    parser = argparse.ArgumentParser(description=__doc__, formatter_class=argparse.RawDescriptionHelpFormatter)
    parser.add_argument("--report", action="store_true")
    parser.add_argument("--run", metavar="PROGRAM")
    parser.add_argument("--workers", type=int, default=1)
    parser.add_argument("files", nargs="+", metavar="FILE")
    words = parser.parse_args()
    status = 0
    for name in words.files:
        text = journal_of(words.run, name, words.workers) if words.run else read_text(name)
        try:
            answer, world = audit(text)
        except BadInput as fault:
            answer, world = f"bad input: {fault}", None
            status = 2
        print(f"{name}: {answer}")
        if world is None:
            status = status or 8
        elif words.report:
            print("\n".join(report_lines(world)))
    sys.exit(status)


if __name__ == "__main__":
    main()
